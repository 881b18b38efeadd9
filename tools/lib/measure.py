#!/usr/bin/env python3
"""Runs a program and prints what it answered and what it cost, as JSON.

    tools/lib/measure.py SECONDS PROGRAM WORD...

The program is stopped after SECONDS of elapsed time (0: no limit). The list that is printed has its exit
status (null if it was stopped), its standard output, its standard error, the seconds of processor time that it
took, and its peak memory in MB.

This is a script of its own, and imports little, since the peak of a process is at least that of the process
that started it.
"""
import json
import os
import sys
import tempfile
import time


def waited(child, until):
    """The exit status of the child, None if it was stopped, and the resources that it used."""
    while True:
        done, status, used = os.wait4(child, os.WNOHANG if until else 0)
        if done:
            return os.waitstatus_to_exitcode(status), used
        if time.monotonic() > until:
            os.kill(child, 9)
            return None, os.wait4(child, 0)[2]
        time.sleep(0.002)


def main():
    if len(sys.argv) < 3:
        print(__doc__)
        return
    most, *words = sys.argv[1:]
    with tempfile.TemporaryFile() as output, tempfile.TemporaryFile() as errors:
        streams = [(os.POSIX_SPAWN_DUP2, output.fileno(), 1), (os.POSIX_SPAWN_DUP2, errors.fileno(), 2)]
        child = os.posix_spawn(words[0], words, os.environ, file_actions=streams)
        status, used = waited(child, float(most) and time.monotonic() + float(most))
        texts = [(stream.seek(0), stream.read().decode("latin-1"))[1] for stream in (output, errors)]
    print(json.dumps([status, *texts, used.ru_utime + used.ru_stime, used.ru_maxrss / 1024]))


if __name__ == "__main__":
    main()
