"""The standard streams of a run: files, pipes, outputs that fail, and terminals; and what is shown of its progress."""
import os
import pty
import re
import subprocess
import tempfile


def closed(opened, *_):
    """What a program with a closed standard output is given: it is run by a shell that closes it."""
    return None


def full(opened, *_):
    return opened.enter_context(open("/dev/full", "wb"))


def room(opened, *_):
    """A file, of which a limit says how many bytes it takes."""
    return opened.enter_context(tempfile.TemporaryFile())


def broken(opened, *_):
    """A pipe that nobody reads."""
    reader, writer = os.pipe()
    os.close(reader)
    opened.callback(os.close, writer)
    return writer


OUTPUTS = {"closed": closed, "full": full, "broken": broken, "room": room}


def streams(run, folder, settings, opened):
    """The three streams of a run; `PIPE` in its settings is that standard input is a pipe."""
    found = {"stdin": subprocess.DEVNULL, "stdout": subprocess.PIPE, "stderr": subprocess.PIPE}
    if "input" in run.more:
        file = opened.enter_context(open(os.path.join(folder, run.more["input"][0]), "rb"))
        found["stdin"] = file
        if settings.pop("PIPE", None):
            found["stdin"] = subprocess.PIPE
            found["input"] = file.read()
    for key, stream in (("output", "stdout"), ("errors", "stderr")):
        if key in run.more:
            kind, *size = run.more[key]
            found[stream] = OUTPUTS[kind](opened)
            found["room"] = int(size[0]) if size else None
    if "terminal" in run.more:
        settings["TERM"] = run.more["terminal"][0]
        found["master"], found["stderr"] = pty.openpty()
    return found


def run(words, folder, settings, found):
    """What a program prints, and its exit status."""
    given, master, most = found.pop("input", None), found.pop("master", None), found.pop("room", None)
    if most is not None:
        # Python ignores SIGXFSZ, and so does the program, if signals aren't restored.
        found["restore_signals"] = False
        words = ["sh", "-c", 'exec prlimit --fsize="$0": "$@"', str(most), *words]
    if found["stdout"] is None:
        words = ["sh", "-c", 'exec "$0" "$@" >&-', *words]
    with subprocess.Popen(words, cwd=folder, env=settings, **found) as ran:
        if master is not None:
            os.close(found["stderr"])
            shown = read_terminal(master)
        try:
            out, err = ran.communicate(given, timeout=60)
        except subprocess.TimeoutExpired:
            ran.kill()
            raise
    out, err = (written(found[name], text) for name, text in (("stdout", out), ("stderr", err)))
    return out, err if master is None else shown, ran.returncode


def written(stream, text):
    """What was written to a stream that is a file of this module, or what came through a pipe."""
    if hasattr(stream, "readable") and stream.readable():
        stream.seek(0)
        return stream.read()
    return text or b""


def read_terminal(master):
    """All that is shown on a terminal until its other end is closed."""
    shown = b""
    try:
        while piece := os.read(master, 65_536):
            shown += piece
    except OSError:
        pass  # the other end is closed
    os.close(master)
    return shown


def wrong_megabytes(run, shown):
    """A line if other megabytes of a file were shown than these."""
    name, *wanted = run.more["megabytes"]
    found = re.findall(r"\rlvl: %s (\d+) MB" % re.escape(name), shown.decode())
    if found != wanted:
        yield "    megabytes of %s: wanted %s, printed %r" % (name, wanted, shown)


def wrong_progress(run, shown):
    """Whether a file was shown in rising percents up to 100, then the text, and then nothing: a line if it wasn't."""
    name, *after = run.more["progress"]
    lines = shown.decode().split("\x1b[K")
    percents = [int(it[1]) for line in lines if (it := re.fullmatch(r"\rlvl: %s (\d+) %%" % re.escape(name), line))]
    once = sorted(set(percents))
    others = [line for line in lines if not line.startswith("\rlvl: " + name)]
    last = ["\rlvl: " + " ".join(after), "\r", "\r", ""]
    rising = once[-1:] == [100] and percents == once * (len(percents) // len(once))
    if not (rising and others[-4:] == last and set(others) <= set(last)):
        yield "    progress of %s, then %s: printed %r" % (name, after, shown)
