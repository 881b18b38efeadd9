#!/usr/bin/env python3
"""Makes pairs of files at random, and checks the answers of `lvl` against those of a raster.

Each pair is one layout written twice, or a layout and a changed copy of it, in GDSII or OASIS. One pair in four
is compared under a map of layers and a window. The script stops at the first wrong answer and leaves both files
in the folder that it prints.

With `--decorate` the files have records that draw nothing. The answer with `--ignore all`, and with just the words
that the files need, is that of the raster, which knows nothing of such records. Without --ignore, and without one of
the words that are needed, a file is refused, as the second reading of the rules refuses it.

With `--mutate` the pairs are hierarchies that place cells many times, and differ by one mutation: a shape more or less,
or on another layer, a cell renamed, a placement moved or turned, an array with one place less, another order. More than
half of the second layouts are said in other words: cells renamed or with exchanged names, references dissolved, cells
cut in two, arrays split, wrappers put in. Of one pair in five the top hides most of it.

With `--why` the reason is asked for as well: all other lines must be as without it, and `why.py` checks the reason of
each difference, as it is and with one of its numbers changed.

With `--far` the coordinates are anywhere in 64 bits, and the right answer is that of `exact.py`. Then the script
goes on after a wrong or late answer, keeps the files of each in the folder that it prints, and ends with status
1 if there was one.
"""
import collections
import multiprocessing
import os
import random
import re
import resource
import shutil
import subprocess
import sys
import tempfile

import why
from lib import answers, far, gds, gds_reader, layout, oasis, oasis_reader, options, spelling
from lib.answers import EVERYTHING, NOTHING, WORDS

MOST_BYTES = 4 * 2**30


def view_of(rng):
    """The options of a pseudo-random view, and its pairs and window."""
    if rng.random() < 0.75:
        return [], (), None
    sources = rng.sample(layout.LAYERS, rng.randint(1, 2))
    pairs = [(source, rng.choice(layout.LAYERS + [(9, 9)])) for source in sources]
    x, y = rng.randint(-20, 20), rng.randint(-20, 20)
    window = (x, x + rng.randint(1, 30), y, y + rng.randint(1, 30))
    said = ",".join("%d/%d=%d/%d" % (*source, *target) for source, target in pairs)
    return ["--map", said, "--window=x=%d..%d,y=%d..%d" % window], pairs, window


def pair_of(rng, ignore, mutate):
    """Two layouts, each as cells and as the bytes of a file."""
    if mutate:
        first, second = layout.mutated(rng, layout.hierarchy(rng))
    else:
        first = layout.made(rng)
        second = layout.changed(rng, first) if rng.random() < 0.6 else first
    return [(cells, rng.choice([gds, oasis]).written(rng, cells, ignore)) for cells in (first, second)]


def read(data, ignore):
    return (oasis_reader if data[:1] == b"%" else gds_reader).read(data, ignore)


def is_accepted(data, ignore):
    try:
        read(data, ignore)
    except answers.Refused:
        return False
    return True


def ignoring(rng, words):
    """The option --ignore with the words in any order; nothing without words."""
    return ["--ignore", ",".join(rng.sample(sorted(words), len(words)))] if words else []


def decorated_runs(rng, pair, expected):
    """The options that a pair with records that draw nothing is compared with, and the last lines of the answers."""
    files = [written for _, written in pair]
    needed = [word for word in WORDS if not all(is_accepted(data, EVERYTHING - {word}) for data in files)]
    yield ["--ignore", "all"], expected
    yield ignoring(rng, needed), expected
    if needed:
        missing = rng.choice(needed)
        for ignore in (NOTHING, EVERYTHING - {missing}, frozenset(needed) - {missing}):
            yield ignoring(rng, ignore), answers.compare(read, *files, (None, None), ignore).text


def answer_of(lvl, files, words):
    """The last line on standard output; if there is none, on standard error."""
    done = subprocess.run([*words_of(lvl, files), *words], capture_output=True, text=True)
    return (done.stdout or done.stderr).strip().split("\n")[-1]


def said(lvl, files, words):
    """The lines on standard output."""
    return subprocess.run([*words_of(lvl, files), *words], capture_output=True, text=True).stdout.splitlines()


def changed_reason(rng, lines):
    """The lines of an answer with one number of its reason changed, and nothing if there is no number."""
    numbers = [(at, found) for at, line in enumerate(lines) if line.startswith("why:")
               for found in re.finditer(r"(?<= )-?\d+(?= |$|,)", line)]
    at, found = rng.choice(numbers)
    number = int(found[0]) + rng.choice([-1, 1])
    return [*lines[:at], lines[at][:found.start()] + str(number) + lines[at][found.end():], *lines[at + 1:]]


def checked_reason(rng, lvl, files, words):
    """What is wrong with the reason that is given with these words, or how one that is changed was taken."""
    lines, plain = said(lvl, files, [*words, "--why"]), said(lvl, files, words)
    data = [open(name, "rb").read() for name in files]
    mapped = "--map" in words
    if [line for line in lines if not line.startswith("why:")] != plain:
        return "wrong: other lines than without --why"
    if not plain[-1].startswith("differ"):
        return "no reason" if lines == plain else "wrong: a reason without a difference"
    try:
        why.check_answer(data, "\n".join(lines), ("TOP", "TOP"), mapped)
    except why.Wrong as wrong:
        return "wrong: %s" % wrong
    try:
        why.check_answer(data, "\n".join(changed_reason(rng, lines)), ("TOP", "TOP"), mapped)
    except why.Wrong:
        return "reason right, and refused if it is changed"
    return "reason right, and another that is right if it is changed"


def words_of(lvl, files):
    return [lvl, "compare", *files, "--top-a", "TOP", "--top-b", "TOP"]


def timed(lvl, files, most):
    """The last line of the answer, or why there is none, and the seconds of processor time."""
    before = resource.getrusage(resource.RUSAGE_CHILDREN)
    run = subprocess.Popen(words_of(lvl, files), stdout=subprocess.PIPE, stderr=subprocess.PIPE, text=True)
    resource.prlimit(run.pid, resource.RLIMIT_CPU, (most, most))
    resource.prlimit(run.pid, resource.RLIMIT_AS, (MOST_BYTES, MOST_BYTES))
    output, errors = run.communicate()
    answer = (output or errors).strip().split("\n")[-1]
    after = resource.getrusage(resource.RUSAGE_CHILDREN)
    seconds = after.ru_utime + after.ru_stime - before.ru_utime - before.ru_stime
    if run.returncode < 0:
        answer = "stopped" if seconds > most - 0.1 else "ended by signal %d" % -run.returncode
    return answer, seconds


def far_files(seed):
    """The bytes of both files, and the right answer."""
    rng = random.Random("far %d" % seed)
    layouts, expected = far.pair_of(rng)
    forms = [gds if spelling.fits_gds(cells) and rng.random() < 0.5 else oasis for cells in layouts]
    return [form.written(rng, cells) for form, cells in zip(forms, layouts)], expected


def write(name, data):
    with open(name, "wb") as out:
        out.write(data)


def hunted(job):
    """Runs the pairs of a range of seeds; returns the number of each answer, the slowest run, and what was wrong."""
    lvl, most, folder, seeds = job
    counts, slowest, wrong = collections.Counter(), (0, 0), []
    for seed in seeds:
        files = [os.path.join(folder, "%d.%s" % (seed, side)) for side in "ab"]
        pair, expected = far_files(seed)
        for name, data in zip(files, pair):
            write(name, data)
        answer, seconds = timed(lvl, files, most)
        slowest = max(slowest, (seconds, seed))
        if answer == expected:
            counts[expected.split(":")[0]] += 1
            for name in files:
                os.remove(name)
        else:
            counts["stopped" if answer == "stopped" else "wrong"] += 1
            wrong.append("seed %d\n  expected %s\n  answered %s" % (seed, expected, answer))
    return counts, slowest, wrong


def hunt(asked):
    """Compares far pairs in parallel, and returns the exit status."""
    folder = tempfile.mkdtemp(prefix="lvl-far-")
    last = asked.seed + asked.count
    ranges = [range(at, min(at + 50, last)) for at in range(asked.seed, last, 50)]
    jobs = [(asked.program, asked.most, folder, seeds) for seeds in ranges]
    counts, slowest, failed = collections.Counter(), (0, 0), False
    with multiprocessing.Pool(asked.jobs) as pool:
        for some, slow, wrong in pool.imap_unordered(hunted, jobs):
            counts, slowest, failed = counts + some, max(slowest, slow), failed or wrong != []
            print("\n".join(wrong), end="\n" if wrong else "", flush=True)
    print("%d far pairs: %s" % (asked.count, dict(counts)))
    print("the slowest: seed %d, %.2f seconds" % (slowest[1], slowest[0]))
    if not failed:
        os.rmdir(folder)
        return 0
    print("the files are in %s" % folder)
    return 1


def main():
    line = options.parser("Makes pairs of files at random, and checks the answers of lvl against those of a raster.")
    line.add_argument("--count", metavar="N", type=int, default=1000, help="the number of pairs (default: 1000)")
    line.add_argument("--seed", metavar="S", type=int, default=1, help="the first seed (default: 1)")
    line.add_argument("--far", action="store_true", help="make coordinates anywhere in 64 bits")
    line.add_argument("--most", metavar="SECONDS", type=int, default=2,
                      help="with --far: the processor time after which a run is stopped (default: 2)")
    line.add_argument("--jobs", metavar="N", type=int, default=1,
                      help="with --far: the number of processes (default: 1)")
    line.add_argument("--decorate", action="store_true", help="add records that draw nothing, and give --ignore")
    line.add_argument("--mutate", action="store_true", help="make hierarchies that differ by one mutation")
    line.add_argument("--why", action="store_true", help="check the reasons of differences as well")
    asked = options.parsed(line)
    if asked.why and (asked.far or asked.decorate):
        line.error("--why has no --far and no --decorate")
    if asked.far and (asked.decorate or asked.mutate):
        line.error("--far has no records that draw nothing, and no mutations")
    sys.exit(hunt(asked) if asked.far else compared(asked))


def runs_of(rng, asked, pair):
    """The options that a pair is compared with, and the last lines of the answers."""
    words, pairs, window = view_of(rng)
    expected = layout.verdict(*[layout.covered(cells, "TOP") for cells, _ in pair], pairs, window)
    runs = decorated_runs(rng, pair, expected) if asked.decorate else [([], expected)]
    return [([*words, *more], line) for more, line in runs]


def compared(asked):
    """Compares pairs one after another until an answer is wrong, and returns the exit status."""
    folder = tempfile.mkdtemp(prefix="lvl-pairs-")
    files, counts = [os.path.join(folder, "a"), os.path.join(folder, "b")], collections.Counter()
    for at in range(asked.seed, asked.seed + asked.count):
        rng = random.Random("decorated %d" % at) if asked.decorate else random.Random(at)
        ignore = frozenset(word for word in WORDS if rng.random() < 0.7) if asked.decorate else NOTHING
        pair = pair_of(rng, ignore, asked.mutate)
        for name, (_, written) in zip(files, pair):
            write(name, written)
        for words, expected in runs_of(rng, asked, pair):
            answer = answer_of(asked.program, files, words)
            if answer != expected:
                print("seed %d in %s: %s\n  expected %s\n  answered %s"
                      % (at, folder, " ".join(words), expected, answer))
                return 1
            counts[expected.split(":")[0]] += 1
            reason = asked.why and checked_reason(rng, asked.program, files, words)
            if reason and reason.startswith("wrong"):
                print("seed %d in %s: %s\n  %s" % (at, folder, " ".join(words), reason))
                return 1
            counts[reason] += bool(reason)
    shutil.rmtree(folder)
    print("%d pairs, all answers right: %s" % (asked.count, {word: n for word, n in counts.items() if n}))
    return 0


if __name__ == "__main__":
    main()
