#!/usr/bin/env python3
"""Makes layouts at random, has KLayout write them again, and checks the answers of `lvl` against those of a raster.

KLayout adds labels, names of layers and properties, and writes each layout as OASIS and as GDSII
(contrib/klayout/resave.py). Both are compared with the layout, or a changed copy of it, under `--ignore all`. The
script stops at the first wrong answer and leaves the files in the folder that it prints.
"""
import collections
import os
import random
import shutil
import subprocess
import sys
import tempfile

sys.dont_write_bytecode = True

from lib import gds, layout, options

RESAVE = os.path.join(options.ROOT, "contrib", "klayout", "resave.py")
# A grid of 0.001 micrometers; KLayout scales by the units.
UNITS = bytes.fromhex("3e4189374bc6a7f03944b82fa09b5a54")


def write(name, data):
    with open(name, "wb") as file:
        file.write(data)


def made(folder, seed):
    """Writes the layout of a seed and its copy, which may be changed; returns the verdict of their comparison."""
    rng = random.Random("resaved %d" % seed)
    cells = layout.made(rng)
    copy = layout.changed(rng, cells) if rng.random() < 0.5 else cells
    write(os.path.join(folder, "%d.gds" % seed), gds.written(rng, cells, units=UNITS))
    write(os.path.join(folder, "%d.copy.gds" % seed), gds.written(rng, copy, units=UNITS))
    return layout.verdict(layout.covered(copy, "TOP"), layout.covered(cells, "TOP"))


def resave(folder, first, last):
    given = [word for each in ("folder=" + folder, "first=%d" % first, "last=%d" % last) for word in ("-rd", each)]
    environment = {**os.environ, "QT_QPA_PLATFORM": "offscreen"}
    subprocess.run(["klayout", "-b", "-r", RESAVE, *given], check=True, env=environment, stdout=subprocess.DEVNULL)


def answer_of(program, first, second):
    line = [program, "compare", first, second, "--top-a", "TOP", "--top-b", "TOP", "--ignore", "all"]
    done = subprocess.run(line, capture_output=True, text=True)
    return (done.stdout or done.stderr).strip().split("\n")[-1]


def main():
    line = options.parser("Has KLayout write layouts again, and checks the answers of lvl against those of a raster.")
    line.add_argument("--count", metavar="N", type=int, default=100, help="the number of layouts (default: 100)")
    line.add_argument("--seed", metavar="S", type=int, default=1, help="the first seed (default: 1)")
    asked = options.parsed(line)
    if not shutil.which("klayout"):
        line.error("klayout is not on the PATH")
    folder = tempfile.mkdtemp(prefix="lvl-resaved-")
    seeds = range(asked.seed, asked.seed + asked.count)
    expected = {seed: made(folder, seed) for seed in seeds}
    resave(folder, seeds[0], seeds[-1])
    counts = collections.Counter()
    for seed, verdict in expected.items():
        for suffix in ("oas", "again.gds"):
            names = [os.path.join(folder, "%d.%s" % (seed, each)) for each in ("copy.gds", suffix)]
            answer = answer_of(asked.program, *names)
            if answer != verdict:
                sys.exit("%s\n  expected %s\n  answered %s" % (" ".join(names), verdict, answer))
            counts[verdict.split(":")[0]] += 1
    shutil.rmtree(folder)
    print("%d layouts, each written twice by KLayout, all answers right: %s" % (asked.count, dict(counts)))


if __name__ == "__main__":
    main()
