#!/usr/bin/env python3
"""Makes pairs of heads at random, and compares the line on grid steps with that of exact fractions (steps.py)."""
import os
import random
import struct
import subprocess
import sys
import tempfile

sys.dont_write_bytecode = True

from lib import options, steps
from lib.assembler import MAGIC, OASIS_END, STREAM_END, box, cell_by_name, rectangle, start, stream_head, structure
from lib.assembler import unsigned

NANOMETRE = 0x3944B82FA09B5A54
FLOATS = [0.0, 1.0, 1000.0, 1e-3, 2.0 ** -126, 2.0 ** -127, 1e9, 1e-6, float("inf"), float("nan"), -1.0]
WHOLES = [0, 1, 2, 5, 1000, 2000, 10 ** 9, 2 ** 32, 2 ** 53 + 1, 2 ** 63, 2 ** 64 - 1]


def gds_real(rng):
    """Eight bytes: any, or near a nanometre, or with an exponent at the ends of what is readable."""
    near = NANOMETRE + rng.choice([0, 1, -1, 2 ** 16, 2 ** 22, 2 ** 24, 2 ** 63, -NANOMETRE])
    fraction = rng.choice([0, 1, 2 ** 52, 2 ** 56 - 1, rng.getrandbits(56)])
    ends = rng.choice([0, 51, 52, 53, 57, 64, 65, 66, 78, 79, 127]) << 56 | fraction
    return rng.choice([near, ends, rng.getrandbits(64)]).to_bytes(8, "big")


def whole(rng):
    return rng.choice([*WHOLES, rng.getrandbits(rng.randrange(1, 65))])


def oasis_real(rng):
    """The type and the value of a real that isn't negative by its type."""
    kind = rng.choice([0, 2, 4, 6, 7])
    if kind < 4:
        return unsigned(kind) + unsigned(whole(rng))
    if kind == 4:
        return unsigned(kind) + unsigned(whole(rng)) + unsigned(whole(rng))
    form = "<f" if kind == 6 else "<d"
    value = struct.pack(form, rng.choice(FLOATS) if rng.random() < 0.7 else 1000 * (1 + 2.0 ** rng.randrange(-40, -20)))
    return unsigned(kind) + (value if rng.random() < 0.8 else rng.randbytes(len(value)))


def layout(rng):
    """A file with one square, and a head made at random."""
    if rng.random() < 0.5:
        return stream_head(units=bytes(8) + gds_real(rng)) + structure("T", box(0, 0, 10, 10)) + STREAM_END
    return MAGIC + start(oasis_real(rng)) + cell_by_name(b"T") + rectangle(0, 0, 10, 10) + OASIS_END


def answered(program, names):
    """What standard error should have, and what it has; None if a file is refused."""
    done = subprocess.run([program, "compare", *names], capture_output=True, text=True)
    lines = done.stdout.split("\n")
    if done.returncode == 2:
        return None
    return steps.line(lines[0].partition(": ")[2], lines[1].partition(": ")[2]), done.stderr


def main():
    line = options.parser("Makes pairs of heads at random, and compares the line on their grid steps with that of "
                          "exact fractions.")
    line.add_argument("--count", metavar="N", type=int, default=1000, help="the number of pairs (default: 1000)")
    line.add_argument("--seed", metavar="S", type=int, default=1, help="the first seed (default: 1)")
    asked = options.parsed(line)
    refused, said = 0, 0
    with tempfile.TemporaryDirectory() as folder:
        names = [os.path.join(folder, name) for name in ("a", "b")]
        for seed in range(asked.seed, asked.seed + asked.count):
            rng = random.Random("heads %d" % seed)
            for name in names:
                with open(name, "wb") as out:
                    out.write(layout(rng))
            answer = answered(asked.program, names)
            if answer is None:
                refused += 1
            elif answer[0] != answer[1]:
                sys.exit("heads: seed %d: expected %r, answered %r" % (seed, *answer))
            else:
                said += answer[0] != ""
    print("heads: %d pairs, %d with a line, %d refused" % (asked.count, said, refused))


if __name__ == "__main__":
    main()
