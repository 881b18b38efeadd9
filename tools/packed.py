#!/usr/bin/env python3
"""Puts the records of OASIS files in compressed blocks, and checks that `lvl` finds the same mask in them.

Each file is written with its cells in blocks, with a block for each record, and with blocks of any size, level and
strategy. With --unpack each must have the digest of the file and be `same` as it; without, it must be refused with
the hint to --unpack. The files are those that are named, or else made at random.
"""
import os
import random
import subprocess
import sys
import tempfile

import damage
from lib import layout, oasis, oasis_blocks, options
from lib.answers import NOTHING


def records_of(data):
    """The magic string with START, the records between, and END."""
    starts = damage.starts_of(data)
    parts = [data[a:b] for a, b in zip(starts, starts[1:])]
    return b"".join(parts[:2]), parts[2:-1], parts[-1]


def cells_packed(records):
    """Each cell's records in a block after its CELL record, as KLayout writes it."""
    out, inside = b"", b""
    for record in records:
        if record[0] in (13, 14):
            out += (oasis_blocks.written(inside) if inside else b"") + record
            inside = b""
        else:
            inside += record
    return out + (oasis_blocks.written(inside) if inside else b"")


def packings(rng, data):
    """The same file with blocks, in several ways."""
    head, records, end = records_of(data)
    yield head + cells_packed(records) + end
    yield head + b"".join(map(oasis_blocks.written, records)) + end
    for share in (0.5, 1):
        yield head + oasis_blocks.parted(rng, records, share) + end


def answer(program, *words):
    done = subprocess.run([program, *words], capture_output=True, text=True)
    return done.returncode, done.stdout, done.stderr


def wrong(program, plain, packed):
    """What is wrong with the answers, if anything."""
    if answer(program, "digest", packed, "--unpack") != answer(program, "digest", plain):
        return "another digest"
    status, said, _ = answer(program, "compare", plain, packed, "--unpack")
    if (status, said.splitlines()[-1:]) != (0, ["same"]):
        return "not the same"
    with open(packed, "rb") as file, open(plain, "rb") as other:
        if file.read() == other.read():
            return None
    status, _, said = answer(program, "digest", packed)
    return None if (status, said) == (2, "lvl: %s: try --unpack\n" % packed) else "read without --unpack"


def sources(asked):
    for name in asked.files:
        with open(name, "rb") as file:
            yield name, file.read()
    for seed in range(asked.seed, asked.seed + (0 if asked.files else asked.count)):
        rng = random.Random("packed %d" % seed)
        yield "seed %d" % seed, oasis.written(rng, layout.made(rng), NOTHING)


def main():
    line = options.parser("Puts the records of OASIS files in compressed blocks, and checks that lvl finds the same "
                          "mask in them.")
    line.add_argument("files", metavar="FILE", nargs="*", help="OASIS files that lvl reads (default: made at random)")
    line.add_argument("--count", metavar="N", type=int, default=100, help="the number of made files (default: 100)")
    line.add_argument("--seed", metavar="S", type=int, default=1, help="the first seed (default: 1)")
    asked = options.parsed(line)
    done = 0
    with tempfile.TemporaryDirectory(prefix="lvl-packed-") as folder:
        plain, packed = os.path.join(folder, "plain.oas"), os.path.join(folder, "packed.oas")
        for name, data in sources(asked):
            for made in packings(random.Random(name), data):
                for file, text in ((plain, data), (packed, made)):
                    with open(file, "wb") as out:
                        out.write(text)
                found = wrong(asked.program, plain, packed)
                if found:
                    os.system("cp %s %s /tmp" % (plain, packed))
                    sys.exit("%s: %s (/tmp/plain.oas, /tmp/packed.oas)" % (name, found))
                done += 1
    print("%d files with blocks, all the same" % done)


if __name__ == "__main__":
    main()
