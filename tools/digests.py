#!/usr/bin/env python3
"""Makes masks at random, spells each in five ways, and checks the digests of `lvl` against those of a raster.

The five files of a mask are the layout that it was made as, in GDSII and in OASIS; its rows as rectangles in one
format; its columns as rectangles in the other; and its unit squares, some of them drawn twice. No two masks may have
the same digest. The script stops at the first wrong digest and leaves the files in the folder that it prints.
"""
import os
import random
import subprocess
import sys
import tempfile

sys.dont_write_bytecode = True

from lib import digest, gds, layout, oasis, options
from lib.layout import Cell, Shape

GOES_ON = "layer ", "mask "


def runs(squares, is_row):
    """The rectangles that the rows, or the columns, of the squares part into."""
    lines = {}
    for x, y in squares:
        line, at = (y, x) if is_row else (x, y)
        lines.setdefault(line, []).append(at)
    for line, places in lines.items():
        begin = last = None
        for at in [*sorted(places), None]:
            if last is not None and at != last + 1:
                yield (begin, line, last + 1, line + 1) if is_row else (line, begin, line + 1, last + 1)
            begin = at if last is None or at != last + 1 else begin
            last = at


def boxes(mask, parted):
    """A layout with one cell, which draws the rectangles of each layer."""
    shapes = []
    for layer, squares in mask.items():
        for x0, y0, x1, y1 in parted(squares):
            points = [(x0, y0), (x1, y0), (x1, y1), (x0, y1)]
            shapes.append(Shape(layer, "ring", points, 0, (0, 0), [(0, 0)]))
    return [Cell("TOP", shapes, [])]


def units(rng, squares):
    found = [(x, y, x + 1, y + 1) for x, y in squares]
    found += rng.sample(found, len(found) // 2)
    rng.shuffle(found)
    return found


def spellings(rng, cells, mask):
    """The bytes of five files that draw the mask."""
    one, other = rng.sample([gds, oasis], 2)
    yield gds.written(rng, cells)
    yield oasis.written(rng, cells)
    yield one.written(rng, boxes(mask, lambda squares: runs(squares, True)))
    yield other.written(rng, boxes(mask, lambda squares: runs(squares, False)))
    yield rng.choice([gds, oasis]).written(rng, boxes(mask, lambda squares: units(rng, squares)))


def digest_of(lvl, file):
    """The lines of the answer that depend on the mask alone."""
    done = subprocess.run([lvl, "digest", file, "--top", "TOP"], capture_output=True, text=True)
    return "".join(line for line in (done.stdout + done.stderr).splitlines(True) if line.startswith(GOES_ON))


def main():
    line = options.parser("Spells masks in five ways, and checks the digests of lvl against those of a raster.")
    line.add_argument("--count", metavar="N", type=int, default=200, help="the number of masks (default: 200)")
    line.add_argument("--seed", metavar="S", type=int, default=1, help="the first seed (default: 1)")
    asked = options.parsed(line)
    folder = tempfile.mkdtemp(prefix="lvl-digests-")
    found = {}
    for at in range(asked.seed, asked.seed + asked.count):
        rng = random.Random(at)
        cells = layout.made(rng)
        mask = {layer: squares for layer, squares in layout.covered(cells, "TOP").items() if squares}
        expected = digest.lines({layer: list(runs(squares, True)) for layer, squares in mask.items()})
        for number, data in enumerate(spellings(rng, cells, mask)):
            file = os.path.join(folder, "%d.%d" % (at, number))
            with open(file, "wb") as out:
                out.write(data)
            answer = digest_of(asked.program, file)
            if answer != expected:
                sys.exit("seed %d, %s:\n  expected %s\n  answered %s" % (at, file, expected, answer))
            os.remove(file)
        same = found.setdefault(expected.splitlines()[-1], mask)
        if same != mask:
            sys.exit("seed %d has the digest of another mask" % at)
    os.rmdir(folder)
    print("%d masks, each in five files, %d digests: all are right" % (asked.count, len(found)))


if __name__ == "__main__":
    main()
