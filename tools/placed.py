#!/usr/bin/env python3
"""Makes pairs of layouts at random that place few cells at many spots, and compares the answers with those for the
same layouts without references."""
import os
import random
import subprocess
import sys
import tempfile
from collections import Counter, namedtuple

sys.dont_write_bytecode = True

from lib import options
from lib.assembler import box, sref
from lib.crafted import gds_cell, gds_file, write

SPANS = [60, 300, 2000]
MOST_PLACED = [90, 700]

# the rectangles of each cell, each with its layer, and which cell is placed how
Layout = namedtuple("Layout", "cells places")
Rectangle = namedtuple("Rectangle", "layer x y width height")
Place = namedtuple("Place", "cell flip quarters x y")


def rectangle(rng):
    return Rectangle(rng.choice([1, 2]), rng.randrange(-12, 12), rng.randrange(-12, 12), rng.randrange(1, 9),
                     rng.randrange(1, 9))


def layout(rng):
    cells = [[rectangle(rng) for _ in range(rng.randrange(1, 6))] for _ in range(rng.randrange(1, 5))]
    span, count = rng.choice(SPANS), rng.randrange(10, rng.choice(MOST_PLACED))
    return Layout(cells, [Place(rng.randrange(len(cells)), rng.random() < 0.3, rng.randrange(4), rng.randrange(span),
                                rng.randrange(span)) for _ in range(count)])


def changed(rng, old):
    """The layout with up to three things changed, or written in another way."""
    new = Layout([list(cell) for cell in old.cells], list(old.places))
    for _ in range(rng.randrange(4)):
        cell, at = rng.choice(new.cells), rng.randrange(len(new.places))
        first, place = cell[0], new.places[at]
        match rng.randrange(6):
            case 0:
                cell[rng.randrange(len(cell))] = rectangle(rng)
            case 1:
                cell.append(rectangle(rng))
            case 2:
                cell[0] = first._replace(width=first.width + 1)
            case 3:
                new.places[at] = place._replace(x=place.x + rng.randrange(-3, 4))
            case 4:
                rng.shuffle(new.places)
            case 5 if first.width > 1:
                cell[:1] = [first._replace(width=1), first._replace(x=first.x + 1, width=first.width - 1)]
    return new


def named(layout, names):
    """The file with references, and these names of cells."""
    cells = [gds_cell(name, [box(it.x, it.y, it.x + it.width, it.y + it.height, it.layer) for it in cell])
             for name, cell in zip(names, layout.cells)]
    return gds_file(*cells, gds_cell("TOP", [sref(names[it.cell], it.x, it.y, it.flip, it.quarters)
                                             for it in layout.places]))


def image(place, x, y):
    """Where the place puts a point."""
    y = -y if place.flip else y
    for _ in range(place.quarters):
        x, y = -y, x
    return x + place.x, y + place.y


def placed(place, it):
    """The rectangle where the place puts it."""
    corners = image(place, it.x, it.y), image(place, it.x + it.width, it.y + it.height)
    (x0, x1), (y0, y1) = (sorted(ends) for ends in zip(*corners))
    return box(x0, y0, x1, y1, it.layer)


def flat(layout):
    """The file without references."""
    return gds_file(gds_cell("TOP", [placed(it, each) for it in layout.places for each in layout.cells[it.cell]]))


def answer(program, first, second):
    line = [program, "compare", first, second, "--top-a", "TOP", "--top-b", "TOP"]
    return subprocess.run(line, capture_output=True, text=True).stdout.rstrip("\n").split("\n")[-1]


def answers(rng, program, folder):
    """The answer for two layouts without references, and those for both with references and for one of them."""
    first = layout(rng)
    second = changed(rng, first)
    names = ["C%d" % at for at in range(len(first.cells))]
    others = rng.sample(names, len(names)) if rng.random() < 0.3 else names
    made = [flat(first), flat(second), named(first, names), named(second, others)]
    files = [os.path.join(folder, "%d.gds" % at) for at in range(4)]
    for name, parts in zip(files, made):
        write(name, parts)
    return [answer(program, files[a], files[b]) for a, b in ((0, 1), (2, 3), (2, 1))]


def main():
    parser = options.parser(__doc__)
    parser.add_argument("--count", metavar="N", type=int, default=300, help="the number of pairs (default: 300)")
    parser.add_argument("--seed", metavar="N", type=int, default=1, help="pairs of another seed (default: 1)")
    asked = options.parsed(parser)
    rng, seen = random.Random(asked.seed), Counter()
    with tempfile.TemporaryDirectory(prefix="lvl-placed-") as folder:
        for at in range(asked.count):
            wanted, *others = answers(rng, asked.program, folder)
            if any(it != wanted for it in others):
                sys.exit("placed: WRONG: pair %d of seed %d: %s, and not %s" % (at, asked.seed, others, wanted))
            seen[wanted.partition(":")[0]] += 1
    print("placed: %d pairs, all answers right: %s" % (asked.count, dict(seen)))


if __name__ == "__main__":
    main()
