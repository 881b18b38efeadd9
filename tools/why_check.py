#!/usr/bin/env python3
"""Checks `why.py`: it accepts witnesses that are found by trying every chain, and refuses them if a word changes."""
import argparse
import random
import re

from lib import answers, gds, gds_reader, layout, oasis, oasis_reader
import why


def boxes(points):
    xs, ys = zip(*points)
    return min(xs), min(ys), max(xs), max(ys)


def covered_in(points):
    x0, y0, x1, y1 = boxes(points)
    return ((x, y) for y in range(y0, y1) for x in range(x0, x1) if layout.winding(points, x, y) != 0)


def rings(cell):
    """A line for each ring of the cell at each place, with the Layer and one square that it covers."""
    for at, shape in enumerate(cell.shapes, 1):
        places = shape.shifts.places()
        for place, (dx, dy) in enumerate(places, 1):
            for index, ring in enumerate(shape.rings, 1):
                points = [(x + dx, y + dy) for x, y in ring]
                square = next(covered_in(points), None)
                if square:
                    yield shape.layer, square, "why: shape %d of %d, place %d of %d, ring %d of %d" % (
                        at, len(cell.shapes), place, len(places), index, len(shape.rings)
                    ) + " on layer %d datatype %d, box %d %d %d %d" % (*shape.layer, *boxes(points))


def witnesses(cells, name):
    """For each chain from the cell and each ring at its end: the Layer, one square that it covers, and the lines."""
    cell = cells[name]
    for layer, square, line in rings(cell):
        yield layer, square, [line]
    for at, reference in enumerate(cell.references, 1):
        places = reference.shifts.places()
        for place, (dx, dy) in enumerate(places, 1):
            x, y = reference.at[0] + dx, reference.at[1] + dy
            line = "why: reference %d of %d to %s, place %d of %d, at %d %d turned %d%s" % (
                at, len(cell.references), reference.cell, place, len(places), x, y, 90 * reference.quarters,
                " flipped" if reference.flip else "",
            )
            for layer, square, lines in witnesses(cells, reference.cell):
                sx, sy = layout.image(square, reference.flip, reference.quarters)
                yield layer, (sx + x, sy + y), [line, *lines]


def changes(line):
    """The line with one of its numbers changed, and with other words."""
    for found in re.finditer(r"-?\d+", line):
        yield line[: found.start()] + str(int(found[0]) + 1) + line[found.end():]
    yield line + " "
    yield line.removesuffix(" flipped") if line.endswith(" flipped") else line + " flipped"


def is_refused(cells, top, layer, square, lines):
    try:
        why.check(cells, top, layer, square, lines)
    except why.Wrong:
        return True
    return False


def check(rng):
    """The numbers of witnesses that were accepted, and of changed ones that were refused and that weren't."""
    made = layout.made(rng)
    write, read = rng.choice([(gds, gds_reader), (oasis, oasis_reader)])
    cells = read.read(write.written(rng, made)).cells
    top = answers.top_of(cells, None)
    found = list(witnesses({cell.name: cell for cell in cells}, top))
    counts = [0, 0, 0]
    for layer, square, lines in rng.sample(found, min(len(found), 5)):
        lines = ["why: cell %s" % top, *lines]
        why.check(cells, top, layer, square, lines)
        counts[0] += 1
        for at, line in enumerate(lines):
            for changed in changes(line) if at else [line + "1"]:
                refused = is_refused(cells, top, layer, square, [*lines[:at], changed, *lines[at + 1:]])
                counts[1 if refused else 2] += 1
        far = square[0] + 1_000_000, square[1]
        assert is_refused(cells, top, layer, far, lines), lines
        assert is_refused(cells, top, layer, square, lines[:-1]), lines
    return counts


def main():
    line = argparse.ArgumentParser(description="Checks tools/why.py on layouts that are made at random.")
    line.add_argument("--count", type=int, default=500, help="the number of layouts (default: 500)")
    line.add_argument("--seed", type=int, default=1)
    options = line.parse_args()
    totals = [0, 0, 0]
    for at in range(options.count):
        totals = [a + b for a, b in zip(totals, check(random.Random(options.seed + at)))]
    print("%d witnesses accepted, %d changed ones refused, %d changed ones are witnesses too" % tuple(totals))


if __name__ == "__main__":
    main()
