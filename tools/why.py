#!/usr/bin/env python3
"""Checks a witness: that the `why:` lines of an answer name a chain of references and a ring that covers the square.

    lvl compare FIRST SECOND --why | tools/why.py FIRST SECOND

No code of lvl is used. The file of the side that the verdict names is read by the second implementation, the lines
are followed in it reference by reference, the square is mapped back into the last cell, and the winding of the named
ring is counted there. A line that says anything that isn't so is refused.
"""
import argparse
import re
import sys

from lib import answers, gds_reader, layout, oasis_reader

VERDICT = re.compile(r"differ: layer (\d+) datatype (\d+) square (-?\d+) (-?\d+) only in (first|second)")
TOP = re.compile(r"why: cell (.*)")
STEP = re.compile(
    r"why: reference (\d+) of (\d+) to (.*), place (\d+) of (\d+), at (-?\d+) (-?\d+) turned (0|90|180|270)( flipped)?"
)
RING = re.compile(
    r"why: shape (\d+) of (\d+), place (\d+) of (\d+), ring (\d+) of (\d+) on layer (\d+) datatype (\d+),"
    r" box (-?\d+) (-?\d+) (-?\d+) (-?\d+)"
)


class Wrong(Exception):
    """What a line says that isn't so."""


def want(holds, *words):
    if not holds:
        raise Wrong(" ".join(str(word) for word in words))


def matched(pattern, line):
    """The groups of a line that has this form from its first character to its last."""
    found = pattern.fullmatch(line)
    want(found, "unexpected line", repr(line))
    return found.groups()


def item(items, place, count, what):
    """The item at a place that is counted from 1, if there are so many."""
    want(len(items) == count, what, "of", count, "but there are", len(items))
    want(1 <= place <= count, what, place, "of", count)
    return items[place - 1]


def shift_at(shifts, place, count):
    """The shift at a place that is counted from 1."""
    want(shifts.count() == count, "place of", count, "but there are", shifts.count())
    want(1 <= place <= count, "place", place, "of", count)
    if isinstance(shifts, answers.Lattice):
        row, column = divmod(place - 1, shifts.m)
        return shifts.at(column, row)
    return shifts.places()[place - 1]


def pulled(square, at, quarters, flip):
    """The square that is reflected if `flip` is set, then turned, then moved by `at` to this one."""
    x, y = square[0] - at[0], square[1] - at[1]
    for _ in range(quarters):
        x, y = y, -1 - x
    return (x, -1 - y) if flip else (x, y)


def followed(cells, cell, square, line):
    """The cell and the square in its coordinates, after the reference that the line names."""
    index, count, name, place, places, x, y, turned, flipped = matched(STEP, line)
    reference = item(cell.references, int(index), int(count), "reference")
    want(reference.cell == name, "reference", index, "is to", reference.cell)
    shift = shift_at(reference.shifts, int(place), int(places))
    at = reference.at[0] + shift[0], reference.at[1] + shift[1]
    want(at == (int(x), int(y)), "reference", index, "is at", *at)
    want(90 * reference.quarters == int(turned), "reference", index, "is turned", 90 * reference.quarters)
    want(reference.flip == bool(flipped), "reference", index, "is flipped" if reference.flip else "isn't flipped")
    return cells[reference.cell], pulled(square, at, reference.quarters, reference.flip)


def check_ring(cell, square, layer, line):
    """Refuses the line unless the ring that it names is on the Layer and covers the square."""
    numbers = [int(number) for number in matched(RING, line)]
    index, count, place, places, ring, rings, *named = numbers[:8]
    shape = item(cell.shapes, index, count, "shape")
    want(tuple(shape.layer) == tuple(named), "shape", index, "is on", *shape.layer)
    want(layer in (None, tuple(named)), "the verdict is on", layer)
    shift = shift_at(shape.shifts, place, places)
    points = [(x + shift[0], y + shift[1]) for x, y in item(shape.rings, ring, rings, "ring")]
    xs, ys = zip(*points)
    box = [min(xs), min(ys), max(xs), max(ys)]
    want(box == numbers[8:], "the box is", *box)
    want(layout.winding(points, *square) != 0, "the ring doesn't cover", *square)


def check(cells, top, layer, square, lines):
    """Refuses the lines unless they are a witness for the square. If `layer` is None, any Layer will do."""
    want(len(lines) >= 2, "too few lines")
    by_name = {cell.name: cell for cell in cells}
    (name,) = matched(TOP, lines[0])
    want(name == top, "the top is", top)
    cell = by_name[top]
    for line in lines[1:-1]:
        cell, square = followed(by_name, cell, square, line)
    check_ring(cell, square, layer, lines[-1])


def check_answer(files, answer, tops=(None, None), mapped=False):
    """Refuses the answer unless it is `differ` and its witness is right."""
    lines = answer.splitlines()
    verdicts = [VERDICT.fullmatch(line) for line in lines if line.startswith("differ:")]
    want(len(verdicts) == 1 and verdicts[0], "no line differ")
    *numbers, side = verdicts[0].groups()
    layer, datatype, x, y = (int(number) for number in numbers)
    second = side == "second"
    data = files[second]
    cells = (oasis_reader if data[:1] == b"%" else gds_reader).read(data).cells
    top = answers.top_of(cells, tops[second])
    on = None if mapped and second else (layer, datatype)
    check(cells, top, on, (x, y), [line for line in lines if line.startswith("why:")])


def main():
    line = argparse.ArgumentParser(
        description="Checks the witness in an answer of lvl compare --why, which standard input has."
    )
    line.add_argument("first")
    line.add_argument("second")
    line.add_argument("--top", help="the top cell of both files")
    line.add_argument("--mapped", action="store_true", help="under --map: any Layer of the second file will do")
    options = line.parse_args()
    files = [open(name, "rb").read() for name in (options.first, options.second)]
    try:
        check_answer(files, sys.stdin.read(), (options.top, options.top), options.mapped)
    except Wrong as wrong:
        sys.exit("why.py: %s" % wrong)
    print("why.py: the witness is right")


if __name__ == "__main__":
    main()
