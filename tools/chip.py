#!/usr/bin/env python3
"""Writes a made chip, and the same chip in other words.

    tools/chip.py FOLDER [--bits COLUMNSxROWS] [--macros N] [--standard N]

A chip has N macros (9), each one array of bits (256x512), and N standard cells (20000) of twenty kinds, placed one
by one. A bit has nine rectangles, and a via cell at three places. FOLDER gets `chip.gds` and `chip.oas`, and in
OASIS:

    renamed    all cells have other names
    exchanged  two kinds of standard cells have each other's names
    rows       the arrays are split into rows: a cell of one row, placed at each row's place
    lines      the arrays are split into rows: each row is an array of the macro
    wrapped    the array is in a cell of its own, which a macro places once
    drawn      the via is drawn in the bit
    quadrants  the arrays are split into four arrays
    halves     each rectangle of the bit is drawn in two halves
    repaired   one bit of the macro is another cell that draws the same
    pairs      a cell places two bits, and the arrays place that cell
    turned     the bit is drawn turned, and the arrays turn it back
    moved      the bit is drawn at another place, and the arrays move it back
    cut        the bit is cut into two cells, and each is placed by an array
    backward   the arrays begin at their last place, and their steps go back
    more       the bit has a square more
    scattered  ten squares more in the top
    one        one square more in the top
"""
import argparse
import os
import random
from collections import namedtuple

from lib import assembler

Cell = namedtuple("Cell", "name boxes references")
Reference = namedtuple("Reference", "cell at columns rows a b flip quarters")
BIT, VIA = (60, 40), (4, 4)


def placed(cell, x, y, columns=1, rows=1, a=(0, 0), b=(0, 0), flip=False, quarters=0):
    return Reference(cell, (x, y), columns, rows, a, b, flip, quarters)


def via():
    return Cell("VIA", [(0, 0, 4, 4, 20)], [])


def bit():
    boxes = [(0, 0, 60, 4, 1), (0, 36, 60, 40, 1)]
    boxes += [(6 + 12 * at, 2, 10 + 12 * at, 38, 2 + at % 3) for at in range(5)]
    boxes += [(2, 10, 58, 14, 5), (2, 26, 58, 30, 5)]
    return Cell("BIT", boxes, [placed("VIA", x, y) for x, y in [(6, 10), (30, 26), (54, 10)]])


def kind(rng, at):
    boxes = [(x, y, x + rng.randint(4, 20), y + rng.randint(4, 20), rng.randint(1, 8))
             for x, y in ((rng.randrange(60), rng.randrange(60)) for _ in range(8 + at % 7))]
    return Cell("STD%d" % at, boxes, [placed("VIA", rng.randrange(50), rng.randrange(50)) for _ in range(at % 4)])


def chip(columns, rows, macros, standard):
    rng = random.Random(7)
    kinds = [kind(rng, at) for at in range(20)]
    array = placed("BIT", 0, 0, columns, rows, (BIT[0], 0), (0, BIT[1]))
    macro = Cell("MACRO", [(0, -20, columns * BIT[0], -10, 6)], [array])
    wide, high = columns * BIT[0] + 1000, rows * BIT[1] + 1000
    across = max(1, round(macros**0.5))
    tops = [placed("MACRO", at % across * wide, at // across * high) for at in range(macros)]
    row = max(1, across * wide // 90)
    for at in range(standard):
        x, y = at % row * 90, -200 - at // row * 90
        tops.append(placed(rng.choice(kinds).name, x, y, flip=rng.random() < 0.5, quarters=rng.choice([0, 0, 2])))
    return [Cell("TOP", [(0, -100, across * wide, -90, 9)], tops), macro, bit(), via(), *kinds]


def changed(cells, name, change):
    return [change(cell) if cell.name == name else cell for cell in cells]


def with_names(cells, name_of):
    return [Cell(name_of(c.name), c.boxes, [r._replace(cell=name_of(r.cell)) for r in c.references]) for c in cells]


def exchanged(cells):
    names = {"STD3": "STD4", "STD4": "STD3"}
    return with_names(cells, lambda name: names.get(name, name))


def in_rows(cells):
    def split(cell):
        array = cell.references[0]
        return cell._replace(references=[placed("ROW", *array.at, 1, array.rows, (0, 0), array.b)])

    array = next(c for c in cells if c.name == "MACRO").references[0]
    return changed(cells, "MACRO", split) + [Cell("ROW", [], [array._replace(at=(0, 0), rows=1, b=(0, 0))])]


def in_lines(cells):
    def split(cell):
        array = cell.references[0]
        rows = [array._replace(at=(0, at * array.b[1]), rows=1, b=(0, 0)) for at in range(array.rows)]
        return cell._replace(references=rows)

    return changed(cells, "MACRO", split)


def wrapped(cells):
    array = next(c for c in cells if c.name == "MACRO").references[0]
    return changed(cells, "MACRO", lambda cell: cell._replace(references=[placed("CORE", 0, 0)])) \
        + [Cell("CORE", [], [array])]


def drawn(cells):
    def flat(cell):
        more = [(x + r.at[0], y + r.at[1], z + r.at[0], w + r.at[1], layer)
                for r in cell.references for x, y, z, w, layer in via().boxes]
        return Cell(cell.name, cell.boxes + more, [])

    return changed(cells, "BIT", flat)


def with_array(cells, change):
    """The chip with other references in its macro, made from the array that is there."""
    return changed(cells, "MACRO", lambda cell: cell._replace(references=change(cell.references[0])))


def in_quadrants(cells):
    def split(array):
        columns, rows = array.columns // 2, array.rows // 2
        corners = [(i * columns * array.a[0], j * rows * array.b[1]) for i in (0, 1) for j in (0, 1)]
        return [array._replace(at=at, columns=columns, rows=rows) for at in corners]

    return with_array(cells, split)


def in_halves(cells):
    def halves(x, y, z, w, layer):
        return [(x, y, (x + z) // 2, w, layer), ((x + z) // 2, y, z, w, layer)]

    return changed(cells, "BIT", lambda cell: cell._replace(
        boxes=[half for box in cell.boxes for half in halves(*box)]))


def repaired(cells):
    def split(array):
        last = (array.columns - 1) * array.a[0]
        column = array._replace(at=(last, 0), columns=1, a=(0, 0), rows=array.rows - 1)
        corner = placed("SPARE", last, (array.rows - 1) * array.b[1])
        return [array._replace(columns=array.columns - 1), column, corner]

    return with_array(cells, split) + [bit()._replace(name="SPARE")]


def in_pairs(cells):
    def paired(array):
        return [array._replace(cell="PAIR", columns=array.columns // 2, a=(2 * array.a[0], 0))]

    return with_array(cells, paired) + [Cell("PAIR", [], [placed("BIT", 0, 0), placed("BIT", BIT[0], 0)])]


def turned(cells):
    def turn(cell):
        boxes = [(y, -z, w, -x, layer) for x, y, z, w, layer in cell.boxes]
        return cell._replace(boxes=boxes, references=[
            r._replace(at=(r.at[1], -r.at[0]), quarters=3) for r in cell.references])

    return changed(with_array(cells, lambda array: [array._replace(quarters=1)]), "BIT", turn)


def moved(cells):
    def move(cell):
        boxes = [(x - 7, y + 3, z - 7, w + 3, layer) for x, y, z, w, layer in cell.boxes]
        return cell._replace(boxes=boxes, references=[
            r._replace(at=(r.at[0] - 7, r.at[1] + 3)) for r in cell.references])

    return changed(with_array(cells, lambda array: [array._replace(at=(7, -3))]), "BIT", move)


def cut(cells):
    whole = bit()
    parts = [Cell("LEFT", whole.boxes[:4], []), Cell("RIGHT", whole.boxes[4:], whole.references)]
    split = with_array(cells, lambda array: [array._replace(cell=part.name) for part in parts])
    return [cell for cell in split if cell.name != "BIT"] + parts


def backward(cells):
    def back(array):
        last = ((array.columns - 1) * array.a[0], (array.rows - 1) * array.b[1])
        return [array._replace(at=last, a=(-array.a[0], 0), b=(0, -array.b[1]))]

    return with_array(cells, back)


def with_boxes(cells, name, boxes):
    return changed(cells, name, lambda cell: cell._replace(boxes=cell.boxes + boxes))


def scattered(cells):
    rng = random.Random(11)
    wide, high = cells[0].boxes[0][2], 2 * next(c for c in cells if c.name == "MACRO").references[0].rows * BIT[1]
    spots = [(rng.randrange(wide), rng.randrange(high)) for _ in range(10)]
    return with_boxes(cells, "TOP", [(x, y, x + 1, y + 1, 11) for x, y in spots])


WORDS = {
    "renamed": lambda cells: with_names(cells, lambda name: name if name == "TOP" else "N%s_1" % name),
    "exchanged": exchanged,
    "rows": in_rows,
    "lines": in_lines,
    "wrapped": wrapped,
    "drawn": drawn,
    "quadrants": in_quadrants,
    "halves": in_halves,
    "repaired": repaired,
    "pairs": in_pairs,
    "turned": turned,
    "moved": moved,
    "cut": cut,
    "backward": backward,
    "more": lambda cells: with_boxes(cells, "BIT", [(55, 20, 56, 21, 6)]),
    "scattered": scattered,
    "one": lambda cells: with_boxes(cells, "TOP", [(13, 13, 14, 14, 11)]),
}


def gds_reference(r):
    if r.columns * r.rows == 1:
        return assembler.sref(r.cell, *r.at, r.flip, r.quarters)
    return assembler.aref(r.cell, r.columns, r.rows, r.a, r.b, r.at)


def as_gds(cells):
    parts = [assembler.stream_head()]
    for cell in cells:
        elements = [assembler.box(*box) for box in cell.boxes] + [gds_reference(r) for r in cell.references]
        parts.append(assembler.structure(cell.name, *elements))
    return b"".join(parts) + assembler.STREAM_END


def repetition(r):
    if r.columns > 1 and r.rows > 1 and min(r.a[0], r.b[1]) < 0:
        return assembler.leaning(r.columns, r.rows, r.a, r.b)
    if r.columns > 1 and r.rows > 1:
        return assembler.lattice(r.columns, r.rows, r.a[0], r.b[1])
    if r.columns > 1:
        return assembler.row(r.columns, r.a[0])
    return assembler.column(r.rows, r.b[1]) if r.rows > 1 else b""


def oasis_reference(r):
    record = assembler.placement(r.cell, *r.at, repetition(r))
    return record[:1] + bytes([record[1] | r.quarters << 1 | r.flip]) + record[2:]


def as_oasis(cells):
    parts = [assembler.MAGIC, assembler.start()]
    for cell in cells:
        parts.append(assembler.cell_by_name(cell.name.encode()))
        parts += [assembler.rectangle(x, y, z - x, w - y, layer) for x, y, z, w, layer in cell.boxes]
        parts += [oasis_reference(r) for r in cell.references]
    return b"".join(parts) + assembler.OASIS_END


def main():
    parser = argparse.ArgumentParser(description=__doc__, formatter_class=argparse.RawDescriptionHelpFormatter)
    parser.add_argument("folder")
    parser.add_argument("--bits", default="256x512")
    parser.add_argument("--macros", type=int, default=9)
    parser.add_argument("--standard", type=int, default=20000)
    given = parser.parse_args()
    columns, rows = map(int, given.bits.split("x"))
    cells = chip(columns, rows, given.macros, given.standard)
    os.makedirs(given.folder, exist_ok=True)
    files = {"chip.gds": as_gds(cells), "chip.oas": as_oasis(cells)}
    files.update({word + ".oas": as_oasis(change(cells)) for word, change in WORDS.items()})
    for name, data in files.items():
        with open(os.path.join(given.folder, name), "wb") as file:
            file.write(data)


if __name__ == "__main__":
    main()
