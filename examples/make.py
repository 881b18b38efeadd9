#!/usr/bin/env python3
"""Writes the example layouts; README.md beside it says what each of them is.

    examples/make.py [FOLDER]

The default FOLDER is that of this script.
"""
import argparse
import os
import sys

HERE = os.path.dirname(os.path.abspath(__file__))
sys.path.insert(0, os.path.join(os.path.dirname(HERE), "tools"))
sys.dont_write_bytecode = True

from lib import assembler
from lib.assembler import MAGIC, OASIS_END, STREAM_END, aref, cell_by_number, numbered_name, path, row, signed, sref
from lib.assembler import start, stream_head, structure, text, unsigned

UNITS = bytes.fromhex("3e4189374bc6a7f0") + bytes.fromhex("3944b82fa09b5a54")

# The rectangles of GATE by layer; those on layer 3 are the bands of its path.
GATE = [(1, 0, 0, 40, 20), (2, 10, -5, 14, 25), (3, 18, -2, 32, 2), (3, 28, -2, 32, 22)]
ROWS = [((0, 0), False, 0), ((600, 0), True, 1)]
WIRE = (4, 0, 30, 400, 36)


def library(*structures):
    return stream_head(b"EXAMPLE", UNITS) + b"".join(structures) + STREAM_END


def box(layer, *sides):
    return assembler.box(*sides, layer=layer)


def rectangle(layer, x0, y0, x1, y1):
    return assembler.rectangle(x0, y0, x1 - x0, y1 - y0, layer)


def next_rectangle(layer, x0, y0, x1, y1):
    """A rectangle with the datatype of the one before."""
    return b"\x14\x79" + unsigned(layer) + unsigned(x1 - x0) + unsigned(y1 - y0) + signed(x0) + signed(y0)


def square_path(layer, half, at, steps):
    """A path with square ends, whose steps are along x and y in turn."""
    points = b"\x00" + unsigned(len(steps)) + b"".join(signed(step) for step in steps)
    return b"\x16\xF9" + unsigned(layer) + unsigned(half) + b"\x0A" + points + signed(at[0]) + signed(at[1])


def place_row(number, at, count, step):
    return b"\x11\xF8" + unsigned(number) + signed(at[0]) + signed(at[1]) + row(count, step)


def place_again(at, flip, quarters):
    """A placement of the cell that the placement before has."""
    return b"\x11" + bytes([0x30 | quarters << 1 | flip]) + signed(at[0]) + signed(at[1])


def place_number(number, at):
    return b"\x11\xF0" + unsigned(number) + signed(at[0]) + signed(at[1])


def oasis(*records):
    return MAGIC + start(b"\0" + unsigned(1000)) + b"".join(records) + OASIS_END


def image(at, flip, quarters, x, y):
    if flip:
        y = -y
    x, y = [(x, y), (-y, x), (-x, -y), (y, -x)][quarters]
    return x + at[0], y + at[1]


def placed_rectangle(by, layer, x0, y0, x1, y1):
    (a, b), (c, d) = image(*by, x0, y0), image(*by, x1, y1)
    return layer, min(a, c), min(b, d), max(a, c), max(b, d)


def hierarchy_in_gds():
    wire = path([(20, 0), (30, 0), (30, 20)], 4, layer=3, square=True)
    gate = structure("GATE", box(*GATE[0]), box(*GATE[1]), wire, text(9, (2, 2), b"gate"))
    gates = structure("ROW", aref("GATE", 8, 1, (50, 0), (0, 60)), box(*WIRE))
    chip = structure("CHIP", *[sref("ROW", *at, flip, quarters) for at, flip, quarters in ROWS])
    return library(gate, gates, chip)


def hierarchy_in_oasis():
    gate = cell_by_number(0) + rectangle(*GATE[0]) + next_rectangle(*GATE[1]) + square_path(3, 2, (20, 0), [10, 20])
    gates = cell_by_number(1) + place_row(0, (0, 0), 8, 50) + rectangle(*WIRE)
    chip = cell_by_number(2) + place_number(1, (0, 0)) + place_again((600, 0), True, 1)
    names = [numbered_name(name, number) for number, name in enumerate([b"GATE", b"ROW", b"CHIP"])]
    return oasis(gate, gates, chip, *names)


def flat_rectangles():
    drawn = [WIRE] + [(layer, x0 + 50 * i, y0, x1 + 50 * i, y1) for i in range(8) for layer, x0, y0, x1, y1 in GATE]
    return [placed_rectangle(by, *each) for by in ROWS for each in drawn]


def in_one_cell(rectangles):
    return library(structure("PLAIN", *[box(*each) for each in rectangles]))


def layouts():
    """The bytes of each file, by its name."""
    *others, last = flat_rectangles()
    layer, x0, y0, x1, y1 = last
    return {
        "chip.gds": hierarchy_in_gds(),
        "chip.oas": hierarchy_in_oasis(),
        "plain.gds": in_one_cell([*others, last]),
        "wrong.gds": in_one_cell([*others, (layer, x0, y0, x1 - 1, y1)]),
    }


def main():
    line = argparse.ArgumentParser(description="Writes the example layouts.")
    line.add_argument("folder", metavar="FOLDER", nargs="?", default=HERE, help="where (default: beside this script)")
    folder = line.parse_args().folder
    for name, data in layouts().items():
        with open(os.path.join(folder, name), "wb") as file:
            file.write(data)


if __name__ == "__main__":
    main()
