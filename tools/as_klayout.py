#!/usr/bin/env python3
"""Writes a small hierarchy by hand as KLayout writes it, and checks what is read of it.

The OASIS files are those of KLayout's strict mode with standard properties: tables of names at the end with
properties of their own, offsets of the tables in END, layer names, texts by number, and an END whose padding is
empty and has its length in 200 bytes or more. Each is compared with the same hierarchy as plain GDSII, by the
second reading of the rules, and with --program by the program. With a folder as its argument, the script leaves the
files there.
"""
import argparse
import os
import subprocess
import sys
import tempfile

sys.dont_write_bytecode = True

from lib import answers, gds_reader, oasis_reader
from lib.answers import NOTHING
from lib.assembler import MAGIC, STREAM_END, aref, boundary, box, cell_by_number, counted_name, layer_name, named
from lib.assembler import oas_property, padded_end, path, signed, sref, start, stream_head, string, structure, text
from lib.assembler import unsigned, x_name

THOUSAND = b"\0\xE8\x07"
# Property names, in the order of their table, which numbers them from 0.
TOP_CELL, SIGNED_WIDTH, UNSIGNED_WIDTH, STRING_LENGTH, POLYGON_POINTS = range(5)
PATH_POINTS, BOXES, OFFSET, BOX, USER = range(5, 10)
PROPERTIES = [
    b"S_TOP_CELL", b"S_MAX_SIGNED_INTEGER_WIDTH", b"S_MAX_UNSIGNED_INTEGER_WIDTH", b"S_MAX_STRING_LENGTH",
    b"S_POLYGON_MAX_VERTICES", b"S_PATH_MAX_VERTICES", b"S_BOUNDING_BOXES_AVAILABLE", b"S_CELL_OFFSET",
    b"S_BOUNDING_BOX", b"net",
]
CELLS = [b"GATE", b"ROW", b"CHIP"]
GATE, ROW, CHIP = range(3)
LAYERS = [(b"active", 1, 0), (b"poly", 2, 0), (b"metal", 3, 0), (b"metal.fill", 3, 5)]
BOUNDS = [(0, -50, 400, 300), (0, -50, 3900, 900), (-4000, -50, 9000, 9050)]
STEP = [(0, 210), (0, 300), (90, 300), (90, 250), (50, 250), (50, 210)]


def only(number):
    """The interval of one number."""
    return b"\3" + unsigned(number)


def number(value):
    """The value of a property that is an unsigned integer."""
    return b"\x08" + unsigned(value)


def name(text):
    return b"\x0C" + string(text)


def file_properties():
    """The standard properties of the file, which come after START."""
    return b"".join([
        oas_property(SIGNED_WIDTH, number(4), standard=True), oas_property(UNSIGNED_WIDTH, number(4), standard=True),
        oas_property(STRING_LENGTH, number(64), standard=True), oas_property(POLYGON_POINTS, number(6), standard=True),
        oas_property(PATH_POINTS, number(3), standard=True), oas_property(BOXES, number(2), standard=True),
        oas_property(TOP_CELL, name(CELLS[CHIP]), standard=True),
    ])


def gate():
    """Two boxes, one with a property of its own and of its place, a path, a polygon, and two texts."""
    boxes = b"\x14\x7B\1\0" + unsigned(400) + unsigned(200) + signed(0) + signed(0)
    boxes += oas_property(USER, b"\x0A" + string(b"vdd!")) + b"\x1D"
    boxes += b"\x14\x7B\2\0" + unsigned(40) + unsigned(300) + signed(100) + signed(-50)
    wire = b"\x16\xFB\3\0" + unsigned(20) + b"\x0A" + b"\0\2" + signed(100) + signed(200) + signed(200) + signed(0)
    deltas = [signed(90), signed(90), signed(-50), signed(-40)]
    step = b"\x15\x3B\3\5" + b"\1\4" + b"".join(deltas) + signed(0) + signed(210)
    labels = b"\x13\x7B\0\2\0" + signed(10) + signed(20) + b"\x13\x78\1" + signed(300) + signed(-5)
    return cell_by_number(GATE) + boxes + wire + step + labels


def row():
    """Eight gates by two, 500 and 600 apart; a label along the row in four places."""
    label = b"\x13\x7F\0\2\0" + signed(0) + signed(0) + b"\2\2" + unsigned(1000)
    gates = b"\x11\xF8" + unsigned(GATE) + signed(0) + signed(0) + b"\1\6\0" + unsigned(500) + unsigned(600)
    return cell_by_number(ROW) + label + gates


def chip():
    """Three rows: as it is, reflected and turned by a quarter, and turned by a half."""
    places = b"\x11\xF0" + unsigned(ROW) + signed(0) + signed(0)
    places += b"\x1C\x26" + unsigned(USER) + b"\x0A" + string(b"vss") + b"\x09" + signed(-7)
    places += b"\x11\x33" + signed(6000) + signed(0) + b"\x11\x34" + signed(0) + signed(9000)
    return cell_by_number(CHIP) + places


def tables(offsets):
    """The tables of names, each with the place in END where its offset comes, in KLayout's order."""
    cells = b"".join(
        counted_name(cell) + oas_property(OFFSET, number(offset), standard=True)
        + oas_property(BOX, *box_values(bounds), standard=True)
        for cell, offset, bounds in zip(CELLS, offsets, BOUNDS)
    )
    layers = b"".join(
        layer_name(name, only(layer), only(datatype), of_texts)
        for name, layer, datatype in LAYERS for of_texts in (False, True)
    )
    return [
        (0, cells), (1, named(5, b"in") + named(5, b"out 1")), (2, b"".join(named(7, each) for each in PROPERTIES)),
        (4, layers), (3, named(9, b"unused", 4)), (5, x_name(7, b"\0\xFF")),
    ]


def box_values(bounds):
    """The values of S_BOUNDING_BOX: flags, the lower left corner, the width and the height."""
    x0, y0, x1, y1 = bounds
    return number(0), b"\x09" + signed(x0), b"\x09" + signed(y0), number(x1 - x0), number(y1 - y0)


def oasis(strict=True):
    """The file; if it isn't strict, the offsets of the tables are 0, and START has them."""
    out = MAGIC + start(THOUSAND, tables_at_end=strict) + file_properties()
    offsets = []
    for cell in (gate(), row(), chip()):
        offsets.append(len(out))
        out += cell
    places = [0] * 6
    for place, table in tables(offsets):
        places[place] = len(out)
        out += table
    return out + padded_end(tables=b"".join(b"\1" + unsigned(at) for at in places) if strict else b"")


def gds():
    """The same hierarchy as plain GDSII, with no record that draws nothing but a text."""
    wire, step = path([(200, 0), (300, 0), (300, 200)], 40, 3, square=True), boundary(STEP, 3, 5)
    label = text(2, (10, 20), b"in")
    gates = structure("GATE", box(0, 0, 400, 200), box(100, -50, 140, 250, 2), wire, step, label)
    rows = structure("ROW", aref("GATE", 8, 2, (500, 0), (0, 600)))
    places = sref("ROW"), sref("ROW", 6000, 0, True, 1), sref("ROW", 0, 9000, False, 2)
    return stream_head() + gates + rows + structure("CHIP", *places) + STREAM_END


def answers_of(data):
    """The words of --ignore, and how the last line of `lvl show` begins, for an OASIS file."""
    shown, end = "layer 3 datatype 5 rings 48", len(data) - 256
    refused = "refused: first: oasis "
    first = data.index(file_properties())
    return [
        ("all", shown), ("names,padding,texts,properties", shown),
        ("", refused + "24 Unsupported 28 at %d" % first),
        ("names,padding,texts", refused + "24 Unsupported 28 at %d" % first),
        ("properties", refused + "24 Unsupported 19 at "),
        ("properties,names,padding", refused + "24 Unsupported 19 at "),
        ("properties,texts,padding", refused + "24 Unsupported 11 at "),
        ("properties,texts,names", refused + "2 IntegerTooLarge at %d" % end),
    ]


def read(data, ignore):
    return (oasis_reader if data[:1] == b"%" else gds_reader).read(data, ignore)


def checked(what, found, expected):
    if not found.startswith(expected):
        print("%s:\n  expected %s\n  answered %s" % (what, expected, found))
    return found.startswith(expected)


def second(words, *files):
    """The last line of the comparison of two files, or of what is shown of one, by the second reading."""
    ignore = answers.ignored(words) if words else NOTHING
    if len(files) == 1:
        return answers.show(read, *files, None, ignore).text.split("\n")[-1]
    return answers.compare(read, *files, (None, None), ignore).text.split("\n")[-1]


def first(program, words, *names):
    """The same, by the program."""
    line = [program, "compare" if len(names) == 2 else "show", *names, *(["--ignore", words] if words else [])]
    return subprocess.run(line, capture_output=True, text=True).stdout.rstrip("\n").split("\n")[-1]


def checks(program, folder, files):
    names = {name: os.path.join(folder, name) for name in files}
    for name, data in files.items():
        with open(names[name], "wb") as out:
            out.write(data)
    for name in [name for name in files if name.endswith(".oas")]:
        runs = [(words, (name,), line) for words, line in answers_of(files[name])]
        for words, used, line in [*runs, ("all", ("plain.gds", name), "same"), ("all", (name, "plain.gds"), "same")]:
            what = "%s with --ignore %s" % (" ".join(used), words)
            yield checked("second reading of " + what, second(words, *[files[each] for each in used]), line)
            if program:
                yield checked(what, first(program, words, *[names[each] for each in used]), line)


def main():
    line = argparse.ArgumentParser(description="Writes files as KLayout does, and checks what is read of them.")
    line.add_argument("--program", metavar="FILE", help="run this program on the files too")
    line.add_argument("folder", nargs="?", help="where to leave the files")
    asked = line.parse_args()
    files = {"plain.gds": gds(), "strict.oas": oasis(), "loose.oas": oasis(strict=False)}
    with tempfile.TemporaryDirectory() as folder:
        found = list(checks(asked.program, asked.folder or folder, files))
    print("as_klayout: %d of %d are right" % (sum(found), len(found)))
    return 0 if all(found) else 1


if __name__ == "__main__":
    sys.exit(main())
