#!/usr/bin/env python3
"""Runs `lvl` on files at each limit and one past it, and checks the answers.

The files are made one after another in a temporary folder, and each is removed after its run. A line is
printed for each run: whether the answer is right, what was run, the last line of the answer, seconds of
processor time, peak memory in MB, and the sizes of the files in bytes. Some runs take minutes or 5 GB of
memory; the files of 4 GB are zeros that take no space on disk. The exit status is 1 if an answer is wrong.
"""
import os
import sys
import tempfile
from collections import namedtuple

from lib import crafted, hints, options
from lib.assembler import aref, boundary, box, cell_by_number, column, counted_name, lattice, oas_path, path, placement
from lib.assembler import element, gds_property, layer_name, named, oas_text, polygon, rectangle, row, security, short
from lib.assembler import signed, sref, unsigned, x_name, xy
from lib.crafted import GDS_HEAD, GDS_TEXT, OAS_END, OAS_HEAD, OAS_TEXT, gds_cell, gds_file, oas_cell, oas_file

MOST_BYTES, CELLS, PLACES = 4_294_967_295, 1_048_576, 16_777_216
LONG, IGNORED = 100_000_000, ["--ignore", "all"]
MOST_CELLS, MOST_PLACES, LARGE = 2**24, 2**60, ["--large"]
# A name, the files (each as pieces), further words of the command line, and the lines of the right answer.
Case = namedtuple("Case", "what files words answer")


def shown(what, file, top, cells, layers, words=(), head=None):
    head = head or (GDS_TEXT if what.startswith("gds") else OAS_TEXT)
    lines = ["file: " + head, "top: " + top, "cells: %d" % cells]
    return Case(what, [file], words, lines + ["layer %d datatype %d rings %d" % layer for layer in layers])


def refused(what, file, refusal, words=()):
    return Case(what, [file], words, ["refused: first: " + refusal])


def judged(what, first, second, verdict):
    heads = [GDS_TEXT if next(file) == GDS_HEAD else OAS_TEXT for file in (first(), second())]
    return Case(what, [first(), second()], (), ["first: " + heads[0], "second: " + heads[1], verdict])


def file_bytes():
    square = b"".join(gds_file(gds_cell("TOP", box(0, 0, 10, 10))))
    rest = MOST_BYTES - len(square)
    yield shown("gds bytes", [square, rest], "TOP", 1, [(1, 0, 1)])
    yield refused("gds bytes + 1", [square, rest + 1], "gds 5 TooLong at %d" % MOST_BYTES)
    start = OAS_HEAD + b"".join(oas_cell("TOP", rectangle(0, 0, 10, 10)))
    rest = MOST_BYTES - len(start) - 256
    yield shown("oasis bytes", [start, rest, OAS_END], "TOP", 1, [(1, 0, 1)])
    late = [start, rest + 1, OAS_END]
    yield refused("oasis bytes, END one later", late, "oasis 11 TooLong at %d" % (MOST_BYTES - 255))
    yield refused("oasis bytes + 1", [start, rest, OAS_END, 1], "oasis 11 TooLong at %d" % MOST_BYTES)


def cells():
    for more in (0, 1):
        gds = gds_file(b"".join(gds_cell("%07d" % at)) for at in range(CELLS + more))
        oas = oas_file(b"".join(oas_cell("%07d" % at)) for at in range(CELLS + more))
        words = ["--top", "%07d" % 5]
        if more:
            yield refused("gds cells + 1", gds, "gds 27 TooManyCells at %d" % (len(GDS_HEAD) + CELLS * 44))
            yield refused("oasis cells + 1", oas, "oasis 39 TooManyCells at %d" % (len(OAS_HEAD) + CELLS * 9))
        else:
            yield shown("gds cells", gds, "0000005", CELLS, [], words)
            yield shown("oasis cells", oas, "0000005", CELLS, [], words)
            gds = gds_file(b"".join(gds_cell("%07d" % at)) for at in range(CELLS))
            yield refused("gds cells, no top named", gds, "cells 6 ManyTops")


def chains():
    full, less = aref("A", 1024, 1024, (1, 0), (0, 1)), aref("A", 1025, 1023, (1, 0), (0, 1))
    for what, arrays, answer in (("gds chains", [full] * 15 + [less], None), ("gds chains + 1", [full] * 16, 7)):
        file = gds_file(gds_cell("TOP", *arrays), gds_cell("A"))
        yield refused(what, file, "cells 7 TooManyPlacements") if answer else shown(what, file, "TOP", 2, [])
    for what, n, answer in (("oasis chains", 4095, None), ("oasis chains + 1", 4096, 7)):
        more = placement("A", 0, 0, row(4095, 1)) if not answer else b""
        file = oas_file(oas_cell("TOP", placement("A", 0, 0, lattice(4096, n, 1, 1)), more), oas_cell("A"))
        yield refused(what, file, "cells 7 TooManyPlacements") if answer else shown(what, file, "TOP", 2, [])


def rings():
    squares = [box(at, 0, at + 1, 1) for at in range(16)]
    array = aref("A", 1024, 1024, (20, 0), (0, 20))
    file = gds_file(gds_cell("TOP", array), gds_cell("A", *squares))
    yield shown("gds rings", file, "TOP", 2, [(1, 0, PLACES)])
    file = gds_file(gds_cell("TOP", array, squares[0]), gds_cell("A", *squares))
    yield refused("gds rings + 1", file, "cells 8 TooManyRings")
    many = rectangle(0, 0, 1, 1, 1, lattice(4096, 4096, 2, 2))
    yield shown("oasis rings", oas_file(oas_cell("TOP", many)), "TOP", 1, [(1, 0, PLACES)])
    file = oas_file(oas_cell("TOP", many, rectangle(0, 0, 1, 1)))
    yield refused("oasis rings + 1", file, "cells 8 TooManyRings")


def compared_rings():
    """A grid of 16,777,216 rings against the same grid placed row by row, and against one with a column less."""
    many = lambda: oas_file(oas_cell("TOP", rectangle(0, 0, 1, 1, 1, lattice(4096, 4096, 2, 2))))
    rows = lambda n: oas_file(
        oas_cell("TOP", placement("ROW", 0, 0, column(4096, 2))),
        oas_cell("ROW", rectangle(0, 0, 1, 1, 1, row(n, 2))),
    )
    yield judged("oasis rings, compared", many, lambda: rows(4096), "same")
    verdict = "differ: layer 1 datatype 0 square 8190 0 only in first"
    yield judged("oasis rings, one column less", many, lambda: rows(4095), verdict)


def places():
    for what, file, answer in (
        ("oasis lattice + 1", rectangle(0, 0, 1, 1, 1, row(PLACES + 1, 1)), "oasis 9 RepetitionSize"),
        ("oasis list + 1", rectangle(0, 0, 1, 1, 1, b"\4" + unsigned(CELLS - 1)), "oasis 9 RepetitionSize"),
    ):
        yield refused(what, oas_file(oas_cell("TOP", file)), "%s at %d" % (answer, len(OAS_HEAD) + 5))
    listed = rectangle(0, 0, 1, 1, 1, b"\4" + unsigned(CELLS - 2) + b"\2" * (CELLS - 1))
    yield shown("oasis list", oas_file(oas_cell("TOP", listed)), "TOP", 1, [(1, 0, CELLS)])
    array = aref("A", 1025, 1024, (1, 0), (0, 1))
    at = len(GDS_HEAD) + 28 + 8 + 4 + 6
    yield refused("gds array + 1", gds_file(gds_cell("TOP", array), gds_cell("A")), "gds 26 Repetition at %d" % at)


def stairs(count):
    """The deltas of a staircase: steps of 1 along x and y in turn."""
    return [signed(1)] * count


def deltas():
    record = len(OAS_HEAD) + 5
    for use, made in (("polygon", polygon), ("path", lambda steps: oas_path(steps, 1))):
        file = oas_file(oas_cell("TOP", made(stairs(65_536))))
        yield shown("oasis deltas of a " + use, file, "TOP", 1, [(1, 0, 1 if use == "polygon" else 65_536)])
        file = oas_file(oas_cell("TOP", made(stairs(65_538))))
        yield refused("oasis deltas of a %s + 2" % use, file, "oasis 7 PointCount at %d" % record)
    file = oas_file(oas_cell("TOP", polygon([b"\6"], 2, 65_537)))
    yield refused("oasis deltas + 1", file, "oasis 7 PointCount at %d" % record)


def points():
    """A GDSII record holds at most 8,191 points."""
    up = [((n + 1) // 2, n // 2) for n in range(8188)]
    ring = [*up, (up[-1][0], 9000), (0, 9000)]
    yield shown("gds points of a boundary", gds_file(gds_cell("TOP", boundary(ring))), "TOP", 1, [(1, 0, 1)])
    stair = path([((n + 1) // 2, n // 2) for n in range(8191)], 2)
    yield shown("gds points of a path", gds_file(gds_cell("TOP", stair)), "TOP", 1, [(1, 0, 8190)])


def names():
    long, longer = "N" * 255, "N" * 256
    yield shown("gds name", gds_file(gds_cell(long)), long, 1, [])
    yield refused("gds name + 1", gds_file(gds_cell(longer)), "gds 20 Name at %d" % (len(GDS_HEAD) + 28))
    yield shown("oasis name", oas_file(oas_cell(long)), long, 1, [])
    yield refused("oasis name + 1", oas_file(oas_cell(longer)), "oasis 3 StringByte at %d" % len(OAS_HEAD))
    yield shown("oasis name in a table", oas_file(counted_name(long.encode()), cell_by_number(0)), long, 1, [])
    file = oas_file(counted_name(longer.encode()), cell_by_number(0))
    yield refused("oasis name in a table + 1", file, "oasis 3 StringByte at %d" % len(OAS_HEAD))


def deep():
    """A chain of 1,048,576 cells, against the one square that it places."""
    last = CELLS - 1
    gds = lambda: gds_file(
        (b"".join(gds_cell("%07d" % at, sref("%07d" % (at + 1), 1, 0))) for at in range(last)),
        gds_cell("%07d" % last, box(0, 0, 1, 1)),
    )
    oas = lambda: oas_file(
        (b"".join(oas_cell("%07d" % at, placement("%07d" % (at + 1), 1, 0))) for at in range(last)),
        oas_cell("%07d" % last, rectangle(0, 0, 1, 1)),
    )
    flat = lambda: gds_file(gds_cell("TOP", box(last, 0, last + 1, 1)))
    yield judged("gds chain of cells", gds, flat, "same")
    yield judged("oasis chain of cells", oas, flat, "same")
    yield judged("chains of cells of both", gds, oas, "same")


def round_and_round():
    """A path that goes round a square 16,384 times, against four rectangles that cover the same."""
    steps = [signed(10), signed(10), signed(-10), signed(-10)] * 16_384
    long = lambda: oas_file(oas_cell("TOP", oas_path(steps, 2)))
    ring = lambda: gds_file(
        gds_cell("TOP", *(box(*b) for b in ((-2, -2, 12, 2), (8, -2, 12, 12), (-2, 8, 12, 12), (-2, -2, 2, 12))))
    )
    yield judged("oasis path on itself", long, ring, "same")


def layers():
    oas = lambda layer: oas_file(oas_cell("TOP", rectangle(0, 0, 1, 1, layer)))
    gds = lambda layer: gds_file(gds_cell("TOP", box(0, 0, 1, 1, layer)))
    yield shown("oasis layer", oas(2**32 - 1), "TOP", 1, [(2**32 - 1, 0, 1)])
    yield refused("oasis layer + 1", oas(2**32), "oasis 38 Layer at %d" % (len(OAS_HEAD) + 5))
    yield shown("gds layer", gds(32_767), "TOP", 1, [(32_767, 0, 1)])
    yield refused("gds layer + 1", gds(32_768), "gds 12 Layer at %d" % (len(GDS_HEAD) + 40))


def gds_undrawn():
    """Records that draw nothing, as long and as many as may be."""
    square = short(0x0D, 1), short(0x0E, 0), xy([(0, 0), (1, 0), (1, 1), (0, 1), (0, 0)])
    many = b"".join(gds_property(at % 2**16, b"") for at in range(CELLS))
    file = gds_file(gds_cell("TOP", element(0x08, *square, gds_property(1, b"v" * 65_530), many)))
    yield shown("gds properties of an element", file, "TOP", 1, [(1, 0, 1)], IGNORED)
    head = GDS_HEAD[:34], security([(1, 2, 3)] * 32), GDS_HEAD[34:]
    yield shown("gds rights of a library", [*head, *gds_cell("TOP", box(0, 0, 1, 1)), b"\0\4\4\0"], "TOP", 1,
                [(1, 0, 1)], IGNORED)


def long_strings():
    """Records that draw nothing, with strings longer than any name may be; they take no memory."""
    length, characters = unsigned(LONG), lambda: (b"s" * (LONG // 100) for _ in range(100))
    for what, start, end in (
        ("PROPNAME", b"\7", b""), ("PROPSTRING", b"\x0A", b"\1"), ("LAYERNAME", b"\x0B", b"\0\0"),
        ("XNAME", b"\x1F\7", b"\1"), ("TEXTSTRING", b"\6", b"\1"), ("PROPERTY", b"\x1C\4", b""),
        ("value", b"\x1C\x14\1n\x0B", b""),
    ):
        parts = oas_file(start + length, characters(), end, *oas_cell("TOP"))
        yield shown("oasis string of a " + what, parts, "TOP", 1, [], IGNORED)
    text = oas_cell("TOP", b"\x13\x40" + length, characters())
    yield shown("oasis string of a TEXT", oas_file(text), "TOP", 1, [], IGNORED)
    for what, start in (("string", b"\x0A"), ("count of values", b"\x1C\xF4\1n")):
        endless = [OAS_HEAD, start + unsigned(2**64 - 1), b"\1" * 1000]
        yield refused("oasis %s of 2^64 - 1" % what, endless, "oasis 1 Truncated at %d" % len(OAS_HEAD), IGNORED)


def oasis_undrawn():
    """Records that draw nothing, with as many values, places and groups as may be."""
    many = b"\x1C\xF4\1n" + unsigned(10 * CELLS) + b"\x08\1" * (10 * CELLS)
    yield shown("oasis values of a PROPERTY", oas_file(many, *oas_cell("TOP")), "TOP", 1, [], IGNORED)
    tables = b"".join(
        named(7, b"n") + named(7, b"n", 5) + layer_name(b"n", b"\0", b"\4\7\3") + x_name(1, b"", at)
        for at in range(CELLS)
    )
    yield shown("oasis names of tables", oas_file(tables, *oas_cell("TOP")), "TOP", 1, [], IGNORED)
    text = oas_text(b"", 1, (0, 0), 0, lattice(4096, 4096, 2, 2))
    again = b"\x14\x7F\1\0\1\1\0\0\0"
    yield shown("oasis places of a TEXT", oas_file(oas_cell("TOP", text, again)), "TOP", 1, [(1, 0, PLACES)], IGNORED)
    text = oas_text(b"", 1, (0, 0), 0, row(PLACES + 1, 1))
    at = len(OAS_HEAD) + 5
    yield refused("oasis places of a TEXT + 1", oas_file(oas_cell("TOP", text)), "oasis 9 RepetitionSize at %d" % at,
                  IGNORED)
    texts = oas_text(b"", 1, (0, 0), 0, b"\4" + unsigned(1000) + b"\2" * 1001) * 10_000
    yield shown("oasis repetitions of TEXTs", oas_file(oas_cell("TOP", texts)), "TOP", 1, [], IGNORED)
    padded = unsigned(3, fill=255)
    yield shown("oasis groups", oas_file(b"\x0E" + padded + b"TOP"), "TOP", 1, [], IGNORED)
    padded = unsigned(3, fill=256)
    yield refused("oasis groups + 1", oas_file(b"\x0E" + padded + b"TOP"),
                  "oasis 2 IntegerTooLarge at %d" % len(OAS_HEAD), IGNORED)


def long_files():
    """Files of 5 GB, which are read to their end."""
    square = b"".join(gds_file(gds_cell("TOP", box(0, 0, 10, 10))))
    yield shown("gds of 5 GB", [square, 5 * 10**9 - len(square)], "TOP", 1, [(1, 0, 1)], LARGE)
    strings = ([b"\x1C\x14\1n\x0B" + unsigned(LONG)] + [b"s" * (LONG // 100)] * 100) * 50
    file = [OAS_HEAD, *strings, *oas_cell("TOP", rectangle(0, 0, 10, 10)), OAS_END]
    yield shown("oasis of 5 GB", file, "TOP", 1, [(1, 0, 1)], LARGE + IGNORED)
    late = len(OAS_HEAD) + MOST_BYTES // (LONG + 9) * (LONG + 9)
    yield refused("oasis of 5 GB, not lifted", file, "oasis 11 TooLong at %d" % late, IGNORED)


def lifted_cells():
    """As many cells as --large allows, and one more."""
    for more in (0, 1):
        gds = gds_file(b"".join(gds_cell("%08d" % at)) for at in range(MOST_CELLS + more))
        oas = oas_file(b"".join(oas_cell("%08d" % at)) for at in range(MOST_CELLS + more))
        if more:
            yield refused("gds cells + 1, lifted", gds, "gds 27 TooManyCells at %d" % (len(GDS_HEAD) + MOST_CELLS * 44),
                          LARGE)
            yield refused("oasis cells + 1, lifted", oas, "oasis 39 TooManyCells at %d"
                          % (len(OAS_HEAD) + MOST_CELLS * 10), LARGE)
        else:
            yield shown("gds cells, lifted", gds, "00000005", MOST_CELLS, [], ["--top", "00000005", *LARGE])
            yield shown("oasis cells, lifted", oas, "00000005", MOST_CELLS, [], ["--top", "00000005", *LARGE])


def lifted():
    """As many places as --large allows, and one more."""
    many, square = lattice(2**30, 2**30, 2, 2), rectangle(0, 0, 1, 1)
    shapes = rectangle(0, 0, 1, 1, 1, many)
    yield shown("oasis rings, lifted", oas_file(oas_cell("TOP", shapes)), "TOP", 1, [(1, 0, MOST_PLACES)], LARGE)
    yield refused("oasis rings + 1, lifted", oas_file(oas_cell("TOP", shapes, square)), "cells 8 TooManyRings", LARGE)
    for what, n, answer in (("oasis chains, lifted", 2**30 - 1, None), ("oasis chains + 1, lifted", 2**30, 7)):
        more = placement("A", 0, 0, row(2**30 - 1, 1)) if not answer else b""
        file = oas_file(oas_cell("TOP", placement("A", 0, 0, lattice(2**30, n, 1, 1)), more), oas_cell("A"))
        yield refused(what, file, "cells 7 TooManyPlacements", LARGE) if answer \
            else shown(what, file, "TOP", 2, [], LARGE)
    wide = oas_file(oas_cell("TOP", rectangle(0, 0, 1, 1, 1, lattice(2**30, 2**30 + 1, 1, 1))))
    yield refused("oasis lattice + 1, lifted", wide, "oasis 9 RepetitionSize at %d" % (len(OAS_HEAD) + 5), LARGE)
    array = gds_file(gds_cell("TOP", aref("A", 32_767, 32_767, (1, 0), (0, 1))), gds_cell("A", box(0, 0, 1, 1)))
    yield shown("gds array, lifted", array, "TOP", 2, [(1, 0, 32_767**2)], LARGE)


GROUPS = [
    layers, names, points, deltas, places, chains, rings, compared_rings, cells, deep, round_and_round, file_bytes,
]
# Those that give --ignore.
IGNORING = [gds_undrawn, long_strings, oasis_undrawn]
# Those that give --large.
LIFTING = [lifted, lifted_cells, long_files]


def is_right(program, case, folder, has_hints):
    """Whether the program gives the right answer; prints the line of the run."""
    names = [os.path.join(folder, "%s%d" % (case.what.replace(" ", "-"), at)) for at in range(len(case.files))]
    sizes = [crafted.write(name, file) for name, file in zip(names, case.files)]
    done = crafted.run(program, ["show" if len(names) == 1 else "compare", *names, *case.words])
    for name in names:
        os.remove(name)
    last = case.answer[-1]
    status = 2 if last.startswith("refused") else 1 if last.startswith("differ") else 0
    hint = hints.tops(["%07d" % at for at in range(CELLS)], "--top") if last.endswith("ManyTops") else ""
    if hints.is_lifted(last) and "--large" not in case.words and "oasis list" not in case.what:
        hint = hints.LIFT
    if len(names) == 1:
        hint = hints.named(hint, names[0])
    errors = hint if has_hints else ""
    right = (done.status, done.output, done.errors) == (status, "\n".join(case.answer) + "\n", errors)
    last = done.output.rstrip("\n").split("\n")[-1] if done.output else done.errors.strip()
    figures = "%.2f s, %.0f MB, %s bytes" % (done.seconds, done.megabytes, " and ".join("%d" % n for n in sizes))
    print("%s  %s: %s (%s)" % ("right" if right else "WRONG", case.what, last[:90], figures), flush=True)
    return right


def main():
    line = options.parser("Runs lvl on files at each limit and one past it, and checks the answers.")
    line.add_argument("--only", metavar="TEXT", default="", help="only the groups whose name contains TEXT")
    options.add_older(line)
    asked = options.parsed(line)
    with tempfile.TemporaryDirectory(prefix="lvl-limits-") as folder:
        groups = [each for each in GROUPS + ([] if asked.plain else IGNORING + LIFTING) if asked.only in each.__name__]
        right = [is_right(asked.program, case, folder, not asked.plain) for group in groups for case in group()]
    sys.exit(0 if all(right) else 1)


if __name__ == "__main__":
    main()
