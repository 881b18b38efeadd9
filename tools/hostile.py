#!/usr/bin/env python3
"""Measures what hostile files cost, a case for each kind, and prints a table of it as in docs/HOSTILE.md.

Each case makes its files and runs the program on them. Its row has the size of the files in bytes, about how many
corners they place, seconds of processor time, the peak of memory in MB, how much of that is beyond 12 bytes for each
byte of the files, and what the program was asked and answered.
"""
import os
import random
import sys
import tempfile
import zlib
from collections import namedtuple

from lib import crafted, options
from lib.assembler import cell_by_name, column, lattice, line, placement, polygon, rectangle, signed, string, unsigned
from lib.crafted import oas_cell, oas_file
from lib.oasis import steps_of

Case = namedtuple("Case", "what corners files words")
# The least coordinate of a position that OASIS can write; the greatest is its negative.
LOW = 1 - 2**63


def case(what, corners, *files, words=("compare",)):
    return Case(what, corners, files, words)


def one(*records):
    return oas_file(oas_cell("TOP", *records))


def combs():
    """A long polygon at places over one another, whose last tooth has another height in the second file."""
    def file(tall):
        teeth = [signed(9), signed(1), signed(-8), signed(1)] * 16_382
        comb = polygon([*teeth, signed(tall), signed(1), signed(1 - tall), signed(1)], 1)
        return one(comb.replace(b"\x15\x3B", b"\x15\x3F", 1) + line(100, 7, 3))
    yield case("a polygon of 65,534 corners at 100 places over one another, edited", 13_106_800, file(9), file(7))


def distinct():
    """Polygons with a byte for each corner, which is kept in 16 bytes."""
    rng, lengths = random.Random(1), bytes((at % 63 + 1) << 1 | at >> 7 for at in range(256))
    rings = (polygon([rng.randbytes(1_000).translate(lengths)], 1, 1_000, (3 * at, 5 * at)) for at in range(30_000))
    yield case("30,000 polygons of 1,000 corners, no two alike", 30_000_000, one(*rings), words=("show",))


def hierarchies():
    def chain(n, width):
        cells = (b"".join(oas_cell("%07d" % at, placement("%07d" % (at + 1), 1, 0))) for at in range(n))
        return oas_file(cells, oas_cell("%07d" % n, rectangle(0, 0, width, 1)))
    yield case("two chains of 1,000,000 cells, the last ones differ", 8, chain(999_999, 1), chain(999_999, 2))
    def doubling(*squares):
        cells = (b"".join(oas_cell("C%d" % at, placement("C%d" % (at + 1)), placement("C%d" % (at + 1))))
                 for at in range(23))
        return oas_file(cells, oas_cell("C23", *squares))
    yield case("23 cells that each place the next one twice on one spot, against one square more", 12 * 2**23,
               doubling(rectangle(0, 0, 1, 1)), doubling(rectangle(0, 0, 1, 1), rectangle(5, 5, 1, 1)))


def placements():
    """Placements by few bytes each."""
    n = 5_000_000
    def file(width, first, step):
        steps = (b"\x11\x20" + signed(step) if step else b"\x11\0") * (n - 1)
        top = oas_cell("TOP", placement("A", first), b"\x10", steps)
        return oas_file(oas_cell("A", rectangle(0, 0, width, 2)), top)
    yield case("5,000,000 placements of 3 bytes, the other way round", 8 * n, file(2, 0, 3), file(2, 3 * (n - 1), -3))
    yield case("5,000,000 placements of 2 bytes, against those of a wider square", 8 * n, file(2, 0, 0), file(3, 0, 0))


def records():
    yield case("100 MB of PAD records", 0, [crafted.OAS_HEAD + cell_by_name(b"A"), 10**8, crafted.OAS_END],
               words=("show",))
    packed = zlib.compressobj(9, wbits=-15)
    inside = packed.compress(bytes(10**8)) + packed.flush()
    yield case("100,000,000 PAD records in one compressed block", 0,
               one(b"\x22\0" + unsigned(10**8) + string(inside)), words=("show", "--unpack"))


def layers():
    file = lambda order: one(b"".join(rectangle(0, 0, 1, 1, at) for at in order))
    n = 1_000_000
    yield case("a million squares on as many Layers, the other way round", 8 * n, file(range(n)),
               file(range(n - 1, -1, -1)))


def in_parts(what, boxes):
    """The boxes against the same boxes, each as two that overlap."""
    parts = [part for x0, y0, x1, y1 in boxes for part in (
        (x0, y0, (x0 + x1) // 2 + 1, y1), ((x0 + x1) // 2, y0, x1, y1))]
    files = (one(b"".join(rectangle(x0, y0, x1 - x0, y1 - y0) for x0, y0, x1, y1 in each)) for each in (boxes, parts))
    return case(what, 12 * len(boxes), *files)


def overlaps():
    n, m = 10_000, 4_000
    yield in_parts("10,000 nested squares, against each in two parts",
                   [(at, at, 3 * n - at, 3 * n - at) for at in range(n)])
    along = [(0, 2 * at, 2 * m, 2 * at + 1) for at in range(m)]
    yield in_parts("a grid of 4,000 by 4,000 wires, against each in two parts",
                   along + [(y0, x0, y1, x1) for x0, y0, x1, y1 in along])
    bars = lambda more: one(rectangle(0, 0, 1, 80_000, 1, line(79_999, 2, 1)), rectangle(0, 10**13, 1, 1, 1, line(
        1_600, 100, 10**11)), rectangle(159_998, 79_999, 1, 80_000 + more))
    yield case("80,000 bars as a stair, which a sample doesn't show", 640_000, bars(0), bars(1))


def arrays():
    n = 1_000_000
    yield case("a column of a million rectangles", 4 * n, one(rectangle(0, 0, 10, 1, 1, column(n, 2))),
               words=("digest",))
    leaf = lambda width: oas_file(oas_cell("A", rectangle(0, 0, width, 1)),
                                  oas_cell("TOP", placement("A", 0, 0, lattice(4096, 4095, 4, 4))))
    yield case("a square at 16.8 million places", 4 * 4096 * 4095, leaf(1), words=("digest",))


def turning(points):
    """A polygon whose edges are along x and y in turn, by a point list of type 0 or 1."""
    deltas = [signed(x + y) for x, y in steps_of(points[:-1])]
    return polygon(deltas, 0 if points[0][1] == points[1][1] else 1, at=points[0])


def wound(rng, times):
    """A ring that goes round a large square at the low end of the grid, each time along a slightly different way."""
    near = lambda: rng.randrange(2**30)
    points = [(LOW + near(), LOW + near())]
    for _ in range(times):
        right, upper, left, lower = -near(), -near(), LOW + near(), LOW + near()
        points += [(right, points[-1][1]), (right, upper), (left, upper), (left, lower)]
    return points[:-2] + [(points[0][0], points[-2][1])]


def rounds():
    rings = [wound(random.Random(at), 1_000) for at in range(16)]
    yield case("16 polygons of 4,000 corners that wind 1,000 times, the other way round", 128_000, *(
        one(*(turning(ring) for ring in order)) for order in (rings, [ring[:1] + ring[:0:-1] for ring in rings])))


def measure(program, each, folder, most):
    """Runs a case and prints its row."""
    names = [os.path.join(folder, "f%d" % at) for at in range(len(each.files))]
    size = sum(crafted.write(name, file) for name, file in zip(names, each.files))
    done = crafted.run(program, [each.words[0], *names, *each.words[1:]], most)
    last = "stopped" if done.status is None else done.output.rstrip("\n").split("\n")[-1].split(" ")[0].rstrip(":")
    beyond = max(0, done.megabytes - 12 * size / 2**20)
    numbers = f"{size:,} | {each.corners:,} | {done.seconds:.1f} | {done.megabytes:,.0f} | {beyond:,.0f}"
    print("| %s | %s | %s: %s |" % (each.what, numbers, each.words[0], last), flush=True)


def main():
    parser = options.parser("Measures what hostile files cost, and prints a table of it.")
    parser.add_argument("--only", metavar="TEXT", default="", help="only the groups whose name contains TEXT")
    parser.add_argument("--most", metavar="SECONDS", type=float, default=300,
                        help="the elapsed seconds after which a run is stopped (default: 300)")
    asked = options.parsed(parser)
    print("| What | Bytes | Placed corners | Seconds | Peak MB | Beyond 12 a byte | Answer |")
    print("|---|---|---|---|---|---|---|")
    with tempfile.TemporaryDirectory(prefix="lvl-hostile-") as folder:
        for group in (combs, distinct, hierarchies, placements, records, layers, overlaps, arrays, rounds):
            for each in group() if asked.only in group.__name__ else ():
                measure(asked.program, each, folder, asked.most)


if __name__ == "__main__":
    sys.exit(main())
