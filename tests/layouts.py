"""Layouts in words, written as GDSII and as OASIS.

    A{                      the beginning of a cell; words outside cells are in a cell TOP
    }                       its end
    0,0..30,20              a box
    0,0;9,0;9,9;0,9         a polygon, by its corners
    4~0,0;9,0;9,9           a path of width 4 with flush ends
    4+~0,0;9,0;9,9          a path with square ends
    A@3,-4                  a reference to the cell A
    A@3,-4^90  A@3,-4^f90   turned by 90, 180 or 270 degrees, or first reflected about the X axis (^f alone too)

Before a box, polygon or path `2/5:` says its Layer, else it is on 1/0. After any of them `*3:10,0` has it at three
places, each 10,0 after the one before it, and `*3:10,0*2:0,20` at two such rows; `*@7,3;9,-4` has it at its place, and
moved from there by 7,3 and by 9,-4; `*=`, in OASIS alone, at the places of the repetition before it. A word
`%comb:4:5` stands for more words, which made.py makes.

In OASIS a box is a RECTANGLE, and a POLYGON begins at its first corner at which a point list can begin.
"""
import re
import struct
from collections import namedtuple
from functools import lru_cache

import made
from lib import assembler, oasis, spelling
from lib.crafted import GDS_HEAD, GDS_END, OAS_HEAD, OAS_END

# The arrays of a word: counts and steps, or a list of shifts, or the ones before.
ARRAYS = r"((?:\*\d+:-?\d+,-?\d+)*|\*@[-\d,;]+|\*=)"
SAME = "the places before"
Item = namedtuple("Item", "kind layer points width square name flip quarters at arrays")


def points_of(text):
    return [tuple(map(int, point.split(","))) for point in text.split(";")]


def arrays_of(text):
    """The counts and steps of what `*3:10,0*2:0,20` says, or the shifts of a list, or the same as before."""
    if text == "*=":
        return SAME
    if text.startswith("*@"):
        return tuple(points_of("0,0;" + text[2:]))
    found = re.findall(r"\*(\d+):(-?\d+),(-?\d+)", text)
    return [(int(count), (int(x), int(y))) for count, x, y in found]


def reference(word):
    """A reference in a word, if it is one."""
    found = re.fullmatch(r"([^@:;*]+)@(-?\d+,-?\d+)(?:\^(f?)(\d*))?" + ARRAYS, word)
    if not found:
        return None
    name, at, flip, angle, arrays = found.groups()
    return Item("reference", None, None, 0, False, name, bool(flip), int(angle or 0) // 90, points_of(at)[0],
                arrays_of(arrays))


def shape(word):
    """A box, polygon or path in a word."""
    found = re.fullmatch(r"(?:(\d+)/(\d+):)?(?:(\d+)(\+?)~)?([-\d,;.]+)" + ARRAYS, word)
    if not found:
        raise ValueError("no word of layouts: " + word)
    layer, datatype, width, square, points, arrays = found.groups()
    if ".." in points:
        (x0, y0), (x1, y1) = (points_of(corner)[0] for corner in points.split(".."))
        corners = [(x0, y0), (x1, y0), (x1, y1), (x0, y1)]
    else:
        corners = points_of(points)
    kind = "path" if width else "box" if ".." in points else "ring"
    return Item(kind, (int(layer or 1), int(datatype or 0)), corners, int(width or 0), bool(square), None, False, 0,
                (0, 0), arrays_of(arrays))


def cells(words):
    """The cells in file order, each with its name and its words."""
    found, inside = [], None
    for word in made.words(words):
        if word.endswith("{"):
            inside = word[:-1]
            found.append((inside, []))
        elif word == "}":
            inside = None
        else:
            if inside is None:
                inside = "TOP"
                found.append((inside, []))
            found[-1][1].append(word)
    return found or [("TOP", [])]


def places(item):
    """All shifts of an item, the first array running fastest."""
    if isinstance(item.arrays, tuple):
        return item.arrays
    shifts = [(0, 0)]
    for count, (x, y) in item.arrays:
        shifts = [(i * x + dx, i * y + dy) for i in range(count) for dx, dy in shifts]
    return shifts


def moved(points, shift):
    return [(x + shift[0], y + shift[1]) for x, y in points]


def gds_reference(item):
    """An SREF, or an AREF if there is an array; an SREF for each shift of a list."""
    if isinstance(item.arrays, tuple):
        return b"".join(gds_reference(item._replace(at=at, arrays=[])) for at in moved(item.arrays, item.at))
    name = assembler.record(0x12, 6, item.name.encode())
    by = assembler.turned(item.flip, item.quarters)
    if not item.arrays:
        return assembler.element(0x0A, name, by, assembler.xy([item.at]))
    (m, a), (n, b) = [*item.arrays, (1, (0, 0))][:2]
    size = assembler.record(0x13, 2, struct.pack(">hh", m, n))
    far = moved([(0, 0), (m * a[0], m * a[1]), (n * b[0], n * b[1])], item.at)
    return assembler.element(0x0B, name, by, size, assembler.xy(far))


@lru_cache(maxsize=1024)
def gds_item(word):
    item = reference(word) or shape(word)
    if item.kind == "reference":
        return gds_reference(item)
    if item.kind == "path":
        return b"".join(assembler.path(moved(item.points, shift), item.width, *item.layer, square=item.square)
                        for shift in places(item))
    return b"".join(assembler.boundary(moved(item.points, shift), *item.layer) for shift in places(item))


def as_gds(words):
    """The layout as GDSII: arrays of references are AREFs, arrays of shapes are shapes."""
    structures = [assembler.structure(name, *map(gds_item, items)) for name, items in cells(words)]
    return GDS_HEAD + b"".join(structures) + GDS_END


def repetition(item):
    """The bytes of a repetition of type 8, 9, 10 or 0, of type 2 for a step that no delta can be, or nothing."""
    if not item.arrays:
        return b""
    if item.arrays == SAME:
        return b"\0"
    if isinstance(item.arrays, tuple):
        steps = oasis.steps_of(item.arrays)
        return b"\x0A" + assembler.unsigned(len(steps) - 1) + b"".join(assembler.g_delta(*step) for step in steps)
    if len(item.arrays) == 1:
        (count, (x, y)), = item.arrays
        return assembler.row(count, x) if x >= 2**62 and y == 0 else assembler.line(count, x, y)
    (m, a), (n, b) = item.arrays
    return assembler.leaning(m, n, a, b)


def oas_reference(item):
    """A PLACEMENT of all fields, turned by a multiple of 90 degrees."""
    more = repetition(item)
    info = 0xB0 | (0x08 if more else 0) | item.quarters << 1 | item.flip
    return b"\x11" + bytes([info]) + assembler.string(item.name.encode()) + \
        assembler.signed(item.at[0]) + assembler.signed(item.at[1]) + more


def started(points):
    """The ring from its first corner at which a point list can begin, or from a point within it."""
    good = spelling.starts(points)
    if good:
        return points[good[0]:] + points[:good[0]]
    (x, y), way = map(spelling.between, zip(*points)), points[0]
    return [(x, y), (way[0], y), *points, way, (way[0], y)]


def listed(points):
    """The points as a point list of type 4."""
    deltas = [assembler.g_delta(*part) for step in oasis.steps_of(points) for part in oasis.cut(step)]
    return assembler.unsigned(4) + assembler.unsigned(len(deltas)) + b"".join(deltas)


def is_rectangle(item):
    """Whether the item is a box that a RECTANGLE can be."""
    (x0, y0), _, (x1, y1), _ = item.points if item.kind == "box" else [(1, 1), (0, 0), (0, 0), (0, 0)]
    return spelling.LEAST < x0 <= x1 and spelling.LEAST < y0 <= y1


def oas_shape(item):
    """A RECTANGLE, a POLYGON, or a PATH whose ends are flush or reach half of its width."""
    more = repetition(item)
    points = item.points if item.kind == "path" else started(item.points)
    if item.kind == "path":
        ends = b"\x0A" if item.square else b"\x05"
        id, bits, said = 0x16, 0xFB, assembler.unsigned(item.width // 2) + ends + listed(points)
    elif is_rectangle(item):
        (x0, y0), _, (x1, y1), _ = points
        id, bits, said = 0x14, 0x7B, assembler.unsigned(x1 - x0) + assembler.unsigned(y1 - y0)
    else:
        id, bits, said = 0x15, 0x3B, listed(points)
    layer, at = map(assembler.unsigned, item.layer), map(assembler.signed, points[0])
    return bytes([id, bits | (0x04 if more else 0)]) + b"".join([*layer, said, *at, more])


@lru_cache(maxsize=1024)
def oas_item(word):
    item = reference(word)
    return oas_reference(item) if item else oas_shape(shape(word))


def as_oas(words):
    """The layout as OASIS: arrays are repetitions."""
    found = [assembler.cell_by_name(name.encode()) + b"".join(map(oas_item, items)) for name, items in cells(words)]
    return OAS_HEAD + b"".join(found) + OAS_END
