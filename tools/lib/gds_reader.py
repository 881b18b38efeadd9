"""A second implementation of the GDSII rules: reads bytes as a library, or refuses them with an offset."""
import struct

from lib.answers import NOTHING, Cell, Lattice, Library, ONCE, Reference, Refused, Shape
from lib.answers import band_rings, oblique, path_fault, points_asked

HEADER, BGNLIB, LIBNAME, UNITS, ENDLIB, BGNSTR, STRNAME, ENDSTR = range(8)
BOUNDARY, PATH, SREF, AREF, TEXT, LAYER, DATATYPE, WIDTH, XY, ENDEL, SNAME, COLROW = range(0x08, 0x14)
TEXTTYPE, PRESENTATION, STRING, STRANS, MAG, ANGLE, PATHTYPE = 0x16, 0x17, 0x19, 0x1A, 0x1B, 0x1C, 0x21
PROPATTR, PROPVALUE, ATTRTABLE = 0x2B, 0x2C, 0x23
LIBDIRSIZE, SRFNAME, LIBSECUR, REFLIBS, FONTS, GENERATIONS, FORMAT = 0x39, 0x3A, 0x3B, 0x1F, 0x20, 0x22, 0x36
STRCLASS, ELFLAGS, PLEX = 0x34, 0x26, 0x2F

EVEN, POINT_BYTES, SECURITY = range(0, 65_532, 2), range(8, 65_532, 8), range(6, 193, 6)
# The data type of each record type, and the length of its payload in bytes, or the range of lengths.
TABLE = {
    HEADER: (2, 2), BGNLIB: (2, 24), LIBNAME: (6, EVEN), UNITS: (5, 16), ENDLIB: (0, 0), BGNSTR: (2, 24),
    STRNAME: (6, EVEN), ENDSTR: (0, 0), BOUNDARY: (0, 0), PATH: (0, 0), SREF: (0, 0), AREF: (0, 0), TEXT: (0, 0),
    LAYER: (2, 2), DATATYPE: (2, 2), WIDTH: (3, 4), XY: (3, POINT_BYTES), ENDEL: (0, 0), SNAME: (6, EVEN),
    COLROW: (2, 4), TEXTTYPE: (2, 2), PRESENTATION: (1, 2), STRING: (6, EVEN), STRANS: (1, 2), MAG: (5, 8),
    ANGLE: (5, 8), PATHTYPE: (2, 2),
}
# The same of the records that draw nothing, by the word that lets them in.
IGNORED = {
    "properties": {PROPATTR: (2, 2), PROPVALUE: (6, EVEN), ATTRTABLE: (6, EVEN)},
    "names": {
        LIBDIRSIZE: (2, 2), SRFNAME: (6, EVEN), LIBSECUR: (2, SECURITY), REFLIBS: (6, EVEN), FONTS: (6, EVEN),
        GENERATIONS: (2, 2), FORMAT: (2, 2), STRCLASS: (1, 2), ELFLAGS: (1, 2), PLEX: (3, 4),
    },
}
# The order of records; a list within a list is optional, and a tuple may come any number of times.
LIBRARY = [
    HEADER, BGNLIB, [LIBDIRSIZE], [SRFNAME], [LIBSECUR], LIBNAME,
    [REFLIBS], [FONTS], [ATTRTABLE], [GENERATIONS], [FORMAT], UNITS,
]
FLAGS, BY, PROPERTIES = [[ELFLAGS], [PLEX]], [STRANS, [MAG], [ANGLE]], (PROPATTR, PROPVALUE)
ELEMENTS = {
    BOUNDARY: [*FLAGS, LAYER, DATATYPE, XY, PROPERTIES, ENDEL],
    PATH: [*FLAGS, LAYER, DATATYPE, [PATHTYPE], [WIDTH], XY, PROPERTIES, ENDEL],
    SREF: [*FLAGS, SNAME, BY, XY, PROPERTIES, ENDEL],
    AREF: [*FLAGS, SNAME, BY, COLROW, XY, PROPERTIES, ENDEL],
    TEXT: [
        *FLAGS, LAYER, TEXTTYPE, [PRESENTATION], [PATHTYPE], [WIDTH], BY, XY, STRING, PROPERTIES, ENDEL,
    ],
}
IN_LIBRARY = {BGNSTR: [STRNAME, [STRCLASS]], ENDLIB: []}
IN_STRUCTURE = {**ELEMENTS, ENDSTR: []}
ONE = bytes.fromhex("4110000000000000")
QUARTERS = [bytes.fromhex(n) for n in ("0000000000000000", "425a000000000000", "42b4000000000000", "4310e00000000000")]
POINTS = {BOUNDARY: (4, 8191), PATH: (2, 8191), SREF: (1, 1), TEXT: (1, 1), AREF: (3, 3)}


def after(order, kind):
    """What may follow a record of the kind that comes next in the order; None if it may not come there."""
    for at, item in enumerate(order):
        if isinstance(item, int):
            return order[at + 1:] if item == kind else None
        rest = after(list(item), kind)
        if rest is not None:
            return rest + order[at + (1 if isinstance(item, list) else 0):]
    return None


def table_of(ignore):
    """The records that are known if these are ignored."""
    table = dict(TABLE)
    for word in ignore:
        table.update(IGNORED.get(word, {}))
    return table


def record(data, at, table):
    """The type and the payload of the record at an offset."""
    def refuse(number, name):
        raise Refused("gds", number, name, at=at)

    if len(data) - at < 4:
        refuse(1, "Truncated")
    length, kind, data_type = struct.unpack_from(">HBB", data, at)
    if length % 2 or length < 4:
        refuse(2, "BadLength")
    if kind >= 60:
        refuse(4, "UnknownRecord")
    known, lengths = table.get(kind, (data_type, EVEN))
    if data_type > 6 or data_type != known:
        refuse(3, "BadDataType")
    if length - 4 not in (lengths if isinstance(lengths, range) else (lengths,)):
        refuse(2, "BadLength")
    if len(data) - at < length:
        refuse(1, "Truncated")
    return kind, data[at + 4:at + length]


def name_of(payload):
    name = payload[:-1] if payload[-1:] == b"\0" else payload
    return name.decode("latin-1") if 1 <= len(name) <= 255 and all(0x21 <= b <= 0x7E for b in name) else None


class Reader:
    def __init__(self, data, ignore):
        self.data, self.at, self.ignore, self.table = data, 0, ignore, table_of(ignore)
        self.order, self.openers = LIBRARY, IN_LIBRARY
        self.cells, self.element, self.values, self.head = [], None, {}, ["", b""]

    def refuse(self, number, name, *values):
        raise Refused("gds", number, name, *values, at=self.at)

    def refuse_if(self, breached, number, name, *values):
        if breached:
            self.refuse(number, name, *values)

    def library(self):
        ended = False
        while not ended:
            kind, payload = record(self.data, self.at, self.table)
            self.refuse_if(not self.is_known(kind, payload), 11, "Unsupported", kind)
            self.place(kind)
            self.value(kind, payload)
            ended = kind == ENDLIB
            self.at += 4 + len(payload)
        rest = self.data[self.at:]
        self.at = len(self.data) - len(rest.lstrip(b"\0"))
        self.refuse_if(self.at < len(self.data), 24, "AfterEnd")
        version, units = self.head
        head = "GDSII version %d units %s %s" % (version, units[:8].hex(), units[8:].hex())
        return Library(head, [Cell(*cell) for cell in self.cells])

    def is_known(self, kind, payload):
        """Whether the record is read: its type is in the table, and a FORMAT is 0."""
        return kind in self.table and (kind != FORMAT or payload == b"\0\0")

    def place(self, kind):
        """Advances the order by the record, which opens an element if it is its first."""
        rest = after(self.order, kind)
        if rest is None and all(isinstance(item, list) for item in self.order):
            rest = self.openers.get(kind)
            if kind in ELEMENTS:
                self.element, self.values = kind, {}
        self.refuse_if(rest is None, 10, "Unexpected", kind)
        self.order = rest

    def value(self, kind, payload):
        shorts = struct.unpack(">%dh" % (len(payload) // 2), payload)
        drawn, placed = self.element in (BOUNDARY, PATH), self.element in (SREF, AREF)
        if kind == HEADER:
            self.head[0] = shorts[0]
        elif kind == UNITS:
            self.head[1] = payload
        elif kind == BGNSTR:
            self.refuse_if(len(self.cells) == 1_048_576, 27, "TooManyCells")
            self.openers = IN_STRUCTURE
        elif kind == ENDSTR:
            self.openers, self.element = IN_LIBRARY, None
        elif kind in (STRNAME, SNAME):
            self.name(kind, payload)
        elif kind in (LAYER, DATATYPE):
            self.refuse_if(drawn and shorts[0] < 0, 12, "Layer")
            self.values[kind] = shorts[0]
        elif kind == XY:
            self.xy(payload)
        elif kind == ENDEL:
            self.end()
        elif self.element == PATH:
            self.path_value(kind, payload)
        elif placed:
            self.place_value(kind, payload, shorts)

    def name(self, kind, payload):
        name = name_of(payload)
        self.refuse_if(name is None, 20, "Name")
        if kind == STRNAME:
            self.cells.append((name, [], []))
        self.values[kind] = name

    def path_value(self, kind, payload):
        value = int.from_bytes(payload, "big", signed=True)
        self.refuse_if(kind == WIDTH and (value <= 0 or value % 2), 22, "Width")
        self.refuse_if(kind == PATHTYPE and value not in (0, 2), 23, "PathType")
        self.values[kind] = value

    def place_value(self, kind, payload, shorts):
        if kind == STRANS:
            self.refuse_if(shorts[0] & 0x7FFF, 15, "Strans")
        elif kind == MAG:
            self.refuse_if(payload != ONE, 16, "Magnification")
        elif kind == ANGLE:
            self.refuse_if(payload not in QUARTERS, 17, "Angle")
        elif kind == COLROW:
            self.refuse_if(min(shorts) < 1, 18, "ColRow")
            self.refuse_if(shorts[0] * shorts[1] > 1_048_576, 26, "Repetition")
        self.values[kind] = shorts if kind == COLROW else payload

    def xy(self, payload):
        points = list(struct.iter_unpack(">ii", payload))
        least, most = POINTS[self.element]
        self.refuse_if(not least <= len(points) <= most, 13, "Points")
        if self.element == BOUNDARY:
            self.refuse_if(points[0] != points[-1], 14, "NotClosed")
            self.refuse_if(oblique(points[:-1]), 25, "Oblique")
        elif self.element == PATH:
            self.refuse_if(WIDTH not in self.values, 22, "Width")
            points = points_asked(points, self.ignore)
            fault = path_fault(points, *self.ends())
            self.refuse_if(fault, 21, "Path", *(fault or ()))
        elif self.element == AREF:
            (x, y), *far = points
            counts = zip(far, self.values[COLROW])
            self.refuse_if(any((bx - x) % n or (by - y) % n for (bx, by), n in counts), 19, "ArrayStep")
        self.values[XY] = points

    def ends(self):
        half = self.values[WIDTH] // 2
        reach = half if self.values.get(PATHTYPE) == 2 else 0
        return half, reach, reach

    def end(self):
        _, shapes, references = self.cells[-1]
        values, points = self.values, self.values[XY]
        if self.element in (BOUNDARY, PATH):
            rings = [points[:-1]] if self.element == BOUNDARY else band_rings(points, *self.ends())
            shapes.append(Shape((values[LAYER], values[DATATYPE]), rings, ONCE))
        elif self.element in (SREF, AREF):
            flip = values.get(STRANS, b"\0")[0] >= 0x80
            quarters = QUARTERS.index(values.get(ANGLE, QUARTERS[0]))
            references.append(Reference(values[SNAME], flip, quarters, points[0], self.shifts(points)))

    def shifts(self, points):
        if self.element == SREF:
            return ONCE
        (columns, rows), ((x, y), (ax, ay), (bx, by)) = self.values[COLROW], points
        return Lattice(((ax - x) // columns, (ay - y) // columns), columns, ((bx - x) // rows, (by - y) // rows), rows)


def read(data, ignore=NOTHING):
    return Reader(data, ignore).library()
