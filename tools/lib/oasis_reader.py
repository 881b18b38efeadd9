"""A second implementation of the OASIS rules: reads bytes as a library, or refuses them with an offset."""
from lib import oasis_blocks, oasis_ignored
from lib.answers import NOTHING, ONCE, Cell, Library, Reference, Refused, Shape
from lib.answers import band_rings, in_range, oblique, path_fault, points_asked
from lib.oasis_values import A_STRING, B_STRING, N_STRING, Values, moved

MAGIC = b"%SEMI-OASIS\r\n"
LAYERS = 2**32
# The records that may be in a cell only, and all that are read whatever is ignored.
IN_CELL = (15, 16, 17, 18, 19, 20, 21, 22)
KNOWN = (0, 1, 2, 3, 4, 13, 14, 15, 16, 17, 18, 20, 21, 22)
GEOMETRY, PLACEMENT = ("geometry-x", "geometry-y"), ("placement-x", "placement-y")


def unit_text(real):
    kind, value = real
    if kind > 5:
        return "hex " + value.hex()
    return {0: "%d", 2: "1/%d", 4: "%d/%d"}[kind] % tuple(value)


def ratio(real):
    """The real as a whole number, if its type is 0, 2 or 4 and it is one."""
    kind, numbers = real
    if kind not in (0, 2, 4):
        return None
    above, below = (numbers[0], 1) if kind == 0 else (1, numbers[0]) if kind == 2 else numbers
    return above // below if above % below == 0 else None


class Reader(Values):
    def __init__(self, data, ignore, unpack=False):
        super().__init__(data, ignore)
        self.known = KNOWN + oasis_ignored.ids(ignore) + ((oasis_blocks.CBLOCK,) if unpack else ())
        self.inside, self.room = False, oasis_blocks.MOST_BYTES
        self.cells, self.in_cell, self.modal = [], False, {}
        self.names, self.numbers, self.used, self.name_kind = set(), {}, [], None

    def library(self):
        for byte in MAGIC:
            self.refuse_if(self.byte() != byte, 20, "Magic")
        self.begun = self.at
        id = self.unsigned()
        self.refuse_if(id != 1, 23, "Unexpected", id)
        unit, tables_at_end = self.start()
        while True:
            self.begun = self.at
            id = self.unsigned()
            self.judge(id)
            if id == 2:
                return Library("OASIS 1.0 unit %s scheme %s" % (unit, self.end(tables_at_end)), self.named())
            self.record(id)

    def judge(self, id):
        """Refuses an id that breaches a rule by itself."""
        self.refuse_if(id not in self.known, 24, "Unsupported", id)
        outer = self.inside and id in oasis_blocks.OUTER
        self.refuse_if(outer or id == 1 or (id in IN_CELL and not self.in_cell), 23, "Unexpected", id)
        self.refuse_if(id in (3, 4) and self.name_kind not in (None, id), 26, "MixedNames")
        self.refuse_if(id in (13, 14) and len(self.cells) == 1_048_576, 39, "TooManyCells")

    def start(self):
        version = self.string(A_STRING, 255)
        self.refuse_if(version != "1.0", 21, "Version")
        unit = self.real()
        self.refuse_if(unit[0] in (1, 3, 5), 22, "Unit")
        flag = self.unsigned()
        self.refuse_if(flag > 1, 29, "Info")
        for _ in range(0 if flag else 12):
            self.unsigned()
        return unit_text(unit), flag == 1

    def end(self, tables):
        for _ in range(12 if tables else 0):
            self.unsigned()
        padding = self.unsigned()
        self.refuse_if(self.at - self.begun + padding + 1 > 256, 35, "EndLength")
        for _ in range(padding):
            self.byte()
        scheme = self.byte()
        self.refuse_if(scheme > 2, 36, "Scheme")
        signature = bytes(self.byte() for _ in range(4 if scheme else 0))
        self.refuse_if(self.at - self.begun != 256, 35, "EndLength")
        self.begun = self.at
        self.refuse_if(self.at < len(self.data), 37, "AfterEnd")
        return "%d signature %s" % (scheme, signature.hex()) if scheme else "0"

    def named(self):
        """The cells, with names in place of the numbers that they and their references use."""
        for number in self.used:
            if number not in self.numbers:
                raise Refused("oasis", 40, "Unresolved", number)
        name = lambda used: self.numbers[used] if isinstance(used, int) else used
        return [
            Cell(name(cell), shapes, [r._replace(cell=name(r.cell)) for r in references])
            for cell, shapes, references in self.cells
        ]

    def record(self, id):
        if id in (3, 4):
            self.cell_name(id)
        elif id in (13, 14):
            self.cells.append((self.number() if id == 13 else self.string(N_STRING, 255), [], []))
            self.modal, self.in_cell = {name: 0 for name in GEOMETRY + PLACEMENT}, True
        elif id in (15, 16):
            self.modal["relative"] = id == 16
        elif id in (17, 18):
            self.placement(id)
        elif id in oasis_ignored.RECORDS:
            self.in_cell = self.in_cell and id not in oasis_ignored.NAMES
            oasis_ignored.RECORDS[id](self)
        elif id == oasis_blocks.CBLOCK:
            oasis_blocks.take(self, lambda: self.string(B_STRING).encode("latin-1"))
        elif id != 0:
            {20: self.rectangle, 21: self.polygon, 22: self.path}[id]()

    def number(self):
        self.used.append(self.unsigned())
        return self.used[-1]

    def cell_name(self, id):
        self.name_kind, self.in_cell = id, False
        name = self.string(N_STRING, 255)
        number = self.unsigned() if id == 4 else len(self.numbers)
        self.refuse_if(number in self.numbers, 27, "NumberTwice")
        self.refuse_if(name in self.names, 28, "NameTwice")
        self.names.add(name)
        self.numbers[number] = name

    def field(self, variable, is_there, value):
        if is_there:
            self.modal[variable] = value()

    def position(self, names, info, x_bit):
        for name, bit in zip(names, (x_bit, x_bit >> 1)):
            if info & bit:
                given = self.signed()
                self.modal[name] = self.modal[name] + given if self.modal.get("relative") else given
        return self.modal[names[0]], self.modal[names[1]]

    def shifts(self, is_there):
        """The shifts of a record; None if its repetition is undefined, which is reported after the other variables."""
        if not is_there:
            return ONCE
        shifts = self.repetition(self.modal.get("repetition"))
        if shifts:
            self.modal["repetition"] = shifts
        return shifts

    def defined(self, variables, shifts):
        for name in variables:
            self.refuse_if(name not in self.modal, 25, "Undefined", name)
        self.refuse_if(shifts is None, 25, "Undefined", "repetition")
        return [self.modal[name] for name in variables]

    def placement(self, id):
        info = self.byte()
        flip, cell = info & 1, self.number if info & 0x40 else lambda: self.string(N_STRING, 255)
        self.field("placement-cell", info & 0x80, cell)
        scale = self.real() if id == 18 and info & 0x04 else (0, [1])
        angle = self.real() if id == 18 and info & 0x02 else (0, [0 if id == 18 else 90 * (info >> 1 & 3)])
        at = self.position(PLACEMENT, info, 0x20)
        shifts = self.shifts(info & 0x08)
        (name,) = self.defined(["placement-cell"], shifts)
        places = [moved(at, corner) for corner in shifts.corners()]
        self.refuse_if(not all(in_range(*at, *place) for place in places), 10, "OutOfRange")
        self.refuse_if(ratio(scale) != 1, 30, "Magnification")
        self.refuse_if(ratio(angle) not in (0, 90, 180, 270), 31, "Angle")
        self.cells[-1][2].append(Reference(name, bool(flip), ratio(angle) // 90, at, shifts))

    def layer(self, info):
        self.field("layer", info & 0x01, self.unsigned)
        self.field("datatype", info & 0x02, self.unsigned)

    def drawn(self, info, variables):
        """The position, shifts, Layer and further variables of a shape, after all its fields were read."""
        at = self.position(GEOMETRY, info, 0x10)
        shifts = self.shifts(info & 0x04)
        layer, datatype, *values = self.defined(["layer", "datatype", *variables], shifts)
        self.refuse_if(max(layer, datatype) >= LAYERS, 38, "Layer")
        self.refuse_if(not in_range(*at), 10, "OutOfRange")
        return at, shifts, (layer, datatype), values

    def placed(self, at, points):
        points = [moved(at, point) for point in points]
        self.refuse_if(not all(in_range(*point) for point in points), 10, "OutOfRange")
        return points

    def rectangle(self):
        info = self.byte()
        self.refuse_if(info & 0xA0 == 0xA0, 29, "Info")
        self.layer(info)
        self.field("geometry-w", info & 0x40, self.unsigned)
        self.field("geometry-h", info & 0x20, self.unsigned)
        if info & 0x80 and "geometry-w" in self.modal:
            self.modal["geometry-h"] = self.modal["geometry-w"]
        at, shifts, layer, (w, h) = self.drawn(info, ["geometry-w", "geometry-h"])
        ring = self.placed(at, [(0, 0), (w, 0), (w, h), (0, h)])
        self.cells[-1][1].append(Shape(layer, [ring], shifts))

    def polygon(self):
        info = self.byte()
        self.refuse_if(info & 0xC0, 29, "Info")
        self.layer(info)
        self.field("polygon-point-list", info & 0x20, lambda: self.point_list(True))
        at, shifts, layer, (points,) = self.drawn(info, ["polygon-point-list"])
        ring = self.placed(at, points)
        self.refuse_if(oblique(ring), 34, "Oblique")
        self.cells[-1][1].append(Shape(layer, [ring], shifts))

    def extension(self, variable, scheme):
        """Sets the reach of an end; scheme 2 sets it only if the half-width is defined."""
        if scheme == 3:
            self.modal[variable] = self.signed()
        elif scheme == 1:
            self.modal[variable] = 0
        elif scheme == 2 and "path-halfwidth" in self.modal:
            self.modal[variable] = self.modal["path-halfwidth"]

    def path(self):
        info = self.byte()
        ends = ["path-start-extension", "path-end-extension"]
        self.layer(info)
        self.field("path-halfwidth", info & 0x40, self.unsigned)
        if info & 0x80:
            schemes = self.byte()
            self.refuse_if(schemes & 0xF0, 29, "Info")
            self.extension(ends[0], schemes >> 2)
            self.extension(ends[1], schemes & 3)
        self.field("path-point-list", info & 0x20, lambda: self.point_list(False))
        at, shifts, layer, values = self.drawn(info, ["path-halfwidth", *ends, "path-point-list"])
        half, start, end, points = values
        points = self.placed(at, points)
        self.refuse_if(min(start, end) < 0, 32, "Extension")
        points = points_asked(points, self.ignore)
        fault = path_fault(points, half, start, end)
        self.refuse_if(fault, 33, "Path", *(fault or ()))
        self.cells[-1][1].append(Shape(layer, band_rings(points, half, start, end), shifts))


def read(data, ignore=NOTHING, unpack=False):
    return Reader(data, ignore, unpack).library()
