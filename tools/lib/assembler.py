"""The bytes of GDSII and OASIS records, from their fields. All scripts that write layout files use this module."""
import struct

# The GDSII reals 0, 90, 180 and 270, by number of quarter turns, and the bit of STRANS that means reflected.
ANGLES = [bytes(8), *map(bytes.fromhex, ("425a000000000000", "42b4000000000000", "4310e00000000000"))]
REFLECTED = 0x8000


def record(kind, data_type, payload=b""):
    """A GDSII record; a payload of odd length is padded with a zero byte."""
    payload += b"\0" * (len(payload) % 2)
    return struct.pack(">HBB", len(payload) + 4, kind, data_type) + payload


def short(kind, value, data_type=2):
    return record(kind, data_type, struct.pack(">H", value & 0xFFFF))


def xy(points):
    flat = [number for point in points for number in point]
    return record(0x10, 3, struct.pack(">%di" % len(flat), *flat))


def element(kind, *records):
    return record(kind, 0) + b"".join(records) + record(0x11, 0)


def boundary(points, layer=1, datatype=0):
    """A boundary of these points; the closing point is added."""
    return element(0x08, short(0x0D, layer), short(0x0E, datatype), xy([*points, points[0]]))


def box(x0, y0, x1, y1, layer=1, datatype=0):
    return boundary([(x0, y0), (x1, y0), (x1, y1), (x0, y1)], layer, datatype)


def path(points, width, layer=1, datatype=0, square=False):
    """A path with flush ends, or with square ones."""
    ends = short(0x21, 2) if square else b""
    wide = record(0x0F, 3, struct.pack(">i", width))
    return element(0x09, short(0x0D, layer), short(0x0E, datatype), ends, wide, xy(points))


def text(layer, at, characters):
    return element(0x0C, short(0x0D, layer), short(0x16, 0), xy([at]), record(0x19, 6, characters))


def turned(flip, quarters):
    if not flip and quarters == 0:
        return b""
    return short(0x1A, REFLECTED if flip else 0, 1) + record(0x1C, 5, ANGLES[quarters])


def sref(name, x=0, y=0, flip=False, quarters=0):
    return element(0x0A, record(0x12, 6, name.encode()), turned(flip, quarters), xy([(x, y)]))


def aref(name, columns, rows, a, b, at=(0, 0)):
    """An array of a cell; `a` is the step from column to column, `b` the step from row to row."""
    x, y = at
    far = [at, (x + columns * a[0], y + columns * a[1]), (x + rows * b[0], y + rows * b[1])]
    size = record(0x13, 2, struct.pack(">hh", columns, rows))
    return element(0x0B, record(0x12, 6, name.encode()), size, xy(far))


def structure_start(name):
    return record(0x05, 2, bytes(24)) + record(0x06, 6, name.encode())


STRUCTURE_END = record(0x07, 0)


def structure(name, *elements):
    return structure_start(name) + b"".join(elements) + STRUCTURE_END


def stream_head(name=b"L", units=bytes(16)):
    return short(0x00, 600) + record(0x01, 2, bytes(24)) + record(0x02, 6, name) + record(0x03, 5, units)


STREAM_END = record(0x04, 0)


# GDSII records that draw nothing.
def gds_property(attribute, value):
    """PROPATTR and PROPVALUE, before ENDEL."""
    return short(0x2B, attribute) + record(0x2C, 6, value)


def attribute_table(name):
    return record(0x23, 6, name)


def directory_size(pages):
    return short(0x39, pages)


def spacing_rules(name):
    return record(0x3A, 6, name)


def security(rights):
    """LIBSECUR; each right is a group, a user and bits."""
    flat = [number for right in rights for number in right]
    return record(0x3B, 2, struct.pack(">%dH" % len(flat), *flat))


def reference_libraries(names):
    return record(0x1F, 6, b"".join(name.ljust(44, b"\0") for name in names))


def fonts(names):
    return record(0x20, 6, b"".join(name.ljust(44, b"\0") for name in names))


def generations(count):
    return short(0x22, count)


def library_format(number=0):
    return short(0x36, number)


def structure_class(bits):
    return short(0x34, bits, 1)


def element_flags(bits):
    return short(0x26, bits, 1)


def plex(number):
    return record(0x2F, 3, struct.pack(">i", number))


# The first bytes of an OASIS file.
MAGIC = b"%SEMI-OASIS\r\n"


def unsigned(value, fill=0):
    """An unsigned integer, in as few bytes as possible and `fill` more."""
    groups = [value & 0x7F]
    while value := value >> 7:
        groups.append(value & 0x7F)
    groups += [0] * fill
    return bytes([group | 0x80 for group in groups[:-1]] + [groups[-1]])


def signed(value):
    return unsigned(2 * abs(value) + (value < 0))


def string(data):
    return unsigned(len(data)) + data


def g_delta(x, y):
    """A g-delta in its form of two integers."""
    return unsigned(abs(x) << 2 | (x < 0) << 1 | 1) + unsigned(abs(y) << 1 | (y < 0))


def start(unit=b"\0\1", tables_at_end=False):
    """START; the unit is the bytes of a real, and the offsets of the tables are here or in END."""
    return b"\x01" + string(b"1.0") + unit + (b"\1" if tables_at_end else b"\0" + bytes(12))


def end(scheme=b"\0", tables_at_end=False):
    """END, of 256 bytes; the scheme has its signature after it."""
    tables = bytes(12) if tables_at_end else b""
    padding = 256 - 1 - len(tables) - 2 - len(scheme)
    return b"\x02" + tables + unsigned(padding) + bytes(padding) + scheme


def padded_end(scheme=b"\0", tables=b""):
    """END as KLayout writes it: an empty padding, whose length has so many groups that END has 256 bytes."""
    groups = 256 - 1 - len(tables) - len(scheme)
    return b"\x02" + tables + unsigned(0, fill=groups - 1) + scheme


OASIS_END = end()


def counted_name(name):
    """A CELLNAME whose number is the count of those before it."""
    return b"\x03" + string(name)


def numbered_name(name, number):
    return b"\x04" + string(name) + unsigned(number)


def cell_by_number(number):
    return b"\x0D" + unsigned(number)


def cell_by_name(name):
    return b"\x0E" + string(name)


def rectangle(x, y, w, h, layer=1, repetition=b""):
    fields = unsigned(layer) + b"\0" + unsigned(w) + unsigned(h) + signed(x) + signed(y)
    return b"\x14" + (b"\x7F" if repetition else b"\x7B") + fields + repetition


def placement(name, x=0, y=0, repetition=b""):
    fields = string(name.encode()) + signed(x) + signed(y)
    return b"\x11" + (b"\xB8" if repetition else b"\xB0") + fields + repetition


def polygon(deltas, kind=0, count=None, at=(0, 0)):
    """A polygon on layer 1; `count` is the count that its point list gives, by default that of the deltas."""
    count = len(deltas) if count is None else count
    position = signed(at[0]) + signed(at[1])
    return b"\x15\x3B\1\0" + unsigned(kind) + unsigned(count) + b"".join(deltas) + position


def oas_path(deltas, half):
    """A path on layer 1 with flush ends, whose deltas are along x and y in turn."""
    return b"\x16\xFB\1\0" + unsigned(half) + b"\5\0" + unsigned(len(deltas)) + b"".join(deltas) + b"\0\0"


def lattice(m, n, x, y):
    """A repetition of m columns and n rows, x and y apart."""
    return b"\1" + unsigned(m - 2) + unsigned(n - 2) + unsigned(x) + unsigned(y)


def leaning(m, n, a, b):
    """A repetition of m columns and n rows, whose steps are points."""
    return b"\x08" + unsigned(m - 2) + unsigned(n - 2) + g_delta(*a) + g_delta(*b)


def row(n, step):
    """A repetition of n places along x, a step apart."""
    return b"\2" + unsigned(n - 2) + unsigned(step)


def column(n, step):
    """A repetition of n places along y, a step apart."""
    return b"\3" + unsigned(n - 2) + unsigned(step)


def line(n, x, y):
    """A repetition of n places, each moved by x and y from the one before."""
    return b"\x09" + unsigned(n - 2) + g_delta(x, y)


# OASIS records that draw nothing.
def named(id, text, number=None):
    """A string, or with the next id a string and its number: TEXTSTRING 5, PROPNAME 7 or PROPSTRING 9."""
    return unsigned(id) + string(text) if number is None else unsigned(id + 1) + string(text) + unsigned(number)


def x_name(attribute, text, number=None):
    if number is None:
        return b"\x1E" + unsigned(attribute) + string(text)
    return b"\x1F" + unsigned(attribute) + string(text) + unsigned(number)


def layer_name(name, layers, datatypes, of_texts=False):
    """LAYERNAME; both intervals are the bytes of their types and bounds."""
    return (b"\x0C" if of_texts else b"\x0B") + string(name) + layers + datatypes


def oas_text(characters, layer, at, texttype=0, repetition=b""):
    fields = string(characters) + unsigned(layer) + unsigned(texttype) + signed(at[0]) + signed(at[1])
    return b"\x13" + (b"\x5F" if repetition else b"\x5B") + fields + repetition


def oas_property(name, *values, standard=False):
    """PROPERTY with a name, which is a number or bytes, and values, each the bytes of its type and itself."""
    by = unsigned(name) if isinstance(name, int) else string(name)
    count = b"" if len(values) < 15 else unsigned(len(values))
    info = min(len(values), 15) << 4 | 0x04 | (0x02 if isinstance(name, int) else 0) | (0x01 if standard else 0)
    return b"\x1C" + bytes([info]) + by + count + b"".join(values)


# PROPERTY again, with the name and the values of the last one.
PROPERTY_AGAIN = b"\x1D"
