"""Pseudo-random records that draw nothing, of both formats, and where they may come.

`ignore` is the set of words that lets the records in; only records of these words are made. Of nothing, nothing is
made, and no random number is taken.
"""
from lib import assembler, oasis_reader
from lib.assembler import record, signed, string, unsigned

BGNLIB, LIBNAME, STRNAME, ENDEL = 0x01, 0x02, 0x06, 0x11
OPENERS = [0x08, 0x09, 0x0A, 0x0B, 0x0C]
MOST = 2**64 - 1


def characters(rng, least=0, codes=range(0x21, 0x7F)):
    """A string: mostly short, now and then longer than any name may be."""
    length = rng.choice([0, 1, 2, 3, 8, 30, 255, 256, 600]) if rng.random() < 0.3 else rng.randint(0, 6)
    return bytes(rng.choice(codes) for _ in range(max(least, length)))


def repeated(rng, points, ignore):
    """The points of a path, some of them several times in a row if these are ignored."""
    if "points" not in ignore:
        return points
    return [point for point in points for _ in range(rng.choice([1, 1, 1, 1, 2, 3]))]


def some_of(rng, ignore, makers):
    """Some of the records, in their order; each maker has a word, and makes one that is in `ignore`."""
    return b"".join(make() for word, make in makers if word in ignore and rng.random() < 0.4)


# GDSII


def head_records(rng, ignore):
    """What may come between BGNLIB and LIBNAME."""
    number = lambda: rng.randrange(2**16)
    rights = lambda: [(number(), number(), number()) for _ in range(rng.choice([1, 1, 2, 32]))]
    return some_of(rng, ignore, [
        ("names", lambda: assembler.directory_size(number())),
        ("names", lambda: assembler.spacing_rules(characters(rng))),
        ("names", lambda: assembler.security(rights())),
    ])


def library_records(rng, ignore):
    """What may come between LIBNAME and UNITS."""
    names = lambda count: [characters(rng)[:44] for _ in range(count)]
    return some_of(rng, ignore, [
        ("names", lambda: assembler.reference_libraries(names(2))),
        ("names", lambda: assembler.fonts(names(4))),
        ("properties", lambda: assembler.attribute_table(characters(rng))),
        ("names", lambda: assembler.generations(rng.randint(2, 99))),
        ("names", lambda: assembler.library_format()),
    ])


def element_attributes(rng, ignore):
    return some_of(rng, ignore, [
        ("names", lambda: assembler.element_flags(rng.randrange(4))),
        ("names", lambda: assembler.plex(rng.randrange(-(2**31), 2**31))),
    ])


def gds_properties(rng, ignore):
    one = lambda: assembler.gds_property(rng.randrange(2**16), characters(rng))
    return some_of(rng, ignore, [("properties", one)] * 3)


def added_to(rng, kind, item, ignore):
    """A GDSII record with those that may come beside it."""
    if kind == BGNLIB:
        return item + head_records(rng, ignore)
    if kind == LIBNAME:
        return item + library_records(rng, ignore)
    if kind == STRNAME:
        return item + some_of(rng, ignore, [("names", lambda: assembler.structure_class(rng.randrange(2**16)))])
    if kind in OPENERS:
        return item + element_attributes(rng, ignore)
    return gds_properties(rng, ignore) + item if kind == ENDEL else item


def gds_file(rng, data, ignore):
    """A GDSII file with records added."""
    at, out = 0, b""
    while at + 4 <= len(data) and (length := int.from_bytes(data[at:at + 2], "big")):
        out += added_to(rng, data[at + 2], data[at:at + length], ignore)
        at += length
    return out + data[at:]


def gds_record(rng, ignore):
    """A GDSII record that draws nothing, of any kind."""
    makers = [head_records, library_records, element_attributes, gds_properties]
    return rng.choice(makers)(rng, ignore) or record(0x2B, 2, b"\0\1")


# OASIS


def whole(rng):
    """An unsigned integer: mostly small, now and then as large as possible."""
    return unsigned(rng.choice([rng.randrange(200), rng.randrange(200), 2**32, MOST]))


def interval(rng):
    kind = rng.randrange(5)
    return unsigned(kind) + b"".join(whole(rng) for _ in range((0, 1, 1, 1, 2)[kind]))


def value(rng):
    """A value of a property, of any type."""
    kind = rng.randrange(16)
    if kind in (6, 7):
        return unsigned(kind) + rng.randbytes(4 if kind == 6 else 8)
    if kind in (2, 3, 4, 5):
        return unsigned(kind) + (whole(rng) if kind > 3 else b"") + unsigned(rng.randint(1, 300))
    if kind == 9:
        return unsigned(kind) + signed(rng.choice([-1, 1]) * rng.choice([0, 1, 77, 2**63 - 1]))
    if kind in (10, 11, 12):
        codes = (range(0x20, 0x7F), range(256), range(0x21, 0x7F))[kind - 10]
        return unsigned(kind) + string(characters(rng, kind == 12, codes))
    return unsigned(kind) + whole(rng)


def a_property(rng):
    """PROPERTY, or the last one again, in any of the ways in which its fields may be left out."""
    if rng.random() < 0.2:
        return assembler.PROPERTY_AGAIN
    info, by = rng.choice([0, 0, 1, 2]), b""
    if rng.random() < 0.7:
        info, by = info & 1 | 0x04, string(characters(rng, 1))
        if rng.random() < 0.5:
            info, by = info | 0x02, whole(rng)
    if rng.random() < 0.2:
        return b"\x1C" + bytes([info | 0x08]) + by
    values = [value(rng) for _ in range(rng.choice([0, 1, 1, 2, 3, 14, 15, 16]))]
    if len(values) < 15 and rng.random() < 0.8:
        return b"\x1C" + bytes([info | len(values) << 4]) + by + b"".join(values)
    return b"\x1C" + bytes([info | 0xF0]) + by + unsigned(len(values)) + b"".join(values)


def name_record(rng, ignore):
    """One of the records that may come outside cells, or nothing."""
    number = rng.choice([None, rng.randrange(9), MOST])
    texts, anything = characters(rng, 0, range(0x20, 0x7F)), characters(rng, 0, range(256))
    found = [] if "texts" not in ignore else [assembler.named(5, texts, number)]
    if "properties" in ignore:
        found += [assembler.named(7, characters(rng, 1), number), assembler.named(9, anything, number)]
        found.append(a_property(rng))
    if "names" in ignore:
        layers, datatypes = interval(rng), interval(rng)
        found.append(assembler.layer_name(characters(rng, 1), layers, datatypes, rng.random() < 0.5))
        found.append(assembler.x_name(rng.randrange(99), anything, number))
    return rng.choice(found) if found else b""


def between_cells(rng, ignore):
    """What may come before a CELL, a CELLNAME or END."""
    if not ignore:
        return b""
    return b"".join(name_record(rng, ignore) for _ in range(rng.choice([0, 0, 1, 1, 2, 4])))


def text(rng, bits, repetition):
    """TEXT, whose repetition and its info bit are given."""
    fields = b""
    if rng.random() < 0.6:
        by_number = rng.random() < 0.5
        bits |= 0x60 if by_number else 0x40
        fields += whole(rng) if by_number else string(characters(rng, 0, range(0x20, 0x7F)))
    elif rng.random() < 0.3:
        bits |= 0x20
    at = [signed(rng.choice([rng.randint(-9, 9), 2**63 - 1, 1 - 2**63])) for _ in range(2)]
    for bit, field in zip((0x01, 0x02, 0x10, 0x08), (whole(rng), whole(rng), *at)):
        if rng.random() < 0.5:
            bits, fields = bits | bit, fields + field
    return b"\x13" + bytes([bits]) + fields + repetition


def oasis_record(rng, ignore):
    """An OASIS record that draws nothing, of any kind; its repetition, if it has one, may be of type 0."""
    if "texts" in ignore and rng.random() < 0.4:
        repeated = rng.choice([b"", b"\0", assembler.row(3, 7), assembler.column(2, 5)])
        return text(rng, 0x04 if repeated else 0, repeated)
    return name_record(rng, ignore)


class Integers(oasis_reader.Reader):
    """A reader that keeps where each unsigned integer begins and ends."""

    def __init__(self, data, ignore):
        super().__init__(data, ignore)
        self.spans = []

    def unsigned(self):
        begun = self.at
        read = super().unsigned()
        self.spans.append((begun, self.at))
        return read


def padded(rng, data, ignore):
    """An OASIS file with groups of zero bits added to some of its integers, but not in END."""
    if "padding" not in ignore:
        return data
    reader = Integers(data, ignore)
    reader.library()
    out, after = b"", 0
    share = rng.choice([0, 0.02, 0.3])
    for begun, end in reader.spans:
        if rng.random() < share and begun < len(data) - 256:
            most = 256 - (end - begun)
            more = rng.choice([1, rng.randint(1, 12), rng.randint(1, most), most])
            out += data[after:end - 1] + bytes([data[end - 1] | 0x80]) + b"\x80" * (more - 1) + b"\0"
            after = end
    return out + data[after:]


def end(rng, scheme, tables_at_end, ignore):
    """END, now and then with an empty padding whose length has many groups."""
    if "padding" in ignore and rng.random() < 0.4:
        return assembler.padded_end(scheme, bytes(12) if tables_at_end else b"")
    return assembler.end(scheme, tables_at_end)
