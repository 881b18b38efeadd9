"""The OASIS records that draw nothing, for the second implementation of the rules.

Each is read in full, by its section of P39. None sets anything but TEXT, which shares the modal repetition.
"""
from lib.oasis_values import A_STRING, B_STRING, N_STRING


def layer_name(reader):
    """LAYERNAME: a name, and the intervals of layers and of datatypes (or text types) that have it."""
    reader.string(N_STRING)
    interval(reader)
    interval(reader)


def interval(reader):
    """All numbers, those up to a bound, those from a bound, one number, or those from one to another."""
    kind = reader.unsigned()
    reader.refuse_if(kind > 4, 29, "Info")
    for _ in range((0, 1, 1, 1, 2)[kind]):
        reader.unsigned()


def name(kind, numbered):
    """A record of a string of the kind, with a reference number or without one."""
    def read(reader):
        reader.string(kind)
        if numbered:
            reader.unsigned()
    return read


def x_name(numbered):
    """XNAME: an attribute, then a string and its number."""
    def read(reader):
        reader.unsigned()
        name(B_STRING, numbered)(reader)
    return read


def reference(reader, info, given, by_number, kind):
    """A string of the kind, or the number of one, if the info byte says that it is given."""
    if info & given:
        reader.unsigned() if info & by_number else reader.string(kind)


def text(reader):
    """TEXT, with the info byte 0CNXYRTL."""
    info = reader.byte()
    reader.refuse_if(info & 0x80, 29, "Info")
    reference(reader, info, 0x40, 0x20, A_STRING)
    for bit, value in ((0x01, reader.unsigned), (0x02, reader.unsigned), (0x10, reader.signed), (0x08, reader.signed)):
        if info & bit:
            value()
    reader.defined([], reader.shifts(info & 0x04))


def a_property(reader):
    """PROPERTY, with the info byte UUUUVCNS."""
    info = reader.byte()
    count, as_before = info >> 4, info & 0x08
    reader.refuse_if(as_before and count, 29, "Info")
    reference(reader, info, 0x04, 0x02, N_STRING)
    for _ in range(reader.unsigned() if count == 15 else count):
        value(reader)


def value(reader):
    """A value of a property: a real, an integer, a string, or the number of a PROPSTRING."""
    kind = reader.unsigned()
    reader.refuse_if(kind > 15, 4, "RealType")
    if kind < 8:
        reader.real_of(kind)
    elif kind == 9:
        reader.signed()
    elif kind in (10, 11, 12):
        reader.string((A_STRING, B_STRING, N_STRING)[kind - 10])
    else:
        reader.unsigned()


# How each is read, and its word.
RECORDS = {
    5: name(A_STRING, False), 6: name(A_STRING, True), 7: name(N_STRING, False), 8: name(N_STRING, True),
    9: name(B_STRING, False), 10: name(B_STRING, True), 11: layer_name, 12: layer_name, 19: text,
    28: a_property, 29: lambda reader: None, 30: x_name(False), 31: x_name(True),
}
WORDS = {"properties": (7, 8, 9, 10, 28, 29), "texts": (5, 6, 19), "names": (11, 12, 30, 31)}
# Those that end the cell before them.
NAMES = (5, 6, 7, 8, 9, 10, 11, 12, 30, 31)


def ids(ignore):
    """The ids of the records that are read if these are ignored."""
    return tuple(id for word in ignore for id in WORDS.get(word, ()))
