"""Words for GDSII records in files of rows: a name such as `ENDEL`, or a name with what the record says.

    LAYER:1  COLROW:3,2  WIDTH:-4    numbers
    XY:0,0;10,0;10,10                points
    STRANS:8000  ANGLE:425A*         hexadecimal digits; `*` is zeros up to the length that the record has
    SNAME:AB  STRING:HI              letters, with a zero byte after them if their number is odd

A word `PATH` or `TEXT` is the record, not its letters.
"""
import struct

from lib import assembler

# The type of each record, and its data type: 0 nothing, 1 bits, 2 and 3 numbers of two and four bytes, 5 reals,
# 6 letters.
TYPES = {
    "HEADER": (0x00, 2), "BGNLIB": (0x01, 2), "LIBNAME": (0x02, 6), "UNITS": (0x03, 5), "ENDLIB": (0x04, 0),
    "BGNSTR": (0x05, 2), "STRNAME": (0x06, 6), "ENDSTR": (0x07, 0),
    "BOUNDARY": (0x08, 0), "PATH": (0x09, 0), "SREF": (0x0A, 0), "AREF": (0x0B, 0), "TEXT": (0x0C, 0),
    "NODE": (0x15, 0), "BOX": (0x2D, 0),
    "LAYER": (0x0D, 2), "DATATYPE": (0x0E, 2), "WIDTH": (0x0F, 3), "XY": (0x10, 3), "ENDEL": (0x11, 0),
    "SNAME": (0x12, 6), "COLROW": (0x13, 2), "TEXTTYPE": (0x16, 2), "PRESENTATION": (0x17, 1), "STRING": (0x19, 6),
    "STRANS": (0x1A, 1), "MAG": (0x1B, 5), "ANGLE": (0x1C, 5), "PATHTYPE": (0x21, 2),
    "REFLIBS": (0x1F, 6), "FONTS": (0x20, 6), "GENERATIONS": (0x22, 2), "ATTRTABLE": (0x23, 6),
    "ELFLAGS": (0x26, 1), "PROPATTR": (0x2B, 2), "PROPVALUE": (0x2C, 6), "PLEX": (0x2F, 3), "STRCLASS": (0x34, 1),
    "FORMAT": (0x36, 2), "MASK": (0x37, 6), "LIBDIRSIZE": (0x39, 2), "SRFNAME": (0x3A, 6), "LIBSECUR": (0x3B, 2),
}
# The names as an alternative of a pattern.
NAMES = "|".join(sorted(TYPES, key=len, reverse=True))
# The number of digits of what a record has in hexadecimal.
DIGITS = {1: 4, 5: 16}


def numbers(text, form):
    flat = [int(number) for number in text.replace(";", ",").split(",") if number]
    return struct.pack(">%d%s" % (len(flat), form), *flat)


def payload(data_type, text):
    """The bytes of what a record says."""
    if data_type in DIGITS:
        return bytes.fromhex(text.replace("*", "0" * (DIGITS[data_type] + 1 - len(text))))
    if data_type in (2, 3):
        return numbers(text, "h" if data_type == 2 else "i")
    return text.encode()


def record(name, text=""):
    """The bytes of a record."""
    kind, data_type = TYPES[name]
    return assembler.record(kind, data_type, payload(data_type, text))
