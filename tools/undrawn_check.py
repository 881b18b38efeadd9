#!/usr/bin/env python3
"""Checks the second reading of the rules on files made by hand, each with its answer by hand.

The files are the two of docs/FORMATS.md, each with records that draw nothing in it, as they may come, out of order,
and malformed. A row has what is added, at which record, the words of --ignore, and what `lvl show` prints last. With
--program, the program is run on the same files.
"""
import argparse
import os
import subprocess
import sys
import tempfile

sys.dont_write_bytecode = True

from lib import answers, gds_reader, hints, oasis_reader, options
from lib.assembler import OASIS_END, padded_end, record, short, unsigned, xy

SHOWN = "layer 1 datatype 0 rings 1"
UNITS = bytes.fromhex("4110000000000000") * 2
# The records of square.gds, with the name of each; the name is where records are added.
GDS = {
    "HEADER": short(0x00, 600), "BGNLIB": record(0x01, 2, bytes(24)), "LIBNAME": record(0x02, 6, b"LB"),
    "UNITS": record(0x03, 5, UNITS), "BGNSTR": record(0x05, 2, bytes(24)), "STRNAME": record(0x06, 6, b"TOP"),
    "BOUNDARY": record(0x08, 0), "LAYER": short(0x0D, 1), "DATATYPE": short(0x0E, 0),
    "XY": xy([(0, 0), (10, 0), (10, 10), (0, 10), (0, 0)]),
    "ENDEL": record(0x11, 0), "ENDSTR": record(0x07, 0), "ENDLIB": record(0x04, 0),
}
# The same of square.oas.
OASIS = {
    "magic": b"%SEMI-OASIS\r\n", "START": bytes.fromhex("0103312E3000E80700") + bytes(12),
    "CELL": bytes.fromhex("0E03544F50"), "RECTANGLE": bytes.fromhex("147B01000A0A0000"), "END": OASIS_END,
}
ALL = "properties,texts,names,padding"

BAD_IGNORE = (
    "lvl: bad ignore 1 IgnoreText\n"
    "lvl: --ignore takes properties, texts, names, padding, points or all, joined by commas\n"
)
FOREIGN = "neither GDSII nor OASIS"
# What is added before which record, the words of --ignore, and the answer. The offsets are by docs/FORMATS.md: in
# square.gds BGNLIB 6, LIBNAME 34, UNITS 40, BGNSTR 60, STRNAME 88, BOUNDARY 96, LAYER 100, XY 112, ENDEL 156,
# ENDSTR 160, ENDLIB 164; in square.oas START 13, CELL 34, RECTANGLE 39, END 47.
GDS_ROWS = [
    # properties
    ("00062B02 0007 00082C06 61620000", "ENDEL", "properties", SHOWN),
    ("00062B02 0007 00042C06" * 3, "ENDEL", "properties", SHOWN),
    ("00062B02 0007 00082C06 61620000", "ENDEL", "", "gds 11 Unsupported 43 at 156"),
    ("00062B02 0007 00082C06 61620000", "ENDEL", "names,texts,padding", "gds 11 Unsupported 43 at 156"),
    ("00062B02 0007", "ENDEL", "properties", "gds 10 Unexpected 17 at 162"),
    ("00062C06 6100", "ENDEL", "properties", "gds 10 Unexpected 44 at 156"),
    ("00062B02 0007 00062B02 0007", "ENDEL", "properties", "gds 10 Unexpected 43 at 162"),
    ("00042B02", "ENDEL", "properties", "gds 2 BadLength at 156"),
    ("00082B02 00070007", "ENDEL", "properties", "gds 2 BadLength at 156"),
    ("00062B03 0007", "ENDEL", "properties", "gds 3 BadDataType at 156"),
    ("00062B03 0007", "ENDEL", "", "gds 11 Unsupported 43 at 156"),
    ("00062B07 0007", "ENDEL", "", "gds 3 BadDataType at 156"),
    ("00062B02 0007 00062C02 6162", "ENDEL", "properties", "gds 3 BadDataType at 162"),
    ("00062B02 0007 00072C06 616263", "ENDEL", "properties", "gds 2 BadLength at 162"),
    ("00062B02 0007 00042C06", "XY", "properties", "gds 10 Unexpected 43 at 112"),
    ("00062B02 0007 00042C06", "ENDSTR", "properties", "gds 10 Unexpected 43 at 160"),
    ("00062B02 0007 00042C06", "BOUNDARY", "properties", "gds 10 Unexpected 43 at 96"),
    ("00062306 6162", "UNITS", "properties", SHOWN),
    ("00042306", "UNITS", "properties", SHOWN),
    ("00062306 6162", "UNITS", "names", "gds 11 Unsupported 35 at 40"),
    ("00062306 6162" * 2, "UNITS", "properties", "gds 10 Unexpected 35 at 46"),
    ("00062306 6162", "LIBNAME", "properties", "gds 10 Unexpected 35 at 34"),
    ("00062306 6162", "BGNSTR", "properties", "gds 10 Unexpected 35 at 60"),
    ("00062302 6162", "UNITS", "properties", "gds 3 BadDataType at 40"),
    # names, in the head
    ("00063902 0003 00063A06 6100 000A3B02 000100020003", "LIBNAME", "names", SHOWN),
    ("00063902 0003", "LIBNAME", "properties", "gds 11 Unsupported 57 at 34"),
    ("00063A06 6100", "LIBNAME", "", "gds 11 Unsupported 58 at 34"),
    ("00063A06 6100 00063902 0003", "LIBNAME", "names", "gds 10 Unexpected 57 at 40"),
    ("00C43B02" + "0001" * 96, "LIBNAME", "names", SHOWN),
    ("00CA3B02" + "0001" * 99, "LIBNAME", "names", "gds 2 BadLength at 34"),
    ("00083B02 00010002", "LIBNAME", "names", "gds 2 BadLength at 34"),
    ("00043B02", "LIBNAME", "names", "gds 2 BadLength at 34"),
    ("000A3B06 000100020003", "LIBNAME", "names", "gds 3 BadDataType at 34"),
    ("00063902 0003", "BGNLIB", "names", "gds 10 Unexpected 57 at 6"),
    ("00063902 0003", "UNITS", "names", "gds 10 Unexpected 57 at 40"),
    ("00061F06 6100 00062006 6100 00062202 0003 00063602 0000", "UNITS", "names", SHOWN),
    ("00061F06 6100 00062006 6100 00042306 00062202 0003 00063602 0000", "UNITS", "names,properties", SHOWN),
    ("00061F06 6100 00062006 6100 00042306 00062202 0003", "UNITS", "names", "gds 11 Unsupported 35 at 52"),
    ("00062202 0003 00042306", "UNITS", "names,properties", "gds 10 Unexpected 35 at 46"),
    ("00062006 6100 00061F06 6100", "UNITS", "names", "gds 10 Unexpected 31 at 46"),
    ("00062202 0003 00062006 6100", "UNITS", "names", "gds 10 Unexpected 32 at 46"),
    ("00062202 0003", "UNITS", "", "gds 11 Unsupported 34 at 40"),
    ("00062206 0003", "UNITS", "names", "gds 3 BadDataType at 40"),
    ("00082202 00030003", "UNITS", "names", "gds 2 BadLength at 40"),
    ("00063602 0000 00062202 0003", "UNITS", "names", "gds 10 Unexpected 34 at 46"),
    ("00063602 0001", "UNITS", "names", "gds 11 Unsupported 54 at 40"),
    ("00063602 FFFF", "UNITS", ALL, "gds 11 Unsupported 54 at 40"),
    ("00063602 0001", "LIBNAME", "names", "gds 11 Unsupported 54 at 34"),
    ("00063602 0000", "LIBNAME", "names", "gds 10 Unexpected 54 at 34"),
    ("00062B02 0007 00063602 0001", "ENDEL", "names,properties", "gds 11 Unsupported 54 at 162"),
    ("00062B02 0007 00063602 0000", "ENDEL", "names,properties", "gds 10 Unexpected 54 at 162"),
    ("00063602 0001 00062202 0003", "UNITS", "names", "gds 11 Unsupported 54 at 40"),
    ("00063603 0001", "UNITS", "names", "gds 3 BadDataType at 40"),
    ("00063602 0000", "BGNSTR", "names", "gds 10 Unexpected 54 at 60"),
    ("00063602 0000 00083706 61006100 00043800", "UNITS", ALL, "gds 11 Unsupported 55 at 46"),
    # names, in a structure
    ("00063401 0001", "BOUNDARY", "names", SHOWN),
    ("00063401 0001" * 2, "BOUNDARY", "names", "gds 10 Unexpected 52 at 102"),
    ("00063401 0001", "BOUNDARY", "", "gds 11 Unsupported 52 at 96"),
    ("00063401 0001", "STRNAME", "names", "gds 10 Unexpected 52 at 88"),
    ("00063401 0001", "ENDSTR", "names", "gds 10 Unexpected 52 at 160"),
    ("00063402 0001", "BOUNDARY", "names", "gds 3 BadDataType at 96"),
    ("00043401", "BOUNDARY", "names", "gds 2 BadLength at 96"),
    ("00062601 0003 00082F03 0000002A", "LAYER", "names", SHOWN),
    ("00082F03 FFFFFFFF", "LAYER", "names", SHOWN),
    ("00062601 0003", "LAYER", "properties,texts,padding", "gds 11 Unsupported 38 at 100"),
    ("00082F03 0000002A", "LAYER", "", "gds 11 Unsupported 47 at 100"),
    ("00082F03 0000002A 00062601 0003", "LAYER", "names", "gds 10 Unexpected 38 at 108"),
    ("00062601 0003", "DATATYPE", "names", "gds 10 Unexpected 38 at 106"),
    ("00062602 0003", "LAYER", "names", "gds 3 BadDataType at 100"),
    ("00082F02 0000002A", "LAYER", "names", "gds 3 BadDataType at 100"),
    ("00062F03 002A", "LAYER", "names", "gds 2 BadLength at 100"),
    # in other elements
    ("00040C00 00062601 0000 00060D02 0001 00061602 0000 000C1003" + "00" * 8 + "00061906 6100 00062B02 0001 00042C06"
     "00041100", "ENDSTR", "properties,names", SHOWN),
    ("00040900 00082F03 00000001 00060D02 0001 00060E02 0000 00080F03 00000002 00141003" + "00" * 8 +
     "0000000A 00000000 00062B02 0001 00042C06 00041100", "ENDSTR", "properties,names", SHOWN[:-1] + "2"),
    ("00040A00 00062601 0000 00061206 4C00 000C1003" + "00" * 8 + "00062B02 0001 00042C06 00041100", "ENDSTR",
     "properties,names", "cells 3 MissingCell TOP L"),
    ("00040A00 00061206 4C00 00062601 0000 000C1003" + "00" * 8 + "00041100", "ENDSTR", "names",
     "gds 10 Unexpected 38 at 170"),
    ("00040C00 00060D02 0001 00061602 0000 000C1003" + "00" * 8 + "00062B02 0001 00042C06", "ENDSTR", "properties",
     "gds 10 Unexpected 43 at 188"),
    # what might draw stays refused
    ("00041500", "ENDSTR", ALL, "gds 11 Unsupported 21 at 160"),
    ("00042D00", "ENDSTR", "all", "gds 11 Unsupported 45 at 160"),
]
OASIS_ROWS = [
    # properties: PROPNAME, PROPSTRING
    ("07 01 41 08 01 42 05 09 00 0A 02 00FF 09", "CELL", "properties", SHOWN),
    ("07 01 41", "CELL", "", "oasis 24 Unsupported 7 at 34"),
    ("08 01 41 00", "CELL", "texts,names,padding", "oasis 24 Unsupported 8 at 34"),
    ("07 00", "CELL", "properties", "oasis 3 StringByte at 34"),
    ("07 01 20", "CELL", "properties", "oasis 3 StringByte at 34"),
    ("07 AC02" + "41" * 300, "CELL", "properties", SHOWN),
    ("08 01 41 05 08 01 41 05", "CELL", "properties", SHOWN),
    ("07 01 41 08 01 41 00", "CELL", "properties", SHOWN),
    ("07 01 41", "RECTANGLE", "properties", "oasis 23 Unexpected 20 at 42"),
    ("09 01 41", "RECTANGLE", "properties", "oasis 23 Unexpected 20 at 42"),
    ("08 01 41 00", "END", "properties", SHOWN),
    # PROPERTY
    ("1C 04 01 41", "RECTANGLE", "properties", SHOWN),
    ("1C 04 01 41", "CELL", "properties", SHOWN),
    ("1C 04 01 41", "END", "properties", SHOWN),
    ("1D 1D", "CELL", "properties", SHOWN),
    ("1C 00", "RECTANGLE", "properties", SHOWN),
    ("1C 03", "RECTANGLE", "properties", SHOWN),
    ("1C 04 01 41", "RECTANGLE", "texts,names,padding", "oasis 24 Unsupported 28 at 39"),
    ("1D", "RECTANGLE", "", "oasis 24 Unsupported 29 at 39"),
    ("1C 06 8001", "RECTANGLE", "properties", SHOWN),
    ("1C 04 00", "RECTANGLE", "properties", "oasis 3 StringByte at 39"),
    ("1C 18", "RECTANGLE", "properties", "oasis 29 Info at 39"),
    ("1C 08 1C 0C 01 41", "RECTANGLE", "properties", SHOWN),
    ("1C F0 03 08 01 08 02 08 03", "RECTANGLE", "properties", SHOWN),
    ("1C F0 00", "RECTANGLE", "properties", SHOWN),
    ("1C F8", "RECTANGLE", "properties", "oasis 29 Info at 39"),
    ("1C E0" + "0800" * 14, "RECTANGLE", "properties", SHOWN),
    ("1C F4 01 41 10" + "0800" * 16, "RECTANGLE", "properties", SHOWN),
    # the values: reals, integers, strings, numbers of strings
    ("1C F0 10 00 01 01 02 02 03 03 04 04 05 06 05 07 08 06 0000803F 07 000000000000F03F 08 7F 09 7F 0A 01 20 0B 01 00"
     "0C 01 21 0D 00 0E 01 0F 02", "RECTANGLE", "properties", SHOWN),
    ("1C 10 10", "RECTANGLE", "properties", "oasis 4 RealType at 39"),
    ("1C 10 02 00", "RECTANGLE", "properties", "oasis 5 ZeroDenominator at 39"),
    ("1C 10 04 01 00", "RECTANGLE", "properties", "oasis 5 ZeroDenominator at 39"),
    ("1C 10 0A 01 1F", "RECTANGLE", "properties", "oasis 3 StringByte at 39"),
    ("1C 10 0A 00 1C 10 0B 00", "RECTANGLE", "properties", SHOWN),
    ("1C 10 0C 00", "RECTANGLE", "properties", "oasis 3 StringByte at 39"),
    ("1C 10 0C 01 20", "RECTANGLE", "properties", "oasis 3 StringByte at 39"),
    ("1C 10 0D FFFFFFFFFFFFFFFFFF 01", "RECTANGLE", "properties", SHOWN),
    ("1C 10 0D FFFFFFFFFFFFFFFFFF 02", "RECTANGLE", "properties", "oasis 2 IntegerTooLarge at 39"),
    # texts
    ("05 00 06 01 20 09 05 01 41 06 01 41 09", "CELL", "texts", SHOWN),
    ("05 00", "CELL", "properties,names,padding", "oasis 24 Unsupported 5 at 34"),
    ("05 01 1F", "CELL", "texts", "oasis 3 StringByte at 34"),
    ("06 00 00", "RECTANGLE", "texts", "oasis 23 Unexpected 20 at 42"),
    ("13 5B 01 41 02 03 04 06", "RECTANGLE", "texts", SHOWN),
    ("13 7B 07 02 03 04 06", "RECTANGLE", "texts", SHOWN),
    ("13 00", "RECTANGLE", "texts", SHOWN),
    ("13 20", "RECTANGLE", "texts", SHOWN),
    ("13 00", "RECTANGLE", "properties,names,padding", "oasis 24 Unsupported 19 at 39"),
    ("13 00", "CELL", "texts", "oasis 23 Unexpected 19 at 34"),
    ("13 00", "END", "texts", SHOWN),
    ("03 01 41 13 00", "END", "texts", "oasis 23 Unexpected 19 at 50"),
    ("13 80", "RECTANGLE", "texts", "oasis 29 Info at 39"),
    ("13 40 01 1F", "RECTANGLE", "texts", "oasis 3 StringByte at 39"),
    ("13 40 AC02" + "41" * 300, "RECTANGLE", "texts", SHOWN),
    ("13 18 04 06 14 7B 01 00 0A 0A 00 00", "RECTANGLE", "texts", SHOWN[:-1] + "2"),
    ("13 01 8080808010 13 02 8080808010", "RECTANGLE", "texts", SHOWN),
    ("10 13 10 FEFFFFFFFFFFFFFFFF01 13 10 FEFFFFFFFFFFFFFFFF01", "RECTANGLE", "texts", SHOWN),
    # TEXT shares the repetition of all records, and no other variable
    ("13 04 02 01 14 14 7F 01 00 0A 0A 00 00 00", "RECTANGLE", "texts", SHOWN[:-1] + "4"),
    ("13 04 00", "RECTANGLE", "texts", "oasis 25 Undefined repetition at 39"),
    ("14 7F 01 00 0A 0A 00 00 02 01 14 13 04 00 14 04 00", "RECTANGLE", "texts", SHOWN[:-1] + "7"),
    ("13 04 0C", "RECTANGLE", "texts", "oasis 8 RepetitionType at 39"),
    ("13 03 01 00 14 78 0A 0A 00 00", "RECTANGLE", "texts", "oasis 25 Undefined layer at 43"),
    # names
    ("0B 01 41 00 00 0C 01 41 00 00", "CELL", "names", SHOWN),
    ("0B 01 41 01 05 02 06 0B 01 41 03 07 04 08 09", "CELL", "names", SHOWN),
    ("0B 01 41 04 09 08 03 FFFFFFFFFFFFFFFFFF01", "CELL", "names", SHOWN),
    ("0B 01 41 05", "CELL", "names", "oasis 29 Info at 34"),
    ("0B 01 41 00 05", "CELL", "names", "oasis 29 Info at 34"),
    ("0B 00 00 00", "CELL", "names", "oasis 3 StringByte at 34"),
    ("0B 01 41 00 00", "CELL", "properties,texts,padding", "oasis 24 Unsupported 11 at 34"),
    ("0C 01 41 00 00", "CELL", "", "oasis 24 Unsupported 12 at 34"),
    ("0B 01 41 00 00", "RECTANGLE", "names", "oasis 23 Unexpected 20 at 44"),
    ("0C 01 41 03 01 03 00", "END", "names", SHOWN),
    ("1E 07 02 00FF 1F 07 00 08 1E 07 02 00FF", "CELL", "names", SHOWN),
    ("1E 07 00", "RECTANGLE", "names", "oasis 23 Unexpected 20 at 42"),
    ("1F 07 00 08", "CELL", "", "oasis 24 Unsupported 31 at 34"),
    # padding
    ("00" * 3, "CELL", "padding", SHOWN),
    ("0E" + "83" + "80" * 254 + "00 544F50", "CELL", "padding", "cells 2 DuplicateCell TOP"),
    ("0D 80" + "80" * 254 + "00", "CELL", "padding", "oasis 40 Unresolved 0"),
    ("0D 80" + "80" * 255 + "00", "CELL", "padding", "oasis 2 IntegerTooLarge at 34"),
    ("0D 80" + "80" * 9 + "00", "CELL", "properties,texts,names", "oasis 2 IntegerTooLarge at 34"),
    ("0D 80" + "80" * 8 + "00", "CELL", "", "oasis 40 Unresolved 0"),
    ("0D FFFFFFFFFFFFFFFFFF 8100", "CELL", "padding", "oasis 40 Unresolved 18446744073709551615"),
    ("0D FFFFFFFFFFFFFFFFFF 8200", "CELL", "padding", "oasis 2 IntegerTooLarge at 34"),
    ("0D FFFFFFFFFFFFFFFFFF 8101", "CELL", "padding", "oasis 2 IntegerTooLarge at 34"),
    ("8080808080808080808080 00", "CELL", "padding", SHOWN),
    ("1C F0" + "80" * 20 + "00", "RECTANGLE", "properties,padding", SHOWN),
    ("1C F0" + "80" * 20 + "00", "RECTANGLE", "properties", "oasis 2 IntegerTooLarge at 39"),
    # what might draw stays refused
    ("17", "RECTANGLE", ALL, "oasis 24 Unsupported 23 at 39"),
    ("1B", "RECTANGLE", "all", "oasis 24 Unsupported 27 at 39"),
    ("20", "RECTANGLE", ALL, "oasis 24 Unsupported 32 at 39"),
    ("21", "RECTANGLE", ALL, "oasis 24 Unsupported 33 at 39"),
    ("22", "CELL", ALL, "oasis 24 Unsupported 34 at 34"),
    ("23", "CELL", ALL, "oasis 24 Unsupported 35 at 34"),
]
# END in place of that of square.oas.
END_ROWS = [
    (padded_end(), "padding", SHOWN),
    (padded_end(), "all", SHOWN),
    (padded_end(), "properties,texts,names", "oasis 2 IntegerTooLarge at 47"),
    (padded_end(b"\2abcd"), "padding", SHOWN),
    (b"\x02" + unsigned(0, fill=252) + b"\0", "padding", "oasis 35 EndLength at 47"),
    (b"\x02" + unsigned(0, fill=254) + b"\0", "padding", "oasis 35 EndLength at 47"),
    (b"\x02" + unsigned(200, fill=52) + bytes(200) + b"\0", "padding", SHOWN),
    (b"\x02" + unsigned(200, fill=53) + bytes(200) + b"\0", "padding", "oasis 35 EndLength at 47"),
    (b"\x80\x80\x80\x00", "padding", "oasis 1 Truncated at 51"),
]
# The texts of --ignore, and their sets.
TEXTS = [
    ("properties", {"properties"}), ("texts,names", {"texts", "names"}), ("padding,padding", {"padding"}),
    ("names,all", {"properties", "texts", "names", "padding", "points"}), ("points,texts", {"points", "texts"}),
    ("all", {"properties", "texts", "names", "padding", "points"}),
    ("", None), (",", None), ("texts,", None), (" texts", None), ("Texts", None), ("text", None), ("none", None),
]
# Of a refusal: the format, what is added before which record, the words of --ignore, and the hint.
HINTS = [
    ("gds", "00062B02 0007", "ENDEL", "", "try --ignore properties"),
    ("gds", "00062B02 0007", "ENDEL", "names", "try --ignore properties,names"),
    ("gds", "00062B02 0007", "ENDEL", "properties", None),
    ("gds", "00062306 6162", "UNITS", "", "try --ignore properties"),
    ("gds", "00082F03 0000002A", "LAYER", "", "try --ignore names"),
    ("gds", "00063602 0001", "UNITS", "", "try --ignore names"),
    ("gds", "00063602 0001", "UNITS", "names", None),
    ("gds", "00041500", "ENDSTR", "", None),
    ("gds", "1F8B0800", "HEADER", "", FOREIGN),
    ("gds", "1F8B0800", "HEADER", "all", FOREIGN),
    ("gds", "1F8B0800", "ENDEL", "", None),
    ("gds", "1F8D0800", "HEADER", "", FOREIGN),
    ("gds", "00040700 001C0502" + "00" * 24 + "00060606 4100", "ENDSTR", "",
     "the file has 2 tops: TOP, A: choose one by --top"),
    ("oasis", "1D", "CELL", "", "try --ignore properties"),
    ("oasis", "07 01 41", "CELL", "padding,names", "try --ignore properties,names,padding"),
    ("oasis", "07 01 41", "CELL", "padding,names,texts", "try --ignore properties,texts,names,padding"),
    ("oasis", "13 00", "CELL", "", "try --ignore texts"),
    ("oasis", "13 00", "CELL", "texts", None),
    ("oasis", "0B 01 41 00 00", "CELL", "", "try --ignore names"),
    ("oasis", "1F 07 00 08", "CELL", "", "try --ignore names"),
    ("oasis", "0D" + "80" * 10 + "00", "CELL", "", "try --ignore padding"),
    ("oasis", "0D" + "80" * 256 + "00", "CELL", "padding", None),
    ("oasis", "22", "CELL", "all", "try --unpack"),
    ("oasis", "17", "RECTANGLE", "", None),
    ("oasis", "0E 01 41", "CELL", "", "the file has 2 tops: A, TOP: choose one by --top"),
]


def file_of(form, added, before):
    """The file with bytes added before one of its records."""
    records = GDS if form == "gds" else OASIS
    return b"".join((bytes.fromhex(added) if name == before else b"") + each for name, each in records.items())


def files():
    """Each file with its format, the words of --ignore, and the last line of what `lvl show` prints."""
    for added, before, words, line in GDS_ROWS:
        yield "gds", file_of("gds", added, before), words, line
    for added, before, words, line in OASIS_ROWS:
        yield "oasis", file_of("oasis", added, before), words, line
    for end, words, line in END_ROWS:
        yield "oasis", b"".join({**OASIS, "END": end}.values()), words, line


def second(form, data, words):
    """The answer of the second reading."""
    read = (gds_reader if form == "gds" else oasis_reader).read
    return answers.show(read, data, None, answers.ignored(words) if words else answers.NOTHING)


def first(program, data, words):
    """The last line that the program prints, and what it writes to standard error, with NAME for the file's name."""
    with tempfile.NamedTemporaryFile() as file:
        file.write(data)
        file.flush()
        given = ["--ignore", words] if words else []
        done = subprocess.run([program, "show", file.name, *given], capture_output=True)
    said = done.stderr.decode("latin-1").replace(file.name, "NAME")
    return done.stdout.decode("latin-1").rstrip("\n").split("\n")[-1], said


def checked(what, found, expected):
    if found != expected:
        print("%s:\n  expected %s\n  answered %s" % (what, expected, found))
    return found == expected


def lines(program, knows_words):
    for form, data, words, line in files():
        line = line if line.startswith("layer ") else "refused: first: " + line
        what = "%s with --ignore %s" % (data.hex(), words)
        yield checked("second reading of " + what, second(form, data, words).text.split("\n")[-1], line)
        if program and (knows_words or not words):
            yield checked(what, first(program, data, words)[0], line)


def hinted(program):
    for form, added, before, words, hint in HINTS:
        more = ", or --ignore all" if hint and "--ignore" in hint else ""
        expected = "lvl: %s%s\n" % (hint, more) if hint else ""
        data = file_of(form, added, before)
        what = "the hint for %s with --ignore %s" % (data.hex(), words)
        yield checked(what, second(form, data, words).hint, expected)
        if program:
            said = hints.said(expected, [("NAME", data)])
            yield checked("by the program, " + what, first(program, data, words)[1], said)


def texts(program):
    for text, words in TEXTS:
        yield checked("the words %r" % text, answers.ignored(text), words)
        if program:
            words_of_line = [program, "show", "/missing/file", "--ignore=" + text]
            bad = subprocess.run(words_of_line, capture_output=True, text=True)
            said = BAD_IGNORE if words is None else "lvl: cannot open /missing/file\nlvl: no such file\n"
            expected = "", said, 3 if words is None else 2
            yield checked("--ignore=%s" % text, (bad.stdout, bad.stderr, bad.returncode), expected)


def main():
    line = argparse.ArgumentParser(description="Checks the second reading of the rules on files made by hand.")
    line.add_argument("--program", metavar="FILE", help="run this program on the same files")
    options.add_older(line)
    asked = line.parse_args()
    if asked.program and not os.path.exists(asked.program):
        line.error("%s is missing" % asked.program)
    newer = None if asked.plain else asked.program
    found = [*lines(asked.program, not asked.plain), *hinted(newer), *texts(newer)]
    print("undrawn_check: %d of %d are right" % (sum(found), len(found)))
    return 0 if all(found) else 1


if __name__ == "__main__":
    sys.exit(main())
