"""Makes large files piece by piece, and runs the program with its time and memory measured."""
import json
import os
import subprocess
import sys
from collections import namedtuple

from lib.assembler import MAGIC, OASIS_END, STREAM_END, STRUCTURE_END, cell_by_name, start, stream_head, structure_start
# The scripts in .ci import these from here.
from lib.assembler import oas_path, placement, polygon, rectangle

MEASURE = os.path.join(os.path.dirname(os.path.abspath(__file__)), "measure.py")
Run = namedtuple("Run", "status output errors seconds megabytes")
# A grid step is a micrometre in both formats.
UNITS = bytes.fromhex("4110000000000000 3c10c6f7a0b5ed8d")
GDS_HEAD, GDS_END = stream_head(units=UNITS), STREAM_END
GDS_TEXT = "GDSII version 600 units 4110000000000000 3c10c6f7a0b5ed8d"
OAS_HEAD, OAS_END = MAGIC + start(), OASIS_END
OAS_TEXT = "OASIS 1.0 unit 1 scheme 0"


def gds_file(*parts):
    """The pieces of a file; each part is bytes, or yields them."""
    yield from pieces(GDS_HEAD, *parts, GDS_END)


def oas_file(*parts):
    yield from pieces(OAS_HEAD, *parts, OAS_END)


def pieces(*parts):
    for part in parts:
        if isinstance(part, bytes):
            yield part
        else:
            yield from part


def gds_cell(name, *elements):
    yield from pieces(structure_start(name), *elements, STRUCTURE_END)


def oas_cell(name, *records):
    yield from pieces(cell_by_name(name.encode()), *records)


def write(name, parts):
    """Writes the pieces and returns the size of the file; a number n is n zero bytes, which take no space on disk."""
    with open(name, "wb") as out:
        for part in parts:
            if isinstance(part, int):
                out.seek(part, os.SEEK_CUR)
                out.truncate()
            else:
                out.write(part)
    return os.path.getsize(name)


def run(program, words, most_seconds=0):
    """Runs the program; after `most_seconds` (0: no limit) it is stopped, and the status is None."""
    line = [sys.executable, "-S", MEASURE, str(most_seconds), program, *words]
    return Run(*json.loads(subprocess.run(line, stdout=subprocess.PIPE, check=True).stdout))
