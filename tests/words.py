"""Files of rows, written down in words, and texts that rows compute from their files.

The first word is the kind of file:

    gds          elements of a structure TOP, as GDSII
    gds-cells    structures
    oasis        records of a cell TOP, as OASIS
    oasis-cells  records between START and END
    oasis-begin  all that follows START
    square.gds   the square 0..10 by 0..10 on 1/0 in a structure TOP, and the words after it
    square.oas   the same in OASIS, and the words after it
    unit.gds     `square.gds` with other bytes for the metres in a grid step
    unit.oas     `square.oas` with another real as the unit of START
    bytes        nothing but the words
    gds-um       structures, in GDSII of grid steps of a micrometre
    gds-nm       the same of a nanometre
    gds-2nm      the same of two nanometres
    oasis-um     records between START and END, of grid steps of a micrometre
    as-gds       a layout as GDSII of such steps; its words are described in layouts.py
    as-oas       a layout as OASIS of such steps
    square-long  the square in GDSII, and zeros up to so many bytes
    gds-chain    `N T`: structures C00001 to N, each of which places the next T times at 1,0; the last is a unit square
    gds-many     `N`: N times the empty structure A, without an end
    oasis-many   `N`: the empty cells 0000000 to N - 1, without an end
    oasis-layers, oasis-needles, oasis-corners, oasis-chain, oasis-empty
                 very many records, by numbers; made_files.py describes them
    oasis-names  `N`: N empty cells with names of 127 digits
    bars, stair  rows of boxes; corners.py describes them
    text         a text as in `out`
    example      a file of examples/ by its name
    folder       no file, but a folder

The other words, each of which adds bytes to those before it:

    7B           a byte, in two hexadecimal digits
    00*24        that byte 24 times
    3,-4         a point of GDSII
    1/0          LAYER and DATATYPE
    0,0..30,20   the boundary of a box on 1/0
    A@3,-4       an SREF of the cell A
    A{           the beginning of a structure
    }            the end of a structure
    139=09       the byte at 139 is set; with more digits, more bytes from there on
    <99          all bytes from 99 on are cut
    >96          the words after this one put their bytes in at 96, up to the word `>` or to the end
    XY:0,0;10,0  a record of GDSII by its name, with what it says; records.py has the names
    [ 00 10 ]    a CBLOCK of OASIS with the bytes of the words inside, in a stored block of DEFLATE
    ( 00 10 )*9  the bytes of the words inside, 9 times
    TOP          any other word of letters, digits and `_ . % $ -` is its letters

A kind is added to KINDS, and a word to WORDS.

In `out`, `err` and `last` of a table a word in braces stands for a text:

    {head NAME}           the head that is printed of the file NAME
    {lines 1/0 0,0..3,4}  the lines of digests of boxes on Layers, from `layer` to `mask sha256`
    {mask 1/0 0,0..3,4}   the digest of a mask, 64 digits
    {verdict WORDS}       the verdict on the files that these words of a line compare, as verdicts.py finds it
    {links 25}            the lines of --why of the references in a chain of cells that made.py makes
    {view 3}              the options of a made map and a made window; so are `{window 3}` and `{change 3}`
    {corners 1/0 0,0:1}   the lines of digests of a Layer with these corners; corners.py has more such texts
    {repeat x 300}        a text 300 times; in `line` too
    {percents NAME}       how much of a file of 8,000,000 bytes is shown to be read, from its first megabyte on
    {megabytes NAME 7}    the same of a file whose size isn't known, up to 7 megabytes
    {file NAME}           the text of the file NAME in tests/texts
    {readme LINE}         what README.md has after `$ lvl LINE`

A text is added to TEXTS.
"""
import itertools
import os
import re
import struct
import sys
from functools import lru_cache

HERE = os.path.dirname(os.path.abspath(__file__))
TOP_FOLDER = os.path.dirname(HERE)
sys.path.insert(0, os.path.join(TOP_FOLDER, "tools"))

import corners
import layouts
import made
import made_files
import records
import verdicts
from lib import assembler, digest, oasis_blocks
from lib.crafted import GDS_END, GDS_HEAD, OAS_END, OAS_HEAD

# Between the bytes of `square.gds` are the bounds of its head, structure and boundary.
SQUARE = assembler.short(0, 600) + assembler.record(1, 2, bytes(24)) + assembler.record(2, 6, b"LB") + \
    assembler.record(3, 5, bytes.fromhex("4110000000000000") * 2) + \
    assembler.structure("TOP", assembler.box(0, 0, 10, 10)) + assembler.STREAM_END
HEAD, BEGIN, REST, CLOSED = SQUARE[:60], SQUARE[60:96], SQUARE[160:], SQUARE[164:]
# The magic bytes, and START of 1,000 grid steps in a micrometre.
START = assembler.MAGIC + assembler.start(b"\0\xE8\7")
END = assembler.end()
TOP = assembler.cell_by_name(b"TOP")
RECTANGLE = bytes.fromhex("147B01000A0A0000")
NANOMETRE, TWO_NANOMETRES = bytes.fromhex("0" * 16 + "3944B82FA09B5A54"), bytes.fromhex("0" * 16 + "3989705F4136B4A8")
NUMBER, BYTE = r"(-?\d+)", r"([0-9A-F]{2})"
POINT = NUMBER + "," + NUMBER


def put(data, more):
    data += more


def put_box(data, *corners):
    data += assembler.box(*map(int, corners))


def put_point(data, x, y):
    data += struct.pack(">ii", int(x), int(y))


def put_layer(data, layer, datatype):
    data += assembler.short(0x0D, int(layer)) + assembler.short(0x0E, int(datatype))


def put_bytes(data, at, digits):
    data[int(at):int(at) + len(digits) // 2] = bytes.fromhex(digits)


def cut(data, count):
    del data[int(count):]


# The bytes of what stands in brackets, from those inside and what follows the closing one.
BRACKETS = {
    "[": (r"\]", lambda inside: oasis_blocks.written(inside, level=0)),
    "(": (r"\)\*(\d+)", lambda inside, count: inside * int(count)),
}
# Each word as a pattern, and what adds it to the bytes; the first pattern that matches the whole word holds.
WORDS = [
    (POINT + r"\.\." + POINT, put_box),
    (r"(\S+)@" + POINT, lambda data, name, x, y: put(data, assembler.sref(name, int(x), int(y)))),
    (POINT, put_point),
    (BYTE + r"\*(\d+)", lambda data, byte, count: put(data, bytes.fromhex(byte) * int(count))),
    (NUMBER + "/" + NUMBER, put_layer),
    (r"(\d+)=((?:[0-9A-F]{2})+)", put_bytes),
    (r"<(\d+)", cut),
    (r"(%s)(?::(\S*))?" % records.NAMES, lambda data, name, text: put(data, records.record(name, text or ""))),
    (r"(\S*)\{", lambda data, name: put(data, assembler.structure_start(name))),
    (r"\}", lambda data: put(data, assembler.STRUCTURE_END)),
    (BYTE, lambda data, byte: put(data, bytes.fromhex(byte))),
    (r"([\w.%$-]+)", lambda data, letters: put(data, letters.encode())),
]


def add(data, word):
    """Adds what a word says."""
    for pattern, put_in in WORDS:
        if found := re.fullmatch(pattern, word):
            return put_in(data, *found.groups())
    raise ValueError("no word of files: " + word)


def inside(words, close):
    """The bytes of the words up to a closing bracket, which are taken from the front, and what follows the bracket."""
    held, depth = [], 0
    while words:
        word = words.pop(0)
        if not depth and (found := re.fullmatch(close, word)):
            return added(b"", " ".join(held)), *found.groups()
        depth += (word in BRACKETS) - (word[0] in "])")
        held.append(word)
    raise ValueError("no closing bracket")


def added(front, words):
    """The bytes in front, changed by each word in turn."""
    data, rest, words = bytearray(front), b"", words.split()
    while words:
        word = words.pop(0)
        if word in BRACKETS:
            close, made = BRACKETS[word]
            data += made(*inside(words, close))
        elif found := re.fullmatch(r">(\d*)", word):
            data, rest = (data[:int(found[1])], data[int(found[1]):]) if found[1] else (data + rest, b"")
        else:
            add(data, word)
    return bytes(data) + rest


def chain(words):
    """A chain of structures, as GDSII."""
    cells, times = map(int, words.split())
    name = lambda number: "C%05d" % number
    links = [assembler.structure(name(at), assembler.sref(name(at + 1), 1) * times) for at in range(1, cells)]
    return HEAD + b"".join(links) + assembler.structure(name(cells), assembler.box(0, 0, 1, 1)) + assembler.STREAM_END


def long_names(words):
    """Empty cells of OASIS with different names of 127 digits."""
    return START + b"".join(assembler.cell_by_name(b"%0127d" % number) for number in range(int(words))) + END


def many_cells(words):
    """Empty cells of OASIS, with different names."""
    return START + b"".join(assembler.cell_by_name(b"%07d" % number) for number in range(int(words)))


def example(name):
    """A file of examples/."""
    with open(os.path.join(TOP_FOLDER, "examples", name), "rb") as kept:
        return kept.read()


# What makes a file of this kind from its words; None is a folder, and (data, N) is data and zeros up to N bytes.
KINDS = {
    "gds": lambda words: added(HEAD + BEGIN, words) + REST,
    "gds-cells": lambda words: added(HEAD, words) + CLOSED,
    "oasis": lambda words: added(START + TOP, words) + END,
    "oasis-cells": lambda words: added(START, words) + END,
    "oasis-begin": lambda words: added(START, words),
    "square.gds": lambda words: added(SQUARE, words),
    "square.oas": lambda words: added(START + TOP + RECTANGLE + END, words),
    "unit.gds": lambda words: SQUARE[:52] + added(b"", words) + SQUARE[60:],
    "unit.oas": lambda words: START[:18] + added(b"", words) + START[21:] + TOP + RECTANGLE + END,
    "bytes": lambda words: added(b"", words),
    "gds-um": lambda words: added(GDS_HEAD, words) + GDS_END,
    "gds-nm": lambda words: added(assembler.stream_head(units=NANOMETRE), words) + GDS_END,
    "gds-2nm": lambda words: added(assembler.stream_head(units=TWO_NANOMETRES), words) + GDS_END,
    "oasis-um": lambda words: added(OAS_HEAD, words) + OAS_END,
    "square-long": lambda words: (SQUARE, int(words)),
    "gds-chain": chain,
    "gds-many": lambda words: HEAD + assembler.structure("A") * int(words),
    "oasis-many": many_cells,
    "oasis-names": long_names,
    "text": lambda words: unescaped(texts(words, {})),
    "example": example,
    "folder": lambda words: None,
    **corners.KINDS,
    "as-gds": layouts.as_gds,
    "as-oas": layouts.as_oas,
}


@lru_cache(maxsize=256)
def file(text):
    """The bytes of a file in words."""
    kind, _, words = text.partition(" ")
    if kind not in KINDS and kind not in made_files.KINDS:
        raise ValueError("no kind of files: " + kind)
    if kind in made_files.KINDS:
        return made_files.KINDS[kind](*map(int, words.split()))
    return KINDS[kind](words)


def unsigned(data, at):
    """An unsigned integer of OASIS at an offset, and the offset after it."""
    value = shift = 0
    while data[at] & 0x80:
        value, shift, at = value | (data[at] & 0x7F) << shift, shift + 7, at + 1
    return value | data[at] << shift, at + 1


def unit(data, at):
    """The text of START's unit."""
    kind = data[at]
    if kind in (6, 7):
        return "hex " + data[at + 1:at + (5 if kind == 6 else 9)].hex()
    above, at = unsigned(data, at + 1)
    return {0: "%d" % above, 2: "1/%d" % above}.get(kind) or "%d/%d" % (above, unsigned(data, at)[0])


def oasis_head(data):
    """The head of an OASIS file; with a signature END has at least five bytes after its padding."""
    text = "OASIS 1.0 unit %s scheme " % unit(data, 18)
    return text + ("%d signature %s" % (data[-5], data[-4:].hex()) if data[-5] in (1, 2) else "0")


def gds_head(data):
    """The head of a GDSII file: the version in HEADER, and the numbers in the UNITS record."""
    at = 0
    while data[at + 2] != 3:
        at += struct.unpack_from(">H", data, at)[0]
    version = struct.unpack_from(">h", data, 4)[0]
    return "GDSII version %d units %s %s" % (version, data[at + 4:at + 12].hex(), data[at + 12:at + 20].hex())


def head(data):
    """The line that is printed of a file that is accepted."""
    return oasis_head(data) if data[:1] == b"%" else gds_head(data)


def layers(words):
    """Boxes by Layer: each Layer is followed by its boxes."""
    found, last = {}, (1, 0)
    for word in words.split():
        numbers = tuple(map(int, re.split(r"[/,]|\.\.", word)))
        if len(numbers) == 2:
            last = numbers
        else:
            found.setdefault(last, []).append(numbers)
    return found


def lines(words):
    return digest.lines(layers(words))


def spelled(text):
    """A text as it is spelled in `out`."""
    return text.replace("\\", "\\\\").replace("\n", "\\n")


def kept(name):
    """The text of a file in tests/texts, spelled as in `out`."""
    with open(os.path.join(HERE, "texts", name), encoding="utf-8") as file:
        return spelled(file.read())


def readme(line):
    """The lines of README.md after this line of the program, up to the next line or the end of the example."""
    with open(os.path.join(TOP_FOLDER, "README.md"), encoding="utf-8") as file:
        after = file.read().split("\n    $ lvl %s\n" % line)
    if len(after) != 2:
        raise ValueError("README.md: not one example: " + line)
    shown = itertools.takewhile(lambda it: re.match(r"    [^$]", it), after[1].split("\n"))
    return spelled("".join(it[4:] + "\n" for it in shown))


def shown(name, unit, numbers):
    """The lines that say how much of a file was read."""
    return "".join("\\rlvl: %s %d %s\\e[K" % (name, number, unit) for number in numbers)


# What a word in braces stands for, from the words after it and the bytes of the row's files by name.
TEXTS = {
    "head": lambda name, files: head(files[name]),
    "lines": lambda words, files: lines(words),
    "mask": lambda words, files: lines(words).split()[-1],
    "verdict": verdicts.verdict,
    "links": lambda words, files: made.links(int(words)),
    "view": lambda words, files: made.view(int(words)),
    "window": lambda words, files: made.window(int(words)),
    "change": lambda words, files: made.change(int(words)),
    **corners.TEXTS,
    "file": lambda name, files: kept(name),
    "readme": lambda line, files: readme(line),
    "repeat": lambda words, files: words.split()[0] * int(words.split()[1]),
    "percents": lambda name, files: shown(name, "%", range(13, 101)),
    "megabytes": lambda words, files: shown(words.split()[0], "MB", range(1, int(words.split()[1]) + 1)),
}


def texts(text, files):
    """A text with the words in braces computed."""
    word = r"\{(%s)(?: ([^{}]*))?\}" % "|".join(TEXTS)
    while re.search(word, text):
        text = re.sub(word, lambda it: TEXTS[it[1]](it[2] or "", files), text)
    return text


def unescaped(text):
    """The bytes of a text of a row."""
    bytes_of = {"n": b"\n", "\\": b"\\", "e": b"\x1b", "r": b"\r", "t": b"\t"}
    parts = re.split(r"\\(x[0-9A-Fa-f]{2}|.)", text)
    out = parts[0].encode()
    for escape, plain in zip(parts[1::2], parts[2::2]):
        out += (bytes.fromhex(escape[1:]) if len(escape) == 3 else bytes_of[escape]) + plain.encode()
    return out
