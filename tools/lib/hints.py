"""The line on standard error that a refusal has if a switch, an option or a tool would mend it.

The table, from a refusal to its hint:

    step   number and name              and                                hint
    gds    2 BadLength, 3 BadDataType,  at 0                               neither GDSII nor OASIS
           4 UnknownRecord
    gds    11 Unsupported               43, 44, 35                         try --ignore properties
    gds    11 Unsupported               57, 58, 59, 31, 32, 34, 54, 52,    try --ignore names
                                        38, 47
    oasis  2 IntegerTooLarge                                               try --ignore padding
    oasis  24 Unsupported               7, 8, 9, 10, 28, 29                try --ignore properties
    oasis  24 Unsupported               5, 6, 19                           try --ignore texts
    oasis  24 Unsupported               11, 12, 30, 31                     try --ignore names
    oasis  24 Unsupported               34                                 try --unpack
    gds    21 Path, oasis 33 Path       4 RepeatedPoint                    try --ignore points
    cells  6 ManyTops                                                      the first file has 2 tops: A, B:
                                                                           choose one by --top-a

    gds    5 TooLong, 26 Repetition,                                       try --large
           27 TooManyCells
    oasis  9 RepetitionSize, 11 TooLong,    not of a list                  try --large
           39 TooManyCells
    cells  7 TooManyPlacements,                                            try --large
           8 TooManyRings

Each begins with `lvl: `, and then has the name of the file if there is only one, as `lvl: chip.gds: try --large`; the
one on tops doesn't. After a refusal that has none of these lines, or only `neither GDSII nor OASIS`, each file that
begins as those of gzip do has a line, `lvl: chip.gds is compressed (gzip): unpack it first`. The one on tops has the first eight names in file order, and then `..` if there are more; it
names --top-a or --top-b, by the side, or of show and digest `the file` and --top. If other words were given, a hint
to --ignore has them too, in the order properties, texts, names, padding, points, since the option can be given only
once, and goes on `, or --ignore all`. If the word itself was given, there is no hint.
"""

import re

WORDS = ("properties", "texts", "names", "padding", "points")
# By step and number, the word that lets in each value of the fault; None is any.
MENDED = {
    ("gds", 11): {
        "properties": (0x2B, 0x2C, 0x23),
        "names": (0x39, 0x3A, 0x3B, 0x1F, 0x20, 0x22, 0x36, 0x34, 0x26, 0x2F),
    },
    ("oasis", 24): {"properties": (7, 8, 9, 10, 28, 29), "texts": (5, 6, 19), "names": (11, 12, 30, 31)},
    ("oasis", 2): {"padding": (None,)},
    ("gds", 21): {"points": (4,)},
    ("oasis", 33): {"points": (4,)},
}
# By step and number, the refusals by a limit that --large lifts.
LIFTED = {("gds", 5), ("gds", 26), ("gds", 27), ("oasis", 9), ("oasis", 11), ("oasis", 39), ("cells", 7), ("cells", 8)}
LIFT = "lvl: try --large\n"
FOREIGN = "lvl: neither GDSII nor OASIS\n"
# How a file of gzip begins.
GZIP = b"\x1F\x8B"


def word_of(step, number, value):
    """The word of --ignore that mends the refusal, if there is one."""
    for word, values in MENDED.get((step, number), {}).items():
        if value in values:
            return word
    return None


def is_lifted(answer):
    """Whether an answer refuses a file by a limit that --large lifts, unless it is of a repetition that lists its
    places."""
    found = re.match(r"refused: \w+: (\w+) (\d+) ", answer)
    return found is not None and (found.group(1), int(found.group(2))) in LIFTED


def tops(names, option):
    """The line that names the cells that could be the top, which the option chooses."""
    which = {"--top": "file", "--top-a": "first file", "--top-b": "second file"}[option]
    named = ", ".join([*names[:8], *[".."][:len(names) > 8]])
    return "lvl: the %s has %d tops: %s: choose one by %s\n" % (which, len(names), named, option)


def named(hint, name):
    """The hint at the only file of a line, which has its name. The line on tops has none."""
    return hint if hint.startswith("lvl: the file ") else hint.replace("lvl: ", "lvl: %s: " % name, 1)


def said(hint, files):
    """All that is said after a refusal of files, each with its name and bytes, from the hint."""
    text = named(hint, files[0][0]) if len(files) == 1 else hint
    looked = files if hint in ("", FOREIGN) else []
    return text + "".join("lvl: %s is compressed (gzip): unpack it first\n" % name
                          for name, data in looked if data[:2] == GZIP)


def hint(refused, option, given):
    """The text on standard error, from the refusal of a file, the option that names its top, and the words of
    --ignore that were given."""
    fault = refused.step, refused.number
    value = refused.values[0] if refused.values else None
    if fault in LIFTED and not refused.listed:
        return LIFT
    word = word_of(*fault, value)
    if word is not None and word not in given:
        return "lvl: try --ignore %s, or --ignore all\n" % ",".join(each for each in WORDS if each in (*given, word))
    if refused.step == "gds" and refused.number in (2, 3, 4) and refused.at == 0:
        return FOREIGN
    if fault == ("oasis", 24) and value == 34:
        return "lvl: try --unpack\n"
    if fault == ("cells", 6):
        return tops(refused.tops, option)
    return ""
