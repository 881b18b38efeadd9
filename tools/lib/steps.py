"""The line on standard error about two files whose grid steps differ, from their heads, by exact fractions."""
import struct
from fractions import Fraction

PART = Fraction(1, 2 ** 32)
LEAST, MOST = Fraction(1, 10 ** 15), Fraction(1)


def gds_length(digits):
    """Metres in a step, by the hexadecimal digits of an eight-byte real; None if it is negative."""
    number = int(digits, 16)
    if number >> 63:
        return None
    return Fraction(number % 2 ** 56, 2 ** 56) * Fraction(16) ** (number // 2 ** 56 - 64)


def ieee(digits):
    """The number of four or eight bytes, the lowest first; None if it isn't a finite one above zero, or nearly zero."""
    data = bytes.fromhex(digits)
    value = struct.unpack("<f" if len(data) == 4 else "<d", data)[0]
    least = 2.0 ** -126 if len(data) == 4 else 2.0 ** -1022
    return Fraction(value) if least <= value < float("inf") else None


def oasis_length(text):
    """Metres in a step, by the text of the unit: steps in a micrometre."""
    if text.startswith("hex "):
        steps = ieee(text[4:])
    else:
        above, _, below = text.partition("/")
        steps = Fraction(int(above), int(below or 1)) if int(below or 1) else None
    return Fraction(1, 10 ** 6) / steps if steps else None


def length(head):
    _, _, unit = head.partition(" unit ")
    given = oasis_length(unit.partition(" scheme ")[0]) if unit else gds_length(head.split(" ")[-1])
    return given if given is not None and LEAST <= given <= MOST else None


def text(given):
    if given is None:
        return "an unreadable unit"
    whole, rest = divmod(int(given * 10 ** 15 + Fraction(1, 2)), 10 ** 6)
    return "%d%s nm" % (whole, (".%06d" % rest).rstrip("0") if rest else "")


def line(first, second):
    """The line for the heads of two files, or nothing if their steps agree."""
    ours, theirs = length(first), length(second)
    if None not in (ours, theirs) and max(ours, theirs) * (1 - PART) <= min(ours, theirs):
        return ""
    return "lvl: the grid steps differ: %s in the first file, %s in the second\n" % (text(ours), text(theirs))
