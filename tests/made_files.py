"""OASIS files of very many records, each of them made by its numbers."""
from functools import lru_cache

from lib.assembler import MAGIC, OASIS_END, cell_by_name, g_delta, placement, rectangle, signed, start, unsigned

TOP = cell_by_name(b"TOP")
MOST_NAME = 2**32 - 1


def file(*parts):
    return MAGIC + start() + b"".join(parts) + OASIS_END


@lru_cache(maxsize=2)
def squares(count):
    return b"".join(rectangle(3, 0, 1, 1, layer) for layer in range(count))


def layers(count, double):
    """A square on each of so many Layers, and one more on one of them."""
    return file(TOP, squares(count), rectangle(0, 0, 1, 1, double))


def needles(count):
    """Rings on one line, each as high as there are rings; each polygon but the first has an ordinate alone."""
    up = unsigned(count << 2 | 1)
    first = b"\x15\x3B\1\0\2\2" + up + unsigned(count << 2 | 3) + b"\0\0"
    return file(TOP, first, *(b"\x15\x08" + signed(y) for y in range(1, count)))


def corners(count):
    """So many rings whose boxes have the square (5, 5), which they don't cover, and a last one that does."""
    steps = [(10, 0), (0, 1), (-9, 0), (0, 9), (-1, 0)]
    first = b"\x15\x3B\1\0\4\5" + b"".join(g_delta(*step) for step in steps) + b"\0\0"
    return file(TOP, first, b"\x15\0" * (count - 1), rectangle(5, 5, 1, 1))


def named(number):
    """The name of a cell; in the order of names the first cell is the last."""
    return "%d" % (MOST_NAME - number)


def chain(count, times):
    """Cells of which each places the next so often; the last draws a square."""
    links = (cell_by_name(named(n - 1).encode()) + placement(named(n)) * times for n in range(1, count))
    return file(*links, cell_by_name(named(count - 1).encode()), rectangle(0, 0, 1, 1))


def empty(count):
    """Cells without shapes and references."""
    return file(*(cell_by_name(named(n).encode()) for n in range(count)))


# The kinds of files, each with what makes it of its numbers.
KINDS = {
    "oasis-layers": layers, "oasis-needles": needles, "oasis-corners": corners, "oasis-chain": chain,
    "oasis-empty": empty,
}
