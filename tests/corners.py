"""Rows of boxes, and the lines of digests that are told by their corners.

    bars N    the file: N boxes on 1/0, side by side with a space of one square between them, each of which begins at
              another ordinate
    stair N   the file: N squares on 1/0, each right above the one before

The texts `{bars N}` and `{stair N}` are the lines of their digests, and `{corners 1/0 0,0:1 0,10:-1}` the lines of a
layer with these corners, in order, each with its change.
"""
from lib import assembler, digest
from lib.crafted import gds_cell, gds_file


def bar(number):
    x, y = 2 * number, number * 7919 % 10_007
    return x, y, x + 1, y + 5000


def step(number):
    return 2 * number, 2 * number, 2 * number + 1, 2 * number + 1


def boxes(of):
    """What makes the file of so many boxes, and what makes the lines of their digests."""
    def file(words):
        return b"".join(gds_file(gds_cell("TOP", *(assembler.box(*of(number)) for number in range(int(words))))))

    def lines(words, files):
        made = [of(number) for number in range(int(words))]
        found = [at for x0, y0, x1, y1 in made for at in ((x0, y0, 1), (x0, y1, -1), (x1, y0, -1), (x1, y1, 1))]
        return digest.lines_of({(1, 0): found})

    return file, lines


def corners(words, files):
    """The lines of a Layer with these corners."""
    layer, *found = words.split()
    numbers = [tuple(map(int, corner.replace(":", ",").split(","))) for corner in found]
    return digest.lines_of({tuple(map(int, layer.split("/"))): numbers})


(BARS, BAR_LINES), (STAIR, STAIR_LINES) = boxes(bar), boxes(step)
KINDS = {"bars": BARS, "stair": STAIR}
TEXTS = {"bars": BAR_LINES, "stair": STAIR_LINES, "corners": corners}
