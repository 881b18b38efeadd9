"""Words of layouts that are made: long rings, chains of cells, and lists from pseudo-random numbers.

A word is `%`, a name and its numbers, as `%comb:4:5`. Before it may be a Layer, and after it an array, as of other
words of layouts: these then are before and after each of the words that it stands for. A maker is added to MAKERS.
"""
import re
from functools import lru_cache

MULTIPLIER, INCREMENT = 6_364_136_223_846_793_005, 1_442_695_040_888_963_407


def ring(points):
    """A polygon by its corners."""
    return ";".join("%d,%d" % point for point in points)


def box(x0, y0, x1, y1):
    return "%d,%d..%d,%d" % (x0, y0, x1, y1)


# Long rings.
def comb(many, high, tooth=-1, other=0, turned=0, x=0, y=0):
    """A comb of so many teeth, one wide and two apart, from (x, y) on. All are so high but the one with this number;
    so many of its points come last instead of first."""
    points = []
    for k in range(many):
        top = y + (other if k == tooth else high)
        left = x + 2 * k
        points += [(left, y), (left, top), (left + 1, top), (left + 1, y)]
    return [ring(points[turned:] + points[:turned])]


def rake(many):
    """A comb of so many teeth, ten long, that lies on its side."""
    return [ring([point for y in range(0, 2 * many, 2) for point in [(0, y), (10, y), (10, y + 1), (0, y + 1)]])]


def stair(many, x):
    """A stair of so many steps, from x on."""
    points = [point for y in range(many) for point in [(x + y, y), (x + y + 1, y)]]
    return [ring(points + [(x + many, many), (x, many)])]


def stairs(many, steps):
    """So many pairs of stairs of so many steps, by turns at 0 and at 7."""
    return [*stair(steps, 0), *stair(steps, 7)] * many


def round_origin(radius, below):
    """Once round the origin, from the lower right to so far below the lower left."""
    return [(radius, -radius), (radius, radius), (-radius, radius), (-radius, -radius - below)]


def winding(many):
    """A ring that goes so many times round the origin, further out each time."""
    points = [(-many, -1)]
    for radius in range(1, many):
        points += round_origin(radius, 1)
    return [ring(points + round_origin(many, 0))]


def wire(many):
    """A wire, one wide, that goes round, two further out each time: out along one side, back along the other."""
    sides = [[(0, -2 - out)] for out in (0, 1)]
    for out, side in enumerate(sides):
        for turn in range(1, many):
            side += round_origin(2 * turn + out, 2)
    there = sides[1].pop()
    return [ring(sides[0] + [(there[0], sides[0][-1][1])] + sides[1][::-1])]


def turns(many):
    """The turns of that wire as boxes: below, on the right, above and on the left of each."""
    found = []
    for turn in range(1, many):
        low, radius = -2 * turn, 2 * turn
        left = 0 if turn == 1 else low + 1
        found += [box(left, low - 1, radius + 1, low), box(radius, low - 1, radius + 1, radius + 1),
                  box(low - 1, radius, radius + 1, radius + 1), box(low - 1, low - 2, low, radius + 1)]
    return found


def brackets(first, last, least):
    """Brackets, open to the right, each within those of lower numbers; those before the least are at its place."""
    found = []
    for number in range(first, last):
        at = max(number, least)
        right, middle = 4000 - at, 2000 - at
        found.append(ring([(at, at), (at, 6000 - at), (right, 6000 - at), (right, 4000 + at), (middle, 4000 + at),
                           (middle, middle), (right, middle), (right, at)]))
    return found


# Rings at the ends of the grid.
LEAST, MOST = -2**63, 2**63 - 1


def left():
    """A square at the left end."""
    return [box(LEAST + 1, 4294967281, LEAST + 3, 4294967283)]


def tower():
    """A ring near 2^31, from the middle of the lower half of the grid to its upper end."""
    return [ring([(2147483650, 4294967308), (2147483650, 4294967308), (2147483650, 4294967288),
                  (2147483613, 4294967288), (2147483613, 2305843013508661239),
                  (2147483613, 4611686022722355190), (2147483613, 6917529031936049141),
                  (2147483613, 9223372036854775807), (2147483679, 9223372036854775807),
                  (2147483679, 6917529027641081856), (2147483679, 4611686018427387905),
                  (2147483679, 2305843009213693954), (2147483679, 4294967264), (1, 4294967264),
                  (1, 4294967269), (2147483655, 4294967269), (2147483655, -2305843004918726682),
                  (2147483655, -4611686014132420633), (2147483655, -4611686018427387904),
                  (2147483650, -4611686018427387904)])]


def wide():
    """From the left end to just right of the middle, with a corner taken out."""
    return [ring([(0, 1), (-9223372036854775807, 1), (-9223372036854775807, 9), (0, 9), (0, 9), (1, 9), (1, 4),
                  (0, 4)])]


def whole():
    """All of the grid."""
    return [box(LEAST, LEAST, MOST, MOST)]


def nearly_all():
    """All but a square at the upper right end."""
    return [ring([(LEAST, LEAST), (MOST, LEAST), (MOST, MOST - 1), (MOST - 1, MOST - 1), (MOST - 1, MOST),
                  (LEAST, MOST)])]


# Many rings.
def bars(many, pieces):
    """Bars beside each other, each a step higher than the one before it, in one piece or two; and some squares far
    above them."""
    found = []
    for i in range(many):
        middle = i if pieces == 1 else i + many - 1
        found += [box(2 * i, i, 2 * i + 1, middle)] if i < middle else []
        found.append(box(2 * i, middle, 2 * i + 1, i + many))
    for i in range(many // 50):
        y = (i + 1000) << 40
        found.append(box(100 * i, y, 100 * i + 1, y + 1))
    return found


def ladder(many, downward):
    """Boxes as wide as the grid, which overlap by pairs, upwards or downwards."""
    rungs = range(many)[::-1] if downward else range(many)
    return [box(LEAST, 3 * rung, MOST, 3 * rung + 4) for rung in rungs]


def listed(many, reverse, twice=-1):
    """Squares, each third one with a corner taken out; or in reverse and the squares clockwise. One may be there
    twice."""
    found = []
    for number in [*(range(many)[::-1] if reverse else range(many)), *([twice] if twice >= 0 else [])]:
        x, y = number * 37 % 1000, number * 3
        right, top = x + 9, y + 9
        if number % 3 == 0:
            points = [(x, y), (right, y), (right, y + 4), (x + 4, y + 4), (x + 4, top), (x, top)]
        else:
            points = [(x, y), (right, y), (right, top), (x, top)]
            points = [points[0], *points[:0:-1]] if reverse and len(found) < many else points
        found.append(ring(points))
    return found


def column(many):
    """So many squares above each other, two apart."""
    return [box(0, 2 * k, 1, 2 * k + 1) for k in range(many)]


def sizes(many):
    """Boxes beside each other, of which none has the size of the one before."""
    return [box(k, 7, k + 1 + k % 10, 8 + k % 100 // 10) for k in range(many)]


def sizes_rows(hundreds):
    """What a hundred times so many of these boxes cover, in rows."""
    return [box(100 * c + 10 * row, 7 + row, 100 * c + 109, 8 + row)
            for c in range(hundreds) for row in range(10)]


def again(many, *corners):
    """A box so often."""
    return [box(*corners)] * many


def again_path(many, runs):
    """So many paths of one width and so many runs each, up and to the right."""
    points = [(10 * ((k + 1) // 2), 10 * (k // 2)) for k in range(runs + 1)]
    return ["2~" + ring(points)] * many


# Cells.
def links(many):
    """The lines that say how such cells lead from the last to the first, where each places the one before once."""
    lines = "why: reference 1 of 1 to C%d, place 1 of 1, at 0 0 turned 0\n"
    return "why: cell C%d\n" % (many - 1) + "".join(lines % number for number in range(many - 1)[::-1])


def many(many):
    """So many references to the cell A, at a place each."""
    return ["A@0,%d" % y for y in range(many)]


def rows_of(many, columns, rows, step):
    """Cells of which each places the one before, at an array of so many columns and rows; the first, C0, has two
    squares far apart."""
    found = ["C0{", "0,0..4,2", "96,98..100,100", "}"]
    array = ("*%d:%d,0" % (columns, step) if columns > 1 else "") + ("*%d:0,%d" % (rows, step) if rows > 1 else "")
    for number in range(1, many):
        found += ["C%d{" % number, "C%d@0,0%s" % (number - 1, array), "}"]
    return found


# Lists from pseudo-random numbers.
def following(seed):
    return (seed * MULTIPLIER + INCREMENT) % 2**64


def part(seed, shift, most):
    """A number below `most`."""
    return (seed >> shift) % most


def wrapped(number):
    """A number beyond an end of the grid comes in at the other."""
    return (number + 2**63) % 2**64 - 2**63


def made_ring(seed, at):
    """A ring near a corner: a box that may be flat or turned over, one that spans all, one that winds twice, or one
    with a corner taken out."""
    x, y, far = at + part(seed, 20, 7), at + part(seed, 26, 7), at + 8
    right, top = wrapped(x + part(seed, 32, 5) - 1), wrapped(y + part(seed, 38, 5) - 1)
    kind = part(seed, 44, 8)
    if kind == 0:
        return ring([(at, y), (far, y), (far, top), (at, top)])
    if kind in (2, 3):
        return ring([(x, y), (far, y), (far, top), (right, top), (right, far), (x, far)])
    return ring([(x, y), (right, y), (right, top), (x, top)] * (2 if kind == 1 else 1))


def rings(number, second):
    """One of the two lists of rings with this number: about 0, or at an end of the grid."""
    at = {0: LEAST, 1: MOST - 20}.get(number % 4, -4)
    seed, found = number * (104_729 if second else 7919) % 2**64, []
    for _ in range(number % (4 if second else 5)):
        seed = following(seed)
        found.append(made_ring(seed, at))
    return found


def narrow(many, moved, reverse=0):
    """Narrow boxes, one of which may be moved; or from the last to the first."""
    seed, found = 77, []
    for number in range(many):
        seed = following(seed)
        x = part(seed, 20, 1000) + (2000 if number == moved else 0)
        y = part(seed, 30, 1000)
        found.append(box(x, y, x + 3, y + 1 + part(seed, 40, 400)))
    return found[::-1] if reverse else found


def boxes(number, second):
    """One of the two lists of boxes between 0 and 7 with this number, on the Layers 1, 2 and 3."""
    start = number * 7919 % 2**64
    other = following(following(start))
    seed, found = start if not second or part(other, 50, 2) == 0 else other, []
    for _ in range(4):
        seed = following(seed)
        x, y = part(seed, 24, 5), part(seed, 29, 5)
        right, top = x + 1 + part(seed, 34, 2), y + 1 + part(seed, 39, 2)
        found.append("%d/0:%s" % (1 + part(seed, 20, 3), box(x, y, right, top)))
    return found


# What the top of a made library places: cells moved, turned and reflected, arrays of one place less, one cell for
# another.
PLACED = [
    "A@0,0*8:10,0", "A@0,0*7:10,0", "A@1,0*8:10,0", "A@0,0^90*8:10,0", "A@0,0*4:10,0 A@40,0*4:10,0", "M@0,0*4:10,0",
    "M@0,0^180*4:10,0", "M@0,0*4:10,0 B@50,0^f*4:10,0", "A@0,0*8:10,0 M@5,0^f90*3:10,0", "B@0,0*8:10,0 A@80,0",
]
# Boxes of the top; the longest hides what is placed.
DRAWN = ["", "3,0..4,1", "3,0..5,1", "0,0..90,1", "2/0:3,0..4,1", "7,0..9,1 70,0..71,1", "71,0..70,1"]
# What the cell in the middle places and draws.
MIDDLE = [
    "A@0,0*2:10,0", "A@5,0*2:10,0", "A@5,0^90*2:10,0", "A@0,0 B@5,0", "B@0,0*2:10,0", "B@0,0*2:10,0 1,0..2,1", "",
]
# The boxes of a cell at the bottom: a square more or fewer, two boxes for one, the other Layer.
LEAF = [
    "0,0..2,1", "0,0..1,1", "0,0..3,1", "0,0..1,1 1,0..2,1", "2/0:0,0..2,1", "0,0..2,1 4,0..5,1", "1,0..2,1 0,0..2,1",
    "",
]


def made_parts(seed):
    """What a made library has: in the top two parts, and in each of the cells M, A and B."""
    lists = [(PLACED, 16), (DRAWN, 24), (MIDDLE, 32), (LEAF, 40), (LEAF, 48)]
    return [choices[(seed >> shift) % len(choices)] for choices, shift in lists]


@lru_cache(maxsize=1024)
def seed_of(number):
    """The made number with this index, from 44 on."""
    return following(seed_of(number - 1) if number else 44)


def parts(number, second):
    """One of two made libraries: the second is the first with one part exchanged, or none, in another order."""
    seed = seed_of(number)
    placed, drawn, *below = found = made_parts(seed)
    if not second:
        cells = zip("TMAB", [placed + " " + drawn, *below])
    else:
        changed = following(seed)
        kind = (changed >> 56) % 6
        if kind < 5:
            found[kind] = made_parts(following(changed))[kind]
        placed, drawn, *below = found
        cells = zip("TBAM", [drawn + " " + placed, *below[::-1]])
    return [word for name, inside in cells for word in (name + "{", *inside.split(), "}")]


def change(number):
    """The options under which these two are compared: a map, a window, both or none."""
    seed = following(following(seed_of(number)))
    maps, windows = ["2/0=1/0", "1/0=2/0,2/0=1/0"], ["x=0..41,y=0..1", "x=-40..5,y=-50..50"]
    given = [("--map", maps, (seed >> 20) % 4), ("--window", windows, (seed >> 30) % 4)]
    return " ".join("%s %s" % (option, texts[at]) for option, texts, at in given if at < 2)


def made_lattice(number):
    """The steps and counts of a lattice of up to 40 by 40 places, and the number after them."""
    seed = following(number * 7919 % 2**64)
    counts = following(seed)
    up = following(counts)
    steps = [(part(it, 20, 13) - 6, part(it, 30, 13) - 6) for it in (seed, up)]
    return steps, (1 + part(counts, 20, 40), 1 + part(counts, 30, 40)), following(up)


def lattice(number, kind):
    """A box at a made lattice, by a shape or by a reference, or at each of its places by a list."""
    steps, counts, _ = made_lattice(number)
    if kind == 2:
        (a, b), (m, n) = steps, counts
        places = [(i * a[0] + j * b[0], i * a[1] + j * b[1]) for j in range(n) for i in range(m)][1:]
        return ["0,0..4,2" + ("*@" + ring(places) if places else "")]
    arrays = "".join("*%d:%d,%d" % (count, *step) for count, step in zip(counts, steps) if count > 1)
    return ["A{", "0,0..4,2", "}", "TOP{", "A@0,0" + arrays, "}"] if kind else ["0,0..4,2" + arrays]


def window(number):
    """The option of a made window of at most 40 by 40 for a made lattice."""
    seed = made_lattice(number)[2]
    x, y = part(seed, 20, 200) - 100, part(seed, 30, 200) - 100
    return "--window x=%d..%d,y=%d..%d" % (x, x + max(1, part(seed, 40, 41)), y, y + max(1, part(seed, 50, 41)))


def view(number):
    """The options of a made map of three Layers, and of a made window."""
    seed = following(following(number * 7919 % 2**64))
    targets = ["%d/0=%d/0" % (at + 1, 1 + part(seed, shift, 4)) for at, shift in enumerate((20, 30, 40))]
    seed = following(seed)
    x, y = part(seed, 20, 8) - 1, part(seed, 26, 8) - 1
    right, top = x + max(1, part(seed, 32, 6)), y + max(1, part(seed, 38, 6))
    return "--map %s --window x=%d..%d,y=%d..%d" % (",".join(targets), x, right, y, top)


MAKERS = {maker.__name__: maker for maker in (
    comb, rake, stairs, winding, wire, turns, brackets, bars, ladder, listed, column, sizes, sizes_rows, again,
    again_path, many, rows_of, rings, narrow, boxes, lattice, parts,
    left, tower, wide, whole, nearly_all,
)}
WORD = re.compile(r"(\d+/\d+:)?%(\w+)((?::-?\d+)*)(\*\S+)?")


def words(text):
    """The words of a text, with those that are made in place of what stands for them."""
    for word in text.split():
        found = WORD.fullmatch(word)
        if not found:
            yield word
            continue
        front, name, numbers, back = found.groups()
        for each in MAKERS[name](*map(int, numbers.split(":")[1:])):
            yield (front or "") + each + (back or "")
