#!/usr/bin/env python3
"""Times the program on pairs of large files that draw one mask in two ways.

    tools/bench.py [--count N] [--seed N] [--program FILE] [KIND..]

For each kind (all of them if none is named) the first file is GDSII and the second OASIS. A line is printed for
each pair: whether the answer is right, the kind, seconds of processor time and peak memory in MB of `compare`, and
of `show` of the first file, and the sizes of the files in MB. The exit status is 1 if an answer is wrong.
"""
import os
import random
import sys
import tempfile

from lib import crafted, options
from lib.assembler import boundary, g_delta, polygon, rectangle

FIELD = 100_000


def of_size(rng, width, height, field=FIELD):
    """A rectangle anywhere in the field: its lower left corner, its width and its height."""
    return rng.randrange(field), rng.randrange(field), width, height


def rows(count, side):
    """Squares in rows of 1,000, 10 apart."""
    return [(at % 1000 * 10, at // 1000 * 10, side, side) for at in range(count)]


def wires(rng, count):
    """Wires along x, in tracks of 200."""
    return [(at % 100 * 2200 + rng.randrange(200), at // 100 * 200, 1900, 100) for at in range(count)]


def turned(shapes):
    return [(y, x, height, width) for x, y, width, height in shapes]


def nested(rng, count):
    """Squares round one middle, in no order."""
    insets = rng.sample(range(count), count)
    return [(at, at, 2 * (count - at), 2 * (count - at)) for at in insets]


def crossing(count):
    """Wires along x that cross as many along y."""
    half = [(0, at * 100, FIELD, 40) for at in range(count // 2)]
    return half + turned(half)


# The rectangles of each kind.
RECTANGLES = {
    "squares": lambda rng, count: [of_size(rng, 100, 100, field=10 * FIELD) for _ in range(count)],
    "overlapping": lambda rng, count: [of_size(rng, *rng.choices(range(20, 401), k=2)) for _ in range(count)],
    "sizes": lambda rng, count: [of_size(rng, *divmod(rng.randrange(400) * 51 + 2020, 101)) for _ in range(count)],
    "tiles": lambda rng, count: rows(count, 10),
    "vias": lambda rng, count: rows(count, 7),
    "bars": lambda rng, count: [of_size(rng, 50_000, 100) for _ in range(count)],
    "nested": nested,
    "along-x": wires,
    "along-y": lambda rng, count: turned(wires(rng, count)),
    "crossing": lambda rng, count: crossing(count),
}


def halved(shapes):
    """The same squares: the last rectangle first, and every fourth in two halves."""
    for at in reversed(range(len(shapes))):
        x, y, width, height = shapes[at]
        if at % 4 == 0 and width > 1:
            yield x + width // 2, y, width - width // 2, height
            width //= 2
        yield x, y, width, height


def lapped(shapes):
    """The same squares: the last rectangle first, and every fourth in two parts that overlap."""
    for at in reversed(range(len(shapes))):
        x, y, width, height = shapes[at]
        if at % 4 == 0 and width > 2:
            yield x + width // 3, y, width - width // 3, height
            width = width // 2 + 1
        yield x, y, width, height


def comb(rng, teeth):
    """A polygon with teeth of different heights and gaps between them, and the rectangles that it is made of."""
    left, low = rng.randrange(80_000), rng.randrange(FIELD)
    points, parts, x = [], [], left
    for _ in range(teeth):
        height = 50 + rng.randrange(300)
        parts += [(x, low, 6, height), (x + 6, low, 4, 40)]
        points += [(x, low + height), (x + 6, low + height), (x + 6, low + 40), (x + 10, low + 40)]
        x += 10
    return [*points, (x, low), (left, low)], parts


def slope(number, steps=2000):
    """A polygon with a long side that goes up 9 and down 8 by turns."""
    low, points = number * 20, [(0, number * 20)]
    for at in range(steps):
        points += [(2 * at, low + at + 9), (2 * at + 1, low + at + 9), (2 * at + 1, low + at + 1),
                   (2 * at + 2, low + at + 1)]
    return [*points, (2 * steps, low)]


def in_gds(shapes):
    for x, y, width, height in shapes:
        yield boundary([(x, y), (x + width, y), (x + width, y + height), (x, y + height)])


def in_oasis(shapes):
    for x, y, width, height in shapes:
        yield rectangle(x, y, width, height)


def deltas(points):
    """The g-deltas of a polygon's points after the first."""
    return [g_delta(bx - ax, by - ay) for (ax, ay), (bx, by) in zip(points, points[1:])]


def polygons(kind, rng, count):
    """The polygons of a kind, and what draws the same in OASIS."""
    if kind == "slopes":
        rings = [slope(at) for at in range(max(count // 4000, 1))]
        return rings, [polygon(deltas(it), 4, at=it[0]) for it in reversed(rings)]
    teeth = {"combs": 2000, "stairs": 10}[kind]
    made = [comb(rng, teeth) for _ in range(max(count // teeth, 1))]
    return [points for points, _ in made], in_oasis(it for _, parts in made for it in parts)


def pair(kind, rng, count):
    """The records of both files, and whether they draw the same."""
    if kind in ("combs", "stairs", "slopes"):
        rings, others = polygons(kind, rng, count)
        return (boundary(it) for it in rings), others, True
    shapes = RECTANGLES[{"same": "squares", "moved": "squares", "lapped": "sizes"}.get(kind, kind)](rng, count)
    if kind == "lapped":
        return in_gds(shapes), in_oasis(lapped(shapes)), True
    if kind not in ("same", "moved"):
        return in_gds(shapes), in_oasis(halved(shapes)), True
    others = list(shapes)
    if kind == "moved":
        x, *rest = others[count // 2]
        others[count // 2] = x + 2 * FIELD, *rest
    return in_gds(shapes), in_oasis(others), kind == "same"


def time_kind(program, kind, folder, count, seed):
    """Runs the program on a pair, prints what it took, and returns whether the answer is right."""
    first, second, is_same = pair(kind, random.Random(f"{seed} {kind}"), count)
    names = [os.path.join(folder, it) for it in ("first.gds", "second.oas")]
    sizes = [crafted.write(names[0], crafted.gds_file(crafted.gds_cell("TOP", first))),
             crafted.write(names[1], crafted.oas_file(crafted.oas_cell("TOP", second)))]
    compared = crafted.run(program, ["compare", *names])
    shown = crafted.run(program, ["show", names[0]])
    is_right = compared.status == (0 if is_same else 1) and shown.status == 0
    print("%s %-11s compare %6.2f s %5.0f MB  show %5.2f s %5.0f MB  files %4.0f MB %4.0f MB" % (
        "right" if is_right else "WRONG", kind, compared.seconds, compared.megabytes, shown.seconds, shown.megabytes,
        sizes[0] / 1e6, sizes[1] / 1e6), flush=True)
    return is_right


def main():
    kinds = [*RECTANGLES, "lapped", "combs", "stairs", "slopes", "same", "moved"]
    line = options.parser(__doc__)
    line.add_argument("--count", type=int, default=1_000_000, help="rectangles in each first file (default: a million)")
    line.add_argument("--seed", type=int, default=1)
    line.add_argument("kinds", metavar="KIND", nargs="*", help=", ".join(kinds))
    given = options.parsed(line)
    if unknown := [it for it in given.kinds if it not in kinds]:
        line.error(f"no kind is named {unknown[0]}")
    with tempfile.TemporaryDirectory() as folder:
        results = [time_kind(given.program, it, folder, given.count, given.seed) for it in given.kinds or kinds]
    return 0 if all(results) else 1


if __name__ == "__main__":
    sys.exit(main())
