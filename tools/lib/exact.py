"""The first square in which two layouts differ, exact for coordinates anywhere in 64 bits.

No code of lvl is used. Each ring is cut into slabs between its own ordinates; its windings say what it covers in
each slab. The slabs of all rings are combined to rows, and the rows of both layouts are compared.
"""
from collections import namedtuple

from lib import layout

LEAST, MOST = -(2**63), 2**63 - 1
PAST = (MOST + 1, MOST + 1)

Map = namedtuple("Map", "flip quarters at")
# Shapes, and the maps by each of which all of them are placed.
Group = namedtuple("Group", "shapes maps")
HERE = Map(False, 0, (0, 0))


def image(point, by):
    x, y = point
    if by.flip:
        y = -y
    for _ in range(by.quarters):
        x, y = -y, x
    return x + by.at[0], y + by.at[1]


def source(point, by):
    """The point whose image this is."""
    x, y = point[0] - by.at[0], point[1] - by.at[1]
    for _ in range(by.quarters):
        x, y = y, -x
    return (x, -y) if by.flip else (x, y)


def moved(shape, by, go=image):
    """The shape moved by a map, or by its inverse with `go=source`."""
    if by == HERE:
        return shape
    turn = by._replace(at=(0, 0))
    return shape._replace(points=[go(p, by) for p in shape.points], shifts=[go(s, turn) for s in shape.shifts])


def corners(x0, y0, x1, y1):
    return [(x0, y0), (x1, y0), (x1, y1), (x0, y1)]


def bands(shape):
    return layout.bands(shape.points, shape.width // 2, *shape.ends)


def rings_of(shape):
    """The rings of a shape, without its shifts."""
    return [corners(*band) for band in bands(shape)] if shape.kind == "path" else [shape.points]


def fits(shape, least=LEAST, most=MOST):
    """Whether all coordinates of the shape are within the bounds, as drawn and at each shift."""
    points = [point for ring in rings_of(shape) for point in ring]
    for numbers, steps in zip(zip(*points), zip(*shape.shifts)):
        low, high = min(steps), max(steps)
        if not (least <= low and high <= most and least <= min(numbers) + low and max(numbers) + high <= most):
            return False
    return True


def transposed(points):
    return [(y, x) for x, y in points]


def spans_of(crossings):
    """What a ring covers in a row, from the abscissas and signs of the edges that cross the row."""
    spans, winding, start = [], 0, 0
    for x, sign in sorted(crossings):
        if winding == 0:
            start = x
        winding += sign
        if winding == 0 and start < x:
            spans.append((start, x))
    return spans


def slabs(ring):
    """The lower and upper ordinate of each slab of the ring, and the intervals that the ring covers there."""
    edges = [(ax, ay, by) for (ax, ay), (_, by) in zip(ring, ring[1:] + ring[:1]) if ay != by]
    ys = sorted({edge[1] for edge in edges})
    at = {y: n for n, y in enumerate(ys)}
    crossings = [[] for _ in ys]
    for x, a, b in edges:
        for n in range(at[a], at[b]) if a < b else range(at[b], at[a]):
            crossings[n].append((x, 1 if a < b else -1))
    return [(low, high, spans_of(found)) for low, high, found in zip(ys, ys[1:], crossings)]


def merged(spans):
    """The union of intervals, as intervals that don't touch."""
    out = []
    for x0, x1 in sorted(spans):
        if out and x0 <= out[-1][1]:
            if x1 > out[-1][1]:
                out[-1] = (out[-1][0], x1)
        else:
            out.append((x0, x1))
    return out


def rows(rings, ys):
    """For each ordinate the intervals, not merged, that the rings cover from there up to the next ordinate."""
    at = {y: n for n, y in enumerate(ys)}
    found = [[] for _ in ys]
    for ring in rings:
        for low, high, spans in slabs(ring):
            for n in range(at[low], at[high]):
                found[n] += spans
    return found


def ordinates(rings):
    return sorted({y for ring in rings for _, y in ring})


def least(one, other):
    """The least abscissa that only one of two rows covers, and which row."""
    for (a, b), (c, d) in zip(one + [PAST], other + [PAST]):
        if a != c:
            return (a, "first") if a < c else (c, "second")
        if b != d:
            return (b, "second") if b < d else (d, "first")


def first_difference(first, second):
    """The least square that only one of the lists of rings covers, and which list; None if there is none."""
    ys = ordinates(first + second)
    for y, one, other in zip(ys, rows(first, ys), rows(second, ys)):
        one, other = merged(one), merged(other)
        if one != other:
            x, side = least(one, other)
            return x, y, side
    return None


def flat(groups):
    """The shapes of all groups as placed."""
    return [moved(shape, by) for group in groups for by in group.maps for shape in group.shapes]


def placed_rings(shapes):
    """The rings at all shifts, by Layer."""
    found = {}
    for shape in shapes:
        rings = found.setdefault(shape.layer, [])
        for ring in rings_of(shape):
            rings += [[(x + dx, y + dy) for x, y in ring] for dx, dy in shape.shifts]
    return found


def verdict(first, second):
    """The last line of the comparison of two layouts."""
    one, other = placed_rings(flat(first)), placed_rings(flat(second))
    for layer in sorted(set(one) | set(other)):
        apart = first_difference(one.get(layer, []), other.get(layer, []))
        if apart:
            return "differ: layer %d datatype %d square %d %d only in %s" % (*layer, *apart)
    return "same"
