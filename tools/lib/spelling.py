"""Writes a layout of `far.py` as cells, in one of many ways chosen at random.

Rings are replaced by others that cover the same squares or begin at other corners, and shapes are moved to cells
that are placed by maps.
"""
from lib.exact import HERE, LEAST, MOST, Map, corners, fits, image, merged, moved, ordinates, placed_rings, rings_of
from lib.exact import rows, source, transposed
from lib.layout import NONE, Cell, Reference, Shape


def clipped(points, axis, low, high):
    """The ring clipped to the part of the grid between two coordinates."""
    points = transposed(points) if axis else points
    points = [(min(max(x, low), high), y) for x, y in points]
    return transposed(points) if axis else points


def cut(numbers, points):
    """Two rings that together cover what the ring covers; they may overlap."""
    axis = numbers.rng.randint(0, 1)
    at = [numbers.one(axis) for _ in range(numbers.rng.randint(1, 2))]
    return [clipped(points, axis, LEAST, max(at)), clipped(points, axis, min(at), MOST)]


def within(numbers, points):
    """The ring, and a part of it."""
    return [points, clipped(clipped(points, 0, *numbers.two(0)), 1, *numbers.two(1))]


def spike(numbers, points):
    """The ring with a spike of no width at one corner."""
    at = numbers.rng.randrange(len(points))
    x, y = points[at]
    far = (numbers.one(0), y) if numbers.rng.random() < 0.5 else (x, numbers.one(1))
    return [points[:at] + [(x, y), far, (x, y)] + points[at + 1:]]


def twice(_, points):
    """A ring that goes round twice."""
    return [points * 2 if len(points) < 80 else points]


def other_way(_, points):
    return [points[::-1]]


WAYS = [cut, within, spike, spike, twice, other_way, other_way]


def ways(numbers, points):
    """Rings that together cover what the ring covers."""
    rings = [points]
    for _ in range(numbers.rng.choice([0, 0, 1, 1, 2, 3])):
        at = numbers.rng.randrange(len(rings))
        rings[at:at + 1] = numbers.rng.choice(WAYS)(numbers, rings[at])
    return rings


def respelled(numbers, shape, maps):
    """Shapes that together cover what the shape covers, and fit wherever it is placed."""
    if shape.kind == "path" and numbers.rng.random() < 0.5:
        return [shape]
    rings = [ring for whole in rings_of(shape) for ring in ways(numbers, whole)]
    shapes = [Shape(shape.layer, "ring", ring, 0, (0, 0), shape.shifts) for ring in rings]
    good = all(fits(moved(each, by), numbers.least, numbers.most) for by in (HERE, *maps) for each in shapes)
    return shapes if good else [shape]


def as_boxes(numbers, layer, rings):
    """What the rings cover as boxes, one for each interval of a row or column; None if there are more than 60."""
    turned = numbers.rng.random() < 0.5
    rings = [transposed(ring) for ring in rings] if turned else rings
    ys = ordinates(rings)
    boxes = [(x0, low, x1, high) for low, high, row in zip(ys, ys[1:], rows(rings, ys)) for x0, x1 in merged(row)]
    if len(boxes) > 60:
        return None
    drawn = [corners(*each) for each in boxes]
    return [Shape(layer, "ring", transposed(ring) if turned else ring, 0, (0, 0), NONE) for ring in drawn]


def can_be_said(shifts):
    """Whether some type of repetition can be the shifts: by deltas, or by spaces along one axis."""
    steps = [(bx - ax, by - ay) for (ax, ay), (bx, by) in zip(shifts, shifts[1:])]
    if all(abs(x) < 2**62 and abs(y) < 2**63 for x, y in steps):
        return True
    return all(x >= 0 and y == 0 for x, y in steps) or all(x == 0 and y >= 0 for x, y in steps)


def is_start(at, low, high):
    """Whether a point list can start at a coordinate, if its points lie between two others."""
    return LEAST < at and LEAST <= low - at and high - at <= MOST


def starts(points):
    """The indices of the points at which a point list of these points can start."""
    (x0, x1), (y0, y1) = [(min(numbers), max(numbers)) for numbers in zip(*points)]
    return [at for at, (x, y) in enumerate(points) if is_start(x, x0, x1) and is_start(y, y0, y1)]


def between(numbers):
    """A coordinate at which a point list with those coordinates can start: the first of them if possible."""
    low, high = min(numbers), max(numbers)
    return next(at for at in (numbers[0], (low + high + 1) // 2, LEAST + 1) if is_start(at, low, high))


def started(numbers, points):
    """The ring from a corner at which a point list can start; if there is none, from a point within its box."""
    good = starts(points)
    if good:
        at = numbers.rng.choice(good)
        return points[at:] + points[:at]
    (x, y), way = [between(each) for each in zip(*points)], points[0]
    return [(x, y), (way[0], y), *points, way, (way[0], y)]


def ring_kept(numbers, points):
    """The ring as a record can have it; a rectangle mostly starts at its lower left corner."""
    xs, ys = zip(*points)
    rectangle = corners(min(xs), min(ys), max(xs), max(ys))
    same = len(points) == 4 and set(points) == set(rectangle) and points[0] != points[2]
    if same and min(rectangle[0]) > LEAST and numbers.rng.random() < 0.8:
        return rectangle
    return started(numbers, points)


def path_kept(shape):
    """The path from an end at which a point list can start; if there is none, its bands."""
    for points, ends in ((shape.points, shape.ends), (shape.points[::-1], shape.ends[::-1])):
        if 0 in starts(points):
            return [shape._replace(points=points, ends=ends)]
    return [shape._replace(kind="ring", points=ring, width=0, ends=(0, 0)) for ring in rings_of(shape)]


def kept(numbers, shape):
    """The shape as records can have it."""
    if not can_be_said(shape.shifts):
        here = [Map(False, 0, shift) for shift in shape.shifts]
        return [each for by in here for each in kept(numbers, moved(shape._replace(shifts=NONE), by))]
    shapes = path_kept(shape) if shape.kind == "path" else [shape]
    return [s if s.kind == "path" else s._replace(points=ring_kept(numbers, s.points)) for s in shapes]


def in_range(numbers, *points):
    """Whether all of the points can be positions."""
    return all(numbers.least < x <= numbers.most and numbers.least < y <= numbers.most for x, y in points)


def placed_at(points, chains):
    """The images of points of a cell by each of the chains of maps from the top to the cell."""
    for chain in chains:
        for point in points:
            for by in reversed(chain):
                point = image(point, by)
            yield point


def cell_below(numbers, shapes, chains):
    """A map, the shapes that a cell placed by it can draw, the remaining shapes, and the zero shift."""
    by = numbers.map()
    if not in_range(numbers, by.at, *placed_at([by.at], chains)):
        return HERE, [], shapes, NONE
    inside, outside = [], []
    for shape in shapes:
        back = moved(shape, by, source)
        fitting = numbers.rng.random() < 0.6 and fits(back, numbers.least, numbers.most)
        inside += [back] if fitting else []
        outside += [] if fitting else [shape]
    return by, inside, outside, NONE


def repeated_below(numbers, shapes, chains):
    """As `cell_below`, for one shape, whose repetition becomes that of the reference."""
    many = [at for at, shape in enumerate(shapes) if len(shape.shifts) > 1 and can_be_said(shape.shifts)]
    by = numbers.map()
    for at in many:
        places = [(by.at[0] + dx, by.at[1] + dy) for dx, dy in shapes[at].shifts]
        back = moved(shapes[at]._replace(shifts=NONE), by, source)
        good = in_range(numbers, *places, *placed_at(places, chains))
        if good and fits(back, numbers.least, numbers.most):
            return by, [back], shapes[:at] + shapes[at + 1:], shapes[at].shifts
    return HERE, [], shapes, NONE


def cell_of(numbers, shapes, name, chains=((),)):
    """The shapes as a cell and the cells that it places, which come before it."""
    cells, references = [], []
    for at in range(numbers.rng.choice([0, 0, 1, 2]) if len(chains[0]) < 4 else 0):
        part = repeated_below if numbers.rng.random() < 0.3 else cell_below
        by, inside, shapes, shifts = part(numbers, shapes, chains)
        if inside:
            below, steps = "%s%d" % (name, at), [Map(False, 0, shift) for shift in shifts]
            cells += cell_of(numbers, inside, below, [(*chain, step, by) for chain in chains for step in steps])
            references.append(Reference(below, by.flip, by.quarters, by.at, shifts))
    drawn = [each for shape in shapes for each in kept(numbers, shape)]
    return cells + [Cell(name, drawn, references)]


def cells_of(numbers, groups):
    """The layout as cells; the top is named TOP."""
    rng, top, cells, references = numbers.rng, [], [], []
    for at, group in enumerate(groups):
        shapes = [each for shape in group.shapes for each in respelled(numbers, shape, group.maps)]
        places = [by for by in group.maps if in_range(numbers, by.at)]
        if len(places) < len(group.maps) or group.maps == [HERE] or rng.random() < 0.2:
            top += [moved(shape, by) for by in group.maps for shape in shapes]
            continue
        cells.append(Cell("G%d" % at, [each for shape in shapes for each in kept(numbers, shape)], []))
        references += [Reference("G%d" % at, by.flip, by.quarters, by.at, NONE) for by in places]
    for layer, rings in placed_rings(top).items() if rng.random() < 0.2 else ():
        boxes = as_boxes(numbers, layer, rings)
        if boxes is not None:
            top = [shape for shape in top if shape.layer != layer] + boxes
    *below, last = cell_of(numbers, top, "TOP")
    cells += [*below, last._replace(references=last.references + references)]
    rng.shuffle(cells)
    return cells


def fits_gds(cells):
    """Whether the cells can be written as GDSII: all coordinates, also those of arrays, fit in 32 bits."""
    least, most = -(2**31), 2**31 - 1
    for cell in cells:
        for shape in cell.shapes:
            half = shape.width // 2
            if not fits(shape, least, most) or shape.width > most or shape.ends not in ((0, 0), (half, half)):
                return False
        for reference in cell.references:
            (x, y), shifts = reference.at, reference.shifts
            reached = [number for dx, dy in shifts for number in (x, y, x + 2 * dx, y + 2 * dy)]
            if min(reached) < least or max(reached) > most:
                return False
    return True
