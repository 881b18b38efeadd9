"""Pseudo-random layouts with coordinates near 0, 2^31, 2^32, 2^62 and both ends of 64 bits."""
from lib import layout, spelling
from lib.exact import HERE, LEAST, MOST, Group, Map, corners, fits, moved, transposed, verdict
from lib.layout import LAYERS, NONE, Shape

BASES = [0, 2**31, -(2**31), 2**32, -(2**32), 2**62, -(2**62), LEAST, MOST]
NARROW = [0, 2**16, 2**30, -(2**30), -(2**31), 2**31 - 1]


class Numbers:
    """Pseudo-random coordinates, few on each axis, so that many of them are equal."""

    def __init__(self, rng, narrow):
        self.rng, self.narrow = rng, narrow
        self.least, self.most = (-(2**31), 2**31 - 1) if narrow else (LEAST, MOST)
        self.pools = [self.pool(), self.pool()]

    def clamped(self, number):
        return min(max(number, self.least), self.most)

    def near(self, base):
        reach = self.rng.choice([2, 2, 40])
        return self.clamped(base + self.rng.randint(-reach, reach))

    def pool(self):
        bases = self.rng.sample(NARROW if self.narrow else BASES, self.rng.randint(1, 4))
        many = self.rng.choice([2, 3, 4, 6, 8, 12])
        found = {self.near(bases[at % len(bases)]) for at in range(many)}
        return sorted(found) if len(found) > 1 else self.pool()

    def one(self, axis):
        """A coordinate, in most cases from the pool."""
        if self.rng.random() < 0.9:
            return self.rng.choice(self.pools[axis])
        return self.near(self.rng.choice(NARROW if self.narrow else BASES))

    def other(self, axis, old):
        """A coordinate other than the old one."""
        new = self.one(axis)
        return new if new != old else self.other(axis, old)

    def length(self):
        """A length from 1 to 2^63, or to 2^30 in a narrow layout."""
        return self.rng.choice([1, self.rng.randint(1, 40), 2 ** self.rng.randint(0, 30 if self.narrow else 63)])

    def two(self, axis):
        """Two different coordinates, the lesser first."""
        low = self.one(axis)
        high = self.clamped(low + self.length()) if self.rng.random() < 0.3 else self.one(axis)
        return (low, high) if low < high else (high, low) if high < low else self.two(axis)

    def many(self, axis, count):
        """Different coordinates in ascending order."""
        fresh = [self.near(self.rng.choice(self.pools[axis])) for _ in range(count)]
        return sorted({*fresh, *self.two(axis)})

    def step(self):
        """A step of a repetition."""
        def along(pool):
            apart = self.rng.choice(pool) - self.rng.choice(pool)
            return self.rng.choice([0, self.rng.randint(-9, 9), self.length(), -self.length(), apart])
        return along(self.pools[0]), along(self.pools[1])

    def map(self):
        at = (0, 0) if self.rng.random() < 0.3 else (self.one(0), self.one(1))
        return Map(self.rng.random() < 0.5, self.rng.randint(0, 3), at)


def box(numbers, _):
    (x0, x1), (y0, y1) = numbers.two(0), numbers.two(1)
    return corners(x0, y0, x1, y1)


def walk(numbers, many):
    """Steps along x and y in turn, back to the start; the ring may cross itself."""
    points = [(numbers.one(0), numbers.one(1))]
    for _ in range(many + 1):
        points.append((numbers.one(0), points[-1][1]))
        points.append((points[-1][0], numbers.one(1)))
    return points + [(points[0][0], points[-1][1])]


def comb(numbers, many):
    """Teeth of different heights on a base; or, transposed, of different lengths."""
    axis = numbers.rng.randint(0, 1)
    base, backs = numbers.one(1 - axis), numbers.two(1 - axis)
    places, points = numbers.many(axis, 2 * many + 1), []
    for at, (low, high) in enumerate(zip(places, places[1:])):
        height = numbers.one(1 - axis) if at % 2 == 0 else numbers.rng.choice(backs)
        points += [(low, height), (high, height)]
    points = [(places[0], base), *points, (places[-1], base)]
    return transposed(points) if axis else points


def rounds(numbers, many):
    """A ring that goes round several times, along the same way or as a spiral."""
    (x0, x1), (y0, y1) = numbers.two(0), numbers.two(1)
    more = numbers.rng.choice([0, 0, 1, 1, 3]) if many <= 100 else 0
    points = [(x0, y0)]
    for at in range(many):
        far = [numbers.clamped(low - more * at) for low in (x0, y0)]
        near = [numbers.clamped(high + more * at) for high in (x1, y1)]
        points += [(near[0], points[-1][1]), tuple(near), (far[0], near[1]), tuple(far)]
    return points + [(points[0][0], points[-1][1])]


def line(numbers, many):
    """A ring whose corners are all on one line, so that it covers nothing."""
    axis = numbers.rng.randint(0, 1)
    across = numbers.one(1 - axis)
    points = [(numbers.one(axis), across) for _ in range(many + 3)]
    return transposed(points) if axis else points


def column(numbers, many):
    """A ring whose corners are all at two abscissas, or at two ordinates."""
    axis = numbers.rng.randint(0, 1)
    pair = numbers.two(axis)
    points = [(pair[0], numbers.one(1 - axis))]
    for _ in range(many + 1):
        points.append((numbers.rng.choice(pair), points[-1][1]))
        points.append((points[-1][0], numbers.one(1 - axis)))
    points.append((points[0][0], points[-1][1]))
    return transposed(points) if axis else points


RINGS = [box, box, box, box, walk, walk, walk, comb, rounds, line, column]


def path(numbers, layer):
    """A pseudo-random path, or None if the first one that is tried breaches a rule."""
    rng, points = numbers.rng, [(numbers.one(0), numbers.one(1))]
    axis = rng.randint(0, 1)
    for _ in range(rng.randint(1, 4)):
        x, y = points[-1]
        points.append((numbers.other(0, x), y) if axis == 0 else (x, numbers.other(1, y)))
        axis = 1 - axis
    lengths = [abs(bx - ax) + abs(by - ay) for (ax, ay), (bx, by) in zip(points, points[1:])]
    room = min(min(at - numbers.least, numbers.most - at) for point in points for at in point)
    most = room if len(lengths) == 1 else min(room, *lengths)
    half = rng.choice([rng.randint(1, 9), min(numbers.length(), most), most, most // 2])
    if half == 0 or (len(lengths) > 1 and min(lengths) < half):
        return None
    ends = (0, rng.choice([0, half, min(numbers.length(), MOST)]))
    if numbers.narrow or rng.random() < 0.5:
        ends = rng.choice([(0, 0), (half, half)])
    shape = Shape(layer, "path", points, 2 * half, ends, NONE)
    return shape if 2 * half <= numbers.most or not numbers.narrow else None


def repeated(numbers, shape):
    """The shape at several shifts, if some are found at all of which it fits."""
    for _ in range(4):
        (ax, ay), (bx, by) = numbers.step(), numbers.step()
        m, n = numbers.rng.randint(2, 3), numbers.rng.choice([1, 1, 2])
        shifts = [(i * ax + j * bx, i * ay + j * by) for j in range(n) for i in range(m)]
        if numbers.rng.random() < 0.3:
            shifts = NONE + [numbers.step() for _ in range(m)]
        if fits(shape._replace(shifts=shifts), numbers.least, numbers.most):
            return shape._replace(shifts=shifts)
    return shape


def shape_of(numbers):
    rng, layer = numbers.rng, numbers.rng.choice(LAYERS)
    found = path(numbers, layer) if rng.random() < 0.15 else None
    if found is None or not fits(found, numbers.least, numbers.most):
        many = rng.choice([1, 1, 1, 2, 2, 3, 5, 8]) if rng.random() < 0.97 else rng.choice([20, 30, 60, 100, 600])
        found = Shape(layer, "ring", rng.choice(RINGS)(numbers, many), 0, (0, 0), NONE)
    return repeated(numbers, found) if rng.random() < 0.15 else found


def group_of(numbers):
    """One shape that isn't moved, or several shapes placed by maps."""
    rng = numbers.rng
    if rng.random() < 0.85:
        return Group([shape_of(numbers)], [HERE])
    shapes = [shape_of(numbers) for _ in range(rng.randint(1, 2))]
    tried = [numbers.map() for _ in range(8)]
    good = [by for by in tried if all(fits(moved(s, by), numbers.least, numbers.most) for s in shapes)]
    return Group(shapes, good[:rng.randint(1, 3)] or [HERE])


def made(numbers):
    """A layout of up to 40 groups."""
    return [group_of(numbers) for _ in range(numbers.rng.choice([1, 1, 2, 2, 3, 4, 5, 8, 12, 20, 40]))]


def edge_moved(numbers, points):
    """The ring with one edge moved, or with all corners at one abscissa or ordinate moved."""
    axis = numbers.rng.randint(0, 1)
    points = transposed(points) if axis else list(points)
    at = numbers.rng.randrange(len(points))
    old = points[at][0]
    new = numbers.clamped(old + numbers.rng.choice([-1, 1])) if numbers.rng.random() < 0.7 else numbers.one(axis)
    (_, ay), (bx, by), (_, cy) = points[at - 2], points[at - 1], points[at + 1 - len(points)]
    if numbers.rng.random() < 0.5 and bx == old and ay == by and cy == points[at][1]:
        points[at - 1], points[at] = (new, by), (new, points[at][1])
    else:
        points = [(new, y) if x == old else (x, y) for x, y in points]
    return transposed(points) if axis else points


def shape_changed(numbers, shape):
    if shape.kind == "path":
        return shape._replace(width=shape.width + 2) if max(shape.ends) == 0 else shape._replace(ends=(0, 0))
    return shape._replace(points=edge_moved(numbers, shape.points))


def changed(numbers, groups):
    """The layout with one shape changed, or with one group added or removed."""
    rng, which = numbers.rng, numbers.rng.randrange(len(groups))
    group, rest = groups[which], groups[:which] + groups[which + 1:]
    kind = rng.random()
    if kind < 0.2:
        return groups + [group_of(numbers)]
    if kind < 0.35:
        return rest
    at = rng.randrange(len(group.shapes))
    shape = shape_changed(numbers, group.shapes[at])
    if not all(allowed(moved(shape, by), numbers) for by in (HERE, *group.maps)):
        return rest
    return rest + [group._replace(shapes=group.shapes[:at] + [shape] + group.shapes[at + 1:])]


def allowed(shape, numbers):
    """Whether the shape fits and, if it is a path, has no run that is too short."""
    if not fits(shape, numbers.least, numbers.most) or shape.width > numbers.most:
        return False
    runs = layout.runs(shape.points) if shape.kind == "path" else []
    return len(runs) < 2 or all(abs(bx - ax) + abs(by - ay) >= shape.width // 2 for (ax, ay), (bx, by) in runs)


def pair_of(rng):
    """Two layouts as cells, of which the second is the first or a changed copy, and the right answer."""
    numbers = Numbers(rng, rng.random() < 0.2)
    first = made(numbers)
    second = changed(numbers, first) if rng.random() < 0.6 else first
    return [spelling.cells_of(numbers, groups) for groups in (first, second)], verdict(first, second)
