"""Pseudo-random layouts, and the squares that they cover.

This is a second implementation of the rules, without any code of lvl: a ring covers a square if its winding there
isn't 0, a path covers the squares of its runs, and references are followed square by square.
"""
from collections import namedtuple

Shape = namedtuple("Shape", "layer kind points width ends shifts")
Reference = namedtuple("Reference", "cell flip quarters at shifts")
Cell = namedtuple("Cell", "name shapes references")

LAYERS = [(1, 0), (1, 1), (2, 0)]
NONE = [(0, 0)]


def winding(points, x, y):
    """The number of edges right of the square that go up across its row, less the number that go down."""
    total = 0
    for (ax, ay), (bx, by) in zip(points, points[1:] + points[:1]):
        if ax == bx and ax > x:
            total += (ay <= y < by) - (by <= y < ay)
    return total


def runs(points):
    """The straight runs of a path: its steps, with those in one direction joined."""
    joined = [points[0]]
    for at, point in enumerate(points[1:], 1):
        after = points[at + 1] if at + 1 < len(points) else None
        if after is None or (joined[-1][0] == point[0]) != (point[0] == after[0]):
            joined.append(point)
    return list(zip(joined, joined[1:]))


def bands(points, half, start, end):
    """The boxes of the runs of a path. Each reaches `half` to both sides of its run and beyond the corners of the
    path; beyond the ends of the path it reaches `start` and `end`."""
    parts = runs(points)
    boxes = []
    for at, ((ax, ay), (bx, by)) in enumerate(parts):
        before = start if at == 0 else half
        after = end if at == len(parts) - 1 else half
        if ay == by:
            low, high = (ax - before, bx + after) if ax < bx else (bx - after, ax + before)
            boxes.append((low, ay - half, high, ay + half))
        else:
            low, high = (ay - before, by + after) if ay < by else (by - after, ay + before)
            boxes.append((ax - half, low, ax + half, high))
    return boxes


def squares_of(shape):
    """The squares that a shape covers, without its shifts."""
    if shape.kind == "path":
        half = shape.width // 2
        boxes = bands(shape.points, half, *shape.ends)
        return {(x, y) for x0, y0, x1, y1 in boxes for x in range(x0, x1) for y in range(y0, y1)}
    xs = [x for x, _ in shape.points]
    ys = [y for _, y in shape.points]
    return {
        (x, y) for x in range(min(xs), max(xs)) for y in range(min(ys), max(ys)) if winding(shape.points, x, y) != 0
    }


def image(square, flip, quarters):
    """The image of a square by a reflection about the X axis, if `flip` is set, and then quarter turns."""
    x, y = square
    if flip:
        y = -y - 1
    for _ in range(quarters):
        x, y = -y - 1, x
    return x, y


def covered(cells, name, seen=None):
    """The squares that the cell covers through all references, by Layer."""
    seen = {} if seen is None else seen
    if name in seen:
        return seen[name]
    cell = next(c for c in cells if c.name == name)
    found = {}
    for shape in cell.shapes:
        squares = squares_of(shape)
        for dx, dy in shape.shifts:
            found.setdefault(shape.layer, set()).update((x + dx, y + dy) for x, y in squares)
    for reference in cell.references:
        for layer, squares in covered(cells, reference.cell, seen).items():
            placed = [image(s, reference.flip, reference.quarters) for s in squares]
            for dx, dy in reference.shifts:
                at = reference.at[0] + dx, reference.at[1] + dy
                found.setdefault(layer, set()).update((x + at[0], y + at[1]) for x, y in placed)
    seen[name] = found
    return found


def verdict(first, second, pairs=(), window=None):
    """The last line of the answer, from the squares that two tops cover, under a map and a window."""
    targets = dict(pairs)
    moved = {}
    for layer, squares in second.items():
        moved.setdefault(targets.get(layer, layer), set()).update(squares)
    for layer in sorted(set(first) | set(moved)):
        apart = first.get(layer, set()) ^ moved.get(layer, set())
        if window:
            x0, x1, y0, y1 = window
            apart = {(x, y) for x, y in apart if x0 <= x < x1 and y0 <= y < y1}
        if apart:
            x, y = min(apart, key=lambda s: (s[1], s[0]))
            side = "first" if (x, y) in first.get(layer, set()) else "second"
            return "differ: layer %d datatype %d square %d %d only in %s" % (*layer, x, y, side)
    return "same"


def stairs(rng, size):
    """A rectilinear ring at random: steps along x and y in turn, back to the start; it may cross itself."""
    points = [(rng.randint(-size, size), rng.randint(-size, size))]
    for _ in range(rng.choice([1, 1, 2, 3])):
        x, y = points[-1]
        points.append((rng.randint(-size, size), y))
        points.append((points[-1][0], rng.randint(-size, size)))
    points.append((points[0][0], points[-1][1]))
    return points if rng.random() < 0.5 else points[::-1]


def path_points(rng, half):
    """A pseudo-random path whose runs are at least as long as half its width."""
    x, y = rng.randint(-6, 6), rng.randint(-6, 6)
    points, along = [(x, y)], rng.random() < 0.5
    for _ in range(rng.randint(1, 3)):
        step = rng.randint(half, half + 6) * rng.choice([-1, 1])
        x, y = (x + step, y) if along else (x, y + step)
        points.append((x, y))
        along = not along
    return points


def shifts_of(rng):
    """The shifts of a repetition, of which the first is zero."""
    kind = rng.randint(0, 4)
    if kind == 0:
        a, b = (rng.randint(-9, 9), rng.randint(-9, 9)), (rng.randint(-9, 9), rng.randint(-9, 9))
        m, n = rng.randint(2, 3), rng.randint(2, 3)
        return [(i * a[0] + j * b[0], i * a[1] + j * b[1]) for j in range(n) for i in range(m)]
    if kind == 1:
        step = (rng.randint(-9, 9), rng.randint(-9, 9))
        return [(i * step[0], i * step[1]) for i in range(rng.randint(2, 4))]
    if kind == 2:
        return NONE + [(rng.randint(-12, 12), rng.randint(-12, 12)) for _ in range(rng.randint(1, 3))]
    return NONE


def shape_of(rng):
    layer = rng.choice(LAYERS)
    shifts = shifts_of(rng)
    if rng.random() < 0.3:
        half = rng.randint(1, 3)
        ends = rng.choice([(0, 0), (half, half), (half, half)])
        return Shape(layer, "path", path_points(rng, half), 2 * half, ends, shifts)
    if rng.random() < 0.5:
        x, y, w, h = rng.randint(-9, 9), rng.randint(-9, 9), rng.randint(1, 12), rng.randint(1, 12)
        return Shape(layer, "ring", [(x, y), (x + w, y), (x + w, y + h), (x, y + h)], 0, (0, 0), shifts)
    return Shape(layer, "ring", stairs(rng, 9), 0, (0, 0), shifts)


def reference_of(rng, cell):
    flip, quarters = rng.random() < 0.5, rng.randint(0, 3)
    return Reference(cell, flip, quarters, (rng.randint(-12, 12), rng.randint(-12, 12)), shifts_of(rng))


def made(rng):
    """Pseudo-random cells in a random order; the top is named TOP."""
    names = ["A", "B", "C", "TOP"][rng.randint(0, 3):]
    cells = []
    for at, name in enumerate(names):
        shapes = [shape_of(rng) for _ in range(rng.randint(0 if at else 1, 3))]
        below = names[:at]
        targets = [rng.choice(below) for _ in range(rng.randint(0, 2))] if below else []
        if name == "TOP":
            used = {r.cell for c in cells for r in c.references}
            targets += [n for n in below if n not in targets and n not in used]
        cells.append(Cell(name, shapes, [reference_of(rng, target) for target in targets]))
    rng.shuffle(cells)
    return cells


def changed(rng, cells):
    """The cells with one shape moved by one step, or removed."""
    at = rng.randrange(len(cells))
    cell = cells[at]
    if not cell.shapes:
        return cells
    which = rng.randrange(len(cell.shapes))
    shape = cell.shapes[which]
    dx, dy = rng.choice([(1, 0), (0, 1), (-1, 0)])
    moved = shape._replace(points=[(x + dx, y + dy) for x, y in shape.points])
    shapes = cell.shapes[:which] + ([moved] if rng.random() < 0.7 else []) + cell.shapes[which + 1:]
    return cells[:at] + [cell._replace(shapes=shapes)] + cells[at + 1:]


def hierarchy(rng):
    """Cells of which the top places others many times and far apart, as arrays and one by one."""
    names = ["A", "B", "C", "D", "TOP"][rng.randint(0, 2):]
    cells = []
    for at, name in enumerate(names):
        shapes = [shape_of(rng) for _ in range(rng.randint(0 if at else 1, 2))]
        references = [placed(rng, rng.choice(names[:at]), name == "TOP") for _ in range(rng.randint(0, 2) if at else 0)]
        if name == "TOP":
            references += [placed(rng, target, True) for target in names[:at]]
        cells.append(Cell(name, shapes, references))
    rng.shuffle(cells)
    return cells


def placed(rng, cell, far):
    """A reference to the cell; far apart from others, or near."""
    reach = 40 if far else 15
    step = (rng.randint(5, 15), 0) if rng.random() < 0.5 else (0, rng.randint(5, 15))
    shifts = [(i * step[0], i * step[1]) for i in range(rng.choice([1, 2, 3, 5]))]
    at = rng.randint(-reach, reach), rng.randint(-reach, reach)
    return Reference(cell, rng.random() < 0.5, rng.randint(0, 3), at, shifts)


def replaced(items, at, *others):
    return items[:at] + list(others) + items[at + 1:]


def mutated(rng, cells):
    """Two hierarchies that differ by one mutation, the second often in other words too. Now and then the first top
    has a shape besides that hides all of it, so that both draw the same."""
    at = rng.randrange(len(cells))
    kind = rng.choice(["more", "fewer", "renamed", "moved", "turned", "shorter", "layer", "reordered"])
    cell, other = cells[at], None
    if kind == "more":
        x, y, w, h = rng.randint(-9, 9), rng.randint(-9, 9), rng.randint(1, 3), rng.randint(1, 3)
        ring = [(x, y), (x + w, y), (x + w, y + h), (x, y + h)]
        other = cell._replace(shapes=cell.shapes + [Shape(rng.choice(LAYERS), "ring", ring, 0, (0, 0), NONE)])
    elif kind in ("fewer", "layer") and cell.shapes:
        which = rng.randrange(len(cell.shapes))
        kept = [cell.shapes[which]._replace(layer=rng.choice(LAYERS))] if kind == "layer" else []
        other = cell._replace(shapes=replaced(cell.shapes, which, *kept))
    elif kind in ("moved", "turned", "shorter") and cell.references:
        which = rng.randrange(len(cell.references))
        reference = cell.references[which]
        changes = {
            "moved": {"at": (reference.at[0] + rng.choice([-1, 1]), reference.at[1] + rng.randint(-1, 1))},
            "turned": {"quarters": (reference.quarters + rng.randint(1, 3)) % 4},
            "shorter": {"shifts": reference.shifts[:-1] or reference.shifts},
        }
        other = cell._replace(references=replaced(cell.references, which, reference._replace(**changes[kind])))
    elif kind == "reordered":
        other = cell._replace(shapes=rng.sample(cell.shapes, len(cell.shapes)),
                              references=rng.sample(cell.references, len(cell.references)))
    second = replaced(cells, at, other or cell)
    if kind == "renamed" and cell.name != "TOP":
        second = renamed(cells, cell.name, "OTHER")
    if rng.random() < 0.6:
        second = in_other_words(rng, second)
    return (hidden(cells), hidden(second)) if rng.random() < 0.2 else (cells, second)


def in_other_words(rng, cells):
    """Cells whose top draws the same, by one to three changes of how it is said."""
    for _ in range(rng.randint(1, 3)):
        cells = rng.choice([renamed_all, exchanged, dissolved, dissolved_everywhere, cut, split, wrapped])(rng, cells)
    return cells


def fresh(rng, cells):
    """A name that no cell has."""
    names = {cell.name for cell in cells}
    return next(name for name in iter(lambda: "X%d" % rng.randint(0, 99), None) if name not in names)


def renamed_all(rng, cells):
    """All cells but the top under names of the others, or under new ones."""
    names = [cell.name for cell in cells if cell.name != "TOP"]
    others = rng.sample(names, len(names)) if rng.random() < 0.5 else [name + "$1" for name in names]
    return called(cells, dict(zip(names, others)))


def exchanged(rng, cells):
    """Two cells that have exchanged their names."""
    names = [cell.name for cell in cells if cell.name != "TOP"]
    if len(names) < 2:
        return cells
    one, other = rng.sample(names, 2)
    return called(cells, {one: other, other: one})


def called(cells, names):
    """The cells under other names, wherever they are placed."""
    return [
        Cell(names.get(cell.name, cell.name), cell.shapes,
             [r._replace(cell=names.get(r.cell, r.cell)) for r in cell.references])
        for cell in cells
    ]


def turned(point, flip, quarters):
    """The image of a point by a reflection about the X axis, if `flip` is set, and then quarter turns."""
    x, y = (point[0], -point[1]) if flip else point
    for _ in range(quarters):
        x, y = -y, x
    return x, y


def sums(some, others):
    return [(x + dx, y + dy) for x, y in some for dx, dy in others]


def placed_shape(shape, reference):
    """The shape as the reference places it, at all its places."""
    points = [turned(point, reference.flip, reference.quarters) for point in shape.points]
    shifts = [turned(shift, reference.flip, reference.quarters) for shift in shape.shifts]
    return shape._replace(points=sums(points, [reference.at]), shifts=sums(reference.shifts, shifts))


def is_leaf(cells, name):
    return not next(cell for cell in cells if cell.name == name).references


def dissolved_in(cells, cell, which):
    """The cell with these of its references replaced by the shapes of the leaves that they place."""
    shapes, kept = list(cell.shapes), []
    for at, reference in enumerate(cell.references):
        if at in which and is_leaf(cells, reference.cell):
            leaf = next(c for c in cells if c.name == reference.cell)
            shapes += [placed_shape(shape, reference) for shape in leaf.shapes]
        else:
            kept.append(reference)
    return cell._replace(shapes=shapes, references=kept)


def dissolved(rng, cells):
    """One reference replaced by the shapes of the leaf that it places."""
    at = rng.randrange(len(cells))
    cell = cells[at]
    if not cell.references:
        return cells
    return replaced(cells, at, dissolved_in(cells, cell, {rng.randrange(len(cell.references))}))


def dissolved_everywhere(rng, cells):
    """All references to one leaf replaced by its shapes."""
    leaf = rng.choice([cell.name for cell in cells if is_leaf(cells, cell.name)])
    return [
        dissolved_in(cells, cell, {at for at, r in enumerate(cell.references) if r.cell == leaf}) for cell in cells
    ]


def cut(rng, cells):
    """A cell in two: some of what it has is in a new cell that it places."""
    at, name = rng.randrange(len(cells)), fresh(rng, cells)
    cell = cells[at]
    shapes, references = rng.randint(0, len(cell.shapes)), rng.randint(0, len(cell.references))
    part = Cell(name, cell.shapes[:shapes], cell.references[:references])
    rest = Reference(name, False, 0, (0, 0), NONE)
    whole = cell._replace(shapes=cell.shapes[shapes:], references=cell.references[references:] + [rest])
    return replaced(cells, at, whole, part)


def split(rng, cells):
    """Each reference of a cell with several places as several references."""
    at = rng.randrange(len(cells))
    references = []
    for reference in cells[at].references:
        size = rng.randint(1, len(reference.shifts))
        for first in range(0, len(reference.shifts), size):
            part = reference.shifts[first:first + size]
            dx, dy = part[0]
            shifts = [(x - dx, y - dy) for x, y in part]
            references.append(reference._replace(at=(reference.at[0] + dx, reference.at[1] + dy), shifts=shifts))
    rng.shuffle(references)
    return replaced(cells, at, cells[at]._replace(references=references))


def wrapped(rng, cells):
    """A reference through a new cell that has nothing else; what turns is in either of both."""
    at, name = rng.randrange(len(cells)), fresh(rng, cells)
    cell = cells[at]
    if not cell.references:
        return cells
    which = rng.randrange(len(cell.references))
    reference = cell.references[which]
    x, y = rng.randint(-5, 5), rng.randint(-5, 5)
    if rng.random() < 0.5:
        inner = reference._replace(at=(x, y), shifts=NONE)
        outer = Reference(name, False, 0, (reference.at[0] - x, reference.at[1] - y), reference.shifts)
    else:
        inner = Reference(reference.cell, False, 0, (x, y), NONE)
        dx, dy = turned((x, y), reference.flip, reference.quarters)
        outer = reference._replace(cell=name, at=(reference.at[0] - dx, reference.at[1] - dy))
    return replaced(cells, at, cell._replace(references=replaced(cell.references, which, outer)),
                    Cell(name, [], [inner]))


def renamed(cells, old, new):
    """The cells with one of another name, wherever it is placed."""
    return [
        Cell(new if cell.name == old else cell.name, cell.shapes,
             [r._replace(cell=new) if r.cell == old else r for r in cell.references])
        for cell in cells
    ]


def hidden(cells):
    """The cells with squares of the top that cover most of what is placed, on each Layer."""
    wide = [(-60, -60), (60, -60), (60, 60), (-60, 60)]
    covers = [Shape(layer, "ring", wide, 0, (0, 0), NONE) for layer in LAYERS]
    return [cell._replace(shapes=cell.shapes + covers) if cell.name == "TOP" else cell for cell in cells]
