"""The right answers of the program, by a second implementation of the rules.

A library that `gds_reader` or `oasis_reader` has read is checked, counted, placed and compared, and the text of
the answer is made. No code of lvl is used, and no sweep: two lists of rings are compared row by row, by their
windings. `ignore` is the set of words of --ignore.
"""
from collections import namedtuple

from lib import digest as sha
from lib import hints, layout, steps
from lib.hints import WORDS

LIMIT = 16_777_216
MOST_RINGS = 1500
LEAST, MOST = -(2**63), 2**63 - 1
UNIT = (1, 0, 0, 1)
TURNS = [(1, 0, 0, 1), (0, -1, 1, 0), (-1, 0, 0, -1), (0, 1, -1, 0)]

Shape = namedtuple("Shape", "layer rings shifts")
Reference = namedtuple("Reference", "cell flip quarters at shifts")
Cell = namedtuple("Cell", "name shapes references")
Library = namedtuple("Library", "head cells")
# If `allows` is None, the text is the whole answer; else `allows` says whether the words after the text are right.
# The hint is the text on standard error: what would mend a refusal, or that the grid steps of two files differ.
Answer = namedtuple("Answer", "statuses text allows hint")

NOTHING, EVERYTHING = frozenset(), frozenset(WORDS)


def ignored(text):
    """The set that the text of --ignore names; None if it names none."""
    words = text.split(",")
    if not set(words) <= {*WORDS, "all"}:
        return None
    return EVERYTHING if "all" in words else frozenset(words)


class Refused(Exception):
    def __init__(self, step, number, name, *values, at=None, allows=None, listed=False, tops=()):
        words = [step, number, name, *values] + ([] if at is None else ["at", at])
        super().__init__(" ".join(str(word) for word in words))
        self.step, self.number, self.values, self.at, self.allows = step, number, values, at, allows
        self.listed, self.tops = listed, tops


class Lattice:
    """The shifts i * a + j * b."""

    def __init__(self, a, m, b, n):
        self.a, self.m, self.b, self.n = a, m, b, n

    def count(self):
        return self.m * self.n

    def at(self, i, j):
        return i * self.a[0] + j * self.b[0], i * self.a[1] + j * self.b[1]

    def corners(self):
        return [self.at(i, j) for i in (0, self.m - 1) for j in (0, self.n - 1)]

    def places(self):
        return [self.at(i, j) for j in range(self.n) for i in range(self.m)]


class Listed:
    def __init__(self, shifts):
        self.shifts = shifts

    def count(self):
        return len(self.shifts)

    def corners(self):
        return self.shifts

    def places(self):
        return self.shifts


ONCE = Listed([(0, 0)])


def in_range(*numbers):
    return all(LEAST <= number <= MOST for number in numbers)


def points_asked(points, ignore):
    """The points of a path of which its rules are asked: without each that equals the one before, if these are
    ignored."""
    if "points" not in ignore:
        return points
    return points[:1] + [point for before, point in zip(points, points[1:]) if point != before]


def path_fault(points, half, start, end):
    """The number and name of the rule that a path breaches, or None."""
    steps = [(bx - ax, by - ay) for (ax, ay), (bx, by) in zip(points, points[1:])]
    if half == 0:
        return 1, "NoWidth"
    if len(points) < 2:
        return 2, "FewPoints"
    if any(x and y for x, y in steps):
        return 3, "Oblique"
    if (0, 0) in steps:
        return 4, "RepeatedPoint"
    if any(a[0] * b[0] < 0 or a[1] * b[1] < 0 for a, b in zip(steps, steps[1:])):
        return 5, "TurnsBack"
    runs = layout.runs(points)
    if len(runs) > 1 and any(abs(ax - bx) + abs(ay - by) < half for (ax, ay), (bx, by) in runs):
        return 6, "ShortRun"
    if not all(in_range(*box) for box in layout.bands(points, half, start, end)):
        return 7, "OutOfRange"
    return None


def band_rings(points, half, start, end):
    boxes = layout.bands(points, half, start, end)
    return [[(x0, y0), (x1, y0), (x1, y1), (x0, y1)] for x0, y0, x1, y1 in boxes]


def oblique(points):
    return any(ax != bx and ay != by for (ax, ay), (bx, by) in zip(points, points[1:] + points[:1]))


def is_cycle(cells, names):
    """Whether each of these cells refers to the next and the last to the first, which is the first in the file."""
    order = [cell.name for cell in cells]
    if not set(names) <= set(order) or len(set(names)) < len(names):
        return False
    targets = {cell.name: {r.cell for r in cell.references} for cell in cells}
    follows = all(b in targets[a] for a, b in zip(names, names[1:] + names[:1]))
    return follows and names[0] == min(names, key=order.index)


def ranked(cells):
    """The cells, each after those that refer to it, without cells that are on a cycle or below one."""
    waiting = {cell.name: 0 for cell in cells}
    for cell in cells:
        for name in {r.cell for r in cell.references}:
            waiting[name] += 1
    by_name, ready, out = {cell.name: cell for cell in cells}, [n for n in waiting if waiting[n] == 0], []
    while ready:
        out.append(by_name[ready.pop()])
        for name in {r.cell for r in out[-1].references}:
            waiting[name] -= 1
            ready += [name] if waiting[name] == 0 else []
    return out


def top_of(cells, top):
    names = [cell.name for cell in cells]
    if not names:
        raise Refused("cells", 1, "NoCell")
    for at, name in enumerate(names):
        if name in names[:at]:
            raise Refused("cells", 2, "DuplicateCell", name)
    for cell in cells:
        for reference in cell.references:
            if reference.cell not in names:
                raise Refused("cells", 3, "MissingCell", cell.name, reference.cell)
    if len(ranked(cells)) < len(cells):
        raise Refused("cells", 4, "Cycle", allows=lambda words: is_cycle(cells, words))
    if top is not None and top not in names:
        raise Refused("cells", 5, "TopMissing")
    free = [name for name in names if all(name != r.cell for cell in cells for r in cell.references)]
    if top is None and len(free) > 1:
        raise Refused("cells", 6, "ManyTops", tops=free)
    return free[0] if top is None else top


def counted(cells, top):
    """The number of placed rings on each Layer that has any; refuses too many placed cells or rings."""
    placed, rings = {cell.name: 0 for cell in cells}, {}
    placed[top] = 1
    for cell in ranked(cells):
        for reference in cell.references:
            placed[reference.cell] += placed[cell.name] * reference.shifts.count()
        for shape in cell.shapes:
            more = placed[cell.name] * shape.shifts.count() * len(shape.rings)
            rings[shape.layer] = rings.get(shape.layer, 0) + more
    if sum(placed.values()) > LIMIT:
        raise Refused("cells", 7, "TooManyPlacements")
    if sum(rings.values()) > LIMIT:
        raise Refused("cells", 8, "TooManyRings")
    return {layer: many for layer, many in sorted(rings.items()) if many}


def turned(matrix, x, y):
    a, b, c, d = matrix
    return a * x + b * y, c * x + d * y


def orientation(reference):
    a, b, c, d = TURNS[reference.quarters]
    return (a, -b, c, -d) if reference.flip else (a, b, c, d)


def box_of(points):
    xs, ys = [x for x, _ in points], [y for _, y in points]
    return min(xs), min(ys), max(xs), max(ys)


def added(box, matrix, points):
    """The box of all sums of a point of the box and of the image of one of the points."""
    x0, y0, x1, y1 = box_of([turned(matrix, x, y) for x, y in points])
    return box[0] + x0, box[1] + y0, box[2] + x1, box[3] + y1


def beyond(cells, top):
    """The names of the cells at the end of a chain whose shift is out of range, or a placed vertex of which is.

    The least and greatest coordinates of each cell and orientation are exact, since each reference of a chain can
    be at any of its places.
    """
    boxes, out = {top: {UNIT: (0, 0, 0, 0)}}, set()
    for cell in ranked(cells):
        for matrix, box in boxes.get(cell.name, {}).items():
            reached = [box]
            for shape in cell.shapes:
                moved = added(box, matrix, shape.shifts.corners())
                reached += [added(moved, matrix, ring) for ring in shape.rings]
            out |= {cell.name} if not all(in_range(*each) for each in reached) else set()
            for reference in cell.references:
                at = added(added(box, matrix, [reference.at]), matrix, reference.shifts.corners())
                a, b, c, d = orientation(reference)
                by = turned(matrix, a, c) + turned(matrix, b, d)
                to = boxes.setdefault(reference.cell, {})
                whole = (by[0], by[2], by[1], by[3])
                to[whole] = box_of([at[:2], at[2:], *([to[whole][:2], to[whole][2:]] if whole in to else [])])
    return out


def placed_rings(cells, name, known):
    """The rings that a cell draws, itself or through references, by Layer."""
    if name in known:
        return known[name]
    cell, found = next(c for c in cells if c.name == name), {}
    for shape in cell.shapes:
        for dx, dy in shape.shifts.places():
            rings = [[(x + dx, y + dy) for x, y in ring] for ring in shape.rings]
            found.setdefault(shape.layer, []).extend(rings)
    for reference in cell.references:
        below, by = placed_rings(cells, reference.cell, known), orientation(reference)
        for dx, dy in reference.shifts.places() if below else []:
            x0, y0 = reference.at[0] + dx, reference.at[1] + dy
            for layer, rings in below.items():
                images = [[turned(by, x, y) for x, y in ring] for ring in rings]
                found.setdefault(layer, []).extend([[(x + x0, y + y0) for x, y in ring] for ring in images])
    known[name] = found
    return found


def intervals(rings, y):
    """What the rings cover in a row, as intervals that don't touch."""
    spans = []
    for ring in rings:
        winding, start = 0, None
        edges = [(a, (b <= y < d) - (d <= y < b)) for (a, b), (c, d) in zip(ring, ring[1:] + ring[:1]) if a == c]
        for x, sign in sorted(edge for edge in edges if edge[1]):
            start = x if winding == 0 else start
            winding += sign
            spans += [(start, x)] if winding == 0 and start < x else []
    merged = []
    for x0, x1 in sorted(spans):
        if merged and x0 <= merged[-1][1]:
            merged[-1] = (merged[-1][0], max(x1, merged[-1][1]))
        else:
            merged.append((x0, x1))
    return merged


def first_difference(first, second):
    """The least square that only one of the lists of rings covers, and which list; None if there is none."""
    for y in sorted({y for ring in first + second for _, y in ring}):
        one, other = intervals(first, y), intervals(second, y)
        for x in sorted({x for span in one + other for x in span}) if one != other else []:
            by_one, by_other = [any(x0 <= x < x1 for x0, x1 in spans) for spans in (one, other)]
            if by_one != by_other:
                return x, y, "first" if by_one else "second"
    return None


def corners(rings):
    """The corners of what the rings cover, as (x, y, change), in order of x and then y."""
    found, below = [], {}
    for y in sorted({y for ring in rings for _, y in ring}):
        here = {x: sign for span in intervals(rings, y) for x, sign in zip(span, (1, -1))}
        changes = [(x, y, here.get(x, 0) - below.get(x, 0)) for x in here.keys() | below.keys()]
        found += [change for change in changes if change[2]]
        below = here
    return sorted(found)


def verdict(first, second):
    for layer in sorted(set(first) | set(second)):
        apart = first_difference(first.get(layer, []), second.get(layer, []))
        if apart:
            return "differ: layer %d datatype %d square %d %d only in %s" % (*layer, *apart)
    return "same"


def in_turn(sides, step):
    """Applies the step to each side in turn: the results and None, or None and the first refusal with its side."""
    given = []
    for side, value in sides:
        try:
            given.append((side, step(value)))
        except Refused as refused:
            return None, (side, refused)
    return given, None


def checked(value):
    library, top = value
    name = top_of(library.cells, top)
    return library, name, counted(library.cells, name)


def fitting(value):
    library, name, _ = value
    out = beyond(library.cells, name)
    if out:
        raise Refused("flat", 1, "OutOfRange", allows=lambda words: len(words) == 1 and words[0] in out)
    return value


def accepted(read, files, ignore):
    """The library, top and counts of each side, or the answer that refuses one; each file is a side, its bytes, its
    top, and the option that names a top."""
    start = [(side, (data, top)) for side, data, top, _ in files]
    sides, apart = in_turn(start, lambda value: (read(value[0], ignore), value[1]))
    for step in (checked, fitting):
        if not apart:
            sides, apart = in_turn(sides, step)
    if not apart:
        return sides, None
    side, refused = apart
    option = next(option for name, _, _, option in files if name == side)
    hint = hints.hint(refused, option, [word for word in WORDS if word in ignore])
    return None, Answer({2}, "refused: %s: %s" % (side, refused), refused.allows, hint)


def compare(read, first, second, tops, ignore=NOTHING):
    files = [("first", first, tops[0], "--top-a"), ("second", second, tops[1], "--top-b")]
    sides, refused = accepted(read, files, ignore)
    if refused:
        return refused
    heads = "".join("%s: %s\n" % (side, library.head) for side, (library, _, _) in sides)
    said = steps.line(*[library.head for _, (library, _, _) in sides])
    if any(sum(rings.values()) > MOST_RINGS for _, (_, _, rings) in sides):
        return Answer({0, 1}, heads.rstrip("\n"), lambda words: True, said)
    text = verdict(*[placed_rings(library.cells, top, {}) for _, (library, top, _) in sides])
    return Answer({0 if text == "same" else 1}, heads + text, None, said)


def show(read, data, top, ignore=NOTHING):
    sides, refused = accepted(read, [("first", data, top, "--top")], ignore)
    if refused:
        return refused
    library, name, rings = sides[0][1]
    lines = ["file: " + library.head, "top: " + name, "cells: %d" % len(library.cells)]
    lines += ["layer %d datatype %d rings %d" % (*layer, many) for layer, many in rings.items()]
    return Answer({0}, "\n".join(lines), None, "")


def digest(read, data, top, ignore=NOTHING):
    sides, refused = accepted(read, [("first", data, top, "--top")], ignore)
    if refused:
        return refused
    library, name, rings = sides[0][1]
    head = "file: %s\ntop: %s" % (library.head, name)
    if sum(rings.values()) > MOST_RINGS:
        return Answer({0}, head, lambda words: True, "")
    drawn = placed_rings(library.cells, name, {})
    lines = sha.lines_of({layer: corners(rings) for layer, rings in drawn.items()})
    return Answer({0}, head + "\n" + lines.rstrip("\n"), None, "")


def said(answer, files):
    """The answer with all that is said of files, each with its name and bytes."""
    return answer._replace(hint=hints.said(answer.hint, files)) if answer.statuses == {2} else answer


def agrees(answer, status, output, errors):
    if status not in answer.statuses or errors != answer.hint:
        return False
    if answer.allows is None:
        return output == answer.text + "\n"
    rest = output[len(answer.text):]
    whole = output.startswith(answer.text) and rest[:1] in (" ", "\n") and rest[-1:] == "\n"
    return whole and answer.allows(rest.split())
