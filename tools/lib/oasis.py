"""Writes a layout as OASIS. Where a file can say the same in several ways, one is chosen at random.

These are names or numbers of cells, fields that are left out since the modal variable has the value, absolute or
relative positions, and the types of repetitions and point lists. `ignore` is the set of words that lets in records
which draw nothing; these are added at random.
"""
import struct

from lib import assembler, layout, undrawn
from lib.answers import NOTHING
from lib.assembler import MAGIC, cell_by_name, cell_by_number, column, counted_name, lattice, numbered_name, row
from lib.assembler import signed, start, string, unsigned

EAST, NORTH, WEST, SOUTH = range(4)
# The longest step along an axis that fits in any type of delta, and the greatest magnitude of a signed integer.
LONGEST, MOST = 2**61 - 1, 2**63 - 1


def g_delta(rng, x, y):
    short = max(abs(x), abs(y)) < 2**60
    if short and (x == 0 or y == 0 or abs(x) == abs(y)) and rng.random() < 0.6:
        directions = {(1, 0): 0, (0, 1): 1, (-1, 0): 2, (0, -1): 3, (1, 1): 4, (-1, 1): 5, (-1, -1): 6, (1, -1): 7}
        direction = directions.get(((x > 0) - (x < 0), (y > 0) - (y < 0)), rng.randint(0, 7))
        return unsigned(max(abs(x), abs(y)) << 4 | direction << 1)
    return assembler.g_delta(x, y)


def are_delta(x, y):
    """Whether a g-delta can be the step."""
    return abs(x) < 2**62 and abs(y) <= MOST


def axis_delta(x, y, bits):
    direction = (EAST if x >= 0 else WEST) if y == 0 else (NORTH if y > 0 else SOUTH)
    return unsigned((abs(x) + abs(y)) << bits | direction)


def steps_of(points):
    return [(bx - ax, by - ay) for (ax, ay), (bx, by) in zip(points, points[1:])]


def cut(step):
    """The step in parts, each of which fits in any type of delta."""
    length = max(abs(step[0]), abs(step[1]))
    if length <= LONGEST:
        return [step]
    parts = -(-length // LONGEST)
    return steps_of([(step[0] * at // parts, step[1] * at // parts) for at in range(parts + 1)])


def along(steps, first):
    """Whether the steps are along x and y in turn, the first along the given axis."""
    return all(step[1 - (first + at) % 2] == 0 for at, step in enumerate(steps))


def point_list(rng, points, closed):
    """The points as a point list; in a polygon, types 0 and 1 imply the last point."""
    steps = steps_of(points)
    kinds = [2, 3, 4, 5]
    for first in (0, 1):
        inner = steps[:-1] if closed else steps
        last = (points[0][0], points[-2][1]) if first == 0 else (points[-2][0], points[0][1])
        implied = not closed or points[-1] == last
        short = all(abs(x + y) <= MOST for x, y in inner)
        if inner and short and along(steps, first) and implied and (not closed or len(inner) % 2 == 0):
            kinds += [first, first]
    kind = rng.choice(kinds)
    if kind < 2:
        inner = steps[:-1] if closed else steps
        return unsigned(kind) + unsigned(len(inner)) + b"".join(signed(x + y) for x, y in inner)
    steps = [part for step in steps for part in cut(step)]
    out = unsigned(kind) + unsigned(len(steps))
    before = (0, 0)
    for x, y in steps:
        if kind == 5:
            out += g_delta(rng, x - before[0], y - before[1])
            before = (x, y)
        else:
            out += g_delta(rng, x, y) if kind == 4 else axis_delta(x, y, kind)
    return out


def spaces(kind, steps, axis):
    """A repetition of type 4 to 7, or None if the steps aren't all along the axis in its positive direction."""
    lengths = [step[axis] for step in steps]
    if any(step[1 - axis] or step[axis] < 0 for step in steps):
        return None
    if kind in (5, 7):
        grid = 3 if all(n % 3 == 0 for n in lengths) else 2 if all(n % 2 == 0 for n in lengths) else 1
        multiples = b"".join(unsigned(n // grid) for n in lengths)
        return unsigned(kind) + unsigned(len(lengths) - 1) + unsigned(grid) + multiples
    return unsigned(kind) + unsigned(len(lengths) - 1) + b"".join(unsigned(n) for n in lengths)


def repetition(rng, shifts):
    """Shifts, of which there are at least two, by one of the types that can be them."""
    steps, many, found = steps_of(shifts), len(shifts), []
    by_deltas = all(are_delta(*step) for step in steps)
    if by_deltas:
        found.append(unsigned(10) + unsigned(many - 2) + b"".join(g_delta(rng, x, y) for x, y in steps))
        grid = 2 if all(x % 2 == 0 and y % 2 == 0 for x, y in steps) else 1
        deltas = b"".join(g_delta(rng, x // grid, y // grid) for x, y in steps)
        found.append(unsigned(11) + unsigned(many - 2) + unsigned(grid) + deltas)
    for kind, axis in ((4, 0), (5, 0), (6, 1), (7, 1)):
        said = spaces(kind, steps, axis)
        found += [said] if said else []
    if len(set(steps)) == 1:
        x, y = steps[0]
        found += [unsigned(9) + unsigned(many - 2) + g_delta(rng, x, y)] if by_deltas else []
        if y == 0 and x >= 0:
            found.append(row(many, x))
        if x == 0 and y >= 0:
            found.append(column(many, y))
    for columns in (2, 3):
        rows = many // columns
        if rows < 2 or rows * columns != many:
            continue
        a, b = shifts[1], shifts[columns]
        if [(i * a[0] + j * b[0], i * a[1] + j * b[1]) for j in range(rows) for i in range(columns)] != shifts:
            continue
        if are_delta(*a) and are_delta(*b):
            found.append(unsigned(8) + unsigned(columns - 2) + unsigned(rows - 2) + g_delta(rng, *a) + g_delta(rng, *b))
        if a[1] == 0 and b[0] == 0 and a[0] >= 0 and b[1] >= 0:
            found.append(lattice(columns, rows, a[0], b[1]))
    return rng.choice(found)


class Body:
    """The records of one cell, and the modal variables after the last of them."""

    def __init__(self, rng, numbers, ignore):
        self.rng, self.numbers, self.ignore = rng, numbers, ignore
        self.out, self.modal, self.relative = b"", {}, False
        self.at = {"geometry": (0, 0), "placement": (0, 0)}

    def field(self, name, value, bits, bit, said):
        """The info bits and the bytes of a field, which may be left out if its modal variable has the value."""
        if self.modal.get(name) == value and self.rng.random() < 0.7:
            return bits, b""
        self.modal[name] = value
        return bits | bit, said

    def position(self, which, at, bits, x_bit):
        """The info bits and the bytes of a position; the bit of y is the one below that of x."""
        x, y = self.at[which]
        said = b""
        for bit, old, new in ((x_bit, x, at[0]), (x_bit >> 1, y, at[1])):
            if old == new and self.rng.random() < 0.7:
                continue
            bits |= bit
            said += signed(new - old if self.relative else new)
        self.at[which] = at
        return bits, said

    def repeated(self, shifts, bits, bit):
        if len(shifts) == 1:
            return bits, b""
        if self.modal.get("repetition") == shifts and self.rng.random() < 0.7:
            return bits | bit, b"\0"
        self.modal["repetition"] = shifts
        return bits | bit, repetition(self.rng, shifts)

    def add_undrawn(self, shifts):
        """Now and then a TEXT or a PROPERTY; the TEXT may have the shifts of the item after it."""
        if "texts" in self.ignore and self.rng.random() < 0.4:
            bits, repeated = self.repeated(shifts if self.rng.random() < 0.7 else layout.shifts_of(self.rng), 0, 0x04)
            self.out += undrawn.text(self.rng, bits, repeated)
        if "properties" in self.ignore and self.rng.random() < 0.4:
            self.out += undrawn.a_property(self.rng)

    def mode(self, which, at):
        """Now and then changes the mode or adds a PAD; leaves relative mode if the position can't be relative."""
        if self.rng.random() < 0.2:
            self.relative = self.rng.random() < 0.5
            self.out += b"\x10" if self.relative else b"\x0F"
        if self.relative and any(abs(new - old) > MOST for old, new in zip(self.at[which], at)):
            self.relative = False
            self.out += b"\x0F"
        if self.rng.random() < 0.05:
            self.out += b"\0"

    def layer(self, layer):
        bits, one = self.field("layer", layer[0], 0, 0x01, unsigned(layer[0], self.rng.randint(0, 1)))
        bits, two = self.field("datatype", layer[1], bits, 0x02, unsigned(layer[1]))
        return bits, one + two

    def end_of(self, shape, bits, said, start):
        bits, at = self.position("geometry", start, bits, 0x10)
        bits, repeated = self.repeated(shape.shifts, bits, 0x04)
        return bits, said + at + repeated

    def rectangle(self, shape, x, y, w, h):
        bits, said = self.layer(shape.layer)
        square = w == h and self.rng.random() < 0.5
        if square:
            bits |= 0x80
        bits, wide = self.field("w", w, bits, 0x40, unsigned(w))
        if square:
            self.modal["h"], high = w, b""
        else:
            bits, high = self.field("h", h, bits, 0x20, unsigned(h))
        bits, said = self.end_of(shape, bits, said + wide + high, (x, y))
        self.out += b"\x14" + bytes([bits]) + said

    def polygon(self, shape):
        bits, said = self.layer(shape.layer)
        shape_of = steps_of(shape.points)
        bits, points = self.field("polygon", shape_of, bits, 0x20, point_list(self.rng, shape.points, True))
        bits, said = self.end_of(shape, bits, said + points, shape.points[0])
        self.out += b"\x15" + bytes([bits]) + said

    def extension(self, reach, half):
        """A scheme for one end of a path, and the bytes of its number if it has one."""
        schemes = [(3, signed(reach))] + ([(1, b"")] if reach == 0 else []) + ([(2, b"")] if reach == half else [])
        return self.rng.choice(schemes)

    def path(self, shape):
        half = shape.width // 2
        bits, said = self.layer(shape.layer)
        bits, wide = self.field("half", half, bits, 0x40, unsigned(half))
        if self.modal.get("ends") != shape.ends or self.rng.random() < 0.3:
            (first, one), (last, two) = self.extension(shape.ends[0], half), self.extension(shape.ends[1], half)
            self.modal["ends"] = shape.ends
            bits, wide = bits | 0x80, wide + unsigned(first << 2 | last) + one + two
        points = undrawn.repeated(self.rng, shape.points, self.ignore)
        listed = point_list(self.rng, points, False)
        bits, points = self.field("path", steps_of(points), bits, 0x20, listed)
        bits, said = self.end_of(shape, bits, said + wide + points, shape.points[0])
        self.out += b"\x16" + bytes([bits]) + said

    def shape(self, shape):
        self.mode("geometry", shape.points[0])
        xs, ys = [x for x, _ in shape.points], [y for _, y in shape.points]
        wide, high = max(xs) - min(xs), max(ys) - min(ys)
        corners = [(min(xs), min(ys)), (max(xs), min(ys)), (max(xs), max(ys)), (min(xs), max(ys))]
        if shape.kind == "path":
            self.path(shape)
        elif shape.points == corners and (self.rng.random() < 0.7 or max(wide, high) > MOST):
            self.rectangle(shape, *corners[0], wide, high)
        else:
            self.polygon(shape)

    def reference(self, reference):
        self.mode("placement", reference.at)
        bits, cell = 0, b""
        if self.modal.get("cell") != reference.cell or self.rng.random() < 0.3:
            bits, cell = 0x80, string(reference.cell.encode())
            if self.numbers is not None and self.rng.random() < 0.5:
                bits, cell = 0xC0, unsigned(self.numbers[reference.cell])
            self.modal["cell"] = reference.cell
        bits, at = self.position("placement", reference.at, bits, 0x20)
        bits, repeated = self.repeated(reference.shifts, bits, 0x08)
        if self.rng.random() < 0.5:
            self.out += b"\x11" + bytes([bits | reference.quarters << 1 | reference.flip]) + cell + at + repeated
            return
        by = b""
        if self.rng.random() < 0.5:
            bits, by = bits | 0x04, self.rng.choice([b"\0\1", b"\2\1", b"\4\3\3"])
        if reference.quarters or self.rng.random() < 0.5:
            angle = 90 * reference.quarters
            bits, by = bits | 0x02, by + self.rng.choice([b"\0" + unsigned(angle), b"\4" + unsigned(2 * angle) + b"\2"])
        self.out += b"\x12" + bytes([bits | reference.flip]) + cell + by + at + repeated


def names(rng, numbers, ignore):
    """The name records, with explicit numbers or with counted ones."""
    listed = list(numbers)
    if rng.random() < 0.5:
        found = [counted_name(name.encode()) for name in sorted(numbers, key=numbers.get)]
    else:
        rng.shuffle(listed)
        found = [numbered_name(name.encode(), numbers[name]) for name in listed]
    return b"".join(undrawn.between_cells(rng, ignore) + each for each in found)


def cell_records(rng, cell, numbers, ignore):
    by_number = numbers is not None and rng.random() < 0.5
    body = Body(rng, numbers, ignore)
    items = [("shape", s) for s in cell.shapes] + [("reference", r) for r in cell.references]
    rng.shuffle(items)
    for kind, item in items:
        body.add_undrawn(item.shifts)
        body.shape(item) if kind == "shape" else body.reference(item)
    body.add_undrawn(layout.NONE)
    head = cell_by_number(numbers[cell.name]) if by_number else cell_by_name(cell.name.encode())
    return undrawn.between_cells(rng, ignore) + head + body.out


def written(rng, cells, ignore=NOTHING):
    numbers = {cell.name: at for at, cell in enumerate(rng.sample(cells, len(cells)))} if rng.random() < 0.7 else None
    tables_at_end = rng.random() < 0.3
    unit = rng.choice([b"\0\xE8\x07", b"\x02\x05", b"\x04\x02\x08", b"\x07" + struct.pack("<d", 1000.0)])
    scheme = rng.choice([b"\0", b"\0", b"\1abcd", b"\2wxyz"])
    body = [cell_records(rng, cell, numbers, ignore) for cell in cells]
    table = names(rng, numbers, ignore) if numbers is not None else b""
    parts = [table, *body] if rng.random() < 0.5 else [*body, table]
    parts.append(undrawn.between_cells(rng, ignore))
    last = undrawn.end(rng, scheme, tables_at_end, ignore)
    return undrawn.padded(rng, MAGIC + start(unit, tables_at_end) + b"".join(parts) + last, ignore)
