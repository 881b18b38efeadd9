"""Writes a layout as GDSII. Where a file can say the same in several ways, one is chosen at random.

`ignore` is the set of words that lets in records which draw nothing; these are added at random.
"""
import struct

from lib import undrawn
from lib.answers import NOTHING
from lib.assembler import ANGLES, REFLECTED, STREAM_END, element, record, short, stream_head, structure, xy


def ring(rng, layer, points):
    points = list(points)
    if rng.random() < 0.3:
        at = rng.randrange(len(points))
        points.insert(at, points[at])
    at = rng.randrange(len(points))
    points = points[at:] + points[:at]
    return element(0x08, short(0x0D, layer[0]), short(0x0E, layer[1]), xy(points + points[:1]))


def path(layer, shape, points):
    square = shape.ends[0] != 0
    kind = short(0x21, 2) if square else b""
    width = record(0x0F, 3, struct.pack(">i", shape.width))
    return element(0x09, short(0x0D, layer[0]), short(0x0E, layer[1]), kind, width, xy(points))


def shape_records(rng, shape, ignore):
    out = []
    for dx, dy in shape.shifts:
        points = [(x + dx, y + dy) for x, y in shape.points]
        if shape.kind == "path":
            out.append(path(shape.layer, shape, undrawn.repeated(rng, points, ignore)))
        else:
            out.append(ring(rng, shape.layer, points))
    rng.shuffle(out)
    return out


def lattice(shifts):
    """The columns, rows and both steps of the array that the shifts are, if they are one; columns run fastest."""
    for columns in range(1, len(shifts) + 1):
        rows = len(shifts) // columns
        a = shifts[1] if columns > 1 else (0, 0)
        b = shifts[columns] if rows > 1 else (0, 0)
        if [(i * a[0] + j * b[0], i * a[1] + j * b[1]) for j in range(rows) for i in range(columns)] == shifts:
            return columns, rows, a, b
    return None


def transform(rng, flip, quarters):
    if not flip and quarters == 0 and rng.random() < 0.5:
        return b""
    magnification = record(0x1B, 5, bytes.fromhex("4110000000000000")) if rng.random() < 0.3 else b""
    angle = record(0x1C, 5, ANGLES[quarters]) if quarters or rng.random() < 0.5 else b""
    return short(0x1A, REFLECTED if flip else 0, 1) + magnification + angle


def reference_records(rng, reference):
    name = record(0x12, 6, reference.cell.encode())
    by = transform(rng, reference.flip, reference.quarters)
    x, y = reference.at
    array = lattice(reference.shifts)
    if array and rng.random() < 0.7:
        columns, rows, a, b = array
        size = record(0x13, 2, struct.pack(">HH", columns, rows))
        far = [(x, y), (x + columns * a[0], y + columns * a[1]), (x + rows * b[0], y + rows * b[1])]
        return [element(0x0B, name, by, size, xy(far))]
    return [element(0x0A, name, by, xy([(x + dx, y + dy)])) for dx, dy in reference.shifts]


def written(rng, cells, ignore=NOTHING, units=bytes(16)):
    out = [stream_head(units=units)]
    for cell in cells:
        elements = [e for s in cell.shapes for e in shape_records(rng, s, ignore)]
        elements += [e for r in cell.references for e in reference_records(rng, r)]
        rng.shuffle(elements)
        out.append(structure(cell.name, *elements))
    data = b"".join(out) + STREAM_END + bytes(rng.choice([0, 0, 1, 100]))
    return undrawn.gds_file(rng, data, ignore)
