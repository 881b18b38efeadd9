"""The values of OASIS, for the second implementation of the rules: reads them from bytes, or refuses them."""
from lib.answers import LIMIT, Lattice, Listed, Refused, in_range

DIRECTIONS = [(1, 0), (0, 1), (-1, 0), (0, -1), (1, 1), (-1, 1), (-1, -1), (1, -1)]
LISTED, MOST_DELTAS = 1_048_576, 65_536
A_STRING, N_STRING, B_STRING = range(0x20, 0x7F), range(0x21, 0x7F), range(256)


def moved(point, step):
    return point[0] + step[0], point[1] + step[1]


def times(step, count):
    return step[0] * count, step[1] * count


class Values:
    """Reads values one after another; the offset of a refusal is that of the record that was begun."""

    def __init__(self, data, ignore):
        self.data, self.at, self.begun, self.ignore = data, 0, 0, ignore
        self.most_groups = 256 if "padding" in ignore else 10

    def refuse(self, number, name, *values):
        raise Refused("oasis", number, name, *values, at=self.begun)

    def refuse_if(self, breached, number, name, *values):
        if breached:
            self.refuse(number, name, *values)

    def byte(self):
        self.refuse_if(self.at >= len(self.data), 1, "Truncated")
        self.at += 1
        return self.data[self.at - 1]

    def unsigned(self):
        value = 0
        for group in range(1, self.most_groups + 1):
            byte = self.byte()
            value |= (byte & 0x7F) << (7 * group - 7)
            endless = group == self.most_groups and byte >= 0x80
            self.refuse_if(value >= 2**64 or endless, 2, "IntegerTooLarge")
            if byte < 0x80:
                return value

    def signed(self):
        value = self.unsigned()
        return -(value >> 1) if value & 1 else value >> 1

    def string(self, kind, most=None):
        """A string of the kind; one of any length if there is no greatest one."""
        length = self.unsigned()
        too_long = most is not None and length > most
        self.refuse_if(too_long or (kind is N_STRING and length == 0), 3, "StringByte")
        out = bytearray()
        for _ in range(length):
            out.append(self.byte())
            self.refuse_if(out[-1] not in kind, 3, "StringByte")
        return out.decode("latin-1")

    def real(self):
        """The type of a real, and its integers or its bytes."""
        kind = self.unsigned()
        self.refuse_if(kind > 7, 4, "RealType")
        return self.real_of(kind)

    def real_of(self, kind):
        """The same, after the type was read."""
        if kind > 5:
            return kind, bytes(self.byte() for _ in range(4 if kind == 6 else 8))
        numbers = [self.unsigned() for _ in range(2 if kind > 3 else 1)]
        self.refuse_if(kind > 1 and numbers[-1] == 0, 5, "ZeroDenominator")
        return kind, numbers

    def delta(self, bits):
        value = self.unsigned()
        return times(DIRECTIONS[value & ((1 << bits) - 1)], value >> bits)

    def g_delta(self):
        value = self.unsigned()
        if value & 1 == 0:
            return times(DIRECTIONS[value >> 1 & 7], value >> 4)
        other = self.unsigned()
        return (-1 if value & 2 else 1) * (value >> 2), (-1 if other & 1 else 1) * (other >> 1)

    def step(self, kind, at, before):
        """The step that the delta with index `at` of a point list makes."""
        if kind < 2:
            length = self.signed()
            return (length, 0) if (at + kind) % 2 == 0 else (0, length)
        if kind < 4:
            return self.delta(kind)
        step = self.g_delta()
        return moved(step, before) if kind == 5 else step

    def point_list(self, closed):
        kind = self.unsigned()
        self.refuse_if(kind > 5, 6, "PointListType")
        count = self.unsigned()
        odd = closed and kind < 2 and count % 2
        self.refuse_if(odd or not (2 if closed else 1) <= count <= MOST_DELTAS, 7, "PointCount")
        points, step = [(0, 0)], (0, 0)
        for at in range(count):
            step = self.step(kind, at, step)
            points.append(moved(points[-1], step))
            self.refuse_if(not in_range(*step, *points[-1]), 10, "OutOfRange")
        if closed and kind < 2:
            points.append((0, points[-1][1]) if kind == 0 else (points[-1][0], 0))
        return points

    def repetition(self, modal):
        """The shifts; None for type 0 if there is no modal repetition."""
        kind = self.unsigned()
        self.refuse_if(kind > 11, 8, "RepetitionType")
        if kind == 0:
            return modal
        if kind in (1, 2, 3, 8, 9):
            return self.lattice(kind)
        return self.listed(kind)

    def lattice(self, kind):
        m = self.unsigned() + 2
        n = self.unsigned() + 2 if kind in (1, 8) else 1
        self.refuse_if(m * n > LIMIT, 9, "RepetitionSize")
        steps = []
        for count, axis in ((m, 0), (n, 1)) if kind in (1, 8) else ((m, 1 if kind == 3 else 0),):
            step = self.g_delta() if kind > 7 else times(DIRECTIONS[axis], self.unsigned())
            self.refuse_if(not in_range(*times(step, count - 1)), 10, "OutOfRange")
            steps.append(step)
        lattice = Lattice(steps[0], m, steps[-1] if len(steps) > 1 else (0, 0), n)
        self.refuse_if(not all(in_range(*corner) for corner in lattice.corners()), 10, "OutOfRange")
        return lattice

    def listed(self, kind):
        count = self.unsigned() + 2
        if count > LISTED:
            raise Refused("oasis", 9, "RepetitionSize", at=self.begun, listed=True)
        grid = self.unsigned() if kind in (5, 7, 11) else 1
        shifts = [(0, 0)]
        for _ in range(count - 1):
            step = self.g_delta() if kind > 9 else times(DIRECTIONS[kind // 6], self.unsigned())
            shifts.append(moved(shifts[-1], times(step, grid)))
            self.refuse_if(not in_range(*shifts[-1]), 10, "OutOfRange")
        return Listed(shifts)
