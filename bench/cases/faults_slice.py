"""The slices of pictures, read for their first fault, for bench/cases/faults.py."""

from faults_unit import Fault
from pictures_decoder import DMVECTOR, FIRST, INCREMENT, MOTION, ONE, PATTERN, SIZES, TYPES, ZERO, opposite
from pictures_writer import B, BOTTOM, DUAL, FIELD, FRAME, I, OTHER, P, Predictors, vectors_in

NO_PATTERN = '000000001'


class SliceFinder:
    """A slice of a row of a picture, whose unit stands at a place."""

    def __init__(self, picture, bits, row, place):
        self.p, self.bits, self.row, self.place = picture, bits, row, place
        self.frame = picture.structure == FRAME
        self.predictors, self.skip_mode, self.intra = Predictors(), None, False
        self.reset_levels()

    def reset_levels(self):
        self.levels = [1 << (7 + self.p.precision)] * 3

    def read(self):
        p, bits = self.p, self.bits
        bits.some(5)
        if bits.number(1):
            bits.number(1)
            bits.number(7)
            bits.extra()
        address, first, begin = self.row * p.columns - 1, True, bits.read
        if address + self.increment() < p.covered:
            raise Fault('SliceOrder', self.place)
        bits.read = begin
        while first or not bits.is_over():
            at, increment = bits.at(), self.increment()
            self.may_come(at, address, increment, first)
            skipped = [] if first else list(range(address + 1, address + increment))
            address, first = address + increment, False
            self.macroblock(at, address, skipped)
        p.covered = address + 1

    def increment(self):
        total, value = 0, None
        while not value:
            value = self.bits.code(INCREMENT)
            total += value or 33
        return total

    def may_come(self, at, address, increment, first):
        p = self.p
        if first and address + increment > p.covered:
            raise Fault('MissingMacroblocks', at)
        if (0 if first else address % p.columns + 1) + increment - 1 >= p.columns:
            raise Fault('SliceOrder', at)
        if not first and increment > 1 and (p.kind == I or p.kind == B and self.intra):
            raise Fault('SkipRule', at)

    # ---- the elements of a macroblock

    def macroblock(self, at, address, skipped):
        p, bits = self.p, self.bits
        modes = [(self.skipped(), [*skipped])] if skipped else []
        quantiser, forward, backward, pattern, intra = bits.code(TYPES[p.kind])
        motion = self.motion_type() if (forward or backward) and not (self.frame and p.frame_only) else self.usual()
        if self.frame and not p.frame_only and (intra or pattern):
            bits.number(1)
        if quantiser:
            bits.some(5)
        dmvector = []
        conceals = intra and p.concealment
        directions = [self.vectors(0, motion, dmvector) if forward or conceals else None,
                      self.vectors(1, motion, dmvector) if backward else None]
        if conceals:
            bits.marker()
        coded = 63 if intra else self.pattern() if pattern else 0
        mode = None if intra else (motion, directions, dmvector)
        if not intra and not forward and not backward:
            mode = self.zero()
        self.skip_mode, self.intra = mode, bool(intra)
        modes += [(mode, [address])] if mode else []
        self.references(at, modes)
        if (intra and not conceals) or (p.kind == P and not intra and not forward):
            self.predictors.reset()
        if not intra:
            self.reset_levels()
        for index in range(6):
            if coded & (32 >> index):
                self.block(index, intra)

    def usual(self):
        return OTHER if self.frame else FIELD

    def own_parity(self):
        return int(self.p.structure == BOTTOM)

    def zero(self):
        """Forward by vector 0."""
        return self.usual(), [[(0, 0, self.own_parity())], None], []

    def skipped(self):
        """How skipped macroblocks are predicted, and what they leave."""
        self.reset_levels()
        if self.p.kind == P:
            self.predictors.reset()
            return self.zero()
        entry, directions = self.predictors.entries[0], self.skip_mode[1]
        return self.usual(), [told and [(*entry[number], self.own_parity())] for number, told in enumerate(directions)], []

    def motion_type(self):
        at, motion = self.bits.at(), self.bits.number(2)
        if motion == 0 or motion == DUAL and self.p.kind == B:
            raise Fault('Forbidden', at)
        return motion

    def pattern(self):
        if self.bits.bits.startswith(NO_PATTERN, self.bits.read):
            raise Fault('NoCode', self.bits.at())
        return self.bits.code(PATTERN)

    # ---- vectors

    def component(self, entry, direction, part, halved, both):
        bits, f_code, at = self.bits, self.p.f_codes[2 * direction + part], self.bits.at()
        f, difference = 1 << (f_code - 1), bits.code(MOTION)
        if f > 1 and difference:
            size = (abs(difference) - 1) * f + bits.number(f_code - 1) + 1
            difference = size if difference > 0 else -size
        value = self.predictors.before(entry, direction, part, halved) + difference
        value += 32 * f if value < -16 * f else -32 * f if value > 16 * f - 1 else 0
        if halved and part == 1 and not -8 * f <= value < 8 * f:
            raise Fault('VectorRange', at)
        self.predictors.keep(entry, direction, part, halved, both, value)
        return value

    def vectors(self, direction, motion, dmvector):
        count, halved = vectors_in(self.p.structure, motion)
        with_field, vectors = motion == FIELD or motion == OTHER and not self.frame, []
        for entry in range(count):
            parity, vector = self.bits.number(1) if with_field else None, []
            for part in (0, 1):
                vector.append(self.component(entry, direction, part, halved, count == 1))
                if motion == DUAL:
                    dmvector.append(self.bits.code(DMVECTOR))
            vectors.append((*vector, parity))
        return vectors

    # ---- what predictions read

    def references(self, at, modes):
        """All lie inside their references, and then: all of these were decoded."""
        for (motion, directions, dmvector), addresses in modes:
            for vectors in filter(None, directions):
                if not all(self.is_inside(motion, vectors, dmvector, address) for address in addresses):
                    raise Fault('VectorOutside', at)
        for (motion, directions, _), _ in modes:
            for direction, vectors in enumerate(directions):
                if vectors and not self.fields_read(motion, vectors) <= self.p.fields[direction]:
                    raise Fault('MissingReference', at)

    def fields_read(self, motion, vectors):
        if motion == DUAL or self.frame and motion == OTHER:
            return {1, 2}
        return {parity + 1 for _, _, parity in vectors}

    def is_inside(self, motion, vectors, dmvector, address):
        p, (row, column) = self.p, divmod(address, self.p.columns)
        lines = 16 * p.frame_rows if self.frame and motion == OTHER else 8 * p.frame_rows
        if motion == DUAL:
            vectors = self.dual(vectors[0], dmvector)
        if self.frame and motion != OTHER:
            blocks = [(8 * row, 8)] * len(vectors)
        elif not self.frame and motion == OTHER:
            blocks = [(16 * row, 8), (16 * row + 8, 8)]
        else:
            blocks = [(16 * row, 16)] * len(vectors)
        return all(0 <= 32 * column + x <= 2 * (16 * p.columns - 16) and 0 <= 2 * line + y <= 2 * (lines - height)
                   for (x, y, _), (line, height) in zip(vectors, blocks))

    def dual(self, vector, dmvector):
        """The vector and those to the fields of the other parity."""
        x, y, _ = vector
        if not self.frame:
            far = [opposite((x, y), 1, dmvector, 1 if self.own_parity() else -1)]
        else:
            far = [opposite((x, y), 1 if own != self.p.top_first else 3, dmvector, 1 if own else -1) for own in (0, 1)]
        return [vector, *((*other, None) for other in far)]

    # ---- blocks

    def block(self, index, intra):
        bits, place = self.bits, 0
        table = ONE if intra and self.p.table_one else ZERO
        if intra:
            self.dc(max(0, index - 3))
            place = 1
        while True:
            at = bits.at()
            pair = bits.code(FIRST if place == 0 else table)
            if pair == 'end':
                return
            if pair == 'escape':
                run, told, level = bits.number(6), bits.at(), bits.number(12)
                if level in (0, 2048):
                    raise Fault('Forbidden', told)
                pair = run, level
            place += pair[0] + 1
            if place > 64:
                raise Fault('Overrun', at)

    def dc(self, plane):
        at, size = self.bits.at(), self.bits.code(SIZES[plane])
        number = self.bits.number(size)
        self.levels[plane] += number if not size or number >> (size - 1) else number + 1 - (1 << size)
        if not 0 <= self.levels[plane] < 1 << (8 + self.p.precision):
            raise Fault('DcRange', at)
