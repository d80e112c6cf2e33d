"""A decoder of streams of I, P and B pictures, of frames and fields, by the rules of the standard's decoding process:
what bench/cases/pictures.py has its samples from. It takes streams without faults, and shares nothing with the program."""

from dataclasses import dataclass

import pictures_writer as w
from pictures_writer import B, BOTTOM, DUAL, FIELD, FRAME, OTHER, P, TOP, Predictors, vectors_in
from slices import ALTERNATE, INTRA, ZIGZAG, inverse


def turned(table):
    return {bits: value for value, bits in table.items()}


INCREMENT = {**turned(w.INCREMENT), w.ESCAPED_INCREMENT: 0}
TYPES = {kind: turned(table) for kind, table in w.TYPES.items()}
PATTERN, MOTION, DMVECTOR = turned(w.PATTERN), turned(w.MOTION), turned(w.DMVECTOR)
SIZES = [turned(w.LUMA_SIZE), turned(w.CHROMA_SIZE), turned(w.CHROMA_SIZE)]
ZERO = {**turned(w.PAIRS_ZERO), w.END_ZERO: 'end', w.ESCAPE: 'escape'}
ONE = {**turned(w.PAIRS_ONE), w.END_ONE: 'end', w.ESCAPE: 'escape'}
FIRST = {**turned(w.FIRST_ZERO), w.ESCAPE: 'escape'}


class Reader:
    def __init__(self, data):
        self.bits = ''.join(format(byte, '08b') for byte in data)
        self.place = 0

    def number(self, count):
        assert self.place + count <= len(self.bits)
        self.place += count
        return int(self.bits[self.place - count:self.place] or '0', 2)

    def code(self, table):
        for length in range(1, 18):
            bits = self.bits[self.place:self.place + length]
            if bits in table:
                self.place += length
                return table[bits]
        raise ValueError('no code at %d' % self.place)

    def matrix(self, otherwise):
        """A matrix in zigzag order behind its load flag."""
        if not self.number(1):
            return otherwise
        matrix = [0] * 64
        for place in ZIGZAG:
            matrix[place] = self.number(8)
        return matrix

    def is_over(self):
        return '1' not in self.bits[self.place:]


def scale_of(scale_type, code):
    if not scale_type:
        return 2 * code
    for first, scale, step in ((25, 64, 8), (17, 28, 4), (9, 10, 2), (1, 1, 1)):
        if code >= first:
            return scale + step * (code - first)


# ---- prediction

def rounded_mean(samples):
    return (sum(samples) + len(samples) // 2) // len(samples)


def block_at(lines, x, y, width, height):
    """Samples of a plane from a place in half samples on."""
    assert 0 <= x and x // 2 + width - 1 + x % 2 < len(lines[0])
    assert 0 <= y and y // 2 + height - 1 + y % 2 < len(lines)
    columns, rows = (0, 1) if x % 2 else (0,), (0, 1) if y % 2 else (0,)
    return [[rounded_mean([lines[y // 2 + i + b][x // 2 + j + a] for b in rows for a in columns])
             for j in range(width)] for i in range(height)]


def chroma_part(value):
    return -(-value // 2) if value < 0 else value // 2


def predicted_block(planes, vector, column, line, height):
    """Luma lines of a macroblock from a frame or field with its chroma."""
    x, y = vector
    luma = block_at(planes[0], 32 * column + x, 2 * line + y, 16, height)
    x, y = chroma_part(x), chroma_part(y)
    return [luma] + [block_at(plane, 16 * column + x, line + y, 8, height // 2) for plane in planes[1:]]


def mean_of(one, other):
    return [[[(a + b + 1) // 2 for a, b in zip(x, y)] for x, y in zip(p, q)] for p, q in zip(one, other)]


def lines_of(planes, parity):
    """A field: the same lines, so that what is written into it stands in the frame."""
    return [plane[parity::2] for plane in planes]


def woven(top, bottom):
    return [[line for pair in zip(p, q) for line in pair] for p, q in zip(top, bottom)]


def opposite(vector, m, dmvector, correction):
    scaled = [(v * m + (1 if v > 0 else 0)) >> 1 for v in vector]
    return scaled[0] + dmvector[0], scaled[1] + dmvector[1] + correction


@dataclass
class Mode:
    """How a macroblock is predicted: per direction its vectors, each with the parity of the field it refers to."""
    motion: int
    directions: list
    dmvector: tuple = (0, 0)


class Prediction:
    """The references of a picture: for each direction a function from a parity to a field, and frames."""

    def __init__(self, structure, top_first, fields, frames):
        self.structure, self.top_first = structure, top_first
        self.fields, self.frames = fields, frames

    def of(self, mode, row, column):
        blocks = [self.by(mode, direction, vectors, row, column)
                  for direction, vectors in enumerate(mode.directions) if vectors]
        return blocks[0] if len(blocks) == 1 else mean_of(*blocks)

    def by(self, mode, direction, vectors, row, column):
        if self.structure == FRAME:
            return self.in_frame(mode, direction, vectors, row, column)
        own = 0 if self.structure == TOP else 1
        if mode.motion == DUAL:
            (x, y, _), = vectors
            same = predicted_block(self.fields(0, own), (x, y), column, 16 * row, 16)
            far = opposite((x, y), 1, mode.dmvector, 1 if own else -1)
            return mean_of(same, predicted_block(self.fields(0, 1 - own), far, column, 16 * row, 16))
        height = 16 // len(vectors)
        parts = [predicted_block(self.fields(direction, parity), (x, y), column, 16 * row + height * part, height)
                 for part, (x, y, parity) in enumerate(vectors)]
        return [sum((part[plane] for part in parts), []) for plane in range(3)]

    def in_frame(self, mode, direction, vectors, row, column):
        if mode.motion == OTHER:
            (x, y, _), = vectors
            return predicted_block(self.frames[direction], (x, y), column, 16 * row, 16)
        if mode.motion == FIELD:
            return woven(*[predicted_block(self.fields(direction, parity), (x, y), column, 8 * row, 8)
                           for x, y, parity in vectors])
        (x, y, _), = vectors
        parts = []
        for own in (0, 1):
            m = 1 if own != self.top_first else 3
            far = opposite((x, y), m, mode.dmvector, 1 if own else -1)
            same = predicted_block(self.fields(0, own), (x, y), column, 8 * row, 8)
            parts.append(mean_of(same, predicted_block(self.fields(0, 1 - own), far, column, 8 * row, 8)))
        return woven(*parts)


# ---- slices

class SliceReader:
    def __init__(self, decoder, reader, row):
        self.d, self.p, self.reader, self.row = decoder, decoder.picture, reader, row
        self.predictors = Predictors()
        self.mode = None
        self.reset_levels()
        self.quantiser = reader.number(5)
        if reader.number(1):
            reader.number(8)
            while reader.number(1):
                reader.number(8)

    def reset_levels(self):
        self.levels = [1 << (7 + self.p.precision)] * 3

    def read(self):
        address, first = self.row * self.d.columns - 1, True
        while first or not self.reader.is_over():
            increment = 0
            while True:
                value = self.reader.code(INCREMENT)
                increment += value or 33
                if value:
                    break
            if first:
                address += increment
                assert address == self.d.covered
            else:
                for skipped in range(address + 1, address + increment):
                    self.skip(skipped)
                address += increment
            assert address < (self.row + 1) * self.d.columns
            self.macroblock(*divmod(address, self.d.columns))
            self.d.covered, first = address + 1, False

    def own_parity(self):
        return 1 if self.p.structure == BOTTOM else 0

    def zero_mode(self):
        frame = self.p.structure == FRAME
        return Mode(OTHER if frame else FIELD, [[(0, 0, self.own_parity())], None])

    def skip(self, address):
        assert self.p.kind == P or (self.p.kind == B and self.mode)
        self.reset_levels()
        if self.p.kind == P:
            self.predictors.reset()
            mode = self.zero_mode()
        else:
            entry = self.predictors.entries[0]
            mode = Mode(OTHER if self.p.structure == FRAME else FIELD,
                        [vectors and [(*entry[direction], self.own_parity())]
                         for direction, vectors in enumerate(self.mode.directions)])
        row, column = divmod(address, self.d.columns)
        self.d.rebuild(row, column, mode, {}, 0)

    def component(self, entry, direction, part, halved, both):
        f_code = self.p.f_codes[2 * direction + part]
        f = 1 << (f_code - 1)
        difference = self.reader.code(MOTION)
        if f > 1 and difference:
            size = (abs(difference) - 1) * f + self.reader.number(f_code - 1) + 1
            difference = size if difference > 0 else -size
        value = self.predictors.before(entry, direction, part, halved) + difference
        value += 32 * f if value < -16 * f else -32 * f if value > 16 * f - 1 else 0
        if halved and part == 1:
            assert -8 * f <= value < 8 * f
        self.predictors.keep(entry, direction, part, halved, both, value)
        return value

    def vectors(self, direction, motion, dmvector):
        frame = self.p.structure == FRAME
        count, halved = vectors_in(self.p.structure, motion)
        with_field = motion == FIELD or (motion == OTHER and not frame)
        vectors = []
        for entry in range(count):
            parity = self.reader.number(1) if with_field else None
            vector = []
            for part in (0, 1):
                vector.append(self.component(entry, direction, part, halved, count == 1))
                if motion == DUAL:
                    dmvector.append(self.reader.code(DMVECTOR))
            vectors.append((*vector, parity))
        return vectors

    def macroblock(self, row, column):
        p, reader = self.p, self.reader
        frame = p.structure == FRAME
        quantiser, forward, backward, pattern, intra = reader.code(TYPES[p.kind])
        motion = OTHER if frame else FIELD
        if (forward or backward) and not (frame and p.frame_only):
            motion = reader.number(2)
        field_dct = reader.number(1) if frame and not p.frame_only and (intra or pattern) else 0
        if quantiser:
            self.quantiser = reader.number(5)
        dmvector = []
        directions = [self.vectors(0, motion, dmvector) if forward else None,
                      self.vectors(1, motion, dmvector) if backward else None]
        if intra and p.concealment:
            self.vectors(0, OTHER if frame else FIELD, [])
            assert reader.number(1) == 1
        self.mode = None if intra else Mode(motion, directions, tuple(dmvector))
        if not intra and not forward and not backward:
            self.mode = self.zero_mode()
        if (intra and not p.concealment) or (p.kind == P and not intra and not forward):
            self.predictors.reset()
        coded = 63 if intra else reader.code(PATTERN) if pattern else 0
        if not intra:
            self.reset_levels()
        blocks = {index: self.block(index, intra) for index in range(6) if coded & (32 >> index)}
        self.d.seen.append((p.kind, p.structure, motion if forward or backward else 0, self.mode, field_dct))
        self.d.rebuild(row, column, self.mode, blocks, field_dct)

    def block(self, index, intra):
        """The coefficients of a block."""
        levels, place = {}, 0
        table = ONE if intra and self.p.table_one else ZERO
        if intra:
            plane = max(0, index - 3)
            size = self.reader.code(SIZES[plane])
            bits = self.reader.number(size)
            self.levels[plane] += bits if not size or bits >> (size - 1) else bits + 1 - (1 << size)
            assert 0 <= self.levels[plane] < 1 << (8 + self.p.precision)
            levels[0], place = self.levels[plane], 1
        while True:
            pair = self.reader.code(FIRST if not intra and place == 0 else table)
            if pair == 'end':
                return self.coefficients(levels, intra)
            if pair == 'escape':
                run, level = self.reader.number(6), self.reader.number(12)
                pair = run, level - 4096 if level >= 2048 else level
                assert pair[1] not in (0, -2048)
            place += pair[0]
            assert place < 64
            levels[place], place = pair[1], place + 1

    def coefficients(self, levels, intra):
        block = [0] * 64
        scan = ALTERNATE if self.p.alternate else ZIGZAG
        scale = scale_of(self.p.scale_type, self.quantiser)
        matrix = self.d.intra if intra else self.d.non_intra
        for position, level in levels.items():
            place = scan[position]
            if intra and position == 0:
                block[place] = level * (8 >> self.p.precision)
                continue
            size = (2 * abs(level) + (0 if intra else 1)) * matrix[place] * scale // 32
            block[place] = max(-2048, min(2047, size if level > 0 else -size))
        if sum(block) % 2 == 0:
            block[63] += -1 if block[63] % 2 else 1
        return block


# ---- streams

class Decoder:
    """Frames in display order, each as its cropped planes' bytes, and how many pictures were there and dropped."""

    def __init__(self):
        self.frames, self.pictures, self.dropped = [], 0, 0
        self.anchors, self.held, self.closed = [], None, 0
        self.frame = self.picture = self.low_delay = None
        self.waits = self.dropping = False
        self.seen = []

    def units(self, data):
        starts = [i for i in range(len(data) - 3) if data[i:i + 3] == b'\0\0\1']
        for start, end in zip(starts, starts[1:] + [len(data)]):
            yield data[start + 3], Reader(data[start + 4:end])

    def run(self, data, ends):
        units = self.units(data)
        for value, reader in units:
            if value in (0x00, 0xB3, 0xB7, 0xB8):
                self.close()
            if value == 0xB3:
                self.sequence(reader, next(units)[1])
            elif value == 0xB8:
                reader.number(25)
                self.closed = reader.number(1)
            elif value == 0x00:
                self.open(reader, next(units)[1])
            elif value == 0xB5 and reader.number(4) == 3:
                self.intra, self.non_intra = reader.matrix(self.intra), reader.matrix(self.non_intra)
            elif 1 <= value <= 0xAF and not self.dropping:
                SliceReader(self, reader, value - 1).read()
            elif value == 0xB7:
                break
        self.close()
        if ends and self.held:
            self.show(self.held)
        return self

    def sequence(self, reader, extension):
        self.width, self.height = reader.number(12), reader.number(12)
        reader.number(38)
        self.intra, self.non_intra = reader.matrix(list(INTRA)), reader.matrix([16] * 64)
        extension.number(12)
        progressive = extension.number(1)
        extension.number(27)
        if self.low_delay is None:
            self.low_delay = extension.number(1)
        self.columns = (self.width + 15) // 16
        self.frame_rows = (self.height + 15) // 16 if progressive else 2 * ((self.height + 31) // 32)

    def open(self, reader, extension):
        temporal, kind = reader.number(10), reader.number(3)
        extension.number(4)
        p = w.Picture(kind, temporal=temporal, f_codes=tuple(extension.number(4) for _ in range(4)))
        p.precision, p.structure, p.top_first = extension.number(2), extension.number(2), extension.number(1)
        p.frame_only, p.concealment, p.scale_type = (extension.number(1) for _ in range(3))
        p.table_one, p.alternate = extension.number(1), extension.number(1)
        self.picture, self.covered = p, 0
        self.pictures += 1
        self.dropping = kind == B and len(self.anchors) < 2 and not (len(self.anchors) == 1 and self.closed)
        self.dropped += self.dropping
        second = self.waits
        if not second:
            columns, rows = 16 * self.columns, 16 * self.frame_rows
            self.frame = [[[0] * (columns >> c) for _ in range(rows >> c)] for c in (0, 1, 1)]
        self.waits = p.structure != FRAME and not second
        self.rows = self.frame_rows // (1 if p.structure == FRAME else 2)
        self.target = self.frame if p.structure == FRAME else lines_of(self.frame, p.structure - 1)
        frames = ([None] * 2 + self.anchors)[-2:] if kind == B else [self.anchors[-1] if self.anchors else None]
        own = p.structure - 1

        def fields(direction, parity):
            if kind == P and second and parity != own:
                return lines_of(self.frame, parity)
            return lines_of(frames[direction], parity)
        self.prediction = Prediction(p.structure, p.top_first, fields, frames)

    def rebuild(self, row, column, mode, blocks, field_dct):
        """A macroblock's samples: its prediction, where it has one, plus the results of its blocks."""
        results = {index: inverse(block) for index, block in blocks.items()}
        if mode:
            samples = self.prediction.of(mode, row, column)
        else:
            samples = [[[0] * n for _ in range(n)] for n in (16, 8, 8)]
        for index, block in results.items():
            for i in range(8):
                for j in range(8):
                    plane, line, at = max(0, index - 3), i, j
                    if index < 4:
                        line = 2 * i + index // 2 if field_dct else 8 * (index // 2) + i
                        at = 8 * (index % 2) + j
                    samples[plane][line][at] += block[i][j]
        for plane, size in enumerate((16, 8, 8)):
            for i in range(size):
                line = self.target[plane][size * row + i]
                line[size * column:size * column + size] = [max(0, min(255, s)) for s in samples[plane][i]]

    def close(self):
        """The picture that is open ends, and with it perhaps its frame."""
        if not self.picture:
            return
        kind = self.picture.kind
        assert self.dropping or self.covered == self.columns * self.rows
        if not self.waits:
            if kind != B:
                self.anchors = (self.anchors + [self.frame])[-2:]
            if self.low_delay or kind == B:
                if not self.dropping:
                    self.show(self.frame)
            else:
                if self.held:
                    self.show(self.held)
                self.held = self.frame
        self.picture = None

    def show(self, frame):
        sizes = [(self.width, self.height)] + [((self.width + 1) // 2, (self.height + 1) // 2)] * 2
        self.frames.append(b''.join(bytes(line[:width]) for plane, (width, height) in zip(frame, sizes)
                                    for line in plane[:height]))


def decoded(data, ends=True):
    """A stream, or pieces behind which others follow."""
    return Decoder().run(data, ends)
