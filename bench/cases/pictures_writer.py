"""Streams of I, P and B pictures, of frames and fields, put together from the rows of the code tables: what
bench/cases/pictures.py writes its streams with. It shares nothing with the program."""

from dataclasses import dataclass, field

from slices import INTRA, ZIGZAG

TOP, BOTTOM, FRAME = 1, 2, 3
I, P, B = 1, 2, 3
# motion types: one field vector in a field and two in a frame; a frame vector in a frame and 16x8 in a field
FIELD, OTHER, DUAL = 1, 2, 3


# ---- code tables: 'x/n' is the hexadecimal number x in n bits

def code(text):
    number, bits = text.split('/')
    return format(int(number, 16), '0%sb' % bits)


def codes(text):
    return [code(word) for word in text.split()]


def down(highest, lowest, bits):
    return [format(number, '0%db' % bits) for number in range(highest, lowest - 1, -1)]


ESCAPED_INCREMENT = code('8/11')
INCREMENT = dict(enumerate(
    codes('1/1 3/3 2/3 3/4 2/4 3/5 2/5 7/7 6/7') + down(0xB, 0x6, 8) + down(0x17, 0x12, 10) + down(0x23, 0x18, 11), 1))

# (quantiser, forward, backward, pattern, intra)
TYPES = {
    I: {(0, 0, 0, 0, 1): '1', (1, 0, 0, 0, 1): '01'},
    P: {(0, 1, 0, 1, 0): '1', (0, 0, 0, 1, 0): '01', (0, 1, 0, 0, 0): '001', (0, 0, 0, 0, 1): '00011',
        (1, 1, 0, 1, 0): '00010', (1, 0, 0, 1, 0): '00001', (1, 0, 0, 0, 1): '000001'},
    B: {(0, 1, 1, 0, 0): '10', (0, 1, 1, 1, 0): '11', (0, 0, 1, 0, 0): '010', (0, 0, 1, 1, 0): '011',
        (0, 1, 0, 0, 0): '0010', (0, 1, 0, 1, 0): '0011', (0, 0, 0, 0, 1): '00011', (1, 1, 1, 1, 0): '00010',
        (1, 1, 0, 1, 0): '000011', (1, 0, 1, 1, 0): '000010', (1, 0, 0, 0, 1): '000001'},
}

PATTERN = dict(enumerate(codes(
    'B/5 9/5 D/6 D/4 17/7 13/7 1F/8 C/4 16/7 12/7 1E/8 13/5 1B/8 17/8 13/8 B/4 15/7 11/7 1D/8 11/5 19/8 15/8 11/8'
    ' F/6 F/8 D/8 3/9 F/5 B/8 7/8 7/9 A/4 14/7 10/7 1C/8 E/6 E/8 C/8 2/9 10/5 18/8 14/8 10/8 E/5 A/8 6/8 6/9'
    ' 12/5 1A/8 16/8 12/8 D/5 9/8 5/8 5/9 C/5 8/8 4/8 4/9 7/3 A/5 8/5 C/6'), 1))

MOTION = {0: '1'}
for size, bits in enumerate(codes('1/2 1/3 1/4 3/6 5/7 4/7 3/7 B/9 A/9 9/9') + down(0x11, 0xC, 10), 1):
    MOTION[size], MOTION[-size] = bits + '0', bits + '1'
DMVECTOR = {0: '0', 1: '10', -1: '11'}

LUMA_SIZE = dict(enumerate(codes('4/3 0/2 1/2 5/3 6/3 E/4 1E/5 3E/6 7E/7 FE/8 1FE/9 1FF/9')))
CHROMA_SIZE = dict(enumerate(codes('0/2 1/2 2/2 6/3 E/4 1E/5 3E/6 7E/7 FE/8 1FE/9 3FE/10 3FF/10')))

# the codes of each run by level, from 1 on
RUNS_ZERO = [
    codes('3/2 4/4 5/5 6/7 26/8 21/8 A/10 1D/12 18/12 13/12 10/12 1A/13 19/13 18/13 17/13')
    + down(0x1F, 0x10, 14) + down(0x18, 0x10, 15),
    codes('3/3 6/6 25/8 C/10 1B/12 16/13 15/13') + down(0x1F, 0x19, 15) + down(0x13, 0x10, 16),
    codes('5/4 4/7 B/10 14/12 14/13'), codes('7/5 24/8 1C/12 13/13'), codes('6/5 F/10 12/12'),
    codes('7/6 9/10 12/13'), codes('5/6 1E/12 14/16'), codes('4/6 15/12'), codes('7/7 11/12'), codes('5/7 11/13'),
    codes('27/8 10/13'), codes('23/8 1A/16'), codes('22/8 19/16'), codes('20/8 18/16'), codes('E/10 17/16'),
    codes('D/10 16/16'), codes('8/10 15/16')]
RUNS_ZERO += [[bits] for bits in codes('1F/12 1A/12 19/12 17/12 16/12') + down(0x1F, 0x1B, 13) + down(0x1F, 0x1B, 16)]

RUNS_ONE = [list(levels) for levels in RUNS_ZERO]
RUNS_ONE[0][:15] = codes('2/2 6/3 7/4 1C/5 1D/5 5/6 4/6 7B/7 7C/7 23/8 22/8 FA/8 FB/8 FE/8 FF/8')
RUNS_ONE[1][:5] = codes('2/3 6/5 79/7 27/8 20/8')
RUNS_ONE[2][:4] = codes('5/5 7/7 FC/8 C/10')
RUNS_ONE[3][1] = code('26/8')
RUNS_ONE[4][:2] = codes('6/6 FD/8')
RUNS_ONE[5][1] = code('4/9')
for run, bits in enumerate(codes('6/7 4/7 5/7 78/7 7A/7 21/8 25/8 24/8 5/9 7/9 D/10'), 6):
    RUNS_ONE[run][0] = bits
ESCAPE = '000001'


def pairs_of(runs):
    """The code of each pair of a run and a level."""
    table = {}
    for run, levels in enumerate(runs):
        for level, bits in enumerate(levels, 1):
            table[run, level], table[run, -level] = bits + '0', bits + '1'
    return table


PAIRS_ZERO, PAIRS_ONE = pairs_of(RUNS_ZERO), pairs_of(RUNS_ONE)
FIRST_ZERO = {**PAIRS_ZERO, (0, 1): '10', (0, -1): '11'}
END_ZERO, END_ONE = '10', '0110'


# ---- predictors of vectors, for the writer and the decoder

class Predictors:
    """Two entries of two directions, forward and backward, each with its horizontal and vertical part."""

    def __init__(self):
        self.reset()

    def reset(self):
        self.entries = [[[0, 0], [0, 0]], [[0, 0], [0, 0]]]

    def before(self, entry, direction, part, halved):
        value = self.entries[entry][direction][part]
        return value >> 1 if halved and part == 1 else value

    def keep(self, entry, direction, part, halved, both, value):
        value = 2 * value if halved and part == 1 else value
        for kept in (0, 1) if both else (entry,):
            self.entries[kept][direction][part] = value


def vectors_in(structure, motion):
    """How many vectors a direction has, and whether their vertical parts go by half the entry."""
    if structure == FRAME:
        return (2 if motion == FIELD else 1), motion != OTHER
    return (2 if motion == OTHER else 1), False


# ---- macroblocks

@dataclass
class Macroblock:
    """A coded macroblock and how many are skipped before it. A vector is (x, y) in half samples, with the bit of the
    field that it refers to behind it where there is one. Blocks are levels by scan position; position 0 of an intra
    block is its DC level."""
    intra: bool = False
    forward: list = None
    backward: list = None
    motion: int = 0
    dmvector: tuple = (0, 0)
    concealment: tuple = None
    field_dct: int = 0
    code: int = None
    blocks: dict = field(default_factory=dict)
    skipped: int = 0
    by_escapes: bool = False


def flat(level, **more):
    """An intra macroblock of equal samples."""
    return Macroblock(intra=True, blocks={i: {0: level} for i in range(6)}, **more)


@dataclass
class Picture:
    """What the headers of a picture say."""
    kind: int
    structure: int = FRAME
    temporal: int = 0
    f_codes: tuple = (3, 3)
    precision: int = 0
    top_first: int = 0
    frame_only: int = 1
    concealment: int = 0
    scale_type: int = 0
    table_one: int = 0
    alternate: int = 0
    progressive: int = 1
    delay: int = 65535
    repeat: int = 0


def dc_bits(difference, sizes):
    if difference == 0:
        return sizes[0]
    size = abs(difference).bit_length()
    number = difference if difference > 0 else difference + 2 ** size - 1
    return sizes[size] + format(number, '0%db' % size)


def component_bits(difference, f_code):
    """A vector's component: motion code and residual."""
    f = 1 << (f_code - 1)
    if difference < -16 * f:
        difference += 32 * f
    if difference > 16 * f - 1:
        difference -= 32 * f
    if difference == 0 or f == 1:
        return MOTION[difference]
    size, residual = divmod(abs(difference) - 1, f)
    return MOTION[size + 1 if difference > 0 else -size - 1] + format(residual, '0%db' % (f_code - 1))


class SliceWriter:
    """The bits of a slice that begins at a column, and what its macroblocks leave for the next one."""

    def __init__(self, picture, quantiser, column=0):
        self.picture, self.column = picture, column
        self.bits = format(quantiser, '05b') + '0'
        self.predictors = Predictors()
        self.reset_levels()

    def reset_levels(self):
        self.levels = [1 << (7 + self.picture.precision)] * 3

    def pairs(self, levels, first, intra, by_escapes):
        """Pairs from a scan position on, and an end of block."""
        one = intra and self.picture.table_one
        bits, place = '', first
        for position in sorted(p for p in levels if p >= first):
            run, level = position - place, levels[position]
            table = FIRST_ZERO if position == run and not intra else PAIRS_ONE if one else PAIRS_ZERO
            if (run, level) in table and not by_escapes:
                bits += table[run, level]
            else:
                bits += ESCAPE + format(run, '06b') + format(level & 0xFFF, '012b')
            place = position + 1
        return bits + (END_ONE if one else END_ZERO)

    def blocks(self, m):
        bits = ''
        for index in range(6):
            if m.intra:
                plane = max(0, index - 3)
                levels = m.blocks.get(index, {})
                level = levels.get(0, self.levels[plane])
                bits += dc_bits(level - self.levels[plane], CHROMA_SIZE if plane else LUMA_SIZE)
                self.levels[plane] = level
                bits += self.pairs(levels, 1, True, m.by_escapes)
            elif index in m.blocks:
                bits += self.pairs(m.blocks[index], 0, False, m.by_escapes)
        return bits

    def vector(self, vector, entry, direction, motion, m, with_field):
        """A vector of a direction: the bit of its field, and its components with dmvectors."""
        count, halved = vectors_in(self.picture.structure, motion)
        bits = str(vector[2]) if with_field else ''
        for part in (0, 1):
            before = self.predictors.before(entry, direction, part, halved)
            bits += component_bits(vector[part] - before, self.picture.f_codes[2 * direction + part])
            self.predictors.keep(entry, direction, part, halved, count == 1, vector[part])
            if motion == DUAL and not m.intra:
                bits += DMVECTOR[m.dmvector[part]]
        return bits

    def vectors(self, m, motion):
        bits = ''
        frame = self.picture.structure == FRAME
        for direction, vectors in enumerate((m.forward, m.backward)):
            for entry, vector in enumerate(vectors or []):
                with_field = motion == FIELD or (motion == OTHER and not frame)
                bits += self.vector(vector, entry, direction, motion, m, with_field)
            if m.intra and m.concealment and direction == 0:
                bits += self.vector(m.concealment, 0, 0, OTHER if frame else FIELD, m, not frame)
        return bits

    def add(self, m):
        """A macroblock."""
        picture = self.picture
        frame = picture.structure == FRAME
        motion = m.motion or (OTHER if frame else FIELD)
        if m.skipped:
            self.reset_levels()
            if picture.kind == P:
                self.predictors.reset()
        increment = m.skipped + self.column + 1
        self.column = 0
        bits = ESCAPED_INCREMENT * ((increment - 1) // 33) + INCREMENT[(increment - 1) % 33 + 1]
        has_pattern = bool(m.blocks) and not m.intra
        flags = tuple(map(int, (m.code is not None, bool(m.forward), bool(m.backward), has_pattern, m.intra)))
        bits += TYPES[picture.kind][flags]
        directed = m.forward or m.backward
        if directed and not (frame and picture.frame_only):
            bits += format(motion, '02b')
        if frame and not picture.frame_only and (m.intra or has_pattern):
            bits += str(m.field_dct)
        if m.code is not None:
            bits += format(m.code, '05b')
        bits += self.vectors(m, motion)
        if m.intra and picture.concealment:
            bits += '1'
        if (m.intra and not picture.concealment) or (picture.kind == P and not m.intra and not m.forward):
            self.predictors.reset()
        if has_pattern:
            bits += PATTERN[sum(32 >> index for index in m.blocks)]
        if not m.intra:
            self.reset_levels()
        self.bits += bits + self.blocks(m)


# ---- units

def unit(value, *bits):
    """A unit's bytes: its start code, and bits with zeros behind them up to the edge of a byte."""
    bits = ''.join(bits).replace(' ', '')
    bits += '0' * (-len(bits) % 8)
    data = bytes(int(bits[i:i + 8], 2) for i in range(0, len(bits), 8))
    assert b'\0\0\1' not in data and b'\0\0\0' not in data[:-2] or value in (0x00, 0xB3, 0xB5)
    return bytes((0, 0, 1, value)) + data


def number(value, bits):
    assert 0 <= value < 1 << bits
    return format(value, '0%db' % bits)


def matrix_bits(matrix):
    """A load flag, and a raster matrix in zigzag order."""
    return '0' if matrix is None else '1' + ''.join(number(matrix[place], 8) for place in ZIGZAG)


def sequence(width, height, progressive=1, low_delay=0, intra=None, non_intra=None, level=72, aspect=1, code=3,
             rate=2500, buffer=20, n=0, d=0):
    """A sequence header and its extension. Code 3 is 25 frames a second; the rate is in units of 400 bit/s, the buffer
    in units of 16,384 bits."""
    header = unit(0xB3, number(width, 12), number(height, 12), number(aspect, 4), number(code, 4),
                  number(rate % 2 ** 18, 18), '1', number(buffer % 1024, 10), '0', matrix_bits(intra),
                  matrix_bits(non_intra))
    return header + unit(0xB5, '0001', number(level, 8), str(progressive), '01 00 00', number(rate >> 18, 12), '1',
                         number(buffer >> 10, 8), str(low_delay), number(n, 2), number(d, 5))


def group(closed, hours=0, minutes=0, seconds=0, pictures=0):
    return unit(0xB8, '0', number(hours, 5), number(minutes, 6), '1', number(seconds, 6), number(pictures, 6),
                str(closed), '0')


def headers(p):
    """A picture header and its coding extension."""
    ignored = {I: '', P: '0 111', B: '0 111 0 111'}[p.kind]
    header = unit(0x00, number(p.temporal, 10), number(p.kind, 3), number(p.delay, 16), ignored, '0')
    used = {I: 2 if p.concealment else 0, P: 2, B: 4}[p.kind]
    f_codes = (tuple(p.f_codes)[:used] + (15,) * 4)[:4]
    return header + unit(0xB5, '1000', *[number(f, 4) for f in f_codes], number(p.precision, 2),
                         number(p.structure, 2), str(p.top_first), str(p.frame_only), str(p.concealment),
                         str(p.scale_type), str(p.table_one), str(p.alternate), str(p.repeat), str(p.progressive),
                         str(p.progressive), '0')


def matrices(intra=None, non_intra=None):
    """A quant matrix extension."""
    return unit(0xB5, '0011', matrix_bits(intra), matrix_bits(non_intra), '00')


def slice_unit(picture, row, quantiser, macroblocks):
    writer = SliceWriter(picture, quantiser)
    for m in macroblocks:
        writer.add(m)
    return unit(row + 1, writer.bits)


END = bytes((0, 0, 1, 0xB7))
assert len(INTRA) == 64
