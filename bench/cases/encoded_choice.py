"""How an encoder codes the macroblocks of any frames, written from the rules alone: for each macroblock its
candidates in order, and the first of least score among those that fit. It shares nothing with the program;
bench/cases/encoded.py makes streams with it.

A candidate's score is 8 times the sum of squared differences of its 384 samples plus its bits times the square of
twice the quantiser of its macroblock, which is the planned one, or above it where the plan goes by the source. It fits
where it has at most 4,608 bits, and leaves 31 bits for each later macroblock of its slice. The candidates are: to hold
(intra with the predictors' levels; forward or backward by the vector 0 from the same lines), to skip, intra, and each
prediction without a block and with blocks; what has coefficients at the macroblock's quantiser and at 8 more, and in
interlaced frames with both orders of lines."""

from copy import deepcopy

from encoded_plans import activities_of, quantiser_at
from pictures_decoder import Mode, Prediction, lines_of, scale_of
from pictures_writer import B, BOTTOM, FIELD, FRAME, I, OTHER, P, TOP, Macroblock, SliceWriter, flat, unit
from slices import ALTERNATE, INTRA, ZIGZAG, inverse

COSINES = {1: 4017, 2: 3784, 3: 3406, 4: 2896, 5: 2276, 6: 1567, 7: 799}
MOST_BITS = 4608


def cosine(u, x):
    if u == 0:
        return 2896
    m = (2 * x + 1) * u % 32
    if m < 8:
        return COSINES[m]
    return -COSINES[16 - m] if m < 16 else -COSINES[m - 16] if m < 24 else COSINES[32 - m]


T = [[cosine(u, x) for x in range(8)] for u in range(8)]


def forward(block):
    """Coefficients of eight lines of eight samples."""
    rows = [[sum(t * f for t, f in zip(T[u], line)) for u in range(8)] for line in block]
    return [[(sum(T[v][y] * rows[y][u] for y in range(8)) + (1 << 25)) >> 26 for u in range(8)] for v in range(8)]


def padded(s, raw):
    """The planes of a frame, with its right and lower edges repeated up to whole macroblocks."""
    rows = (s.height + 15) // 16 if s.scan == 'progressive' else 2 * ((s.height + 31) // 32)
    planes, at = [], 0
    for c in (0, 1, 1):
        width, height = (s.width + c) >> c, (s.height + c) >> c
        lines = [list(raw[at + width * y:at + width * (y + 1)]) for y in range(height)]
        at += width * height
        lines = [line + line[-1:] * ((16 * s.columns >> c) - width) for line in lines]
        planes.append(lines + [list(lines[-1]) for _ in range((16 * rows >> c) - height)])
    return planes


def square(planes, row, column):
    """The samples of a macroblock of a frame or a field."""
    return [[line[n * column:n * column + n] for line in plane[n * row:n * row + n]]
            for plane, n in zip(planes, (16, 8, 8))]


def blocks_of(samples, field_dct):
    """Six blocks: four of luma, in the order of lines that is wanted, and two of chroma."""
    luma = samples[0][0::2] + samples[0][1::2] if field_dct else samples[0]
    return [[line[8 * x:8 * x + 8] for line in luma[8 * y:8 * y + 8]] for y in (0, 1) for x in (0, 1)] + samples[1:]


def with_results(samples, results, field_dct):
    """Samples plus the results of blocks, kept within 0 to 255."""
    out = [[list(line) for line in plane] for plane in samples]
    for index, result in results.items():
        for i in range(8):
            plane, line, at = max(0, index - 3), i, 0
            if index < 4:
                line, at = (2 * i + index // 2 if field_dct else 8 * (index // 2) + i), 8 * (index % 2)
            for j in range(8):
                out[plane][line][at + j] += result[i][j]
    return [[[max(0, min(255, x)) for x in line] for line in plane] for plane in out]


def distance(one, other):
    return sum((a - b) ** 2 for p, q in zip(one, other) for x, y in zip(p, q) for a, b in zip(x, y))


NOTHING = [[[0] * n for _ in range(n)] for n in (16, 8, 8)]


class Kind:
    """How a picture's levels are made and read."""

    def __init__(self, alternate):
        self.scan = ALTERNATE if alternate else ZIGZAG

    def levels(self, coefficients, intra, q):
        levels = {}
        for position, place in enumerate(self.scan):
            f = coefficients[place // 8][place % 8]
            if intra and position == 0:
                levels[0] = max(0, min(255, (f + 4) // 8))
                continue
            step = (INTRA[place] if intra else 16) * 2 * q
            size = min(2047, (16 * abs(f) + (step // 2 if intra else 0)) // step)
            if size:
                levels[position] = size if f > 0 else -size
        return levels

    def result(self, levels, intra, q):
        block = [0] * 64
        for position, level in levels.items():
            place = self.scan[position]
            if intra and position == 0:
                block[place] = 8 * level
                continue
            size = (2 * abs(level) + (not intra)) * (INTRA[place] if intra else 16) * scale_of(0, q) // 32
            block[place] = max(-2048, min(2047, size if level > 0 else -size))
        if sum(block) % 2 == 0:
            block[63] += -1 if block[63] % 2 else 1
        return inverse(block)


class Search:
    """The vector for lines of luma in a reference."""

    def __init__(self, source, reference, x, y, across, down):
        self.source, self.reference, self.x, self.y = source, reference, 2 * x, 2 * y
        whole = [(0, 0)] + [(dx, dy) for dy in range(-down, down + 1) for dx in range(-across, across + 1)]
        best = self.least([(2 * dx, 2 * dy) for dx, dy in whole])[1]
        near = [(0, 0)] + [(dx, dy) for dy in (-1, 0, 1) for dx in (-1, 0, 1)]
        self.sad, self.vector = self.least([(best[0] + dx, best[1] + dy) for dx, dy in near])

    def least(self, vectors):
        found = None
        for vector in vectors:
            sad = self.difference(*vector)
            if sad is not None and (found is None or sad < found[0]):
                found = sad, vector
        return found

    def difference(self, dx, dy):
        x, y, lines = self.x + dx, self.y + dy, self.reference
        a, b = x % 2, y % 2
        x, y, height = x >> 1, y >> 1, len(self.source)
        if x < 0 or y < 0 or x + 15 + a >= len(lines[0]) or y + height - 1 + b >= len(lines):
            return None
        total, around = 0, (1 + a) * (1 + b)
        for i, line in enumerate(self.source):
            for j in range(16):
                sample = lines[y + i][x + j]
                if around > 1:
                    sample += lines[y + i][x + j + 1] if a else 0
                    sample += lines[y + i + 1][x + j] if b else 0
                    sample += lines[y + i + 1][x + j + 1] if a and b else 0
                    sample = (sample + around // 2) // around
                total += abs(line[j] - sample)
        return total


def limits(s, cap):
    """The most bits of each slice of a picture."""
    rest = (cap - 416 - s.rows * s.slice_bits) // 8
    return [s.slice_bits + 8 * (rest // s.rows) + 8 * (row < rest % s.rows) for row in range(s.rows)]


class Coder:
    """Codes pictures one by one, and keeps their frames."""

    def __init__(self, s, frames):
        self.s = s
        self.sources = [padded(s, raw) for raw in frames]
        self.anchors, self.shown = [], {}

    def activities(self, jobs):
        return activities_of(self.sources, jobs, self.s.rows, self.s.columns)

    def slices(self, p, job, quantiser, cap, activities=None):
        """The slices of a picture, and their work: the bits of each macroblock times its quantiser."""
        s, self.p, self.planned = self.s, p, quantiser
        self.kind = Kind(p.alternate)
        if job.structure != BOTTOM:
            self.frame = [[[0] * len(line) for line in plane] for plane in self.sources[job.display]]
        frames = self.anchors[-2:] if job.kind == B else self.anchors[-1:]
        own = int(job.structure == BOTTOM)

        def fields(direction, parity):
            second = job.kind == P and job.structure == BOTTOM and parity == 0
            return lines_of(self.frame if second else frames[direction], parity)
        self.own, self.fields, self.frames = own, fields, frames
        self.prediction = Prediction(job.structure, p.top_first, fields, frames)
        self.target, self.source = self.frame, self.sources[job.display]
        if job.structure != FRAME:
            self.target, self.source = lines_of(self.frame, own), lines_of(self.source, own)
        data, self.work = b'', 0
        for row, limit in enumerate(limits(s, cap)):
            data += unit(row + 1, self.slice(row, limit, activities and activities[row]))
        if job.structure != TOP:
            if job.kind != B:
                self.anchors = (self.anchors + [self.frame])[-2:]
            self.shown[job.display] = self.frame
        return data, self.work

    def slice(self, row, limit, activities):
        writer, skipped, last, work = SliceWriter(self.p, self.planned), 0, None, 0
        self.current = self.planned
        columns = self.s.columns
        for column in range(columns):
            left = limit - 32 - len(writer.bits) - 31 * (columns - column)
            self.q = quantiser_at(self.planned, activities, column, work, left)
            room = min(MOST_BITS, left + 31)
            source = square(self.source, row, column)
            best = None
            for m, samples, mode in self.candidates(writer, row, column, source, skipped, last):
                bits, after = 0, None
                if m:
                    m.skipped = skipped
                    after = deepcopy(writer)
                    after.add(m)
                    bits = len(after.bits) - len(writer.bits)
                if bits > room:
                    continue
                score = 8 * distance(source, samples) + (2 * self.q) ** 2 * bits
                if best is None or score < best[0]:
                    best = score, m, samples, mode, after
            _, m, samples, mode, after = best
            self.put(row, column, samples)
            if not m:
                skipped += 1
                if self.p.kind == P:
                    writer.predictors.reset()
                continue
            work += self.q * (len(after.bits) - len(writer.bits))
            writer, skipped, last = after, 0, mode or 'intra'
            if m.code is not None:
                self.current = m.code
        self.work += work
        return writer.bits

    def put(self, row, column, samples):
        for plane, (lines, n) in enumerate(zip(samples, (16, 8, 8))):
            for i, line in enumerate(lines):
                self.target[plane][n * row + i][n * column:n * column + n] = line

    def frames_shown(self):
        """The frames without their padding, in display order."""
        frames = []
        for _, planes in sorted(self.shown.items()):
            sizes = [((self.s.width + c) >> c, (self.s.height + c) >> c) for c in (0, 1, 1)]
            frames.append(b''.join(bytes(line[:width]) for plane, (width, height) in zip(planes, sizes)
                                   for line in plane[:height]))
        return frames

    # ---- candidates: a macroblock, or none where it is skipped; its samples; how it is predicted

    def candidates(self, writer, row, column, source, skipped, last):
        yield self.hold(writer, row, column)
        if self.p.kind != I and 0 < column < self.s.columns - 1:
            mode = self.skipping(writer, last, row, column)
            if mode:
                yield None, self.prediction.of(mode, row, column), mode
        orders = (0, 1) if self.p.structure == FRAME and not self.p.frame_only else (0,)
        quantisers = sorted({self.q, min(31, self.q + 8)})
        yield from self.coded(source, NOTHING, None, {'intra': True}, orders, quantisers)
        if self.p.kind == I:
            return
        for mode, words in self.predictions(source, row, column):
            samples = self.prediction.of(mode, row, column)
            if words:
                yield Macroblock(**words), samples, mode
            yield from self.coded(source, samples, mode, words, orders, quantisers)

    def zero(self):
        return (0, 0) if self.p.structure == FRAME else (0, 0, self.own)

    def plain(self):
        return OTHER if self.p.structure == FRAME else FIELD

    def mode(self, motion, forward, backward=None):
        both = forward, backward
        return Mode(motion, [vectors and [(*vector, None)[:3] for vector in vectors] for vectors in both])

    def hold(self, writer, row, column):
        if self.p.kind == I:
            levels = {i: {0: writer.levels[max(0, i - 3)]} for i in range(6)}
            results = {i: self.kind.result(block, True, self.q) for i, block in levels.items()}
            return Macroblock(intra=True, blocks=levels), with_results(NOTHING, results, 0), None
        words = {'forward' if self.p.kind == P else 'backward': [self.zero()], 'motion': self.plain()}
        mode = self.mode(self.plain(), words.get('forward'), words.get('backward'))
        return Macroblock(**words), self.prediction.of(mode, row, column), mode

    def skipping(self, writer, last, row, column):
        if self.p.kind == P:
            return self.mode(self.plain(), [self.zero()])
        if last == 'intra':
            return None
        entry = writer.predictors.entries[0]
        vectors = [[(*entry[direction], *self.zero()[2:])] if used else None
                   for direction, used in enumerate(last.directions)]
        mode = self.mode(self.plain(), *vectors)
        return mode if self.is_inside(mode, row, column) else None

    def is_inside(self, mode, row, column):
        try:
            self.prediction.of(mode, row, column)
        except AssertionError:
            return False
        return True

    def coded(self, source, samples, mode, words, orders, quantisers):
        intra = mode is None
        difference = [[[a - b for a, b in zip(x, y)] for x, y in zip(p, q)] for p, q in zip(source, samples)]
        found = {order: [forward(block) for block in blocks_of(difference, order)] for order in orders}
        for q in quantisers:
            for order in orders:
                levels = {i: self.kind.levels(block, intra, q) for i, block in enumerate(found[order])}
                levels = {i: block for i, block in levels.items() if block}
                if not levels:
                    continue
                results = {i: self.kind.result(block, intra, q) for i, block in levels.items()}
                yield (Macroblock(blocks=levels, field_dct=order, code=q if q != self.current else None, **words),
                       with_results(samples, results, order), mode)

    def predictions(self, source, row, column):
        """Predictions with the words of their macroblocks; without words it is the type without forward motion."""
        forms = [self.by_frame] if self.p.structure == FRAME else [self.by_field]
        if self.p.structure == FRAME and not self.p.frame_only:
            forms.append(self.by_lines)
        for number, form in enumerate(forms):
            motion = FIELD if form != self.by_frame else OTHER
            ahead = form(source[0], 0, row, column)
            if self.p.kind == P:
                if number == 0:
                    yield self.mode(self.plain(), [self.zero()]), {}
                yield self.mode(motion, ahead), dict(forward=ahead, motion=motion)
                continue
            back = form(source[0], 1, row, column)
            yield self.mode(motion, ahead), dict(forward=ahead, motion=motion)
            yield self.mode(motion, None, back), dict(backward=back, motion=motion)
            yield self.mode(motion, ahead, back), dict(forward=ahead, backward=back, motion=motion)

    def by_frame(self, luma, direction, row, column):
        reach = self.s.search
        return [Search(luma, self.frames[direction][0], 16 * column, 16 * row, reach, reach).vector]

    def of_fields(self, lines, own, direction, x, y, down):
        """The better one of the two fields, that of the same parity first."""
        same = Search(lines, self.fields(direction, own)[0], x, y, self.s.search, down)
        other = Search(lines, self.fields(direction, 1 - own)[0], x, y, self.s.search, down)
        return (*other.vector, 1 - own) if other.sad < same.sad else (*same.vector, own)

    def by_field(self, luma, direction, row, column):
        return [self.of_fields(luma, self.own, direction, 16 * column, 16 * row, self.s.search)]

    def by_lines(self, luma, direction, row, column):
        return [self.of_fields(luma[own::2], own, direction, 16 * column, 8 * row, self.s.search // 2)
                for own in (0, 1)]


class Grey:
    """The slices of frames whose samples are all 128, where each macroblock is held or skipped."""

    def __init__(self, s):
        self.s = s

    def activities(self, jobs):
        return [[[256] * self.s.columns] * self.s.rows for _ in jobs]

    def slices(self, p, job, quantiser, cap, activities=None):
        last = self.s.columns - 1
        row = {column: flat(128) for column in range(last + 1)}
        if job.kind != I:
            row = {0: self.held(job), last: self.held(job, max(0, last - 1))}
        data, work = b'', 0
        for at, limit in enumerate(limits(self.s, cap)):
            writer, of_row = SliceWriter(p, quantiser), 0
            for column, m in row.items():
                before = len(writer.bits)
                left = limit - 32 - before - 31 * (last + 1 - column)
                writer.add(m)
                q = quantiser_at(quantiser, activities and activities[at], column, of_row, left)
                of_row += q * (len(writer.bits) - before)
            work += of_row
            data += unit(at + 1, writer.bits)
        return data, work

    def frames_shown(self):
        return []

    def held(self, job, skipped=0):
        own = (int(job.structure == BOTTOM),) if job.structure != FRAME else ()
        motion = OTHER if job.structure == FRAME else FIELD
        return Macroblock(motion=motion, skipped=skipped,
                          **{'forward' if job.kind == P else 'backward': [(0, 0, *own)]})
