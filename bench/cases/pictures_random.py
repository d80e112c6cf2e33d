"""Macroblocks that are drawn: what bench/cases/pictures.py makes textures and whole pictures with."""

from pictures_decoder import opposite, scale_of
from pictures_writer import BOTTOM, DUAL, FIELD, FRAME, I, OTHER, P, Macroblock, Picture, SliceWriter, headers, unit


class Draw:
    """Numbers by a linear congruence modulo 2^64, of which the highest bits are used."""

    def __init__(self, seed):
        self.state = seed

    def below(self, count):
        self.state = (self.state * 6364136223846793005 + 1442695040888963407) % 2 ** 64
        return (self.state >> 33) * count >> 31

    def between(self, least, greatest):
        return least + self.below(greatest - least + 1)

    def one(self, *values):
        return values[self.below(len(values))]


def levels_of(draw, intra, precision, scale):
    """Levels of some scan positions, whose coefficients don't reach the bounds: another decoder may not cut them."""
    levels, most = {}, max(1, 24000 // (83 * scale))
    for _ in range(draw.between(1, 6)):
        size = min(most, draw.one(1, 1, 2, 3, 5, 12) if draw.below(40) else draw.between(13, 99))
        levels[draw.between(int(intra), draw.one(5, 20, 63))] = size if draw.below(2) else -size
    if intra:
        levels[0] = draw.between(40 << precision, 215 << precision)
    return levels


def intra_macroblock(draw, p, scale, **more):
    blocks = {i: levels_of(draw, True, p.precision, scale) for i in range(6)}
    field_dct = draw.below(2) if p.structure == FRAME and not p.frame_only else 0
    return Macroblock(intra=True, blocks=blocks, field_dct=field_dct, **more)


def texture(draw, p, columns, quantiser):
    """A row of intra macroblocks."""
    return [intra_macroblock(draw, p, scale_of(p.scale_type, quantiser)) for _ in range(columns)]


class Area:
    """Which vectors of a macroblock stay inside a frame or field of a size in samples."""

    def __init__(self, width, height, column, line, lines):
        self.least = (-32 * column, -2 * line)
        self.greatest = (2 * (width - 16 - 16 * column), 2 * (height - lines - line))

    def has(self, vector):
        return all(a <= v <= b for a, v, b in zip(self.least, vector, self.greatest))

    def draw(self, draw, f_codes, halved):
        vector = []
        for part in (0, 1):
            f = 1 << (f_codes[part] - 1)
            reach = 8 * f if halved and part == 1 else 16 * f
            low, high = max(self.least[part], -reach), min(self.greatest[part], reach - 1)
            if draw.below(3):
                low, high = max(low, -9), min(high, 9)
            vector.append(draw.between(low, high))
        return tuple(vector)


class Drawing:
    """A picture whose macroblocks are drawn. A second field of the first frame refers to the other parity alone."""

    def __init__(self, draw, p, columns, rows, draws, second):
        self.draw, self.p, self.columns, self.rows = draw, p, columns, rows
        self.draws, self.second = draws, second
        self.width, self.height = 16 * columns, 16 * rows
        self.frame = p.structure == FRAME

    def parity(self):
        own = 1 if self.p.structure == BOTTOM else 0
        return 1 - own if self.second else self.draw.below(2)

    def vectors(self, motion, direction, row, column):
        f_codes = self.p.f_codes[2 * direction:2 * direction + 2]
        if self.frame and motion == OTHER:
            return [Area(self.width, self.height, column, 16 * row, 16).draw(self.draw, f_codes, False)]
        if self.frame:
            area = Area(self.width, self.height // 2, column, 8 * row, 8)
            return [(*area.draw(self.draw, f_codes, True), self.parity()) for _ in range(2)]
        if motion == FIELD:
            area = Area(self.width, self.height, column, 16 * row, 16)
            return [(*area.draw(self.draw, f_codes, False), self.parity())]
        return [(*Area(self.width, self.height, column, 16 * row + 8 * part, 8).draw(self.draw, f_codes, False),
                 self.parity()) for part in (0, 1)]

    def dual(self, row, column):
        """A vector of dual prime and its dmvector, with all opposite vectors inside; none where none was found."""
        if self.frame:
            area = Area(self.width, self.height // 2, column, 8 * row, 8)
            ways = [(1 if own != self.p.top_first else 3, 1 if own else -1) for own in (0, 1)]
        else:
            area = Area(self.width, self.height, column, 16 * row, 16)
            ways = [(1, 1 if self.p.structure == BOTTOM else -1)]
        for _ in range(20):
            vector = area.draw(self.draw, self.p.f_codes, self.frame)
            dmvector = self.draw.between(-1, 1), self.draw.between(-1, 1)
            if all(area.has(opposite(vector, m, dmvector, correction)) for m, correction in ways):
                return dict(forward=[vector], motion=DUAL, dmvector=dmvector)
        return None

    def directions(self, row, column):
        """Motion of a macroblock, as words of Macroblock."""
        motion = OTHER if self.frame and self.p.frame_only else self.draw.between(FIELD, OTHER)
        if self.p.kind == P:
            if 'D' in self.draws and not (self.frame and self.p.frame_only) and not self.second and self.draw.below(2):
                return self.dual(row, column) or {}
            still = not self.second and self.draw.below(6) == 0
            return {} if still else dict(forward=self.vectors(motion, 0, row, column), motion=motion)
        which = self.draw.between(1, 3)
        return dict(forward=self.vectors(motion, 0, row, column) if which & 1 else None,
                    backward=self.vectors(motion, 1, row, column) if which & 2 else None, motion=motion)

    def macroblock(self, row, column, skipped):
        draw, p = self.draw, self.p
        by_escapes = draw.below(10) == 0
        code = draw.between(1, 31) if draw.below(6) == 0 else None
        self.quantiser = code or self.quantiser
        scale = scale_of(p.scale_type, self.quantiser)
        if p.kind == I or draw.below(9) == 0:
            vector = tuple(draw.between(-16, 15) for _ in range(2)) + (() if self.frame else (draw.below(2),))
            return intra_macroblock(draw, p, scale, skipped=skipped, code=code, by_escapes=by_escapes,
                                    concealment=vector if p.concealment else None)
        motion = self.directions(row, column)
        blocks = {i: levels_of(draw, False, 0, scale) for i in range(6) if draw.below(2)} if draw.below(3) else {}
        if not blocks and not motion:
            blocks = {draw.below(6): {0: 1}}
        return Macroblock(**motion, skipped=skipped, code=code if blocks else None, blocks=blocks,
                          by_escapes=by_escapes,
                          field_dct=draw.below(2) if blocks and self.frame and not p.frame_only else 0)

    def may_skip(self, writer, last, row, column):
        """The macroblock at a column may be skipped behind the last one."""
        if last is None or column >= self.columns - 1 or self.p.kind == I:
            return False
        if self.p.kind == P:
            return not self.second
        area = Area(self.width, self.height, column, 16 * row, 16)
        return not last.intra and all(
            area.has(writer.predictors.entries[0][direction])
            for direction, vectors in enumerate((last.forward, last.backward)) if vectors)

    def row(self, row):
        """Slices of a row, mostly one."""
        data, writer, last, skipped = b'', None, None, 0
        for column in range(self.columns):
            if writer is None:
                self.quantiser = self.draw.between(2, 12)
                writer = SliceWriter(self.p, self.quantiser, column)
            elif self.draw.below(4) == 0 and self.may_skip(writer, last, row, column):
                skipped += 1
                continue
            last = self.macroblock(row, column, skipped)
            writer.add(last)
            skipped = 0
            if self.draw.below(8) == 0 and column < self.columns - 1:
                data += unit(row + 1, writer.bits)
                writer, last = None, None
        return data + unit(row + 1, writer.bits)


def random_picture(draw, kind, structure, columns, rows, progressive, draws, temporal, second=False):
    p = Picture(kind, structure, temporal % 1024, progressive=progressive)
    p.frame_only = 1 if progressive else draw.below(4) == 0 if structure == FRAME else 0
    p.frame_only = int(p.frame_only)
    p.f_codes = tuple(2 if 'Q' in draws else draw.between(2, 5) for _ in range(4))
    p.precision, p.alternate, p.table_one, p.scale_type = (draw.below(n) for n in (4, 2, 2, 2))
    p.concealment, p.top_first = int(draw.below(4) == 0), draw.below(2) if structure == FRAME else 0
    kind = P if kind == I and second else kind
    p.kind = kind
    drawing = Drawing(draw, p, columns, rows, draws, second)
    return headers(p) + b''.join(drawing.row(row) for row in range(rows))
