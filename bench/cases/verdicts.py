#!/usr/bin/env python3
"""Prints the cases of `check`, or what a verifier by the rules alone says of streams.

The verifier takes streams without a fault, and shares nothing with the program. With files as arguments the status and
the line of each are printed; without, the cases, which stand in bench/cases/verdicts_cases.py.

Rules 1 to 7 are looked at on each sequence header, and count as picture 0; the others on each picture, in decoding
order from 0. The broken rule of the least picture counts, and of those the least number, at the first place that breaks
it.

 1  profile_and_level is 72, 70 or 68: main profile at Main, High 1440 or High level
 2  the width is at most the level's
 3  the height is at most the level's
 4  frame_rate_code is from 1 to the level's greatest, and the two numbers that change the rate are 0
 5  the luma samples a second are at most the level's: 720,000 times the samples of a frame are at most that rate
    times the units of 1/720,000 s that a frame takes
 6  bit_rate is from 1 to the level's, in units of 400 bit/s
 7  vbv_buffer_size is from 1 to the level's, in units of 16,384 bits
 8  at Main level used horizontal f_codes are at most 8
 9  used vertical f_codes are at most 5 in frame pictures, and 4 in fields
10  the first picture behind a group header is an I picture
11  temporal_reference is the frame's place in display order among the frames of its group, modulo 1024
12  at most two macroblocks of a row of a picture have more than 4,608 bits
13  where the first vbv_delay isn't 65535, only a progressive frame picture of an interlaced sequence repeats a field
14  in a progressive sequence frame_pred_frame_dct and progressive_frame are 1
15  DC levels have at most 10 bits (dc_precision at most 2)

f_codes are used forward in P and B pictures and with concealment vectors, and backward in B pictures. The pictures
that are dropped count in all of these but 12.

The buffer is judged where no rule is broken and the first vbv_delay isn't 65535. A picture takes its own bits with
the headers before it and the zeros behind it; the last one all that follows. It is removed at the time of the first
vbv_delay and the intervals of the pictures before it, and till then bits come at the stream's rate, as long as there
are any."""

import sys
from dataclasses import dataclass

from pictures_decoder import Decoder, Reader, SliceReader
from pictures_writer import B, FRAME, I, P

PICTURE, SEQUENCE, EXTENSION, END, GROUP = 0x00, 0xB3, 0xB5, 0xB7, 0xB8

# profile_and_level: width, height, greatest frame_rate_code, luma samples a second, rate, buffer
LEVELS = {72: (720, 576, 5, 10368000, 37500, 112), 70: (1440, 1152, 8, 47001600, 150000, 448),
          68: (1920, 1152, 8, 62668800, 200000, 597)}
# units of 1/720,000 s that a field takes, by frame_rate_code
FIELD_UNITS = {1: 15015, 2: 15000, 3: 14400, 4: 12012, 5: 12000, 6: 7200, 7: 6006, 8: 6000}
CROWDED = 4608


@dataclass
class Sequence:
    level: int
    width: int
    height: int
    code: int
    rate: int
    buffer: int
    n: int
    d: int
    progressive: int
    low_delay: int
    aspect: int
    constrained: int = 0
    first_number: int | None = None

    def limits(self):
        return LEVELS.get(self.level, LEVELS[72])


@dataclass
class Group:
    """What a group header says."""
    drop: int
    hours: int
    minutes: int
    seconds: int
    pictures: int
    closed: int
    broken: int


@dataclass
class Coded:
    """A picture: what its headers say, the sequence header before it, its group and its frame."""
    sequence: Sequence
    group: int
    leads_group: bool
    frame: int
    ends_frame: bool
    kind: int
    temporal: int
    delay: int
    f_codes: list
    precision: int
    structure: int
    frame_only: int
    concealment: int
    repeat: int
    progressive: int
    top_first: int
    code_end: int
    directions: list
    chroma_type: int
    bits: int = 0
    crowded: int = 0
    dropped: bool = False

    def used(self, part):
        """The used f_codes of a part, 0 across or 1 down: forward, then backward."""
        forward = self.f_codes[part:part + 1] if self.kind in (P, B) or self.concealment else []
        return forward + (self.f_codes[2 + part:3 + part] if self.kind == B else [])


class Crowds(SliceReader):
    """A slice whose macroblocks are measured, from the first escape or increment to the end of the last block."""

    def read(self):
        self.begin = self.reader.place
        super().read()

    def macroblock(self, row, column):
        super().macroblock(row, column)
        self.d.crowds[row] = self.d.crowds.get(row, 0) + (self.reader.place - self.begin > CROWDED)
        self.begin = self.reader.place


def parts(data, start=0):
    """Units from the first sequence header up to the end code: where each begins, its value, and where it ends."""
    units, at = [], data.find(b'\0\0\1', start)
    while 0 <= at < len(data) - 3:
        value, following = data[at + 3], data.find(b'\0\0\1', at + 4)
        end = following if 0 <= following < len(data) - 3 else len(data)
        if units or value == SEQUENCE:
            units.append((at, value, at + 4 if value == END else end))
            if value == END:
                break
        at = following
    return units


class Parser(Decoder):
    """Reads a stream without its samples: sequence headers, group headers and pictures, from the first sequence header
    on. All of them stand in `headers`, each behind the byte where it begins."""

    def __init__(self, data):
        super().__init__()
        self.sequences, self.coded, self.headers, self.groups, self.leads = [], [], [], 0, False
        units = parts(data)
        self.first, self.end = units[0][0], units[-1][2]
        starts = [self.first]
        self.units_left = [(value, Reader(data[at + 4:end]), at) for at, value, end in units]
        while self.units_left:
            value, reader, at = self.units_left.pop(0)
            if value in (PICTURE, SEQUENCE, END, GROUP):
                self.close()
            if value in (PICTURE, SEQUENCE, GROUP) and len(self.coded) == len(starts):
                starts.append(at)
            self.take(value, reader, at)
        self.close()
        if self.held:
            self.show(self.held)
        for picture, start, stop in zip(self.coded, starts, starts[1:len(self.coded)] + [self.end]):
            picture.bits = 8 * (stop - start)
        self.total = 8 * (self.end - self.first)

    def take(self, value, reader, at):
        if value == SEQUENCE:
            self.take_sequence(reader, self.extension())
            self.headers.append((at, self.sequences[-1]))
        elif value == GROUP:
            drop, hours, minutes, _, *others = (reader.number(bits) for bits in (1, 5, 6, 1, 6, 6, 1, 1))
            group = Group(drop, hours, minutes, *others)
            self.closed, self.leads = group.closed, True
            self.groups += 1
            self.headers.append((at, group))
        elif value == PICTURE:
            self.take_picture(reader, self.extension(), 8 * (at - self.first) + 32)
            self.headers.append((at, self.coded[-1]))
        elif 1 <= value <= 0xAF and not self.dropping:
            Crowds(self, reader, value - 1).read()

    def extension(self):
        value, reader, _ = self.units_left.pop(0)
        assert value == EXTENSION, 'no extension behind a header'
        return reader

    def take_sequence(self, reader, extension):
        width, height = reader.number(12), reader.number(12)
        aspect, code, rate, _, buffer, constrained = (reader.number(bits) for bits in (4, 4, 18, 1, 10, 1))
        first_number = reader.number(8) if reader.number(1) else None
        _, level, progressive, _, _, _ = (extension.number(bits) for bits in (4, 8, 1, 2, 2, 2))
        rate += extension.number(12) << 18
        extension.number(1)
        buffer += extension.number(8) << 10
        low_delay, n, d = (extension.number(bits) for bits in (1, 2, 5))
        self.sequences.append(Sequence(level, width, height, code, rate, buffer, n, d, progressive, low_delay, aspect,
                                       constrained, first_number))
        reader.place = extension.place = 0
        self.sequence(reader, extension)

    def take_picture(self, reader, extension, code_end):
        temporal, kind, delay = (reader.number(bits) for bits in (10, 3, 16))
        directions = [(reader.number(1), reader.number(3)) for _ in range({I: 0, P: 1, B: 2}[kind])]
        extension.number(4)
        f_codes = [extension.number(4) for _ in range(4)]
        precision, structure, top_first, frame_only, concealment, _, _, _, repeat, chroma_type, progressive = (
            extension.number(bits) for bits in (2, 2, 1, 1, 1, 1, 1, 1, 1, 1, 1))
        ends_frame = structure == FRAME or self.waits
        frame = self.coded[-1].frame + self.coded[-1].ends_frame if self.coded else 0
        self.coded.append(Coded(self.sequences[-1], self.groups, self.leads, frame, ends_frame, kind, temporal, delay,
                                f_codes, precision, structure, frame_only, concealment, repeat, progressive, top_first,
                                code_end, directions, chroma_type))
        self.leads, self.crowds = False, {}
        reader.place = extension.place = 0
        self.open(reader, extension)
        self.coded[-1].dropped = self.dropping

    def close(self):
        if self.picture:
            crowded = [count for _, count in sorted(self.crowds.items()) if count > 2]
            self.coded[-1].crowded = crowded[0] if crowded else 0
        super().close()

    def rebuild(self, row, column, mode, blocks, field_dct):
        """No samples are wanted."""

    def show(self, frame):
        self.frames.append(frame)


# ---- rules: what breaks one, as have and need

def at_most(have, need):
    return [] if have <= need else [(have, need)]


def within(have, low, high):
    return [(have, low)] if have < low else at_most(have, high)


def frame_rate(s):
    return within(s.code, 1, s.limits()[2]) + at_most(32 * s.n + s.d, 0)


def luma_rate(s):
    units = 2 * FIELD_UNITS.get(s.code, 0)
    return at_most(720000 * s.width * s.height, s.limits()[3] * units)


def header_breaches(s):
    """What a sequence header breaks: rule, have, need."""
    for rule, broken in enumerate((
            [] if s.level in LEVELS else [(s.level, 72)], at_most(s.width, s.limits()[0]),
            at_most(s.height, s.limits()[1]), frame_rate(s), luma_rate(s), within(s.rate, 1, s.limits()[4]),
            within(s.buffer, 1, s.limits()[5])), 1):
        yield from ((rule, have, need) for have, need in broken)


def places(pictures, low_delay):
    """The place of each frame in display order among the frames of its group. A frame comes behind those that are
    shown before it: with low_delay those decoded before it; else a B frame behind all those but the anchor decoded
    last, which still waits, and an anchor behind all those and the B frames decoded before the next anchor."""
    found = {}
    for group in {p.group for p in pictures}:
        frames = [(p.frame, p.kind == B) for p in pictures if p.group == group and p.ends_frame]
        for number, (frame, is_b) in enumerate(frames):
            found[frame] = number
            if low_delay:
                continue
            if is_b:
                found[frame] -= any(not b for _, b in frames[:number])
                continue
            for _, follows in frames[number + 1:]:
                if not follows:
                    break
                found[frame] += 1
    return found


def picture_breaches(p, constant):
    """What a picture breaks by itself, so but for rule 11: rule, have, need."""
    may_repeat = not p.sequence.progressive and p.progressive and p.structure == FRAME
    is_progressive = p.frame_only and p.progressive
    for rule, broken in (
            (8, [b for f in p.used(0) if p.sequence.level not in (70, 68) for b in at_most(f, 8)]),
            (9, [b for f in p.used(1) for b in at_most(f, 5 if p.structure == FRAME else 4)]),
            (10, [(p.kind, 1)] if p.leads_group and p.kind != I else []),
            (12, at_most(p.crowded, 2)),
            (13, [(1, 0)] if constant and p.repeat and not may_repeat else []),
            (14, [(0, 1)] if p.sequence.progressive and not is_progressive else []),
            (15, at_most(p.precision, 2))):
        yield from ((rule, have, need) for have, need in broken)


def breaches(stream):
    """All that is broken: picture, rule, have, need."""
    sequences, pictures = stream.sequences, stream.coded
    for s in sequences:
        yield from ((0, *broken) for broken in header_breaches(s))
    place = places(pictures, bool(sequences[0].low_delay))
    for number, p in enumerate(pictures):
        wanted = place[p.frame] % 1024
        if p.temporal != wanted:
            yield number, 11, p.temporal, wanted
        yield from ((number, *broken) for broken in picture_breaches(p, pictures[0].delay != 65535))


# ---- the buffer

def intervals(stream):
    """The time from the removal of each picture to that of the next one, in units of 1/720,000 s. A frame picture
    takes two fields, or three where it repeats one. With low_delay it goes by itself; else a B frame does, and an
    anchor takes as long as the anchor before it is shown. A field takes its own time; the second one of an anchor
    takes one field more where the anchor before repeats one."""
    sequence = stream.sequences[0]
    field, before, times = FIELD_UNITS[sequence.code], False, []
    for p in stream.coded:
        repeats = bool(not p.sequence.progressive and p.structure == FRAME and p.repeat)
        anchor = p.kind != B
        if p.structure == FRAME:
            shown = before if anchor and not sequence.low_delay else repeats
            times.append((3 if shown else 2) * field)
        else:
            times.append(2 * field if anchor and p.ends_frame and before else field)
        if anchor and p.ends_frame:
            before = repeats
    return times


class Account:
    """What the buffer holds as each picture is removed, in units of 1/1800 bit."""

    def __init__(self, stream):
        sequence, pictures = stream.sequences[0], stream.coded
        k, self.size = sequence.rate, 1800 * 16384 * sequence.buffer
        first = pictures[0]
        at_start = 1800 * first.code_end + 8 * k * first.delay
        self.held, self.taken, self.delays = [], [], []
        time = gone = 0
        for p, interval in zip(pictures, intervals(stream)):
            self.held.append(min(at_start + k * time, 1800 * stream.total) - 1800 * gone)
            self.taken.append(1800 * p.bits)
            self.delays.append((at_start + k * time - 1800 * p.code_end) // (8 * k))
            time, gone = time + interval, gone + p.bits

    def failure(self):
        for picture, (held, taken) in enumerate(zip(self.held, self.taken)):
            if taken > held:
                return 'buffer under picture %d have %d need %d' % (picture, held, taken)
            if held > self.size:
                return 'buffer over picture %d have %d need %d' % (picture, held, self.size)

    def figures(self, pictures):
        low = min(held - taken for held, taken in zip(self.held, self.taken)) // 1800
        others = sum(p.delay != delay for p, delay in list(zip(pictures, self.delays))[1:])
        return 'low %d high %d delays %d' % (low, max(self.held) // 1800, others)


def verdict(data):
    """The status and the line of a stream without a fault."""
    stream = Parser(data)
    pictures = stream.coded
    # of one picture and rule the first in reading order: `min` keeps the first of equal ones
    broken = min(breaches(stream), key=lambda b: b[:2], default=None)
    counts = 'frames %d pictures %d bytes %d' % (len(stream.frames), len(pictures), stream.total // 8)
    if broken:
        picture, rule, have, need = broken
        return 10, 'unlawful rule %d picture %d have %d need %d' % (rule, picture, have, need)
    if not pictures:
        return 0, 'lawful %s low 0 high 0 delays 0' % counts
    if pictures[0].delay == 65535:
        return 0, 'variable %s' % counts
    account = Account(stream)
    failure = account.failure()
    if failure:
        return 11, failure
    return 0, 'lawful %s %s' % (counts, account.figures(pictures))


def main():
    if len(sys.argv) == 1:
        import verdicts_cases
        print('\n'.join(verdicts_cases.table()).rstrip())
    for name in sys.argv[1:]:
        with open(name, 'rb') as file:
            print('%s: status %d %s' % (name, *verdict(file.read())))


if __name__ == '__main__':
    main()
