"""The stricter rules of `audit`, 16 to 39, and its warnings, 50 to 59 (but for 54, which hangs on the account), by the rules alone: what each header breaks, as rule, name,
have and need. Flags count as 0 and 1.

Of a sequence header, beside the first one of its sequence:
16  where rule 5 holds, it holds of whole macroblocks too: of 16 columns, and of 16 lines, or in interlaced sequences of 32
17  aspect_ratio_information is 1 to 4
18  constrained_parameters_flag is 0
19  the first number of an intra matrix is 8
21  it says what the first one does, but for matrices
50  aspect_ratio_information is 4
51  an odd width; an odd height, or in interlaced sequences one that is no multiple of 4
52  above Main level more than 1088 lines
Of sequence and group headers:
22  since the last picture no sequence or group header came before a sequence header, and no group header before a group
    header; at the sequence's end none came, of which the last one is told there
Of a group header:
24  hours to 23, minutes, seconds and pictures to 59
25  drop_frame_flag is 0, but at frame_rate_code 4
26  with it no picture 0 or 1 in second 0 of a minute that is no multiple of 10
55  its time code counts as many pictures as a second has, or more; or it is not that of the group before it and the pictures for
    which that is shown, one more or less: modulo a day, without the numbers that drop_frame_flag passes over
56  broken_link is 1
Of the sequence display extension behind a sequence header, at its piece:
39  it is there where one stands behind the first sequence header, and says the same: 0 is none, 1 the same, 2 another; one that
    is cut off or has a marker of 0 is none
Of a picture:
23  the first one behind a sequence header is no B picture
27  with low_delay it is no B picture
28  its vbv_delay is 65535 exactly where that of the first picture is
29  the bits between the ends of its start code and that of the picture before are fewer than arrive at the bit rate of the first
    sequence header in the time between, each vbv_delay granted a tick; not looked at where either delay is 65535
30  f_codes that are not used are 15
31  full_pel_forward_vector and its backward kin are 0, forward_f_code and its kin 7
32  extra_bit_picture is 0: told at the picture too, but behind all of its others and those of places
33  in a field picture top_field_first, frame_pred_frame_dct, progressive_frame and repeat_first_field are 0
34  in a progressive frame of an interlaced sequence frame_pred_frame_dct is 1
35  in a progressive sequence top_field_first is 0 where repeat_first_field is
36  in an interlaced sequence a frame that is not progressive does not repeat a field
37  no frame repeats at frame rate codes 1 and 2, nor in a progressive sequence at 1 to 6
38  chroma_420_type is progressive_frame
57  it is dropped
58  in an interlaced sequence, as frames are shown: its first field has the parity of the last field before it
59  a B picture at Main level of over 480 lines, or at frame_rate_code 3, repeats a field
Of each quant matrix extension of a picture, at its own start code:
19  the first number of an intra matrix is 8, and of one for the intra blocks of chroma
20  chroma has no matrices of its own
At the end of a sequence:
53  no sequence end code
What rule 13 says of a repeated field is not said again: at constant rate 33, 36 and 37 are silent on the pictures that rule 13 is
about, those of progressive sequences, frames that are not progressive, and fields."""

from dataclasses import dataclass

from pictures_writer import B, FRAME, P
from verdicts import EXTENSION, FIELD_UNITS, GROUP, PICTURE, SEQUENCE, at_most, luma_rate, within

HIGHER = (70, 68)


def equal(have, need):
    return [] if have == need else [(have, need)]


def named(rule, *elements):
    for name, broken in elements:
        yield from ((rule, name, have, need) for have, need in broken)


def whole(size, step):
    return (size + step - 1) // step * step


def coded_luma_rate(s):
    if luma_rate(s):
        return []
    samples = whole(s.width, 16) * whole(s.height, 16 if s.progressive else 32)
    return at_most(720000 * samples, s.limits()[3] * 2 * FIELD_UNITS.get(s.code, 0))


@dataclass
class Leading:
    """Which headers came since the last picture."""
    sequence: bool = False
    group: bool = False


def out_of_order(value):
    return named(22, ('header_order', [(value, 0)]))


def header_remarks(s, first, before):
    """Of a sequence header behind others: first the rules, by number, and then the warnings."""
    yield from named(16, ('coded_luma_rate', coded_luma_rate(s)))
    yield from named(17, ('aspect_ratio_information', within(s.aspect, 1, 4)))
    yield from named(18, ('constrained_parameters_flag', equal(s.constrained, 0)))
    yield from named(19, ('intra_quantiser_matrix', [] if s.first_number is None else equal(s.first_number, 8)))
    yield from named(21, *((name, equal(getattr(s, field), getattr(first, field))) for name, field in (
        ('aspect_ratio_information', 'aspect'), ('frame_rate_code', 'code'), ('bit_rate', 'rate'),
        ('vbv_buffer_size', 'buffer'), ('constrained_parameters_flag', 'constrained'),
        ('profile_and_level_indication', 'level'), ('low_delay', 'low_delay'), ('frame_rate_extension_n', 'n'),
        ('frame_rate_extension_d', 'd'))))
    if before.sequence or before.group:
        yield from out_of_order(SEQUENCE)
    yield from named(50, ('aspect_ratio_information', [(4, 3)] if s.aspect == 4 else []))
    yield from named(51, ('width', equal(s.width % 2, 0)), ('height', equal(s.height % (2 if s.progressive else 4), 0)))
    yield from named(52, ('height', at_most(s.height, 1088) if s.level in HIGHER else []))


# pictures that a time code counts in a second, by frame rate code
COUNTED = {1: 24, 2: 24, 3: 25, 4: 30, 5: 30, 6: 50, 7: 60, 8: 60}


def passed_over(g, minutes):
    return 2 * (minutes - minutes // 10) if g.drop else 0


def pictures_of(rate, g):
    """The pictures since midnight."""
    minutes = 60 * g.hours + g.minutes
    return max(0, rate * (60 * minutes + g.seconds) + g.pictures - passed_over(g, minutes))


def time_remarks(g, code, last, fields):
    """Warning 55, behind the last group header, whose pictures are shown for so many fields."""
    rate = COUNTED.get(code)
    if not rate:
        return
    yield from named(55, ('time_code_pictures', at_most(g.pictures, rate - 1)))
    if last:
        passed = (pictures_of(rate, g) - pictures_of(rate, last)) % (86400 * rate - passed_over(g, 1440))
        if abs(2 * passed - fields) > 2:
            yield from named(55, ('time_code', [(passed, fields // 2)]))


def group_remarks(g, code, before, last, fields):
    """Of a group header behind others, in a sequence of this frame rate code; the last one's pictures are shown for so many
    fields."""
    if before.group:
        yield from out_of_order(GROUP)
    yield from named(24, ('time_code_hours', at_most(g.hours, 23)), ('time_code_minutes', at_most(g.minutes, 59)),
                     ('time_code_seconds', at_most(g.seconds, 59)), ('time_code_pictures', at_most(g.pictures, 59)))
    yield from named(25, ('drop_frame_flag', [] if code == 4 else equal(g.drop, 0)))
    skipped = g.drop and g.seconds == 0 and g.minutes % 10 and g.pictures < 2
    yield from named(26, ('time_code_pictures', [(g.pictures, 2)] if skipped else []))
    yield from time_remarks(g, code, last, fields)
    yield from named(56, ('broken_link', equal(g.broken, 0)))


class Parity:
    """The fields of an interlaced sequence as they are shown (warning 58)."""

    def __init__(self, low_delay):
        self.low_delay, self.last, self.anchor = low_delay, None, None

    def shown(self, frame):
        """A frame is shown: whether its first and its last field are top fields, and where it is told."""
        if not frame:
            return
        picture, bit, first, last = frame
        if self.last == first:
            yield picture, bit, 58, 'field_parity', int(first), int(not first)
        self.last = last

    def picture(self, number, bit, p):
        if p.sequence.progressive or not p.ends_frame or p.dropped:
            return
        first = bool(p.top_first) if p.structure == FRAME else p.structure == 2
        frame = number, bit, first, first == bool(p.structure == FRAME and p.repeat)
        if p.kind == B or self.low_delay:
            yield from self.shown(frame)
        else:
            yield from self.shown(self.anchor)
            self.anchor = frame


def vectors(p):
    """What rule 31 wants of the picture header: the fields of each direction that it has."""
    for direction, present in (('forward', p.kind in (P, B)), ('backward', p.kind == B)):
        if present:
            full_pel, f_code = p.directions[direction == 'backward']
            yield 'full_pel_%s_vector' % direction, equal(full_pel, 0)
            yield direction + '_f_code', equal(f_code, 7)


def unused(p):
    """The f_codes that rule 30 is about."""
    for begin, used in ((0, p.kind in (P, B) or p.concealment), (2, p.kind == B)):
        if not used:
            yield 'f_code_horizontal', equal(p.f_codes[begin], 15)
            yield 'f_code_vertical', equal(p.f_codes[begin + 1], 15)


def end_remarks(before, closed):
    """At the end of a sequence, behind headers that no picture follows; whether an end code ends it."""
    if before.sequence or before.group:
        yield from out_of_order(GROUP if before.group else SEQUENCE)
    yield from named(53, ('sequence_end_code', [] if closed else [(0, 1)]))


@dataclass
class Arrival:
    """A picture: where its start code ends, the time to the next removal in units of 1/720,000 s, and its vbv_delay."""
    end: int
    units: int
    delay: int


def arrival(rate, last, end, delay):
    """Rule 29, at this bit rate, behind a picture; of one whose start code ends at a bit."""
    if last and 65535 not in (last.delay, delay):
        have, need = 1800 * (end - last.end), rate * max(0, last.units + 8 * last.delay + 16 - 8 * delay)
        yield from named(29, ('arrival_rate', [] if have < need else [(have, need)]))


def picture_remarks(p, constant, headed, arrivals):
    """Of a picture, in a sequence whose first vbv_delay is not 65535, or is; whether it is the first behind a sequence header;
    and what rule 29 says."""
    s, frame = p.sequence, p.structure == FRAME
    by_13 = constant and (s.progressive or not p.progressive or not frame)
    repeats = equal(p.repeat, 0) if not by_13 else []
    yield from named(23, ('picture_coding_type', [(3, 1)] if headed and p.kind == B else []))
    yield from named(27, ('low_delay', [(3, 2)] if s.low_delay and p.kind == B else []))
    if constant:
        yield from named(28, ('vbv_delay', [(65535, 65534)] if p.delay == 65535 else []))
    else:
        yield from named(28, ('vbv_delay', equal(p.delay, 65535)))
    yield from arrivals
    yield from named(30, *unused(p))
    yield from named(31, *vectors(p))
    if not frame:
        yield from named(33, ('top_field_first', equal(p.top_first, 0)), ('frame_pred_frame_dct', equal(p.frame_only, 0)),
                         ('progressive_frame', equal(p.progressive, 0)), ('repeat_first_field', repeats))
    if frame and p.progressive and not s.progressive:
        yield from named(34, ('frame_pred_frame_dct', equal(p.frame_only, 1)))
    if s.progressive and not p.repeat:
        yield from named(35, ('top_field_first', equal(p.top_first, 0)))
    if not s.progressive and frame and not p.progressive:
        yield from named(36, ('repeat_first_field', repeats))
    if frame and s.code <= (6 if s.progressive else 2):
        yield from named(37, ('repeat_by_rate', repeats))
    yield from named(38, ('chroma_420_type', equal(p.chroma_type, p.progressive)))
    yield from named(57, ('dropped', equal(int(p.dropped), 0)))
    if p.kind == B and s.level not in HIGHER and (s.height > 480 or s.code == 3):
        yield from named(59, ('repeat_first_field', equal(p.repeat, 0)))


# ---- what else stands before the first slice of a piece

class Bits:
    """The bits of a unit behind its start code; None past its end."""

    def __init__(self, body):
        self.text = ''.join('{:08b}'.format(byte) for byte in body)

    def take(self, count):
        """The number of the next bits."""
        taken, self.text = self.text[:count], self.text[count:]
        return int(taken or '0', 2) if len(taken) == count else None


def units_before_slices(data, begin, end):
    """The units of a piece up to its first slice: where each begins, its value, and its bits."""
    at = begin
    while at < end and not 1 <= data[at + 3] <= 0xAF:
        following = data.find(b'\0\0\1', at + 4, end - 1)
        behind = end if following < 0 else following
        yield at, data[at + 3], Bits(data[at + 4:behind])
        at = behind


def display(bits):
    """What a sequence display extension says behind its id, where it reads."""
    content = [bits.take(3), bits.take(1)]
    content += [bits.take(24)] if content[1] else []
    content += [bits.take(count) for count in (14, 1, 14)]
    return None if None in content or content[-2] == 0 else tuple(content)


def has_extra(bits):
    """extra_bit_picture."""
    bits.take(10)
    kind = bits.take(3)
    bits.take(16 + {P: 4, B: 8}.get(kind, 0))
    return bits.take(1)


def matrices(bits):
    """The first number of each matrix that a quant matrix extension loads, or None: intra, another, and both of chroma."""
    numbers = [[bits.take(8) for _ in range(64)] if bits.take(1) else [None] for _ in range(4)]
    return [matrix[0] for matrix in numbers]


@dataclass
class Besides:
    """What else the units of a piece say: the first display extension, and what is remarked of its picture, and where."""
    display: tuple | None
    remarks: list


def matrix_remarks(bits):
    intra, _, chroma_intra, chroma_other = matrices(bits)
    yield from named(19, ('intra_quantiser_matrix', [] if intra is None else equal(intra, 8)),
                     ('chroma_intra_quantiser_matrix', [] if chroma_intra is None else equal(chroma_intra, 8)))
    yield from named(20, ('load_chroma_intra_quantiser_matrix', equal(int(chroma_intra is not None), 0)),
                     ('load_chroma_non_intra_quantiser_matrix', equal(int(chroma_other is not None), 0)))


def besides(data, begin, end):
    """Of the piece between these bytes."""
    displays, remarks = [], []
    for at, value, bits in units_before_slices(data, begin, end):
        kind = bits.take(4) if value == EXTENSION else None
        if kind == 2:
            displays.append(display(bits))
        elif kind == 3:
            remarks.append((8 * at, list(matrix_remarks(bits))))
        elif value == PICTURE:
            remarks.append((8 * at, list(named(32, ('extra_bit_picture', equal(has_extra(bits), 0))))))
    return Besides(next((d for d in displays if d), None), remarks)


class Displays:
    """The sequence display extensions of a sequence (rule 39)."""

    def __init__(self):
        self.first = []

    def remarks(self, shown):
        """At the next sequence header: what stands behind it."""
        if not self.first:
            self.first.append(shown)
            return
        first = self.first[0]
        have = 0 if shown is None else 1 if shown == first else 2
        yield from named(39, ('sequence_display_extension', equal(have, int(first is not None))))
