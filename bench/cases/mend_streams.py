"""The pictures of which bench/cases/mend_cases.py puts its streams together: grey frames of 16 by 32 samples in two slices,
with the temporal reference that is told."""

from pictures_writer import (
    B, BOTTOM, END, FRAME, I, Macroblock, P, Picture, TOP, flat, group, headers, matrices, sequence, slice_unit, unit)

QUANTISER = 8


# ---- pictures

def macroblock(kind, backward=False, parity=()):
    zero = [(0, 0, *parity)]
    if kind == I:
        return flat(128)
    return Macroblock(forward=None if backward else zero, backward=zero if kind == B else None)


def picture_of(kind, temporal, structure=FRAME, progressive=1):
    return Picture(kind, structure=structure, temporal=temporal, f_codes=(3, 3, 3, 3), progressive=progressive,
                   frame_only=int(structure == FRAME))


def slices(picture, count, m):
    return b''.join(slice_unit(picture, row, QUANTISER, [m]) for row in range(count))


def frame(kind, temporal, more=b'', backward=False):
    picture = picture_of(kind, temporal)
    return headers(picture) + more + slices(picture, 2, macroblock(kind, backward))


def i(temporal, more=b''):
    return frame(I, temporal, more)


def p(temporal, more=b''):
    return frame(P, temporal, more)


def b(temporal, more=b'', backward=False):
    return frame(B, temporal, more, backward)


def field(kind, structure, temporal=0):
    """A field of 16 by 16 samples in one slice. A P field refers to the top field, a B field to those of its own parity."""
    picture = picture_of(kind, temporal, structure, 0)
    parity = (0,) if kind == P else (int(structure == BOTTOM),)
    return headers(picture) + slices(picture, 1, macroblock(kind, False, parity))


def field_frame(temporal=0):
    """A frame whose scan is that of fields."""
    picture = picture_of(I, temporal, progressive=0)
    return headers(picture) + slices(picture, 2, flat(128))


def wide_i(temporal):
    """A frame of 32 by 32 samples."""
    picture = picture_of(I, temporal)
    return headers(picture) + b''.join(slice_unit(picture, row, QUANTISER, [flat(128), flat(128)]) for row in range(2))


def less(data):
    """Without its last slice."""
    return data[:data.rindex(b'\0\0\1')]


def with_type(picture, kind):
    return picture[:5] + bytes((picture[5] & ~0x38 | kind << 3,)) + picture[6:]


def filled(data, size):
    """With user data before its last two slices, so many bytes in all."""
    at = data.rindex(b'\0\0\1', 0, data.rindex(b'\0\0\1'))
    return data[:at] + unit(0xB2) + (size - len(data) - 4) * b'\xff' + data[at:]


# ---- headers

S = sequence(16, 32)
WIDE, FIELDS, LOW = sequence(32, 32), sequence(16, 32, progressive=0), sequence(16, 32, low_delay=1)
ASPECT = sequence(16, 32, aspect=3)
RATE, RATE_N = sequence(16, 32, code=5), sequence(16, 32, n=1)
MPEG1 = S[:12]
CLOSED, OPEN, LATER = group(1), group(0, seconds=1), group(0, seconds=2)
# closed_gop is bit 25 behind the start code, and broken_link bit 26, which alone is set in these
CLOSED_SEAM, SEAM, LATER_SEAM = (header[:7] + b'\x20' for header in (CLOSED, OPEN, LATER))
USER = unit(0xB2, '01100001')
# a sequence display extension of 16 by 32, and a quant matrix extension that loads nothing
DISPLAY = unit(0xB5, '0010', '000', '0', format(16, '014b'), '1', format(32, '014b'))
MATRICES = matrices()


def extension(size):
    """A sequence display extension of so many bytes."""
    return DISPLAY + (size - len(DISPLAY)) * b'\xff'


# ---- groups: the first is closed, and the others have two leading B pictures

P_STEP = p(3) + b(1) + b(2)
LEAD, BEHIND_P = b(0) + b(1), b(3) + b(4)
P_5 = p(5) + BEHIND_P
I_P = i(0) + P_STEP
FIRST = S + CLOSED + I_P
SECOND_FRONT, THIRD_FRONT = S + OPEN + i(2), S + LATER + i(2)
SECOND, THIRD = SECOND_FRONT + LEAD + P_5, THIRD_FRONT + LEAD + P_5
# two groups up to the second step, in which the P picture of the second one would follow
UP_TO_P = FIRST + SECOND_FRONT + LEAD
# as a strand begins with them: without the leading pictures, and with references that are less by 2
SECOND_SEAM, THIRD_SEAM, FIRST_SEAM = S + SEAM + I_P, S + LATER_SEAM + I_P, S + CLOSED_SEAM + I_P
FILM = FIRST + SECOND + THIRD
# the second group without a sequence header
BARE = SECOND[len(S):]
# a group that has lost a slice of its I picture
BROKEN = S + CLOSED + less(i(0))

NAMED = {
    S: 'mend_sequence', CLOSED: 'mend_closed', OPEN: 'mend_open', LATER: 'mend_later', SEAM: 'mend_seam',
    CLOSED_SEAM: 'mend_closed_seam',
    **{i(n): 'mend_i_%d' % n for n in (0, 2)}, **{p(n): 'mend_p_%d' % n for n in (1, 3, 5)},
    **{b(n): 'mend_b_%d' % n for n in range(5)}, FIRST: 'mend_first', SECOND: 'mend_second', THIRD: 'mend_third',
    FIRST_SEAM: 'mend_first_seam', SECOND_SEAM: 'mend_second_seam', THIRD_SEAM: 'mend_third_seam',
    FIELDS: 'mend_fields', field(I, TOP): 'mend_top', field(I, BOTTOM): 'mend_bottom', END: 'mend_end'}


def lost(name, *numbers):
    """The three groups, of which one has a slice less in pictures of these numbers."""
    fronts = {'first': (S + CLOSED, [i(0), p(3), b(1), b(2)])}
    for key, front in (('second', S + OPEN), ('third', S + LATER)):
        fronts[key] = front, [i(2), b(0), b(1), p(5), b(3), b(4)]
    return b''.join(front + b''.join(less(u) if key == name and n in numbers else u for n, u in enumerate(pictures))
                    for key, (front, pictures) in fronts.items())
