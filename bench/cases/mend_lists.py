"""The lists of `mend --list`, of which bench/cases/mend_cases.py makes cases: an input, what of it is kept, and each gap as
the frames before it, the bytes before it, its own bytes, and its fault where it has one."""

from mended import MOST_PIECE
from mend_streams import (
    B, BEHIND_P, BOTTOM, BROKEN, CLOSED, CLOSED_SEAM, END, FIELDS, FILM, FIRST, FIRST_SEAM, I, LEAD, MATRICES, OPEN, P_5,
    P_STEP, S, SEAM, SECOND, SECOND_FRONT, SECOND_SEAM, THIRD, THIRD_FRONT, THIRD_SEAM, TOP, UP_TO_P, USER, WIDE, b, field,
    filled, i, less, lost, p, wide_i, with_type)

JOINED = FIRST + END


def of(name, data, kept, *gaps, **more):
    return dict(name=name, data=data, kept=kept, gaps=list(gaps), **more)


def missing(before, part):
    """A slice is missing where this ends."""
    return 'MissingMacroblocks', 8 * len(before + part)


# ---- an input of several stretches

NOISE = b'\xff' + FIRST + END + b'\xff\xff'
SECOND_AT = NOISE + BROKEN + P_STEP + END
UNITS_AT = SECOND_AT + SECOND + END
THIRD_AT = UNITS_AT + USER + OPEN + END
SHARED = [(4, NOISE, BROKEN + P_STEP, missing(NOISE, BROKEN)), (4, SECOND_AT + SECOND_FRONT, LEAD, None),
          (8, UNITS_AT, USER + OPEN, ('MissingReference', 8 * len(UNITS_AT))), (8, THIRD_AT + THIRD_FRONT, LEAD, None)]
STRETCHES = THIRD_AT + THIRD, FIRST + SECOND_SEAM + THIRD_SEAM, *SHARED


# ---- one gap, or none

def singles():
    yield of('all is kept', FILM + END, FILM)
    yield of('no byte', b'', ('NoSequence', 0), comment='No unit is there that could be left out.')
    yield of('header units after the last end code', JOINED + USER + OPEN, FIRST,
             (4, JOINED, USER + OPEN, ('MissingReference', 8 * len(JOINED))),
             comment='No picture is left out, so the status is 0.')
    yield of('leading B pictures', JOINED + SECOND + END, FIRST + SECOND_SEAM, (4, JOINED + SECOND_FRONT, LEAD, None))
    yield of('cut off', (FIRST + SECOND)[:-2], UP_TO_P,
             (7, UP_TO_P, P_5[:-2], ('Truncated', 8 * len((FIRST + SECOND)[:-2]))),
             comment='Of the last slice the start code is left.')
    yield of('another size', JOINED + WIDE + CLOSED + wide_i(0) + END, FIRST,
             (4, JOINED, WIDE + CLOSED + wide_i(0), ('SequenceChanged', 8 * len(JOINED))))
    loaded = b(0, MATRICES)
    place = len(JOINED + SECOND_FRONT) + loaded.index(MATRICES)
    yield of('matrices in a leading B picture', JOINED + SECOND_FRONT + loaded + P_5, FIRST,
             (4, JOINED, SECOND_FRONT + loaded + P_5, ('Unsupported', 8 * place)))
    yield of('a group without a sequence header first', CLOSED + i(0) + P_STEP + FIRST, FIRST_SEAM,
             (0, b'', CLOSED + i(0) + P_STEP, ('NoSequence', 0)))
    dropped = S + CLOSED + b(0)
    yield of('a B picture first', dropped + P_STEP, dropped, (0, dropped, P_STEP, ('MissingReference', 8 * len(dropped))),
             comment='It is kept and dropped, so no frame is shown before the P picture.')
    opened = SECOND + END
    yield of('an open group first', opened + BROKEN, SECOND, (4, opened, BROKEN, missing(opened, BROKEN)),
             comment='Its leading B pictures are kept and dropped.')
    typeless = with_type(p(5), 0)
    yield of('a picture of type 0', UP_TO_P + typeless, FIRST,
             (4, FIRST, SECOND_FRONT + LEAD + typeless, ('Forbidden', 8 * len(UP_TO_P) + 32 + 10)),
             comment='It is part of the step before. Its type stands after the start code and 10 bits.')
    two, lead = field(I, TOP) + field(I, BOTTOM), field(B, TOP) + field(B, BOTTOM)
    begun = FIELDS + CLOSED + two
    yield of('leading B fields', begun + END + begun + lead, begun + FIELDS + CLOSED_SEAM + two,
             (1, begun + END + begun, lead, None), comment='Two fields are two pictures and one frame.')


# ---- several

def several():
    broken = S + OPEN + less(i(2))
    steps = broken + LEAD + P_5
    yield of('a slice less in an I picture', lost('second', 0), FIRST + THIRD_SEAM, (4, FIRST, steps, missing(FIRST, broken)),
             (4, FIRST + steps + THIRD_FRONT, LEAD, None), comment='Two steps are one gap, with the fault of the first.')
    group = BROKEN + P_STEP
    fault = missing(b'', BROKEN)
    yield of('four steps in a row', group + group, fault, (0, b'', group + group, fault), comment='Nothing is kept.')
    yield of('an end code between steps', group + END + group, fault, (0, b'', group, fault),
             (0, group + END, group, missing(group + END, BROKEN)), comment='It parts them.')
    data, kept, gaps, rest = FIRST, FIRST, [], less(p(5)) + BEHIND_P
    for frames in range(4, 10):
        data, kept = data + END + SECOND_FRONT, kept + S + SEAM + i(0)
        gaps += [(frames, data, LEAD, None), (frames + 1, data + LEAD, rest, missing(data + LEAD, less(p(5))))]
        data += LEAD + rest
    yield of('leading B pictures right before a fault, six times', data, kept, *gaps, comment='They are not joined.')
    yield of('several end codes', *STRETCHES, comment='In no gap stands what is in no unit, nor an end code.')


# ---- endpoints, limits and words

def endpoints():
    for endpoint, called in (('input', 'input'), ('output', 'output'), ('recon', 'list'), ('report', 'report')):
        name, more = 'each call of the %s fails in turn' % called, ['each ' + endpoint]
        yield of(name, *STRETCHES, more=more)
        if endpoint in ('output', 'recon'):
            yield of(name + ', where all is kept', FILM + END, FILM, more=more)
    name, more = 'each call of the list fails in turn', ['each recon']
    yield of(name + ', on no byte', b'', ('NoSequence', 0), more=more)
    fault = missing(b'', BROKEN)
    yield of(name + ', where nothing is kept', BROKEN, fault, (0, b'', BROKEN, fault), more=more)
    ahead, rest, zeros = S + CLOSED + i(0), less(p(3)) + b(1) + b(2), bytes(100000)
    front = ahead + rest + SECOND + zeros + FIRST + END + zeros
    yield of('each call of the input fails in turn, between gaps', front + SECOND,
             ahead + SECOND_SEAM + zeros + FIRST + SECOND_SEAM, (1, ahead, rest, missing(ahead, less(p(3)))),
             (1, ahead + rest + SECOND_FRONT, LEAD, None), (9, front + SECOND_FRONT, LEAD, None), more=['each input'])


def limits():
    larger = filled(S + CLOSED + i(0), MOST_PIECE + 1)
    yield of('a piece one byte larger than it may be', larger + END, ('Unsupported', 0))
    yield of('a piece one byte larger after others', FIRST + SECOND + larger + THIRD, FIRST + SECOND + THIRD_SEAM)


def words():
    for name, line, file in (('a name after an equal sign', 'mend --list=gaps', 'gaps'),
                             ('a name with a folder', 'mend --list a/b.txt', 'a/b.txt'),
                             ('two hyphens after the name', 'mend --list gaps --', 'gaps')):
        yield of(name, FIRST, FIRST, words=line, file=file)


SECTIONS = [
    ('lists of what is left out', [*singles(), *several()]),
    ('lists where calls fail. The call that opens the list is its first one', [*endpoints()]),
    ('lists and large pieces. Such a piece ends the list before the gap that it would be', [*limits()]),
    ('the name of a list', [*words()]),
]
