#!/usr/bin/env python3
"""Prints the cases of `mend`: streams put together by bench/cases/pictures_writer.py, and what of them is kept.

    bench/cases/mend_cases.py
    bench/cases/mend_cases.py --self-test

Each case says by hand what is wanted, put together of the same pictures; bench/cases/mended.py is to give the same, or no
case is printed. The line's numbers are those of mended.py, counted once more in what is wanted. So it is with what lists
say. With --self-test all that is wanted has no fault by bench/cases/faults.py, and is mended already; and
bench/cases/pictures_decoder.py decodes it to grey frames, but for streams with many bytes. No value was taken from the
program."""

import sys

import mended
from faults import first_fault
from mended import END_CODE, MOST_PIECE, cut, frames_in, grouped, mend
from mend_lists import SECTIONS, SHARED
from mend_streams import (
    ASPECT, B, BARE, BEHIND_P, BOTTOM, BROKEN, CLOSED, CLOSED_SEAM, DISPLAY, END, FIELDS, FILM, FIRST, FIRST_SEAM,
    I, I_P, LATER, LATER_SEAM, LEAD, LOW, MATRICES, MPEG1, NAMED, OPEN, P, P_5, P_STEP, RATE, RATE_N, S, SEAM,
    SECOND, SECOND_FRONT, SECOND_SEAM, THIRD, THIRD_FRONT, THIRD_SEAM, TOP, UP_TO_P, USER, WIDE, b, extension,
    field, field_frame, filled, i, less, lost, p, unit, wide_i, with_type)
from pictures import lines_of
from pictures_decoder import decoded
from table_lines import comment_lines, runs, stream_words

PICTURE, SEQUENCE_END, HEADERS = 0x00, 0xB7, (0xB3, 0xB8)
MANY = 300000
WITH_LIST, LISTED = 'mend with a list: ', 'mend --list gaps'
CASES, KEPT = [], []


# ---- what is wanted

def is_large(data):
    """A piece has more bytes than it may, as pieces are read: the first one of a stretch with what stands before its first
    unit. An end code ends a piece of header units, and is one of its own behind a picture."""
    while data:
        units = cut(data)
        ahead = data[:len(data) - sum(map(len, units))]
        end = next((n for n, u in enumerate(units) if u[3] == SEQUENCE_END), len(units))
        pieces = [piece.bytes for piece in grouped(units[:end])] or [b'']
        pieces[0] = ahead + pieces[0]
        if end < len(units) and all(u[3] != PICTURE for u in units[:end]):
            pieces[-1] += END_CODE
        if any(len(piece.rstrip(b'\0')) > MOST_PIECE for piece in pieces):
            return True
        data = b''.join(units[end:])[4:]
    return False


def pictures_in(data):
    return sum(u[3] == PICTURE for u in cut(data))


def groups_in(data):
    """How many pictures have a sequence or group header before them, and no picture or end code between."""
    count, entry = 0, False
    for u in cut(data):
        count += entry and u[3] == PICTURE
        entry = u[3] in HEADERS or entry and u[3] not in (PICTURE, SEQUENCE_END)
    return count


def wanted(data, kept):
    """The status and the line of an input of which this is kept: bytes, or where nothing is, the fault's kind and place."""
    made, status, line, _ = mend(data)
    if isinstance(kept, tuple):
        assert made is None and line == 'nothing kept stream %s at bit %d' % kept, line
        return status, line
    numbers = [int(word) for word in line.split() if word.isdigit()]
    groups, left, size = groups_in(kept), pictures_in(kept), len(kept + END_CODE)
    assert made == kept + END_CODE, line
    if left == pictures_in(data):
        assert status == 0 and numbers == [groups, left, size], line
    else:
        assert status == 18 and numbers == [groups, groups_in(data), left, pictures_in(data), size], line
    return status, line


# ---- lines of the table

def plain_words(data):
    return stream_words(data) if len(data) < 50000 else [runs(data)]


def words_of(data):
    """The words of bytes: streams by their names, the longest ones first, and what stands between unit by unit."""
    words, raw, at = [], 0, 0
    names = sorted(NAMED, key=len, reverse=True)
    while at < len(data):
        part = next((part for part in names if data.startswith(part, at)), None)
        if part:
            words += plain_words(data[raw:at]) + [['=', NAMED[part]]]
            raw = at = at + len(part)
        else:
            behind = data.find(b'\0\0\1', at + 1)
            at = behind if behind >= 0 else len(data)
    return words + plain_words(data[raw:])


def add(name, comment, lines):
    assert name not in [case[0] for case in CASES], name
    CASES.append((name, comment, lines))


def case(name, data, kept, comment='', more=(), instead=None, words='mend', held=()):
    """An input, and what is kept of it, without the end code; or a status and a line where something stands instead. Lines on
    the place for reconstructions are handed in."""
    large = is_large(data)
    status, line = instead or wanted(data, kept)
    if large and not instead:
        status, line, more = 14, 'picture too large', [*more, 'prefix 0']
    lines = ['words ' + words, *lines_of('input', words_of(data)), *more]
    lines += ['status %d' % status] if status else []
    lines += ['report ' + line] if line else []
    if isinstance(kept, bytes):
        lines += lines_of('output', words_of(kept + END_CODE))
        KEPT.append((name, kept + END_CODE))
    add(('mend: ' if words == 'mend' else WITH_LIST) + name, comment, [*lines, *held])


def row_of(frames, before, left, fault):
    return frames, len(before), len(left), pictures_in(left), fault


def row_lines(key, rows):
    """The lines of a list, each with its text as a comment."""
    for text in mended.lines_of(rows):
        yield from ('# ' + text.rstrip(), *lines_of(key, [runs(text.encode())]))


def listed(name, data, kept, gaps, comment='', more=(), words=LISTED, file='gaps'):
    """The same with a list of its gaps; where a limit is passed, of those that were known by then."""
    assert all(data.startswith(before + left) for _, before, left, _ in gaps), name
    rows = [row_of(*gap) for gap in gaps]
    assert rows == mend(data)[3][:len(rows) if is_large(data) else None], name
    held = ['recon = mend_gaps'] if gaps == SHARED else list(row_lines('recon', rows))
    case(name, data, kept, comment, more, None, words, [*held, 'recon_name ' + file])


def heading(text):
    CASES.append((None, text, []))


# ---- the cases

def nothing():
    heading('mend: no span')
    case('no byte', b'', ('NoSequence', 0))
    case('bytes without a start code', 16 * b'\xff', ('NoSequence', 128))
    case('the prefix of a start code', b'\0\0\1', ('NoSequence', 24), 'No unit begins, since the value is missing.')
    case('end codes alone', END + END + b'\xff' + END, ('NoSequence', 104))
    case('bytes without a start code, as many as a piece may have', MOST_PIECE * b'\xff',
         ('NoSequence', 8 * MOST_PIECE))
    case('bytes without a start code, one more', (MOST_PIECE + 1) * b'\xff', ('NoSequence', 8 * MOST_PIECE + 8))
    heading('mend: how streams begin that have a fault')
    case('MPEG-1 headers', MPEG1 + CLOSED + i(0), ('NotMpeg2', 96), 'The sequence header has 12 bytes.')
    pack, packet = unit(0xBA, '0100' + 60 * '1') + b'\xff', unit(0xE0, 64 * '1')
    case('a container', pack + packet + unit(0xE0, 80 * '1'), ('NoSequence', 0))
    case('a container with headers of a stream', pack + packet + FIRST + packet + P_STEP, S + CLOSED + i(0),
         'The packet header behind the first B pictures takes their step with it.')
    case('a group without a sequence header', CLOSED + i(0) + P_STEP, ('NoSequence', 0))
    case('a sequence header cut off', S[:9], ('Truncated', 64),
         'Behind the start code are 40 bits: two sizes, aspect and rate code have 32, and the bit rate has 18.')
    case('a P picture first', S + CLOSED + p(0) + P_STEP, ('MissingReference', 240), 'Its header stands at byte 30.')
    case('a B picture first', S + CLOSED + b(0) + P_STEP, S + CLOSED + b(0),
         'It is dropped, which is no fault, so the opening strand keeps it. The P picture behind it has no reference.')
    case('a slice less in each I picture', BROKEN + P_STEP + S + OPEN + less(i(2)) + LEAD + P_5,
         ('MissingMacroblocks', 8 * 56), 'Headers of 30 and 17 bytes and a slice of 9.')
    case('begins in leading B pictures', (FILM + END)[len(FIRST + SECOND_FRONT):], THIRD_SEAM)


def whole():
    heading('mend: all pictures are kept')
    for name, data in (
            ('three groups', FILM),
            ('three groups with one sequence header', FIRST + BARE + THIRD[len(S):]),
            ('groups without group headers', S + I_P + S + i(6) + b(4) + b(5) + p(7)),
            ('header units behind the last picture', FIRST + S + OPEN),
            ('two sequence headers and two group headers before a picture', FIRST + S + S + OPEN + BARE),
            ('a sequence header before a P picture', FIRST + S + p(6)),
            ('user data and a display extension', FIRST + S + DISPLAY + USER + OPEN + USER + i(0)),
            ('a quant matrix extension in a picture', FIRST + S + CLOSED + i(0, MATRICES) + p(1)),
            ('low_delay', LOW + CLOSED + i(0) + p(1) + p(2)),
            ('100,000 zero bytes behind an I picture', S + CLOSED + i(0) + bytes(100000) + P_STEP + SECOND),
            ('100,000 zero bytes behind the last picture', FIRST + SECOND + bytes(100000)),
            ('100,000 zero bytes behind headers', FIRST + S + bytes(100000) + OPEN + bytes(100000) + i(0))):
        case(name, data + END, data)
    case('one grey group', S + CLOSED + i(0) + END, S + CLOSED + i(0))
    case('one grey group without an end code', S + CLOSED + i(0), S + CLOSED + i(0))
    case('a sequence header alone', S, S, 'No picture is left out, and it reads.')
    case('an open group first', SECOND + THIRD + END, SECOND + THIRD,
         'Its leading B pictures are dropped by decoders. The opening strand keeps them, and has no mark.')
    case('3,000,000 zero bytes behind a picture', FIRST + bytes(3000000) + SECOND, FIRST + bytes(3000000) + SECOND,
         'They count for no limit.')


def joined():
    heading('mend: several streams, and bytes around them')
    case('two streams of one size', FIRST + END + FIRST + END, FIRST + FIRST_SEAM,
         'The second one is closed, and marked all the same.')
    case('two streams, the first without an end code', FIRST + FIRST + END, FIRST + FIRST, 'That is one stream.')
    case('two streams, the second one open', FIRST + END + SECOND + END, FIRST + SECOND_SEAM)
    case('two streams of two sizes', FIRST + END + WIDE + CLOSED + wide_i(0) + END, FIRST)
    case('another size without an end code', FIRST + WIDE + CLOSED + wide_i(0) + SECOND, FIRST + SECOND_SEAM)
    case('a stream without a sequence header behind another one', S + CLOSED + i(0) + END + OPEN + i(0) + p(1),
         S + CLOSED + i(0) + S + SEAM + i(0) + p(1), 'The head of the first one is copied.')
    case('an end code in an I picture', FIRST + less(SECOND_FRONT) + END + i(2)[-9:] + LEAD + P_5 + THIRD,
         FIRST + THIRD_SEAM)
    case('an end code before a P picture', UP_TO_P + END + P_5 + THIRD, UP_TO_P + THIRD_SEAM)
    case('an end code before a stream', END + FILM, FILM, 'The strand that begins with it is the opening one.')
    case('bytes before a stream', b'\xff\0\xff' + FILM, FILM)
    case('units before the first sequence header', USER + DISPLAY + OPEN + i(0)[17:26] + FILM, FILM,
         'They stand in its piece, since no picture is among them.')
    case('bytes between streams behind an end code', FIRST + END + 5 * b'\xff' + SECOND + END, FIRST + SECOND_SEAM)
    case('100,000 zero bytes behind an end code', FIRST + END + bytes(100000) + FIRST, FIRST + FIRST_SEAM)
    case('header units behind the last end code', FIRST + END + USER + OPEN + b'\xff', FIRST,
         'They are a span that is left out, but no picture is.')
    case('bytes between pictures', FIRST + SECOND_FRONT + b'\xff' + LEAD + P_5 + THIRD, FIRST + THIRD_SEAM,
         'They belong to the slice of the I picture.')
    case('a unit of value B0 behind a P picture', UP_TO_P + p(5) + unit(0xB0) + BEHIND_P + THIRD, UP_TO_P + THIRD_SEAM)


def damaged():
    heading('mend: a slice less')
    case('a slice less in the first I picture', lost('first', 0), SECOND_SEAM + THIRD)
    case('a slice less in the first P picture', lost('first', 1), S + CLOSED + i(0) + SECOND_SEAM + THIRD)
    case('a slice less in the first B picture', lost('first', 2), S + CLOSED + i(0) + SECOND_SEAM + THIRD)
    case('a slice less in the middle I picture', lost('second', 0), FIRST + THIRD_SEAM)
    case('a slice less in a leading B picture', lost('second', 1), FIRST + SECOND_SEAM + THIRD,
         'The group is kept without its leading ones.')
    case('a slice less in the middle P picture', lost('second', 3), UP_TO_P + THIRD_SEAM)
    case('a slice less in a B picture behind it', lost('second', 4), UP_TO_P + THIRD_SEAM)
    case('a slice less in the last I picture', lost('third', 0), FIRST + SECOND)
    case('a slice less in both leading B pictures of the last group', lost('third', 1, 2), FIRST + SECOND + THIRD_SEAM)
    case('a slice less in the last picture', lost('third', 5), FIRST + SECOND + THIRD_FRONT + LEAD)
    heading('mend: other damage')
    case('a picture of type 0', UP_TO_P + with_type(p(5), 0) + BEHIND_P + THIRD, FIRST + THIRD_SEAM,
         'It begins no step, and takes the one before it with it.')
    case('a P picture with the type of a B picture', UP_TO_P + with_type(p(5), B) + BEHIND_P + THIRD,
         FIRST + S + SEAM + i(0) + THIRD, 'It is one of the leading ones, without which the group is kept.')
    case('a P picture missing in a closed group', S + CLOSED + i(0) + b(1) + b(2) + SECOND,
         S + CLOSED_SEAM + i(0) + SECOND,
         'There the B pictures are decoded, and these refer to an anchor that is not there.')
    heading('mend: cut off')
    case('cut off in the last slice', (FIRST + SECOND)[:-2], UP_TO_P)
    case('cut off in the slice of a leading B picture', UP_TO_P[:-2], FIRST + S + SEAM + i(0))
    case('cut off in the first slice', S + CLOSED + i(0)[:24], ('Truncated', 431),
         'Behind its start code, to bit 408, are 24 bits: 8 for quantiser, flag, increment and type, 5 for each of three '
         'blocks; and the last bit, a 1, begins no whole size.')
    case('cut off in a picture header', UP_TO_P + p(5)[:6], UP_TO_P)
    case('cut off behind a picture start code', FIRST + SECOND + p(5)[:4], UP_TO_P, 'It belongs to the step before.')
    case('cut off in a group header', FIRST + SECOND + S + OPEN[:6], FIRST + SECOND, 'No picture is left out.')
    case('cut off behind the prefix of a start code', FIRST + SECOND + b'\0\0\1', UP_TO_P)


def heads():
    heading('mend: heads')
    opened = S + SEAM + I_P
    case('one sequence header and a fault in the first group', BROKEN + P_STEP + BARE + BARE, opened + BARE,
         'It is copied.')
    case('one sequence header and a fault in the middle group', FIRST + less(OPEN + i(2)) + LEAD + P_5 + BARE,
         FIRST + opened)
    case('the last sequence header counts', S + CLOSED + i(0) + ASPECT + OPEN + less(i(2)) + LEAD + P_5 + BARE,
         S + CLOSED + i(0) + ASPECT + SEAM + I_P)
    case('a broken sequence header counts', S + CLOSED + i(0) + S[:12] + BARE + BARE + THIRD,
         S + CLOSED + i(0) + THIRD_SEAM)
    case('a display extension in a head, and user data behind it', S + DISPLAY + USER + CLOSED + less(i(0)) + BARE,
         S + DISPLAY + SEAM + I_P)
    long, longer = (S + extension(n - len(S)) for n in (4096, 4097))
    case('a head of 4,096 bytes', long + CLOSED + less(i(0)) + BARE, long + SEAM + I_P)
    case('a head of 4,097 bytes', longer + CLOSED + less(i(0)) + BARE, ('MissingMacroblocks', 8 * (4097 + 34)))
    case('user data of 4,097 bytes behind a head', S + unit(0xB2) + 4093 * b'\xff' + CLOSED + less(i(0)) + BARE, opened)
    heading('mend: quant matrix extensions')
    loaded = S + CLOSED + less(i(0, MATRICES))
    case('matrices between a head and the group that needs it', loaded + BARE,
         ('MissingMacroblocks', 8 * (30 + 17 + 5 + 9)))
    case('matrices before a group with a sequence header of its own', loaded + SECOND, SECOND_SEAM)
    case('matrices in a leading B picture behind an end code', FIRST + END + S + OPEN + i(2) + b(0, MATRICES) + P_5 + THIRD,
         FIRST + THIRD_SEAM)
    heading('mend: sequence headers that do not agree')
    for name, header, data in (('frame rate code', RATE, i(0)), ('frame rate extension', RATE_N, i(0)),
                               ('low_delay', LOW, i(0)), ('scan', FIELDS, field_frame())):
        case('another %s behind an end code' % name, FIRST + END + header + CLOSED + data, FIRST)
    case('another frame rate code without an end code', FIRST + RATE + CLOSED + i(0), FIRST + RATE + CLOSED + i(0),
         'In a strand it is no fault.')
    case('another aspect behind an end code', FIRST + END + ASPECT + CLOSED + i(0), FIRST + ASPECT + CLOSED_SEAM + i(0))


def seams():
    heading('mend: seams')
    case('a closed group behind a gap', BROKEN + FIRST, FIRST_SEAM, 'closed_gop becomes 0 and broken_link 1.')
    case('leading B pictures of a closed group behind a gap', BROKEN + S + CLOSED + i(1) + b(0, backward=True) + p(2),
         S + CLOSED_SEAM + i(0) + p(1), 'They refer to the I picture alone, and are left out all the same.')
    case('temporal references from 1022 on', BROKEN + S + OPEN + i(1022) + p(1) + b(1023) + b(0) + p(1021),
         S + SEAM + i(0) + p(3) + b(1) + b(2) + p(1023))
    case('temporal references without group headers', BROKEN + S + i(5) + p(8) + b(6) + S + i(10) + b(9) + p(11),
         S + i(0) + p(3) + b(1) + S + i(5) + b(4) + p(6), 'They are lowered to the end of the strand.')
    case('temporal references behind a group header', BROKEN + S + i(5) + p(6) + OPEN + i(1) + b(0),
         S + i(0) + p(1) + OPEN + i(1) + b(0), 'There they are not lowered.')
    case('temporal references behind two seams', BROKEN + S + OPEN + i(5) + p(6) + END + S + LATER + i(2) + p(3),
         S + SEAM + i(0) + p(1) + S + LATER_SEAM + i(0) + p(1), 'They are lowered by 5, and by 2.')
    case('a B picture with a sequence header behind the first frame of a strand',
         BROKEN + S + OPEN + i(0) + S + b(1) + p(2) + SECOND,
         S + SEAM + i(0) + SECOND_SEAM, 'It has no second anchor before it, so it is left out, and the strand ends.')
    case('an I picture inside a group behind a gap', S + CLOSED + i(0) + less(p(1)) + i(2) + p(3) + SECOND,
         S + CLOSED + i(0) + SECOND_SEAM, 'No strand begins with it, since no header stands before it.')
    case('low_delay and a fault in a P picture',
         LOW + CLOSED + i(0) + p(1) + less(p(2)) + p(3) + LOW + CLOSED + i(0) + p(1),
         LOW + CLOSED + i(0) + p(1) + LOW + CLOSED_SEAM + i(0) + p(1))
    heading('mend: fields')
    top, bottom = field(I, TOP), field(I, BOTTOM)
    two, after = top + bottom, field(P, TOP, 1) + field(P, BOTTOM, 1)
    lead = field(B, TOP) + field(B, BOTTOM)
    begun = FIELDS + CLOSED + two
    case('two I fields, P fields and B fields', begun + after + lead + END, begun + after + lead)
    begun_by_p = FIELDS + CLOSED + top + field(P, BOTTOM)
    case('an I and a P field', begun_by_p + after + END, begun_by_p + after)
    case('an I and a P field behind an end code', begun_by_p + END + begun_by_p + after, begun_by_p,
         'No strand begins with them, but for the opening one.')
    case('leading B fields behind an end code',
         begun + END + FIELDS + OPEN + field(I, TOP, 1) + field(I, BOTTOM, 1) + lead + field(P, TOP, 2)
         + field(P, BOTTOM, 2), begun + FIELDS + SEAM + two + after)
    case('a second I field missing', FIELDS + CLOSED + top + begun + after, FIELDS + CLOSED_SEAM + two + after)
    case('a first I field missing', FIELDS + CLOSED + bottom + after + begun + after, ('MissingReference', 630),
         'The top P field is the second one of its frame, and refers to the field that is missing, at bit 6 behind its '
         'start code at byte 74. The bottom one waits for a top field: steps take the next I field for it, so a step '
         'begins with the second I field, and none with both.')
    case('a second P field missing', begun + field(P, TOP, 1) + lead + FIELDS + OPEN + two, begun + FIELDS + SEAM + two)


def limits():
    heading('mend: large pieces. The numbers of bytes are those of pieces as they are read')
    group = S + CLOSED + i(0)
    large, larger = (filled(group, n) for n in (MOST_PIECE, MOST_PIECE + 1))
    case('a piece as large as it may be', large + END, large)
    case('a piece one byte larger', larger + END, ('Unsupported', 0))
    case('a piece one byte larger behind others', FIRST + SECOND + larger + THIRD, FIRST + SECOND + THIRD_SEAM,
         'Of what the definitions keep a prefix is put out.')
    case('a piece as large as it may be that needs a head', BROKEN + filled(OPEN + i(0), MOST_PIECE) + OPEN + i(0) + p(1),
         S + SEAM + i(0) + p(1), 'With the head it would be larger: it is left out.')
    room = MOST_PIECE - len(group)
    case('bytes before a stream, as many as there may be', room * b'\xff' + FIRST, FIRST)
    case('bytes before a stream, one more', (room + 1) * b'\xff' + FIRST, FIRST, 'The first piece is read with them.')
    case('bytes between streams, one more than there may be', FIRST + END + (room + 1) * b'\xff' + FIRST,
         FIRST + FIRST_SEAM)


def endpoints():
    heading('mend: endpoints that fail')
    some, kept = lost('second', 1), FIRST + SECOND_SEAM + THIRD
    for endpoint in ('input', 'output', 'report'):
        more, name = ['each ' + endpoint], 'each call of the %s fails in turn' % endpoint
        case(name, FILM + END, FILM, more=more)
        case(name + ', where some is left out', some, kept, more=more)
    case('each call of the report fails in turn, where nothing is kept', BROKEN, ('MissingMacroblocks', 8 * 56),
         more=['each report'])
    zeros = FIRST + bytes(9000) + SECOND
    case('each call of the output fails in turn, on zero bytes', zeros, zeros, more=['each output'])
    case('each call of the input fails in turn, on no byte', b'', ('NoSequence', 0), more=['each input'])
    case('the report fails where some is left out', some, kept, more=['fail report 1'], instead=(18, ''),
         comment='All of the output stands by then, and the status says what is missing, as of a report of audit.')
    for line in ('mend 1', 'mend --top'):
        usage(line)


def usage(line):
    add('words: ' + line, '', ['words ' + line, 'status 2', 'report usage'])


def lists():
    for title, of_cases in SECTIONS:
        heading('mend: ' + title)
        for of_case in of_cases:
            listed(**of_case)
    heading('mend: lists that do not open, and words')
    stream = ['input = mend_first = mend_end = mend_second']
    for name, inputs, more in (
            ('the list does not open', stream, []), ('the list does not open, before no byte', [], []),
            ('the list does not open, before an input and an output that fail', stream, ['fail input 1', 'fail output 1'])):
        add(WITH_LIST + name, '',
            ['words ' + LISTED, *inputs, 'fail recon 1', *more, 'status 8', 'report write fault'])
    add(WITH_LIST + 'the input fails at its first call', 'The list is open by then.',
        ['words ' + LISTED, *stream, 'fail input 1', 'status 7', 'report read fault', 'recon_name gaps'])
    for line in ('mend --list', 'mend --list gaps --list gaps', 'mend --list gaps more', 'mend gaps --list gaps',
                 'mend --list --', 'mend --lis gaps', 'mend -l gaps', 'mend --recon gaps', 'decode --list gaps'):
        usage(line)


def printed():
    yield '# ***** what follows is what bench/cases/mend_cases.py prints'
    yield from ('', '# ---- mend: headers, pictures and groups')
    for part, name in NAMED.items():
        yield from ('', 'stream ' + name, *lines_of('bytes', stream_words(part)))
    yield from ('', 'stream mend_gaps', *row_lines('bytes', [row_of(*gap) for gap in SHARED]))
    for name, comment, lines in CASES:
        yield ''
        yield from comment_lines(comment if name else '---- ' + comment) if comment else ()
        yield from ['case ' + name, *lines] if name else ()


def self_test():
    for name, data in KEPT:
        assert first_fault(data) is None, (name, first_fault(data))
        made, status, line, gaps = mend(data)
        assert (made, status, gaps) == (data, 0, []), (name, line)
        if len(data) < MANY:
            shown = decoded(data).frames
            assert len(shown) == frames_in(data[:-4]) and all(set(shot) == {128} for shot in shown), name
    return len(KEPT)


def main():
    for more in (nothing, whole, joined, damaged, heads, seams, limits, endpoints, lists):
        more()
    if sys.argv[1:] == ['--self-test']:
        print('%d mended streams, without a fault and mended already' % self_test())
        return
    print('\n'.join(printed()))


if __name__ == '__main__':
    main()
