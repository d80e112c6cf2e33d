#!/usr/bin/env python3
"""Prints the cases of `cut`: streams of units that were put together here, and what a cut of them is by the rules alone.

Groups are numbered by their headers; a cut goes from the last sequence header before the first group up to the piece
that holds the header of the group behind the last one, up to the end code or up to the end; an end code follows it. It
shares nothing with the program. No picture is decoded, so any bytes may stand in a slice."""

import re

PICTURE, SEQUENCE, EXTENSION, END, GROUP = 0x00, 0xB3, 0xB5, 0xB7, 0xB8
LIMIT = 2097152


def unit(value, data=b''):
    return bytes((0, 0, 1, value)) + data


def bits(*fields):
    number = size = 0
    for value, width in fields:
        number, size = number << width | value, size + width
    fill = -size % 8
    return (number << fill).to_bytes((size + fill) // 8, 'big')


def sequence(mark=1):
    header = bits((16, 12), (32, 12), (mark, 4), (3, 4), (250, 18), (1, 1), (1, 10), (0, 3))
    extension = bits((1, 4), (0x48, 8), (0, 1), (1, 2), (0, 4), (0, 12), (1, 1), (0, 8), (0, 1), (0, 7))
    return unit(SEQUENCE, header) + unit(EXTENSION, extension)


def group(number=0, closed=0, broken=0):
    return unit(GROUP, bits((0, 12), (1, 1), (0, 6), (number, 6), (closed, 1), (broken, 1)))


def picture(kind, structure=3, temporal=0, slices=b'\x43\x94\xA5\x22\x20', behind=b''):
    header = [(temporal, 10), (kind, 3), (0xFFFF, 16)]
    header += [(7, 4)] if kind > 1 else []
    header += [(7, 4)] if kind > 2 else []
    extension = [(8, 4), (0xFFFF, 16), (0, 2), (structure, 2), (0, 10), (0, 1)]
    return unit(PICTURE, bits(*header, (0, 1))) + behind + unit(EXTENSION, bits(*extension)) + unit(1, slices)


def parts(text):
    """The place and the bytes of each unit from the first sequence header to the end code, which is told apart."""
    starts, at = [], 0
    while True:
        at = text.find(b'\0\0\1', at)
        if at < 0 or at + 3 >= len(text):
            break
        starts.append(at)
        at += 4
    units = [(a, text[a:b]) for a, b in zip(starts, starts[1:] + [len(text)])]
    while units and units[0][1][3] != SEQUENCE:
        del units[0]
    for n, (_, u) in enumerate(units):
        if u[3] == END:
            return units[:n], True
    return units, False


def number(u, skip, width):
    body = u[4:]
    if 8 * len(body) < skip + width:
        return None
    return int.from_bytes(body, 'big') >> (8 * len(body) - skip - width) & (1 << width) - 1


def pieces(units):
    """For each unit the number of its piece."""
    piece, pictured, numbers = 0, False, []
    for _, u in units:
        if pictured and u[3] in (PICTURE, SEQUENCE, GROUP):
            piece, pictured = piece + 1, False
        pictured = pictured or u[3] == PICTURE
        numbers.append(piece)
    return numbers


def stands_alone(units, at, to):
    before = [u[3] for _, u in units[:at]]
    last = max([n for n, v in enumerate(before) if v == PICTURE], default=-1)
    if SEQUENCE not in before[last + 1:] or len(units[at][1]) < 8:
        return False
    seen = []
    for n in range(at + 1, to):
        if units[n][1][3] == PICTURE:
            behind = units[n + 1][1] if n + 1 < len(units) else b'\0\0\0\0'
            if number(units[n][1], 10, 3) != 1 or behind[3] != EXTENSION or number(behind, 0, 4) != 8:
                break
            seen.append(number(behind, 22, 2))
            if seen[0] == 3 or len(seen) == 2:
                break
    return seen == [3] or sorted(seen) == [1, 2]


def cut(text, start, count):
    """The status, the line and the output."""
    if count == 0:
        return 3, 'unfit rule 9 have 0 need 1', b''
    units, _ = parts(text)
    groups = [n for n, (_, u) in enumerate(units) if u[3] == GROUP]
    numbers = pieces(units)
    if len(groups) <= start:
        return 16, 'no group have %d need %d' % (len(groups), start + 1), b''
    at = groups[start]
    to = groups[start + 1] if start + 1 < len(groups) else len(units)
    if not stands_alone(units, at, to):
        return 17, 'not cuttable at bit %d' % (8 * units[at][0]), b''
    end = len(units)
    if start + count < len(groups):
        end = numbers.index(numbers[groups[start + count]])
    first = max(n for n in range(at) if units[n][1][3] == SEQUENCE)
    out = b''
    for n in range(first, end):
        u = units[n][1]
        if n == at and any(v[3] == PICTURE for _, v in units[:at]):
            u = u[:7] + bytes((u[7] & 0x9F | 0x20,)) + u[8:]
        out += u
    out += unit(END)
    return 0, 'groups %d bytes %d' % (min(count, len(groups) - start), len(out)), out


def spelled(data):
    words, n = [], 0
    for run in re.finditer(rb'(.)\1*', data, re.S):
        size, byte = len(run.group()), run.group()[0]
        words += ['%d*%02X' % (size, byte)] if size > 8 else ['%02X' % byte] * size
    return words


def lines(key, data):
    words = spelled(data)
    for n in range(0, len(words), 30):
        print(key, ' '.join(words[n:n + 30]))


def case(name, text, start, count, more=(), comment='', stands=None):
    status, report, out = cut(text, start, count)
    print()
    if comment:
        print('# ' + comment)
    print('case cut: ' + name)
    print('words cut %d %d' % (start, count))
    lines('input', text)
    for line in more:
        print(line)
    if stands is not None:
        status, report, out = stands
    if status:
        print('status %d' % status)
    if report:
        print('report ' + report)
    if out:
        lines('output', out)


I, P, B = 1, 2, 3
TWO = bytes.fromhex(
    '000001B30100102300192008000001B5148A00010000000001B800080040000001000' '00B51A8000001B58FFFF34180000001014394A52220'
    '000001B30100102300192008000001B5148A00010000000001B8000800C0000001000' '00BA2A8000001B58FFFF34180000001011394A52220'
    '000001B7')


def worked():
    for name, start, count in (('the second of two groups', 1, 1), ('the first one', 0, 1), ('both', 0, 2),
                               ('more than there are', 0, 9), ('one behind the last', 2, 1), ('of none', 0, 0)):
        case(name, TWO, start, count)
    bare = TWO[:56] + TWO[78:]
    case('without the headers before the second group', bare, 1, 1, comment='The header stands at byte 56.')
    case('the first group of these', bare, 0, 1)
    case('the largest numbers', TWO, 4294967295, 4294967295)


def headers():
    head = sequence() + group(0, closed=1) + picture(I)
    twice = sequence(2) + group(1) + group(2) + picture(I) + picture(P)
    stream = head + twice + sequence(3) + group(3) + picture(I) + unit(END)
    for start in range(4):
        case('group %d of four, of which two begin in one piece' % start, stream, start, 1)
    case('up to the piece with two group headers', stream, 0, 2, comment='The group behind stands in the piece too.')
    case('past the piece with two group headers', stream, 0, 3)
    case('a group header behind the last picture', head + sequence() + group(1) + unit(END), 0, 2)
    case('a last group without a picture', head + sequence() + group(1) + unit(END), 1, 1)
    case('a group header of 26 bits', head + sequence() + unit(GROUP, b'\0\x08\0') + picture(I), 1, 1)
    case('a group header of 32 bits, the last ones set', head + sequence() + unit(GROUP, b'\0\x08\0\xFF') + picture(I), 1, 1)
    case('user data and an extension among the headers',
         head + sequence() + unit(0xB2, b'ab') + group(1) + unit(0xB2, b'cd') + picture(I) + unit(END), 1, 1)
    case('a sequence header between two pictures of a group',
         head + sequence() + group(1) + picture(I) + sequence(4) + picture(P) + sequence() + group(2) + picture(I), 1, 1)
    case('two sequence headers before a group', head + sequence(2) + sequence(3) + group(1) + picture(I), 1, 1)
    case('a sequence header before the picture before a group',
         sequence() + group() + picture(I) + sequence() + picture(I) + group(1) + picture(I), 1, 1)


def frames():
    head = sequence() + group(0, closed=1) + picture(I)
    behind = sequence() + group(2) + picture(I) + unit(END)

    def of(name, *pictures):
        case(name, head + sequence() + group(1, closed=1) + b''.join(pictures) + behind, 1, 1)
    of('a group that begins with two I fields', picture(I, 1), picture(I, 2), picture(P))
    of('the bottom field first', picture(I, 2), picture(I, 1))
    of('two top fields', picture(I, 1), picture(I, 1))
    of('an I field and a P field', picture(I, 1), picture(P, 2))
    of('an I field alone', picture(I, 1))
    of('an I field and a frame', picture(I, 1), picture(I, 3))
    of('a P frame', picture(P), picture(I))
    of('two P fields', picture(P, 1), picture(P, 2))
    of('a structure of 0', picture(I, 0), picture(I, 1))
    of('a picture without its extension', unit(PICTURE, bits((0, 10), (1, 3), (0, 17))) + unit(1, b'\x43'))
    of('user data before the extension', picture(I, behind=unit(0xB2, b'a')))
    of('a picture header of 12 bits', unit(PICTURE, b'\0') + picture(I)[8:])
    of('an open group with B frames', picture(I, temporal=2), picture(B, temporal=0), picture(B, temporal=1), picture(P, temporal=3))
    case('the last I field of a stream', head + sequence() + group(1) + picture(I, 1), 1, 1)


def ends():
    head = sequence() + group(0, closed=1) + picture(I) + bytes(70)
    tail = sequence() + group(1, closed=1) + picture(I) + bytes(5000)
    case('zero bytes behind pictures', head + tail, 0, 1)
    case('zero bytes behind the last picture', head + tail, 1, 1)
    case('zero bytes between', head + tail + unit(END), 0, 2)
    case('bytes behind the end code', head + tail + unit(END) + head, 1, 2)
    case('bytes before the first sequence header', b'\xFF' + unit(END) + unit(GROUP, bytes(4)) + head + tail, 0, 1)
    case('a start code without a value at the end', head + tail + b'\0\0\1', 1, 1)
    case('no sequence header', picture(I), 0, 1)
    case('nothing', b'', 0, 1)
    case('no group', sequence() + picture(I) + unit(END), 0, 1)
    large = picture(I, slices=b'\x43' + b'\x55' * LIMIT)
    case('a large piece before the group', sequence() + group() + large + tail, 1, 1, stands=(14, 'picture too large', b''))
    case('a large piece where the group is not there', head + tail + large, 2, 1, stands=(14, 'picture too large', b''))
    case('a large piece behind the cut', head + tail + large, 0, 1, comment='It is not read.')
    first = sequence() + group() + picture(I)
    case('a large piece in the cut', first + large, 0, 1, stands=(14, 'picture too large', first))
    case('a large piece behind an I field', sequence() + group() + picture(I, 1) + large, 0, 1, stands=(14, 'picture too large', b''))
    case('a large piece behind a P frame', sequence() + group() + picture(P) + large, 0, 1)


def endpoints():
    for endpoint in ('input', 'output', 'report'):
        case('each call of the %s fails in turn' % endpoint, TWO, 1, 1, more=['each ' + endpoint])
    case('each call of the output fails in turn, on zero bytes', sequence() + group() + picture(I) + bytes(9000), 0, 1,
         more=['each output'])
    case('each call of the input fails in turn, where there is no group', TWO, 5, 1, more=['each input'])


def words():
    for line in ('cut', 'cut 1', 'cut x 1', 'cut 1 x', 'cut 1 1 1', 'cut 4294967296 1', 'cut 0 4294967296', 'cut 0 1 --top'):
        print()
        print('case words: ' + line)
        print('words ' + line)
        print('status 2')
        print('report usage')


if __name__ == '__main__':
    print('# ***** what follows is what bench/cases/cut.py prints')
    for add in (worked, headers, frames, ends, endpoints, words):
        add()
