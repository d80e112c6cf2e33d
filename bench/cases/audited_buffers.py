"""The streams of the cases of `audit` on the decoder's buffer, which bench/cases/audited_cases.py prints. Behind `small`
and `interlaced` 1,600 bits come in the time of a frame at 25 frames a second, and the buffer takes 16,384."""

from audited_streams import case, each, section
from pictures_writer import B, END, I, P, group
from verdicts import Parser
from verdicts_cases import WOVEN, interlaced, one, pair, small, timed, with_delay

VARIABLE = 65535


def at(delay, data):
    """The stream with this first vbv_delay."""
    return with_delay(data, 0, delay)


def both(name, delay, data, comment=''):
    """A stream at constant rate, and at variable rate."""
    each(name, at(delay, data), comment=comment)
    each(name + ', at variable rate', at(VARIABLE, data))


def rates():
    section('the buffer: whether there is an account, and at which rate')
    picture = group(1) + one(I, delay=20000) + END
    for name, more in (('a rate of 0', dict(rate=0)), ('a buffer of 0', dict(buffer=0)),
                       ('a rate above the level', dict(rate=37501)), ('a buffer above the level', dict(buffer=113)),
                       ('a frame rate code of 0', dict(code=0)), ('a frame rate code of 9', dict(code=9, level=68)),
                       ('a frame rate that is multiplied', dict(n=1)), ('a frame rate that is divided', dict(d=1))):
        each('no account: ' + name, small(**more) + picture)
    each('an account: a frame rate above the level', small(code=6) + picture)
    each('an account: another level and another DC precision', small(level=73) + group(1)
         + one(I, precision=3, delay=20000) + END)
    each('no account in a later header', small() + group(1) + one(I, delay=20000) + small(rate=0, code=0) + one(P, 1)
         + END, comment='The first one counts.')
    two = small() + group(1) + one(I) + one(P, 1) + END
    each('a constant rate that varies in the second picture', with_delay(at(20000, two), 1, VARIABLE))
    each('a variable rate that is constant in the second picture', with_delay(two, 1, 20000))


def under():
    section('the buffer: a picture that is late')
    start = small() + group(1) + one(I)
    both('a picture larger than the buffer, and one behind it', 20000, start + bytes(3000) + one(P, 1) + END,
         comment='The decoder waits for it, and the next one is in time.')
    both('three late pictures in turn', 1000, small(rate=10) + group(1) + one(I) + bytes(2000) + one(P, 1) + bytes(2000)
         + one(P, 2) + bytes(2000) + one(P, 3) + END, comment='160 bits come in the time of a frame. A lack is not'
         ' carried on.')
    each('a wait that no whole number of units brings', at(300, small(rate=7) + group(1) + one(I) + one(P, 1) + END))
    each('a wait of more than 32 bits', at(1000, small(rate=1) + group(1) + one(I) + bytes(300000) + one(P, 1) + END))
    for zeros in (1992, 1993):
        each('one frame and %d zero bytes, at variable rate' % zeros, start + bytes(zeros),
             comment='' if zeros == 1993 else 'The picture has as many bits as the buffer takes.')
    each('the first of two fields is late', at(390, interlaced() + group(1) + pair(I) + one(P, 1, rows=2, **WOVEN) + END))
    low = small(low_delay=1) + group(1) + one(I)
    both('low delay: a big picture', 5000, low + bytes(600) + one(P, 1) + END, comment='It is waited for by two fields.')
    both('low delay: a big picture that the buffer does not take', 5000, low + one(P, 1) + bytes(2100) + one(P, 2) + END,
         comment='Behind the wait no more is held than it.')
    each('low delay: a picture that lacks what two fields bring', at(0, small(low_delay=1) + group(1) + one(I) + bytes(178)
                                                                   + one(P, 1) + END))
    each('low delay: a byte more', at(0, small(low_delay=1) + group(1) + one(I) + bytes(179) + one(P, 1) + END))


def over():
    section('the buffer: more than it takes')
    start = small() + group(1) + one(I)
    each('four pictures before which it is over', at(40000, start + one(P, 1) + one(P, 2) + one(P, 3) + bytes(2600) + END),
         comment='What found no room comes later.')
    each('over, and then under', at(40000, start + bytes(300) + one(P, 1) + bytes(2000) + one(P, 2) + END))
    each('under and over at one picture', at(40000, start + bytes(2500) + one(P, 1) + END),
         comment='It takes more than came, and more came than the buffer takes.')
    each('under and over at the last picture', at(40000, start + bytes(2244)))
    wide = small(rate=37500, buffer=112) + group(1)
    for between in (17602, 17601):
        data = with_delay(at(16448, wide + one(I) + bytes(between) + one(P, 1) + bytes(229352)), 1, 45057)
        each('15 Mbit/s with %d zero bytes between two frames and 229352 behind' % between, data)
        each('15 Mbit/s with %d zero bytes between two frames, at variable rate' % between, at(VARIABLE, data),
             comment='Bits come only while there is room.')
    each('a long delay, and less than the buffer takes in all', at(65534, small(level=68, rate=200000, buffer=597)
                                                                   + group(1) + one(I) + one(P, 1) + END))


def settled():
    section('the buffer: a removal is told once no more bits change it')
    four = small() + group(1) + one(I) + one(P, 1) + one(P, 2) + one(P, 3) + END
    pictures = Parser(four).coded
    ticks = 9 * (pictures[0].bits + pictures[1].bits - pictures[0].code_end) // 4
    for delay, comment in ((ticks, 'As much is held as the first two pictures have: told with the second one.'),
                           (ticks + 1, 'A little more: told with the third one.'), (1, 'Told with the second one.')):
        each('four pictures, the first with a delay of %d' % delay, at(delay, four), comment=comment)
    first, second = (p.bits // 8 for p in pictures[:2])
    for zeros, comment in ((2048 - first - second, 'The first two pictures fill the buffer.'),
                           (2047 - first - second, 'They are a byte short of it.')):
        each('four pictures and %d zero bytes, at variable rate' % zeros,
             small() + group(1) + one(I) + bytes(zeros) + one(P, 1) + one(P, 2) + one(P, 3) + END, comment=comment)
    each('breaches and removals in turn', at(500, small() + group(1) + one(I, 1) + one(P, 3) + one(B, 2) + one(B, 1)
                                             + group(1) + one(I, 1) + one(P, 1) + END))


def last():
    section('the buffer: delays, and what the last picture takes')
    exact = timed(small() + group(1) + one(I) + one(P, 1) + one(P, 2) + END, 20000)
    case('three exact delays', exact)
    case('a delay of a tick more, and one of 65535', with_delay(with_delay(exact, 1, 20001), 2, VARIABLE))
    case('delays behind a failure', with_delay(timed(small() + group(1) + one(I) + one(P, 1) + END, 100), 1, 3000))
    each('headers and zero bytes behind the last picture', '= predicted first 80', '7*00', '= predicted first 30',
         '00 00 01 B7', comment='They are taken with it, and its record has the bits of its piece.')
    each('user data and zero bytes behind the last slice', '= predicted first 80', '00 00 01 B2 41 42 00 00 00')


def shown():
    section('the buffer: times of frames that are shown longer')
    each('film at variable rate', '= film byte 35 0F FF F8')
    repeats = dict(repeat=1, rows=1)
    for name, first, delay in (('a progressive sequence', small(), VARIABLE),
                               ('a progressive sequence with low delay', small(low_delay=1), VARIABLE),
                               ('a progressive sequence at constant rate', small(), 20000)):
        each('frames shown once, twice and three times: ' + name, at(
            delay, first + group(1) + one(I, **repeats) + one(P, 1, top_first=1, **repeats) + one(P, 2)
            + one(P, 3, top_first=1, repeat=0) + one(P, 4) + END))
    start = interlaced(code=4) + group(1) + one(I, rows=2, repeat=1)
    each('two fields behind a frame that repeats one, at variable rate', at(
        VARIABLE, start + pair(P, 1) + one(P, 2, rows=2, **WOVEN) + END))
    each('a repeated field in each B picture, at variable rate', at(
        VARIABLE, start + one(P, 3, rows=2, repeat=1) + one(B, 1, rows=2, repeat=1) + pair(B, 2) + pair(P, 4) + END))


for add in (rates, under, over, settled, last, shown):
    add()
