"""The cases of the rules of `audit` that run along a sequence: the order of headers, the rate at which bits arrive, delays, time
codes, the parity of fields, and the end. For each a stream that breaks it alone, and one at its bound."""

from audited_rules import changed, still, woven
from audited_streams import case, each, section
from pictures_writer import B, BOTTOM, END, I, P, TOP, group, sequence
from verdicts import Parser
from verdicts_cases import WOVEN, interlaced, one, pair, small, timed, with_delay


def of_order():
    section('rules on the order of headers')
    header = small()
    for name, headers in (('one sequence header and one group header', (header, group(1))),
                          ('two sequence headers', (header, header, group(1))),
                          ('three sequence headers', (header, header, header, group(1))),
                          ('a sequence header behind a group header', (header, group(1), header)),
                          ('two group headers', (header, group(1), group(1))),
                          ('a group header behind both', (header, group(1), header, group(1)))):
        case('rule 22: ' + name, still(*headers))
    first = timed(header + group(1) + one(I) + one(P, 1), 20000)
    case('rule 22: each before each group', first + still()[:-4] + group(0) + one(I, 0) + END)
    for name, headers in (('a sequence header', header), ('a group header', group(1)), ('both', header + group(1)),
                          ('two group headers', group(1) + group(1))):
        case('rule 22: %s behind the last picture' % name, first + headers + END)
    case('rule 22: a sequence without a picture', header + END, comment='Its header stands without a picture.')
    whole = timed(header + group(1) + group(1) + one(I) + one(P, 5), 20000)
    each('rule 22: a group header too much, and then a fault', whole + END[:3] + b'\xb0', fault=('Forbidden', 8 * len(whole)),
         comment='What is told at the end of a sequence is not told behind a fault.')
    for name, last in (('a B picture', one(B, 1)), ('a P picture', one(P, 3))):
        case('rule 23: the first picture behind a sequence header is ' + name, timed(
            header + group(1) + one(I) + one(P, 2) + header + last + END, 20000))
    case('rule 23: a B picture behind a group header alone', timed(
        header + group(1) + one(I) + one(P, 1) + group(0) + one(B, 0) + one(I, 1) + END, 20000))


def last_allowed(data):
    """The greatest vbv_delay of picture 1 with which its bits arrive no faster than the rate is: of two frames at 25 Hz, 28,800
    units apart, at 40,000 bit/s, which are 100 units of 1/1800 bit in 1/720,000 s."""
    first, second = Parser(data).coded
    have = 1800 * (second.code_end - first.code_end)
    return max(t for t in range(65535) if have < 100 * (28800 + 8 * first.delay + 16 - 8 * t))


def of_arrivals():
    section('the rate at which bits arrive, and delays')
    data = still()
    most = last_allowed(data)
    for name, delay in (('the last delay that the rate allows', most), ('the next one', most + 1), ('a delay of 65534', 65534)):
        case('rule 29: ' + name, with_delay(data, 1, delay))
    case('rule 29: two delays of 65534', with_delay(with_delay(data, 0, 65534), 1, 65534))
    case('rule 29: a delay of 65535 implies no rate', with_delay(data, 1, 65535))
    case('rule 29: at twice the rate', with_delay(still(rate=200), 1, most + 1))
    exact = Parser(data).coded[1].delay
    for by in (-2, -1, 0, 1, 2):
        case('warning 54: a delay of %+d ticks' % by, with_delay(data, 1, exact + by))
    case('warning 54: the first delay says when the account begins', with_delay(data, 0, 19000))
    each('warning 54: behind a failure', with_delay(timed(small() + group(1) + one(I) + one(P, 1) + END, 300), 1, 5))


def times(*codes, rate=3, rows=1, **more):
    """A group of an I and a P picture for each time code: hours, minutes, seconds, pictures."""
    head = small(code=rate, level=72 if rate < 6 else 70, **more)
    return timed(head + b''.join(group(1, *code) + one(I) + one(P, 1) for code in codes) + END, 20000)


def dropped(data, *which):
    for number in which:
        data = changed(data, 'group', number, drop=1)
    return data


def of_times():
    section('warnings on time codes')
    for rate, most in ((1, 23), (2, 23), (3, 24), (4, 29), (5, 29), (6, 49), (7, 59), (8, 59)):
        case('warning 55: picture %d at frame rate code %d' % (most, rate), times((0, 0, 0, most), rate=rate))
        case('warning 55: picture %d at frame rate code %d' % (most + 1, rate), times((0, 0, 0, most + 1), rate=rate))
    for name, second in (('as it ends', (0, 0, 0, 2)), ('a picture early', (0, 0, 0, 1)), ('a picture late', (0, 0, 0, 3)),
                         ('two pictures early', (0, 0, 0, 0)), ('two pictures late', (0, 0, 0, 4)), ('a second late', (0, 0, 1, 2)),
                         ('a minute late', (0, 1, 0, 2)), ('an hour late', (1, 0, 0, 2))):
        case('warning 55: a group begins ' + name, times((0, 0, 0, 0), second))
    case('warning 55: over midnight', times((23, 59, 59, 24), (0, 0, 0, 1)))
    case('warning 55: back in time', times((10, 0, 0, 0), (9, 59, 59, 24)))
    case('warning 55: in each of three groups', times((0, 0, 0, 0), (0, 0, 5, 0), (0, 0, 5, 2)))
    for name, second, drops in (('with the numbers passed over', (0, 1, 0, 3), (0, 1)), ('without', (0, 1, 0, 1), ()),
                                ('as if they were counted', (0, 1, 0, 1), (0, 1)), ('at a tenth minute', (0, 10, 0, 1), (0, 1))):
        minute = (0, second[1] - 1, 59, 29)
        case('warning 55: a minute begins at 29.97 Hz, ' + name, dropped(times(minute, second, rate=4), *drops))
    pulled = interlaced(code=4) + group(1) + one(I, repeat=1, rows=2, top_first=1) + one(P, 1, rows=2) + group(
        1, 0, 0, 0, 2) + one(I, rows=2) + END
    case('warning 55: five fields are two pictures or three', timed(pulled, 20000))
    case('warning 55: so three', changed(timed(pulled, 20000), 'group', 1, pictures=3))
    case('warning 55: and four', changed(timed(pulled, 20000), 'group', 1, pictures=4))


def of_parity():
    section('the warning on the parity of fields')
    top, bottom = dict(rows=2, top_first=1), dict(rows=2, top_first=0)
    for name, frames in (('two top fields first', (top, top)), ('two bottom fields first', (bottom, bottom)),
                         ('a top and then a bottom field first', (top, bottom)),
                         ('the other way', (bottom, top)),
                         ('a repeated field turns them', ({**top, 'repeat': 1}, bottom)),
                         ('a repeated field, and not turned', ({**top, 'repeat': 1}, top)),
                         ('two repeated fields', ({**top, 'repeat': 1}, {**bottom, 'repeat': 1}, top))):
        case('warning 58: ' + name, woven(one(I, **frames[0]), *[one(P, n, **f) for n, f in enumerate(frames[1:], 1)]))
    shown = (one(I, **top), one(P, 3, **bottom), one(B, 1, **top), one(B, 2, **{**top, 'repeat': 1}))
    case('warning 58: in display order', woven(*shown))
    case('warning 58: in the order of decoding it would be another', woven(*shown[:3], one(B, 2, **top)))
    pair_of = b''.join(one(P, 1, structure=s, **WOVEN) for s in (BOTTOM, TOP))
    case('warning 58: two fields, the bottom one first, behind two with the top one first', woven(pair(I), pair_of))
    case('warning 58: two fields behind a frame', woven(one(I, **top), pair(P, 1)))
    case('warning 58: at low delay', woven(one(I, **top), one(P, 1, **bottom), low_delay=1))
    case('warning 58: not in a progressive sequence', timed(small() + group(1) + one(I, top_first=1, repeat=1) + one(P, 1) + END, 20000))
    each('warning 58: of the last frame', woven(one(I, **top), one(P, 1, **bottom)), comment='It is told at the end of the sequence.')
    opened = interlaced() + group(0) + one(I, 1, **top) + one(B, 0, **bottom) + one(P, 2, **top) + END
    case('warning 58: a frame that is dropped is not shown', timed(opened, 20000))
    case('warning 58: over a group header', woven(one(I, **top), group(1) + one(I, **bottom)))


def of_ends():
    section('the warning on the end of a sequence')
    data = still()
    case('warning 53: with an end code', data)
    case('warning 53: without', data[:-4])
    case('warning 53: zero bytes', data[:-4] + bytes(5))
    case('warning 53: an end code and zero bytes', data + bytes(5))
    case('warning 53: of the second sequence', data + data[:-4])
    case('warning 53: a sequence without a picture', small())


def going_on():
    section('behind a fault the report goes on')
    good, broken = '= predicted', '= predicted byte 79 52'
    each('a sequence behind a fault', broken, good, fault=('VectorOutside', 630))
    each('a sequence behind a fault in the first piece', '= grey first 12', good, fault=('NotMpeg2', 96),
         comment='What broke in its first piece is no sequence: the next one has its number.')
    each('two faults', broken, broken, fault=('VectorOutside', 630), comment='The first one says how the report ends.')
    each('a fault, and bytes behind the end code', broken, 'FF FE FD', fault=('VectorOutside', 630))
    each('a fault, and then a limit', broken, '= grey put 39 00 00 01 B2 2097101*FF', fault=('VectorOutside', 630),
         comment='A limit ends the report, the fault before it says how.')
    wide = timed(small() + group(1) + one(I) + one(P, 1), 20000)
    other = timed(sequence(16, 32, aspect=2, rate=100, buffer=1) + group(1) + one(I, rows=2) + one(P, 1, rows=2) + END, 20000)
    each('another size without an end code between', wide + other, fault=('SequenceChanged', 8 * len(wide)),
         comment='The report goes on with the very header.')
    each('other sizes twice', wide + other[:-4] + wide + END, fault=('SequenceChanged', 8 * len(wide)))
    each('another size behind a group header', wide + group(1) + other, fault=('SequenceChanged', 8 * (len(wide) + 8)),
         comment='The header is not the first of its piece, so the piece is passed over.')
    alone = timed(interlaced() + group(1) + pair(I) + one(P, 3, structure=TOP, **WOVEN), 20000)
    each('a first field alone before a sequence header', alone + interlaced() + group(1) + pair(I) + END,
         fault=('FieldPair', 8 * len(alone)))
    lacking = timed(small() + group(1) + one(I) + one(P, 1), 20000)
    lacking = lacking[:lacking.rindex(b'\0\0\1')]
    each('a picture without its slice before a sequence header', lacking + still(), fault=('MissingMacroblocks', 8 * len(lacking)))
    each('the same, and each call failing in turn', lacking + still(), fault=('MissingMacroblocks', 8 * len(lacking)),
         more=['each report', 'each output', 'each input'])
    case('without a sequence header behind it', '= predicted byte 79 52', '= predicted from 30', fault=('VectorOutside', 630))
    case('in each of five sequences', *[broken] * 5, fault=('VectorOutside', 630))


for sections in (of_order, of_arrivals, of_times, of_parity, of_ends, going_on):
    sections()
