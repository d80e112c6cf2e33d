"""The cases of the sets dvd, dvb and atsc of `audit`: for each rule a stream that breaks it, and one at its bound. Where no
picture is needed it is a sequence header and an end code; else it is of 16 columns, and its size is told too."""

from audited_streams import case, section
from pictures_writer import B, BOTTOM, END, I, P, TOP, group, sequence
from verdicts_cases import WOVEN, interlaced, one, pair, small, timed, with_delay


def under(rules, name, *parts, each='', **more):
    """A stream by a set of rules, with each picture told where `each` is an option."""
    case('%s, %s' % (rules, name), *parts, words='audit %s--for %s' % (each, rules), **more)


def header(width=720, height=576, **more):
    """A sequence header in fields, at 25 Hz, and an end code."""
    return sequence(width, height, **{'progressive': 0, 'aspect': 2, **more}) + END


def film(count, kinds=(I,), first=0):
    """So many frames that are shown for three fields: of these types, and then P."""
    kinds = (*kinds, *[P] * count)[:count]
    return b''.join(one(kind, first + n, rows=2, repeat=1) for n, kind in enumerate(kinds))


def frames(*kinds):
    """Frames of two fields of these types, each in its place: B frames stand before the anchor ahead of them."""
    places = [n for n, kind in enumerate(kinds) if kind == B]
    anchors = [n for n, kind in enumerate(kinds) if kind != B]
    order = sorted([(n, n) for n in places] + [(behind - 0.5, n) for n, behind in zip(anchors, [*anchors[1:], 99])])
    place = {n: at for at, (_, n) in enumerate(order)}
    return b''.join(one(kind, place[n], rows=2) for n, kind in enumerate(kinds))


def stream(*parts, **more):
    """A stream of 16 by 32 samples, in fields, at variable rate."""
    return interlaced(**more) + group(1) + b''.join(parts) + END


# ---- dvd

def dvd_sizes():
    section('dvd: rules on sequence headers')
    for name, code, sizes in (
            ('there', 3, ((720, 576), (704, 576), (352, 576), (352, 288))),
            ('there', 4, ((720, 480), (704, 480), (352, 480), (352, 240))),
            ('not there', 3, ((720, 480), (544, 576), (704, 288), (352, 240), (720, 572))),
            ('not there', 4, ((352, 576), (720, 576), (480, 480), (352, 288), (704, 240)))):
        for width, height in sizes:
            under('dvd', 'rule 60: %d by %d at frame rate code %d is %s' % (width, height, code, name),
                  header(width, height, code=code))
    for code in (0, 1, 2, 5, 6, 15):
        under('dvd', 'rule 61: frame rate code %d' % code, header(height=480, code=code))
    under('dvd', 'rules 60 and 61: 720 by 576 at frame rate code 2', header(code=2))
    for aspect in (0, 1, 3, 4, 15):
        under('dvd', 'rule 62: aspect_ratio_information %d' % aspect, header(aspect=aspect))
    for rate in (24500, 24501, 2 ** 18 + 100):
        under('dvd', 'rule 63: bit_rate %d' % rate, header(rate=rate))
    for level in (70, 68, 88, 73):
        under('dvd', 'rule 64: profile_and_level_indication %d' % level, header(level=level))


def dvd_warnings():
    section('dvd: warnings on sequence headers')
    for name, more in (('low_delay', dict(low_delay=1)), ('progressive_sequence', dict(progressive=1)),
                       ('both', dict(low_delay=1, progressive=1))):
        under('dvd', 'warning 68: ' + name, header(**more))
    for width, height, aspect in ((720, 576, 3), (704, 576, 3), (352, 576, 3), (352, 288, 3), (352, 288, 2), (352, 288, 4),
                                  (718, 576, 3)):
        under('dvd', 'warning 71: %d by %d at aspect_ratio_information %d' % (width, height, aspect),
              header(width, height, aspect=aspect))
    worst = dict(level=73, code=9, rate=37501, low_delay=1, progressive=1)
    for aspect in (3, 5):
        under('dvd', 'all rules on sequence headers, at aspect_ratio_information %d' % aspect,
              header(353, 574, aspect=aspect, **worst), comment='Behind those of main: 71, or 62.')


def dvd_sequences():
    section('dvd: a sequence beside the first one')
    for name, *others in (
            ('the same', {}), ('another width', dict(width=704)), ('another height', dict(height=288, width=352)),
            ('another frame rate code', dict(code=4)), ('another aspect_ratio_information', dict(aspect=3)),
            ('all of them', dict(width=352, height=480, code=4, aspect=1)),
            ('other elements', dict(rate=24500, buffer=100, low_delay=1)),
            ('a second one that differs, and a third one like the first', dict(width=704), {}),
            ('a second one like the first, and a third one that differs', {}, dict(aspect=3)),
            ('a third one like the second', dict(code=4), dict(code=4))):
        under('dvd', 'warning 70: ' + name, header(), *[header(**more) for more in others])
    under('dvd', 'warning 70: each header of the second sequence', header(),
          interlaced(aspect=2) + group(1) + one(I, rows=2) + interlaced(aspect=2) + one(P, 1, rows=2) + END)
    under('dvd', 'warning 70: a later header of the first sequence says another aspect_ratio_information',
          interlaced(aspect=2) + group(1) + one(I, rows=2) + interlaced(aspect=3) + one(P, 1, rows=2) + END,
          interlaced(aspect=3) + END, comment='Of that one rule 21 is told; of the second sequence 70, beside the first one.')
    begun = interlaced(aspect=2) + group(1) + one(I, rows=2)
    cut = begun + one(P, 1, rows=2)[:one(P, 1, rows=2).rindex(b'\0\0\1')]
    under('dvd', 'warning 70: behind a fault', cut, interlaced(aspect=3) + END, fault=('MissingMacroblocks', 8 * len(cut)))
    under('dvd', 'warning 70: where the size changes without an end code', begun, header(),
          fault=('SequenceChanged', 8 * len(begun)))
    short = header(704)[:20]
    under('dvd', 'warning 70: behind a first piece with a fault', short, header(aspect=3), header(),
          fault=('Truncated', 8 * len(short)), comment='It is no sequence: the one behind it is the first.')


def dvd_groups():
    section('dvd: group headers, and what a sequence begins with')
    start, whole = interlaced() + group(1) + one(I, rows=2), interlaced() + group(1)
    last = one(I, rows=2) + END
    for name, data in (
            ('a group header without a sequence header', start + group(1) + last),
            ('a group header behind one', start + whole + last),
            ('two group headers behind one', start + whole + group(1) + last),
            ('a sequence header behind the group header', start + group(1) + interlaced() + last),
            ('a sequence header before the last picture', start + interlaced() + one(P, 1, rows=2) + group(1) + last),
            ('a sequence header between two group headers', start + group(1) + whole + last),
            ('two sequence headers and two group headers in turn', start + whole + whole + last),
            ('a group header behind the last picture', start + group(1) + END),
            ('a sequence header and a group header behind it', start + whole + END),
            ('three group headers before the first picture', whole + group(1) + group(1) + last),
            ('a group header in a second sequence', start + END + start + group(1) + last)):
        under('dvd', 'warning 67: ' + name, data)
    first = interlaced() + one(I, rows=2) + one(P, 1, rows=2)
    for name, data in (
            ('no group header', first + END), ('a group header behind picture 0', first + whole + last),
            ('a dropped picture and no group header', interlaced() + one(B, 0, rows=2) + one(I, 1, rows=2) + END),
            ('a dropped picture behind a group header', interlaced() + group(0) + one(B, 0, rows=2) + one(I, 1, rows=2)
             + END),
            ('a dropped field, and the other one', interlaced() + pair(B) + pair(I, 1) + END),
            ('picture 1 is dropped', interlaced() + group(0) + one(I, 1, rows=2) + one(B, 0, rows=2) + END),
            ('in a second sequence', start + END + first + END),
            ('no picture and no group header', interlaced() + END)):
        under('dvd', 'warning 69: ' + name, data)


def dvd_fields():
    section('dvd: the fields since a group header')
    for code, counts in ((3, (10, 11)), (4, (12, 13)), (5, (10, 11))):
        for count in counts:
            under('dvd', 'rule 65: %d fields at frame rate code %d' % (3 * count, code), stream(film(count), code=code))
    whole = interlaced() + group(1)
    under('dvd', 'rule 65: the first of two fields passes the bound', stream(film(10), pair(P, 10)))
    under('dvd', 'rule 65: the second of two fields passes the bound', stream(film(9), pair(P, 9), pair(P, 10)))
    under('dvd', 'rule 65: once in each of two groups', stream(film(13), whole, film(12)))
    under('dvd', 'rule 65: a group header begins anew', stream(film(10), whole, film(10)))
    under('dvd', 'rule 65: without a sequence header it does too', stream(film(10), group(1), film(10)))
    under('dvd', 'rule 65: a sequence header does not', stream(film(10), interlaced(), film(1, (P,), 10)))
    under('dvd', 'rule 65: from the beginning to the first group header', interlaced() + film(11) + END)
    under('dvd', 'rule 65: before and behind the first group header', interlaced() + film(10) + whole + film(10) + END)
    under('dvd', 'rule 65: dropped pictures count', interlaced() + group(0) + one(I, 2, rows=2, repeat=1)
          + one(B, 0, rows=2) + one(B, 1, rows=2) + film(8, (P,), 3) + END, comment='Without them there are 27 fields.')
    thrice = [one(P if n else I, n, repeat=1, top_first=1) for n in range(6)]
    for count in (5, 6):
        under('dvd', 'rule 65: %d frames shown three times in a progressive sequence' % count,
              small(code=7, level=70) + group(1) + b''.join(thrice[:count]) + END)
    under('dvd', 'rule 65: the bound of 30 comes with a later sequence header', stream(
        film(11), interlaced(code=3), film(2, (P,), 11), code=4),
        comment='33 fields keep the bound of 36, and 36 do not keep that of 30.')
    under('dvd', 'rule 65: the bound of 36 comes with a later sequence header', stream(
        film(10), interlaced(code=4), film(3, (P,), 10)))
    under('dvd', 'rule 65: told before a later sequence header with another bound', stream(
        film(11), interlaced(code=4), film(2, (P,), 11)), comment='It is not told again.')
    under('dvd', 'rule 65: a second sequence begins anew', stream(film(10)), stream(film(10)))


def dvd_b_frames():
    section('dvd: B frames in a row')
    for name, kinds in (
            ('two', (I, P, B, B)), ('three', (I, P, B, B, B)), ('five', (I, P, B, B, B, B, B)),
            ('two, and two behind a P frame', (I, P, B, B, P, B, B)),
            ('two, and two behind an I frame', (I, P, B, B, I, B, B)),
            ('three, and three behind a P frame', (I, P, B, B, B, P, B, B, B))):
        under('dvd', 'warning 66: ' + name, stream(frames(*kinds)))
    fields = pair(I) + pair(P, 4)
    under('dvd', 'warning 66: three of two fields', stream(fields, pair(B, 1), pair(B, 2), pair(B, 3)),
          comment='At the second field of the third one.')
    under('dvd', 'warning 66: two of two fields', stream(pair(I), pair(P, 3), pair(B, 1), pair(B, 2)))
    under('dvd', 'warning 66: frames and fields', stream(fields, one(B, 1, rows=2), pair(B, 2), one(B, 3, rows=2)))
    under('dvd', 'warning 66: an I field and a P field begin anew', stream(
        pair(I), pair(P, 3), pair(B, 1), pair(B, 2), one(I, 6, structure=TOP, **WOVEN),
        one(P, 6, structure=BOTTOM, **WOVEN), pair(B, 4), pair(B, 5)))
    under('dvd', 'warning 66: a group header does not', stream(
        frames(I, P, B, B), interlaced(), group(1), one(B, 0, rows=2), one(I, 1, rows=2)))
    under('dvd', 'warning 66: dropped ones', interlaced() + group(0) + frames(I, B, B, B, P) + END,
          comment='Three B frames before a second anchor, of an open group.')
    for count in (2, 3):
        under('dvd', 'warning 66: %d dropped ones at the beginning' % count, interlaced() + b''.join(
            one(B, n, rows=2) for n in range(count)) + one(I, count, rows=2) + END)
    under('dvd', 'warning 66: a second sequence begins anew', stream(frames(I, P, B, B)),
          interlaced() + one(B, 0, rows=2) + one(I, 1, rows=2) + END)


# ---- dvb

def dvb():
    section('dvb: rules on sequence headers')
    for code in (0, 2, 4, 5, 6):
        under('dvb', 'rule 80: frame rate code %d at Main level' % code, header(352, 288, code=code))
    under('dvb', 'rule 80: frame rate code 4 at a level that is none', header(352, 288, code=4, level=73))
    for name, sizes in (('there', ((720, 576), (544, 576), (480, 576), (352, 576), (352, 288))),
                        ('not there', ((720, 480), (720, 288), (640, 576), (352, 240), (704, 480), (704, 572)))):
        for width, height in sizes:
            under('dvb', 'rule 81: %d by %d is %s' % (width, height, name), header(width, height))
    under('dvb', 'rule 81: 720 by 480 at a level that is none', header(720, 480, level=73))
    for level in (70, 68):
        under('dvb', 'rule 81: 720 by 480 at level %d' % level, header(720, 480, level=level))
        under('dvb', 'warning 85: 704 by 576 at level %d' % level, header(704, level=level))
    under('dvb', 'warning 85: 704 by 576', header(704))
    under('dvb', 'warning 85: 704 by 576 at a level that is none', header(704, level=73))
    for aspect in (0, 1, 3, 4, 5, 15):
        under('dvb', 'rule 82: aspect_ratio_information %d' % aspect, header(aspect=aspect))
    for level in (68, 70, 88):
        under('dvb', 'warning 83: profile_and_level_indication %d' % level, header(level=level))
    for level, codes in ((68, (2, 3, 4, 5, 6, 7, 8)), (70, (4, 6))):
        for code in codes:
            under('dvb', 'warning 84: frame rate code %d at level %d' % (code, level),
                  header(1280, 720, level=level, code=code, progressive=1, aspect=3))
    under('dvb', 'rules 80 to 82, and 83', header(353, 574, level=73, aspect=1, code=9), comment='Behind those of main.')
    under('dvb', 'rules 80 and 82, and 83 and 85', header(704, level=73, aspect=5, code=5))
    under('dvb', 'warnings 83 and 84', header(1440, 1080, level=70, code=5, aspect=4),
          comment='By number. Warning 50, which main has here, is not told.')


# ---- atsc

ATSC = {(1920, 1080): dict(level=68, aspect=3), (1280, 720): dict(level=68, aspect=3, progressive=1), (704, 480): {},
        (640, 480): {}}


def atsc_header(width=704, height=480, **more):
    """A header of one of the sizes of atsc, at 29.97 Hz."""
    return header(width, height, **{'code': 4, **ATSC[width, height], **more})


def atsc_sizes():
    section('atsc: sizes and aspect ratios')
    for width, height in ATSC:
        under('atsc', 'rule 90: %d by %d is there' % (width, height), atsc_header(width, height))
    for width, height in ((1440, 1080), (1280, 1080), (1920, 720), (1280, 1088), (720, 480), (528, 480), (640, 360),
                          (704, 576), (1920, 1088)):
        under('atsc', 'rule 90: %d by %d is not there' % (width, height),
              header(width, height, code=4, level=68, progressive=int(height == 720)))
    for (width, height), aspects in (((1920, 1080), (0, 1, 2, 4)), ((1280, 720), (0, 1, 2, 5)), ((704, 480), (0, 1, 3, 4)),
                                     ((640, 480), (0, 1, 3, 4))):
        for aspect in aspects:
            under('atsc', 'rule 91: aspect_ratio_information %d at %d by %d' % (aspect, width, height),
                  atsc_header(width, height, aspect=aspect))
    for aspect in (1, 5):
        under('atsc', 'rule 91: aspect_ratio_information %d at another size' % aspect,
              header(720, 480, code=4, aspect=aspect), comment='Rule 91 is not told there.')


def atsc_rates():
    section('atsc: frame rates, rates and buffers')
    for size, progressive, codes in (((704, 480), 0, range(10)), ((704, 480), 1, range(10)), ((1280, 720), 1, (3, 6, 8)),
                                     ((1280, 720), 0, (3, 4, 8)), ((1920, 1080), 0, (1, 5, 7)),
                                     ((1920, 1080), 1, range(10))):
        for code in codes:
            under('atsc', 'rule 92: frame rate code %d at %d by %d, %s' % (
                code, *size, 'progressive' if progressive else 'interlaced'),
                atsc_header(*size, level=68, code=code, progressive=progressive))
    for height in (1079, 1080, 1084):
        under('atsc', 'rule 92: frame rate code 7 at 720 by %d, progressive' % height,
              header(720, height, level=68, code=7, progressive=1))
    under('atsc', 'rule 92: 704 by 720, interlaced', header(704, 720, level=68, code=4))
    for rate in (48500, 48501, 2 ** 18 + 100):
        under('atsc', 'rule 93: bit_rate %d' % rate, atsc_header(level=68, rate=rate))
    for buffer in (488, 489, 1024):
        under('atsc', 'rule 94: vbv_buffer_size %d' % buffer, atsc_header(level=68, buffer=buffer))
    under('atsc', 'rules 90 and 92 to 94', header(353, 720, level=73, aspect=4, code=3, rate=48501, buffer=489),
          comment='Behind those of main. At 720 lines rule 92 is told twice.')
    under('atsc', 'rule 91 and 92 to 94', header(1280, level=73, height=720, aspect=2, code=9, rate=48501, buffer=489))


def atsc_delays():
    section('atsc: vbv_delay')
    data = timed(small(code=4) + group(1) + one(I) + one(P, 1) + END, 20000)
    for which, name in ((0, 'first'), (1, 'second')):
        for delay in (45000, 45001, 65534, 65535):
            under('atsc', 'warning 95: %d in the %s picture' % (delay, name), with_delay(data, which, delay))
    under('atsc', 'warning 95: 60000 in two fields, and a dropped picture', with_delay(with_delay(with_delay(timed(
        interlaced(code=4) + group(0) + pair(I, 1) + one(B, 0, rows=2) + END, 20000), 0, 60000), 1, 60000), 2, 45001))


# ---- all sets

def of_each():
    section('the same streams by each set')
    three = b''.join(one(B, n) for n in (1, 2, 3))
    several = timed(small(rate=24501, aspect=4) + group(1) + one(I) + one(P, 4) + three + group(0) + one(I)
                    + small(rate=48501, level=70, buffer=489, code=5) + one(P, 1, precision=3) + group(1) + END, 30000)
    bare = interlaced() + one(B, 0, rows=2) + one(I, 1, rows=2) + END
    faulty = timed(small(aspect=1) + group(1) + one(I) + one(P, 4) + one(B, 1) + one(B, 2), 30000)
    # the third B picture has no slice
    faulty += one(B, 3)[:one(B, 3).rindex(b'\0\0\1')]
    for rules in ('main', 'dvd', 'dvb', 'atsc'):
        under(rules, 'no byte', fault=('NoSequence', 0))
        under(rules, 'several headers, groups and pictures, and a second sequence', several + bare, each='--pictures ')
        under(rules, 'a fault at the third B frame in a row', faulty + END, fault=('MissingMacroblocks', 8 * len(faulty)),
              comment='Nothing of its piece is told.')
        under(rules, 'each call of the report and of the output fails in turn', several,
              more=['each report', 'each output'])


for sections in (dvd_sizes, dvd_warnings, dvd_sequences, dvd_groups, dvd_fields, dvd_b_frames, dvb, atsc_sizes, atsc_rates,
                 atsc_delays, of_each):
    sections()
