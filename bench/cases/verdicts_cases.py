"""The cases of m2v_test_cases on check, printed by bench/cases/verdicts.py. Streams are changes of those of the table, or
put together by bench/cases/pictures_writer.py; what is wanted is what the verifier there says, and of a stream with a
fault what the case of decode on the same stream wants, but for its output."""

from pictures import ahead, lines_of, picture
from pictures_writer import B, BOTTOM, END, I, P, TOP, Macroblock, Picture, flat, group, sequence
from table_lines import comment_lines, read_bytes, read_table, stream_words
from verdicts import Account, Parser, verdict

STREAMS, TABLE = read_table()
KNOWN, CASES = [], []


def known(name, data):
    """Gives a stream a name, by which cases name it."""
    STREAMS[name] = data
    KNOWN.append(name)
    return data


def case(name, *parts, comment='', more=(), wanted=None):
    """A stream, in words of the table or as bytes, with further lines; what is wanted is the verdict on it, unless
    said."""
    lines = []
    for part in parts:
        groups = [part.split()] if isinstance(part, str) else stream_words(part)
        lines += lines_of('input', groups)
    data = b''.join(read_bytes(STREAMS, line.partition(' ')[2]) for line in lines)
    status, report = wanted or verdict(data)
    wanted_lines = (['status %d' % status] if status else []) + (['report ' + report] if report else [])
    CASES.append((name, comment, ['words check', *lines, *more, *wanted_lines]))


def heading(text):
    CASES.append((None, text, []))


def again(name):
    """A case of decode with a fault once more, with the words of check."""
    lines = [(key, rest) for key, rest in TABLE['decode: ' + name] if key not in ('words', 'output', 'length', 'sum')]
    assert ('status', '9') in lines or ('status', '14') in lines
    CASES.append((name, '', ['words check', *[key + ' ' + rest for key, rest in lines]]))


def table():
    yield from ('', '# ---- check: streams', '')
    for name in KNOWN:
        yield from ('stream ' + name, *lines_of('bytes', stream_words(STREAMS[name])), '')
    for name, comment, lines in CASES:
        if name is None:
            yield from (*comment_lines('---- check: ' + comment), '')
            continue
        yield from comment_lines(comment)
        yield from ('case check: ' + name, *lines, '')


# ---- streams with delays

def with_delay(data, number, delay):
    """The stream with another vbv_delay of a picture."""
    stream = Parser(data)
    at = stream.first + stream.coded[number].code_end // 8
    bits = int.from_bytes(data[at:at + 4], 'big')
    bits = bits & ~(0xFFFF << 3) | delay << 3
    return data[:at] + bits.to_bytes(4, 'big') + data[at + 4:]


def timed(data, delay):
    """The stream with this first vbv_delay, and the exact ones behind it."""
    data = with_delay(data, 0, delay)
    for number, exact in list(enumerate(Account(Parser(data)).delays))[1:]:
        data = with_delay(data, number, exact)
    return data


def one(kind, temporal=0, level=128, rows=1, **more):
    """A picture of equal samples, one macroblock wide."""
    return picture(Picture(kind, temporal=temporal, f_codes=more.pop('f_codes', (2,) * 4), **more),
                   *[[flat(level << more.get('precision', 0))]] * rows, quantiser=8)


def small(**more):
    """The headers of a sequence of 16 by 16 samples: 40,000 bit/s, 25 frames a second."""
    return sequence(16, 16, **{'aspect': 2, 'rate': 100, 'buffer': 1, **more})


def interlaced(**more):
    return sequence(16, 32, progressive=0, **{'aspect': 2, 'rate': 100, 'buffer': 1, **more})


WOVEN = dict(frame_only=0, progressive=0)


def pair(kind, temporal=0, **more):
    """A frame of two fields."""
    return b''.join(one(kind, temporal, structure=s, **{**WOVEN, **more}) for s in (TOP, BOTTOM))


# ---- worked examples

def worked():
    heading('worked examples')
    case('a grey frame of the flat profile', '= grey', comment='Its vbv_delay is 65535: the rate is variable.')
    case('a grey frame', '= grouped')
    case('two grey frames', '= predicted')
    case('a delay of 0', '= grouped byte 35 08 00 00',
         comment='The first picture is removed when its start code has come: 272 bits of 480, so 489600 of 864000.')
    case('a frame of two fields', '= two_fields')
    case('the headers of a sequence alone', '= grey first 22')
    case('two frames with 17602 zero bytes between', '= grey first 22 byte 7 23', '= grouped from 22 first 8',
         '00 00 01 00 00 09 02 00', '= grouped from 38 first 18', '17602*00', '00 00 01 00 00 51 58 0B 80',
         '= predicted from 65', comment='15 Mbit/s and a buffer of 1,835,008 bits.')
    case('three frames of film', '= film', comment='The first and the third repeat a field, at 30 frames a second.')


# ---- rules

def sequence_rules():
    heading('rules on sequence headers. A stream without a picture has them too.')
    case('another profile', '= grouped byte 17 9A', comment='profile_and_level 73.')
    case('Main level of the simple profile', '= grouped byte 16 15 8A', comment='profile_and_level 88.')
    case('High 1440 level', '= grouped byte 17 6A', comment='profile_and_level 70.')
    case('High level', '= grouped byte 17 4A', comment='profile_and_level 68.')
    grey_row = [flat(128)] * 46
    case('width 722', timed(sequence(722, 16, aspect=2, rate=1000) + group(1) + picture(Picture(I), grey_row) + END,
                            30000))
    case('height 577', timed(sequence(16, 577, aspect=2, rate=1000) + group(1)
                             + picture(Picture(I), *[[flat(128)]] * 37) + END, 30000))
    head = '= grey first 22 '
    wide = '= grey first 22 byte 4 %s byte 17 %s'
    case('width 720 and height 576', head + 'byte 4 2D 02 40')
    case('width 721', head + 'byte 4 2D 12 40')
    case('width 721 at High 1440 level', wide % ('2D 12 40', '6A'))
    case('width 1440 and height 1152 at High 1440 level', wide % ('5A 04 80', '6A'))
    case('width 1441 at High 1440 level', wide % ('5A 14 80', '6A'))
    case('width 1920 and height 1152 at High level', wide % ('78 04 80', '4A'))
    for code, at_high in ((0, 0), (6, 0), (15, 0), (6, 1), (8, 1), (0, 1), (9, 1)):
        case('frame_rate_code %d in a header of %s level' % (code, ('Main', 'High')[at_high]),
             head + 'byte 7 1%X' % code + ' byte 17 4A' * at_high)
    case('a frame rate that is divided', '= grouped byte 21 01', comment='frame_rate_extension_d 1.')
    case('a frame rate that is multiplied and divided', '= grouped byte 21 42',
         comment='frame_rate_extension_n 2 and _d 2: 32 times 2 and 2.')
    case('frame_rate_code 6 with another number', '= grouped byte 7 26 byte 21 01', comment='The code comes first.')
    case('as many samples a second as at Main level', head + 'byte 4 2D 01 E0 15',
         comment='720 by 480 at 30 frames a second.')
    case('a row of macroblocks more', head + 'byte 4 2D 01 F0 15', comment='720 by 496 at 30 frames a second.')
    case('1440 by 1152 at 25 frames a second, at High 1440 level', wide % ('5A 04 80', '6A'))
    case('1440 by 1152 at 30 frames a second, at High 1440 level', wide % ('5A 04 80 15', '6A'))
    case('1920 by 1088 at 60 frames a second, at High level', wide % ('78 04 40 18', '4A'))
    case('1920 by 1080 at 30 frames a second, at High level', wide % ('78 04 38 15', '4A'))
    for rate, level in ((0, 72), (1, 72), (37500, 72), (37501, 72), (2 ** 18 + 100, 72), (150000, 70), (150001, 70),
                        (200000, 68), (200001, 68)):
        case('a rate of %d at level %d' % (rate, level), small(rate=rate, level=level))
    for buffer, level in ((0, 72), (112, 72), (113, 72), (1024, 72), (448, 70), (449, 70), (597, 68), (598, 68)):
        case('a buffer of %d at level %d' % (buffer, level), small(buffer=buffer, level=level))
    case('a rate of 0 before a picture', small(rate=0) + group(1) + one(I, delay=27189) + END)
    case('a buffer of 0 before a picture', small(buffer=0) + group(1) + one(I, delay=27189) + END)
    case('frame_rate_code 0 before a picture', small(code=0) + group(1) + one(I, delay=27189) + END)
    case('a rate and a buffer of 0', small(rate=0, buffer=0))
    case('a buffer of 113 in the first header, and a rate of 0 in the second', small(buffer=113) + small(rate=0),
         comment='Rule 6 comes before rule 7, in whichever header it is broken.')
    case('a buffer of 113 in the first header, and of 114 in the second', small(buffer=113) + small(buffer=114))
    case('a second header of another level', small() + small(level=73))


def f_codes():
    heading('rules on f_codes')
    case('f_code 9 across, forward', '= predicted byte 69 89')
    case('f_code 8 across, forward', '= predicted byte 69 88')
    case('f_code 6 down, forward', '= predicted byte 70 6F')
    case('f_code 5 down, forward', '= predicted byte 70 5F')
    case('f_codes 9 across and 6 down', '= predicted byte 69 89 6F')
    case('f_code 9 across at High level', '= predicted byte 17 4A byte 69 89')
    case('f_code 9 across at High 1440 level', '= predicted byte 17 6A byte 69 89')
    case('f_code 6 down at High level', '= predicted byte 17 4A byte 70 6F')
    for names, levels in (('High level behind one of Main', (72, 68)), ('Main level behind one of High', (68, 72))):
        case('f_code 9 across behind a header of %s level' % names, timed(
            b''.join(small(level=level) + group(1) + one(I) for level in levels)
            + one(P, 1, f_codes=(9, 1)) + END, 20000),
            comment='The last sequence header before the picture counts.')
    case('f_code 9 across before a header of Main level behind one of High level', timed(
        small(level=68) + group(1) + one(I) + one(P, 1, f_codes=(9, 1)) + small() + group(1) + one(I) + END, 20000))
    start = small() + group(1) + one(I) + one(P, 2)
    case('f_code 9 across, backward', timed(start + one(B, 1, f_codes=(2, 2, 9, 2)) + END, 20000))
    case('f_code 6 down, backward', timed(start + one(B, 1, f_codes=(2, 2, 2, 6)) + END, 20000))
    case('f_codes 9 across, backward, and 6 down, forward', timed(
        start + one(B, 1, f_codes=(2, 6, 9, 2)) + END, 20000))
    case('f_codes 6 down, forward, and 7 down, backward', timed(start + one(B, 1, f_codes=(2, 6, 2, 7)) + END, 20000))
    concealing = picture(Picture(I, f_codes=(9, 1), concealment=1), [flat(128, concealment=(0, 0))])
    case('f_code 9 across with concealment vectors', timed(small() + group(1) + concealing + END, 20000))
    case('f_codes that are not used', '= grouped byte 42 89 9F', comment='9 and 9 forward in an I picture.')
    fields = interlaced() + group(1) + pair(I)
    case('f_code 5 down in a field', timed(fields + pair(P, 1, f_codes=(2, 5)) + END, 20000))
    case('f_code 4 down in a field', timed(fields + pair(P, 1, f_codes=(2, 4)) + END, 20000))
    case('f_code 5 down in an interlaced frame', timed(
        fields + one(P, 1, rows=2, f_codes=(2, 5), **WOVEN) + END, 20000))


def groups():
    heading('rules on groups: the first picture and temporal references')
    case('a P picture behind a group header', '= predicted put 56 00 00 01 B8 00 08 00 40 byte 68 00 13',
         comment='Its temporal reference is 0.')
    case('a B picture behind a group header', timed(
        small() + group(1) + one(I) + one(P, 1) + group(0) + one(B) + one(I, 1) + END, 20000))
    case('a P picture behind two group headers', timed(
        small() + group(1) + one(I) + group(0) + group(1) + one(P) + END, 20000))
    case('no group header', timed(small() + one(I) + one(P, 1) + END, 20000),
         comment='The frames before the first group header form one group.')
    case('no group header, and a P picture that begins at 0 again', timed(small() + one(I) + one(P) + END, 20000))
    case('no group header, and B pictures in front, which are dropped', timed(
        small() + one(B) + one(B, 1) + one(I, 2) + one(P, 3) + END, 15000),
        comment='None of them is the first one behind a group header.')
    case('a group header behind frames without one', timed(
        small() + one(I) + one(P, 1) + group(1) + one(I) + one(P, 1) + END, 20000))
    case('a temporal reference of 2 in the second picture', '= predicted byte 61 93')
    case('I P B B P B', timed(small() + group(1) + one(I) + one(P, 3) + one(B, 1) + one(B, 2) + one(P, 5) + one(B, 4)
                              + END, 15000))
    case('B pictures in the other order', timed(
        small() + group(1) + one(I) + one(P, 3) + one(B, 2) + one(B, 1) + END, 15000))
    case('B pictures in front of the I picture of their group', timed(
        small() + group(1) + one(I) + one(P, 1) + group(0) + one(I, 2) + one(B) + one(B, 1) + one(P, 3) + END, 15000))
    case('temporal references that count on', timed(
        small() + group(1) + one(I) + one(P, 1) + group(0) + one(I, 4) + one(B, 2) + one(B, 3) + END, 15000))
    case('an anchor comes before a B picture decoded after it', timed(
        small() + group(1) + one(I) + one(P, 3) + one(B, 1, precision=3) + END, 15000),
        comment='Both break a rule. That the place of the P picture is 2 is known behind the B picture.')
    case('a B picture comes before an anchor decoded after it', timed(
        small() + group(1) + one(I) + one(P, 2) + one(B, 1, precision=3) + one(P, 4) + END, 15000))
    case('an anchor before a group header', timed(
        small() + group(1) + one(I, 1) + group(1) + one(I, precision=3) + END, 15000))
    case('an anchor whose B pictures stand behind a group header', timed(
        small() + group(1) + one(I) + one(P, 1) + group(0) + one(B, 0) + one(I, 1, precision=3) + END, 15000),
        comment='They are of the other group; the B picture breaks the rule on its first picture.')
    case('low delay: each frame in its own place', timed(
        small(low_delay=1) + group(1) + one(I) + one(P, 1) + one(B, 2) + END, 15000))
    case('low delay: a P picture as if it were reordered', timed(
        small(low_delay=1) + group(1) + one(I) + one(P, 2) + one(B, 1) + END, 15000))
    case('low delay: by the first sequence extension alone', timed(
        small(low_delay=1) + group(1) + one(I) + small() + group(1) + one(I) + one(P, 1) + one(B, 2) + END, 15000))
    fields = interlaced() + group(1) + pair(I)
    case('the second field of an anchor with another temporal reference', timed(
        fields + one(P, 1, structure=TOP, **WOVEN) + one(P, 2, structure=BOTTOM, **WOVEN) + END, 15000))
    case('both fields of an anchor with another temporal reference', timed(
        fields + pair(P, 2) + pair(B, 1) + pair(P, 2) + END, 15000),
        comment='Those of the last frame, which is frame 3.')
    case('the first field of an anchor with another temporal reference', timed(
        fields + one(P, 3, structure=TOP, **WOVEN) + one(P, 2, structure=BOTTOM, precision=3, **WOVEN) + pair(B, 1)
        + END, 15000))
    dropped = small() + group(0) + one(I, 2)
    case('dropped pictures have their places', timed(dropped + one(B) + one(B, 1) + END, 15000))
    case('a dropped picture with another temporal reference', timed(dropped + one(B, 1) + END, 15000),
         comment='The I picture is at place 1, and comes first.')
    case('a dropped picture in the wrong place', timed(dropped + one(B) + one(B, 2) + END, 15000))
    case('a dropped picture with dc_precision 3', timed(dropped + one(B) + one(B, 1, precision=3) + END, 15000))


def crowds():
    heading('crowded rows')
    # the increment and the type have 2 bits, three blocks 3 + 63 * 24 + 2, two chroma blocks 4, a luma block 5 + 24
    # and the rest
    full = {i: {0: 128, **{j: 1028 for j in range(1, 64)}} for i in range(3)}

    def sized(rest):
        return Macroblock(intra=True, blocks={**full, 3: {0: 128, 1: 1028, **rest}})
    large = sized({**{j: 1 for j in range(2, 7)}, 8: 1})
    bound = sized({j: 1 for j in range(2, 8)})
    wide = dict(aspect=2, rate=5000, buffer=40)

    def rows(*macroblocks):
        return timed(sequence(16 * len(macroblocks[0]), 16 * len(macroblocks), **wide) + group(1)
                     + picture(Picture(I), *macroblocks, quantiser=8) + END, 9000)
    known('three_large', rows([large] * 3))
    case('three macroblocks of 4609 bits in a row', '= three_large')
    case('two of them, and one of 4608 bits', rows([large, large, bound]))
    case('three macroblocks of 4608 bits', rows([bound] * 3))
    case('two of them in each of two rows', rows([large, flat(128), large], [flat(128), large, large]))
    case('three in the first row that has more than two, and four in the other one', rows(
        [large, bound, flat(128), large], [large, large, large, flat(128)], [large] * 4))
    case('three in the second field', timed(
        sequence(48, 32, progressive=0, **wide) + group(1)
        + picture(Picture(I, structure=TOP, **WOVEN), [large, large, bound], quantiser=8)
        + picture(Picture(I, structure=BOTTOM, **WOVEN), [large] * 3, quantiser=8) + END, 9000))
    dropped = sequence(48, 16, **wide) + group(0) + picture(Picture(I, temporal=1), [flat(128)] * 3, quantiser=8)
    case('three macroblocks of 4613 bits in a row of a dropped picture', timed(dropped + picture(
        Picture(B, f_codes=(2,) * 4), [large] * 3, quantiser=8) + END, 9000), comment='Its slices are not read.')

    # in P the increment 2 behind a skipped macroblock has 3 bits, and the type 5

    def skipping(rest):
        behind = Macroblock(intra=True, skipped=1, blocks={**full, 3: {0: 128, 1: 1028, **rest}})
        first = sequence(112, 16, **wide) + group(1) + picture(Picture(I), [flat(128)] * 7, quantiser=8)
        return timed(first + picture(Picture(P, temporal=1, f_codes=(2, 2)), [ahead(0, 0)] + [behind] * 3, quantiser=8)
                     + END, 9000)
    case('three macroblocks of 4609 bits with their increments', skipping({2: 1, 3: 1, 4: 1, 6: 1}),
         comment='Each stands behind a skipped one, and its increment has 3 bits.')
    case('three macroblocks of 4608 bits with their increments', skipping({j: 1 for j in range(2, 6)}))


def repeats():
    heading('repeated fields, progressive frames and DC precision')
    case('a repeated field in a progressive sequence', '= grouped byte 45 43')
    case('a repeated field in a progressive sequence, at variable rate', '= grey byte 37 43')
    start = interlaced(code=4) + group(1)
    case('a repeated field of a frame that is not progressive', timed(
        start + one(I, rows=2, repeat=1, **WOVEN) + END, 27189))
    case('a repeated field of a frame that is not progressive, at variable rate',
         start + one(I, rows=2, repeat=1, **WOVEN) + END)
    case('a repeated field of a field', timed(
        start + one(I, structure=TOP, **WOVEN) + one(I, structure=BOTTOM, repeat=1, **WOVEN) + END, 27189))
    case('a repeated field of a field that says it is progressive', timed(
        start + one(I, structure=TOP, frame_only=0) + one(I, structure=BOTTOM, frame_only=0, repeat=1) + END, 27189))
    case('a repeated field of a progressive frame with field prediction', timed(
        start + one(I, rows=2, frame_only=0, repeat=1) + END, 27189))
    case('a repeated field in the second picture, whose vbv_delay is 65535', with_delay(timed(
        small() + group(1) + one(I) + one(P, 1, repeat=1) + END, 27189), 1, 65535),
        comment='The first vbv_delay tells.')
    case('a repeated field in the second picture, behind a first vbv_delay of 65535', with_delay(
        small() + group(1) + one(I) + one(P, 1, repeat=1) + END, 1, 3))
    case('a progressive sequence with a frame that is not progressive', '= grouped byte 46 00')
    # the elements behind frame_pred_frame_dct change: the slice has a bit more in each macroblock
    case('a progressive sequence with field prediction', timed(small() + group(1) + one(I, frame_only=0) + END, 27189))
    case('an interlaced sequence with frames that are not progressive', timed(
        interlaced() + group(1) + one(I, rows=2, **WOVEN) + END, 27189))
    case('a progressive sequence at variable rate with a frame that is not progressive', '= grey byte 38 00')
    case('dc_precision 3', '= grouped byte 44 FF')
    case('dc_precision 2', '= grouped byte 44 FB')
    case('dc_precision 3 at variable rate', '= grey byte 36 FF')


def several():
    heading('several at once: the least picture, then the least number; a fault before all rules, a rule before the'
            ' buffer')
    case('rules 13 and 15 at one picture', '= grouped byte 44 FF 43')
    case('rules 13, 14 and 15 at one picture', '= grouped byte 44 FF 43 00')
    case('rule 15 at picture 0, and rule 8 at picture 1', '= predicted byte 44 FF byte 69 89')
    case('rule 11 at picture 1, and rule 8 there', '= predicted byte 61 93 byte 69 89')
    case('rule 15 at picture 0, and rule 11 at picture 1', '= predicted byte 44 FF byte 61 93')
    case('rule 15 at picture 0, and rule 1 in a sequence header behind it', timed(
        small() + group(1) + one(I, precision=3) + small(level=73) + group(1) + one(I) + END, 27189),
        comment='The rules on sequence headers count as picture 0.')
    case('rule 1 in a sequence header behind all pictures', timed(
        small() + group(1) + one(I) + small(level=73), 27189))
    case('rule 1 and a fault behind it', '= predicted byte 17 9A byte 79 52',
         wanted=(9, 'stream VectorOutside at bit 630'),
         comment='The vector of one half sample to the right, whose place is counted with decode.')
    case('rule 1 and a delay of 0', '= grouped byte 17 9A byte 35 08 00 00')
    case('a delay of 0 and a fault behind it', '= predicted byte 35 08 00 00 byte 79 52',
         wanted=(9, 'stream VectorOutside at bit 630'))


# ---- the buffer

def buffer():
    heading('the buffer')
    grey = small() + group(1) + one(I) + END
    case('the least delay that brings the first picture', with_delay(grey, 0, 468),
         comment='480 bits of 1800 units: 272 of them have come, and 800 units come in a tick.')
    case('a delay of one tick less', with_delay(grey, 0, 467))
    twice = small() + group(1) + one(I) + small() + group(1) + one(I) + END
    case('the least delay that brings the first picture, before a sequence header', with_delay(twice, 0, 396),
         comment='448 bits of 1800 units: the header counts to the second picture.')
    case('a delay of one tick less, before a sequence header', with_delay(twice, 0, 395))
    case('the second picture under', timed(small(rate=1) + group(1) + one(I) + one(P, 1) + END, 60000))
    late = with_delay(small() + group(1) + one(I), 0, 40000)
    for zeros, comment in (
            (1992, 'More bits would come than the buffer takes, but the stream ends when it is full.'),
            (1993, 'What is held is the whole stream, a byte more than the buffer takes.'),
            (2004, ''), (2200, 'The picture takes less than could have come, and all that it takes is there.'),
            (2201, 'The picture takes more than can have come.'),
            (2244, 'More is held than the buffer takes, and less than the picture takes, which is looked at first.')):
        case('one frame with a long delay and %d zero bytes behind it' % zeros, late, '%d*00' % zeros, comment=comment)
    first = ('= grey first 22 byte 7 23', '= grouped from 22 first 8', '00 00 01 00 00 09 02 00',
             '= grouped from 38 first 18')
    second = '00 00 01 00 00 51 58 0B 80', '= predicted from 65 first 15'
    for between, behind, comment in (
            (17602, 229352, 'The buffer is full when the second picture is removed, and it takes all that is held.'),
            (17601, 229352, 'A zero byte less between: more would come than the buffer takes, but the stream ends.'),
            (17602, 229353, 'A zero byte more behind: the second picture takes a byte more than is held.'),
            (17601, 229353, 'All that the second picture takes is there, and the buffer takes a byte less.'),
            (17602, 229351, 'The stream ends a byte before the buffer is full.'),
            (0, 300, 'Without the zero bytes more would come than the buffer takes, but the stream ends before.')):
        case('15 Mbit/s with %d zero bytes between two frames and %d behind' % (between, behind), *first,
             *['%d*00' % between] * (between > 0), *second, '%d*00' % behind, comment=comment)
    case('more than the buffer takes before the first of two pictures', with_delay(
        small() + group(1) + one(I) + one(P, 1), 0, 40000), '3000*00',
        comment='What has come, not what is left, is held.')
    case('variable rate and a picture that never fits', '= grey byte 8 00 00 60 08',
         comment='400 bit/s and a buffer of 16,384 bits: not judged.')
    case('variable rate with a delay in the second picture', with_delay(small() + group(1) + one(I) + one(P, 1) + END,
                                                                        1, 100))

    heading('delays that are not exact are counted, but for the first')
    exact = timed(small() + group(1) + one(I) + one(P, 3) + one(B, 1) + one(B, 2) + END, 20000)
    delays = Account(Parser(exact)).delays
    case('four frames with exact delays', exact)
    case('a delay of one tick more', with_delay(exact, 1, delays[1] + 1))
    case('a delay of one tick less and one of 65535', with_delay(with_delay(exact, 2, delays[2] - 1), 3, 65535))
    case('three delays of 0', with_delay(with_delay(with_delay(exact, 1, 0), 2, 0), 3, 0))
    case('a first delay of one tick more', with_delay(exact, 0, 20001),
         comment='All that follow are counted from it.')

    heading('what counts: a picture takes the headers before it and the zeros behind it, the last one all that'
            ' follows')
    case('no end code', '= predicted first 80')
    case('no end code and zero bytes', '= predicted first 80', '20*00')
    case('zero bytes and an end code', '= predicted first 80', '20*00 00 00 01 B7')
    case('a sequence header and a group header behind the last picture', '= predicted first 80', '7*00',
         '= predicted first 30', '00 00 01 B7')
    case('a sequence header without its extension behind the last picture', '= predicted first 80',
         '= predicted first 12', '00 00 01 B7', wanted=(9, 'stream NotMpeg2 at bit 736'),
         comment='The end code stands at byte 92.')
    case('user data behind the slices of the last picture', '= predicted put 80 00 00 01 B2 41 42')
    case('bytes and an end code before the first sequence header', 'FF 00 00 01 B7', '= predicted')
    case('bytes behind the end code', '= predicted', '00 00 01 B0 FF 00')
    case('user data and a start code without a value at the end', '= predicted first 80 put 80 00 00 01 B2 00 00 01')
    case('user data between', '= predicted put 56 00 00 01 B2 41 42 43')
    case('zero bytes between', '= predicted put 56 40*00')
    other = small() + group(1) + one(I) + small(rate=37500, buffer=112, code=5) + group(1) + one(I) + one(P, 1) + END
    case('another rate, buffer and frame rate in a later sequence header', timed(other, 20000),
         comment='Those of the first one count.')
    case('three times the second of two frames', timed(small() + group(1) + one(I) + one(P, 1) + one(P, 2) + one(P, 3)
                                                       + END, 20000))


def intervals():
    heading('intervals: fields, repeated fields, low delay')
    start = interlaced(code=4) + group(1)
    case('frames of two fields', timed(start + pair(I) + pair(P, 3) + pair(B, 1) + pair(B, 2) + END, 20000))
    case('fields and frames', timed(
        start + pair(I) + one(P, 2, rows=2, **WOVEN) + pair(B, 1) + pair(P, 4) + one(B, 3, rows=2, **WOVEN) + END,
        20000))
    for code in (1, 2, 3, 5):
        case('frame_rate_code %d' % code, timed(
            interlaced(code=code) + group(1) + pair(I) + one(P, 1, rows=2, repeat=1) + one(P, 2, rows=2) + END, 20000))
    for code in (6, 7, 8):
        case('frame_rate_code %d at High level' % code, timed(
            interlaced(code=code, level=68) + group(1) + pair(I) + one(P, 1, rows=2, repeat=1) + one(P, 2, rows=2)
            + END, 20000))
    film = dict(rows=2, repeat=1)
    plain = dict(rows=2)
    case('a frame that repeats a field before two fields', timed(
        start + one(I, **film) + pair(P, 1) + one(P, 2, **plain) + END, 20000),
        comment='The picture behind the second field is removed a field later.')
    case('a frame that repeats a field before two I fields and B fields', timed(
        start + one(I, **film) + pair(I, 2) + pair(B, 1) + one(P, 3, **plain) + END, 20000))
    case('an anchor that repeats a field before B fields', timed(
        start + one(I, **plain) + one(P, 2, **film) + pair(B, 1) + one(P, 3, **plain) + END, 20000),
        comment='The fields of B frames take their own time.')
    case('I P B P, of which the first P and the B repeat a field', timed(
        start + one(I, **plain) + one(P, 2, **film) + one(B, 1, **film) + one(P, 3, **plain) + END, 20000))
    case('the last anchor before B pictures repeats a field', timed(
        start + one(I, **film) + one(P, 3, **plain) + one(B, 1, **plain) + one(B, 2, **film) + one(P, 4, **film)
        + one(P, 5, **plain) + END, 20000))
    low = interlaced(code=4, low_delay=1) + group(1)
    case('low delay: each frame that repeats a field in its own time', timed(
        low + one(I, **film) + one(P, 1, **plain) + one(P, 2, **film) + one(P, 3, **plain) + END, 20000))
    case('low delay: a frame that repeats a field before two fields', timed(
        low + one(I, **film) + pair(P, 1) + one(P, 2, **plain) + END, 20000),
        comment='The picture behind the second field is removed a field later here too.')
    case('low delay: B pictures that repeat a field', timed(
        low + one(I, **plain) + one(P, 1, **plain) + one(B, 2, **film) + one(P, 3, **plain) + END, 20000))
    case('dropped pictures take their bits and their time', timed(
        start + one(I, 2, **plain) + one(B, **film) + one(B, 1, **plain) + one(P, 3, **film) + END, 20000).replace(
            group(1), group(0)))
    # so many zero bytes behind the third picture that it just fits, a field later than two fields after the second
    longer = timed(start + one(I, **film) + one(P, 1, **plain) + one(P, 2, **plain), 20000)
    account = Account(Parser(longer + bytes(4000)))
    room = account.held[2] // 14400 - (account.taken[2] // 14400 - 4000)
    for zeros, comment in ((room, 'With two fields after each picture the third one would be under.'), (room + 1, '')):
        case('film with a third picture of %d zero bytes' % zeros, longer, '%d*00' % zeros, comment=comment)


# ---- faults, words, endpoints

FAULTS = (
    'no byte', 'no sequence header', 'the first 12 bytes', 'a group header behind a picture header',
    'chroma format 2', 'a start code of a system stream', 'the first 43 bytes', 'the first 39 bytes',
    'a group header that ends early', 'no code of a coefficient', 'no code of a type in B',
    'a marker of a sequence header', 'a marker of a group header', 'a reserved start code',
    'a second sequence extension', 'width 0', 'picture structure 0', 'quantiser code 0', 'an escaped level of -2048',
    'a sequence of another size', 'another scan', 'a slice past the last row', 'a slice twice',
    'a macroblock too many', 'the last row missing', 'a skipped macroblock', 'a field vector 8 with f_code 1',
    'a P picture with a vector to the right', 'a vector that leaves its frame on the left',
    'a pair past the end of its block', 'a DC level of -1', 'a P picture without its I picture',
    'a B picture of a closed group that goes forward', 'a first field alone', 'behind an I field a sequence header',
    'behind a dropped B field a P field', 'a slice past the last row in a dropped picture',
    'a fault in the second of two pictures with low delay', 'a piece one byte larger',
    'a piece one byte larger with a fault')


def faults():
    heading('faults, as decode has them, and too large pieces. Nothing is put to the output.')
    for name in FAULTS:
        again(name)


def endpoints():
    heading('words and endpoints that fail')
    for name, words in (('a word too many', 'check x'), ('the word twice', 'check check'),
                        ('an option', 'check --workers 2'), ('with another first letter', 'Check')):
        CASES.append((name, '', ['words ' + words, 'input = grouped', 'status 2', 'report usage']))
    fault, use = (7, 'read fault'), (8, '')
    case('the input fails at its first call', '= grouped', more=['fail input 1'], wanted=fault)
    case('the input fails at its first call, and the report', '= grouped', more=['fail input 1', 'fail report 1'],
         wanted=(7, ''))
    case('the output fails', '= grouped', more=['fail output 1'], comment='Nothing is put to it.')
    case('the report fails after success', '= grouped', more=['fail report 1'], wanted=use)
    case('the report fails after a broken rule', '= grouped byte 17 9A', more=['fail report 1'], wanted=(10, ''))
    case('the report fails after a delay of 0', '= grouped byte 35 08 00 00', more=['fail report 1'], wanted=(11, ''))
    for endpoint in ('input', 'output', 'report'):
        case('each call of the %s fails in turn' % endpoint, '= two_fields', more=['each ' + endpoint])
    case('each call of the input fails in turn, on a broken rule', '= predicted byte 61 93', more=['each input'])
    case('each call of the report fails in turn, on a broken rule', '= predicted byte 61 93', more=['each report'])
    case('each call of the report fails in turn, on a delay of 0', '= grouped byte 35 08 00 00', more=['each report'])


FILM = interlaced(code=4) + group(1) + b''.join((
    picture(Picture(I, top_first=1, repeat=1), [flat(128)], [flat(128)], quantiser=8),
    picture(Picture(P, temporal=1, f_codes=(2, 2)), [ahead(0, 0)], [ahead(0, 0)], quantiser=8),
    picture(Picture(P, temporal=2, f_codes=(2, 2), repeat=1), [ahead(0, 0)], [ahead(0, 0)], quantiser=8))) + END
known('film', timed(FILM, 27189))

for add in (worked, sequence_rules, f_codes, groups, crowds, repeats, several, buffer, intervals, faults, endpoints):
    add()
