"""The streams of the cases of `audit`, which bench/cases/audited_cases.py prints: the words, the rules and the texts. The
account of the buffer stands in bench/cases/audited_buffers.py."""

from pictures_writer import B, BOTTOM, END, I, P, TOP, group, sequence
from verdicts_cases import WOVEN, interlaced, one, pair, small, timed, with_delay

SECTIONS = []
EACH = 'audit --pictures'


def section(heading):
    SECTIONS.append((heading, []))


def case(name, *parts, **more):
    """A stream, in words of the table or as bytes."""
    SECTIONS[-1][1].append(dict(name=name, parts=parts, **more))


def each(name, *parts, **more):
    """The same with --pictures."""
    case(name, *parts, words=EACH, **more)


# ---- words

def words():
    section('words')
    for name, line in (
            ('alone', 'audit'), ('pictures', EACH), ('the rule set main', 'audit --for main'),
            ('the rule set main with an equal sign', 'audit --for=main'),
            ('the rule set dvd', 'audit --for dvd'), ('the rule set dvb', 'audit --for dvb'),
            ('the rule set atsc', 'audit --for atsc'), ('the rule set dvd with an equal sign', 'audit --for=dvd'),
            ('the rule set dvb with an equal sign', 'audit --for=dvb'),
            ('the rule set atsc with an equal sign', 'audit --for=atsc'),
            ('pictures and the rule set dvd', 'audit --pictures --for dvd'),
            ('the rule set dvb and pictures', 'audit --for dvb --pictures'),
            ('pictures and the rule set atsc with an equal sign', 'audit --pictures --for=atsc'),
            ('pictures and the rule set', 'audit --pictures --for main'),
            ('the rule set and pictures', 'audit --for main --pictures'), ('the word that ends options', 'audit --')):
        case('words, ' + name, '= grouped', words=line)
    usage = (2, 'usage', b'')
    for name, line in (
            ('a rule set that is not there', 'audit --for mains'), ('a rule set with a capital', 'audit --for Main'),
            ('a rule set of capitals', 'audit --for DVD'), ('the beginning of a rule set', 'audit --for dv'),
            ('a rule set and a letter', 'audit --for=dvbs'), ('two rule sets in a word', 'audit --for=dvd,dvb'),
            ('a rule set of no letters', 'audit --for='),
            ('a rule set without its name', 'audit --for'), ('a rule set without its name, behind pictures',
                                                             'audit --pictures --for'),
            ('pictures in place of the name', 'audit --for --pictures'),
            ('the rule set twice', 'audit --for main --for main'),
            ('two rule sets', 'audit --for dvd --for=atsc'), ('pictures twice', 'audit --pictures --pictures'),
            ('pictures with a value', 'audit --pictures=yes'), ('the beginning of an option', 'audit --pict'),
            ('an option that is not there', 'audit --workers 2'), ('a word too many', 'audit x'),
            ('a word behind the options', 'audit --for main --pictures main'), ('the word twice', 'audit audit'),
            ('help', 'audit --help'), ('with another first letter', 'Audit')):
        case('words, ' + name, '= grouped', words=line, wanted=usage)
    case('words, each call of the report fails in turn', '= grouped', words='audit --for mains', more=['each report'],
         wanted=usage)


# ---- records

def worked():
    section('worked examples, each picture told')
    each('a grey frame of the flat profile', '= grey', comment='Its vbv_delay is 65535: the rate is variable.')
    each('a grey frame', '= grouped')
    each('two grey frames', '= predicted')
    each('a frame of two fields', '= two_fields')
    each('three frames of film', '= film')
    each('three large macroblocks in a row', '= three_large')
    each('the headers of a sequence alone', '= grey first 22', comment='Without a picture there is no account.')
    each('the headers of a sequence and a group, and an end code', '= grouped first 30', '00 00 01 B7')
    each('a group header with a time', small() + group(1, 23, 59, 58, 24) + one(I, delay=20000) + END)
    each('a group header with all bits set', small() + b'\0\0\1\xb8\xff\xff\xff\xe0' + one(I, delay=20000) + END,
         comment='No rule is looked at on the time.')
    fields = interlaced() + group(1) + pair(I) + pair(P, 3) + pair(B, 1) + one(B, 2, rows=2, **WOVEN) + END
    each('fields and frames of each type', timed(fields, 20000))
    each('dropped pictures', timed(small() + group(0) + one(I, 2) + one(B, 0) + one(B, 1) + one(P, 3) + END, 20000),
         comment='Two B pictures before a second anchor, of an open group. They take bits and time, and no frame is shown.')
    each('zero bytes behind each picture', timed(small() + group(1) + one(I) + bytes(9) + one(P, 1) + bytes(1)
                                                 + one(P, 2) + bytes(70) + END, 20000))
    each('two group headers before a picture, and one behind the last', timed(
        small() + group(1) + one(I) + group(1, 0, 0, 1) + group(0, 0, 0, 2) + one(I) + group(1, 0, 0, 3) + END, 20000))


# ---- rules

def broken_headers():
    section('each breach of sequence headers, at each header')
    worst = dict(level=73, code=9, rate=37501, buffer=113, n=1, d=1)
    case('all rules in one header', sequence(1920, 1152, **worst) + END,
         comment='Rule 4 is broken twice. A frame rate code that is none has no time.')
    case('all rules in one header, before a picture', small(**worst) + group(1) + one(I) + END,
         comment='But for the size; there is no account.')
    case('two headers before a picture', timed(
        small(level=73, buffer=113) + small(level=73, rate=37501) + group(1) + one(I) + END, 20000),
        comment='By header and then by number. The first one says that there is no account.')
    each('a header before each of three pictures', timed(
        small(level=73) + group(1) + one(I) + small(level=73, code=6) + one(P, 1) + small(d=1) + group(1) + one(I)
        + END, 20000), comment='Each has the number of the next picture.')
    case('a header behind the last picture', timed(
        small() + group(1) + one(I) + one(P, 1) + small(level=73, rate=0) + group(1) + END, 20000),
        comment='The next picture would be picture 2.')
    case('a header of High level behind one of Main level', small(rate=40000) + small(level=68, rate=40000))
    case('the level that is none counts as Main level', small(level=73, code=6, buffer=448))


def broken_pictures():
    section('each breach of pictures, by number, forward before backward')
    start = small() + group(1) + one(I) + one(P, 2)
    case('f_codes 9 across and 6 down, forward and backward', timed(
        start + one(B, 1, f_codes=(9, 6, 9, 6)) + END, 20000))
    case('f_code 9 across, backward, and 6 down, forward', timed(start + one(B, 1, f_codes=(8, 6, 9, 5)) + END, 20000))
    case('f_codes 9 across in three pictures', timed(
        start + one(B, 1, f_codes=(9, 1, 1, 1)) + one(P, 4, f_codes=(9, 1)) + one(B, 3, f_codes=(9, 1, 9, 1)) + END,
        20000), comment='Four times, the first one at picture 2.')
    case('rules 10, 14, 15 and 11 at one picture', timed(
        small() + group(1) + one(I) + group(0) + one(P, 3, precision=3, progressive=0) + END, 20000),
        comment='Rule 11 comes last: the place is known at the end.')
    case('rules 13 to 15 at each of two pictures', '= predicted byte 44 FF 43 00 byte 71 FF 43 00')
    case('a crowded row and another precision', '= three_large byte 44 FF')
    case('a repeated field at variable rate breaks nothing', '= grey byte 37 43')
    case('DC precision 3 in both fields', timed(interlaced() + group(1) + pair(I, precision=3) + END, 20000))
    dropped = small() + group(0) + one(I, 2)
    case('dropped pictures break rules', timed(
        dropped + one(B, 0, f_codes=(9, 1, 1, 1)) + one(B, 3, precision=3) + END, 20000))


def places():
    section('rule 11: each frame at another place, as soon as the place is known')
    each('the last anchor of a group', timed(
        small() + group(1) + one(I) + one(P, 2) + group(1) + one(I, 1) + END, 20000),
        comment='It is told before the next group, and that of the last group at the end.')
    each('an anchor before the next one', timed(small() + group(1) + one(I, 1) + one(P, 1) + one(P, 2) + END, 20000),
         comment='It is told behind the next anchor.')
    each('an anchor behind B pictures', timed(
        small() + group(1) + one(I) + one(P, 2) + one(B, 2) + one(B, 1) + one(P, 4) + END, 20000),
        comment='The B pictures are told at once, and the anchor that they stand before behind them.')
    each('B pictures before the first anchor of their group', timed(
        small() + group(1) + one(I) + one(P, 1) + group(0) + one(I, 2) + one(B, 1) + one(B, 0) + END, 20000))
    each('both fields of an anchor', timed(
        interlaced() + group(1) + pair(I, 1) + pair(P, 1) + pair(P, 3) + group(1) + pair(I, 5) + END, 20000),
        comment='The first field before the second one: behind an anchor, before a group, at the end.')
    each('both fields of a B frame', timed(
        interlaced() + group(1) + pair(I) + pair(P, 2) + pair(B, 0) + pair(P, 3) + END, 20000))
    for which, first, second in (('first', 3, 1), ('second', 1, 3)):
        case('the %s field of an anchor alone' % which, timed(
            interlaced() + group(1) + pair(I) + one(P, first, structure=TOP, **WOVEN)
            + one(P, second, structure=BOTTOM, **WOVEN) + END, 20000))
    each('low delay: each frame at once', timed(
        small(low_delay=1) + group(1) + one(I, 1) + one(P, 2) + one(B, 2) + group(1) + one(I, 3) + END, 20000))
    each('low delay: both fields', timed(interlaced(low_delay=1) + group(1) + pair(I, 1) + pair(P) + END, 20000))
    case('low delay by the first header alone', timed(
        small() + group(1) + one(I) + small(low_delay=1) + group(1) + one(I) + one(P, 2) + one(B, 1) + END, 20000))
    case('frames before the first group header', timed(
        small() + one(I, 5) + one(P, 1) + group(1) + one(I, 5) + one(P, 1) + END, 20000))
    case('a group header without pictures', timed(
        small() + group(1) + one(I) + one(P, 2) + group(1) + group(1) + one(I, 1) + END, 20000))
    case('a header between two pictures of a group', timed(
        small() + group(1) + one(I) + one(P, 2) + small() + one(P, 1) + one(P, 3) + END, 20000),
        comment='It ends no group.')
    case('five frames that all say 0', timed(
        small() + group(1) + b''.join(one(k) for k in (I, P, B, B, P)) + END, 20000))
    dropped = small() + group(0) + one(I, 0)
    case('an anchor before dropped pictures', timed(dropped + one(B, 0) + one(B, 2) + END, 20000))


# ---- texts

def texts():
    section('texts: sequences behind end codes, and bytes that are in none')
    case('no byte', fault=('NoSequence', 0))
    case('bytes without a sequence header', '00 00 01 B8 00 08 00 40 00 00 01 B7', fault=('NoSequence', 96))
    case('bytes before the first sequence', 'FF 00 00 01 B7 FF', '= predicted', comment='An end code before it counts'
         ' for nothing. Places are counted from the first byte of the input.')
    case('bytes behind the last end code', '= predicted', 'FF 00 00 01 B0 00 00 01 B7')
    case('zero bytes behind the last end code', '= predicted', '2000*00')
    case('an end code behind the last one', '= predicted', '00 00 01 B7')
    each('two sequences', '= predicted', '= grouped')
    each('three sequences, the first without a picture, and bytes between', '= grey first 22', '00 00 01 B7 01 02',
         '= grouped', '00 00 01 B7 00 00 01 B8 05', '= film')
    case('two sequences without an end code behind the second', '= predicted', '= grouped first 56')
    case('two sequences without pictures', '= grey first 22', '00 00 01 B7', '= grey first 22')
    case('sequences of another size, scan and rate', '= grouped', '= film', '= grey')
    case('each sequence breaks rules', '= grouped byte 17 9A', '= predicted byte 61 93', '= grouped byte 44 FF')
    case('the second sequence breaks rules', '= grouped', '05', '= predicted byte 44 FF byte 61 93')
    case('the buffer fails in each sequence', '= grouped byte 35 08 00 00', '= grouped', '= grouped byte 35 08 00 00')
    open_group = small() + group(0) + one(I, 1) + one(B) + END
    each('B pictures in front of a second sequence are dropped', timed(small() + group(1) + one(I) + one(P, 1) + END,
                                                                       20000), timed(open_group, 20000))
    case('headers behind the last picture of the first sequence', '= predicted first 80', '= predicted first 30',
         '00 00 01 B7', '= grouped')
    case('user data and a start code without a value behind the end code', '= predicted', '00 00 01 B2 41 00 00 01')


def stops():
    section('faults and limits: nothing of the piece is told, nor what waits')
    each('a fault in the first piece', '= grey first 12', fault=('NotMpeg2', 96), comment='No sequence is told.')
    each('a fault in the first piece, behind other bytes', 'FF FF', '= grey first 12', fault=('NotMpeg2', 112))
    each('a fault in the second piece', '= predicted byte 79 52', fault=('VectorOutside', 630))
    each('a fault in the second piece, behind breaches', '= predicted byte 17 9A byte 44 FF byte 79 52',
         fault=('VectorOutside', 630))
    each('a fault in the first piece of a second sequence', '= predicted', '= grey first 12',
         fault=('NotMpeg2', 672 + 96))
    each('a fault in the second of three sequences', '= predicted', '05', '= grey byte 17 8C', '= grouped',
         fault=('Unsupported', 680 + 141), comment='The third one is told behind it.')
    each('a fault in the second piece of a second sequence', '= grouped', '= predicted byte 79 52',
         fault=('VectorOutside', 480 + 630))
    case('a fault in the second sequence, where the first breaks rules', '= predicted byte 61 93', '= grey first 39',
         fault=('MissingMacroblocks', 672 + 312))
    case('a P picture without its I picture in a second sequence', '= predicted', '= predicted without 30..55',
         fault=('MissingReference', 672 + 240), comment='The anchors of the first one are not there.')
    lacking = timed(small() + group(1) + one(I, 1) + one(P, 5) + one(P, 2), 20000)
    lacking = lacking[:lacking.rindex(b'\0\0\1')]
    each('the last picture lacks its slice', lacking + END, fault=('MissingMacroblocks', 8 * len(lacking)),
         comment='The first picture breaks rule 11, which is told behind the second one, and the second one breaks it too,'
         ' which is not told: it waits.')
    alone = timed(interlaced() + group(1) + pair(I) + one(P, 3, structure=TOP, **WOVEN), 20000)
    each('a first field alone at the end', alone, fault=('FieldPair', 8 * len(alone)),
         comment='All pieces are told, and then the fault.')
    each('a first field alone before an end code', alone + END, fault=('FieldPair', 8 * len(alone)))
    each('a first field alone before a group header', alone + group(1) + pair(I) + END,
         fault=('FieldPair', 8 * len(alone)))
    changed = timed(small() + group(1) + one(I) + one(P, 2), 20000)
    each('another size in a later header', changed + sequence(32, 16) + group(1) + END,
         fault=('SequenceChanged', 8 * len(changed)))
    each('a picture header without its extension', changed + one(I)[:8] + group(1) + one(I) + END,
         fault=('NotMpeg2', 8 * len(changed) + 64), comment='The piece ends before the group header.')
    each('a group header that ends early', changed + group(1)[:7] + one(I) + END,
         fault=('Truncated', 8 * len(changed) + 51))
    late = timed(small() + group(1) + one(I) + one(P, 1), 600)
    each('removals that were settled before a fault', late + one(P, 2) + one(P, 3) + END[:3] + b'\xb0',
         fault=('Forbidden', 8 * (len(late) + 2 * len(one(P, 2)))))
    large = '00 00 01 B2 2097101*FF'
    each('a piece one byte larger', '= grey put 39 ' + large, comment='The first one, of which nothing is told.')
    each('a piece one byte larger, behind another one', '= predicted put 74 00 00 01 B2 2097125*FF')
    case('a piece one byte larger, in a second sequence', '= grouped', '= grey put 39 ' + large)


def endpoints():
    section('endpoints that fail')
    clean, found, failed = '= predicted', '= predicted byte 61 93', '= grouped byte 35 08 00 00'
    faulty = dict(fault=('VectorOutside', 630))
    for endpoint in ('input', 'output', 'report'):
        for name, parts, more in (('', (clean,), {}), (', on a breach', (found,), {}), (', on a failure', (failed,), {}),
                                  (', on a fault', ('= predicted byte 79 52',), faulty)):
            case('each call of the %s fails in turn%s' % (endpoint, name), *parts, more=['each ' + endpoint], **more)
    for endpoint in ('input', 'output'):
        each('each call of the %s fails in turn, on two sequences and bytes' % endpoint, '05', clean, '06', found, '07',
             more=['each ' + endpoint])
    each('each call of the input fails in turn, on zero bytes', '= predicted first 80', '9000*00', more=['each input'])
    case('each call of the output fails in turn, on no byte', more=['each output'], fault=('NoSequence', 0))
    for name, parts, answer in (('input', (clean,), (7, '')), ('output', (clean,), (8, ''))):
        case('the %s fails at its first call, and the report' % name, *parts, said=answer,
             more=['fail %s 1' % name, 'fail report 1', 'prefix 0'])
    case('the report fails behind a clean one', clean, more=['fail report 1'], said=(8, ''))
    case('the report fails behind breaches', found, more=['fail report 1'], said=(18, ''))
    case('the report fails behind a fault', '= grey first 12', more=['fail report 1'], fault=('NotMpeg2', 96), said=(9, ''))


for add in (words, worked, broken_headers, broken_pictures, places, texts, stops, endpoints):
    add()
