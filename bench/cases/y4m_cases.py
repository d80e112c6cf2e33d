"""The cases of m2v_test_cases on encode-y4m, printed by bench/cases/y4m.py. The text is read by the reader there, and what
is wanted of its frames is what the encoder of bench/cases/encoded.py makes of them; or, where a case of encode has the
same frames, sizes, rate and options, what stands in that case."""

import y4m
from encoded import Settings, encoded, groups_of
from encoded_cases import output_lines
from pictures import lines_of
from pictures_decoder import decoded
from table_lines import comment_lines, read_bytes, read_table, runs, stream_words

STREAMS, ENCODE = read_table('bench/cases/y4m.py')
PLAIN = dict(bits=100, buffer=1)
ONE = dict(PLAIN, group=1, step=1)
UNFIT = dict(PLAIN, group=10)
HEAD = b'YUV4MPEG2 W16 H16 F25:1 Ip A0:0 C420mpeg2\n'
LINE = b'FRAME\n'
GREY = bytes([128] * 384)
FRAME = LINE + GREY
NAMED = {HEAD: 'y4m_header', FRAME: 'y4m_frame'}
# what is written of three grey frames in groups of one before their end is seen
GROUPS = encoded(Settings(16, 16, 3, **ONE), 3)
BEGUN = GROUPS.data[:GROUPS.ends[1]]
CASES = []

# the worked example: a text, and the stream of its frame
WORKED_HEADER = b'YUV4MPEG2 W16 H16 F25:1 Ip A1:1 C420jpeg XYSCSS=420JPEG\n'
WORKED_STREAM = '''00 00 01 B3 01 00 10 23 00 19 20 08 00 00 01 B5 14 8A 00 01 00 00 00 00 01 B8 00 08 00 40 00 00 01 00 00 0B 51 A8
    00 00 01 B5 8F FF F3 41 80 00 00 01 01 43 94 A5 22 20 00 00 01 B7'''


def words_of(options, recon=None):
    words = ['encode-y4m']
    for key, value in options.items():
        words += ['--' + key] if value is True else ['--' + key, str(value)]
    return ' '.join(words + (['--recon', recon] if recon else []))


def coded(s, frames):
    """The stream of frames, and the raw bytes that it decodes to."""
    if all(set(frame) == {128} for frame in frames):
        return encoded(s, len(frames)), b''.join(frames)
    answer = encoded(s, len(frames), frames)
    assert decoded(answer.data).frames == answer.frames
    return answer, b''.join(answer.frames)


def held(stream, shown, recon):
    """Lines on what output and the place for reconstructions hold."""
    place = [*lines_of('recon', [[word] for word in runs(shown)]), 'recon_name ' + recon] if recon else []
    return [*(['output = two_groups'] if stream == BEGUN else output_lines(stream)), *place]


def begun(s, frames, recon):
    """What they hold of an input that stops behind these frames: the groups whose next I frame was read whole, each as it
    is before any further frames."""
    whole = max(0, len(frames) - 1) // s.group
    if not whole:
        return held(b'', b'', recon)
    first = groups_of(s, whole * s.group + 1)[:whole]
    answer, shown = coded(s, frames[:whole * s.group + 1])
    size = y4m.size_of(s.width, s.height) * sum(map(len, first))
    return held(answer.data[:answer.ends[whole - 1]], shown[:size], recon)


def answer_to(options, text, recon=None):
    """Lines on what is wanted of a text."""
    try:
        width, height, rate, at = y4m.header(text)
    except y4m.Fault as f:
        return ['status 15', 'report ' + y4m.told(f)]
    s = Settings(width, height, rate, **options)
    unfit = s.unfit()
    if unfit:
        return ['status 3', 'report ' + unfit]
    frames, extra, fault = y4m.frames_behind(text, at, y4m.size_of(width, height))
    if fault:
        return ['status 15', 'report ' + y4m.told(fault), *begun(s, frames, recon)]
    if extra:
        return ['status 4', 'report short frame extra %d' % extra, *begun(s, frames, recon)]
    if not frames:
        return ['status 5', 'report no frames', *held(b'', b'', recon)]
    answer, shown = coded(s, frames)
    return ['report ' + answer.line(len(frames)), *held(answer.data, shown, recon)]


def input_lines(parts):
    return list(lines_of('input', [['=', NAMED[part]] if part in NAMED else runs(part) for part in parts]))


def case(name, options, *parts, recon=None, more=(), instead=None, words=None, comment=''):
    """The parts of a text; what is wanted is what the reader and the encoder say, unless something stands instead."""
    wanted = answer_to(options, b''.join(parts), recon) if instead is None else instead
    CASES.append((name, comment, ['words ' + (words or words_of(options, recon)), *input_lines(parts), *more, *wanted]))


def taken(lines):
    """The words of a case of encode: sizes and rate, and the other ones."""
    words = dict(lines)['words'].split()
    numbers = []
    for option in ('--width', '--height', '--rate'):
        at = words.index(option)
        numbers.append(int(words[at + 1]))
        del words[at:at + 2]
    return numbers, words[1:]


def frame_lines(lines, size):
    """Lines of a text with the frames of a case of encode, its raw bytes, and the frames as the text has them."""
    given = [rest for key, rest in lines if key == 'input']
    raw = b''.join(read_bytes(STREAMS, rest) for rest in given)
    parts = [raw[at:at + size] for at in range(0, len(raw), size)]
    text = b''.join(LINE + part for part in parts)
    if len(given) == 1:
        return input_lines([LINE + part for part in parts]), raw, text
    assert [read_bytes(STREAMS, rest) for rest in given] == parts
    line = 'input ' + LINE.hex(' ').upper()
    return [both for rest in given for both in (line, 'input ' + rest)], raw, text


def like(name, workers=None):
    """A case of encode, of whose frames a text is made. Where settings don't pass, its input needn't be whole frames."""
    lines = ENCODE['encode: ' + name]
    (width, height, code), words = taken(lines)
    if workers:
        words = words[:words.index('--workers')] if '--workers' in words else words
        words, name = words + ['--workers', str(workers)], '%s, workers: %d' % (name, workers)
    interlace = 't' if '--scan' in words else 'p'
    header = ('YUV4MPEG2 W%d H%d F%d:%d I%s A0:0 C420mpeg2\n' % (width, height, *y4m.RATES[code], interlace)).encode()
    size = y4m.size_of(width, height)
    frames, raw, text = frame_lines(lines, size)
    assert y4m.header(header + text) == (width, height, code, len(header))
    found, extra, fault = y4m.frames_behind(header + text, len(header), size)
    assert not fault and b''.join(found) == raw[:len(raw) - extra] and len(raw) % size == extra
    wanted = ['%s %s' % line for line in lines if line[0] not in ('words', 'input')]
    CASES.append((name, '', ['words ' + ' '.join(['encode-y4m', *words]), *input_lines([header]), *frames, *wanted]))


def heading(text):
    CASES.append((None, text, []))


def table():
    for add in (worked, same, headers, header_faults, words, frame_faults, ends, order, endpoints):
        add()
    yield from ('# ---- encode-y4m: texts', '')
    for part, name in NAMED.items():
        yield from ('stream ' + name, *lines_of('bytes', [runs(part)]), '')
    yield from ('stream two_groups', *lines_of('bytes', stream_words(BEGUN)), '')
    for name, comment, lines in CASES:
        if name is None:
            yield from (*comment_lines('---- encode-y4m: ' + comment), '')
            continue
        yield from comment_lines(comment)
        yield from ('case encode-y4m: ' + name, *lines, '')


def worked():
    heading('a worked example')
    assert bytes.fromhex(WORKED_STREAM) == STREAMS['grouped']
    case('a grey frame', PLAIN, WORKED_HEADER, FRAME, instead=[
        'report frames 1 pictures 1 bytes 60 stuffing 0', 'output = grouped'])
    assert CASES[-1][2][-2:] == answer_to(PLAIN, WORKED_HEADER + FRAME)


def same():
    heading('texts of the frames of cases of encode. The stream, the line and the reconstructions are those of that case.')
    for name in (
            'two grey frames', 'two grey frames at 15 Mbit/s', 'two frames of 45 macroblocks in a row',
            'six frames: I0 P3 B1 B2 P5 B4', 'a frame of 2 by 2 samples', 'a frame of two fields', 'groups of one frame',
            'three frames of film', '50 frames a second at High level', 'four frames of 720 by 576 with workers: 8',
            'a last group with leading B frames', 'closed groups', 'closed groups, and a last frame in between',
            'steps of 4', 'a delay of its own', 'another aspect', 'search 0', '16 workers',
            'a width and a height that are no whole macroblocks', 'interlaced frames', 'fields',
            'fields in groups of one frame', 'film with B frames', 'film in closed groups of 2', 'rate code 1',
            'rate code 2', 'rate code 4', 'rate code 5', 'rate code 7 at High 1440 level',
            'rate code 8 at High 1440 level', 'full buffers with film', 'a time code of a second',
            'two rows by two workers', 'edges in closed groups', 'edges in interlaced frames', 'edges in fields',
            'edges in film', 'a size that is no whole macroblocks', 'grey frames with reconstructions: 1',
            'grey frames with reconstructions: 2', 'six frames with reconstructions', 'fields with reconstructions',
            'by the source: two grey frames', 'by the source: a cut', 'by the source: edges in film',
            'by the source: noise in fields', 'by weights, as it is said'):
        like(name)
    for name in ('noise in three groups', 'noise in fields'):
        for workers in (1, 2, 8, 16):
            like(name, workers)
    heading('texts of the frames of cases of encode whose settings do not pass, or that end early')
    for name, lines in ENCODE.items():
        if name.startswith('encode: ') and not any(key in ('fail', 'each') for key, _ in lines):
            status = dict(lines).get('status')
            if status in ('4', '5'):
                like(name[8:])
            elif status == '3':
                (width, height, rate), _ = taken(lines)
                if 1 <= width <= 1920 and 1 <= height <= 1152 and rate in y4m.RATES:
                    like(name[8:])


def named(first, second, more=b''):
    return HEAD.replace(first, second)[:-1] + more + b'\n'


def long_line(line, length):
    """A line with a word that makes it so long, with its newline."""
    start = line[:-1] + b' X'
    return start + b'x' * (length - len(start) - 1) + b'\n'


def headers():
    heading('header lines')
    for name, header in (
            ('in another order', b'YUV4MPEG2 C420mpeg2 A0:0 F25:1 Ip H16 W16\n'),
            ('W, H and F alone', b'YUV4MPEG2 W16 H16 F25:1\n'), ('F first', b'YUV4MPEG2 F25:1 W16 H16\n'),
            ('leading zeros', b'YUV4MPEG2 W0016 H016 F0000000025:0000000001\n'),
            ('words of other letters', named(b'A0:0', b'A128:117 A1:1 w17 Y Q- XCOLORRANGE=LIMITED X X1 X1')),
            ('a word with bytes that are no letters', named(b'A0:0', b'X\xFF\x00\t\r')),
            ('1,024 bytes', long_line(HEAD, 1024)), ('1,023 bytes', long_line(HEAD, 1023))):
        case('a header, ' + name, PLAIN, header, FRAME)
    for value in (b'p', b't', b'?'):
        case('I' + value.decode(), PLAIN, named(b'Ip', b'I' + value), FRAME)
    tall = named(b'H16', b'H32')
    for scan, value in (('frames', b'p'), ('fields', b'?'), ('fields', b'p')):
        case('I%s, coded as %s' % (value.decode(), scan), {**PLAIN, 'scan': scan}, tall.replace(b'Ip', b'I' + value),
             LINE + bytes([128] * 768), comment='How frames are coded is what the options say.')
    for value in (b'420', b'420jpeg', b'420mpeg2', b'420paldv'):
        case('C' + value.decode(), PLAIN, named(b'C420mpeg2', b'C' + value), FRAME)
    for rate in (b'50:2', b'6250000000:250000000', b'24:1', b'48:2', b'24000:1001', b'48000:2002', b'120000:4004', b'60000:2000',
                 b'24000:1000', b'100:2', b'120000:2002', b'240:4'):
        case('F' + rate.decode(), PLAIN, named(b'F25:1', b'F' + rate), FRAME, FRAME)
    case('a frame of 1 by 1 sample', PLAIN, b'YUV4MPEG2 W1 H1 F25:1\n', LINE + bytes(3), comment='YUV4MPEG2 has odd sizes.')
    case('a frame of 17 by 16 samples', PLAIN, b'YUV4MPEG2 W17 H16 F25:1\n', LINE + bytes(17 * 16 + 2 * 9 * 8))
    case('a frame of 16 by 17 samples', PLAIN, b'YUV4MPEG2 W16 H17 F25:1\n', LINE + bytes(17 * 16 + 2 * 8 * 9))


def header_faults():
    heading('header lines that are broken. Nothing is opened or written.')
    for name, header in (
            ('an empty input', b''), ('raw frames alone', b''), ('the first bytes of the magic', b'YUV4MPEG'),
            ('another magic', HEAD.replace(b'MPEG2', b'MPEG22')), ('the magic in small letters', HEAD.lower()),
            ('a byte before the magic', b'\n' + HEAD), ('a frame line alone', b''),
            ('Magic before Line', b'YUV4MPEGX' + b'x' * 2000),
            ('the magic and the end', b'YUV4MPEG2'), ('no newline', HEAD[:-1]), ('1,025 bytes', long_line(HEAD, 1025)),
            ('1,025 bytes with a wrong word', long_line(named(b'Ip', b'Ib'), 1025)),
            ('the magic and a newline', b'YUV4MPEG2\n'), ('two spaces', HEAD.replace(b' H16', b'  H16')),
            ('a space at the end', named(b'', b'', b' ')), ('no W', named(b'W16 ', b'')), ('no H', named(b'H16 ', b'')),
            ('no F', named(b'F25:1 ', b'')), ('W again', named(b' H', b' W16 H')), ('H again', named(b'', b'', b' H16')),
            ('F again', named(b' Ip', b' F25:1 Ip')), ('I again', named(b'', b'', b' Ip')),
            ('C again', named(b'', b'', b' C420')), ('W again with a wrong value', named(b' H', b' W0 H')),
            ('a tab for a space', named(b' H16', b'\tH16')), ('a return before the newline', named(b'', b'', b'\r'))):
        behind = [GREY] if name.startswith('raw') else [FRAME] if header.endswith(b'\n') or 'frame' in name else []
        case('a header, ' + name, PLAIN, *([header] if header else []), *behind)
    for letter, values in (
            ('W', ('', '00016', '+16', '-16', '16x', '0x10', '0', '0000', '1921', '9999', '16.0')),
            ('H', ('', '00016', '0', '1153', '9999')),
            ('F', ('', '25', '25:', ':1', '25:1:1', '25/1', '00000000025:1', '25:00000000001', '+25:1', '0:0', '25:0', '0:1',
                   '1:25', '15:1', '26:1', '24000:1002', '2997:100', '23976:1000', '59940:1000',
                   '4294967321:1', '4294967321:4294967297', '9999999999:1', '120:1')),
            ('I', ('', 'b', 'm', 'P', 'pp', 'i')),
            ('C', ('', '422', '444', 'mono', '411', '420p10', '420mpeg', '420JPEG', '42', '420jpegx'))):
        old = {'W': b'W16', 'H': b'H16', 'F': b'F25:1', 'I': b'Ip', 'C': b'C420mpeg2'}[letter]
        for value in values:
            case('a header, ' + letter + value, PLAIN, named(old, (letter + value).encode()), FRAME)
            assert 'status 15' in CASES[-1][2], value
    for name, header in (
            ('C422 before W0', b'YUV4MPEG2 C422 W0 H16 F25:1\n'), ('W0 before C422', b'YUV4MPEG2 W0 C422 H16 F25:1\n'),
            ('Ib before a missing F', b'YUV4MPEG2 W16 H16 Ib\n'), ('F26:1 before an empty word', b'YUV4MPEG2 F26:1  W16 H16\n'),
            ('an empty word before F26:1', b'YUV4MPEG2  F26:1 W16 H16\n')):
        case('two faults, ' + name, PLAIN, header, FRAME)
    case('a broken header before a broken frame line', PLAIN, named(b'Ip', b'Im'), b'x\n', FRAME)


def words():
    heading('words')
    plain = 'encode-y4m --bits 100 --buffer 1'
    usage = ['status 2', 'report usage']
    for name, line in (
            ('alone', 'encode-y4m'), ('without bits', plain.replace(' --bits 100', '')),
            ('without a buffer', plain.replace(' --buffer 1', '')), ('with a width', plain + ' --width 16'),
            ('with a height', plain + ' --height 16'), ('with a rate', plain + ' --rate 3'),
            ('with sizes and a rate', plain + ' --width 16 --height 16 --rate 3'),
            ('with a width by an equal sign', plain + ' --width=16'),
            ('bits that are no number', plain.replace('100', 'x')), ('bits below 0', plain.replace('100', '-100')),
            ('bits of 33 bits', plain.replace('100', '4294967296')), ('workers of 33 bits', plain + ' --workers 4294967296'),
            ('bits twice', plain + ' --bits 100'), ('an option that is not there', plain + ' --quality 3'),
            ('the option of pack', plain + ' --top'), ('a word too many', plain + ' x'), ('another scan', plain + ' --scan top'),
            ('another level', plain + ' --level low'), ('a flag twice', plain + ' --closed --closed'),
            ('an option without its value', plain + ' --delay'), ('help', 'encode-y4m --help'),
            ('a reconstruction without a name', plain + ' --recon'), ('the beginning of an option', plain + ' --work 2'),
            ('another plan', plain + ' --plan odd'), ('a plan of no letters', plain + ' --plan='),
            ('a plan twice', plain + ' --plan weights --plan even'),
            ('in capitals', plain.replace('y4m', 'Y4M')), ('the end of its name', plain.replace('encode-', '')),
            ('encode, without sizes', plain.replace('-y4m', ''))):
        case('words, ' + name, None, HEAD, FRAME, words=line, instead=usage)
    case('words, before a broken header', None, b'x\n', words=plain + ' --width 16', instead=usage)
    grey = answer_to(PLAIN, HEAD + FRAME)
    case('in another order', None, HEAD, FRAME, words='encode-y4m --buffer 1 --bits 100', instead=grey)
    case('with equal signs', None, HEAD, FRAME, words='encode-y4m --bits=100 --buffer=1', instead=grey)
    case('with all that stands unless said', None, HEAD, FRAME, words=plain + ' --group 12 --step 3 --scan progressive'
         ' --search 15 --aspect 2 --workers 1 --level main --delay 27189 --plan weights', instead=grey)


def frame_faults():
    heading('frame lines. The groups stand whose next I frame was read whole.')
    case('parameters of frame lines', PLAIN, HEAD, b'FRAME Ip\n' + GREY, b'FRAME It XFRAME x\n' + GREY, FRAME,
         b'FRAME W17 H0\n' + GREY)
    case('frame lines of many lengths', PLAIN, HEAD, FRAME,
         *[b'FRAME ' + b'x' * length + b'\n' + GREY for length in (1, 249, 635, 636, 1016, 1017, 640, 1)])
    small = b'YUV4MPEG2 W4 H2 F25:1\n'
    for count in (3, 9, 10, 11):
        case('FRAME and a newline %d times' % count, PLAIN, small, LINE * count, recon='r',
             comment='A frame has 12 bytes; the samples spell two frame lines.')
    case('frames of newlines', ONE, HEAD, LINE + b'\n' * 384, LINE + b'\n' * 384)
    bad = (
        ('another word', b'FRAM\n' + GREY), ('FRAMES', b'FRAMES\n' + GREY), ('small letters', b'frame\n' + GREY),
        ('an empty line', b'\n'), ('a space before FRAME', b' ' + FRAME), ('a tab behind FRAME', b'FRAME\t\n' + GREY),
        ('a bad line, and frames behind it', b'x\n' + FRAME + FRAME), ('FRAME behind another word', b'x ' + FRAME + FRAME),
        ('a byte between frames', b'\x80' + FRAME + FRAME), ('the header line again', HEAD + FRAME),
        ('a frame without a line', GREY + FRAME), ('two frame lines', LINE + FRAME + FRAME),
        ('a bad line behind a bad line', b'x\ny\n' + FRAME), ('an end behind a frame line', LINE),
        ('an end behind a frame line with parameters', b'FRAME Ip\n'), ('an end in a frame line', b'FRAME'),
        ('an end in a bad line', b'x'), ('a byte 0 at the end', b'\0'), ('the beginning of FRAME', b'F'),
        ('a frame line of 1,025 bytes', long_line(LINE, 1025) + GREY), ('a bad line of 1,024 bytes', b'x' * 1023 + b'\n' + FRAME),
        ('Line before Frame', b'x' * 1024 + b'\n' + FRAME))
    for name, rest in bad:
        for count, options, recon in ((0, PLAIN, None), (3, ONE, 'r')):
            where = 'behind three frames in groups of one' if count else 'first'
            case('%s, %s' % (name, where), options, HEAD, *[FRAME] * count, rest, recon=recon)
            assert 'status 15' in CASES[-1][2], name
    for count in (1, 2, 4):
        case('a bad line behind whole frames in groups of one: %d' % count, ONE, HEAD, *[FRAME] * count, b'x\n', recon='r')
    pairs = dict(PLAIN, group=4, step=2)
    tall = HEAD.replace(b'H16', b'H32'), *[LINE + bytes([128] * 768)] * 3
    for name, options, parts in (
            ('twelve frames', PLAIN, [HEAD] + [FRAME] * 12), ('thirteen frames', PLAIN, [HEAD] + [FRAME] * 13),
            ('four frames in groups of four', pairs, [HEAD] + [FRAME] * 4),
            ('five frames in groups of four', pairs, [HEAD] + [FRAME] * 5),
            ('nine frames in closed groups of four', {**pairs, 'closed': True}, [HEAD] + [FRAME] * 9),
            ('three frames of fields in groups of one', {**ONE, 'scan': 'fields', 'workers': 2}, tall)):
        case('a bad line behind ' + name, options, *parts, b'x\n' + FRAME, recon='r')
    small = b'YUV4MPEG2 W8 H8 F25:1\n'
    slanted = [LINE + bytes((7 * column + 11 * row + shift) % 256 for row in range(12) for column in range(8))
               for shift in (0, 9, 40)]
    case('a bad line behind three frames with content', dict(ONE, bits=300, buffer=3), small, *slanted, b'x\n', recon='r')


def ends():
    heading('texts that end early')
    case('a header line alone', PLAIN, HEAD)
    case('a header line alone, with a place for reconstructions', PLAIN, HEAD, recon='r')
    for name, options, count in (('first', PLAIN, 0), ('behind three frames in groups of one', ONE, 3)):
        for extra in (1, 383):
            case('a frame with %d of its bytes, %s' % (extra, name), options, HEAD, *[FRAME] * count,
                 FRAME[:6 + extra], recon='r')
    case('a frame that is short by a byte, and another one', ONE, HEAD, FRAME, FRAME[:-1] + FRAME, recon='r',
         comment='Its last byte is the F of the next line.')
    case('a frame that is short by a whole line and frame', PLAIN, HEAD, LINE + FRAME[:383])


def order():
    heading('what comes first: words, the header line, settings, the opening of recon, frames')
    case('settings that do not pass, and a broken frame line', UNFIT, HEAD, b'x\n' + FRAME)
    case('settings that do not pass, and a frame that ends early', UNFIT, HEAD, FRAME[:-1])
    case('settings that do not pass, and no frames', UNFIT, HEAD)
    case('settings that do not pass, and a header line that ends early', UNFIT, HEAD[:-1])
    case('settings that do not pass, and a broken header', UNFIT, named(b'Ip', b'Im'), FRAME)
    case('a broken header, with a place for reconstructions', PLAIN, named(b'C420mpeg2', b'C422'), FRAME, recon='r',
         comment='It is not opened.')
    shut, write = ['fail recon 1'], ['status 8', 'report write fault']
    for name, options, parts in (
            ('a broken header', PLAIN, [named(b'C420mpeg2', b'C422'), FRAME]),
            ('settings that do not pass', UNFIT, [HEAD, FRAME]),
            ('settings that do not pass and a broken frame line', UNFIT, [HEAD, b'x\n'])):
        case(name + ' before a place that does not open', options, *parts, recon='r', more=shut,
             instead=answer_to(options, b''.join(parts), 'r'))
    for name, parts in (
            ('frames', [FRAME, FRAME]), ('a broken frame line', [b'x\n']), ('no frames', []),
            ('a frame that ends early', [FRAME[:-1]])):
        case('a place that does not open before ' + name, PLAIN, HEAD, *parts, recon='r', more=shut, instead=write)
    read, first = ['status 7', 'report read fault'], ['fail input 1']
    case('the input fails at its first call', PLAIN, HEAD, FRAME, more=first, instead=read)
    case('the input fails at its first call, with a place for reconstructions', PLAIN, HEAD, FRAME, recon='r', more=first,
         instead=read, comment='It is not opened, since the header line was not read.')
    case('the input fails at its first call before a place that does not open', PLAIN, HEAD, FRAME, recon='r',
         more=first + shut, instead=read)
    case('the input fails at its first call before settings that do not pass', UNFIT, HEAD, FRAME, more=first, instead=read)
    case('the input fails at its first call before a broken header', PLAIN, b'x\n', more=first, instead=read)
    case('words that are refused before an input that fails', None, HEAD, FRAME, more=first,
         words='encode-y4m --bits 100 --buffer 1 --rate 3', instead=['status 2', 'report usage'])


def endpoints():
    heading('endpoints that fail')
    broken = [HEAD, FRAME, FRAME, FRAME, b'x\n']
    texts = (('two frames', PLAIN, [HEAD, FRAME, FRAME]), ('four frames in groups of one', ONE, [HEAD] + [FRAME] * 4),
             ('a text that breaks behind three frames', ONE, broken),
             ('a text that ends in a third frame', ONE, [HEAD, FRAME, FRAME, FRAME[:9]]))
    for name, options, parts in texts:
        case(name + ', each call of the input fails in turn', options, *parts, more=['each input'],
             comment='Without a place for reconstructions, since that is open only behind the header line.')
        for endpoint in ('output', 'recon', 'report'):
            case('%s, each call of the %s fails in turn' % (name, endpoint), options, *parts, recon='r', more=['each ' + endpoint])
    for name, options, parts in (
            ('a header line alone', PLAIN, [HEAD]), ('settings that do not pass', UNFIT, [HEAD, FRAME]),
            ('a broken header', PLAIN, [named(b'C420mpeg2', b'C422'), FRAME])):
        for endpoint in ('input', 'report'):
            case('%s, each call of the %s fails in turn' % (name, endpoint), options, *parts, more=['each ' + endpoint])
    case('the output fails at its first call', PLAIN, HEAD, FRAME, more=['fail output 1'], instead=['status 8', 'report write fault'])
    case('the report fails after success', PLAIN, HEAD, FRAME, more=['fail report 1'], instead=['status 8', 'output = grouped'])
    case('the report fails after a broken header', PLAIN, b'x\n', more=['fail report 1'], instead=['status 15'])
    case('the report fails after a broken frame line', PLAIN, HEAD, FRAME, b'x\n', more=['fail report 1'], instead=['status 15'])
    case('the report fails after settings that do not pass', UNFIT, HEAD, FRAME, more=['fail report 1'], instead=['status 3'])
