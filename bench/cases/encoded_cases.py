"""The cases of m2v_test_cases on encode, printed by bench/cases/encoded.py. What is wanted is what the encoder there makes
of the frames, and its test of settings; what it makes of the worked examples was held against them."""

from encoded import Settings, encoded, groups_of
from pictures import lines_of
from table_lines import comment_lines, read_bytes, read_table, runs, stream_words

STREAMS, _ = read_table('bench/cases/encoded.py')
KNOWN, CASES = [], []
SMALL = dict(width=16, height=16, rate=3, bits=100, buffer=1)
TALL = dict(width=16, height=32, rate=3, bits=100, buffer=1)
WIDE = dict(width=720, height=576, rate=3, bits=15000, buffer=112)
FEW_LINES = 14


def words_of(settings, recon=None):
    words = ['encode']
    for key, value in settings.items():
        words += ['--' + key] if value is True else ['--' + key, str(value)]
    return ' '.join(words + (['--recon', recon] if recon else []))


def output_lines(data):
    for name, known in STREAMS.items():
        if data and data == known:
            return ['output = ' + name]
    lines = list(lines_of('output', stream_words(data))) if data else []
    if len(lines) <= FEW_LINES:
        return lines
    total = 0
    for byte in data:
        total = (31 * total + byte) % 2 ** 32
    return ['length %d' % len(data), 'sum %d' % total]


def frame_bytes(s):
    return s.width * s.height + 2 * ((s.width + 1) // 2) * ((s.height + 1) // 2)


def wanted(s, count, extra, recon):
    """Lines on what is wanted of so many whole frames and bytes behind them."""
    unfit = s.unfit()
    if unfit:
        return ['status 3', 'report ' + unfit]
    name = ['recon_name ' + recon] if recon else []
    if not count and not extra:
        return ['status 5', 'report no frames', *name]
    if not extra:
        coded = encoded(s, count)
        held = ['recon %d*80' % (count * frame_bytes(s))] if recon else []
        return ['report ' + coded.line(count), *output_lines(coded.data), *held, *name]
    # groups whose next I frame was read whole; each ends as it would before any further frames
    whole = max(0, (count - 1) // s.group) if count else 0
    coded = encoded(s, whole * s.group + 1) if whole else None
    frames = sum(map(len, groups_of(s, whole * s.group + 1)[:whole])) if whole else 0
    held = ['recon %d*80' % (frames * frame_bytes(s))] if recon and frames else []
    return ['status 4', 'report short frame extra %d' % extra,
            *(output_lines(coded.data[:coded.ends[whole - 1]]) if whole else []), *held, *name]


def case(name, settings, count=1, extra=0, recon=None, more=(), comment='', words=None, instead=None):
    """Frames, and bytes behind them; what is wanted is what the encoder says, unless something stands instead."""
    s = Settings(**settings) if settings else None
    size = count * frame_bytes(s) + extra if s else 384
    lines = ['words ' + (words or words_of(settings, recon))] + (['input %d*80' % size] if size else []) + list(more)
    CASES.append((name, comment, lines + (instead if instead is not None else wanted(s, count, extra, recon))))


def content(name, settings, frames, recon=None, comment=''):
    """Frames in words of the table, one after another, each a line of words or several."""
    s = Settings(**settings)
    assert not s.unfit()
    frames = [[frame] if isinstance(frame, str) else frame for frame in frames]
    raw = [b''.join(read_bytes(STREAMS, text) for text in frame) for frame in frames]
    assert all(len(frame) == frame_bytes(s) for frame in raw)
    coded = encoded(s, len(raw), raw)
    lines = ['words ' + words_of(settings, recon)] + ['input ' + text for frame in frames for text in frame]
    lines += ['report ' + coded.line(len(raw)), *output_lines(coded.data)]
    if recon:
        lines += [*lines_of('recon', [[word] for word in runs(b''.join(coded.frames))]), 'recon_name ' + recon]
    CASES.append((name, comment, lines))


def heading(text):
    CASES.append((None, text, []))


def known(name, *lines):
    """A stream that cases name."""
    STREAMS[name] = b''.join(read_bytes(STREAMS, line) for line in lines)
    KNOWN.append((name, lines))


def table():
    for add in (worked, streams, contents, by_source, tests, words, endings, endpoints):
        add()
    yield from ('', '# ---- encode: bytes for frames', '')
    for name, lines in KNOWN:
        yield from ('stream ' + name, *['bytes ' + line for line in lines], '')
    for name, comment, lines in CASES:
        if name is None:
            yield from (*comment_lines('---- encode: ' + comment), '')
            continue
        yield from comment_lines(comment)
        yield from ('case encode: ' + name, *lines, '')


def worked():
    heading('worked examples')
    case('a grey frame', SMALL)
    case('two grey frames', SMALL, 2)
    case('two grey frames at 15 Mbit/s', {**SMALL, 'bits': 37500, 'buffer': 112}, 2,
         comment='17602 zero bytes bring what has come to exactly what the buffer takes.')
    case('two frames of 45 macroblocks in a row', {**SMALL, 'width': 720, 'bits': 1000, 'buffer': 10}, 2,
         comment='The P slice codes the first and the last one and skips 43: increment 44, escape and 11.')
    case('six frames that just pass', {**WIDE, 'bits': 3266, 'buffer': 58, 'search': 0}, 6,
         comment='The bits of an interval are exactly those of an emergency picture.')
    case('settings one unit of the rate below', {**WIDE, 'bits': 3265, 'buffer': 58, 'search': 0}, 6)
    case('settings with one unit of buffer more', {**WIDE, 'bits': 3266, 'buffer': 59, 'search': 0}, 6)
    case('groups of 10 by steps of 3', {**SMALL, 'group': 10, 'step': 3})
    case('six frames: I0 P3 B1 B2 P5 B4', SMALL, 6)
    case('five frames: I0 P3 B1 B2 P4', SMALL, 5)
    case('a frame of 2 by 2 samples', {**SMALL, 'width': 2, 'height': 2})
    case('a frame of two fields', {**TALL, 'scan': 'fields'})
    case('groups of one frame', {**SMALL, 'group': 1, 'step': 1}, 2)
    film = {**TALL, 'rate': 4, 'scan': 'frames', 'pulldown': True, 'step': 1}
    case('three frames of film', film, 3)
    case('film in fields', {**film, 'scan': 'fields'}, 3)
    case('film at 25 frames a second', {**film, 'rate': 3}, 3)
    large = dict(width=1920, height=1080, rate=4, bits=50000, buffer=597, scan='frames', level='high', search=0)
    case('1920 by 1080 at High level', large)
    case('1920 by 1080 at High 1440 level', {**large, 'level': 'high1440'})
    case('50 frames a second at Main level', {**SMALL, 'rate': 6})
    case('50 frames a second at High level', {**SMALL, 'rate': 6, 'level': 'high'})
    ordinary = {**WIDE, 'scan': 'frames', 'search': 2}
    for workers in (1, 8):
        case('four frames of 720 by 576 with workers: %d' % workers, {**ordinary, 'workers': workers}, 4)


def streams():
    heading('groups, steps, scans and levels')
    for name, settings, count in (
            ('a last group with leading B frames', dict(group=6), 14),
            ('the last frame is an I frame', dict(group=3), 7),
            ('closed groups', dict(group=4, step=2, closed=True), 9),
            ('closed groups, and a last frame in between', dict(group=6, step=3, closed=True), 8),
            ('steps of 4', dict(group=4, step=4), 10),
            ('steps of 1', dict(group=5, step=1), 7),
            ('a delay of its own', dict(delay=2000), 3),
            ('another aspect', dict(aspect=3), 1),
            ('search 0', dict(search=0), 5),
            ('16 workers', dict(workers=16), 5)):
        case(name, {**SMALL, **settings}, count)
    for count in (2, 3, 4):
        case('%d frames at the defaults' % count, SMALL, count)
    for columns in (2, 3, 34, 35, 36):
        case('%d columns' % columns, {**SMALL, 'width': 16 * columns, 'bits': 500, 'buffer': 6}, 2)
    case('a width and a height that are no whole macroblocks', {**SMALL, 'width': 18, 'height': 34}, 2)
    case('three rows', {**SMALL, 'height': 48}, 4)
    case('interlaced frames', {**TALL, 'scan': 'frames'}, 6)
    case('interlaced frames of 36 lines', {**TALL, 'height': 36, 'scan': 'frames', 'bits': 200, 'buffer': 2}, 2)
    case('fields', {**TALL, 'scan': 'fields'}, 6)
    case('fields of 36 lines', {**TALL, 'height': 36, 'scan': 'fields', 'bits': 200, 'buffer': 2}, 2)
    case('fields in groups of one frame', {**TALL, 'scan': 'fields', 'group': 1, 'step': 1}, 3)
    film = {**TALL, 'rate': 4, 'scan': 'frames', 'pulldown': True}
    case('film with B frames', film, 9)
    case('film in two groups', {**film, 'rate': 5, 'group': 3}, 8)
    case('film in closed groups of 2', {**film, 'group': 4, 'step': 2, 'closed': True}, 9)
    for rate in (1, 2, 4, 5):
        case('rate code %d' % rate, {**SMALL, 'rate': rate}, 3)
    for rate in (7, 8):
        case('rate code %d at High 1440 level' % rate, {**SMALL, 'rate': rate, 'level': 'high1440'}, 3)
    case('full buffers: zero bytes behind each picture', {**SMALL, 'bits': 37500, 'buffer': 112}, 8)
    case('full buffers with fields', {**TALL, 'bits': 20000, 'buffer': 60, 'scan': 'fields'}, 5)
    case('full buffers with film', {**film, 'bits': 37500, 'buffer': 112}, 7)
    case('full buffers in groups of one frame', {**SMALL, 'bits': 37500, 'buffer': 112, 'group': 1, 'step': 1}, 4)
    case('a time code of a second', {**SMALL, 'group': 1, 'step': 1}, 27)
    case('time codes of film', {**film, 'group': 5, 'step': 1}, 31)
    case('a time code of a minute', {**SMALL, 'width': 2, 'height': 2, 'group': 50, 'step': 1, 'rate': 1}, 1451,
         comment='The group of frame 1450 begins 10 frames behind a minute.')
    case('a whole frame of fields', {**WIDE, 'scan': 'fields', 'search': 1}, 2)


SMALL_CLIP = dict(width=48, height=48, rate=3, search=3)
TALL_CLIP = dict(width=48, height=64, rate=3, search=2)


def noise(size, *places):
    return ['= noise from %d first %d' % (place, size) for place in places]


def edges(size, *places):
    return ['%d*pattern from %d first %d' % (size + 100, place, size) for place in places]


def clips():
    """Frames with content by names, each with its settings."""
    small, tall = SMALL_CLIP, TALL_CLIP
    return [
        ('noise that moves', {**small, 'bits': 2000, 'buffer': 16}, noise(3456, 0, 1, 3, 2, 50, 51)),
        ('noise at a low rate', {**small, 'bits': 120, 'buffer': 2}, noise(3456, 0, 1, 3, 2, 50, 51)),
        ('edges', {**small, 'bits': 600, 'buffer': 6}, edges(3456, 0, 3, 9, 6, 12, 15, 40)),
        ('edges in closed groups', {**small, 'bits': 600, 'buffer': 6, 'group': 4, 'step': 2, 'closed': True},
         edges(3456, 0, 3, 9, 6, 12, 15, 40, 1, 90)),
        ('edges with search 0', {**small, 'bits': 600, 'buffer': 6, 'search': 0}, edges(3456, 0, 3, 9, 6)),
        ('edges with search 15', {**small, 'bits': 600, 'buffer': 6, 'search': 15}, edges(3456, 0, 30, 90)),
        ('noise in interlaced frames', {**tall, 'bits': 2500, 'buffer': 20, 'scan': 'frames'},
         noise(4608, 0, 1, 3, 2)),
        ('edges in interlaced frames', {**tall, 'bits': 700, 'buffer': 7, 'search': 4, 'scan': 'frames'},
         edges(4608, 0, 3, 9, 6, 12)),
        ('noise in interlaced frames at a low rate', {**tall, 'bits': 160, 'buffer': 2, 'scan': 'frames'},
         noise(4608, 0, 1, 3, 2)),
        ('noise in fields', {**tall, 'bits': 2500, 'buffer': 20, 'scan': 'fields'}, noise(4608, 0, 1, 3, 2)),
        ('edges in fields', {**tall, 'bits': 700, 'buffer': 7, 'search': 3, 'scan': 'fields'},
         edges(4608, 0, 3, 9, 6, 12)),
        ('noise in fields at a low rate', {**tall, 'bits': 160, 'buffer': 2, 'scan': 'fields'},
         noise(4608, 0, 1, 3, 2)),
        ('noise where an interval brings just an emergency picture',
         {**tall, 'bits': 60, 'buffer': 1, 'search': 0}, noise(4608, 0, 1, 3, 2, 50, 51)),
        ('noise in interlaced frames, where an interval brings just an emergency picture',
         {**tall, 'bits': 60, 'buffer': 1, 'scan': 'frames'}, noise(4608, 0, 1, 3, 2)),
        ('noise in fields, where an interval brings just an emergency picture',
         {**tall, 'bits': 86, 'buffer': 1, 'scan': 'fields'}, noise(4608, 0, 1, 3, 2)),
        ('edges in film', {**tall, 'rate': 4, 'bits': 800, 'buffer': 8, 'scan': 'frames', 'pulldown': True},
         edges(4608, 0, 3, 9, 6, 12, 15, 18)),
        ('noise in three groups', {**small, 'bits': 1500, 'buffer': 12, 'group': 3, 'workers': 4},
         noise(3456, 0, 1, 3, 2, 50, 51, 52, 90)),
        ('a size that is no whole macroblocks', {**small, 'width': 34, 'height': 22, 'bits': 500, 'buffer': 5},
         edges(1122, 0, 3, 9, 6)),
        ('fields of 36 lines with content',
         {**tall, 'width': 34, 'height': 36, 'bits': 900, 'buffer': 9, 'scan': 'fields'}, noise(1836, 0, 1, 3)),
        ('interlaced frames of 36 lines with content',
         {**tall, 'width': 34, 'height': 36, 'bits': 900, 'buffer': 9, 'scan': 'frames'}, noise(1836, 0, 1, 3)),
        ('noise in I frames at a high rate', {**small, 'bits': 6000, 'buffer': 60, 'group': 1, 'step': 1},
         noise(3456, 0, 1, 3, 2, 50, 51, 52, 90)),
        ('noise in groups of three at a high rate', {**small, 'bits': 6000, 'buffer': 60, 'group': 3},
         noise(3456, 0, 1, 3, 2, 50, 51, 52, 90))
    ]


def contents():
    heading('frames with content')
    luma = ['%02X' % ((7 * c + 11 * y) % 256) for y in range(32) for c in range(16)]
    content('two rows by two workers', {**TALL, 'workers': 2}, ['= slanted 256*80'], recon='r',
            comment='Luma is 7 c + 11 y modulo 256 in line y and column c.')
    assert read_bytes(STREAMS, '= slanted').hex(' ').upper().split() == luma
    for name, settings, frames in clips():
        content(name, settings, frames)
        # one group of each scan by one worker and by four
        if name in ('noise that moves', 'noise in interlaced frames', 'noise in fields'):
            content(name + ', by four workers', {**settings, 'workers': 4}, frames)
    small = SMALL_CLIP
    stripes = {**small, 'bits': 2000, 'buffer': 16, 'step': 1}
    content('slanted stripes that move', stripes,
            ['= stripes from %d first 2304 1152*80' % place for place in (0, 2, 1, 4, 1)],
            comment='Many vectors are equally good, those of one sum of parts.')
    for scan, height, size in (('progressive', 48, 3456), ('frames', 64, 4608), ('fields', 64, 4608)):
        content('even frames of other levels, %s' % scan,
                {**small, 'height': height, 'bits': 600, 'buffer': 6, 'scan': scan},
                ['%d*%02X' % (size, level) for level in (60, 61, 118, 120, 121, 64, 63, 63, 119)],
                comment='All vectors are equally good.')
    content('slanted stripes that move by half a sample', stripes, [
        '= stripes first 2304 1152*80', '= half_stripes first 2304 1152*80',
        '= half_stripes from 2 first 2304 1152*80'])


def slope(name, step, width, *starts):
    """Lines of a stream whose sample k is step k, with the first ones as named."""
    return ['= %s from %d first %d' % (name, start * pow(step, -1, 256) % 256, width) for start in starts]


def slanted(width, height, count, across=7, down=11, time=5, odd=0):
    """Frames of luma (across c + down y + odd (y mod 2) + time t) mod 256 and grey chroma."""
    chroma = '%d*80' % (2 * ((width + 1) // 2) * ((height + 1) // 2))
    starts = [[down * y + odd * (y % 2) + time * t for y in range(height)] for t in range(count)]
    return [[*slope('by_%d' % across, across, width, *frame), chroma] for frame in starts]


def beside_even(width, height, count):
    """Frames whose first 24 columns are even, and whose others move."""
    chroma = '%d*80' % (2 * ((width + 1) // 2) * ((height + 1) // 2))
    frames = []
    for t in range(count):
        moving = slope('by_37', 37, width - 24, *[37 * 24 + 23 * y + 9 * t for y in range(height)])
        frames.append([line for one in moving for line in ('24*%02X' % (100 + t), one)] + [chroma])
    return frames


def by_source():
    heading('plans by the source')
    even = {'plan': 'even'}
    case('by the source: a grey frame', {**SMALL, **even})
    case('by the source: two grey frames', {**SMALL, **even}, 2)
    case('by the source: two grey frames at 15 Mbit/s', {**SMALL, 'bits': 37500, 'buffer': 112, **even}, 2)
    case('by the source: six grey frames at the least rate', {**WIDE, 'bits': 3266, 'buffer': 58, 'search': 0, **even}, 6)
    case('by the source: 13 grey frames of fields in groups of 4',
         {**TALL, 'scan': 'fields', 'bits': 200, 'buffer': 2, 'group': 4, 'step': 2, **even}, 13)
    line = dict(width=32, height=16, rate=3, search=2, buffer=1)
    content('by the source: a frame of slanted lines', {**line, 'bits': 200, **even}, slanted(32, 16, 1),
            comment='Luma of frame t, line y and column c is 7 c + 11 y + 5 t modulo 256.')
    content('by the source: slanted lines, and a last group of one picture', {**line, 'bits': 300, **even},
            slanted(32, 16, 13))
    content('by the source: slanted lines in fields of 20 lines',
            {**line, 'width': 18, 'height': 20, 'rate': 5, 'bits': 300, 'scan': 'fields', 'group': 2, 'step': 2, 'search': 1,
             **even}, slanted(18, 20, 4))
    fields = {**line, 'height': 32, 'bits': 300, 'buffer': 2, 'search': 3}
    content('by the source: interlaced frames, whose fields are far apart', {**fields, 'scan': 'frames', **even},
            slanted(32, 32, 4, 5, 3, 8, 40),
            comment='The lines of the bottom field are 40 above those of the top field.')
    content('by the source: fields that are far apart', {**fields, 'scan': 'fields', 'step': 2, **even},
            slanted(32, 32, 3, 5, 3, 8, 40))
    content('by the source: even columns, and behind them others that move',
            {**line, 'width': 80, 'bits': 90, **even}, beside_even(80, 16, 5),
            comment='Behind the even macroblocks of a row the quantiser rises.')
    for name, settings, frames in clips():
        content('by the source: ' + name, {**settings, **even}, frames)
    small, tall = SMALL_CLIP, TALL_CLIP
    for name, settings, frames in (
            ('a cut', {**small, 'bits': 400, 'buffer': 4}, edges(3456, 0, 3, 9) + noise(3456, 0, 1, 2, 3, 4)),
            ('a cut in fields', {**tall, 'bits': 500, 'buffer': 4, 'scan': 'fields', 'group': 4, 'step': 2},
             edges(4608, 0, 3) + noise(4608, 0, 1, 2)),
            ('cuts in groups of two', {**small, 'bits': 400, 'buffer': 4, 'group': 2, 'step': 2, 'closed': True},
             edges(3456, 0) + noise(3456, 0, 1) + edges(3456, 90, 93) + noise(3456, 50)),
            ('a still picture', {**small, 'bits': 300, 'buffer': 3}, edges(3456, *[0] * 8)),
            ('an even picture before noise', {**small, 'bits': 300, 'buffer': 3},
             ['3456*20'] * 4 + noise(3456, 0, 1, 2)),
            ('noise that becomes even', {**small, 'bits': 300, 'buffer': 3, 'group': 4, 'step': 1},
             noise(3456, 0, 1, 2) + ['3456*20'] * 4),
            ('one frame of noise among even ones, for which more is kept than is held',
             {**small, 'bits': 300, 'buffer': 1, 'search': 2}, ['3456*20'] * 6 + noise(3456, 0) + ['3456*20'] * 3),
            ('one frame of noise among still ones, for which more is kept than is held',
             {**small, 'bits': 300, 'buffer': 1, 'search': 2},
             edges(3456, *[0] * 6) + noise(3456, 0) + edges(3456, 0, 0, 0)),
            ('P pictures alone', {**small, 'bits': 300, 'buffer': 3, 'group': 5, 'step': 1},
             edges(3456, 0, 3, 6, 9, 50, 53, 56)),
            ('noise at High level', {**small, 'bits': 20000, 'buffer': 100, 'rate': 8, 'level': 'high'},
             noise(3456, 0, 1, 3, 2)),
            ('film in closed groups of 4', {**tall, 'rate': 5, 'bits': 800, 'buffer': 8, 'scan': 'frames', 'pulldown': True,
                                            'group': 4, 'step': 2, 'closed': True}, edges(4608, 0, 3, 9, 6, 12, 15)),
            ('film with search 0', {**tall, 'rate': 4, 'bits': 800, 'buffer': 8, 'scan': 'frames', 'pulldown': True,
                                'search': 0}, noise(4608, 0, 1, 2, 3, 4))):
        content('by the source: ' + name, {**settings, **even}, frames)
        if name in ('a cut', 'a cut in fields', 'film in closed groups of 4'):
            content('by the source: %s, by eight workers' % name, {**settings, 'workers': 8, **even}, frames)
    content('by weights, as it is said', {**small, 'bits': 400, 'buffer': 4, 'plan': 'weights'},
            edges(3456, 0, 3, 9) + noise(3456, 0, 1))
    content('by weights, where it is not said', {**small, 'bits': 400, 'buffer': 4},
            edges(3456, 0, 3, 9) + noise(3456, 0, 1))
    assert CASES[-1][2][-2:] == CASES[-2][2][-2:]
    one = {**SMALL, 'group': 1, 'step': 1, **even}
    case('by the source: settings that do not pass', {**SMALL, 'bits': 30, **even}, 0, more=['input 384*80'])
    case('by the source: no frame', {**SMALL, **even}, 0)
    case('by the source: a byte behind nine frames, in closed groups of four',
         {**SMALL, 'group': 4, 'step': 2, 'closed': True, **even}, 9, 1, recon='r')
    case('by the source: each call of the input fails in turn', one, 3, recon='r', more=['each input'])
    case('by the source: each call of the output fails in turn', one, 3, recon='r', more=['each output'])


def tests():
    heading('settings that do not pass, the first condition that fails. Nothing is opened or written.')
    for name, settings in (
            ('width 0', dict(width=0)), ('width 1', dict(width=1)), ('width 722', dict(width=722)),
            ('width 721', dict(width=721)), ('width 17', dict(width=17)), ('height 0', dict(height=0)),
            ('height 2 with frames', dict(height=2, scan='frames')), ('height 578', dict(height=578)),
            ('height 17', dict(height=17)), ('height 18 with fields', dict(height=18, scan='fields')),
            ('height 35 with frames', dict(height=35, scan='frames')),
            ('rate 0', dict(rate=0)), ('rate 9 at High level', dict(rate=9, level='high')),
            ('720 by 576 at 30 frames a second', dict(width=720, height=576, rate=5)),
            ('bits 0', dict(bits=0)), ('bits 37501', dict(bits=37501)), ('buffer 0', dict(buffer=0)),
            ('buffer 113', dict(buffer=113)), ('width 1442 at High 1440 level', dict(width=1442, level='high1440')),
            ('height 1154 at High level', dict(height=1154, level='high')),
            ('bits 150001 at High 1440 level', dict(bits=150001, level='high1440')),
            ('buffer 598 at High level', dict(buffer=598, level='high')),
            ('1440 by 1152 at 30 frames a second', dict(width=1440, height=1152, rate=5, level='high1440')),
            ('bits 30', dict(bits=30)), ('a buffer smaller than an interval', dict(bits=1100)),
            ('a buffer smaller than three fields of film',
             dict(bits=820, rate=4, height=32, scan='frames', pulldown=True)),
            ('bits 56', dict(bits=56)), ('a delay too short', dict(delay=1709)),
            ('a delay too long', dict(delay=36253)), ('group 0', dict(group=0)), ('group 61', dict(group=61)),
            ('step 0', dict(step=0)), ('step 5', dict(step=5)),
            ('search 16', dict(search=16)), ('aspect 0', dict(aspect=0)), ('aspect 5', dict(aspect=5)),
            ('workers 0', dict(workers=0)), ('workers 17', dict(workers=17)),
            ('film in progressive frames', dict(pulldown=True)),
            ('film at 50 frames a second', dict(height=32, pulldown=True, scan='frames', rate=6, level='high')),
            ('the greatest numbers', dict(width=4294967295, height=4294967295))):
        case(name, {**SMALL, **settings}, 0, more=['input 384*80'])
        assert CASES[-1][2][-2] == 'status 3', name
    case('the least delay', {**SMALL, 'delay': 1710}, 2)
    case('the greatest delay', {**SMALL, 'delay': 36252}, 2)
    case('with a place for reconstructions', {**SMALL, 'group': 10}, 1, recon='r', comment='It is not opened.')


def words():
    heading('words')
    plain = 'encode --width 16 --height 16 --rate 3 --bits 100 --buffer 1'
    usage = ['status 2', 'report usage']
    for name, line in (
            ('without a width', plain.replace(' --width 16', '')),
            ('without a height', plain.replace(' --height 16', '')),
            ('without a rate', plain.replace(' --rate 3', '')), ('without bits', plain.replace(' --bits 100', '')),
            ('without a buffer', plain.replace(' --buffer 1', '')),
            ('a width that is no number', plain.replace('16', 'x', 1)),
            ('a width below 0', plain.replace('16', '-16', 1)),
            ('a width of 33 bits', plain.replace('16', '4294967296', 1)),
            ('a width twice', plain + ' --width 16'), ('an option that is not there', plain + ' --quality 3'),
            ('a word too many', plain + ' x'), ('another scan', plain + ' --scan top'),
            ('another level', plain + ' --level low'), ('a flag twice', plain + ' --closed --closed'),
            ('an option without its value', plain + ' --delay'), ('help', 'encode --help'),
            ('a reconstruction without a name', plain + ' --recon'),
            ('another plan', plain + ' --plan odd'), ('a plan of no letters', plain + ' --plan='),
            ('a plan with a capital', plain + ' --plan Even'), ('a plan without its word', plain + ' --plan'),
            ('a plan twice', plain + ' --plan even --plan even'),
            ('the beginning of an option', plain + ' --work 2')):
        case(name, None, words=line, instead=usage)
    grey = wanted(Settings(**SMALL), 1, 0, None)
    case('in another order', None, words='encode --buffer 1 --bits 100 --rate 3 --height 16 --width 16', instead=grey)
    case('with equal signs', None, words='encode --width=16 --height=16 --rate=3 --bits=100 --buffer=1', instead=grey,
         comment="By clap's rule on words.")
    case('with all that stands unless said', None, words=plain + ' --group 12 --step 3 --scan progressive --search 15'
         ' --aspect 2 --workers 1 --level main --delay 27189 --plan weights', instead=grey)
    case('a plan with an equal sign', None, words=plain + ' --plan=even',
         instead=wanted(Settings(**SMALL, plan='even'), 1, 0, None))


def endings():
    heading('inputs that end early. The groups stand whose next I frame was read whole.')
    one = {**SMALL, 'group': 1, 'step': 1}
    case('no frame', SMALL, 0)
    case('no frame, with a place for reconstructions', SMALL, 0, recon='r')
    case('a second frame that lacks a byte', SMALL, 1, 383)
    case('a frame that lacks a byte', SMALL, 0, 383)
    case('a byte behind a frame, in groups of one', one, 1, 1)
    case('a byte behind two frames, in groups of one', one, 2, 1, recon='r')
    case('a third frame that lacks a byte, in groups of one', one, 2, 383)
    case('a byte behind three frames, in groups of one', one, 3, 1, recon='r')
    pairs = {**SMALL, 'group': 4, 'step': 2}
    case('a byte behind four frames, in groups of four', pairs, 4, 1, recon='r')
    case('a byte behind five frames, in groups of four', pairs, 5, 1, recon='r',
         comment='Frame 3 is a B frame and coded behind the second I frame, so the first group has three frames.')
    case('a byte behind nine frames, in closed groups of four', {**pairs, 'closed': True}, 9, 1, recon='r')


def endpoints():
    heading('reconstructions, and endpoints that fail')
    for count in (1, 2):
        case('grey frames with reconstructions: %d' % count, SMALL, count, recon='r')
    case('six frames with reconstructions', SMALL, 6, recon='a/b.yuv')
    case('fields with reconstructions', {**TALL, 'scan': 'fields', 'workers': 3}, 4, recon='r')
    read, write = ['status 7', 'report read fault'], ['status 8', 'report write fault']
    open_ = ['recon_name r']
    case('the input fails at its first call', SMALL, 2, more=['fail input 1'], instead=read)
    case('the input fails at its first call, with a place for reconstructions', SMALL, 2, recon='r',
         more=['fail input 1'], instead=read + open_)
    case('the output fails at its first call', SMALL, 2, more=['fail output 1'], instead=write)
    case('the place for reconstructions does not open', SMALL, 2, recon='r', more=['fail recon 1'], instead=write)
    case('the place for reconstructions does not open, before an empty input', SMALL, 0, recon='r',
         more=['fail recon 1'], instead=write)
    case('the place for reconstructions does not open, before an input that fails', SMALL, 2, recon='r',
         more=['fail recon 1', 'fail input 1'], instead=write)
    case('settings that do not pass before a place that does not open', {**SMALL, 'group': 10}, 2, recon='r',
         more=['fail recon 1'])
    case('the report fails after success', SMALL, 1, more=['fail report 1'],
         instead=['status 8', *output_lines(encoded(Settings(**SMALL), 1).data)])
    case('the report fails after a refusal', {**SMALL, 'group': 10}, 1, more=['fail report 1'], instead=['status 3'])
    two = encoded(Settings(**SMALL), 2).data
    assert two == STREAMS['predicted']
    for endpoint in ('input', 'output', 'recon', 'report'):
        case('each call of the %s fails in turn' % endpoint, SMALL, 2, recon='r', more=['each ' + endpoint])
    for endpoint in ('input', 'output', 'recon'):
        case('each call of the %s fails in turn, in groups of one' % endpoint, {**SMALL, 'group': 1, 'step': 1}, 4,
             recon='r', more=['each ' + endpoint])
    case('each call of the input fails in turn, without a place for reconstructions', SMALL, 2, more=['each input'])


for step in (5, 7, 37):
    known('by_%d' % step, *[' '.join('%02X' % (step * k % 256) for k in range(first, first + 34))
                            for first in range(0, 340, 34)])
TEXTURED = '= interlaced_textured', '= fields_textured', '= nine_textured', '= six_textured'
known('noise', *TEXTURED, *TEXTURED, *TEXTURED)
for name, values in (('stripes', (16, 80, 200, 120)), ('half_stripes', (48, 140, 160, 68))):
    lines = [' '.join('%02X' % values[(x + y) % 4] for x in range(width)) for y in range(4) for width in (24, 24)]
    known(name + '_once', *lines)
    known(name, *['= %s_once' % name] * 13)
known('slanted', *[' '.join('%02X' % ((7 * c + 11 * y) % 256) for y in range(first, first + 2) for c in range(16))
                   for first in range(0, 32, 2)])
