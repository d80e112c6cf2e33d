"""The cases of the stricter rules of `audit`: for each rule a stream that breaks it alone, and one at its bound. The streams are
those of the writer, with single elements of their headers changed."""

from audited_streams import case, each, section
from pictures_writer import B, END, I, P, Picture, flat, group, matrix_bits, number, sequence, unit
from slices import INTRA
from verdicts import parts
from pictures import picture
from verdicts_cases import WOVEN, interlaced, one, pair, small, timed, with_delay

# the value of the start code of each header, and of its elements where they begin behind it, and how many bits they have
ELEMENTS = {
    'sequence': (0xB3, dict(aspect=(24, 4), constrained=(61, 1), first_number=(63, 8))),
    'group': (0xB8, dict(drop=(0, 1), hours=(1, 5), minutes=(6, 6), seconds=(13, 6), pictures=(19, 6), broken=(26, 1))),
    'picture': (0x00, dict(delay=(13, 16), full_pel=(29, 1), f_code=(30, 3), back_full_pel=(33, 1), back_f_code=(34, 3))),
    'coding': (0xB5, dict(f00=(4, 4), f01=(8, 4), f10=(12, 4), f11=(16, 4), top_first=(24, 1), repeat=(30, 1),
                          chroma_type=(31, 1))),
}


def changed(data, header, which=0, **elements):
    """The stream with other elements in its header of this kind and number."""
    value, known = ELEMENTS[header]
    begins = [at for at, code, _ in parts(data) if code == value and (header != 'coding' or data[at + 4] >> 4 == 8)]
    number = int.from_bytes(data, 'big')
    for name, new in elements.items():
        place, bits = known[name]
        shift = 8 * len(data) - (8 * (begins[which] + 4) + place + bits)
        number = number & ~((2 ** bits - 1) << shift) | new << shift
    return number.to_bytes(len(data), 'big')


def still(*headers, **more):
    """A sequence of two pictures behind these headers; where none are told, behind lawful ones."""
    return timed(b''.join(headers or (small(**more), group(1))) + one(I) + one(P, 1) + END, 20000)


def concealed_picture():
    """An I picture with a concealment vector in its macroblock."""
    p = Picture(I, f_codes=(2, 2), concealment=1)
    return picture(p, [flat(128, concealment=(0, 0))], quantiser=8)


def woven(*pictures, **more):
    """A sequence of these pictures, in fields."""
    return timed(interlaced(**more) + group(1) + b''.join(pictures) + END, 20000)


def of_sizes():
    section('stricter rules on sequence headers')
    for name, width, height, progressive, code in (
            ('484 lines in fields are 512 of whole macroblocks', 704, 484, 0, 4),
            ('480 lines in fields are whole macroblocks', 704, 480, 0, 4),
            ('484 lines in frames are 496', 704, 484, 1, 4), ('705 columns at 30 Hz are 720', 705, 480, 1, 5),
            ('704 columns and 484 lines at 25 Hz', 704, 484, 0, 3), ('where rule 5 is broken', 720, 484, 0, 5)):
        case('rule 16: ' + name, sequence(width, height, progressive, code=code, aspect=2) + END)
    for aspect in (1, 4, 5, 15):
        case('rules 17 and 50: aspect_ratio_information %d' % aspect, still(aspect=aspect))
    case('rule 18: constrained_parameters_flag', changed(still(), 'sequence', constrained=1))
    matrix = still(intra=INTRA)
    case('rule 19: an intra matrix that begins with 8', matrix)
    for first in (7, 9):
        case('rule 19: one that begins with %d' % first, changed(matrix, 'sequence', first_number=first))
    case('rule 19: another matrix may begin with any number', still(non_intra=[16] * 64))
    for name, height, progressive in (('an odd height', 15, 1), ('an even height', 14, 1),
                                      ('in fields no multiple of 4', 30, 0), ('in fields a multiple of 4', 28, 0)):
        case('warning 51: ' + name, sequence(16, height, progressive, aspect=2) + END)
    case('warning 51: an odd width', sequence(15, 16, aspect=2) + END)
    for level, height in ((68, 1088), (68, 1090), (70, 1090)):
        case('warning 52: %d lines at level %d' % (height, level), sequence(720, height, level=level, aspect=2) + END)


def of_repeated():
    section('rule 21: what a later sequence header says otherwise, element by element')
    first = timed(small() + group(1) + one(I) + one(P, 1), 20000)
    rest = group(1) + with_delay(small() + one(I) + END, 0, 20000)[len(small()):]
    case('the same header once more', first + small() + rest)
    for name, header in (
            ('aspect_ratio_information', small(aspect=3)), ('frame_rate_code', small(code=4)),
            ('bit_rate', small(rate=101)), ('its extension', small(rate=2 ** 18 + 100)),
            ('vbv_buffer_size', small(buffer=2)), ('constrained_parameters_flag', changed(small(), 'sequence', constrained=1)),
            ('profile_and_level_indication', small(level=70)), ('low_delay', small(low_delay=1)),
            ('frame_rate_extension_n', small(n=1)), ('frame_rate_extension_d', small(d=1)),
            ('matrices may differ', small(intra=INTRA))):
        case('rule 21: ' + name, first + header + rest)
    case('rule 21: all elements, and once more', first + small(aspect=3, code=4, rate=101, buffer=2, level=70, low_delay=1, n=1,
                                                            d=1) + rest[:-4] + small(aspect=1) + group(1) + END,
         comment='Each header is held against the first one.')


def of_groups():
    section('stricter rules on group headers')
    data = still()
    for name, bound, past in (('hours', 23, 24), ('minutes', 59, 60), ('seconds', 59, 60), ('pictures', 59, 60)):
        case('rule 24: %s %d' % (name, bound), changed(data, 'group', **{name: bound}))
        case('rule 24: %s %d' % (name, past), changed(data, 'group', **{name: past}))
    dropping = dict(drop=1, minutes=1)
    case('rule 25: drop_frame_flag at 25 Hz', changed(data, 'group', drop=1))
    thirty = still(code=4)
    case('rule 25: at 29.97 Hz', changed(thirty, 'group', drop=1))
    for name, time in (('picture 0', dict(pictures=0)), ('picture 1', dict(pictures=1)), ('picture 2', dict(pictures=2)),
                       ('picture 0 of second 1', dict(seconds=1)), ('picture 0 of minute 10', dict(minutes=10)),
                       ('picture 0 of minute 59', dict(minutes=59)), ('without drop_frame_flag', dict(drop=0))):
        case('rule 26: ' + name, changed(thirty, 'group', **{**dropping, **time}))
    case('warning 56: broken_link', changed(data, 'group', broken=1))
    each('rules on each of three group headers', changed(changed(timed(
        small() + group(1) + one(I) + group(1, 24) + group(1) + one(I) + END, 20000), 'group', broken=1), 'group', 2,
        seconds=63), comment='Behind the record of the group, with the number of the next picture.')


def of_headers():
    section('stricter rules on picture headers')
    low = timed(small(low_delay=1) + group(1) + one(I) + one(P, 1) + one(B, 2) + END, 20000)
    case('rule 27: a B picture at low delay', low)
    data = still()
    case('rule 28: 65535 in the second picture alone', with_delay(data, 1, 65535))
    case('rule 28: in the first picture alone', with_delay(data, 0, 65535), comment='The rate is variable by it.')
    case('rule 28: in both', with_delay(with_delay(data, 0, 65535), 1, 65535))
    for name, which, codes in (
            ('forward, of an I picture', 0, dict(f00=1, f01=14)), ('backward, of an I picture', 0, dict(f10=3)),
            ('backward, of a P picture', 1, dict(f10=15, f11=9)), ('forward, of a P picture, are used', 1, dict(f00=5))):
        case('rule 30: f_codes ' + name, changed(data, 'coding', which, **codes))
    concealed = timed(small() + group(1) + concealed_picture() + END, 20000)
    case('rule 30: forward, of an I picture with concealment vectors, are used', concealed)
    both = timed(small() + group(1) + one(I) + one(P, 2) + one(B, 1) + END, 20000)
    for name, which, codes in (('full_pel_forward_vector', 1, dict(full_pel=1)), ('forward_f_code', 1, dict(f_code=1)),
                               ('all of a B picture', 2, dict(full_pel=1, f_code=6, back_full_pel=1, back_f_code=0))):
        case('rule 31: ' + name, changed(both, 'picture', which, **codes))


def of_extensions():
    section('stricter rules on picture coding extensions, and the warnings on pictures')
    fields = woven(pair(I), pair(P, 1))
    case('rule 33: top_field_first in a field', changed(fields, 'coding', 2, top_first=1))
    case('rule 33: frame_pred_frame_dct in a field', woven(pair(I, frame_only=1)))
    case('rule 33: progressive_frame in both fields', woven(pair(I, progressive=1)))
    case('rule 33: repeat_first_field in a field, at variable rate', with_delay(
        changed(interlaced() + group(1) + pair(I) + END, 'coding', 1, repeat=1), 0, 65535))
    case('rule 33: the same at constant rate breaks rule 13', changed(fields, 'coding', 1, repeat=1))
    frame = dict(rows=2)
    case('rule 34: a progressive frame without frame_pred_frame_dct', woven(one(I, frame_only=0, **frame)))
    case('rule 34: a progressive frame with it', woven(one(I, **frame)))
    case('rule 34: in a progressive sequence that is rule 14', timed(small() + group(1) + one(I, frame_only=0) + END, 20000))
    case('rule 35: top_field_first in a progressive sequence', changed(still(), 'coding', top_first=1))
    case('rule 35: in an interlaced one', changed(woven(one(I, **frame)), 'coding', top_first=1))
    varying = dict(delay=65535)
    case('rule 35: with repeat_first_field at 59.94 Hz, at variable rate', small(level=70, code=7) + group(1)
         + one(I, repeat=1, top_first=1, **varying) + END)
    case('rule 36: a field of a frame that is not progressive is repeated, at variable rate', interlaced() + group(1)
         + one(I, repeat=1, **frame, **WOVEN, **varying) + END)
    case('rule 36: the same at constant rate breaks rule 13', woven(one(I, repeat=1, **frame, **WOVEN)))
    case('rule 36: a progressive frame may', woven(one(I, repeat=1, **frame)))
    for code, progressive in ((1, 0), (2, 0), (4, 0), (5, 1), (6, 1), (7, 1), (8, 1)):
        level = 70 if code > 5 else 72
        case('rule 37: a repeated field at frame rate code %d, %s' % (code, 'progressive' if progressive else 'interlaced'),
             (small if progressive else interlaced)(code=code, level=level) + group(1)
             + one(I, repeat=1, rows=2 - progressive, **varying) + END)
    for name, type_ in (('progressive_frame and no chroma_420_type', 0), ('both', 1)):
        case('rule 38: ' + name, changed(still(), 'coding', chroma_type=type_))
    case('rule 38: chroma_420_type alone', changed(woven(one(I, **frame, **WOVEN)), 'coding', chroma_type=1))
    case('warning 57: a dropped picture', timed(small() + group(0) + one(I, 1) + one(B, 0) + END, 20000))
    for name, code, level in (('at 25 Hz', 3, 72), ('at 29.97 Hz', 4, 72), ('at 25 Hz, above Main level', 3, 70)):
        case('warning 59: a B picture that repeats, ' + name, woven(
            one(I, **frame), one(P, 2, **frame), one(B, 1, repeat=1, **frame), code=code, level=level))


def loaded(*matrices):
    """A quant matrix extension: the intra matrix, another, and both of chroma."""
    return unit(0xB5, '0011', *map(matrix_bits, (*matrices, None, None, None, None)[:4]))


def with_behind(data, unit_at, more):
    """The stream with more units behind its extension of this number."""
    ends = [end for _, value, end in parts(data) if value == 0xB5]
    return data[:ends[unit_at]] + more + data[ends[unit_at]:]


def with_extra(data, which, *information):
    """The stream with bytes of extra information in the header of a picture."""
    begin, _, end = [part for part in parts(data) if part[1] == 0x00][which]
    bits = ''.join(number(byte, 8) for byte in data[begin + 4:end])
    fixed = 29 + {I: 0, P: 4, B: 8}[int(bits[10:13], 2)]
    return data[:begin] + unit(0x00, bits[:fixed], *['1' + number(byte, 8) for byte in information], '0') + data[end:]


def display(video_format=5, colour=None, width=16, height=16, marker=1):
    """A sequence display extension."""
    described = '0' if colour is None else '1' + number(colour, 24)
    return unit(0xB5, '0010', number(video_format, 3), described, number(width, 14), str(marker), number(height, 14))


EIGHT, NINE = [8] + [16] * 63, [9] + [16] * 63


def of_matrices():
    section('stricter rules on quant matrix extensions and extra information')
    data = small() + group(1) + one(I) + one(P, 1) + END

    def case_with(name, *extensions, which=1, **more):
        case(name, timed(with_behind(data, which, b''.join(extensions)), 20000), **more)
    case_with('rule 19: matrices of a picture that begin with 8', loaded(EIGHT))
    case_with('rule 19: an intra matrix of a picture that begins with 9', loaded(NINE))
    case_with('rule 19: another one may', loaded(None, NINE))
    case_with('rule 20: a chroma intra matrix that begins with 8', loaded(None, None, EIGHT))
    case_with('rule 20: another chroma matrix', loaded(None, None, None, NINE))
    case_with('rules 19 and 20: all matrices begin with 9', loaded(NINE, NINE, NINE, NINE))
    case_with('rules 19 and 20: of the second picture, in two extensions', loaded(NINE), loaded(EIGHT, None, NINE), which=2)
    case_with('rule 19: between other units', display(), loaded(NINE, EIGHT), bytes((0, 0, 1, 0xB2, 65)), loaded(None))
    for which, kind in ((0, 'an I'), (1, 'a P'), (2, 'a B')):
        three = small() + group(1) + one(I) + one(P, 2) + one(B, 1) + END
        case('rule 32: extra information in %s picture' % kind, timed(with_extra(three, which, 255), 20000))
    case('rule 32: no extra information', timed(with_extra(data, 1), 20000))
    case('rule 32: two bytes of it, and a matrix, in a picture that breaks other rules', changed(timed(with_behind(
        with_extra(data, 0, 1, 2), 1, loaded(NINE)), 20000), 'coding', chroma_type=0))


def of_displays():
    section('rule 39: sequence display extensions')

    def case_of(name, *displays, **more):
        data = b''.join(small() + d + group(1) + one(I) for d in displays) + END
        case('rule 39: ' + name, timed(data, 20000), **more)
    own, coloured = display(), display(colour=0x010101)
    case_of('none', b'', b'')
    case_of('the same behind each header', own, own)
    case_of('with colours, the same', coloured, coloured)
    case_of('behind the first header alone', own, b'')
    case_of('behind the second header alone', b'', own)
    for name, other in (('another video_format', display(4)), ('another width', display(width=17)),
                        ('another height', display(height=17)), ('with colours', coloured)):
        case_of(name, own, other)
    case_of('other colours', coloured, display(colour=0x010102))
    case_of('colours the first time alone', coloured, own)
    case_of('each of three is held against the first', own, display(4), own)
    case_of('one with a marker of 0 is none', own, display(marker=0))
    case_of('one that is cut off is none', own, own[:8])
    case_of('the first that reads counts', own, display(marker=0) + own + display(4))
    case_of('other extensions are none', own, unit(0xB5, '0111', '0' * 28))
    picture = with_behind(small() + group(1) + one(I), 1, own)
    case('rule 39: behind the picture header', timed(picture + small() + own + group(1) + one(I) + END, 20000))
    tall = timed(interlaced() + own + group(1) + one(I, rows=2) + interlaced() + group(1) + one(I, rows=2) + END, 20000)
    case('rule 39: between slices', tall[:parts(tall)[-2][0]] + own + tall[parts(tall)[-2][0]:])
    case('rule 39: without a picture', timed(small() + own + group(1) + one(I), 20000) + small() + END)
    case('rule 39: with each call failing in turn', timed(small() + own + group(1) + one(I) + small() + group(1) + one(I) + END, 20000),
         more=['each report', 'each output'])


def of_all():
    section('stricter rules beside those of check')
    worst = changed(sequence(15, 1152, progressive=0, level=73, aspect=4, code=9, rate=0, buffer=113, intra=[9] + [8] * 63) + END,
                    'sequence', constrained=1)
    case('the stricter rules too, in one header', worst, comment='First those of check, by number, then the stricter ones, then the warnings.')
    data = changed(woven(one(I, precision=3, frame_only=0, rows=2)), 'coding', chroma_type=0, f10=1)
    case('rules 15, 30, 34 and 38 at one picture', data)
    case('the same with each call failing in turn', data, more=['each report', 'each output'])


for sections in (of_sizes, of_repeated, of_groups, of_headers, of_extensions, of_matrices, of_displays, of_all):
    sections()
