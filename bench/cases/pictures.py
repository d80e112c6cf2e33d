#!/usr/bin/env python3
"""Prints the cases of `decode` on predicted pictures, or writes their streams and frames into a folder.

The streams are put together by bench/cases/pictures_writer.py, and their samples computed by
bench/cases/pictures_decoder.py. With a folder as argument each stream is written into NUMBER.m2v and its frames into
NUMBER.yuv there, so that another decoder can be held against them."""

import sys
from pathlib import Path

from pictures_decoder import decoded
from pictures_faults import add_all
from pictures_random import Draw, random_picture, texture
from pictures_writer import (B, BOTTOM, DUAL, END, FIELD, FRAME, I, INTRA, OTHER, P, TOP, Macroblock, Picture, flat,
                             group, headers, matrices, sequence, slice_unit)

CASES, STREAMS = [], []
WIDTH = 119


def known(name, data):
    """Gives a stream a name, by which those that begin so are told."""
    STREAMS.append((name, data))
    return data


def case(name, data, comment=''):
    """A stream without a fault."""
    CASES.append((name, data, None, comment))


def faulty(name, data, kind, place, pieces, comment):
    """A stream with a fault, whose output are the frames that were due before its piece."""
    CASES.append((name, data, (kind, place, b''.join(decoded(pieces, ends=False).frames)), comment))


# ---- the table

def lines_of(key, groups):
    """Lines of a key and groups of words; a group begins a line where it doesn't fit into the one before."""
    line = key
    for words in groups:
        if len(line) + len(' '.join(words)) + 1 > WIDTH and line != key:
            yield line
            line = key
        for word in words:
            if len(line) + len(word) + 1 > WIDTH:
                yield line
                line = key
            line += ' ' + word
    if line != key:
        yield line


def unit_lines(key, data):
    starts = [i for i in range(len(data) - 2) if data[i:i + 3] == b'\0\0\1']
    edges = sorted({0, *starts, len(data)})
    return lines_of(key, [['%02X' % byte for byte in data[a:b]] for a, b in zip(edges, edges[1:])])


def sample_lines(key, data):
    """Equal bytes together."""
    words, i = [], 0
    while i < len(data):
        count = 1
        while i + count < len(data) and data[i + count] == data[i]:
            count += 1
        words += ['%d*%02X' % (count, data[i])] if count > 3 else ['%02X' % data[i]] * count
        i += count
    return lines_of(key, [[word] for word in words])


def input_lines(data):
    """A stream with the longest known beginning by its name."""
    beginnings = [(len(start), name) for name, start in STREAMS if data.startswith(start)]
    length, name = max(beginnings, default=(0, ''))
    if name:
        yield 'input = ' + name
    yield from unit_lines('input', data[length:])


def wanted_lines(data, fault):
    if fault:
        kind, place, output = fault
        yield 'status 9'
        yield 'report stream %s at bit %d' % (kind, place)
    else:
        read = decoded(data)
        output = b''.join(read.frames)
        yield 'report frames %d pictures %d dropped %d' % (len(read.frames), read.pictures, read.dropped)
    lines = list(sample_lines('output', output))
    if len(lines) <= 24:
        yield from lines
        return
    total = 0
    for byte in output:
        total = (31 * total + byte) % 2 ** 32
    yield 'length %d' % len(output)
    yield 'sum %d' % total


def table():
    yield from ('', '# ---- decode: how streams of predicted pictures begin', '')
    for name, data in STREAMS:
        yield from ('stream ' + name, *unit_lines('bytes', data), '')
    yield from ('# ---- decode: predicted pictures and their samples', '')
    faults = False
    for name, data, fault, comment in CASES:
        if fault and not faults:
            faults = True
            yield '# ---- decode: faults of predicted pictures. A unit stands at 8 times the bytes before it.'
            yield ''
        yield from ('# ' + line for line in comment.splitlines() if line)
        yield from ('case decode: ' + name, 'words decode', *input_lines(data), *wanted_lines(data, fault), '')


# ---- what streams are made of

def picture(p, *rows, quantiser=4, extension=b''):
    """A picture of slices, each a row of macroblocks."""
    return headers(p) + extension + b''.join(
        slice_unit(p, row, quantiser, macroblocks) for row, macroblocks in enumerate(rows))


def textured(p, columns, rows, seed):
    """An I picture with other samples at each place."""
    draw = Draw(seed)
    return picture(p, *[texture(draw, p, columns, 6) for _ in range(rows)], quantiser=6)


def ahead(x, y, *parity, **more):
    return Macroblock(forward=[(x, y, *parity)], **more)


def back(x, y, *parity, **more):
    return Macroblock(backward=[(x, y, *parity)], **more)


def both(forward, backward, **more):
    return Macroblock(forward=[forward], backward=[backward], **more)


# residuals of some blocks of a macroblock: levels by scan position
ALL_BLOCKS = {i: {0: 3 - i, 2 + i: -2} if i != 3 else {1: 1} for i in range(6)}
LUMA = {0: {0: 1, 5: -3}, 2: {0: -1}, 3: {0: 9, 63: 1}}
CHROMA = {4: {0: -2, 1: 1}, 5: {3: 2}}
LAST = {5: {0: 40, 9: -40}}


# ---- progressive frames

def progressive():
    start = known('nine_textured', sequence(48, 48) + group(1) + textured(Picture(I), 3, 3, 1))
    case('P: whole and half vectors, some at the edges', start + picture(
        Picture(P, temporal=1, f_codes=(4, 4)),
        [ahead(64, 64), ahead(-32, 0), ahead(-1, 63)],
        [ahead(1, -32), ahead(-4, 6), ahead(-64, 32)],
        [ahead(0, -1), ahead(31, -64), ahead(-63, -63)]) + END,
        'Of 3 by 3 macroblocks: vectors lie from -32 c to 64 - 32 c half samples in column c, and so in rows.')
    case('P: all half cases with residuals, and chroma of odd negative vectors', start + picture(
        Picture(P, temporal=1, f_codes=(3, 3)),
        [ahead(0, 0, blocks=ALL_BLOCKS), ahead(-1, 0, blocks=LUMA), ahead(-3, 2, blocks=CHROMA)],
        [ahead(2, -1), ahead(-1, -1, blocks=LUMA), ahead(-5, -3, blocks=CHROMA)],
        [ahead(4, -7, blocks=LAST), ahead(-2, -2, blocks=ALL_BLOCKS), ahead(-7, -6)]) + END)
    start = known('six_textured', sequence(48, 32) + group(1) + textured(Picture(I), 3, 2, 2))
    case('P: without motion, skipped, intra, and other quantisers', start + picture(
        Picture(P, temporal=1, f_codes=(2, 2)),
        [ahead(3, 5, blocks=LUMA, code=9), Macroblock(blocks=ALL_BLOCKS), flat(77, code=31)],
        [ahead(5, -4), ahead(-6, -3, skipped=1, blocks=CHROMA)]) + picture(
        Picture(P, temporal=2, f_codes=(2, 2)),
        [Macroblock(blocks=LAST, code=17), flat(200, skipped=1)],
        [Macroblock(blocks=CHROMA), ahead(1, -1), ahead(-2, -2)]) + END)
    case('P: a vector goes past the range of its f_code and comes back', start + picture(
        Picture(P, temporal=1, f_codes=(1, 1)),
        [ahead(15, 15), ahead(-16, 2), ahead(-16, 15)], [ahead(15, -16), ahead(-9, -16), ahead(-1, 0)]) + END)
    columns = 70
    grey = [flat(60 + 2 * i) for i in range(columns)]
    case('P: increments with one and two escapes', sequence(16 * columns, 16) + group(1) + picture(Picture(I), grey)
         + picture(Picture(P, temporal=1), [ahead(1, 0), ahead(-9, 0, skipped=33), ahead(-1, 0, skipped=34)])
         + picture(Picture(P, temporal=2), [ahead(2, 0), ahead(-32, 0, skipped=68)]) + END)


def backward_and_forward():
    first = sequence(112, 32) + group(1) + textured(Picture(I), 7, 2, 3)
    second = textured(Picture(I, temporal=3), 7, 2, 4)
    between = Picture(B, temporal=1, f_codes=(3, 3, 2, 2))
    case('B: forward, backward and both, and skipped ones behind each', first + second + picture(
        between,
        [ahead(5, 7), back(-3, 1, skipped=1), both((2, 3), (-1, 9), skipped=1), both((-8, 0), (-3, 4), skipped=1)],
        [back(4, -5, blocks=LUMA), ahead(9, -7, skipped=2, blocks=CHROMA), both((-3, -3), (-2, 0), blocks=ALL_BLOCKS),
         both((-4, -9), (0, -2), skipped=1)]) + picture(
        Picture(B, temporal=2, f_codes=(2, 2, 3, 3)),
        [ahead(1, 2, blocks=LAST, code=7), flat(99), back(0, 5), both((0, 0), (0, 0)), flat(10, code=3),
         back(-7, 3, blocks=LUMA, code=2), both((-5, 3), (-30, 1), blocks=CHROMA, code=30)],
        [flat(128), back(-32, -32), ahead(-6, -6), both((-15, -7), (7, -31), skipped=1), back(-1, -1),
         ahead(-1, -1)]) + END)


def order():
    """Frames of equal samples: each picture of one intra macroblock."""
    def one(kind, level, temporal=0):
        return picture(Picture(kind, temporal=temporal, f_codes=(1, 1, 1, 1)), [flat(level)])
    start, delayless = sequence(16, 16), sequence(16, 16, low_delay=1)
    case('order: I P B B P B', start + group(1) + one(I, 10) + one(P, 40, 3) + one(B, 20, 1) + one(B, 30, 2)
         + one(P, 60, 5) + one(B, 50, 4) + END)
    case('order: with low delay each frame at once', delayless + group(1) + one(I, 10) + one(P, 40, 3) + one(B, 20, 1)
         + one(P, 60, 5) + END)
    case('order: low delay by the first sequence extension alone', delayless + group(1) + one(I, 10) + start
         + one(P, 40, 3) + one(B, 20, 1) + END)
    case('order: B pictures of an open group behind another group', start + group(1) + one(I, 10) + one(P, 20, 1)
         + group(0) + one(I, 50, 2) + one(B, 30) + one(B, 40, 1) + one(P, 60, 3) + END)
    case('order: B pictures of a closed group behind its one anchor', start + group(1) + one(I, 50, 2) + one(B, 30)
         + one(B, 40, 1) + END)
    case('order: dropped pictures in front, and one behind a second anchor', start + group(0) + one(I, 30, 2)
         + one(B, 10) + one(B, 20, 1) + one(P, 50, 4) + one(B, 40, 3) + END)
    case('order: dropped pictures without a group header', start + one(I, 30, 2) + one(B, 10) + one(P, 40, 3) + END)
    case('order: dropped pictures with low delay', delayless + one(I, 30, 2) + one(B, 10) + one(P, 40, 3) + END)
    case('order: no frame is shown of a dropped picture before the first anchor', start + group(1) + one(B, 10)
         + one(I, 20) + END, 'Closed or not: no anchor was decoded.')
    case('order: the last group header tells', start + group(1) + group(0) + one(I, 30, 2) + one(B, 10) + END)


# ---- interlaced frames

def interlaced_frames():
    first = sequence(48, 64, progressive=0) + group(1)
    p = dict(frame_only=0, progressive=0)
    start = known('interlaced_textured', first + textured(Picture(I, **p), 3, 4, 5))

    def fields(*vectors, **more):
        return Macroblock(forward=list(vectors), motion=FIELD, **more)
    case('field prediction in a P frame: all parities', start + picture(
        Picture(P, temporal=1, f_codes=(4, 4), **p),
        [fields((4, 6, 0), (2, 8, 1)), fields((3, 5, 1), (-3, 7, 0)), fields((-9, 1, 0), (-1, 2, 0))],
        [fields((1, 3, 1), (5, -3, 1), blocks=LUMA), ahead(-3, 5, blocks=ALL_BLOCKS, field_dct=1),
         fields((-2, -5, 1), (-7, -1, 0), blocks=ALL_BLOCKS, field_dct=1)],
        [Macroblock(blocks=LUMA, field_dct=1), flat(90, field_dct=1),
         fields((-6, 4, 0), (0, 0, 1), code=8, blocks=LAST)],
        [fields((64, -48, 0), (63, -47, 1)), fields((-31, -9, 1), (-32, 0, 0), skipped=1, blocks=CHROMA)]) + END,
        'The fields are 48 by 32 samples.')
    second = textured(Picture(P, temporal=3, f_codes=(4, 4), **p), 3, 4, 6)

    def two(forward=None, backward=None, **more):
        return Macroblock(forward=forward, backward=backward, motion=FIELD, **more)
    case('field prediction in a B frame, and skipped ones behind it', start + second + picture(
        Picture(B, temporal=1, f_codes=(3, 3, 3, 3), **p),
        [two([(3, 4, 1), (5, 2, 0)]), two(None, [(-3, 3, 0), (-1, 6, 1)], skipped=1)],
        [two([(2, -3, 0), (7, 3, 1)], [(4, 5, 1), (1, -4, 0)], blocks=ALL_BLOCKS, field_dct=1),
         both((-1, -9), (-3, 3), skipped=1, blocks=LUMA)],
        [two(None, [(9, -7, 0), (3, -1, 0)], blocks=CHROMA), back(-3, 2),
         two([(-1, 1, 1), (-2, 2, 1)], code=5, blocks=LAST)],
        [both((1, -3), (2, -5), blocks=LAST, field_dct=1), two([(-9, -8, 1), (-5, -5, 0)], [(0, 0, 0), (-2, -2, 1)],
                                                              skipped=1)]) + END)
    for top_first in (1, 0):
        dual = dict(motion=DUAL)
        case('dual prime in frames, %s field first' % ('top' if top_first else 'bottom'), start + picture(
            Picture(P, temporal=1, f_codes=(4, 3), top_first=top_first, **p),
            [ahead(4, 6, dmvector=(0, 0), **dual), ahead(-3, 7, dmvector=(1, -1), **dual),
             ahead(-5, 5, dmvector=(-1, 1), **dual)],
            [ahead(3, -3, dmvector=(1, 1), blocks=ALL_BLOCKS, field_dct=1, **dual), fields((-4, 2, 1), (2, 1, 0)),
             ahead(-9, 3, dmvector=(-1, -1), **dual)],
            [ahead(8, -4, dmvector=(1, 0), code=3, blocks=LUMA, **dual), ahead(-7, 1, skipped=1, **dual)],
            [ahead(0, -9, dmvector=(0, -1), **dual), ahead(-1, -6, **dual), ahead(-8, -5)]) + END)
    c = Picture(I, concealment=1, f_codes=(2, 2), **p)
    case('concealment vectors in I and P frames', first + headers(c) + b''.join(
        slice_unit(c, row, 5, [flat(40 + 30 * row + 9 * i, concealment=(7 * i - 9, 5 - 3 * row)) for i in range(3)])
        for row in range(4)) + picture(
        Picture(P, temporal=1, f_codes=(2, 2), concealment=1, **p),
        [flat(33, concealment=(5, 8)), ahead(6, 9), flat(66, concealment=(-7, 3))],
        [fields((1, 3, 0), (4, -2, 1)), flat(150, concealment=(9, -9), field_dct=1), fields((-2, 5, 1), (-3, 0, 0))],
        [flat(20, concealment=(31, -32)), Macroblock(blocks=LUMA), ahead(-4, 1)],
        [ahead(3, -5), flat(210, skipped=1, concealment=(1, 1))]) + END,
        'The predictors behind an intra macroblock with a concealment vector are that vector.')
    tall = sequence(16, 34, progressive=0) + group(1)
    case('an interlaced frame of 34 lines has four rows', tall + textured(Picture(I, **p), 1, 4, 7) + picture(
        Picture(P, temporal=1, f_codes=(2, 2), **p), [ahead(0, 9)], [fields((0, 7, 0), (0, -5, 1))],
        [fields((0, 3, 1), (0, -1, 1))], [ahead(0, -31)]) + END)


# ---- field pictures

def field_pictures():
    first = sequence(48, 64, progressive=0) + group(1)
    more = dict(frame_only=0, progressive=0)
    top, bottom = dict(structure=TOP, **more), dict(structure=BOTTOM, **more)
    start = known('fields_textured', first + textured(Picture(I, **top), 3, 2, 8)
                  + textured(Picture(I, **bottom), 3, 2, 9))

    def halves(*vectors, **others):
        return Macroblock(forward=list(vectors), motion=OTHER, **others)
    rows_of_top = ([ahead(3, 5, 0), ahead(-3, 7, 1), ahead(-7, 0, 0, blocks=ALL_BLOCKS)],
                   [halves((2, -5, 1), (9, -20, 0)), halves((-8, -3, 0), (-5, -1, 1), skipped=1, blocks=LUMA)])
    rows_of_bottom = ([ahead(64, 32, 1), ahead(-1, 7, 0), Macroblock(blocks=CHROMA)],
                      [halves((1, -5, 1), (2, -15, 1)), flat(120, code=4), ahead(-5, -4, 0, blocks=LAST)])
    case('P fields: one vector, 16x8, by both fields', start + picture(
        Picture(P, temporal=1, f_codes=(4, 4), **top), *rows_of_top) + picture(
        Picture(P, temporal=1, f_codes=(4, 4), **bottom), *rows_of_bottom) + END,
        'The second field refers to the first field of its frame and to the bottom field of the frame before.')
    case('P fields with the bottom field first', first + textured(Picture(I, **bottom), 3, 2, 8)
         + textured(Picture(I, **top), 3, 2, 9)
         + picture(Picture(P, temporal=1, f_codes=(4, 4), **bottom), *rows_of_top)
         + picture(Picture(P, temporal=1, f_codes=(4, 4), **top), *rows_of_bottom) + END)
    case('an I field and a P field that refers to it alone', first + textured(Picture(I, **top), 3, 2, 10) + picture(
        Picture(P, f_codes=(3, 3), **bottom), [ahead(3, 1, 0), ahead(-5, 4, 0, blocks=LUMA), ahead(0, 0, 0)],
        [halves((1, -1, 0), (2, -2, 0)), flat(64), ahead(-9, -9, 0)]) + END)
    case('a P field behind an I field of a later frame, by both fields', start + textured(
        Picture(I, temporal=1, **top), 3, 2, 11) + picture(
        Picture(P, temporal=1, f_codes=(3, 3), **bottom), [ahead(3, 1, 0), ahead(-5, 4, 1), Macroblock(blocks=LUMA)],
        [halves((1, -1, 0), (2, -2, 1)), ahead(-9, -9, 1, skipped=1)]) + END)
    dual = dict(motion=DUAL)
    case('dual prime in fields of both parities', start + picture(
        Picture(P, temporal=1, f_codes=(3, 3), **top),
        [ahead(3, 4, dmvector=(1, -1), **dual), ahead(-3, 5, dmvector=(0, 0), **dual),
         ahead(-6, 7, dmvector=(-1, 1), **dual)],
        [ahead(8, -2, dmvector=(0, 1), blocks=ALL_BLOCKS, **dual), ahead(1, -3, 1), ahead(-4, -5, **dual)]) + picture(
        Picture(P, temporal=1, f_codes=(3, 3), **bottom),
        [ahead(1, 2, dmvector=(1, 0), **dual), ahead(-7, 3, dmvector=(-1, -1), **dual),
         ahead(-6, 9, dmvector=(1, 1), **dual)],
        [ahead(4, -4, dmvector=(0, -1), **dual), ahead(-2, -9, skipped=1, code=2, blocks=LUMA, **dual)]) + END)
    second = textured(Picture(P, temporal=3, f_codes=(4, 4), **top), 3, 2, 12) + textured(
        Picture(P, temporal=3, f_codes=(4, 4), **bottom), 3, 2, 13)

    def two(forward=None, backward=None, **others):
        return Macroblock(forward=forward, backward=backward, motion=OTHER, **others)
    pair = b''.join(picture(
        Picture(B, temporal=1, f_codes=(3, 3, 3, 3), **parity),
        [ahead(3, 5, 1), both((-4, 7, 0), (-3, 2, 1), skipped=1, blocks=ALL_BLOCKS)],
        [two([(2, -5, 0), (7, -9, 1)], [(1, -3, 1), (3, -3, 0)]), back(-5, -6, 0, skipped=1)])
        for parity in (top, bottom))
    case('B fields: one vector, 16x8, and skipped ones behind them', start + second + pair + picture(
        Picture(B, temporal=2, f_codes=(3, 3, 3, 3), **bottom),
        [two([(0, 0, 1), (3, 1, 0)], blocks=LUMA), two(None, [(-3, 5, 1), (1, 2, 1)]), back(-1, 8, 0)],
        [flat(140), two(None, [(3, -7, 0), (-5, -2, 1)], code=6, blocks=CHROMA), ahead(-4, -31, 1)]) + picture(
        Picture(B, temporal=2, f_codes=(3, 3, 3, 3), **top),
        [back(2, 2, 1), ahead(-2, 4, 0, skipped=1)],
        [both((1, -1, 1), (2, -2, 0)), both((0, -3, 0), (-5, 0, 1), skipped=1)]) + END)
    c = dict(concealment=1, f_codes=(3, 3))
    case('concealment vectors in fields', first + picture(
        Picture(I, **c, **top), [flat(50 + 20 * i, concealment=(9 - 4 * i, 3 * i, i % 2)) for i in range(3)],
        [flat(90 + 30 * i, concealment=(-5 * i, 8, 1)) for i in range(3)]) + picture(
        Picture(P, **c, **bottom),
        [flat(99, concealment=(4, 4, 0)), ahead(-6, 6, 0), flat(44, concealment=(1, -8, 1))],
        [ahead(3, -7, 0), flat(11, concealment=(8, -9, 0)), ahead(-9, -10, 0)]) + END)
    flats = [flat(70)]
    small = sequence(16, 32, progressive=0)
    case('a pair of dropped B fields', small + picture(Picture(I, **top), flats) + picture(Picture(I, **bottom), flats)
         + picture(Picture(B, f_codes=(1,) * 4, **top), flats) + picture(Picture(B, f_codes=(1,) * 4, **bottom), flats)
         + picture(Picture(P, f_codes=(1, 1), frame_only=1), [flat(90)], [flat(80)]) + END)


# ---- coefficients

def coefficients():
    start = sequence(48, 32, non_intra=[9 + 2 * i for i in range(64)], intra=[8] + [12 + 3 * i for i in range(1, 64)])
    levels = {0: {0: 7, 1: -3, 63: 2}, 1: {2: 11}, 3: {0: -1, 20: 5}, 4: {0: 1, 33: -1}, 5: {47: 3}}
    for precision, alternate, scale_type, table_one in ((1, 1, 1, 1), (2, 1, 0, 1), (3, 0, 1, 0)):
        more = dict(precision=precision, alternate=alternate, scale_type=scale_type, table_one=table_one)
        case('DC precision %d, %s scan, scale type %d, table %s, loaded matrices' % (
            precision, ('zigzag', 'alternate')[alternate], scale_type, ('zero', 'one')[table_one]),
            start + group(1) + textured(Picture(I, **more), 3, 2, 14 + precision) + picture(
            Picture(P, temporal=1, f_codes=(2, 2), **more),
            [ahead(1, 1, blocks=levels), Macroblock(blocks=levels, code=25), flat(100 << precision)],
            [ahead(0, -3, blocks=levels, code=12), flat(30 << precision, code=1),
             Macroblock(blocks=levels, code=5)]) + END)
    cut = {0: {0: 2047, 2: -2047}, 1: {3: 2047}, 2: {63: 2047}, 3: {9: -2047, 63: -2047}, 5: {40: -2000}}
    case('coefficients that are cut at their bounds', sequence(48, 16) + group(1) + picture(Picture(I), [
        Macroblock(intra=True, blocks={0: {0: 200, 2: -2047}, 2: {9: 1500}, 3: {0: 3, 63: -2047}, 5: {2: 400}}),
        flat(40), flat(180)]) + picture(
        Picture(P, temporal=1), [Macroblock(blocks=cut), Macroblock(blocks=cut, code=31), ahead(-1, 0, blocks=cut)])
        + END)
    huge = {0: {0: -2047, 1: 2047}, 1: {0: 2047, 1: 2047, 2: 2047, 3: 2047},
            4: {5: 2047, 6: -2047, 14: 2047, 15: 2047}}
    case('whole rows of coefficients at their bounds', sequence(16, 16) + group(1) + picture(Picture(I), [
        Macroblock(intra=True, blocks={0: {0: 255, 1: 2047, 5: 2047, 6: 2047}, 3: {1: -2047, 5: -2047, 14: -2047}})])
        + picture(Picture(P, temporal=1), [Macroblock(blocks=huge)]) + END)
    rows = [[Macroblock(blocks=levels), Macroblock(skipped=1, blocks=levels)]] * 2
    case('a matrix of an extension stays in force, and a sequence header brings the default back',
         sequence(48, 32) + group(1) + textured(Picture(I), 3, 2, 18)
         + picture(Picture(P, temporal=1), *rows, extension=matrices(non_intra=[70 - i for i in range(64)]))
         + picture(Picture(P, temporal=2), *rows)
         + picture(Picture(P, temporal=3), *rows, extension=matrices(intra=INTRA))
         + sequence(48, 32) + picture(Picture(P, temporal=4), *rows) + END)


# ---- drawn streams

def drawn():
    """Pictures whose macroblocks are drawn by a generator."""
    def stream(seed, width, height, progressive, kinds, draws, fields=(), **more):
        draw = Draw(seed)
        columns = (width + 15) // 16
        rows = (height + 15) // 16 if progressive else 2 * ((height + 31) // 32)
        data = sequence(width, height, progressive=progressive, **more) + group(1)
        for number_, kind in enumerate(kinds):
            paired = number_ in fields
            structures = ((TOP, BOTTOM), (BOTTOM, TOP))[draw.below(2)] if paired else (FRAME,)
            for structure in structures:
                data += random_picture(draw, kind, structure, columns, rows // len(structures), progressive,
                                       draws, number_, second=structure != structures[0] and number_ == 0)
        return data + END
    for seed, (name, *rest) in enumerate([
            ('progressive frames', 64, 48, 1, (I, P, B, P, B, B), 'PB'),
            ('progressive frames, cropped', 49, 35, 1, (I, P, B, P, B), 'PB'),
            ('interlaced frames', 64, 64, 0, (I, P, B, P, B, B), 'PB'),
            ('interlaced frames with dual prime', 50, 62, 0, (I, P, P, P, P), 'PD'),
            ('interlaced frames, fewer vectors', 64, 32, 0, (I, P, B, I, B, P, B), 'PBQ'),
            ('fields', 64, 64, 0, (I, P, B, P, B, B), 'PB', range(6)),
            ('fields with dual prime', 48, 96, 0, (I, P, P, P), 'PD', range(4)),
            ('frames and fields', 64, 64, 0, (I, P, B, P, B, P, B), 'PB', (1, 4, 5)),
            ('fields and frames', 33, 66, 0, (I, P, B, B, P, B), 'PBD', (0, 2, 4))], 101):
        case('drawn %s' % name, stream(seed, *rest))


def outside():
    """Streams of another encoder."""
    name = None
    streams = {}
    for line in Path(__file__).with_name('outside.txt').read_text().splitlines():
        if line.startswith('stream '):
            name = line.split()[1]
        elif line and not line.startswith('#'):
            streams[name] = streams.get(name, b'') + bytes.fromhex(line)
    for name, data in streams.items():
        case('another encoder: %s' % name.replace('_', ' '), data)


def main():
    for add in (progressive, backward_and_forward, order, interlaced_frames, field_pictures, coefficients, drawn,
                outside):
        add()
    add_all(faulty, known)
    if len(sys.argv) > 1:
        folder = Path(sys.argv[1])
        for number_, (name, data, fault, _) in enumerate(CASES):
            if not fault:
                (folder / ('%02d.m2v' % number_)).write_bytes(data)
                (folder / ('%02d.yuv' % number_)).write_bytes(b''.join(decoded(data).frames))
        return
    print('\n'.join(table()).rstrip())


if __name__ == '__main__':
    main()
