"""Streams of predicted pictures with a fault. A slice is given in bits up to the fault's place and from there on, so
that the place is counted by their number; bench/cases/pictures.py prints the cases."""

from pictures_writer import (B, BOTTOM, END, FRAME, I, P, TOP, Macroblock, Picture, SliceWriter, flat, group, headers,
                             sequence, slice_unit, unit)


def flats(p, columns, rows, level):
    """A picture of equal samples."""
    return headers(p) + b''.join(slice_unit(p, row, 2, [flat(level)] * columns) for row in range(rows))


class Faults:
    """Hands on streams with their faults: kind, place, and the pieces before the one of the fault."""

    def __init__(self, take, known):
        self.take, self.known = take, known

    def at_slice(self, name, kind, pieces, head, before, rest, row=0, comment=''):
        """A slice behind pieces and the headers of its picture, with the fault between its two parts."""
        data = pieces + head
        start = 8 * len(data) + 32
        before, rest = before.strip(), rest.strip()
        place = start + len(before.replace(' ', ''))
        where = 'The slice has its bits from %d on: %s, and from %d on %s.' % (start, before, place, rest)
        if len(where) > 118:
            where = 'The slice has its bits from %d on, and from %d on %s.' % (start, place, rest)
        self.take(name, data + unit(row + 1, before, rest) + END, kind, place, pieces, comment + '\n' + where)

    def at_unit(self, name, kind, pieces, head, rest, comment=''):
        """The fault stands at the unit behind pieces and the head."""
        place = 8 * len(pieces + head)
        self.take(name, pieces + head + rest, kind, place, pieces, comment)

    def at_extension(self, name, kind, pieces, p, bits):
        """The fault stands so many bits behind the start code of the picture coding extension of nine bytes."""
        data = headers(p)
        place = 8 * (len(pieces + data) - 9) + 32 + bits
        self.take(name, pieces + data + END, kind, place, pieces,
                  'The extension begins at bit %d: 32 + %d bits before the element.' % (place - 32 - bits, bits))


def bits_of(p, m):
    """A slice of one macroblock."""
    writer = SliceWriter(p, 2)
    writer.add(m)
    return writer.bits


def grey(columns):
    """A stream of one grey frame."""
    return sequence(16 * columns, 16) + group(1) + flats(Picture(I), columns, 1, 128)


def elements(f):
    """Elements of macroblocks, in a P frame of three macroblocks in a row."""
    pieces = f.known('three_grey', grey(3))
    p = headers(Picture(P, f_codes=(1, 1)))
    far = headers(Picture(P, f_codes=(9, 1)))
    for name, kind, before, rest in (
            ('no code of a type in P', 'NoCode', '00010 0 1', '000000 1'),
            ('no code of a horizontal motion code', 'NoCode', '00010 0 1 001', '0000001011 1'),
            ('no code of a vertical motion code', 'NoCode', '00010 0 1 001 1', '0000000000 1'),
            ('a motion code that ends early', 'Truncated', '00010 0 1 001', '000000'),
            ('no code of a pattern', 'NoCode', '00010 0 1 1 1 1', '000000001 1'),
            ('quantiser code 0 of a macroblock in P', 'Forbidden', '00010 0 1 00001', '00000 1'),
            ('a P slice that begins behind its row', 'MissingMacroblocks', '00010 0', '011 001 1 1'),
            ('an increment past the end of a row in P', 'SliceOrder', '00010 0 1 001 1 1', '0011 001 1 1'),
            ('an increment by an escape past the end of a row', 'SliceOrder', '00010 0 1 001 1 1',
             '00000001000 1 001 1 1'),
            ('a pair past the end of a block that is not intra', 'Overrun',
             '00010 0 1 01 01011 000001 111111 000000000001', '110 10'),
            ('level -2048 of a block that is not intra', 'Forbidden', '00010 0 1 01 01011 000001 000000',
             '100000000000 10'),
            ('no code of a first coefficient', 'NoCode', '00010 0 1 01 01011', '000000000000 1'),
            ('a DC level of 383 in P', 'DcRange', '00010 0 1 001 1 1 1 00011', '1111110 11111111 10'),
            ('a vector that leaves its frame on the left', 'VectorOutside', '00010 0', '1 001 011 1'),
            ('a vector that leaves its frame above', 'VectorOutside', '00010 0', '1 001 1 011'),
            ('a vector that leaves its frame below', 'VectorOutside', '00010 0', '1 001 1 010'),
            ('a vector that leaves its frame on the right', 'VectorOutside', '00010 0 1 001 1 1 1 001 1 1',
             '1 001 010 1'),
            ('a vector outside comes before a fault of the blocks', 'VectorOutside', '00010 0',
             '1 1 011 1 01011 000000000000 1'),
            ('a vector outside comes behind the pattern', 'NoCode', '00010 0 1 1 011 1', '000000001 1')):
        f.at_slice(name, kind, pieces, p, before, rest)
    f.at_slice('a residual that ends early', 'Truncated', pieces, far, '00010 0 1 001 010', '000')
    covered = '00010 0 1 001 1 1 1 001 1 1'
    f.at_unit('a P picture whose last macroblock is missing', 'MissingMacroblocks', pieces, p + unit(1, covered), END)
    f.at_unit('a P picture whose last macroblock is missing, at the end of the text', 'MissingMacroblocks', pieces,
              p + unit(1, covered), b'')
    f.at_unit('a P picture without a slice, behind two frames', 'MissingMacroblocks',
              pieces + flats(Picture(I), 3, 1, 90), p, group(0),
              'The first frame was shown when the second was decoded.')
    conceals = headers(Picture(I, concealment=1, f_codes=(1, 1)))
    f.at_slice('the marker behind a concealment vector', 'BadMarker', sequence(48, 16), conceals, '00010 0 1 1 1 1',
               '0 1')
    f.at_slice('the marker behind a concealment vector in P', 'BadMarker', pieces,
               headers(Picture(P, concealment=1, f_codes=(1, 1))), '00010 0 1 001 1 1 1 00011 010 1', '0 1')
    f.at_slice('a skipped macroblock in an I picture behind another frame', 'SkipRule', pieces, headers(Picture(I)),
               bits_of(Picture(I), flat(128)), '011 1')


def bidirectional(f):
    p = Picture(B, f_codes=(1, 1, 1, 1))
    pieces = f.known('three_twice', grey(3) + flats(Picture(P), 3, 1, 60))
    f.at_slice('a skipped macroblock behind an intra one in B', 'SkipRule', pieces, headers(p),
               bits_of(p, flat(128)), '011 010 1 1', comment='The first frame was shown when the second was decoded.')
    wide = Picture(B, f_codes=(4, 1, 1, 1))
    f.at_slice('a skipped macroblock in B by a vector that leaves the frame there', 'VectorOutside', pieces,
               headers(wide), bits_of(wide, Macroblock(forward=[(64, 0)])), '011 010 1 1',
               comment='The vector goes 32 samples to the right, from column 1 to 48.')
    f.at_slice('no code of a type in B', 'NoCode', pieces, headers(p), '00010 0 1', '000000 1')
    one = grey(3)
    for name, kind, before, rest in (
            ('a B macroblock that goes forward with one anchor', 'MissingReference', '00010 0', '1 0010 1 1'),
            ('a B macroblock that goes both ways with one anchor', 'MissingReference', '00010 0 1 010 1 1',
             '1 10 1 1 1 1'),
            ('a vector outside comes before a missing reference', 'VectorOutside', '00010 0', '1 0010 011 1')):
        f.at_slice(name, kind, one, headers(p), before, rest, comment='The group is closed, so the B picture is read.')
    dropped = sequence(48, 16) + group(0) + flats(Picture(I), 3, 1, 70)
    f.at_unit('a slice past the last row in a dropped picture', 'SliceOrder', dropped, headers(p),
              unit(2, '00010 0 1 0010 1 1') + END)
    f.at_unit('another width behind a dropped picture', 'SequenceChanged', dropped + headers(p) + unit(1, '1' * 15),
              b'', sequence(64, 16) + END,
              "What stands in a dropped picture's slices, and what they cover, doesn't matter.")


def motion_types(f):
    """Interlaced frames of 16 by 32 samples: frame_pred_frame_dct is 0."""
    more = dict(frame_only=0, progressive=0)
    pieces = f.known('interlaced_grey', sequence(16, 32, progressive=0) + group(1)
                     + flats(Picture(I, **more), 1, 2, 128))
    second = flats(Picture(I, **more), 1, 2, 30)
    p, b = headers(Picture(P, f_codes=(1, 1), **more)), headers(Picture(B, f_codes=(1, 1, 1, 1), **more))
    two = headers(Picture(P, f_codes=(1, 2), **more))
    f.at_slice('motion type 0 in a P frame', 'Forbidden', pieces, p, '00010 0 1 001', '00 1 1')
    f.at_slice('motion type 0 in a B frame', 'Forbidden', pieces + second, b, '00010 0 1 010', '00 1 1')
    f.at_slice('dual prime in a B frame', 'Forbidden', pieces + second, b, '00010 0 1 0010', '11 1 0 1 0')
    f.at_slice('a field vector 8 with f_code 1', 'VectorRange', pieces, p, '00010 0 1 001 01 0 1', '0000010110 1',
               comment='Its vertical range is -8 to 7.')
    f.at_slice('a second field vector -9 with f_code 1', 'VectorRange', pieces, p, '00010 0 1 001 01 0 1 1 1 1',
               '0000010101 1')
    f.at_slice('a field vector 16 with f_code 2', 'VectorRange', pieces, two, '00010 0 1 001 01 0 1', '0000010110 1 1',
               comment='Code 8 and residual 1 are 16, and the vertical range is -16 to 15.')
    f.at_slice('a residual that ends early comes before the range', 'Truncated', pieces, two,
               '00010 0 1 001 01 0 1 0000010110', '')
    f.at_slice('a dual prime vector 8 with f_code 1', 'VectorRange', pieces, p, '00010 0 1 001 11 1 0',
               '0000010110 0 1')
    f.at_slice('an opposite vector of dual prime that leaves its field', 'VectorOutside', pieces,
               headers(Picture(P, f_codes=(1, 1), top_first=1, **more)), '00010 0', '1 001 11 1 0 010 11',
               comment='By vector 1 and dmvector -1 it is (1 + 1) / 2 - 1 - 1 for the top lines.')


def field_pictures(f):
    """Frames of 16 by 32 samples of two fields."""
    more = dict(frame_only=0, progressive=0)
    head = sequence(16, 32, progressive=0) + group(1)

    def field(kind, structure, level=128):
        return flats(Picture(kind, structure, f_codes=(1, 1, 1, 1), **more), 1, 1, level)

    def begun(kind, structure):
        return headers(Picture(kind, structure, f_codes=(1, 1, 1, 1), **more))
    first = f.known('field_grey', head + field(I, TOP))
    bottom = begun(P, BOTTOM)
    for name, kind, before, rest in (
            ('a second P field that goes by its own parity, with no anchor', 'MissingReference', '00010 0',
             '1 001 01 1 1 1'),
            ('a second P field without motion, with no anchor', 'MissingReference', '00010 0', '1 01 01011 10 10'),
            ('16x8 in a second P field whose lower part goes by its own parity, with no anchor', 'MissingReference',
             '00010 0', '1 001 10 0 1 1 1 1 1'),
            ('dual prime in a second P field, with no anchor', 'MissingReference', '00010 0', '1 001 11 1 0 1 11'),
            ('dual prime in a second P field, by a vector that leaves the field', 'VectorOutside', '00010 0',
             '1 001 11 1 0 1 0'),
            ('motion type 0 in a P field', 'Forbidden', '00010 0 1 001', '00 0 1 1')):
        f.at_slice(name, kind, first, bottom, before, rest)
    wide = sequence(48, 32, progressive=0) + group(1) + flats(Picture(I, TOP, **more), 3, 1, 99)
    f.at_slice('a skipped macroblock in a second P field, with no anchor', 'MissingReference', wide, bottom,
               '00010 0 1 001 01 0 1 1', '011 001 01 0 1 1', comment='It counts with the macroblock behind it.')
    anchor = first + field(I, BOTTOM)
    f.at_slice('dual prime in a B field', 'Forbidden', anchor + field(P, TOP) + field(P, BOTTOM), begun(B, TOP),
               '00010 0 1 0010', '11 1 0 1 0', comment='The first frame was shown when the second was decoded.')
    f.at_unit('a slice past the last row of a field', 'SliceOrder', head, field(I, TOP), unit(2, '00010 0 1') + END)
    f.at_unit('a first field without a slice comes before the field that is due', 'MissingMacroblocks', head,
              begun(I, TOP), group(0) + END)
    f.at_unit('a P frame with no anchor', 'MissingReference', head, b'', begun(P, FRAME) + END)
    f.at_unit('a first P field with no anchor', 'MissingReference', head, b'', field(P, TOP) + END)
    for name, rest in (('a group header', group(0)), ('a group header that ends early', group(0)[:5]),
                       ('a sequence header', head), ('the end code', END), ('the end of the text', b''),
                       ('a field of the same parity', field(I, TOP)), ('a frame picture', begun(I, FRAME)),
                       ('a P frame', begun(P, FRAME)), ('a B field', begun(B, BOTTOM))):
        f.at_unit('behind an I field %s' % name, 'FieldPair', first, b'', rest)
    for one, other in ((P, I), (P, B), (B, I), (B, P)):
        names = {I: 'an I', P: 'a P', B: 'a B'}
        second = anchor + (field(P, TOP, 50) + field(P, BOTTOM, 50) if one == B else b'')
        f.at_unit('behind %s field %s field' % (names[one], names[other]), 'FieldPair', second + field(one, TOP), b'',
                  field(other, BOTTOM))
    dropped = sequence(16, 32, progressive=0) + field(I, TOP) + field(I, BOTTOM) + field(B, TOP)
    f.at_unit('behind a dropped B field the end code', 'FieldPair', dropped, b'', END)
    f.at_unit('behind a dropped B field a P field', 'FieldPair', dropped, b'', field(P, BOTTOM))


def extensions(f):
    """Elements of picture coding extensions: f_codes stand 4 bits behind the start code, the structure 22."""
    pieces = grey(1)
    both = pieces + flats(Picture(P), 1, 1, 60)
    names = 'forward horizontal', 'forward vertical', 'backward horizontal', 'backward vertical'
    for index, value in ((0, 0), (0, 10), (1, 15)):
        f.at_extension('%s f_code %d in P' % (names[index], value), 'Forbidden', pieces,
                       Picture(P, f_codes=tuple(value if i == index else 1 for i in range(2))), 4 + 4 * index)
    for index in range(2, 4):
        f.at_extension('%s f_code 15 in B' % names[index], 'Forbidden', both,
                       Picture(B, f_codes=tuple(15 if i == index else 1 for i in range(4))), 4 + 4 * index)
    f.at_extension('f_code 15 in I with concealment vectors', 'Forbidden', pieces,
                   Picture(I, concealment=1, f_codes=(1, 15)), 8)
    f.at_extension('a top field in a progressive sequence', 'Forbidden', pieces, Picture(I, TOP), 22)
    f.at_extension('a bottom field in a progressive sequence', 'Forbidden', pieces, Picture(P, BOTTOM, f_codes=(1, 1)),
                   22)
    f.at_extension('an f_code comes before a missing reference', 'Forbidden', sequence(16, 16),
                   Picture(P, f_codes=(0, 1)), 4)
    for name, head in (('scan', sequence(16, 16, progressive=0)), ('height', sequence(16, 18))):
        f.at_unit('another %s' % name, 'SequenceChanged', both, b'', head + END)


def add_all(take, known):
    f = Faults(take, known)
    for add in (elements, bidirectional, motion_types, field_pictures, extensions):
        add(f)
