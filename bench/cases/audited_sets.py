"""The sets of rules of `audit`: main, and dvd, dvb and atsc, whose own rules, 60 to 95, are told beside those of main, for
bench/cases/audited.py. By the rules alone: what each header breaks, as rule, name, have and need. A size counts as 10000
times the width and the height.

dvd, of a sequence header:
60  at frame_rate_code 3 the size is 720, 704 or 352 by 576, or 352 by 288; else 720, 704 or 352 by 480, or 352 by 240
61  frame_rate_code is 3 or 4
62  aspect_ratio_information is 2 or 3
63  bit_rate is at most 24500, in units of 400 bit/s
64  profile_and_level_indication is 72
68  a warning: low_delay is 0, and progressive_sequence
71  a warning: aspect_ratio_information 3 has a width of 704 or 720
70  a warning, behind 71: in a later sequence the size, frame_rate_code and aspect_ratio_information are those of the first
    header of the first sequence
Of a group header:
67  a warning: a sequence header stands between the last picture and it
Of a picture:
65  since the last group header at most 36 fields are shown at frame_rate_code 4, and else 30; it is told at the picture with
    which they are more than the bound that is in force there
66  a warning: at most two B frames end in a row
69  a warning: picture 0 has a group header before it, and no picture is dropped

dvb, of a sequence header; where it is neither High 1440 nor High level it counts as Main level:
80  at Main level frame_rate_code is 3
81  at Main level the size is 720, 544, 480 or 352 by 576, or 352 by 288, or that of 85
82  aspect_ratio_information is 2 to 4; warning 50 isn't told
83  a warning: profile_and_level_indication is 72 or 68
84  a warning: above Main level frame_rate_code is 3 or 6
85  a warning: at Main level the size isn't 704 by 576

atsc, of a sequence header:
90  the size is 1920 by 1080, 1280 by 720, 704 by 480 or 640 by 480
91  aspect_ratio_information is 1 or 3 in the first two of these, 2 or 3 in the third, 1 or 2 in the last
92  frame_rate_code is 4 or 5, in progressive sequences also 1 or 2, and under 1080 lines 7 or 8; at 720 lines
    progressive_sequence is 1
93  bit_rate is at most 48500
94  vbv_buffer_size is at most 488
Of a picture:
95  a warning: vbv_delay is at most 45000, or 65535"""

from audited_account import fields
from audited_strict import HIGHER, equal, named
from pictures_writer import B
from verdicts import at_most, within

DVD_SIZES = {576: (7200576, 7040576, 3520576, 3520288), 480: (7200480, 7040480, 3520480, 3520240)}
DVB_SIZES = (7200576, 5440576, 4800576, 3520576, 3520288)
NARROWER = 7040576
# the sizes of atsc, each with its codes of aspect_ratio_information, and those that are needed by their lines
ATSC_ASPECTS = {19201080: (1, 3), 12800720: (1, 3), 7040480: (2, 3), 6400480: (1, 2)}
ATSC_SIZES = {1080: 19201080, 720: 12800720}


def size_of(s):
    """The size as it is told."""
    return 10000 * s.width + s.height


def nearest(have, codes):
    """It is one of these codes, or the nearest one is needed, of two equally near the lower one."""
    return [] if have in codes else [(have, min(codes, key=lambda code: (abs(code - have), code)))]


# ---- sequence headers, by the numbers of the rules

def dvd_header(s):
    """What dvd tells of a sequence header."""
    sizes = DVD_SIZES[576 if s.code == 3 else 480]
    yield from named(60, ('size', [] if size_of(s) in sizes else [(size_of(s), sizes[0])]))
    yield from named(61, ('frame_rate_code', within(s.code, 3, 4)))
    yield from named(62, ('aspect_ratio_information', within(s.aspect, 2, 3)))
    yield from named(63, ('bit_rate', at_most(s.rate, 24500)))
    yield from named(64, ('profile_and_level_indication', equal(s.level, 72)))
    yield from named(68, ('low_delay', equal(s.low_delay, 0)), ('progressive_sequence', equal(s.progressive, 0)))
    yield from named(71, ('aspect_ratio_information', [(3, 2)] if s.aspect == 3 and s.width not in (704, 720) else []))


def like_header(s, first):
    """What dvd tells of it beside the first header of the first sequence, where this is another one."""
    if first:
        yield from named(70, ('size', equal(size_of(s), size_of(first))), ('frame_rate_code', equal(s.code, first.code)),
                         ('aspect_ratio_information', equal(s.aspect, first.aspect)))


def dvb_header(s):
    """What dvb tells of it."""
    main, size = s.level not in HIGHER, size_of(s)
    yield from named(80, ('frame_rate_code', equal(s.code, 3) if main else []))
    yield from named(81, ('size', [(size, 7200576)] if main and size not in (*DVB_SIZES, NARROWER) else []))
    yield from named(82, ('aspect_ratio_information', within(s.aspect, 2, 4)))
    yield from named(83, ('profile_and_level_indication', [] if s.level in (72, 68) else [(s.level, 72)]))
    yield from named(84, ('frame_rate_code', [] if main or s.code in (3, 6) else [(s.code, 3)]))
    yield from named(85, ('size', [(size, 7200576)] if main and size == NARROWER else []))


def atsc_codes(s):
    """The frame rate codes of atsc at this scan and size."""
    if not s.progressive:
        return 4, 5
    return (1, 2, 4, 5, 7, 8) if s.height < 1080 else (1, 2, 4, 5)


def atsc_header(s):
    """What atsc tells of it."""
    size = size_of(s)
    aspects = ATSC_ASPECTS.get(size)
    yield from named(90, ('size', [] if aspects else [(size, ATSC_SIZES.get(s.height, 7040480))]))
    yield from named(91, ('aspect_ratio_information', nearest(s.aspect, aspects) if aspects else []))
    yield from named(92, ('frame_rate_code', nearest(s.code, atsc_codes(s))),
                     ('progressive_sequence', equal(s.progressive, 1) if s.height == 720 else []))
    yield from named(93, ('bit_rate', at_most(s.rate, 48500)))
    yield from named(94, ('vbv_buffer_size', at_most(s.buffer, 488)))


# ---- the sets

class Main:
    """A set, in a sequence, and what its own rules tell of the headers in turn, beside the first header of the first
    sequence, where this is another one. Main has none; `silent` are the rules of main that the set doesn't tell."""
    silent = ()

    def __init__(self, first=None):
        self.like = first

    def header(self, _):
        """Of a sequence header."""
        return ()

    def group(self):
        """Of a group header."""
        return ()

    def picture(self, _number, _p):
        """Of a picture of this number."""
        return ()


class Dvd(Main):
    """What counts: a sequence header since the last picture, the fields since the last group header, and the B frames that
    ended in a row."""

    def __init__(self, first=None):
        super().__init__(first)
        self.headed, self.fields, self.b_frames = False, 0, 0

    def header(self, s):
        """As of dvd, and that it stands there."""
        self.headed = True
        return *dvd_header(s), *like_header(s, self.like)

    def group(self):
        self.fields = 0
        return named(67, ('sequence_header', equal(int(self.headed), 1)))

    def picture(self, number, p):
        self.headed = False
        yield from named(65, ('group_fields', self.too_many(p)))
        yield from named(66, ('b_frames', self.in_a_row(p)))
        if number == 0:
            yield from named(69, ('first_group', equal(min(p.group, 1), 1)))
        yield from named(69, ('dropped', equal(int(p.dropped), 0)))

    def too_many(self, p):
        """What rule 65 tells: at the picture with which the fields pass its bound."""
        before, bound = self.fields, 36 if p.sequence.code == 4 else 30
        self.fields += fields(p)
        return at_most(self.fields, bound) if before <= bound else []

    def in_a_row(self, p):
        """What rule 66 tells where a frame ends."""
        if not p.ends_frame:
            return []
        self.b_frames = self.b_frames + 1 if p.kind == B else 0
        return at_most(self.b_frames, 2)


class Dvb(Main):
    """The rules are on sequence headers alone."""
    silent = (50,)

    def header(self, s):
        return dvb_header(s)


class Atsc(Main):
    """On a picture there is a rule on its vbv_delay."""

    def header(self, s):
        return atsc_header(s)

    def picture(self, _number, p):
        return named(95, ('vbv_delay', at_most(p.delay, 45000) if p.delay != 65535 else []))


SETS = {'main': Main, 'dvd': Dvd, 'dvb': Dvb, 'atsc': Atsc}


def set_in(words):
    """The name of the set that words ask for."""
    for word, following in zip(words, [*words[1:], '']):
        if word == '--for':
            return following
        if word.startswith('--for='):
            return word[len('--for='):]
    return 'main'
