"""The account of the decoder's buffer that goes on behind a failure, at constant and at variable rate, for
bench/cases/audited.py.

Amounts are in units of 1/1800 bit and times in units of 1/720,000 s, so that a rate of k units of 400 bit/s brings k
in a unit of time. A picture has its bits, those of them up to the end of its start code, and the time from its removal
to the next one."""

from dataclasses import dataclass

from pictures_writer import B, FRAME
from verdicts import FIELD_UNITS

UNIT = 1800


@dataclass
class Inflow:
    """How bits come: the rate, what the buffer takes, in what steps a decoder waits, and whether the rate varies."""
    k: int
    size: int
    step: int
    varies: bool


@dataclass
class Removal:
    """A picture that is removed. `reach` is what is held then in a stream without an end."""
    time: int
    reach: int
    have: int
    need: int
    over: bool
    wait: int
    delay: int

    @property
    def under(self):
        return self.have < self.need

    @property
    def before(self):
        return self.have // UNIT

    @property
    def after(self):
        return max(0, self.have - self.need) // UNIT


def removed(flow, time, held, rest, picture):
    """A picture's removal, where so much came in a stream without an end and so much is left of this one; and what has
    come when the next one is due."""
    bits, code_bits, interval = picture
    need = UNIT * bits
    reach = min(held, flow.size) if flow.varies else held
    have = min(reach, rest)
    over = not flow.varies and have > flow.size
    full, wait = (flow.size if over else reach), 0
    if have < need:
        wait = flow.step * -(-(need - have) // (flow.k * flow.step))
        full = min(full + flow.k * wait, max(flow.size, need))
    delay = max(0, full - UNIT * code_bits) // (8 * flow.k)
    return Removal(time, reach, have, need, over, wait, delay), max(0, full - need) + flow.k * interval


def removals(flow, first, pictures):
    """Each picture's removal, where `first` has come when the first one is due; nothing follows the last one."""
    told, held, time, rest = [], first, 0, UNIT * sum(bits for bits, _, _ in pictures)
    for picture in pictures:
        r, held = removed(flow, time, held, rest, picture)
        told.append(r)
        time, rest = time + r.wait + picture[2], rest - r.need
    return told


# ---- the account of a sequence

def fields(p):
    """For how many fields a picture is shown: a progressive sequence shows a frame once, twice or three times."""
    if p.structure != FRAME:
        return 1
    if not p.repeat:
        return 2
    return (6 if p.top_first else 4) if p.sequence.progressive else 3


def intervals(first, pictures):
    """The time behind each picture. A frame takes its own fields, but without low_delay an anchor those of the last
    whole anchor; a field takes one, and the second field of an anchor so many that both take those of the anchor
    before. An anchor of two fields has two."""
    last, times = 2, []
    for p in pictures:
        anchor, shown = p.kind != B, fields(p)
        if p.structure == FRAME:
            times.append(last if anchor and not first.low_delay else shown)
        else:
            times.append(last - 1 if anchor and p.ends_frame else 1)
        if anchor and p.ends_frame:
            last = shown if p.structure == FRAME else 2
    return [FIELD_UNITS.get(first.code, 0) * count for count in times]


def rate_of(first, pictures):
    """`none` where there is no account: without pictures, without a rate, a buffer or a frame rate that may be."""
    may_be = 1 <= first.rate <= first.limits()[4] and 1 <= first.buffer <= first.limits()[5]
    if not (pictures and may_be and first.code in FIELD_UNITS and first.n == first.d == 0):
        return 'none'
    return 'variable' if pictures[0].delay == 65535 else 'constant'


def filled(first, pictures, sizes):
    """How the buffer is filled behind a first sequence header, what came when the first picture is due, and the
    pictures, where each has so many bits and so many of them up to the end of its start code."""
    field, varies = FIELD_UNITS[first.code], pictures[0].delay == 65535
    flow = Inflow(first.rate, UNIT * 16384 * first.buffer, 2 * field if first.low_delay else 1, varies)
    at_first = flow.size if varies else UNIT * sizes[0][1] + 8 * flow.k * pictures[0].delay
    return flow, at_first, [(*size, time) for size, time in zip(sizes, intervals(first, pictures))]


def account(first, pictures, sizes):
    """The removals of the pictures, where there is an account."""
    return [] if rate_of(first, pictures) == 'none' else removals(*filled(first, pictures, sizes))
