#!/usr/bin/env python3
"""Prints what an encoder by the rules alone chooses for macroblocks of noise: the values of tests of m2v_choose.

The encoder is encoded_choice.py, the macroblock one of an I picture, and the tests are those of
m2v_test_trials/src/choose.rt. After the quantiser and the strength of the noise: the quantiser that is sent, the bits, and
the first six levels of the first and of the last block."""

from copy import deepcopy
from types import SimpleNamespace

from encoded_choice import MOST_BITS, Coder, Kind, distance
from pictures_writer import I, Picture, SliceWriter


def noise(i, strength):
    return ((i * 7919 + 13) * (i * 104729 + 7) // 256 % 256) * strength // 256 + 128 - strength // 2


def chosen(quantiser, strength):
    flat = [noise(i, strength) for i in range(384)]
    source = [[flat[at + n * y:at + n * y + n] for y in range(n)] for at, n in ((0, 16), (256, 8), (320, 8))]
    coder = Coder.__new__(Coder)
    coder.s = SimpleNamespace(columns=3, search=4)
    coder.p = Picture(I, f_codes=(15,) * 4)
    coder.q = coder.current = quantiser
    coder.kind = Kind(0)
    writer, best = SliceWriter(coder.p, quantiser), None
    for m, samples, _ in coder.candidates(writer, 0, 0, source, 0, None):
        m.skipped = 0
        after = deepcopy(writer)
        after.add(m)
        bits = len(after.bits) - len(writer.bits)
        score = 8 * distance(source, samples) + (2 * quantiser) ** 2 * bits
        if bits <= MOST_BITS and (best is None or score < best[0]):
            best = score, m, bits
    return best[1:]


for quantiser, strength in (1, 256), (1, 128), (31, 256):
    m, bits = chosen(quantiser, strength)
    levels = [[m.blocks[index].get(i, 0) for i in range(6)] for index in (0, 5)]
    print(quantiser, strength, m.code, bits, *levels)
