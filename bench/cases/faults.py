#!/usr/bin/env python3
"""Finds the first fault of a stream by the rules alone: its kind and its place in bits.

    bench/cases/faults.py < STREAM
    bench/cases/faults.py --self-test

It shares nothing with the program. The code tables are those of bench/cases/pictures_writer.py. With --self-test it is held
against the table: what the cases of `decode` and `check` want of streams with a fault, and that all others have none."""

import sys

from faults_slice import SliceFinder
from faults_unit import Bits, Fault, Picture
from pictures_writer import B, FRAME, I, P

PICTURE, SEQUENCE, EXTENSION, END, GROUP, USER = 0x00, 0xB3, 0xB5, 0xB7, 0xB8, 0xB2
MOST_WIDTH, MOST_HEIGHT = 1920, 1152


class Finder:
    """Reads the units of a text one by one, from a byte of the input on, up to its end code."""

    def __init__(self, data, start):
        self.data, self.units = data, units(data, start)
        self.first = self.size = self.picture = self.waiting = None
        self.progressive = self.closed = self.anchors = self.next = 0

    def run(self):
        while self.next < len(self.units):
            at, value, end = self.units[self.next]
            self.next += 1
            if value == SEQUENCE or self.first:
                self.unit(at, value, end)
            if value == END and self.first:
                return
        if not self.first:
            raise Fault('NoSequence', 8 * len(self.data))
        self.close(8 * len(self.data))
        self.no_field_due(8 * len(self.data))

    def unit(self, at, value, end):
        place, bits = 8 * at, Bits(self.data[at + 4:end], 8 * at + 32)
        if value in (PICTURE, SEQUENCE, GROUP, END):
            self.close(place)
        if value in (SEQUENCE, GROUP, END):
            self.no_field_due(place)
        if value == PICTURE:
            self.take_picture(place, bits)
        elif value <= 0xAF:
            self.take_slice(place, bits, value - 1)
        elif value == SEQUENCE:
            self.take_sequence(place, bits)
        elif value == GROUP:
            self.take_group(bits)
        elif value == EXTENSION:
            self.take_extension(place, bits)
        elif value not in (USER, END):
            raise Fault('Forbidden' if value in (0xB0, 0xB1, 0xB6) else 'Unsupported', place)

    # ---- between units

    def close(self, place):
        """The picture that is open ends: each of its macroblocks was read."""
        p, self.picture = self.picture, None
        if p and not p.dropped and p.covered < p.columns * p.rows:
            raise Fault('MissingMacroblocks', place)

    def no_field_due(self, place):
        if self.waiting:
            raise Fault('FieldPair', place)

    def extension(self, own):
        """The unit behind a header, which is to be the extension with this id."""
        if self.next == len(self.units):
            raise Fault('NotMpeg2', 8 * len(self.data))
        at, value, end = self.units[self.next]
        self.next += 1
        if value != EXTENSION:
            raise Fault('NotMpeg2', 8 * at)
        bits = Bits(self.data[at + 4:end], 8 * at + 32)
        if bits.number(4) != own:
            raise Fault('NotMpeg2', 8 * at)
        return bits

    # ---- headers

    def take_sequence(self, place, bits):
        width, height = bits.number(12), bits.number(12)
        for count in (4, 4, 18):
            bits.number(count)
        bits.marker()
        bits.number(10)
        bits.number(1)
        for _ in range(2):
            bits.matrix()
        bits.end()
        bits = self.extension(1)
        bits.number(8)
        progressive = bits.number(1)
        at, chroma = bits.at(), bits.number(2)
        if chroma != 1:
            raise Fault('Unsupported' if chroma else 'Forbidden', at)
        size = tuple(self.side(bits, low, most) for low, most in ((width, MOST_WIDTH), (height, MOST_HEIGHT)))
        bits.number(12)
        bits.marker()
        for count in (8, 1, 2, 5):
            bits.number(count)
        bits.end()
        self.first = self.first or (size, progressive)
        if (size, progressive) != self.first:
            raise Fault('SequenceChanged', place)
        self.size, self.progressive = size, progressive

    @staticmethod
    def side(bits, low, most):
        at, side = bits.at(), bits.number(2) * 4096 + low
        if side == 0 or side > most:
            raise Fault('Unsupported' if side else 'Forbidden', at)
        return side

    def take_group(self, bits):
        for count in (1, 5, 6):
            bits.number(count)
        bits.marker()
        bits.number(6)
        bits.number(6)
        self.closed = bits.number(1)
        bits.number(1)
        bits.end()

    def take_picture(self, place, bits):
        bits.number(10)
        at, kind = bits.at(), bits.number(3)
        if kind not in (I, P, B):
            raise Fault('Unsupported' if kind == 4 else 'Forbidden', at)
        bits.number(16)
        for _ in range({I: 0, P: 1, B: 2}[kind]):
            bits.number(1)
            bits.number(3)
        bits.extra()
        bits.end()
        p = Picture(kind, self.extension(8), self.progressive)
        if self.waiting and not self.follows(p):
            raise Fault('FieldPair', place)
        if kind == P and not self.waiting and self.anchors == 0:
            raise Fault('MissingReference', place)
        self.open(p)

    def follows(self, p):
        """The picture is the second field that is due."""
        first = self.waiting
        return first.structure + p.structure == 3 and (p.kind == first.kind or (first.kind, p.kind) == (I, P))

    def open(self, p):
        second, ends = self.waiting, p.structure == FRAME or self.waiting
        p.columns = (self.size[0] + 15) // 16
        p.frame_rows = (self.size[1] + 15) // 16 if self.progressive else 2 * ((self.size[1] + 31) // 32)
        p.rows = p.frame_rows if p.structure == FRAME else p.frame_rows // 2
        p.dropped = p.kind == B and not (self.anchors == 2 or (self.anchors == 1 and self.closed))
        # the fields at hand, top and bottom: a second P field also refers to the first one
        whole = self.anchors >= (2 if p.kind == B else 1)
        forward = {1, 2} if whole else {second.structure} if second and p.kind == P else set()
        p.fields = forward if p.kind != I else set(), {1, 2} if p.kind == B and self.anchors else set()
        if ends and p.kind != B:
            self.anchors = min(2, self.anchors + 1)
        self.waiting, self.picture = None if ends else p, p

    def take_extension(self, place, bits):
        own = bits.number(4)
        if own in (1, 8) or own == 3 and not (self.picture and not self.picture.begun):
            raise Fault('Forbidden', place)
        if own in (5, 9, 10):
            raise Fault('Unsupported', place)
        if own == 3:
            for _ in range(4):
                bits.matrix()
            bits.end()

    def take_slice(self, place, bits, row):
        p = self.picture
        if not p or row >= p.rows or row < p.row:
            raise Fault('SliceOrder', place)
        p.row, p.begun = row, True
        if not p.dropped:
            SliceFinder(p, bits, row, place).read()


def units(data, start):
    """Where each unit begins, its value, and where it ends, up to the end code of the sequence."""
    found, at, begun = [], data.find(b'\0\0\1', start), False
    while 0 <= at < len(data) - 3 and not (begun and found[-1][1] == END):
        behind = data.find(b'\0\0\1', at + 4)
        end = behind if 0 <= behind < len(data) - 3 else len(data)
        found.append((at, data[at + 3], end))
        at, begun = behind, begun or data[at + 3] == SEQUENCE
    return found


def first_fault(data, start=0):
    """The kind and the place of the first fault of the text that begins at a byte, or nothing."""
    try:
        Finder(data, start).run()
    except Fault as fault:
        return fault.kind, fault.place


def self_test():
    """Answers how many cases of the table have a fault, and how many have none."""
    from table_lines import read_bytes, read_table
    streams, cases = read_table()
    counts = [0, 0]
    for name, lines in cases.items():
        said = dict(lines)
        if said.get('words') not in ('decode', 'check') or said.get('status', '0') not in ('0', '9', '10', '11'):
            continue
        data = b''.join(read_bytes(streams, rest) for key, rest in lines if key == 'input')
        words = said.get('report', '').split()
        wanted = (words[1], int(words[4])) if words[:1] == ['stream'] else None
        assert said.get('status') != '9' or wanted or not words, name
        if wanted or words:
            assert first_fault(data) == wanted, (name, first_fault(data), wanted)
            counts[wanted is None] += 1
    return counts


def main():
    if sys.argv[1:] == ['--self-test']:
        print('%d cases with their fault, %d without one' % tuple(self_test()))
        return
    fault = first_fault(sys.stdin.buffer.read())
    print('stream %s at bit %d' % fault if fault else 'no fault')


if __name__ == '__main__':
    main()
