"""The bits of a unit, read element by element, for bench/cases/faults.py: a fault is told at the element that it is about."""

from pictures_writer import B, FRAME, I


class Fault(Exception):
    def __init__(self, kind, place):
        super().__init__(kind, place)
        self.kind, self.place = kind, place


class Bits:
    """The bits behind a start code, of which the first stands at a place of the input."""

    def __init__(self, data, base):
        self.bits = ''.join(format(byte, '08b') for byte in data)
        self.base, self.read = base, 0

    def at(self):
        return self.base + self.read

    def number(self, count):
        if self.read + count > len(self.bits):
            raise Fault('Truncated', self.at())
        self.read += count
        return int(self.bits[self.read - count:self.read] or '0', 2)

    def some(self, count):
        """A number that isn't 0."""
        at, value = self.at(), self.number(count)
        if value == 0:
            raise Fault('Forbidden', at)
        return value

    def marker(self):
        at = self.at()
        if self.number(1) == 0:
            raise Fault('BadMarker', at)

    def code(self, table):
        for length in range(1, 18):
            bits = self.bits[self.read:self.read + length]
            if len(bits) == length and bits in table:
                self.read += length
                return table[bits]
        left = self.bits[self.read:]
        raise Fault('Truncated' if any(code.startswith(left) for code in table) else 'NoCode', self.at())

    def extra(self):
        """Extra information: pairs of a 1 and eight bits, and a 0."""
        while self.number(1):
            self.number(8)

    def matrix(self):
        """A flag, and 64 numbers where it is set."""
        if self.number(1):
            for _ in range(64):
                self.some(8)

    def is_over(self):
        return '1' not in self.bits[self.read:]

    def end(self):
        """All bits behind a header are zero."""
        one = self.bits.find('1', self.read)
        if one >= 0:
            raise Fault('Forbidden', self.base + one)


class Picture:
    """What a picture coding extension says behind a picture header; its sizes and references are put in later."""

    def __init__(self, kind, bits, progressive):
        self.kind, self.row, self.covered, self.begun = kind, 0, 0, False
        self.columns = self.rows = self.frame_rows = 0
        self.dropped, self.fields = False, ()
        # whether f_codes are used forward is known by an element behind them
        conceals = bits.bits[26:27] == '1'
        used = [kind != I or conceals] * 2 + [kind == B] * 2
        self.f_codes = [self.f_code(bits, is_used) for is_used in used]
        self.precision = bits.number(2)
        at, self.structure = bits.at(), bits.number(2)
        if self.structure == 0 or progressive and self.structure != FRAME:
            raise Fault('Forbidden', at)
        self.top_first, self.frame_only, self.concealment, _, self.table_one, _, _, _, _ = (
            bits.number(1) for _ in range(9))
        if bits.number(1):
            bits.number(20)
        bits.end()

    @staticmethod
    def f_code(bits, is_used):
        at, code = bits.at(), bits.number(4)
        if is_used and not 1 <= code <= 9:
            raise Fault('Forbidden', at)
        return code
