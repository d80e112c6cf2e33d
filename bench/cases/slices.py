#!/usr/bin/env python3
"""Prints slices of I pictures put together from rows of the code tables, and samples of blocks by the formulas.

The formulas are those for coefficients and for the inverse transform. These are the values for which cases of
m2v_test_cases name this script. It shares nothing with the program."""

# DC sizes 0 to 8 of luma and of chroma
LUMA = ['100', '00', '01', '101', '110', '1110', '11110', '111110', '1111110']
CHROMA = ['00', '01', '10', '110', '1110', '11110', '111110', '1111110', '11111110']
ZIGZAG = [
    0, 1, 8, 16, 9, 2, 3, 10, 17, 24, 32, 25, 18, 11, 4, 5, 12, 19, 26, 33, 40, 48, 41, 34, 27, 20, 13, 6, 7,
    14, 21, 28, 35, 42, 49, 56, 57, 50, 43, 36, 29, 22, 15, 23, 30, 37, 44, 51, 58, 59, 52, 45, 38, 31, 39, 46,
    53, 60, 61, 54, 47, 55, 62, 63,
]
ALTERNATE = [
    0, 8, 16, 24, 1, 9, 2, 10, 17, 25, 32, 40, 48, 56, 57, 49, 41, 33, 26, 18, 3, 11, 4, 12, 19, 27, 34, 42, 50,
    58, 35, 43, 51, 59, 20, 28, 5, 13, 6, 14, 21, 29, 36, 44, 52, 60, 37, 45, 53, 61, 22, 30, 7, 15, 23, 31, 38,
    46, 54, 62, 39, 47, 55, 63,
]
INTRA = [
    8, 16, 19, 22, 26, 27, 29, 34, 16, 16, 22, 24, 27, 29, 34, 37, 19, 22, 26, 27, 29, 34, 34, 38, 22, 22, 26,
    27, 29, 34, 37, 40, 22, 26, 27, 29, 32, 35, 40, 48, 26, 27, 29, 32, 35, 40, 48, 58, 26, 27, 29, 34, 38, 46,
    56, 69, 27, 29, 35, 38, 46, 56, 69, 83,
]


def hexadecimal(bits):
    bits += '0' * (-len(bits) % 8)
    return ' '.join('%02X' % int(bits[i:i + 8], 2) for i in range(0, len(bits), 8))


def slice_of(*bits):
    """A slice's bytes behind its start code."""
    print(hexadecimal(''.join(bits).replace(' ', '')))


def dc(difference, sizes):
    if difference == 0:
        return sizes[0]
    size = abs(difference).bit_length()
    number = difference if difference > 0 else difference + 2 ** size - 1
    return sizes[size] + format(number, '0%db' % size)


def blocks(luma, blue, red, end='10'):
    """Six blocks that have their DC differences alone."""
    return ''.join(dc(d, LUMA) + end for d in luma) + dc(blue, CHROMA) + end + dc(red, CHROMA) + end


def escape(run, level):
    return '000001' + format(run, '06b') + format(level & 0xFFF, '012b')


def combined(a1, a7, a5, a3, e2, e6, p, m, n):
    o0, o3, s, r = a1 + a5, a7 + a3, a1 - a5, a7 - a3
    o1, o2 = (181 * (s + r) + 128) >> 8, (181 * (s - r) + 128) >> 8
    return [x >> n for x in (p + e2 + o0, m + e6 + o1, m - e6 + o2, p - e2 + o3,
                             p - e2 - o3, m - e6 - o2, m + e6 - o1, p + e2 - o0)]


def six(b):
    return [2841 * b[1] + 565 * b[7], 565 * b[1] - 2841 * b[7],
            2408 * b[3] + 1609 * b[5], 2408 * b[5] - 1609 * b[3],
            2676 * b[2] + 1108 * b[6], 1108 * b[2] - 2676 * b[6]]


def inverse(block):
    rows = [combined(*six(b), 2048 * (b[0] + b[4]) + 128, 2048 * (b[0] - b[4]) + 128, 8)
            for b in (block[8 * y:8 * y + 8] for y in range(8))]
    columns = [combined(*[(t + 4) >> 3 for t in six(c)],
                        256 * (c[0] + c[4]) + 8192, 256 * (c[0] - c[4]) + 8192, 14)
               for c in ([rows[y][x] for y in range(8)] for x in range(8))]
    return [[max(-256, min(255, columns[x][y])) for x in range(8)] for y in range(8)]


def coefficients(levels, scale, scan, matrix):
    """Of an intra block with DC precision 0 and the levels of some scan positions."""
    block = [0] * 64
    for position, level in levels.items():
        place = scan[position]
        size = abs(level) * 8 if position == 0 else 2 * abs(level) * matrix[place] * scale // 32
        block[place] = max(-2048, min(2047, size if level > 0 else -size))
    if sum(block) % 2 == 0:
        block[63] += -1 if block[63] % 2 else 1
    return block


def samples(levels, scale, scan, matrix=INTRA):
    for line in inverse(coefficients(levels, scale, scan, matrix)):
        print('output ' + ' '.join('%02X' % max(0, min(255, x)) for x in line) + ' 8*80')


GREY = blocks([0] * 4, 0, 0)
# behind the first block of the two slices with coefficients
REST = '10010' * 3 + '0010' * 2
REST_ONE = '1000110' * 3 + '000110' * 2


def main():
    # quantiser code 1, no intra_slice, increment 1, type intra
    slice_of('00001 0 1 1', blocks([127, 0, 0, 0], 127, 127))
    slice_of('00001 0', '1 1' + GREY, '1 1' + GREY)
    slice_of('00001 1 1 0000000 0 1 1', GREY)
    slice_of('00001 1 1 0000000 1 10101010 0 1 1', GREY)
    slice_of('00001 0 1 01 00010', GREY)
    slice_of('00001 0 1 01 00000', GREY)
    slice_of('00001 0 1 1', blocks([0] * 4, 0, 0, '0110'))
    slice_of('00001 0 011 1', GREY)
    slice_of('00001 0 1 1', GREY, '011 1', GREY)
    slice_of('00001 0 1 1', blocks([-128, -1, 0, 0], 0, 0))
    slice_of('00001 0 1 1 100', '0100 0', '011 1', escape(5, 40), '10', REST)
    samples({0: 128, 1: 2, 3: -1, 9: 40}, 2, ZIGZAG)
    slice_of('01001 0 1 1 100', '110 1', '00101 0', '1111000 1', escape(20, -7), '0110', REST_ONE)
    samples({0: 128, 1: -2, 4: 1, 14: -1, 35: -7}, 10, ALTERNATE)

    # the end of a sequence header from byte 11 on, with an intra matrix of which position i of the zigzag scan is
    # 8 + 3 i, and the slice with coefficients in zigzag order by this matrix
    slice_of('10000 0 1', *[format(8 + 3 * i, '08b') for i in range(64)], '0')
    loaded = [0] * 64
    for i in range(64):
        loaded[ZIGZAG[i]] = 8 + 3 * i
    samples({0: 128, 1: 2, 3: -1, 9: 40}, 2, ZIGZAG, loaded)


if __name__ == '__main__':
    main()
