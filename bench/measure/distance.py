#!/usr/bin/env python3
"""Says how far two files of raw video are from each other.

It prints the likeness in dB (PSNR over all samples of all planes), and the largest difference of a sample.

    bench/measure/distance.py ONE OTHER"""

import sys
from math import log10
from operator import sub

# by the difference, negative ones from the end on
SQUARES = [d * d for d in [*range(256), *range(-255, 0)]]


def main():
    one, other = (open(name, 'rb').read() for name in sys.argv[1:3])
    if len(one) != len(other):
        sys.exit('%s has %d bytes, %s has %d' % (sys.argv[1], len(one), sys.argv[2], len(other)))
    squares = sum(map(SQUARES.__getitem__, map(sub, one, other)))
    likeness = '%.1f' % (10 * log10(255 * 255 * len(one) / squares)) if squares else 'inf'
    print(likeness, max(map(abs, map(sub, one, other)), default=0))


if __name__ == '__main__':
    main()
