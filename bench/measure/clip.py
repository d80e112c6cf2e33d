#!/usr/bin/env python3
"""Writes a clip of raw video on standard output, the same bytes on every machine.

So what is measured by one can be measured by all. It is a pan over a still pattern, two samples right and one down a
frame, with moving parts and noise.

    bench/measure/clip.py WIDTH HEIGHT FRAMES > CLIP.yuv

The frames stand one behind another, each the planes Y, Cb, Cr, one byte a sample."""

import sys
from random import Random

# what the noise may add to luma; the pattern leaves room for it
NOISE = 15


def wave(phase):
    """A wave of -128 to 128 that comes again after 1024, in whole numbers, so that no machine rounds it otherwise."""
    place = phase % 512
    height = place * (512 - place) // 512
    return height if phase % 1024 < 512 else -height


def pattern(width, height):
    """Lines of luma of 48 to 216: waves, which become finer to the right, and a board of squares in every other band."""
    across = [wave(3 * x + 20 * x * x // width) for x in range(width)]
    lines = []
    for y in range(height):
        down, squares = wave(7 * y + 256), y // 64 % 2
        lines.append(bytes(118 + 70 * a * down // 16384 + (28 if squares and (x // 12 + y // 12) % 2 else 0)
                           for x, a in enumerate(across)))
    return lines


def colours(width, height, turn):
    """Lines of chroma: large soft areas."""
    across = [wave(4 * (x + turn)) for x in range(width)]
    return [bytes(128 + 60 * a * wave(4 * (y + turn) + 256) // 16384 for a in across) for y in range(height)]


def put(lines, left, top, width, height, sample):
    """A box of one colour, as far as it lies in the picture."""
    for y in range(max(0, top), min(len(lines), top + height)):
        line = lines[y]
        a, b = max(0, left), min(len(line), left + width)
        if a < b:
            lines[y] = line[:a] + bytes([sample]) * (b - a) + line[b:]


def view(lines, left, top, width, height):
    return [line[left:left + width] for line in lines[top:top + height]]


def clip(width, height, frames):
    half, low = (width + 1) // 2, (height + 1) // 2
    luma = pattern(width + 2 * frames, height + frames)
    chroma = [colours(half + frames, low + frames, turn) for turn in (0, 100)]
    random = Random(1)
    mask = int.from_bytes(bytes([NOISE]) * (width * height), 'little')
    for t in range(frames):
        planes = [view(luma, 2 * t, t, width, height)] + [view(plane, t, t // 2, half, low) for plane in chroma]
        for number in range(6):
            left, top = (97 * number + (5 - 2 * number) * t) % width, (61 * number + (2 * number - 3) * t) % height
            put(planes[0], left, top, width // 9, height // 11, 40 + 30 * number)
            put(planes[1], left // 2, top // 2, width // 18, height // 22, 80 + 20 * number)
        # no sum of the pattern and the noise is above 255, so that the bytes can be added as one number
        flat = int.from_bytes(b''.join(planes[0]), 'little')
        noise = int.from_bytes(random.randbytes(width * height), 'little') & mask
        yield (flat + noise).to_bytes(width * height, 'little') + b''.join(planes[1]) + b''.join(planes[2])


if __name__ == '__main__':
    for frame in clip(*map(int, sys.argv[1:4])):
        sys.stdout.buffer.write(frame)
