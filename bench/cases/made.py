#!/usr/bin/env python3
"""Writes the stream of a seed as `make` is to write it (a quarter of an hour).

    bench/cases/made.py SEED [--sum] > STREAM.m2v

The frames are those of the rule of docs/COMMANDS.md, coded by the encoder of bench/cases/encoded.py, which shares
nothing with the program. With --sum it prints the stream's bytes, its zero bytes and its SHA-256 instead."""

import hashlib
import sys

from encoded import Settings, encoded

WIDTH, HEIGHT, FRAMES = 176, 144, 48


def frames(seed):
    """Raw frames: luma with a draw at each sample, in raster order over all frames, chroma without."""
    state = seed
    for number in range(FRAMES):
        luma = bytearray()
        for line in range(HEIGHT):
            for column in range(WIDTH):
                state = (state * 6364136223846793005 + 1442695040888963407) % 2 ** 64
                luma.append((3 * column + 2 * line + 5 * number) % 128 + 32 + (state >> 56) // 16)
        blue = bytes((column + number) % 64 + 96 for _ in range(HEIGHT // 2) for column in range(WIDTH // 2))
        red = bytes((line + 2 * number) % 64 + 96 for line in range(HEIGHT // 2) for _ in range(WIDTH // 2))
        yield bytes(luma) + blue + red


def main():
    seed = int(sys.argv[1])
    settings = Settings(WIDTH, HEIGHT, rate=3, bits=1000, buffer=15, scan='frames', search=7, workers=4)
    made = encoded(settings, FRAMES, list(frames(seed)))
    if '--sum' in sys.argv:
        print(len(made.data), made.stuffing, hashlib.sha256(made.data).hexdigest())
    else:
        sys.stdout.buffer.write(made.data)


if __name__ == '__main__':
    main()
