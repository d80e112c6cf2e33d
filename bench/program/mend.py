#!/usr/bin/env python3
"""Damages clips, mends them, and tells how many groups and frames are left by kind of damage.

    bench/program/mend.py PROGRAM [COUNT] [SEED]

PROGRAM is the built program. The clips have 50 frames: three of PROGRAM's own, one a scan, and one of ffmpeg and one of
mpeg2enc where these are installed. Each is damaged COUNT times (20 where no number is given) by each kind of damage of
bench/stress/damage.py, and mended. Of what is kept `decode` must find no fault and drop nothing, `mend` must leave it as it
is, and ffmpeg and mpeg2dec, where they are installed, must show as many frames as `decode` without a word. The list of what
was left out must go with the line, and as many frames be shown before its last gap as it says: by those of the input's
bytes before that, mended.

A row a kind tells the frames that `decode` shows of the damaged clips, those that it shows of the mended ones, how many
of these aren't in the whole clip in that order, and the groups that were kept, all as parts of what the clips have; and how
many damages left no fault, so that nothing could be left out. It ends with status 1 where an answer is another one; that
stream is left in /tmp/mended."""

import os
import random
import re
import shutil
import subprocess
import sys
import tempfile
from collections import Counter
from pathlib import Path

sys.path.insert(0, str(Path(__file__).resolve().parent.parent / 'stress'))

from damage import KINDS, damaged, raw

WIDTH, HEIGHT, FRAMES = 176, 144, 50
SIZE = WIDTH * HEIGHT * 3 // 2
GAP = re.compile(r'frame (\d+) from (\d+) bytes (\d+) pictures (\d+) (leading|stream [A-Za-z0-9]+ at bit \d+)\n')


def run(program, command, data):
    done = subprocess.run([program, *command.split()], input=data, capture_output=True, check=False)
    return done.returncode, done.stderr.decode().rstrip('\n'), done.stdout


def piped(words, data):
    return subprocess.run(words, input=data, capture_output=True, check=True).stdout


def clips(program):
    """The clips by their names."""
    frames = raw(WIDTH, HEIGHT, FRAMES)
    words = '--width %d --height %d --rate 3 --bits 2500 --buffer 30 --search 4 --scan' % (WIDTH, HEIGHT)
    found = {scan: piped([program, 'encode', *words.split(), scan], frames) for scan in ('progressive', 'frames', 'fields')}
    if shutil.which('ffmpeg'):
        plain = '-v error -f rawvideo -pix_fmt yuv420p -s %dx%d -r 25 -i -' % (WIDTH, HEIGHT)
        coded = '-c:v mpeg2video -b:v 1M -g 12 -bf 2 -f mpeg2video -'
        found['ffmpeg'] = piped(['ffmpeg', *plain.split(), *coded.split()], frames)
    if shutil.which('mpeg2enc'):
        text = b'YUV4MPEG2 W%d H%d F25:1\n' % (WIDTH, HEIGHT) + b''.join(
            b'FRAME\n' + frames[at:at + SIZE] for at in range(0, len(frames), SIZE))
        with tempfile.NamedTemporaryFile() as out:
            subprocess.run(['mpeg2enc', *'-v 0 -f 3 -b 1000 -R 2 -g 9 -G 12 -o'.split(), out.name], input=text, check=True)
            found['mpeg2enc'] = Path(out.name).read_bytes()
    return found


def split(video):
    return [video[at:at + SIZE] for at in range(0, len(video), SIZE)]


def strange(whole, frames):
    """How many frames aren't among those of the whole, each behind the one before."""
    at, none = 0, 0
    for frame in frames:
        try:
            at = whole.index(frame, at) + 1
        except ValueError:
            none += 1
    return none


def others(data, frames):
    """What another decoder says of a stream that isn't what it should."""
    if shutil.which('ffmpeg'):
        words = ['ffmpeg', *'-v warning -f mpegvideo -i - -f rawvideo -'.split()]
        done = subprocess.run(words, input=data, capture_output=True, check=False)
        said = [line for line in done.stderr.decode().splitlines() if 'Estimating duration' not in line]
        if said or len(done.stdout) != frames * SIZE:
            return 'ffmpeg shows %d bytes: %s' % (len(done.stdout), said)
    if shutil.which('mpeg2dec'):
        done = subprocess.run(['mpeg2dec', '-o', 'pgmpipe'], input=data, capture_output=True, check=False)
        # its heights are those of macroblocks, of interlaced streams an even number of them
        shown = len(re.findall(rb'P5\n%d \d+\n255\n' % WIDTH, done.stdout))
        if shown != frames:
            return 'mpeg2dec shows %d frames' % shown
    return None


def list_trouble(program, data, answer, left):
    """What is wrong with the list of what was left out, so many pictures where that is known, where something is."""
    with tempfile.NamedTemporaryFile('w+') as gaps:
        if run(program, 'mend --list ' + gaps.name, data) != answer:
            return 'mend answers another thing with a list'
        lines = gaps.readlines()
    rows = [GAP.fullmatch(line) for line in lines]
    if not all(rows):
        return 'the list has %s' % lines
    numbers = [tuple(map(int, row.groups()[:4])) for row in rows]
    follow = all(a[0] <= b[0] and a[1] + a[2] <= b[1] for a, b in zip(numbers, numbers[1:]))
    if not follow or left is not None and left != sum(row[3] for row in numbers):
        return 'the list has %s' % lines
    if rows:
        frames, place = numbers[-1][:2]
        # leading pictures stand after the frame that is shown after them
        frames += rows[-1][5] == 'leading'
        shown = run(program, 'decode', run(program, 'mend', data[:place])[2])[2]
        if len(shown) != frames * SIZE:
            return 'of the bytes before %s %d frames are shown' % (lines[-1], len(shown) // SIZE)
    return None


def looked_at(program, whole, data, counts):
    """What is wrong with what is made of a damaged clip, where something is; it is counted."""
    status, _, shown = run(program, 'decode', data)
    counts['decoded'] += len(shown) // SIZE
    counts['no fault'] += status == 0
    status, line, made = answer = run(program, 'mend', data)
    if status == 19:
        return list_trouble(program, data, answer, None) if made == b'' else 'mend answered %s, and wrote' % line
    numbers = list(map(int, re.findall(r'\d+', line)))
    decoded, told, shown = run(program, 'decode', made)
    frames = split(shown)
    if decoded or not told.endswith(' dropped 0'):
        return 'mend answered %s; decode: %s' % (line, told)
    if run(program, 'mend', made)[::2] != (0, made):
        return 'mend answered %s; mended again it differs' % line
    wrong = list_trouble(program, data, answer, numbers[3] - numbers[2] if status == 18 else 0)
    if wrong:
        return wrong
    counts['kept'] += len(frames)
    counts['strange'] += strange(whole, frames)
    counts['groups'] += numbers[0]
    return others(made, len(frames))


def main():
    program = os.path.realpath(sys.argv[1])
    count = int(sys.argv[2]) if len(sys.argv) > 2 else 20
    draw = random.Random(int(sys.argv[3]) if len(sys.argv) > 3 else 1)
    whole = {name: (data, split(run(program, 'decode', data)[2]), int(run(program, 'mend', data)[1].split()[1]))
             for name, data in clips(program).items()}
    for name, (data, _, groups) in whole.items():
        print('%s: %d bytes, %d groups' % (name, len(data), groups))
    row = '%-25s' + 5 * ' %9s'
    print(row % ('%d damages a row' % (count * len(whole)), 'decoded', 'kept', 'strange', 'groups', 'no fault'))
    for kind, name in enumerate(KINDS):
        counts = Counter()
        for data, frames, _ in whole.values():
            for _ in range(count):
                text = damaged(draw, data, kind)
                wrong = looked_at(program, frames, text, counts)
                if wrong:
                    Path('/tmp/mended').write_bytes(text)
                    sys.exit('%s: %s; the stream is /tmp/mended' % (name, wrong))
        frames, groups = sum(len(frames) for _, frames, _ in whole.values()), sum(groups for *_, groups in whole.values())
        parts = [counts['decoded'] / frames, counts['kept'] / frames, counts['strange'] / frames, counts['groups'] / groups,
                 counts['no fault'] / len(whole)]
        print(row % (name, *('%.1f %%' % (100 * part / count) for part in parts)))


if __name__ == '__main__':
    main()
