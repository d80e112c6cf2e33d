#!/usr/bin/env python3
"""Says how good pictures are by both plans of `encode`, beside ffmpeg and mpeg2enc, at equal bytes.

    bench/measure/quality.py PROGRAM [FOLDER [FRAMES]]

Clips of FRAMES frames (60) are made, which anyone can make again: by ffmpeg's sources, and one by clip.py. Each coder
codes each clip at 2, 4, 6 and 8 Mbit/s, in groups of 12 with two B frames between anchors, with a DVD player's buffer,
at 2 Mbit/s with the largest that its greatest delay fills. What `decode` shows of a stream is held against the clip by
ffmpeg's `psnr`: the likeness of luma, of all frames in the mean and of the worst one, none counted above 60 dB. Between
two streams of a coder likeness is read off a straight line over the logarithm of bytes, at four sizes within what all
coders wrote of the clip; the table has the mean over these. All figures by rate stand in `by_rate.md` in FOLDER
(/tmp/quality), where streams and figures stay; what is there isn't made again. ffmpeg is needed; mpeg2enc is left out
where it isn't installed. One worker codes, one thread of each of the others.

PROGRAM is the built program (crates/m2v_main/out/m2v_main, after one call of ./puckerledge)."""

import os
import re
import shutil
import subprocess
import sys
from itertools import cycle
from math import exp, log
from pathlib import Path

HERE = Path(__file__).resolve().parent
MBITS = 4, 6, 2, 8
MOST_DB = 60
MOVING = 'testsrc2=size=%s:rate=%s,noise=alls=12:allf=t:all_seed=1'
LIFE = 'life=size=180x144:rate=25:seed=1:mold=10:ratio=0.3:life_color=#C0C0C0:death_color=#405060,scale=720:576'
ZOOM = 'mandelbrot=size=720x576:rate=25'
STILL = 'mandelbrot=size=2880x1152:rate=25,trim=end_frame=1,loop=loop=-1:size=1,setpts=N/25/TB'
# the frames from one cut to the next
PIECES = 5, 7, 15, 9, 12, 6, 11
# by their names: what they are; ffmpeg's source, how the clip is made of others, or none where it is that of clip.py; scan
CLIPS = {
    'pan': ('a slow pan with moving parts and noise', None, 'progressive'),
    'card': ('a test card with noise on flat colours', MOVING % ('720x576', 25), 'progressive'),
    'life': ('small things that move each for itself', LIFE, 'progressive'),
    'zoom': ('a zoom into a fractal', ZOOM, 'progressive'),
    'cuts': ('cuts every 5 to 15 frames', 'cuts', 'progressive'),
    'fade': ('the pan, faded in and out', 'fade', 'progressive'),
    'fast': ('a pan of 24 samples a frame', STILL + ',crop=720:576:24*n:4*n', 'progressive'),
    'frames': ('the test card, interlaced, as frames of two fields', 'interlaced', 'frames'),
    'fields': ('the same as fields', 'interlaced', 'fields'),
    'film': ('film shown at the rate of video', MOVING % ('720x480', '24000/1001'), 'film'),
}
# ffmpeg codes neither field pictures nor film with pulldown, and mpeg2enc breaks off at field pictures
LEFT_OUT = {'fields': ('ffmpeg', 'ffmpeg_rd', 'mpeg2enc'), 'film': ('ffmpeg', 'ffmpeg_rd')}
CODERS = {
    'even': '`--plan even`', 'weights': '`--plan weights`', 'ffmpeg': 'ffmpeg',
    'ffmpeg_rd': 'ffmpeg, `-mbd rd -trellis 1`', 'mpeg2enc': 'mpeg2enc',
}


def buffer_of(mbits):
    """A DVD player's buffer, or what comes within the greatest delay, in units of 16,384 bits."""
    return min(112, 8 * 2500 * mbits * 65534 // (1800 * 16384))


def run(*words, **more):
    subprocess.run([str(word) for word in words], check=True, stdin=more.pop('stdin', subprocess.DEVNULL), **more)


def ffmpeg(*words):
    run('ffmpeg', '-v', 'error', '-y', *words)


def raw(path, size, rate):
    return '-f', 'rawvideo', '-s', size, '-r', rate, '-pix_fmt', 'yuv420p', '-i', path


class Clip:
    def __init__(self, name, count):
        self.name, self.count = name, count
        self.what, self.source, self.scan = CLIPS[name]
        self.size, self.rate = ('720x480', '24000/1001') if self.scan == 'film' else ('720x576', '25')
        self.path = Path('fields.yuv' if name == 'frames' else name + '.yuv')

    def make(self):
        if self.path.exists():
            return
        part = Path('part.yuv')
        if self.source is None:
            with open(part, 'wb') as out:
                run(sys.executable, HERE / 'clip.py', *self.size.split('x'), self.count, stdout=out)
        elif self.source == 'fade':
            Clip('pan', self.count).make()
            third = self.count // 3
            self.filtered(part, *raw('pan.yuv', self.size, self.rate), '-vf',
                          'fade=in:0:%d,fade=out:%d:%d' % (third, self.count - third, third))
        elif self.source == 'cuts':
            for name in ('pan', 'card', 'life', 'zoom'):
                Clip(name, self.count).make()
            # pieces of the other clips, one after another
            size = 720 * 576 * 3 // 2
            names = [name for name, length in zip(cycle(('pan', 'card', 'zoom', 'life')), PIECES * self.count)
                     for _ in range(length)]
            with open(part, 'wb') as out:
                for number, name in enumerate(names[:self.count]):
                    with open(name + '.yuv', 'rb') as clip:
                        clip.seek(size * number)
                        out.write(clip.read(size))
        elif self.source == 'interlaced':
            self.filtered(part, '-f', 'lavfi', '-i', MOVING % ('720x576', 50), '-vf', 'interlace=lowpass=off')
        else:
            self.filtered(part, '-f', 'lavfi', '-i', self.source)
        part.rename(self.path)

    def filtered(self, path, *words):
        ffmpeg(*words, '-frames:v', self.count, '-f', 'rawvideo', '-pix_fmt', 'yuv420p', path)


def by_us(program, clip, mbits, stream, plan):
    width, height = clip.size.split('x')
    words = ['--width', width, '--height', height, '--rate', 4 if clip.scan == 'film' else 3, '--bits', mbits * 2500,
             '--buffer', buffer_of(mbits), '--plan', plan, '--scan', 'frames' if clip.scan == 'film' else clip.scan]
    words += ['--pulldown'] if clip.scan == 'film' else []
    with open(clip.path, 'rb') as frames, open(stream, 'wb') as out:
        run(program, 'encode', *words, stdin=frames, stdout=out, stderr=subprocess.PIPE)


def by_ffmpeg(clip, mbits, stream, *more):
    rate = '%dM' % mbits
    scan = () if clip.scan == 'progressive' else ('-flags', '+ildct+ilme', '-top', 1)
    ffmpeg('-threads', 1, *raw(clip.path, clip.size, clip.rate), '-c:v', 'mpeg2video', '-threads', 1, '-b:v', rate, '-minrate',
           rate, '-maxrate', rate, '-bufsize', 16384 * buffer_of(mbits), '-g', 12, '-bf', 2, *scan, *more, stream)


def by_mpeg2enc(program, clip, mbits, stream):
    width, height = clip.size.split('x')
    scan = ['-p'] if clip.scan == 'film' else ['-I', int(clip.scan == 'frames')]
    words = ['mpeg2enc', '-v', 0, '-f', 3, '-b', mbits * 1000, '-V', 2 * buffer_of(mbits), '-r', 15, '-g', 12, '-G', 12,
             '-R', 2, '-M', 0, *scan, '-o', stream]
    with open(clip.path, 'rb') as frames, open('mpeg2enc.log', 'wb') as log_file:
        pack = subprocess.Popen([program, 'pack', width, height, '1' if clip.scan == 'film' else '3',
                                 *(['--top'] if clip.scan == 'frames' else [])],
                                stdin=frames, stdout=subprocess.PIPE, stderr=subprocess.PIPE)
        run(*words, stdin=pack.stdout, stdout=log_file, stderr=log_file)
        pack.wait()


def code(program, coder, clip, mbits, stream):
    if coder in ('even', 'weights'):
        by_us(program, clip, mbits, stream, coder)
    elif coder == 'mpeg2enc':
        by_mpeg2enc(program, clip, mbits, stream)
    else:
        by_ffmpeg(clip, mbits, stream, *(('-mbd', 'rd', '-trellis', 1) if coder == 'ffmpeg_rd' else ()))


def likeness(program, clip, stream):
    """Of the luma of each frame that a stream shows, in dB."""
    shown, told = Path('shown.yuv'), Path('psnr.log')
    with open(stream, 'rb') as text, open(shown, 'wb') as out:
        run(program, 'decode', stdin=text, stdout=out, stderr=subprocess.PIPE)
    ffmpeg(*raw(shown, clip.size, clip.rate), *raw(clip.path, clip.size, clip.rate), '-lavfi',
           'psnr=stats_file=%s' % told, '-f', 'null', '-')
    found = [min(MOST_DB, float(value)) for value in re.findall(r'psnr_y:(\S+)', told.read_text())]
    assert len(found) == clip.count, '%s shows %d frames' % (stream, len(found))
    return found


def figures(program, coder, clip, mbits):
    """Bytes, and likeness in the mean and of the worst frame."""
    kept = Path('%s-%s-%d.figures' % (clip.name, coder, mbits))
    if not kept.exists():
        stream = kept.with_suffix('.m2v')
        code(program, coder, clip, mbits, stream)
        found = likeness(program, clip, stream)
        kept.write_text('%d %.3f %.3f\n' % (stream.stat().st_size, sum(found) / len(found), min(found)))
    size, mean, worst = kept.read_text().split()
    return int(size), float(mean), float(worst)


def at_size(points, size, which):
    """What a coder reaches with so many bytes, between its streams."""
    points = sorted(points)
    for left, right in zip(points, points[1:]):
        if size <= right[0] or right == points[-1]:
            part = (log(size) - log(left[0])) / (log(right[0]) - log(left[0]))
            return left[which] + part * (right[which] - left[which])


def sizes_of(all_points):
    """Four sizes within what all coders wrote."""
    least = log(max(min(points)[0] for points in all_points))
    most = log(min(max(points)[0] for points in all_points))
    return [exp(least + (most - least) * i / 3) for i in range(4)]


def row(*cells):
    return '| ' + ' | '.join(map(str, cells)) + ' |'


def main():
    program, count = str(Path(sys.argv[1]).resolve()), int((sys.argv[3:] or ['60'])[0])
    folder = Path((sys.argv[2:] or ['/tmp/quality'])[0])
    folder.mkdir(parents=True, exist_ok=True)
    os.chdir(folder)
    coders = [coder for coder in CODERS if coder != 'mpeg2enc' or shutil.which(coder)]
    clips = [Clip(name, count) for name in CLIPS]
    for clip in clips:
        clip.make()
    found = {}
    # the quick ones first
    for coder in sorted(coders, key=('even', 'weights', 'ffmpeg', 'ffmpeg_rd', 'mpeg2enc').index):
        for mbits in MBITS:
            for clip in clips:
                if coder in LEFT_OUT.get(clip.scan, ()):
                    continue
                found.setdefault((clip.name, coder), []).append(figures(program, coder, clip, mbits))
                print(clip.name, coder, mbits, *found[clip.name, coder][-1], file=sys.stderr, flush=True)
    print(row('', *[CODERS[coder] for coder in coders]))
    print(row(*['---'] * (len(coders) + 1)))
    for clip in clips:
        points = {coder: found[clip.name, coder] for coder in coders if (clip.name, coder) in found}
        sizes = sizes_of(points.values())
        print(row(clip.what, *['–' if coder not in points else ', '.join(
            '%.1f' % (sum(at_size(points[coder], size, which) for size in sizes) / len(sizes)) for which in (1, 2))
            for coder in coders]))
    with open('by_rate.md', 'w', encoding='utf-8') as file:
        print(row('bytes, mean, worst', 'Mbit/s', *[CODERS[coder] for coder in coders]), file=file)
        print(row(*['---'] * (len(coders) + 2)), file=file)
        for clip in clips:
            for index, mbits in sorted(enumerate(MBITS), key=lambda pair: pair[1]):
                print(row(clip.what, mbits, *['%d, %.2f, %.2f' % found[clip.name, coder][index]
                                              if (clip.name, coder) in found else '–' for coder in coders]), file=file)


if __name__ == '__main__':
    main()
