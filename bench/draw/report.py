#!/usr/bin/env python3
"""Writes a page on a stream, as quality control hands it on, on standard output.

It is one HTML file without scripts or files from elsewhere. It has the program's verdict, what `audit` found, and of each
sequence the buffer and the bits and quantiser of each picture over time, and the worst groups with a small picture of each.

    bench/draw/report.py PROGRAM STREAM > PAGE.html

Verdict, report and pictures are the program's (`check`, `audit`, `decode`); the drawings are those of bench/draw/buffer.py, and the
quantisers are read here, from the headers of slices. The worst groups are those in which something was found, and those with
the coarsest quantisers. Of a stream that isn't readable the page has what was told up to the fault."""

import hashlib
import os
import subprocess
import sys
import zlib
from base64 import b64encode
from collections import namedtuple
from html import escape
from pathlib import Path
from struct import pack

sys.path.insert(0, str(Path(__file__).resolve().parent.parent / 'cases'))

from buffer import SECOND, Report, Sequence, drawn
from pictures_decoder import scale_of

# so many groups, failures and sequences are shown at most
WORST, FAILURES, SEQUENCES = 4, 10, 4
# what the statuses of check and of audit mean
REFUSED = {9: 'not readable', 13: 'too long', 14: 'not readable'}
VERDICTS = {0: 'keeps all rules', 10: 'breaks a rule', 11: 'fails the decoder\'s buffer', **REFUSED}
AUDITS = {0: 'nothing is found', 18: 'something is found', **REFUSED}
SHAPES = {2: '4:3', 3: '16:9', 4: '2.21:1'}
STYLE = '''body { font: 15px/1.5 sans-serif; color: #222; max-width: 800px; margin: 24px auto; padding: 0 16px }
h1 { font-size: 22px; overflow-wrap: anywhere } h2 { font-size: 17px; margin-top: 28px } h3 { font-size: 15px; margin-top: 20px }
code { background: #f3f3f3; padding: 1px 4px; font-size: 12px } table { border-collapse: collapse }
td, th { padding: 4px 12px 4px 0; text-align: left; vertical-align: top }
td.n, th.n { text-align: right } .ok { color: #26733a } .bad { color: #c01c28 }
svg { max-width: 100%; height: auto } img { display: block }'''

Group = namedtuple('Group', 'number begin time pictures bits scale low first found')


def run(program, path, *words):
    """The status, the line and the output of a command that reads the stream."""
    with open(path, 'rb') as file:
        done = subprocess.run([program, *words], stdin=file, capture_output=True, text=True, check=False)
    return done.returncode, done.stderr.strip(), done.stdout


# ---- quantisers

def scales(data, begin, end):
    """The quantiser scales of a picture's slices."""
    found, kind, at = [], 0, data.find(b'\0\0\1', begin, end)
    while 0 <= at < end - 7:
        value, code = data[at + 3], data[at + 4] >> 3
        # the picture coding extension says by which table codes are meant
        if value == 0xB5 and data[at + 4] >> 4 == 8:
            kind = data[at + 7] >> 4 & 1
        elif 1 <= value <= 0xAF and code:
            found.append(scale_of(kind, code))
        at = data.find(b'\0\0\1', at + 4, end)
    return found


def means(data, sequence):
    """The mean scale of each picture's slices."""
    found, end = [], sequence.first.bit
    for picture in sequence.pictures:
        end += picture.bits
        of_slices = scales(data, picture.bit // 8, end // 8)
        found.append(sum(of_slices) / max(1, len(of_slices)))
    return found


# ---- groups

def frames_of(sequence):
    """The frames of a sequence in coding order: of each its last picture's number, its type, and whether it is shown."""
    found, waits = [], False
    for number, picture in enumerate(sequence.pictures):
        waits = picture.structure != 'frame' and not waits
        if not waits:
            found.append((number, picture.type, not picture.dropped))
    return found


def first_shown(frames, low_delay):
    """How many frames of a group are shown before its first one: the B frames behind it up to the next anchor."""
    count = 0
    for _, kind, shown in frames[1:]:
        if kind != 'B' or low_delay or frames[0][1] == 'B':
            break
        count += shown
    return count


def groups_of(sequence, values, found):
    """Each group: its number, its first picture, its time, pictures and bits, the mean scale of its quantisers, the least that a
    picture of it leaves in the buffer, its first frame's place among the frames that are shown, and how often something was
    found in it."""
    starts = {0: '–', **{group.picture: group.group for group in sequence.groups if group.picture < len(sequence.pictures)}}
    edges, frames, shown_before = sorted(starts) + [len(sequence.pictures)], frames_of(sequence), 0
    for begin, end in zip(edges, edges[1:]):
        members = [frame for frame in frames if begin <= frame[0] < end]
        yield Group(starts[begin], begin, sequence.spans[begin][0], end - begin, sum(p.bits for p in sequence.pictures[begin:end]),
                    sum(values[begin:end]) / (end - begin), min((r.after for r in sequence.held[begin:end]), default=None),
                    shown_before + first_shown(members, sequence.first.low_delay), sum(begin <= number < end for number in found))
        shown_before += sum(shown for _, _, shown in members)


def worst(groups):
    """Those in which something was found, and those with the coarsest quantisers."""
    at_fault = [group for group in groups if group.found]
    return (at_fault[:WORST] + sorted((group for group in groups if not group.found), key=lambda group: -group.scale))[:WORST]


# ---- small pictures

def chunk(kind, data):
    return pack('>I', len(data)) + kind + data + pack('>I', zlib.crc32(kind + data))


def png(rows):
    """A PNG of lines of red, green and blue bytes."""
    size = pack('>IIBBBBB', len(rows[0]) // 3, len(rows), 8, 2, 0, 0, 0)
    return (b'\x89PNG\r\n\x1a\n' + chunk(b'IHDR', size) + chunk(b'IDAT', zlib.compress(b''.join(b'\0' + row for row in rows), 9)) +
            chunk(b'IEND', b''))


def small(frame, width, height, aspect):
    """Lines of a frame that is made small, at the shape in which it is shown; of four samples that lie together the mean."""
    across = 192
    down = {2: across * 3 // 4, 3: across * 9 // 16, 4: across * 100 // 221}.get(aspect, max(1, across * height // width))
    chroma, half = width * height, (width + 1) // 2
    other = chroma + half * ((height + 1) // 2)
    rows = []
    for y in range(down):
        row, line = bytearray(), y * height // down
        for x in range(across):
            column = x * width // across
            at = line * width + column
            right, below = (1 if column + 1 < width else 0), (width if line + 1 < height else 0)
            luma = (frame[at] + frame[at + right] + frame[at + below] + frame[at + below + right]) / 4
            of_colour = line // 2 * half + column // 2
            blue, red = frame[chroma + of_colour] - 128, frame[other + of_colour] - 128
            level = 1.164 * (luma - 16)
            row += bytes(max(0, min(255, round(value))) for value in (
                level + 1.596 * red, level - 0.392 * blue - 0.813 * red, level + 2.017 * blue))
        rows.append(bytes(row))
    return rows


def frames_at(program, path, begin, wanted, size):
    """The frames of some places among those that `decode` writes of the stream from this byte on."""
    found, workers = {}, min(16, os.cpu_count() or 1)
    with open(path, 'rb', buffering=0) as file:
        file.seek(begin)
        with subprocess.Popen([program, 'decode', '--workers', str(workers)], stdin=file, stdout=subprocess.PIPE,
                              stderr=subprocess.DEVNULL) as decoder:
            for place in range(max(wanted, default=-1) + 1):
                frame = decoder.stdout.read(size)
                if len(frame) < size:
                    break
                if place in wanted:
                    found[place] = frame
            decoder.kill()
    return found


# ---- the page

def row(cells, tag='td'):
    return '<tr>%s</tr>' % ''.join('<%s%s>%s</%s>' % (tag, ' class="n"' if numeric else '', cell, tag) for cell, numeric in cells)


def table(names, rows):
    """A table whose first column has words, and the others numbers."""
    lines = [(names, 'th')] + [(cells, 'td') for cells in rows]
    return '<table>%s</table>' % ''.join(row([(cell, at > 0) for at, cell in enumerate(cells)], tag) for cells, tag in lines)


def time_of(sequence, number):
    """When a picture is removed, as the drawings have it."""
    known = sequence.field and number < len(sequence.spans)
    return '%.2f s' % (sequence.spans[number][0] / SECOND) if known else '–'


def findings(report, sequences):
    """Each rule that is broken, with its first breach, and the failures of the buffer."""
    firsts = {}
    for breach in report.records['breach'] + report.records['warning']:
        firsts.setdefault((breach.sequence, breach.rule), breach)
    rows = []
    for count in report.records['count']:
        first = firsts[count.sequence, count.rule]
        rows.append(('rule %d, %s' % (count.rule, first.name), count.sequence, count.how_often, first.picture,
                     time_of(sequences[count.sequence], first.picture), first.bit // 8, first.have, first.need))
    if rows:
        yield table(('broken', 'sequence', 'how often', 'first at picture', 'at', 'byte', 'has', 'needs'), rows)
    rows = [('buffer, %s' % failure.kind, failure.sequence, failure.picture, '%.2f s' % (failure.time / SECOND), failure.bit // 8,
             failure.have // 1800, failure.need // 1800, '%.3f s' % (failure.wait / SECOND)) for failure in report.records['failure']]
    if rows:
        yield table(('failure', 'sequence', 'picture', 'at', 'byte', 'has, bits', 'needs, bits', 'decoder waits'), rows[:FAILURES])
    if len(rows) > FAILURES:
        yield '<p>and %d more failures</p>' % (len(rows) - FAILURES)
    for skipped in report.records['skipped']:
        yield '<p>%d bytes from byte %d on belong to no sequence.</p>' % (skipped.bytes, skipped.byte)


def facts(sequence):
    first, pictures = sequence.first, sequence.pictures
    kinds = ', '.join('%d %s' % (count, kind) for kind in 'IPB' if (count := sum(p.type == kind for p in pictures)))
    # without those for which the decoder waits
    seconds = sum(end - begin for begin, end in sequence.spans) / SECOND if sequence.field else 0
    mean = ', %.1f kbit/s in the mean' % (sum(p.bits for p in pictures) / seconds / 1000) if seconds else ''
    yield 'size', '%d by %d, %s, %s' % (
        first.width, first.height, SHAPES.get(first.aspect, 'square samples'), 'progressive' if first.progressive else 'interlaced')
    yield 'time', '%s%d pictures (%s) in %d groups' % ('%.2f s, ' % seconds if seconds else '', len(pictures), kinds, len(sequence.groups))
    yield 'rate', '%s: %.1f kbit/s in the header%s; a buffer of %d bits' % (
        {'none': 'no account'}.get(first.rate, first.rate), first.bit_rate * 0.4, mean, sequence.size)


def worst_groups(program, path, sequence, values, found):
    """A table of them, with small pictures."""
    first, groups = sequence.first, worst(list(groups_of(sequence, values, found)))
    size = first.width * first.height + 2 * ((first.width + 1) // 2) * ((first.height + 1) // 2)
    frames, rows = frames_at(program, path, first.bit // 8, {group.first for group in groups}, size), []
    for group in groups:
        picture = ''
        if group.first in frames:
            image = png(small(frames[group.first], first.width, first.height, first.aspect))
            picture = '<img alt="group %s" src="data:image/png;base64,%s">' % (group.number, b64encode(image).decode())
        rows.append((picture, group.number, time_of(sequence, group.begin), group.pictures, '%.0f' % (group.bits / 1000),
                     '%.1f' % group.scale, '–' if group.low is None else group.low, group.found))
    yield '<h3>The worst groups</h3>'
    yield '<p>Those in which something was found, if any, then those with the coarsest quantisers; of each its first frame.</p>'
    yield table(('', 'group', 'at', 'pictures', 'kbit', 'quantiser', 'least held, bits', 'found'), rows)


def on_sequence(program, path, data, report, sequence):
    """The facts of a sequence, its drawing and its worst groups."""
    number = sequence.first.sequence
    yield '<h2>Sequence %d</h2>' % number
    if not sequence.pictures:
        yield '<p>It has no pictures.</p>'
        return
    values = means(data, sequence)
    found = [r.picture for kind in ('breach', 'failure') for r in report.of(kind, number)]
    yield '<table>%s</table>' % ''.join(row([(name, False), (escape(words), False)]) for name, words in facts(sequence))
    yield '\n'.join(drawn(sequence, 'What the decoder\'s buffer holds' if sequence.held else 'No account of the buffer', values,
                          'quantiser scale of each picture, the mean of its slices'))
    yield from worst_groups(program, path, sequence, values, found)


def spoken(command, meanings, ended):
    """What a command says, and what that means."""
    status, line, _ = ended
    meaning = meanings.get(status, 'no verdict') + (', the buffer isn\'t looked at' if line.startswith('variable') else '')
    yield '<p>%s: <strong class="%s">%s</strong> <code>%s</code></p>' % (command, 'bad' if status else 'ok', escape(meaning), escape(line))


def page(program, path):
    with open(path, 'rb') as file:
        data = file.read()
    verdict, audit = run(program, path, 'check'), run(program, path, 'audit', '--pictures')
    report = Report(audit[2].splitlines(keepends=True))
    sequences = {first.sequence: Sequence(report, first.sequence) for first in report.records['sequence']}
    name = escape(os.path.basename(path))
    yield '<!DOCTYPE html><html lang="en"><head><meta charset="utf-8"><title>%s</title><style>%s</style></head><body>' % (name, STYLE)
    yield '<h1>%s</h1>' % name
    yield from spoken('check', VERDICTS, verdict)
    yield from spoken('audit', AUDITS, audit)
    yield '<p>%d bytes, SHA-256 <code style="overflow-wrap: anywhere">%s</code></p>' % (len(data), hashlib.sha256(data).hexdigest())
    found = list(findings(report, sequences))
    if found:
        yield '<h2>What is found</h2>' + '\n'.join(found)
    for sequence in list(sequences.values())[:SEQUENCES]:
        yield from on_sequence(program, path, data, report, sequence)
    if len(sequences) > SEQUENCES:
        yield '<p>and %d more sequences</p>' % (len(sequences) - SEQUENCES)
    yield ('<p style="color: #666">By puckerledge, of which it is proved that check gives the one verdict of a stream, and audit its one '
           'report.</p></body></html>')


def main():
    if len(sys.argv) != 3:
        sys.exit(__doc__)
    print('\n'.join(page(os.path.abspath(sys.argv[1]), sys.argv[2])))


if __name__ == '__main__':
    main()
