#!/usr/bin/env python3
"""Gives `decode`, `check`, `audit` and `mend` 10,000 damaged streams: each is to be answered at once and in little memory.

    bench/stress/damage.py PROGRAM [COUNT] [SEED]

PROGRAM is the built program. Streams of I, P and B pictures, of frames and fields, with every kind of prediction, are
those that bench/cases/pictures.py makes, and some that PROGRAM itself encodes. COUNT of them (10,000 where no number
is given), some of them two streams one behind the other, are damaged: bits turned, bytes replaced, taken out, doubled
or exchanged, start codes put in, units exchanged, the end cut off. Of each, the commands must end within 10 seconds
and 256 MB with one of their statuses and its line, and `decode` with whole frames; by four workers, which may take 1
GB of addresses, it must give the same. A fault must be the one that bench/cases/faults.py finds, and the report of
`audit`, with each picture told and without, the one that bench/cases/audited.py makes, whose records of the first
sequence must go with what `check` says. What `mend` answers and writes, with a list and without, and what stands in the
list, must be what bench/cases/mended.py makes of the stream, and `decode` must find no fault in it. Then streams of a
megabyte that are dear to read are timed beside an ordinary one, and their reports looked at: many tiny slices, many
headers, many sequences, many gaps, the longest escapes.

It ends with status 1 where a stream was not so answered; that stream is left in /tmp/damaged."""

import os
import random
import re
import resource
import subprocess
import sys
import tempfile
import time
from collections import Counter
from concurrent.futures import ThreadPoolExecutor
from pathlib import Path

CASES = Path(__file__).resolve().parent.parent / 'cases'
sys.path.insert(0, str(CASES))

from audited import report
from faults import first_fault
from mended import lines_of, mend
from pictures_writer import ESCAPED_INCREMENT, FRAME, I, INCREMENT, Picture, headers, sequence

KIND = (r'(NoSequence|NotMpeg2|Unsupported|Truncated|NoCode|BadMarker|Forbidden|SequenceChanged|SliceOrder|'
        r'MissingMacroblocks|SkipRule|VectorRange|VectorOutside|Overrun|DcRange|MissingReference|FieldPair)')
LINES = {
    'decode': {0: r'frames \d+ pictures \d+ dropped \d+', 9: r'stream %s at bit \d+' % KIND, 13: 'too long',
               14: 'picture too large'},
    'check': {0: r'(lawful frames \d+ pictures \d+ bytes \d+ low \d+ high \d+ delays \d+|'
                 r'variable frames \d+ pictures \d+ bytes \d+)',
              9: r'stream %s at bit \d+' % KIND, 10: r'unlawful rule \d+ picture \d+ have \d+ need \d+',
              11: r'buffer (under|over) picture \d+ have \d+ need \d+', 13: 'too long', 14: 'picture too large'},
    'audit': {0: r'clean sequences \d+ pictures \d+ bytes \d+ warnings \d+', 9: r'stream %s at bit \d+' % KIND,
              13: 'too long', 14: 'picture too large',
              18: r'found sequences \d+ pictures \d+ bytes \d+ breaches \d+ failures \d+ warnings \d+'},
    'mend': {0: r'groups \d+ pictures \d+ bytes \d+', 13: 'too long', 14: 'picture too large',
             18: r'groups \d+ of \d+ pictures \d+ of \d+ bytes \d+', 19: r'nothing kept stream %s at bit \d+' % KIND},
}
SECONDS, MEMORY, MEMORY_BY_FOUR = 10, 256 << 20, 1 << 30
BY_FOUR, EACH, LISTED = 'decode --workers 4', 'audit --pictures', 'mend --list'
END = b'\0\0\1\xb7'


def run(program, command, data, seconds=SECONDS, memory=MEMORY):
    """The status, the line on report, the bytes that were written and how long it took."""
    def limits():
        resource.setrlimit(resource.RLIMIT_AS, (memory, memory))

    with tempfile.TemporaryFile() as source, tempfile.TemporaryFile() as out:
        source.write(data)
        source.seek(0)
        start = time.monotonic()
        done = subprocess.run([program, *command.split()], stdin=source, stdout=out, stderr=subprocess.PIPE, timeout=seconds,
                              preexec_fn=limits)
        took = time.monotonic() - start
        out.seek(0)
        return done.returncode, done.stderr.decode('ascii', 'replace').rstrip('\n'), out.read(), took


def run_listed(program, data):
    """The status, the line, the bytes that were written, and the list of what was left out."""
    with tempfile.NamedTemporaryFile() as gaps:
        answer = run(program, '%s %s' % (LISTED, gaps.name), data)[:3]
        return *answer, gaps.read()


def trouble(program, data):
    """What is wrong with the answers to a stream, where something is, and the answers."""
    answers = []
    said = {}
    for command, lines in LINES.items():
        try:
            said[command] = status, line, output = run(program, command, data)[:3]
        except subprocess.TimeoutExpired:
            return '%s did not end within %d seconds' % (command, SECONDS), answers
        answers.append((command, status))
        if status not in lines or not re.fullmatch(lines[status], line):
            return '%s answered %d: %s' % (command, status, line), answers
        if command == 'check' and output:
            return 'check wrote %d bytes' % len(output), answers
    fault = first_fault(data)
    for command in ('decode', 'check'):
        if (said[command][1] if said[command][0] == 9 else None) != (fault and 'stream %s at bit %d' % fault):
            return '%s answered %d: %s, where the fault is %s' % (command, *said[command][:2], fault), answers
    try:
        by_four = run(program, BY_FOUR, data, memory=MEMORY_BY_FOUR)[:3]
        told = run(program, EACH, data)[:3]
        listed = run_listed(program, data)
    except subprocess.TimeoutExpired:
        return '%s, %s, or %s did not end within %d seconds' % (BY_FOUR, EACH, LISTED, SECONDS), answers
    if by_four != said['decode']:
        return '%s answered %d: %s, and %d bytes' % (BY_FOUR, *by_four[:2], len(by_four[2])), answers
    wrong = audit_trouble(data, said['check'], said['audit'], told) or mend_trouble(program, data, said['mend'], listed)
    return wrong, answers


def mend_trouble(program, data, answer, listed):
    """What is wrong with the mended stream, or with the list of what was left out, where something is."""
    made, status, line, gaps = mend(data)
    for command, found in (('mend', answer), (LISTED, listed[:3])):
        if found != (status, line, made or b''):
            return '%s answered %d: %s, and %d bytes, not %d: %s' % (command, *found[:2], len(found[2]), status, line)
    if listed[3] != ''.join(lines_of(gaps)).encode():
        return 'the list is %s, not %s' % (listed[3], ''.join(lines_of(gaps)))
    if made:
        decoded = run(program, 'decode', made)[:2]
        if decoded[0]:
            return 'decode answered %d: %s, of what mend made' % decoded
    return None


def audit_trouble(data, checked, short, told):
    """What is wrong with the reports on a stream, where something is."""
    for command, answer, pictures in (('audit', short, False), (EACH, told, True)):
        wanted = report(data, pictures)
        if answer != wanted:
            return '%s answered %d: %s, and %d bytes, not %d: %s' % (command, *answer[:2], len(answer[2]), *wanted[:2])
    if not agrees(checked, short[2].decode()):
        return 'check and audit differ: %s' % checked[1]
    return None


def agrees(checked, output):
    """Whether the records of the first sequence go with a verdict on it."""
    records = [line.split('\t') for line in output.splitlines() if not line.startswith(('audit', 'columns'))]
    if not records or records[-1][0] != 'total':
        return False
    kinds = [r[0] for r in records if r[1] == '0']
    rate = next((r[12] for r in records if r[:2] == ['sequence', '0']), None)
    if checked[0] in (0, 10, 11) and not {'sequence', 'end'} <= set(kinds):
        return False
    # the rules of `check` are the first 15
    broken = any(r[:2] == ['breach', '0'] and int(r[4]) <= 15 for r in records)
    failed = 'failure' in kinds
    return {0: not broken and (rate == 'variable' if checked[1].startswith('variable') else not failed),
            10: broken, 11: not broken and failed and rate == 'constant'}.get(checked[0], True)


def units(data):
    """Where the stream's start codes are."""
    return [m.start() for m in re.finditer(b'\0\0\1', data)]


KINDS = ('a bit turned', 'bits turned', 'a byte replaced', 'bytes taken out', 'bytes doubled', 'a start code put in',
         'broken off', 'bytes of noise', 'units exchanged', 'a bit of a header turned')


def damaged(draw, data, kind=None):
    """The stream with one damage, of this kind where one is given."""
    data, starts = bytearray(data), units(data)
    kind, at = draw.randrange(len(KINDS)) if kind is None else kind, draw.randrange(len(data))
    if kind == 0:
        data[at] ^= 1 << draw.randrange(8)
    elif kind == 1:
        for _ in range(draw.randrange(2, 20)):
            data[draw.randrange(len(data))] ^= 1 << draw.randrange(8)
    elif kind == 2:
        data[at] = draw.randrange(256)
    elif kind == 3:
        del data[at:at + draw.randrange(1, 40)]
    elif kind == 4:
        data[at:at] = data[at:at + draw.randrange(1, 40)]
    elif kind == 5:
        data[at:at] = b'\0\0\1' + bytes([draw.choice([0, 1, 2, 0xB0, 0xB2, 0xB3, 0xB5, 0xB7, 0xB8, draw.randrange(256)])])
    elif kind == 6:
        del data[at:]
    elif kind == 7:
        data[at:at + draw.randrange(1, 30)] = bytes(draw.randrange(256) for _ in range(draw.randrange(1, 30)))
    elif kind == 8 and len(starts) > 2:
        a, b = sorted(draw.sample(range(len(starts) - 1), 2))
        edges = starts + [len(data)]
        one, other = data[edges[a]:edges[a + 1]], data[edges[b]:edges[b + 1]]
        data = data[:edges[a]] + other + data[edges[a + 1]:edges[b]] + one + data[edges[b + 1]:]
    elif starts:
        # a header's bytes, where fields of one bit stand close together
        place = draw.choice(starts) + draw.randrange(4, 14)
        if place < len(data):
            data[place] ^= 1 << draw.randrange(8)
    return bytes(data)


def raw(width, height, frames):
    """Frames with edges that move, and some noise."""
    draw = random.Random(1)
    out = bytearray()
    for t in range(frames):
        out += bytes((3 * x + 2 * y + 5 * t) % 128 + 32 + draw.randrange(16) for y in range(height) for x in range(width))
        out += bytes((x + t) % 64 + 96 for y in range(height // 2) for x in range(width // 2)) * 2
    return bytes(out)


def streams(program, folder):
    """Whole streams: those of bench/cases/pictures.py, and some that the program encodes."""
    subprocess.run([sys.executable, CASES / 'pictures.py', folder], stdout=subprocess.DEVNULL, check=True)
    found = [path.read_bytes() for path in sorted(Path(folder).iterdir()) if path.suffix == '.m2v']
    for scan in ('progressive', 'frames', 'fields'):
        words = '--width 64 --height 64 --rate 3 --bits 1000 --buffer 15 --search 4 --scan'.split() + [scan]
        done = subprocess.run([program, 'encode', *words], input=raw(64, 64, 9), capture_output=True, check=True)
        found.append(done.stdout)
    return [data for data in found if 40 < len(data) < 60000]


# ---- streams that are dear to read

def of_a_megabyte(head, part):
    return head + part * ((1 << 20) // len(part)) + END


def bits(text):
    text += '0' * (-len(text) % 8)
    return int(text, 2).to_bytes(len(text) // 8, 'big')


def intra(number):
    return headers(Picture(I, FRAME, number, (15,) * 4))


def dear():
    """Streams of a megabyte by their names."""
    block = '100' + '10'
    grey, chroma = block * 4, ('00' + '10') * 2
    first = '1' + '1' + grey + chroma
    row = b''
    for column in range(120):
        increment = increment_code(column + 1)
        row += b'\0\0\1\x01' + bits('01000' + '0' + increment + '1' + grey + chroma)
    tiny = b''.join(row.replace(b'\0\0\1\x01', b'\0\0\1' + bytes([r + 1])) for r in range(72))
    escapes = '1' + '1' + ('100' + ''.join('000001' + '000000' + '011111111111' for _ in range(63)) + '10') * 4 + (
        '00' + ''.join('000001' + '000000' + '100000000001' for _ in range(63)) + '10') * 2
    longest = b'\0\0\1\x01' + bits('01000' + '0' + escapes)
    small, large = sequence(16, 16, 1), sequence(1920, 1152, 1)
    plain = b'\0\0\1\x01' + bits('01000' + '0' + first)
    return {
        'slices of one macroblock each, 1920 by 1152': of_a_megabyte(large, intra(0) + tiny),
        'a sequence header before each picture, 16 by 16': of_a_megabyte(b'', small + intra(0) + plain),
        'pictures of one macroblock, 16 by 16': of_a_megabyte(small, intra(0) + plain),
        'escapes for all coefficients, 16 by 16': of_a_megabyte(small, intra(0) + longest),
        'user data without end, 16 by 16': of_a_megabyte(small + intra(0), b'\0\0\1\xb2')[:-4] + plain + END,
        'group headers without pictures, 16 by 16': of_a_megabyte(small, b'\0\0\1\xb8\0\x08\0\0'),
        'sequences without pictures, 16 by 16': of_a_megabyte(b'', small + END),
        'sequences of which every second one is a gap, 16 by 16': of_a_megabyte(
            b'', small + intra(0) + plain + END + small + intra(0) + END),
    }


def increment_code(increment):
    text = ''
    while increment > 33:
        text, increment = text + ESCAPED_INCREMENT, increment - 33
    return text + INCREMENT[increment]


def ordinary(program):
    """A stream of about a megabyte of an ordinary clip."""
    words = '--width 352 --height 288 --rate 3 --bits 5000 --buffer 60 --search 3 --workers 4'.split()
    done = subprocess.run([program, 'encode', *words], input=raw(352, 288, 100), capture_output=True, check=True)
    return done.stdout


def main():
    program = os.path.realpath(sys.argv[1])
    count = int(sys.argv[2]) if len(sys.argv) > 2 else 10000
    draw = random.Random(int(sys.argv[3]) if len(sys.argv) > 3 else 1)
    with tempfile.TemporaryDirectory() as folder:
        whole = streams(program, folder)
    print('%d whole streams' % len(whole))
    counts = Counter()
    work = (damaged(draw, draw.choice(whole) + draw.choice([b'', b'', draw.choice(whole)])) for _ in range(count))
    with ThreadPoolExecutor(os.cpu_count()) as pool:
        for data, (wrong, answers) in pool.map(lambda data: (data, trouble(program, data)), list(work)):
            counts.update(answers)
            if wrong:
                Path('/tmp/damaged').write_bytes(data)
                sys.exit('%s; the stream is /tmp/damaged' % wrong)
    print('%d damaged streams: ' % count + ', '.join('%s %d: %d' % (*key, n) for key, n in sorted(counts.items())))
    data = ordinary(program)
    base = {c: run(program, c, data, 120)[3] / len(data) * (1 << 20) for c in LINES}
    print('ordinary, %d bytes: ' % len(data) + ', '.join('%s %.2f s a megabyte' % it for it in base.items()))
    for name, data in dear().items():
        for command in (*LINES, LISTED + ' /dev/null'):
            status, line, output, took = run(program, command, data, 120)
            print('%s, %d bytes: %s %d (%s), %.2f s, %.1f times' % (name, len(data), command, status, line, took,
                                                                    took / base[command.split()[0]]))
            if command == 'audit' and (status, line, output) != report(data):
                Path('/tmp/damaged').write_bytes(data)
                sys.exit('%s: another report is wanted; the stream is /tmp/damaged' % name)


if __name__ == '__main__':
    main()
