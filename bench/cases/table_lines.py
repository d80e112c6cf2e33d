"""Lines of the table of m2v_test_cases: reads its streams and cases, and writes bytes as it does."""

from pathlib import Path
from textwrap import wrap

TABLE = Path(__file__).resolve().parent.parent.parent / 'crates' / 'm2v_test_cases' / 'stdin'
CHANGES = ('first', 'from', 'without', 'byte', 'put')


def piece(word):
    count, star, byte = word.partition('*')
    if byte == 'pattern':
        return bytes((k // 3 + 13 * (k // 1009)) % 256 for k in range(int(count)))
    return bytes.fromhex(byte) * int(count) if star else bytes.fromhex(word)


def changed(data, key, words):
    if key == 'first':
        return data[:int(words[0])]
    if key == 'from':
        return data[int(words[0]):]
    if key == 'without':
        first, last = map(int, words[0].split('..'))
        assert last < len(data)
        return data[:first] + data[last + 1:]
    place, put = int(words[0]), b''.join(map(piece, words[1:]))
    return data[:place] + put + data[place + (len(put) if key == 'byte' else 0):]


def read_bytes(streams, text):
    """The bytes of a line: pieces, and streams by their names, each with changes."""
    data, words = b'', text.split()
    while words:
        word = words.pop(0)
        if word == '=':
            data += streams[words.pop(0)]
        elif word in CHANGES:
            count = next((i for i, w in enumerate(words) if w in CHANGES or w == '='), len(words))
            count = count if word in ('byte', 'put') else 1
            data = changed(data, word, words[:count])
            words = words[count:]
        else:
            data += piece(word)
    return data


def read_table(script=None):
    """The streams of the table by their names, and its cases by theirs, each as pairs of a key and its rest; where a
    script is named, those before what it prints."""
    streams, cases, name, lines = {}, {}, None, []
    for line in TABLE.read_text().splitlines():
        if script and line.startswith('# *****') and script in line:
            break
        key, _, rest = line.partition(' ')
        if not line or key == '#' or line.startswith('#'):
            continue
        if key == 'stream':
            name = rest
            streams[name] = b''
        elif key == 'bytes':
            streams[name] += read_bytes(streams, rest)
        elif key == 'case':
            lines = cases[rest] = []
        else:
            lines.append((key, rest))
    return streams, cases


def comment_lines(text):
    return wrap(text, 119, initial_indent='# ', subsequent_indent='# ')


def runs(data):
    """The words of bytes, four or more equal ones together."""
    words, at = [], 0
    while at < len(data):
        count = 1
        while at + count < len(data) and data[at + count] == data[at]:
            count += 1
        words += ['%d*%02X' % (count, data[at])] if count > 3 else ['%02X' % data[at]] * count
        at += count
    return words


def stream_words(data):
    """The words of a stream, unit by unit."""
    starts = [i for i in range(len(data) - 2) if data[i:i + 3] == b'\0\0\1']
    edges = sorted({0, *starts, len(data)})
    return [runs(data[a:b]) for a, b in zip(edges, edges[1:])]
