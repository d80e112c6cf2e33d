#!/usr/bin/env python3
"""Prints the cases of `audit`: what is wanted is the report that bench/cases/audited.py makes by the rules alone.

Streams are changes of those of the table, or put together by bench/cases/pictures_writer.py, and all those of the cases of
`check` once more."""

import audited_buffers  # their sections stand behind those of audited_streams
import audited_rules
import audited_running
import audited_discs
from audited import report
from audited_records import head
from audited_sets import SETS, set_in
from audited_streams import SECTIONS
from pictures import lines_of
from table_lines import comment_lines, read_bytes, read_table, runs, stream_words
from verdicts_cases import STREAMS

TABLE = read_table('audited_cases.py')[1]
HEADS = {rules: head(rules).encode() for rules in SETS}


def head_name(rules):
    return 'audit_head' if rules == 'main' else 'audit_head_' + rules


def output_lines(output, whole, rules):
    """A report: whole where calls fail, and else by its length and its number, with its records as a comment."""
    rows = output[len(HEADS[rules]):].splitlines(True)
    yield 'output = ' + head_name(rules)
    if whole:
        yield from lines_of('output', map(runs, rows))
        return
    yield from ('# ' + row.decode().strip().replace('\t', ' ') for row in rows)
    total = 0
    for byte in output:
        total = (31 * total + byte) % 2 ** 32
    yield from ('length %d' % len(output), 'sum %d' % total)


def case_lines(name, words, inputs, more, answer):
    status, line, output = answer
    wanted = (['status %d' % status] if status else []) + (['report ' + line] if line else [])
    if output:
        whole = any(text.startswith(('each', 'prefix')) for text in more)
        wanted += output_lines(output, whole, set_in(words.split()))
    return ['case audit' + name, 'words ' + words, *inputs, *more, *wanted]


def input_lines(parts):
    for part in parts:
        yield from lines_of('input', [part.split()] if isinstance(part, str) else stream_words(part))


def bytes_in(lines):
    return b''.join(read_bytes(STREAMS, line.partition(' ')[2]) for line in lines)


def new_case(name, parts, words='audit', more=(), fault=None, comment='', wanted=None, said=None):
    """A stream with its report, unless another answer is wanted, or another status and line are said."""
    inputs = list(input_lines(parts))
    answer = wanted or report(bytes_in(inputs), '--pictures' in words, set_in(words.split()))
    assert bool(fault) == (answer[0] == 9) and (not fault or answer[1] == 'stream %s at bit %d' % fault), name
    answer = (*said, answer[2]) if said else answer
    return [*comment_lines(comment), *case_lines(': ' + name, words, inputs, more, answer)]


# what `audit` answers where `check` says this: a lawful stream may break stricter rules
ANSWERS = {'lawful': (0, 18), 'variable': (0, 18), 'unlawful': (18,), 'buffer': (18,), 'stream': (9,), 'picture': (14,)}


def again():
    """The cases of `check` with the words of `audit`."""
    for name, lines in TABLE.items():
        if ('words', 'check') not in lines or any(key in ('fail', 'each') for key, _ in lines):
            continue
        inputs = ['%s %s' % line for line in lines if line[0] == 'input']
        said = dict(lines)
        status, line = int(said.get('status', 0)), said['report']
        answer = report(bytes_in(inputs))
        assert answer[0] in ANSWERS[line.split()[0]] and (answer[0] < 9 or answer[0] == 18 or answer[1] == line), name
        yield case_lines(' as ' + name, 'audit', inputs, (), answer)


def heads():
    """How reports begin: those by another set than main differ in their first line."""
    main = HEADS['main']
    yield from ('stream audit_head', *lines_of('bytes', map(runs, main.splitlines(True))), '')
    behind = main.index(b'\n') + 1
    for rules, begin in HEADS.items():
        if rules != 'main':
            first = begin[:len(begin) - len(main) + behind]
            assert begin == first + main[behind:]
            yield from ('stream ' + head_name(rules), *lines_of('bytes', [runs(first)]),
                        'bytes = audit_head from %d' % behind, '')


def table():
    yield from ('# ***** what follows is what bench/cases/audited_cases.py prints', '')
    yield from ('# ---- audit: how each report begins', '')
    yield from heads()
    for heading, cases in SECTIONS:
        yield from (*comment_lines('---- audit: ' + heading), '')
        for of_case in cases:
            yield from (*new_case(**of_case), '')
    yield from (*comment_lines('---- audit: the streams of the cases of check'), '')
    for lines in again():
        yield from (*lines, '')


if __name__ == '__main__':
    print('\n'.join(table()).rstrip())
