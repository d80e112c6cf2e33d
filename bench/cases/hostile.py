#!/usr/bin/env python3
"""Prints the cases of `check` on a grey frame's stream that is changed byte by byte.

Each place is counted in bits by the rules; where `decode` is asked the same, its cases stand further up, and the two
must say the same fault. What `audit` is to say of these streams bench/cases/audited_cases.py prints, as of all of `check`."""

from table_lines import comment_lines, read_table

SLICE = 'without 39..47 put 39 00 00 01 01 '
# a name, the change, and the fault or what is said of the stream
CHANGES = [
    ('the first 11 bytes', 'first 11', 'Truncated at bit 83'),
    ('the first 22 bytes', 'first 22', 'lawful frames 0 pictures 0 bytes 22 low 0 high 0 delays 0'),
    ('the first 30 bytes', 'first 30', 'NotMpeg2 at bit 240'),
    ('the first 38 bytes', 'first 38', 'Truncated at bit 304'),
    ('the first 43 bytes', 'first 43', 'Truncated at bit 344'),
    ('the first 47 bytes', 'first 47', 'Truncated at bit 376'),
    ('the end of the text ends a picture', 'first 48', 'variable frames 1 pictures 1 bytes 48'),
    ('no sequence header', 'byte 3 B4', 'NoSequence at bit 416'),
    ('another extension behind the sequence header', 'byte 16 24', 'NotMpeg2 at bit 96'),
    ('chroma format 2', 'byte 17 8C', 'Unsupported at bit 141'),
    ('chroma format 0', 'byte 17 88', 'Forbidden at bit 141'),
    ('a marker of a sequence header', 'byte 10 03', 'BadMarker at bit 82'),
    ('width 0', 'byte 4 00', 'Forbidden at bit 143'),
    ('width 4095', 'byte 4 FF F0', 'Unsupported at bit 143'),
    ('picture type 4', 'byte 27 27', 'Unsupported at bit 218'),
    ('picture type 0', 'byte 27 07', 'Forbidden at bit 218'),
    ('picture structure 0', 'byte 36 F0', 'Forbidden at bit 294'),
    ('a slice past the last row', 'byte 42 02', 'SliceOrder at bit 312'),
    ('a slice twice', 'put 48 00 00 01 01 0B 94 A5 22 20', 'SliceOrder at bit 384'),
    ('a reserved start code', 'put 22 00 00 01 B0', 'Forbidden at bit 176'),
    ('a pair past the end of its block', SLICE + '0B 80 FE 00 20', 'Overrun at bit 355'),
    ('a DC level of -1 in the first block', SLICE + '0B FD FE', 'DcRange at bit 352'),
    ('a piece as large as it may be', 'put 39 00 00 01 B2 2097100*FF', 'variable frames 1 pictures 1 bytes 2097156'),
    ('a piece one byte larger', 'put 39 00 00 01 B2 2097101*FF', None),
]


def answer(said):
    if said is None:
        return ['status 14', 'report picture too large']
    if ' at bit ' in said:
        return ['status 9', 'report stream ' + said]
    return ['report ' + said]


def changes(cases):
    there, faults = set(), {}
    for lines in cases.values():
        text = dict(lines).get('input', '')
        if ('words', 'check') in lines:
            there.add(text)
        elif ('words', 'decode') in lines:
            faults[text] = [rest for key, rest in lines if key == 'report']
    yield from comment_lines('---- check: the changes of a grey frame\'s stream that do not stand further up')
    for name, change, said in CHANGES:
        text = '= grey ' + change
        if said and ' at bit ' in said and text in faults:
            assert faults[text] == ['stream ' + said], text
        if text not in there:
            yield from ['', 'case check: ' + name, 'words check', 'input ' + text, *answer(said)]


if __name__ == '__main__':
    print('\n'.join(changes(read_table('hostile.py')[1])).rstrip())
