#!/usr/bin/env python3
"""Writes the table of crates in docs/MAP.md.

    bench/documents/map.py [--check]

A row is a crate of crates.txt, in its order, with the first line of its README. With --check nothing is written; the
status is 1 where the table isn't what would be."""

import sys
from pathlib import Path

sys.path.insert(0, str(Path(__file__).resolve().parent.parent))

from crates import listed  # noqa: E402

TOP = Path(__file__).resolve().parent.parent.parent
PAGE = TOP / 'docs' / 'MAP.md'
BEGIN, END = '<!-- bench/run map writes what follows -->\n', '<!-- to here -->'
# a crate's group is told by its name, or it is named here; all others are layers that both sides use
GROUPS = {
    'Layers that both sides use': (),
    'The encoder': ('m2v_enc_', 'm2v_search', 'm2v_choose', 'm2v_rate', 'm2v_slice', 'm2v_encode'),
    'The decoder': ('m2v_dec', 'm2v_pardec'),
    'What is proved of whole streams: definitions and laws alone': ('m2v_law_',),
    'Commands': ('m2v_flat', 'm2v_check', 'm2v_audit', 'm2v_cut', 'm2v_mend', 'm2v_make', 'm2v_y4m', 'm2v_tool', 'm2v_main'),
    'Tests': ('m2v_test_',),
}


def group_of(name):
    found = [group for group, begins in GROUPS.items() if name.startswith(begins or ('-',))]
    return found[0] if found else next(iter(GROUPS))


def said(name):
    """The first line of a crate's README, without its full stop."""
    readme = TOP / 'crates' / name / 'README.md'
    title, _, line, *_ = readme.read_text().splitlines()
    assert title == '# ' + name and line.endswith('.'), readme
    return line[:-1]


def table():
    for group in GROUPS:
        yield from ('', '| %s | What it is |' % group, '|---|---|')
        for name in listed(TOP / 'crates.txt'):
            if group_of(name) == group:
                yield '| [`%s`](../crates/%s/README.md) | %s |' % (name, name, said(name))
    yield ''


def main():
    page = PAGE.read_text()
    before, rest = page.split(BEGIN)
    made = before + BEGIN + '\n'.join(table()) + '\n' + END + rest.split(END)[1]
    if '--check' not in sys.argv[1:]:
        PAGE.write_text(made)
    elif made != page:
        print("docs/MAP.md isn't what bench/documents/map.py writes")
        sys.exit(1)


if __name__ == '__main__':
    main()
