#!/usr/bin/env python3
"""Writes docs/CLAUSES.md: each rule of the standard with its definition and its code.

    bench/documents/clauses.py [--check]

The rules stand in clauses.txt. Each word and each function that is named there must be where it says; each clause and
table that a comment of the crates names must be there, and what these comments stand at is put to what the rule names.
Where one of these isn't so the status is 1, and nothing is written. With --check nothing is written either; the
status is 1 where docs/CLAUSES.md isn't what would be."""

import re
import sys
from pathlib import Path

HERE = Path(__file__).resolve().parent
TOP = HERE.parent.parent
PAGE = TOP / 'docs' / 'CLAUSES.md'
CLAUSE, TABLE = r'(?:\d+(?:\.\d+)*|C\.\d+)', r'(?:\d+-\d+|B\.\d+)'
NAMED = re.compile(r'\b([Cc])lauses? (%s)|\b([Tt])ables? (%s)|\b(A)nnex ([A-C])\b' % tuple(
    number + r'(?:(?:, | and | or | to )' + number + ')*' for number in (CLAUSE, TABLE)))
WORD = re.compile(r'(?:(?:unfoldable|abbrev|opaque) )?(?:pub )?(?:(?:record|data) )?([^\s:({]+)')
ITEM = re.compile(r'\s*(?:pub(?:\([a-z]+\))? )?(?:const |ghost )?(?:fn|struct|enum|static|const|trait) (\w+)')
FIELD = re.compile(r'\s*(?:pub )?\w+:')
HEAD = '''# Clauses

Where each rule of ISO/IEC 13818-2 stands: its definition (in a crate's `specs/`) and its code (in `src/`). What isn't
read or written says so. The words of a rule are there to find it by; what the program does is what the definition says.
`bench/run clauses` writes this page from `bench/documents/clauses.txt` and the comments of the crates.
'''


def rank(key):
    """What clauses and tables are ordered by."""
    return [int(part) if part.isdigit() else part for part in re.split(r'[.\s-]', key)]


def places_in(text):
    """What a cell names: files, each with its words."""
    for part in text.split(';') if text != '–' else ():
        file, *words = part.split()
        yield file, words


class Rules:
    """The rules of clauses.txt, and what is wrong with them."""

    def __init__(self):
        self.parts, self.rows, self.wrong = [], [], []
        for line in (HERE / 'clauses.txt').read_text().splitlines():
            if line.startswith('== '):
                self.parts.append((line[3:], []))
            elif line and not line.startswith('#'):
                key, rule, *cells = line.split(' | ')
                row = (key, rule, *[{file: words for file, words in places_in(cell)} for cell in cells])
                self.parts[-1][1].append(row)
                self.rows.append(row)

    def keys(self):
        return [key for row in self.rows for key in ends(row[0])]

    def first(self, key):
        return next((row for row in self.rows if key in ends(row[0])), None)

    def is_known(self, key):
        """A clause, or a whole chapter of them."""
        return key in self.keys() or key.isdigit() and any(k.startswith(key + '.') for k in self.keys())

    def look(self):
        """Each word and each function is there."""
        for row in self.rows:
            for cell, path, found in ((row[2], specs_path, words_of), (row[3], src_path, items_of)):
                for file, words in cell.items():
                    if not path(file).exists():
                        self.wrong.append('%s: there is no %s' % (row[0], file))
                        continue
                    there = found(path(file))
                    self.wrong += ['%s: %s has no %s' % (row[0], file, word) for word in words if word not in there]

    def names(self, column, file, word):
        return any(word in row[column].get(file, ()) for row in self.rows)

    def take(self, column, file, comments):
        """What the comments of a file name."""
        for text, word in comments:
            for key in keys_named(text, self.keys()):
                if not self.is_known(key):
                    self.wrong.append('%s names %s, which clauses.txt hasn\'t' % (file, key))
                elif word and self.first(key) and not self.names(column, file, word):
                    self.first(key)[column].setdefault(file, []).append(word)


def ends(key):
    """The first and the last of `C.9 to C.12` or of `table 8-10 to 8-14`."""
    kind, numbers = re.match(r'(table |Annex )?(.*)', key).groups('')
    return [kind + number for number in numbers.split(' to ')]


def keys_named(text, known):
    """The clauses and tables that a comment names, with those between two ends."""
    for found in NAMED.finditer(text):
        kind, numbers = (text for text in found.groups() if text)
        before = {'c': '', 't': 'table ', 'a': 'Annex '}[kind.lower()]
        numbers = re.split(r'(, | and | or | to )', numbers)
        for at in range(0, len(numbers), 2):
            key = before + numbers[at]
            yield key
            if at and numbers[at - 1] == ' to ':
                low = before + numbers[at - 2]
                within = [k for k in known if k.startswith(before) and same_kind(low, k)]
                yield from (k for k in within if rank(low) < rank(k) < rank(key))


def same_kind(one, other):
    return [type(part) for part in rank(one)[:2]] == [type(part) for part in rank(other)[:2]]


def specs_path(file):
    crate, _, module = file.partition('/')
    return TOP / 'crates' / crate / 'specs' / (module + '.antt')


def src_path(file):
    crate, _, module = file.partition('/')
    return TOP / 'crates' / crate / 'src' / (module + '.rt')


def defined(line):
    """The word that a line of definitions begins."""
    found = WORD.match(line)
    return found[1] if found and not line.startswith(('use ', 'pub use ', 'pub mod ', ' ', '-- ')) else None


def words_of(path):
    return {defined(line) for line in path.read_text().splitlines()}


def items_of(path):
    return {found[1] for found in map(ITEM.match, path.read_text().splitlines()) if found}


def comments_of(path, sign, named):
    """Each comment with the word or the item that it stands at; None where it stands at a whole file or at a field."""
    text = []
    for number, line in enumerate(path.read_text().splitlines() + ['']):
        if line.strip().startswith(sign):
            text.append(line.strip().lstrip('/-! '))
        elif text and not line.strip().startswith('#['):
            whole = number == len(text) or text[0].startswith('----')
            yield ' '.join(text), None if whole else named(line)
            text = []


def item(line):
    found = ITEM.match(line)
    return found[1] if found else None


def crates():
    """The crates but those of tests."""
    return [crate for crate in sorted((TOP / 'crates').glob('m2v_*')) if not crate.name.startswith('m2v_test_')]


def texts(crate, folder, ending):
    """Each text of a crate's folder, with the name that clauses.txt has for it."""
    for path in sorted((crate / folder).rglob('*' + ending)):
        if 'declared' not in path.parts:
            yield path, crate.name + '/' + path.relative_to(crate / folder).with_suffix('').as_posix()


def cell(places, path, links):
    """A cell of the table: each file as a link, with its words."""
    shown = []
    for file, words in places.items():
        name = file.removeprefix('m2v_') + path(file).suffix
        links[name] = '../' + path(file).relative_to(TOP).as_posix()
        shown.append(' '.join(['[%s]' % name, *['`%s`' % word for word in words]]))
    return '; '.join(shown) or '–'


def page(rules):
    lines, links = [HEAD], {}
    for title, rows in rules.parts:
        lines += ['## ' + title, '', '| Clause | Rule | Definition | Code |', '|---|---|---|---|']
        for key, rule, definitions, code in rows:
            cells = cell(definitions, specs_path, links), cell(code, src_path, links)
            lines.append('| %s | %s | %s | %s |' % (key, rule, *cells))
        lines.append('')
    return '\n'.join([*lines, *['[%s]: %s' % link for link in sorted(links.items())], ''])


def main():
    rules = Rules()
    rules.look()
    for crate in crates():
        for path, name in texts(crate, 'specs', '.antt'):
            rules.take(2, name, comments_of(path, '--', defined))
        for path, name in texts(crate, 'src', '.rt'):
            rules.take(3, name, comments_of(path, '//', item))
    made = page(rules)
    if rules.wrong:
        print(*sorted(set(rules.wrong)), sep='\n')
    elif '--check' not in sys.argv[1:]:
        PAGE.write_text(made)
    elif not PAGE.exists() or PAGE.read_text() != made:
        rules.wrong.append('')
        print('docs/CLAUSES.md isn\'t what bench/documents/clauses.py writes')
    sys.exit(bool(rules.wrong))


if __name__ == '__main__':
    main()
