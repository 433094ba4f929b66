#!/usr/bin/env python3
"""Respells this repository's own definitions and lemmas, once, from camel case to snake case, as today's Rattle has it.

    python3 tools/respell.py [FOLDER]

It is run at the top of a checkout that port.py has been over. A name is respelled if an .antt file of specs/ or proofs/
declares it, or binds it, or a source's `ghost use .. as` gives it, with a lower first letter and a capital behind it: each part between dashes by itself, so that
a fact keeps its capital (`mem-Ascending`). Names of Rust source, strings and comments' other words stay. Names that fall
together are refused."""
import pathlib
import re
import sys

root = pathlib.Path(sys.argv[1] if len(sys.argv) > 1 else '.').resolve()
BREAK = r"\s(){}\[\]:,;.λ→×\"`"
TOKEN = re.compile(rf"[^{BREAK}]+")
CAMEL = re.compile(r"^[a-z][a-z0-9_]*[a-z0-9][A-Z]|^[a-z][A-Z]")
# what the library respelled itself
LIBRARY = {'getD': 'get_or', 'isNone': 'is_none'}
# New names that stand elsewhere as the name of a Rust function, of a record's field or of a lemma in another file: two kinds
# of names, so they do not fall together.
APART = {
    'bad_lengths', 'bitmap_words', 'first_bad', 'good_numbers', 'has_room', 'is_free', 'no_room', 'node_stack', 'not_below',
    'put_each', 'set_bits', 'suffix_of', 'suffixes_from', 'walk_from',
}
# A local name that would hide the definition that it is about.
LOCAL = {'crates/promises/proofs/Combination.antt': {'result_fits': 'it_fits'}}


def part(word):
    if word in LIBRARY:
        return LIBRARY[word]
    if not CAMEL.match(word):
        return word
    return re.sub(r"(?<=[a-z0-9])([A-Z])", lambda m: '_' + m.group(1).lower(), word)


def respelled(name):
    return '-'.join(part(p) for p in name.split('-'))


def antt_files():
    for crate in sorted((root / 'crates').iterdir()):
        for folder in ('specs', 'proofs'):
            for f in sorted((crate / folder).rglob('*.antt')):
                yield f


def code(line):
    return line.split('--')[0] if line.lstrip().startswith('--') or ' --' in line else line


for path, names in LOCAL.items():
    f = root / path
    # not where it was run before
    if not any(CAMEL.match(t) for t in TOKEN.findall(f.read_text())):
        continue
    f.write_text(TOKEN.sub(lambda m: names.get(m.group(0), m.group(0)), f.read_text()))

declared = set()
seen = set()
for f in antt_files():
    for line in f.read_text().splitlines():
        for t in TOKEN.findall(code(line)):
            seen.add(t)
            if any(CAMEL.match(p) for p in t.split('-')):
                declared.add(t)

# names that a source gives to what it imports into its clauses
for f in (root / 'crates').glob('*/src/**/*.rt'):
    for line in f.read_text().splitlines():
        if line.lstrip().startswith('ghost use'):
            declared.update(n for n in re.findall(r'\bas ([A-Za-z_0-9]+)', line) if CAMEL.match(n))

table = {n: respelled(n) for n in declared if respelled(n) != n}
bad = [(n, m) for n, m in table.items() if m in seen and m not in APART]
twice = [m for m in table.values() if list(table.values()).count(m) > 1]
if bad or twice:
    sys.exit(f'respell: names would fall together: {bad} {twice}')

paths = list(antt_files())
paths += sorted((root / 'crates').glob('*/src/**/*.rt')) + sorted((root / 'crates').glob('*/must-fail/*.edit'))
paths += sorted((root / 'docs').glob('*.md')) + [root / 'README.md']
changed = 0
for f in paths:
    old = f.read_text()
    strings = f.suffix == '.rt'

    def token(m):
        return table.get(m.group(0), m.group(0))

    if strings:
        pieces = re.split(r'("(?:[^"\\]|\\.)*")', old)
        new = ''.join(p if i % 2 else TOKEN.sub(token, p) for i, p in enumerate(pieces))
    else:
        new = TOKEN.sub(token, old)
    if new != old:
        f.write_text(new)
        changed += 1
if len(sys.argv) > 2 and sys.argv[2] == '--table':
    for n in sorted(table):
        print(n, table[n])
print(f'respell: {len(table)} names, {changed} files')
