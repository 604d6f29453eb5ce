#!/usr/bin/env python3
"""Brings the repository's own names in specs/ and proofs/ to one spelling, wherever they stand.

Types and facts go in camel case; definitions, record fields and labels in snake case; a lemma's name joins its parts by dashes,
each part in snake case; a prime is an apostrophe. Functions of src/, strings, inputs and outputs keep their names. In README.md
and docs/ the names in backticks follow.

usage: respell.py [--list]    at the top of the repository, after the toolchain's own port.py; --list changes nothing and prints
                              each name with its new spelling

It prints what falls together: names of one file that differed before and do so no more, and names that are a definition in one
file and a lemma in another, which take the definition's spelling."""
import glob
import os
import re
import sys

WORD = re.compile(r"[A-Za-z_][A-Za-z0-9_'′]*(?:[-+][A-Za-z0-9_'′]+)*")
DECLARATION = re.compile(
    r"(\s*)(?:pub )?(?:(abbrev|unfoldable|record|data|ruleset)(?: pub)?\s+)?(?:pub\s+)?([A-Za-z_][\w'′]*(?:-[\w'′]+)*)\b(.*)")
ANSWERS = ('Answers.antt', 'Invariants.antt', 'Choices.antt', 'Lib.antt', 'Proof.antt')
# `isAble` of one crate and `is-able` of another ask a condition the same question, and one file cites both.
BY_HAND = {'isAble': 'can_fail'}


def snake(word):
    return re.sub(r'(?<=[a-z0-9])([A-Z])', lambda m: '_' + m.group(1).lower(), word)


def as_definition(name):
    return snake(name.replace('′', "'").replace('-', '_'))


def as_fact(name):
    return ''.join(part[:1].upper() + part[1:] for part in name.replace('′', "'").split('-'))


def as_lemma(name):
    return '-'.join(snake(part) for part in name.replace('′', "'").split('-'))


def declared(path):
    """The names that a file declares, each with its new spelling."""
    record = None
    for line in open(path, encoding='utf-8'):
        found = DECLARATION.match(line)
        if not found or line.lstrip().startswith(('--', 'use ', 'module', 'pub mod', 'mod ')):
            continue
        indent, kind, name, rest = len(found.group(1)), found.group(2), found.group(3), found.group(4)
        heads = re.match(r'\s*(pub |abbrev|unfoldable|record|data|ruleset)', line)
        typed = re.match(r'[^=]*? : ', rest) or rest.lstrip().startswith(':')
        if record is not None and indent <= record:
            record = None
        small = as_fact if name[0].isupper() else as_definition
        if kind in ('record', 'data'):
            record = indent
            yield name, as_fact(name)
        elif kind in ('abbrev', 'unfoldable', 'ruleset'):
            yield name, small(name)
        elif record is not None and typed:
            yield name, small(name)
        elif typed and (heads or indent <= 2):
            yield name, as_fact(name) if name[0].isupper() else as_lemma(name)


def spellings(files):
    """The names that change, each with its new spelling, and those that are declared in two ways."""
    names, places = {}, {}
    for path in files:
        if os.path.basename(path) in ANSWERS:
            continue
        for old, new in declared(path):
            names.setdefault(old, set()).add(new)
            places.setdefault(old, set()).add(path)
    table, twice = {}, {}
    for old, new in names.items():
        spelling = as_definition(old) if as_definition(old) in new else sorted(new)[0]
        if len(new) > 1:
            twice[old] = (sorted(new), sorted(places[old]))
        if spelling != old:
            table[old] = spelling
    table.update(BY_HAND)
    return table, twice


def respelled(text, table):
    """The text in the new spelling, and the sets of its names that fall together."""
    used = {}

    def new(match):
        spelling = table.get(match.group(), match.group())
        used.setdefault(spelling, set()).add(match.group())
        return spelling

    text = WORD.sub(new, text).replace('′', "'")
    return text, {spelling: olds for spelling, olds in used.items() if len(olds) > 1}


def respelled_page(text, table):
    """A page of docs/ with the names in backticks in the new spelling."""
    return re.sub(r'`[^`\n]+`', lambda quoted: respelled(quoted.group(), table)[0], text)


def main():
    files = sorted(glob.glob('crates/*/specs/**/*.antt', recursive=True) + glob.glob('crates/*/proofs/**/*.antt', recursive=True))
    texts = sorted(files + glob.glob('crates/*/src/**/*.rt', recursive=True) + glob.glob('crates/*/must-fail/*.edit'))
    table, twice = spellings(files)
    if '--list' in sys.argv:
        for old, new in sorted(table.items()):
            print(f'{old} -> {new}')
    changed = 0
    for path in texts + ['README.md'] + sorted(glob.glob('docs/*.md')):
        text = open(path, encoding='utf-8').read()
        if path.endswith('.md'):
            new, together = respelled_page(text, table), {}
        else:
            new, together = respelled(text, table)
        for spelling, olds in together.items():
            print(f'falls together in {path}: {sorted(olds)} -> {spelling}')
        if new != text and '--list' not in sys.argv:
            open(path, 'w', encoding='utf-8').write(new)
            changed += 1
    for old, (new, places) in sorted(twice.items()):
        print(f'declared in two ways: {old} {new} {places[:4]}')
    print(len(table), 'names,', changed, 'files changed')


if __name__ == '__main__':
    main()
