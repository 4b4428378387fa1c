#!/usr/bin/env python3
"""Respells the repository's own definitions and lemmas: words in snake case, types and modules in camel case.

Run once at the top of the repository, after the port script of the toolchain. It turns the names that the .antt files of specs/ and
proofs/ declare, where they stand in .antt files, in ghost lines and clauses of .rt files, in must-fail edits, and in backquotes in documents.
Functions of src/, exported names, strings, inputs and outputs keep their spelling. With --list it prints the table alone."""
import glob
import os
import re
import sys

BREAKS = r'\s(){}\[\].,;:«»"`|'
TOKEN = re.compile(r'[^%s]+' % BREAKS)
STRING = re.compile(r'b?"(?:[^"\\]|\\.)*"')
DECLARED = re.compile(r"^\s*(?:(?:pattern|unfoldable|abbrev|axiom|pub|record|data|module|mod|use)\s+)*([^%s]+)(?:\s*[{(].*?[)}])*\s+:(?=\s)" % BREAKS)
# A lemma that would have its definition's name ends in `_lem` (here where the port script had turned one of the two already); a record is named as a type.
CHOSEN = {
    'Stepped-is': 'SteppedIs',
    'block_in': 'block_in_lem',
    'getD-any': 'get_or_any',
    'is-line': 'is_line_lem',
    'line-of': 'line_of_lem',
    'read-arm': 'read_arm_lem',
}


def antt_files():
    return sorted(glob.glob('crates/*/specs/**/*.antt', recursive=True) + glob.glob('crates/*/proofs/**/*.antt', recursive=True))


def snake(name):
    """`digitNames` and `hex-back` become `digit_names` and `hex_back`; a type at the head keeps its capital, and `′` is an apostrophe."""
    parts = name.replace('′', "'").split('-')
    turned = []
    for k, part in enumerate(parts):
        if k == 0 and part[:1].isupper():
            turned.append(part)
            continue
        part = re.sub(r'(?<=[a-z0-9])([A-Z])', r'_\1', part)
        part = re.sub(r'(?<=[A-Z])([A-Z][a-z])', r'_\1', part)
        turned.append(part.lower())
    return '_'.join(turned)


def declared(path):
    for line in open(path, encoding='utf-8'):
        if line.lstrip().startswith('--'):
            continue
        found = DECLARED.match(line)
        if found and ': tie.' not in line and ': goal.' not in line and not found.group(1).endswith('-spec'):
            yield found.group(1)


def is_odd(name):
    if name.startswith('◌') or name[0] in '-⨾':
        return False
    return '-' in name or '′' in name or (not name[0].isupper() and bool(re.search('[A-Z]', name)))


def table():
    names = set()
    for path in antt_files():
        names |= {n for n in declared(path) if is_odd(n)}
    camel = {snake(n) for n in names if '-' not in n}
    turned = {n: snake(n) + ('_lem' if '-' in n and snake(n) in camel else '') for n in sorted(names)}
    return dict(turned, **CHOSEN)


def turn_tokens(text, names):
    return TOKEN.sub(lambda m: names.get(m.group(0), m.group(0)), text)


def turn(text, names):
    """All tokens outside of strings."""
    out, last = [], 0
    for m in STRING.finditer(text):
        out += [turn_tokens(text[last:m.start()], names), m.group(0)]
        last = m.end()
    return ''.join(out + [turn_tokens(text[last:], names)])


def turn_document(text, names):
    return re.sub(r'`[^`\n]+`', lambda m: turn_tokens(m.group(0), names), text)


def places():
    yield from antt_files()
    yield from sorted(glob.glob('crates/*/src/**/*.rt', recursive=True))
    yield from sorted(glob.glob('crates/*/must-fail/*.edit'))


def bare(path, text, name):
    """Whether a name stands where a definition of that name would hide it or be hidden by it: in a .rt file as a parameter, else behind no dot."""
    if path.endswith('.rt'):
        return re.search(r'fn \w+(?:<[^>]*>)?\([^)]*\b%s\s*:' % re.escape(name), text) is not None
    text = ''.join(line for line in text.splitlines(True) if not re.match(r'\s*(--|use |pub use )', line))
    return re.search(r'(?<![\w.\'-])%s(?![\w.\'-]|\s*=[^=])' % re.escape(name), text) is not None


def foreign(path, text):
    """Names that a file imports from elsewhere than this repository."""
    found = set()
    ours = {'Rattle.%s.' % c for c in os.listdir('crates')}
    for m in re.finditer(r'use ([^\s{;]+)\.\{([^}]*)\}', text):
        if not any(m.group(1).startswith(o) for o in ours):
            found |= {n.strip().split(' as ')[0] for n in m.group(2).split(',')}
    return found


def main():
    names = table()
    if '--list' in sys.argv:
        for old, new in names.items():
            print(old, new)
        return
    clashes = 0
    for path in places():
        text = open(path, encoding='utf-8').read()
        tokens = set(TOKEN.findall(text))
        used = {t for t in tokens if t in names and t not in foreign(path, text)}
        news = {}
        for t in sorted(used):
            if names[t] in news or names[t] in tokens and names[t] not in names and bare(path, text, names[t]):
                print('clash: %s and %s in %s' % (t, news.get(names[t], names[t]), path))
                clashes += 1
            news[names[t]] = t
    if clashes and '--anyway' not in sys.argv:
        print('%d clashes: nothing was written' % clashes)
        sys.exit(1)
    for path in places():
        text = open(path, encoding='utf-8').read()
        theirs = foreign(path, text)
        new = turn(text, {old: new for old, new in names.items() if old not in theirs})
        if new != text:
            open(path, 'w', encoding='utf-8').write(new)
    for path in ['README.md'] + sorted(glob.glob('docs/**/*.md', recursive=True)):
        text = open(path, encoding='utf-8').read()
        new = turn_document(text, names)
        if new != text:
            open(path, 'w', encoding='utf-8').write(new)


main()
