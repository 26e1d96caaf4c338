#!/usr/bin/env python3
"""Brings the names of this repository's definitions and lemmas to today's spelling, once, after the kit's port.py: a type, which
begins with a capital, is written in camel case, and every other name in snake case. Names that Rattle makes keep their dashes,
and so does whatever stands in comments of code, strings, inputs and outputs. Prints the names that fall together.

usage: tools/respell.py [TOP]"""
import re
import sys
from pathlib import Path

TOP = Path(sys.argv[1] if len(sys.argv) > 1 else Path(__file__).parent.parent)

# A token of antt: anything but blanks, brackets and separators.
TOKEN = re.compile(r"[^\s(){}\[\].,;:`\"]+")

# Lemmas on lot A, whose names begin with that variant: no types.
VARIANTS = {'A', 'B'}


def antt_files():
    return sorted(f for kind in ('specs', 'proofs') for f in TOP.glob(f'crates/*/{kind}/**/*.antt'))


def without_comments(text):
    return re.sub(r'--[ \t].*|--$', '', text, flags=re.M)


def defined_in(text):
    """The names that a file defines: signatures, fields, constructors, records and data. Answers to goals are no names of ours."""
    text = without_comments(text)
    head = r'^\s*(?:abbrev |unfoldable |pub )*((?:[^\s(){}\[\].,;:]+ )+): ?(.*)$'
    for match in re.finditer(head, text, re.M):
        if not match.group(2).startswith('goal.'):
            yield from match.group(1).split()
    for match in re.finditer(r'\b(?:record|data) ([^\s(){}\[\].,;:]+)', text):
        yield match.group(1)


def generated_in(text):
    """The names that an answer gives to a goal."""
    for match in re.finditer(r'^\s*(?:abbrev |pub )*([^\s(){}\[\].,;:]+) : goal\.', text, re.M):
        yield match.group(1)


def respelt(name):
    first, *rest = name.replace('getD', 'get_or').split('-')
    if first[0].isupper() and first not in VARIANTS:
        return first + ''.join(word[0].upper() + word[1:] for word in rest)
    return '_'.join([first, *rest])


def renamed(text, names):
    return TOKEN.sub(lambda match: names.get(match.group(), match.group()), text)


def renamed_code(text, names):
    """Code: the names stand in its clauses and ghost items. Its comments and strings stay."""
    parts = re.split(r'(//.*|b?"(?:[^"\\]|\\.)*"|b\'(?:[^\'\\]|\\.)\')', text)
    return ''.join(part if k % 2 else renamed(part, names) for k, part in enumerate(parts))


def main():
    files = antt_files()
    texts = {f: f.read_text() for f in files}
    own, generated, there = set(), set(), set()
    for text in texts.values():
        own.update(defined_in(text))
        generated.update(generated_in(text))
        there.update(TOKEN.findall(without_comments(text)))
    own = {n for n in own if n not in generated and re.match(r'[A-Za-z]', n)}
    names = {n: respelt(n) for n in own if '-' in n and re.fullmatch(r"[A-Za-z0-9_'≢-]+", n)}
    for old, new in sorted(names.items()):
        same = [n for n, m in names.items() if m == new and n != old]
        if same or (new in there and new != old):
            print(f'falls together: {old} becomes {new}, as', *(same or ['a name that is there']))
    for f in files:
        text = renamed(texts[f], names)
        if text != texts[f]:
            f.write_text(text)
    for f in sorted(TOP.glob('crates/*/src/**/*.rt')):
        text = f.read_text()
        new = renamed_code(text, names)
        if new != text:
            f.write_text(new)
    print(f'{len(names)} names respelt')


if __name__ == '__main__':
    main()
