#!/usr/bin/env python3
"""Lists functions of src/ that may be twins: their bodies are alike but for names, types and numbers.

usage: python3 tools/count_twins.py [COMMIT]      at the top of the repository

Two lists: bodies of the same shape (names, literals and paths count as one, and so does a row of them), of at least twelve tokens; and functions whose whole
body is one call of another function, which may be one function too many. A row is a place to look at: docs/DESIGN-PASS.md has
what was found.
"""
import re
import subprocess
import sys
from collections import defaultdict

FEWEST_TOKENS = 12


def files(commit):
    if commit:
        names = subprocess.check_output(['git', 'ls-tree', '-r', '--name-only', commit], text=True).split()
    else:
        names = subprocess.check_output(['git', 'ls-files'], text=True).split()
    for name in names:
        if re.fullmatch(r'crates/[a-z_]+/src/.*\.rt', name) and not name.endswith('tests.rt'):
            if commit:
                yield name, subprocess.check_output(['git', 'show', f'{commit}:{name}'], text=True)
            else:
                yield name, open(name, encoding='utf-8').read()


def functions(text):
    """Name and body of each function: from the brace that opens a line, or ends the signature, to the one that closes it."""
    text = re.sub(r'//[^\n]*', '', text)
    for found in re.finditer(r'\bfn ([a-z_0-9]+)', text):
        # skip the clauses, whose braces close on their line
        opened = re.compile(r'(^\s*\{$|^[^{}]*\) *(-> [^{}]*)?\{$)', re.M).search(text, found.start())
        ended = len(text)
        following = re.compile(r'\bfn [a-z_0-9]+').search(text, found.end())
        if following:
            ended = following.start()
        if not opened or opened.end() > ended:
            continue
        depth, at = 1, opened.end()
        while depth:
            depth += {'{': 1, '}': -1}.get(text[at], 0)
            at += 1
        yield found.group(1), text[opened.end():at - 1]


def tokens(body):
    return re.findall(r'[A-Za-z_][A-Za-z_0-9]*(?:::[A-Za-z_][A-Za-z_0-9]*)*|0x[0-9a-f]+|\d+|"[^"]*"|b?\'[^\']*\'|\S', body)


KEYWORDS = {'let', 'mut', 'if', 'else', 'match', 'for', 'while', 'in', 'return', 'as', 'true', 'false', 'None', 'Some', 'Ok', 'Err'}


def shape(body):
    """Keywords and punctuation as they stand, all else as x, and a row of several as a row of one."""
    plain = ' '.join(t if t in KEYWORDS or not re.match(r'[A-Za-z_0-9"\']', t) else 'x' for t in tokens(body))
    return re.sub(r'(?:(?:\* )?x , )+', 'x , ', plain)


def main():
    commit = sys.argv[1] if len(sys.argv) > 1 else ''
    alike, delegates = defaultdict(list), []
    for name, text in files(commit):
        for function, body in functions(text):
            place = f'{name.removeprefix("crates/")}: {function}'
            if len(tokens(body)) >= FEWEST_TOKENS:
                alike[shape(body)].append(place)
            call = re.fullmatch(r'\s*(?:self\.|[A-Za-z_]+::)?([a-z_]+)\([a-z_, ]*\)\s*', body)
            if call and call.group(1) not in ('fmt',):
                delegates.append(f'{place} -> {call.group(1)}')
    groups = [g for g in alike.values() if len(g) > 1]
    print(f'{sum(map(len, groups)):4d}  functions whose bodies are alike, in {len(groups)} groups')
    for group in sorted(groups):
        print('        ' + '\n          '.join(sorted(group)))
    print(f'{len(delegates):4d}  functions that are one call of another')
    for place in delegates:
        print('        ' + place)


main()
