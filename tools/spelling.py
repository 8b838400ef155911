#!/usr/bin/env python3
"""Brings the names of this repository's own definitions and lemmas to the spelling of its Rattle.

usage: python3 tools/spelling.py [FOLDER]     once, right after port.py; FOLDER (default '.') has crates/

A name of a type or a fact (it begins with a capital) becomes upper camel case, any other name snake case:
'Uses-list' is UsesList, 'plan-table' is plan_table. A name is one that is declared in specs/, in a file right
below proofs/, or as a ghost member in src/. Names that Rattle makes (goals: 'returns-in-Err') and names
that a file imports from a library stay; so do comments, strings, and functions of src/.
It names new names that fall together with other ones ('together:'), and changes nothing else.
"""
import glob
import os
import re
import sys

TOP = sys.argv[1] if len(sys.argv) > 1 else '.'
OWN = sorted(os.listdir(os.path.join(TOP, 'crates')))
# a word of a file; a dash belongs to it
WORD = re.compile(r"[^\s(){}\[\].,;:@`\"·«»]+")
DECLARED = re.compile(
    r"^\s*(?:(?:abbrev|unfoldable|pattern|axiom|pub|record|data|ghost)\s+)*([^\W\d][^\s(){}.,;:]*)(?=[\s({][^=]*:|\s*:)")
MADE = re.compile(r"^(returns|loop|invariant|decreases|overflow|slice|index|divisor|cast|shift)-")


def texts():
    for kind in ('specs/**/*.antt', 'proofs/**/*.antt', 'src/**/*.rt'):
        yield from sorted(glob.glob(os.path.join(TOP, 'crates', '*', kind), recursive=True))


def is_lemma_file(path):
    parts = os.path.relpath(path, os.path.join(TOP, 'crates')).split(os.sep)
    return parts[1] == 'specs' or (parts[1] == 'proofs' and len(parts) == 3)


def declared():
    names = set()
    goals = set()
    for path in texts():
        for line in open(path, encoding='utf-8'):
            goals.update(re.findall(r"\b(?:goal|need|rules|by)\.([^\s(){}.,;]+)", line))
            if path.endswith('.rt'):
                m = re.match(r"^\s*(?:pub )?ghost (?:fn )?([^\W\d][^\s(){}.,;:]*):", line)
            elif is_lemma_file(path):
                m = DECLARED.match(line)
            else:
                m = None
            names.update(w for w in re.findall(r"\bas ([^\W\d][^\s(){}.,;:]*)", line.split('--')[0]) if '-' in w)
            if m and '-' in m.group(1):
                names.add(m.group(1))
    return {n for n in names if n not in goals and not MADE.match(n)}


def spelled(name):
    if name[0].isupper():
        return ''.join(w[:1].upper() + w[1:] for w in name.split('-'))
    return name.replace('-', '_').replace('getD', 'get_or')


def imported(text):
    """The words that a file imports from a library."""
    found = set()
    for path, words in re.findall(r"use ([^\s{};]+?)\.\{([^}]*)\}", text):
        parts = path.split('.')
        if parts[0] != 'Rattle' or (len(parts) > 1 and parts[1] not in OWN):
            for w in words.split(','):
                found.update(w.split())
    return found


def turned(text, names, comment):
    keep = imported(text)

    def word(m):
        w = m.group(0)
        return spelled(w) if w in names and w not in keep else w

    lines = []
    for line in text.split('\n'):
        code, mark, rest = line.partition(comment)
        # strings stay
        parts = re.split(r'("(?:[^"\\]|\\.)*")', code)
        parts = [p if i % 2 else WORD.sub(word, p) for i, p in enumerate(parts)]
        lines.append(''.join(parts) + mark + rest)
    return '\n'.join(lines)


def together(names):
    new = {}
    for n in sorted(names):
        new.setdefault(spelled(n), []).append(n)
    for n, olds in new.items():
        if len(olds) > 1:
            print(f"together: {', '.join(olds)}: {n}")
    for path in texts():
        text = open(path, encoding='utf-8').read()
        words = set(WORD.findall(re.sub(r"(--|//).*", '', text)))
        for n in sorted(words & new.keys()):
            print(f"together: {n} stands already in {os.path.relpath(path, TOP)}")


def main():
    names = declared()
    together(names)
    count = 0
    for path in texts():
        text = open(path, encoding='utf-8').read()
        new = turned(text, names, '//' if path.endswith('.rt') else '--')
        if new != text:
            count += 1
            with open(path, 'w', encoding='utf-8') as f:
                f.write(new)
    print(f"{len(names)} names, {count} files")


main()
