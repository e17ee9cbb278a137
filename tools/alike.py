#!/usr/bin/env python3
"""Lists pairs of functions of crates/*/src whose bodies are alike but for names and numbers, the likest first.

usage: python3 tools/alike.py      at the top; a line is: likeness, two functions
"""
import difflib
import glob
import itertools
import re

LEAST = 0.72  # the likeness from which a pair is listed
SHORT = 12    # bodies of fewer words and marks are passed over


def functions():
    """Each function's name, as crate::function, and the words and marks of its body, numbers all alike."""
    for path in sorted(glob.glob('crates/*/src/*.rt')):
        lines = open(path, encoding='utf-8').read().split('\n')
        at = 0
        while at < len(lines):
            found = re.match(r'(\s*)(pub )?(extern "C" )?fn (\w+)', lines[at])
            if found:
                indent, start = found.group(1), at
                while lines[start].rstrip() != indent + '{' and not lines[start].endswith('{'):
                    start += 1
                end = start
                while lines[end] != indent + '}':
                    end += 1
                body = re.sub(r'\b\d\w*\b', '0', ' '.join(lines[start + 1:end]))
                yield path.split('/')[1] + '::' + found.group(4), re.findall(r'\w+|[^\s\w]', body)
                at = end
            at += 1


def main():
    found = []
    for (a, x), (b, y) in itertools.combinations(functions(), 2):
        if min(len(x), len(y)) >= SHORT:
            ratio = difflib.SequenceMatcher(None, x, y, autojunk=False).ratio()
            if ratio >= LEAST:
                found.append((ratio, a, b))
    for ratio, a, b in sorted(found, reverse=True):
        print(f'{ratio:.2f} {a} {b}')


main()
