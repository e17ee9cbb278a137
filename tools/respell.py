#!/usr/bin/env python3
"""Brings the repository's own definitions and lemmas to the spelling of today's Rattle: words in snake case, facts in camel case.

usage: python3 tools/respell.py        at the top, once, after the kit's port.py

It reads which names the files of specs/ and proofs/ declare, and turns each that has a dash or a capital inside, wherever it stands:
in .antt files, in the ghost parts of .rt files, in must-fail edits and, between backticks, in pages. Names of the library, of Rattle's
own making and of the code stay. It turns the clauses that must-fail edits quote as port.py turned those of the files.
"""
import collections
import os
import re
import sys

WORD = re.compile(r"[^\s(){}\[\],.;:\"`«»]+")
DECLARED = re.compile(r"^\s*(?:(?:abbrev|unfoldable|pub|data|record)\s+)*([^\s(){}:]+(?:\s+[^\s(){}:]+)*)\s*(?:\([^:]*:[^)]*\)\s*)*:\s")
BOUND = re.compile(r"\blet ([^\s(){}:]+)(?: :| =)")
USED = re.compile(r"^use ([^\s{]+)\.\{(.*)\}$")
# A fact is in camel case; and two pairs of names would fall together.
CHOSEN = {"fitsIn": "FitsIn", "rule-of": "rule_from", "branchFacts": "facts_of_branches"}

DECLARED_NOW = set()


def files(*endings):
    for folder, dirs, names in os.walk("."):
        dirs[:] = sorted(d for d in dirs if d not in (".git", "out", "target", "build"))
        for name in sorted(names):
            if name.endswith(endings):
                yield os.path.join(folder, name)


def read(path):
    with open(path, encoding="utf-8") as f:
        return f.read()


def of_a_function(path):
    return path.endswith("/Proof.antt")


def snake(name):
    if name in CHOSEN:
        return CHOSEN[name]
    if name.startswith("◌") or name.endswith("◌"):
        return name
    new = name
    if name[:1].islower():
        new = re.sub(r"(?<=[a-z0-9])([A-Z])", lambda m: "_" + m.group(1).lower(), new)
    return re.sub(r"(?<=[^-])-(?=[^-])", "_", new)


def names():
    own, foreign = set(), set()
    for path in files(".antt"):
        for line in read(path).splitlines():
            if line.lstrip().startswith("--"):
                continue
            used = USED.match(line.strip())
            if used:
                if not re.match(r"Rattle\.(?!std\b)\w+\.(specs|proofs)\b", used.group(1)) or ".declared." in used.group(1):
                    foreign.update(w.strip().split(" as ")[0] for w in used.group(2).split(","))
                own.update(re.findall(r" as ([^\s,}]+)", line))
                continue
            if of_a_function(path):
                continue
            declared = DECLARED.match(line)
            if declared:
                own.update(declared.group(1).split())
            own.update(BOUND.findall(line))
            own.update(w for w in WORD.findall(re.sub(r"--.*", "", line)) if re.fullmatch(r"[\w']+(-[\w']+)+", w))
    return {n: snake(n) for n in own - foreign if snake(n) != n}, {snake(n) for n in own}


def turn(text, turned):
    return WORD.sub(lambda m: turned.get(m.group(0), m.group(0)), text)


def of_code(text, turned):
    """The ghost lines and the clauses of a source: code has no name with a dash, and no definition's name in its own spelling."""
    out, inside = [], False
    for line in text.splitlines(keepends=True):
        clause = re.match(r"\s*(requires|ensures)\b", line)
        inside = inside or bool(clause)
        out.append(turn(line, turned) if inside or line.startswith("ghost use") else line)
        if inside and line.rstrip().endswith("}"):
            inside = False
    return "".join(out)


def of_edit(text, turned):
    """An edit's texts, with the clauses that port.py turned in the files."""
    out = []
    for line in text.splitlines(keepends=True):
        if line.startswith(("old: ", "new: ")):
            line = re.sub(r"\(([^\s()]+) \.(\w+)\)", r"\1.\2", line)
            line = re.sub(r"(?<=[\w)]) \.(?=\w)", ".", line)
            line = re.sub(r"(?<=: )_([^\w\s])_(?= )", r"◌\1◌", line)
            line = line.replace("getD", "get_or")
            line = turn(line, turned)
        out.append(line)
    return "".join(out)


def of_page(text, turned):
    """A page's names: between backticks also those that port.py turned, which no file has any more."""

    def word(m):
        old = m.group(0)
        return turned.get(old) or (snake(old) if snake(old) in DECLARED_NOW else old)

    return re.sub(r"`[^`\n]+`", lambda m: WORD.sub(word, m.group(0)), text)


def main():
    turned, declared = names()
    DECLARED_NOW.update(declared)
    fell = collections.defaultdict(set)
    for old, new in turned.items():
        fell[new].add(old)
    for new, olds in sorted(fell.items()):
        if len(olds) > 1:
            print("fall together:", new, sorted(olds))
    for path in files(".antt"):
        words = set(WORD.findall(re.sub(r"--.*", "", read(path))))
        for old in sorted(words & set(turned)):
            if turned[old] in words:
                print("also there:", path, old, turned[old])
    if "--dry" in sys.argv:
        print(len(turned), "names")
        for old in sorted(turned):
            print(old, turned[old])
        return
    for path in files(".antt", ".rt", ".edit", ".md"):
        text = read(path)
        how = {".antt": turn, ".edit": of_edit, ".md": of_page}.get(os.path.splitext(path)[1], of_code)
        new = how(text, turned)
        if new != text:
            with open(path, "w", encoding="utf-8") as f:
                f.write(new)
    print(len(turned), "names turned")


main()
