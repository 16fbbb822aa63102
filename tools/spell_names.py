#!/usr/bin/env python3
"""Spells this repository's own definitions and lemmas as today's Rattle does: words in snake case, types and modules in camel case.

usage: python3 tools/spell_names.py      at the top of the repository, once, after port.py

A dash joins two names and is kept where both sides are names of definitions or of a type; a plain word is joined by an underscore.
A lemma that would have its definition's name ends in _lem. Functions of src/, strings, inputs and outputs keep their names.
It rewrites specs/, proofs/, the clauses of src/, the must-fail edits and the names between back-ticks in README and docs/.
"""
import collections
import glob
import os
import re
import subprocess

W = r"[^\s(){}.;,@\"«»\[\]\\λ`]+"
TOKEN = re.compile(r"--[^\n]*|\"(?:[^\"\\]|\\.)*\"|" + W)
DECLARED = re.compile(r"^(\s*)(?:(?:unfoldable|abbrev|pub|private|data|record|ruleset|opaque)\s+)*(" + W + r")\s*:(?:\s|$)")
HEAD = re.compile(r"^\s*(?:pub\s+)?(?:record|data|ruleset|abbrev|unfoldable)\s+(?:pub\s+)?(" + W + ")")
# Both sides are names.
JOINED = set(
    "IsCode-left Nearer-wf get_or-added get_or-from get_or-withBid get_or-wrap getD-added getD-from getD-withBid getD-wrap length-added length-five"
    " length-withBid length-wrap length-row length-with length-next mwAt-added past-withBid drop-take sets-append rows-set rows-length eqb-sym"
    " sum-snoc".split()
)
# Lemmas that port.py spelled as a definition is spelled now: the old name, the new one, and the files.
TAKEN = [
    ("is_read", "is_read_lem", ["dayrun_settled/proofs/"]),
    ("map_at", "map_at_lem", ["stores/proofs/"]),
    ("no_kind", "no_kind_lem", ["fields/proofs/"]),
    ("side_after", "side_after_lem", ["rules/proofs/"]),
    ("with_pair", "with_pair_lem", ["stores/proofs/"]),
]
# The same lemma under the name that mathlib gives it.
KEPT = {"and-false", "or-true"}
# Fields of records, whose names no definition of the file has.
FIELDS = {"of-profile": ["rules/specs/Cuts.antt", "rules/proofs/Cuts.antt"]}


def code(line):
    at = line.find("--")
    return line if at < 0 else line[:at]


def read(path):
    with open(path, encoding="utf-8") as f:
        return f.read()


def snake(name):
    return re.sub(r"([a-z0-9])([A-Z])", lambda m: m[1] + "_" + m[2].lower(), name)


def lemma_files():
    return sorted(glob.glob("crates/*/specs/*.antt") + glob.glob("crates/*/proofs/*.antt"))


def function_files():
    return sorted(set(glob.glob("crates/*/proofs/**/*.antt", recursive=True)) - set(lemma_files()))


def table():
    names = set()
    for path in lemma_files():
        for line in read(path).splitlines():
            for found in (DECLARED.match(code(line)), HEAD.match(code(line))):
                if found:
                    names.add(found[found.lastindex])
    new = {}
    for name in sorted(names):
        if name[0].isupper() or name in KEPT or name == ".":
            continue
        to = snake(name.replace("getD", "get_or")) if name in JOINED else snake(name).replace("-", "_")
        if to != name:
            new[name] = to
    at = collections.defaultdict(list)
    for name, to in new.items():
        at[to].append(name)
    taken = {old for old, _, _ in TAKEN}
    for to, olds in at.items():
        if len(olds) > 1 or (to in names and to not in taken):
            for old in olds:
                if "-" in old:
                    new[old] = to + "_lem"
    return new


def turn(text, new, comments):
    def one(m):
        it = m[0]
        if it.startswith("--"):
            return re.sub(W, lambda n: new[n[0]] if n[0] in new and "-" not in n[0] else n[0], it) if comments else it
        if it.startswith('"'):
            return it
        return new.get(it, it)

    return TOKEN.sub(one, text)


def of_rust(text, new):
    """Names in clauses and ghost uses: no dashed name stands in code, and no camel-case word of the code begins with a small letter."""
    camel = {a: b for a, b in new.items() if "-" not in a}
    return re.sub(r"(?<![\w·'-])([a-z]\w*[A-Z]\w*)(?![\w'-])", lambda m: camel.get(m[1], m[1]), text)


def of_page(text, new, known):
    """Also names that port.py turned: those that nothing declares any more, and that stand with underscores."""

    def one(n):
        to = new.get(n[0], n[0])
        plain = snake(to).replace("-", "_")
        return plain if to not in known and plain in known and plain + ".edit" not in known else to

    return re.sub(r"`([^`\n]+)`", lambda m: "`" + re.sub(r"[A-Za-z][\w'-]*", one, m[1]) + "`", text)


def main():
    new = table()
    fixed = [(old, to, where) for old, to, where in TAKEN]
    for path in lemma_files() + function_files():
        text = read(path)
        local = dict(new)
        for old, to, where in fixed:
            if any(path.startswith("crates/" + w) for w in where):
                local[old] = to
        for old, where in FIELDS.items():
            if path[len("crates/"):] in where:
                local[old] = snake(old).replace("-", "_")
        to = turn(text, local, True)
        if to != text:
            with open(path, "w", encoding="utf-8") as f:
                f.write(to)
    for path in sorted(glob.glob("crates/*/src/**/*.rt", recursive=True)):
        text = read(path)
        to = of_rust(text, new)
        if to != text:
            with open(path, "w", encoding="utf-8") as f:
                f.write(to)
    for path in sorted(glob.glob("crates/*/must-fail/*.edit")):
        lines = []
        target = ""
        for line in read(path).splitlines(keepends=True):
            if line.startswith("file:"):
                target = line.split(":", 1)[1].strip()
            if line.startswith(("old:", "new:")):
                line = of_rust(line, new) if target.endswith(".rt") else line[:4] + turn(line[4:], new, True)
            lines.append(line)
        with open(path, "w", encoding="utf-8") as f:
            f.write("".join(lines))
    known = {m[0] for path in lemma_files() for m in TOKEN.finditer(read(path))}
    for path in ["README.md"] + sorted(p for p in glob.glob("docs/*.md") if "PORT" not in p):
        text = read(path)
        to = of_page(text, new, known)
        if to != text:
            with open(path, "w", encoding="utf-8") as f:
                f.write(to)


if __name__ == "__main__":
    main()
