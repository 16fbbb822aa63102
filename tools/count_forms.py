#!/usr/bin/env python3
"""Lists the places of docs/DESIGN-PASS.md in src/, of a commit or of the working tree.

    python3 tools/count_forms.py [COMMIT]

What a line of the code can show is found by its text alone; the page says what was found by reading.
"""
import re, subprocess, sys, pathlib

PATTERNS = [
    ("1 enums", r"^(pub )?enum "),
    ("1 an answer beside its value", r"^ +(pub )?answer: Answer,"),
    ("1 numbers for kinds and states", r"^(pub )?const [A-Z_0-9]+: (u8|usize) = "),
    ("2 functions for a direction and for a profile", r"^ *(pub )?fn \w*(direction|profile)\w*\("),
    ("2 tests for a full table", r"^ *(pub )?fn \w*_?full\("),
    ("3 loops that count by hand", r"^ *while "),
    ("3 loops over a range of numbers", r"^ *('\w+: )?for \w+ in [^{]*\.\."),
    ("4 comparisons, conversions and printing by hand", r"^ *(pub )?fn (same\w*|is_same\w*|less|lesser|numbers?|numbers?_of|number_at|hex_digit|put_\w+|print_\w+|fields_of|call_of|text|word|fill|part)\b"),
    ("5 functions that ask something of their callers", r"^ *requires\b"),
    ("5 functions of more than four parameters", None),
    ("6 arrays and texts with a position or a count beside them", r"^ *(pub )?(fn .*\b(at|from|count|to): usize|count: usize|filled: usize|from: usize|to: usize)"),
    ("7 tables of functions, functions taken as values", r"\b(dyn |impl Fn|fn\()"),
]


def files(commit):
    if commit is None:
        for path in sorted(pathlib.Path("crates").glob("*/src/*.rt")):
            yield str(path), path.read_text()
        return
    names = subprocess.run(["git", "ls-tree", "-r", "--name-only", commit], capture_output=True, text=True, check=True).stdout.split()
    for name in names:
        if re.match(r"crates/\w+/src/\w+\.rt$", name):
            yield name, subprocess.run(["git", "show", f"{commit}:{name}"], capture_output=True, text=True, check=True).stdout


def signatures(text):
    for match in re.finditer(r"^ *(?:pub )?fn (\w+)(?:<[^>]*>)?\(([^)]*)\)", text, re.M):
        count = len([part for part in match[2].split(",") if part.strip()])
        yield text[: match.start()].count("\n") + 1, match[1], count


def main():
    sources = list(files(sys.argv[1] if len(sys.argv) > 1 else None))
    for title, pattern in PATTERNS:
        found = []
        for name, text in sources:
            if pattern is None:
                found += [f"{name}:{line}: {fn}, {count}" for line, fn, count in signatures(text) if count > 4]
            else:
                for number, line in enumerate(text.split("\n"), 1):
                    if re.search(pattern, line):
                        found.append(f"{name}:{number}: {line.strip()}")
        print(f"## {title}: {len(found)}")
        for line in found:
            print("  " + line)


main()
