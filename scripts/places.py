#!/usr/bin/env python3
"""Counts in the sources the places that docs/DESIGN-PASS.md speaks of, point by point.

Usage: scripts/places.py [-v]
With -v each place is printed. Comments and clauses are not looked at, but for the parameters that a function has.
"""
import glob
import itertools
import os
import re
import sys

TOP = os.path.join(os.path.dirname(os.path.abspath(__file__)), "..")

# A line of source, by what it shows: each pattern finds places of one kind.
LINES = [
    ("1 enums", r"^(pub(\(crate\))? )?enum \w+"),
    ("1 enums with a case that carries nothing beside one that does", None),
    ("1 flags beside a value", r"^    (pub )?(in_range|known|there|closed|failed): bool,"),
    (
        "1 numbers for refusals",
        r"\bnumber: u8|Refused\((u8|[0-9]|number|k\b)|\b(refused|refused_at|not_listed|not_saved|not_loaded|unweighed)\([0-9]|\bnumber [!=]= 0",
    ),
    ("1 no value told by 0 or a great number", r"\b(size|own|kind|short) [!=]= 0|NO_NUMBER|NO_WORD"),
    ("3 loops by hand", r"\b(while|loop)\b"),
    ("3 loops by `for` or an iterator", r"\bfor .* in |\.iter\(\)"),
    ("4 conversions, comparisons and printing by name", r"\bfn (number_of|line_of|numbered|agrees|store_counts|with_counts|read_record|write_\w+|print_\w+|tell_\w+|greater|lesser)\b"),
    ("4 derives", r"^#\[derive\("),
    ("7 switches on a step", r"\b(Run|Source)::\w+ =>|\b(direct|array|sound|nested): bool"),
]

# Parameters that travel together.
TOGETHER = [
    ("names", "values", "store"),
    ("part", "offset", "names"),
    ("line", "fresh"),
    ("front", "last"),
]

# Buffers with a length or a place beside.
BESIDE = [
    ("names", "size"),
    ("out", "n"),
    ("frames", "depth"),
    ("fresh", "f"),
    ("s", "at"),
    ("line", "at"),
]


def sources():
    """The sources, by path, without comments and clauses."""
    for path in sorted(glob.glob(os.path.join(TOP, "crates/*/src/*.rt"))):
        text = open(path).read()
        text = re.sub(r"//.*", "", text)
        text = re.sub(r"^ghost use .*$", "", text, flags=re.M)
        yield os.path.relpath(path, TOP), text


def functions(text):
    """The names of functions in a source, each with the names of its parameters."""
    for m in re.finditer(r"\bfn (\w+)(?:<[^>(]*>)?\(([^)]*)\)", text, re.S):
        names = [p.split(":")[0].replace("mut ", "").strip() for p in m.group(2).split(",") if p.strip()]
        yield m.group(1), names


def shaped(text):
    """The enums with a case that carries nothing beside one that does: those that may be an Option or a Result."""
    for m in re.finditer(r"^(?:pub(?:\(crate\))? )?enum (\w+) \{(.*?)^\}", text, re.S | re.M):
        cases = [c.strip() for c in re.split(r",\n", m.group(2)) if c.strip()]
        bare = [c for c in cases if "(" not in c]
        if cases and len(cases) <= 5 and (bare and len(bare) < len(cases) or re.search("Refused|NotRead", m.group(2))):
            yield m.group(1)


def main():
    """Prints the counts, and with -v the places."""
    say = "-v" in sys.argv[1:]
    found = {}

    def add(kind, place):
        found.setdefault(kind, []).append(place)

    names = {}
    for path, text in sources():
        for number, line in enumerate(text.split("\n"), 1):
            for kind, pattern in LINES:
                if pattern and re.search(pattern, line):
                    add(kind, f"{path}:{number}: {line.strip()}")
        for name in shaped(text):
            add(LINES[1][0], f"{path}: {name}")
        for name, parameters in functions(text):
            names.setdefault(name, set()).add(path)
            if len(parameters) >= 5:
                add("5 functions with five parameters or more", f"{path}: {name}")
            for group in TOGETHER:
                if set(group) <= set(parameters):
                    add("5 functions that take " + ", ".join(group), f"{path}: {name}")
            for pair in BESIDE:
                if set(pair) <= set(parameters):
                    add("6 functions that take " + " with ".join(pair), f"{path}: {name}")
    for name, paths in sorted(names.items()):
        if len(paths) > 1 and name not in ("main", "run"):
            add("2 names that functions of several files share", f"{name}: {len(paths)} files")
    for path in sorted(glob.glob(os.path.join(TOP, "crates/*/proofs/**/Answers.antt"), recursive=True)):
        for line in open(path):
            if re.match(r"[a-z][\w-]* (\w+ )*c\b.*=", line) or re.match(r"[a-z][\w-]* c$", line):
                add("8 answers", os.path.relpath(path, TOP) + ": " + line.strip())
        add("8 files of answers", os.path.relpath(path, TOP))
    for kind in sorted(found):
        print(f"{len(found[kind]):5}  {kind}")
        if say:
            for place in found[kind]:
                print("         " + place)


if __name__ == "__main__":
    main()
