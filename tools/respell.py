#!/usr/bin/env python3
"""Brings the repository's own definitions and lemmas to the spelling of today's Rattle: words and lemmas in snake case, types and facts in camel case.

usage: respell.py        at the top of the repository, once, after the kit's port.py
       respell.py --list prints each name and what it becomes, and writes nothing

    letter-or-digit?  ->  letter_or_digit?        With-digit  ->  WithDigit

A name is taken where an .antt file of the repository has it and does not import it from the kit. Names of src/, strings and inputs stay as they are. In
comments and pages a name is turned between backticks alone. It stops, with nothing written, where two names would fall together.
"""

import collections
import os
import re
import sys

NAME = re.compile(r"(?<![\w?'\-·])[A-Za-zℕ_][A-Za-z0-9_?'₀-₉ℕ]*(?:-[A-Za-z0-9_?'₀-₉ℕ]+)+(?![\w?'])")
CAPITAL = re.compile(r"(?<![\w?'\-·])[A-Z][A-Za-z0-9?'₀-₉]*(?:_[A-Za-z0-9?'₀-₉]+)+(?![\w?'\-])")
USE = re.compile(r"^\s*(?:pub |ghost )*use ([\w.+ℕ']+)\.\{([^}]*)\}", re.M)
# What the kit's scripts gave a capital, though it is no type.
OTHERWISE = {"Line-kept": "this_kept"}
# Names of the kit that are named by their module, with no import.
KITS = {"not-nil"}
PIECE = re.compile(r'"(?:[^"\\\n]|\\.)*"|--[^\n]*|//[^\n]*')
TICKED = re.compile(r"`[^`\n]*`")


def own(module):
    return module.startswith("Rattle.") and not module.startswith("Rattle.std.")


def files(top, *ends):
    for folder, below, names in os.walk(top):
        below[:] = sorted(d for d in below if d not in ("out", ".git", "must-fail", "target", "data"))
        for name in sorted(names):
            if name.endswith(ends):
                yield os.path.join(folder, name)


def read(path):
    with open(path, encoding="utf-8") as it:
        return it.read()


def bare(text):
    """The text without its strings and comments."""
    return PIECE.sub(lambda it: '""' if it[0].startswith('"') else "", text)


def from_kit(text):
    """The names that a file imports from the kit."""
    return {name for it in USE.finditer(text) if not own(it[1]) for name in re.split(r"[,\s]+", it[2])}


def turned(name):
    """What a name becomes: camel case after a capital, else snake case."""
    if name in OTHERWISE:
        return OTHERWISE[name]
    if name[0].isupper():
        return "".join(part[0].upper() + part[1:] for part in re.split("[-_]", name) if part)
    return name.replace("-", "_")


def table():
    """Each own name that changes, with what it becomes; and every name that is declared."""
    found, kept = set(), set()
    for path in files("crates", ".antt"):
        if os.path.basename(path) == "Proof.antt":
            continue
        text = read(path)
        names = set(NAME.findall(bare(text))) | set(CAPITAL.findall(bare(text)))
        kit = from_kit(text)
        kept |= kit
        found |= names - kit - KITS
    declared = set()
    for path in files("crates", ".antt"):
        for line in bare(read(path)).split("\n"):
            if not USE.match(line):
                it = re.match(r"\s*(?:(?:pub|abbrev|unfoldable|data|record) )*([^\s:({]+(?: [^\s:({]+)*)(?: [({].*?)? : ", line)
                declared |= set(it[1].split()) if it else set()
    return {name: turned(name) for name in sorted(found) if name not in kept or name in declared}, declared


def clashes(names, declared):
    """The names that fall together: two that become one, or one that becomes a name that is declared already."""
    became = collections.defaultdict(set)
    for old, new in names.items():
        became[new].add(old)
    return [(sorted(olds), new) for new, olds in became.items() if len(olds) > 1 or new in declared]


def respelled(text, names, whole):
    """The text with each name turned: everywhere but in strings and comments, or between backticks alone."""
    turn = lambda t: CAPITAL.sub(lambda it: names.get(it[0], it[0]), NAME.sub(lambda it: names.get(it[0], it[0]), t))
    ticked = lambda t: TICKED.sub(lambda it: turn(it[0]), t)
    if not whole:
        return ticked(text)
    out, at = [], 0
    for it in PIECE.finditer(text):
        out += [turn(text[at : it.start()]), it[0] if it[0].startswith('"') else ticked(it[0])]
        at = it.end()
    return "".join(out) + turn(text[at:])


def main():
    names, declared = table()
    bad = clashes(names, declared)
    for olds, new in bad:
        print("falls together:", " ".join(olds), "->", new, file=sys.stderr)
    if sys.argv[1:] == ["--list"]:
        for old, new in names.items():
            print(f"{old}\t{new}")
        return 0
    if bad:
        return 1
    changed = 0
    for path in list(files("crates", ".antt", ".rt")) + list(files(".", ".md")):
        text = read(path)
        here = {old: new for old, new in names.items() if old not in from_kit(text)}
        new = respelled(text, here, path.endswith((".antt", ".rt")))
        if new != text:
            with open(path, "w", encoding="utf-8") as it:
                it.write(new)
            changed += 1
    print(f"{len(names)} names, {changed} files")
    return 0


if __name__ == "__main__":
    raise SystemExit(main())
