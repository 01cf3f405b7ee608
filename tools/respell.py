#!/usr/bin/env python3
"""Brings the names of this repository's definitions and lemmas to today's spelling, once.

usage: python3 tools/respell.py [--list]     at the top, right after /opt/rattle/port/port.py

A function of specs/ or proofs/ whose name was in camel case, and a lemma whose words a dash joined, get snake case.
A dash stays where it joins the names of two functions (KEPT). A name that states a fact keeps its capitals.
Names of src/, text between quotes, comments, inputs and outputs stay. Answers to goals keep the goals' names.
--list prints the old and the new names and changes nothing.
"""

import glob
import re
import sys

# a dash between two functions' names
KEPT = {"length-nodes", "pairs-append", "run-append"}
# names that the rule would not give
OWN = {"Declaration-of": "DeclarationOf"}
# what Rattle asks for by name
ASKED = re.compile(r"^(returns|decreases|invariant|overflow|loop|nonzero|bounds|slice-bounds|ghost|goal|need)-|-(requires|ensures|preserved|init|smaller)(-|$)")
DEFINED = re.compile(
    r"^[ \t]*(?:abbrev |unfoldable |pub |data |record |ruleset |mutual )*([^\s(){}:;,]+)[ \t]+(?:\([^)\n]*\)[ \t]*|\{[^}\n]*\}[ \t]*)*:[ \t]",
    re.M,
)
LETTER = r"[\w'\-≡≢≤<≥∷⊎ℕ◌]"


def files():
    for pattern in ("crates/*/specs/**/*.antt", "crates/*/proofs/**/*.antt", "crates/*/src/**/*.rt"):
        yield from sorted(glob.glob(pattern, recursive=True))


def snake(name):
    return re.sub(r"(?<=[a-z0-9])([A-Z])", r"_\1", name).lower().replace("-", "_")


def renamed():
    found = {}
    for path in files():
        if path.endswith(".rt"):
            continue
        answers = path.endswith(("Answers.antt", "Invariants.antt", "Proof.antt"))
        with open(path, encoding="utf-8") as f:
            text = f.read()
        for m in DEFINED.finditer(text):
            name = m.group(1)
            if name in KEPT or (answers and ASKED.search(name)) or ASKED.search(name):
                continue
            if name in OWN:
                found[name] = OWN[name]
            elif name[0].islower() and (re.search(r"[a-z0-9][A-Z]", name) or "-" in name):
                found[name] = snake(name)
    # a lemma that would have its function's name
    functions = {new for old, new in found.items() if "-" not in old}
    for old, new in found.items():
        if "-" in old and new in functions:
            found[old] = new + "_lem"
    return found


def parts(text, path):
    """The text in pieces, each with whether names in it are turned."""
    if path.endswith(".rt"):
        skip = re.compile(r"//[^\n]*|b?\"(?:[^\"\\\n]|\\.)*\"|b?'(?:[^'\\\n]|\\.)'")
    else:
        skip = re.compile(r"(?:(?<=\s)|^)--[ \n][^\n]*|\"[^\"\n]*\"", re.M)
    at = 0
    for m in skip.finditer(text):
        yield text[at : m.start()], True
        yield m.group(0), False
        at = m.end()
    yield text[at:], True


def main():
    names = renamed()
    if "--list" in sys.argv:
        for old, new in sorted(names.items()):
            print(old, new)
        return
    pattern = re.compile(
        "(?<!" + LETTER[1:-1].join("[]") + ")(" + "|".join(re.escape(n) for n in sorted(names, key=len, reverse=True)) + ")(?!" + LETTER + ")"
    )
    for path in files():
        with open(path, encoding="utf-8") as f:
            text = f.read()
        new = "".join(pattern.sub(lambda m: names[m.group(1)], p) if turn else p for p, turn in parts(text, path))
        if new != text:
            with open(path, "w", encoding="utf-8") as f:
                f.write(new)


if __name__ == "__main__":
    main()
