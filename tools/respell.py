#!/usr/bin/env python3
"""Spells this repository's own definitions and lemmas as today's library does: types in upper camel
case, all other names in snake case. Run once, after the kit's port.py, at the top of the repository.

usage: python3 tools/respell.py [--list]

--list prints the old and new names and writes nothing. Names of Rust source, of goals, of local
variables and of the library stay.
"""

import os
import re
import sys

# where the plain spelling is taken by another name
GIVEN = {"sides-read": "sides_there"}

GENERATED = re.compile(r"^(returns|loop|invariant|decreases|overflow|bounds|slice|offset|shared|unreachable)-|-requires(-\d+)?$|-(preserved|init|smaller)$")
DECLARES = re.compile(r"^\s*(?:(?:pub|abbrev|unfoldable|record|data|opaque|ruleset)\s+)*([^\s:(){}.,;=]+)\s*(?::|\(|\{|$)")
MODIFIED = re.compile(r"^\s*(?:(?:pub|abbrev|unfoldable|record|data|opaque|ruleset)\s+)+([^\s:(){}.,;=]+)")


def files(root):
    for folder, dirs, names in os.walk(os.path.join(root, "crates")):
        dirs[:] = sorted(d for d in dirs if d not in ("out", ".git"))
        for name in sorted(names):
            if name.endswith((".antt", ".rt")):
                yield os.path.join(folder, name)


def declared(root):
    """The names that the repository's .antt files declare, without those of goals."""
    found = set()
    for path in files(root):
        if not path.endswith(".antt"):
            continue
        with open(path, encoding="utf-8") as f:
            for line in f:
                if re.search(r":\s*goal\.", line) or line.lstrip().startswith(("use ", "--", "let ", "λ", "mod ", "pub mod ", "module ")):
                    continue
                m = MODIFIED.match(line) or re.match(r"^\s*([^\s:(){}.,;=]+) :(?: |$)", line)
                if m:
                    found.add(m.group(1))
    return found


def snake(name):
    name = re.sub(r"(?<=[a-z0-9])([A-Z])", lambda m: "_" + m.group(1).lower(), name)
    return name.replace("-", "_")


def camel(name):
    return "".join(part[:1].upper() + part[1:] for part in name.split("-"))


def respelled(name):
    if name in GIVEN:
        return GIVEN[name]
    if not re.match(r"^[A-Za-z][\w'-]*$", name) or GENERATED.search(name):
        return name
    if name[0].isupper():
        return camel(name)
    return snake(name)


def main():
    root = os.getcwd()
    names = {n: respelled(n) for n in declared(root)}
    taken = {}
    for old, new in names.items():
        taken.setdefault(new, []).append(old)
    for new, olds in taken.items():
        # a lemma with its function's name: the function was in camel case
        functions = [old for old in olds if "-" not in old and old != new]
        if len(olds) == 2 and len(functions) == 1:
            (lemma,) = [old for old in olds if old not in functions]
            names[lemma] = new + "_lem"
        elif len(olds) == 2 and new in olds:
            (lemma,) = [old for old in olds if old != new]
            names[lemma] = new + "_lem"
    turned = {old: new for old, new in names.items() if old != new}
    back = {}
    for old, new in turned.items():
        back.setdefault(new, []).append(old)
    clashes = {new: olds for new, olds in back.items() if len(olds) > 1 or names.get(new) == new}
    if clashes:
        sys.exit(f"respell: names fall together: {clashes}")
    if "--list" in sys.argv:
        for old in sorted(turned):
            print(old, turned[old])
        return
    words = re.compile(r"(?<![\w'-])(?:" + "|".join(sorted(map(re.escape, turned), key=len, reverse=True)) + r")(?![\w'-])")
    for path in files(root):
        with open(path, encoding="utf-8") as f:
            text = f.read()
        if path.endswith(".antt"):
            new = words.sub(lambda m: turned[m.group(0)], text)
        else:
            new = respell_source(text, words, turned)
        if new != text:
            with open(path, "w", encoding="utf-8") as f:
                f.write(new)


def respell_source(text, words, turned):
    """Only in ghost imports and in the clauses of Rust source."""
    out = []
    for line in text.split("\n"):
        if re.match(r"\s*(ghost |pub ghost |requires|ensures|fn |pub )", line) and ("ghost" in line or "requires" in line or "ensures" in line):
            line = words.sub(lambda m: turned[m.group(0)], line)
        out.append(line)
    return "\n".join(out)


main()
