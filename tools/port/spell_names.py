#!/usr/bin/env python3
"""Spells the repository's own definitions and lemmas as today's Rattle does: snake case, types and modules in camel case.

usage: python3 tools/port/spell_names.py [--check]        at the top of the repository, once, after port.py

A name of specs/ or proofs/ in lower camel case gets underscores, as linkNumber does: link_number. A dash stays where it joins two definitions of specs/ or two
words of the library, as in `length-joined_length`, and is an underscore elsewhere. A lemma that would then have another name's spelling ends in _lem.
It turns whole names alone: in .antt files, in the clauses, ghost items and comments of .rt files, in must-fail edits, and in code spans of pages. Names of Rust
functions, exported names and strings stay. --check prints the table and writes nothing.
"""

import os
import re
import subprocess
import sys

NAME = r'[^\s(){}.;,@"«»`]+'
DECLARED = re.compile(r"(?m)^( *)((?:(?:pub|abbrev|unfoldable|axiom) )*)(" + NAME + r")(?: \{[^{}\n]*\})* :(?= )")
GOAL = re.compile(r"(?m)^(" + NAME + r") : (?:tie\.|\{M : Type 1\} → statement)")
CLAUSE_WORDS = re.compile(r"(?m)^use (?:Rattle\.std|Prim|mathlib|lib)\.\S*\.\{([^}]*)\}")
STRING = re.compile(r'"(?:[^"\\\n]|\\.)*"')


def tracked(*endings):
    files = subprocess.run(["git", "ls-files", "-z"], capture_output=True, check=True).stdout.decode().split("\0")
    return [f for f in files if f.endswith(endings) and os.path.isfile(f)]


def read(path):
    with open(path, encoding="utf-8", newline="") as it:
        return it.read()


def in_snake_case(name):
    return re.sub(r"(?<=[a-z0-9₀-₉])[A-Z]", lambda m: "_" + m[0].lower(), name)


def table():
    """Each name that changes, with its new spelling."""
    defined, declared, words = set(), set(), set()
    for path in tracked(".antt"):
        text = read(path)
        for items in CLAUSE_WORDS.findall(text):
            words.update(it for it in re.findall(NAME, items) if "-" not in it)
        goals = set(GOAL.findall(text)) if path.endswith("Proof.antt") else set()
        for indent, _, name in DECLARED.findall(text):
            if name in goals or not re.match(r"[a-z]", name):
                continue
            declared.add(name)
            if "/specs/" in path and not indent:
                defined.add(name)
    parts = words | {in_snake_case(it) for it in defined if "-" not in it}

    def spelled(name):
        each = [in_snake_case(it) for it in name.split("-")]
        new = each[0]
        for before, after in zip(each, each[1:]):
            new += ("-" if before in parts and after in parts else "_") + after
        return new

    new = {it: spelled(it) for it in declared}
    # definitions take a spelling first, those of specs/ before others, then the names that keep theirs, then the others in order
    taken, result = set(), {}
    order = sorted(declared, key=lambda it: (it not in defined, not re.search("[A-Z]", it), it != new[it], it))
    for name in order:
        to = new[name]
        if to in taken:
            to += "_lem"
        while to in taken:
            to += "'"
        taken.add(to)
        if to != name:
            result[name] = to
    return result


def turned(text, names):
    def one(m):
        new = names.get(m[0], m[0])
        # behind a dot or before one such a name is a Rust function's
        is_path = text[m.start() - 1 : m.start()] == "." or text[m.end() : m.end() + 1] == "."
        return m[0] if new.endswith("_lem") and is_path else new

    return re.sub(NAME, one, text)


def outside_strings(text, names):
    parts, at = [], 0
    for it in STRING.finditer(text):
        parts += [turned(text[at : it.start()], names), it[0]]
        at = it.end()
    return "".join(parts) + turned(text[at:], names)


def main():
    names = table()
    if "--check" in sys.argv:
        for old in sorted(names):
            print(old, names[old], sep="\t")
        return
    for path in tracked(".antt", ".rt", ".edit", ".md"):
        old = read(path)
        if path.endswith(".md"):
            new = re.sub(r"`[^`\n]+`", lambda m: turned(m[0], {k: v for k, v in names.items() if re.search("[A-Z]|-", k)}), old)
        elif path.endswith(".antt"):
            new = outside_strings(old, names)
        elif path.endswith(".rt"):
            new = outside_strings(old, {k: v for k, v in names.items() if re.search("[A-Z]|-", k)})
        else:
            new = turned(old, names)
        if new != old:
            with open(path, "w", encoding="utf-8", newline="") as it:
                it.write(new)


main()
