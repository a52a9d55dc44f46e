#!/usr/bin/env python3
"""Brings the repository's own definitions and lemmas to today's spelling: words in snake case, types and
propositions that begin with a capital in camel case. Run once, at the top, after the kit's own port script.

Only names that the repository declares are turned, in clauses, ghost items, specs and proofs; comments,
strings, functions of src/ and names that the check makes stay."""

import os
import re
import sys

TOKEN = re.compile(r"(?<![\w'\-])[A-Za-z_][\w']*(?:-[\w']+)+")
DECLARED = re.compile(
    r"^\s*(?:(?:abbrev|unfoldable|pub|by|record|data)\s+)*([A-Za-z_][\w']*(?:-[\w']+)+)\s*(?=[:({]|$|where)"
)
GOAL = re.compile(r"\s*:\s*(?:goal|need)\.")
LIBRARY = re.compile(r"^\s*(?:ghost )?use (?:Rattle\.std|mathlib|native|lib|Prim)\.")
IMPORTED = re.compile(r"([\w'\-]+) as ([A-Za-z_][\w']*(?:-[\w']+)+)")

# Names that would fall together with a function of the same module or a word of the library.
OWN = {
    "all-named": "all_are_named",
    "choices-needed": "needed_choices",
    "room-needed": "needed_room",
    "left-first": "first_left",
    "value-for": "value_that_holds",
    "value-against": "value_that_fails",
    "bit-and": "bit_of_and",
    "bit-or": "bit_of_or",
    "bit-xor": "bit_of_xor",
    "layer-samples": "samples_of_layers",
}


def files():
    for root, dirs, names in os.walk("crates"):
        dirs[:] = sorted(d for d in dirs if d != "out")
        for name in sorted(names):
            if name.endswith((".rt", ".antt")):
                yield os.path.join(root, name)


def code_of(path, line):
    """The part of a line before its comment."""
    found = re.search(r"//" if path.endswith(".rt") else r"(^|\s)--(\s|$)", line)
    return len(line) if found is None else found.start()


def respelled(name, after_dot=False):
    """After a dot a name is a field or a step of a proof, and never a definition."""
    if name in OWN and not after_dot:
        return OWN[name]
    if name[0].isupper():
        return "".join(part[:1].upper() + part[1:] for part in name.split("-"))
    return name.replace("-", "_")


def own_names():
    found, others = set(), set()
    for path in files():
        if not path.endswith(".antt"):
            continue
        for line in open(path, encoding="utf-8"):
            line = line[: code_of(path, line)]
            if LIBRARY.match(line):
                others.update(re.sub(r" as [\w'\-]+", "", name) for name in TOKEN.findall(line))
                continue
            declared = DECLARED.match(line)
            if declared:
                (others if GOAL.match(line, declared.end(1)) else found).add(declared.group(1))
            found.update(new for _, new in IMPORTED.findall(line))
    return found - others


def main():
    names = own_names()
    if "--list" in sys.argv:
        print("\n".join(f"{n} {respelled(n)}" for n in sorted(names)))
        return
    for path in files():
        text = open(path, encoding="utf-8").read()
        lines = []
        for line in text.split("\n"):
            end = code_of(path, line)
            code = TOKEN.sub(lambda m: respelled(m.group(0), line[m.start() - 1 : m.start()] == ".") if m.group(0) in names else m.group(0), line[:end])
            lines.append(code + line[end:])
        turned = "\n".join(lines)
        if turned != text:
            with open(path, "w", encoding="utf-8") as file:
                file.write(turned)


main()
