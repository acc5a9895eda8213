#!/usr/bin/env python3
"""Respells the repository's own definitions and lemmas: words in snake case, facts and types in camel case.

usage: tools/respell.py [--list]     at the top of the repository, right after the kit's port.py

A name is one of ours if an .antt file below specs/ or proofs/ declares it (a definition, a lemma, a field, a
constructor, a record) or uses it as a variable, and it holds a dash. `short-letters` becomes `short_letters`,
`Lone-accepted` becomes `LoneAccepted`; a lemma that would get the name of a function of src/ ends in `_lem`. A name
that a file imports from a library, names that the check makes (`c.loop-i.invariant`, `returns-in_ok`), strings and
functions of src/ stay as they are. It stops, with nothing written, where two names would fall together. Run it once:
it finds nothing the second time.
"""

import os
import re
import sys

# what may stand in a name; a dot, a bracket or a blank ends it
NAME = re.compile(r"[^\s(){}\[\];,.λ∷]+")
DECLARED = re.compile(r"^\s*(?:(?:pub|abbrev|unfoldable)\s+)*(?:(?:data|record)\s+)?([^\s:(){}]+)(?:\s+[({][^:]*:.*)?\s*:\s")
FUNCTION = re.compile(r"\bfn\s+(\w+)")
# the proof of one function of src/: its goals have names that the check makes
OF_FUNCTION = re.compile(r"/proofs/.*/(Answers|Invariants|Proof)\.antt$")
IMPORT = re.compile(r"use\s+([\w.]+)\.\{([^}]*)\}")
STRING = re.compile(r'"(?:[^"\\]|\\.)*"')
# a path into the record of what a goal knows, or of a loop's variables
MADE_PATH = re.compile(r"(?:^|[^\w'.])(?:c|w|l|g|goal)(?:\.[^\s(){}\[\];,.]+)*\.$")
# port.py gives these variables of ours a capital, as it does the library's facts
CAPITALS = {"all_Known": "all_known", "is_Known": "is_known", "id-Below": "id_below"}


def sources(root):
    for folder, dirs, files in os.walk(os.path.join(root, "crates")):
        dirs[:] = sorted(d for d in dirs if d != "out")
        for f in sorted(files):
            if f.endswith((".rt", ".antt")):
                yield os.path.join(folder, f)


def code(line):
    return line.split("--")[0]


def declared(text):
    for line in map(code, text.split("\n")):
        m = DECLARED.match(line)
        if m and not line.lstrip().startswith(("use ", "open ", "module ", "mod ")):
            yield m[1]


def is_dashed(name):
    return "-" in name.strip("-") and "-as-" not in name and name[0].isalpha()


def respelt(name):
    parts = name.split("-")
    if name[0].isupper():
        return parts[0] + "".join(p[:1].upper() + p[1:] for p in parts[1:])
    return "_".join(parts)


def library_names(text, crates):
    names = set()
    for path, items in IMPORT.findall(text):
        if path.split(".")[:2] not in [["Rattle", c] for c in crates]:
            for item in items.split(","):
                names.update(item.split(" as ")[0].split())
    return names


def names_to_turn(texts, crates):
    functions = {n for p, t in texts.items() if p.endswith(".rt") for n in FUNCTION.findall(t)}
    used = {w for t in texts.values() for w in NAME.findall(t)}
    found = {n: to for n, to in CAPITALS.items() if n in used}
    for path, text in texts.items():
        if not path.endswith(".antt"):
            continue
        goals = set(re.findall(r"^pub (\S+) : goal\.", text, re.M))
        ours = {n for n in declared(text) if is_dashed(n) and n not in goals}
        if not OF_FUNCTION.search(path):
            kept = library_names(text, crates)
            ours |= {n for line in map(code, text.split("\n")) for n in NAME.findall(line) if is_dashed(n) and n not in kept}
        for n in ours - set(CAPITALS):
            lemma = "/proofs/" in path and respelt(n) in functions and n in set(declared(text))
            if n not in found or lemma:
                found[n] = respelt(n) + ("_lem" if lemma else "")
    return found, functions


def turn(text, names, kept, is_rust):
    quoted = [m.span() for m in STRING.finditer(text)] if is_rust else []

    def one(m):
        word = m[0]
        if word not in names or word in kept or any(a <= m.start() < b for a, b in quoted):
            return word
        before = text[text.rfind("\n", 0, m.start()) + 1 : m.start()]
        return word if MADE_PATH.search(before) else names[word]

    return NAME.sub(one, text)


def main(argv):
    root = os.path.dirname(os.path.dirname(os.path.abspath(__file__)))
    crates = os.listdir(os.path.join(root, "crates"))
    texts = {p: open(p, encoding="utf-8").read() for p in sources(root)}
    found, functions = names_to_turn(texts, crates)
    words = {w for t in texts.values() for w in NAME.findall(t)} - functions - set(CAPITALS.values())
    together = sorted(n for n, to in found.items() if to in words)
    twice = sorted(n for n in found if list(found.values()).count(found[n]) > 1)
    if "--list" in argv:
        for n in sorted(found):
            print(n, found[n], "(the new name is in use)" if n in together else "")
        return 0
    if together or twice:
        print("names that would fall together:", ", ".join(together + twice))
        return 1
    changed = 0
    for path, text in texts.items():
        new = turn(text, found, library_names(text, crates), path.endswith(".rt"))
        if new != text:
            with open(path, "w", encoding="utf-8") as f:
                f.write(new)
            changed += 1
    print(f"{len(found)} names respelt in {changed} files")
    return 0


if __name__ == "__main__":
    raise SystemExit(main(sys.argv[1:]))
