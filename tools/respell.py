#!/usr/bin/env python3
"""Brings the names of this repository's own definitions and lemmas to today's spelling: words in snake case, with underscores.

usage: tools/respell.py [FOLDER]     (once, behind the toolchain's port.py; FOLDER is a checkout, by default this one)

A name that is declared in a crate's specs/ or in a file of its proofs/ and holds a capital inside or a dash gets underscores. Types,
modules and names of src/ stay, and so do the labels that the prover makes in a function's proof. It prints each name that it leaves, since
it would fall together with another, and writes OLD and NEW of each that it turned to standard output's end.
"""

import os
import re
import sys

TOKEN = r"[^\s(){}\[\].;,@\"«»:`'|]+(?:'+)?"
WORD = re.compile(TOKEN)
DECLARED = re.compile(r"(?m)^ *(?:(?:abbrev|unfoldable|pub|opaque)\s+)*([^\s(){}.;,@\"«»:]+)(?: [{(][^{}()\n]*[})])* :(?=\s)")
IMPORT = re.compile(r"\buse ([^\s;{]+?)(?:\.\{([^}]*)\})?(?: as (\S+))?\s*(?:;|$)", re.M)
OWN_PROOF = re.compile(r"/proofs/.+/(Proof|Answers|Invariants)\.antt$")


def plain(text):
    return re.sub(r"--.*", "", text)


def respelled(name):
    return re.sub(r"(?<=[a-z0-9])[A-Z]", lambda m: "_" + m[0].lower(), name).replace("-", "_")


def is_odd(name):
    dashed = "-" in name.rstrip("-")
    return bool(re.match(r"[a-z]", name) and (re.search(r"[a-z0-9][A-Z]", name) or dashed) or re.match(r"[A-Z]", name) and dashed)


def texts(root, *endings):
    for folder, dirs, files in os.walk(root):
        dirs[:] = sorted(d for d in dirs if d not in ("out", ".git", "target"))
        for name in sorted(files):
            if name.endswith(endings):
                yield os.path.join(folder, name)


def read(path):
    with open(path, encoding="utf-8") as file:
        return file.read()


def imported(code, crates):
    """What a file brings in from the prover's libraries, and not from a crate of the repository."""
    names = set()
    for path, items, alias in IMPORT.findall(code):
        steps = path.split(".")
        if steps[0] == "Rattle" and len(steps) > 1 and steps[1] in crates:
            continue
        for item in items.split(",") if items else [alias or steps[-1]]:
            words = item.split()
            if words:
                names.add(words[-1])
    return names


def main(argv):
    top = argv[0] if argv else os.path.join(os.path.dirname(os.path.abspath(__file__)), "..")
    inside = os.path.join(top, "crates")
    crates = set(os.listdir(inside))
    sources = {p: read(p) for p in texts(inside, ".antt")}
    rust = {p: read(p) for p in texts(inside, ".rt")}
    declared, taken = set(), set()
    for path, text in sources.items():
        if not OWN_PROOF.search(path):
            declared.update(DECLARED.findall(plain(text)))
    for text in sources.values():
        taken |= imported(plain(text), crates)
    odd = sorted(it for it in declared if is_odd(it))
    groups = {}
    for old in odd:
        if old in taken:
            print(f"left: {old}, a name of the library")
        else:
            groups.setdefault(respelled(old), []).append(old)
    table, yields = {}, {}
    for new, olds in groups.items():
        # A lemma that would have its function's name ends in _lem.
        olds.sort(key=lambda it: "-" in it)
        for place, old in enumerate(olds):
            table[old] = new if place == 0 and new not in taken else new + "_lem"
        if new in declared and not new in olds:
            if "-" in olds[0]:
                table[olds[0]] = new + "_lem"
            else:
                yields[new] = olds[0]
    for old, new in list(table.items()):
        if new.endswith("_lem") and (new in declared or new in taken or list(table.values()).count(new) > 1):
            print(f"left: {old}, since {new} is taken")
            del table[old]

    def turn(text, dotted):
        words = set(WORD.findall(text))
        giving = {new: new + "_lem" for new, old in yields.items() if new in words and old in words}

        def word(m):
            before = text[: m.start()]
            if before.endswith(".") and not dotted:
                step = re.search(r"([^\s(){}\[\].;,]+)\.$", before)
                if step and step[1] in ("c", "before", "goal", "tie", "w", "p"):
                    return m[0]
            return table.get(m[0]) or giving.get(m[0], m[0])

        return WORD.sub(word, text)

    for path, text in sources.items():
        new = turn(text, not OWN_PROOF.search(path))
        if new != text:
            with open(path, "w", encoding="utf-8") as file:
                file.write(new)
    yields.clear()
    for path, text in rust.items():
        # In code a dash is a minus; a name with one stands in clauses and imports alone.
        new = "\n".join(
            turn(line, True) if re.match(r"\s*(ghost use|requires|ensures|//)", line) or "≡" in line or "→" in line else line
            for line in text.split("\n")
        )
        if new != text:
            with open(path, "w", encoding="utf-8") as file:
                file.write(new)
    for old, new in sorted(table.items()):
        print(old, new)
    return 0


if __name__ == "__main__":
    raise SystemExit(main(sys.argv[1:]))
