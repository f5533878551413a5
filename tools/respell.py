#!/usr/bin/env python3
"""Respells the repository's own definitions and lemmas as this Rattle spells its words.

usage: respell.py [--dry]      at the top of the repository, once, after the kit's own script

A definition or a field is in snake case. A lemma keeps the hyphen that parts a call from what it is applied to, as in
length-filled, where its first part names a definition or an operation; any other lemma is in snake case. What the check makes
(goals, invariants, steps) and all that src/ declares keep their names. --dry prints the names, and each file in which a new name
stood already.
"""

import collections
import glob
import re
import sys

SIGNATURE = re.compile(
    r"^(\s*)(?:(abbrev|unfoldable)\s+)?(?:pub\s+)?([^\s:(){}.,;]+)((?: \([^()]*(?:\([^()]*\)[^()]*)*\)| \{[^{}]*\})*)\s*:\s(.*)$",
    re.M,
)
# What a file takes from a library of the kit keeps its name there.
IMPORTED = re.compile(r"^(?:ghost )?use (?:Rattle\.std|mathlib|native|borrow)[\w.']*\.\{([^}]*)\}", re.M)
WORDS = {"let", "use", "mod", "pub", "λ", "|", "_", "module", "in", "--", "record", "elim", "then", "else"}
TOKEN = re.compile(r"[^\s(){}\[\];,.\"`:]+")
CAMEL = re.compile(r"^[a-z][a-z0-9]*(?:[A-Z][a-z0-9]*)+$")
# First parts of lemmas that name an operation of std or of the field, and not one of this repository.
OPERATIONS = set(
    "length map take drop sum product get_or append replicate set bit xor xors power add times inverse inverted bytes number value "
    "replicate All Any All utf8 element timesX times_x poly quad val divide scale difference".split()
)
# Lemmas that would fall together with a definition that their file names.
KEPT = {"index-at", "letters-of"}
# The kit's script had brought this lemma to the name that the definition above it gets.
PARTED = {"crates/field/proofs/PolynomialRoots.antt": {"line_after": "line-after"}}


def files():
    return sorted(glob.glob("crates/*/specs/*.antt") + glob.glob("crates/*/proofs/**/*.antt", recursive=True))


def sources():
    return sorted(glob.glob("crates/*/src/**/*.rt", recursive=True))


def snake(word):
    return re.sub(r"(?<=[a-z0-9])([A-Z])", lambda m: "_" + m.group(1), word).lower() if CAMEL.match(word) else word


def declared():
    definitions, lemmas, fields = set(), set(), set()
    for path in files():
        text = open(path, encoding="utf-8").read()
        in_record = None
        for line in text.split("\n"):
            head = re.match(r"^(\s*)(?:pub )?record ", line)
            if head:
                in_record = len(head.group(1))
                continue
            m = SIGNATURE.match(line)
            if in_record is not None and line.strip() and not line.strip().startswith("--"):
                if len(line) - len(line.lstrip()) <= in_record:
                    in_record = None
            if not m or m.group(3) in WORDS or m.group(3).startswith("--"):
                continue
            name, kind, rest = m.group(3), m.group(2), m.group(5)
            if re.search(r"\bgoal\.", rest) and "/specs/" not in path and path.endswith(("Answers.antt", "Invariants.antt")):
                continue
            if in_record is not None:
                fields.add(name)
            elif kind:
                definitions.add(name)
            else:
                lemmas.add(name)
    for path in files() + sources():
        for m in re.finditer(r"\bas ([a-z][A-Za-z0-9]*)", open(path, encoding="utf-8").read()):
            definitions.add(m.group(1))
    return definitions, lemmas, fields


def table():
    definitions, lemmas, fields = declared()
    calls = OPERATIONS | definitions | {snake(d) for d in definitions}
    new = {}
    for name in definitions | fields:
        to = "_".join(snake(p) for p in name.split("-"))
        if to != name:
            new[name] = to
    for name in lemmas:
        if name in new or not re.match(r"^[A-Za-z0-9_'-]+$", name):
            continue
        parts = [snake(p) for p in name.split("-")]
        to = ("-" if parts[0] in calls else "_").join(parts)
        if to != name:
            new[name] = to
    return {a: b for a, b in new.items() if a not in KEPT}


def parts(text, source):
    """The text in pieces, each with whether names stand there: no comments, and no strings."""
    pattern = r'//[^\n]*|"(?:[^"\\]|\\.)*"' if source else r'--(?=[ \n])[^\n]*|"(?:[^"\\]|\\.)*"'
    at = 0
    for m in re.finditer(pattern, text):
        yield text[at : m.start()], True
        yield m.group(0), False
        at = m.end()
    yield text[at:], True


def main():
    new = table()
    dry = "--dry" in sys.argv
    back = collections.defaultdict(set)
    for a, b in new.items():
        back[b].add(a)
    if dry:
        for a in sorted(new):
            print(f"{a} -> {new[a]}")
        for b, names in sorted(back.items()):
            if len(names) > 1:
                print("together:", b, sorted(names))
    for path in files() + sources():
        text = open(path, encoding="utf-8").read()
        source = path.endswith(".rt")
        pieces = list(parts(text, source))
        here = {t for p, named in pieces if named for t in TOKEN.findall(p)}
        if dry:
            for a in sorted(here & set(new)):
                if new[a] in here:
                    print(f"stands: {path}: {a} -> {new[a]}")
            continue
        names = {**new, **PARTED.get(path, {})}
        for theirs in IMPORTED.findall(text):
            for name in theirs.split(","):
                names.pop(name.split(" as ")[0].strip(), None)
        out = "".join(TOKEN.sub(lambda m: names.get(m.group(0), m.group(0)), p) if named else p for p, named in pieces)
        if out != text:
            open(path, "w", encoding="utf-8").write(out)


if __name__ == "__main__":
    main()
