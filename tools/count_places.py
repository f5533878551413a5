#!/usr/bin/env python3
"""Lists the places of older forms in the sources, point by point, at a commit or in the working tree.

usage: count_places.py [COMMIT] [--list]

It reads text, so a row is a place to look at; docs/DESIGN-PASS.md says what became of each.
"""
import re
import subprocess
import sys
from collections import defaultdict


def sources(commit):
    """Path and text of each .rt file below crates/*/src."""
    if commit:
        names = subprocess.run(["git", "ls-tree", "-r", "--name-only", commit, "crates"],
                               capture_output=True, text=True, check=True).stdout.split()
    else:
        names = subprocess.run(["git", "ls-files", "-co", "--exclude-standard", "crates"],
                               capture_output=True, text=True, check=True).stdout.split()
    for name in sorted(n for n in names if "/src/" in n and n.endswith(".rt")):
        if commit:
            text = subprocess.run(["git", "show", f"{commit}:{name}"], capture_output=True, text=True, check=True).stdout
        else:
            text = open(name, encoding="utf-8").read()
        yield name, text


def functions(text):
    """Line, name, what stands before the body, and the body, of each function."""
    for m in re.finditer(r"^([ \t]*)(?:pub(?:\(\w+\))? )?(?:extern \"C\" )?fn (\w+)", text, re.M):
        indent = m.group(1)
        end = re.compile(r"^%s[}]|;[ \t]*$" % indent, re.M).search(text, m.end())
        if not end:
            continue
        whole = text[m.start():end.end()]
        opened = re.search(r"^%s[{]$|[^}][ ][{]$" % indent, whole, re.M)
        head, body = (whole[:opened.end()], whole[opened.end():]) if opened else (whole, "")
        yield text.count("\n", 0, m.start()) + 1, m.group(2), head, body


def parameters(head):
    """The parameters of a function, each with its type, without what goes before the first one of its own."""
    inside = head[head.find("(") + 1:]
    inside = inside[:re.search(r"\)\s*(->|\n|\{|$|requires|ensures)", inside).start()] if re.search(
        r"\)\s*(->|\n|\{|$|requires|ensures)", inside) else inside
    return [p.strip() for p in re.split(r",(?![^<\[(]*[>\])])", inside) if ":" in p]


def clauses(head):
    return re.findall(r"^\s*(?:requires|ensures)[ \w]*\{ (.*) \}\s*$", head, re.M)


def shape(body):
    """The body with its names and numbers replaced, so that twins read alike."""
    body = re.sub(r"//.*", "", body)
    return re.sub(r"\s+", " ", re.sub(r"\b(0x)?[0-9][0-9a-f_]*(u8|u16|u32|u64|usize)?\b|\b[A-Za-z_]\w*\b",
                                      lambda m: m.group(0) if m.group(0) in KEPT else "_", body)).strip()


KEPT = {"if", "else", "for", "in", "match", "return", "let", "mut", "while", "Some", "None", "Ok", "Err", "self"}


def places(commit):
    found = defaultdict(list)
    shapes = defaultdict(list)
    conjuncts = defaultdict(set)
    runs = defaultdict(set)
    for path, text in sources(commit):
        for number, line in enumerate(text.splitlines(), 1):
            here = f"{path}:{number}"
            code = line.split("//")[0]
            if re.search(r"\bfor \w+ in \(?[\w]*[0-9]+\w*\.\.|\bwhile (?!let)", code):
                found["3 a loop that counts by hand"].append((here, line.strip()))
            elif re.search(r"\bfor \(\w+, \w+\) in .*enumerate\(\)", code):
                found["3 a loop with an index beside the item"].append((here, line.strip()))
            elif re.search(r"^\s*(for|while) ", code):
                found["3 a loop over items"].append((here, line.strip()))
            if re.search(r"\bif step == |\bmatch step\b", code):
                found["7 a switch on the step"].append((here, line.strip()))
        for m in re.finditer(r"^ *(?:pub )?struct (\w+)[^;{]*\{(.*?)^ *\}", text, re.S | re.M):
            line = text.count("\n", 0, m.start()) + 1
            if re.search(r": \[[^\]]*; *\w+\]", m.group(2)) and re.search(r"(length|count|len): usize", m.group(2)):
                found["6 an array with its length beside it"].append((f"{path}:{line}", m.group(1)))
            if re.search(r"^\s*(?:pub )?value: u(8|16),", m.group(2), re.M):
                shapes["a struct of one bounded number"].append((f"{path}:{line}", m.group(1)))
        for m in re.finditer(r"^ *(?:pub )?enum (\w+)", text, re.M):
            found["1 an enum of the kit's own (to look at)"].append((f"{path}:{text.count(chr(10), 0, m.start()) + 1}", m.group(1)))
        for line, name, head, body in functions(text):
            here = f"{path}:{line}"
            if "-> bool" in head and "&mut" in head:
                found["1 a flag beside what is written"].append((here, name))
            if re.fullmatch(r"eq|cmp|partial_cmp|fmt|same|spells|comes_before|from_\w+|to_\w+|new|of|value|place|number|layer|digit|hex|hex_digit", name):
                found["4 comparing, converting or printing by hand (to look at)"].append((here, name))
            names = [p.split(":")[0].strip() for p in parameters(head)]
            if any(n in ("at", "from", "end") for n in names) and re.search(r"&mut \[|\[u8\]", head) and "&mut" in head:
                found["6 a space with a position beside it"].append((here, name))
            if "xs" in names and "values" in names:
                found["6 parallel arrays"].append((here, name))
            if len(body) > 60:
                shapes[shape(body)].append((here, name))
            for clause in clauses(head):
                for part in re.split(r" × ", clause):
                    part = part.strip("() ")
                    if not re.match(r"result\b", part) and re.search(r"[≤<≡]|Sound|Plain", part) and "→" not in part and "new" not in part:
                        conjuncts[path.split("/")[1] + ": " + part].add((here, name))
            kinds = [re.sub(r"\s+", " ", p) for p in parameters(head) if not p.startswith(("rt", "heap", "alloc"))]
            for size in (3,):
                for k in range(len(kinds) - size + 1):
                    runs[path.split("/")[1] + ": " + ", ".join(kinds[k:k + size])].add((here, name))
    for key, members in shapes.items():
        if len(members) > 1:
            for place in members:
                found["2 twins: " + (key if len(key) < 60 else key[:57] + "..")].append(place)
    for key, members in conjuncts.items():
        if len(members) > 2:
            found["5 a fact in three or more contracts: " + key].extend(sorted(members))
    for key, members in runs.items():
        if len(members) > 2:
            found["5 parameters that travel together: " + key].extend(sorted(members))
    return found


def main():
    commit = next((a for a in sys.argv[1:] if not a.startswith("-")), None)
    found = places(commit)
    totals = defaultdict(int)
    for key in sorted(found):
        totals[key[0]] += len(found[key])
        print(f"{len(found[key]):4} {key}")
        if "--list" in sys.argv:
            for here, what in found[key]:
                print(f"       {here}: {what}")
    print("in all: " + ", ".join(f"point {k}: {v}" for k, v in sorted(totals.items())))


if __name__ == "__main__":
    main()
