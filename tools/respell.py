#!/usr/bin/env python3
"""Spells the names that specs/ and proofs/ declare as today's Rattle spells them.

usage: python3 tools/respell.py          at the top, once, right after the kit's port.py
       python3 tools/respell.py --list   prints the rows (old, a tab, new) and writes nothing

Definitions, fields and constructors are in snake case. Facts, types and modules are in upper camel case. In a lemma
a dash joins the names of two definitions, and other words are added with an underscore. Names of src/ stay.
The rewriting itself is done by the kit's snake.py, which turns whole words in proofs, specifications and clauses.
"""

import collections
import os
import re
import subprocess
import sys
import tempfile

SNAKE = "/opt/rattle/port/notes/2026-11-18-names-are-in-snake-case/snake.py"
DECLARED = re.compile(r"(?m)^( *)((?:abbrev |unfoldable |pub |data |record |ruleset )*)([^\s(){}.;,]+)(?: \{[^{}\n]*\})* : *(\S*)")
MADE = re.compile(r"(?m)^ *(?:pub )?(?:record|data) ([^\s(){}.;,]+)")
# Names of the library that stand as the head of a name in our lemmas.
LIBRARY = """length append take drop replicate get_or set map sum_by count_by pow le number""".split()
# Where the library has a new name for a word in ours, and names that no declaration at the head of a line shows.
OVER = {
    "getD-row": "get_or-row",
    "sumBy-map": "sum_by-map",
    "At-port": "AtPort",
    "In-order": "InOrder",
    "Seen-same": "SeenSame",
    "Books-after": "BooksAfter",
    "frame-fault-number": "frame_fault_number",
    "grant-fault-number": "grant_fault_number",
    "event-fault-number": "event_fault_number",
    "device-fault-number": "device_fault_number",
    "ring-fault-number": "ring_fault_number",
    "tables-by": "tables_by",
    "memory-by": "memory_by",
}


def files():
    for folder, dirs, names in os.walk("crates"):
        dirs[:] = sorted(d for d in dirs if d not in ("out", "target"))
        for n in sorted(names):
            if n.endswith((".antt", ".rt")):
                yield os.path.join(folder, n)


def part(path):
    steps = path.split("/")
    return steps[2] if len(steps) > 3 else ""


def declared():
    """The names that specs/ declares, and those that proofs/ declares."""
    found = {"specs": set(), "proofs": set()}
    for path in files():
        where = part(path)
        if where not in found:
            continue
        with open(path, encoding="utf-8") as f:
            text = f.read()
        for m in DECLARED.finditer(text):
            indent, head, name, first = m.groups()
            if first.startswith("goal.") or name in ("let", "where"):
                continue
            if indent and "pub" not in head:
                continue
            found[where].add(name)
        found[where].update(m[1] for m in MADE.finditer(text))
    return found["specs"], found["proofs"]


def snake(name):
    name = re.sub(r"(?<=[a-z0-9])[A-Z]", lambda m: "_" + m[0].lower(), name)
    return name.replace("-", "_")


def camel(name):
    return "".join(w[:1].upper() + w[1:] for w in name.split("-"))


def lemma(name, heads):
    """The words of a lemma, joined by a dash between two names of definitions."""
    words = [w for w in snake(name.replace("-", "\0")).replace("\0", "-").split("-")]
    parts = []
    i = 0
    while i < len(words):
        for j in range(len(words), i, -1):
            piece = "_".join(words[i:j])
            if piece in heads or j == i + 1:
                parts.append((piece, piece in heads))
                i = j
                break
    out = parts[0][0]
    for before, here in zip(parts, parts[1:]):
        out += ("-" if before[1] and here[1] else "_") + here[0]
    return out


def rows():
    specs, proofs = declared()
    table = {}
    for name in specs:
        table[name] = camel(name) if name[:1].isupper() else snake(name)
    heads = {n for n in table.values() if not n[:1].isupper()} | set(LIBRARY)
    for name in proofs - specs:
        if "-" in name and "_" in name and not name[:1].isupper():
            continue  # joined already
        table[name] = camel(name) if name[:1].isupper() else lemma(name, heads)
    table.update(OVER)
    return {k: v for k, v in table.items() if k != v}, specs | proofs


def meetings(table, names):
    back = collections.defaultdict(set)
    for name in names:
        back[table.get(name, name)].add(name)
    for new, olds in sorted(back.items()):
        if len(olds) > 1:
            yield f"{' and '.join(sorted(olds))} would both be {new}"
    word = re.compile(r'[^\s(){}.;,@"«»]+')
    for path in files():
        with open(path, encoding="utf-8") as f:
            text = re.sub(r"(?<![^\s(){}.;,])--[^\n]*|//[^\n]*", "", f.read())
        tokens = set(word.findall(text))
        for old in sorted(tokens & set(table)):
            if table[old] in tokens:
                yield f"{path}: {old} becomes {table[old]}, which stands there already"


def main():
    table, names = rows()
    if sys.argv[1:] == ["--list"]:
        for old, new in sorted(table.items()):
            print(f"{old}\t{new}")
        for line in meetings(table, names):
            print("look:", line)
        return
    with tempfile.NamedTemporaryFile("w", suffix=".tsv", delete=False, encoding="utf-8") as f:
        for old, new in sorted(table.items()):
            f.write(f"{old}\t{new}\n")
    subprocess.run(
        [sys.executable, SNAKE, "--table", f.name, "--only", "antt,rt", "--skip-behind", "goal,c,w,l,g", "crates"],
        check=True,
    )
    os.unlink(f.name)


if __name__ == "__main__":
    main()
