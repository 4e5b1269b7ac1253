#!/usr/bin/env python3
"""Spells this repository's own definitions, fields and lemmas as today's Rattle does: words and fields in snake case, with a dash only
between the names that a lemma's name joins; the crate `log`, which a library of the toolchain is called too, becomes `step_log`.

usage: python3 tools/spelling.py    at the top of the repository, once, behind the toolchain's own script for older repositories

Functions and types of src/, exported names, strings, inputs and outputs keep their names.
"""

import os
import re
import subprocess

CRATE = ("log", "step_log")
# what the toolchain's library spells anew, in lemmas of this repository
PARTS = [("getD", "get_or"), ("natAbs", "nat_abs")]
# a field that shares its name with a lemma of the library keeps it
KEPT = {"add-zero"}
# a field that would be called as a definition is called keeps its dash too
KEPT |= {"no-arc", "arc-in", "no-pair", "cost-fits", "arcs-in", "is-rising", "low-end", "put-back"}
# a lemma that would be called as a definition is called: its file, and its name
LEMMAS = [
    ("fraction", "Value", "is_same"),
    ("slackness", "Laws", "is_positive"),
    ("records", "Arrays", "second_at"),
    ("presolve", "Crossing", "crossing_back"),
    ("parallel_arcs", "Search", "goes_on"),
    ("records", "Tables", "goes_on"),
    ("search", "Runs", "goes_on"),
    ("optimality", "Exactly", "is_within"),
    ("search", "Scans", "is_within"),
    ("network", "Bounds", "no_lower"),
    ("reduction", "Found", "has_room"),
    ("step", "Removing", "cost_added"),
    ("postsolve", "Steps", "way_back"),
    ("presolve", "TwoArcs", "two_back"),
    ("presolve", "Junction", "numbers_of"),
    ("presolve", "Net", "tail_of"),
    ("presolve", "ThreeWay", "three_back"),
]
TOKEN = re.compile(r"[^\s(){};.,:λ\"«»\[\]`|/'=+*-][^\s(){};.,:λ\"«»\[\]`|/'=+*]*|[-+*=][^\s(){};.,:λ\"«»\[\]`|/'=+*]+")
CAMEL = re.compile(r"(?<=[a-z0-9])[A-Zℚℤℕ]")
RECORD = re.compile(r"( *)(pub )?record ")
FIELD = re.compile(r"( +)(pub )?(\S+) :")


def texts():
    for folder, dirs, files in os.walk("crates"):
        dirs[:] = sorted(d for d in dirs if d != "out")
        for f in sorted(files):
            if f.endswith((".antt", ".rt", ".edit")):
                yield os.path.join(folder, f)


def generated(path):
    return "/Lent/" in path or path.endswith(("/Lent.antt", "/Proof/Tie.antt"))


def snake(name):
    for old, new in PARTS:
        name = name.replace(old, new)
    return CAMEL.sub(lambda m: "_" + m[0].lower(), name)


def read(path):
    with open(path, encoding="utf-8") as f:
        return f.read()


def fields():
    """The fields of the records that specs/ and proofs/ declare."""
    found = set()
    for path in texts():
        if not path.endswith(".antt") or generated(path):
            continue
        depth = None
        for line in read(path).splitlines():
            m = RECORD.match(line)
            if m:
                depth = len(m[1])
                continue
            m = FIELD.match(line)
            if depth is not None and m and len(m[1]) > depth:
                found.add(m[3])
            elif line.strip() and len(line) - len(line.lstrip()) <= (depth or 0):
                depth = None
    return found


def lemmas():
    """Gives each lemma of LEMMAS the ending _lem, where it is declared and where it is imported."""
    for crate, module, name in LEMMAS:
        home = f"Rattle.{crate}.proofs.{module}"
        word = re.compile(rf"(?<![\w.-]){name}(?![\w-])")
        imported = re.compile(rf"{re.escape(home)}\.\{{[^}}]*(?<![\w-]){name}(?![\w-])")
        for path in texts():
            text = read(path)
            if path == f"crates/{crate}/proofs/{module}.antt" or imported.search(text):
                with open(path, "w", encoding="utf-8") as f:
                    f.write(word.sub(name + "_lem", text))


def main():
    lemmas()
    old, new = CRATE
    if os.path.isdir(f"crates/{old}"):
        subprocess.run(["git", "mv", f"crates/{old}", f"crates/{new}"], check=True)
        with open("crates.txt", encoding="utf-8") as f:
            lines = f.read().splitlines()
        lines = [l if l.startswith("#") else re.sub(rf"\b{old}\b", new, l) for l in lines]
        with open("crates.txt", "w", encoding="utf-8") as f:
            f.write("\n".join(lines) + "\n")
    turned = {f: f.replace("-", "_") for f in fields() if "-" in f and f not in KEPT}
    for path in texts():
        text = read(path)
        text = text.replace(f"Rattle.{old}.", f"Rattle.{new}.")
        if path.endswith((".rt", ".edit")):
            text = re.sub(rf"\b(use )?{old}::", lambda m: (m[1] or "") + new + "::", text)

        def spell(m):
            name = m[0]
            if name in turned:
                return turned[name]
            if name[0].isupper() or not CAMEL.search(name):
                return name
            head = snake(name)
            return turned.get(head, head)

        made = []
        told = re.compile(r" *(--|//)")
        code = {m[0] for l in text.split("\n") if not told.match(l) for m in TOKEN.finditer(l)}
        for line in text.split("\n"):
            if told.match(line):
                # a comment's words are the paper's, unless the code below has them
                made.append(TOKEN.sub(lambda m: spell(m) if m[0] in code else m[0], line))
                continue
            # a string of the sources keeps its letters
            parts = re.split(r'("(?:[^"\\]|\\.)*")', line) if path.endswith(".rt") else [line]
            made.append("".join(p if p[:1] == '"' else TOKEN.sub(spell, p) for p in parts))
        made = "\n".join(made)
        if made != read(path):
            with open(path, "w", encoding="utf-8") as f:
                f.write(made)


if __name__ == "__main__":
    main()
