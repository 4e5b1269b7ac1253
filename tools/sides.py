"""Prints, of two checkouts, each public signature, clause, definition and theorem that differs, old and new side by side, but for
spelling that docs/DESIGN-PASS.md says once: python3 tools/sides.py OLD NEW"""
import os
import re
import sys

RENAMED = [
    (r"\bWorked\.Fits\b|\bFits\b|\bChanges\b|\bRestores\b", "Ok"),
    (r"Err (misfit|m|e)\b|(?<![.\w])(Misfit|Wide)\b(?![\w}])", "misfit"),
    (r"Err Passes\b", "Passes"), (r"Err NoFlow\b", "NoFlow"),
    (r"\bfound_of\b", ""),
]


def plain(text):
    for a, b in RENAMED:
        text = re.sub(a, b, text)
    return re.sub(r"[\s()]+", " ", text).replace("{ ", "{").strip()


def functions(root):
    found = {}
    for crate in sorted(os.listdir(os.path.join(root, "crates"))):
        src = os.path.join(root, "crates", crate, "src")
        if not os.path.isdir(src):
            continue
        for name in sorted(os.listdir(src)):
            text = open(os.path.join(src, name)).read()
            owner = ""
            for m in re.finditer(r"^impl(?:<[^>]*>)? ([\w: <>']+?) \{$|^( *)pub (?:extern \"C\" )?fn (\w+)(.*?)^\2\{$", text, re.M | re.S):
                if m[1]:
                    owner = m[1].split(" for ")[-1].split("<")[0] + "::"
                    continue
                body = re.sub(r"\s+", " ", m[4]).strip().replace("( ", "(").replace(", )", ")")
                key = f"{crate} `{name[:-3]}::{owner if m[2] else ''}{m[3]}`".replace("lib::", "")
                found[key] = body
    return found


def definitions(root, part):
    found = {}
    for crate in sorted(os.listdir(os.path.join(root, "crates"))):
        top = os.path.join(root, "crates", crate, part)
        for folder, dirs, names in os.walk(top):
            dirs.sort()
            for name in sorted(names):
                if not name.endswith(".antt") or name == "Lib.antt" or part == "proofs" and name in ("Answers.antt", "Invariants.antt"):
                    continue
                module = os.path.relpath(os.path.join(folder, name), top)[:-5].replace("/", ".")
                entry, record = None, ""
                for line in open(os.path.join(folder, name)):
                    if line[0] not in " -\n":
                        named = re.match(r"pub record (\S+)", line)
                        record = named[1] + "." if named else ""
                    m = re.match(r"(?: *)(?:abbrev |unfoldable )*pub (?:record |data )?([^\s:{(]+)", line)
                    if m and not re.match(r" *pub (use|mod|ruleset)\b", line) and not line.lstrip().startswith(("unfoldable pub use", "pub use")):
                        entry = f"{crate} `{module}.{record if line[0] == ' ' else ''}{m[1]}`"
                        found[entry] = line
                    elif line.strip() == "" or line.lstrip().startswith("--") or re.match(r"(abbrev |unfoldable |module|use |infix)", line):
                        entry = None if line.strip() != "" or part == "specs" else entry
                        if line.strip() == "":
                            entry = None
                    elif entry and (part == "specs"):
                        found[entry] += line
    return found


def side(title, old, new, both=True):
    print(f"\n### {title}\n")
    gone = {}
    for key in sorted(set(old) | set(new)):
        a, b = old.get(key), new.get(key)
        if a is not None and b is not None and plain(a) == plain(b):
            continue
        if not both and (a is None or b is None):
            if b is None:
                gone.setdefault(key.split()[0], []).append(key.split("`")[1])
            continue
        print(f"- {key}")
        flat = lambda t: re.sub(r"\s*\n\s*", " ¦ ", t.strip())
        if a is not None:
            print(f"  - old: {flat(a)}")
        if b is not None:
            print(f"  - new: {flat(b)}")
    for crate, names in gone.items():
        print(f"- {crate}, gone: {', '.join(names)}")


def main():
    old, new = sys.argv[1:3]
    side("Public functions", functions(old), functions(new))
    side("Definitions and theorems of specs/", definitions(old, "specs"), definitions(new, "specs"))
    side("Public lemmas of proofs/, by their statements", definitions(old, "proofs"), definitions(new, "proofs"), False)


main()
