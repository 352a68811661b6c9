#!/usr/bin/env python3
"""Brings the names of definitions, fields, constructors and lemmas to today's spelling: words in snake case, ′ as an apostrophe. Run once, after the kit's
port.py, at the top of the repository: tools/respell.py [--list]

A name is turned where specs/ or a file of lemmas in proofs/ declares it: refusalNumber is refusal_number, set-of is set_of. Types and modules keep theirs.
A name stays where it is also one of a library, or one that the check makes, or where the new name is in use already: then two would fall together.
In comments and in pages only a name in backticks or one with an inner capital is turned. Strings, functions of src/ and exported names are not touched.
"""

import os
import re
import subprocess
import sys

NAME = r"[^\s(){}.;,@\"«»⌜⌝]+"
TOKEN = re.compile(NAME)
DECLARED = re.compile(r"(?m)^[ \t]*((?:(?:abbrev|unfoldable|opaque|pub)[ \t]+)*)(" + NAME + r")((?:[ \t]+\{[^{}\n]*\})*)[ \t]+:(?=\s)")
USE = re.compile(r"(?m)^\s*(?:ghost |pub )*use ([^\s;{]+?)\.?(?:\{([^}]*)\})?(?: as \S+)?;?\s*$")


def texts(endings):
    for top, folders, files in os.walk("crates"):
        folders[:] = sorted(f for f in folders if f != "out")
        for f in sorted(files):
            if f.endswith(endings):
                yield os.path.join(top, f)


def read(path):
    with open(path, encoding="utf-8") as f:
        return f.read()


def crate_names():
    return {c for c in os.listdir("crates") if os.path.isdir(os.path.join("crates", c))}


def turned(name):
    words = re.sub(r"(?<=[a-z0-9])([A-Z])", lambda m: "_" + m[1].lower(), name)
    return words.replace("-", "_").replace("′", "'")


def is_lemma_file(path):
    return path.endswith(".antt") and not path.endswith("/Proof.antt")


def ours(module, crates):
    parts = module.split(".")
    return parts[0] == "Rattle" and len(parts) > 1 and parts[1] in crates


def undotted(text, path):
    """The names of a text that stand behind no dot, without the paths of its imports."""
    text = re.sub(r"(?m)^(\s*(?:ghost |pub )*use )[^\s;{]+", r"\1", text)
    if path.endswith(".rt"):
        text = re.sub(r"\bfn \w+|::\w+|\w+::|\w+(?=\()", " ", re.sub(r"//.*", "", text))
    return set(re.findall(r"(?<![^\s(){};,@\"«»⌜⌝])" + NAME, text))


def table():
    crates = crate_names()
    declared, library, behind, standing = set(), set(), set(), {}
    for path in texts((".antt", ".rt")):
        text = read(path)
        names = undotted(text, path)
        for n in names:
            standing.setdefault(n, set()).add(path)
        if is_lemma_file(path):
            declared |= {m[2] for m in DECLARED.finditer(text)}
        for m in USE.finditer(text):
            if not ours(m[1], crates) or ".Tie" in m[1] or ".Statement" in m[1]:
                library |= set(re.split(r"[,\s]+|\bas\b", m[2] or ""))
        behind |= set(re.findall(r"\.(" + NAME + ")", text))
    to, kept, taken = {}, [], {}
    for n in sorted(declared, key=lambda n: ("-" in n, n)):  # a definition before a lemma
        if not re.match(r"[a-z]", n):
            continue
        new = turned(n)
        if new == n:
            continue
        here = standing.get(n, set())
        if n in library or here & standing.get(new, set()) or here & taken.get(new, set()) or ("-" in n and n in behind):
            kept.append(n)
            continue
        to[n] = new
        taken[new] = taken.get(new, set()) | here
    return to, kept


def turn_words(text, to):
    return TOKEN.sub(lambda m: to.get(m[0], m[0]), text)


def turn_prose(text, to):
    text = re.sub(r"`([^`\n]+)`", lambda m: "`" + turn_words(m[1], to) + "`", text)
    inner = {n: to[n] for n in to if "-" not in n and "′" not in n}
    return re.sub(r"(?<![\w.:/-])[a-z]\w*(?![\w-])", lambda m: inner.get(m[0], m[0]), text)


def turn(path, text, to):
    comment = re.compile(r"(^|\s)(--|//)\s" if path.endswith(".antt") else r"(^|\s)//")
    out = []
    for line in text.split("\n"):
        m = comment.search(line)
        at = m.end() if m else len(line)
        code, said = line[:at], line[at:]
        if path.endswith(".rt"):
            parts = re.split(r"(b?\"(?:[^\"\\]|\\.)*\")", code)
            code = "".join(p if k % 2 else turn_words(p, to) for k, p in enumerate(parts))
        else:
            code = turn_words(code, to)
        out.append(code + (turn_prose(said, to) if said else ""))
    return "\n".join(out)


def main():
    to, kept = table()
    if "--list" in sys.argv:
        for n in to:
            print(n, to[n])
        print("kept:", *kept)
        return
    for path in texts((".antt", ".rt", ".edit")):
        text = read(path)
        new = turn(path, text, to)
        if new != text:
            with open(path, "w", encoding="utf-8") as f:
                f.write(new)
    pages = subprocess.run(["git", "ls-files", "README.md", "docs/*.md", "tests/README.md"], capture_output=True, text=True).stdout.split()
    for path in pages:
        text = read(path)
        new = turn_prose(text, to)
        if new != text:
            with open(path, "w", encoding="utf-8") as f:
                f.write(new)
    print(f"{len(to)} names turned, {len(kept)} kept")


main()
