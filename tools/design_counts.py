#!/usr/bin/env python3
"""Counts the places of docs/DESIGN-PASS.md in src/: python3 tools/design_counts.py [POINT] [FOLDER].

With a point from 1 to 8 it lists that point's places, else it prints how many each has. FOLDER is a checkout, this one where none is given.
A place that is counted need not be one that is to change: the page says which are kept, and why."""
import glob
import os
import re
import sys
from collections import defaultdict

ARGS = sys.argv[1:]
POINT = int(ARGS.pop(0)) if ARGS and ARGS[0].isdigit() else None
os.chdir(ARGS[0] if ARGS else os.path.join(os.path.dirname(os.path.abspath(__file__)), ".."))

FILES = {path: open(path, encoding="utf-8").read() for path in sorted(glob.glob("crates/*/src/**/*.rt", recursive=True))}
ANSWERS = [path for path in glob.glob("crates/*/proofs/**/Answers.antt", recursive=True)]


def lines(pattern):
    """The lines of src/ that the pattern fits."""
    found = []
    for path, text in FILES.items():
        for number, line in enumerate(text.split("\n"), 1):
            if re.search(pattern, line):
                found.append(f"{path}:{number}: {line.strip()}")
    return found


def functions():
    """Each function: its path, name, parameters, and clauses."""
    for path, text in FILES.items():
        for found in re.finditer(r"^ *(?:pub )?fn (\w+)(?:<[^>]*>)?\((.*?)\)((?: ->|\n).*?)\{\n", text, re.S | re.M):
            yield path, found.group(1), found.group(2), found.group(3)


def flags():
    """Fields of a struct that are a bool."""
    found = []
    for path, text in FILES.items():
        for struct in re.finditer(r"^(?:pub )?struct (\w+)[^{;]*\{\n(.*?)^\}", text, re.S | re.M):
            found += [f"{path}: {struct.group(1)}.{field}" for field in re.findall(r"^    (?:pub )?(\w+): bool,", struct.group(2), re.M)]
    return found


def stand_ins():
    """Comments that say which number stands for nothing."""
    return lines(r"^\s*//.*\b(0|16|513|count|length|end|part's end|text's end) (where|for what|says that|if) .*\b(none|no|not|undefined|neither|unsound)\b")


ALIKE = (r"8|16|32|64|left|right|words?|sets?|two|four|eight|few|many|names?|numbers?|phones?|parts?|rules?|letters?|bytes|target|code|place|valid|known|"
         r"listed|up|down|plain|walk|add|drop|insert|remove|at|of|in|is|has|put")


def twins():
    """Functions of one file whose names are the same but for a word of ALIKE."""
    found = []
    for path, text in FILES.items():
        groups = defaultdict(list)
        for name in re.findall(r"^ *(?:pub )?fn (\w+)", text, re.M):
            groups[re.sub(r"[*_]+", "*", re.sub(ALIKE, "*", name))].append(name)
        found += [f"{path}: {' '.join(group)}" for group in groups.values() if len(group) > 1]
    return found


def shared_facts():
    """Facts that stand in the requires of three or more functions."""
    holders = defaultdict(list)
    for path, name, _, clauses in functions():
        for clause in re.findall(r"requires (?:\w+ )?\{(.*)\}$", clauses, re.M):
            for fact in clause.split("×"):
                holders[fact.strip().strip("()")].append(f"{path} {name}")
    return [f"{len(who)} {fact}" for fact, who in sorted(holders.items(), key=lambda held: -len(held[1])) if len(who) > 2]


def long_lists():
    """Functions of more than eight parameters."""
    return [f"{path}: {name}: {count}" for path, name, parameters, _ in functions() if (count := len(re.findall(r"\w+: ", parameters))) > 8]


def lengths_beside():
    """A slice whose length stands beside it as a parameter."""
    return [f"{path}: {name}: {' '.join(found.group(0).split())}"
            for path, name, parameters, _ in functions()
            for found in re.finditer(r"\w+: &(?:mut )?(?:'\w+ )?\[\w+\],\s*(?:n|m|k|len|count|size|end): usize", parameters)]


POINTS = [
    (1, "own enums", lambda: lines(r"^(pub )?enum ")),
    (1, "flags in structs", flags),
    (1, "numbers that stand for nothing", stand_ins),
    (2, "functions of names alike in one file", twins),
    (3, "loops that are no for", lambda: lines(r"^\s*(while|loop)\b")),
    (4, "functions that compare, copy, convert or print", lambda: lines(
        r"fn (same|equal|copy|fill|clear|zero|print|wide|smaller|larger|higher|low|one_if|digit|put_two|put_four|put_eight|two_at|four_at|eight_at)\w*[(<]")),
    (5, "facts in the requires of three functions or more", shared_facts),
    (5, "functions of more than eight parameters", long_lists),
    (6, "slices with a length beside", lengths_beside),
    (7, "tests of a kind by its number, and function pointers", lambda: lines(r"\bkind == |match kind|match f\[0\]|fn\(")),
    (8, "answers", lambda: [f"{path}: {name}" for path in ANSWERS for name in re.findall(r"^pub (\S+) : goal", open(path, encoding="utf-8").read(), re.M)]),
]

for number, title, places in POINTS:
    if POINT is None:
        print(f"{number} {title}: {len(places())}")
    elif number == POINT:
        print(f"# {title}", *places(), sep="\n")
