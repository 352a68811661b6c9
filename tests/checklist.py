#!/usr/bin/env python3
"""The checklist on many rulesets: no fault is found in the proved code, and what each line says is so by the reference.

    python3 tests/checklist.py crates/checklist/out/checklist --count 40 --seed 1

The rulesets are the examples, the empty one and random ones; files that are refused must give one line that says FAULT. Where the standard
output takes no more than some bytes, each piece of a line for which there is room must come, whatever was lost before it.
"""

import argparse
import fcntl
import os
import re
import subprocess
import sys
import tempfile

import generate
import reference as ref

ROOT = os.path.dirname(os.path.dirname(os.path.abspath(__file__)))
NAMED = re.compile(r"tried (\S+?),? (?:where rules (\d+) and (\d+) fit at (\d+), )?came (?:rules ([\d ]+)|refused (\d+) at (\d+))$")


def example(name):
    with open(os.path.join(ROOT, "examples", name), "rb") as file:
        return file.read()


# Two rules for a letter that has no sign of its own, the second silent and never applied; no number is left to give.
NO_NUMBER_LEFT = ref.Ruleset(
    (ref.Numbered(2, ref.Rule(target=b"\x1B", phones=b"\x61")), ref.Numbered(65535, ref.Rule(target=b"\x1B"))), last=65535)

# Files, and what the checklist prints on each, a write for each piece.
WRITES = [
    (example("six.hex"),
     "ok     |the rule file read back: tried rules.hex|, came the same |145| bytes\n|"
     "ok     |the last letter is silent: |tried |k|e|, came rules| |2| |3|\n|"
     "ok     |two rules fit, the first in order is applied: |tried |k|n|, where rules |1| and |2| fit at |1|, came rules| |1| |6|\n|"
     "none   |the last letters of classes: |none in this ruleset\n|"
     "ok     |a letter that no rule covers: |tried |a|, came |refused |3| at |1|\n|"
     "ok     |a rule leaves: tried number |6|, came |accepted|, the last number is |6|\n|"
     "ok     |no number is given twice: tried a rule at place |5| after number |6|, came |accepted|, the last number is |7|\n|"
     "ok     |the ruleset as it was: tried rules.hex again|, came the same |145| bytes\n"),
    (ref.file_text(ref.EMPTY),
     "ok     |the rule file read back: tried rules.hex|, came the same |15| bytes\n|"
     "none   |the last letter is silent: |none in this ruleset\n|"
     "none   |two rules fit, the first in order is applied: |none in this ruleset\n|"
     "none   |the last letters of classes: |none in this ruleset\n|"
     "ok     |a letter that no rule covers: |tried |a|, came |refused |3| at |1|\n|"
     "none   a rule leaves: |none in this ruleset\n|"
     "ok     |no number is given twice: tried a rule at place |0| after number |0|, came |accepted|, the last number is |1|\n|"
     "ok     |the ruleset as it was: tried rules.hex again|, came the same |15| bytes\n"),
    (ref.file_text(NO_NUMBER_LEFT),
     "ok     |the rule file read back: tried rules.hex|, came the same |55| bytes\n|"
     "none   |the last letter is silent: |none found, names tried: |3|\n|"
     "ok     |two rules fit, the first in order is applied: |tried |1B|, where rules |2| and |65535| fit at |1|, came rules| |2|\n|"
     "none   |the last letters of classes: |none in this ruleset\n|"
     "ok     |a letter that no rule covers: |tried |a|, came |refused |3| at |1|\n|"
     "ok     |a rule leaves: tried number |65535|, came |accepted|, the last number is |65535|\n|"
     "ok     |no number is given twice: tried a rule at place |1| after number |65535|, came |refused |10| at |0|"
     ", the last number is |65535|\n|"
     "ok     |the ruleset as it was: tried rules.hex again|, came the same |55| bytes\n"),
    (b"", "FAULT  |rules.hex: |refused |13| at |0|\n"),
]


def spelling(text):
    """The bytes of a printed name: a letter each, or two digits for a byte that has no letter."""
    return bytes(ord(c) - ord("a") + 1 if c.isalpha() and c.islower() else int(c, 16)
                 for c in re.findall(r"[a-z]|[0-9A-F]{2}", text))


def run(program, rules_hex, stdout):
    """What was captured of a run on a rules.hex, which must be as it was afterwards."""
    with tempfile.TemporaryDirectory() as folder:
        path = os.path.join(folder, "rules.hex")
        with open(path, "wb") as file:
            file.write(rules_hex)
        done = subprocess.run([program], cwd=folder, stdin=subprocess.DEVNULL, stdout=stdout, timeout=60, check=True)
        with open(path, "rb") as file:
            assert file.read() == rules_hex, "rules.hex has changed"
    return done.stdout


def printed(program, rules_hex):
    """The lines for a rules.hex."""
    return run(program, rules_hex, subprocess.PIPE).decode("ascii").splitlines()


def came_through(program, rules_hex, room):
    """What is printed on a pipe that does not block and has room for so many bytes."""
    reader, writer = os.pipe()
    full = fcntl.fcntl(writer, fcntl.F_SETPIPE_SZ, 4096)
    os.set_blocking(writer, False)
    before = os.write(writer, bytes(full - room))
    run(program, rules_hex, writer)
    os.close(writer)
    with open(reader, "rb") as pipe:
        return pipe.read()[before:].decode("ascii")


def that_fit(pieces, room):
    """The pieces that come through: each for which there is room."""
    through = ""
    for piece in pieces:
        if len(through) + len(piece) <= room:
            through += piece
    return through


def agrees(line, ruleset):
    """Whether a line about a name says what the reference says."""
    found = NAMED.search(line)
    if not found:
        return True
    text, first, second, position, numbers, refused, place = found.groups()
    name = spelling(text)
    came = ref.plain_reading(ruleset, name, 256, 64)
    if refused:
        return came == ref.Refusal(int(refused), int(place))
    if not isinstance(came, ref.Spoken) or list(came.numbers) != [int(n) for n in numbers.split()]:
        return False
    return all(fits_at(ruleset, int(n), name, int(position)) for n in (first, second) if n)


def fits_at(ruleset, number, name, position):
    """Whether the rule with the number fits at a position of a whole name."""
    return any(ref.fits(rule, word.framed, position - word.before) for word in ref.words_of(name)
               if 1 <= position - word.before <= len(word.letters) for given, rule in ref.literal_list(ruleset) if given == number)


def fault(program, rules_hex):
    """What is wrong with the checklist's lines for a rules.hex; None where nothing is."""
    lines, ruleset = printed(program, rules_hex), ref.read_file(rules_hex)
    if isinstance(ruleset, ref.Refusal) or len(rules_hex) > 32768:
        return None if len(lines) == 1 and lines[0].startswith("FAULT") else f"a refused file gives {lines}"
    if len(lines) != 8:
        return f"{len(lines)} lines"
    for line in lines:
        if line.startswith("FAULT") or not re.match(r"ok|none", line) or not agrees(line, ruleset):
            return line
    return None


def main():
    arguments = argparse.ArgumentParser(description=__doc__.splitlines()[0])
    arguments.add_argument("program")
    arguments.add_argument("--count", type=int, default=40)
    arguments.add_argument("--seed", type=int, default=1)
    given = arguments.parse_args()
    program = os.path.abspath(given.program)
    files = [ref.file_text(ref.EMPTY), b"", b"01\n"]
    files += [example(name) for name in ("six.hex", "basque.hex", "basque_classes.hex", "silent_e.hex")]
    files += [generate.say_case(f"{given.seed} {k}")[0] or b"" for k in range(given.count)]
    read = 0
    for rules_hex in files:
        wrong = fault(program, rules_hex)
        if wrong:
            sys.exit(f"checklist: {wrong}\nwith rules.hex\n{rules_hex.decode('latin-1')}")
        read += not isinstance(ref.read_file(rules_hex), ref.Refusal)
    rooms = 0
    for rules_hex, writes in WRITES:
        pieces = writes.split("|")
        for room in range(len("".join(pieces)) + 1):
            through, wanted = came_through(program, rules_hex, room), that_fit(pieces, room)
            if through != wanted:
                sys.exit(f"checklist: with room for {room} bytes comes\n{through!r}\nin place of\n{wanted!r}")
            rooms += 1
    print(f"checklist: {len(files)} files, {read} of them rulesets, every line as the reference has it; "
          f"in {rooms} rooms, each piece of a line that fits")


main()
