#!/usr/bin/env python3
"""tools/speak.py --sheet with the library: the example sheet, short sheets, 256 names and more, all as the reference has them.

    PIRROZKETA_LIBRARY=$(host/library) python3 tests/sheet_tool.py
"""

import os
import subprocess
import sys
import tempfile

HERE = os.path.dirname(os.path.abspath(__file__))
sys.path.insert(0, os.path.join(HERE, "..", "tools"))

import frames
import programs
import reference as ref
import ruletext
import speak


def expected(rules, names):
    """What is printed, by the reference."""
    alphabet, rule_file = ruletext.load_rules(rules)
    rs = ref.read_file(rule_file)
    words, sets = ref.build(rs, ref.MONITOR_WORDS, ref.MONITOR_SETS)
    given = [alphabet.name(name) for name in names]
    said = ref.speak_sheet(rs, words, sets, frames.sheet_of(given), ref.MAX_NAMES * 256, ref.MAX_NAMES * 64)
    if isinstance(said, ref.Refusal):
        return f"the sheet -> {frames.refusal_text(*said)}\n"
    lines = [f"{name} -> " + (frames.refusal_text(*answer) if isinstance(answer, ref.Refusal)
                              else frames.said_text(answer.phones, answer.numbers, alphabet))
             for name, answer in zip(names, said.answers)]
    singly = sum(ref.walk(rs, words, sets, name, 256, 64)[1] for name in given)
    return "".join(line + "\n" for line in lines + [f"{len(names)} names: {said.steps} steps together, {singly} one by one"])


def printed(rules, sheet):
    done = subprocess.run([sys.executable, os.path.join(programs.ROOT, "tools", "speak.py"), "--rules", rules, "--sheet", sheet],
                          capture_output=True, env={**os.environ, "PYTHONUTF8": "1"})
    return done.returncode, done.stdout.decode(), done.stderr.decode()


def main():
    check = ref.Check()
    basque, six = programs.example("basque.hex"), programs.example("six.hex")
    with open(programs.example("basque.sheet"), encoding="utf-8") as file:
        roosts = speak.names_in(file.read())
    long = ["knee" * 16, "k" * 65, "kk" * 100, "\\40"]
    sheets = {"the example": (basque, roosts), "with classes": (programs.example("basque_classes.hex"), roosts), "no names": (six, []),
              "refused names": (six, ["knee", "nab", *long, "_", "keen", "knee nab"]),
              "256 names": (six, ["kn" + "e" * (k % 7) for k in range(256)]), "257 names": (six, ["k"] * 257)}
    for what, (rules, names) in sheets.items():
        with tempfile.NamedTemporaryFile("w", suffix=".sheet", encoding="utf-8") as file:
            file.write("".join(f"{name} ; {name}\n" for name in names))
            file.flush()
            check.equal(what, printed(rules, file.name), (0, expected(rules, names), ""))
    with tempfile.NamedTemporaryFile("wb", suffix=".hex") as rules:
        rules.write(ref.SIX_FILE[:-1])
        rules.flush()
        check.equal("a rule file that is not ended", printed(rules.name, programs.example("basque.sheet"))[0], 2)
    print(f"{check.passed} passed, {check.failed} failed")
    return 1 if check.failed else 0


if __name__ == "__main__":
    sys.exit(main())
