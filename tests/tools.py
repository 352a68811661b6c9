#!/usr/bin/env python3
"""The tools from outside, on good and bad input and from another folder, with the programs that were built.

    python3 tests/tools.py

Ends with a message at the first difference.
"""

import itertools
import os
import pty
import re
import shutil
import subprocess
import sys
import tempfile
import termios

ROOT = os.path.dirname(os.path.dirname(os.path.realpath(__file__)))
sys.path.insert(0, os.path.join(ROOT, "tools"))

import frames
import programs
import progress
import reference as ref
import ruletext

SAY, MONITOR = map(programs.built, ("say", "monitor"))
KNEE, NAB = "knee -> 6E 69 by rules 1 6 4, 10 steps\n", "nab -> refused 3 at 2: no rule fits the letter at that position\n"
KNEE_CONTESTED = (KNEE.replace("steps", "steps, 2 contested") + "  * 1 k   applied 1: # [k] n = | over 2: [k] = 6B\n"
                  "    2 n   applied 6: [n] = 6E\n  * 3 ee  applied 4: [ee] = 69 | over 5: [e] = 65\n")
UNSOUND = "a line is missing, not ended, or not sound"
IN_USE = "refused 20 at 0: the class is undefined, in use, of a symbol outside 40 to 5F, or of other letters than 1 to 32 from 01 to 3E, ascending\n"
SPACE_IN_RULE = "the space bar, 3F, separates words and stands in no rule; # is a word's boundary"
MOST = ref.MAX_CONTEXT
PROVING = "Proving and building `say` from its sources. This is done once and takes some minutes.\n"


def example(name):
    with open(os.path.join(ROOT, "examples", name), "rb") as file:
        return file.read()


def fake_monitor(other, count):
    """Takes the six rules and speaks knee as `monitor` does; what it answers to another name and to 27 is given."""
    answers = {"13": "060006", "15": "0600020008", "16*0B0E05": "04000A00026E6903000100060004", "16": other, "27": count}
    cases = "".join(f"{start}*) echo {frames.frame(bytes.fromhex(body)).decode().strip()};; " for start, body in answers.items())
    return f"while read line; do case $line in {cases}esac; done\n".encode()


SIX = example("six.hex")
CLASSES = "class 5F Nasal nm\nclass 40 vowel a e\n#<nasal> [k] <VOWEL> = 61\n[k] \\40 = 62\n[k] = 63\n[a] = 64\n[n] = 65\n"
CLASSES_HEX = "010100050005F4\n0740020105B1\n075F020D0E7D\n02000102010101005F0B4061ED\n020002000101010B40624C\n020003000100010B638B\n" \
              "02000400010001016493\n020005000100010E6584\n"
LONG_CONTEXT = ref.file_text(ref.Ruleset((ref.Numbered(1, ref.Rule(b"", b"\x0B")), ref.Numbered(2, ref.Rule(b"\5" * (MOST + 1), b"\x0B"))), 2))
LONG_AT = LONG_CONTEXT.rfind(b"\n", 0, -1) + 1      # its last line
FILES = {       # in the folder that the tools are called in
    "six.hex": SIX,
    "rules.hex": SIX,
    "six.rules": example("six.rules"),
    "crlf.hex": SIX.replace(b"\n", b"\r\n"),
    "lower.hex": SIX.lower(),
    "latin.hex": SIX.replace(b"0B", b"\xE7B"),
    "unended.hex": SIX[:-1],
    "long.hex": SIX.ljust(32_769, b"\n"),
    "longest.hex": SIX.ljust(32_768, b"\n"),
    "empty.hex": b"",
    "sum.hex": SIX.replace(b"F2", b"F3"),
    "context.hex": LONG_CONTEXT,
    "large.rules": "".join(f"[{a}{b}] = 61\n" for a in "abcdefghijklmnopqrs" for b in "abcdefghijklmnopqrstuvwxyz").encode(),
    "source.rules": b"[k] = 6B\n[e] = \xE7",
    "three.rules": "letter 1B ç\n# [çk] # = 61\n[ç] k = 62 63\n[ç] =\n[k] = 64\n".encode(),
    "classes.rules": CLASSES.encode(),
    "beside.hex": SIX,
    "beside.rules": b"letter 1B \xE7\n",
    "latin.names": b"knee\r\nna\xE7\r\n",
    "some.names": "\ufeffknee  ; a joint\r\n\r\n; nothing\r\nnab\r\n".encode(),
    "none.names": b"; none\n",
    "counts.sh": fake_monitor("0800080300000002", "0A01"),
    "places.sh": fake_monitor("0800080300000003", "0A02"),
    "speaks.sh": fake_monitor("0400080000010006", "0A00"),
    "answers.sh": fake_monitor("0800080300000002", "06"),
    "some.sheet": "knee ; a joint\n\nnab\n_\n".encode(),
    "latin.sheet": "knee\nça\n".encode(),
    "long.sheet": b"k" * 256,
    "spoken.sh": b"printf '255 0 20 3 26\\n255 2 2 110 105 3 1 6 4\\n3 2\\n255 0 0 0\\n'\n",
    "bytes.sh": b"printf '255 0 %d 3 0\\n3 1\\n3 1\\n3 1\\n' $(od -An -tu1 | tr -d ' ')\n",
    "refused.sh": b"echo 24 0 0 0 0\n",
    "lines.sh": b"echo 13 38\n",
    "few.sh": b"printf '255 0 20 2 26\\n3 2\\n3 2\\n'\n",
    "fails.sh": b"exit 3\n",
}


class Tools:
    """Runs the tools of one copy of the project in a folder."""

    def __init__(self, root, folder, path=os.environ["PATH"]):
        self.root, self.folder, self.passed = root, folder, 0
        self.environment = {**os.environ, "PATH": path, "PYTHONDONTWRITEBYTECODE": "1", "PYTHONUTF8": "1"}

    def command(self, words):
        name, *rest = words
        return [sys.executable, os.path.join(self.root, "tools", name), *rest]

    def run(self, words, given=b""):
        done = subprocess.run(self.command(words), cwd=self.folder, env=self.environment, input=given, capture_output=True)
        return done.returncode, done.stdout.decode(), done.stderr.decode()

    def at_terminal(self, words, typed):
        """The same with a terminal for all three; it does not repeat what is typed."""
        here, there = pty.openpty()
        attributes = termios.tcgetattr(there)
        attributes[3] &= ~termios.ECHO
        termios.tcsetattr(there, termios.TCSANOW, attributes)
        with subprocess.Popen(self.command(words), cwd=self.folder, env=self.environment,
                              stdin=there, stdout=there, stderr=there) as child:
            os.close(there)
            os.write(here, typed)
            shown = b""
            try:
                while data := os.read(here, 4096):
                    shown += data
            except OSError:         # so Linux says that the other end is closed
                pass
        os.close(here)
        return child.returncode, shown.decode().replace("\r\n", "\n")

    def expect(self, words, status, out="", err="", given=b""):
        self.compare(words, self.run(words, given), (status, out, err))

    def compare(self, what, got, wanted):
        if got != wanted:
            sys.exit(f"FAILED {what}\n   got {got!r}\nwanted {wanted!r}")
        self.passed += 1

    def fits(self, what, got, pattern):
        if re.fullmatch(pattern, got) is None:
            sys.exit(f"FAILED {what}\n   got {got!r}\nwanted {pattern}")
        self.passed += 1


def names(tools):
    tools.expect(["speak.py", "knee", "nab"], 0, KNEE + NAB)
    tools.expect(["speak.py"], 0, KNEE + NAB, given=b"knee\nnab\n")
    tools.expect(["speak.py"], 0)
    tools.expect(["speak.py", "--names", "some.names"], 0, KNEE + NAB)
    tools.expect(["speak.py", "--names", "none.names"], 0, given=b"knee\n")
    tools.expect(["speak.py", "--names", "latin.names"], 2, err="speak: latin.names: line 2, column 3: byte E7 is not UTF-8\n")
    tools.expect(["speak.py"], 2, err="speak: standard input: line 2, column 3: byte E7 is not UTF-8\n", given=FILES["latin.names"])
    tools.expect(["speak.py", "--names", "missing"], 2, err="speak: missing: No such file or directory\n")
    tools.expect(["speak.py", "--names", "."], 2, err="speak: .: Is a directory\n")
    cedilla = "no letter for 'ç' (U+00E7 LATIN SMALL LETTER C WITH CEDILLA)\n"
    tools.expect(["speak.py", "ça", "knee"], 2, "ça -> not sent: " + cedilla + KNEE)
    tools.expect(["speak.py", "a\tb"], 2, "a\tb -> not sent: no letter for U+0009\n")
    tools.expect(["speak.py", b"\xE7"], 2, "\\udce7 -> not sent: no letter for the byte E7, which is not UTF-8\n")
    tools.expect(["speak.py", "\\40"], 0, "\\40 -> refused 1 at 0: a byte of the name is no letter and no space\n")
    tools.expect(["speak.py", "eke knee", "e_nab", " ", "k  n"], 0,
                 "eke knee -> 65 6B 6E 69 by rules 5 2 3 1 6 4, 18 steps\n"
                 "e_nab -> refused 3 at 4: no rule fits the letter at that position\n"
                 "  -> nothing by no rules, 4 steps\nk  n -> 6B 6E by rules 2 6, 10 steps\n")
    tools.expect(["speak.py"], 0, "e e -> nothing by rules 3 3, 8 steps\n_e -> nothing by rule 3, 6 steps\n", given=b" e e ; two words\n_e\n")
    tools.expect(["speak.py", "--rules", os.path.join(ROOT, "examples", "silent_e.hex"), "stone barn"], 0,
                 "stone barn -> 73 74 4F 6E 62 52 6E [stəʊnbɑːn] by rules 69 70 20 64 28 52 48 64, 22 steps\n")
    # `say` takes 32,768 bytes: 2,519 lines of 13 bytes and one of 21 are just that; 2,520 and one of 9 are a byte more.
    for count, last, said in [(2519, b"kkkkkkkk", "kkkkkkkk -> 6B 6B 6B 6B 6B 6B 6B 6B by rules 2 2 2 2 2 2 2 2, 18 steps\n"),
                              (2520, b"kk", "kk -> 6B 6B by rules 2 2, 6 steps\n")]:
        tools.expect(["speak.py"], 0, (KNEE * count + said) * 2, given=(b"knee\n" * count + last + b"\n") * 2)
    long = "k" * 16_382
    tools.expect(["speak.py"], 2, f"{long} -> not sent: its line has 32,769 bytes, `say` takes 32,768\n", given=long.encode())
    tools.expect(["speak.py"], 0, f"{long[1:]} -> refused 2 at 0: the name has more than 64 letters and spaces\n", given=long[1:].encode())


def rule_files(tools):
    for rules in ("six.hex", "six.rules", os.path.join("..", os.path.basename(tools.folder), "six.hex")):
        tools.expect(["speak.py", "--rules", rules, "knee"], 0, KNEE)
    for name, fault in [
            ("crlf.hex", f"refused 13 at 0: {UNSOUND} (line 1, column 15: byte 0D, but a line ends in 0A alone)"),
            ("lower.hex", f"refused 13 at 0: {UNSOUND} (line 1, column 13: byte 66 is none of the digits 0-9 and A-F)"),
            ("latin.hex", f"refused 13 at 15: {UNSOUND} (line 2, column 17: byte E7 is none of the digits 0-9 and A-F)"),
            ("unended.hex", f"refused 13 at 124: {UNSOUND} (line 7, not ended by 0A)"),
            ("empty.hex", f"refused 13 at 0: {UNSOUND} (line 1, missing)"),
            ("sum.hex", f"refused 13 at 0: {UNSOUND} (line 1, sum not zero)"),
            ("long.hex", f"refused 13 at 32768: {UNSOUND} (the file has 32,769 bytes, `say` takes 32,768)"),
            ("context.hex", f"refused 14 at {LONG_AT}: a sound line breaks the file's form (line 3)"),
            ("longest.hex", "refused 14 at 145: a sound line breaks the file's form (line 8, under 2 bytes)"),
            # 19 times 26 targets: 1 left state; right the empty string, 26 letters and 494 targets.
            ("large.rules", "refused 11 at 33412: too few words for the tables (they need 33,412, `say` has 32,768)"),
            ("missing.hex", "No such file or directory"),
            ("missing.rules", "No such file or directory"),
            (".", "Is a directory"),
            ("source.rules", "line 2, column 7: byte E7 is not UTF-8")]:
        tools.expect(["speak.py", "--rules", name, "knee"], 2, err=f"speak: {name}: {fault}\n")
    tools.expect(["speak.py", "--rules", "beside.hex", "e"], 2, err="speak: beside.rules: line 1, column 11: byte E7 is not UTF-8\n")
    if os.geteuid():        # the superuser may read all
        os.chmod(os.path.join(tools.folder, "six.hex"), 0)
        tools.expect(["speak.py", "--rules", "six.hex", "knee"], 2, err="speak: six.hex: Permission denied\n")
        os.chmod(os.path.join(tools.folder, "six.hex"), 0o600)


def contested(tools):
    """The rules that fit at each letter, and how many letters have more than one."""
    nab = NAB + "    1 n  applied 6: [n] = 6E\n    2 a  no rule fits\n"
    tools.expect(["speak.py", "--contested", "knee", "nab"], 0, KNEE_CONTESTED + nab)
    tools.expect(["speak.py", "--contested"], 0, nab + KNEE_CONTESTED, given=b"nab\nknee\n")
    tools.expect(["speak.py", "--contested", "--names", "none.names"], 0)
    tools.expect(["speak.py", "--contested", "eke kn", "_", "\\40", "7"], 2,
                 "eke kn -> 65 6B 6E by rules 5 2 3 1 6, 14 steps, 2 contested\n"
                 "    1 e  applied 5: [e] = 65\n    2 k  applied 2: [k] = 6B\n  * 3 e  applied 3: [e] # = | over 5: [e] = 65\n"
                 "  * 5 k  applied 1: # [k] n = | over 2: [k] = 6B\n    6 n  applied 6: [n] = 6E\n"
                 "_ -> nothing by no rules, 4 steps, 0 contested\n"
                 "\\40 -> refused 1 at 0: a byte of the name is no letter and no space\n7 -> not sent: no letter for '7'\n")
    tools.expect(["speak.py", "--contested", "--rules", os.path.join(ROOT, "examples", "silent_e.hex"), "old pine"], 0,
                 "old pine -> 4F 6C 64 70 49 6E [əʊldpaɪn] by rules 50 62 54 66 13 64 28, 18 steps, 3 contested\n"
                 "  * 1 o  applied 50: [o] ld = 4F | over 65: [o] = 6F\n    2 l  applied 62: [l] = 6C\n    3 d  applied 54: [d] = 64\n"
                 "    5 p  applied 66: [p] = 70\n  * 6 i  applied 13: [i] ne# = 49 | over 59: [i] = 69\n    7 n  applied 64: [n] = 6E\n"
                 "  * 8 e  applied 28: [e] # = | over 55: [e] = 65\n")
    tools.expect(["speak.py", "--contested", "--rules", "classes.rules", "nka", "kk"], 0,
                 "nka -> 65 61 64 by rules 5 1 4, 8 steps, 1 contested\n    1 n  applied 5: [n] = 65\n"
                 "  * 2 k  applied 1: #<nasal> [k] <vowel> = 61 | over 2: [k] <vowel> = 62 | 3: [k] = 63\n    3 a  applied 4: [a] = 64\n"
                 "kk -> 63 63 by rules 3 3, 6 steps, 0 contested\n    1 k  applied 3: [k] = 63\n    2 k  applied 3: [k] = 63\n")
    tools.expect(["speak.py", "--contested", "--rules", "three.rules", "çk"], 0,
                 "çk -> 61 by rule 1, 6 steps, 1 contested\n"
                 "  * 1 çk  applied 1: # [çk] # = 61 | over 2: [ç] k = 62 63 | 3: [ç] =\n")
    for name, fault in [
            ("crlf.hex", f"refused 13 at 0: {UNSOUND} (line 1, column 15: byte 0D, but a line ends in 0A alone)"),
            ("long.hex", f"refused 13 at 32768: {UNSOUND} (the file has 32,769 bytes, `say` takes 32,768)"),
            ("large.rules", "refused 11 at 33412: too few words for the tables (they need 33,412, `say` has 32,768)")]:
        tools.expect(["speak.py", "--contested", "--rules", name, "knee"], 2, err=f"speak: {name}: {fault}\n")
    # 13 bytes before the name and its sum make 4,096 digits of 2,034 letters.
    long = "k" * 2035
    tools.expect(["speak.py", "--contested", long], 2, f"{long} -> not sent: its line has 4,098 digits, `monitor` takes 4,096\n")
    tools.expect(["speak.py", "--contested", long[1:]], 0, f"{long[1:]} -> refused 2 at 0: the name has more than 64 letters and spaces\n")
    for program, name, told, found in [("counts.sh", "knee", ([1, 6, 4], 1), ([1, 6, 4], 2)), ("places.sh", "nab", (3, 3), (3, 2)),
                                       ("speaks.sh", "nab", ([6], 0), (3, 2)), ("speaks.sh", "ke", ([6], 0), ([2, 3], 1))]:
        tools.expect(["speak.py", "--contested", "--program", f"sh {program}", name], 1,
                     err=f"speak: {name}: `monitor` says {told}, by the rule file it is {found}\n")
    tools.expect(["speak.py", "--contested", "--program", "sh answers.sh", "knee"], 1, err="speak: unknown answer: 06FA\n")
    tools.expect(["speak.py", "--contested", "--program", f"sh -c \"head -n 3 | '{MONITOR}'\"", "knee"], 1,
                 err="speak: 1 answers to 1 names and their counts\n")


def sheets(tools):
    """A file of names as one sheet, by programs that tell numbers: what tools/sheet.c tells, tests/sheet_tool.py tries."""
    sheet = lambda program, name="some.sheet": ["speak.py", "--sheet", name, "--program", f"sh {program}"]
    tools.expect(sheet("spoken.sh"), 0, KNEE.replace(", 10 steps", "") + NAB + "_ -> nothing by no rules\n3 names: 20 steps together, 26 one by one\n")
    # Lengths before letters: the numbers are the sheet's own bytes.
    refused = "refused 3 at 1: no rule fits the letter at that position\n"
    tools.expect(sheet("bytes.sh"), 0, f"knee -> {refused}nab -> {refused}_ -> {refused}3 names: 411145531412163 steps together, 0 one by one\n")
    tools.expect(sheet("refused.sh"), 0, "the sheet -> refused 24 at 0: the sheet has more than 256 names, or its last name is cut short\n")
    tools.expect(sheet("lines.sh"), 2, err=f"speak: {programs.example('six.hex')}: refused 13 at 38: {UNSOUND} (line 3)\n")
    tools.expect(sheet("few.sh"), 1, err="speak: 2 answers to 3 names\n")
    tools.expect(sheet("fails.sh"), 1, err="speak: the program ended with 3\n")
    tools.expect(sheet("spoken.sh", "missing"), 2, err="speak: missing: No such file or directory\n")
    tools.expect(sheet("spoken.sh", "latin.sheet"), 2, err="speak: ça: no letter for 'ç' (U+00E7 LATIN SMALL LETTER C WITH CEDILLA)\n")
    tools.expect(sheet("spoken.sh", "long.sheet"), 2, err=f"speak: {'k' * 256}: a length has one byte\n")
    for more in (["knee"], ["--names", "some.names"], ["--contested"]):
        status, out, err = tools.run(sheet("spoken.sh") + more)
        tools.compare(more, (status, out, err.splitlines()[-1]),
                      (2, "", "speak.py: error: --sheet takes no other names, and does not show contested letters"))


def rule_texts(tools):
    """Every rule of the examples, printed and typed again, is the same rule."""
    for name in ("six", "basque", "basque_classes", "silent_e"):
        alphabet, rules = ruletext.read_rules(example(name + ".rules").decode(), name)
        tools.compare(name, [ruletext.rule_of(ruletext.rule_text(rule, alphabet), alphabet) for rule in rules], rules)


def readable_rules(tools):
    tools.expect(["rules2hex.py", "six.rules"], 0, SIX.decode())
    tools.expect(["rules2hex.py", "-"], 0, SIX.decode(), given=FILES["six.rules"].replace(b"\n", b"\r\n"))
    tools.expect(["rules2hex.py", "classes.rules"], 0, CLASSES_HEX)
    # Four literal rules of the first, those with m before those with n; two of the second.
    status, out, _ = tools.run(["rules2hex.py", "--written-out", "classes.rules"])
    symbols = [line[14:24] for line in out.splitlines()[1:5]]
    tools.compare("written out", (status, len(out.splitlines()), symbols), (0, 1 + 9, ["000D0B0161", "000D0B0561", "000E0B0161", "000E0B0561"]))
    tools.expect(["rules2hex.py", "--written-out", "six.rules"], 0, SIX.decode())
    # Contexts as long as they can be.
    vowels, inner = ref.Class(0x40, b"\1\5"), "e" * (MOST - 2)
    longest = ref.Rule(b"\0\x40" + b"\5" * (MOST - 2), b"\x0B", b"\5" * (MOST - 2) + b"\x40\0", b"\x6B")
    tools.expect(["rules2hex.py", "-"], 0, ref.file_text(ref.Ruleset((ref.Numbered(1, longest),), 1, (vowels,))).decode(),
                 given=f"class 40 v a e\n#<v>{inner} [k] {inner}<v># = 6B\n".encode())
    tools.expect(["rules2hex.py", "source.rules"], 2, err="rules2hex: source.rules: line 2, column 7: byte E7 is not UTF-8\n")
    tools.expect(["rules2hex.py", "missing"], 2, err="rules2hex: missing: No such file or directory\n")
    for text, place, fault in [
            ("[k] = 6B\n [e] = 6\n", "line 2, column 8", "'6' is not bytes in hexadecimal, two digits each"),
            ("; one\n[k] 6B", "line 2, column 1", "a rule has one =, before its phones"),
            ("[k] = 6B = 6B", "line 1, column 10", "a rule has one =, before its phones"),
            ("[k = 6B", "line 1, column 1", "write left [target] right = phones"),
            ("( [ e e ] = 69 )\n( [ k ]\n  7 = 6B )", "line 3, column 3", "no letter for '7'"),
            ("( [ e ] = 69\n( [ k ] = 6B )", "line 1, column 1", "no closing parenthesis"),
            ("()", "line 1, column 2", "a rule has one =, before its phones"),
            ("n\u0303", "line 1, column 1", "a rule has one =, before its phones"),
            ("n\u0303 [k] = 6B", "line 1, column 1", "no letter for 'ñ' (U+00F1 LATIN SMALL LETTER N WITH TILDE)"),
            ("e [kkkkk] = 6B", "line 1, column 4", "at most 4 in the target, not 5"),
            (f"{'e' * (MOST + 1)} [k] = 6B", "line 1, column 1", f"at most {MOST} in the left context, not {MOST + 1}"),
            (f"[k] {'e' * (MOST + 2)} = 6B", "line 1, column 5", f"at most {MOST} in the right context, not {MOST + 2}"),
            (f"[k] = 6B\n#{'e' * MOST} [k] = 6B", "line 2, column 1", f"at most {MOST} in the left context, not {MOST + 1}"),
            (f"( [ k ] {'e ' * MOST}# = 6B )", "line 1, column 9", f"at most {MOST} in the right context, not {MOST + 1}"),
            (f"class 40 v a\n{'<v>' * (MOST + 1)}[k] = 6B", "line 2, column 1", f"at most {MOST} in the left context, not {MOST + 1}"),
            (f"class 40 v a\n[k]{'<v>' * MOST}# = 6B", "line 2, column 4", f"at most {MOST} in the right context, not {MOST + 1}"),
            ("e [] = 6B", "line 1, column 4", "the target is empty"),
            ("[k]  #e = 6B", "line 1, column 6", "# may stand only first in a left context or last in a right one"),
            ("[k] \\60 = 6B", "line 1, column 5", "letters are 01 to 3E, classes 40 to 5F"),
            ("[k] \\40 = 6B", "line 1, column 5", "no class \\40 is defined above"),
            ("[k] e <Front> = 6B", "line 1, column 7", "no class <front> is defined above"),
            ("[k] < = 6B", "line 1, column 5", "no letter for '<'"),
            ("class 40 v a\n[<v>] = 6B", "line 2, column 2", "a class stands in contexts, never in a target"),
            ("class 40 v a\n[k] <v>#e = 6B", "line 2, column 5", "# may stand only first in a left context or last in a right one"),
            ("class 40 v", "line 1, column 1", "write class, its symbol, its name, its letters"),
            ("class 60 v a", "line 1, column 7", "'60' is no byte from 40 to 5F"),
            ("class 3F v a", "line 1, column 7", "'3F' is no byte from 40 to 5F"),
            ("class 40 v a\nclass 40 w a", "line 2, column 7", "class 40 is defined above"),
            ("class 40 v a\nclass 41 V a", "line 2, column 10", "class <v> is defined above"),
            ("class 40 <v> a", "line 1, column 10", "'<v>' is no name of a class: < and > stand around it in rules"),
            ("class 40 v a #", "line 1, column 14", "a class has letters alone"),
            ("class 40 v a _", "line 1, column 14", "a class has letters alone"),
            ("class 40 v a\nclass 41 w b<v>", "line 2, column 12", "a class has letters alone"),
            ("class 40 v aea", "line 1, column 12", "a stands twice in the class"),
            ("class 40 v " + "".join(f"\\{letter:02X}" for letter in range(1, 34)), "line 1, column 12", "at most 32 letters in a class, not 33"),
            ("class 40 v " + "".join(f"\\{letter:02X}" for letter in range(1, 33)) + "\n" + "<v>[k] = 6B\n" * 17, "line 18, column 1",
             "at most 512 rules, classes written out: with this one there are 544"),
            ("[k] = 6B\n[e] _k = 6B", "line 2, column 5", SPACE_IN_RULE),
            ("_ [k] = 6B", "line 1, column 1", SPACE_IN_RULE),
            ("[k\\3F] = 6B", "line 1, column 2", SPACE_IN_RULE),
            ("[k] = 6B 00", "line 1, column 7", "phones are 01 to FF"),
            ("letter 40 x", "line 1, column 8", "'40' is no byte from 01 to 3E"),
            ("letter 3F x", "line 1, column 8", "'3F' is no byte from 01 to 3E"),
            ("letter 1B xy", "line 1, column 11", "a letter is one character, not 'xy'"),
            ("phone 69", "line 1, column 1", "write phone, a byte, its text"),
            ("[k] = 6B\n" * 513, "line 513, column 1", "at most 512 rules, classes written out: with this one there are 513")]:
        tools.expect(["rules2hex.py", "-"], 2, err=f"rules2hex: standard input: {place}: {fault}\n", given=text.encode())


def monitor(tools):
    tools.expect(["monitor.py", "--rules", "six.hex"], 0, "> read\ndone, last 6\n> plain e\nnothing by rule 3, 0 steps\n> quit\n",
                 given=b"read ; all\n\nplain e\nquit\nread\n")
    tools.expect(["monitor.py"], 0, "> read\ndone, last 6\n", given=b"read\n")
    tools.expect(["monitor.py", "--rules", "crlf.hex"], 0, f"> read\nrefused 13 at 0: {UNSOUND}\n", given=b"read\n")
    tools.expect(["monitor.py"], 2, "monitor: standard input: line 1, column 5: byte E7 is not UTF-8\n> clear\ndone\n",
                 given=b"say \xE7\nclear\n")
    tools.expect(["monitor.py"], 2, "> say 7\nmonitor: no letter for '7'\n", given=b"say 7\n")
    tools.expect(["monitor.py", "--rules", "missing.hex"], 2, err="monitor: missing.hex: No such file or directory\n")
    tools.expect(["monitor.py", "--program", "true one"], 1, "> read\n", "monitor: the program has ended\n", given=b"read\n")
    tools.expect(["monitor.py", "--frames"], 2, "1FE1\n", "monitor: standard input: line 2: unknown command fly: see help\n",
                 given=b"clear\nfly\n")
    for text, frames in [
            ("exception knee = 6E 69", "20040B0E05056E69E2"), ("exception k e=61", "20030B3F05612D"), ("exception =", "2000E0"),
            ("remove knee", "210B0E0505BC"), ("remove", "21DF"), ("exceptions", "22FFFFFFFFE2"), ("readout bytes=11", "220000000BD3"),
            ("show readout 2 255", "2300000002FFDC"), ("clear list", "24DC"), ("lend 35885", "2500008C2D22"), ("lend all", "25FFFFFFFFDF"),
            ("store unit 1 0xFF", "2600000001000000FFDA"), ("contested", "27D9"), ("repeat 2 remove @", "210101DD\n210102DC"),
            ("repeat 1 exception @@ = @61", "20040101010101016175"), ("class \\40 a e", "2840010592"), ("class \\40", "284098"),
            ("class k ba", "280B0201CA"), ("sheet knee,n", "2BFFFFFFFFFFFFFFFF01000040040B0E0505010E66"), ("sheet", "2BFFFFFFFFFFFFFFFF010000409C"),
            ("sheet k n , words=1 sets=2 phones=3 numbers=4", "2B000000010000000200030004030B3F0E0070"), ("edits", "29D7"), ("edits 0", "2A00000000D6"), ("edits 0x10002", "2A00010002D3"), ("add 0 \\40 [k] = 61", "10000001010001400B6141")]:
        tools.expect(["monitor.py", "--frames"], 0, frames + "\n", given=text.encode())
    tools.expect(["monitor.py"], 0, "> exception k n = 61\ndone, names 1, states 4\n> exception \\1D = 6263\ndone, names 2, states 5\n"
                                    "> exceptions\nk n = 61\n\\1D = 62 63\n> plain k_n\n61 by no rules, 0 steps\n"
                                    "> remove k n\ndone, names 1, states 2\n> clear list\ndone\n> exceptions\nno names\n",
                 given=b"exception k n = 61\nexception \\1D = 6263\nexceptions\nplain k_n\nremove k n\nclear list\nexceptions\n")
    # What is read out can be typed, spaces at the ends and in a row too.
    spaced = ["e", "k n", "k n_", "k__n", "_", "_k"]
    listed = "".join(f"{name} = 61\n" for name in spaced)
    status, out, _ = tools.run(["monitor.py"], "".join(f"exception {name} = 61\n" for name in spaced).encode() + b"exceptions\n")
    tools.compare("names with spaces", (status, out.partition("> exceptions\n")[2]), (0, listed))
    tools.expect(["monitor.py", "--rules", "six.hex"], 0,
                 "> read\ndone, last 6\n> add 0 [_] = 20\nrefused 6 at 0: the rule breaks the shape of a rule\n"
                 "> plain eke  nab\nrefused 3 at 6: no rule fits the letter at that position\n> exception nab = 61\ndone, names 1, states 4\n"
                 "> plain eke nab\n65 6B 61 by rules 5 2 3, 0 steps\n> plain eke_nab phones=2\nrefused 4 at 3: more phones than the lent bytes hold\n",
                 given=b"read\nadd 0 [_] = 20\nplain eke  nab\nexception nab = 61\nplain eke nab\nplain eke_nab phones=2\n")
    four, five = "e" * MOST, "e" * (MOST + 1)
    broken = "refused 6 at 0: the rule breaks the shape of a rule\n"
    tools.expect(["monitor.py", "--rules", "context.hex"], 0,
                 f"> read\nrefused 14 at {LONG_AT}: a sound line breaks the file's form\n> add 0 {four} [k] {four} =\ndone, last 1\n"
                 f"> add 0 {five} [k] =\n{broken}> add 0 [k] {four}# =\n{broken}> plain {four}k{four}\nrefused 3 at 1: no rule fits the letter at that position\n",
                 given=f"read\nadd 0 {four} [k] {four} =\nadd 0 {five} [k] =\nadd 0 [k] {four}# =\nplain {four}k{four}\n".encode())
    tools.expect(["monitor.py", "--rules", "six.hex"], 0,
                 "> contested\n0 contested\n> read\ndone, last 6\n> plain eke knee\n65 6B 6E 69 by rules 5 2 3 1 6 4, 0 steps\n"
                 "> contested\n3 contested\n> plain nab\nrefused 3 at 2: no rule fits the letter at that position\n"
                 "> contested\n3 contested\n", given=b"contested\nread\nplain eke knee\ncontested\nplain nab\ncontested\n")
    tools.expect(["monitor.py", "--rules", "six.hex"], 0,
                 "> read\ndone, last 6\n> build\ndone, 2 left and 8 right states, 644 words, 80 set words\n> edits\nedit count 0\n"
                 "> move 1 0\ndone, last 6\n> edits\nedit count 1\n> say kn\n"
                 "refused 22 at 0: the tables are from before an edit of the rules (0 steps)\n"
                 "> edits 0xFFFFFFFF\ndone\n> build\ndone, 2 left and 8 right states, 644 words, 80 set words\n"
                 "> show words 0 4\n0: FFFF FFFF 0002 0008\n> say kn\n6E by rules 1 6, 6 steps\n"
                 "> drop 1\nrefused 23 at 0: the last edit count, 4,294,967,295, is reached\n> clear\ndone\n> edits\nedit count 0\n",
                 given=b"read\nbuild\nedits\nmove 1 0\nedits\nsay kn\nedits 0xFFFFFFFF\nbuild\nshow words 0 4\nsay kn\ndrop 1\nclear\nedits\n")
    tools.expect(["monitor.py", "--rules", "six.hex"], 0,
                 "> read\ndone, last 6\n> build\ndone, 2 left and 8 right states, 644 words, 80 set words\n> sheet knee, nab, eke knee\n"
                 "done, 29 steps, 3 names\n6E 69 by rules 1 6 4\nrefused 3 at 2: no rule fits the letter at that position\n"
                 "65 6B 6E 69 by rules 5 2 3 1 6 4\n> contested\n3 contested\n> sheet knee, knee phones=3\ndone, 15 steps, 2 names\n"
                 "6E 69 by rules 1 6 4\nrefused 4 at 2: more phones than the lent bytes hold\n> sheet\ndone, 0 steps, 0 names\n"
                 "> sheet knee words=3\nrefused 16 at 0: the tables are unusable (0 steps)\n"
                 "> frame 2B FFFFFFFF FFFFFFFF 0100 0040 01\nrefused 24 at 0: the sheet has more than 256 names, or its last name is cut short (0 steps)\n",
                 given=b"read\nbuild\nsheet knee, nab, eke knee\ncontested\nsheet knee, knee phones=3\nsheet\nsheet knee words=3\n"
                       b"frame 2B FFFFFFFF FFFFFFFF 0100 0040 01\n")
    tools.expect(["monitor.py", "--rules", os.path.join(tools.root, "examples", "basque.hex")], 0,
                 "> exception ñ = 61\ndone, names 1, states 2\n> exceptions\nñ = 61 [a]\n", given="exception ñ = 61\nexceptions\n".encode())
    names = "".join(f"{letter}{letter}{letter} = 61 62 63\n" for letter in "abcdefghijklmnopqrstuvwxyz")
    tools.expect(["monitor.py"], 0, "".join(f"> exception {line}\ndone, names {k}, states {2 + 2 * k}\n"
                                            for k, line in enumerate(names.splitlines(), 1)) + f"> exceptions\n{names}",
                 given="".join(f"exception {line}\n" for line in names.splitlines()).encode() + b"exceptions\n")
    # The head of a file does not count the classes.
    tools.expect(["monitor.py", "--rules", "classes.rules"], 0,
                 "> read\ndone, last 5\n> class <vowel> a\n" + IN_USE + "> drop 1\ndone, last 5\n> drop 2\ndone, last 5\n> class <vowel> i\ndone, last 5\n"
                 "> add 0 [e] <vowel> = 66\ndone, last 6\n> plain e\nrefused 3 at 1: no rule fits the letter at that position\n> plain ei\n"
                 "refused 3 at 2: no rule fits the letter at that position\n> clear\ndone\n> write\n010100000000FE\n> class \\5F z\ndone, last 0\n"
                 "> class \\40 b\ndone, last 0\n> write\n010100000000FE\n07400102B6\n075F011A7F\n> add 0 [k] \\40 = 61\ndone, last 1\n"
                 "> write\n010100010001FC\n07400102B6\n075F011A7F\n020001000101010B40614E\n> contested\n0 contested\n",
                 given=b"read\nclass <vowel> a\ndrop 1\ndrop 2\nclass <vowel> i\nadd 0 [e] <vowel> = 66\nplain e\nplain ei\nclear\nwrite\nclass \\5F z\n"
                       b"class \\40 b\nwrite\nadd 0 [k] \\40 = 61\nwrite\ncontested\n")
    for text, fault in [("class \\40\\41 a", "write class, its symbol, its letters"), ("class", "class has other fields: see help"),
                        ("set_class \\40 a", "unknown command set_class: see help"), ("add 0 [k] <v> = 61", "no class <v> is defined above"),
                        ("exception knee 61", "write exception NAME = PHONES"),
                        ("exception k = 6", "'6' is not bytes in hexadecimal, two digits each"),
                        (f"exception {'k' * 256} = 61", "a length has one byte"), (f"sheet k,{'k' * 256}", "a length has one byte"), ("clear all", "clear or clear list"),
                        ("lend some", "'some' is no number"), ("lend 4294967296", "4294967296 does not fit into 4 bytes"),
                        ("store list 0 0", "store word, store set or store unit"), ("exceptions now", "exceptions has other fields: see help"),
                        ("contested knee", "contested has other fields: see help"), ("edits 1 2", "edits has other fields: see help"),
                        ("edits none", "'none' is no number"), ("edits 4294967296", "4294967296 does not fit into 4 bytes"),
                        ("show readout", "show words, sets or readout INDEX COUNT, show phones or show numbers")]:
        tools.expect(["monitor.py"], 2, f"> {text}\nmonitor: {fault}\n", given=text.encode() + b"\n")


def typed_names(tools):
    """Every short name of k, the letter 1D and the space bar, printed and typed again, is the same bytes."""
    names = [bytes(name) for length in range(5) for name in itertools.product(b"\x0B\x1D\x3F", repeat=length)]
    alphabet = ruletext.Alphabet()
    tools.expect(["monitor.py", "--frames"], 0, b"".join(frames.frame(b"\x21" + name) for name in names).decode(),
                 given="".join(f"remove {alphabet.text(name)}\n" for name in names).encode())
    tools.compare("one space prints as a space", alphabet.text(b"\x0B\x3F\x0E"), "k n")


def terminal(tools):
    words = ["try", "--program", SAY]
    tools.compare("prompt", tools.at_terminal(words, b"knee\n\nn\xE7\n7\nnab ; no\n\x04"), (
        0, f"Names, one a line; Ctrl-D ends.\n> {KNEE}> > standard input: line 3, column 2: byte E7 is not UTF-8\n"
           f"> 7 -> not sent: no letter for '7'\n> {NAB}> \n"))
    tools.compare("no prompt", tools.at_terminal(words + ["knee"], b""), (0, KNEE))
    tools.compare("contested at the prompt", tools.at_terminal(["try", "--contested", "--program", MONITOR], b"knee\n7\n\x04"), (
        0, f"Names, one a line; Ctrl-D ends.\n> {KNEE_CONTESTED}> 7 -> not sent: no letter for '7'\n> \n"))
    tools.compare("rules before prompt", tools.at_terminal(words + ["--rules", "empty.hex"], b"\x04"), (
        2, f"try: empty.hex: refused 13 at 0: {UNSOUND} (line 1, missing)\n"))
    tools.compare("monitor's prompt", tools.at_terminal(["monitor.py"], b"clear\nfly\n\x04"), (
        0, "help lists the commands; Ctrl-D ends.\n> done\n> monitor: unknown command fly: see help\n> \n"))


def proving(folder):
    """tools/try in a copy of the project, with an `rt` that proves nothing."""
    root, bin_folder = os.path.join(folder, "project"), os.path.join(folder, "bin")
    for part in ("tools", "examples"):
        shutil.copytree(os.path.join(ROOT, part), os.path.join(root, part))
    shutil.copy(os.path.join(ROOT, "crates.txt"), root)
    with open(os.path.join(root, "tools", "progress.py"), "r+", encoding="utf-8") as file:     # so that nothing waits long
        text = file.read()
        file.seek(0)
        file.write(text.replace("TICK = 1 ", "TICK = 0.1 "))
    os.mkdir(bin_folder)
    tools = Tools(root, folder, bin_folder)
    for crate in ("say", "monitor"):
        os.makedirs(os.path.join(root, "crates", crate))
    crate_folder = os.path.join(root, "crates", "say")
    built = os.path.join(crate_folder, "out", "say")
    tools.expect(["speak.py", "knee"], 2, err=f"speak: no program at {built}: `rt run` in {crate_folder} proves and builds it, "
                                              "or name one with --program\n")
    tools.expect(["try", "--rules", "missing.hex"], 2, err="try: missing.hex: No such file or directory\n")
    tools.expect(["try", "knee"], 2, err="try: `rt`, the Rattle toolchain, is not on the PATH; tools/speak.py needs none where "
                                         f"{built} was built before\n")
    status, _, _ = tools.run(["try", "--help"])
    tools.compare("help needs no proof", status, 0)
    write_rt(bin_folder, "echo 'note'; echo 'rt: refused'; exit 3")
    tools.expect(["try", "knee"], 1, err=PROVING + "note\nrt: refused\ntry: `say` is not proved: rt run ended with 3\n")
    write_rt(bin_folder, "exit 0")
    tools.expect(["try", "knee"], 1, err=PROVING + f"try: rt run ended well, but {built} is not there: "
                                                   f"remove {os.path.dirname(built)} and try again\n")
    # Some of the crates after a while, the others later: a line for the quarter passed, on standard error alone, and one at the end.
    tools.environment["PATH"] += os.pathsep + os.environ["PATH"]
    crates = sorted(programs.crates_of("say") - {"say"}, key=lambda crate: len(programs.crates_of(crate)))     # each after those below
    some, most = len(crates) // 3, len(crates) + 1
    told = [proof_told(crate, 40) for crate in crates]
    said = f"{proof_told('say', 40)}; mkdir out; cp '{SAY}' out/say; echo 'rt: running out/say'; echo 0D00F3"
    write_rt(bin_folder, "\n".join([f"test \"$* $PWD\" = 'run {crate_folder}' || exit 3", "sleep 0.3", *told[:some], "sleep 1", *told[some:], said]))
    took, left = r" crates proved in \d+ s", r"(, about \d+ s left)?"
    between, last = rf"\d+ of {most}{took}{left}", f"{most} of {most}{took}"
    status, out, err = tools.run(["try", "knee"])
    tools.compare("what try prints", (status, out), (0, KNEE))
    tools.fits("progress", err, re.escape(PROVING) + f"{some} of {most}{took}{left}\n({between}\n)*{last}\n")
    tools.expect(["try", "knee"], 0, KNEE)
    shutil.rmtree(os.path.dirname(built))
    status, shown = tools.at_terminal(["try", "knee"], b"")
    tools.compare("status at a terminal", status, 0)
    tools.fits("progress at a terminal", shown,
               re.escape(PROVING) + f"(\r{between} *)*\r{some} of {most}{took}{left} *(\r{between} *)*\r{last} *\n" + re.escape(KNEE))
    # What was built before, below a crate that is proved now, counts as done. That one fails: no more is told of the time, then all that rt said.
    os.remove(built)
    write_rt(bin_folder, "echo 'rt: chose --jobs 2 for rule_bytes'; echo 'crate rule_bytes: modules loaded=30 checked=10'; echo 'logic=not-proved'; "
                         "sleep 0.5; exit 1")
    failed = ("rt: chose --jobs 2 for rule_bytes\ncrate rule_bytes: modules loaded=30 checked=10\nlogic=not-proved\n"
              "try: `say` is not proved: rt run ended with 1\n")
    tools.expect(["try", "knee"], 1, err=PROVING + failed)
    status, shown = tools.at_terminal(["try", "knee"], b"")
    tools.fits("failure at a terminal", shown, re.escape(PROVING) + f"(\r1 of {most}{took} *)+\n" + re.escape(failed))
    write_rt(bin_folder, f"test \"$* $PWD\" = 'run {os.path.join(root, 'crates', 'monitor')}' && mkdir -p out && cp '{MONITOR}' out/monitor")
    tools.expect(["try", "--contested", "knee"], 0, KNEE_CONTESTED, PROVING.replace("say", "monitor"))
    tools.expect(["try", "--contested", "knee"], 0, KNEE_CONTESTED)
    return tools.passed


def time_left(tools):
    """How long proving may still take, by what it took so far."""
    now = [100]
    crates = ["numbers", "rules", "image", "unheard_of"]
    count = progress.Count({crate: set() for crate in crates}, lambda: now[0])
    mean = sum(progress.SECONDS.values()) / len(progress.SECONDS)
    weights = [progress.SECONDS[crate] for crate in crates[:3]] + [mean]
    tools.compare("weights", [progress.weight(crate) for crate in crates], weights)

    def heard(seconds, line, text):
        now[0] += seconds
        count.hear(line + "\n")
        tools.compare(line, count.text(), text)

    def heard_proof(seconds, crate, checked, text):
        count.hear(f"crate {crate}: modules loaded=30 checked={checked}\n")
        heard(seconds, "logic=proved functions=1 sum=0", text)

    heard(7, "", "0 of 4 crates proved in 7 s")
    heard(0, "logic=proved functions=1 sum=0", "0 of 4 crates proved in 7 s")
    heard_proof(0, "say", 3, "0 of 4 crates proved in 7 s")
    heard(0, "fn rules::f: proved", "0 of 4 crates proved in 7 s")
    heard_proof(1, "numbers", 0, "1 of 4 crates proved in 8 s")
    left = 40 * (weights[2] + mean) / weights[1]
    heard_proof(32, "rules", 40, f"2 of 4 crates proved in 40 s, about {progress.roughly(left)} left")
    heard_proof(0, "rules", 40, f"2 of 4 crates proved in 40 s, about {progress.roughly(left)} left")
    heard(0, "crate image: modules loaded=0 checked=9", f"2 of 4 crates proved in 40 s, about {progress.roughly(left)} left")
    heard(20, "logic=not-proved", f"2 of 4 crates proved in 60 s, about {progress.roughly(left - 20)} left")
    heard(1_000, "", "2 of 4 crates proved in 17 min 40 s")
    heard_proof(0, "image", 9, f"3 of 4 crates proved in 17 min 40 s, about {progress.roughly(1_060 * mean / sum(weights[1:3]))} left")
    heard_proof(0, "unheard_of", 1, "4 of 4 crates proved in 17 min 40 s")

    # What lies below a crate whose proof begins or ends was built before.
    count = progress.Count({"numbers": set(), "rules": set(), "image": {"numbers", "rules"}}, lambda: now[0])
    heard(0, "rt: chose --jobs 2 for say", "0 of 3 crates proved in 0 s")
    heard(0, "rt: chose --jobs 2 for image", "2 of 3 crates proved in 0 s")
    count = progress.Count(count.below, lambda: now[0])
    heard_proof(0, "image", 9, "3 of 3 crates proved in 0 s")
    for seconds, text in [(0.1, "10 s"), (10, "10 s"), (11, "20 s"), (89, "90 s"), (90, "2 min"), (149, "2 min"), (151, "3 min")]:
        tools.compare(f"{seconds} s", progress.roughly(seconds), text)

    tools.compare("without the toolchain's crates", programs.crates_of("rules_hex"), {"rules_hex"})
    tools.compare("crates not in the file", programs.crates_of("nothing"), {"nothing"})
    tools.compare("crates of crates", {"say", "rules", "numbers"} - programs.crates_of("say"), set())
    needed = programs.crates_of("say") | programs.crates_of("monitor")
    for what, crates in [("not measured", needed - progress.SECONDS.keys()), ("gone", progress.SECONDS.keys() - needed)]:
        if crates:
            print(f"tools/progress.py: {what}: {', '.join(sorted(crates))}")


def proof_told(crate, checked):
    """What rt prints of a crate's proof, by a shell."""
    lines = [f"rt: chose --jobs 2 for {crate}", f"fn {crate}::f: proved", f"crate {crate}: modules loaded=0 checked={checked}",
             "logic=proved functions=1 sum=0"]
    return "; ".join(f"echo '{line}'" for line in lines)


def write_rt(folder, script):
    path = os.path.join(folder, "rt")
    with open(path, "w", encoding="utf-8") as file:
        file.write("#!/bin/sh\n" + script + "\n")
    os.chmod(path, 0o755)


def main():
    with tempfile.TemporaryDirectory() as folder, tempfile.TemporaryDirectory() as other:
        for name, data in FILES.items():
            with open(os.path.join(folder, name), "wb") as file:
                file.write(data)
        tools = Tools(ROOT, folder)
        for part in (names, rule_files, contested, sheets, rule_texts, readable_rules, monitor, typed_names, terminal, time_left):
            part(tools)
        print(f"tools: {tools.passed + proving(other)} passed")


if __name__ == "__main__":
    main()
