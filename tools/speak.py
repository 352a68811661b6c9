#!/usr/bin/env python3
"""Says names through the program `say` and prints what it answered in words.

    tools/try knee nab
    knee -> 6E 69 by rules 1 6 4, 10 steps
    nab -> refused 3 at 2: no rule fits the letter at that position

    tools/try --rules examples/basque.hex --names examples/basque.names

    tools/try --contested knee
    knee -> 6E 69 by rules 1 6 4, 10 steps, 2 contested
      * 1 k   applied 1: # [k] n = | over 2: [k] = 6B
        2 n   applied 6: [n] = 6E
      * 3 ee  applied 4: [ee] = 69 | over 5: [e] = 65

    tools/try --sheet examples/basque.sheet --rules examples/basque.hex

--sheet speaks all names of a file as one sheet, at most 256: the beginnings that their words share are looked up once. The last line
tells the steps of the sheet and those of its names one by one. It needs a C compiler and the library that hosts link (crate `host`),
with which it links tools/sheet.c; PIRROZKETA_LIBRARY may name one.

--contested is for those who write rules: each letter that reading reaches, with the rules that fit there in
their order. The first is applied; * marks the letters with more than one, where the name leans on that order.
They are found in the rule file here, and held against what the program `monitor` says of the name.

tools/try proves and builds `say` first, if that was not done (`monitor` with --contested), and says on standard
error how many crates are proved and about how long the others take; tools/speak.py takes it as it was built.
Names come from the command line or a file or, where none are given, from standard input: one a line,
; starts a comment. At a terminal they are asked for; Ctrl-D ends. A refused name is an answered one.
A space separates the words of a name; _ is one too, at an end. \\40 in a name stands for the byte 40.
"""

import argparse
import subprocess

import fitting
import frames
import inputs
import programs
import ruletext
from frames import four, two
from inputs import Failure, Mistake

LONGEST_INPUT = 32_768      # bytes that `say` takes, of rules.hex and of standard input alike
TABLE_WORDS = 32_768        # words that `say` has for its tables
TABLE_SETS = 4_096          # and set words
PHONES, NUMBERS = 256, 64   # that `say` has for a name
LONGEST_LINE = 4_096        # digits of a line that `monitor` takes
ACCEPTED = 255              # the library's code for what is not refused


def arguments():
    parser = argparse.ArgumentParser(description=__doc__, epilog=inputs.STATUSES,
                                     formatter_class=argparse.RawDescriptionHelpFormatter)
    parser.add_argument("name", nargs="*", help="a name to say")
    parser.add_argument("--names", metavar="FILE", help="a file of names")
    parser.add_argument("--rules", metavar="FILE", default=programs.example("six.hex"),
                        help="a rule file, NAME.hex (NAME.rules beside it tells letters, sounds and names of classes), "
                             "or readable rules (tools/rules2hex.py --help); default: examples/six.hex")
    parser.add_argument("--sheet", metavar="FILE", help="a file of names to speak as one sheet")
    parser.add_argument("--contested", action="store_true",
                        help="show the rules that fit at each letter, and how many letters have more than one")
    parser.add_argument("--program", metavar="PATH",
                        help="what to run, unproved; default: crates/say/out/say, with --contested crates/monitor/out/monitor, with --sheet "
                             "tools/sheet.c and the library")
    given = parser.parse_args()
    if given.sheet is not None and (given.name or given.names is not None or given.contested):
        parser.error("--sheet takes no other names, and does not show contested letters")
    return given


def names_in(text):
    return [name for name in map(inputs.without_comment, text.split("\n")) if name]


def names_given(given):
    """The names to say; None where they will be typed at the terminal."""
    if given.names is not None:
        return given.name + names_in(inputs.read_text(given.names))
    if given.name:
        return given.name
    return None if inputs.at_terminal() else names_in(inputs.read_input())


def batches(lines):
    """The lines in parts that `say` takes: together they may be longer than one input."""
    batch, size = [], 0
    for line in lines:
        if size + len(line) > LONGEST_INPUT:
            yield batch
            batch, size = [], 0
        batch.append(line)
        size += len(line)
    yield batch


def about_rule_file(rule_file, number, place):
    """What a refusal of the rule file comes from."""
    if number == 11:
        return f"they need {place:,}, `say` has {TABLE_WORDS:,}"
    if len(rule_file) > LONGEST_INPUT:
        return f"the file has {len(rule_file):,} bytes, `say` takes {LONGEST_INPUT:,}"
    line = rule_file[place:].partition(b"\n")
    why = frames.unsound(line[0] + line[1])
    return f"line {rule_file.count(10, 0, place) + 1}" + (f", {why}" if why else "")


class Speaker:
    """`say` with its rules."""

    program = "say"

    def __init__(self, command, folder, alphabet):
        self.command, self.folder, self.alphabet = command, folder, alphabet

    def line(self, name):
        line = frames.frame(b"\x03" + self.alphabet.name(name))
        if len(line) > LONGEST_INPUT:
            raise Mistake(f"its line has {len(line):,} bytes, `say` takes {LONGEST_INPUT:,}")
        return line

    def run(self, lines):
        done = subprocess.run(self.command, cwd=self.folder, input=b"".join(lines), stdout=subprocess.PIPE)
        if done.returncode:
            raise Failure(f"the program ended with {done.returncode}")
        return done.stdout.splitlines(keepends=True)

    def judge(self, rule_file, path):
        """Without names all that `say` answers is about its rules."""
        for answer in self.run([]):
            number, place = frames.refusal_of(answer)
            raise Mistake(f"{path}: {frames.refusal_text(number, place)} ({about_rule_file(rule_file, number, place)})")

    def answers(self, lines):
        for batch in batches(lines):
            answers = self.run(batch)
            if len(answers) != len(batch):
                raise Failure(f"{len(answers)} answers to {len(batch)} names")
            yield from answers

    def text(self, name, answer):
        return frames.answer_text(answer, self.alphabet)

    def speak(self, names):
        """Prints what is answered to each name. The exit status."""
        lines, faults = {}, {}
        for name in names:
            try:
                lines[name] = self.line(name)
            except Mistake as mistake:
                faults[name] = mistake
        answers = self.answers([lines[name] for name in names if name in lines])
        for name in names:
            text = f"not sent: {faults[name]}" if name in faults else self.text(name, next(answers))
            print(f"{name} -> {text}")
        return Mistake.status if faults else 0

    def converse(self):
        """Speaks each name as it is typed."""
        for number, line in inputs.input_lines("Names, one a line; Ctrl-D ends."):
            try:
                names = names_in(inputs.decoded_line(number, line))
            except Mistake as mistake:
                print(mistake)
            else:
                self.speak(names)
        return 0


class ContestedSpeaker(Speaker):
    """`monitor` in the place of `say`, lent what `say` has: it tells how many letters are contested too."""

    program = "monitor"
    preparing = [frames.frame(b"\x13"), frames.frame(b"\x15" + four(TABLE_WORDS) + four(TABLE_SETS))]
    asking = frames.frame(b"\x27")

    def line(self, name):
        line = frames.frame(b"\x16" + four(TABLE_WORDS) + four(TABLE_SETS) + two(PHONES) + two(NUMBERS) + self.alphabet.name(name))
        if len(line) > LONGEST_LINE + 1:
            raise Mistake(f"its line has {len(line) - 1:,} digits, `monitor` takes {LONGEST_LINE:,}")
        return line

    def run(self, lines):
        """The answers to the lines or, as of `say`, only the one that refuses the rules."""
        answers = super().run(self.preparing + lines)
        refused = [answer for answer in answers[:2] if not answer.startswith(b"06")]
        return refused[:1] or answers[2:]

    def judge(self, rule_file, path):
        super().judge(rule_file, path)
        self.ruleset = fitting.ruleset_in(rule_file)

    def answers(self, lines):
        """(the answer, the count's) to each name."""
        answers = self.run([part for line in lines for part in (line, self.asking)])
        if len(answers) != 2 * len(lines):
            raise Failure(f"{len(answers)} answers to {len(lines)} names and their counts")
        yield from zip(answers[::2], answers[1::2])

    def text(self, name, answers):
        answer, count = answers
        body = frames.body_of(answer)
        if body[0] == 0x04:
            contested = frames.contested_of(count)
            told = frames.spoken_of(body)[2], contested
            text = frames.spoken_text(body, self.alphabet) + f", {contested} contested"
        else:
            told = frames.refusal_of(answer)
            text = frames.refusal_text(*told)
            if told[0] != 3:        # about no letter
                return text
        reached = fitting.reached_letters(self.ruleset, self.alphabet.name(name))
        found = fitting.outcome(reached)
        if told != found:
            raise Failure(f"{name}: `monitor` says {told}, by the rule file it is {found}")
        return "\n".join([text, *fitting.listing(reached, self.alphabet)])


class SheetSpeaker:
    """tools/sheet.c, which has the library speak a sheet."""

    def __init__(self, command, folder, alphabet):
        self.command, self.folder, self.alphabet = command, folder, alphabet

    def run(self, sheet):
        """The program's lines, as numbers."""
        done = subprocess.run(self.command, cwd=self.folder, input=sheet, stdout=subprocess.PIPE)
        if done.returncode:
            raise Failure(f"the program ended with {done.returncode}")
        return [list(map(int, line.split())) for line in done.stdout.splitlines()]

    def text(self, code, *told):
        """The answer to a name: a place or, where it is spoken, its contested letters, its phones and its numbers."""
        if code != ACCEPTED:
            return frames.refusal_text(code, *told)
        _, count, *rest = told
        return frames.said_text(rest[:count], rest[count + 1:], self.alphabet)

    def bytes_of(self, name):
        """A name behind its length."""
        try:
            return frames.sheet_of([self.alphabet.name(name)])
        except Mistake as mistake:
            raise Mistake(f"{name}: {mistake}") from None

    def speak(self, names, rule_file, rules):
        (code, place, *told), *answers = self.run(b"".join(map(self.bytes_of, names)))
        if not told:
            raise Mistake(f"{rules}: {frames.refusal_text(code, place)} ({about_rule_file(rule_file, code, place)})")
        steps, count, singly = told
        if code != ACCEPTED:
            print(f"the sheet -> {frames.refusal_text(code, place)}")
            return 0
        if not len(names) == count == len(answers):
            raise Failure(f"{len(answers)} answers to {len(names)} names")
        for name, answer in zip(names, answers):
            print(f"{name} -> {self.text(*answer)}")
        print(f"{count} names: {steps} steps together, {singly} one by one")
        return 0


def speak_sheet(given, alphabet, rule_file, prove):
    names = names_in(inputs.read_text(given.sheet))
    if prove and not given.program:
        programs.prove(programs.LIBRARY)
    with programs.folder_with(rule_file) as folder:
        command = programs.command(given.program, programs.LIBRARY) if given.program else programs.linked("sheet.c", folder)
        return SheetSpeaker(command, folder, alphabet).speak(names, rule_file, given.rules)


def main(prove=False):
    given = arguments()
    alphabet, rule_file = ruletext.load_rules(given.rules)
    if given.sheet is not None:
        return speak_sheet(given, alphabet, rule_file, prove)
    names = names_given(given)
    kind = ContestedSpeaker if given.contested else Speaker
    if prove and not given.program:
        programs.prove(kind.program)
    with programs.folder_with(rule_file) as folder:
        speaker = kind(programs.command(given.program, kind.program), folder, alphabet)
        speaker.judge(rule_file, given.rules)
        return speaker.converse() if names is None else speaker.speak(names)


if __name__ == "__main__":
    inputs.run(main, "speak")
