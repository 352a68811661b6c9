#!/usr/bin/env python3
"""The example rulesets: the .hex files are what their readable sources say, and each name sounds
as its .names file says, by plain reading and by walk; with letter classes and written out alike. The
example sheet takes the steps that it says. The examples of docs/MONITOR.md: one conversation, answered as it stands there. The tools' limits are those of
the reference."""

import os
import re
import sys

HERE = os.path.dirname(os.path.abspath(__file__))
sys.path.insert(0, os.path.join(HERE, "..", "tools"))

import inputs
import programs
import reference as ref
import ruletext


def example(name):
    return inputs.read_bytes(programs.example(name))


def example_text(name):
    return inputs.read_text(programs.example(name))


def check_monitor(check):
    """Commands and their answers in turn; .. stands for the rest of a long one."""
    document = inputs.read_text(os.path.join(programs.ROOT, "docs", "MONITOR.md")).partition("## Commands")[2]
    held, answers = ref.Monitor(ref.SIX_FILE), []
    for digits, more in re.findall(r"^    ([0-9A-F]+)(\.\.)?(?:\s|$)", document, re.M):
        if answers:
            answer = answers.pop(0)
            check.equal("an answer of docs/MONITOR.md", answer[:len(digits)] if more else answer, digits)
        else:
            answers = held.answer(digits.encode()).decode().splitlines()
    check.equal("the last answer of docs/MONITOR.md", answers, [])


def spoken(check, what, rs, letters):
    """What a name gives; without a list, each of its words gives its part alone."""
    said = ref.plain_reading(rs, letters, 256, 64)
    check.equal(what + " is spoken", isinstance(said, ref.Spoken), True)
    if not isinstance(said, ref.Spoken):
        return ref.Spoken(b"", ())
    alone = [ref.plain_reading(rs, word.letters, 256, 64) for word in ref.words_of(letters)]
    check.equal(what + ", word by word", said, ref.Spoken(b"".join(word.phones for word in alone),
                                                          sum((word.numbers for word in alone), ()),
                                                          sum(word.contested for word in alone)))
    return said


def check_names(check, example_name, alphabet, names):
    """Each of the names sounds as it says there, and every letter that can be typed is spoken alone. What each gives."""
    rs = ref.read_file(example(example_name + ".hex"))
    check.equal(example_name + ".hex is a ruleset", isinstance(rs, ref.Ruleset), True)
    for letter in sorted(set(alphabet.letters.values())):
        spoken(check, f"{example_name}: letter {letter:02X} alone", rs, bytes([letter]))
    words, sets = ref.build(rs, ref.SAY_WORDS, ref.SAY_SETS)
    applied, reached, contested, given = set(), 0, 0, {}
    for line in example_text(names).splitlines():
        name, _, rest = line.partition(";")
        name = name.strip()
        if not name:
            continue
        letters = alphabet.name(name)
        said = spoken(check, name, rs, letters)
        check.equal(name + ", walk", ref.walk(rs, words, sets, letters, 256, 64), (said, 2 * len(letters) + 2))
        check.equal(name, "".join(alphabet.phones[p] for p in said.phones), rest.split(";")[0].strip())
        applied.update(said.numbers)
        reached += len(said.numbers)
        contested += said.contested
        given[name] = said.phones, said.contested
    print(f"{example_name}: {len(rs.rules)} rules, {ref.literal_total(rs)} written out, {sum(ref.states_in(words))} states, {len(words)} words, "
          f"{len(applied)} rules applied by the names, {contested} of {reached} reached letters contested")
    return rs, given


def check_classes(check, alphabets):
    """The rules with classes mean those that are written out, and give the same phones and the same contested letters."""
    (written, plainly), (classed, by_classes) = (check_names(check, name, alphabets[name], "basque.names")
                                                 for name in ("basque", "basque_classes"))
    check.equal("100 rules or more", len(written.rules) >= 100, True)
    check.equal("fewer with classes", len(classed.rules) < len(written.rules), True)
    check.equal("the rules that are meant", sorted(rule for _, rule in ref.literal_list(classed)), sorted(rule for _, rule in written.rules))
    check.equal("names by classes and written out", by_classes, plainly)
    check.equal("letters and sounds", (alphabets["basque_classes"].letters, alphabets["basque_classes"].phones),
                (alphabets["basque"].letters, alphabets["basque"].phones))


def check_sheet(check, name, alphabet):
    """A sheet: each name sounds as it says there, and the steps of all together and one by one are those that it tells."""
    rs, given = check_names(check, name, alphabet, name + ".sheet")
    words, sets = ref.build(rs, ref.SAY_WORDS, ref.SAY_SETS)
    names = [alphabet.name(typed) for typed in given]
    said = ref.speak_sheet(rs, words, sets, b"".join(bytes([len(each)]) + each for each in names), 256 * len(names), 64 * len(names))
    check.equal(name + ".sheet is spoken", isinstance(said, ref.Sheet), True)
    check.equal(name + ".sheet, as one by one", [(each.phones, each.contested) for each in said.answers], list(given.values()))
    singly = sum(ref.walk(rs, words, sets, each, 256, 64)[1] for each in names)
    told = f"; {len(names)} names: {said.steps} steps together, {singly} one by one"
    check.equal(name + ".sheet tells its steps", example_text(name + ".sheet").splitlines()[1], told)


def main():
    check = ref.Check()
    check.equal("the limits of the tools", tuple(ruletext.LIMITS.values()), ref.ROOMS)
    check_monitor(check)
    alphabets = {}
    for name in ("six", "basque", "basque_classes", "silent_e"):
        alphabets[name], rules = ruletext.read_rules(example_text(name + ".rules"), name)
        check.equal(name + ".hex is its source's", example(name + ".hex"), ruletext.rule_file(rules, alphabets[name].classes))
    check.equal("six.hex", example("six.hex"), ref.SIX_FILE)
    check_classes(check, alphabets)
    check_sheet(check, "basque", alphabets["basque"])
    check_names(check, "silent_e", alphabets["silent_e"], "silent_e.names")
    print(f"{check.passed} passed, {check.failed} failed")
    return 1 if check.failed else 0


if __name__ == "__main__":
    sys.exit(main())
