"""Which rules fit where: a name read by trying every rule of a rule file at each letter that reading reaches. A rule with classes fits
where each of them has the letter that stands there."""

from typing import NamedTuple

import frames
from frames import number_of
from ruletext import BOUNDARY, SPACE, Rule, rule_text


class Numbered(NamedTuple):
    number: int
    rule: Rule

    def text(self, alphabet):
        return f"{self.number}: {rule_text(self.rule, alphabet)}"


class Reached(NamedTuple):
    """A letter that reading reaches. The first of the rules that fit there is applied; where there is none, reading ends."""

    position: int       # in the whole name, from 1
    letter: bytes
    fitting: list

    def target(self):
        return self.fitting[0].rule.target if self.fitting else self.letter

    def contested(self):
        return len(self.fitting) > 1

    def rules_text(self, alphabet):
        """The rules in order, the one that is applied before those that it wins over."""
        if not self.fitting:
            return "no rule fits"
        applied, *others = (numbered.text(alphabet) for numbered in self.fitting)
        return f"applied {applied}" + (" | over " + " | ".join(others) if others else "")


class Ruleset(NamedTuple):
    rules: list
    classes: dict       # the letters of each symbol

    def fits(self, rule, framed, i):
        """Whether it fits at position i of a framed word."""
        symbols, start = rule.left + rule.target + rule.right, i - len(rule.left)
        there = framed[start:start + len(symbols)] if start >= 0 else b""
        return len(there) == len(symbols) and all(letter in self.classes.get(symbol, bytes([symbol])) for symbol, letter in zip(symbols, there))


def ruleset_in(rule_file):
    """What a rule file that a program has taken says: after the head its classes, 07, then its rules in order."""
    bodies = [frames.body_of(line) for line in rule_file.splitlines(keepends=True)[1:]]
    return Ruleset([numbered_in(body) for body in bodies if body[0] != 0x07], {body[1]: body[3:] for body in bodies if body[0] == 0x07})


def numbered_in(body):
    """A rule line: 02, number (2), four lengths (1 each), their bytes."""
    parts, at = [], 7
    for length in body[3:7]:
        parts.append(body[at:at + length])
        at += length
    return Numbered(number_of(body[1:3]), Rule(*parts))


def reached_letters(ruleset, name):
    """The letters that reading reaches, in order, to the last or to one that no rule fits. Each word is framed by itself."""
    reached, before = [], 0
    for word in name.split(bytes([SPACE])):
        framed, i = bytes([BOUNDARY]) + word + bytes([BOUNDARY]), 1
        while i <= len(word):
            fitting = [numbered for numbered in ruleset.rules if ruleset.fits(numbered.rule, framed, i)]
            reached.append(Reached(before + i, framed[i:i + 1], fitting))
            if not fitting:
                return reached
            i += len(fitting[0].rule.target)
        before += len(word) + 1
    return reached


def outcome(reached):
    """What reading comes to: (the numbers applied, how many letters are contested), or refusal 3 with its place."""
    if reached and not reached[-1].fitting:
        return 3, reached[-1].position
    return [letter.fitting[0].number for letter in reached], sum(letter.contested() for letter in reached)


def listing(reached, alphabet):
    """A line for each letter; * marks those where the order of the rules decides."""
    targets = [alphabet.symbols_text(letter.target()) for letter in reached]
    far, wide = max((len(str(letter.position)) for letter in reached), default=0), max(map(len, targets), default=0)
    return [f"  {'*' if letter.contested() else ' '} {letter.position:>{far}} {target:<{wide}}  {letter.rules_text(alphabet)}"
            for letter, target in zip(reached, targets)]
