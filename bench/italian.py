#!/usr/bin/env python3
"""Italian rules and names for the benchmark, from Debian's package festlex-ifd.

    python3 bench/italian.py FESTIVAL TO

FESTIVAL is the package's folder, /usr/share/festival where it is installed. Made in the folder TO: italian_classes.hex, the rules with
classes; italian.hex, the same written out; italian.names, NAMES names, each after a byte with its length. Exit status 3 where
the package's files are not there. Nothing of the package is part of this project.

The rules. The package reads a word by 43 rulesets in turn, each on what the one before gives: `italian` names the
letters, those called stress set accents, italian_grafo1 is the first that turns spelling into sounds (gl, gn, sc, c and g before
e and i, qu). italian_grafo1 is taken, since it is whole within our limits: 64 rules, 314 with its sets written out, of
contexts up to 3, targets up to 3 and phones up to 2. No rule is left out or cut; a package whose rules exceed a limit is refused.

Letters. Of its symbols, those that some rule of it has as its whole target, 41, become the letters 01, 02 .. in the order of these
rules. A set becomes a class, of those of its symbols that are letters: the others (S ts tS dz dZ L) no rule of it reads, and
so no name that is spoken has them. Phones become the bytes 01, 02 .. in the order in which rules first give them.

Names. Words of the package's lexicon, dicts/ifd/lex.out, of at most 64 letters, as `italian` names their letters: a to z as they are, a vowel with an
accent as its stressed symbol. The accents of the stress rulesets are not set. Each letter has a rule for itself alone, so that every
word is spoken. Of the different words, in the order of the lexicon, NAMES are taken at equal distances.
"""

import os
import re
import sys

sys.path.insert(0, os.path.join(os.path.dirname(os.path.abspath(__file__)), "..", "tools"))
import inputs
import ruletext
from inputs import Mistake

RULESET = "italian_grafo1"
NAMES = 600
LONGEST = 64
NOT_THERE = 3
STRESSED = {"à": "a1", "á": "a1", "è": "E1s", "é": "e1s", "ì": "i1", "í": "i1", "ò": "O1s", "ó": "o1s", "ù": "u1", "ú": "u1"}


def tree(words):
    """Lists in lists from the words of a Scheme text."""
    out = []
    for word in words:
        if word == ")":
            return out
        out.append(tree(words) if word == "(" else word)
    return out


def ruleset_of(text):
    """(sets, rules) of RULESET; a rule is (left, target, right, phones), lists of symbols."""
    words = (word for word in re.findall(r'"(?:\\.|[^"\\])*"|;[^\n]*|[()\[\]]|[^\s()\[\];"]+', text) if not word.startswith(";"))
    for form in tree(words):
        if isinstance(form, list) and form[:2] == ["lts.ruleset", RULESET]:
            rules = []
            for rule in form[3]:
                first, last, equals = rule.index("["), rule.index("]"), rule.index("=")
                rules.append((rule[:first], rule[first + 1:last], rule[last + 1:equals], rule[equals + 1:]))
            return {name: symbols for name, *symbols in form[2]}, rules
    raise Mistake(f"no ruleset {RULESET}")


def numbered(symbols, first):
    """A byte for each symbol, in the order in which they first occur."""
    return {symbol: first + k for k, symbol in enumerate(dict.fromkeys(symbols))}


def converted(sets, rules):
    """(letters, classes, rules) as ours."""
    letters = numbered((target[0] for left, target, right, _ in rules if len(target) == 1 and not left and not right), 1)
    phones = numbered((phone for rule in rules for phone in rule[3]), 1)
    used = [symbol for left, _, right, _ in rules for symbol in left + right if symbol in sets]
    classes = numbered(used, ruletext.FIRST_CLASS)
    codes = {**letters, **classes, "#": ruletext.BOUNDARY}
    ours = []
    for *symbols, given in rules:
        try:
            rule = ruletext.Rule(*(bytes(codes[symbol] for symbol in part) for part in symbols), bytes(phones[phone] for phone in given))
        except KeyError as symbol:
            raise Mistake(f"no rule reads {symbol}") from None
        if ruletext.shape_fault(rule):
            raise Mistake(f"{symbols}: {ruletext.shape_fault(rule)[1]}")
        ours.append(rule)
    members = {code: bytes(sorted(letters[symbol] for symbol in sets[name] if symbol in letters)) for name, code in classes.items()}
    if max(map(len, members.values())) > ruletext.MOST_CLASS:
        raise Mistake("a set has too many letters")
    if sum(ruletext.literal_count(rule, members) for rule in ours) > ruletext.MOST_RULES:
        raise Mistake("too many rules")
    return letters, members, ours


def names_in(lexicon, letters):
    """NAMES of the lexicon's words, at equal distances."""
    words = dict.fromkeys(re.findall(r'^\("([^"]*)"', lexicon, re.M))
    spelled = ([STRESSED.get(letter, letter) for letter in word] for word in words if 1 <= len(word) <= LONGEST)
    readable = [bytes(letters[symbol] for symbol in word) for word in spelled if all(symbol in letters for symbol in word)]
    return [readable[len(readable) * k // NAMES] for k in range(NAMES)]


def main():
    if len(sys.argv) != 3:
        raise Mistake("usage: italian.py FESTIVAL TO")
    folder, to = sys.argv[1:]
    paths = [os.path.join(folder, name) for name in ("italian_scm/italian_lts.scm", "dicts/ifd/lex.out")]
    if not all(map(os.path.exists, paths)):
        sys.exit(NOT_THERE)
    text, lexicon = (open(path, encoding="latin-1").read() for path in paths)
    letters, classes, rules = converted(*ruleset_of(text))
    names = names_in(lexicon, letters)
    for name, data in (("italian_classes.hex", ruletext.rule_file(rules, classes)),
                       ("italian.hex", ruletext.rule_file(ruletext.written_out(rules, classes), {})),
                       ("italian.names", b"".join(bytes([len(name)]) + name for name in names))):
        with open(os.path.join(to, name), "wb") as out:
            out.write(data)


if __name__ == "__main__":
    inputs.run(main, "italian")
