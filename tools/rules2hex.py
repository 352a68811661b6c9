#!/usr/bin/env python3
"""Turns readable rules into a rule file.

    python3 tools/rules2hex.py examples/basque.rules > rules.hex

A rule a line, numbered from 1 in order: left [target] right = phones, e.g.  # [k] n =  or, in
Festival's writing, ( [ e e ] = 69 ). # is the word boundary, \\1D the letter 1D, phones are
hexadecimal, ; starts a comment. The space bar separates words and stands in no rule.
'letter 1B ñ' names a letter of the team's own, 'phone 69 i' the sound of a phone (for speak.py
and monitor.py).

'class 40 front e i' makes <front>, symbol 40, a class of letters, as Festival's sets are:
[c] <front> = 73 stands for [c] e = 73 and [c] i = 73 under one number. Symbols are 40 to 5F,
letters 1 to 32 of any order; a class may stand anywhere in a context, as often as you like, never
in a target, and is defined above the rules that use it. At most 512 rules, classes written out:
--written-out gives that file, every one under a number of its own.
"""

import argparse
import sys

import inputs
import ruletext


def main():
    parser = argparse.ArgumentParser(description=__doc__, epilog=inputs.STATUSES,
                                     formatter_class=argparse.RawDescriptionHelpFormatter)
    parser.add_argument("rules", help="the readable rules, - for standard input")
    parser.add_argument("--written-out", action="store_true", help="no classes: the rules that they stand for")
    given = parser.parse_args()
    if given.rules == "-":
        alphabet, rules = ruletext.read_rules(inputs.read_input(), "standard input")
    else:
        alphabet, rules = ruletext.read_rules(inputs.read_text(given.rules), given.rules)
    classes = alphabet.classes
    if given.written_out:
        rules, classes = ruletext.written_out(rules, classes), {}
    sys.stdout.buffer.write(ruletext.rule_file(rules, classes))


if __name__ == "__main__":
    inputs.run(main, "rules2hex")
