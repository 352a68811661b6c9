#!/usr/bin/env python3
"""Seeded random inputs for every call: rules, edits, rulesets, names, files, tables, lent lengths,
and whole runs of `say` and `monitor` with the output that reference.py expects.

    python3 tests/generate.py say --seed 7 --into DIR       DIR/rules.hex, DIR/stdin, DIR/expected
    python3 tests/generate.py monitor --seed 7 --into DIR
    python3 tests/generate.py lists --seed 7 --into DIR     for `monitor` too: a long one about the exceptions list
    python3 tests/generate.py stats --count 300 --seed 1    how often each answer and refusal occurs
"""

import argparse
import collections
import os
import random
import sys

import classes
import contested
import contexts
import lists
import reference as ref
import sheets
import stale
from reference import EMPTY, Numbered, Refusal, Rule, Ruleset, four, frame_line, two


def split_lines(data):
    """Lines end at 0A only."""
    parts = data.split(b"\n")
    return [p + b"\n" for p in parts[:-1]] + ([parts[-1]] if parts[-1] else [])


class Source:
    """All choices come from one seed, so that a case can be named by it."""

    def __init__(self, seed):
        self.random = random.Random(seed)
        self.chance = lambda p: self.random.random() < p
        self.pick = self.random.choice
        self.upto = lambda n: self.random.randint(0, n)

    # Rules ------------------------------------------------------------------

    def alphabet(self):
        """Mostly few letters, so that contexts meet; sometimes all of them."""
        size = self.pick([1, 2, 2, 2, 3, 3, 4, 8, 62])
        if size == 62:
            return bytes(range(1, ref.SPACE))
        return bytes(self.random.sample([1, 2, 3, 5, 11, 14, 26, 27, 61, 62], size))

    def symbols(self, alphabet, length):
        return bytes(self.pick(alphabet) for _ in range(length))

    def rule(self, alphabet, deep=None):
        """Of the shape; `deep` is the most symbols in a context."""
        deep = self.upto(ref.MAX_CONTEXT) if deep is None else deep
        left = self.symbols(alphabet, self.upto(deep))
        right = self.symbols(alphabet, self.upto(deep))
        if left and self.chance(0.35):
            left = b"\0" + left[1:]
        if right and self.chance(0.35):
            right = right[:-1] + b"\0"
        target = self.symbols(alphabet, self.pick([1, 1, 1, 1, 2, 2, 3, 4]))
        phones = bytes(self.random.randint(1, 255) for _ in range(self.pick([0, 1, 1, 1, 2, 3, 4])))
        return Rule(left, target, right, phones)

    def neighbour(self, rule, alphabet):
        """A rule that shares most of its patterns with another: shared prefixes and suffixes."""
        left, target, right, phones = rule
        kind = self.upto(5)
        if kind == 0:
            left = left[1:]
        elif kind == 1:
            right = right[:-1]
        elif kind == 2 and len(left) < ref.MAX_CONTEXT and left[:1] != b"\0":
            left = self.symbols(alphabet, 1) + left
        elif kind == 3 and len(right) < ref.MAX_CONTEXT and right[-1:] != b"\0":
            right = right + self.symbols(alphabet, 1)
        elif kind == 4:
            target = target[:-1] + self.symbols(alphabet, 1)
        else:
            phones = bytes([self.random.randint(1, 255)])
        return Rule(left, target, right, phones)

    def bad_rule(self, alphabet):
        """A rule that breaks the shape in one way; a length may exceed its field."""
        rule = self.rule(alphabet)
        many = lambda n: self.symbols(alphabet, n)
        inner = self.random.randint(1, ref.MAX_CONTEXT - 1)
        return self.pick([
            lambda: rule._replace(target=b""),
            lambda: rule._replace(target=many(self.pick([5, 6, 255]))),
            lambda: rule._replace(phones=many(self.pick([5, 6, 255]))),
            lambda: rule._replace(left=many(inner) + b"\0"),
            lambda: rule._replace(right=b"\0" + many(inner)),
            lambda: rule._replace(target=self.spoil(rule.target, [0, 0x3F, 0x3F, 0x40, 0x5F, 0xFF])),
            lambda: rule._replace(left=self.spoil(rule.left + many(1), [0x3F, 0x3F, 0x60, 0x61, 0xFF])[:ref.MAX_CONTEXT]),
            lambda: rule._replace(right=self.spoil(many(1) + rule.right, [0x3F, 0x3F, 0x60, 0x61, 0xFF])[-ref.MAX_CONTEXT:]),
            lambda: rule._replace(phones=self.spoil((rule.phones + b"\1")[:4], [0])),
        ])()

    def spoil(self, text, values):
        at = self.upto(len(text) - 1)
        return text[:at] + bytes([self.pick(values)]) + text[at + 1:]

    # Rulesets -----------------------------------------------------------------

    def rule_list(self, count, alphabet, deep=None):
        rules = []
        while len(rules) < count:
            rules.append(self.neighbour(self.pick(rules), alphabet) if rules and self.chance(0.4)
                         else self.rule(alphabet, deep))
        return rules

    def covered(self, rules, alphabet):
        """With a rule for each letter at the end, so that most names are spoken."""
        singles = [Rule(b"", bytes([c]), b"", bytes([0x40 + c])) for c in alphabet]
        return rules + singles

    def numbered(self, rules, given=()):
        """Distinct numbers in any order, with gaps, as edits leave them."""
        last = min(ref.MAX_NUMBER, len(rules) + self.pick([0, 0, 1, 5, 300, 70_000]))
        numbers = (list(range(1, len(rules) + 1)) if self.chance(0.3)
                   else self.random.sample(range(1, last + 1), len(rules)))
        return Ruleset(tuple(map(Numbered, numbers, rules)), last, given)

    def ruleset(self, most=512):
        """Half of them with classes; `most` is of literal rules then, or there are about as many as there may be."""
        alphabet = self.alphabet()
        count = min(most, self.pick([0, 1, 2, 5, 10, 20, 20, 40, 64, 65, 130, 512]))
        rules = self.rule_list(count, alphabet, self.pick([None, 1, 2, 3, ref.MAX_CONTEXT]))
        ending = self.covered([], alphabet) if self.chance(0.7) else []
        if self.chance(0.5):
            return self.numbered((rules + ending)[-most:])
        brim = most == ref.MAX_RULES and self.chance(0.4)
        rules, given = classes.classed(self, rules, alphabet, most - len(ending))
        if brim:
            rules = classes.brimming(self, rules, given, alphabet, most - len(ending))
        return self.numbered((rules + ending)[-most:], given)

    def sized_ruleset(self, states):
        """A ruleset of exactly so many states on both sides together, or close below."""
        alphabet, rules, lefts, rights = bytes(range(1, 12)), [], {b""}, {b""}
        prefixes = lambda pattern: {pattern[:k] for k in range(len(pattern) + 1)}
        for _ in range(2000):
            rule = self.rule(alphabet, 2)
            more = lefts | prefixes(ref.left_pattern(rule)), rights | prefixes(ref.right_pattern(rule))
            if len(more[0]) + len(more[1]) <= states and len(rules) < 512:
                rules.append(rule)
                lefts, rights = more
            if len(lefts) + len(rights) == states:
                break
        return self.numbered(rules)

    # Edits -------------------------------------------------------------------

    def place(self, count):
        return self.pick([0, count, self.upto(count), self.upto(count), max(0, count - 1),
                          min(0xFFFF, count + 1), 513, 0xFFFF]) if self.chance(0.5) else self.upto(count)

    def number(self, rs):
        held = [n for n, _ in rs.rules]
        if held and self.chance(0.75):
            return self.pick(held)
        return self.pick([0, min(0xFFFF, rs.last + 1), 0xFFFF, self.upto(rs.last)])

    def edit(self, rs, alphabet):
        kind = self.random.random()
        if kind < 0.5:
            return "add", self.added_rule(rs, alphabet), self.place(len(rs.rules))
        if kind < 0.65:
            return classes.setting_edit(self, rs, alphabet)
        if kind < 0.82:
            return "drop", self.number(rs)
        return "move", self.number(rs), self.place(len(rs.rules))

    def added_rule(self, rs, alphabet):
        """Mostly one that can be added; some break the shape, others have a context that is too long, of letters or with classes, defined or not."""
        if self.chance(0.1):
            return self.bad_rule(alphabet)
        if self.chance(0.08):
            symbols = [given.symbol for given in rs.classes] or [classes.FIRST]
            return classes.with_classes(self, contexts.too_long(self, self.rule(alphabet), alphabet), self.pick([[], symbols]))
        return classes.added_rule(self, rs, self.rule(alphabet, self.pick([0, 0, 1, 2, ref.MAX_CONTEXT])))

    def edits(self, count, rs=EMPTY):
        """A list of edits that knows the ledger, so that most of it is accepted."""
        alphabet, made = self.alphabet(), []
        for _ in range(count):
            made.append(self.edit(rs, alphabet))
            _, rs = ref.replay(made[-1:], rs)
        return made

    # Names -------------------------------------------------------------------

    def name(self, rs):
        """From the rules' own symbols, so that contexts are met, often of several words; sometimes too long or with bad bytes."""
        rules = ref.literal_list(rs)
        held = bytes(sorted(set(b"".join(b"".join(r[:3]) for _, r in rules)) - {0})) or b"\1\5"
        length = self.pick([0, 1, 2, 3, 5, 8, 12, 12, 30, 63, 64])
        name, spaces = b"", self.chance(0.6)
        while len(name) < length:
            if rules and self.chance(0.6):
                name += b"".join(self.pick(rules).rule[:3]).replace(b"\0", lists.SPACE if spaces else b"")
            else:
                name += bytes([self.pick(held)])
        name = self.spaced(name[:length]) if spaces else name[:length]
        if self.chance(0.04):
            name = self.spoil(name, range(1, 64)) if name else name
        if self.chance(0.05):
            name += self.symbols(held, self.random.randint(65, 70) - len(name))
        if name and self.chance(0.05):
            name = self.spoil(name, [0, 0x40, 0x41, 0x7F, 0x80, 0xFF])
        return name

    def spaced(self, name):
        """Some of its letters become spaces: at the ends and in a row too, so that words have no letters."""
        for _ in range(self.pick([0, 1, 1, 2, 4]) if name else 0):
            at = self.pick([0, len(name) - 1, self.upto(len(name) - 1), self.upto(len(name) - 1)])
            row = lists.SPACE * min(self.pick([1, 1, 1, 2, 3]), len(name) - at)
            name = name[:at] + row + name[at + len(row):]
        return name

    # Files -------------------------------------------------------------------

    def resummed(self, line):
        """A sound line with one byte changed: for refusal 14 and not 13."""
        body = ref.sound(line.rstrip(b"\n"))
        if not body:
            return line
        kind = self.upto(3)
        if kind == 0:
            body += bytes([self.upto(255)])
        elif kind == 1 and len(body) > 1:
            body = body[:-1]
        else:
            at = self.pick([0, 1, 2, 3, 4, 5, 6, 7, len(body) - 1])
            at = min(at, len(body) - 1)
            body = body[:at] + bytes([self.pick([0, 1, 2, 3, 5, 7, 0x3F, 0x40, 0xFF, self.upto(255)])]) + body[at + 1:]
        return frame_line(body)

    def damaged(self, data):
        """A file after one accident of a card, an editor or a cable."""
        lines = split_lines(data) or [b""]
        at, k, m = self.upto(max(0, len(data) - 1)), self.upto(len(lines) - 1), self.upto(len(lines) - 1)
        kind = self.upto(20)
        if kind >= 16:
            return b"".join((classes if kind < 19 else contexts).damaged(self, lines))
        if kind == 0 and data:          # a bit
            return data[:at] + bytes([data[at] ^ 1 << self.upto(7)]) + data[at + 1:]
        if kind == 1:                   # a digit
            return data[:at] + bytes([self.pick(b"0123456789ABCDEFabcdef \r\nG")]) + data[at + 1:]
        if kind == 2:
            return data[:at]
        if kind == 3:
            return b"".join(lines[:k])
        if kind == 4:
            return b"".join(lines[:k] + [lines[k]] + lines[k:])
        if kind == 5:
            lines[k], lines[m] = lines[m], lines[k]
            return b"".join(lines)
        if kind == 6:
            return b"".join(lines[:k] + lines[k + 1:])
        if kind == 7:
            return data.replace(b"\n", self.pick([b"\r\n", b"\r", b"", b"\n\n", b" \n"]))
        if kind == 8:
            return data.lower() if self.chance(0.5) else b"".join(lines[:k] + [lines[k].lower()] + lines[k + 1:])
        if kind in (9, 13):
            return data + self.pick([b"\n", b" ", b"0", lines[-1], lines[0], b"\x00"])
        if kind == 10:
            return data[:-1]
        if kind == 11:                  # the head's fields, summed again
            return self.other_head(lines[0], len(lines) - 1) + b"".join(lines[1:])
        if kind == 12 and len(lines) > 1:   # a number repeated, or just past `last`
            body = ref.sound(lines[k].rstrip(b"\n")) or b"\0\0\0"
            other = ref.sound(lines[m].rstrip(b"\n")) or b"\0\0\0"
            lines[k] = frame_line(body[:1] + other[1:3] + body[3:])
            return b"".join(lines)
        lines[k] = self.with_space(lines[k]) if kind == 14 else self.resummed(lines[k])
        return b"".join(lines)

    def with_space(self, line):
        """A rule line with a symbol that became 3F, summed again."""
        body = ref.sound(line.rstrip(b"\n")) or b""
        symbols = body[7:7 + sum(body[3:6])]
        if body[:1] != b"\x02" or not symbols:
            return line
        return frame_line(body[:7] + self.spoil(symbols, lists.SPACE) + body[7 + len(symbols):])

    def other_head(self, line, count):
        body = ref.sound(line.rstrip(b"\n")) or b"\1\1\0\0\0\0"
        last = int.from_bytes(body[4:6], "big")
        kind = self.upto(5)
        if kind == 0:
            return self.resummed(line)
        if kind < 4:
            count = self.pick([max(0, count - 1), count + 1, 512, 513, 514, 0xFFFF])
        else:
            last = self.pick([0, max(0, last - 1), max(0, count - 1), 0xFFFF])
        return frame_line(body[:2] + two(count) + two(last))

    def file(self, rs):
        data = ref.file_text(rs)
        for _ in range(self.pick([1, 1, 1, 2, 3])):
            data = self.damaged(data)
        return data

    # Tables and lent lengths -----------------------------------------------------

    def lent(self, need):
        return self.pick([need, need, need, need + 1, need + 1000, max(0, need - 1), self.upto(ref.ROWS), self.upto(ref.ROWS),
                          self.upto(need), 0x10000, 0xFFFFFFFF])

    def word_damage(self, lefts, rights, symbols):
        """A count, of edits or of states, or an entry under one of the symbols, often of a state near the root."""
        if self.chance(0.1):
            return stale.word_damage(self)
        if self.chance(0.1):
            return self.pick([2, 3]), self.pick([0, 1, lefts, rights, 0xFFFF])
        base, states = self.pick([(ref.ROWS, lefts), (ref.ROWS + 64 * lefts, rights)])
        state = self.upto(max(0, states - 1)) if self.chance(0.4) else self.upto(min(3, max(0, states - 1)))
        value = self.pick([0, states, states, max(0, states - 1), 0xFFFF, self.upto(states)])
        return base + 64 * state + self.pick(symbols), value

    def set_damage(self, value, count):
        return self.pick([0, 2**64 - 1, value ^ 1 << self.upto(63), 1 << count % 64, value << 1 & 2**64 - 1])

    # Whole runs of `say` ------------------------------------------------------------

    def line_damage(self, line):
        """A line that is unsound, or sound and another frame."""
        kind = self.upto(6)
        if kind == 0:
            return line.lower()
        if kind == 1:
            return line[:1] + line
        if kind == 2:
            return self.spoil(line[:-1], b"0123456789ABCDEFG \r") + b"\n"
        if kind == 3:
            return self.pick([b"\n", b"0\n", b"00\n", b"03\n", b"FD\n", b"\x00\n", b"03FD\r\n"])
        if kind == 4:
            return frame_line(bytes([self.upto(255)]) + bytes.fromhex(line.decode()[2:-3]))
        if kind == 5:
            return line[:-2] + b"\n"
        return self.resummed(line)

    def say_rules(self):
        kind = self.random.random()
        if kind < 0.02:
            return None
        if kind < 0.04:
            return self.pick([b"\n" * 32_768, b"\n" * 32_769, ref.SIX_FILE.ljust(32_768, b"0"),
                              ref.SIX_FILE.ljust(32_769, b"\n")])
        if kind < 0.12:
            return ref.file_text(self.sized_ruleset(self.pick([511, 512])))
        if kind < 0.2:
            return ref.SIX_FILE
        rs = self.ruleset(self.pick([20, 20, 40, 40, 60, 60, 512]))
        return self.file(rs) if self.chance(0.5) else ref.file_text(rs)

    def say_run(self):
        """(rules.hex or None, standard input)."""
        rules_hex = self.say_rules()
        rs = ref.read_rules_hex(rules_hex)
        rs = EMPTY if isinstance(rs, Refusal) else rs
        names = b""
        for _ in range(self.pick([0, 1, 5, 20, 40])):
            line = frame_line(b"\x03" + self.name(rs))
            names += self.line_damage(line) if self.chance(0.1) else line
        if self.chance(0.05):
            names = names[:-1]
        if self.chance(0.04):
            names = names.ljust(self.pick([32_768, 32_769]), b"\n" if self.chance(0.3) else b"0")
        return rules_hex, names

    # Whole sessions of `monitor` ---------------------------------------------------------

    def monitor_session(self, length=60):
        """(rules.hex or None, lines, answers): each command is made for the state the last one left."""
        rules_hex = self.say_rules()
        held, alphabet = ref.Monitor(rules_hex), self.alphabet()
        lines, answers = [], []
        # Most sessions start with something to speak by.
        bodies = [b"\x13", lists.BUILDING] if self.chance(0.6) else []
        for _ in range(self.upto(length)):
            bodies = bodies or self.commands(held, alphabet)
            line = frame_line(bodies.pop(0))
            if self.chance(0.04):
                line = self.line_damage(line)
            elif self.chance(0.005):
                size = ref.MONITOR_LINE // 2 + self.pick([-1, 0, 1])
                line = speech_line(self.pick([0x16, 0x17]), size, self.pick(alphabet))
            for part in split_lines(line):
                if part.endswith(b"\n"):
                    try:
                        answers.append(held.answer(part[:-1]))
                        lines.append(part)
                    except ref.Unspecified:     # the list's memory was stored over
                        pass
        if lines and self.chance(0.05):
            lines.append(self.pick([b"13ED", b"0", frame_line(b"\x1F")[:-1]]))
            answers.append(held.answer(None))
        return rules_hex, lines, answers

    def commands(self, held, alphabet):
        """One command, or several that belong together: a name and the count of its contested letters, a sheet and what it left, a change of
        the rules and new tables."""
        if self.chance(0.04):
            bodies = contested.sharing(self, held, self.name(held.ruleset()))
            if bodies:
                return bodies
        if self.chance(0.2 if held.held.edits == ref.MAX_EDITS else 0.04):      # a spent count refuses all edits: leave it soon
            return stale.commands(self, held)
        if self.chance(0.08) and held.listed is not ref.UNKNOWN:
            rs = held.ruleset()
            _, _, words, sets = ref.needed(rs) if ref.is_ruleset(rs) else (1, 1, 132, 16)
            return sheets.commands(self, held, alphabet, lambda: self.name(rs), words, sets)
        body = self.command(held, alphabet)
        if body[0] in stale.CHANGING:
            return [body, *stale.renewed(self, held)]
        return [body, lists.ASKING] if body[0] in (0x16, 0x17) and self.chance(0.6) else [body]

    def command(self, held, alphabet):
        rs = held.ruleset()
        valid = ref.is_ruleset(rs)
        lefts, rights, words, sets = ref.needed(rs) if valid else (1, 1, 132, 16)
        kind = self.random.random()
        if not valid and self.chance(0.3):      # an impossible ruleset refuses all: leave it soon
            return self.pick([b"\x13", b"\x1F"])
        if held.listed is ref.UNKNOWN or self.chance(0.25 if held.units < ref.LIST_UNITS else 0.15):
            return lists.command(self, held, alphabet)
        if kind < 0.25:
            return self.edit_body(self.edit(rs, alphabet))
        if kind < 0.30:
            return b"\x13"
        if kind < 0.35:
            need = len(ref.file_text(rs)) if valid else 15
            return b"\x14" + four(self.pick([need, need - 1, 0, ref.LONGEST_FILE, ref.LONGEST_FILE + 1, 0x10000, 0xFFFFFFFF]))
        if kind < 0.45:
            return b"\x15" + four(self.lent(words)) + four(self.lent(sets))
        if kind < 0.72:
            return self.speech_body(held, rs, valid, words, sets)
        if kind < 0.78:
            if self.chance(0.5):
                symbols = b"\0" + b"".join(r.target for _, r in rs.rules)
                built_lefts, built_rights = ref.states_in(held.words)
                at, value = self.word_damage(min(built_lefts, ref.MAX_LEFT_STATES), min(built_rights, ref.MAX_RIGHT_STATES), symbols)
                at = self.pick([at, at, at, at, ref.MONITOR_WORDS - 1, ref.MONITOR_WORDS, 0xFFFFFFFF])
                return b"\x18" + four(at) + two(value)
            at = self.upto(sets - 1) if self.chance(0.5) else 8 * self.upto(min(3, sets // 8 - 1))
            value = self.set_damage(held.sets[at], ref.literal_total(rs))
            at = self.pick([at, at, at, at, ref.MONITOR_SETS - 1, ref.MONITOR_SETS, 0xFFFFFFFF])
            return b"\x19" + four(at) + value.to_bytes(8, "big")
        if kind < 0.90:
            return self.show_body(words, sets)
        if kind < 0.94:
            return self.force_body(held)
        return b"\x1F" if kind < 0.96 else self.pick([b"\x13", b"\x1C", b"\x1D", lists.ASKING, lists.ASKING + b"\0"])

    def edit_body(self, edit):
        kind, *fields = edit
        if kind == "add":
            return lists.adding(*fields)
        if kind == "class":
            return classes.setting(*fields)
        if kind == "drop":
            return b"\x11" + two(fields[0])
        return b"\x12" + two(fields[0]) + two(fields[1])

    def speech_body(self, held, rs, valid, words, sets):
        name = lists.spoken_name(self, held, lambda: self.name(rs))
        said = lists.said(held, name)
        phones, numbers = ((len(said.phones), len(said.numbers)) if isinstance(said, ref.Spoken) else (3, 3))
        room = two(self.room(phones)) + two(self.room(numbers))
        if self.chance(0.35):
            return b"\x17" + room + name
        lent = (self.lent(words), self.lent(sets)) if self.chance(0.2) or not stale.built(held) else (0xFFFFFFFF, sets)
        return b"\x16" + four(lent[0]) + four(lent[1]) + room + name

    def room(self, need):
        return self.pick([need, need, 256, 0xFFFF, 64, max(0, need - 1), 0]) if self.chance(0.5) else 256

    def show_body(self, words, sets):
        kind = self.upto(3)
        if kind == 0:
            at = self.pick([0, words - 2, words, self.upto(words), ref.MONITOR_WORDS - 4])
            return b"\x1A" + four(at) + bytes([self.pick([0, 1, 4, 5, 64, 255])])
        if kind == 1:
            at = self.pick([0, sets - 2, sets, self.upto(sets), ref.MONITOR_SETS - 4])
            return b"\x1B" + four(at) + bytes([self.pick([0, 1, 4, 5, 8, 255])])
        return b"\x1C" if kind == 2 else b"\x1D"

    def force_body(self, held):
        count, last = held.count, held.last
        place = self.pick([0, max(0, count - 1), self.upto(min(511, count)), 511, 512, 0xFFFF])
        number = self.pick([0, 1, last, min(0xFFFF, last + 1), self.upto(0xFFFF)])
        count = self.pick([count, count, count, max(0, count - 1), min(0xFFFF, count + 1), 512, 513, 0xFFFF])
        last = self.pick([last, last, last, 0, max(0, last - 1), 0xFFFF])
        return b"\x1E" + two(place) + two(number) + two(count) + two(last)


def say_case(seed):
    """(rules.hex or None, input lines, expected output)."""
    rules_hex, names = Source(f"say {seed}").say_run()
    return rules_hex, split_lines(names), ref.say(rules_hex, names)


def monitor_case(seed):
    rules_hex, lines, answers = Source(f"monitor {seed}").monitor_session()
    return rules_hex, lines, b"".join(answers)


def lists_case(seed):
    lines, answers = lists.session(Source(f"lists {seed}"))
    return None, lines, b"".join(answers)


# What is compared: the program that it runs, and a run by its seed.
PROGRAMS = {"say": "say", "monitor": "monitor", "lists": "monitor"}
CASES = {"say": say_case, "monitor": monitor_case, "lists": lists_case}


# Fixed runs ---------------------------------------------------------------------------

def speech_line(command, size, letter=5):
    """A sound line of so many bytes that walks (16) or reads (17) a name over 64 letters: refusal 2, where the line is taken."""
    _, *sizes = ref.Monitor.COMMANDS[command]
    head = bytes([command]) + bytes(sum(sizes))
    return frame_line(head + bytes([letter]) * (size - len(head) - 1))


def long_lines():
    """Lines about the monitor's limit of 4,096 digits, each followed by a short one. Refusal 2 tells a line that is taken
    from one that is unsound (13), which is never cut to a sound line or into several."""
    most, lines = ref.MONITOR_LINE // 2, []
    for command in (0x16, 0x17):
        longest = speech_line(command, most)[:-1]
        for text in [speech_line(command, most - 1)[:-1] + b"0", longest, longest + b"0", longest + b"00",
                     speech_line(command, most + 1)[:-1], longest + b"\r", longest + longest, longest + b"13ED",
                     b"0" * 100_000]:
            lines += [text + b"\n", frame_line(b"\x17" + bytes(4))]
    return None, lines, ref.monitor(None, b"".join(lines))


def conversation(bodies, rules_hex=None):
    lines = [frame_line(body) for body in bodies()]
    return rules_hex, lines, ref.monitor(rules_hex, b"".join(lines))


def conversations(fixed):
    return {name: lambda bodies=bodies: conversation(bodies) for name, bodies in fixed.items()}


def short_names():
    """Every name of up to four of k, n, e, a and the space bar, by the six rules."""
    lines = [frame_line(b"\x03" + name) for name in lists.short_names()]
    return ref.SIX_FILE, lines, ref.say(ref.SIX_FILE, b"".join(lines))


def one_file(rules_hex, names=(b"\x0B\5", b"\x0E\x0B\1\x0D", b"\x0B")):
    """A file, sound or not, and names by it."""
    lines = [frame_line(b"\x03" + name) for name in names]
    return rules_hex, lines, ref.say(rules_hex, b"".join(lines))


def refused_file():
    """Bodies about a file that is refused: the ruleset, its edit count and its tables stay."""
    return lists.SIX + [lists.BUILDING, b"\x13", lists.ASKING_EDITS, lists.walking(lists.KNEE), classes.WRITING, b"\x1F", b"\x13", classes.WRITING]


LOW_FILE = frame_line(b"\1\1" + two(6) + two(5)) + ref.SIX_FILE.partition(b"\n")[2]


def files():
    """A number above `last`, every fault of a class line, and contexts about their limit."""
    named = {"a number above last": LOW_FILE, **{f"class lines {k}": data for k, data in enumerate(classes.class_lines())}}
    return {**{name: lambda data=data: one_file(data) for name, data in named.items()},
            **{name: lambda data=data: one_file(data, contexts.NAMES) for name, data in contexts.context_files().items()}}


FIXED = {"say": {"short names": short_names, **files()},
         "monitor": {"long lines": long_lines, **conversations(contested.FIXED), **conversations(classes.FIXED), **conversations(contexts.FIXED),
                     **conversations(stale.FIXED), **conversations(sheets.FIXED),
                     "edit counts and files": lambda: conversation(stale.files, ref.SIX_FILE),
                     "a number above last": lambda: conversation(refused_file, LOW_FILE),
                     "a long context in a file": lambda: conversation(refused_file, contexts.long_context_file()),
                     "the longest file": lambda: conversation(contexts.longest_file, ref.file_text(ref.longest_ruleset())),
                     "many rules": lambda: conversation(contested.many_rules, contested.many_rules_file()),
                     "many states": lambda: conversation(contexts.many_states, ref.file_text(contexts.many_states_ruleset()))},
         "lists": conversations(lists.FIXED)}


def runs(kind, count, seed):
    """(which, case) for every run of a comparison: the fixed ones first."""
    for name, case in FIXED[kind].items():
        yield name, case()
    for k in range(seed, seed + count):
        yield f"--seed {k}", CASES[kind](k)


def stats(count, seed):
    """Which answers the runs reach: a refusal that never occurs is not tested."""
    for what, case in CASES.items():
        seen = collections.Counter()
        for k in range(count):
            for line in case(seed + k)[2].splitlines():
                kind = int(line[:2], 16)
                number = {5: line[2:4], 8: line[6:8]}.get(kind)
                seen[f"{kind:02X}" + (f" refusal {int(number, 16)}" if number else "")] += 1
        print(what)
        for answer, times in sorted(seen.items(), key=lambda item: (item[0][:2], len(item[0]), item[0])):
            print(f"  {answer}: {times}")


def main():
    parser = argparse.ArgumentParser(description=__doc__, formatter_class=argparse.RawDescriptionHelpFormatter)
    parser.add_argument("what", choices=[*CASES, "stats"])
    parser.add_argument("--seed", type=int, default=1)
    parser.add_argument("--count", type=int, default=100)
    parser.add_argument("--into", default=".")
    given = parser.parse_args()
    if given.what == "stats":
        stats(given.count, given.seed)
        return
    rules_hex, lines, expected = CASES[given.what](given.seed)
    os.makedirs(given.into, exist_ok=True)
    files = {"rules.hex": rules_hex, "stdin": b"".join(lines), "expected": expected}
    for name, data in files.items():
        if data is not None:
            with open(os.path.join(given.into, name), "wb") as file:
                file.write(data)


if __name__ == "__main__":
    sys.exit(main())
