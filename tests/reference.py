#!/usr/bin/env python3
"""Document 01 and the landed requests of document 02 as plain Python: the independent side of the random comparisons.

Written from the documents and the issues alone, by definition and not for speed:
no failure links, no bitmaps of numbers, no automaton, no code shared with the product.
A rule with letter classes is its literal rules everywhere, in the plain reading as in the tables.

    python3 tests/reference.py             check every example and number of the documents
    python3 tests/reference.py say         be the program `say`
    python3 tests/reference.py monitor     be the program `monitor`

Readings of open points are marked 'Reading:'.
"""

import math
import sys
from array import array
from collections import Counter
from functools import lru_cache
from hashlib import blake2b
from itertools import product
from typing import NamedTuple

BOUNDARY = 0            # the symbol #
SPACE = 0x3F            # separates the words of a name
SYMBOLS = 64            # 00 to 3F
MAX_CONTEXT = 4         # symbols of a left or right context; all sizes below follow it
MAX_TARGET = 4
MAX_RULE_PHONES = 4
MAX_NAME = 64
MAX_RULES = 512         # literal rules, and so numbered ones
MAX_NUMBER = 65_535
MAX_EDITS = 2**32 - 1
CLASS_SYMBOLS = range(0x40, 0x60)
MAX_CLASS = 32          # letters of a class

ROOMS = (MAX_CONTEXT, MAX_TARGET, MAX_CONTEXT, MAX_RULE_PHONES)     # of the four parts of a rule
SLOTS = 8               # where the rules begin in lent memory
SLOT = 6 + sum(ROOMS)   # one of them: number (2), four lengths, their bytes
MASKS = SLOTS + MAX_RULES * SLOT                # 8 bytes for each class
TOTAL = MASKS + 8 * len(CLASS_SYMBOLS)          # of literal rules
LITERALS = TOTAL + 2                            # 4 bytes for each of them
MEMORY = LITERALS + 4 * MAX_RULES
ROWS = 4                # where the rows begin in the words
MAX_LEFT_STATES = 1 + MAX_RULES * MAX_CONTEXT
MAX_RIGHT_STATES = 1 + MAX_RULES * (MAX_TARGET + MAX_CONTEXT)
# How many lines of how many bytes: head, classes, rules. A line has two digits for each byte and for the sum, then 0A.
LONGEST_LINES = ((1, 6), (len(CLASS_SYMBOLS), 3 + MAX_CLASS), (MAX_RULES, 1 + SLOT))
LONGEST_FILE = sum(lines * (2 * (size + 1) + 1) for lines, size in LONGEST_LINES)
LONGEST_INPUT = 32_768  # bytes of either input of `say`
SAY_WORDS = 32_768
SAY_SETS = 4_096
SAY_PHONES = 256
SAY_NUMBERS = 64
MONITOR_WORDS = ROWS + SYMBOLS * (MAX_LEFT_STATES + MAX_RIGHT_STATES)
MONITOR_SETS = 8 * (MAX_LEFT_STATES + MAX_RIGHT_STATES)
MONITOR_LINE = 4_096

MAX_LISTED = 1_000      # names of an exceptions list
MAX_LISTED_PHONES = 64
MAX_STATES = 4_096
LIST_UNITS = 35_886     # the list's memory, in units of 32 bits
LONGEST_READ_OUT = MAX_LISTED * (1 + MAX_NAME + 1 + MAX_LISTED_PHONES)
MAX_NAMES = 256         # names of a sheet


class Rule(NamedTuple):
    left: bytes = b""
    target: bytes = b""
    right: bytes = b""
    phones: bytes = b""


class Numbered(NamedTuple):
    number: int
    rule: Rule


class Class(NamedTuple):
    symbol: int
    letters: bytes


class Ruleset(NamedTuple):
    """The ledger's state: the ordered list, the last number issued, the classes in ascending order of their symbols, and how many
    additions, drops and moves were accepted."""
    rules: tuple = ()
    last: int = 0
    classes: tuple = ()
    edits: int = 0


class Refusal(NamedTuple):
    number: int
    place: int


class Spoken(NamedTuple):
    phones: bytes
    numbers: tuple
    contested: int = 0      # reached letters with more than one rule; what is said from the list has none


EMPTY = Ruleset()


# Letters, rules, fitting ---------------------------------------------------

def is_letter(byte):
    return 0x01 <= byte <= 0x3E


def in_context(byte):
    return is_letter(byte) or byte in CLASS_SYMBOLS


def has_shape(rule):
    """# only first in a left context or last in a right one, classes in contexts alone."""
    return (len(rule.left) <= MAX_CONTEXT
            and 1 <= len(rule.target) <= MAX_TARGET
            and len(rule.right) <= MAX_CONTEXT
            and len(rule.phones) <= MAX_RULE_PHONES
            and all(in_context(c) or (c == BOUNDARY and at == 0) for at, c in enumerate(rule.left))
            and all(is_letter(c) for c in rule.target)
            and all(in_context(c) or (c == BOUNDARY and at == len(rule.right) - 1)
                    for at, c in enumerate(rule.right))
            and all(1 <= p <= 0xFF for p in rule.phones))


@lru_cache(maxsize=256)
def is_ruleset(rs):
    numbers = [n for n, _ in rs.rules]
    return (len(rs.rules) <= MAX_RULES
            and 0 <= rs.last <= MAX_NUMBER
            and all(has_shape(rule) for _, rule in rs.rules)
            and all(1 <= n <= rs.last for n in numbers)
            and len(set(numbers)) == len(numbers)
            and all(is_class(*given) for given in rs.classes)
            and all(uses(rule) <= defined(rs) for _, rule in rs.rules)
            and literal_total(rs) <= MAX_RULES)


# Classes and literal rules (document 02, request 5) ------------------------------

def is_class(symbol, letters):
    return (symbol in CLASS_SYMBOLS and 1 <= len(letters) <= MAX_CLASS and all(map(is_letter, letters))
            and all(one < other for one, other in zip(letters, letters[1:])))


def defined(rs):
    return {given.symbol for given in rs.classes}


def uses(rule):
    """The classes that a rule uses."""
    return {symbol for symbol in rule.left + rule.right if symbol in CLASS_SYMBOLS}


def letters_for(rule, classes):
    """What may stand at each symbol of its contexts, left, then right; of classes that are defined."""
    letters = dict(classes)
    return [letters[symbol] if symbol in letters else bytes([symbol]) for symbol in rule.left + rule.right]


def literal_count(rule, classes):
    return math.prod(map(len, letters_for(rule, classes)))


def literal_total(rs):
    return sum(literal_count(rule, rs.classes) for _, rule in rs.rules)


def literal_rules(rule, classes):
    """The rules that it means: the leftmost symbol varies slowest, letters ascending."""
    split = len(rule.left)
    return [rule._replace(left=bytes(symbols[:split]), right=bytes(symbols[split:]))
            for symbols in product(*letters_for(rule, classes))]


@lru_cache(maxsize=256)
def literal_list(rs):
    """All literal rules in the order of the numbered ones, each under its rule's number."""
    return tuple(Numbered(number, literal) for number, rule in rs.rules for literal in literal_rules(rule, rs.classes))


def frame_word(letters):
    return bytes([BOUNDARY]) + letters + bytes([BOUNDARY])


class Word(NamedTuple):
    before: int             # positions of the whole name before its first letter's
    letters: bytes
    framed: bytes


def words_of(name):
    """The words of a name: one more than its spaces, each with a frame of its own."""
    words, before = [], 0
    for letters in bytes(name).split(bytes([SPACE])):
        words.append(Word(before, letters, frame_word(letters)))
        before += len(letters) + 1
    return words


def fits(rule, framed, i):
    start = i - len(rule.left)
    after = i + len(rule.target) + len(rule.right)
    return (start >= 0 and after <= len(framed)
            and framed[start:i] == rule.left
            and framed[i:after] == rule.target + rule.right)


def name_refusal(name):
    """2 before 1."""
    if len(name) > MAX_NAME:
        return Refusal(2, 0)
    for at, byte in enumerate(name):
        if not in_name(byte):
            return Refusal(1, at)
    return None


def in_name(byte):
    return is_letter(byte) or byte == SPACE


def room_refusal(phones, numbers, phone_room, number_room):
    if len(phones) > phone_room:
        return Refusal(4, len(phones))
    if len(numbers) > number_room:
        return Refusal(5, len(numbers))
    return None


# The exceptions list (document 02, request 1) --------------------------------

NO_ENDINGS = (0, 0)


def digest(ending, phones):
    """A number for an ending with its phones; that two have the same is not to be expected."""
    return int.from_bytes(blake2b(bytes([len(ending)]) + ending + phones, digest_size=16).digest(), "big")


class Exceptions:
    """Names with their phones, and how many states the smallest acyclic automaton has that gives the phones at a name's end.

    A state is known by the endings that lead from it to names, with their phones. So there are as many states as the
    prefixes of names have different endings (`states_of`). Each prefix keeps the number and the digests' sum of its
    endings: a change then concerns the prefixes of its own name alone.
    """

    def __init__(self, phones=()):
        self.phones = {}
        self.endings = {}           # of each prefix
        self.prefixes = Counter()   # how many have these endings
        for name, said in dict(phones).items():
            self.put(name, said)

    def put(self, name, phones):
        """The name has these phones from now on; None: it is not listed."""
        before = self.phones.pop(name, None)
        if before is not None:
            self.count(name, before, -1)
        if phones is not None:
            self.phones[name] = phones
            self.count(name, phones, 1)

    def count(self, name, phones, sign):
        for at in range(len(name) + 1):
            old = self.endings.pop(name[:at], NO_ENDINGS)
            new = old[0] + sign, old[1] + sign * digest(name[at:], phones)
            if old != NO_ENDINGS:
                self.prefixes[old] -= 1
                if not self.prefixes[old]:
                    del self.prefixes[old]
            if new != NO_ENDINGS:
                self.prefixes[new] += 1
                self.endings[name[:at]] = new

    def states(self):
        """The start is one, also where there are no names."""
        return max(1, len(self.prefixes))

    def within(self):
        return len(self.phones) <= MAX_LISTED and self.states() <= MAX_STATES


NO_EXCEPTIONS = Exceptions()


def states_of(phones):
    """The number of states by definition: prefixes that have the same endings with the same phones are one."""
    endings = {b"": set()}
    for name, said in phones.items():
        for at in range(len(name) + 1):
            endings.setdefault(name[:at], set()).add((name[at:], said))
    return len(set(map(frozenset, endings.values())))


def is_entry(name, phones):
    return (1 <= len(name) <= MAX_NAME and all(map(in_name, name))
            and 1 <= len(phones) <= MAX_LISTED_PHONES and 0 not in phones)


# A lent list is Exceptions, or None where the memory is no list. Each change gives None or its refusal.

def list_name(listed, name, phones):
    """17 of the list, 2, 1, 17 of the entry, 19."""
    if listed is None:
        return Refusal(17, 0)
    refused = name_refusal(name)
    if refused:
        return refused
    if not is_entry(name, phones):
        return Refusal(17, 0)
    return changed(listed, name, phones)


def unlist_name(listed, name):
    """17 of the list, 2, 1, 18, 19."""
    if listed is None:
        return Refusal(17, 0)
    refused = name_refusal(name)
    if refused:
        return refused
    if name not in listed.phones:
        return Refusal(18, 0)
    return changed(listed, name, None)


def changed(listed, name, phones):
    """What is refused for the list's limits is as it was."""
    before = listed.phones.get(name)
    listed.put(name, phones)
    if listed.within():
        return None
    listed.put(name, before)
    return Refusal(19, 0)


def read_out_of(phones):
    """Letter order, a name before its continuations."""
    return b"".join(bytes([len(name)]) + name + bytes([len(said)]) + said for name, said in sorted(phones.items()))


def read_out(listed, room):
    """The bytes, or 17, 15."""
    if listed is None:
        return Refusal(17, 0)
    data = read_out_of(listed.phones)
    return data if len(data) <= room else Refusal(15, len(data))


def listed_in(data):
    """The list that a read-out tells, or None where it tells none: names in order, each once, within the limits."""
    phones, at, last = {}, 0, b""
    while at < len(data):
        name = data[at + 1:at + 1 + data[at]]
        at += 1 + data[at]
        if at >= len(data):
            return None
        said = data[at + 1:at + 1 + data[at]]
        at += 1 + data[at]
        if at > len(data) or not is_entry(name, said) or name <= last:
            return None
        phones[name], last = said, name
    listed = Exceptions(phones)
    return listed if listed.within() else None


def answer_before_rules(rs, listed, name, phone_room):
    """0, 17, 2, 1, then the whole name on the list, with 4; None where its words are tried."""
    if not is_ruleset(rs):
        return Refusal(0, 0)
    if listed is None:
        return Refusal(17, 0)
    refused = name_refusal(name)
    if refused:
        return refused
    phones = listed.phones.get(bytes(name))
    if phones is None:
        return None
    return room_refusal(phones, (), phone_room, 0) or Spoken(phones, ())


# Words, and the plain reading ------------------------------------------------------

def speak_words(name, listed, phone_room, number_room, speak_word):
    """The words in turn, from the list or else by `speak_word`, joined; 4 and 5 for the whole name.

    `speak_word` gives Spoken, or the position in its word that no rule fits.
    """
    phones, numbers, contested = b"", (), 0
    for word in words_of(name):
        if word.letters in listed.phones:
            phones += listed.phones[word.letters]
            continue
        said = speak_word(word)
        if not isinstance(said, Spoken):
            return Refusal(3, word.before + said)
        phones += said.phones
        numbers += said.numbers
        contested += said.contested
    return room_refusal(phones, numbers, phone_room, number_room) or Spoken(phones, numbers, contested)


def plain_reading(rs, name, phone_room, number_room, listed=NO_EXCEPTIONS):
    """Refusals 0, 17, 2, 1, 3, 4, 5 in that order; a listed name's only one is 4."""
    answer = answer_before_rules(rs, listed, name, phone_room)
    if answer:
        return answer
    return speak_words(name, listed, phone_room, number_room, lambda word: plain_word(rs, word))


def plain_word(rs, word):
    """All literal rules are tried at each reached letter: the first that fits is applied, and how many fit is counted. Of those of
    one numbered rule at most one fits."""
    framed, n, i = word.framed, len(word.letters), 1
    phones, numbers, contested = b"", [], 0
    while i <= n:
        fitting = [literal for literal in literal_list(rs) if fits(literal.rule, framed, i)]
        if not fitting:
            return i
        number, rule = fitting[0]
        contested += len(fitting) > 1
        phones += rule.phones
        numbers.append(number)
        i += len(rule.target)
    return Spoken(phones, tuple(numbers), contested)


# The ledger ----------------------------------------------------------------
# Each edit gives (None, ruleset after) or (refusal, the ruleset it got).

def add(rs, rule, p):
    refused = None
    if not is_ruleset(rs):
        refused = Refusal(0, 0)
    elif not has_shape(rule):
        refused = Refusal(6, 0)
    elif not uses(rule) <= defined(rs):
        refused = Refusal(20, 0)
    elif p > len(rs.rules):
        refused = Refusal(7, 0)
    elif literal_total(rs) + literal_count(rule, rs.classes) > MAX_RULES:
        refused = Refusal(21, 0)
    elif rs.last == MAX_NUMBER:
        refused = Refusal(10, 0)
    if refused:
        return refused, rs
    number = rs.last + 1
    return edited(rs, rs.rules[:p] + (Numbered(number, rule),) + rs.rules[p:], number)


def edited(rs, rules, last):
    """Of an addition, drop or move that nothing else refuses: 23, or it is counted."""
    if rs.edits == MAX_EDITS:
        return Refusal(23, 0), rs
    return None, rs._replace(rules=rules, last=last, edits=rs.edits + 1)


def drop(rs, number):
    if not is_ruleset(rs):
        return Refusal(0, 0), rs
    rest = tuple(r for r in rs.rules if r.number != number)
    if len(rest) == len(rs.rules):
        return Refusal(8, 0), rs
    return edited(rs, rest, rs.last)


def move(rs, number, p):
    """The place is judged against the remaining list, one shorter."""
    if not is_ruleset(rs):
        return Refusal(0, 0), rs
    moved = tuple(r for r in rs.rules if r.number == number)
    rest = tuple(r for r in rs.rules if r.number != number)
    if not moved:
        return Refusal(8, 0), rs
    if p > len(rest):
        return Refusal(7, 0), rs
    return edited(rs, rest[:p] + moved + rest[p:], rs.last)


def set_class(rs, symbol, letters):
    """A class that a held rule uses stays as it is. Setting one is not counted: tables hold none that no rule uses."""
    if not is_ruleset(rs):
        return Refusal(0, 0), rs
    if not is_class(symbol, letters) or any(symbol in uses(rule) for _, rule in rs.rules):
        return Refusal(20, 0), rs
    others = tuple(given for given in rs.classes if given.symbol != symbol)
    return None, rs._replace(classes=tuple(sorted(others + (Class(symbol, letters),))))


def replay(edits, rs=EMPTY):
    """The answers and the ruleset after a list of ('add', rule, p), ('drop', number), ('move', number, p), ('class', symbol, letters)."""
    calls, answers = {"add": add, "drop": drop, "move": move, "class": set_class}, []
    for kind, *arguments in edits:
        answer, rs = calls[kind](rs, *arguments)
        answers.append(answer)
    return answers, rs


# The ruleset in lent memory -------------------------------------------------
# count (2), last (2), edit count (4), then 512 slots: number (2), four lengths, left, target, right,
# phones, each with room for its longest; 32 classes as masks of 64 bits, bit c for letter c; the
# literal total (2) and, for each literal rule, its numbered rule's place (2) and which of that
# rule's literal rules it is (2). Bytes past a length, slots past the count and literal rules past
# the total are not judged.

FIELDS = tuple((6 + sum(ROOMS[:k]), room) for k, room in enumerate(ROOMS))     # where each begins in its slot, and its room


def two(number):
    return number.to_bytes(2, "big")


def four(number):
    return number.to_bytes(4, "big")


def slot_bytes(numbered):
    lengths = bytes(len(field) for field in numbered.rule)
    fields = b"".join(f.ljust(room, b"\0") for f, (_, room) in zip(numbered.rule, FIELDS))
    return two(numbered.number) + lengths + fields


def mask_bytes(classes):
    masks = {symbol: sum(1 << letter for letter in letters) for symbol, letters in classes}
    return b"".join(masks.get(symbol, 0).to_bytes(8, "big") for symbol in CLASS_SYMBOLS)


def literal_bytes(rs):
    """The total, and for each literal rule the place of its numbered rule and which of that rule's it is."""
    counts = [literal_count(rule, rs.classes) for _, rule in rs.rules]
    return two(sum(counts)) + b"".join(two(place) + two(which) for place, count in enumerate(counts) for which in range(count))


def memory_of(rs, fill=0):
    """A ruleset's memory, with `fill` in the slots past the count and past the literal rules."""
    held = two(len(rs.rules)) + two(rs.last) + four(rs.edits) + b"".join(map(slot_bytes, rs.rules))
    held = held.ljust(MASKS, bytes([fill])) + mask_bytes(rs.classes) + literal_bytes(rs)
    return held.ljust(MEMORY, bytes([fill]))


def slot_rule(slot):
    """A length above its field is kept by padding, and so breaks the shape."""
    fields = []
    for (offset, room), length in zip(FIELDS, slot[2:6]):
        fields.append(slot[offset:offset + min(length, room)].ljust(length, b"\0"))
    return Numbered(int.from_bytes(slot[0:2], "big"), Rule(*fields))


def ruleset_in(memory):
    """The ruleset that lent memory holds, or None where refusal 0 is due."""
    if len(memory) < MEMORY:
        return None
    count = int.from_bytes(memory[0:2], "big")
    if count > MAX_RULES:
        return None
    slots = (memory[SLOTS + SLOT * k:SLOTS + SLOT * (k + 1)] for k in range(count))
    classes = classes_in(memory[MASKS:TOTAL])
    rs = Ruleset(tuple(slot_rule(bytes(s)) for s in slots), int.from_bytes(memory[2:4], "big"), classes, int.from_bytes(memory[4:8], "big"))
    return rs if is_ruleset(rs) and memory[TOTAL:].startswith(literal_bytes(rs)) else None


def classes_in(masks):
    """A mask that is not zero is a class; a bit of no letter breaks it."""
    classes = []
    for at, symbol in enumerate(CLASS_SYMBOLS):
        mask = int.from_bytes(masks[8 * at:8 * at + 8], "big")
        if mask:
            classes.append(Class(symbol, bytes(bit for bit in range(64) if mask >> bit & 1)))
    return tuple(classes)


# Frames and the rule file ---------------------------------------------------

DIGITS = b"0123456789ABCDEF"


def frame_line(body):
    """The line of a frame: the last byte makes all of them add to zero modulo 256."""
    return (bytes(body) + bytes([-sum(body) % 256])).hex().upper().encode() + b"\n"


def sound(text):
    """The bytes of a line (without its 0A) before the sum, or None if it is unsound."""
    if len(text) % 2 or len(text) < 4 or any(c not in DIGITS for c in text):
        return None
    frame = bytes.fromhex(text.decode())
    return frame[:-1] if sum(frame) % 256 == 0 else None


def rule_body(numbered):
    lengths = bytes(len(field) for field in numbered.rule)
    return b"\x02" + two(numbered.number) + lengths + b"".join(numbered.rule)


def class_body(given):
    return bytes([0x07, given.symbol, len(given.letters)]) + given.letters


def file_text(rs):
    head = frame_line(b"\x01\x01" + two(len(rs.rules)) + two(rs.last))
    return head + b"".join(map(frame_line, map(class_body, rs.classes))) + b"".join(frame_line(rule_body(r)) for r in rs.rules)


def write_file(rs, room):
    """The file's bytes, or 0, 15."""
    if not is_ruleset(rs):
        return Refusal(0, 0)
    text = file_text(rs)
    return text if len(text) <= room else Refusal(15, len(text))


def class_of(body, classes):
    """The class of a sound line of kind 07 after those read so far, or None where refusal 14 is due."""
    if len(body) < 3 or len(body) != 3 + body[2]:
        return None
    given = Class(body[1], body[3:])
    ascends = all(symbol < given.symbol for symbol, _ in classes)
    return given if is_class(*given) and ascends else None


def rule_of(body, last, seen):
    """The numbered rule of a sound line, or None where refusal 14 is due."""
    if body[0] != 0x02 or len(body) < 7:
        return None
    number, lengths = int.from_bytes(body[1:3], "big"), body[3:7]
    if len(body) != 7 + sum(lengths):
        return None
    fields, at = [], 7
    for length in lengths:
        fields.append(body[at:at + length])
        at += length
    rule = Rule(*fields)
    if not has_shape(rule) or not 1 <= number <= last or number in seen:
        return None
    return Numbered(number, rule)


def read_file(data, memory_length=MEMORY):
    """The ruleset of a file, or 0 (memory too short), 13, 14: earlier line first, 13 before 14.

    Readings: a count above `last` shows only at the line that repeats, exceeds or is missing; a line that is no sound one of
    kind 07 ends the classes, and is judged as the first rule or, where none is counted, as bytes after the last.
    """
    if memory_length < MEMORY:
        return Refusal(0, 0)
    at = 0

    def line_here():
        """(the sound line's bytes or None, where the next line starts)."""
        end = data.find(b"\n", at)
        return (None, at) if end < 0 else (sound(data[at:end]), end + 1)

    def next_line():
        nonlocal at
        start = at
        body, at = line_here()
        return start, body

    start, head = next_line()
    if head is None:
        return Refusal(13, start)
    if len(head) != 6 or head[:2] != b"\x01\x01":
        return Refusal(14, start)
    count, last = int.from_bytes(head[2:4], "big"), int.from_bytes(head[4:6], "big")
    if count > MAX_RULES:
        return Refusal(14, start)
    classes = []
    while (line_here()[0] or b"\0")[0] == 0x07:
        start, body = next_line()
        given = class_of(body, classes)
        if given is None:
            return Refusal(14, start)
        classes.append(given)
    rules, seen, literals = [], set(), 0
    for _ in range(count):
        start, body = next_line()
        if body is None:
            return Refusal(13, start)
        numbered = rule_of(body, last, seen)
        if numbered is None or not uses(numbered.rule) <= {symbol for symbol, _ in classes}:
            return Refusal(14, start)
        literals += literal_count(numbered.rule, classes)
        if literals > MAX_RULES:
            return Refusal(14, start)
        seen.add(numbered.number)
        rules.append(numbered)
    if at < len(data):
        return Refusal(14, at)
    return Ruleset(tuple(rules), last, tuple(classes))


# The tables, over the literal rules ----------------------------------------------

def left_pattern(rule):
    return rule.left


def right_pattern(rule):
    return (rule.target + rule.right)[::-1]


def state_strings(patterns):
    """The strings in state order: the empty one, then each new prefix, shortest first."""
    numbered = {b"": 0}
    for pattern in patterns:
        for length in range(1, len(pattern) + 1):
            numbered.setdefault(pattern[:length], len(numbered))
    return numbered


def entry(numbered, string, symbol):
    """The state of the longest numbered suffix of the string followed by the symbol."""
    longer = string + bytes([symbol])
    return next(numbered[longer[k:]] for k in range(len(longer) + 1) if longer[k:] in numbered)


def set_of(patterns, string):
    """The places of all rules whose pattern is a suffix of the string, as eight words."""
    places = sum(1 << place for place, p in enumerate(patterns) if string.endswith(p))
    return [places >> 64 * j & 2**64 - 1 for j in range(8)]


@lru_cache(maxsize=16)
def one_table(patterns):
    """(state count, rows as one list, sets as one list).

    Same as `entry` and `set_of` for every state and symbol, sooner: a numbered suffix of
    (string, symbol) is empty or a child of a suffix of the string, and a later, longer one wins.
    """
    numbered = state_strings(patterns)
    children = {string: [] for string in numbered}
    for string, state in numbered.items():
        if string:
            children[string[:-1]].append((string[-1], state))
    holders = {}
    for place, pattern in enumerate(patterns):
        holders[pattern] = holders.get(pattern, 0) | 1 << place
    rows, sets = array("H"), array("Q")
    for string in numbered:
        row, places = [0] * SYMBOLS, 0
        for k in range(len(string), -1, -1):
            suffix = string[k:]
            for symbol, state in children.get(suffix, ()):
                row[symbol] = state
            places |= holders.get(suffix, 0)
        rows.extend(row)
        sets.extend(places >> 64 * j & 2**64 - 1 for j in range(8))
    return len(numbered), rows, sets


def needed(rs):
    """(L, R, words, set words) of a valid ruleset."""
    lefts = len(state_strings(left_pattern(r) for _, r in literal_list(rs)))
    rights = len(state_strings(right_pattern(r) for _, r in literal_list(rs)))
    return lefts, rights, ROWS + SYMBOLS * (lefts + rights), 8 * (lefts + rights)


def build(rs, word_room, set_room):
    """(words, set words), just the needed ones, or 0, 11, 12."""
    if not is_ruleset(rs):
        return Refusal(0, 0)
    _, _, word_count, set_count = needed(rs)
    if word_room < word_count:
        return Refusal(11, word_count)
    if set_room < set_count:
        return Refusal(12, set_count)
    lefts, left_rows, left_sets = one_table(tuple(left_pattern(r) for _, r in literal_list(rs)))
    rights, right_rows, right_sets = one_table(tuple(right_pattern(r) for _, r in literal_list(rs)))
    return array("H", [rs.edits >> 16, rs.edits & 0xFFFF, lefts, rights]) + left_rows + right_rows, left_sets + right_sets


def edits_in(words):
    """The edit count of the ruleset that the tables were built from, high word first."""
    return words[0] << 16 | words[1]


def states_in(words):
    """(L, R)."""
    return words[2], words[3]


# The walk -----------------------------------------------------------------------

class Unusable(Exception):
    """A refusal of the tables, 16 or 22."""

    def __init__(self, number=16):
        self.number = number


def step(words, base, count, state, symbol):
    state = words[base + SYMBOLS * state + symbol]
    if state >= count:
        raise Unusable
    return state


def walk(rs, words, sets, name, phone_room, number_room, listed=NO_EXCEPTIONS):
    """(answer, steps) over lent words, built or not.

    Order: 0, 17, 2, 1, the whole name on the list with 4; where some word is not listed 16 for lengths, then 22; of the words that
    are not listed 16 for left pass and right pass; reached letters (3 or 16), 4, 5. Where every word is listed, no table is looked at.
    """
    answer = answer_before_rules(rs, listed, name, phone_room)
    if answer:
        return answer, 0
    unlisted = [word for word in words_of(name) if word.letters not in listed.phones]
    try:
        if unlisted:
            judge_tables(rs, words, sets)
        passes = {word: both_passes(words, word) for word in unlisted}
        answer = speak_words(name, listed, phone_room, number_room,
                             lambda word: walk_word(rs, words, sets, word, passes[word]))
    except Unusable as unusable:
        return Refusal(unusable.number, 0), 0
    return answer, sum(steps for _, _, steps in passes.values())


def judge_tables(rs, words, sets):
    """16 for lengths, L or R zero among them; then 22 for tables of another edit count than the ruleset's."""
    if len(words) < ROWS:
        raise Unusable
    lefts, rights = states_in(words)
    if (lefts == 0 or rights == 0 or len(words) < ROWS + SYMBOLS * (lefts + rights)
            or len(sets) < 8 * (lefts + rights)):
        raise Unusable
    if edits_in(words) != rs.edits:
        raise Unusable(22)


def both_passes(words, word):
    """(left states by position, right states by position, steps) of a word."""
    lefts, rights = states_in(words)
    framed, n, steps = word.framed, len(word.letters), 0
    left_after, state = {}, 0
    for position in range(0, n + 1):
        state = step(words, ROWS, lefts, state, framed[position])
        left_after[position] = state
        steps += 1
    right_after, state = {}, 0
    for position in range(n + 1, 0, -1):
        state = step(words, ROWS + SYMBOLS * lefts, rights, state, framed[position])
        right_after[position] = state
        steps += 1
    return left_after, right_after, steps


def walk_word(rs, words, sets, word, passes):
    left_after, right_after, _ = passes
    (lefts, _), n, i = states_in(words), len(word.letters), 1
    literals = literal_list(rs)
    phones, numbers, contested = b"", [], 0
    while i <= n:
        places = shared_places(sets, 8 * left_after[i - 1], 8 * (lefts + right_after[i]))
        if not places:
            return i
        place = places[0]
        if place >= len(literals) or not fits(literals[place].rule, word.framed, i):
            raise Unusable
        number, rule = literals[place]
        contested += len(places) > 1
        phones += rule.phones
        numbers.append(number)
        i += len(rule.target)
    return Spoken(phones, tuple(numbers), contested)


def shared_places(sets, left, right):
    """The places that both sets hold, lowest first: all of them, past the list and of rules that do not fit too."""
    both = [sets[left + j] & sets[right + j] for j in range(8)]
    return [64 * j + k for j in range(8) for k in range(64) if both[j] >> k & 1]


# A whole transect (document 02, request 8) ---------------------------------------

class Sheet(NamedTuple):
    answers: tuple          # Spoken or a refusal for each name
    steps: int              # of all names together


def names_of(sheet):
    """The names of a sheet, each behind its length; None where one is cut short or begins behind the 256th: refusal 24."""
    names, at = [], 0
    while at < len(sheet):
        name = sheet[at + 1:at + 1 + sheet[at]]
        if len(names) == MAX_NAMES or len(name) < sheet[at]:
            return None
        names.append(name)
        at += 1 + len(name)
    return names


def table_words(name, listed):
    """The words that a name alone would send through the tables; one refused with 2 or 1 has none."""
    if name_refusal(name) or bytes(name) in listed.phones:
        return []
    return [word for word in words_of(name) if word.letters not in listed.phones]


def sheet_steps(words):
    """Left: the different beginnings of # and a word, each once. Right: each word from its last boundary to its first letter."""
    beginnings = {word.framed[:length] for word in words for length in range(1, len(word.framed))}
    return len(beginnings) + sum(len(word.letters) + 1 for word in words)


def speak_sheet(rs, words, sets, sheet, phone_room, number_room, listed=NO_EXCEPTIONS):
    """Sheet, or what refuses it whole: 24, 0, 17, the first 16 or 22 of a name. Each name is lent what those before it left."""
    names = names_of(sheet)
    if names is None:
        return Refusal(24, 0)
    if not is_ruleset(rs):
        return Refusal(0, 0)
    if listed is None:
        return Refusal(17, 0)
    answers = []
    for name in names:
        answer, _ = walk(rs, words, sets, name, phone_room, number_room, listed)
        if isinstance(answer, Spoken):
            phone_room -= len(answer.phones)
            number_room -= len(answer.numbers)
        elif answer.number in (16, 22):
            return answer
        answers.append(answer)
    return Sheet(tuple(answers), sheet_steps([word for name in names for word in table_words(name, listed)]))


# The programs --------------------------------------------------------------------

def refusal_line(refusal):
    return frame_line(b"\x05" + bytes([refusal.number]) + four(refusal.place))


def spoken_line(spoken, steps):
    return frame_line(b"\x04" + two(steps) + two(len(spoken.phones)) + spoken.phones
                      + bytes([len(spoken.numbers)]) + b"".join(map(two, spoken.numbers)))


def answer_line(answer, steps):
    """As `say` prints it."""
    return refusal_line(answer) if isinstance(answer, Refusal) else spoken_line(answer, steps)


def walk_refusal_line(refusal, steps):
    return frame_line(b"\x08" + two(steps) + bytes([refusal.number]) + four(refusal.place))


UNSOUND = refusal_line(Refusal(13, 0))
TOO_LONG = Refusal(13, LONGEST_INPUT)


def lines_of(data):
    """Each line's text, None for a last one without its 0A."""
    *ended, rest = data.split(b"\n")
    return ended + [None] if rest else ended


def read_rules_hex(rules_hex):
    """A missing file counts as empty."""
    data = rules_hex if rules_hex is not None else b""
    return TOO_LONG if len(data) > LONGEST_INPUT else read_file(data)


def say(rules_hex, names):
    """Standard output of `say`, given rules.hex (None: missing) and standard input."""
    rs = read_rules_hex(rules_hex)
    if isinstance(rs, Refusal):
        return refusal_line(rs)
    built = build(rs, SAY_WORDS, SAY_SETS)
    if isinstance(built, Refusal):
        return refusal_line(built)
    if len(names) > LONGEST_INPUT:
        return refusal_line(TOO_LONG)
    return b"".join(say_line(rs, built, line) for line in lines_of(names))


def say_line(rs, built, line):
    body = sound(line) if line is not None else None
    if body is None or body[0] != 0x03:
        return UNSOUND
    return answer_line(*walk(rs, *built, body[1:], SAY_PHONES, SAY_NUMBERS))


class Unspecified(Exception):
    """The answer rests on what no document says: units stored into the list's memory."""


NO_RULESET = Ruleset((Numbered(0, Rule()),))
UNKNOWN = object()      # what the list's memory holds after a store


class Monitor:
    """The program `monitor`: `answer` takes one line's text (None: unended) and gives its answer.

    Readings: a line's 4,096 bytes are counted without its 0A; a show of no words is inside the memory up to the index just past
    its end.
    """

    def __init__(self, rules_hex=None):
        self.rules_hex = rules_hex
        self.hold(EMPTY)
        self.words = array("H", [0xFFFF]) * MONITOR_WORDS
        self.sets = array("Q", [2**64 - 1]) * MONITOR_SETS
        self.phones = bytearray(b"\xEE" * SAY_PHONES)
        self.numbers = [0xEEEE] * SAY_NUMBERS
        self.contested = 0              # of the last name spoken
        self.listed = Exceptions()      # None: what was stored is no list
        self.units = LIST_UNITS         # of the list's memory, lent from now on
        self.told = bytearray(b"\xEE" * LONGEST_READ_OUT)

    def ruleset(self):
        """The held ruleset; one that is none comes back as such, for the calls to refuse. Of another count than that of the rules
        it is none, whatever the slots hold: every rule has a literal rule, and their total stands in the memory."""
        return self.held._replace(last=self.last) if self.count == len(self.held.rules) else NO_RULESET

    def lent_list(self):
        """None: the lent memory is no list."""
        if self.units < LIST_UNITS:
            return None
        if self.listed is UNKNOWN:
            raise Unspecified
        return self.listed

    def hold(self, rs):
        self.held, self.count, self.last = rs, len(rs.rules), rs.last

    def answer(self, line):
        if line is None or len(line) > MONITOR_LINE:
            return UNSOUND
        body = sound(line)
        command = self.COMMANDS.get(body[0]) if body is not None else None
        if command is None:
            return UNSOUND
        call, *sizes = command
        fixed = sum(sizes)
        open_ended = call in (Monitor.add, Monitor.walk, Monitor.plain, Monitor.list_name, Monitor.unlist_name, Monitor.set_class, Monitor.sheet)
        if len(body) - 1 < fixed or (not open_ended and len(body) - 1 != fixed):
            return UNSOUND
        fields, at = [], 1
        for size in sizes:
            fields.append(int.from_bytes(body[at:at + size], "big"))
            at += size
        rest = (body[at:],) if open_ended else ()
        answer = call(self, *fields, *rest)
        return refusal_line(answer) if isinstance(answer, Refusal) else answer

    def edit(self, answer, rs):
        if answer is not None:
            return answer
        self.hold(rs)
        return frame_line(b"\x06" + two(self.last))

    def add(self, p, *rest):
        *lengths, data = rest
        if len(data) != sum(lengths):
            return UNSOUND
        fields, at = [], 0
        for length in lengths:
            fields.append(data[at:at + length])
            at += length
        return self.edit(*add(self.ruleset(), Rule(*fields), p))

    def drop(self, number):
        return self.edit(*drop(self.ruleset(), number))

    def move(self, number, p):
        return self.edit(*move(self.ruleset(), number, p))

    def set_class(self, symbol, letters):
        return self.edit(*set_class(self.ruleset(), symbol, letters))

    def read(self):
        rs = read_rules_hex(self.rules_hex)
        return rs if isinstance(rs, Refusal) else self.edit(None, rs)

    def write(self, room):
        return write_file(self.ruleset(), min(room, LONGEST_FILE))

    def build(self, word_room, set_room):
        built = build(self.ruleset(), min(word_room, MONITOR_WORDS), min(set_room, MONITOR_SETS))
        if isinstance(built, Refusal):
            return built
        words, sets = built
        self.words[:len(words)] = words
        self.sets[:len(sets)] = sets
        return frame_line(b"\x06" + b"".join(map(two, states_in(words))))

    def walk(self, word_room, set_room, phone_room, number_room, name):
        answer, steps = walk(self.ruleset(), self.words[:word_room], self.sets[:set_room], name,
                             min(phone_room, SAY_PHONES), min(number_room, SAY_NUMBERS), self.lent_list())
        return walk_refusal_line(answer, steps) if isinstance(answer, Refusal) else self.spoken(answer, steps)

    def plain(self, phone_room, number_room, name):
        answer = plain_reading(self.ruleset(), name, min(phone_room, SAY_PHONES),
                               min(number_room, SAY_NUMBERS), self.lent_list())
        return answer if isinstance(answer, Refusal) else self.spoken(answer, 0)

    def spoken(self, answer, steps):
        self.given(answer)
        return spoken_line(answer, steps)

    def given(self, *spoken):
        """Phones and numbers follow one another; the count is that of the last name, or stays where none was spoken."""
        phones = b"".join(answer.phones for answer in spoken)
        numbers = [number for answer in spoken for number in answer.numbers]
        self.phones[:len(phones)] = phones
        self.numbers[:len(numbers)] = numbers
        for answer in spoken:
            self.contested = answer.contested

    def sheet(self, word_room, set_room, phone_room, number_room, sheet):
        answer = speak_sheet(self.ruleset(), self.words[:word_room], self.sets[:set_room], sheet,
                             min(phone_room, SAY_PHONES), min(number_room, SAY_NUMBERS), self.lent_list())
        if isinstance(answer, Refusal):
            return walk_refusal_line(answer, 0)
        self.given(*(each for each in answer.answers if isinstance(each, Spoken)))
        return frame_line(b"\x06" + four(answer.steps) + two(len(answer.answers))) + b"".join(answer_line(each, 0) for each in answer.answers)

    def store_word(self, index, value):
        if index >= MONITOR_WORDS:
            return UNSOUND
        self.words[index] = value
        return frame_line(b"\x06")

    def store_set(self, index, value):
        if index >= MONITOR_SETS:
            return UNSOUND
        self.sets[index] = value
        return frame_line(b"\x06")

    def show_words(self, index, count):
        if index + count > MONITOR_WORDS:
            return UNSOUND
        return frame_line(b"\x0A" + b"".join(map(two, self.words[index:index + count])))

    def show_sets(self, index, count):
        if index + count > MONITOR_SETS:
            return UNSOUND
        shown = self.sets[index:index + count]
        return frame_line(b"\x0A" + b"".join(s.to_bytes(8, "big") for s in shown))

    def show_phones(self):
        return frame_line(b"\x0A" + bytes(self.phones))

    def show_numbers(self):
        return frame_line(b"\x0A" + b"".join(map(two, self.numbers)))

    def force(self, place, number, count, last):
        rules = list(self.held.rules)
        if place < len(rules):
            rules[place] = rules[place]._replace(number=number)
        self.held, self.count, self.last = self.held._replace(rules=tuple(rules)), count, last
        return frame_line(b"\x06")

    def clear(self):
        self.hold(EMPTY)
        return frame_line(b"\x06")

    def list_name(self, length, data):
        if len(data) < length:
            return UNSOUND
        return self.list_changed(list_name(self.lent_list(), data[:length], data[length:]))

    def unlist_name(self, name):
        return self.list_changed(unlist_name(self.lent_list(), name))

    def list_changed(self, refused):
        return refused or frame_line(b"\x06" + two(len(self.listed.phones)) + two(self.listed.states()))

    def read_out(self, room):
        data = read_out(self.lent_list(), min(room, LONGEST_READ_OUT))
        if isinstance(data, Refusal):
            return data
        self.told[:len(data)] = data
        return frame_line(b"\x06" + four(len(data)))

    def show_read_out(self, index, count):
        if index + count > LONGEST_READ_OUT:
            return UNSOUND
        return frame_line(b"\x0A" + bytes(self.told[index:index + count]))

    def clear_list(self):
        if self.units < LIST_UNITS:
            return Refusal(17, 0)
        self.listed = Exceptions()
        return frame_line(b"\x06")

    def lend_units(self, units):
        self.units = min(units, LIST_UNITS)
        return frame_line(b"\x06")

    def store_unit(self, index, value):
        if index >= LIST_UNITS:
            return UNSOUND
        self.listed = UNKNOWN
        return frame_line(b"\x06")

    def show_contested(self):
        return frame_line(b"\x0A" + bytes([self.contested]))

    def show_edits(self):
        return frame_line(b"\x0A" + four(self.held.edits))

    def store_edits(self, edits):
        self.held = self.held._replace(edits=edits)
        return frame_line(b"\x06")

    # First byte: the call and the sizes of its fixed fields.
    COMMANDS = {
        0x10: (add, 2, 1, 1, 1, 1), 0x11: (drop, 2), 0x12: (move, 2, 2), 0x13: (read,),
        0x14: (write, 4), 0x15: (build, 4, 4), 0x16: (walk, 4, 4, 2, 2), 0x17: (plain, 2, 2),
        0x18: (store_word, 4, 2), 0x19: (store_set, 4, 8), 0x1A: (show_words, 4, 1),
        0x1B: (show_sets, 4, 1), 0x1C: (show_phones,), 0x1D: (show_numbers,),
        0x1E: (force, 2, 2, 2, 2), 0x1F: (clear,), 0x20: (list_name, 1), 0x21: (unlist_name,),
        0x22: (read_out, 4), 0x23: (show_read_out, 4, 1), 0x24: (clear_list,), 0x25: (lend_units, 4),
        0x26: (store_unit, 4, 4), 0x27: (show_contested,), 0x28: (set_class, 1),
        0x29: (show_edits,), 0x2A: (store_edits, 4), 0x2B: (sheet, 4, 4, 2, 2),
    }


def monitor(rules_hex, data):
    """Standard output of a whole `monitor` session."""
    held = Monitor(rules_hex)
    return b"".join(held.answer(line) for line in lines_of(data))


# Self-test: the documents' examples and numbers ----------------------------------------

SIX_FILE = b"""010100060006F2
02000101010100000B0EE1
020002000100010B6B84
020003000101000500F4
0200040002000105056984
0200050001000105658D
020006000100010E6E7A
"""

SIX_RULES = (
    Rule(b"\0", b"\x0B", b"\x0E", b""), Rule(b"", b"\x0B", b"", b"\x6B"),
    Rule(b"", b"\x05", b"\0", b""), Rule(b"", b"\x05\x05", b"", b"\x69"),
    Rule(b"", b"\x05", b"", b"\x65"), Rule(b"", b"\x0E", b"", b"\x6E"))


def letters(text):
    return bytes(SPACE if c == " " else ord(c) - ord("a") + 1 for c in text)


class Check:
    def __init__(self):
        self.passed, self.failed = 0, 0

    def equal(self, what, got, wanted):
        if got == wanted:
            self.passed += 1
        else:
            self.failed += 1
            print(f"FAILED {what}: got {got!r}, wanted {wanted!r}")


def with_word(words, index, value):
    return words[:index] + array("H", [value]) + words[index + 1:]


def with_bytes(memory, at, some):
    return memory[:at] + some + memory[at + len(some):]


LONGEST_RULE = Rule(*(b"\1" * room for room in ROOMS))


def longest_ruleset():
    """Of the longest file: all classes with all their letters, all rules with all their symbols and phones."""
    classes = tuple(Class(symbol, bytes(range(1, MAX_CLASS + 1))) for symbol in CLASS_SYMBOLS)
    return Ruleset(tuple(Numbered(n, LONGEST_RULE) for n in range(1, MAX_RULES + 1)), MAX_RULES, classes)


def check_edits(check):
    answers, six = replay([("add", rule, at) for at, rule in enumerate(SIX_RULES)])
    check.equal("six additions", answers, [None] * 6)
    check.equal("their numbers", [n for n, _ in six.rules], [1, 2, 3, 4, 5, 6])
    _, dropped = drop(six, 6)
    check.equal("a drop keeps last", dropped.last, 6)
    _, again = add(dropped, SIX_RULES[5], 5)
    check.equal("no number twice", again.rules[5].number, 7)
    _, moved = move(six, 1, 5)
    check.equal("move to the end", [n for n, _ in moved.rules], [2, 3, 4, 5, 6, 1])
    check.equal("equal rules allowed", add(six, SIX_RULES[1], 0)[0], None)
    rule = SIX_RULES[1]
    full = Ruleset(tuple(Numbered(n, rule) for n in range(1, 513)), 512)
    spent = Ruleset((), MAX_NUMBER)
    for what, got, wanted in [
            ("0: number 7, last 6", add(Ruleset((Numbered(7, rule),), 6), rule, 0)[0], (0, 0)),
            ("0: over 512 rules", drop(Ruleset(full.rules + (Numbered(513, rule),), 513), 1)[0], (0, 0)),
            ("0: equal numbers", drop(Ruleset((Numbered(1, rule),) * 2, 2), 1)[0], (0, 0)),
            ("6: empty target", add(EMPTY, Rule(), 9)[0], (6, 0)),
            ("6: # inside a left context", add(EMPTY, Rule(b"\1\0", b"\1"), 0)[0], (6, 0)),
            ("6: # first in a longer right context", add(EMPTY, Rule(b"", b"\1", b"\0\1"), 0)[0], (6, 0)),
            ("6: # in a target", add(EMPTY, Rule(b"", b"\0"), 0)[0], (6, 0)),
            ("6: phone 00", add(EMPTY, Rule(b"", b"\1", b"", b"\0"), 0)[0], (6, 0)),
            ("6: 3F in a left context", add(EMPTY, Rule(b"\x3F", b"\1"), 0)[0], (6, 0)),
            ("6: 3F in a target", add(EMPTY, Rule(b"", b"\1\x3F"), 0)[0], (6, 0)),
            ("6: 3F in a right context", add(EMPTY, Rule(b"", b"\1", b"\x3F"), 0)[0], (6, 0)),
            ("3E everywhere", add(EMPTY, Rule(b"\x3E", b"\x3E", b"\x3E", b"\x3F"), 0)[0], None),
            ("0: 3F in a rule", drop(Ruleset((Numbered(1, Rule(b"", b"\x3F")),), 1), 1)[0], (0, 0)),
            ("7: p = 1, empty list", add(EMPTY, rule, 1)[0], (7, 0)),
            ("8: drop 9 of six", drop(six, 9)[0], (8, 0)),
            ("21: 513th add", add(full, rule, 512)[0], (21, 0)),
            ("7 before 21", add(full, rule, 513)[0], (7, 0)),
            ("10: add after 65,535", add(spent, rule, 0)[0], (10, 0)),
            ("move: 8 before 7", move(six, 9, 99)[0], (8, 0)),
            ("move: 7 against the remaining list", move(six, 1, 6)[0], (7, 0))]:
        check.equal(what, got, wanted)
    memory = memory_of(six, fill=0xEE)
    check.equal("memory of a ruleset", len(memory), MEMORY)
    check.equal("memory read back", ruleset_in(memory), six)
    check.equal("memory one short", ruleset_in(memory[:-1]), None)
    check.equal("memory longer", ruleset_in(memory + b"\xEE"), six)
    check.equal("the head of a ruleset's memory", memory[:8].hex(), "0006000600000006")
    check.equal("any edit count is one of a ruleset", ruleset_in(memory[:4] + b"\xFF\xFF\xFF\xFF" + memory[8:]), six._replace(edits=MAX_EDITS))
    return six


def check_file(check, six):
    check.equal("the six-rule file", file_text(six), SIX_FILE)
    check.equal("and back, without the edit count", read_file(SIX_FILE), six._replace(edits=0))
    full = longest_ruleset()
    check.equal("the longest file", len(file_text(full)), LONGEST_FILE)
    check.equal("and back", read_file(file_text(full)), full)
    lines = SIX_FILE.splitlines(keepends=True)
    starts = [sum(map(len, lines[:k])) for k in range(8)]

    def head(count, last, edition=1):
        return frame_line(bytes([1, edition]) + two(count) + two(last))

    for what, data, wanted in [
            ("13: empty file", b"", (13, 0)),
            ("13: missing line at the file's length", b"".join(lines[:6]), (13, starts[6])),
            ("13: last line without 0A", SIX_FILE[:-1], (13, starts[6])),
            ("13: odd digits", b"".join(lines[:3]) + b"0" + b"".join(lines[3:]), (13, starts[3])),
            ("13: lower case", SIX_FILE.lower(), (13, 0)),
            ("13: 0D", SIX_FILE.replace(b"\n", b"\r\n"), (13, 0)),
            ("13: sum not zero", SIX_FILE.replace(b"E1\n", b"E2\n"), (13, starts[1])),
            ("13: under 2 bytes", b"00\n", (13, 0)),
            ("13: empty line", b"\n" + SIX_FILE, (13, 0)),
            ("14: edition 02", head(0, 0, 2), (14, 0)),
            ("14: over 512, before its lines", head(513, 600), (14, 0)),
            ("14: head of another length", frame_line(b"\1\1\0\0\0"), (14, 0)),
            ("14: another first byte", lines[1] + SIX_FILE, (14, 0)),
            ("14: bytes after the last rule", SIX_FILE + b"x", (14, starts[7])),
            ("14: a number above last", head(6, 5) + b"".join(lines[1:]), (14, starts[6])),
            ("14: number 0", head(1, 1) + frame_line(rule_body(Numbered(0, LONGEST_RULE))), (14, 15)),
            ("14: a repeated number, at its later line", head(2, 6) + lines[1] * 2, (14, 15 + 23)),
            ("14: lengths that don't add up", head(1, 1) + frame_line(b"\2\0\1\0\1\0\0\1\1"), (14, 15)),
            ("14: the shape", head(1, 1) + frame_line(rule_body(Numbered(1, Rule()))), (14, 15)),
            ("14: 3F in a rule", head(1, 1) + frame_line(rule_body(Numbered(1, Rule(b"", b"\5", b"\x3F")))), (14, 15)),
            ("13 before 14 on one line", b"0102000000FE\n", (13, 0)),
            ("earlier line first", lines[0] + lines[0] + b"x", (14, starts[1]))]:
        check.equal(what, read_file(data), wanted)
    check.equal("an empty ruleset", read_file(head(0, 9)), Ruleset((), 9))
    check.equal("15: 14 for an empty set", write_file(EMPTY, 14), (15, 15))
    check.equal("exact room", write_file(EMPTY, 15), head(0, 0))
    check.equal("0 before 15", write_file(Ruleset((Numbered(1, Rule()),), 1), 0), (0, 0))
    check.equal("0 before 13", read_file(b"", MEMORY - 1), (0, 0))


def check_reading(check, six):
    words, sets = build(six, 644, 80)
    room = (256, 64)

    def both(what, name, wanted, rooms=room):
        answer, steps = walk(six, words, sets, name, *rooms)
        check.equal(what, answer, wanted)
        check.equal(what + ", plain", plain_reading(six, name, *rooms), wanted)
        uncounted = isinstance(wanted, Refusal) and wanted.number in (0, 1, 2, 16)
        check.equal(what + ", steps", steps, 0 if uncounted else 2 * len(name) + 2)

    # Contested are k before n after #, by rules 1 and 2, ee by 4 and 5, and the last e by 3 and 5.
    for marked, name, phones, numbers, contested in [
            ("M1", "knee", "6E69", (1, 6, 4), 2), ("M2", "keen", "6B696E", (2, 4, 6), 1),
            ("M3", "eke", "656B", (5, 2, 3), 1), ("M5", "", "", (), 0), ("M6", "e", "", (3,), 1),
            ("M7", "eee", "69", (4, 3), 2), ("M8", "kn", "6E", (1, 6), 1),
            ("M9", "kkn", "6B6B6E", (2, 2, 6), 0)]:
        both(marked, letters(name), Spoken(bytes.fromhex(phones), numbers, contested))
    both("M4", letters("nab"), Refusal(3, 2))
    both("1: 05 40", b"\x05\x40", Refusal(1, 1))
    both("2: 65 times 05", b"\x05" * 65, Refusal(2, 0))
    both("2 before 1", b"\x40" * 65, Refusal(2, 0))
    both("4: knee, 1 byte lent", letters("knee"), Refusal(4, 2), (1, 64))
    both("5: knee, 2 lent", letters("knee"), Refusal(5, 3), (256, 2))
    both("3 before 4", letters("nab"), Refusal(3, 2), (0, 0))
    both("4 before 5", letters("knee"), Refusal(4, 2), (1, 2))
    check.equal("M5 steps", walk(six, words, sets, b"", *room)[1], 2)

    rights = state_strings([right_pattern(r) for _, r in six.rules])
    check.equal("M10 counts", states_in(words), (2, 8))
    check.equal("M10 strings", list(rights),
                [b"", letters("n"), letters("nk"), letters("k"), b"\0", b"\0\5", letters("e"), letters("ee")])
    check.equal("M11", words[4 + 64 * 2 + 64 * 5 + 5], 7)
    check.equal("M12", [sets[8 * (2 + q)] for q in (2, 5, 7)], [3, 20, 24])
    check.equal("11: 643", build(six, 643, 79), (11, 644))
    check.equal("12: 79", build(six, 644, 79), (12, 80))
    check.equal("needed", (len(words), len(sets)), (644, 80))
    for what, lent in [("words of length 1", (words[:1], sets)), ("words of length 3", (words[:3], sets)),
                       ("words one short", (words[:-1], sets)), ("set words one short", (words, sets[:-1])),
                       ("L zero", (with_word(words, 2, 0), sets)), ("R zero", (with_word(words, 3, 0), sets)),
                       ("a step past the count", (with_word(words, 4, 2), sets)),
                       ("a place past the list", (words, array("Q", [64] * 80))),
                       ("a rule that doesn't fit", (words, array("Q", [1] * 80)))]:
        check.equal("16: " + what, walk(six, *lent, letters("ee"), *room), (Refusal(16, 0), 0))


def check_words(check, six):
    """Names of several words, without a list and with one; the steps beside each answer."""
    words, sets = build(six, 644, 80)
    knee, eke, nab = letters("knee"), letters("eke"), letters("nab")
    listed = Exceptions({knee: b"\1\2", letters("eke nab"): b"\3", letters("e "): b"\4", letters("ab"): b"\5"})

    def both(what, name, wanted, steps, rooms=(256, 64), exceptions=NO_EXCEPTIONS, tables=(words, sets)):
        check.equal(f"words, {what}: walk", walk(six, *tables, name, *rooms, exceptions), (wanted, steps))
        if tables == (words, sets):
            check.equal(f"words, {what}: plain", plain_reading(six, name, *rooms, exceptions), wanted)

    for name, parts in [(b"", 1), (b"\x3F", 2), (b"\x3F\x3F", 3), (b"\x3F" * 64, 65), (knee, 1), (b"\x3F" + knee, 2), (knee + b"\x3F", 2)]:
        check.equal(f"words of {name.hex()}", len(words_of(name)), parts)
    for text, phones, numbers, contested in [
            ("eke knee", "656B6E69", (5, 2, 3, 1, 6, 4), 3),    # a silent e before the space, a silent k after it
            ("e e", "", (3, 3), 2), ("ee ee", "6969", (4, 4), 2), ("e kn", "6E", (3, 1, 6), 2), ("ke n", "6B6E", (2, 3, 6), 1),
            ("", "", (), 0), (" ", "", (), 0), ("  ", "", (), 0), (" knee", "6E69", (1, 6, 4), 2), ("knee ", "6E69", (1, 6, 4), 2),
            ("n  n", "6E6E", (6, 6), 0), (" " * 64, "", (), 0)]:
        both(f"'{text}'", letters(text), Spoken(bytes.fromhex(phones), numbers, contested), 2 * len(text) + 2)
    for text, place in [("knee nab", 7), ("nab nab", 2), (" a", 2), ("  nab ", 4), ("n a a", 3)]:
        both(f"3 in '{text}'", letters(text), Refusal(3, place), 2 * len(text) + 2)
    both("4 for the whole name", letters("knee knee"), Refusal(4, 4), 20, (3, 64))
    both("5 for the whole name", letters("knee knee"), Refusal(5, 6), 20, (4, 5))
    both("4 before 5", letters("knee knee"), Refusal(4, 4), 20, (3, 5))
    both("room for all", letters("knee knee"), Spoken(b"\x6E\x69" * 2, (1, 6, 4) * 2, 4), 20, (4, 6))
    both("3 before 4", letters("knee a"), Refusal(3, 6), 14, (0, 0))
    both("2", b"\x3F" * 65, Refusal(2, 0), 0)
    both("1", b"\x3F\x40", Refusal(1, 1), 0)

    for text, wanted, steps, room in [
            ("eke knee eke", Spoken(b"\x65\x6B\1\2\x65\x6B", (5, 2, 3, 5, 2, 3), 2), 16, 6),
            ("knee knee", Spoken(b"\1\2\1\2", ()), 0, 4), ("knee knee", Refusal(4, 4), 0, 3),
            ("eke nab", Spoken(b"\3", ()), 0, 1), ("eke nab", Refusal(4, 1), 0, 0),      # the whole name before its words
            ("knee eke nab", Refusal(3, 11), 16, 9), ("e ", Spoken(b"\4", ()), 0, 9),     # no part of several words is tried
            ("e  ", Spoken(b"", (3,), 1), 8, 9), (" knee", Spoken(b"\1\2", ()), 2, 9), ("ab knee", Spoken(b"\5\1\2", ()), 0, 9),
            ("nab ab", Refusal(3, 2), 8, 9), ("ab nab", Refusal(3, 5), 8, 9), ("knee n", Refusal(4, 3), 4, 2)]:
        both(f"'{text}' with a list", letters(text), wanted, steps, (room, 64), listed)
    both("5 of unlisted words", letters("knee eke"), Refusal(5, 3), 8, (9, 2), listed)
    none, cut = (words[:1], sets), (with_word(words, 4, 2), sets)      # no tables; a first step past the count
    both("no tables, every word listed", letters("ab knee"), Spoken(b"\5\1\2", ()), 0, (9, 0), listed, none)
    both("4 without tables", letters("ab knee"), Refusal(4, 3), 0, (2, 0), listed, none)
    both("no tables, a word of no letters", letters("knee "), Refusal(16, 0), 0, (9, 9), listed, none)
    both("no tables, a word not listed", letters("ab e"), Refusal(16, 0), 0, (9, 9), listed, none)
    late = with_word(words, ROWS + SYMBOLS * 1 + 26, 2)     # the left state after # steps past the count under z
    both("16 of a later word's pass before 3", nab + letters(" z"), Refusal(16, 0), 0, tables=(late, sets))
    both("3 where no pass does that", nab + letters(" nz"), Refusal(3, 2), 14, tables=(late, sets))
    both("a listed word makes no pass", letters("ab knee"), Spoken(b"\5\1\2", ()), 0, (9, 9), listed, cut)


def check_contested(check, six):
    """In the walk a letter is contested by the places that its two sets share, whatever the tables are."""
    words, sets = build(six, 644, 80)
    inside, after_start = 0, 8          # where the left sets begin: after a letter, after #
    n, nk = 8 * (2 + 1), 8 * (2 + 2)    # and two right ones, by their strings (M10)

    def counted(what, name, changes, wanted):
        """`changes` are (the word at which a set begins, a place): that place comes into the set, or leaves it."""
        altered = sets[:]
        for start, place in changes:
            altered[start + place // 64] ^= 1 << place % 64
        answer, _ = walk(six, words, altered, letters(name), 256, 64)
        check.equal("contested: " + what, answer.contested if isinstance(answer, Spoken) else answer, wanted)

    counted("by one rule", "n", [], 0)
    for place in (6, 63, 64, 200, 511):
        counted(f"place {place}, past the list", "n", [(after_start, place), (n, place)], 1)
        counted(f"place {place} on one side", "n", [(n, place)], 0)
    counted("a lower place is chosen, and does not fit", "n", [(n, 4)], Refusal(16, 0))
    counted("a place alone, past the list", "n", [(n, 5), (after_start, 6), (n, 6)], Refusal(16, 0))
    counted("no place", "n", [(n, 5)], Refusal(3, 1))
    counted("three places are one letter", "kn", [(nk, 2)], 1)
    counted("without rule 2's place", "kn", [(nk, 1)], 0)
    counted("without rule 1's place", "kn", [(nk, 0)], 0)
    counted("a place whose rule does not fit", "kkn", [(nk, 5)], 1)
    counted("rule 1 chosen inside a word", "kkn", [(inside, 0), (nk, 5)], Refusal(16, 0))

    alike = Ruleset(tuple(Numbered(k + 1, SIX_RULES[1]) for k in range(MAX_RULES)), MAX_RULES)
    far = tuple(Numbered(k + 1, SIX_RULES[1] if k in (60, 500) else SIX_RULES[5]) for k in range(MAX_RULES))
    for what, rs, name, contested in [("512 rules at every letter", alike, "k" * 64, 64), ("512 rules at one", alike, "k", 1),
                                      ("rules far apart", Ruleset(far, MAX_RULES), "kk", 2)]:
        said = plain_reading(rs, letters(name), 256, 64)
        check.equal("contested: " + what, said.contested, contested)
        check.equal("contested: " + what + ", walk", walk(rs, *build(rs, MONITOR_WORDS, MONITOR_SETS), letters(name), 256, 64)[0], said)


VOWELS, NASALS = Class(0x40, letters("aeiou")), Class(0x5F, letters("mn"))


def check_classes(check):
    """Classes set and used, the literal rules of a rule, the memory and the file that hold them, and what is refused."""
    k_before = Rule(b"", letters("k"), b"\x40", b"\x63")
    between = Rule(b"\0\x5F", letters("k"), b"\x40\x5F\0", b"")
    _, rs = replay([("class", *NASALS), ("class", *VOWELS), ("add", k_before, 0), ("add", between, 0), ("add", SIX_RULES[1], 2)])
    check.equal("classes in order", (rs.classes, rs.last, literal_total(rs)), ((VOWELS, NASALS), 3, 20 + 5 + 1))
    check.equal("the leftmost symbol slowest", [(r.left + r.right).replace(b"\0", b"") for r in literal_rules(between, rs.classes)],
                [letters(left + vowel + right) for left in "mn" for vowel in "aeiou" for right in "mn"])
    check.equal("its numbers", [n for n, _ in literal_list(rs)], [2] * 20 + [1] * 5 + [3])

    def refused(what, got, number):
        check.equal("classes, " + what, got[0], Refusal(number, 0) if number is not None else None)
        check.equal("classes, " + what + ": the ruleset", got[1] == rs, number is not None)

    for what, symbol, some in [("symbol 3F", 0x3F, b"\1"), ("symbol 60", 0x60, b"\1"), ("letter 00", 0x41, b"\0\1"), ("letter 3F", 0x41, b"\1\x3F"),
                               ("a class in a class", 0x41, b"\1\x40"), ("empty", 0x41, b""), ("equal letters", 0x41, b"\1\1"),
                               ("letters descending", 0x41, b"\2\1"), ("33 letters", 0x41, bytes(range(1, 34))),
                               ("in use", 0x40, b"\1"), ("in use, the same letters", *VOWELS)]:
        refused(what, set_class(rs, symbol, some), 20)
    for what, symbol, some in [("32 letters", 0x41, bytes(range(1, 33))), ("one letter", 0x5E, b"\x3E")]:
        refused(what, set_class(rs, symbol, some), None)
    unused = replay([("drop", 1), ("drop", 2), ("class", 0x40, b"\1")], rs)
    check.equal("set again after the last use", (unused[0], unused[1].classes), ([None] * 3, (Class(0x40, b"\1"), NASALS)))
    for what, rule, number in [("a class in a target", Rule(b"", b"\1\x40"), 6), ("symbol 60 in a context", Rule(b"\x60", b"\1"), 6),
                               ("# inside a context of classes", Rule(b"\x40\0", b"\1"), 6), ("an undefined class", Rule(b"\x41", b"\1"), 20)]:
        refused(what, add(rs, rule, 9), number)
        refused(what + ", 7 after it", add(rs, rule, 0), number)
    fill = lambda count: tuple(Numbered(k, SIX_RULES[1]) for k in range(9, 9 + count))
    brim = rs._replace(rules=fill(507), last=600)
    for what, rule, p, wanted in [("512 literal rules", k_before, 0, None), ("21: 513", between, 0, (21, 0)), ("7 before 21", between, 508, (7, 0)),
                                  ("20 before 7", Rule(b"\x41", b"\1"), 508, (20, 0)),
                                  ("21 of very many", Rule(b"\x40" * MAX_CONTEXT, b"\1", b"\x40" * MAX_CONTEXT), 0, (21, 0))]:
        check.equal("classes, " + what, add(brim, rule, p)[0], wanted)
    check.equal("21 before 10", add(brim._replace(last=MAX_NUMBER), between, 0)[0], (21, 0))
    check.equal("10", add(brim._replace(last=MAX_NUMBER), k_before, 0)[0], (10, 0))
    for what, other in [("513 literal rules", rs._replace(rules=rs.rules + fill(487), last=600)),
                        ("an undefined class", rs._replace(classes=(VOWELS,))),
                        ("a bad class", rs._replace(classes=rs.classes + (Class(0x60, b"\1"),)))]:
        check.equal("0: " + what, set_class(other, 0x60, b""), (Refusal(0, 0), other))
    check_class_memory(check, rs)
    check_class_file(check, rs)
    check_class_names(check, rs)


def check_class_memory(check, rs):
    memory = memory_of(rs, fill=0xEE)
    check.equal("classes in memory", ruleset_in(memory), rs)
    # The masks of the vowels and of the next class, the total, and the literal rules of the second numbered rule.
    check.equal("vowels", memory[MASKS:MASKS + 8].hex(), "0000000000208222")
    check.equal("the total", memory[TOTAL:TOTAL + 2].hex(), "001a")
    check.equal("literal rules", memory[LITERALS + 4 * 19:LITERALS + 4 * 22].hex(), "00000013" "00010000" "00010001")
    for what, at, some in [("bit 0", MASKS + 7, b"\x23"), ("bit 63", MASKS, b"\x80"), ("33 letters", MASKS + 8, b"\0\0\0\3\xFF\xFF\xFF\xFE"),
                           ("an undefined class", TOTAL - 8, bytes(8)), ("another class", MASKS + 7, b"\x20"), ("the total", TOTAL + 1, b"\x19"),
                           ("a place", LITERALS + 4 * 20 + 1, b"\0"), ("which", LITERALS + 4 * 20 + 3, b"\1"), ("the last", LITERALS + 4 * 25 + 3, b"\1")]:
        check.equal("0: " + what, ruleset_in(with_bytes(memory, at, some)), None)
    for what, at, some in [("an unused class", MASKS + 15, b"\2"), ("past the literal rules", LITERALS + 4 * 26, b"\1\1\1\1")]:
        check.equal("no fault: " + what, ruleset_in(with_bytes(memory, at, some)) is not None, True)


def check_class_file(check, rs):
    text = file_text(rs)
    lines = text.splitlines(keepends=True)
    check.equal("class lines", lines[1:3], [frame_line(b"\7\x40\5\1\5\x09\x0F\x15"), frame_line(b"\7\x5F\2\x0D\x0E")])
    check.equal("classes read back", read_file(text), rs._replace(edits=0))
    starts = [sum(map(len, lines[:k])) for k in range(7)]
    line = lambda *body: frame_line(bytes(body))
    for what, some in [("no fields", line(7)), ("no count", line(7, 0x50)), ("no letters", line(7, 0x50, 0)),
                       ("letters missing", line(7, 0x50, 2, 1)), ("letters too many", line(7, 0x50, 1, 1, 2)),
                       ("symbol 3F", line(7, 0x3F, 1, 1)), ("symbol 60", line(7, 0x60, 1, 1)),
                       ("letter 00", line(7, 0x50, 1, 0)), ("letter 3F", line(7, 0x50, 1, 0x3F)), ("not ascending", line(7, 0x50, 2, 2, 1)),
                       ("33 letters", line(7, 0x50, 33, *range(1, 34))), ("the same symbol", lines[1]), ("a lower symbol", line(7, 0x3F + 1, 1, 1))]:
        check.equal("14: " + what, read_file(b"".join([*lines[:2], some, *lines[2:]])), (14, starts[2]))
    head = lambda count: frame_line(b"\1\1" + two(count) + two(9))
    rest = b"".join(lines[3:])
    for what, data, wanted in [
            ("an undefined class", b"".join(lines[:2] + lines[3:]), (14, starts[2])),
            ("a class after a rule", b"".join(lines[:4] + [line(7, 0x5E, 1, 1)] + lines[4:]), (14, starts[4])),
            ("a class after the last", text + lines[2], (14, starts[6])),
            ("13 where a class could stand", b"".join(lines[:2]) + b"x\n" + rest, (13, starts[2])),
            ("13 for an unsound class", b"".join(lines[:2]) + lines[2].lower() + rest, (13, starts[2])),
            ("a missing rule after classes", b"".join(lines[:3]), (13, starts[3])),
            ("14 with no rules counted", head(0) + lines[1] + b"x", (14, 15 + len(lines[1]))),
            ("an unended class, no rules counted", head(0) + lines[1][:-1], (14, 15)), ("another frame there", head(0) + line(2, 0), (14, 15)),
            ("classes alone", head(0) + lines[1] + lines[2], Ruleset((), 9, rs.classes)), ("two heads", head(0) + head(0), (14, 15))]:
        check.equal("file, " + what, read_file(data), wanted)
    fill = [frame_line(rule_body(Numbered(n, SIX_RULES[1]))) for n in range(9, 9 + 487)]
    wide = lambda more: frame_line(b"\1\1" + two(3 + more) + two(600)) + b"".join(lines[1:] + fill[:more])
    check.equal("512 literal rules in a file", literal_total(read_file(wide(486))), 512)
    check.equal("14: 513 in a file", read_file(wide(487)), (14, len(wide(486))))


def check_class_names(check, rs):
    """Fitting by expansion is fitting by membership."""
    classes = dict(rs.classes)
    may_stand = lambda symbol, letter: letter in classes.get(symbol, bytes([symbol]))
    for name in map(bytes, product(letters("kam"), repeat=4)):
        framed = frame_word(name)
        for _, rule in rs.rules:
            for i in range(1, len(name) + 1):
                symbols = rule.left + rule.target + rule.right
                around = framed[max(0, i - len(rule.left)):i - len(rule.left) + len(symbols)] if i >= len(rule.left) else b""
                member = len(around) == len(symbols) and all(map(may_stand, symbols, around))
                check.equal("member", sum(fits(r, framed, i) for r in literal_rules(rule, rs.classes)), int(member))
    rs = replay([("add", Rule(b"", bytes([c]), b"", bytes([0x60 + c])), len(rs.rules)) for c in letters("aemn")], rs)[1]
    words, sets = build(rs, MONITOR_WORDS, MONITOR_SETS)
    for name, phones, numbers, contested in [
            ("kk", "6B6B", (3, 3), 0), ("ka", "6361", (1, 4), 1), ("mkan", "6D616E", (6, 2, 4, 7), 1), ("kma", "6B6D61", (3, 6, 4), 0),
            ("mkanka", "6D63616E6361", (6, 1, 4, 7, 1, 4), 2), ("nkem", "6E656D", (7, 2, 5, 6), 1)]:
        said = Spoken(bytes.fromhex(phones), numbers, contested)
        check.equal("classes, " + name, (plain_reading(rs, letters(name), 9, 9), walk(rs, words, sets, letters(name), 9, 9)[0]), (said, said))
    everywhere = lambda place: (words, array("Q", [1 << place % 64 if j == place // 64 else 0 for j in range(8)] * (len(sets) // 8)))
    total = literal_total(rs)
    for what, place in [("a literal rule that does not fit", 20), ("past the literal rules", total), ("the place of a numbered rule", 1)]:
        check.equal("16: " + what, walk(rs, *everywhere(place), letters("ke"), 9, 9), (Refusal(16, 0), 0))


def check_list(check, six):
    """The list's changes, its states, its read-out, and names said from it."""
    knee, said = letters("knee"), b"\x6B\xFF"
    check.equal("an empty list", (NO_EXCEPTIONS.states(), states_of({}), read_out(NO_EXCEPTIONS, 0)), (1, 1, b""))
    for names, states in [
            ("a", 2), ("ab", 3), ("a ab", 3), ("ab cb", 3), ("ab b", 3), ("ab bb cb", 3), ("ab ac", 3), ("aa ab ba", 4),
            ("aa ab ba bb", 3), ("aab bab", 4), ("a aa aaa", 4), ("a b ab ba", 4), ("abc adc bc", 4)]:
        phones = {letters(name): said for name in names.split()}
        check.equal(f"states of {names}", (Exceptions(phones).states(), states_of(phones)), (states, states))
    check.equal("other phones, other ends", Exceptions({b"\1\2": b"\1", b"\3\2": b"\2"}).states(), 5)

    listed = Exceptions()
    full = Exceptions({bytes([1 + k // 32, 1 + k % 32]): said for k in range(1_000)})
    # After 31 first letters the same 32 follow, after one fewer.
    check.equal("the most names", (len(full.phones), full.states()), (1_000, 1 + 2 + 1))
    # Names of 64 letters, phones of their own: 64 states each, or 63 where the first letter is shared.
    wide = Exceptions({bytes([k]) * 64: bytes([k]) for k in range(1, 64)})
    wide.put(b"\1" + b"\2" * 63, b"\x40")
    check.equal("the most states", (1 + 63 * 64 + 63, wide.states()), (4_096, 4_096))
    # The four names of two letters have two states; without one of them, or with other phones for it, more.
    tight = Exceptions({bytes([k]) * 64: bytes([k]) for k in range(1, 62)})
    for k in (1, 2, 3):
        tight.put(bytes([k]) + bytes([k + 1]) * 63, bytes([0x40 + k]))
    for name in (b"\x3E\1", b"\x3E\2", b"\x3F\1", b"\x3F\2"):
        tight.put(name, said)
    check.equal("the most states, some shared", (1 + 61 * 64 + 3 * 63 + 2, tight.states()), (4_096, 4_096))
    for what, got, wanted in [
            ("17: no list", list_name(None, b"\x40" * 65, b""), (17, 0)),
            ("2: 65 letters", list_name(listed, b"\x40" * 65, b""), (2, 0)),
            ("1: a byte 40", list_name(listed, b"\5\x40\0", b""), (1, 1)),
            ("17: no letters", list_name(listed, b"", said), (17, 0)),
            ("17: no phones", list_name(listed, knee, b""), (17, 0)),
            ("17: 65 phones", list_name(listed, knee, b"\1" * 65), (17, 0)),
            ("17: a phone 00", list_name(listed, knee, b"\1\0"), (17, 0)),
            ("added", list_name(listed, knee, said), None),
            ("replaced", list_name(listed, knee, b"\1" * 64), None),
            ("the longest name", list_name(listed, b"\x3F" * 64, said), None),
            ("17: removed from no list", unlist_name(None, b"\x40" * 65), (17, 0)),
            ("2: removed", unlist_name(listed, b"\x40" * 65), (2, 0)),
            ("1: removed", unlist_name(listed, b"\0"), (1, 0)),
            ("18: no letters", unlist_name(listed, b""), (18, 0)),
            ("18: a prefix", unlist_name(listed, knee[:3]), (18, 0)),
            ("removed", unlist_name(listed, b"\x3F" * 64), None),
            ("18: removed already", unlist_name(listed, b"\x3F" * 64), (18, 0)),
            ("17 before 19", list_name(full, b"\1", b""), (17, 0)),
            ("19: 1,001 names", list_name(full, b"\1", said), (19, 0)),
            ("19: 4,097 states", list_name(wide, b"\1\3", said), (19, 0)),
            ("no state more", list_name(wide, b"\1\2", said), None),
            ("19 by adding", list_name(tight, b"\x23\1", b"\x7F"), (19, 0)),
            ("19 by replacing", list_name(tight, b"\x3E\1", b"\1"), (19, 0)),
            ("19 by removing", unlist_name(tight, b"\x3E\1"), (19, 0)),
            ("18 before 19", unlist_name(tight, b"\x3E\3"), (18, 0)),
            ("the same phones again", list_name(tight, b"\x3E\1", said), None),
            ("a long one removed", unlist_name(tight, b"\1" * 64), None),
            ("then another", unlist_name(tight, b"\x3E\1"), None),
            ("replaced among 1,000", list_name(full, b"\1\1", b"\1"), None)]:
        check.equal("list, " + what, got, wanted)
    check.equal("a list after its changes", listed.phones, {knee: b"\1" * 64})
    for some in (listed, full, wide, tight):
        check.equal("states kept and by definition", some.states(), states_of(some.phones))

    told = bytes.fromhex("01010109" "0201010207 08".replace(" ", "") + "01020109")
    some = Exceptions({b"\2": b"\x09", b"\1\1": b"\7\x08", b"\1": b"\x09"})
    check.equal("read-out", read_out(some, 14), told)
    check.equal("15", read_out(some, 13), (15, 14))
    check.equal("17 before 15", read_out(None, 0), (17, 0))
    check.equal("and back", listed_in(told).phones, some.phones)
    for what, data in [("out of order", told[4:] + told[:4]), ("twice", told + told[-4:]), ("cut", told[:-1]),
                       ("no phones", b"\1\1\0"), ("no letters", b"\0\1\1"), ("a byte 40", b"\1\x40\1\1")]:
        check.equal("no read-out: " + what, listed_in(data), None)
    longest = {bytes([1]) * 54 + bytes(1 + (k >> j & 1) for j in range(10)): b"\1" * 64 for k in range(1_000)}
    check.equal("the longest read-out", len(read_out_of(longest)), LONGEST_READ_OUT)

    words, sets = build(six, 644, 80)
    listed.put(knee, said)
    for what, rs, lent, name, room, wanted in [
            ("a listed name", six, listed, knee, 2, Spoken(said, ())),
            ("4", six, listed, knee, 1, Refusal(4, 2)),
            ("another name", six, listed, knee[:2], 2, Spoken(b"\x6E", (1, 6), 1)),
            ("no letters", six, listed, b"", 0, Spoken(b"", ())),
            ("0 before 17", Ruleset((Numbered(7, SIX_RULES[0]),), 6), None, knee, 2, Refusal(0, 0)),
            ("17 before 2", six, None, b"\1" * 65, 2, Refusal(17, 0)),
            ("2", six, listed, b"\1" * 65, 2, Refusal(2, 0)),
            ("1", six, listed, knee + b"\0", 2, Refusal(1, 4)),
            ("no rules", EMPTY, listed, knee, 2, Spoken(said, ()))]:
        check.equal("list: " + what, plain_reading(rs, name, room, 9, lent), wanted)
        steps = 2 * len(name) + 2 if isinstance(wanted, Spoken) and wanted.phones != said else 0
        check.equal("list: " + what + ", walk", walk(rs, words, sets, name, room, 9, lent), (wanted, steps))
    check.equal("the list before 16", walk(six, words[:1], sets, knee, 2, 0, listed), (Spoken(said, ()), 0))
    check.equal("4 before 16", walk(six, words[:1], sets, knee, 0, 0, listed), (Refusal(4, 2), 0))


def check_stale(check, six):
    """Tables from before an edit: what is counted, what the walk compares and when, and the count spent."""
    knee, vowels = letters("knee"), Class(0x40, letters("aeiou"))
    words, sets = build(six, 644, 80)
    check.equal("six additions are counted", (six.edits, list(words[:4])), (6, [0, 6, 2, 8]))
    wide = build(six._replace(edits=0x00010002), 644, 80)[0]
    check.equal("high word first", (list(wide[:2]), edits_in(wide)), ([1, 2], 0x00010002))
    check.equal("the rest is as before", wide[2:], words[2:])

    said = Spoken(b"\x6E\x69", (1, 6, 4), 2), 10
    stale = Refusal(22, 0), 0
    for what, edit, edits in [("an addition", ("add", SIX_RULES[5], 6), 7), ("a drop", ("drop", 6), 7), ("a move", ("move", 6, 0), 7),
                              ("a move to its own place", ("move", 1, 0), 7), ("a class", ("class", *vowels), 6),
                              ("6", ("add", Rule(), 0), 6), ("20", ("add", Rule(b"\x40", b"\1"), 0), 6), ("7", ("add", SIX_RULES[5], 7), 6),
                              ("8, drop", ("drop", 9), 6), ("8, move", ("move", 9, 0), 6), ("7, move", ("move", 1, 6), 6), ("20, class", ("class", 0x40, b""), 6)]:
        _, after = replay([edit], six)
        check.equal("counted, " + what, after.edits, edits)
        check.equal("tables after " + what, walk(after, words, sets, knee, 256, 64), said if edits == 6 else stale)
        check.equal("built again after " + what, walk(after, *build(after, MONITOR_WORDS, MONITOR_SETS), letters("kn"), 256, 64)[0],
                    plain_reading(after, letters("kn"), 256, 64))
    back = replay([("move", 1, 5), ("move", 1, 0)], six)[1]
    check.equal("the same rules again", (back.rules == six.rules, walk(back, words, sets, knee, 256, 64)), (True, stale))
    other = replay([("drop", 1), ("move", 2, 4)], six)[1]._replace(edits=6)
    check.equal("another history with an equal count", walk(other, words, sets, knee, 256, 64), (Refusal(16, 0), 0))
    check.equal("plain reading has no tables", plain_reading(other._replace(edits=9), letters("kn"), 256, 64), Spoken(b"\x6B\x6E", (2, 6)))

    listed = Exceptions({knee: b"\1"})
    later = six._replace(edits=7)
    for what, lent in [("3 words", (words[:3], sets)), ("4 words", (words[:4], sets)), ("words one short", (words[:-1], sets)),
                       ("set words one short", (words, sets[:-1])), ("L zero", (with_word(words, 2, 0), sets)), ("R zero", (with_word(words, 3, 0), sets))]:
        check.equal("16 before 22: " + what, walk(later, *lent, knee, 256, 64), (Refusal(16, 0), 0))
    cut = with_word(words, 4, 2), sets
    check.equal("22 before the passes", walk(later, *cut, knee, 256, 64), stale)
    check.equal("16 in the passes", walk(six, *cut, knee, 256, 64), (Refusal(16, 0), 0))
    for what, name, room, wanted in [
            ("2 before 22", b"\x40" * 65, 0, Refusal(2, 0)), ("1 before 22", b"\x40", 0, Refusal(1, 0)), ("no letters", b"", 0, Refusal(22, 0)),
            ("22 before 3", letters("nab"), 0, Refusal(22, 0)), ("22 before 4", letters("kn"), 0, Refusal(22, 0)),
            ("a word not listed", letters("knee e"), 9, Refusal(22, 0)), ("a word of no letters", letters("knee "), 9, Refusal(22, 0)),
            ("a listed name", knee, 1, Spoken(b"\1", ())), ("a listed name's 4", knee, 0, Refusal(4, 1)),
            ("listed words", letters("knee knee"), 2, Spoken(b"\1\1", ())), ("their 4", letters("knee knee"), 1, Refusal(4, 2))]:
        check.equal("stale, " + what, walk(later, words, sets, name, room, 0, listed), (wanted, 0))
    check.equal("0 before 22", walk(later._replace(last=5), words, sets, knee, 9, 9), (Refusal(0, 0), 0))
    check.equal("17 before 22", walk(later, words, sets, knee, 9, 9, None), (Refusal(17, 0), 0))
    for what, index, value in [("the high word", 0, 1), ("the low word", 1, 7), ("the low word alone in the high one", 0, 6)]:
        check.equal("22 by " + what, walk(six, with_word(words, index, value), sets, knee, 256, 64), stale)
    check.equal("words exchanged", walk(six, array("H", [6, 0]) + words[2:], sets, knee, 256, 64), stale)
    check_spent(check, six)


def check_spent(check, six):
    """23 is the last check, and nothing is changed; a class can still be set."""
    spent, rule = six._replace(edits=MAX_EDITS), SIX_RULES[5]
    full = Ruleset(tuple(Numbered(n, rule) for n in range(1, 513)), 512, (), MAX_EDITS)
    for what, rs, edit, wanted in [
            ("0", spent._replace(last=5), ("add", Rule(), 9), 0), ("6", spent, ("add", Rule(), 9), 6), ("20", spent, ("add", Rule(b"\x40", b"\1"), 9), 20),
            ("7", spent, ("add", rule, 7), 7), ("21", full, ("add", rule, 512), 21), ("10", spent._replace(last=MAX_NUMBER), ("add", rule, 6), 10),
            ("23 of an addition", spent, ("add", rule, 6), 23), ("0, drop", spent._replace(last=5), ("drop", 9), 0), ("8, drop", spent, ("drop", 9), 8),
            ("23 of a drop", spent, ("drop", 1), 23), ("0, move", spent._replace(last=5), ("move", 9, 9), 0), ("8, move", spent, ("move", 9, 9), 8),
            ("7, move", spent, ("move", 1, 6), 7), ("23 of a move", spent, ("move", 1, 5), 23), ("23 of a move to its own place", spent, ("move", 1, 0), 23),
            ("20 of a class", spent, ("class", 0x40, b""), 20)]:
        check.equal("spent, " + what, replay([edit], rs), ([Refusal(wanted, 0)], rs))
    check.equal("spent, a class", replay([("class", 0x40, b"\1")], spent), ([None], spent._replace(classes=(Class(0x40, b"\1"),))))
    check.equal("spent, tables", walk(spent, *build(spent, 644, 80), letters("kn"), 9, 9), (Spoken(b"\x6E", (1, 6), 1), 6))
    last = six._replace(edits=MAX_EDITS - 1)
    for edit in [("add", rule, 0), ("drop", 1), ("move", 1, 5)]:
        check.equal("the last edit, " + edit[0], (replay([edit], last)[0], replay([edit], last)[1].edits), ([None], MAX_EDITS))
    check.equal("a file has no count", (file_text(spent), read_file(file_text(spent)).edits), (SIX_FILE, 0))


def check_sheets(check, six):
    """Sheets of names that begin alike, their steps counted by hand, and what refuses a sheet whole."""
    words, sets = build(six, 644, 80)
    listed = Exceptions({letters("knee"): b"\1\2", letters("eke nab"): b"\3"})
    stale, no_set = six._replace(edits=9), Ruleset((Numbered(7, SIX_RULES[1]),), 6)
    told = lambda *names: b"".join(bytes([len(name)]) + name for name in names)
    typed = lambda text: told(*map(letters, text.split(",")))
    knee, keen, nab = Spoken(b"\x6E\x69", (1, 6, 4), 2), Spoken(b"\x6B\x69\x6E", (2, 4, 6), 1), Refusal(3, 2)

    def said(what, sheet, answers, steps, rooms=(256, 64), exceptions=NO_EXCEPTIONS, tables=(words, sets), rs=six):
        check.equal(f"sheet, {what}", speak_sheet(rs, *tables, sheet, *rooms, exceptions), Sheet(tuple(answers), steps))

    for what, text, answers, lefts, rights in [
            ("one name", "knee", [knee], 5, 5), ("no letters", "", [Spoken(b"", ())], 1, 1), ("no letters twice", ",", [Spoken(b"", ())] * 2, 1, 2),
            ("beginnings", "knee,keen,nab", [knee, keen, nab], 5 + 3 + 3, 5 + 5 + 4), ("equal names", "knee,knee", [knee] * 2, 5, 10),
            ("not side by side", "knee,nab,keen,knee", [knee, nab, keen, knee], 5 + 3 + 3, 5 + 4 + 5 + 5),
            ("a beginning of others", "kn,knee", [Spoken(b"\x6E", (1, 6), 1), knee], 5, 3 + 5),
            ("words of several names", "e knee,knee", [Spoken(b"\x6E\x69", (3, 1, 6, 4), 3), knee], 1 + 1 + 4, 2 + 5 + 5),
            ("words of no letters", " ,  ", [Spoken(b"", ())] * 2, 1, 5)]:
        said(what, typed(text), answers, lefts + rights)
    said("no names", b"", [], 0)
    said("no names and no tables", b"", [], 0, tables=((), ()))
    said("2 and 1 have no words", told(b"\5" * 65, letters("knee"), b"\5\x40"), [Refusal(2, 0), knee, Refusal(1, 1)], 10)
    said("room for the first alone", typed("knee,knee"), [knee, Refusal(4, 2)], 15, (3, 64))
    said("a refused name takes none", typed("keen,knee"), [Refusal(4, 3), knee], 8 + 10, (2, 64))
    said("numbers left", typed("knee,keen,n"), [knee, Refusal(5, 3), Spoken(b"\x6E", (6,))], 5 + 3 + 1 + 12, (256, 4))
    said("just enough", typed("knee,nab,keen"), [knee, nab, keen], 11 + 14, (5, 6))
    said("a listed name", typed("knee,keen"), [Spoken(b"\1\2", ()), keen], 5 + 5, exceptions=listed)
    said("a listed word", typed("knee keen,eke nab"), [Spoken(b"\1\2\x6B\x69\x6E", (2, 4, 6), 1), Spoken(b"\3", ())], 5 + 5, exceptions=listed)
    said("listed names without tables", typed("knee,eke nab"), [Spoken(b"\1\2", ()), Spoken(b"\3", ())], 0, exceptions=listed, tables=((), ()))
    said("2 and 1 without tables", told(b"\5" * 255, b"\0"), [Refusal(2, 0), Refusal(1, 0)], 0, tables=((), ()))
    said("256 names", bytes(256), [Spoken(b"", ())] * 256, 1 + 256)

    hurt = with_word(words, 4 + 64 + 14, 2), sets       # behind #, n leads out of the table
    for what, got, wanted in [
            ("24: 257 names", speak_sheet(six, words, sets, bytes(257), 0, 0), 24),
            ("24: no bytes behind a length", speak_sheet(six, words, sets, typed("knee") + b"\1", 256, 64), 24),
            ("24: a byte too few", speak_sheet(six, words, sets, typed("knee,keen")[:-1], 256, 64), 24),
            ("24 before 0 and 17", speak_sheet(no_set, (), (), b"\1", 0, 0, None), 24),
            ("0 before 17", speak_sheet(no_set, (), (), typed("knee"), 0, 0, None), 0),
            ("17 before 16", speak_sheet(six, (), (), typed("knee"), 0, 0, None), 17),
            ("0 of no names", speak_sheet(no_set, words, sets, b"", 0, 0), 0),
            ("17 of no names", speak_sheet(six, words, sets, b"", 0, 0, None), 17),
            ("16: no tables", speak_sheet(six, (), (), typed("knee"), 256, 64), 16),
            ("22", speak_sheet(stale, words, sets, typed("knee"), 256, 64), 22),
            ("22 behind listed names", speak_sheet(stale, words, sets, typed("knee,eke nab,nab"), 256, 64, listed), 22),
            ("16 of a later name", speak_sheet(six, *hurt, typed("knee,keen,nab"), 256, 64), 16),
            ("16 behind a name refused with 4", speak_sheet(six, *hurt, typed("knee,n"), 0, 0), 16),
            ("16 at a letter", speak_sheet(six, words, array("Q", [1] * 80), typed("kn,ee"), 256, 64), 16)]:
        check.equal("sheet, " + what, got, (wanted, 0))
    said("nothing that leaves the tables", typed("knee,keen"), [knee, keen], 8 + 10, tables=hurt)


def check_limits(check):
    """The documents' numbers, with those of the memory that a host lends, beside what follows here from the limits."""
    check.equal("state bounds", (MAX_LEFT_STATES, MAX_RIGHT_STATES), (2_049, 4_097))
    check.equal("the longest file's bytes", LONGEST_FILE, 27_439)
    check.equal("a slot and its fields", (SLOT, FIELDS), (22, ((6, 4), (10, 4), (14, 4), (18, 4))))
    check.equal("a ruleset's memory", (SLOTS, MASKS, TOTAL, LITERALS, MEMORY), (8, 11_272, 11_528, 11_530, 13_578))
    check.equal("monitor's memory", (MONITOR_WORDS, MONITOR_SETS), (393_348, 49_168))


def check_contexts(check):
    """Four symbols on either side, # and classes among them, are taken; more are 6, 14 at the rule's line, and 0 handed in."""
    one = (Class(0x40, b"\1"),)
    for length, taken in [(0, True), (1, True), (3, True), (4, True), (5, False), (6, False), (7, False), (200, False), (255, False)]:
        for symbol, outer in product((b"\1", b"\x40"), (b"", b"\0")):
            context = (outer + symbol * length)[:length]
            for side, rule in [("left", Rule(context, b"\2")), ("right", Rule(b"", b"\2", context[::-1]))]:
                what = f"{length} on the {side}, {context[:2].hex()}"
                check.equal(f"added, {what}", add(Ruleset(classes=one), rule, 0)[0], None if taken else (6, 0))
                check_context_line(check, what, rule, taken, one)
    for left, right, taken in [(4, 4, True), (4, 5, False), (5, 4, False), (3, 5, False), (5, 3, False), (8, 0, False), (0, 8, False)]:
        check.equal(f"{left} and {right}", has_shape(Rule(b"\1" * left, b"\2", b"\1" * right)), taken)
    check_context_orders(check)
    check_context_memory(check)
    check_context_names(check)


def check_context_line(check, what, rule, taken, classes):
    """A file with the rule between two others, and the ruleset of the three."""
    rs = Ruleset(tuple(Numbered(k, rule if k == 2 else SIX_RULES[1]) for k in (1, 2, 3)), 3, classes)
    text = file_text(rs)
    lines = text.splitlines(keepends=True)      # the head, a class, the rules
    at = sum(map(len, lines[:3]))
    check.equal(f"in a file, {what}", read_file(text), rs if taken else (14, at))
    check.equal(f"unsound, {what}", read_file(text[:at] + b"G" + text[at + 1:]), (13, at))
    check.equal(f"handed in, {what}", drop(rs, 9)[0], (8, 0) if taken else (0, 0))


def check_context_orders(check):
    """6 of a long context before every refusal of an addition but 0."""
    full = Ruleset(tuple(Numbered(n, SIX_RULES[1]) for n in range(1, 513)), 512)
    spent = Ruleset((), MAX_NUMBER, (), MAX_EDITS)
    for rule in (Rule(b"\x40" * 5, b"\1"), Rule(b"", b"\1", b"\x40" * 5)):
        for what, rs, p in [("20 and 7", EMPTY, 9), ("21", full, 0), ("10 and 23", spent, 0)]:
            check.equal("6 before " + what, add(rs, rule, p), (Refusal(6, 0), rs))
        check.equal("0 before 6", add(full._replace(last=5), rule, 0)[0], (0, 0))


def check_context_memory(check):
    """The length bytes of a slot: up to 4 of a context, whatever lies past it; slots past the count are not judged."""
    whole = Rule(b"\1\2\3\4", b"\5", b"\6\7\x08\x09", b"")
    rs = Ruleset(tuple(Numbered(k, whole) for k in (1, 2, 3)), 3)
    for (side, field), fill, length in product([("left", 0), ("right", 2)], (0, 1, 0xEE), (0, 3, 4, 5, 6, 7, 8, 200, 255)):
        memory = memory_of(rs, fill)
        cut = whole._replace(**{side: getattr(whole, side)[:length]})
        in_slot = lambda k: ruleset_in(with_bytes(memory, SLOTS + k * SLOT + 2 + field, bytes([length])))
        wanted = rs._replace(rules=(rs.rules[0], Numbered(2, cut), rs.rules[2])) if length <= 4 else None
        check.equal(f"{length} on the {side} in memory", in_slot(1), wanted)
        check.equal(f"{length} on the {side} past the rules", in_slot(3), rs)


def check_context_names(check):
    """Contexts of four with and without #, by plain reading and by walk."""
    _, rs = replay([("add", Rule(b"\0\1\1\1", b"\2", b"\1\1\1\0", b"\x61"), 0), ("add", Rule(b"\1" * 4, b"\2", b"\1" * 4, b"\x62"), 1),
                    ("add", Rule(b"", b"\1"), 2)])
    words, sets = build(rs, MONITOR_WORDS, MONITOR_SETS)
    check.equal("states of contexts of four", states_in(words), (1 + 4 + 4, 1 + 5 + 5))
    for before, after, phones in [(3, 3, b"\x61"), (4, 4, b"\x62"), (5, 4, b"\x62"), (4, 5, b"\x62"), (3, 4, None), (4, 3, None), (5, 3, None)]:
        name = b"\1" * before + b"\2" + b"\1" * after
        answer, steps = walk(rs, words, sets, name, 9, 64)
        check.equal(f"{before} and {after} around", answer.phones if isinstance(answer, Spoken) else answer, phones or Refusal(3, before + 1))
        check.equal(f"{before} and {after} around, plain", (plain_reading(rs, name, 9, 64), 2 * len(name) + 2), (answer, steps))


def check_tables(check):
    """The quick table against the definition, and the bounds on states."""
    rules = [Rule(bytes([0, 1, 2, 1][:k % 5]), bytes([1 + k % 2] * (1 + k % 3)), bytes([2, 1, 0][3 - k % 4:]))
             for k in range(70)]
    for side in (left_pattern, right_pattern):
        patterns = tuple(map(side, rules))
        numbered = state_strings(patterns)
        count, rows, sets = one_table(patterns)
        check.equal("entries", list(rows), [entry(numbered, s, c) for s in numbered for c in range(SYMBOLS)])
        check.equal("sets", list(sets), [w for s in numbered for w in set_of(patterns, s)])
        check.equal("states", count, len(numbered))


def check_programs(check, six):
    said = say(SIX_FILE, b"030B0E0505DA\n030E0102EC\n")
    check.equal("say's two lines", said, b"04000A00026E69030001000600040B\n050300000002F6\n")
    for what, rules, names, wanted in [
            ("missing rules.hex", None, b"03FD\n", refusal_line(Refusal(13, 0))),
            ("no input", SIX_FILE, b"", b""),
            ("no letters", SIX_FILE, b"03FD\n", frame_line(b"\4\0\2\0\0\0")),
            ("an empty line", SIX_FILE, b"\n", UNSOUND),
            ("an unended line", SIX_FILE, b"03FD", UNSOUND),
            ("not 03", SIX_FILE, b"04FC\n", UNSOUND),
            ("long rules.hex", b"\n" * 32_769, b"", refusal_line(Refusal(13, 32_768))),
            ("long input", SIX_FILE, b"\n" * 32_769, refusal_line(Refusal(13, 32_768))),
            ("rules before input", None, b"\n" * 32_769, refusal_line(Refusal(13, 0))),
            ("input of 32,768 bytes", SIX_FILE, b"\n" * 32_768, UNSOUND * 32_768),
            ("two words", SIX_FILE, frame_line(b"\3" + letters("eke kn")), frame_line(bytes.fromhex("04000E0003656B6E0500050002000300010006"))),
            ("3 in the second word", SIX_FILE, frame_line(b"\3" + letters("e nab")), refusal_line(Refusal(3, 4))),
            ("a space", SIX_FILE, b"033FBE\n", frame_line(b"\4\0\4\0\0\0")),
            ("a rule with 3F", SIX_FILE.replace(b"010E6E7A", b"013F6E49"), b"033FBE\n", refusal_line(Refusal(14, 124)))]:
        check.equal("say: " + what, say(rules, names), wanted)
    # 200 left contexts of four: 62 first letters, then each its own.
    wide = Ruleset(tuple(Numbered(k + 1, Rule(bytes([1 + k % 62, 1 + k // 62]) * 2, b"\1")) for k in range(200)), 200)
    check.equal("the words of wide tables", needed(wide)[2], 4 + 64 * (1 + 62 + 3 * 200 + 2))
    check.equal("say: tables above 32,768 words", say(file_text(wide), b"03FD\n"),
                refusal_line(Refusal(11, needed(wide)[2])))

    held, most, more = Monitor(SIX_FILE), f"{MAX_CONTEXT:02X}", f"{MAX_CONTEXT + 1:02X}"
    for what, body, wanted in [
            ("none contested yet", "27", "0A00"),
            ("plain, empty ruleset", "1701000040050505", "050300000001"),
            ("walk, unbuilt", f"16{MONITOR_WORDS:08X}{MONITOR_SETS:08X}01000040", "08000010" + "00000000"),
            ("none spoken yet", "27", "0A00"),
            ("read", "13", "060006"),
            ("build", "15000002840000004F", "050C" + "00000050"),
            ("build", "150000028400000050", "0600020008"),
            ("walk", "160000028400000050010000400B0E0505", "04000A00026E6903000100060004"),
            ("contested in knee", "27", "0A02"),
            ("walk, phones short", "160000028400000050000100400B0E0505", "08000A04" + "00000002"),
            ("the count after a refusal", "27", "0A02"),
            ("a field too many", "2700", "050D00000000"),
            ("set a class", "284001050F", "060006"),
            ("no symbol", "28", "050D00000000"),
            ("no letters", "2840", "051400000000"),
            ("an undefined class", "100000010100004105", "051400000000"),
            ("use it", "10000601010000400B", "060007"),
            ("in use", "284001", "051400000000"),
            ("read forgets the classes", "13", "060006"),
            ("undefined again", "10000601010000400B", "051400000000"),
            ("set it", "284001050F", "060006"),
            ("plain", "170100004005", "040000000001" + "0003"),
            ("contested in e", "27", "0A01"),
            ("show words", "1A0000000004", "0A0000000000020008"),
            ("show past", "1A0000028401", "0AFFFF"),
            ("outside", f"1A{MONITOR_WORDS:08X}01", "050D00000000"),
            ("the last word", f"1A{MONITOR_WORDS - 1:08X}01", "0AFFFF"),
            ("set words outside", f"1B{MONITOR_SETS:08X}01", "050D00000000"),
            ("the last set word", f"1B{MONITOR_SETS - 1:08X}01", "0A" + "FF" * 8),
            ("force", "1E0000000700060006", "06"),
            ("refused by 0", "110001", "050000000000"),
            ("plain, refused by 0", "170100004005", "050000000000"),
            ("clear", "1F", "06"),
            ("clear forgets the classes", "10000001010000400B", "051400000000"),
            ("the count after them", "27", "0A01"),
            ("drop", "110001", "050800000000"),
            ("add", "100000000100010B6B", "060001"),
            ("add, the longest contexts", f"100000{most}01{most}00" + "05" * MAX_CONTEXT + "0B" + "05" * MAX_CONTEXT, "060002"),
            ("add, one more on the left", f"100000{more}010001" + "05" * MAX_CONTEXT + "050B6B", "050600000000"),
            ("add, one more on the right", f"1000000001{more}01" + "0B05" + "05" * MAX_CONTEXT + "6B", "050600000000"),
            ("add, one more told and not sent", f"100000{more}010001" + "05" * MAX_CONTEXT + "0B6B", "050D00000000"),
            ("drop it", "110002", "060002"),
            ("write", "140000000E", "050F" + "00000024"),
            ("write", "14FFFFFFFF", None)]:
        body = bytes.fromhex(body)
        answer = held.answer(frame_line(body)[:-1])
        wanted = (file_text(Ruleset((Numbered(1, SIX_RULES[1]),), 2)) if wanted is None
                  else frame_line(bytes.fromhex(wanted)))
        check.equal("monitor: " + what, answer, wanted)
    check.equal("monitor: phones", held.answer(b"1CE4"), frame_line(b"\x0A\x6E\x69" + b"\xEE" * 254))
    for what, body, wanted in [
            ("list a name", "2002050561", "0600010003"),
            ("list another", "20020B0561", "0600020003"),
            ("cut short", "200205", "050D00000000"),
            ("no length", "20", "050D00000000"),
            ("no phones", "20020505", "051100000000"),
            ("replace", "20020B056263", "0600020005"),
            ("read out, short", "220000000A", "050F" + "0000000B"),
            ("read out", "220000000B", "06" + "0000000B"),
            ("show it", "23000000000C", "0A" + "0205050161" + "020B05026263" + "EE"),
            ("show its last", "230001FBCF01", "0AEE"),
            ("outside", "230001FBD001", "050D00000000"),
            ("none outside", "230001FBD000", "0A"),
            ("the count after the list's changes", "27", "0A01"),
            ("walk a listed name", "16FFFFFFFFFFFFFFFF010000400B05", "04000000026263" + "00"),
            ("a listed name has none contested", "27", "0A00"),
            ("walk it, phones short", "16FFFFFFFFFFFFFFFF000100400B05", "080000" + "04" + "00000002"),
            ("read it", "17010000400B05", "04000000026263" + "00"),
            ("read it, phones short", "17000100400B05", "050400000002"),
            ("lend less", "2500008C2D", "06"),
            ("no list", "20020B0561", "051100000000"),
            ("no list, walk", "16FFFFFFFFFFFFFFFF0100004040", "0800001100000000"),
            ("no list, clear", "24", "051100000000"),
            ("lend all", "25FFFFFFFF", "06"),
            ("remove", "210505", "0600010003"),
            ("remove again", "210505", "051200000000"),
            ("build again", "15FFFFFFFFFFFFFFFF", "0600010002"),
            ("walk of a listed word and another", "16FFFFFFFFFFFFFFFF010000400B053F0B", "0400040003" + "62636B" + "010001"),
            ("read it", "17010000400B053F0B", "0400000003" + "62636B" + "010001"),
            ("phones short for both words", "16FFFFFFFFFFFFFFFF000200400B053F0B", "080004" + "04" + "00000003"),
            ("no tables, every word listed", "160000000000000000010000400B053F0B05", "0400000004" + "62636263" + "00"),
            ("no tables, a word of no letters", "160000000000000000010000400B053F", "0800001000000000"),
            ("add, 3F", "10000000010001" + "3F6B", "050600000000"),
            ("store outside", "2600008C2E00000000", "050D00000000"),
            ("store", "2600000000FFFFFFFF", "06"),
            ("empty the list", "24", "06"),
            ("read out nothing", "2200000000", "0600000000"),
            ("what was read out", "230000000003", "0A020505")]:
        check.equal("monitor: " + what, held.answer(frame_line(bytes.fromhex(body))[:-1]), frame_line(bytes.fromhex(wanted)))
    held = Monitor(SIX_FILE)
    for what, body, wanted in [
            ("no edits yet", "29", "0A00000000"),
            ("a field too many", "2900", "050D00000000"),
            ("no count", "2A", "050D00000000"),
            ("a count of three bytes", "2A000000", "050D00000000"),
            ("a count of five bytes", "2A0000000000", "050D00000000"),
            ("the words at the start", "1A0000000004", "0AFFFFFFFFFFFFFFFF"),
            ("16 before 22 at the start", "16FFFFFFFFFFFFFFFF01000040", "0800001000000000"),
            ("add", "100000000100010B6B", "060001"),
            ("counted", "29", "0A00000001"),
            ("refused", "110009", "050800000000"),
            ("not counted", "29", "0A00000001"),
            ("drop", "110001", "060001"),
            ("counted", "29", "0A00000002"),
            ("read", "13", "060006"),
            ("0 after a read", "29", "0A00000000"),
            ("build", "15FFFFFFFFFFFFFFFF", "0600020008"),
            ("move", "1200010000", "060006"),
            ("22", "16FFFFFFFFFFFFFFFF010000400B0E0505", "0800001600000000"),
            ("plain all the same", "17010000400B0E0505", "04000000026E6903000100060004"),
            ("the count back", "2A00000000", "06"),
            ("walk", "16FFFFFFFFFFFFFFFF010000400B0E0505", "04000A00026E6903000100060004"),
            ("a class", "28400105", "060006"),
            ("is not counted", "29", "0A00000000"),
            ("another count", "2A00010002", "06"),
            ("asked", "29", "0A00010002"),
            ("words keep theirs", "1A0000000004", "0A0000000000020008"),
            ("build", "15FFFFFFFFFFFFFFFF", "0600020008"),
            ("high word first", "1A0000000004", "0A0001000200020008"),
            ("walk", "16FFFFFFFFFFFFFFFF010000400B0E0505", "04000A00026E6903000100060004"),
            ("the words exchanged", "2A00020001", "06"),
            ("22", "16FFFFFFFFFFFFFFFF010000400B0E0505", "0800001600000000"),
            ("the count of an impossible ruleset", "1E0000000700060006", "06"),
            ("is kept", "29", "0A00020001"),
            ("and can be set", "2AFFFFFFFF", "06"),
            ("0", "110001", "050000000000"),
            ("a ruleset again", "1E0000000100060006", "06"),
            ("23", "110001", "051700000000"),
            ("no overflow", "29", "0AFFFFFFFF"),
            ("8 before 23", "110009", "050800000000"),
            ("a class at the last count", "28410105", "060006"),
            ("clear", "1F", "06"),
            ("0 after a clear", "29", "0A00000000"),
            ("22 of no rules", "16FFFFFFFFFFFFFFFF01000040", "0800001600000000"),
            ("the last count but one", "2AFFFFFFFE", "06"),
            ("add", "100000000100010B6B", "060001"),
            ("the last count", "29", "0AFFFFFFFF"),
            ("23", "100000000100010B6B", "051700000000"),
            ("build", "15FFFFFFFFFFFFFFFF", "0600010002"),
            ("walk", "16FFFFFFFFFFFFFFFF010000400B", "0400040001" + "6B" + "010001")]:
        check.equal("monitor, edits: " + what, held.answer(frame_line(bytes.fromhex(body))[:-1]), frame_line(bytes.fromhex(wanted)))
    held = Monitor(SIX_FILE)
    whole = "2B" + "FF" * 8 + "01000040"
    for what, body, wanted in [
            ("unbuilt", whole + "0105", ["0800001000000000"]),
            ("no names", whole, ["06" + "00000000" + "0000"]),
            ("a cut name", whole + "0205", ["0800001800000000"]),
            ("fields cut short", whole[:-2], ["050D00000000"]),
            ("read", "13", ["060006"]),
            ("build", "15FFFFFFFFFFFFFFFF", ["0600020008"]),
            ("knee, nab and keen", whole + "040B0E0505" + "030E0102" + "040B05050E",
             ["06" + "00000019" + "0003", "04000000026E6903000100060004", "050300000002", "04000000036B696E03000200040006"]),
            ("the count of the last", "27", ["0A01"]),
            ("its phones", "1C", ["0A6E696B696E" + "EE" * 251]),
            ("its numbers", "1D", ["0A000100060004000200040006" + "EEEE" * 58]),
            ("less room", "2B" + "FF" * 8 + "00020040" + "010B" + "040B0E0505" + "010E",
             ["06" + "0000000F" + "0003", "04000000016B010002", "050400000002", "04000000016E010006"]),
            ("the count of the last spoken", "27", ["0A00"]),
            ("none spoken", whole + "0140" + "0101", ["06" + "00000004" + "0002", "050100000000", "050300000001"]),
            ("e", whole + "0105", ["06" + "00000004" + "0001", "040000000001" + "0003"]),
            ("none spoken, a count before", whole + "0140", ["06" + "00000000" + "0001", "050100000000"]),
            ("it stays", "27", ["0A01"]),
            ("an edit", "1200010000", ["060006"]),
            ("22", whole + "010E" + "0101", ["0800001600000000"]),
            ("phones stay", "1C", ["0A6B6E6B696E" + "EE" * 251])]:
        wanted = b"".join(frame_line(bytes.fromhex(line)) for line in wanted)
        check.equal("monitor, sheets: " + what, held.answer(frame_line(bytes.fromhex(body))[:-1]), wanted)
    too_long = frame_line(bytes.fromhex("050200000000"))
    for digits, wanted in [(4_095, UNSOUND), (4_096, too_long), (4_097, UNSOUND), (4_098, UNSOUND)]:
        line = frame_line(b"\x17" + bytes(4) + b"\5" * (digits // 2 - 6))[:-1].ljust(digits, b"0")
        check.equal(f"monitor: a line of {len(line)} digits", held.answer(line), wanted)


def self_test():
    check = Check()
    six = check_edits(check)
    check_file(check, six)
    check_reading(check, six)
    check_words(check, six)
    check_contested(check, six)
    check_classes(check)
    check_list(check, six)
    check_stale(check, six)
    check_sheets(check, six)
    check_limits(check)
    check_contexts(check)
    check_tables(check)
    check_programs(check, six)
    print(f"{check.passed} passed, {check.failed} failed")
    return 1 if check.failed else 0


def rules_hex_here():
    try:
        with open("rules.hex", "rb") as file:
            return file.read(LONGEST_INPUT + 1)
    except OSError:
        return None


def main(arguments):
    if not arguments:
        return self_test()
    if arguments == ["say"]:
        sys.stdout.buffer.write(say(rules_hex_here(), sys.stdin.buffer.read()))
        return 0
    if arguments == ["monitor"]:
        held = Monitor()
        for line in sys.stdin.buffer:
            held.rules_hex = rules_hex_here()
            try:
                answer = held.answer(line[:-1] if line.endswith(b"\n") else None)
            except Unspecified:
                sys.exit(f"reference: {Unspecified.__doc__}")
            sys.stdout.buffer.write(answer)
            sys.stdout.buffer.flush()
        return 0
    print(__doc__)
    return 0 if arguments in (["-h"], ["--help"]) else 2


if __name__ == "__main__":
    sys.exit(main(sys.argv[1:]))
