"""Tables from before an edit, for generate.py: edit counts that are asked for and overwritten (29 and 2A), and what follows a change of the
rules, often new tables; fixed runs.

Every function that chooses takes a generate.Source, so that a run can be named by its seed.
"""

import lists
import reference as ref
from classes import LETTERS, setting
from contested import storing_set
from lists import ALL, ASKING_EDITS, BUILDING, KNEE, NO_RULESET, SIX, SIX_AGAIN, SPACE, adding, counting, plainly, walking
from reference import LIST_UNITS, MAX_EDITS, SIX_RULES, Rule, four, two

COUNTS = (0, 1, 0xFFFF, 0x10000, 0x10002, 0x20001, MAX_EDITS - 1, MAX_EDITS)
CHANGING = (0x10, 0x11, 0x12, 0x13, 0x1F)       # the rules: add, drop, move, read, clear
SHOWING = b"\x1A" + four(0) + b"\4"             # the tables' edit count and state counts


def storing_word(index, value):
    return b"\x18" + four(index) + two(value)


# Random commands ----------------------------------------------------------------

def built(held):
    return ref.states_in(held.words)[0] != 0xFFFF


def some_count(source, held):
    """Of the tables, near it, with its two words exchanged, or another."""
    own = ref.edits_in(held.words)
    return source.pick([own, own, max(0, own - 1), min(MAX_EDITS, own + 1), (own << 16 | own >> 16) & MAX_EDITS, source.upto(9),
                        source.pick(COUNTS), source.pick(COUNTS), source.upto(MAX_EDITS)])


def commands(source, held):
    """The count asked for, or another one; seldom with a field too many or too short."""
    if source.chance(0.1):
        return [source.pick([ASKING_EDITS + b"\0", counting(0)[:-1], counting(0) + b"\0"])]
    if source.chance(0.3):
        return [ASKING_EDITS]
    return [counting(some_count(source, held)), *renewed(source, held)]


def renewed(source, held):
    """After the rules or their count have changed: new tables or, less often, the count of the standing ones, so that these are walked
    with other rules; else they are from before the edit."""
    kind = source.random.random()
    asked = [ASKING_EDITS] if source.chance(0.2) else []
    if kind < 0.45:
        return asked + [BUILDING]
    return asked + ([counting(ref.edits_in(held.words))] if kind < 0.7 and built(held) else [])


def word_damage(source):
    """Another edit count in the words."""
    return source.upto(1), source.pick([0, 1, 0xFFFF, source.upto(0xFFFF)])


# Fixed runs ---------------------------------------------------------------------------

def looked_at(bodies, name=KNEE):
    """After each of them the count, and the name by standing tables."""
    return [body for each in bodies for body in (each, ASKING_EDITS, walking(name))]


EDITS = [adding(SIX_RULES[5], 6), b"\x11" + two(7), b"\x12" + two(1) + two(5), b"\x12" + two(1) + two(0), b"\x12" + two(6) + two(5)]
VOWELS = setting(0x40, b"\1\5\x0F")
USING = adding(Rule(b"", b"\1", b"\x40", b"\x61"), 6)
# 6, 20 of an addition, 7, 8 and 7 of a move, 8 of a drop, 20 of a class.
REFUSED = [adding(Rule(), 9), adding(Rule(b"\x41", b"\1"), 9), adding(SIX_RULES[5], 9), b"\x12" + two(99) + two(9), b"\x12" + two(1) + two(9),
           b"\x11" + two(99), setting(0x41, b"")]


def counted():
    """Each accepted addition, drop and move is counted, and the tables are from before it until they are built again; a class, refused edits
    and all other commands are not counted. There is no file to read."""
    bodies = [ASKING_EDITS, BUILDING, walking(b""), *looked_at(SIX, b""), BUILDING, SHOWING, walking(KNEE)]
    for edit in EDITS:
        bodies += looked_at([edit]) + [plainly(KNEE), BUILDING, SHOWING, walking(KNEE)]
    others = [VOWELS, setting(0x40, b"\5"), VOWELS, *REFUSED, b"\x13", b"\x14" + four(ALL), b"\x15" + four(643) + four(ALL), b"\x15" + four(ALL) + four(79),
              NO_RULESET, EDITS[0], VOWELS, SIX_AGAIN, plainly(KNEE), lists.listing(b"\1", b"\x61"), lists.removal(b"\1"), lists.EMPTYING]
    bodies += looked_at(others) + looked_at([USING, setting(0x40, b"\1")]) + [BUILDING] + looked_at([setting(0x40, b"\1"), VOWELS])
    # 10 and 21: 512 literal rules, and the last number.
    bodies += [b"\x1F", setting(0x40, LETTERS[:32])] + [adding(Rule(b"\x40", b"\x0B"))] * 16 + [BUILDING]
    bodies += looked_at([adding(SIX_RULES[5], 16), b"\x1E" + two(0xFFFF) + two(0) + two(16) + two(0xFFFF), adding(SIX_RULES[5], 16)], b"\1\x0B")
    return bodies + looked_at([b"\x11" + two(16), adding(SIX_RULES[5], 15)], b"\1\x0B")


def orders():
    """0, 17, 2, 1, the list with 4, 16 for every length, 22, 16 in the passes and at a letter, 3 and 4: with tables of this count and of
    another."""
    listed, nab = b"\5\x0B\5", b"\x0E\1\2"
    names = [KNEE, b"", nab, SPACE, listed, listed + SPACE + listed, listed + SPACE, listed + SPACE + KNEE, b"\1" * 65, b"\5\x40"]
    bodies = SIX + [BUILDING, lists.listing(listed, b"\x61\x62")]
    damaged = [(2, 0), (3, 0), (2, 1), (3, 1), (2, 3), (3, 9), (2, 0xFFFF), (3, 0xFFFF), (4, 2), (4 + 64 * 2, 8), (4 + 64 * 3, 0xFFFF)]
    words, sets = ref.build(ref.replay([("add", rule, at) for at, rule in enumerate(SIX_RULES)])[1], ALL, ALL)
    for count in (6, 7):
        bodies.append(counting(count))
        bodies += [walking(name, 256, lent, set_words) for name in names for lent in (0, 1, 2, 3, 4, 5, 643, 644, ALL) for set_words in (0, 79, 80, ALL)]
        bodies += [walking(name, 0) for name in names]
        for index, value in damaged:
            bodies += [storing_word(index, value), *map(walking, names), storing_word(index, words[index])]
        for index in (8, 16, 24):       # sets of the first states: places whose rules do not fit, past the list, and none
            for value in (1, 1 << 63, 0):
                bodies += [storing_set(index, value), *map(walking, names), storing_set(index, sets[index])]
        bodies += [lists.lending(LIST_UNITS - 1), *map(walking, names), lists.lending()]
        bodies += [NO_RULESET, *map(walking, names), SIX_AGAIN]
    return bodies


def numbers():
    """Counts of one word and of two, built and held against each other; each word of them stored by itself; a carry; the count of an
    impossible ruleset."""
    bodies = list(SIX)
    for count in COUNTS:
        bodies += [counting(count), ASKING_EDITS, BUILDING, SHOWING, walking(KNEE)]
        bodies += [body for other in COUNTS for body in (counting(other), walking(KNEE))] + [counting(count)]
        for index, value in ((0, count >> 16), (1, count & 0xFFFF)):
            for other in (0, 1, 2, 0x100, 0xFFFF, value ^ 1, value ^ 0x8000):
                bodies += [storing_word(index, other), walking(KNEE), storing_word(index, value)]
    for count in (0xFF, 0xFFFF, 0x1FFFF, 0xFFFFFF):
        bodies += [counting(count), BUILDING, *looked_at([b"\x12" + two(1) + two(0)]), BUILDING, SHOWING, walking(KNEE)]
    return bodies + looked_at([NO_RULESET, counting(9), SIX_AGAIN, BUILDING])


def spent():
    """23 after every other refusal of an addition, drop and move; a class is set all the same, and tables are built and walked."""
    bodies = SIX + [VOWELS, counting(MAX_EDITS - 1), BUILDING] + looked_at(REFUSED + EDITS[:1] + REFUSED + EDITS + EDITS)
    bodies += [BUILDING, SHOWING] + looked_at([setting(0x41, b"\1"), setting(0x40, b"\5"), NO_RULESET, *EDITS, SIX_AGAIN]) + [b"\x14" + four(ALL)]
    for edit in (b"\x11" + two(6), b"\x12" + two(1) + two(3)):
        bodies += looked_at([counting(MAX_EDITS - 1), edit, edit, b"\x11" + two(5)])
    # 21 and 10 before it.
    bodies += [b"\x1F", ASKING_EDITS, setting(0x40, LETTERS[:32])] + [adding(Rule(b"\x40", b"\x0B"))] * 16 + [counting(MAX_EDITS)]
    tries = [adding(SIX_RULES[5], 17), adding(SIX_RULES[5], 16), adding(SIX_RULES[5], 0)]
    last = lambda number: b"\x1E" + two(0xFFFF) + two(0) + two(15) + two(number)
    bodies += looked_at(tries) + [counting(0), b"\x11" + two(16), counting(MAX_EDITS), last(0xFFFF)] + looked_at(tries)
    return bodies + [last(16)] + looked_at(tries) + looked_at([counting(0), *tries, b"\x1F"])


def files():
    """Reading a file and the empty ruleset start from 0; a write tells nothing of the count. rules.hex has the six rules."""
    bodies = looked_at([*SIX, b"\x13", BUILDING, *EDITS, b"\x14" + four(ALL), b"\x13"])
    for count in (0, 7, 0x10000, MAX_EDITS):
        bodies += looked_at([counting(count), BUILDING, b"\x13", b"\x14" + four(ALL), EDITS[2], BUILDING, b"\x1F", b"\x13", counting(count), b"\x1F", *SIX])
    return bodies


FIXED = {"edits counted": counted, "orders of 22": orders, "edit counts": numbers, "orders of 23": spent}
