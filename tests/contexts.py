"""Contexts about their limit of four symbols, for generate.py: longer ones in additions and in rule lines; fixed runs and files with contexts
of letters, of classes, and with # at their outer end.

Every function that chooses takes a generate.Source, so that a run can be named by its seed.
"""

import itertools

import reference as ref
from classes import FIRST, K, LAST, LETTERS, WRITING, setting
from lists import ASKING, ASKING_EDITS, BUILDING, NO_RULESET, SIX, adding, counting, plainly, walking
from reference import LONGEST_FILE, MAX_CLASS, MAX_CONTEXT, MAX_EDITS, MAX_NUMBER, MAX_RULES, Class, Numbered, Rule, Ruleset, four, frame_line, two

LONGER = (MAX_CONTEXT + 1, MAX_CONTEXT + 2, 200, 255)       # the last is the most that a length byte tells
SHOWING = b"\x1A" + four(0) + b"\4"


# Random rules and lines -----------------------------------------------------------

def too_long(source, rule, symbols):
    """The rule with more symbols than there may be on one side or on both, mostly one or two more; # at the outer end of some."""
    def context():
        length = source.pick(LONGER[:2] * 3 + LONGER)
        return (source.pick([b"", b"\0"]) + source.symbols(symbols, length))[:length]
    left, right = source.pick([(context(), rule.right), (rule.left, context()[::-1]), (context(), context()[::-1])])
    return rule._replace(left=left, right=right)


def damaged(source, lines):
    """A file's lines after one of its rules got a long context, or just the length of one, the sum made good."""
    at = source.upto(len(lines) - 1)
    body = ref.sound(lines[at].rstrip(b"\n")) or b""
    if body[:1] != b"\x02" or len(body) < 7 or len(body) != 7 + sum(body[3:7]):
        return lines
    if source.chance(0.2):
        field = source.pick([3, 5])
        body = body[:field] + bytes([source.pick(LONGER)]) + body[field + 1:]
    else:
        ends = list(itertools.accumulate(body[3:7], initial=7))
        rule = Rule(*(body[start:end] for start, end in zip(ends, ends[1:])))
        symbols = bytes(sorted(set(rule.left + rule.target + rule.right) - {0})) or b"\1"
        body = ref.rule_body(Numbered(int.from_bytes(body[1:3], "big"), too_long(source, rule, symbols)))
    return lines[:at] + [frame_line(body)] + lines[at + 1:]


# Contexts by their length -----------------------------------------------------------
# A context is made outwards from the target, and turned round on the left.

A, B = b"\1", b"\2"
ONE, EITHER = bytes([LAST]), bytes([FIRST])         # classes of a, and of a and b
CLASSES = (Class(FIRST, A + B), Class(LAST, A))
KINDS = {
    "letters": lambda length: ((A + B) * length)[:length],
    "letters and #": lambda length: ((A + B) * length)[:length - 1] + b"\0",
    "classes": lambda length: ONE * length,
    "classes and #": lambda length: ONE * (length - 1) + b"\0",
    "a class outside": lambda length: A * (length - 1) + EITHER,
    "a class inside": lambda length: EITHER + A * (length - 1),
}
SINGLES = [Rule(b"", letter, b"", bytes([0x60]) + letter) for letter in (A, B, K)]


def sides(outwards, phones=b"\x70"):
    """The rules for k with this context on the left, on the right and on both sides."""
    left, right = outwards[::-1], outwards
    return [Rule(left, K, b"", phones), Rule(b"", K, right, phones), Rule(left, K, right, phones)]


def uneven():
    """Rules for k with as many letters on both sides together as there may be, or one more, divided in every way: each side has its own limit."""
    lengths = range(MAX_CONTEXT + 3)
    return [Rule(A * left, K, B * right) for left in lengths for right in lengths if left + right in (2 * MAX_CONTEXT, 2 * MAX_CONTEXT + 1)]


# Fixed runs ---------------------------------------------------------------------------

def lengths():
    """Contexts of every length that there may be and of longer ones, of every kind, on either side and on both; then names with so many letters
    before and after k. Those refused leave the rules and the edit count."""
    bodies = [setting(*given) for given in CLASSES] + [adding(rule) for rule in SINGLES]
    for k, context in enumerate(KINDS.values()):
        for length in (*range(1, MAX_CONTEXT + 1), *LONGER):
            bodies += [adding(rule) for rule in sides(context(length), bytes([0x70 + k, length]))]
        bodies.append(ASKING_EDITS)
    bodies += [adding(rule) for rule in uneven()] + [ASKING_EDITS, WRITING, BUILDING, SHOWING]
    for before, after, other in itertools.product(range(MAX_CONTEXT + 2), range(MAX_CONTEXT + 2), (A, B)):
        letters = (A + other) * (MAX_CONTEXT + 1)
        name = letters[:before][::-1] + K + letters[:after]
        bodies += [walking(name), ASKING, plainly(name), ASKING]
    # A byte fewer or more than the lengths tell: no command.
    for length in (MAX_CONTEXT, *LONGER):
        body = adding(Rule(A * length, K))
        bodies += [body[:-1], body + A]
    return bodies + [ASKING_EDITS, WRITING]


def orders():
    """6 of a long context before 20, 7, 21, 10 and 23, and 0 before it; beside each the rule with a symbol less."""
    undefined = bytes([FIRST + 1])
    rules = [rule for most in (MAX_CONTEXT + 1, MAX_CONTEXT) for context in (undefined + A * (most - 1), ONE * most) for rule in sides(context)]
    tries = [adding(rule, p) for rule in rules for p in (0xFFFF, 0)]
    start = [b"\x1F", *(setting(*given) for given in CLASSES)]
    # Rules of 32 literal rules and of one, until there are 512.
    wide, full = setting(FIRST + 2, LETTERS[:MAX_CLASS]), [adding(Rule(bytes([FIRST + 2]), K))] * 16 + [adding(SINGLES[0])] * MAX_CLASS
    bodies = start + tries + [ASKING_EDITS, WRITING, wide, *full, *tries, NO_RULESET, *tries]
    last_number = b"\x1E" + two(0xFFFF) + two(0) + two(len(SIX)) + two(MAX_NUMBER)
    return bodies + start + SIX + [counting(MAX_EDITS), *tries, last_number, *tries, counting(0), *tries, ASKING_EDITS, WRITING]


def longest_file():
    """As many bytes lent as a file can have, and one fewer; with another rule of that length in the place of one."""
    short, exact = (b"\x14" + four(room) for room in (LONGEST_FILE - 1, LONGEST_FILE))
    return [b"\x13", short, exact, b"\x11" + two(MAX_RULES), short, adding(ref.LONGEST_RULE), short, exact, BUILDING, SHOWING]


def many_states_ruleset():
    """Rules as long as they can be, each with other first symbols of its pattern on both sides, before a rule for each letter."""
    letters = ref.SPACE - 1
    pairs = [bytes([1 + k % letters, 1 + k // letters]) for k in range(MAX_RULES - letters)]
    inner = A * (MAX_CONTEXT - 2)
    rules = [Rule(pair + inner, K * ref.MAX_TARGET, inner + pair[::-1], b"\x7F") for pair in pairs]
    rules += [Rule(b"", bytes([letter]), b"", bytes([letter])) for letter in range(1, ref.SPACE)]
    return Ruleset(tuple(map(Numbered, range(1, MAX_RULES + 1), rules)), MAX_RULES)


def many_states():
    """One word and one set word short, then exact; names with the patterns of the first rules and of the last, whole and with another letter at
    an outer end."""
    rs = many_states_ruleset()
    lefts, _, words, sets = ref.needed(rs)
    bodies = [b"\x13", *(b"\x15" + four(room) + four(set_room) for room, set_room in ((words - 1, sets), (words, sets - 1), (words, sets)))]
    bodies += [SHOWING, b"\x1A" + four(words - 2) + b"\4", b"\x1B" + four(8 * lefts - 8) + b"\x10", b"\x1B" + four(sets - 2) + b"\4"]
    long = [rule for _, rule in rs.rules if rule.left]
    for rule in long[:2] + long[-2:]:
        whole = rule.left + rule.target + rule.right
        bodies += [body for name in (whole, b"\x3E" + whole[1:], whole[:-1] + b"\x3E") for body in (walking(name), ASKING, plainly(name), ASKING)]
    return bodies


def ends():
    """The monitor's words and set words about the last of them, which follow the state bounds."""
    bodies = []
    for show, store, most, size in ((b"\x1A", b"\x18", ref.MONITOR_WORDS, 2), (b"\x1B", b"\x19", ref.MONITOR_SETS, 8)):
        bodies += [show + four(at) + bytes([count]) for at, count in ((most - 1, 1), (most - 1, 2), (most, 0), (most, 1), (most + 1, 0))]
        bodies += [store + four(at) + b"\7" * size for at in (most - 1, most)] + [show + four(most - 2) + b"\2"]
    return bodies


FIXED = {"contexts about four": lengths, "orders of long contexts": orders, "the last words": ends}


# Fixed files ----------------------------------------------------------------------------

def names_about(letters):
    """k with these letters before it, after it and on both sides."""
    return [letters[::-1] + K, K + letters, letters[::-1] + K + letters]


NAMES = [name for kind in (A + A, A + B) for length in (MAX_CONTEXT - 1, MAX_CONTEXT, MAX_CONTEXT + 1) for name in names_about((kind * length)[:length])]


def file_with(*rules):
    return ref.file_text(Ruleset(tuple(map(Numbered, range(1, len(rules) + 1), rules)), len(rules), CLASSES))


def long_context_file():
    return file_with(*SINGLES, sides(A * (MAX_CONTEXT + 1))[0])


def context_files():
    """By name: a file for each kind of context, length and side, its rule first, between others or last; then a long context beside a fault of the
    same line or of another, 13 before 14 in one line and the earlier line first."""
    files = {}
    for (kind, context), length in itertools.product(KINDS.items(), (MAX_CONTEXT, *LONGER)):
        left, right, both = sides(context(length))
        files |= {f"{kind}, {length} on the left": file_with(left, *SINGLES), f"{kind}, {length} on the right": file_with(SINGLES[0], right, *SINGLES[1:]),
                  f"{kind}, {length} on both sides": file_with(*SINGLES[:2], both)}     # without another rule for k
    *others, line = long_context_file().splitlines(keepends=True)
    before, rule = b"".join(others), ref.sound(line[:-1])
    wrong = lambda line: b"G" + line[1:]
    return files | {
        "a long context in an unsound line": before + wrong(line),
        "an unsound line before a long context": b"".join(others[:-1]) + wrong(others[-1]) + line,
        "an unsound line after a long context": b"".join(others[:-1]) + line + wrong(others[-1]),
        "a long context with a byte missing": before + frame_line(rule[:-1]),
        "a long context with a byte too many": before + frame_line(rule + A),
        "a long context with an undefined class": file_with(*SINGLES, sides(bytes([FIRST + 1]) + A * MAX_CONTEXT)[0]),
        "a long context under a number above last": before + frame_line(rule[:1] + two(9) + rule[3:]),
        "a long context after the last rule": file_with(*SINGLES) + line,
        "the longest file": ref.file_text(ref.longest_ruleset()),
        "a line after the longest file": ref.file_text(ref.longest_ruleset()) + b"\n",
    }
