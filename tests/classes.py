"""Letter classes for generate.py: classes that overlap, rules and rulesets that use them, about the limit of 512 literal rules; edits that set
them; class lines damaged; fixed runs.

Every function that chooses takes a generate.Source, so that a run can be named by its seed.
"""

import reference as ref
from lists import ALL, ASKING, BUILDING, adding, counting, plainly, walking
from reference import CLASS_SYMBOLS, MAX_CLASS, Class, Rule, four, frame_line, literal_count, two

FIRST, LAST = CLASS_SYMBOLS[0], CLASS_SYMBOLS[-1]
LETTERS = bytes(range(1, ref.SPACE))


def setting(symbol, letters):
    return b"\x28" + bytes([symbol]) + letters


# Classes and rules ---------------------------------------------------------------

def some_letters(source, alphabet):
    """Mostly few, of the rules' own letters, so that classes overlap and are met; also one, and as many as there may be."""
    size = source.pick([1, 1, 2, 2, 2, 3, 3, 5, MAX_CLASS - 1, MAX_CLASS])
    own = source.random.sample(list(alphabet), min(size, len(alphabet)))
    others = [letter for letter in LETTERS if letter not in own]
    more = size - len(own) if size > 5 or source.chance(0.2) else 0
    return bytes(sorted(own + source.random.sample(others, more)))


def some_classes(source, alphabet):
    symbols = source.pick([[FIRST], [FIRST, LAST], [FIRST, FIRST + 1, FIRST + 2], list(CLASS_SYMBOLS),
                           source.random.sample(list(CLASS_SYMBOLS), source.pick([1, 2, 5]))])
    return tuple(Class(symbol, some_letters(source, alphabet)) for symbol in sorted(symbols))


def with_classes(source, rule, symbols):
    """Some letters of its contexts, or none, become classes; # stays."""
    share = source.pick([0.2, 0.5, 1])
    classed = lambda context: bytes(source.pick(symbols) if c and source.chance(share) else c for c in context)
    return rule._replace(left=classed(rule.left), right=classed(rule.right)) if symbols else rule


def within(rules, classes, most):
    """The rules whose literal rules are at most so many together."""
    kept, total = [], 0
    for rule in rules:
        total += literal_count(rule, classes)
        if total <= most:
            kept.append(rule)
        else:
            total -= literal_count(rule, classes)
    return kept


def brimming(source, rules, classes, alphabet, most):
    """With as many literal rules as there may be, or nearly: what is wanting is put in as rules without classes."""
    room = most - sum(literal_count(rule, classes) for rule in rules) - source.pick([0, 0, 0, 1, 2])
    for _ in range(max(0, room)):
        rules.insert(source.upto(len(rules)), source.rule(alphabet, 1))
    return rules


def classed(source, rules, alphabet, most):
    """(rules, classes): the rules with classes in their contexts, of at most so many literal rules."""
    classes = some_classes(source, alphabet)
    rules = [with_classes(source, rule, [given.symbol for given in classes]) if source.chance(0.6) else rule for rule in rules]
    return within(rules, classes, most), classes


# Edits ---------------------------------------------------------------------------

def added_rule(source, rs, rule):
    """With classes of the ruleset; seldom with one that is none, or of just as many literal rules as there is room for, or one more."""
    symbols = [given.symbol for given in rs.classes]
    kind = source.random.random()
    if kind < 0.1:
        symbols = [source.pick([FIRST, LAST, source.pick(CLASS_SYMBOLS)])]
    elif kind < 0.3 and symbols:
        most = 2 * ref.MAX_CONTEXT
        deep = source.pick([*range(1, most), most, most, most, most + 1])      # the last is one too many on the right
        classes = bytes(source.pick(symbols) for _ in range(deep))
        return rule._replace(left=classes[:deep // 2], right=classes[deep // 2:])
    return with_classes(source, rule, symbols) if kind < 0.7 else rule


def symbol(source, rs):
    """Of a class in use, of another, or of none."""
    used = sorted(set().union(*(ref.uses(rule) for _, rule in rs.rules)))
    unused = sorted(ref.defined(rs) - set(used))
    kind = source.random.random()
    if used and kind < 0.25:
        return source.pick(used)
    if unused and kind < 0.5:
        return source.pick(unused)
    return source.pick([FIRST, FIRST, FIRST + 1, LAST, source.pick(CLASS_SYMBOLS)])


def setting_edit(source, rs, alphabet):
    """A class, or one with one of its faults."""
    which, letters = symbol(source, rs), some_letters(source, alphabet)
    if source.chance(0.75):
        return "class", which, letters
    return source.pick([
        lambda: ("class", source.pick([0, 1, FIRST - 1, LAST + 1, 0xFF]), letters),
        lambda: ("class", which, source.spoil(letters, [0, ref.SPACE, FIRST, 0xFF])),
        lambda: ("class", which, b""),
        lambda: ("class", which, letters + letters[-1:]),
        lambda: ("class", which, bytes(reversed(letters))),
        lambda: ("class", which, LETTERS[:source.pick([MAX_CLASS + 1, MAX_CLASS + 2, len(LETTERS)])]),
        lambda: ("class", which, letters + bytes([source.upto(255)])),
    ])()


# Class lines -----------------------------------------------------------------------

def damaged(source, lines):
    """A file's lines after one accident to its classes, the sums made good: lines put in, out of order, gone, at other places, with other
    fields, or of so many letters that there are over 512 literal rules."""
    classes = [k for k, line in enumerate(lines) if (ref.sound(line.rstrip(b"\n")) or b"\0")[0] == 0x07]
    after_head = min(1, len(lines))
    at = source.pick(classes) if classes else after_head
    kind = source.upto(7)
    if kind == 0 or not classes:
        letters = source.pick([b"", b"\0", b"\1", b"\1\1", b"\2\1", b"\x3E", b"\x3F", LETTERS[:33]])
        new = ref.class_body(Class(source.pick([FIRST - 1, FIRST, FIRST + 1, LAST, LAST + 1]), letters))
        line = source.pick([frame_line(new), frame_line(new[:1]), frame_line(new[:2]), b"07\n", b"07F8\n"])
        at = source.pick([after_head, at, at + 1, len(lines)])
        return lines[:at] + [line] + lines[at:]
    if kind == 1:
        return lines[:at] + lines[at + 1:]
    if kind == 2:
        other = source.upto(len(lines))
        rest = lines[:at] + lines[at + 1:]
        return rest[:other] + [lines[at]] + rest[other:]
    if kind == 3:
        return lines[:at] + [lines[at]] + lines[at:]
    if kind == 4:
        return lines[:at] + [source.resummed(lines[at])] + lines[at + 1:]
    body = bytearray(ref.sound(lines[at].rstrip(b"\n")).ljust(3, b"\0"))
    if kind == 5:
        field = source.upto(len(body) - 1)
        body[field] = source.pick([0, 1, 2, 7, 31, 32, 33, 0x3E, ref.SPACE, FIRST, FIRST + 1, LAST, LAST + 1, 0xFF])
    elif kind == 6:
        body[2:] = bytes([MAX_CLASS]) + LETTERS[:MAX_CLASS]
    else:
        body[2] = (body[2] + 1) % 256
        body += bytes([source.pick([body[-1], 1, 0x3E, 0x3F, 0])])
    return lines[:at] + [frame_line(bytes(body))] + lines[at + 1:]


# Fixed runs ---------------------------------------------------------------------------

VOWELS, NASALS = bytes([1, 5, 9, 15, 21]), bytes([13, 14])
K = b"\x0B"
BEFORE_VOWEL = Rule(b"", K, bytes([FIRST]), b"\x63")
BETWEEN = Rule(bytes([0, LAST]), K, bytes([FIRST, LAST, 0]), b"\x64")
SINGLES = [Rule(b"", bytes([letter]), b"", bytes([0x60 + letter])) for letter in sorted(K + VOWELS + NASALS)]
WRITING = b"\x14" + four(ALL)


def all_of(symbol):
    """A rule with as many literal rules as one class can give."""
    return Rule(bytes([symbol]) * ref.MAX_CONTEXT, K, bytes([symbol]) * ref.MAX_CONTEXT)


def faults():
    """Each fault of a class by itself, beside the nearest that is none; then the same where a rule uses the class."""
    faulty = [(symbol, b"\1") for symbol in (FIRST - 1, LAST + 1, 0, 0xFF)]
    faulty += [(FIRST, letters) for letters in (b"\0", b"\x3F", bytes([FIRST]), b"", b"\1\1", b"\2\1", b"\1\3\2", LETTERS[:33], LETTERS)]
    sound = [(FIRST, b"\1"), (LAST, b"\x3E"), (FIRST, LETTERS[:32]), (FIRST, LETTERS[-32:]), (FIRST, VOWELS)]
    bodies = [setting(*given) for given in faulty + sound + faulty] + [b"\x28", WRITING, adding(BEFORE_VOWEL)]
    bodies += [setting(*given) for given in faulty + sound] + [WRITING, b"\x11" + two(1), setting(FIRST, b"\2"), WRITING, b"\x1F", WRITING]
    return bodies + [adding(BEFORE_VOWEL), setting(FIRST, VOWELS), adding(BEFORE_VOWEL), WRITING]


def orders():
    """6, 20, 7, 21, 10 against each other, and 0 before them; a class in every part of a rule."""
    first, undefined, many = bytes([FIRST]), Rule(bytes([FIRST + 1]), K), all_of(LAST)
    misshapen = [BEFORE_VOWEL._replace(target=first), undefined._replace(target=b""), Rule(first, K + first), Rule(b"\x60", K),
                 Rule(first + b"\0", K), Rule(b"", K, b"\0" + first)]
    bodies = [setting(FIRST, VOWELS), setting(LAST, NASALS)] + [adding(SINGLES[0])] * 500
    tries = [adding(rule, p) for rule in (*misshapen, undefined, many, BEFORE_VOWEL, BETWEEN, SINGLES[0]) for p in (0xFFFF, 0)]
    bodies += tries + tries + tries
    # 504 rules of 512 literal ones; the last added stands first.
    spent, impossible = (b"\x1E" + two(0) + two(number) + two(504) + two(0xFFFF) for number in (504, 0))
    return bodies + [spent] + tries + [impossible] + tries + [setting(FIRST - 1, b""), spent, setting(FIRST, b"\1"), WRITING]


def limit():
    """Exactly 512 literal rules, by rules of many and of one; then one more; dropped, moved, set again and added. The tables are also walked with
    other rules, under the count that they were built with."""
    thirty_two = Rule(bytes([FIRST]), K, b"", b"\x70")
    bodies = [setting(FIRST, LETTERS[:32]), setting(LAST, NASALS)] + [adding(thirty_two)] * 16 + [WRITING, BUILDING]
    names = [b"\1" + K, b"\x20" + K, b"\x21" + K, K, b"\x0B\x0B"]
    spoken = [body for name in names for body in (walking(name), ASKING, plainly(name), ASKING)]
    tries = [adding(all_of(FIRST)), adding(SINGLES[0], 16), adding(thirty_two), adding(thirty_two, 99), setting(FIRST, b"\1"), setting(LAST, b"\1")]
    bodies += spoken + tries + [b"\x11" + two(3)] + [adding(SINGLES[4], 15)] * 33
    bodies += [b"\x12" + two(9) + two(0), b"\x12" + two(99) + two(0), WRITING, counting(77), BUILDING]
    return bodies + spoken + [b"\x11" + two(k) for k in range(1, 17)] + tries + [counting(77)] + spoken + [BUILDING] + spoken + [WRITING]


def short_names():
    """Names of k, a vowel, a nasal and a consonant by rules with classes beside the same rules written out: tables, set words, answers."""
    held = [setting(FIRST, VOWELS), setting(LAST, NASALS), *(adding(rule, at) for at, rule in enumerate([BETWEEN, BEFORE_VOWEL, *SINGLES]))]
    classes = (Class(FIRST, VOWELS), Class(LAST, NASALS))
    written = [literal for rule in (BETWEEN, BEFORE_VOWEL, *SINGLES) for literal in ref.literal_rules(rule, classes)]
    bodies, names = [], [bytes(name) for length in range(4) for name in ref.product(b"\x0B\1\x0E\2", repeat=length)]
    names += [b"\x0E\x0B\1\x0D", b"\x0E\x0B\1\x0D\x3F\x0D\x0B\x15\x0E", b"\x0E\x0B\1\x0D\x0B\1"]
    for start in (held, [adding(literal, at) for at, literal in enumerate(written)]):
        bodies += [b"\x1F", *start, BUILDING]
        bodies += [b"\x1A" + four(at) + b"\xFF" for at in range(0, 1600, 255)] + [b"\x1B" + four(at) + b"\xFF" for at in (0, 255)]
        bodies += [body for name in names for body in (walking(name), ASKING, plainly(name), ASKING)]
    return bodies


def literal_places():
    """Set words that share the places of literal rules: the one that fits, its neighbours, the numbered rule's own place, past the literal rules."""
    rules = [BETWEEN, BEFORE_VOWEL, *SINGLES]
    bodies = [setting(FIRST, VOWELS), setting(LAST, NASALS), *(adding(rule, at) for at, rule in enumerate(rules)), BUILDING]
    total = 20 + 5 + len(SINGLES)
    for place in (0, 1, 2, 19, 20, 21, 22, 24, 25, 26, total - 1, total, total + 1, len(rules), 63, 64, 511):
        for at in (8 * state + j for state in range(80) for j in {0, place // 64}):
            bodies.append(b"\x19" + four(at) + (1 << place % 64 if at % 8 == place // 64 else 0).to_bytes(8, "big"))
        bodies += [body for name in (b"\x0E\x0B\1\x0D", b"\x0B\5", b"\x0B", b"\1") for body in (walking(name), ASKING)]
    return bodies


FIXED = {"class faults": faults, "orders of 20 and 21": orders, "512 literal rules": limit, "short names by classes": short_names,
         "literal places": literal_places}


# Fixed files ----------------------------------------------------------------------------

def class_lines():
    """Files with each fault of a class line, and with lines before, between and after classes that end them or are none."""
    head = lambda count: frame_line(b"\1\1" + two(count) + two(9))
    line = lambda *body: frame_line(bytes(body))
    vowels, nasals = frame_line(ref.class_body(Class(FIRST, VOWELS))), frame_line(ref.class_body(Class(LAST, NASALS)))
    rule = lambda number, rule: frame_line(ref.rule_body(ref.Numbered(number, rule)))
    rules = rule(1, BETWEEN) + rule(2, BEFORE_VOWEL)
    between = [line(7), line(7, 0x50), line(7, 0x50, 0), line(7, 0x50, 1), line(7, 0x50, 2, 1), line(7, 0x50, 1, 1, 2), line(7, 0x3F, 1, 1),
               line(7, 0x60, 1, 1), line(7, 0x50, 1, 0), line(7, 0x50, 1, 0x3F), line(7, 0x50, 1, 0x40), line(7, 0x50, 2, 1, 1), line(7, 0x50, 2, 2, 1),
               line(7, 0x50, 33, *LETTERS[:33]), line(7, 0x50, 32, *LETTERS[:32]), line(7, 0x50, 1, 0x3E), vowels, nasals, b"07\n", b"07F8\n",
               b"\n", b"07F9", b"x\n", line(2), line(8, 0x50, 1, 1), head(2), rule(3, BETWEEN)]
    files = [head(2) + vowels + some + nasals + rules for some in between]
    files += [head(0) + vowels + some for some in between] + [head(0) + some for some in between]
    both = vowels + nasals
    files += [head(2) + vowels + rules, head(2) + nasals + rules, head(2) + rules, head(1) + both + rules, head(3) + both + rules,
              head(2) + both + rules + nasals, head(2) + both + rule(1, BETWEEN) + line(7, 0x5E, 1, 1), head(2) + both + rules,
              head(2) + both, head(2) + vowels, head(1) + vowels + rule(1, BEFORE_VOWEL._replace(target=bytes([FIRST])))]
    # 32 literal rules a line, then one more.
    wide = frame_line(ref.class_body(Class(FIRST, LETTERS[:32])))
    lines = [wide] + [rule(number, BEFORE_VOWEL) for number in range(1, 17)] + [rule(17, SINGLES[0])]
    return files + [frame_line(b"\1\1" + two(count) + two(99)) + b"".join(lines[:1 + count]) for count in (16, 17)]
