"""The count of contested letters in conversations with `monitor`: names of letters with one rule and with more, what leaves the count as it
is, and tables whose sets share other places than those of the rules that fit."""

import lists
import reference as ref
from lists import ALL, ASKING, ASKING_EDITS, BUILDING, KNEE, SIX, SPACE, counting, plainly, walking
from reference import LIST_UNITS, MAX_RULES, four, two


def storing_set(index, value):
    return b"\x19" + four(index) + value.to_bytes(8, "big")


def asked(bodies):
    """The count is asked for after each of them."""
    return [body for each in bodies for body in (each, ASKING)]


# Random tables ----------------------------------------------------------------------

def sharing(source, held, name):
    """Bodies that put the same places into both sets of one of the name's letters, past the list too, then speak it and ask for its
    count; none where the tables are unusable for it."""
    words = [word for word in ref.words_of(name) if word.letters]
    if ref.name_refusal(name) or not words:
        return []
    word = source.pick(words)
    try:
        ref.judge_tables(held.ruleset(), held.words, held.sets)
        left_after, right_after, _ = ref.both_passes(held.words, word)
    except ref.Unusable:
        return []
    i, j = source.random.randint(1, len(word.letters)), source.upto(7)
    places = source.pick([1 << 63, 1 << source.upto(63), 3 << source.upto(62), 2**64 - 1])
    starts = 8 * left_after[i - 1], 8 * (ref.states_in(held.words)[0] + right_after[i])
    return [storing_set(at + j, held.sets[at + j] | places) for at in starts] + asked([walking(name), plainly(name)])


# Fixed runs ---------------------------------------------------------------------------

def short_names():
    """Every name of up to three of k, n, e, a and the space bar by the six rules, by walk and by plain reading."""
    return asked(SIX + [BUILDING] + [call(name) for name in lists.short_names(3) for call in (walking, plainly)])


def what_leaves_it():
    """Refusals of a name by every number, and every other command, after names that set the count."""
    names = [b"\5" * 65, KNEE + b"\x40", KNEE + b"\1", KNEE + SPACE + b"\1"]
    refused = [call(name) for name in names for call in (walking, plainly)]                                         # 2, 1, 3
    refused += [walking(KNEE, 1), plainly(KNEE, 1), b"\x16" + four(ALL) * 2 + two(256) + two(2) + KNEE]             # 4, 5
    refused += [walking(KNEE, words=1), counting(7), walking(KNEE), counting(6)]                                    # 16, 22
    refused += [lists.lending(LIST_UNITS - 1), walking(KNEE), plainly(KNEE), lists.lending()]                       # 17
    refused += [lists.NO_RULESET, walking(KNEE), plainly(KNEE), lists.SIX_AGAIN]                                    # 0
    others = [lists.adding(ref.SIX_RULES[5], 6), b"\x11" + two(7), b"\x12" + two(1) + two(0), b"\x13", b"\x14" + four(0), BUILDING,
              b"\x18" + four(ref.MONITOR_WORDS - 1) + two(0), storing_set(ref.MONITOR_SETS - 1, 0), b"\x1A" + four(0) + b"\1",
              b"\x1B" + four(0) + b"\1", b"\x1C", b"\x1D", lists.listing(b"\1", b"\x61"), lists.removal(b"\1"), lists.reading_out(),
              lists.showing(0, 1), lists.storing(0, 0), lists.EMPTYING, ASKING, ASKING + b"\0", b"\x28", b"\x28\x40\1", ASKING_EDITS,
              counting(0), b"\x2B", b"\x2C", b"\x03", b"\x1F"]
    bodies = [ASKING] + asked(refused + [b"\x1F"] + SIX + [BUILDING])       # before the first name
    for spoken in (walking(KNEE), plainly(b"\5")):
        bodies += asked([spoken] + refused + others + SIX + [BUILDING])
    # A listed name has none contested, nor have listed words; those beside them count.
    bodies += asked([walking(KNEE), lists.listing(KNEE, b"\x61"), walking(KNEE), walking(b"\5"), plainly(KNEE)])
    return bodies + asked([call(name) for name in (KNEE + SPACE + b"\5", b"\5" + SPACE + KNEE + SPACE + b"\5", KNEE + SPACE + KNEE)
                           for call in (walking, plainly, lists.without_tables)])


def shared_places():
    """The six rules' tables with a place more in the left sets after # and inside a word, and in the right sets of n and nk: each by
    itself, both sides alike, in every word of the sets, and the rules' own places away."""
    bodies, names = SIX + [BUILDING], (b"\x0E", KNEE, b"\x0B\x0B\x0E", b"\x0E\x0B\x0E")
    rs = ref.replay([("add", rule, at) for at, rule in enumerate(ref.SIX_RULES)])[1]
    _, sets = ref.build(rs, ALL, ALL)
    lefts, rights = (0, 8), (8 * (2 + 1), 8 * (2 + 2))
    for place in (0, 1, 4, 5, 6, 63, 64, 127, 128, 200, 256, 320, 384, 447, 448, 511):
        for starts in (lefts, rights, lefts + rights):
            at = [start + place // 64 for start in starts]
            bodies += [storing_set(index, sets[index] ^ 1 << place % 64) for index in at]
            bodies += asked([walking(name) for name in names])
            bodies += [storing_set(index, sets[index]) for index in at]
    return bodies + asked([plainly(name) for name in names])


# 512 rules: letter k fits two of them, at the k-th of these places; the others are alike.
PLACES = [(0, 1), (2, 63), (62, 64), (3, 65), (4, 128), (5, 511), (447, 448), (509, 510)]
LAST = b"\x3E"


def many_rules_file():
    targets = {place: bytes([k]) for k, places in enumerate(PLACES, 1) for place in places}
    rules = [ref.Rule(b"", targets.get(place, LAST), b"", b"\x61") for place in range(MAX_RULES)]
    return ref.file_text(ref.Ruleset(tuple(map(ref.Numbered, range(1, MAX_RULES + 1), rules)), MAX_RULES))


def many_rules():
    """Two rules a letter, ever farther apart, and hundreds; at one letter and at all 64."""
    names = [bytes([k]) for k in range(1, len(PLACES) + 1)] + [bytes(range(1, len(PLACES) + 1)) * 8, LAST, LAST * 64]
    return [b"\x13", BUILDING] + asked([call(name) for name in names for call in (walking, plainly)])


FIXED = {"contested short names": short_names, "what leaves the count": what_leaves_it, "shared places": shared_places}
