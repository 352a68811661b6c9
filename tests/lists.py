"""The exceptions list in conversations with `monitor`: random changes, names of listed and other words, lists near their limits, fixed runs
at them, stores into its memory.

Every function that chooses takes a generate.Source, so that a conversation can be named by its seed.
"""

import itertools

import reference as ref
from reference import LIST_UNITS, LONGEST_READ_OUT, MAX_NAME, MAX_STATES, four, frame_line, two

ALL = 0xFFFFFFFF
SPACE = bytes([ref.SPACE])
KNEE = b"\x0B\x0E\x05\x05"


# Commands -----------------------------------------------------------------------

def adding(rule, place=0):
    return b"\x10" + two(place) + bytes(map(len, rule)) + b"".join(rule)


BUILDING = b"\x15" + four(ALL) * 2


def listing(name, phones):
    return b"\x20" + bytes([len(name)]) + name + phones


def removal(name):
    return b"\x21" + name


def reading_out(room=ALL):
    return b"\x22" + four(room)


def showing(index, count):
    return b"\x23" + four(index) + bytes([count])


EMPTYING = b"\x24"


def lending(units=ALL):
    return b"\x25" + four(units)


def storing(index, value):
    return b"\x26" + four(index) + four(value)


ASKING = b"\x27"        # for the count of contested letters
ASKING_EDITS = b"\x29"  # for the edit count


def counting(edits):
    return b"\x2A" + four(edits)


def walking(name, phones=256, words=ALL, sets=ALL):
    return b"\x16" + four(words) + four(sets) + two(phones) + two(64) + name


def without_tables(name, phones=256):
    return walking(name, phones, 0, 0)


def plainly(name, phones=256):
    return b"\x17" + two(phones) + two(64) + name


def showing_all(size):
    """The first so many bytes of the read-out."""
    return [showing(at, min(255, size - at)) for at in range(0, size, 255)]


# Names and phones ---------------------------------------------------------------

def held_phones(held):
    """The listed names as far as they are known."""
    return held.listed.phones if isinstance(held.listed, ref.Exceptions) else {}


def said(held, name):
    """What a name gives with all the room there is, by the list as far as it is known."""
    listed = held.listed if isinstance(held.listed, ref.Exceptions) else ref.NO_EXCEPTIONS
    return ref.plain_reading(held.ruleset(), name, 256, 64, listed)


def of_words(source, phones, other):
    """A name of several words, listed ones among others; in half of the cases every word is listed."""
    share = source.pick([0.6, 1])
    words = [source.pick(list(phones)) if phones and source.chance(share) else other() for _ in range(source.pick([2, 2, 3, 5]))]
    return SPACE.join(words)[:MAX_NAME]


def spoken_name(source, held, other):
    """Listed, of listed words, or another."""
    phones = held_phones(held)
    kind = source.random.random()
    if not phones or kind < 0.4:
        return other()
    return source.pick(list(phones)) if kind < 0.6 else of_words(source, phones, other)


def near(source, name, alphabet):
    """Shares a prefix or an ending with another name."""
    at = source.upto(len(name) - 1)
    return source.pick([
        name[:at], name[at:], name + source.symbols(alphabet, 1), source.symbols(alphabet, 1) + name,
        name[:at] + source.symbols(alphabet, 1) + name[at + 1:], name[:at] + name[at + 1:]])[:MAX_NAME]


def some_name(source, phones, alphabet, longest=6):
    """Listed, near a listed one or new; seldom none that can be listed."""
    kind = source.random.random()
    if kind < 0.04:
        return source.pick([b"", bytes([alphabet[0]]) * 65, b"\x40" * 65, bytes([alphabet[0]]) * 255, alphabet[:2] + b"\x40",
                            b"\0" + alphabet[:1], alphabet[:1] + b"\xFF"])
    if phones and kind < 0.7:
        listed = source.pick(list(phones))
        return listed if kind < 0.35 else near(source, listed, alphabet)
    new = lambda: source.symbols(alphabet, source.random.randint(1, source.pick([longest, longest, longest, MAX_NAME])))
    return new() if kind < 0.9 else of_words(source, phones, new)


def some_phones(source):
    """Mostly a few strings, so that names share their ends."""
    kind = source.random.random()
    if kind < 0.85:
        return source.pick([b"\x61", b"\x61", b"\x61", b"\x62", b"\x61\x62", b"\x62\x61", b"\x61\x61\x61", b"\x61\x61\x61\x61"])
    if kind < 0.95:
        return bytes(source.random.randint(1, 255) for _ in range(source.pick([1, 2, 3, 7, 63, 64])))
    return source.pick([b"", b"\0", b"\x61\0", b"\0\x61", b"\x61" * 65, b"\x61" * 63 + b"\0", b"\1" * 1_000])


# Random commands ----------------------------------------------------------------

def change(source, held, alphabet, longest=6):
    """Of names that may hold spaces."""
    name = some_name(source, held_phones(held), alphabet + SPACE, longest)
    return listing(name, some_phones(source)) if source.chance(0.6) else removal(name)


def look(source, held):
    """A read-out with about as much room as it needs, or some of its bytes."""
    need = len(ref.read_out_of(held_phones(held)))
    if source.chance(0.5):
        return reading_out(source.pick([need, need, max(0, need - 1), need + 1, 0, LONGEST_READ_OUT, LONGEST_READ_OUT + 1, ALL]))
    at = source.pick([0, 0, max(0, need - 100), need, source.upto(need), LONGEST_READ_OUT - 255, LONGEST_READ_OUT])
    return showing(at, source.pick([0, 1, 2, 64, 255, 255]))


def command(source, held, alphabet):
    """Any command of the list, as one among the monitor's others."""
    kind = source.random.random()
    if held.listed is ref.UNKNOWN or (held.units < LIST_UNITS and source.chance(0.5)):
        return source.pick([EMPTYING, lending()])       # nothing else is told here: leave it soon
    if kind < 0.70:
        return change(source, held, alphabet)
    if kind < 0.88:
        return look(source, held)
    if kind < 0.91:
        return EMPTYING
    if kind < 0.95:
        return lending(source.pick([0, 1, LIST_UNITS - 1, LIST_UNITS, LIST_UNITS + 1, ALL]))
    if kind < 0.97:
        return listing(alphabet, b"")[:-1]              # shorter than its name
    return storing(source.pick([LIST_UNITS, LIST_UNITS, ALL, 0, source.upto(LIST_UNITS - 1)]), source.upto(ALL))


def speech(source, held, alphabet):
    """A name, often a listed one or one of listed words, with about as much room as it needs."""
    name = spoken_name(source, held, lambda: some_name(source, held_phones(held), alphabet))
    answer = said(held, name)
    need = len(answer.phones) if isinstance(answer, ref.Spoken) else 3
    room = source.pick([256, 256, need, max(0, need - 1), 0, 0xFFFF])
    return source.pick([walking, plainly, without_tables])(name, room)


# Lists to start from --------------------------------------------------------------

def product(letters, length, phones):
    """Every name of so many of these letters: a state for each length."""
    return [(bytes(name), phones) for name in itertools.product(letters, repeat=length)]


def long_name(source, first, states):
    """So many letters behind the first: that many states more where its phones are its own and no name goes on alike."""
    return bytes([first]) + bytes(source.random.randint(1, 63) for _ in range(states))


def many_names(source):
    """About 1,000 names of three of ten letters, with few phone strings."""
    names = [name for name, _ in product(range(1, 11), 3, b"")]
    source.random.shuffle(names)
    strings = source.pick([[b"\x61"], [b"\x61", b"\x62"], [b"\x61", b"\x61\x62", b"\x63" * 64]])
    return [(name, source.pick(strings)) for name in names[:1_000 - source.pick([0, 1, 2, 10])]]


def many_states(source):
    """Nearly 4,096 states, and names that share some of them."""
    entries = product((0x3D, 0x3E, 0x3F), source.pick([2, 3]), b"\x61")
    known = ref.Exceptions(dict(entries))
    for number in itertools.count():
        room = MAX_STATES - known.states() - source.pick([0, 0, 1, 2])
        if room < 64:
            break
        name = long_name(source, 1 + number % 60, 63)
        entries.append((name, bytes([1 + number // 255, 1 + number % 255])))
        known.put(*entries[-1])
    return entries


def nearly_full(source, held):
    """A change of a list with about as many states as it can have."""
    room = MAX_STATES - held.listed.states()
    phones = held_phones(held)
    if room < 70 and source.chance(0.3):
        own = bytes(source.random.randint(1, 255) for _ in range(4))
        return listing(long_name(source, source.random.randint(1, 60), max(1, min(63, room + source.pick([-1, 0, 0, 1])))), own)
    if phones and source.chance(0.5):
        short = [name for name in phones if len(name) <= 3]
        name = source.pick(short if short and source.chance(0.8) else list(phones))
        return removal(name) if source.chance(0.5) else listing(name, some_phones(source))
    return change(source, held, bytes([0x3D, 0x3E]), 3)


def session(source):
    """(lines, answers) of a long conversation about one list."""
    held, alphabet = ref.Monitor(), source.alphabet()[:source.pick([1, 2, 2, 3, 4])]
    # In one of three conversations no rule covers the first letter. The last is silent at a word's end and another phone at its start.
    rules = [ref.Rule(target=bytes([letter]), phones=bytes([0x40 + letter])) for letter in alphabet[source.pick([0, 0, 1]):]]
    rules += [ref.Rule(b"\0", alphabet[-1:], b"", b"\x80"), ref.Rule(b"", alphabet[-1:], b"\0")]
    bodies = [adding(rule) for rule in rules] + [BUILDING]
    kind = source.random.random()
    start = many_names(source) if kind < 0.1 else many_states(source) if kind < 0.3 else []
    bodies += [listing(*entry) for entry in start]
    lines, answers = [], []

    def send(body):
        line = frame_line(body)
        lines.append(line)
        answers.append(held.answer(line[:-1]))

    for body in bodies:
        send(body)
    longest = source.pick([2, 3, 4, 6, 12])
    for _ in range(source.upto(100 if start else 500)):
        at = source.random.random()
        if at < 0.06:
            send(speech(source, held, alphabet))
            send(ASKING)
        elif at < 0.10:
            send(look(source, held))
        elif kind < 0.1 or kind >= 0.3:
            send(change(source, held, alphabet, longest))
        else:
            send(nearly_full(source, held))
    size = len(ref.read_out_of(held_phones(held)))
    send(reading_out())
    for body in showing_all(min(size, 6_000)) + [showing(size, 1)] * (size < LONGEST_READ_OUT):
        send(body)
    for name in itertools.islice(held_phones(held), 8):
        send(plainly(name))
    send(ASKING)
    return lines, answers


# Fixed runs -------------------------------------------------------------------------

SIX = [adding(rule, at) for at, rule in enumerate(ref.SIX_RULES)]
NO_RULESET = b"\x1E" + two(0) + two(7) + two(6) + two(6)
SIX_AGAIN = b"\x1E" + two(0) + two(1) + two(6) + two(6)


def every_order(names):
    """All refusals of the list against each other, by every call that it is lent to."""
    bodies = []
    for units in (LIST_UNITS - 1, LIST_UNITS):
        bodies.append(lending(units))
        for name in names:
            bodies += [listing(name, phones) for phones in (b"", b"\x61" * 65, b"\x61\0", b"\x61", b"\x61" * 64)]
            bodies += [call(name, room) for call in (walking, plainly) for room in (0, 1, 63, 64, 256)]
            bodies += [NO_RULESET, walking(name), plainly(name), SIX_AGAIN]
            bodies += [removal(name), removal(name)]
        bodies += [reading_out(0), reading_out(), EMPTYING]
    return bodies


def orders():
    names = [b"\x40" * 65, b"\1" * 65, b"\1\x40\0", b"", KNEE, SPACE, KNEE + SPACE, SPACE * 64]
    return SIX + every_order(names) + [BUILDING] + every_order(names)


def short_names(longest=4):
    """Every name of up to four of k, n, e, a and the space bar."""
    return [bytes(name) for length in range(longest + 1) for name in itertools.product(b"\x0B\x0E\5\1" + SPACE, repeat=length)]


def words():
    """Short names by a list of words and of names with spaces: with tables, without, and with room for few phones. Then names of
    listed words alone about the 256 phones that are lent, up to the most that a name can give."""
    entries = [b"\x0B", b"\x0B\x0E", b"\5", b"\5" + SPACE + b"\x0E", b"\5" + SPACE + b"\5", SPACE + b"\x0B", SPACE * 2, b"\1" + SPACE]
    bodies = SIX + [BUILDING] + [listing(name, b"\x61\x62\x63"[:1 + k % 3]) for k, name in enumerate(entries)]
    for k, name in enumerate(short_names()):
        bodies += [walking(name, (256, 2)[k % 2]), plainly(name, (2, 256)[k % 2]), ASKING, without_tables(name), ASKING]
    bodies += [reading_out(), *showing_all(60), EMPTYING, listing(b"\1", b"\xFF" * 64)]
    for count in (4, 5, 32):
        name = SPACE.join([b"\1"] * count)
        bodies += [walking(name), plainly(name), without_tables(name), walking(name + SPACE), without_tables(name + SPACE)]
    return bodies


def thousand_names():
    entries = [(bytes([1 + k // 40, 1 + k % 40]), b"\x61") for k in range(1_000)]
    new, old = b"\1\1\1", entries[500][0]
    bodies = [listing(*entry) for entry in entries]
    bodies += [listing(new, b"\x61"), listing(new, b""), listing(b"", b"\x61"), listing(old, b"\x62"), listing(old, b"\x61")]
    bodies += [removal(new), removal(old), listing(new, b"\x61"), listing(old, b"\x61"), plainly(old), plainly(new)]
    bodies += [reading_out(5_000), reading_out(5_001), reading_out()] + showing_all(5_002)
    return bodies + [removal(name) for name, _ in entries] + [removal(new), reading_out(), showing(0, 255)]


def most_states():
    """4,096 states: one more by adding, by other phones and by removing."""
    entries = product((0x3E, 0x3F), 1, b"\x70") + [(bytes([a, b]), b"\x61") for a in (0x3E, 0x3F) for b in (1, 2)]
    entries += [(bytes([k]) * 64, bytes([k])) for k in range(1, 62)]
    entries += [(bytes([k]) + bytes([k + 1]) * 63, bytes([0x40 + k])) for k in (1, 2, 3)]
    tries = [removal(b"\x3E\1"), removal(b"\x3E"), listing(b"\x3E\1", b"\x62"), listing(b"\x3E\1", b"\x61"),
             listing(b"\1\3", b"\x7F"), listing(b"\1\1", b"\x7F"), listing(b"\1\1", b"\1"), removal(b"\1\1"), removal(b"\1\3")]
    bodies = [listing(*entry) for entry in entries] + tries
    bodies += [plainly(b"\x3E\1"), walking(b"\x3D" * 64), reading_out()] + showing_all(600)
    # Space again, and used up by one long name.
    bodies += [removal(b"\1" * 64)] + tries + [listing(b"\1" * 64, b"\1")] + tries
    bodies += [listing(b"\1" * k, b"\1") for k in (64, 63, 62, 61, 60)]
    return bodies + tries + [reading_out()] + showing_all(600) + [EMPTYING] + tries


def longest_read_out():
    """1,000 names of 64 letters with 64 phones each: 130,000 bytes."""
    tail = bytes(range(1, 55))
    entries = [(bytes(1 + (k >> j & 1) for j in range(10)) + tail, b"\xFF" * 64) for k in range(1_000)]
    at_end = [showing(LONGEST_READ_OUT - 255, 255), showing(LONGEST_READ_OUT - 1, 1), showing(LONGEST_READ_OUT, 0),
              showing(LONGEST_READ_OUT, 1), showing(LONGEST_READ_OUT - 1, 2), showing(ALL, 255)]
    bodies = [listing(*entry) for entry in entries] + [reading_out(LONGEST_READ_OUT - 1)] + at_end
    bodies += [reading_out(LONGEST_READ_OUT), *at_end, *showing_all(1_000), walking(entries[0][0], 63), walking(entries[0][0], 64)]
    return bodies + [removal(entries[0][0]), reading_out(LONGEST_READ_OUT - 131), reading_out(LONGEST_READ_OUT + 1), *at_end]


FIXED = {"orders": orders, "words": words, "1,000 names": thousand_names, "4,096 states": most_states, "longest read-out": longest_read_out}


# Memory stored over -----------------------------------------------------------------

START, CELLS = 4_199, 4_200     # by the layout the unit that has the start's number, and the first cell


def store(source):
    """Any unit, mostly one of the first, often a small number. Or where the layout has the start and the cells, and what may stand there:
    a letter's successor, the phones of a name's end. So the memory is often another list afterwards."""
    if source.chance(0.1):
        return storing(START, source.upto(12))
    if source.chance(0.5):
        successor = (1 + source.upto(62)) << 24 | 1 + source.upto(source.pick([3, 30]))
        phones = 0x40 << 24 | source.pick([0x61, 0x62, 0x6261, 0x636261])
        return storing(CELLS + source.upto(source.pick([4, 60])), source.pick([successor, phones]))
    index = source.upto(source.pick([8, 40, 40, 400, 400, 4_000, LIST_UNITS - 1]))
    value = source.pick([0, 1, source.upto(63), source.upto(300), 1 << source.upto(31), source.upto(5_000), ALL, source.upto(ALL),
                         0x616161, 0x61, source.upto(63) << 24, source.upto(63) << 16])
    return storing(index, value)


def stores(source, held):
    """Bodies for a monitor whose memory is stored over. `held` is told between them what it reads out then."""
    alphabet = source.alphabet()[:3]
    for _ in range(source.random.randint(1, 6)):
        for _ in range(source.upto(30)):
            yield listing(source.symbols(alphabet, source.random.randint(1, 5)), source.pick([b"\x61", b"\x61\x62", b"\x61\x62\x63\x64"]))
        for _ in range(source.upto(8)):
            yield store(source)
            for _ in range(source.upto(4)):
                yield source.pick([change, change, speech])(source, held, alphabet)
            if source.chance(0.2):
                yield look(source, held)
            if source.chance(0.05):
                yield lending(source.pick([0, LIST_UNITS - 1]))
                yield change(source, held, alphabet)
                yield lending()
        if source.chance(0.8):
            yield EMPTYING
