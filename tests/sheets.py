"""Sheets, whole transects in one go, in conversations with `monitor` (2B), for generate.py: many names that begin alike, listed names and
words, names that are refused, sheets cut short, and little room; fixed runs.

Every function that chooses takes a generate.Source, so that a run can be named by its seed.
"""

import lists
import reference as ref
from contested import storing_set
from lists import ALL, ASKING, BUILDING, KNEE, NO_RULESET, SIX, SIX_AGAIN, SPACE, counting, walking
from reference import LIST_UNITS, MAX_NAME, MAX_NAMES, MONITOR_LINE, four, letters, two
from stale import built, storing_word

LONGEST_NAME = 255      # that a length byte can tell


def speaking(sheet, phones=256, numbers=64, words=ALL, sets=ALL):
    return b"\x2B" + four(words) + four(sets) + two(phones) + two(numbers) + sheet


LONGEST = MONITOR_LINE // 2 - 1 - len(speaking(b""))     # bytes of a sheet that a line has room for, its sum apart
SHOWING = [ASKING, b"\x1C", b"\x1D"]                     # what a sheet left: the count, the phones, the numbers


def sheet_of(names):
    return b"".join(bytes([len(name)]) + name for name in names)


# Random sheets --------------------------------------------------------------------

def alike(source, names, alphabet):
    """A name that begins, or ends, like another, or is of the same words in another order."""
    name = source.pick(names)
    at, kind = source.upto(len(name)), source.upto(5)
    if kind == 0:
        return name
    if kind == 1:
        return source.pick(names)[:at] + name[at:]
    if kind == 2:
        words = (name + SPACE + source.pick(names)).split(SPACE)
        source.random.shuffle(words)
        return SPACE.join(words)[:source.pick([len(name), MAX_NAME])]
    return name[:at] + source.symbols(alphabet, source.upto(3))


def some_names(source, held, alphabet, other):
    """As many as a sheet may have, seldom one more; most begin like one of few. Of listed names alone too."""
    phones = list(lists.held_phones(held))
    if phones and source.chance(0.1):
        return [source.pick(phones) for _ in range(source.upto(8))]
    count = source.pick([0, 1, 2, 3, 3, 6, 6, 12, 12, 30]) if source.chance(0.93) else MAX_NAMES + source.pick([-1, 0, 0, 1])
    few = [lists.spoken_name(source, held, other)[:LONGEST_NAME] for _ in range(source.pick([1, 2, 2, 4]))]
    names = [alike(source, few, alphabet) if source.chance(0.8) else lists.spoken_name(source, held, other)[:LONGEST_NAME] for _ in range(count)]
    return names if count <= 30 else [name[:source.upto(6)] for name in names]


def needs(held, names):
    """Phones and numbers of all names that are spoken where there is room."""
    spoken = [said for said in (lists.said(held, name) for name in names) if isinstance(said, ref.Spoken)]
    return sum(len(said.phones) for said in spoken), sum(len(said.numbers) for said in spoken)


def some_room(source, need, most):
    return source.pick([need, max(0, need - 1), source.upto(need), source.upto(need), 0, 0xFFFF]) if source.chance(0.5) else most


def commands(source, held, alphabet, other, words, sets):
    """A sheet, and often what it left. `other` makes a name, the tables need so many words and set words."""
    names = some_names(source, held, alphabet, other)
    sheet = sheet_of(names)[:LONGEST]
    if sheet and source.chance(0.08):
        sheet = source.pick([sheet[:source.upto(len(sheet) - 1)], sheet + bytes([1 + source.upto(254)])])
    phones, numbers = needs(held, names[:40])
    lent = (source.lent(words), source.lent(sets)) if source.chance(0.15) or not built(held) else (ALL, sets)
    body = speaking(sheet, some_room(source, phones, 256), some_room(source, numbers, 64), *lent)
    return [body, *(SHOWING if source.chance(0.5) else [])]


# Fixed runs ---------------------------------------------------------------------------

def typed(text):
    """Names with commas between them."""
    return sheet_of(map(letters, text.split(",")))


def left(bodies):
    """What each of them left is looked at."""
    return [body for each in bodies for body in (each, *SHOWING)]


def shared_beginnings():
    """Names that begin alike beside each other and apart, whole words of others, equal ones, words of several names, words of no letters;
    every short name in sheets of 256 and of less."""
    texts = ["knee", "knee,knee", "knee,keen,kn", "kn,knee,keen", "knee,eke,kneen", "eke,knee,keen,ekn", "k,kk,kkk,kkkk", "kkkk,kkk,kk,k", "e,k,n",
             "knee eke,eke knee", "knee knee knee", "kn keen,n,kn", "", ",", ",,", " , ", "e ,e", " e,e", "  ,e,  ", "nab,nak,na", "knee,nab,knee"]
    short = lists.short_names()
    sheets = [sheet_of(short[at:at + count]) for count in (MAX_NAMES, 100) for at in range(0, len(short), count)]
    return SIX + [BUILDING] + left(map(speaking, [b"", *map(typed, texts), *sheets]))


def how_many():
    """About 256 names, and names cut short at every place: 24, also without a ruleset, a list or tables, and behind names that are refused."""
    knees = typed("knee,keen,eke")
    cuts = [b"\1", b"\5" + KNEE, b"\x40", b"\xFF", b"\xFF" + b"\5" * 254, knees + b"\1", knees + b"\0\xFF", bytes([65]) + b"\5" * 64, b"\2\x40", b"\0\0\3\1"]
    cuts += [knees[:length] for length in range(len(knees) + 1)]
    cuts += [b"\0" * MAX_NAMES + b"\1", b"\0" * (MAX_NAMES - 1) + b"\1", b"\0" * (MAX_NAMES - 1) + b"\1\1"]
    cuts += [bytes(count) for count in (MAX_NAMES - 1, MAX_NAMES, MAX_NAMES + 1, LONGEST)] + [b"\1\5" * count for count in (MAX_NAMES, MAX_NAMES + 1)]
    cuts += [sheet_of([b"\5" * 255] * 7), b"\2\5\x40" * MAX_NAMES, b"\2\5\x40" * (MAX_NAMES + 1)]
    tries = [b"\1", bytes(MAX_NAMES + 1), knees, b"", b"\1\x40", sheet_of([b"\5" * 65])]
    tries = [speaking(sheet, words=lent) for lent in (ALL, 0) for sheet in tries]
    bodies = tries + SIX + tries + [BUILDING] + left(map(speaking, cuts)) + tries
    for hidden, shown in ((NO_RULESET, SIX_AGAIN), (lists.lending(LIST_UNITS - 1), lists.lending())):
        bodies += [hidden, *tries, shown]
    return bodies + [NO_RULESET, lists.lending(0), *tries]


def refused_names():
    """2, 1, 3, 4 and 5 among names that are spoken: each takes no bytes, and the next goes on; its words share all the same."""
    long, bad = b"\x0B" * 65, KNEE + b"\x40"
    sheets = [typed("knee,nab,knee"), typed("nab,na,nab"), sheet_of([KNEE, long, KNEE]), sheet_of([KNEE, bad, KNEE + b"\5"]), sheet_of([bad]),
              sheet_of([long]), sheet_of([b"\5" * 255, b"\x0B" * 64]), typed("knee,keen,kn,eke"), typed("keenkeen,kn,k,keen,e"), typed("a,knee a,knee")]
    rooms = [(256, 64), (0xFFFF, 0xFFFF), (0, 64), (256, 0), (1, 64), (2, 3), (3, 64), (3, 3), (4, 5), (256, 4), (5, 64), (6, 7), (256, 8)]
    bodies = SIX + [BUILDING] + left([speaking(sheet, *room) for sheet in sheets for room in rooms])
    # Each length of a name, and sheets that fill the monitor's phones and numbers.
    bodies += left([speaking(sheet_of([b"\x0B" * count, KNEE])) for count in (1, 63, 64, 65, 66, 128, 255)])
    bodies += left([speaking(sheet_of([b"\x0B" * count] * 10)) for count in (6, 7, 64)])
    return bodies + left([speaking(b"\1\x0B" * 100), speaking(b"\1\5" * 100), speaking(typed("keen,kneekneekneekneekneeknee,keen"), 60, 63)])


def listed():
    """Listed names and words among others: their letters share nothing and are shared by none; sheets in which no word needs the tables."""
    entries = [("knee", b"\1\2"), ("eke nab", b"\3"), ("ab", b"\4"), ("kn", b"\5"), (" ", b"\7" * 64)]
    bodies = SIX + [BUILDING] + [lists.listing(letters(name), phones) for name, phones in entries]
    texts = ["knee", "knee,keen", "keen,knee", "knee keen,kneen", "eke nab,eke,nab", "eke nab,ab", "ab knee,ab", "knee n,kn n,n", "kn", "kne,kn,knee",
             " ,knee", "  , ", "nab,knee,eke nab eke nab,knee", "ab,ab ab,knee ab"]
    for lent in (ALL, 0):
        bodies += left([speaking(typed(text), phones, words=lent) for text in texts for phones in (256, 3, 0)])
    bodies += left([speaking(typed(" ,knee, , , ,knee,n"), phones) for phones in (256, 132, 131, 66, 63)])
    return bodies + [counting(9)] + left([speaking(typed(text)) for text in texts])


def unusable_tables():
    """16 by lengths, in a left pass, in a right pass and at a letter, and 22: of the first name, of the last, of a listed one, of one that
    is refused before; nothing is written, whatever was said before."""
    texts = ["knee", "knee,keen", "keen,eke,knee", "eke,nab,e", "nab,knee", "knee knee,e", "e,e knee", "z,e", "e,z", "e,nz", "n,knez,e"]
    sheets = [*map(typed, texts), sheet_of([KNEE + b"\x40", b"\5"]), sheet_of([b"\5" * 65]), sheet_of([b"\5", KNEE * 17]), b"", b"\0", b"\0\0"]
    words, sets = ref.build(ref.replay([("add", rule, at) for at, rule in enumerate(ref.SIX_RULES)])[1], ALL, ALL)
    bodies = SIX + [BUILDING, lists.listing(KNEE, b"\x61\x62"), lists.listing(letters("z"), b"\x63")]
    tries = left([speaking(sheet) for sheet in sheets]) + [speaking(sheet, 1, 1) for sheet in sheets]
    for lent, set_lent in ((643, ALL), (ALL, 79), (3, ALL), (0, 0), (644, 80)):
        bodies += [speaking(sheet, words=lent, sets=set_lent) for sheet in sheets]
    # Entries under #, z, n and e: of the start and behind #, of the right table's start and of e before #.
    for index in (4, 4 + 26, 4 + 64 + 26, 4 + 64 + 14, 4 + 64 * 2, 4 + 64 * 3 + 5, 4 + 64 * 6 + 26):
        bodies += [storing_word(index, 9), *tries, storing_word(index, words[index])]
    for index, value in ((8, 1 << 63), (0, 1), (8 * 3, 1), (8 * 7, 0)):
        bodies += [storing_set(index, value), *tries, storing_set(index, sets[index])]
    for count in (7, 6):
        bodies += [counting(count), *tries]
    return bodies


def what_it_leaves():
    """The count of the last name that was spoken, the phones and numbers of all, behind names that are refused too; 16 after a sheet and a
    sheet after 16; a line of each length about the limit, and fields that are missing."""
    sheets = [typed("knee"), typed("knee,n"), typed("knee,e,nab"), typed("nab,nab"), b"", sheet_of([b"\x40"]), b"\1", typed("n,eee,n")]
    bodies = SIX + [BUILDING] + left(body for sheet in sheets for body in (speaking(sheet), walking(KNEE), speaking(sheet, 1, 2), walking(b"\x0E")))
    bodies += [speaking(typed("knee"))[:length] for length in range(1, 14)]
    long = sheet_of([b"\5" * 31] * 63)
    return bodies + left(speaking((long + bytes(64))[:LONGEST + more]) for more in (-1, 0, 1))


FIXED = {"sheets that share": shared_beginnings, "sheets of 256 names": how_many, "refused names of sheets": refused_names, "listed names of sheets": listed,
         "sheets by unusable tables": unusable_tables, "what sheets leave": what_it_leaves}
