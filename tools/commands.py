"""The monitor's commands as people type them (tools/monitor.py --help), each to its line."""

import inspect

import frames
import ruletext
from frames import four, two
from inputs import Mistake

ALL = 0xFFFFFFFF        # more than there is of anything counts as all
MOST_SHOWN = 255        # bytes of the read-out that one command shows
SHOW_NOTHING, NOTHING_SHOWN = frames.frame(b"\x1A" + bytes(5)), frames.frame(b"\x0A")


def number(text, bits):
    try:
        value = int(text, 0)
    except ValueError:
        raise Mistake(f"'{text}' is no number") from None
    if not 0 <= value < 1 << bits:
        raise Mistake(f"{text} does not fit into {bits // 8} bytes")
    return value


def lent_of(typed, **defaults):
    """Takes name=N out of what was typed: (the rest, the lent lengths in the defaults' order)."""
    rest, lent = [], dict(defaults)
    for word in typed:
        name, equals, value = word.partition("=")
        if equals and name in lent:
            lent[name] = number(value, 32 if defaults[name] == ALL else 16)
        else:
            rest.append(word)
    return rest, list(lent.values())


def only_lent(typed, **defaults):
    rest, lent = lent_of(typed, **defaults)
    if rest:
        raise Mistake(f"unknown: {' '.join(rest)}")
    return lent


def sheet_names(typed):
    """The names of a sheet as typed, with commas between them."""
    return [name.strip() for name in " ".join(typed).split(",")] if typed else []


class Commands:
    """One method a command: its words to the bytes of its frame."""

    def __init__(self, alphabet):
        self.alphabet = alphabet

    def add(self, place, *rule):
        rule = ruletext.rule_of(" ".join(rule), self.alphabet)
        if max(map(len, rule)) > 255:
            raise Mistake("a length has one byte")
        return b"\x10" + two(number(place, 16)) + bytes(map(len, rule)) + b"".join(rule)

    def drop(self, which):
        return b"\x11" + two(number(which, 16))

    def move(self, which, place):
        return b"\x12" + two(number(which, 16)) + two(number(place, 16))

    def set_class(self, symbol, *letters):
        symbol = self.alphabet.symbols(symbol)
        if len(symbol) != 1:
            raise Mistake("write class, its symbol, its letters")
        return b"\x28" + symbol + self.alphabet.symbols(" ".join(letters))

    def read(self):
        return b"\x13"

    def write(self, *typed):
        room, = only_lent(typed, bytes=ALL)
        return b"\x14" + four(room)

    def build(self, *typed):
        room, set_room = only_lent(typed, words=ALL, sets=ALL)
        return b"\x15" + four(room) + four(set_room)

    def say(self, *typed):
        name, (room, set_room, phones, numbers) = lent_of(typed, words=ALL, sets=ALL, phones=256, numbers=64)
        return (b"\x16" + four(room) + four(set_room) + two(phones) + two(numbers)
                + self.alphabet.name(" ".join(name)))

    def plain(self, *typed):
        name, (phones, numbers) = lent_of(typed, phones=256, numbers=64)
        return b"\x17" + two(phones) + two(numbers) + self.alphabet.name(" ".join(name))

    def sheet(self, *typed):
        names, (room, set_room, phones, numbers) = lent_of(typed, words=ALL, sets=ALL, phones=256, numbers=64)
        return (b"\x2B" + four(room) + four(set_room) + two(phones) + two(numbers)
                + frames.sheet_of([self.alphabet.name(name) for name in sheet_names(names)]))

    def store(self, what, index, value):
        if what == "word":
            return b"\x18" + four(number(index, 32)) + two(number(value, 16))
        if what == "set":
            return b"\x19" + four(number(index, 32)) + number(value, 64).to_bytes(8, "big")
        if what == "unit":
            return b"\x26" + four(number(index, 32)) + four(number(value, 32))
        raise Mistake("store word, store set or store unit")

    def show(self, what, *words):
        if what in ("phones", "numbers") and not words:
            return b"\x1C" if what == "phones" else b"\x1D"
        kinds = {"words": b"\x1A", "sets": b"\x1B", "readout": b"\x23"}
        if what in kinds and len(words) == 2:
            return kinds[what] + four(number(words[0], 32)) + bytes([number(words[1], 8)])
        raise Mistake("show words, sets or readout INDEX COUNT, show phones or show numbers")

    def force(self, place, which, count, last):
        return b"\x1E" + b"".join(two(number(field, 16)) for field in (place, which, count, last))

    def clear(self, *what):
        if what not in ((), ("list",)):
            raise Mistake("clear or clear list")
        return b"\x24" if what else b"\x1F"

    def exception(self, *typed):
        name, equals, phones = " ".join(typed).partition("=")
        if not equals:
            raise Mistake("write exception NAME = PHONES")
        name = self.alphabet.name(name.strip())
        if len(name) > 255:
            raise Mistake("a length has one byte")
        return b"\x20" + bytes([len(name)]) + name + ruletext.hex_bytes(phones)

    def remove(self, *name):
        return b"\x21" + self.alphabet.name(" ".join(name))

    def readout(self, *typed):
        room, = only_lent(typed, bytes=ALL)
        return b"\x22" + four(room)

    def exceptions(self):
        return self.readout()

    def lend(self, units):
        return b"\x25" + four(ALL if units == "all" else number(units, 32))

    def contested(self):
        return b"\x27"

    def edits(self, count=None):
        return b"\x29" if count is None else b"\x2A" + four(number(count, 32))

    def frame(self, *words):
        return ruletext.hex_bytes(" ".join(words))


# The method of each command's word; `class` is Python's own.
WORDS = {"class" if name == "set_class" else name: name for name in vars(Commands) if not name.startswith("_")}


def line_for(text, alphabet):
    """The line that a text command stands for."""
    word, *rest = text.split()
    if word == "line":
        return text.partition("line")[2].strip().encode() + b"\n"
    if word not in WORDS:
        raise Mistake(f"unknown command {word}: see help")
    call = getattr(Commands(alphabet), WORDS[word])
    try:
        inspect.signature(call).bind(*rest)
    except TypeError:
        raise Mistake(f"{word} has other fields: see help") from None
    return frames.frame(call(*rest))


def read_out_lines(size):
    """The lines that ask for so many bytes of the read-out."""
    return [frames.frame(b"\x23" + four(at) + bytes([min(MOST_SHOWN, size - at)])) for at in range(0, size, MOST_SHOWN)]


def repeated(text):
    """The commands that a text stands for: itself, or as many as repeat says."""
    word, _, rest = text.partition(" ")
    times, _, command = rest.strip().partition(" ")
    if word != "repeat" or not command:
        return [text]
    return [counted(command.strip(), k) for k in range(number(times, 16))]


def counted(command, k):
    """@ stands for two letters, behind = for two phones, that are others each time."""
    letters = ruletext.LAST_LETTER
    pair = 1 + k // letters % letters, 1 + k % letters
    symbols, equals, phones = command.partition("=")
    return symbols.replace("@", "\\%02X\\%02X" % pair) + equals + phones.replace("@", "%02X%02X" % pair)
