"""Letters and rules as text, and the rule file made of them.

Rules as text, one a line, or in Festival's writing in parentheses; ; starts a comment:

    # [k] n =                  left context, [target], right context = phones in hexadecimal
    ( [ e e ] = 69 )
    letter 1B ñ                a letter of the team's own
    phone 69 i                 what a phone byte sounds like, for readable answers
    class 40 front e i         a class of letters, by its symbol (40 to 5F) and a name, as Festival's sets have one
    [c] <front> = 73           a rule with it: it stands for its rules with e and with i, under one number

# is the word boundary, \\1D the letter 1D, <front> or \\40 a class, which may stand in contexts alone and is defined above
the rules that use it. Spaces between symbols are free. The space bar, 3F, separates the words of a name and stands in no rule;
where a space alone would be lost, in a name, _ is typed for it.
"""

import itertools
import math
import os
import re
import unicodedata
from typing import NamedTuple

import inputs
from frames import frame, two
from inputs import Mistake

BOUNDARY, LAST_LETTER, SPACE = 0x00, 0x3E, 0x3F
FIRST_CLASS, LAST_CLASS = 0x40, 0x5F
MOST_CONTEXT = 4        # symbols of a left or right context
LIMITS = {"left context": MOST_CONTEXT, "target": 4, "right context": MOST_CONTEXT, "phones": 4}
MOST_RULES = 512        # literal ones
MOST_CLASS = 32         # letters of a class


# Letters -----------------------------------------------------------------------

class Alphabet:
    """Letters as text and back; phones as sounds; classes of letters by their symbols."""

    def __init__(self):
        self.letters = {chr(ord("a") + k): k + 1 for k in range(26)}
        self.phones = {}
        self.classes = {}           # the letters of each symbol, ascending
        self.class_texts = {}       # the symbol of each <name>

    def name(self, text):
        """The bytes of a typed name."""
        return codes(composed(text), ".", {**self.letters, " ": SPACE, "_": SPACE})

    def text(self, name):
        """A name as it can be typed. Spaces at an end or in a row are _: where words are typed they would be lost."""
        return re.sub(r"^ +| {2,}| +$", lambda spaces: "_" * len(spaces[0]), self.typed(name, {SPACE: " "}))

    def symbols(self, text, at=0):
        """A context or target: letters, classes and #, spaces between them free; _ and \\3F are for the shape to refuse."""
        return codes(text, r"<[^<>\s]*>|\S", {**self.letters, **self.class_texts, "_": SPACE, "#": BOUNDARY}, at)

    def symbols_text(self, symbols):
        """A context or target as it can be typed."""
        return self.typed(symbols, {BOUNDARY: "#"})

    def typed(self, symbols, others):
        texts = {**others, **{code: text for text, code in {**self.class_texts, **self.letters}.items()}}
        return "".join(texts.get(code, f"\\{code:02X}") for code in symbols)


def codes(text, character, letters, at=0):
    """The bytes of a text, one for each match of `character`; \\40 stands for the byte 40, a letter or not."""
    out = bytearray()
    for found in re.finditer(r"\\([0-9A-Fa-f]{2})|" + character, text, re.S):
        letter = found[0].lower()
        if not found[1] and letter not in letters:
            what = f"letter for {shown(letter)}" if len(letter) == 1 else f"class {letter} is defined above"
            raise Mistake("no " + what, at + found.start())
        out.append(int(found[1], 16) if found[1] else letters[letter])
    return bytes(out)


def composed(text):
    """ñ may come as n and a tilde."""
    return unicodedata.normalize("NFC", text)


def shown(character):
    """A character for a message: with its code where it may look like another one or like none."""
    code = ord(character)
    if 0xDC80 <= code <= 0xDCFF:        # how Python hands on what is not UTF-8 on a command line
        return f"the byte {code - 0xDC00:02X}, which is not UTF-8"
    if character.isascii() and character.isprintable():
        return f"'{character}'"
    named = f"U+{code:04X} {unicodedata.name(character, '')}".strip()
    return f"'{character}' ({named})" if character.isprintable() else named


# Rules ---------------------------------------------------------------------------
# Every part of a rule is read together with its place in the source, so that a mistake is told with line and column.

class Rule(NamedTuple):
    left: bytes
    target: bytes
    right: bytes
    phones: bytes


def words_in(text, at=0):
    """(place, word) of each word."""
    return [(at + found.start(), found[0]) for found in re.finditer(r"\S+", text)]


def byte_of(text, least, most, at=0):
    if not re.fullmatch(r"[0-9A-Fa-f]{2}", text) or not least <= int(text, 16) <= most:
        raise Mistake(f"'{text}' is no byte from {least:02X} to {most:02X}", at)
    return int(text, 16)


def hex_bytes(text, at=0):
    words = words_in(text, at)
    for place, word in words:
        if not re.fullmatch(r"([0-9A-Fa-f]{2})+", word):
            raise Mistake(f"'{word}' is not bytes in hexadecimal, two digits each", place)
    return bytes.fromhex("".join(word for _, word in words))


def parts_of(text, at=0):
    """(place, text) of left context, target, right context and phones.

    left [target] right = phones. Without brackets: left target right, - for an empty one; or a target alone.
    """
    symbols, _, phones = text.partition("=")
    if text.count("=") != 1:
        raise Mistake("a rule has one =, before its phones", at + max(0, text.rfind("=")))
    found = re.fullmatch(r"([^\[\]]*)\[([^\[\]]*)\]([^\[\]]*)", symbols)
    if found:
        parts = [(at + found.start(k), found[k]) for k in (1, 2, 3)]
    else:
        parts = words_in(symbols, at)
        if "[" in symbols or "]" in symbols or len(parts) not in (1, 3):
            raise Mistake("write left [target] right = phones", at)
        parts = [(at, ""), parts[0], (at, "")] if len(parts) == 1 else [(k, "" if p == "-" else p) for k, p in parts]
    return parts + [(at + len(symbols) + 1, phones)]


def rule_of(text, alphabet, at=0):
    """The rule that a text says, of a rule's shape or not."""
    *symbols, (place, phones) = parts_of(text, at)
    return Rule(*(alphabet.symbols(part, start) for start, part in symbols), hex_bytes(phones, place))


def rule_text(rule, alphabet):
    """A rule as it can be typed: left [target] right = phones."""
    left, target, right = map(alphabet.symbols_text, rule[:3])
    return " ".join(filter(None, (left, f"[{target}]", right, "=", rule.phones.hex(" ").upper())))


def shape_fault(rule):
    """(which part, why) of a rule that breaks the shape, or None."""
    for which, ((what, most), field) in enumerate(zip(LIMITS.items(), rule)):
        if len(field) > most:
            return which, f"at most {most} in the {what}, not {len(field)}"
        if which < 3 and SPACE in field:
            return which, f"the space bar, {SPACE:02X}, separates words and stands in no rule; # is a word's boundary"
        if which == 1 and any(map(is_class, field)):
            return which, "a class stands in contexts, never in a target"
        if which < 3 and field and max(field) > LAST_CLASS:
            return which, f"letters are 01 to {LAST_LETTER:02X}, classes {FIRST_CLASS:02X} to {LAST_CLASS:02X}"
    left, target, right, phones = rule
    if not target:
        return 1, "the target is empty"
    for which, inner in enumerate((left[1:], target, right[:-1])):
        if BOUNDARY in inner:
            return which, "# may stand only first in a left context or last in a right one"
    if 0 in phones:
        return 3, "phones are 01 to FF"
    return None


def undefined(rule, classes):
    """(which part, why) of a rule that uses a class without letters, or None."""
    for which, field in enumerate(rule[:3]):
        for symbol in filter(is_class, field):
            if symbol not in classes:
                return which, f"no class \\{symbol:02X} is defined above"
    return None


def shaped_rule(text, alphabet, at=0):
    """The rule that a text says, if it has a rule's shape and its classes are defined."""
    rule = rule_of(text, alphabet, at)
    fault = shape_fault(rule) or undefined(rule, alphabet.classes)
    if fault:
        which, why = fault
        start, part = parts_of(text, at)[which]
        raise Mistake(why, start + len(part) - len(part.lstrip()))
    return rule


def is_class(symbol):
    return FIRST_CLASS <= symbol <= LAST_CLASS


def letters_at(rule, classes):
    """What may stand at each symbol of a rule's contexts, left, then right."""
    return [classes.get(symbol, bytes([symbol])) for symbol in rule.left + rule.right]


def literal_count(rule, classes):
    return math.prod(map(len, letters_at(rule, classes)))


def literal_rules(rule, classes):
    """The rules that it stands for: the leftmost symbol varies slowest, letters ascending."""
    split = len(rule.left)
    return [rule._replace(left=bytes(symbols[:split]), right=bytes(symbols[split:])) for symbols in itertools.product(*letters_at(rule, classes))]


def statements(text):
    """(place, statement); what stands in parentheses may run over lines."""
    text = re.sub(r";[^\n]*", lambda comment: " " * len(comment[0]), text).rstrip()
    at = 0
    while at < len(text):
        found = re.compile(r"\s*(?:\((?P<inside>[^()]*)\)|(?P<line>[^(\s][^\n]*))").match(text, at)
        if not found:
            raise Mistake("no closing parenthesis", text.index("(", at))
        yield found.start(found.lastgroup), found[found.lastgroup]
        at = found.end()


def name_letter_or_phone(statement, alphabet, at):
    """letter 1B ñ, phone 69 i."""
    words = words_in(statement, at)
    kind = words[0][1]
    if len(words) != 3:
        raise Mistake(f"write {kind}, a byte, its text", words[0][0])
    (place, byte), (text_place, text) = words[1:]
    if kind == "phone":
        alphabet.phones[byte_of(byte, 0x01, 0xFF, place)] = text
    elif len(text) != 1:
        raise Mistake(f"a letter is one character, not '{text}'", text_place)
    else:
        alphabet.letters[text.lower()] = byte_of(byte, 0x01, LAST_LETTER, place)


def define_class(statement, alphabet, at):
    """class 40 front e i."""
    words = words_in(statement, at)
    if len(words) < 4:
        raise Mistake("write class, its symbol, its name, its letters", words[0][0])
    (place, byte), (name_place, name), *letter_words = words[1:]
    symbol, text = byte_of(byte, FIRST_CLASS, LAST_CLASS, place), f"<{name.lower()}>"
    if symbol in alphabet.classes:
        raise Mistake(f"class {symbol:02X} is defined above", place)
    if not re.fullmatch(r"<[^<>\[\]]+>", text):
        raise Mistake(f"'{name}' is no name of a class: < and > stand around it in rules", name_place)
    if text in alphabet.class_texts:
        raise Mistake(f"class {text} is defined above", name_place)
    alphabet.classes[symbol] = class_letters(letter_words, alphabet)
    alphabet.class_texts[text] = symbol


def class_letters(words, alphabet):
    """The letters of a class, ascending; they may be written in any order."""
    letters = b""
    for place, word in words:
        for letter in alphabet.symbols(word, place):
            if not BOUNDARY < letter <= LAST_LETTER:
                raise Mistake("a class has letters alone", place)
            if letter in letters:
                raise Mistake(f"{alphabet.symbols_text(bytes([letter]))} stands twice in the class", place)
            letters += bytes([letter])
    if len(letters) > MOST_CLASS:
        raise Mistake(f"at most {MOST_CLASS} letters in a class, not {len(letters)}", words[0][0])
    return bytes(sorted(letters))


def parse_rules(text):
    """(alphabet, rules); a mistake has its place in the text."""
    alphabet, rules, total = Alphabet(), [], 0
    for at, statement in statements(text):
        if re.match(r"(letter|phone)\s[^=]*$", statement):
            name_letter_or_phone(statement, alphabet, at)
        elif re.match(r"class\s[^=]*$", statement):
            define_class(statement, alphabet, at)
        else:
            rules.append(shaped_rule(statement, alphabet, at))
            total += literal_count(rules[-1], alphabet.classes)
            if total > MOST_RULES:
                raise Mistake(f"at most {MOST_RULES} rules, classes written out: with this one there are {total:,}", at)
    return alphabet, rules


def read_rules(text, source):
    """(alphabet, rules) of a readable rule text."""
    text = composed(text)
    try:
        return parse_rules(text)
    except Mistake as mistake:
        raise Mistake(f"{source}: {inputs.place_in(text, mistake.at)}: {mistake}") from None


# Files -----------------------------------------------------------------------------

def rule_file(rules, classes):
    """The rule file: the classes by their symbols, then the rules numbered from 1 in order."""
    head = frame(b"\x01\x01" + two(len(rules)) * 2)
    head += b"".join(frame(bytes([0x07, symbol, len(letters)]) + letters) for symbol, letters in sorted(classes.items()))
    return head + b"".join(frame(b"\x02" + two(number) + bytes(map(len, rule)) + b"".join(rule))
                           for number, rule in enumerate(rules, 1))


def written_out(rules, classes):
    """The literal rules of all, in order."""
    return [literal for rule in rules for literal in literal_rules(rule, classes)]


def load_rules(path):
    """(alphabet, rule file) from a readable rule text or from a rule file, whose bytes are handed on as they are.

    Beside NAME.hex, NAME.rules tells the letters, sounds and names of classes.
    """
    name, kind = os.path.splitext(path)
    if kind.lower() != ".hex":
        alphabet, rules = read_rules(inputs.read_text(path), path)
        return alphabet, rule_file(rules, alphabet.classes)
    data, beside = inputs.read_bytes(path), name + ".rules"
    alphabet = read_rules(inputs.read_text(beside), beside)[0] if os.path.exists(beside) else Alphabet()
    return alphabet, data
