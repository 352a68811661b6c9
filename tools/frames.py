"""Frames as lines, and the answers of `say` and `monitor` in words."""

import re

from inputs import Failure, Mistake

REFUSALS = {
    0: "this is no ruleset: over 512 rules, classes written out, a broken shape or class, or numbers equal or outside 1 to last",
    1: "a byte of the name is no letter and no space",
    2: "the name has more than 64 letters and spaces",
    3: "no rule fits the letter at that position",
    4: "more phones than the lent bytes hold",
    5: "more rules applied than the lent numbers hold",
    6: "the rule breaks the shape of a rule",
    7: "the place lies beyond the list",
    8: "no rule has this number",
    10: "the last number, 65,535, is given",
    11: "too few words for the tables",
    12: "too few set words for the tables",
    13: "a line is missing, not ended, or not sound",
    14: "a sound line breaks the file's form",
    15: "the file or read-out is longer than the lent bytes",
    16: "the tables are unusable",
    17: "the exceptions list is none, or the name has no letters or a bad phone string",
    18: "the name is not on the exceptions list",
    19: "the exceptions list would have over 1,000 names or 4,096 states",
    20: "the class is undefined, in use, of a symbol outside 40 to 5F, or of other letters than 1 to 32 from 01 to 3E, ascending",
    21: "there would be over 512 rules, classes written out",
    22: "the tables are from before an edit of the rules",
    23: "the last edit count, 4,294,967,295, is reached",
    24: "the sheet has more than 256 names, or its last name is cut short",
}


# Frames ----------------------------------------------------------------------

def two(number):
    return number.to_bytes(2, "big")


def four(number):
    return number.to_bytes(4, "big")


def number_of(data):
    return int.from_bytes(data, "big")


def frame(body):
    """The line of a frame: its bytes and the sum byte, which makes all add to zero modulo 256."""
    return (bytes(body) + bytes([-sum(body) % 256])).hex().upper().encode() + b"\n"


def unsound(line):
    """Why a line is no sound frame (refusal 13), or None."""
    if not line:
        return "missing"
    digits = line.removesuffix(b"\n")
    wrong = re.search(rb"[^0-9A-F]", digits)
    if wrong:
        byte = wrong[0].hex().upper()
        return f"column {wrong.start() + 1}: " + ("byte 0D, but a line ends in 0A alone" if byte == "0D"
                                                 else f"byte {byte} is none of the digits 0-9 and A-F")
    if digits == line:
        return "not ended by 0A"
    if len(digits) % 2:
        return "odd number of digits"
    if len(digits) < 4:
        return "under 2 bytes"
    if sum(bytes.fromhex(digits.decode())) % 256:
        return "sum not zero"
    return None


def body_of(line):
    """The bytes of a line before its sum."""
    why = unsound(line)
    if why:
        raise Failure(f"no sound frame, {why}: {line_text(line)}")
    return bytes.fromhex(line.decode())[:-1]


def line_text(line):
    """A line for a message."""
    return line.rstrip(b"\n")[:80].decode("ascii", "backslashreplace")


# Answers -----------------------------------------------------------------------

def refusal_of(line):
    """(number, place) of an 05 frame, or of an 08 frame, which has the steps (2) before them."""
    body = body_of(line)
    fields = body[3:] if body[0] == 0x08 else body[1:]
    if body[0] not in (0x05, 0x08) or len(fields) != 5:
        raise Failure(f"unknown answer: {line_text(line)}")
    return fields[0], number_of(fields[1:])


def contested_of(line):
    """The count in an 0A frame that answers 27."""
    body = body_of(line)
    if body[0] != 0x0A or len(body) != 2:
        raise Failure(f"unknown answer: {line_text(line)}")
    return body[1]


def refusal_text(number, place):
    return f"refused {number} at {place}: {REFUSALS.get(number, 'a refusal unknown to this tool')}"


def phones_text(phones, alphabet):
    """In hexadecimal, and as sounds where they are known."""
    said = " ".join(f"{p:02X}" for p in phones)
    if alphabet.phones and phones:
        said += " [" + "".join(alphabet.phones.get(p, "?") for p in phones) + "]"
    return said


def spoken_of(body):
    """(steps, phones, numbers) of an 04 frame: steps (2), phone count (2), phones, rule count (1), numbers (2 each)."""
    count = number_of(body[3:5])
    phones, rest = body[5:5 + count], body[5 + count:]
    return number_of(body[1:3]), phones, [number_of(rest[k:k + 2]) for k in range(1, len(rest), 2)]


def said_text(phones, numbers, alphabet):
    said = phones_text(phones, alphabet) or "nothing"
    by = {0: "no rules", 1: "rule "}.get(len(numbers), "rules ") + " ".join(map(str, numbers))
    return f"{said} by {by}"


def spoken_text(body, alphabet):
    steps, phones, numbers = spoken_of(body)
    return f"{said_text(phones, numbers, alphabet)}, {steps} steps"


def sheet_of(names):
    """The bytes of a sheet: each name behind its length."""
    if any(len(name) > 255 for name in names):
        raise Mistake("a length has one byte")
    return b"".join(bytes([len(name)]) + name for name in names)


def sheet_text(line, alphabet):
    """A line that answers a name of a sheet, in words; the steps are the sheet's."""
    body = body_of(line)
    return said_text(*spoken_of(body)[1:], alphabet) if body[0] == 0x04 else refusal_text(*refusal_of(line))


def answer_text(line, alphabet):
    """Any answer of `say` or `monitor` but the words of a file, in words."""
    body = body_of(line)
    if body[0] == 0x04:
        return spoken_text(body, alphabet)
    steps = f" ({number_of(body[1:3])} steps)" if body[0] == 0x08 else ""
    return refusal_text(*refusal_of(line)) + steps
