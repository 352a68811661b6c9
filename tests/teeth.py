#!/usr/bin/env python3
"""Does the comparison bite? Each planted fault in a copy of reference.py must show in some run, in the copy's own self-test where no
program reaches it, or in conversations with lists stored over.

    python3 tests/teeth.py [--count N] [--seed S] [--only TEXT]
"""

import argparse
import collections
import contextlib
import io
import sys
import types

import damaged
import generate
import lists
import reference as ref

# Lines of reference.py that several faults are about.
PASSES = "        passes = {word: both_passes(words, word) for word in unlisted}\n"
WALKED = (PASSES + "        answer = speak_words(name, listed, phone_room, number_room,\n"
          "                             lambda word: walk_word(rs, words, sets, word, passes[word]))\n")
COUNTED = "    return None, rs._replace(rules=rules, last=last, edits=rs.edits + 1)\n"
SPENT = "    if rs.edits == MAX_EDITS:\n        return Refusal(23, 0), rs\n"

ADDED = "    elif not has_shape(rule):\n"
READ = "    if not has_shape(rule) or"
LIMIT = "MAX_CONTEXT = 4  "
CUT = "rule._replace(left=rule.left[-MAX_CONTEXT:], right=rule.right[:MAX_CONTEXT])"

LENT = "        return self.listed\n"
STORED = "        self.listed = UNKNOWN\n"


def refused_if(test):
    """The lent list is refused with 17 where the test holds of it."""
    return f"        return None if self.listed is not None and {test} else self.listed\n"


# (what, line of reference.py, what stands there instead, runs that must show it; "alone" is the copy's self-test, "damaged" are
# conversations of damaged.py)
FAULTS = [
    ("stops before the last letter", "    framed, n, i = word.framed, len(word.letters), 1\n",
     "    framed, n, i = word.framed, len(word.letters) - 1, 1\n", "monitor"),
    ("the longest fitting rule", "        number, rule = fitting[0]\n",
     "        number, rule = max(fitting, key=lambda r: sum(map(len, r.rule[:3])))\n", "monitor"),
    ("forgets patterns that end inside", "            places |= holders.get(suffix, 0)\n",
     "            places |= holders.get(suffix, 0) if k == 0 else 0\n", "say monitor"),
    ("moves on by target and right context", "        numbers.append(number)\n        i += len(rule.target)\n",
     "        numbers.append(number)\n        i += len(rule.target + rule.right)\n", "say monitor"),
    ("gives last back", "    return edited(rs, rest, rs.last)\n",
     "    return edited(rs, rest, max([n for n, _ in rest], default=0))\n", "monitor"),
    ("the later of two rules", "        place = places[0]\n", "        place = places[-1]\n", "say monitor"),
    ("entries without suffixes", "        for k in range(len(string), -1, -1):\n            suffix",
     "        for k in range(0, -1, -1):\n            suffix", "say monitor"),
    ("a boundary that fits anywhere", "    start = i - len(rule.left)\n",
     "    rule = rule._replace(left=rule.left.lstrip(b'\\0'))\n    start = i - len(rule.left)\n", "monitor"),
    ("1 before 2", "    if len(name) > MAX_NAME:\n", "    if len(name) > MAX_NAME and all(map(in_name, name)):\n", "say monitor"),
    ("65 letters", "    if len(name) > MAX_NAME:\n", "    if len(name) > MAX_NAME + 1:\n", "say monitor"),
    ("40 is a letter", "    return 0x01 <= byte <= 0x3E\n", "    return 0x01 <= byte <= 0x3E or byte == 0x40\n", "monitor"),
    ("3's place one low", "            return Refusal(3, word.before + said)\n", "            return Refusal(3, word.before + said - 1)\n", "say monitor"),
    ("5 before 4", "    if len(phones) > phone_room:\n", "    if len(phones) > phone_room and len(numbers) <= number_room:\n", "monitor"),
    ("4 with the room", "        return Refusal(4, len(phones))\n", "        return Refusal(4, phone_room)\n", "monitor"),
    ("11 one too many", "    if word_room < word_count:\n", "    if word_room <= word_count:\n", "monitor"),
    ("12 one too many", "    if set_room < set_count:\n", "    if set_room <= set_count:\n", "monitor"),
    ("12 before 11", "    if word_room < word_count:\n", "    if word_room < word_count and set_room >= set_count:\n", "monitor"),
    ("7 after 10", "    elif p > len(rs.rules):\n", "    elif p > len(rs.rules) and rs.last < MAX_NUMBER:\n", "monitor"),
    ("move's place against the whole list", "    if p > len(rest):\n        return Refusal(7, 0), rs\n    return",
     "    if p > len(rest) + 1:\n        return Refusal(7, 0), rs\n    return", "monitor"),
    ("6 after 7", "    elif not has_shape(rule):\n", "    elif not has_shape(rule) and p <= len(rs.rules):\n", "monitor"),
    ("16 unnoticed: a rule that doesn't fit", "place >= len(literals) or not fits(literals[place].rule, word.framed, i)",
     "place >= len(literals)", "monitor"),
    ("16 with steps", "        return Refusal(unusable.number, 0), 0\n",
     "        return Refusal(unusable.number, 0), 2 * len(name) + 2 if unusable.number == 16 else 0\n", "monitor"),
    ("16: set words not counted", "            or len(sets) < 8 * (lefts + rights)):\n", "            or len(sets) < 8 * (lefts + rights) - 1):\n", "monitor"),
    ("a step past the count", "    if state >= count:\n", "    if state > count:\n", "monitor"),
    ("bytes after the last rule", "    if at < len(data):\n", "    if at + 1 < len(data):\n", "say monitor"),
    ("a repeated number", " or number in seen:\n", ":\n", "say monitor"),
    ("a number above last", "not 1 <= number <= last", "not 1 <= number", "say monitor"),
    ("513 rules by the head", "    if count > MAX_RULES:\n        return Refusal(14, start)\n", "    if count > MAX_RULES:\n        return Refusal(13, start)\n", "say monitor"),
    ("an unended last line", "    return ended + [None] if rest else ended\n", "    return ended + [rest] if rest else ended\n", "say"),
    ("lower-case digits", 'DIGITS = b"0123456789ABCDEF"\n', 'DIGITS = b"0123456789ABCDEFabcdef"\n', "say monitor"),
    ("a sum not looked at", "    return frame[:-1] if sum(frame) % 256 == 0 else None\n", "    return frame[:-1]\n", "say monitor"),
    # The running sum of a frame that is written.
    ("a byte that is not added", "bytes([-sum(body) % 256])", "bytes([-sum(body[1:]) % 256])", "say monitor"),
    ("a sum begun anew inside a frame", "bytes([-sum(body) % 256])", "bytes([-sum(body[len(body) // 2:]) % 256])", "say monitor"),
    ("a sum made from the length", "bytes([-sum(body) % 256])", "bytes([-len(body) % 256])", "say monitor"),
    ("the input's limit", "    if len(names) > LONGEST_INPUT:\n", "    if len(names) >= LONGEST_INPUT:\n", "say"),
    ("the file's limit", "    return TOO_LONG if len(data) > LONGEST_INPUT", "    return TOO_LONG if len(data) > LONGEST_INPUT + 1", "say"),
    ("say's words", "SAY_WORDS = 32_768\n", "SAY_WORDS = 32_772\n", "say"),
    ("a refused read empties", "        return rs if isinstance(rs, Refusal) else self.edit(None, rs)\n",
     "        if isinstance(rs, Refusal):\n            self.hold(EMPTY)\n            return rs\n        return self.edit(None, rs)\n", "monitor"),
    ("phones past the last cleared", "        self.phones[:len(phones)] = phones\n",
     "        self.phones[:] = phones.ljust(256, b'\\0')\n", "monitor"),
    ("words past the needed cleared", "        self.words[:len(words)] = words\n",
     "        self.words[:len(words) + 1] = words + array('H', [0])\n", "monitor"),
    ("sets past the needed cleared", "        self.sets[:len(sets)] = sets\n",
     "        self.sets[:len(sets) + 1] = sets + array('Q', [0])\n", "monitor"),
    ("place 512 overwritten", "        if place < len(rules):\n", "        place %= MAX_RULES\n        if place < len(rules):\n", "monitor"),
    ("a line of 4,095 digits at most", "MONITOR_LINE = 4_096\n", "MONITOR_LINE = 4_095\n", "monitor"),
    ("a line of 4,098 digits", "MONITOR_LINE = 4_096\n", "MONITOR_LINE = 4_098\n", "monitor"),
    ("a longer line cut to 4,096 digits",
     "        if line is None or len(line) > MONITOR_LINE:\n            return UNSOUND\n        body = sound(line)\n",
     "        if line is None:\n            return UNSOUND\n        body = sound(line[:MONITOR_LINE])\n", "monitor"),
    ("a longer line cut into several", "    return b\"\".join(held.answer(line) for line in lines_of(data))\n",
     "    cut = lambda line: [line[k:k + MONITOR_LINE] for k in range(0, len(line), MONITOR_LINE)] if line else [line]\n"
     "    return b\"\".join(held.answer(part) for line in lines_of(data) for part in cut(line))\n", "monitor"),
    ("lent bytes above the longest file", "min(room, LONGEST_FILE)", "room & 0xFFFF", "monitor"),
    # Names of several words.
    ("3F a letter of a word", "bytes(name).split(bytes([SPACE]))", "[bytes(name)]", "say monitor lists"),
    ("3F a letter of a rule", "    return 0x01 <= byte <= 0x3E\n", "    return 0x01 <= byte <= 0x3F\n", "say monitor"),
    ("no boundary after a space", "frame_word(letters)))\n",
     "bytes([SPACE if before else BOUNDARY]) + letters + bytes([BOUNDARY])))\n", "say monitor lists"),
    ("no boundary before a space", "frame_word(letters)))\n",
     "bytes([BOUNDARY]) + letters + bytes([SPACE if before + len(letters) < len(name) else BOUNDARY])))\n", "say monitor lists"),
    ("spaces in a row are one", "bytes(name).split(", "bytes(name).replace(bytes([SPACE] * 2), bytes([SPACE])).split(", "say monitor lists"),
    ("a space at the end is none", "bytes(name).split(", "bytes(name).removesuffix(bytes([SPACE])).split(", "say monitor lists"),
    ("a word of no letters without steps", "    return left_after, right_after, steps\n",
     "    return left_after, right_after, steps if n else 0\n", "say monitor lists"),
    ("3's place in its word", "Refusal(3, word.before + said)", "Refusal(3, said)", "say monitor lists"),
    ("3's place without the spaces", "        before += len(letters) + 1\n", "        before += len(letters)\n", "say monitor lists"),
    ("3 before the passes of later words",
     PASSES,
     "        passes = type('Late', (dict,), {'__missing__': lambda self, word: self.setdefault(word, both_passes(words, word))})()\n",
     "monitor lists"),
    ("4 and 5 for each word alone",
     "        phones += said.phones\n        numbers += said.numbers\n        contested += said.contested\n"
     "    return room_refusal(phones, numbers, phone_room, number_room) or ",
     "        refused = room_refusal(said.phones, said.numbers, phone_room, number_room)\n        if refused:\n            return refused\n"
     "        phones += said.phones\n        numbers += said.numbers\n        contested += said.contested\n    return ", "monitor lists"),
    ("4 and 5 at the first word beyond", "        phones += said.phones\n        numbers += said.numbers\n",
     "        phones += said.phones\n        numbers += said.numbers\n"
     "        refused = room_refusal(phones, numbers, phone_room, number_room)\n        if refused:\n            return refused\n", "monitor lists"),
    ("the numbers of the last word", "        numbers += said.numbers\n", "        numbers = said.numbers\n", "say monitor"),
    ("words not looked for on the list", "word.letters in listed.phones:\n", "word.letters is None:\n", "monitor lists"),
    ("words of a listed name first", "    phones = listed.phones.get(bytes(name))\n",
     "    phones = listed.phones.get(bytes(name)) if SPACE not in name else None\n", "monitor lists"),
    ("a listed word ends the name", "            phones += listed.phones[word.letters]\n            continue\n",
     "            phones += listed.phones[word.letters]\n            break\n", "monitor lists"),
    ("a listed word with steps", " for word in words_of(name) if word.letters not in listed.phones]\n", " for word in words_of(name)]\n", "monitor lists"),
    ("tables judged for listed words alone", "        if unlisted:\n", "        if True:\n", "monitor lists"),
    ("no 3F in a listed name", "all(map(in_name, name))\n", "all(map(is_letter, name))\n", "lists"),
    # Contested letters.
    ("letters with exactly one rule", "len(fitting) > 1\n", "len(fitting) == 1\n", "monitor lists"),
    ("letters with exactly one place", "len(places) > 1\n", "len(places) == 1\n", "monitor lists"),
    ("letters with more than two rules", "len(fitting) > 1\n", "len(fitting) > 2\n", "monitor lists"),
    ("letters with more than two places", "len(places) > 1\n", "len(places) > 2\n", "monitor lists"),
    ("rules, not letters", "contested += len(fitting) > 1\n", "contested += len(fitting) - 1\n", "monitor"),
    ("places, not letters", "contested += len(places) > 1\n", "contested += len(places) - 1\n", "monitor"),
    ("whether a letter, not how many", "        contested += said.contested\n", "        contested |= said.contested > 0\n", "monitor lists"),
    ("places in the word of the chosen one", "len(places) > 1\n", "len([p for p in places if p // 64 == place // 64]) > 1\n", "monitor"),
    ("places next to the chosen one", "len(places) > 1\n", "place + 1 in places\n", "monitor"),
    ("the left set alone", "len(places) > 1\n", "len(shared_places(sets, 8 * left_after[i - 1], 8 * left_after[i - 1])) > 1\n", "monitor"),
    ("the rules that fit, not the places", "len(places) > 1\n", "len([r for r in literals if fits(r.rule, word.framed, i)]) > 1\n", "monitor"),
    ("the places whose rules fit", "len(places) > 1\n",
     "len([p for p in places if p < len(literals) and fits(literals[p].rule, word.framed, i)]) > 1\n", "monitor"),
    ("no places past the list", "len(places) > 1\n", "len([p for p in places if p < len(literals)]) > 1\n", "monitor"),
    ("the count of the last word", "        contested += said.contested\n", "        contested = said.contested\n", "monitor lists"),
    ("a listed word contested", "            phones += listed.phones[word.letters]\n",
     "            phones += listed.phones[word.letters]\n            contested += 1\n", "monitor lists"),
    ("a listed word's letters counted", "            phones += listed.phones[word.letters]\n",
     "            phones += listed.phones[word.letters]\n"
     "            contested += getattr(plain_word(Ruleset(tuple(Numbered(k, r) for k, r in enumerate(SIX_RULES, 1)), 6), word), 'contested', 0)\n",
     "monitor lists"),
    ("no count of the walk", " else self.spoken(answer, steps)\n",
     " else self.spoken(answer._replace(contested=self.contested), steps)\n", "monitor lists"),
    ("no count of the plain reading", " else self.spoken(answer, 0)\n",
     " else self.spoken(answer._replace(contested=self.contested), 0)\n", "monitor lists"),
    ("a listed name leaves the count", "        self.contested = answer.contested\n",
     "        self.contested = answer.contested if answer.numbers else self.contested\n", "monitor lists"),
    ("a refused walk clears the count", "        return walk_refusal_line(answer, steps) if isinstance(answer, Refusal)",
     "        self.contested = 0\n        return walk_refusal_line(answer, steps) if isinstance(answer, Refusal)", "monitor lists"),
    ("a refused reading clears the count", "        return answer if isinstance(answer, Refusal) else self.spoken(answer, 0)\n",
     "        self.contested = 0\n        return answer if isinstance(answer, Refusal) else self.spoken(answer, 0)\n", "monitor lists"),
    ("an edit clears the count", "        self.hold(rs)\n        return frame_line", "        self.hold(rs)\n        self.contested = 0\n        return frame_line",
     "monitor"),
    ("the empty ruleset clears the count", "        self.hold(EMPTY)\n        return frame_line",
     "        self.hold(EMPTY)\n        self.contested = 0\n        return frame_line", "monitor"),
    ("a count before the first name", "        self.contested = 0              # of", "        self.contested = 1              # of", "monitor"),
    ("27 with a field", "0x27: (show_contested,)", "0x27: (lambda self, field: self.show_contested(), 1)", "monitor"),
    # Letter classes.
    ("the rightmost symbol slowest", "for symbols in product(*letters_for(rule, classes))]\n",
     "for symbols in (some[::-1] for some in product(*letters_for(rule, classes)[::-1]))]\n", "monitor"),
    ("the right context's symbols slowest", "            for symbols in product(*letters_for(rule, classes))]\n",
     "            for symbols in (some[-split:] + some[:-split] if split else some\n"
     "                            for some in product(*letters_for(rule, classes)[split:], *letters_for(rule, classes)[:split]))]\n", "monitor"),
    ("letters descending", "    return [letters[symbol] if", "    return [letters[symbol][::-1] if", "monitor"),
    ("a class in a target", "            and all(is_letter(c) for c in rule.target)\n",
     "            and all(in_context(c) for c in rule.target)\n", "say monitor"),
    ("a class of the first letter alone", "    return [letters[symbol] if", "    return [letters[symbol][:1] if", "say monitor"),
    ("a class of all between its ends", "    return [letters[symbol] if",
     "    return [bytes(range(letters[symbol][0], letters[symbol][-1] + 1)) if", "say monitor"),
    ("a class for the boundary too", "    return [letters[symbol] if", "    return [bytes([0]) + letters[symbol] if", "say monitor"),
    ("512 over numbered rules", "literal_total(rs) + literal_count(rule, rs.classes) > MAX_RULES", "len(rs.rules) + 1 > MAX_RULES", "monitor"),
    ("513 literal rules", "literal_total(rs) + literal_count(rule, rs.classes) > MAX_RULES",
     "literal_total(rs) + literal_count(rule, rs.classes) > 513", "monitor"),
    ("511 literal rules at most", "literal_total(rs) + literal_count(rule, rs.classes) > MAX_RULES",
     "literal_total(rs) + literal_count(rule, rs.classes) >= MAX_RULES", "monitor"),
    ("21 where 512 are held already", "literal_total(rs) + literal_count(rule, rs.classes) > MAX_RULES", "literal_total(rs) >= MAX_RULES", "monitor"),
    ("9 as before", "refused = Refusal(21, 0)", "refused = Refusal(9, 0)", "monitor"),
    ("the number at the literal place", "        number, rule = literals[place]\n",
     "        number, rule = rs.rules[min(place, len(rs.rules) - 1)].number, literals[place].rule\n", "say monitor"),
    ("the rule at the literal place", "    literals = literal_list(rs)\n", "    literals = rs.rules\n", "say monitor"),
    ("the place held against the numbered rules", "        if place >= len(literals) or", "        if place >= len(rs.rules) or", "say monitor"),
    ("tables over the numbered rules", "one_table(tuple(right_pattern(r) for _, r in literal_list(rs)))",
     "one_table(tuple(right_pattern(literal_rules(r, rs.classes)[0]) for _, r in rs.rules))", "say monitor"),
    ("the plain reading without classes", "literal for literal in literal_list(rs) if fits(", "literal for literal in rs.rules if fits(", "monitor"),
    ("set again while in use", " or any(symbol in uses(rule) for _, rule in rs.rules):\n", ":\n", "monitor"),
    ("set again while in use by a left context", " or any(symbol in uses(rule) for _, rule in rs.rules):\n",
     " or any(symbol in rule.right for _, rule in rs.rules):\n", "monitor"),
    ("the same letters again while in use", " or any(symbol in uses(rule) for _, rule in rs.rules):\n",
     " or any(symbol in uses(rule) and Class(symbol, letters) not in rs.classes for _, rule in rs.rules):\n", "monitor"),
    ("never set again", " or any(symbol in uses(rule) for _, rule in rs.rules):\n", " or symbol in defined(rs):\n", "monitor"),
    ("a new class beside the old", "if given.symbol != symbol)\n", "if given.symbol != symbol or given.letters)\n", "monitor"),
    ("20 before 6",
     "    elif not has_shape(rule):\n        refused = Refusal(6, 0)\n    elif not uses(rule) <= defined(rs):\n        refused = Refusal(20, 0)\n",
     "    elif not uses(rule) <= defined(rs):\n        refused = Refusal(20, 0)\n    elif not has_shape(rule):\n        refused = Refusal(6, 0)\n", "monitor"),
    ("7 before 20", "    elif not uses(rule) <= defined(rs):\n", "    elif not uses(rule) <= defined(rs) and p <= len(rs.rules):\n", "monitor"),
    ("21 before 7", "    elif p > len(rs.rules):\n",
     "    elif p > len(rs.rules) and literal_total(rs) + literal_count(rule, rs.classes) <= MAX_RULES:\n", "monitor"),
    ("10 before 21", "literal_total(rs) + literal_count(rule, rs.classes) > MAX_RULES:\n",
     "literal_total(rs) + literal_count(rule, rs.classes) > MAX_RULES and rs.last < MAX_NUMBER:\n", "monitor"),
    ("20 before 0", "    if not is_ruleset(rs):\n        return Refusal(0, 0), rs\n    if not is_class(symbol, letters)",
     "    if not is_ruleset(rs) and is_class(symbol, letters):\n        return Refusal(0, 0), rs\n    if not is_class(symbol, letters)", "monitor"),
    ("an undefined class added", "    elif not uses(rule) <= defined(rs):\n", "    elif False:\n", "monitor"),
    ("symbol 60", "CLASS_SYMBOLS = range(0x40, 0x60)\n", "CLASS_SYMBOLS = range(0x40, 0x61)\n", "say monitor"),
    ("symbol 5F a symbol of none", "CLASS_SYMBOLS = range(0x40, 0x60)\n", "CLASS_SYMBOLS = range(0x40, 0x5F)\n", "say monitor"),
    ("symbol 3F", "    return (symbol in CLASS_SYMBOLS and", "    return (0x3F <= symbol <= 0x5F and", "say monitor"),
    ("33 letters", "MAX_CLASS = 32 ", "MAX_CLASS = 33 ", "say monitor"),
    ("31 letters at most", "MAX_CLASS = 32 ", "MAX_CLASS = 31 ", "say monitor"),
    ("an empty class", " and 1 <= len(letters) <= MAX_CLASS", " and len(letters) <= MAX_CLASS", "say monitor"),
    ("equal letters", "all(one < other for", "all(one <= other for", "say monitor"),
    ("letters in any order", "all(one < other for", "all(one != other for", "say monitor"),
    ("any byte in a class", " and all(map(is_letter, letters))\n            and all(one", "\n            and all(one", "say monitor"),
    ("the number of the class for `last`", "    return None, rs._replace(classes=tuple(sorted(others + (Class(symbol, letters),))))\n",
     "    return None, rs._replace(last=rs.last + 1, classes=tuple(sorted(others + (Class(symbol, letters),))))\n", "monitor"),
    ("classes in the order of their setting", "tuple(sorted(others + (Class(symbol, letters),)))", "others + (Class(symbol, letters),)", "monitor"),
    ("the classes stay in an empty ruleset",
     "        self.hold(EMPTY)\n        return frame_line", "        self.hold(EMPTY._replace(classes=self.held.classes))\n        return frame_line",
     "monitor"),
    ("the classes stay when a file is read", "        return rs if isinstance(rs, Refusal) else self.edit(None, rs)\n",
     "        return rs if isinstance(rs, Refusal) else self.edit(None, rs if rs.classes else rs._replace(classes=self.held.classes))\n", "monitor"),
    ("28 without letters no command", "0x28: (set_class, 1)", "0x28: (lambda self, symbol: self.set_class(symbol, b''), 1)", "monitor"),
    ("class lines not written", "    return head + b\"\".join(map(frame_line, map(class_body, rs.classes))) +", "    return head +", "monitor"),
    ("class symbols in any order", "    return given if is_class(*given) and ascends else None\n",
     "    return given if is_class(*given) else None\n", "say"),
    ("a symbol twice", "all(symbol < given.symbol for", "all(symbol <= given.symbol for", "say"),
    ("a class line longer than its count", "len(body) != 3 + body[2]:\n        return None\n    given",
     "len(body) < 3 + body[2]:\n        return None\n    body = body[:3 + body[2]]\n    given", "say"),
    ("a bad class line unsound", "        if given is None:\n            return Refusal(14, start)\n",
     "        if given is None:\n            return Refusal(13, start)\n", "say"),
    ("no classes where no rule is counted", "    while (line_here()[0] or b\"\\0\")[0] == 0x07:\n",
     "    while count and (line_here()[0] or b\"\\0\")[0] == 0x07:\n", "say"),
    ("an unsound line after the classes of no rules", "    rules, seen, literals = [], set(), 0\n",
     "    rules, seen, literals = [], set(), 0\n    if not count and at < len(data) and line_here()[0] is None:\n        return Refusal(13, at)\n", "say"),
    ("an undefined class in a file", " or not uses(numbered.rule) <= {symbol for symbol, _ in classes}:\n", ":\n", "say"),
    ("512 over the lines of a file", "        literals += literal_count(numbered.rule, classes)\n", "        literals += 1\n", "say"),
    ("511 literal rules in a file at most", "        if literals > MAX_RULES:\n", "        if literals >= MAX_RULES:\n", "say monitor"),
    # Tables from before an edit.
    ("an addition not counted", "    return edited(rs, rs.rules[:p] + (Numbered(number, rule),) + rs.rules[p:], number)\n",
     "    return None, rs._replace(rules=rs.rules[:p] + (Numbered(number, rule),) + rs.rules[p:], last=number)\n", "monitor"),
    ("a drop not counted", "    return edited(rs, rest, rs.last)\n", "    return None, rs._replace(rules=rest)\n", "monitor"),
    ("a move not counted", "    return edited(rs, rest[:p] + moved + rest[p:], rs.last)\n",
     "    return None, rs._replace(rules=rest[:p] + moved + rest[p:])\n", "monitor"),
    ("a move to its own place not counted", COUNTED, COUNTED.replace("+ 1", "+ (rules != rs.rules)"), "monitor"),
    ("a class counted", "    return None, rs._replace(classes=tuple(sorted(others + (Class(symbol, letters),))))\n",
     "    return None, rs._replace(edits=rs.edits + 1, classes=tuple(sorted(others + (Class(symbol, letters),))))\n", "monitor"),
    ("a refused edit counted", "        if answer is not None:\n            return answer\n        self.hold",
     "        if answer is not None:\n            self.held = self.held._replace(edits=self.held.edits + 1)\n            return answer\n        self.hold", "monitor"),
    ("a build begins anew", "        self.words[:len(words)] = words\n",
     "        self.words[:len(words)] = array('H', [0, 0]) + words[2:]\n        self.store_edits(0)\n", "monitor"),
    ("a file read keeps the count", "else self.edit(None, rs)\n", "else self.edit(None, rs._replace(edits=self.held.edits))\n", "monitor"),
    ("a file read is counted", "else self.edit(None, rs)\n", "else self.edit(None, rs._replace(edits=self.held.edits + 1))\n", "monitor"),
    ("a refused read begins anew", "        rs = read_rules_hex(self.rules_hex)\n        return",
     "        rs = read_rules_hex(self.rules_hex)\n        self.store_edits(0)\n        return", "monitor"),
    ("the empty ruleset keeps the count", "        self.hold(EMPTY)\n        return frame_line",
     "        self.hold(EMPTY._replace(edits=self.held.edits))\n        return frame_line", "monitor"),
    ("an impossible ruleset begins anew", "self.held._replace(rules=tuple(rules))", "self.held._replace(rules=tuple(rules), edits=0)", "monitor"),
    ("an impossible ruleset is counted", "self.held._replace(rules=tuple(rules))",
     "self.held._replace(rules=tuple(rules), edits=min(MAX_EDITS, self.held.edits + 1))", "monitor"),
    ("no count in the words", "[rs.edits >> 16, rs.edits & 0xFFFF, lefts, rights]", "[0, 0, lefts, rights]", "monitor"),
    ("low word first", "[rs.edits >> 16, rs.edits & 0xFFFF, lefts, rights]", "[rs.edits & 0xFFFF, rs.edits >> 16, lefts, rights]", "monitor"),
    ("low word first, built and compared",
     "[rs.edits >> 16, rs.edits & 0xFFFF, lefts, rights]) + left_rows + right_rows, left_sets + right_sets\n\n\ndef edits_in(words):\n",
     "[rs.edits & 0xFFFF, rs.edits >> 16, lefts, rights]) + left_rows + right_rows, left_sets + right_sets\n\n\ndef edits_in(words):\n"
     "    words = words[1::-1]\n", "monitor"),
    ("the low word alone compared", "edits_in(words) != rs.edits", "words[1] != rs.edits & 0xFFFF", "monitor"),
    ("the high word alone compared", "edits_in(words) != rs.edits", "words[0] != rs.edits >> 16", "monitor"),
    ("later tables usable", "edits_in(words) != rs.edits", "edits_in(words) < rs.edits", "monitor"),
    ("earlier tables usable", "edits_in(words) != rs.edits", "edits_in(words) > rs.edits", "monitor"),
    ("nothing compared", "edits_in(words) != rs.edits", "False", "monitor"),
    ("22 before the length tests", "        raise Unusable\n    lefts, rights = states_in(words)\n",
     "        raise Unusable\n    if edits_in(words) != rs.edits:\n        raise Unusable(22)\n    lefts, rights = states_in(words)\n", "monitor"),
    ("22 before the fewest words", "    if len(words) < ROWS:\n",
     "    if len(words) > 1 and edits_in(words) != rs.edits:\n        raise Unusable(22)\n    if len(words) < ROWS:\n", "monitor"),
    ("22 before L or R zero", "    if (lefts == 0 or rights == 0 or",
     "    if (lefts == 0 or rights == 0) and edits_in(words) != rs.edits:\n        raise Unusable(22)\n    if (lefts == 0 or rights == 0 or", "monitor"),
    ("22 before the set words' length", "    if (lefts == 0 or rights == 0 or",
     "    if lefts and rights and len(words) >= ROWS + SYMBOLS * (lefts + rights) and edits_in(words) != rs.edits:\n        raise Unusable(22)\n"
     "    if (lefts == 0 or rights == 0 or", "monitor"),
    ("22 after the passes",
     "            judge_tables(rs, words, sets)\n" + PASSES,
     "            judge_tables(rs._replace(edits=edits_in(words) if len(words) > 1 else 0), words, sets)\n" + PASSES
     + "        if unlisted:\n            judge_tables(rs, words, sets)\n", "monitor"),
    ("22 after the letters", "            judge_tables(rs, words, sets)\n" + WALKED,
     "            judge_tables(rs._replace(edits=edits_in(words) if len(words) > 1 else 0), words, sets)\n" + WALKED
     + "        if unlisted:\n            judge_tables(rs, words, sets)\n", "monitor"),
    ("22 for listed words alone", "        if unlisted:\n",
     "        if len(words) > 1 and not unlisted and edits_in(words) != rs.edits:\n            raise Unusable(22)\n        if unlisted:\n", "monitor"),
    ("22 before the list", "    if answer:\n        return answer, 0\n",
     "    if isinstance(answer, Spoken) and len(words) > 1 and edits_in(words) != rs.edits:\n        return Refusal(22, 0), 0\n"
     "    if answer:\n        return answer, 0\n", "monitor"),
    ("22 with steps", "        return Refusal(unusable.number, 0), 0\n",
     "        return Refusal(unusable.number, 0), 2 * len(name) + 2 if unusable.number == 22 else 0\n", "monitor"),
    ("22 with a place", "        return Refusal(unusable.number, 0), 0\n",
     "        return Refusal(unusable.number, rs.edits if unusable.number == 22 else 0), 0\n", "monitor"),
    ("16 for another count", "        raise Unusable(22)\n", "        raise Unusable\n", "monitor"),
    ("2 words at least", "    if len(words) < ROWS:\n", "    if len(words) < 2:\n", "monitor"),
    ("16 without the count's words", "len(words) < ROWS + SYMBOLS", "len(words) < 2 + SYMBOLS", "monitor"),
    ("11 without the count's words", "    return lefts, rights, ROWS + SYMBOLS", "    return lefts, rights, 2 + SYMBOLS", "say monitor"),
    ("the count's words for the states", "map(two, states_in(words))", "map(two, words[:2])", "monitor"),
    ("words without the count's", "MONITOR_WORDS = ROWS + SYMBOLS", "MONITOR_WORDS = 2 + SYMBOLS", "monitor"),
    ("the count wraps", SPENT + COUNTED, COUNTED.replace("rs.edits + 1", "(rs.edits + 1) % 2**32"), "monitor"),
    ("the count stays at its last", SPENT + COUNTED, COUNTED.replace("rs.edits + 1", "min(MAX_EDITS, rs.edits + 1)"), "monitor"),
    ("23 one too early", SPENT, SPENT.replace("== MAX_EDITS", ">= MAX_EDITS - 1"), "monitor"),
    ("23 before 0", "    refused = None\n    if not is_ruleset(rs):\n        refused = Refusal(0, 0)\n",
     "    refused = None\n    if rs.edits == MAX_EDITS:\n        refused = Refusal(23, 0)\n    elif not is_ruleset(rs):\n        refused = Refusal(0, 0)\n", "monitor"),
    ("23 before 6", "    elif not has_shape(rule):\n", "    elif rs.edits == MAX_EDITS:\n        refused = Refusal(23, 0)\n    elif not has_shape(rule):\n", "monitor"),
    ("23 before 20", "    elif not uses(rule) <= defined(rs):\n", "    elif not uses(rule) <= defined(rs) and rs.edits < MAX_EDITS:\n", "monitor"),
    ("23 before 7", "    elif p > len(rs.rules):\n", "    elif p > len(rs.rules) and rs.edits < MAX_EDITS:\n", "monitor"),
    ("23 before 21", "> MAX_RULES:\n        refused = Refusal(21, 0)\n", "> MAX_RULES and rs.edits < MAX_EDITS:\n        refused = Refusal(21, 0)\n", "monitor"),
    ("23 before 10", "    elif rs.last == MAX_NUMBER:\n", "    elif rs.last == MAX_NUMBER and rs.edits < MAX_EDITS:\n", "monitor"),
    ("23 before 8 of a drop", "    if len(rest) == len(rs.rules):\n", "    if len(rest) == len(rs.rules) and rs.edits < MAX_EDITS:\n", "monitor"),
    ("23 before 8 of a move", "    if not moved:\n", "    if not moved and rs.edits < MAX_EDITS:\n", "monitor"),
    ("23 before 7 of a move", "    if p > len(rest):\n", "    if p > len(rest) and rs.edits < MAX_EDITS:\n", "monitor"),
    ("23 of a class", "    others = tuple(given", SPENT + "    others = tuple(given", "monitor"),
    ("29 with a field", "0x29: (show_edits,)", "0x29: (lambda self, field: self.show_edits(), 1)", "monitor"),
    ("29 of an impossible ruleset", "        return frame_line(b\"\\x0A\" + four(self.held.edits))\n",
     "        return frame_line(b\"\\x0A\" + four(self.held.edits)) if is_ruleset(self.ruleset()) else Refusal(0, 0)\n", "monitor"),
    ("2A with a count of two bytes", "0x2A: (store_edits, 4)", "0x2A: (store_edits, 2)", "monitor"),
    ("2A of an impossible ruleset", "    def store_edits(self, edits):\n",
     "    def store_edits(self, edits):\n        if not is_ruleset(self.ruleset()):\n            return Refusal(0, 0)\n", "monitor"),
    ("2A into the words too", "    def store_edits(self, edits):\n",
     "    def store_edits(self, edits):\n        self.words[0], self.words[1] = edits >> 16, edits & 0xFFFF\n", "monitor"),
    # Contexts of four.
    ("contexts of six", LIMIT, LIMIT.replace("4", "6"), "say monitor alone"),
    ("contexts of five", LIMIT, LIMIT.replace("4", "5"), "say monitor alone"),
    ("contexts of three at most", LIMIT, LIMIT.replace("4", "3"), "say monitor alone"),
    ("a left context of five", "    return (len(rule.left) <= MAX_CONTEXT\n", "    return (len(rule.left) <= MAX_CONTEXT + 1\n", "say monitor"),
    ("a right context of five", "            and len(rule.right) <= MAX_CONTEXT\n", "            and len(rule.right) <= MAX_CONTEXT + 1\n", "say monitor"),
    ("a left context of three at most", "    return (len(rule.left) <= MAX_CONTEXT\n", "    return (len(rule.left) < MAX_CONTEXT\n", "say monitor"),
    ("a right context of three at most", "            and len(rule.right) <= MAX_CONTEXT\n", "            and len(rule.right) < MAX_CONTEXT\n", "say monitor"),
    ("no limit on the left", "    return (len(rule.left) <= MAX_CONTEXT\n", "    return (True\n", "say monitor"),
    ("no limit on the right", "            and len(rule.right) <= MAX_CONTEXT\n", "", "say monitor"),
    ("a length of 200 taken", "    return (len(rule.left) <= MAX_CONTEXT\n", "    return (not MAX_CONTEXT < len(rule.left) < 200\n", "say monitor"),
    ("eight on both sides together", "    return (len(rule.left) <= MAX_CONTEXT\n            and 1 <= len(rule.target) <= MAX_TARGET\n"
     "            and len(rule.right) <= MAX_CONTEXT\n",
     "    return (len(rule.left + rule.right) <= 2 * MAX_CONTEXT\n            and 1 <= len(rule.target) <= MAX_TARGET\n", "say monitor"),
    ("# on the left not counted", "    return (len(rule.left) <= MAX_CONTEXT\n", "    return (len(rule.left.lstrip(b'\\0')) <= MAX_CONTEXT\n", "say monitor"),
    ("# on the right not counted", "            and len(rule.right) <= MAX_CONTEXT\n",
     "            and len(rule.right.rstrip(b'\\0')) <= MAX_CONTEXT\n", "say monitor"),
    ("classes on the left not counted", "    return (len(rule.left) <= MAX_CONTEXT\n",
     "    return (sum(c not in CLASS_SYMBOLS for c in rule.left) <= MAX_CONTEXT\n", "say monitor"),
    ("classes on the right not counted", "            and len(rule.right) <= MAX_CONTEXT\n",
     "            and sum(c not in CLASS_SYMBOLS for c in rule.right) <= MAX_CONTEXT\n", "say monitor"),
    ("a context of five added", ADDED, ADDED.replace("(rule)", f"({CUT}) or max(len(rule.left), len(rule.right)) > 5"), "monitor"),
    ("a longer context cut when it is added", "def add(rs, rule, p):\n", f"def add(rs, rule, p):\n    rule = {CUT}\n", "monitor"),
    ("7 before 6 of a long context", ADDED,
     ADDED.replace("(rule)", f"(rule) and not (p > len(rs.rules) and has_shape({CUT}))"), "monitor"),
    ("20 before 6 of a long context", ADDED,
     ADDED.replace("(rule)", f"(rule) and not (has_shape({CUT}) and not uses(rule) <= defined(rs))"), "monitor"),
    ("21 before 6 of a long context", ADDED,
     ADDED.replace("(rule)", f"(rule) and not (has_shape({CUT}) and uses(rule) <= defined(rs) and p <= len(rs.rules) and literal_total(rs) == MAX_RULES)"),
     "monitor"),
    ("a context of five in a file", READ, READ.replace("(rule)", f"({CUT}) or max(len(rule.left), len(rule.right)) > 5"), "say monitor"),
    ("a longer context cut when it is read", READ, f"    rule = {CUT}\n" + READ, "say monitor"),
    ("a rule line that is longer than any unsound", "        if body is None:\n            return Refusal(13, start)\n        numbered",
     "        if body is None or len(body) > 1 + SLOT:\n            return Refusal(13, start)\n        numbered", "say"),
    ("a long context at the next line", "        numbered = rule_of(body, last, seen)\n",
     "        numbered = rule_of(body, last, seen)\n        start = at if body[0] == 0x02 and max(body[3:6:2], default=0) > MAX_CONTEXT else start\n",
     "say monitor"),
    ("a long context after the later lines", "        numbered = rule_of(body, last, seen)\n",
     "        numbered = rule_of(body, last, seen)\n"
     "        if numbered is None and max(body[3:6:2], default=0) > MAX_CONTEXT and line_here()[0] is None and at < len(data):\n"
     "            return Refusal(13, at)\n", "say"),
    ("a long context in memory", ".ljust(length, b\"\\0\"))\n", ")\n", "alone"),
    ("a context of five in memory", ".ljust(length, b\"\\0\"))\n", ".ljust(length if length > 5 else 0, b\"\\0\"))\n", "alone"),
    ("a context of five handed in", "            and all(has_shape(rule) for _, rule in rs.rules)\n",
     f"            and all(has_shape({CUT}) and max(len(rule.left), len(rule.right)) <= 5 for _, rule in rs.rules)\n", "alone"),
    ("slots past the count judged", "for k in range(count))\n", "for k in range(min(MAX_RULES, count + 1)))\n", "alone"),
    ("slots of 26 bytes", "SLOT = 6 + sum(ROOMS) ", "SLOT = 26 ", "alone"),
    ("words and set words for contexts of six", "MAX_LEFT_STATES = 1 + MAX_RULES * MAX_CONTEXT\n", "MAX_LEFT_STATES = 1 + MAX_RULES * 6\n", "monitor alone"),
    ("a word too many", "MONITOR_WORDS = ROWS", "MONITOR_WORDS = 1 + ROWS", "monitor alone"),
    ("a set word too many", "MONITOR_SETS = 8 * (", "MONITOR_SETS = 1 + 8 * (", "monitor alone"),
    ("a file of 27,438 bytes at most", "min(room, LONGEST_FILE)", "min(room, LONGEST_FILE - 1)", "monitor"),
    # Sheets.
    ("nothing shared", "    return len(beginnings) + ", "    return sum(len(word.letters) + 1 for word in words) + ", "monitor alone"),
    ("shared with the word before alone", "    return len(beginnings) + ",
     "    from os.path import commonprefix\n"
     "    before = [b'', *(word.framed[:-1] for word in words)]\n"
     "    beginnings = [1 for k, word in enumerate(words) for _ in range(len(word.letters) + 1 - len(commonprefix([before[k], before[k + 1]])))]\n"
     "    return len(beginnings) + ", "monitor alone"),
    ("shared within a name alone", "sheet_steps([word for name in names for word in table_words(name, listed)]))\n",
     "sum(sheet_steps(table_words(name, listed)) for name in names))\n", "monitor alone"),
    ("equal words alone are shared", "    return len(beginnings) + ", "    return sum(len(letters) + 1 for letters in {word.letters for word in words}) + ", "monitor alone"),
    ("# shared by none", "    return len(beginnings) + ", "    return len(beginnings) + max(0, len(words) - 1) + ", "monitor alone"),
    ("# not counted", "for length in range(1, len(word.framed))}\n", "for length in range(2, len(word.framed))}\n", "monitor alone"),
    ("whole frames among the beginnings", "for length in range(1, len(word.framed))}\n", "for length in range(1, len(word.framed) + 1)}\n", "monitor alone"),
    ("the empty beginning counted", "for length in range(1, len(word.framed))}\n", "for length in range(len(word.framed))}\n", "monitor alone"),
    ("the right pass shared", "sum(len(word.letters) + 1 for word in words)\n", "sum(len(letters) + 1 for letters in {word.letters for word in words})\n", "monitor alone"),
    ("endings shared", "sum(len(word.letters) + 1 for word in words)\n",
     "len({word.framed[length:] for word in words for length in range(1, len(word.framed))})\n", "monitor alone"),
    ("the left pass alone counted", "sum(len(word.letters) + 1 for word in words)\n", "0\n", "monitor alone"),
    ("beginnings of listed words", "    return [word for word in words_of(name) if word.letters not in listed.phones]\n",
     "    return words_of(name)\n", "monitor alone"),
    ("words of listed names", " or bytes(name) in listed.phones:\n        return []\n", ":\n        return []\n", "monitor alone"),
    ("words of names refused with 2 or 1", "    if name_refusal(name) or bytes(name) in", "    if bytes(name) in", "monitor alone"),
    ("words of names refused with 1", "    if name_refusal(name) or bytes(name) in", "    if len(name) > MAX_NAME or bytes(name) in", "monitor alone"),
    ("no words of names refused later", "    return Sheet(tuple(answers), sheet_steps([word for name in names for",
     "    return Sheet(tuple(answers), sheet_steps([word for name, said in zip(names, answers) if isinstance(said, Spoken) for", "monitor alone"),
    ("a refused name takes bytes", "        elif answer.number in (16, 22):\n",
     "        elif answer.number == 4:\n            phone_room = 0\n        elif answer.number in (16, 22):\n", "monitor alone"),
    ("a refused name takes numbers", "        elif answer.number in (16, 22):\n",
     "        elif answer.number == 5:\n            number_room = 0\n        elif answer.number in (16, 22):\n", "monitor alone"),
    ("a name without room ends the sheet", "        elif answer.number in (16, 22):\n",
     "        elif answer.number in (4, 5):\n            answers += [answer] * (len(names) - len(answers))\n            break\n"
     "        elif answer.number in (16, 22):\n", "monitor alone"),
    ("16 of a later name answered singly", "        elif answer.number in (16, 22):\n", "        elif answer.number in (16, 22) and not answers:\n", "monitor alone"),
    ("16 answered singly", "        elif answer.number in (16, 22):\n", "        elif answer.number == 22:\n", "monitor alone"),
    ("22 answered singly", "        elif answer.number in (16, 22):\n", "        elif answer.number == 16:\n", "monitor alone"),
    ("3 refuses the sheet", "        elif answer.number in (16, 22):\n", "        elif answer.number in (3, 16, 22):\n", "monitor alone"),
    ("16 of names before one refused with 1", "        elif answer.number in (16, 22):\n",
     "        elif answer.number in (16, 22) and not any(map(name_refusal, names)):\n", "monitor"),
    ("all phones for each name", "            phone_room -= len(answer.phones)\n", "", "monitor alone"),
    ("all numbers for each name", "            number_room -= len(answer.numbers)\n", "", "monitor alone"),
    ("tables judged for every sheet", "    answers = []\n    for name in names:\n",
     "    try:\n        judge_tables(rs, words, sets)\n    except Unusable as unusable:\n        return Refusal(unusable.number, 0)\n"
     "    answers = []\n    for name in names:\n", "monitor alone"),
    ("257 names", "        if len(names) == MAX_NAMES or", "        if len(names) > MAX_NAMES or", "monitor alone"),
    ("255 names at most", "        if len(names) == MAX_NAMES or", "        if len(names) == MAX_NAMES - 1 or", "monitor alone"),
    ("the first 256 names of more", "        if len(names) == MAX_NAMES or", "        if len(names) == MAX_NAMES:\n            break\n        if", "monitor alone"),
    ("a cut name answered", " or len(name) < sheet[at]:\n", ":\n", "monitor alone"),
    ("a cut name left out", " or len(name) < sheet[at]:\n            return None\n",
     ":\n            return None\n        if len(name) < sheet[at]:\n            break\n", "monitor alone"),
    ("a length without bytes left out", "    while at < len(sheet):\n        name", "    while at + (sheet[-1] > 0) < len(sheet):\n        name", "monitor"),
    ("24 of a name of 65 bytes", " or len(name) < sheet[at]:\n", " or len(name) < sheet[at] or len(name) > MAX_NAME:\n", "monitor alone"),
    ("24 of no names", "    if names is None:\n", "    if not names:\n", "monitor alone"),
    ("24 after 0", "    if names is None:\n        return Refusal(24, 0)\n    if not is_ruleset(rs):\n        return Refusal(0, 0)\n",
     "    if not is_ruleset(rs):\n        return Refusal(0, 0)\n    if names is None:\n        return Refusal(24, 0)\n", "monitor alone"),
    ("24 after 17", "    if names is None:\n        return Refusal(24, 0)\n",
     "    if names is None and is_ruleset(rs) and listed is None:\n        return Refusal(17, 0)\n    if names is None:\n        return Refusal(24, 0)\n",
     "monitor"),
    ("24 after 16", "    if names is None:\n        return Refusal(24, 0)\n",
     "    if names is None and is_ruleset(rs) and listed is not None and len(words) < ROWS:\n        return Refusal(16, 0)\n"
     "    if names is None:\n        return Refusal(24, 0)\n", "monitor"),
    ("17 before 0 of a sheet", "        return Refusal(24, 0)\n    if not is_ruleset(rs):\n",
     "        return Refusal(24, 0)\n    if listed is None:\n        return Refusal(17, 0)\n    if not is_ruleset(rs):\n", "monitor alone"),
    ("24 with the names as its place", "        return Refusal(24, 0)\n", "        return Refusal(24, len(sheet))\n", "monitor alone"),
    ("the steps of each name", "b\"\".join(answer_line(each, 0)", "b\"\".join(answer_line(each, answer.steps % 65536)", "monitor alone"),
    ("steps in two bytes", "four(answer.steps) + two(", "two(answer.steps) + two(", "monitor alone"),
    ("the spoken names counted", "+ two(len(answer.answers)))", "+ two(sum(isinstance(each, Spoken) for each in answer.answers)))", "monitor alone"),
    ("a refused sheet with its steps", "            return walk_refusal_line(answer, 0)\n",
     "            return walk_refusal_line(answer, 2 * len(sheet) if answer.number == 16 else 0)\n", "monitor alone"),
    ("a refused sheet clears the count", "            return walk_refusal_line(answer, 0)\n",
     "            self.contested = 0\n            return walk_refusal_line(answer, 0)\n", "monitor"),
    ("a refused sheet writes what was said before", "            return walk_refusal_line(answer, 0)\n",
     "            if answer.number == 16 and names_of(sheet)[0]:\n                self.phones[0] = 0x7F\n            return walk_refusal_line(answer, 0)\n", "monitor"),
    ("phones of each name at the start", "        self.given(*(each for each in answer.answers if isinstance(each, Spoken)))\n",
     "        for each in answer.answers:\n            if isinstance(each, Spoken):\n                self.given(each)\n", "monitor alone"),
    ("the count of the whole sheet", "        for answer in spoken:\n            self.contested = answer.contested\n",
     "        self.contested = min(255, sum(answer.contested for answer in spoken)) if spoken else self.contested\n", "monitor alone"),
    ("the count of the first name", "        for answer in spoken:\n", "        for answer in spoken[:1]:\n", "monitor alone"),
    ("a sheet without spoken names clears the count", "        for answer in spoken:\n", "        self.contested = 0\n        for answer in spoken:\n", "monitor alone"),
    ("a sheet lent more than there is", "sheet,\n                             min(phone_room, SAY_PHONES), min(number_room, SAY_NUMBERS)",
     "sheet,\n                             phone_room, min(number_room, SAY_NUMBERS)", "monitor"),
    ("2B without lent numbers", "0x2B: (sheet, 4, 4, 2, 2)", "0x2B: (lambda self, *fields: self.sheet(*fields, 64, b''), 4, 4, 2)", "monitor alone"),
    # The exceptions list.
    ("a listed name by the rules", "    phones = listed.phones.get(bytes(name))\n", "    phones = None\n", "monitor lists"),
    ("a listed name by a walk with steps", "    if answer:\n        return answer, 0\n",
     "    if answer:\n        return answer, 0 if isinstance(answer, Refusal) else 2 * len(name) + 2\n", "monitor lists"),
    ("4 forgotten for a listed name", "    return room_refusal(phones, (), phone_room, 0) or Spoken(phones, ())\n",
     "    return Spoken(phones, ())\n", "monitor lists"),
    ("17 before 0", "    if not is_ruleset(rs):\n        return Refusal(0, 0)\n    if listed is None:\n        return Refusal(17, 0)\n",
     "    if listed is None:\n        return Refusal(17, 0)\n    if not is_ruleset(rs):\n        return Refusal(0, 0)\n", "lists"),
    ("17 of the entry before 2 and 1", "    if refused:\n        return refused\n    if not is_entry(name, phones):\n",
     "    if refused and is_entry(b'\\1', phones):\n        return refused\n    if not is_entry(name, phones):\n", "lists"),
    ("a name of no letters", "    return (1 <= len(name) <= MAX_NAME and", "    return (len(name) <= MAX_NAME and", "lists"),
    ("a phone 00", " and 0 not in phones)\n", ")\n", "lists"),
    ("63 phones at most", "MAX_LISTED_PHONES = 64\n", "MAX_LISTED_PHONES = 63\n", "lists"),
    ("65 phones", "MAX_LISTED_PHONES = 64\n", "MAX_LISTED_PHONES = 65\n", "lists"),
    ("the first phones stay", "        if before is not None:\n            self.count(name, before, -1)\n        if phones is not None:\n",
     "        if before is not None and phones is not None:\n            phones = before\n"
     "        if before is not None:\n            self.count(name, before, -1)\n        if phones is not None:\n", "lists"),
    ("states that are not shared", "        return max(1, len(self.prefixes))\n", "        return max(1, len(self.endings))\n", "monitor lists"),
    ("the start not counted", "        return max(1, len(self.prefixes))\n", "        return max(1, len(self.prefixes)) - 1\n", "lists"),
    ("states shared by other phones", "sign * digest(name[at:], phones)", "sign * digest(name[at:], b'')", "lists"),
    ("phones at a name's start", "    return int.from_bytes(blake2b(bytes([len(ending)]) + ending + phones,",
     "    return int.from_bytes(blake2b(bytes([len(ending)]) + ending + (phones if len(ending) > 1 else b''),", "lists"),
    ("states of removed names", "            self.count(name, before, -1)\n", "            pass\n", "lists"),
    ("1,001 names", "MAX_LISTED = 1_000 ", "MAX_LISTED = 1_001 ", "lists"),
    ("999 names at most", "MAX_LISTED = 1_000 ", "MAX_LISTED = 999 ", "lists"),
    ("4,097 states", "MAX_STATES = 4_096\n", "MAX_STATES = 4_097\n", "lists"),
    ("4,095 states at most", "MAX_STATES = 4_096\n", "MAX_STATES = 4_095\n", "lists"),
    ("a change refused by 19 stays", "    listed.put(name, before)\n", "    pass\n", "lists"),
    ("a removal is never too much", "    if listed.within():\n", "    if phones is None or listed.within():\n", "lists"),
    ("other phones are never too much", "    if listed.within():\n", "    if before and phones or listed.within():\n", "lists"),
    ("a prefix counts as listed", "    if name not in listed.phones:\n", "    if name not in listed.endings:\n", "lists"),
    ("continuations before the name", " in sorted(phones.items()))\n",
     " in sorted(phones.items(), key=lambda entry: entry[0] + b'\\x40'))\n", "lists"),
    ("short names first", " in sorted(phones.items()))\n",
     " in sorted(phones.items(), key=lambda entry: (len(entry[0]), entry[0])))\n", "lists"),
    ("15 one too many", "    return data if len(data) <= room else Refusal(15, len(data))\n",
     "    return data if len(data) < room else Refusal(15, len(data))\n", "lists"),
    ("more than 130,000 bytes lent", "min(room, LONGEST_READ_OUT)", "room & 0xFFFF", "lists"),
    ("bytes past the read-out cleared", "        self.told[:len(data)] = data\n",
     "        self.told[:] = data.ljust(LONGEST_READ_OUT, b'\\0')\n", "lists"),
    ("a refused read-out writes", "        if isinstance(data, Refusal):\n            return data\n        self.told",
     "        if isinstance(data, Refusal):\n            self.told[0] = 0\n            return data\n        self.told", "lists"),
    ("the read-out's last byte outside", "        if index + count > LONGEST_READ_OUT:\n",
     "        if index + count >= LONGEST_READ_OUT:\n", "lists"),
    ("a name without phones cut short", "        if len(data) < length:\n", "        if len(data) <= length:\n", "lists"),
    ("35,885 units suffice", "        if self.units < LIST_UNITS:\n", "        if self.units < LIST_UNITS - 1:\n", "lists"),
    # 17 of a list that is one.
    ("17 of the empty list", LENT, refused_if("not self.listed.phones"), "monitor lists"),
    ("17 of a listed name of 64 letters", LENT, refused_if("max(map(len, self.listed.phones), default=0) == MAX_NAME"), "lists"),
    ("17 of a name with 64 phones", LENT,
     refused_if("max(map(len, self.listed.phones.values()), default=0) == MAX_LISTED_PHONES"), "lists"),
    ("17 of 1,000 names", LENT, refused_if("len(self.listed.phones) == MAX_LISTED"), "lists"),
    ("17 of 4,096 states", LENT, refused_if("self.listed.states() == MAX_STATES"), "lists"),
    ("17 of a list from which a name is gone", "        return self.list_changed(unlist_name(self.lent_list(), name))\n",
     "        answer = self.list_changed(unlist_name(self.lent_list(), name))\n"
     "        if not isinstance(answer, Refusal):\n            self.listed = None\n        return answer\n", "lists"),
    # Lists stored over: the copy has no units, so that it refuses them all, takes them all or contradicts itself.
    ("every store refused", STORED, "        self.listed = None\n", "damaged"),
    ("no store noticed", STORED, "", "damaged"),
    ("what is stored over is emptied", STORED, "        self.listed = Exceptions()\n", "damaged"),
    ("what is stored over refused every other time", STORED,
     "        asked = []\n        self.lent_list = lambda: asked.append(1) or (None if len(asked) % 2 else self.listed)\n", "damaged"),
    ("what is stored over refused when it is emptied too", STORED, "        self.lent_list = lambda: None\n", "damaged"),
    ("a clear that empties the list too", "        self.hold(EMPTY)\n        return frame_line",
     "        self.hold(EMPTY)\n        self.listed = Exceptions()\n        return frame_line", "monitor"),
]


def faulty(old, new):
    with open(ref.__file__, encoding="utf-8") as file:
        text = file.read()
    if text.count(old) < 1:
        raise SystemExit(f"reference.py has no such line: {old!r}")
    module = types.ModuleType("faulty")
    exec(compile(text.replace(old, new), "faulty", "exec"), module.__dict__)
    return module


def shown_alone(module):
    """The first example of the documents that the copy fails, or None."""
    told = io.StringIO()
    try:
        with contextlib.redirect_stdout(told):
            failed = module.self_test()
    except Exception as error:
        return repr(error)
    return told.getvalue().removeprefix("FAILED ").partition(": got")[0] if failed else None


class Overheard(damaged.Conversation):
    """With a copy of the reference in place of a program."""

    def __init__(self, module):
        super().__init__(None, None)
        self.copy = module.Monitor()

    def ask(self, body, lines=1):
        return self.copy.answer(ref.frame_line(body)[:-1])


def shown_damaged(module, count):
    """What differs, or an outcome of a store that never comes up; None otherwise."""
    learned = collections.Counter()
    for seed in range(1, count + 1):
        talk = Overheard(module)
        if talk.talk(lists.stores(generate.Source(f"damaged {seed}"), talk.held)):
            return f"--seed {seed}"
        learned += talk.learned
    return ", ".join(f"not {what}" for what in damaged.missed(learned)) or None


def shows(module, kind, run):
    rules_hex, lines, expected = run
    try:
        return getattr(module, generate.PROGRAMS[kind])(rules_hex, b"".join(lines)) != expected
    except Exception:       # a fault that stops the copy shows too
        return True


def shown_by(module, kind, cases):
    """A run in which the fault shows, or None. It is tried first for the next fault: runs that show one often show another."""
    for k, (which, run) in enumerate(cases):
        if shows(module, kind, run):
            cases.insert(0, cases.pop(k))
            return which
    return None


def main():
    parser = argparse.ArgumentParser(description=__doc__, formatter_class=argparse.RawDescriptionHelpFormatter)
    parser.add_argument("--count", type=int, default=300)
    parser.add_argument("--seed", type=int, default=1)
    parser.add_argument("--only", metavar="TEXT", default="", help="only faults with this text in their name or their lines")
    given = parser.parse_args()
    counts = {kind: given.count // 10 if kind == "lists" else given.count for kind in generate.CASES}     # those are long
    cases = {kind: list(generate.runs(kind, count, given.seed)) for kind, count in counts.items()}
    passed = failed = 0
    for what, old, new, kinds in FAULTS:
        if given.only not in what + old:
            continue
        module = faulty(old, new)
        for kind in kinds.split():
            if kind == "alone":
                which = shown_alone(module)
            elif kind == "damaged":
                which = shown_damaged(module, damaged.ENOUGH)
            else:
                which = shown_by(module, kind, cases[kind])
            passed, failed = passed + (which is not None), failed + (which is None)
            print(f"{what}: " + (f"{kind}, {which}" if which is not None else f"NOT SHOWN by {kind}"), flush=True)
    print(f"{passed} passed, {failed} failed")
    return 1 if failed else 0


if __name__ == "__main__":
    sys.exit(main())
