#!/usr/bin/env python3
"""The benchmark's yardstick does the same work: bench/baseline.c compared with reference.py.

    python3 tests/baseline.py [--count N] [--seed S]
"""

import argparse
import ctypes as c
import os
import subprocess
import sys
import tempfile

import generate
import reference as ref
import stale

SOURCE = os.path.join(os.path.dirname(os.path.abspath(__file__)), "..", "bench", "baseline.c")


class Rule(c.Structure):
    _fields_ = [("number", c.c_uint16), ("lengths", c.c_uint8 * 4),
                *((name, c.c_uint8 * room) for name, room in zip(ref.Rule._fields, ref.ROOMS))]


class Literal(c.Structure):
    _fields_ = [("place", c.c_uint16), ("which", c.c_uint16)]


class Ruleset(c.Structure):
    _fields_ = [("count", c.c_uint16), ("last", c.c_uint16), ("total", c.c_uint16), ("edits", c.c_uint32),
                ("rules", Rule * 512), ("classes", c.c_uint64 * 32), ("literals", Literal * 512)]


class Spoken(c.Structure):
    _fields_ = [("phone_count", c.c_uint32), ("rule_count", c.c_uint32), ("steps", c.c_uint32),
                ("position", c.c_uint32), ("contested", c.c_uint32), ("phones", c.c_uint8 * 256), ("numbers", c.c_uint16 * 64)]


def given_to_c(rs):
    out = Ruleset(len(rs.rules), rs.last, ref.literal_total(rs), rs.edits)
    for symbol, letters in rs.classes:
        out.classes[symbol - ref.CLASS_SYMBOLS[0]] = sum(1 << letter for letter in letters)
    of_rules = ((place, which) for place, (_, rule) in enumerate(rs.rules) for which in range(ref.literal_count(rule, rs.classes)))
    for at, literal in enumerate(of_rules):
        out.literals[at] = literal
    for place, (number, rule) in enumerate(rs.rules):
        held = out.rules[place]
        held.number = number
        for k, (name, field) in enumerate(rule._asdict().items()):
            held.lengths[k] = len(field)
            getattr(held, name)[:len(field)] = field
    return out


def got_from_c(held):
    rules = []
    for rule in held.rules[:held.count]:
        fields = (bytes(getattr(rule, name))[:length]
                  for name, length in zip(("left", "target", "right", "phones"), rule.lengths))
        rules.append(ref.Numbered(rule.number, ref.Rule(*fields)))
    masks = b"".join(mask.to_bytes(8, "big") for mask in held.classes)
    return ref.Ruleset(tuple(rules), held.last, ref.classes_in(masks), held.edits)


def literals_of(held):
    return [(literal.place, literal.which) for literal in held.literals[:held.total]]


def answer(code, out):
    if code:
        return ref.Refusal(3, out.position)
    return ref.Spoken(bytes(out.phones[:out.phone_count]), tuple(out.numbers[:out.rule_count]), out.contested)


def compare(base, source, check, words, sets):
    rs = source.ruleset()._replace(edits=source.pick(stale.COUNTS))
    held = given_to_c(rs)
    base.base_build(c.byref(held), words, sets)
    built_words, built_sets = ref.build(rs, ref.MONITOR_WORDS, ref.MONITOR_SETS)
    check.equal("words", words[:len(built_words)], list(built_words))
    check.equal("sets", sets[:len(built_sets)], list(built_sets))
    out = Spoken()
    for _ in range(10):
        name = source.name(rs)
        if ref.name_refusal(name):
            continue
        wanted = ref.plain_reading(rs, name, 256, 64)
        code = base.base_walk(c.byref(held), words, sets, name, c.c_size_t(len(name)), c.byref(out))
        check.equal("walk", (answer(code, out), out.steps), (wanted, 2 * len(name) + 2))
        code = base.base_plain(c.byref(held), name, c.c_size_t(len(name)), c.byref(out))
        check.equal("plain", answer(code, out), wanted)
    later = given_to_c(rs._replace(edits=rs.edits ^ 1 << source.upto(31)))
    code = base.base_walk(c.byref(later), words, sets, b"", c.c_size_t(0), c.byref(out))
    check.equal("tables from before an edit", (code, out.steps, out.position), (-1, 0, 0))
    text = (c.c_uint8 * ref.LONGEST_FILE)()
    length = base.base_write(c.byref(held), text)
    check.equal("write", bytes(text[:length]), ref.file_text(rs))
    for data in (ref.file_text(rs), source.file(rs), source.file(rs)):
        back = Ruleset(edits=9)
        code = base.base_read(data, c.c_size_t(len(data)), c.byref(back))
        wanted = ref.read_file(data)
        check.equal("read", got_from_c(back) if code == 0 else None,
                    None if isinstance(wanted, ref.Refusal) else wanted)
        if code == 0:
            check.equal("literal rules", literals_of(back), literals_of(given_to_c(wanted)))


def main():
    parser = argparse.ArgumentParser(description=__doc__, formatter_class=argparse.RawDescriptionHelpFormatter)
    parser.add_argument("--count", type=int, default=50)
    parser.add_argument("--seed", type=int, default=1)
    given = parser.parse_args()
    check = ref.Check()
    with tempfile.TemporaryDirectory() as folder:
        library = os.path.join(folder, "baseline.so")
        subprocess.run(["gcc", "-O2", "-std=c11", "-Wall", "-Wextra", "-shared", "-fPIC", SOURCE, "-o", library],
                       check=True)
        base = c.CDLL(library)
        base.base_write.restype = c.c_size_t
        words, sets = (c.c_uint16 * ref.MONITOR_WORDS)(), (c.c_uint64 * ref.MONITOR_SETS)()
        for seed in range(given.seed, given.seed + given.count):
            compare(base, generate.Source(f"baseline {seed}"), check, words, sets)
    print(f"{check.passed} passed, {check.failed} failed")
    return 1 if check.failed else 0


if __name__ == "__main__":
    sys.exit(main())
