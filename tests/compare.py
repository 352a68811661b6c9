#!/usr/bin/env python3
"""Runs a program on whole runs, fixed and random, and compares its output with reference.py's, byte for byte.

    python3 tests/compare.py PROGRAM say --count 500 --seed 1
    python3 tests/compare.py PROGRAM monitor --count 200 --seed 1 --converse
    python3 tests/compare.py PROGRAM lists --count 40 --seed 1      `monitor` on the exceptions list: long conversations, its limits

PROGRAM is a path or a command in quotes. A failing run is made smaller (input lines, then rules)
before it is printed. --pieces hands standard input over in small parts; --converse (monitor)
waits for each answer before it sends the next line, so an answer that is held back is a failure.
"""

import argparse
import os
import random
import shlex
import subprocess
import sys
import tempfile
import threading
import time

import generate
import reference as ref

class Runner:
    def __init__(self, command, program, manner, limit):
        self.command, self.program, self.manner, self.limit = command, program, manner, limit

    def expected(self, rules_hex, lines):
        return getattr(ref, self.program)(rules_hex, b"".join(lines))

    def run(self, rules_hex, lines):
        """Standard output in a folder of its own, or a text that says what went wrong."""
        with tempfile.TemporaryDirectory() as folder:
            if rules_hex is not None:
                with open(os.path.join(folder, "rules.hex"), "wb") as file:
                    file.write(rules_hex)
            if self.manner == "whole":
                try:
                    done = subprocess.run(self.command, cwd=folder, input=b"".join(lines),
                                          capture_output=True, timeout=self.limit)
                except subprocess.TimeoutExpired:
                    return f"did not end within {self.limit} s"
                # No document gives exit codes; a signal is a fault.
                return done.stdout if done.returncode >= 0 else f"ended by signal {-done.returncode}"
            with subprocess.Popen(self.command, cwd=folder, stdin=subprocess.PIPE,
                                  stdout=subprocess.PIPE, stderr=subprocess.DEVNULL, bufsize=0) as child:
                stop = threading.Timer(self.limit, child.kill)
                stop.start()
                try:
                    talk = self.converse if self.manner == "converse" else self.in_pieces
                    out = talk(child, rules_hex, lines)
                    code = child.wait()
                finally:
                    stop.cancel()
                return out if code >= 0 else f"ended by signal {-code} (9: not ended after {self.limit} s)"

    def in_pieces(self, child, rules_hex, lines):
        """A pipe that delivers a few bytes at a time. `say` need not read on after bad rules."""
        out = []
        reader = threading.Thread(target=lambda: out.append(child.stdout.read()))
        reader.start()
        data, at, pieces = b"".join(lines), 0, random.Random(len(lines))
        try:
            while at < len(data):
                size = pieces.choice([1, 1, 2, 7, 61])
                child.stdin.write(data[at:at + size])
                at += size
                if pieces.random() < 0.05:
                    time.sleep(0.001)
        except BrokenPipeError:
            pass
        child.stdin.close()
        reader.join()
        return out[0]

    def converse(self, child, rules_hex, lines):
        held, out = ref.Monitor(rules_hex), b""
        for line in lines:
            try:
                child.stdin.write(line)
            except BrokenPipeError:
                return out
            if not line.endswith(b"\n"):
                break
            for _ in range(held.answer(line[:-1]).count(b"\n")):
                answer = child.stdout.readline()
                if not answer:
                    return out
                out += answer
        child.stdin.close()
        return out + child.stdout.read()


def fails(runner, rules_hex, lines):
    """(expected, got) where they differ; None where equal or where nothing is prescribed."""
    try:
        expected = runner.expected(rules_hex, lines)
    except ref.Unspecified:
        return None
    got = runner.run(rules_hex, lines)
    return None if got == expected else (expected, got)


def smaller(items, still_fails, tries):
    """Drops ever smaller runs of items while what is left still fails."""
    size = max(1, len(items) // 2)
    while items and size and tries > 0:
        at = 0
        while at < len(items) and tries > 0:
            rest = items[:at] + items[at + size:]
            tries -= 1
            if still_fails(rest):
                items = rest
            else:
                at += size
        size //= 2
    return items


def shorter_name(runner, rules_hex, lines):
    """Where one sound name line is left, with fewer letters."""
    body = ref.sound(lines[0][:-1]) if len(lines) == 1 else None
    if runner.program != "say" or body is None:
        return lines
    line = lambda letters: [ref.frame_line(body[:1] + bytes(letters))]
    return line(smaller(list(body[1:]), lambda some: fails(runner, rules_hex, line(some)), 200))


def minimal(runner, rules_hex, lines):
    lines = smaller(lines, lambda some: fails(runner, rules_hex, some), 400)
    lines = shorter_name(runner, rules_hex, lines)
    rs = ref.read_file(rules_hex) if rules_hex is not None else None
    if isinstance(rs, ref.Ruleset):
        rewritten = lambda rules: ref.file_text(rs._replace(rules=tuple(rules)))
        rules = smaller(list(rs.rules), lambda some: fails(runner, rewritten(some), lines), 400)
        rules_hex = rewritten(rules)
        lines = shorter_name(runner, rules_hex, lines)
    return rules_hex, smaller(lines, lambda some: fails(runner, rules_hex, some), 200)


def clipped(data, width=160, most=30):
    if isinstance(data, str):
        return "    (" + data + ")"
    lines = generate.split_lines(data)
    shown = ["    " + (repr(l)[2:-1] if len(l) <= width else repr(l[:width])[2:-1] + f".. ({len(l)} bytes)")
             for l in lines[:most]]
    return "\n".join(shown + ([f"    .. {len(lines)} lines in all"] if len(lines) > most else [])) or "    (nothing)"


def report(runner, which, rules_hex, lines, save):
    rules_hex, lines = minimal(runner, rules_hex, lines)
    expected, got = fails(runner, rules_hex, lines) or (b"", "not the same twice")
    print(f"FAILED: {which}\n  rules.hex" + (":" if rules_hex is not None else ": missing"))
    if rules_hex is not None:
        print(clipped(rules_hex))
    for what, data in [("standard input", b"".join(lines)), ("expected", expected), ("got", got)]:
        print(f"  {what}:\n{clipped(data)}")
    if save:
        os.makedirs(save, exist_ok=True)
        files = {"rules.hex": rules_hex, "stdin": b"".join(lines), "expected": expected,
                 "got": got.encode() if isinstance(got, str) else got}
        for name, data in files.items():
            if data is not None:
                with open(os.path.join(save, name), "wb") as file:
                    file.write(data)


def main():
    parser = argparse.ArgumentParser(description=__doc__, formatter_class=argparse.RawDescriptionHelpFormatter)
    parser.add_argument("command", metavar="PROGRAM")
    parser.add_argument("kind", choices=list(generate.CASES))
    parser.add_argument("--count", type=int, default=100)
    parser.add_argument("--seed", type=int, default=1)
    parser.add_argument("--pieces", action="store_true")
    parser.add_argument("--converse", action="store_true")
    parser.add_argument("--limit", type=float, default=30, help="seconds a run may take")
    parser.add_argument("--save", metavar="DIR", help="where to put the minimal failing case")
    given = parser.parse_args()
    command = [os.path.abspath(part) if os.path.exists(part) else part for part in shlex.split(given.command)]
    program = generate.PROGRAMS[given.kind]
    if given.converse and program == "say":
        parser.error("--converse is for monitor: say judges its whole input first")
    manner = "converse" if given.converse else "pieces" if given.pieces else "whole"
    runner = Runner(command, program, manner, given.limit)
    passed = 0
    for which, (rules_hex, lines, expected) in generate.runs(given.kind, given.count, given.seed):
        if runner.run(rules_hex, lines) != expected:
            report(runner, which, rules_hex, lines, given.save)
            print(f"{passed} passed, 1 failed")
            return 1
        passed += 1
    print(f"{passed} passed, 0 failed")
    return 0 if passed else 1


if __name__ == "__main__":
    sys.exit(main())
