#!/usr/bin/env python3
"""The monitor with its exceptions list's memory stored over (command 26), held to what it then reads out.

    python3 tests/damaged.py crates/monitor/out/monitor --count 40 --seed 1

After each store the read-out decides: refused with 17, the memory is no list and every call that it is lent to must refuse it so;
accepted, it must tell a list within the limits, and every answer from then on must be the one that the reference gives with that list.
Whether 17 is right of the units themselves, tests/library judges by their layout. A failing conversation is made smaller before it is
printed. Each outcome of a store must come up: refused, the same list, another list.
"""

import argparse
import collections
import os
import shlex
import subprocess
import sys
import tempfile
import threading

import compare
import generate
import lists
import reference as ref


REFUSED, SAME, OTHER = OUTCOMES = "refused", "the same list", "another list"
ENOUGH = 30         # conversations that bring up every outcome; fewer are conversations repeated


class Differs(Exception):
    """What was sent, what had to come, what came."""


class Conversation:
    """One program and the reference, line by line."""

    def __init__(self, command, limit):
        self.command, self.limit = command, limit
        self.held = ref.Monitor()
        self.sent = []                          # without what was asked to learn the list
        self.learned = collections.Counter()

    def run(self, bodies):
        """What differed, or None. The bodies may be made while it runs."""
        with tempfile.TemporaryDirectory() as folder, subprocess.Popen(
                self.command, cwd=folder, stdin=subprocess.PIPE, stdout=subprocess.PIPE, stderr=subprocess.DEVNULL, bufsize=0) as self.child:
            stop = threading.Timer(self.limit, self.child.kill)
            stop.start()
            try:
                return self.talk(bodies)
            finally:
                stop.cancel()
                self.child.kill()

    def talk(self, bodies):
        try:
            for body in bodies:
                self.sent.append(body)
                self.send(body)
        except Differs as differs:
            return differs.args

    def ask(self, body, lines=1):
        try:
            self.child.stdin.write(ref.frame_line(body))
        except BrokenPipeError:
            return b""
        return b"".join(self.child.stdout.readline() for _ in range(lines))

    def send(self, body):
        before = self.held.listed
        wanted = self.held.answer(ref.frame_line(body)[:-1])
        self.expect(body, wanted, self.ask(body, wanted.count(b"\n")))
        if self.held.listed is ref.UNKNOWN and self.held.units == ref.LIST_UNITS:
            self.learn()
            self.learned[outcome(before, self.held.listed)] += 1

    def expect(self, body, wanted, got):
        if got != wanted:
            raise Differs(body, wanted, got)

    def learn(self):
        body = lists.reading_out()
        answer = self.ask(body)
        if answer == ref.refusal_line(ref.Refusal(17, 0)):
            self.held.listed = None
            return
        told = ref.sound(answer[:-1])
        if told is None or told[0] != 0x06 or len(told) != 5:
            raise Differs(body, b"06 and the bytes written, or refusal 17", answer)
        size = int.from_bytes(told[1:], "big")
        if size > ref.LONGEST_READ_OUT:
            raise Differs(body, b"at most 130,000 bytes", answer)
        data = b""
        for shown in lists.showing_all(size):
            told = ref.sound(self.ask(shown)[:-1]) or b"\0"
            data += told[1:]
        self.held.listed = ref.listed_in(data) if len(data) == size else None
        if self.held.listed is None:
            raise Differs(body, b"a read-out of names in order, each once, within the limits", data)
        self.held.told[:size] = data


def outcome(before, after):
    """What a store did to the list that stood there."""
    if after is None:
        return REFUSED
    if isinstance(before, ref.Exceptions) and before.phones == after.phones:
        return SAME
    return OTHER


def missed(learned):
    return [what for what in OUTCOMES if not learned[what]]


def fails(command, limit, bodies):
    return Conversation(command, limit).run(bodies)


def report(command, limit, which, bodies):
    bodies = compare.smaller(bodies, lambda some: fails(command, limit, some), 300)
    sent, wanted, got = fails(command, limit, bodies) or (b"", b"", b"not the same twice")
    print(f"FAILED: {which}\n  lines, each store followed by a read-out:")
    print(compare.clipped(b"".join(map(ref.frame_line, bodies)), most=60))
    for what, data in [("at", ref.frame_line(sent)), ("wanted", wanted), ("got", got)]:
        print(f"  {what}:\n{compare.clipped(data)}")


def main():
    parser = argparse.ArgumentParser(description=__doc__, formatter_class=argparse.RawDescriptionHelpFormatter)
    parser.add_argument("command", metavar="PROGRAM")
    parser.add_argument("--count", type=int, default=40)
    parser.add_argument("--seed", type=int, default=1)
    parser.add_argument("--limit", type=float, default=30, help="seconds a conversation may take")
    given = parser.parse_args()
    command = [os.path.abspath(part) if os.path.exists(part) else part for part in shlex.split(given.command)]
    learned = collections.Counter()
    for seed in range(given.seed, given.seed + given.count):
        talk = Conversation(command, given.limit)
        if talk.run(lists.stores(generate.Source(f"damaged {seed}"), talk.held)):
            report(command, given.limit, f"--seed {seed}", talk.sent)
            print(f"{seed - given.seed} passed, 1 failed")
            return 1
        learned += talk.learned
    print("stores: " + ", ".join(f"{learned[what]} {what}" for what in OUTCOMES))
    wanting = missed(learned) if given.count >= ENOUGH else []
    print(f"{given.count} passed, 0 failed" + "".join(f"; no store gave this: {what}" for what in wanting))
    return 1 if wanting or not learned else 0


if __name__ == "__main__":
    sys.exit(main())
