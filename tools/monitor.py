#!/usr/bin/env python3
"""Talks to the program `monitor` in text: one command a line in, its answer in words out.

    add P RULE                    e.g. add 0 # [k] n = 6B   (or add 0 # k n = 6B, - for an empty part)
    drop NUMBER                   move NUMBER P
    class SYMBOL LETTERS          sets a class, e.g. class \\40 a e i o u; then add 0 [k] \\40 = 63 (or <vowel>, where the --rules
                                  text names it so)
    read                          rules.hex of the working folder (or the --rules file)
    write [bytes=N]               build [words=N] [sets=N]
    say NAME [words=N] [sets=N] [phones=N] [numbers=N]      the walk through the tables
    plain NAME [phones=N] [numbers=N]                       the plain reading
    sheet NAME, NAME, .. [words=N] [sets=N] [phones=N] [numbers=N]      a whole transect by walk: names that begin alike share steps
    contested                     how many letters of the last name spoken were contested: more than one rule fits there
    store word INDEX VALUE        store set INDEX VALUE
    show words INDEX COUNT        show sets INDEX COUNT
    show phones                   show numbers
    force PLACE NUMBER COUNT LAST overwrites the number at a place, the count and last, unchecked
    edits                         the ruleset's edit count: how many additions, drops and moves were accepted
    edits COUNT                   overwrites it, unchecked; tables of another count are from before an edit
    clear                         the empty ruleset again, without classes, edit count 0
    exception NAME = PHONES       lists a name that follows no rule, e.g. exception knee = 6E 69 (a listed one's phones are replaced)
    remove NAME                   takes it off the list
    exceptions                    the list read out, as names with their phones
    readout [bytes=N]             only reads it out into the read-out's bytes
    show readout INDEX COUNT      shows some of them
    clear list                    the empty list again
    lend UNITS                    lends so many units of the list's memory from now on; lend all
    store unit INDEX VALUE        overwrites one of them, unchecked
    frame BYTES                   any bytes as a frame, the sum added
    line TEXT                     any text as a line, sound or not
    repeat N COMMAND              the same command N times, the last answer shown; @ in it stands for
                                  two letters (two phones behind =) that are others each time
    help                          quit

Numbers are decimal or 0x hexadecimal. All that is not lent by name=N is lent whole.
A space separates the words of a name; _ is one too, at an end or beside another.
\\40 in a name or rule stands for the byte 40. ; starts a comment.

    python3 tools/monitor.py --rules examples/six.hex
    printf 'read\\nbuild\\nsay knee\\n' | python3 tools/monitor.py --rules examples/six.hex
    printf 'say knee\\n' | python3 tools/monitor.py --frames        only print the frames (of `exceptions`, its first)
"""

import argparse
import contextlib
import re
import subprocess
import sys

import commands
import frames
import inputs
import programs
import ruletext
from frames import number_of
from inputs import Failure, Mistake

GREETING = "help lists the commands; Ctrl-D ends."


def shown_text(command, data):
    """An 0A frame: what the command asked for, and from which index."""
    kind = command[0]
    if kind == 0x27:
        return f"{number_of(data)} contested"
    if kind == 0x29:
        return f"edit count {number_of(data)}"
    width = {0x1A: 2, 0x1B: 8, 0x1C: 1, 0x1D: 2}.get(kind, 1)
    each = {1: 16, 2: 16, 8: 4}[width]
    start = number_of(command[1:5]) if kind in (0x1A, 0x1B, 0x23) else 0
    items = [data[k:k + width].hex().upper() for k in range(0, len(data), width)]
    alike = len(items)      # where the run of equal items at the end begins, if it is worth a line of its own
    while alike > 0 and items[alike - 1] == items[-1]:
        alike -= 1
    alike = alike if len(items) - alike > each else len(items)
    rows = [f"{start + k}: {' '.join(items[k:min(k + each, alike)])}" for k in range(0, alike, each)]
    if alike < len(items):
        rows.append(f"{start + alike} to {start + len(items) - 1}: {items[-1]} each")
    return "\n".join(rows) or "nothing"


def done_text(kind, data):
    """An 06 frame: what the command tells of what it did."""
    fields = [number_of(data[k:k + 2]) for k in range(0, len(data), 2)]
    if kind == 0x22:
        return f"done, {number_of(data)} bytes"
    if kind == 0x2B:
        return f"done, {number_of(data[:4])} steps, {number_of(data[4:])} names"
    if len(fields) == 2 and kind == 0x15:
        lefts, rights = fields
        states = lefts + rights
        return f"done, {lefts} left and {rights} right states, {4 + 64 * states} words, {8 * states} set words"
    if len(fields) == 2:
        return f"done, names {fields[0]}, states {fields[1]}"
    return "done" + (f", last {fields[0]}" if fields else "")


def listed_text(data, alphabet):
    """A read-out: each name with its phones on a line."""
    rows = []
    while data:
        name, data = counted_bytes(data)
        phones, data = counted_bytes(data)
        rows.append(f"{alphabet.text(name)} = {frames.phones_text(phones, alphabet)}")
    return "\n".join(rows) or "no names"


def counted_bytes(data):
    """(the bytes that a length byte tells, what follows them)."""
    if not data or len(data) <= data[0]:
        raise Failure("a read-out that is cut off")
    return data[1:1 + data[0]], data[1 + data[0]:]


def answer_text(sent, answer, alphabet):
    body = frames.body_of(answer)
    try:
        command = frames.body_of(sent)
    except Failure:                     # an unsound line was sent on purpose
        command = b"\0"
    if body[0] == 0x06:
        return done_text(command[0], body[1:])
    if body[0] == 0x0A:
        return shown_text(command, body[1:])
    return frames.answer_text(answer, alphabet)


def exchanged(child, sent):
    """Sends one line and reads its answer's first."""
    try:
        child.stdin.write(sent)
        child.stdin.flush()
    except BrokenPipeError:
        with contextlib.suppress(BrokenPipeError):
            child.stdin.close()         # drops what could not be sent
        raise Failure("the program has ended") from None
    return answer_line(child)


def converse(child, text, alphabet):
    """Sends one command and reads its whole answer."""
    sent = commands.line_for(text, alphabet)
    answer = exchanged(child, sent)
    if text == "exceptions" and answer.startswith(b"06"):
        asked = commands.read_out_lines(number_of(frames.body_of(answer)[1:]))
        return listed_text(b"".join(frames.body_of(exchanged(child, line))[1:] for line in asked), alphabet)
    if text.split()[0] == "sheet" and answer.startswith(b"06"):
        count = number_of(frames.body_of(answer)[5:])
        return "\n".join([answer_text(sent, answer, alphabet), *(frames.sheet_text(answer_line(child), alphabet) for _ in range(count))])
    if not answer.startswith(b"01"):
        return answer_text(sent, answer, alphabet)
    return (answer + rest_of_file(child)).decode().rstrip("\n")


def rest_of_file(child):
    """The lines of a file after its head, which does not count the classes: nothing is asked to be shown, and its answer ends them."""
    line, lines = exchanged(child, commands.SHOW_NOTHING), []
    while line != commands.NOTHING_SHOWN:
        lines.append(line)
        line = answer_line(child)
    return b"".join(lines)


def answer_line(child):
    line = child.stdout.readline()
    if not line:
        raise Failure("the program has ended")
    return line


def obey(child, text, alphabet):
    """One command as typed, to its last answer."""
    if text == "help":
        return re.sub(r"(?s)\n    python3.*", "", __doc__.partition("\n\n")[2])
    answers = [converse(child, command, alphabet) for command in commands.repeated(text)]
    return answers[-1] if answers else ""


def talk(child, alphabet):
    """Commands to their answers. What comes from a pipe is shown, so that the output reads as a conversation.

    The exit status: a mistake at the terminal is mended there, one in a pipe is told at the end too.
    """
    status = 0
    for number, line in inputs.input_lines(GREETING):
        try:
            text = inputs.decoded_line(number, line)
            if text and not inputs.at_terminal():
                print(f"> {text}")
            if text == "quit":
                break
            if text:
                print(obey(child, text, alphabet), flush=True)
        except Failure:
            raise
        except Mistake as mistake:
            print(f"monitor: {mistake}", flush=True)
            status = Mistake.status
    return 0 if inputs.at_terminal() else status


def print_frames(alphabet):
    for number, line in inputs.input_lines(GREETING):
        text = inputs.decoded_line(number, line)
        if text:
            try:
                for command in commands.repeated(text):
                    sys.stdout.buffer.write(commands.line_for(command, alphabet))
            except Mistake as mistake:
                raise Mistake(f"standard input: line {number}: {mistake}") from None


def main():
    parser = argparse.ArgumentParser(description=__doc__, epilog=inputs.STATUSES,
                                     formatter_class=argparse.RawDescriptionHelpFormatter)
    parser.add_argument("--rules", metavar="FILE", help="what `read` finds: a rule file, NAME.hex, or readable rules "
                                                        "(tools/rules2hex.py --help); default: the folder's rules.hex")
    parser.add_argument("--program", metavar="PATH", help="what to run; default: crates/monitor/out/monitor")
    parser.add_argument("--frames", action="store_true", help="print each command's line, start no program")
    given = parser.parse_args()
    alphabet, rule_file = ruletext.load_rules(given.rules) if given.rules else (ruletext.Alphabet(), None)
    if given.frames:
        return print_frames(alphabet)
    command = programs.command(given.program, "monitor")
    with programs.folder_with(rule_file) if given.rules else contextlib.nullcontext() as folder:
        with subprocess.Popen(command, cwd=folder, stdin=subprocess.PIPE, stdout=subprocess.PIPE) as child:
            return talk(child, alphabet)


if __name__ == "__main__":
    inputs.run(main, "monitor")
