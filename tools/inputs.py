"""What the tools read, and how they end: files, standard input, the terminal, mistakes without a trace.

Exit status of every tool: 0 done; 1 a program or its proof failed; 2 something given cannot be used.
"""

import itertools
import os
import sys

STATUSES = "exit status: 0 done; 1 a program or its proof failed; 2 something given cannot be used, with a line that says what"


class Mistake(Exception):
    """Something given cannot be used. `at` is its place in the text that was read, where it has one."""

    status = 2

    def __init__(self, what, at=None):
        super().__init__(what)
        self.at = at


class Failure(Mistake):
    """A program or its proof failed."""

    status = 1


def run(main, name):
    """A tool's main: mistakes in one line, and no complaint when `head` has read enough."""
    for stream in (sys.stdout, sys.stderr):
        stream.reconfigure(errors="backslashreplace")       # sounds may have no code where the terminal is not UTF-8
    try:
        status = main()
        sys.stdout.flush()
    except BrokenPipeError:
        os.dup2(os.open(os.devnull, os.O_WRONLY), sys.stdout.fileno())
        status = Failure.status
    except KeyboardInterrupt:
        status = 130                                        # as a shell has it: 128 and SIGINT
    except Mistake as mistake:
        status = told(f"{name}: {mistake}", mistake.status)
    except OSError as error:
        status = told(": ".join(filter(None, (name, error.filename, error.strerror))), Mistake.status)
    sys.exit(status)


def told(message, status):
    sys.stdout.flush()
    print(message, file=sys.stderr)
    return status


# Text ------------------------------------------------------------------------

def place_in(text, at, first=1):
    """A place in a text as people count, from 1; `first` is the number of its first line."""
    return f"line {text.count(chr(10), 0, at) + first}, column {at - text.rfind(chr(10), 0, at)}"


def with_one_line_end(text):
    return text.replace("\r\n", "\n").replace("\r", "\n")


def decoded(data, source, first=1):
    """UTF-8 as text, with or without the mark that some editors put first."""
    try:
        return with_one_line_end(data.decode("utf-8-sig"))
    except UnicodeDecodeError as error:
        before = with_one_line_end(error.object[:error.start].decode("utf-8"))
        place = place_in(before, len(before), first)
        raise Mistake(f"{source}: {place}: byte {error.object[error.start]:02X} is not UTF-8") from None


def without_comment(line):
    return line.split(";")[0].strip()


# Files and standard input ------------------------------------------------------

def read_bytes(path):
    with open(path, "rb") as file:
        return file.read()


def read_text(path):
    return decoded(read_bytes(path), path)


def standard_input():
    if sys.stdin is None:
        raise Mistake("standard input is closed")
    return sys.stdin.buffer


def read_input():
    return decoded(standard_input().read(), "standard input")


def at_terminal():
    return standard_input().isatty()


def input_lines(greeting):
    """(number, bytes) of each line of standard input as it comes; at a terminal each is asked for.

    Bytes, since a line that is not UTF-8 must not end the lines after it: `decoded_line` makes text of them.
    """
    if at_terminal():
        print(greeting, file=sys.stderr)
    for number in itertools.count(1):
        if at_terminal():
            sys.stdout.flush()
            print("> ", end="", file=sys.stderr, flush=True)
        line = standard_input().readline()
        if not line:
            if at_terminal():
                print(file=sys.stderr)
            return
        yield number, line


def decoded_line(number, line):
    return without_comment(decoded(line, "standard input", number))
