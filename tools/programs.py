"""The proved programs: where they are, how they are proved and built, and the folder that they run in."""

import contextlib
import os
import shlex
import subprocess
import sys
import tempfile

import progress
from inputs import Failure, Mistake

ROOT = os.path.dirname(os.path.dirname(os.path.realpath(__file__)))
LIBRARY = "host"    # the crate that is no program
PATIENCE = 10       # seconds; a program that was proved before is looked through in a few
LIBRARY_PATIENCE = 30       # the library is built anew, of proofs that were kept


def example(name):
    return os.path.join(ROOT, "examples", name)


def folder_of(name):
    return os.path.join(ROOT, "crates", name)


def built(name):
    """Where a proved program is linked to, or the library that hosts link."""
    return os.path.join(folder_of(name), "out", f"lib{name}.a" if name == LIBRARY else name)


def verb(name):
    """What has rt prove and build it, in its folder."""
    return "lib" if name == LIBRARY else "run"


def command(text, name):
    """A program as a path or, where it is none, as a command line; none given: the one that was built."""
    text = text or built(name)
    if os.path.exists(text):
        return [os.path.abspath(text)]
    parts = shlex.split(text)
    if len(parts) < 2:
        raise Mistake(f"no program at {text}: `rt {verb(name)}` in {folder_of(name)} proves and builds it, or name one with --program")
    return [os.path.abspath(part) if os.path.exists(part) else part for part in parts]


def crates_of(name):
    """The crates of this project that a program needs, itself among them, by crates.txt."""
    with open(os.path.join(ROOT, "crates.txt"), encoding="utf-8") as file:
        lines = [line.split("#")[0].partition(":") for line in file]
    needs = {crate.split()[0]: rest.split() for crate, _, rest in lines if crate.strip()}     # staticlib may stand behind the name
    found, waiting = {name}, [name]
    while waiting:
        more = set(needs.get(waiting.pop(), [])) & needs.keys() - found     # the others are the toolchain's
        found |= more
        waiting += more
    return found


def prove(name):
    """Proves and builds a program, which rt then runs once, without rules and without input. What was proved before is not proved again,
    and nothing is said."""
    below = {crate: crates_of(crate) - {crate} for crate in crates_of(name)}
    patience = (LIBRARY_PATIENCE if name == LIBRARY else PATIENCE) if os.path.exists(built(name)) else 0
    headline = f"Proving and building `{name}` from its sources. This is done once and takes some minutes."
    try:
        child = subprocess.Popen(["rt", verb(name)], cwd=folder_of(name), stdin=subprocess.DEVNULL, stdout=subprocess.PIPE,
                                 stderr=subprocess.STDOUT, text=True, errors="backslashreplace")
    except FileNotFoundError:
        raise Mistake("`rt`, the Rattle toolchain, is not on the PATH; tools/speak.py needs none where "
                      f"{built(name)} was built before") from None
    lines = []
    with child, progress.Progress(headline, below, patience) as shown:
        for line in child.stdout:
            lines.append(line)
            shown.count.hear(line)
    if child.returncode:
        sys.stderr.writelines(lines)
        raise Failure(f"`{name}` is not proved: rt {verb(name)} ended with {child.returncode}")
    if not os.path.exists(built(name)):
        raise Failure(f"rt {verb(name)} ended well, but {built(name)} is not there: remove {os.path.dirname(built(name))} and try again")


def linked(source, folder):
    """A program of tools/, compiled and linked with the library into a folder, as a command."""
    library = os.environ.get("PIRROZKETA_LIBRARY") or built(LIBRARY)
    if not os.path.exists(library):
        raise Mistake(f"no library at {library}: `rt {verb(LIBRARY)}` in {folder_of(LIBRARY)} proves and builds it, or name a program with --program")
    program, compiler = os.path.join(folder, "linked"), os.environ.get("CC") or "gcc"
    try:
        done = subprocess.run([compiler, "-O2", "-I", os.path.join(ROOT, "host"), os.path.join(ROOT, "tools", source), library, "-o", program])
    except FileNotFoundError:
        raise Mistake(f"no C compiler {compiler}") from None
    if done.returncode:
        raise Failure(f"{source} is not compiled")
    return [program]


@contextlib.contextmanager
def folder_with(rule_file):
    """The programs read rules.hex of their working folder, so they get a folder of their own."""
    with tempfile.TemporaryDirectory() as folder:
        with open(os.path.join(folder, "rules.hex"), "wb") as file:
            file.write(rule_file)
        yield folder
