"""How far a proof has come, on standard error: one line that is rewritten at a terminal, elsewhere a line for each quarter."""

import re
import sys
import threading
import time

# Seconds that the crates of `say` and `monitor` took in one run from nothing, by an older toolchain. Only their proportions count; a crate
# that is not here counts as the mean.
SECONDS = {
    "numbers": 5, "rules": 13, "rule_bytes": 12, "classes": 15, "image": 25, "automaton": 4, "states": 19, "compaction": 10, "packing": 3,
    "minimality": 12, "measures": 7, "phone_strings": 8, "exceptions": 12, "change": 16, "readout": 10, "slots": 10, "edits": 15,
    "fitting": 8, "speech": 12, "reading": 17, "tables": 3, "literals": 5, "side": 16, "count": 11, "patterns": 8, "build": 21,
    "passes": 14, "prefix_tree": 15, "sheet_passes": 13, "table_reading": 15, "walk": 17, "compiled": 15, "many_names": 12, "sheet_name": 17,
    "sheet_judging": 12, "sheet_answers": 15, "sheet": 30, "frames": 13, "file_format": 3, "file": 40, "lines": 4,
    "answer_lines": 7, "transcript": 10, "rules_hex": 3, "say": 43, "command_parts": 23, "sheet_lines": 12, "sheet_command": 20, "commands": 67, "list_commands": 22,
    "monitor": 56,
}

# rt's lines: one where it begins to prove a crate, which it does once all below the crate are built, and two at the end of the proof. Of what
# was built before it tells nothing.
BEGUN = re.compile(r"rt: chose --jobs \d+ for (\w+)$")
CHECKED = re.compile(r"crate (\w+): modules loaded=\d+ checked=(\d+)$")      # none: the proof was kept
PROVED = "logic=proved "
TICK = 1            # seconds
QUARTERS = 4


def weight(crate):
    return SECONDS.get(crate, sum(SECONDS.values()) / len(SECONDS))


def duration(seconds):
    seconds = round(seconds)
    return f"{seconds} s" if seconds < 90 else f"{seconds // 60} min {seconds % 60} s"


def roughly(seconds):
    """To the next ten seconds, from a minute and a half on to the nearest minute."""
    return f"{-(-seconds // 10) * 10:.0f} s" if seconds < 90 else f"{seconds / 60:.0f} min"


class Count:
    """Which of the crates are proved, by rt's lines, and how long the others may take. Each crate comes with those below it."""

    def __init__(self, below, clock=time.monotonic):
        self.below, self.waiting, self.clock = below, set(below), clock
        self.begun = clock()
        self.checked = None, False      # the crate whose proof ended last, and whether it took time
        self.worked = 0         # the weight of the crates proved in this run; those unchanged took no time
        self.ends = None        # when all may be proved

    @property
    def crates(self):
        return len(self.below)

    @property
    def proved(self):
        return self.crates - len(self.waiting)

    def hear(self, line):
        line = line.rstrip()
        if told := BEGUN.match(line):
            self.waiting -= self.below.get(told[1], set())
        elif told := CHECKED.match(line):
            self.checked = told[1], told[2] != "0"
        elif line.startswith(PROVED):
            self.finish(*self.checked)

    def finish(self, crate, took_time):
        if crate not in self.waiting:
            return
        self.waiting -= {crate, *self.below[crate]}
        if took_time:
            self.worked += weight(crate)
        if self.worked:
            now = self.clock()
            self.ends = now + (now - self.begun) * sum(map(weight, self.waiting)) / self.worked

    def text(self):
        now = self.clock()
        text = f"{self.proved} of {self.crates} crates proved in {duration(now - self.begun)}"
        left = self.ends - now if self.waiting and self.ends else 0
        return f"{text}, about {roughly(left)} left" if left > 0 else text


class Progress(threading.Thread):
    """Shows a count while it runs: with `with`. Nothing is shown before `patience` seconds have passed, and nothing if it is over then."""

    def __init__(self, headline, below, patience):
        super().__init__(daemon=True)
        self.headline, self.patience = headline, patience
        self.count, self.over = Count(below), threading.Event()
        self.begun = False
        self.rewrites = sys.stderr.isatty()
        self.shown = 0          # of a terminal's line its length, elsewhere the quarters told

    def run(self):
        if not self.begun:
            if self.over.wait(self.patience):
                return
            self.begin()
        while not self.over.wait(TICK):
            self.show()

    def begin(self):
        self.begun = True
        self.tell(self.headline + "\n")

    def tell(self, text):
        print(text, end="", file=sys.stderr, flush=True)

    def show(self):
        text, quarters = self.count.text(), QUARTERS * self.count.proved // self.count.crates
        if self.rewrites:
            self.tell("\r" + text.ljust(self.shown))
            self.shown = len(text)
        elif quarters > self.shown and self.count.waiting:
            self.tell(text + "\n")
            self.shown = quarters

    def __enter__(self):
        if not self.patience:
            self.begin()        # before rt's first line
        self.start()
        return self

    def __exit__(self, *_):
        """The last line stays: how many were proved, in how long."""
        self.over.set()
        self.join()
        self.count.ends = None
        if self.begun and self.rewrites:
            self.show()
            self.tell("\n")
        elif self.begun and not self.count.waiting:
            self.tell(self.count.text() + "\n")
