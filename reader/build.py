"""The programs, proved and built by `rt run`, and what is said while that goes on."""

import os
import re
import select
import shutil
import subprocess
import time

from reader.failure import Failure
from reader.programs import started

QUIET = 2.0  # seconds: what takes no longer is not spoken of
LAST_LINES = 20  # of the log, where a proof fails

CHECKED = re.compile(r"crate (\S+): modules loaded=.*")
PROVED = re.compile(r"logic=proved .*")
RUNS = re.compile(r"rt: running out/(\S+);.*")


def reached(table, programs):
    """The crates of crates.txt that the programs stand on, themselves among them, in rt's order: each behind those that it uses."""
    needs, found = {}, []
    for line in table.splitlines():
        name, colon, needed = line.split("#", 1)[0].partition(":")
        if colon:
            needs[name.strip()] = needed.split()

    def add(name):
        if name in needs and name not in found:
            for needed in needs[name]:
                add(needed)
            found.append(name)

    for name in programs:
        add(name)
    return found


def about(seconds):
    return f"about {round(seconds)} s" if seconds < 90 else f"about {round(seconds / 60)} min"


class Progress:
    """What is said as crates are done. Time is taken from a clock, so that tests can set it."""

    def __init__(self, programs, crates, first, say, clock):
        self.crates, self.say, self.clock = crates, say, clock
        self.began = self.last = clock()
        self.name, self.proved = None, 0
        self.title = f"proving and building {' and '.join(programs)}, {len(crates)} crates"
        self.told = False
        if first:
            self.title += "; this first time takes minutes"
            self.tell()

    def tell(self):
        """Says once that something is being proved."""
        if not self.told:
            self.say(f"run: {self.title}")
            self.told = True

    def waited(self):
        """No line came for a while, so a crate is being proved: an unchanged one takes no time."""
        self.tell()

    def line(self, text):
        """Takes a line of rt's. Of a crate that is unchanged it says nothing; it takes them in their order."""
        if match := CHECKED.fullmatch(text):
            self.name = match[1]
        elif PROVED.fullmatch(text) and self.name in self.crates:
            now = self.clock()
            seconds, self.last = now - self.last, now
            self.proved += 1
            if self.told or now - self.began > QUIET:
                self.tell()
                done = self.crates.index(self.name) + 1
                self.say(f"[{done}/{len(self.crates)}] {self.name}, {round(seconds)} s{self.rest(len(self.crates) - done)}")
            self.name = None

    def rest(self, left):
        """How many are left, and how long they take at the pace of those proved so far."""
        if not left:
            return ""
        pace = (self.clock() - self.began) / self.proved
        return f"; {left} left, {about(left * pace)}"


def lines_of(pipe):
    """The lines of a pipe as they come; None whenever none came for a while."""
    cut = b""
    while True:
        ready, _, _ = select.select([pipe], [], [], QUIET)
        if not ready:
            yield None
            continue
        part = os.read(pipe.fileno(), 65_536)
        if not part:
            return
        *whole, cut = (cut + part).split(b"\n")
        yield from (line.decode(errors="replace") for line in whole)


def follow(command, folder, given, log, progress):
    """Runs rt to its end in a crate's folder, keeps what it says in the log, and answers its status and the lines of the program that it ran, None for none."""
    printed = None
    with started(command, cwd=folder, stdin=given, stderr=subprocess.STDOUT) as process:
        for line in lines_of(process.stdout):
            if line is None:
                progress.waited()
                continue
            print(line, file=log, flush=True)
            if printed is not None:
                printed.append(line)
            elif RUNS.fullmatch(line):
                printed = []
            else:
                progress.line(line)
        return process.wait(), printed


def run_once(root, name, log, progress):
    """Proves and builds a program, and holds what it prints for its crate's stdin to its crate's stdout; answers whether all is well."""
    folder = root / "crates" / name
    with (folder / "stdin").open("rb") as given:
        status, printed = follow(["rt", "run"], folder, given, log, progress)
    return status == 0 and printed == (folder / "stdout").read_text().splitlines()


def build(root, programs, say):
    """Proves and builds programs of the repository; answers their paths."""
    if not shutil.which("rt"):
        raise Failure("there is no rt on the PATH: the Rattle toolchain builds the programs")
    paths = [root / "crates" / name / "out" / name for name in programs]
    crates = reached((root / "crates.txt").read_text(), programs)
    progress = Progress(programs, crates, not all(path.exists() for path in paths), say, time.monotonic)
    (root / "target").mkdir(exist_ok=True)
    log = root / "target" / "run.log"
    with log.open("w") as file:
        for name, path in zip(programs, paths):
            if not run_once(root, name, file, progress):
                for line in log.read_text().splitlines()[-LAST_LINES:]:
                    say(line)
                raise Failure(f"rt run in crates/{name} failed; target/run.log has all that it said")
            if not os.access(path, os.X_OK):
                raise Failure(f"rt made no {path}")
    return paths
