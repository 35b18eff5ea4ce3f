#!/usr/bin/env python3
"""Measures a day that the second clock walks, one second after the other: our call and plain Rust's, in one run. Prints a table.

    measure_walk.py --program PATH [--runs 9] [--no-instructions]

PATH is our `replay`. Many days are walked in one process; what the process takes for a single day is taken off. A time is
the median of --runs runs; instructions are callgrind's. Before that both programs have to answer the same lengths.
"""

import argparse
import statistics
import subprocess
import sys
import tempfile
from pathlib import Path

from check import build  # which puts compare/rust on the path
from generate import slow_case
from image import CLOCK_TIME, DAY, HOUR, LONGEST_TIME, SLOW_CALL, TIME
from image import Call, Control, Junction, Link, Options, Project, Replay, Reservoir
from measure import instructions, timed

CONTROLS = (0, 8, 64)
START_CLOCK = 6 * HOUR
TIMED, COUNTED = 1_000, 11
SEEDS, COMPARED = range(1, 101), 6


def main():
    parser = argparse.ArgumentParser(description=__doc__, formatter_class=argparse.RawDescriptionHelpFormatter)
    parser.add_argument("--program", required=True, help="our replay")
    parser.add_argument("--runs", type=int, default=9)
    parser.add_argument("--no-instructions", action="store_true", help="times only")
    arguments = parser.parse_args()
    programs = {"replay": arguments.program, "plain": str(build().with_name("walk"))}
    with tempfile.TemporaryDirectory() as folder:
        compare(programs, folder)
        print("| Program | Controls | ms a day | ns a second | Instructions a day |")
        print("|---|---|---|---|---|")
        for measured in measure(programs, arguments, folder):
            print(row(*measured), flush=True)


def works(controls):
    """A pipe from a reservoir to a junction. Half of the controls wait for an instant behind the duration, half for the start's
    clock time, and all timesteps are a day, so that a walk is a day."""
    options = Options(duration=TIMED * DAY, hydraulic=DAY, report=DAY, pattern=DAY, start_clock=START_CLOCK)
    waiting = [Control(TIME, LONGEST_TIME), Control(CLOCK_TIME, START_CLOCK)] * (controls // 2)
    return Project(options, nodes=[Reservoir(), Junction()], links=[Link(0, 1)], controls=waiting)


def steps(project, count, folder):
    """The path of an input with so many steps by the second clock."""
    path = Path(folder, "steps")
    path.write_bytes(Replay(project, [Call(SLOW_CALL)] * count).input())
    return path


def compare(programs, folder):
    """Stops where the programs differ, on generated works and on those that are measured, or where a walk is no day on these."""
    for seed in SEEDS:
        same_lengths(programs, steps(slow_case(seed).project, COMPARED, folder), f"--slow {seed}")
    for controls in CONTROLS:
        lengths = same_lengths(programs, steps(works(controls), COMPARED, folder), f"{controls} controls")
        if lengths != [[b"slow", b"%d" % DAY]] * COMPARED:
            sys.exit(f"no day: {controls} controls")


def same_lengths(programs, path, what):
    ours, plain = (lengths_of(program, path) for program in programs.values())
    if ours != plain:
        sys.exit(f"other lengths: {what}")
    return plain


def lengths_of(program, path):
    """The two words that answer each call; ours has the state behind them, and a line for the start."""
    with open(path, "rb") as calls:
        printed = subprocess.run([program], stdin=calls, capture_output=True, check=True).stdout
    return [line.split()[:2] for line in printed.splitlines() if line.startswith(b"slow")]


def measure(programs, arguments, folder):
    """Each program and number of controls with a day's seconds and instructions. They take turns in each run."""
    asked = [(name, program, controls) for name, program in programs.items() for controls in CONTROLS]
    seconds = {(name, controls): [] for name, _, controls in asked}
    for _ in range(arguments.runs):
        for name, program, controls in asked:
            spent = [timed([program], steps(works(controls), days, folder))[1] for days in (TIMED, 1)]
            seconds[name, controls].append((spent[0] - spent[1]) / (TIMED - 1))
    for name, program, controls in asked:
        counted = 0
        if not arguments.no_instructions:
            most, least = (instructions([program], steps(works(controls), days, folder), folder)[0] for days in (COUNTED, 1))
            counted = (most - least) / (COUNTED - 1)
        yield name, controls, statistics.median(seconds[name, controls]), counted


def row(program, controls, seconds, counted):
    cells = [program, str(controls), f"{1e3 * seconds:.3f}", f"{1e9 * seconds / DAY:.2f}", f"{counted:,.0f}" if counted else ""]
    return f"| {' | '.join(cells)} |"


if __name__ == "__main__":
    main()
