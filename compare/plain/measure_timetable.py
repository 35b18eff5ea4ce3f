#!/usr/bin/env python3
"""Measures a year's timetable, a stop in every minute: our program and plain Rust's, in one run. Prints a table.

    measure_timetable.py --program PATH [--runs 9] [--no-instructions]

PATH is our `timetable`. The programs take turns, and a time is the processor's in the best of --runs runs; instructions
are callgrind's. Milliseconds are the whole process'; from what is given a stop, the timetable of one second is taken off.
Before that both programs have to print what is stored, and the same for the stock, for generated works and for these.
"""

import argparse
import re
import sys
import tempfile
from itertools import product
from pathlib import Path

from check import HERE, STOCK, build  # which puts compare/rust on the path
from generate import stops_case
from image import CLOCK_TIME, DAY, HOUR, TIME
from image import Control, Junction, Link, Options, Project, Reservoir, Tabulate
from measure import instructions, run, timed

STORED = HERE.parent.parent / "crates" / "timetable_cases"
CONTROLS = (0, 8, 64)
START_CLOCK = 6 * HOUR
MINUTE, SECOND, YEAR = 60, 1, 365 * DAY
SEEDS = range(1, 101)


def main():
    parser = argparse.ArgumentParser(description=__doc__, formatter_class=argparse.RawDescriptionHelpFormatter)
    parser.add_argument("--program", required=True, help="our timetable")
    parser.add_argument("--runs", type=int, default=9)
    parser.add_argument("--no-instructions", action="store_true", help="times only")
    arguments = parser.parse_args()
    programs = {"timetable": arguments.program, "plain": str(build().with_name("timetable"))}
    compare(programs)
    with tempfile.TemporaryDirectory() as folder:
        print("| Program | Controls | Stops | ms | ns a stop | Instructions a stop | copying |")
        print("|---|---|---|---|---|---|---|")
        for measured in measure(programs, arguments, folder):
            print(row(*measured), flush=True)


def works(controls, duration):
    """A pipe from a reservoir to a junction. Half of the controls wait for an instant and half for a clock time, spread
    evenly over the year and over the day: 20 seconds after a minute and 40, so that each is a stop of its own."""
    options = Options(duration=duration, hydraulic=HOUR, report=MINUTE, pattern=HOUR, start_clock=START_CLOCK)
    waiting = [Control(TIME, minute + 20) for minute in spread(controls // 2, YEAR)]
    waiting += [Control(CLOCK_TIME, minute + 40) for minute in spread(controls // 2, DAY)]
    return Project(options, nodes=[Reservoir(), Junction()], links=[Link(0, 1)], controls=waiting)


def spread(count, seconds):
    """So many minutes, by their first second."""
    return [place * seconds // count // MINUTE * MINUTE for place in range(count)]


def stops_of(controls):
    """How many stops the year has."""
    half = controls // 2
    return YEAR // MINUTE + half + half * YEAR // DAY


def compare(programs):
    """Stops where a program prints something else than is stored, or the two differ on other inputs."""
    for name, answer in stored_answers():
        printed = printed_alike(programs, (STORED / "data" / name).read_bytes(), name)
        if printed != answer:
            sys.exit(f"not what is stored: {name}")
    for image in sorted(STOCK.glob("*.image")):
        printed_alike(programs, image.read_bytes(), image.stem)
    for seed in SEEDS:
        printed_alike(programs, stops_case(seed).input(), f"--stops {seed}")
    for controls in CONTROLS:
        printed = printed_alike(programs, Tabulate(works(controls, YEAR), []).input(), f"{controls} controls")
        if not printed.endswith(b"\nsteps %d\n" % stops_of(controls)):
            sys.exit(f"another count of stops: {controls} controls")


def stored_answers():
    """The name of each stored case, and what is to be printed for it. The last line of all counts the cases."""
    text = re.sub(rb"\d+ cases\n\Z", b"", (STORED / "stdout").read_bytes())
    _, *parts = re.split(rb"(?m)^(case\d+)\n", text)
    return [(name.decode(), answer) for name, answer in zip(parts[::2], parts[1::2])]


def printed_alike(programs, given, what):
    ours, plain = (run([program], given).stdout for program in programs.values())
    if ours != plain:
        sys.exit(f"another timetable: {what}")
    return plain


def measure(programs, arguments, folder):
    """Each program and number of controls with the year's seconds, and for a stop the seconds, the instructions and those of
    them that copy."""
    paths = {case: written(*case, folder) for case in product(CONTROLS, (YEAR, SECOND))}
    seconds = best_seconds(programs, paths, arguments.runs)
    for (name, program), controls in product(programs.items(), CONTROLS):
        year, second = (seconds[name, controls, duration] for duration in (YEAR, SECOND))
        counted = copying = 0
        if not arguments.no_instructions:
            most, least = (instructions([program], paths[controls, duration], folder) for duration in (YEAR, SECOND))
            counted, copying = (a_stop(controls, *counts) for counts in zip(most, least))
        yield name, controls, year, a_stop(controls, year, second), counted, copying


def written(controls, duration, folder):
    """The path of a works' image."""
    path = Path(folder, f"works{controls}.{duration}")
    path.write_bytes(Tabulate(works(controls, duration), []).input())
    return path


def best_seconds(programs, paths, runs):
    """The programs take turns, so that whatever else the machine does falls on all of them."""
    seconds = {}
    for _ in range(runs):
        for (name, program), case in product(programs.items(), paths):
            _, spent = timed([program], paths[case])
            seconds[name, *case] = min(spent, seconds.get((name, *case), spent))
    return seconds


def a_stop(controls, year, second):
    """The timetable of a second has one stop."""
    return (year - second) / (stops_of(controls) - 1)


def row(program, controls, seconds, a_stop, counted, copying):
    cells = [program, str(controls), f"{stops_of(controls):,}", f"{1e3 * seconds:.1f}", f"{1e9 * a_stop:.1f}"]
    if counted:
        cells += [f"{counted:,.0f}", f"{copying / counted:.0%}"]
    return f"| {' | '.join(cells)} |"


if __name__ == "__main__":
    main()
