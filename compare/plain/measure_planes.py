#!/usr/bin/env python3
"""Measures a block of 512 rows put in planes and back: our calls, plain Rust's and a copy of the same bytes, in one run. Prints a table.

    measure_planes.py --program PATH [--runs 9] [--no-instructions]

PATH is our `planes_cases`. Each call is made many times in one process; what the process takes for a single call is taken off. A
time is the median of --runs runs; instructions are callgrind's. Before that both programs have to print what is stored.
"""

import argparse
import statistics
import struct
import subprocess
import sys
import tempfile
from pathlib import Path

from check import HERE, build
from measure import instructions, timed

STORED = HERE.parent.parent / "crates" / "planes_cases"
ROWS = 512
CALLS = {"to planes": 3, "from planes": 4}
COPY = {"memcpy": 5}
TIMED, COUNTED = 200_000, 1_000


def main():
    parser = argparse.ArgumentParser(description=__doc__, formatter_class=argparse.RawDescriptionHelpFormatter)
    parser.add_argument("--program", required=True, help="our planes_cases")
    parser.add_argument("--runs", type=int, default=9)
    parser.add_argument("--no-instructions", action="store_true", help="times only")
    arguments = parser.parse_args()
    plain = str(build().with_name("planes"))
    programs = {"planes_cases": (arguments.program, CALLS), "plain": (plain, CALLS | COPY)}
    for program, _ in programs.values():
        compare_stored(program)
    with tempfile.TemporaryDirectory() as folder:
        print("| Program | Call | ns a call | bytes a ns | Instructions a call |")
        print("|---|---|---|---|---|")
        for measured in measure(programs, arguments, folder):
            print(row(*measured), flush=True)


def compare_stored(program):
    with open(STORED / "stdin", "rb") as stored:
        printed = subprocess.run([program], stdin=stored, capture_output=True, check=True).stdout
    if printed != (STORED / "stdout").read_bytes():
        sys.exit(f"{program} does not print what is stored")


def orders(code, times, folder):
    """The path of an input that has one call made so often."""
    block = bytes(place % 251 for place in range(8 * ROWS))
    lent = b"".join(struct.pack("<II", buffer, len(block)) + block for buffer in (1, 2))
    path = Path(folder, f"orders{code}.{times}")
    path.write_bytes(struct.pack("<I", 3) + lent + struct.pack("<IQI", code, ROWS, times))
    return path


def measure(programs, arguments, folder):
    """Each program and call with its nanoseconds and instructions. They take turns in each run."""
    asked = [(name, program, call, code) for name, (program, calls) in programs.items() for call, code in calls.items()]
    nanoseconds = {(name, call): [] for name, _, call, _ in asked}
    for _ in range(arguments.runs):
        for name, program, call, code in asked:
            spent = [timed([program], orders(code, times, folder))[1] for times in (TIMED, 1)]
            nanoseconds[name, call].append(1e9 * (spent[0] - spent[1]) / (TIMED - 1))
    for name, program, call, code in asked:
        counted = 0
        if not arguments.no_instructions:
            most, least = (instructions([program], orders(code, times, folder), folder)[0] for times in (COUNTED, 1))
            counted = (most - least) / (COUNTED - 1)
        yield name, call, statistics.median(nanoseconds[name, call]), counted


def row(program, call, nanoseconds, counted):
    cells = [program, call, f"{nanoseconds:,.0f}", f"{8 * ROWS / nanoseconds:.1f}", f"{counted:,.0f}" if counted else ""]
    return f"| {' | '.join(cells)} |"


if __name__ == "__main__":
    main()
