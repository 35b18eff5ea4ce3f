#!/usr/bin/env python3
"""Measures the public calls, each as `replay` makes it on the largest works of the stock. Prints a table.

    measure_calls.py PROGRAM [PROGRAM ..]

PROGRAM is our `replay`; with several, each has a column. A call's instructions are callgrind's, those of a list of 40 such calls less
those of a list of 20, a twentieth of it. They have the call's judgement in them and its line, which is the whole state.
"""

import argparse
import struct
import tempfile
from pathlib import Path

from check import STOCK  # which puts compare/rust on the path
from image import CLOSE_CALL, CONTROLS_CALL, LOAD_CALL, PATTERNS_CALL, PREMISE_CALL, PRESSURE_CALL, STEP_CALL, TABLE_CALL
from image import to_bytes
from measure import LARGEST, instructions

FEWER, MORE = 20, 40


def main():
    parser = argparse.ArgumentParser(description=__doc__, formatter_class=argparse.RawDescriptionHelpFormatter)
    parser.add_argument("programs", nargs="+", metavar="PROGRAM", help="our replay")
    programs = parser.parse_args().programs
    print("| Call |" + "".join(f" {program} |" for program in programs))
    print("|---|" + "---|" * len(programs))
    image, load = largest_works()
    with tempfile.TemporaryDirectory() as folder:
        for name, words in calls(load).items():
            counts = [one_call(program, image, words, folder) for program in programs]
            print(f"| {name} |" + "".join(f" {count:,.0f} |" for count in counts), flush=True)


def largest_works():
    """The image's words, their count in front, and the words of its first load."""
    data = (STOCK / f"{LARGEST}.image").read_bytes()
    words = struct.unpack(f"<{len(data) // 4}I", data)
    behind = 1 + words[0]
    return words[:behind], words[behind : behind + 1 + (words[behind] & 0xFFFF)]


def calls(load):
    """The words of each call."""
    return {
        "patterns": [PATTERNS_CALL],
        "controls": [CONTROLS_CALL],
        "load": [LOAD_CALL, len(load), *load],
        "closing": [CLOSE_CALL],
        "pressure pass": [PRESSURE_CALL],
        "premise": [PREMISE_CALL, 0],
        "step": [STEP_CALL],
        "closing by a table of its own": [TABLE_CALL],
    }


def one_call(program, image, words, folder):
    """The instructions of one call."""
    path = Path(folder, "calls")
    counted = []
    for count in (FEWER, MORE):
        path.write_bytes(to_bytes([*image, count, *words * count]))
        counted.append(instructions([program], path, folder)[0])
    return (counted[1] - counted[0]) / (MORE - FEWER)


if __name__ == "__main__":
    main()
