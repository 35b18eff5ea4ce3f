#!/usr/bin/env python3
"""Measures three drivers on the same images in one run: ours, the plain program and the oracle. Prints a table.

    measure.py --driver PATH --oracle PATH [--runs 9] [--years 2] [--no-instructions]

The images are two works of the stock with their loads, and a long run: the text of the largest works with another
duration and without loads. Each image goes through all the programs in turn, as often as --runs says; a time is the
median. Instructions are those of one run under valgrind, with its tool callgrind, and of these the ones in the C
library's copying. Every listing has to be the same.
"""

import argparse
import os
import re
import resource
import statistics
import subprocess
import sys
import tempfile
import time
from dataclasses import dataclass
from pathlib import Path

from check import HERE, STOCK, build

IMAGE_TOOL = HERE.parent.parent / "tools" / "image"
WORKS = ("ravensdale", "thornmoor")
LARGEST = "thornmoor"
HOURS_OF_YEAR = 8760

# Valgrind counts each byte of a `rep movsb` as an instruction, so the C library is told to copy without it.
COPY_BY_VECTORS = {
    "GLIBC_TUNABLES": "glibc.cpu.x86_rep_movsb_threshold=1000000000:glibc.cpu.x86_rep_stosb_threshold=1000000000"
}


@dataclass
class Measured:
    """One program on one image: seconds of wall and processor, the instructions, and those of them that copy."""

    wall: float
    processor: float
    instructions: int = 0
    copying: int = 0


def main():
    arguments = parse_arguments()
    programs = {"driver": [arguments.driver], "plain": [str(build())], "oracle": [arguments.oracle, "driver"]}
    images = {name: (STOCK / f"{name}.image").read_bytes() for name in WORKS}
    images[f"{LARGEST}, {arguments.years} years"] = long_run(arguments.years)
    print("| Works | Steps | Program | Wall, ms | Processor, ms | a step, µs | Instructions | a step | copying |")
    print("|---|---|---|---|---|---|---|---|---|")
    for name, image in images.items():
        steps = steps_of(programs, image)
        measured = measure(programs, image, arguments)
        for program, one in measured.items():
            print(row(name, steps, program, one), flush=True)


def parse_arguments():
    parser = argparse.ArgumentParser(description=__doc__, formatter_class=argparse.RawDescriptionHelpFormatter)
    parser.add_argument("--driver", required=True, help="our driver")
    parser.add_argument("--oracle", required=True)
    parser.add_argument("--runs", type=int, default=9)
    parser.add_argument("--years", type=int, default=2, help="the long run's duration")
    parser.add_argument("--no-instructions", action="store_true", help="times only")
    return parser.parse_args()


def long_run(years):
    """The image of the largest works with its duration changed and no loads, which its text does not have."""
    text = (STOCK / f"{LARGEST}.txt").read_text()
    changed, places = re.subn(r"(?m)^(options .*\bduration=)\S+", rf"\g<1>{years * HOURS_OF_YEAR}:00:00", text)
    if places != 1:
        sys.exit(f"no single duration in {LARGEST}.txt")
    for command in ("check", "assemble"):
        done = run([IMAGE_TOOL, command, "-"], changed.encode())
    return done.stdout


def steps_of(programs, image):
    """The count at the end of the listing that all the programs print."""
    listings = {name: run(command, image).stdout for name, command in programs.items()}
    if len(set(listings.values())) != 1:
        sys.exit("the listings differ")
    return int(listings["plain"].split()[-1])


def run(command, image):
    return subprocess.run(command, input=image, capture_output=True, check=True)


def measure(programs, image, arguments):
    """Each program's medians. They take turns, so that whatever else the machine does falls on all of them."""
    times = {name: [] for name in programs}
    with tempfile.TemporaryDirectory() as folder:
        path = Path(folder, "image")
        path.write_bytes(image)
        for _ in range(arguments.runs):
            for name, command in programs.items():
                times[name].append(timed(command, path))
        measured = {name: Measured(*map(statistics.median, zip(*pairs))) for name, pairs in times.items()}
        if not arguments.no_instructions:
            for name, command in programs.items():
                measured[name].instructions, measured[name].copying = instructions(command, path, folder)
    return measured


def timed(command, path):
    """Seconds of wall and processor from the start of the process to its end, its listing thrown away."""
    with open(path, "rb") as image:
        before, began = processor_seconds(), time.perf_counter()
        subprocess.run(command, stdin=image, stdout=subprocess.DEVNULL, check=True)
        return time.perf_counter() - began, processor_seconds() - before


def processor_seconds():
    usage = resource.getrusage(resource.RUSAGE_CHILDREN)
    return usage.ru_utime + usage.ru_stime


def instructions(command, path, folder):
    """The instructions of one run, and those of them in memcpy, memmove and memset."""
    profile = Path(folder, "callgrind.out")
    callgrind = ["valgrind", "--tool=callgrind", f"--callgrind-out-file={profile}"]
    with open(path, "rb") as image:
        done = subprocess.run(callgrind + command, stdin=image, stdout=subprocess.DEVNULL, stderr=subprocess.PIPE,
                              env=os.environ | COPY_BY_VECTORS)
    found = re.search(rb"Collected : (\d+)", done.stderr)
    if done.returncode or not found:
        sys.exit(f"valgrind: {done.stderr.decode(errors='replace')}")
    annotated = subprocess.run(["callgrind_annotate", profile], capture_output=True, check=True, text=True).stdout
    copying = re.findall(r"(?m)^ *([\d,]+) .*:__mem(?:cpy|move|set)\w*", annotated)
    return int(found[1]), sum(int(count.replace(",", "")) for count in copying)


def row(works, steps, program, one):
    cells = [works, f"{steps:,}", program]
    cells += [f"{1e3 * one.wall:.1f}", f"{1e3 * one.processor:.1f}", f"{1e6 * one.processor / steps:.2f}"]
    if one.instructions:
        share = one.copying / one.instructions
        cells += [f"{one.instructions:,}", f"{one.instructions / steps:,.0f}", f"{share:.0%}"]
    return f"| {' | '.join(cells)} |"


if __name__ == "__main__":
    main()
