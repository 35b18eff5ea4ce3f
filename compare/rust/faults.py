#!/usr/bin/env python3
"""Is the comparison sharp? Plants faults in a copy of the oracle, one at a time, and demands that each is found.

    faults.py --replay PATH --driver PATH --timetable PATH --levels PATH [--seed 1] [--count 1000] [--only NUMBER ..]

The cases are run.py's: the sweep of images and one case of every other kind for each seed. The programs under
comparison answer them once; the oracle without a fault has to agree with them on all. Each fault of fault_list.py is
then planted, the copy is built, and it answers until an answer is another. Ends with code 1 if a fault is not found.
"""

import argparse
import hashlib
import os
import shutil
import subprocess
import sys
import time
from pathlib import Path

import generate
import limits
import programs
from fault_list import FAULTS
from programs import Program

ORACLE = Path(__file__).resolve().parent / "oracle"
COPY = ORACLE / "target" / "faults"
REFERENCE = Path("target", "reference", "src")
DOORWAY_IN = "solver/hydraulicsolver.rs"

# A fault is found in the first few cases or after many, so the pieces grow.
FIRST_PIECE, LONGEST_PIECE = 25, 400

# Seconds for a piece. A planted fault might let a run step on for ever.
PATIENCE = 60

KINDS = (
    "replay", "edge", "hours", "order", "driver", "strain", "full", "slow", "stops", "close", "levels", "image", "sweep",
)


def led_by(*first):
    """All kinds, these in front."""
    return (*first, *(kind for kind in KINDS if kind not in first))


# An image's faults show in images first, a driver's in the driver, those of the second clock, of closing by the table
# and of the controls' order in their own lists, and those of a timetable in timetables. Those of a run have to show in
# the driver, which works through its tables step after step, and those of times to levels, most of which no step can
# tell, where these are asked for.
ORDERS = {
    "image": led_by("sweep", "image"),
    "driver": led_by("driver", "strain", "full"),
    "slow": led_by("slow"),
    "stops": led_by("stops", "slow"),
    "close": led_by("close"),
    "order": led_by("order"),
    "levels": ("levels",),
    "run": ("driver", "strain", "full"),
    "other": KINDS,
}

# Built for a quick build: what the oracle answers does not depend on it.
QUICK = {
    "CARGO_PROFILE_RELEASE_OPT_LEVEL": "0",
    "CARGO_PROFILE_RELEASE_INCREMENTAL": "true",
    "CARGO_PROFILE_RELEASE_CODEGEN_UNITS": "4",
}


def main():
    arguments, ours = parse_arguments()
    began = time.monotonic()
    judge_reference()
    copy_oracle()
    cases = make_cases(ours, arguments.seed, arguments.count)
    compared = sum(len(entries) for entries in cases.values())
    difference = first_difference(build(), cases, ORDERS["image"])
    if difference:
        sys.exit(f"the programs differ without a fault: generate.py --{difference[0]} {difference[1]}; see run.py")
    print(f"The programs are alike on the {compared} cases without a fault. The faults:\n")
    print("| No. | Place | What is wrong | Found at | Cases before |\n|---|---|---|---|---|")
    numbers = arguments.only or range(1, len(FAULTS) + 1)
    missed = [number for number in numbers if not is_found(number, FAULTS[number - 1], cases)]
    print(f"\n{len(numbers) - len(missed)} of the {len(numbers)} faults are found, {time.monotonic() - began:.0f} s")
    if missed:
        sys.exit(f"not found: {', '.join(map(str, missed))}")


def parse_arguments():
    parser = argparse.ArgumentParser(description=__doc__, formatter_class=argparse.RawDescriptionHelpFormatter)
    programs.add_arguments(parser)
    parser.add_argument("--seed", type=int, default=1)
    parser.add_argument("--count", type=int, default=1000, help="how many seeds")
    parser.add_argument("--only", type=int, nargs="+", metavar="NUMBER", help="plant these faults only")
    arguments = parser.parse_args()
    return arguments, programs.named_by(arguments, parser)


# The copy


def judge_reference():
    """The faults name lines, so the text has to be the one that they were written for."""
    doorway = (ORACLE / "frame" / "doorway.rs").read_bytes()
    for line in (ORACLE / "reference.sha256").read_text().splitlines():
        sum_, file = line.split()
        try:
            text = (ORACLE / REFERENCE / file).read_bytes()
        except FileNotFoundError:
            sys.exit("there is no copy of the reference: run oracle/build.sh")
        if file == DOORWAY_IN:
            text = text.removesuffix(doorway)
        if hashlib.sha256(text).hexdigest() != sum_:
            sys.exit(f"{file} is not the text of commit fee0d03b11: run oracle/build.sh")


def copy_oracle():
    """The files are new each time, since cargo goes by their age: the last build had a fault in it."""
    for part in ("Cargo.toml", "Cargo.lock", "src", "stubs", REFERENCE.parent):
        source, target = ORACLE / part, COPY / part
        if source.is_dir():
            shutil.rmtree(target, ignore_errors=True)
            shutil.copytree(source, target, copy_function=shutil.copyfile)
        else:
            target.parent.mkdir(parents=True, exist_ok=True)
            shutil.copyfile(source, target)


def build():
    """The copy as a program, or none where it does not compile."""
    command = ["cargo", "build", "--release", "--offline", "--quiet", "--target-dir", "target", "-j", "1"]
    done = subprocess.run(command, cwd=COPY, env=os.environ | QUICK, capture_output=True)
    if done.returncode:
        sys.exit(f"the copy with the fault does not compile:\n{done.stderr.decode(errors='replace')}")
    return Program(COPY / "target" / "release" / "oracle", timeout=PATIENCE)


def place_of(fault):
    return Path("src", fault.file) if fault.is_in_oracle else REFERENCE / fault.file


# The cases


def make_cases(ours, seed, count):
    """For each kind a list of a number, a mode, an input and our answer."""
    numbered = {"sweep": list(enumerate(limits.sweep()))}
    for kind in KINDS[:-1]:
        numbered[kind] = [(number, generate.CASES[kind](number)) for number in range(seed, seed + count)]
    answered = {}
    for kind, entries in numbered.items():
        inputs = [(case.mode, case.input()) for _, case in entries if ours.can(case.mode)]
        answers = ours.answers(inputs)
        answered[kind] = [(entry[0], *asked, answer) for entry, asked, answer in zip(entries, inputs, answers)]
    return answered


def first_difference(oracle, cases, order):
    """The kind and number of the first case that the oracle answers otherwise, and how many came before."""
    before, size = 0, FIRST_PIECE
    for kind in order:
        at = 0
        while at < len(cases[kind]):
            piece = cases[kind][at : at + size]
            answers = oracle.answers([(mode, data) for _, mode, data, _ in piece])
            for (number, _, _, ours), answer in zip(piece, answers):
                if answer != ours:
                    return kind, number, before
                before += 1
            at += size
            size = min(2 * size, LONGEST_PIECE)
    return None


def is_found(number, fault, cases):
    path = COPY / place_of(fault)
    text = path.read_text()
    path.write_text(fault.planted_in(text))
    try:
        difference = first_difference(build(), cases, ORDERS[fault.shows_in])
    finally:
        path.write_text(text)
    found = "`{}` {} | {}".format(*difference) if difference else "**not found** | all"
    print(f"| {number} | `{fault.place()}` | {fault.words} | {found} |", flush=True)
    return bool(difference)


if __name__ == "__main__":
    main()
