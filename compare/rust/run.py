#!/usr/bin/env python3
"""Compares a program with the oracle, byte for byte, on generated cases.

    run.py --ours PATH --oracle PATH --seed 1 --count 1000
    run.py --replay PATH --driver PATH --timetable PATH --levels PATH --oracle PATH --seed 1 --count 1000
    run.py --replay PATH --oracle PATH --input replay FILE

The seeds run from --seed on; each makes one case of every kind chosen, and the sweep of images comes first, whole. On
the first difference the case is shrunk and printed, its input is written to a file, and the run ends with code 1.
"""

import argparse
import itertools
import sys
import time

import generate
import limits
import programs
from image import Replay
from programs import MODES, Program
from shrink import shrunk

CASES_AT_ONCE = 200


def main():
    arguments, ours = parse_arguments()
    oracle = Program(arguments.oracle)
    if arguments.input:
        compare_file(ours, oracle, *arguments.input)
        return
    kinds = [kind for kind in arguments.kinds if ours.can(generate.CASES[kind](0).mode)]
    began = time.monotonic()
    compared = 0
    for cases in chunks(kinds, arguments.seed, arguments.count):
        difference = first_difference(ours, oracle, cases)
        if difference:
            report(ours, oracle, difference, arguments.keep)
            sys.exit(1)
        compared += len(cases)
        if not arguments.quiet:
            print(f"\r{compared} cases alike, {time.monotonic() - began:.0f} s", end="", file=sys.stderr, flush=True)
    if not arguments.quiet:
        print(file=sys.stderr)
    print(f"{compared} cases alike ({', '.join(kinds)}; seeds from {arguments.seed})")


def parse_arguments():
    parser = argparse.ArgumentParser(description=__doc__, formatter_class=argparse.RawDescriptionHelpFormatter)
    programs.add_arguments(parser)
    parser.add_argument("--oracle", required=True)
    parser.add_argument("--seed", type=int, default=1)
    parser.add_argument("--count", type=int, default=1000, help="how many seeds")
    parser.add_argument("--input", nargs=2, metavar=("MODE", "FILE"), help="compare on a kept input only")
    parser.add_argument("--kinds", nargs="+", choices=generate.CASES, default=list(generate.CASES))
    parser.add_argument("--keep", default=".", help="the folder for the input on which the programs differ")
    parser.add_argument("--quiet", action="store_true", help="no running count")
    arguments = parser.parse_args()
    return arguments, programs.named_by(arguments, parser)


def compare_file(ours, oracle, mode_name, path):
    mode = next(mode for mode, name in MODES.items() if name == mode_name)
    with open(path, "rb") as file:
        data = file.read()
    one, other = ours.answer(mode, data), oracle.answer(mode, data)
    if one == other:
        print("alike")
    else:
        print_difference(one, other, None)
        sys.exit(1)


def chunks(kinds, seed, count):
    """Lists of (kind, seed, case), some hundred at a time."""
    cases = all_cases(kinds, seed, count)
    while chunk := list(itertools.islice(cases, CASES_AT_ONCE)):
        yield chunk


def all_cases(kinds, seed, count):
    if "sweep" in kinds:
        yield from (("sweep", number, case) for number, case in enumerate(limits.sweep()))
    for number in range(seed, seed + count):
        yield from ((kind, number, generate.CASES[kind](number)) for kind in kinds if kind != "sweep")


def first_difference(ours, oracle, cases):
    inputs = [(case.mode, case.input()) for _, _, case in cases]
    for case, one, other in zip(cases, ours.answers(inputs), oracle.answers(inputs)):
        if one != other:
            return case
    return None


def report(ours, oracle, difference, folder):
    kind, seed, case = difference
    print(f"\nThe programs differ: generate.py --{kind} {seed}")

    def differs(candidate):
        data = candidate.input()
        return ours.answer(candidate.mode, data) != oracle.answer(candidate.mode, data)

    case = shrunk(case, differs)
    data = case.input()
    path = f"{folder}/differs-{kind}-{seed}.bin"
    with open(path, "wb") as file:
        file.write(data)
    print(f"Shrunk ({MODES[case.mode]} input in {path}):\n{generate.text_of(case)}")
    print_difference(ours.answer(case.mode, data), oracle.answer(case.mode, data), case)


def print_difference(one, other, case):
    """The first line on which the answers part, and the words that differ in it."""
    ours, oracle = one.decode(errors="replace").split("\n"), other.decode(errors="replace").split("\n")
    pairs = list(itertools.zip_longest(ours, oracle, fillvalue="(no line)"))
    at = next(index for index, (mine, theirs) in enumerate(pairs) if mine != theirs)
    print(f"Line {at + 1}:\n  ours   {pairs[at][0]}\n  oracle {pairs[at][1]}")
    words = itertools.zip_longest(pairs[at][0].split(" "), pairs[at][1].split(" "))
    apart = [word_name(case, index) for index, (mine, theirs) in enumerate(words) if mine != theirs]
    print(f"  They part in: {', '.join(apart)}")


def word_name(case, index):
    """What a word of a line is, counted from 0."""
    if not isinstance(case, Replay):
        return f"word {index}"
    if index < 2:
        return "answer"
    if index < 4:
        return ("instant", "count")[index - 2]
    number, part = divmod(index - 4, 3)
    nodes = len(case.project.nodes)
    if number < nodes:
        return f"node {number}'s {('head', 'demand', 'demand flow')[part]}"
    return f"link {number - nodes}'s {('flow', 'status', 'setting')[part]}"


if __name__ == "__main__":
    main()
