#!/usr/bin/env python3
"""Compares the plain program with the stock's listings, and with the oracle on the sweep's images and generated cases.

    check.py --oracle PATH [--seed 1] [--count 4000]
"""

import argparse
import subprocess
import sys
from pathlib import Path

HERE = Path(__file__).resolve().parent
sys.path.insert(0, str(HERE.parent / "rust"))

import generate
import limits
from programs import Program

STOCK = HERE.parent.parent / "stock"
CASES_AT_ONCE = 500


def build():
    """The path of the program, built."""
    subprocess.run(["cargo", "build", "--release", "--offline", "--quiet", "-j", "1"], cwd=HERE, check=True)
    return HERE / "target" / "release" / "plain"


def main():
    parser = argparse.ArgumentParser(description=__doc__, formatter_class=argparse.RawDescriptionHelpFormatter)
    parser.add_argument("--oracle", required=True)
    parser.add_argument("--seed", type=int, default=1)
    parser.add_argument("--count", type=int, default=4000, help="how many generated cases")
    arguments = parser.parse_args()
    plain, oracle = Program(driver=build()), Program(arguments.oracle)
    listings = compare_stock(plain)
    images = [generate.short_image(generate.copied(image), generate.DRIVER) for image in limits.sweep()]
    compare(plain, oracle, "sweep", images)
    seeds = range(arguments.seed, arguments.seed + arguments.count)
    compare(plain, oracle, "driver", [generate.drive_case(seed) for seed in seeds], arguments.seed)
    print(f"alike: {listings} listings of the stock, {len(images)} images, {arguments.count} generated cases")


def compare_stock(plain):
    images = sorted(STOCK.glob("*.image"))
    for image in images:
        listing = plain.answer(generate.DRIVER, image.read_bytes())
        if listing != image.with_suffix(".listing").read_bytes():
            sys.exit(f"another listing: {image.stem}")
    return len(images)


def compare(plain, oracle, kind, cases, first=0):
    for at in range(0, len(cases), CASES_AT_ONCE):
        inputs = [(case.mode, case.input()) for case in cases[at : at + CASES_AT_ONCE]]
        for number, answers in enumerate(zip(plain.answers(inputs), oracle.answers(inputs)), first + at):
            if answers[0] != answers[1]:
                sys.exit(f"another answer: --{kind} {number}")


if __name__ == "__main__":
    main()
