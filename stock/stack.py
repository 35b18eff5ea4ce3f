#!/usr/bin/env python3
"""Runs a driver with little stack on every works of the stock, and holds what it prints to the stored listings.

    stock/stack.py crates/driver/out/driver
    stock/stack.py --least crates/driver/out/driver

Says nothing where all is well; exit status 1 and a line for each works where it is not. With --least, the smallest limit
by steps of 4 KiB under which each works runs.
"""
import argparse
import pathlib
import resource
import subprocess
import sys

STOCK = pathlib.Path(__file__).resolve().parent
LIMIT = 592  # KiB, as docs/MEASUREMENTS.md and docs/PROMISES.md have it
STEP = 4


def runs(driver, image, kib):
    """Whether the driver prints an image's listing with so much stack."""

    def limited():
        resource.setrlimit(resource.RLIMIT_STACK, (kib * 1024, kib * 1024))

    with image.open("rb") as file:
        done = subprocess.run([driver], stdin=file, capture_output=True, preexec_fn=limited)
    return done.returncode == 0 and done.stdout == image.with_suffix(".listing").read_bytes()


def least(driver, image):
    """The smallest limit, in KiB, under which it does."""
    low, high = 0, 8192 // STEP
    while high - low > 1:
        middle = (low + high) // 2
        low, high = (low, middle) if runs(driver, image, middle * STEP) else (middle, high)
    return high * STEP


def main():
    wants = argparse.ArgumentParser(description=__doc__, formatter_class=argparse.RawDescriptionHelpFormatter)
    wants.add_argument("driver")
    wants.add_argument("--least", action="store_true")
    given = wants.parse_args()
    driver = pathlib.Path(given.driver).resolve()
    images = sorted(STOCK.glob("*.image"))
    if given.least:
        for image in images:
            print(f"{image.stem} {least(driver, image)}")
        return 0
    bad = [image.stem for image in images if not runs(driver, image, LIMIT)]
    for name in bad:
        print(f"{name}: not its listing with {LIMIT} KiB of stack")
    return 1 if bad or not images else 0


if __name__ == "__main__":
    sys.exit(main())
