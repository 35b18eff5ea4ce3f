#!/usr/bin/env python3
"""The inputs of the program `driver_cases`, and what the oracle answers to them.

    driver_cases.py --oracle PATH --out FOLDER

It writes FOLDER/data/case000, case001, .. and FOLDER/stdout: each case's name, the oracle's answer to it as `driver`,
and the count of cases. The cases are those below, each for a sentence of document 01 or 02, some of the seeds' among
them, and last the works of the stock by their names; what the oracle answers to these is held to the stock's listings.
"""

import generate
import limits
import stored
from damage import spoilt_load
from image import *
from instants import one_tank, tank_t
from stored import Raw
from values import Chance

SEEDS = range(1, 61)
MOST_BYTES = 6_000


def worked_example():
    options = Options(duration=10_000, hydraulic=5_000, report=7_200, pattern=3_600)
    return Project(options, nodes=[tank_t(10.0)])


def fed_tank(duration=10_000, **options):
    project = one_tank(10.0)
    project.options = Options(duration=duration, **{**dict(report=7_200, pattern=3_600), **options})
    return project


def fast_path():
    return Project(Options(duration=10_000, report=7_200, flags=SKIP), nodes=[Reservoir(10.0)])


def largest():
    """The longest load there is: 384 flows and 256 heads."""
    nodes = [Junction(elevation=float(node)) for node in range(MOST_NODES)]
    links = [Link(link % MOST_NODES, (link + 1) % MOST_NODES) for link in range(MOST_LINKS)]
    return Project(Options(duration=60, report=5, pattern=7), nodes=nodes, links=links)


def counts():
    return stored.miscounted(Drive(worked_example(), []).input())


def images():
    """"A fault prints the line `refused N` and ends: alone for an image"."""
    yield Drive(worked_example(), [])
    for position, bit in ((0, 0), (0, 20), (0, 28), (7, 2), (11, 0), (11, 31), (22, 1)):
        words = worked_example().words()
        words[position] ^= 1 << bit
        yield Image(words, mode=DRIVER)
    yield from (generate.short_image(image, DRIVER) for image in limits.sweep()[::400])


def loads():
    """"takes one load if any is left", "a load cut by the end of the input is 7", "Loads left over are not read"."""
    good = [Load([flow], []) for flow in (1.0, 2.0, -1.0, 0.5)]
    size = 4 * len(good[0].words())
    for count in range(5):
        yield Drive(fed_tank(), good[:count])
    for cut in (1, 2, 3, 4, size - 1):
        yield Raw(Drive(fed_tank(), good[:2]).input()[:-cut])
    for tail in (b"\1", b"\1\2", b"\1\2\3"):
        yield Drive(fed_tank(), [], tail)
        yield Drive(fed_tank(), good[:2], tail)
    for change in (1 << 28, 1 << 16, 2, 1):
        yield Drive(fed_tank(), good[:1] + [Load([1.0], [], header_change=change)] + good)
    for number in (1e12, -1e12, 1.000000001e12, Bits(0x7FF8000000000001), Bits(0xFFF0000000000000)):
        yield Drive(fed_tank(), good[:2] + [Load([number], [])] + good)
    yield Drive(fed_tank(), [Load([2e12], [], length_change=1)])
    # At the duration no more is read, whatever it is.
    yield Drive(fed_tank(), good * 40)
    yield Drive(fast_path(), [Load([], [])] * 2, b"\1\2\3")
    yield Drive(fast_path(), [Load([], [])] * 3)
    yield Drive(fast_path(), [])
    yield Drive(fed_tank(0), [])
    yield Drive(fed_tank(0), good, b"\1")
    # Closing makes up for the demand that patterns set to 0 where no load is left.
    yield Drive(fed_tank(hydraulic=100, report=LONGEST_TIME), good[:1])


def long_ones():
    """More output, and more input, than one buffer holds."""
    yield Drive(fed_tank(10_000, report=1), [])
    flows, heads = [0.25] * MOST_LINKS, [100.0] * MOST_NODES
    yield Drive(largest(), [Load(flows, heads)] * 14, b"\1\2")
    yield Drive(largest(), [Load(flows, heads)] * 5 + [spoilt_load(Chance("long"), Load(flows, heads))])


def seeded():
    return (case for case in map(generate.drive_case, SEEDS) if len(case.input()) <= MOST_BYTES)


def strained():
    """The load is taken before closing, which only these show."""
    return map(generate.strain_case, range(1, 6))


def hydraulic():
    """Document 02, R-7: "From now on 0 is read as 3,600", "Makers of images who relied on no bound write 315,360,000"."""
    for timestep in (0, 3_599, 3_600, 3_601, LONGEST_TIME):
        yield Drive(Project(Options(7_200, timestep, 7_200, 7_200)), [])
    yield Drive(Project(Options(LONGEST_TIME, LONGEST_TIME, LONGEST_TIME, LONGEST_TIME)), [])
    # The hour is counted from where the step begins, and the fast path does not ask for it.
    yield Drive(Project(Options(10_000, 0, 5_000, 10_000)), [])
    yield Drive(Project(Options(10_000, 0, 5_000, 10_000, flags=SKIP)), [])


PARTS = (counts, images, loads, long_ones, seeded, strained, hydraulic, stored.stock)


def inputs():
    return [case.input() for part in PARTS for case in part()]


def check_stock(answers):
    """The last answers are the listings of the stock."""
    for image, answer in zip(stored.stock_images(), answers[-len(stored.stock()) :]):
        if image.with_suffix(".listing").read_bytes() != answer:
            raise SystemExit(f"{image.name}: the oracle's answer is not the listing")


if __name__ == "__main__":
    stored.store(__doc__, DRIVER, inputs(), check_stock)
