#!/usr/bin/env python3
"""The inputs of the program `timetable_cases`, and what the oracle answers to them.

    timetable_cases.py --oracle PATH --out FOLDER

It writes FOLDER/data/case000, case001, .. and FOLDER/stdout: each case's name, the oracle's answer to it as
`timetable`, and the count of cases. The cases are those below, each for a clause of document 02, R-14, and last the
works of the stock by their names. What the oracle answers is held to the numbers of document 01, to the rules as
stops.py has them, and for the stock to its listings.
"""

import stored
from image import *
from instants import refused_images
from stops import timetable

MIDDLE = 2_000  # seconds: between two multiples, before the duration
FORESEEN = ("coldash",)  # of the stock


def works(*controls, nodes=(), **options):
    """A works with a link for its controls, for two hours where nothing else is said."""
    options = {**dict(duration=7_200, hydraulic=LONGEST_TIME, report=1_800, pattern=2_700), **options}
    nodes = [Reservoir(50.0), Junction(), *nodes]
    return Tabulate(Project(Options(**options), [], nodes, [Link(0, 1)], list(controls)), [])


def at(seconds):
    return Control(TIME, seconds)


def at_clock(seconds):
    return Control(CLOCK_TIME, seconds)


def counts():
    return stored.miscounted(works().input())


def refusals():
    """"Refused: no change": one image for each of the numbers 1 to 6."""
    return (Image(words, mode=TIMETABLE) for _, words in refused_images())


def behind():
    """Loads, right or wrong, and other bytes behind the image are not read."""
    project = works().project
    good, wrong = Load([1.0], [2.0]), Load([2e12], [2.0])
    yield Tabulate(project, [good] * 9)
    yield Tabulate(project, [good, wrong])
    yield Tabulate(project, [], b"\1\2\3")


def hydraulic():
    """"the hydraulic timestep in force is at least the report or the pattern timestep"."""
    for report, pattern in ((600, 900), (900, 600)):
        for timestep in (599, 600, 601, 899):
            yield works(report=report, pattern=pattern, hydraulic=timestep)
    yield works(report=1, pattern=1, hydraulic=1, duration=5)
    # The field 0 is an hour.
    for shorter in (3_599, 3_600, 3_601):
        yield works(report=shorter, pattern=LONGEST_TIME, hydraulic=0)
        yield works(report=LONGEST_TIME, pattern=shorter, hydraulic=0)


def day():
    """"the report or the pattern timestep is at most 86,400": a clock control due at the start comes again after it."""
    for shorter in (DAY - 1, DAY, DAY + 1):
        for longer in (shorter, LONGEST_TIME):
            yield works(at_clock(0), report=shorter, pattern=longer, duration=2 * DAY + 9)
        yield works(at_clock(0), report=LONGEST_TIME, pattern=shorter, duration=2 * DAY + 9)
    # No hydraulic timestep makes up for the two, as it does for the second clock, and no short run.
    yield works(report=DAY + 1, pattern=DAY + 1, hydraulic=DAY, duration=2 * DAY)
    yield works(report=DAY + 1, pattern=DAY + 1, duration=DAY)


def tanks():
    """"there are no tanks"; a level control without one, and a pressure control, set no instant."""
    yield works(nodes=[Tank()])
    yield works(nodes=[Tank()], flags=SKIP)
    yield works(Control(HIGH_LEVEL, 1, 2.0), Control(LOW_LEVEL, 0, 0.0), Control(LOW_PRESSURE, 1, 30.0))


def fast_path():
    """"the fast path is off"."""
    yield works(flags=SKIP)
    yield works(flags=PDA)
    yield works(Control(HIGH_PRESSURE, 1, 30.0), flags=SKIP)
    yield works(Control(LOW_LEVEL, 1, 2.0), flags=SKIP | PDA)
    # Three reasons at once, and all four.
    yield works(flags=SKIP, report=DAY + 1, pattern=DAY + 1, hydraulic=1)
    yield works(flags=SKIP, report=DAY + 1, pattern=DAY + 1, hydraulic=1, nodes=[Tank()])


def multiples():
    """"multiples of report and of pattern timestep", which go by the start whatever the patterns' is."""
    yield works(report=600, pattern=900, pattern_start=300)
    yield works(report=600, pattern=600)
    yield works(report=7, pattern=11, duration=78)
    yield works(report=LONGEST_TIME, pattern=1_000)
    yield works(report=1_000, pattern=LONGEST_TIME)


def time_controls():
    """"time-control instants", "all above 0 and not past the duration"."""
    yield works(at(0))
    yield works(at(1))
    yield works(at(MIDDLE), at(MIDDLE), at(MIDDLE + 1))
    yield works(at(1_800), at(2_700), at(5_400))
    yield works(at(7_199), at(7_200), at(7_201), at(LONGEST_TIME))


def clock_controls():
    """"instants whose clock equals a clock control": a second before, at and after the start's, at midnight, on every
    day."""
    late = dict(start_clock=82_800, report=DAY, pattern=LONGEST_TIME, duration=3 * DAY)
    for clock in (82_799, 82_800, 82_801, 0, DAY - 1):
        yield works(at_clock(clock), **late)
    yield works(at_clock(30), at_clock(30), at_clock(3_600), **late)
    yield works(at_clock(3_600), start_clock=1_000)


def durations():
    """"and the duration": none, a second, about the first multiple, ten years."""
    for duration in (0, 1, 1_799, 1_800, 1_801):
        yield works(duration=duration)
    yield works(at(0), at_clock(0), duration=0)
    yield works(hydraulic=1, duration=0)
    yield works(at(0), at(1), at_clock(1), duration=1)
    yield works(report=DAY, pattern=LONGEST_TIME, duration=LONGEST_TIME)


def causes_at_once():
    """"Instants set by two causes count once": in pairs, and all five at the duration."""
    yield works(at(1_800), at_clock(2_700), at(4_000), at_clock(4_000))
    yield works(at(5_400), at_clock(5_400), duration=5_400)


def most_controls():
    """64 of them, rising and falling, over two days."""
    yield works(*(at_clock(1_000 * number % DAY) for number in reversed(range(64))), duration=2 * DAY, report=DAY)
    yield works(*(at(7 * number) for number in range(64)), start_clock=7)


def many():
    """As many stops as the program works out at once, and one more than twice as many."""
    yield works(report=1, duration=4_096)
    yield works(report=1, duration=8_193)


WORKS = (
    behind, hydraulic, day, tanks, fast_path, multiples, time_controls, clock_controls, durations, causes_at_once,
    most_controls, many,
)
PARTS = (counts, refusals, *WORKS, stored.stock)


def inputs():
    return [case.input() for part in PARTS for case in part()]


def right_answers():
    """What documents 01 and 02 say to each input, worked out without a step."""
    yield from ("refused 1\n" for _ in counts())
    yield from (f"refused {number}\n" for number, _ in enumerate(refusals(), start=1))
    yield from (timetable(case.project) for part in WORKS for case in part())
    yield from map(answer_of_stock, stored.stock_images())


def check(answers):
    for number, (answer, right) in enumerate(zip(answers, right_answers(), strict=True)):
        if answer.decode() != right:
            raise SystemExit(f"case{number:03}: the oracle's answer is not the right one")


def answer_of_stock(image):
    """A listing that is a refusal alone is the image's. The others end their steps at the instants asked for."""
    listing = image.with_suffix(".listing").read_text()
    if listing.startswith("refused"):
        return listing
    if image.stem not in FORESEEN:
        return "none\n"
    *steps, count = listing.splitlines()[1:]
    return "".join(f"{sum(map(int, step.split()))}\n" for step in steps) + f"{count}\n"


if __name__ == "__main__":
    stored.store(__doc__, TIMETABLE, inputs(), check)
