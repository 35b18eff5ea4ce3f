#!/usr/bin/env python3
"""The input of the program `levels_asked`, and what the oracle answers to it.

    levels_asked.py --oracle PATH --out FOLDER

It writes FOLDER/stdin and FOLDER/stdout. The questions are those below, each for a sentence of document 01 or a clause of
document 02, R-5, and some that are generated. What the oracle answers is held to the two documents as levels.py has them,
and document 01's instants to its numbers.
"""

import argparse
import math
from pathlib import Path

import generate
from image import GREATEST_DEMAND, GREATEST_DIAMETER, LEAST_DIAMETER, MOST_FEET, MOST_LOADED
from levels import Ask, Question, instant_answers, tank_t
from programs import Program
from values import TINIEST, nudged, quotient_of_almost_half, surface, volume

GENERATED = range(1, 9)  # seeds


def about(number):
    return (nudged(number, -1), number, nudged(number, 1))


def limits():
    """"if the target is outside least..greatest": at each limit and beside it, rising, falling and standing."""
    for limit in (1.0, 12.0):
        for target in about(limit):
            yield from (tank_t(6.0, demand, target, least=1.0) for demand in (1.0, -1.0, 0.0, -0.0))
    # Least and greatest the same; a tank that stands outside them.
    yield from (tank_t(level, demand, 5.0, least=5.0, greatest=5.0) for level in (4.0, 5.0, 6.0) for demand in (2.0, -2.0))
    yield from (tank_t(level, demand) for level in (-3.0, 13.0) for demand in (2.0, -2.0))


def gaps():
    """"0 if the volume gap is under 0.5", either way."""
    for inwards in (0.5, -0.5):
        level = 6.0 + inwards / surface(tank_t(10.0, 1.0))
        yield from (tank_t(near, math.copysign(1.0, -inwards), 6.0) for near in (*about(level), level + inwards / 1e6))
    # A volume is 0 below level 0, so that there is no gap between two levels there.
    yield tank_t(-1.0, 1.0, -4.0, least=-5.0)
    yield tank_t(-1.0, 1.0, 0.001, least=-5.0)
    yield tank_t(-1.0, 1.0, 1.0, least=-5.0)


def quotients():
    """"gap / flow rounded half away from zero": about halves, and 0 where it rounds to it."""
    tank = tank_t(10.0, 1.0)
    gap = volume(tank, 12.0) - volume(tank, 10.0)
    for seconds in (0.5, 1.5, 2.5, 3.0, 627.5, 86_400.5):
        yield from (tank_t(10.0, flow) for flow in about(gap / seconds))
    yield tank_t(10.0, quotient_of_almost_half(gap))
    yield from (tank_t(10.0, flow) for flow in (MOST_LOADED, GREATEST_DEMAND, -GREATEST_DEMAND))


def never():
    """"MAX at or above 2^64", and the seconds under it; no flow, and flow the other way."""
    tank = tank_t(10.0, 1.0)
    level = 12.0 - 1.0 / surface(tank)
    gap = volume(tank, 12.0) - volume(tank, level)
    for seconds in (2.0**32, 2.0**53, 2.0**63, 2.0**64):
        yield from (tank_t(level, flow) for flow in about(gap / seconds))
    yield from (tank_t(level, flow) for flow in (TINIEST, -TINIEST, 0.0, -0.0))
    yield from (tank_t(10.0, flow, target=0.0) for flow in (1.0, -1.0))


def ranges():
    """The ends of document 01's ranges."""
    for diameter in (LEAST_DIAMETER, GREATEST_DIAMETER):
        for least, greatest in ((-MOST_FEET, MOST_FEET), (0.0, MOST_FEET), (-MOST_FEET, 0.0)):
            tank = dict(least=least, greatest=greatest, diameter=diameter)
            yield from (tank_t(1.0, demand, target, **tank) for demand, target in ((3.0, greatest), (-3.0, least)))
    for elevation in (MOST_FEET, -MOST_FEET, 0.1):
        yield Question(elevation=elevation, head=elevation + 10.0)


def no_numbers():
    """What number 10 refuses in a state and in tables, and the functions answer all the same."""
    for wrong in (math.inf, -math.inf, math.nan):
        yield from (Question(**{name: wrong}) for name in vars(Question()))
    yield tank_t(0.0, math.inf, math.inf, greatest=math.inf)


def generated():
    return (question for seed in GENERATED for question in generate.levels_case(seed).questions)


PARTS = (limits, gaps, quotients, never, ranges, no_numbers, generated)


def asked():
    return Ask([question for question, _ in instant_answers()] + [question for part in PARTS for question in part()])


def check(answer):
    """What the oracle answers is what the documents say."""
    if answer != asked().answer():
        raise SystemExit("the oracle's answer is not the right one")
    for line, (question, right) in zip(answer.splitlines(True), instant_answers()):
        if line != right:
            raise SystemExit(f"another instant than document 01's: {question.text()}: {line}")


def main():
    parser = argparse.ArgumentParser(description=__doc__, formatter_class=argparse.RawDescriptionHelpFormatter)
    parser.add_argument("--oracle", required=True)
    parser.add_argument("--out", required=True, help="the crate's folder")
    arguments = parser.parse_args()
    questions = asked()
    answer = Program(arguments.oracle).answer(questions.mode, questions.input()).decode()
    check(answer)
    out = Path(arguments.out)
    (out / "stdin").write_bytes(questions.input())
    (out / "stdout").write_text(answer)
    print(f"{len(questions.questions)} questions in {out}")


if __name__ == "__main__":
    main()
