#!/usr/bin/env python3
"""Document 01's instants and its worked listing, asked of a program.

    instants.py --ours PATH                                   a program with the modes replay, driver and levels
    instants.py --replay PATH --driver PATH --levels PATH     one program for each

They hold of the oracle as of the program that is compared with it. Each is a project made for the purpose: a time to a
level is seen as the length of a step that a level control cuts, and asked for by itself in the words of document 02,
R-5; a multiplier is seen as a reservoir's head.
"""

import argparse
import sys

import programs
from image import *
from levels import Ask, instant_answers
from values import quotient_of_almost_half, volume

FAR = LONGEST_TIME


def tank_t(level, **changes):
    return Tank(**{**dict(elevation=100.0, initial=level, least=0.0, greatest=12.0, diameter=20.0), **changes})


def one_tank(level, controls=(), report=FAR, **changes):
    """The tank at node 0, fed from node 1 through link 0, and nothing but report timesteps beside."""
    options = Options(FAR, FAR, report, FAR)
    return Project(options, nodes=[tank_t(level, **changes), Reservoir()], links=[Link(1, 0)], controls=list(controls))


def call(code):
    return Call(code)


def load(*flows, heads=()):
    return Call(LOAD_CALL, load=Load(list(flows), list(heads)))


PATTERNS, CONTROLS, CLOSE, STEP = map(call, (PATTERNS_CALL, CONTROLS_CALL, CLOSE_CALL, STEP_CALL))


class Asked:
    """A program, and what it answered otherwise than document 01."""

    def __init__(self, program):
        self.program = program
        self.asked = 0
        self.wrong = []

    def expect(self, what, expected, got):
        self.asked += 1
        if expected != got:
            self.wrong.append(f"{what}: {got} instead of {expected}")

    def replay(self, project, *calls):
        """The lines after the start, each as its words."""
        return [line.split(" ") for line in self.answer(Replay(project, list(calls))).split("\n")[1:-1]]

    def step(self, project, *calls):
        """The length of a step after these calls."""
        return self.replay(project, *calls, STEP)[-1][1]

    def answer(self, case):
        return self.program.answer(case.mode, case.input()).decode()


def head(line, node=0):
    return float_of(int(line[4 + 3 * node], 16))


def tank_times(asked):
    for level, flow, seconds in ((10.0, 1.0, "628"), (10.0, 2.0, "314"), (11.998, 1.0, "1")):
        asked.expect(f"level {level}, flow {flow}", seconds, asked.step(one_tank(level), load(flow)))
    for level, flow in ((12.0, -1.0), (11.999, 1.0), (11.998, 2.0)):
        project = one_tank(level, report=7200)
        asked.expect(f"level {level}, flow {flow}: 0, dropped", "7200", asked.step(project, load(flow)))
    to_least = one_tank(12.0, [Control(LOW_LEVEL, 0, 0.0)])
    asked.expect("level 12, flow -1, time to least", "3770", asked.step(to_least, load(-1.0)))
    to_greatest = one_tank(12.0, [Control(HIGH_LEVEL, 0, 12.0)], report=7200)
    asked.expect("level 12, flow -1, time to greatest: 0, dropped", "7200", asked.step(to_greatest, load(-1.0)))


def new_heads(asked):
    """A second tank stands at its limit, so that no tank time cuts the hour."""
    project = one_tank(10.0, report=3600)
    project.nodes.append(tank_t(12.0))
    project.links.append(Link(1, 2))
    for demand, expected in ((1.0, 112.0), (-1.0, 100.0)):
        lines = asked.replay(project, load(demand, 1.0), STEP)
        asked.expect("a tank at its limit hides another's time", "3600", lines[-1][1])
        asked.expect(f"head 110, demand {demand}, 3,600 s", expected, head(lines[-1]))


def control_times(asked):
    for start_clock, length in ((1800, "100000"), (3600, "84600"), (1799, "1"), (1801, "86399")):
        project = one_control(Options(FAR, FAR, 100_000, FAR, start_clock=start_clock), Control(CLOCK_TIME, 1800))
        asked.expect(f"clock control 1,800 at clock {start_clock}", length, asked.step(project))
    project = one_control(Options(FAR, FAR, 901, FAR), Control(TIME, 900))
    lengths = [line[1] for line in asked.replay(project, STEP, STEP, STEP)]
    asked.expect("time control 900: from 0, 900 and 901", ["900", "1", "901"], lengths)


def one_control(options, control):
    return Project(options, nodes=[Reservoir(), Junction()], links=[Link(0, 1)], controls=[control])


def clock_and_pattern(asked):
    project = Project(Options(FAR, FAR, 7200, FAR, start_clock=82_800), premises=[Premise(0, 11, 0, 0, SECONDS, 3600)])
    lines = asked.replay(project, STEP, Call(PREMISE_CALL))
    asked.expect("start clock 82,800, time 7,200: clock 3,600", "true", lines[-1][1])
    project = Project(Options(FAR, FAR, FAR, 3600, pattern_start=3600), [Pattern([5.0, 7.0])], [Reservoir(1.0, 1)])
    lines = asked.replay(project, STEP, STEP, PATTERNS)
    asked.expect("pattern start and timestep 3,600, time 7,200", 7.0, head(lines[-1]))


def comparisons(asked):
    truths = dict(Eq="true", Ne="false", Gt="false", Lt="false", Ge="true", Le="true")
    for comparison, name in enumerate(COMPARISONS):
        project = Project(Options(), nodes=[Junction()], premises=[Premise(0, 1, 0, comparison, NUMBER, 0.0)])
        lines = asked.replay(project, load(heads=[0.0005]), Call(PREMISE_CALL))
        asked.expect(f"gap 0.0005 against 0, {name}", truths[name], lines[-1][1])


def fast_path(asked):
    project = Project(Options(10_000, 0, 7200, 3600, flags=SKIP), nodes=[Reservoir()])
    lengths = [line[1] for line in asked.replay(project, STEP, STEP, STEP)]
    asked.expect("fast path, report 7,200, duration 10,000", ["7200", "2800", "0"], lengths)


def roundings(asked):
    level, flow = next(level_and_flow_of_almost_half())
    project = one_tank(level, report=7200)
    asked.expect("gap / flow of 0.49999999999999994: 0, dropped", "7200", asked.step(project, load(flow)))
    asked.expect("flow 5e-324: never", "7200", asked.step(project, load(5e-324)))


def level_and_flow_of_almost_half():
    """Not every gap has a flow whose quotient is the greatest number under one half."""
    for level in range(12):
        tank = tank_t(float(level))
        gap = volume(tank, tank.greatest) - volume(tank, tank.initial)
        flow = quotient_of_almost_half(gap)
        if gap / flow == 0.49999999999999994:
            yield tank.initial, flow


def closing(asked):
    for overflow, status in ((0, TEMP_CLOSED), (1, OPEN)):
        line = asked.replay(one_tank(12.0, overflow=overflow), load(1.0), CLOSE)[-1]
        asked.expect(f"full tank, overflow {overflow}, link into it", status, int(line[-2], 16))


def refused_images():
    """What is wrong and the words, one image for each of the numbers 1 to 6 in their order."""
    bare = Project(Options())
    return (
        ("no words", []),
        ("a pattern before the options", Pattern([1.0]).words()),
        ("options cut", bare.words()[:-1]),
        ("33 patterns", Project(Options(), [Pattern([1.0])] * (MOST_PATTERNS + 1)).words()),
        ("pattern timestep 0", Project(Options(pattern=0)).words()),
        ("default pattern to nothing", Project(Options(default_pattern=1)).words()),
    )


def refusals(asked):
    """One image or call for each number that a program can be made to answer."""
    bare = Project(Options())
    for number, (what, words) in enumerate(refused_images(), start=1):
        asked.expect(what, f"refused {number}\n", asked.answer(Image(words)))
    asked.expect("a load with a flow too many", "refused=7", asked.replay(bare, load(1.0))[0][1])
    junction = Project(Options(), nodes=[Junction()])
    asked.expect("an infinite head", "refused=8", asked.replay(junction, load(heads=[float("inf")]))[0][1])
    asked.expect("premise 0 of none", "refused=9", asked.replay(bare, Call(PREMISE_CALL))[0][1])


def times_to_levels(asked):
    """Document 02, R-5: the new answers "in document 01's cases .. too"."""
    for question, answer in instant_answers():
        asked.expect(question.text(), answer, asked.answer(Ask([question])))


LISTING = "from length\n0 3600\n3600 3600\n7200 2800\nsteps 3\n"


def listing(asked):
    project = Project(Options(10_000, 5000, 7200, 3600), nodes=[tank_t(10.0)])
    asked.expect("the worked listing", LISTING, asked.answer(Drive(project, [])))
    asked.expect("a driver without words", "refused 1\n", asked.answer(Image([], mode=DRIVER)))
    stray = b"\0"
    asked.expect("a stray byte for a load", "from length\nrefused 7\n", asked.answer(Drive(project, [], stray)))
    late = Drive(project, [Load([], [])] * 3, stray)
    asked.expect("a stray byte after the last step", LISTING, asked.answer(late))


REPLAY_ROWS = (
    tank_times, new_heads, control_times, clock_and_pattern, comparisons, fast_path, roundings, closing, refusals,
)


def main():
    parser = argparse.ArgumentParser(description=__doc__, formatter_class=argparse.RawDescriptionHelpFormatter)
    programs.add_arguments(parser)
    program = programs.named_by(parser.parse_args(), parser)
    asked = Asked(program)
    for row in REPLAY_ROWS if program.can(REPLAY) else ():
        row(asked)
    if program.can(DRIVER):
        listing(asked)
    if program.can(LEVELS):
        times_to_levels(asked)
    for wrong in asked.wrong:
        print(wrong)
    print(f"{asked.asked - len(asked.wrong)} of {asked.asked} as document 01 says")
    sys.exit(1 if asked.wrong else 0)


if __name__ == "__main__":
    main()
