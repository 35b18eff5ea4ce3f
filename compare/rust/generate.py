#!/usr/bin/env python3
"""Random projects, lists of calls, driver inputs and damaged images, each fixed by its seed.

    generate.py --replay SEED | --edge SEED | --hours SEED | --order SEED | --slow SEED | --close SEED |
                --driver SEED | --strain SEED | --full SEED | --stops SEED | --levels SEED | --image SEED |
                --sweep NUMBER
                [--out FILE] [--text]

A sweep's images are not random: they try each field's limits, each header and each table's end one by one.
With --text the image and its loads are written as the text of tools/image; why the input is refused stands in front,
and the calls of a replay behind it, as comments. Questions for times to levels have no image: their text is a line each.
"""

import argparse
import math
import sys
from dataclasses import dataclass
from pathlib import Path

sys.path.insert(0, str(Path(__file__).resolve().parents[2] / "tools"))

import damage
import image_show
import limits
from image import *
from levels import Ask, Question
from steps import Levels, advance, put_load, start_head, starting_levels, time_to_reach
from stops import shorter_timestep, stops
from values import *
from walk import refusals


def replay_case(seed):
    chance = Chance(f"replay {seed}")
    project = make_project(chance)
    moments = make_moments(chance, project)
    project.premises = make_premises(chance, project, moments)
    if len(project.links) == MOST_LINKS and chance.one_in(2):
        fill_up(project)
    return Replay(project, make_calls(chance, project, moments))


def drive_case(seed):
    chance = Chance(f"driver {seed}")
    project = make_project(chance)
    shorten(chance, project)
    moments = make_moments(chance, project)
    project.premises = make_premises(chance, project, moments)
    if chance.one_in(8):
        return short_image(damage.damaged(chance, project), DRIVER)
    loads = [moment.load for moment in moments[: chance.randint(0, len(moments))]]
    if chance.one_in(4):
        loads.append(damage.spoilt_load(chance, chance.choice(moments).load))
    tail = bytes(chance.choice((1, 2, 3))) if chance.one_in(8) else b""
    return Drive(project, loads, tail)


def edge_case(seed):
    """Calls on tanks that stay at their least level, and level controls whose targets it misses by just the tolerance.

    To the last bit that is only possible at level 0; at others the target is one of those about it.
    """
    chance = Chance(f"edge {seed}")
    project = make_project(chance)
    for index in project.tanks():
        tank = project.nodes[index]
        tank.least = chance.among((2, 0.0), (2, lambda: float(chance.randint(1, 9))), (1, tank.least))
        tank.greatest, tank.initial = max(tank.greatest, tank.least), tank.least
    for control in project.controls:
        node = project.nodes[control.subject] if control.condition in (HIGH_LEVEL, LOW_LEVEL) else None
        if isinstance(node, Tank):
            level = node.elevation + node.least - node.elevation
            target = level + (L_TOL if control.condition == HIGH_LEVEL else -L_TOL)
            control.target = min(max(beside(chance, target), -MOST_FEET), MOST_FEET)
            set_action(chance, control, chance.choice((1, 2, 3)))
    loads = [drained(chance, project, moment.load) for moment in make_moments(chance, project)]
    return Replay(project, [call for load in loads for call in driver_cycle(chance, project, load)])


def drained(chance, project, load):
    """The load with nothing but outflow for most of the tanks."""
    for tank in project.tanks() if not chance.one_in(4) else []:
        for number, link in enumerate(project.links):
            if tank in (link.start, link.end):
                load.flows[number] = math.copysign(load.flows[number], -1.0 if link.end == tank else 1.0)
    return load


def hours_case(seed):
    """Loads on one tank, and after each a premise about its fill or drain time, which misses its number by just the
    tolerance, give or take the last place; then a long step, and premises about the second at which it ends."""
    chance = Chance(f"hours {seed}")
    tank = Tank(make_elevation(chance), initial=chance.uniform(2.0, 8.0), greatest=10.0, diameter=diameter(chance))
    level = tank.elevation + tank.initial - tank.elevation
    length = chance.randint(1 << 24, LONGEST_TIME - 1)
    options = Options(LONGEST_TIME, LONGEST_TIME, length, length)
    project = Project(options, [], [tank, Reservoir(50.0)], [Link(1, 0)])
    calls = []
    for number in range(12):
        target, attribute = chance.choice(((tank.greatest, 4), (tank.least, 5)))
        flow = (volume(tank, target) - volume(tank, level)) / chance.randint(100, 1_000_000)
        hours = time_to_reach(tank, level, target, flow) / 3600.0
        value = beside(chance, hours + chance.choice((H_TOL, -H_TOL)))
        project.premises.append(Premise(0, attribute, 0, chance.randrange(6), NUMBER, min(value, MOST_LOADED)))
        calls += [Call(LOAD_CALL, load=Load([flow], [])), Call(PREMISE_CALL, premise=number)]
    calls += [Call(LOAD_CALL, load=Load([0.0], [])), Call(STEP_CALL)]
    for number in range(12, 16):
        value = length + chance.randint(-1, 1)
        project.premises.append(Premise(0, 10, 0, chance.randrange(6), SECONDS, value))
        calls.append(Call(PREMISE_CALL, premise=number))
    return Replay(project, calls)


def order_case(seed):
    """Lists in which controls of several kinds act at once by one link, so that their order shows."""
    chance = Chance(f"order {seed}")
    project = order_project(chance)
    loads = [moment.load for moment in make_moments(chance, project, most=6)]
    return Replay(project, [call for load in loads for call in driver_cycle(chance, project, load)])


def slow_case(seed):
    """Lists with the second clock's call among the others, on projects that it serves and some that it refuses."""
    chance = Chance(f"slow {seed}")
    project = slow_project(chance)
    moments = make_moments(chance, project, most=4)
    project.premises = make_premises(chance, project, moments)
    calls = slow_calls(chance, project, [moment.load for moment in moments])
    return Replay(project, walked_at_most(project, calls, DAY * chance.choice((1, 1, 1, 2, 2, 4, 20))))


def close_case(seed):
    """Lists with closing by the table among the other calls, on works of many tanks and of many links at them. A few
    lists have a code that no call has, or are cut."""
    chance = Chance(f"close {seed}")
    project = close_project(chance)
    moments = make_moments(chance, project, most=4)
    project.premises = make_premises(chance, project, moments)
    loads = [through_tanks(chance, moment.load) for moment in moments]
    case = Replay(project, close_calls(chance, project, loads))
    return broken_list(chance, case) if chance.one_in(12) else case


def strain_case(seed):
    """A driver's run in which a great flow passes through the tank and little stays: the order of the sum shows."""
    chance = Chance(f"strain {seed}")
    tank = Tank(make_elevation(chance), initial=5.0, greatest=10.0, diameter=1.0)
    ends = chance.sample(((1, 0), (2, 0), (0, 1), (0, 2)), 3)
    links = [Link(start, end, status=OPEN) for start, end in ends]
    loads = [strained(chance, tank, links) for _ in range(chance.randint(1, 4))]
    options = Options(3 * DAY, LONGEST_TIME, DAY, DAY, start_clock=chance.randrange(DAY))
    return Drive(Project(options, [], [tank, Reservoir(50.0), Junction()], links), loads)


def strained(chance, tank, links):
    """The rest after the great flow is some hundred times its last place, and would move the tank in an hour or so."""
    rest = chance.sign() * volume(tank, tank.initial) / chance.randint(600, 20_000)
    great = min(abs(rest) * 2.0**52 / chance.uniform(50.0, 5000.0), MOST_LOADED)
    inflows = [great, -great, rest]
    chance.shuffle(inflows)
    flows = [inflow if link.end == 0 else -inflow for inflow, link in zip(inflows, links)]
    return Load(flows, [chance.uniform(0.0, 100.0)])


def full_case(seed):
    """A driver's run on tables that are full, of few flows, so that the last control, tank and link show in the steps;
    now and then one whose listing is longer than the program under comparison writes at once."""
    chance = Chance(f"full {seed}")
    if chance.one_in(40):
        return long_run(chance)
    project = full_project(chance)
    return Drive(project, [quiet_load(chance, project) for _ in range(chance.randint(1, 3))])


def stops_case(seed):
    """Images for the timetable, mostly of works that are foreseen, at and about the edges of what is; few are refused.
    Some have loads or other bytes behind them, which are not read."""
    chance = Chance(f"stops {seed}")
    project = stops_project(chance)
    if chance.one_in(12):
        spoilt = chance.among((6, lambda: damage.damaged(chance, project)), (1, lambda: miscounted(chance, project)))
        return short_image(spoilt, TIMETABLE)
    load = Load([0.0] * len(project.links), [0.0] * len(project.junctions()))
    tail = bytes(chance.randint(1, 6)) if chance.one_in(8) else b""
    return Tabulate(project, [load] * chance.choice((0, 0, 0, 1, 2)), tail)


def levels_case(seed):
    """Questions for the time to a level."""
    chance = Chance(f"levels {seed}")
    return Ask([make_question(chance) for _ in range(chance.randint(1, 40))])


def miscounted(chance, project):
    """An image under a count of none, of too many, or of more words than there are."""
    words = project.words()
    return Image(words, chance.choice((0, len(words) + 1, MOST_WORDS, MOST_WORDS + 1, limits.ONES)))


def short_image(image, mode, longest=50):
    """A damaged image for a run. The damage may lie in the times, so the duration is kept short."""
    image.mode = mode
    if len(image.words) > 1 and image.words[1] <= LONGEST_TIME:
        image.words[1] = min(image.words[1], longest)
    return image


def image_case(seed):
    chance = Chance(f"image {seed}")
    project = make_project(chance)
    project.premises = make_premises(chance, project, make_moments(chance, project, most=1))
    return damage.damaged(chance, project)


def sweep_case(number):
    images = limits.sweep()
    return images[number % len(images)]


# Projects


def make_project(chance):
    return sized_project(chance, make_sizes(chance), make_options(chance))


def sized_project(chance, sizes, options):
    project = Project(options)
    project.patterns = [make_pattern(chance) for _ in range(sizes["patterns"])]
    options.default_pattern = pattern_word(chance, project)
    project.nodes = [make_node(chance, project, sizes["tanks"] == "some") for _ in range(sizes["nodes"])]
    if sizes["tanks"] == "one" and project.nodes:
        # A tank at a limit hides the times of all others, so one alone shows more.
        project.nodes[chance.randrange(len(project.nodes))] = make_tank(chance)
    if len(project.nodes) > 1:
        project.links = [make_link(chance, project) for _ in range(sizes["links"])]
        connect_tanks(chance, project)
    if project.links:
        project.controls = [make_control(chance, project) for _ in range(sizes["controls"])]
    return project


def make_sizes(chance):
    tanks = chance.among((2, "none"), (5, "one"), (3, "some"))
    controls = not chance.one_in(2 if tanks == "none" else 4)
    kind = chance.among((40, "small"), (12, "middling"), (1, "largest"))
    if kind == "largest":
        return dict(patterns=MOST_PATTERNS, nodes=MOST_NODES, links=MOST_LINKS, controls=MOST_CONTROLS, tanks="some")
    most = 1 if kind == "small" else 6
    return dict(
        patterns=chance.randint(0, 3 * most),
        nodes=chance.randint(0, 1) if chance.one_in(10) else chance.randint(2, 6 * most),
        links=0 if chance.one_in(10) else chance.randint(1, 8 * most),
        controls=chance.randint(1, 5 * most) if controls else 0,
        tanks=tanks,
    )


def make_options(chance):
    report, pattern = timestep(chance), timestep(chance)
    hydraulic = 0 if chance.one_in(5) else timestep(chance)
    if chance.one_in(2):
        # Long timesteps, so that tanks and controls cut the steps.
        report, pattern = chance.choices((7200, DAY, DAY + 1, 7 * DAY, LONGEST_TIME), k=2)
        hydraulic = chance.choice((0, LONGEST_TIME, DAY, LONGEST_TIME))
    return timed_options(chance, report, pattern, hydraulic)


def timed_options(chance, report, pattern, hydraulic):
    """Options with these timesteps."""
    return Options(
        duration=make_duration(chance, (report, pattern, hydraulic or HOUR)),
        hydraulic=hydraulic,
        report=report,
        pattern=pattern,
        pattern_start=instant(chance),
        start_clock=chance.among((2, 0), (2, lambda: chance.randrange(DAY)), (1, 1), (1, 82_800), (1, DAY - 1)),
        flags=chance.randrange(4),
        multiplier=1.0 if chance.one_in(2) else ordinary(chance, MOST_OTHER),
    )


def make_duration(chance, timesteps):
    """From none to ten years, often a whole number of timesteps and a little more or less."""
    whole = chance.choice(timesteps) * chance.randint(1, 12) + chance.choice((0, 0, 1, -1, 77))
    duration = chance.among(
        (6, whole),
        (3, lambda: chance.choice((10_000, DAY, 7 * DAY, 3 * DAY + 1))),
        (1, lambda: chance.choice((0, 1, 2))),
        (1, lambda: chance.choice((LONGEST_TIME, LONGEST_TIME - 1))),
        (1, lambda: chance.randint(0, LONGEST_TIME)),
    )
    return min(max(duration, 0), LONGEST_TIME)


def shorten(chance, project, most_steps=600):
    """Cuts the duration so that a driver's run has few steps: the options' share of document 01's bound."""
    options = project.options
    timesteps = [options.report]
    if not project.is_on_fast_path():
        timesteps += [options.pattern, options.hydraulic_in_force(), DAY // (1 + len(project.controls))]
    each = 1.0 / sum(1.0 / seconds for seconds in timesteps)
    options.duration = int(min(options.duration, each * chance.randint(1, most_steps)))


def make_pattern(chance):
    length = chance.among((8, lambda: chance.randint(1, 5)), (2, lambda: chance.randint(1, 30)), (1, 24), (1, 168))
    return Pattern([ordinary(chance, MOST_OTHER) for _ in range(length)])


def pattern_word(chance, project):
    return chance.randint(0, len(project.patterns))


def make_node(chance, project, tanks):
    return chance.among(
        (2, lambda: Reservoir(make_elevation(chance), pattern_word(chance, project))),
        (4 if tanks else 0, lambda: make_tank(chance)),
        (4, lambda: make_junction(chance, project)),
    )


def make_elevation(chance):
    return chance.among(
        (5, lambda: chance.choice((0.0, -0.0, 10.0, 100.0, 101.0, 250.0))),
        (1, 0.1),
        (1, lambda: chance.uniform(-500.0, 500.0)),
        (1, lambda: wide(chance, MOST_FEET)),
    )


def make_junction(chance, project):
    count = chance.randint(0, MOST_DEMANDS)
    demands = [(ordinary(chance, MOST_OTHER), pattern_word(chance, project)) for _ in range(count)]
    return Junction(int(chance.one_in(4)), make_elevation(chance), demands)


def make_tank(chance):
    tank = Tank(elevation=make_elevation(chance), diameter=diameter(chance), overflow=int(chance.one_in(3)))
    tank.least = chance.among(
        (6, 0.0),
        (2, lambda: float(chance.randint(-5, 5))),
        (1, -0.0),
        (1, lambda: wide(chance, 0.9 * MOST_FEET)),
    )
    room = chance.among(
        (12, lambda: float(chance.randint(1, 20))),
        (1, 0.0),
        (1, lambda: chance.uniform(0.0, 3.0)),
        (1, lambda: 0.5 / surface(tank)),
    )
    tank.greatest = min(tank.least + room, MOST_FEET)
    tank.initial = make_level(chance, tank)
    return tank


def make_level(chance, tank):
    """A level at a limit, a gap of about half a cubic foot or of a few from one, between the limits, or outside."""
    limit, inwards = chance.choice(((tank.greatest, -1.0), (tank.least, 1.0)))
    gap = chance.choice((0.5, 0.5, 0.25, 0.49, 0.51, 1.0, 2.5, 10.0))
    level = chance.among(
        (3, limit),
        (3, lambda: beside(chance, limit + inwards * gap / surface(tank))),
        (1, lambda: beside(chance, limit)),
        (5, lambda: chance.uniform(tank.least, tank.greatest)),
        (1, lambda: limit - inwards * chance.choice((0.001, 1.0, 5.0))),
        (1, lambda: wide(chance, MOST_FEET)),
    )
    return min(max(level, -MOST_FEET), MOST_FEET)


def make_link(chance, project):
    start, end = chance.sample(range(len(project.nodes)), 2)
    tanks = project.tanks()
    if tanks and chance.one_in(2):
        start, end = two_ends(chance, chance.choice(tanks), len(project.nodes))
    sort = chance.choice((PIPE, PUMP, VALVE))
    size = ordinary(chance, MOST_OTHER) if sort == PUMP else diameter(chance)
    return Link(start, end, sort, make_status(chance), size, 0.0 if sort == PIPE else make_setting(chance))


def connect_tanks(chance, project):
    """Gives a tank without links one of the links that are there, mostly."""
    for tank in project.tanks():
        connected = any(tank in (link.start, link.end) for link in project.links)
        if project.links and not connected and not chance.one_in(6):
            link = chance.choice(project.links)
            link.start, link.end = two_ends(chance, tank, len(project.nodes))


def two_ends(chance, tank, nodes):
    """A tank and another node, either way round."""
    other = chance.choice([node for node in range(nodes) if node != tank])
    return (tank, other) if chance.one_in(2) else (other, tank)


def make_status(chance):
    return chance.among((3, OPEN), (1, CLOSED), (4, lambda: chance.randrange(10)))


def make_setting(chance):
    return chance.among(
        (2, 1.0),
        (1, 0.0),
        (1, -0.0),
        (2, lambda: round(chance.uniform(0.0, 2.0), 1)),
        (2, lambda: wide(chance, MOST_OTHER)),
    )


# Controls


def make_control(chance, project):
    return control_of(chance, project, chance.randrange(6))


def control_of(chance, project, condition):
    control = Control(condition, 0, link=chance.randrange(len(project.links)))
    set_action(chance, control, chance.choice((0, 1, 1, 2, 2, 3)))
    if condition == TIME:
        control.subject = control_seconds(chance, project.options)
    elif condition == CLOCK_TIME:
        control.subject = control_clock(chance, project.options)
    else:
        control.subject = control_node(chance, project, condition)
        control.target = control_target(chance, project.nodes[control.subject], condition)
    return control


def set_action(chance, control, flags):
    control.flags = flags
    control.status = make_status(chance) if flags & 1 else 0
    control.setting = make_setting(chance) if flags & 2 else 0.0


def control_seconds(chance, options):
    """Due at the start, at a timestep, a second beside it, about the end, or never."""
    timesteps = (options.report, options.pattern, options.hydraulic_in_force())
    seconds = chance.among(
        (2, 0),
        (5, lambda: chance.choice(timesteps) * chance.randint(0, 4) + chance.randint(-1, 1)),
        (2, lambda: options.duration + chance.randint(-2, 2)),
        (3, lambda: instant(chance)),
    )
    return min(max(seconds, 0), LONGEST_TIME)


def control_clock(chance, options):
    """Due at the start, soon, a second ago, or at any time of day."""
    offset = chance.among(
        (3, 0),
        (2, lambda: chance.choice((-1, 1))),
        (3, lambda: chance.choice((options.report, options.pattern, 1800))),
        (3, lambda: chance.randrange(DAY)),
    )
    return (options.start_clock + offset) % DAY


def control_node(chance, project, condition):
    tanks = project.tanks()
    if condition in (HIGH_LEVEL, LOW_LEVEL) and tanks and not chance.one_in(6):
        return chance.choice(tanks)
    return chance.randrange(len(project.nodes))


def control_target(chance, node, condition):
    """A target at or about a level that the tank will have, within the tolerance and just out of it."""
    if isinstance(node, Tank):
        tolerance = L_TOL if condition in (HIGH_LEVEL, LOW_LEVEL) else H_TOL
        level = chance.choice((node.initial, node.greatest, node.least, make_level(chance, node)))
        seen = node.elevation + level - node.elevation
        offset = chance.choice((0.0, 0.0, tolerance, tolerance, -tolerance, -tolerance, 2 * tolerance, -2 * tolerance))
        target = beside(chance, solved(lambda target: seen - target, offset, seen - offset))
    else:
        target = 0.0 if chance.one_in(4) else ordinary(chance, MOST_FEET)
    return min(max(target, -MOST_FEET), MOST_FEET)


# Loads


@dataclass
class Moment:
    """A load, and the instant, heads and demands once it is taken."""

    load: Load
    levels: Levels


def make_moments(chance, project, most=20):
    """Loads for step after step as a driver takes them, each made for the levels that the ones before lead to."""
    levels = starting_levels(project)
    moments = []
    count = chance.among((4, lambda: chance.randint(1, 5)), (1, lambda: chance.randint(6, 20)))
    for _ in range(min(count, most)):
        load = make_load(chance, project, levels)
        put_load(project, levels, load)
        moments.append(Moment(load, levels.copy()))
        advance(project, levels)
    return moments


def make_load(chance, project, levels):
    most = MOST_LOADED if chance.one_in(4) else 1e3
    flows = [ordinary(chance, most) for _ in project.links]
    for index in project.tanks():
        if not chance.one_in(6):
            put_tank_flow(chance, project, flows, index, levels.heads[index])
    return Load(flows, [make_head(chance, project, index) for index in project.junctions()])


def put_tank_flow(chance, project, flows, index, head):
    """Gives one of the tank's links a flow that is worth timing, and the others none, mostly."""
    links = [number for number, link in enumerate(project.links) if index in (link.start, link.end)]
    if not links:
        return
    carrier = chance.choice(links)
    for number in links:
        if number != carrier and not chance.one_in(4):
            flows[number] = chance.choice((0.0, 0.0, -0.0, TINIEST))
    inflow = timed_flow(chance, project, index, head)
    flows[carrier] = inflow if project.links[carrier].end == index else -inflow


def timed_flow(chance, project, index, head):
    """A flow that takes the tank from its head to a level that matters in about a whole or half second."""
    tank = project.nodes[index]
    targets = [tank.least, tank.greatest]
    targets += [control.target for control in project.controls
                if control.condition in (HIGH_LEVEL, LOW_LEVEL) and control.subject == index]
    gap = volume(tank, chance.choice(targets)) - volume(tank, head - tank.elevation)
    if abs(gap) < 0.5 or chance.one_in(4):
        return partial_flow(chance, project.options, tank, head)
    return min(max(flow_over(chance, gap), -MOST_LOADED), MOST_LOADED)


def flow_over(chance, gap):
    """A flow that makes up a gap in about a whole or half second, seldom the other way."""
    flow = chance.among(
        (4, lambda: gap / (chance.randint(0, 6) + 0.5)),
        (3, lambda: gap / chance.randint(1, 20)),
        (3, lambda: gap / (chance.randint(10, 20_000) + chance.choice((0.0, 0.5)))),
        (2, lambda: quotient_of_almost_half(gap)),
        (1, lambda: gap / chance.choice((0.1, 2.0**64, 1.8446744073709550e19, 1e30))),
        (1, lambda: math.copysign(TINIEST, gap)),
    )
    if not chance.one_in(3):
        flow = beside(chance, flow)
    return -flow if chance.one_in(8) else flow


def partial_flow(chance, options, tank, head):
    """A flow that takes the tank a part of the way between its limits in one timestep, mostly away from the nearer."""
    timesteps = (options.report, options.pattern, options.hydraulic_in_force())
    span = volume(tank, tank.greatest) - volume(tank, tank.least)
    flow = span / (chance.uniform(0.8, 6.0) * chance.choice((min(timesteps), chance.choice(timesteps))))
    if head - tank.elevation > (tank.least + tank.greatest) / 2:
        flow = -flow
    if chance.one_in(5):
        flow = -flow
    return min(max(flow, -MOST_LOADED), MOST_LOADED)


def make_head(chance, project, index):
    """A head at which a pressure control of this node is just on or just off, or any."""
    elevation = project.nodes[index].elevation
    targets = [control.target for control in project.controls
               if control.condition in (HIGH_PRESSURE, LOW_PRESSURE) and control.subject == index]
    if targets and not chance.one_in(4):
        target, offset = chance.choice(targets), chance.choice((0.0, H_TOL, -H_TOL, 2 * H_TOL, -2 * H_TOL, 1.0, -1.0))
        head = solved(lambda head: head - elevation - target, offset, elevation + (target + offset))
        return beside(chance, head)
    return chance.among((5, lambda: elevation + chance.randint(0, 100)), (1, lambda: wide(chance, MOST_LOADED)))


# Premises


def make_premises(chance, project, moments):
    count = chance.among((1, 0), (5, lambda: chance.randint(1, 8)), (1, lambda: chance.randint(8, 40)))
    if len(project.nodes) == MOST_NODES:
        count = MOST_PREMISES
    made = (make_premise(chance, project, chance.choice(moments)) for _ in range(count))
    return [premise for premise in made if premise]


def make_premise(chance, project, moment):
    """A premise about the moment, or none where the project has nothing that the attribute speaks of."""
    attribute = chance.randrange(12)
    index = premise_index(chance, project, attribute)
    if index is None:
        return None
    suits = NUMBER if attribute != 7 else STATUS
    if attribute >= 10 and chance.one_in(2):
        suits = SECONDS
    sort = chance.randrange(3) if chance.one_in(8) else suits
    value = premise_value(chance, project, moment, attribute, index, sort)
    return Premise(chance.randrange(2), attribute, index, chance.randrange(6), sort, value)


def premise_index(chance, project, attribute):
    if attribute >= 9:
        return 0
    count = len(project.nodes) if attribute < 6 else len(project.links)
    if count == 0:
        return None
    if 3 <= attribute < 6 and project.tanks() and not chance.one_in(8):
        return chance.choice(project.tanks())
    return chance.randrange(count)


def premise_value(chance, project, moment, attribute, index, sort):
    """At the attribute's value, at its tolerance, beside them, or anywhere."""
    if sort == STATUS:
        of_link = project.links[index].status if attribute == 7 else OPEN
        return chance.choice((of_link, TEMP_CLOSED, chance.randrange(10)))
    exact = attribute_value(chance, project, moment, attribute, index)
    if sort == SECONDS:
        return min(int(abs(exact)) + chance.choice((0, 0, 1)), LONGEST_TIME)
    if chance.one_in(8):
        return wide(chance, MOST_LOADED)
    offset = chance.choice((0.0, H_TOL, -H_TOL, H_TOL, -H_TOL, 2 * H_TOL, -2 * H_TOL, 1.0, -1.0))
    value = beside(chance, solved(lambda value: exact - value, offset, exact - offset))
    return min(max(value, -MOST_LOADED), MOST_LOADED)


def attribute_value(chance, project, moment, attribute, index):
    """A value that the attribute has at the moment, or may well have."""
    if attribute < 6:
        return node_value(project, moment.levels, attribute, index)
    if attribute == 6:
        return abs(chance.choice((moment.load.flows[index], project.links[index].size, Q_ZERO)))
    if attribute == 7:
        return float(project.links[index].status)
    if attribute == 8:
        settings = [control.setting for control in project.controls if control.link == index]
        return chance.choice(settings + [project.links[index].setting])
    if attribute == 9:
        return sum(moment.levels.demands)
    now = moment.levels.instant
    return float(now if attribute == 10 else (now + project.options.start_clock) % DAY)


def node_value(project, levels, attribute, index):
    node, head, demand = project.nodes[index], levels.heads[index], levels.demands[index]
    level = head - node.elevation
    if attribute == 2:
        return level * PSI_PER_FOOT
    if attribute < 3:
        return demand if attribute == 0 else head
    if attribute == 3 or not isinstance(node, Tank):
        return level
    return time_to_reach(node, level, node.greatest if attribute == 4 else node.least, demand) / 3600.0


# Calls


def make_calls(chance, project, moments):
    """Cycles like a driver's, as they are or with other calls between and some left out; then every premise."""
    loads = [moment.load for moment in moments]
    if chance.one_in(2):
        calls = [call for load in loads for call in driver_cycle(chance, project, load)]
    else:
        cycles = chance.among((1, 0), (8, lambda: chance.randint(1, 6)), (2, lambda: chance.randint(6, 20)))
        calls = [call for _ in range(cycles) for call in loose_cycle(chance, project, loads)]
        if chance.one_in(4):
            chance.shuffle(calls)
    return calls + [Call(PREMISE_CALL, premise=number) for number in range(len(project.premises))]


def driver_cycle(chance, project, load):
    cycle = [Call(PATTERNS_CALL), Call(CONTROLS_CALL), Call(LOAD_CALL, load=load.copy()), Call(CLOSE_CALL)]
    if chance.one_in(2):
        cycle.append(Call(PRESSURE_CALL))
    for number in chance.sample(range(len(project.premises)), min(len(project.premises), chance.choice((0, 1, 4)))):
        cycle.append(Call(PREMISE_CALL, premise=number))
    return cycle + [Call(STEP_CALL)]


def loose_cycle(chance, project, loads):
    cycle = []
    for code in (PATTERNS_CALL, CONTROLS_CALL, LOAD_CALL, CLOSE_CALL, PRESSURE_CALL, PREMISE_CALL, STEP_CALL):
        if not chance.one_in(6):
            cycle.append(make_call(chance, project, loads, code))
    while chance.one_in(3):
        code = chance.choice((LOAD_CALL, PRESSURE_CALL, PREMISE_CALL, PREMISE_CALL, STEP_CALL))
        cycle.insert(chance.randint(0, len(cycle)), make_call(chance, project, loads, code))
    return cycle


def make_call(chance, project, loads, code):
    if code == LOAD_CALL:
        load = chance.choice(loads).copy()
        return Call(code, load=damage.spoilt_load(chance, load) if chance.one_in(8) else load)
    if code == PREMISE_CALL:
        return Call(code, premise=premise_number(chance, project))
    return Call(code)


def premise_number(chance, project):
    count = len(project.premises)
    if count and not chance.one_in(10):
        return chance.randrange(count)
    return chance.choice((count, count, count + 1, MOST_PREMISES, 1 << 31, 0xFFFFFFFF))


def fill_up(project):
    """Lengthens patterns until the image has the most words that it may have, or one fewer."""
    room = (MOST_WORDS - len(project.words())) // 2
    for pattern in project.patterns:
        more = min(room, MOST_MULTIPLIERS - len(pattern.multipliers))
        pattern.multipliers += [1.25] * more
        room -= more


# The second clock


def slow_project(chance):
    """Mostly without tanks and with few records, so that the answers are short."""
    project = sized_project(chance, slow_sizes(chance), timed_options(chance, *slow_timesteps(chance)))
    if project.links:
        project.controls = slow_controls(chance, project)
    if project.is_on_fast_path() and not chance.one_in(3):
        project.options.flags ^= SKIP
    if chance.one_in(2):
        end_soon(chance, project)
    return project


def slow_sizes(chance):
    return dict(
        patterns=chance.randint(0, 2),
        nodes=chance.among((1, 0), (1, 1), (6, 2), (3, lambda: chance.randint(3, 6))),
        links=chance.among((1, 0), (6, 1), (3, lambda: chance.randint(2, 4))),
        controls=0,
        tanks=chance.among((7, "none"), (1, "one")),
    )


def slow_timesteps(chance):
    """Report, pattern and hydraulic: any, or all above a day but perhaps one, which is about a day or shorter."""
    timesteps = [timestep(chance) for _ in range(3)]
    if not chance.one_in(4):
        timesteps = chance.choices((DAY + 1, 100_000, 7 * DAY, LONGEST_TIME), k=3)
        timesteps[chance.randrange(3)] = chance.choice((DAY - 1, DAY, DAY, DAY + 1, timestep(chance)))
    if chance.one_in(6):
        timesteps[2] = 0
    return timesteps


def slow_controls(chance, project):
    """None, a few or as many as there may be, of some conditions only; the last is often due about a stop."""
    conditions = chance.sample(range(6), chance.randint(1, 6))
    count = chance.among((2, 0), (8, lambda: chance.randint(1, 3)), (1, lambda: chance.randint(4, 12)))
    if chance.one_in(20):
        count = MOST_CONTROLS
    controls = [control_of(chance, project, chance.choice(conditions)) for _ in range(count)]
    if controls and chance.one_in(2):
        controls[-1] = control_about_a_stop(chance, project)
    return controls


def control_about_a_stop(chance, project):
    """A time or clock control that is due where one of the first steps begins, a second before or after, or later."""
    control = control_of(chance, project, chance.choice((TIME, CLOCK_TIME)))
    due = chance.choice([0, *first_stops(project, 3)]) + chance.choice((0, 0, -1, 1, chance.randrange(DAY)))
    if control.condition == TIME:
        control.subject = min(max(due, 0), LONGEST_TIME)
    else:
        control.subject = (project.options.start_clock + due) % DAY
    return control


def first_stops(project, count):
    """The instants after the first steps, as long as nothing flows."""
    levels = starting_levels(project)
    stops = []
    for _ in range(count):
        advance(project, levels)
        stops.append(levels.instant)
    return stops


def end_soon(chance, project):
    """Puts the duration a few steps ahead, so that lists of calls get there and beyond."""
    end = first_stops(project, chance.randint(1, 8))[-1] + chance.choice((0, 0, 1, -1, 77))
    project.options.duration = min(max(end, 0), LONGEST_TIME)


def slow_calls(chance, project, loads):
    """Cycles in which the second clock takes most of the steps, and perhaps some more of its calls."""
    calls = [call for _ in range(chance.randint(1, 6)) for call in loose_cycle(chance, project, loads)]
    for call in calls:
        if call.code == STEP_CALL and not chance.one_in(4):
            call.code = SLOW_CALL
    return calls + [Call(SLOW_CALL) for _ in range(chance.choice((0, 0, 0, 2, 5)))]


def walked_at_most(project, calls, most):
    """The list with the driver's steps for the second clock's once it has walked so many seconds, each of which costs
    the program under comparison some time."""
    if refusals(project):
        return calls
    levels, walked = starting_levels(project), 0
    for call in calls:
        if call.code == SLOW_CALL and walked >= most:
            call.code = STEP_CALL
        if call.code in (STEP_CALL, SLOW_CALL):
            begins = levels.instant
            advance(project, levels)
            walked += levels.instant - begins if call.code == SLOW_CALL else 0
    return calls


# Closing by the table


def close_project(chance):
    """Tanks for most or for all of the nodes, and links that mostly have one or two of them."""
    sizes = close_sizes(chance)
    options = make_options(chance)
    project = Project(options, [make_pattern(chance) for _ in range(chance.randint(0, 2))])
    options.default_pattern = pattern_word(chance, project)
    project.nodes = [close_node(chance, project, sizes["tankless"]) for _ in range(sizes["nodes"])]
    if len(project.nodes) > 1:
        project.links = [make_link(chance, project) for _ in range(sizes["links"])]
    if project.links:
        project.controls = [make_control(chance, project) for _ in range(chance.randint(0, 3))]
    return project


def close_sizes(chance):
    """How many nodes and links, and one in how many nodes is no tank, 0 for none: then the largest table is full."""
    if chance.one_in(40):
        return dict(nodes=MOST_NODES, links=MOST_LINKS, tankless=chance.choice((0, 4)))
    return dict(
        nodes=chance.among((1, 1), (6, lambda: chance.randint(2, 5)), (4, lambda: chance.randint(6, 12))),
        links=chance.among((1, 0), (6, lambda: chance.randint(1, 8)), (4, lambda: chance.randint(9, 24))),
        tankless=chance.choice((0, 2, 4, 4)),
    )


def close_node(chance, project, tankless):
    """Mostly a tank, and mostly one at a limit, where closing changes statuses."""
    if tankless and chance.one_in(tankless):
        return make_node(chance, project, False)
    tank = make_tank(chance)
    if not chance.one_in(3):
        tank.initial = chance.choice((tank.least, tank.greatest))
    return tank


def through_tanks(chance, load):
    """The load as it is, or with flows by all links, of which great ones meet, so that the order of a sum shows."""
    if chance.one_in(3):
        return load
    great = 10.0 ** chance.randint(3, 11)
    flows = [through_flow(chance, great) for _ in load.flows]
    return Load(flows, list(load.heads))


def through_flow(chance, great):
    return chance.among(
        (6, lambda: round(chance.uniform(-50.0, 50.0), 2)),
        (3, lambda: chance.sign() * great),
        (2, lambda: chance.choice((0.0, -0.0, TINIEST, -TINIEST))),
    )


def close_calls(chance, project, loads):
    """Cycles in which closing by the table stands for the other closing or beside it, and some more of its calls."""
    cycles = [loose_cycle(chance, project, loads) for _ in range(chance.randint(1, 4))]
    calls = [closing for cycle in cycles for call in cycle for closing in closings(chance, call)]
    while chance.one_in(3):
        calls.insert(chance.randint(0, len(calls)), Call(TABLE_CALL))
    return calls


def closings(chance, call):
    """The call itself; for closing one of the two, or both."""
    if call.code != CLOSE_CALL:
        return [call]
    both = ((CLOSE_CALL, TABLE_CALL), (TABLE_CALL, CLOSE_CALL), (TABLE_CALL, TABLE_CALL))
    return [Call(code) for code in chance.choice(((CLOSE_CALL,), (TABLE_CALL,), (TABLE_CALL,), *both))]


def broken_list(chance, case):
    """The case with its end cut, or with a code that no call has."""
    if chance.one_in(3):
        case.cut = chance.randint(1, 4)
    else:
        code = chance.choice((0, LAST_CODE + 1, LAST_CODE + 1, LAST_CODE + 2, 1 << 31, limits.ONES))
        case.calls.insert(chance.randint(0, len(case.calls)), Call(code))
    return case


# Controls in order


def order_project(chance):
    """One or two links at a tank, and controls of them that are due at the same few instants or go by its level."""
    each = chance.choice((60, 900, HOUR))
    options = Options(8 * each, each, each, each, start_clock=chance.randrange(DAY))
    project = Project(options, [], [tank_between(chance), Reservoir(50.0), Junction()])
    project.links = [Link(*two_ends(chance, 0, 3), sort=VALVE) for _ in range(chance.randint(1, 2))]
    project.controls = [order_control(chance, project, each) for _ in range(chance.randint(4, 12))]
    return project


def order_control(chance, project, each):
    control = control_of(chance, project, chance.choice((HIGH_LEVEL, LOW_LEVEL, TIME, CLOCK_TIME)))
    set_action(chance, control, chance.choice((1, 2)))
    due = each * chance.randint(0, 3)
    if control.condition == TIME:
        control.subject = due
    elif control.condition == CLOCK_TIME:
        control.subject = (project.options.start_clock + due) % DAY
    else:
        control.subject, control.target = 0, chance.uniform(0.0, 10.0)
    return control


# Runs on full tables


def full_project(chance):
    """As many controls as there may be, of some kinds only; or as many nodes and links; or both. The last node is a
    tank, the last link is at it, and the last control sets that."""
    is_large = chance.one_in(3)
    project = Project(full_options(chance))
    project.nodes = [full_node(chance, project) for _ in range(MOST_NODES if is_large else chance.randint(2, 6))]
    project.nodes[-1] = tank_between(chance)
    project.links = [make_link(chance, project) for _ in range(MOST_LINKS if is_large else chance.randint(1, 8))]
    last = project.links[-1]
    last.start, last.end = two_ends(chance, len(project.nodes) - 1, len(project.nodes))
    conditions = chance.choice(((HIGH_LEVEL, LOW_LEVEL), (TIME,), (CLOCK_TIME,), chance.sample(range(6), 3)))
    count = chance.randint(1, MOST_CONTROLS) if is_large and chance.one_in(2) else MOST_CONTROLS
    project.controls = [full_control(chance, project, chance.choice(conditions)) for _ in range(count)]
    project.controls[-1].link = len(project.links) - 1
    shorten(chance, project, most_steps=200)
    return project


def full_options(chance):
    """Long timesteps, so that tanks and controls cut the steps."""
    return timed_options(chance, *chance.choices((DAY, 7 * DAY, LONGEST_TIME), k=3))


def full_node(chance, project):
    """Mostly a tank that leaves the others their times."""
    return make_node(chance, project, True) if chance.one_in(4) else tank_between(chance)


def tank_between(chance):
    """A tank with some room above its level and below."""
    return Tank(make_elevation(chance), chance.uniform(2.0, 8.0), greatest=10.0, diameter=diameter(chance))


def full_control(chance, project, condition):
    """A control that goes by the last tank as often as by any other node, where it goes by a level."""
    control = control_of(chance, project, condition)
    if condition in (HIGH_LEVEL, LOW_LEVEL) and chance.one_in(2):
        control.subject, control.target = len(project.nodes) - 1, chance.uniform(0.0, 10.0)
    return control


def quiet_load(chance, project):
    """A load with flows by the last link and perhaps one more, which take a tank at its start somewhere."""
    flows = [0.0] * len(project.links)
    for number in (chance.randrange(len(flows)), len(flows) - 1):
        link = project.links[number]
        tanks = [node for node in (link.start, link.end) if isinstance(project.nodes[node], Tank)]
        if tanks:
            tank = chance.choice(tanks)
            inflow = timed_flow(chance, project, tank, start_head(project.nodes[tank]))
            flows[number] = inflow if link.end == tank else -inflow
    return Load(flows, [make_head(chance, project, index) for index in project.junctions()])


def long_run(chance):
    """Some thousand steps, in the later half of which the tank is full or empty, unless a control turns its flow; it
    passes the targets of others on the way."""
    each, steps = chance.choice((HOUR, 10 * HOUR)), chance.randint(5_000, 7_000)
    options = Options(each * steps, LONGEST_TIME, each, each, start_clock=chance.randrange(DAY))
    tank = tank_between(chance)
    tank.diameter = chance.uniform(100.0, 1_000.0)
    gap = volume(tank, chance.choice((tank.least, tank.greatest))) - volume(tank, tank.initial)
    flow = gap / (options.duration * chance.uniform(0.5, 1.0))
    project = Project(options, [], [tank, Reservoir(50.0)], [Link(1, 0, PUMP, OPEN, -flow, 1.0)])
    project.controls = [Control(HIGH_LEVEL, 0, chance.uniform(tank.least, tank.greatest)) for _ in range(4)]
    if chance.one_in(3):
        project.controls.append(Control(TIME, chance.randrange(options.duration), flags=1, status=OPEN))
    return Drive(project, [Load([flow], [])])


# The timetable

# The program under comparison works out so many stops at once.
CHUNK = 4_096

# A program that takes a works with a short hydraulic timestep for foreseen has to come to an end too.
MOST_STOPS = 20_000


def stops_project(chance):
    """Mostly without tanks and with few records beside the controls."""
    project = sized_project(chance, slow_sizes(chance), timed_options(chance, *stops_timesteps(chance)))
    if project.links:
        project.controls = slow_controls(chance, project)
        move_controls(chance, project)
    if project.is_on_fast_path() and not chance.one_in(3):
        project.options.flags ^= SKIP
    end_stops(chance, project)
    return project


def end_stops(chance, project):
    """Puts the duration about one of the first stops, or now and then where a program that works in chunks ends one."""
    if chance.one_in(20):
        end_at_stop(project, chance.choice((CHUNK - 1, CHUNK, CHUNK, CHUNK + 1, CHUNK + 1, 2 * CHUNK, 4 * CHUNK)))
    else:
        end_about_a_stop(chance, project)
        move_to_the_end(chance, project)
    options = project.options
    options.duration = min(options.duration, MOST_STOPS * options.hydraulic_in_force())


def stops_timesteps(chance):
    """Report, pattern and hydraulic: the shorter of the first two at and about a day or an hour, or any; the longer its
    multiple, close behind it or far off; the hydraulic at and about either, between them, 0 or no bound."""
    shorter = chance.among(
        (3, lambda: chance.choice((DAY - 1, DAY, DAY, DAY + 1))),
        (2, lambda: HOUR + chance.randint(-1, 1)),
        (2, lambda: chance.randint(1, 40)),
        (4, lambda: timestep(chance)),
    )
    longer = chance.among(
        (3, lambda: shorter * chance.randint(1, 4)),
        (2, lambda: shorter + chance.randint(0, shorter)),
        (2, lambda: max(shorter, chance.choice((DAY - 1, DAY, DAY + 1, LONGEST_TIME)))),
    )
    longer = min(longer, LONGEST_TIME)
    hydraulic = chance.among(
        (5, lambda: shorter + chance.choice((-1, 0, 0, 1))),
        (2, lambda: longer + chance.randint(-1, 1)),
        (2, lambda: chance.randint(shorter, longer)),
        (2, 0),
        (2, LONGEST_TIME),
        (1, lambda: timestep(chance)),
    )
    report, pattern = chance.sample((shorter, longer), 2)
    return report, pattern, min(hydraulic, LONGEST_TIME)


def move_controls(chance, project):
    """Moves half of the controls that go by the time to the start, to a multiple, to midnight or onto another."""
    options = project.options
    for control in project.controls:
        others = [other.subject for other in project.controls if other.condition == control.condition]
        if control.condition == TIME and chance.one_in(2):
            multiple = chance.choice((options.report, options.pattern)) * chance.randint(1, 4)
            control.subject = min(chance.choice((0, 1, multiple, chance.choice(others))), LONGEST_TIME)
        elif control.condition == CLOCK_TIME and chance.one_in(2):
            control.subject = chance.choice((0, DAY - 1, options.start_clock, chance.choice(others)))


def end_at_stop(project, number):
    """Puts the duration at the stop of this number, or at the last that a run may have."""
    options = project.options
    options.duration = min(number * shorter_timestep(project), LONGEST_TIME)
    options.duration = list(stops(project))[:number][-1]


def end_about_a_stop(chance, project):
    """Puts the duration at one of the first stops or a little off it, before the first, or at 0."""
    end_at_stop(project, chance.randint(1, 60))
    end = project.options.duration
    end = chance.among(
        (6, end),
        (3, lambda: end + chance.choice((-1, 1, 77))),
        (1, lambda: chance.choice((0, 1, 2))),
        (1, lambda: chance.randrange(shorter_timestep(project))),
    )
    project.options.duration = min(max(end, 0), LONGEST_TIME)


def move_to_the_end(chance, project):
    """Moves one of the controls that go by the time to the duration, or a second off it, now and then."""
    controls = [control for control in project.controls if control.condition in (TIME, CLOCK_TIME)]
    if controls and chance.one_in(3):
        control, options = chance.choice(controls), project.options
        due = min(max(options.duration + chance.choice((0, 0, -1, 1)), 0), LONGEST_TIME)
        control.subject = due if control.condition == TIME else (options.start_clock + due) % DAY


# Times to levels


def make_question(chance):
    """A tank at or about a level that matters, mostly with a flow that is worth timing; at times with what is no number."""
    tank = make_tank(chance)
    target = question_target(chance, tank)
    question = Question(tank.elevation, tank.least, tank.greatest, tank.diameter, start_head(tank), target)
    gap = volume(tank, chance.choice((target, target, tank.greatest, tank.least))) - volume(tank, question.level())
    timed = abs(gap) > 0.1 and not chance.one_in(5)
    question.demand = flow_over(chance, gap) if timed else wide(chance, GREATEST_DEMAND)
    if chance.one_in(25):
        setattr(question, chance.choice(list(vars(question))), chance.choice(BEYOND_ALL))
    return question


def question_target(chance, tank):
    """A limit, just outside it, half a cubic foot from where the tank stands, or any level."""
    limit, outwards = chance.choice(((tank.greatest, 1), (tank.least, -1)))
    return chance.among(
        (3, limit),
        (2, lambda: nudged(limit, outwards * chance.choice((1, -1)))),
        (2, lambda: limit + outwards * chance.choice((0.001, 1.0))),
        (3, lambda: beside(chance, tank.initial + chance.sign() * 0.5 / surface(tank))),
        (4, lambda: make_level(chance, tank)),
    )


CASES = {
    "replay": replay_case,
    "edge": edge_case,
    "hours": hours_case,
    "order": order_case,
    "slow": slow_case,
    "close": close_case,
    "driver": drive_case,
    "strain": strain_case,
    "full": full_case,
    "stops": stops_case,
    "levels": levels_case,
    "image": image_case,
    "sweep": sweep_case,
}


def driven(case):
    """A case's input as the driver would read it: without the calls of a replay."""
    if isinstance(case, Replay):
        return Image(case.project.words(), mode=DRIVER).input()
    return Image(case.words, case.count, DRIVER).input() if isinstance(case, Image) else case.input()


def text_of(case):
    """A case for people: the text of its image and loads; the first fault and the calls are comments."""
    if isinstance(case, Ask):
        return case.text()
    shown_input = image_show.show_input(driven(case))
    fault = [f"# {shown_input.fault}"] if shown_input.fault else []
    calls = [f"# {describe(call)}" for call in case.calls] if isinstance(case, Replay) else []
    if calls and case.cut:
        calls[-1] += f", {case.cut} bytes cut from its end"
    return "\n".join(fault + shown_input.lines + calls)


def main():
    parser = argparse.ArgumentParser(description=__doc__.split("\n")[0])
    kinds = parser.add_mutually_exclusive_group(required=True)
    for kind in CASES:
        kinds.add_argument(f"--{kind}", metavar="NUMBER" if kind == "sweep" else "SEED", type=int)
    parser.add_argument("--out", metavar="FILE", help="write there instead of to standard output")
    parser.add_argument("--text", action="store_true", help="write the text of tools/image, a replay's calls as comments")
    arguments = parser.parse_args()
    kind = next(kind for kind in CASES if getattr(arguments, kind) is not None)
    case = CASES[kind](getattr(arguments, kind))
    written = (text_of(case) + "\n").encode() if arguments.text else case.input()
    if arguments.out:
        with open(arguments.out, "wb") as file:
            file.write(written)
    else:
        sys.stdout.buffer.write(written)


if __name__ == "__main__":
    main()
