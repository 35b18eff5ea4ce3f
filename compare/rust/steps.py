"""A step's candidates and what it does to tanks, worked out once more from document 01.

The generator uses it to tell where a tank stands, the coverage count to name what cut a step.
"""

import math
from dataclasses import dataclass

from image import *
from values import surface, volume

NEVER = 2**64 - 1


@dataclass
class Levels:
    """As much of a state as a step goes by."""

    instant: int
    heads: list
    demands: list

    def copy(self):
        return Levels(self.instant, list(self.heads), list(self.demands))


def starting_levels(project):
    heads = [start_head(node) for node in project.nodes]
    return Levels(0, heads, [0.0] * len(heads))


def start_head(node):
    if isinstance(node, Tank):
        return node.elevation + node.initial
    return node.elevation if isinstance(node, Reservoir) else 0.0


def time_to_reach(tank, level, target, flow):
    if target > tank.greatest or target < tank.least:
        return NEVER
    gap = volume(tank, target) - volume(tank, level)
    if abs(gap) < 0.5:
        return 0
    if (gap > 0.0 and flow > 0.0) or (gap < 0.0 and flow < 0.0):
        return half_up(gap / flow)
    return NEVER


def half_up(number):
    """A number above 0 rounded to the nearest whole one, halves up; what is no number is 0, as a cast makes it."""
    if number >= 2.0**64:
        return NEVER
    if math.isnan(number):
        return 0
    whole = math.floor(number)
    return whole + (number - whole >= 0.5)


def time_to_fill_or_drain(tank, level, flow):
    if flow == 0.0:
        return NEVER
    return min(time_to_reach(tank, level, tank.greatest, flow), time_to_reach(tank, level, tank.least, flow))


def tank_time(project, state, index):
    tank = project.nodes[index]
    return time_to_fill_or_drain(tank, state.heads[index] - tank.elevation, state.demands[index])


def control_time(project, state, control):
    clock = (state.instant + project.options.start_clock) % DAY
    if control.condition == TIME:
        return control.subject - state.instant if control.subject >= state.instant else NEVER
    if control.condition == CLOCK_TIME:
        return (control.subject - clock) % DAY
    node = project.nodes[control.subject]
    if control.condition in (HIGH_PRESSURE, LOW_PRESSURE) or not isinstance(node, Tank):
        return NEVER
    level = state.heads[control.subject] - node.elevation
    return time_to_reach(node, level, control.target, state.demands[control.subject])


def causes(project, state):
    """Each thing that may cut the step, with its time."""
    options = project.options
    if state.instant >= options.duration:
        return {"at the end": 0}
    if project.is_on_fast_path():
        return {"fast path": options.report, "remainder": options.duration - state.instant}
    found = {
        "report": options.report - state.instant % options.report,
        "pattern": options.pattern - state.instant % options.pattern,
        "remainder": options.duration - state.instant,
        "tank": min([tank_time(project, state, index) for index in project.tanks()], default=NEVER),
        "hydraulic": options.hydraulic_in_force(),
    }
    for control in project.controls:
        name, seconds = f"{CONDITIONS[control.condition]} control", control_time(project, state, control)
        if 0 < seconds < found.get(name, NEVER):
            found[name] = seconds
    return {name: seconds for name, seconds in found.items() if seconds > 0}


def put_load(project, levels, load):
    """Takes a load after the patterns, and closes: heads and demands as the step then finds them."""
    heads = iter(load.heads)
    for index, node in enumerate(project.nodes):
        if isinstance(node, Junction):
            levels.heads[index] = next(heads)
            levels.demands[index] = junction_demand(project, node, levels.instant)
        elif isinstance(node, Tank):
            levels.demands[index] = closing_demand(project, index, load.flows)


def junction_demand(project, junction, instant):
    if junction.disabled:
        return 0.0
    options = project.options
    period = (options.pattern_start + instant) // options.pattern
    total = 0.0
    for base, word in junction.demands:
        word = word or options.default_pattern
        multipliers = project.patterns[word - 1].multipliers if word else [1.0]
        total += base * multipliers[period % len(multipliers)] * options.multiplier
    return total


def closing_demand(project, tank, flows):
    """A tank's net inflow as closing sums it: the links into it first."""
    demand = 0.0
    for link, flow in zip(project.links, flows):
        demand += flow if link.end == tank else 0.0
    for link, flow in zip(project.links, flows):
        demand -= flow if link.start == tank else 0.0
    return demand


def advance(project, levels):
    """Takes a step."""
    length = min(causes(project, levels).values())
    levels.instant += length
    for index in project.tanks() if length else []:
        tank = project.nodes[index]
        level = levels.heads[index] - tank.elevation
        level += levels.demands[index] * length / surface(tank)
        levels.heads[index] = tank.elevation + min(max(level, tank.least), tank.greatest)
