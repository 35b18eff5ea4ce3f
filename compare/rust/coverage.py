#!/usr/bin/env python3
"""Counts what generated cases reach: refusals, changes of status, closings, truths, and what cut each step.

    coverage.py --oracle PATH --seed 1 --count 1000

The candidates of a step are worked out a second time by steps.py, from document 01, and the second clock's walk by
walk.py, a timetable by stops.py, closing by the table by closing.py and times to levels by levels.py, from document 02.
A step that is not the smallest of its candidates, a second clock that answers or leaves something else than the walk,
another timetable, another count of stops, another state after closing by the table, another time to a level, or a line
that begins with `panic`, ends the count with code 1; so does a thing to reach that is not reached.
"""

import argparse
import bisect
import itertools
import math
import struct
import sys
from collections import Counter

import generate
from closing import closed_by_table, closes, groups, is_empty, is_full, summed
from image import *
from programs import Program
from run import chunks
from steps import NEVER, Levels, causes, control_time, put_load, starting_levels, tank_time, time_to_reach
from stops import CAUSES as STOP_CAUSES
from stops import REASONS, shorter_timestep, stops, timetable, unforeseen
from values import H_TOL, L_TOL, volume
from walk import STOPS, refusals, seconds_of, timesteps, walk

PRESSURE_CONDITIONS = (HIGH_PRESSURE, LOW_PRESSURE)
LEVEL_CONDITIONS = (HIGH_LEVEL, LOW_LEVEL)
ACTIONS = ("nothing set", "status", "setting", "status and setting")
GREATEST_SECONDS = 2**64 - 2**11  # the greatest f64 under 2^64


class State:
    """The words after an answer, as numbers."""

    def __init__(self, project, line):
        self.words = words = [int(word, 16) for word in line.split(" ")[2:]]
        self.instant, self.count = words[:2]
        per_node = words[2 : 2 + 3 * len(project.nodes)]
        per_link = words[2 + 3 * len(project.nodes) :]
        assert len(per_link) == 3 * len(project.links), "a state with as many words as the project asks for"
        self.heads = [float_of(bits) for bits in per_node[0::3]]
        self.demands = [float_of(bits) for bits in per_node[1::3]]
        self.demand_flows = [float_of(bits) for bits in per_node[2::3]]
        self.flows = [float_of(bits) for bits in per_link[0::3]]
        self.statuses = per_link[1::3]
        self.settings = [float_of(bits) for bits in per_link[2::3]]


# What a case reaches


def count_case(counts, kind, case, answer):
    text = answer.decode()
    if "panic" in text:
        sys.exit(f"a panic:\n{generate.text_of(case)}\n{text[text.index('panic'):]}")
    lines = text.split("\n")[:-1]
    if kind in ("image", "sweep"):
        counts[f"{kind}: {lines[0] if lines[0].startswith('refused') else 'accepted'}"] += 1
    elif kind == "strain":
        count_strain(counts, case)
    elif kind == "full":
        count_full(counts, case, text)
    elif kind == "driver":
        counts[f"driver: {'steps' if lines[-1].startswith('steps') else lines[-1]}"] += 1
        counts["driver: steps in all"] += max(len(lines) - 2, 0)
    elif kind == "stops":
        count_timetable(counts, case, text)
    elif kind == "levels":
        count_levels(counts, case, text)
    else:
        count_replay(counts, case, lines)
        if kind == "edge":
            count_edges(counts, case, lines)
        if kind == "hours":
            count_hours(counts, case, lines)
        if kind == "order":
            count_orders(counts, case, lines)
        if kind == "slow":
            count_both_clocks(counts, lines)
            count_stops_so_far(counts, case, lines)
        if kind == "close":
            count_both_closings(counts, case, lines)


def count_replay(counts, case, lines):
    project = case.project
    assert lines[0].startswith("start ok"), f"a project of the generator's is refused: {lines[0]}"
    if lines[-1] == "refused 18":
        lines = lines[:-1]
        count_broken_list(counts, case, len(lines) - 1)
    else:
        assert len(lines) == 1 + len(case.calls), "a line for each call"
    count_project(counts, project)
    before = State(project, lines[0])
    for call, line in zip(case.calls, lines[1:]):
        after = State(project, line)
        name, answer = line.split(" ")[:2]
        counts[f"answer: {name} {'length' if answer.isdecimal() else answer}"] += 1
        for was, now in zip(before.statuses, after.statuses):
            if was != now:
                counts[f"status: {name} makes {STATUSES[now]}"] += 1
        if call.code in COUNTERS:
            COUNTERS[call.code](counts, project, call, answer, before, after)
        before = after


def count_edges(counts, case, lines):
    """The level controls that act although the level is short of the target, or past it, by the whole tolerance."""
    for call, line in zip(case.calls, lines):
        before = State(case.project, line)
        for control in case.project.controls if call.code == CONTROLS_CALL else []:
            if control.condition in LEVEL_CONDITIONS and is_active(case.project, before, control):
                limit = -L_TOL if control.condition == HIGH_LEVEL else L_TOL
                if excess(case.project, before, control) == limit:
                    counts[f"edge: {CONDITIONS[control.condition]} acts on its limit"] += 1


def count_hours(counts, case, lines):
    """The fill and drain times that would lie on the other side of a limit if their last place were another, and the
    instants that 24 bits do not hold."""
    for call, line in zip(case.calls, lines):
        if call.code == PREMISE_CALL:
            before, premise = State(case.project, line), case.project.premises[call.premise]
            if premise.attribute == 10:
                is_longer = before.instant != rounded_to_24_bits(before.instant)
                counts["hours: system time in more than 24 bits"] += is_longer
            else:
                count_hour(counts, case.project.nodes[0], before, premise)


def rounded_to_24_bits(number):
    return struct.unpack("<f", struct.pack("<f", number))[0]


def count_hour(counts, tank, before, premise):
    target = tank.greatest if premise.attribute == 4 else tank.least
    seconds = time_to_reach(tank, before.heads[0] - tank.elevation, target, before.demands[0])
    hours = (seconds / 3600.0, seconds * (1.0 / 3600.0))
    sides = {(time - premise.value <= H_TOL, time - premise.value >= -H_TOL) for time in hours}
    counts[f"hours: {ATTRIBUTES[premise.attribute]} by its last place"] += len(sides) > 1


def count_strain(counts, case):
    """Whether the first step would have another length if closing did not sum again, or summed in another order."""
    tank, flows = case.project.nodes[0], case.loads[0].flows
    into = [flow for link, flow in zip(case.project.links, flows) if link.end == 0]
    out = [-flow for link, flow in zip(case.project.links, flows) if link.start == 0]
    in_link_order = [flow if link.end == 0 else -flow for link, flow in zip(case.project.links, flows)]
    levels = Levels(0, [tank.elevation + tank.initial], [sum(into + out)])
    right = tank_time(case.project, levels, 0)
    for order, inflows in (("in link order", in_link_order), ("with links out first", out + into)):
        levels.demands = [sum(inflows)]
        counts[f"strain: a sum {order} gives another time"] += tank_time(case.project, levels, 0) != right


def count_orders(counts, case, lines):
    """The pairs of controls of two kinds that act at once by one link and set it otherwise, in their order."""
    for call, line in zip(case.calls, lines):
        if call.code == CONTROLS_CALL:
            before = State(case.project, line)
            acting = [control for control in case.project.controls if is_active(case.project, before, control)]
            for one, other in itertools.combinations(acting, 2):
                if one.link == other.link and kind_of(one) != kind_of(other) and is_set_otherwise(one, other):
                    counts[f"order: {kind_of(one)}, then {kind_of(other)} by one link"] += 1


def is_set_otherwise(one, other):
    """Whether both set a status, or both a setting alone, and not the same."""
    if one.flags & other.flags & 1:
        return one.status != other.status
    return one.flags == other.flags == 2 and one.setting != other.setting


def kind_of(control):
    """The run that a control is in, where each kind has its own."""
    return {TIME: "time", CLOCK_TIME: "clock time", HIGH_LEVEL: "level", LOW_LEVEL: "level"}.get(control.condition)


KINDS = ("level", "time", "clock time")


def count_full(counts, case, text):
    """What the tables are full of, what cuts the first step, and how long the listing is."""
    project, lines = case.project, text.split("\n")
    kinds = Counter(map(kind_of, project.controls))
    for kind in KINDS:
        counts[f"full: 64 controls, all of the kind {kind}"] += kinds[kind] == MOST_CONTROLS
    counts["full: 256 nodes and 384 links"] += (len(project.nodes), len(project.links)) == (MOST_NODES, MOST_LINKS)
    counts["full: a listing of more than 65,536 bytes"] += len(text) > 1 << 16
    begun = {int(line.split()[0]) for line in lines[2:-2]}
    counts["full: the last of 64 controls is due where a step begins, and no other"] += is_last_due(project, begun)
    if project.options.duration:
        levels = starting_levels(project)
        put_load(project, levels, case.loads[0])
        count_first_step(counts, case, levels, lines[1])


def is_last_due(project, instants):
    """Whether at one of the instants the last of 64 controls is due, and no other that goes by the time."""
    timed = [(number, control) for number, control in enumerate(project.controls) if kind_of(control) != "level"]
    states = (Levels(instant, [], []) for instant in instants)
    due = ([number for number, control in timed if is_active(project, state, control)] for state in states)
    return [MOST_CONTROLS - 1] in due


def count_first_step(counts, case, levels, line):
    """Whether the last tank cuts it by itself, a control late in its run, or one where another kind has none. It has to
    be as long as the smallest candidate."""
    project, found = case.project, causes(case.project, levels)
    length = min(found.values())
    if line != f"0 {length}":
        sys.exit(f"the first step is {line}, where the candidates are {found}:\n{generate.text_of(case)}")
    cut_by = [name for name, seconds in found.items() if seconds == length]
    if cut_by == ["tank"] and len(project.nodes) == MOST_NODES:
        first = next(index for index in project.tanks() if tank_time(project, levels, index) == length)
        counts["full: the tank at the last of 256 nodes cuts a step"] += first == MOST_NODES - 1
    if len(cut_by) == 1 and cut_by[0].endswith("control"):
        times = [control_time(project, levels, control) for control in project.controls]
        kinds = [kind_of(control) for control in project.controls]
        first = times.index(length)
        counts["full: a control behind 32 of its kind cuts a step"] += kinds[:first].count(kinds[first]) >= 32
        for kind in KINDS:
            counts[f"full: a control cuts a step where none is of the kind {kind}"] += kind not in kinds


def count_project(counts, project):
    options = project.options
    junctions = [project.nodes[index] for index in project.junctions()]
    pumps = [link for link in project.links if link.sort == PUMP]
    counts["options: hydraulic 0, an hour" if options.hydraulic == 0 else "options: hydraulic above 0"] += 1
    counts["options: PDA" if options.flags & PDA else "options: not PDA"] += 1
    counts["options: default pattern" if options.default_pattern else "options: no default pattern"] += 1
    counts["options: fast path" if project.is_on_fast_path() else "options: no fast path"] += 1
    counts["options: skip flag without the fast path"] += bool(options.flags & SKIP) and not project.is_on_fast_path()
    counts["nodes: disabled junctions"] += sum(junction.disabled for junction in junctions)
    counts["nodes: junctions of four demands"] += sum(len(junction.demands) == 4 for junction in junctions)
    counts["pumps: setting 0"] += sum(pump.setting == 0.0 for pump in pumps)
    counts["pumps: flow not a multiple of the setting"] += sum(map(is_odd_pump, pumps))
    counts["image: all its words used"] += len(project.words()) >= MOST_WORDS - 1
    counts["image: largest tables"] += len(project.links) == MOST_LINKS


def is_odd_pump(pump):
    """The reference's product of curve flow and speed does not give the flow back."""
    return pump.setting != 0.0 and bits_of(pump.size / pump.setting * pump.setting) != bits_of(pump.size)


def count_patterns(counts, project, call, answer, before, after):
    for index, node in enumerate(project.nodes):
        if isinstance(node, Reservoir) and before.heads[index] != after.heads[index]:
            counts["patterns: a reservoir's head changes"] += 1
        if isinstance(node, Tank) and before.demands[index] != 0.0:
            counts["patterns: a tank's demand becomes 0.0"] += 1
    if before.demand_flows != after.demand_flows:
        counts["patterns: demand flows change"] += 1


def count_controls(counts, project, call, answer, before, after):
    for control in project.controls:
        if is_active(project, before, control):
            count_active(counts, "controls", project, before, control)
    if before.instant == 0 and any(control.condition in LEVEL_CONDITIONS for control in project.controls):
        counts["controls: level controls passed over at 0"] += 1


def is_active(project, state, control):
    """Whether applying controls activates this one, as the state stands before any does."""
    if control.condition == TIME:
        return control.subject == state.instant
    if control.condition == CLOCK_TIME:
        return control.subject == (state.instant + project.options.start_clock) % DAY
    if control.condition in PRESSURE_CONDITIONS or state.instant == 0:
        return False
    return isinstance(project.nodes[control.subject], Tank) and holds(project, state, control)


def tolerance_of(control):
    return L_TOL if control.condition in LEVEL_CONDITIONS else H_TOL


def excess(project, state, control):
    """How far the node is above a control's target."""
    return state.heads[control.subject] - project.nodes[control.subject].elevation - control.target


def holds(project, state, control):
    over, tolerance = excess(project, state, control), tolerance_of(control)
    return over >= -tolerance if control.condition in (HIGH_LEVEL, HIGH_PRESSURE) else over <= tolerance


def count_active(counts, call, project, state, control):
    condition = CONDITIONS[control.condition]
    counts[f"{call}: {condition} active, {ACTIONS[control.flags]}"] += 1
    if control.condition not in (TIME, CLOCK_TIME):
        over = abs(excess(project, state, control))
        counts[f"{call}: {condition} exactly at its tolerance"] += over == tolerance_of(control)
        counts[f"{call}: {condition} within its tolerance"] += 0.0 < over < tolerance_of(control)


def count_close(counts, project, call, answer, before, after):
    for index in project.tanks():
        count_closed_links(counts, project, index, before)
        was, now = before.demands[index], after.demands[index]
        if bits_of(was) != bits_of(now):
            counts["close: a tank's demand changes"] += 1
            counts["close: a tank's demand changes in its last bits"] += was != 0.0 and abs(now / was - 1.0) < 1e-9


def count_closed_links(counts, project, index, before):
    tank, head = project.nodes[index], before.heads[index]
    full, empty = head >= tank.elevation + tank.greatest, head <= tank.elevation + tank.least
    for link, flow in zip(project.links, before.flows):
        inflow = {link.end: flow, link.start: -flow}.get(index, 0.0)
        way = "into" if link.end == index else "out of"
        if full and inflow > 0.0:
            counts[f"close: full tank, link {way} it, {'overflow, left' if tank.overflow else 'closed'}"] += 1
        if empty and inflow < 0.0:
            counts[f"close: empty tank, link {way} it, closed"] += 1


def count_pressure(counts, project, call, answer, before, after):
    controls = [control for control in project.controls if control.condition in PRESSURE_CONDITIONS]
    active = [control for control in controls if holds(project, before, control)]
    counts[f"pressure: {answer} with {'2 or more' if len(active) > 1 else len(active)} active"] += 1
    for control in active:
        count_active(counts, "pressure", project, before, control)


def count_premise(counts, project, call, answer, before, after):
    if call.premise >= len(project.premises):
        return
    premise = project.premises[call.premise]
    attribute = ATTRIBUTES[premise.attribute]
    counts[f"premise: {attribute} {answer}"] += 1
    counts[f"premise: {COMPARISONS[premise.comparison]} {answer}"] += 1
    counts[f"premise: {SORTS[premise.sort]} for {attribute.split()[0]} {answer}"] += 1
    if attribute.startswith("tank") and not isinstance(project.nodes[premise.index], Tank):
        counts[f"premise: a tank's attribute of no tank {answer}"] += 1


def count_step(counts, project, call, answer, before, after):
    length = int(answer)
    found = causes(project, before)
    if length != min(found.values()):
        stop(project, call, f"a step of {length} from {before.instant}, where the candidates are {found}")
    cut_by = [name for name, seconds in found.items() if seconds == length]
    counts[f"step: cut by {cut_by[0] if len(cut_by) == 1 else 'several'}"] += 1
    for name in cut_by:
        counts[f"step: as long as {name}"] += 1
    if length and not project.is_on_fast_path():
        count_tank_times(counts, project, before)
        count_control_times(counts, project, before)
    for index in project.tanks():
        count_new_level(counts, project.nodes[index], before.heads[index], after.heads[index], length)


def stop(project, call, words):
    sys.exit(f"{words}\n{generate.text_of(Replay(project, [call]))}")


def count_tank_times(counts, project, before):
    times = [tank_time(project, before, index) for index in project.tanks()]
    if 0 in times:
        counts["step: a tank at a limit gives 0"] += 1
        counts["step: a tank at a limit hides another tank's time"] += any(0 < seconds < NEVER for seconds in times)
    for index in project.tanks():
        tank, flow = project.nodes[index], before.demands[index]
        for target in (tank.greatest, tank.least):
            count_gap(counts, "tank", tank, before.heads[index] - tank.elevation, target, flow)


def count_gap(counts, subject, tank, level, target, flow):
    gap = volume(tank, target) - volume(tank, level)
    counts[f"{subject}: gap {gap_kind(abs(gap))}"] += 1
    if abs(gap) >= 0.5 and flow != 0.0 and (gap > 0.0) == (flow > 0.0):
        counts[f"{subject}: gap / flow {quotient_kind(gap / flow)}"] += 1


def gap_kind(gap):
    if gap in (0.0, 0.5):
        return f"exactly {gap}"
    side = "under" if gap < 0.5 else "over"
    return f"just {side} 0.5" if abs(gap - 0.5) < 0.001 else f"{side} 0.5"


def quotient_kind(quotient):
    if quotient >= 2.0**64:
        return "at or over 2^64"
    if quotient < 0.5:
        return "0.49999999999999994" if quotient == float_of(0x3FDFFFFFFFFFFFFF) else "under 0.5"
    part = quotient - math.floor(quotient)
    if part in (0.0, 0.5):
        return "whole" if part == 0.0 else "exactly a half"
    side = "under" if part < 0.5 else "over"
    return f"just {side} a half" if abs(part - 0.5) < 1e-7 else "other"


def count_control_times(counts, project, before):
    clock = (before.instant + project.options.start_clock) % DAY
    for control in project.controls:
        seconds = control_time(project, before, control)
        name = CONDITIONS[control.condition]
        if control.condition == CLOCK_TIME and control.subject < clock:
            name += " passed, next day"
        kind = {0: "0, dropped", NEVER: "never"}.get(seconds, "some seconds")
        counts[f"candidate: {name}: {kind}"] += 1


def count_new_level(counts, tank, before, after, length):
    if length == 0:
        counts["levels: a step of 0 leaves them"] += before == after
    elif before == after:
        counts["levels: stay"] += 1
    else:
        level = after - tank.elevation
        at = "greatest" if level == tank.greatest else "least" if level == tank.least else "between"
        counts[f"levels: moved to {at}"] += 1


def count_slow(counts, project, call, answer, before, after):
    """The second clock: its answer and the state after it have to be those of the walk, or of its refusal."""
    reasons = refusals(project)
    length, stopped_by = (0, []) if reasons else walk(project, before.instant)
    right = "refused=14" if reasons else str(length)
    moved = [before.instant + length, before.count + (length > 0), *before.words[2:]]
    if answer != right or after.words != moved:
        stop(project, call, f"from {before.instant} the walk gives {right}; {answer} is answered, or the state another")
    if reasons:
        count_refused_walk(counts, project, reasons, before)
    elif length == 0:
        counts["slow: served, 0 at the duration"] += 1
    else:
        counts["slow: served"] += 1
        count_stops(counts, project, length, stopped_by)
        count_due(counts, project, before, length, stopped_by)
        count_served_project(counts, project)


def count_refused_walk(counts, project, reasons, before):
    counts["slow: refused"] += 1
    counts[f"slow: refused for {reasons[0] + ' alone' if len(reasons) == 1 else 'several reasons'}"] += 1
    counts["slow: refused at the duration"] += before.instant == project.options.duration
    for name, seconds in timesteps(project).items() if reasons == ["timesteps"] else ():
        counts[f"slow: refused with {name} 86,401"] += seconds == DAY + 1


def count_stops(counts, project, length, stopped_by):
    counts[f"slow: stopped by {stopped_by[0] + ' alone' if len(stopped_by) == 1 else 'several'}"] += 1
    counts["slow: stopped after 3,600 by hydraulic 0"] += project.options.hydraulic == 0 and stopped_by == ["hydraulic"]
    smallest = min(timesteps(project).values())
    for name, seconds in timesteps(project).items():
        counts[f"slow: served with {name} 86,400 the smallest"] += seconds == smallest == DAY
        counts[f"slow: stopped after a day by {name}"] += length == DAY and name in stopped_by


def count_due(counts, project, before, length, stopped_by):
    """What is due about the second at which the walk begins, and what is due past midnight."""
    clock = (before.instant + project.options.start_clock) % DAY
    times, clock_times = seconds_of(project, TIME), seconds_of(project, CLOCK_TIME)
    counts["slow: a clock control due now"] += clock in clock_times
    counts["slow: a clock control due now comes again after a day"] += clock in clock_times and length == DAY
    counts["slow: a clock control due a second ago"] += (clock - 1) % DAY in clock_times
    counts["slow: a clock control stops it past midnight"] += "clock control" in stopped_by and clock + length >= DAY
    counts["slow: a time control due now"] += before.instant in times
    counts["slow: a time control due a second ago"] += before.instant - 1 in times


def count_served_project(counts, project):
    conditions = {control.condition for control in project.controls}
    counts["slow: served with a level control of no tank"] += not conditions.isdisjoint(LEVEL_CONDITIONS)
    counts["slow: served with a pressure control"] += not conditions.isdisjoint(PRESSURE_CONDITIONS)
    counts["slow: served with the skip flag"] += bool(project.options.flags & SKIP)
    counts["slow: served with 64 controls"] += len(project.controls) == MOST_CONTROLS


def count_both_clocks(counts, lines):
    """Whether both clocks have moved on in one list."""
    moved = {name for name, answer in (line.split(" ")[:2] for line in lines) if answer.isdecimal() and answer != "0"}
    counts["slow: both clocks in one list"] += moved == {"step", "slow"}


# Closing by the table


def count_table(counts, project, call, answer, before, after):
    """The state after it has to be the one that closing.py works out."""
    demands, statuses = closed_by_table(project, before)
    right, links = list(before.words), 2 + 3 * len(project.nodes)
    right[3:links:3] = map(bits_of, demands)
    right[links + 1 :: 3] = statuses
    if after.words != right:
        stop(project, call, f"at {before.instant} closing by the table leaves another state")
    count_tanks(counts, project)
    count_joined(counts, project, before)
    for group in groups(project):
        count_group(counts, group)
        count_group_closed(counts, project.nodes[group.tank], group, before)
        count_group_summed(counts, group, before, after)
    counts["table: at the duration"] += before.instant == project.options.duration > 0


def count_tanks(counts, project):
    tanks, nodes, links = project.tanks(), len(project.nodes), project.links
    counts["table: no tank"] += not tanks
    counts["table: tanks without a link"] += len(tanks) > 1 and not links
    counts["table: every node a tank"] += len(tanks) == nodes > 2
    counts["table: no tank for the first and last node"] += bool(tanks) and {0, nodes - 1}.isdisjoint(tanks)
    counts["table: full, 768 entries"] += len(links) == MOST_LINKS and len(tanks) == nodes


def count_joined(counts, project, before):
    """The links from a tank to a tank, and which of the two closes each."""
    tanks = set(project.tanks())
    flows = [((link.start, link.end), flow) for link, flow in zip(project.links, before.flows)]
    joined = [(ends, flow) for ends, flow in flows if tanks.issuperset(ends)]
    pairs = {ends for ends, _ in joined}
    counts["table: two tanks joined both ways"] += any((end, start) in pairs for start, end in pairs)
    counts["table: two tanks joined twice the same way"] += len(pairs) < len(joined)
    for (start, end), flow in joined:
        by_start = closes(project.nodes[start], before.heads[start], -flow)
        by_end = closes(project.nodes[end], before.heads[end], flow)
        counts[f"table: a link between two tanks closed by {CLOSED_BY[by_start, by_end]}"] += 1


CLOSED_BY = {(False, False): "neither", (True, False): "its start", (False, True): "its end", (True, True): "both"}


def count_group(counts, group):
    ways = [into for _, into in group.links]
    into, out = ways.count(True), ways.count(False)
    numbers = [link for link, _ in group.links]
    counts["table: a tank without links"] += not ways
    counts["table: a tank with links into it alone"] += into > 0 == out
    counts["table: a tank with links out of it alone"] += out > 0 == into
    counts["table: a tank with two or more links each way"] += into > 1 < out
    counts["table: a tank's links not in link order"] += numbers != sorted(numbers)


def count_group_closed(counts, tank, group, before):
    head = before.heads[group.tank]
    for (_, into), inflow in zip(group.links, group.inflows(before.flows)):
        way = "into" if into else "out of"
        if is_full(tank, head) and inflow > 0.0:
            counts[f"table: full tank, link {way} it, {'overflow, left' if tank.overflow else 'closed'}"] += 1
        if is_empty(tank, head) and inflow < 0.0:
            counts[f"table: empty tank, link {way} it, closed"] += 1


def count_group_summed(counts, group, before, after):
    """Whether the demand changes, and whether it would be another if its links were summed in another order."""
    was, now = before.demands[group.tank], after.demands[group.tank]
    counts["table: a tank's demand changes"] += bits_of(was) != bits_of(now)
    counts["table: a tank's demand changes in its last bits"] += 0.0 != was != now and abs(now / was - 1.0) < 1e-9
    inflows = dict(zip(group.links, group.inflows(before.flows)))
    orders = {
        "in link order": sorted(inflows),
        "with links out first": sorted(inflows, key=lambda entry: entry[1]),
        "from the last link": sorted(inflows, key=lambda entry: (not entry[1], -entry[0])),
    }
    for order, entries in orders.items():
        counts[f"table: a sum {order} gives another demand"] += summed(inflows[entry] for entry in entries) != now


def count_both_closings(counts, case, lines):
    """The closings that were made one behind the other, and those before any load."""
    answered = [line for line in lines[1:] if not line.startswith("refused")]
    made = [call.code for call, _ in zip(case.calls, answered)]
    for one, other in itertools.pairwise(made):
        counts["table: straight after the other closing"] += (one, other) == (CLOSE_CALL, TABLE_CALL)
        counts["table: straight before the other closing"] += (one, other) == (TABLE_CALL, CLOSE_CALL)
        counts["table: twice running"] += one == other == TABLE_CALL
    counts["table: before every other call"] += made[:1] == [TABLE_CALL]
    counts["table: by the start's flows"] += LOAD_CALL in made and TABLE_CALL in made[: made.index(LOAD_CALL)]


def count_broken_list(counts, case, made):
    """Why a list is refused with 18, after so many calls."""
    if case.cut:
        assert made == max(len(case.calls) - 1, 0), "the last call is cut"
        counts["list: cut, refused 18" if case.calls else "list: its count cut, refused 18"] += 1
        return
    code = case.calls[made].code
    assert not 0 < code <= LAST_CODE, f"a call of code {code} is refused"
    counts[f"list: code {code if code <= LAST_CODE + 1 else 'above 10'} refused 18"] += 1
    counts["list: refused 18 behind some calls"] += made > 0


# The timetable


def count_timetable(counts, case, text):
    """The oracle's instants have to be the set that stops.py works out, or `none` where that says so."""
    if isinstance(case, Image):
        counts[f"stops: {text.strip() if text.startswith('refused') else 'a damaged image accepted'}"] += 1
        return
    project = case.project
    if text != timetable(project):
        sys.exit(f"the rules give another timetable than the oracle's:\n{text}{generate.text_of(case)}")
    reasons = unforeseen(project)
    if reasons:
        count_unforeseen(counts, project, reasons)
    else:
        table = stops(project)
        counts["stops: foreseen"] += 1
        counts["stops: foreseen with loads or bytes behind the image"] += bool(case.loads or case.tail)
        count_foreseen_project(counts, project)
        count_stop_timesteps(counts, project)
        count_stop_causes(counts, table)
        count_time_controls(counts, project)
        count_clock_controls(counts, project, table)
        count_end(counts, project, table)


def count_levels(counts, case, text):
    """The oracle's answers have to be those that levels.py works out."""
    if text != case.answer():
        sys.exit(f"another time to a level than document 01's:\n{case.text()}\n{text}")
    for question in case.questions:
        count_question(counts, question.plain())


def count_question(counts, question):
    to_target, to_either = question.seconds()
    counts[f"asked: to a target, {reach_kind(to_target)}"] += 1
    counts[f"asked: to full or empty, {reach_kind(to_either)}"] += 1
    if not all(map(math.isfinite, vars(question).values())):
        counts[f"asked: no finite number, {reach_kind(to_target)}"] += 1
    elif question.target > question.greatest:
        counts["asked: above greatest"] += 1
    elif question.target < question.least:
        counts["asked: below least"] += 1
    else:
        count_gap(counts, "asked", question, question.level(), question.target, question.demand)
    if question.demand == 0.0:
        counts[f"asked: flow {question.demand}, {reach_kind(to_target)} and {reach_kind(to_either)}"] += 1
    if to_target == GREATEST_SECONDS:
        counts["asked: the greatest seconds that are not never"] += 1
    if to_either == 0 and 0 < to_target < NEVER and question.target in (question.least, question.greatest):
        counts["asked: the limit that it leaves hides the other"] += 1


def reach_kind(seconds):
    return {0: "arrived", NEVER: "never"}.get(seconds, "some seconds")


def count_unforeseen(counts, project, reasons):
    options, shorter = project.options, shorter_timestep(project)
    counts[f"stops: none for {reasons[0] + ' alone' if len(reasons) == 1 else 'several reasons'}"] += 1
    counts["stops: none with duration 0"] += options.duration == 0
    if reasons == ["hydraulic"]:
        counts["stops: none with hydraulic one below the shorter"] += options.hydraulic == shorter - 1
        counts["stops: none with hydraulic 0 and the shorter 3,601"] += options.hydraulic == 0 and shorter == HOUR + 1
    if reasons == ["day"]:
        for name in shorter_names(project):
            counts[f"stops: none with {name} 86,401 the shorter"] += shorter == DAY + 1


def shorter_names(project):
    """Report, pattern or both."""
    named = {"report": project.options.report, "pattern": project.options.pattern}
    return [name for name, seconds in named.items() if seconds == min(named.values())]


def count_foreseen_project(counts, project):
    conditions = {control.condition for control in project.controls}
    counts["stops: foreseen with a level control of no tank"] += not conditions.isdisjoint(LEVEL_CONDITIONS)
    counts["stops: foreseen with a pressure control"] += not conditions.isdisjoint(PRESSURE_CONDITIONS)
    counts["stops: foreseen with the skip flag and controls"] += bool(project.options.flags & SKIP)
    counts["stops: foreseen without controls"] += not project.controls
    counts["stops: foreseen with 64 controls"] += len(project.controls) == MOST_CONTROLS
    counts["stops: foreseen with a pattern start"] += project.options.pattern_start % project.options.pattern != 0


def count_stop_timesteps(counts, project):
    options, shorter = project.options, shorter_timestep(project)
    longer = max(options.report, options.pattern)
    for seconds, name in ((shorter, "equal to"), (shorter + 1, "one above")):
        counts[f"stops: hydraulic {name} the shorter"] += options.hydraulic == seconds
    counts["stops: hydraulic between the two"] += shorter < options.hydraulic < longer
    counts["stops: hydraulic one below the longer"] += shorter <= options.hydraulic == longer - 1
    for seconds in (HOUR - 1, HOUR):
        counts[f"stops: hydraulic 0 and the shorter {seconds:,}"] += options.hydraulic == 0 and shorter == seconds
    counts["stops: report and pattern timestep the same"] += shorter == longer
    for name in shorter_names(project) if shorter < longer else []:
        counts[f"stops: {name} the shorter"] += 1
        counts[f"stops: {name} alone within a day"] += longer > DAY
        for seconds in (DAY - 1, DAY):
            counts[f"stops: {name} {seconds:,} the shorter"] += shorter == seconds


def count_stop_causes(counts, table):
    for found in table.values():
        if len(found) == 1:
            counts[f"stops: {found[0]} alone"] += 1
        for pair in itertools.combinations(found, 2):
            counts[f"stops: {' and '.join(pair)} at once"] += 1
        counts["stops: four or five causes at once"] += len(found) > 3


def count_time_controls(counts, project):
    times = [control.subject for control in project.controls if control.condition == TIME]
    duration = project.options.duration
    counts["stops: two time controls at once"] += len(set(times)) < len(times)
    for name, seconds in (("0", 0), ("1", 1), ("the duration", duration), ("a second past it", duration + 1)):
        counts[f"stops: a time control at {name}"] += duration > 1 and seconds in times


def count_clock_controls(counts, project, table):
    clocks = [control.subject for control in project.controls if control.condition == CLOCK_TIME]
    start_clock = project.options.start_clock
    counts["stops: two clock controls at once"] += len(set(clocks)) < len(clocks)
    counts["stops: a start clock other than 0 and a clock control"] += start_clock != 0 and bool(clocks)
    counts["stops: a clock control at the start's clock comes after a day"] += start_clock in clocks and DAY in table
    due = [(instant + start_clock) % DAY for instant, found in table.items() if "clock control" in found]
    for clock in (0, DAY - 1):
        counts[f"stops: a clock control at {clock:,} stops it"] += clock in due
    counts["stops: a clock control stops it past midnight"] += any(clock < start_clock for clock in due)
    counts["stops: a clock control stops it on two days"] += len(set(due)) < len(due)


def count_end(counts, project, table):
    """Where the run ends, and how many stops it has."""
    options = project.options
    for duration in (0, 1, LONGEST_TIME):
        counts[f"stops: duration {duration:,}"] += options.duration == duration
    counts["stops: the duration before every other stop"] += list(table.values()) == [["duration"]]
    for number in CHUNKED:
        counts[f"stops: {number:,} stops"] += len(table) == number
    counts["stops: more than 8,192 stops"] += len(table) > 2 * generate.CHUNK


def count_stops_so_far(counts, case, lines):
    """"After each list of demand 3 the reported count equals the number of those not past its instant": after every
    call, since the calls up to it are a list too."""
    if unforeseen(case.project):
        return
    moments = [tuple(int(word, 16) for word in line.split(" ")[2:4]) for line in lines]
    last = moments[-1][0]
    table = list(stops(case.project, last))
    for instant, count in moments:
        if count != bisect.bisect_right(table, instant):
            sys.exit(f"at {instant} the count is {count}, and the stops are {table}:\n{generate.text_of(case)}")
    at = "at" if last == case.project.options.duration else "before"
    counts[f"stops: the count after a list that ends {at} the duration"] += len(table) > 1


# A table that is a chunk short of one stop, one chunk, a chunk and one more, and two chunks.
CHUNKED = (generate.CHUNK - 1, generate.CHUNK, generate.CHUNK + 1, 2 * generate.CHUNK)


COUNTERS = {
    PATTERNS_CALL: count_patterns,
    CONTROLS_CALL: count_controls,
    CLOSE_CALL: count_close,
    PRESSURE_CALL: count_pressure,
    PREMISE_CALL: count_premise,
    STEP_CALL: count_step,
    SLOW_CALL: count_slow,
    TABLE_CALL: count_table,
}


# What there is to reach


def expected():
    """Every name that a run of a thousand seeds counts."""
    yield from expected_refusals()
    yield from expected_controls()
    yield from expected_steps()
    yield from expected_walks()
    yield from expected_timetables()
    yield from expected_closings()
    yield from expected_levels()
    yield from named("status", ["close makes TempClosed"])
    yield from named("close", (f"{tank} tank, link {way} it, closed" for tank in ("full", "empty") for way in WAYS))
    yield from named("close", (f"full tank, link {way} it, overflow, left" for way in WAYS))
    yield from named("close", ["a tank's demand changes in its last bits"])
    yield from named("premise", (f"{what} {truth}" for what in ATTRIBUTES + COMPARISONS for truth in TRUTHS))
    yield from named("premise", (f"{sort} for {what} false" for sort in SORTS for what in SUBJECTS))
    yield from named("premise", ["a tank's attribute of no tank false"])
    yield from named("patterns", ["a reservoir's head changes", "a tank's demand becomes 0.0", "demand flows change"])
    yield from named("options", ["PDA", "not PDA", "default pattern", "no default pattern", "fast path"])
    yield from named("options", ["hydraulic 0, an hour", "hydraulic above 0"])
    yield from named("nodes", ["disabled junctions", "junctions of four demands"])
    yield from named("pumps", ["setting 0", "flow not a multiple of the setting"])
    yield from named("image", ["largest tables", "all its words used"])
    yield from named("edge", (f"{condition} acts on its limit" for condition in CONDITIONS[HIGH_LEVEL:TIME]))
    yield from named("hours", (f"tank {way} time by its last place" for way in ("fill", "drain")))
    yield from named("hours", ["system time in more than 24 bits"])
    orders = ("in link order", "with links out first")
    yield from named("strain", (f"a sum {order} gives another time" for order in orders))
    yield from named("order", (f"{one}, then {other} by one link" for one, other in itertools.permutations(KINDS, 2)))
    yield from named("full", (f"64 controls, all of the kind {kind}" for kind in KINDS))
    yield from named("full", (f"a control cuts a step where none is of the kind {kind}" for kind in KINDS))
    yield from named("full", ["the last of 64 controls is due where a step begins, and no other"])
    yield from named("full", ["a control behind 32 of its kind cuts a step", "256 nodes and 384 links"])
    yield from named("full", ["the tank at the last of 256 nodes cuts a step", "a listing of more than 65,536 bytes"])


TRUTHS = ("true", "false")
SUBJECTS = ("node", "tank", "link", "system")
WAYS = ("into", "out of")
CAUSES = ("report", "pattern", "hydraulic", "tank", "remainder", "fast path", "at the end", "several")


def named(subject, names):
    return (f"{subject}: {name}" for name in names)


def expected_refusals():
    numbers = [f"refused {number}" for number in range(1, 9)]
    yield from named("sweep", ["accepted", *numbers[:6]])
    yield from named("image", ["accepted", *numbers[:6]])
    yield from named("driver", ["steps", *numbers])
    yield from named("answer", ["load ok", "load refused=7", "load refused=8", "premise refused=9"])


def expected_controls():
    yield from named("status", (f"{call} makes {status}" for call in ("controls", "pressure") for status in STATUSES))
    for number, condition in enumerate(CONDITIONS):
        call = "pressure" if number in PRESSURE_CONDITIONS else "controls"
        yield from named(call, (f"{condition} active, {action}" for action in ACTIONS))
        if number < TIME:
            yield from named(call, [f"{condition} exactly at its tolerance", f"{condition} within its tolerance"])
    yield from named("controls", ["level controls passed over at 0"])
    yield from named("pressure", (f"{truth} with {many} active" for truth in TRUTHS for many in ("1", "2 or more")))


def expected_steps():
    yield from named("step", (f"cut by {cause}" for cause in CAUSES))
    yield from named("step", (f"cut by {condition} control" for condition in CONDITIONS[HIGH_LEVEL:]))
    yield from named("step", ["a tank at a limit gives 0", "a tank at a limit hides another tank's time"])
    for condition in CONDITIONS[HIGH_LEVEL:]:
        yield from named("candidate", [f"{condition}: 0, dropped", f"{condition}: some seconds"])
    yield from named("candidate", (f"{condition}: never" for condition in CONDITIONS[:CLOCK_TIME]))
    yield from named("candidate", ["ClockTime passed, next day: some seconds"])
    yield from expected_gaps("tank")
    yield from named("levels", ["moved to greatest", "moved to least", "moved to between", "a step of 0 leaves them"])


def expected_gaps(subject):
    gaps = ("exactly 0.0", "under 0.5", "just under 0.5", "exactly 0.5", "just over 0.5", "over 0.5")
    yield from named(subject, (f"gap {kind}" for kind in gaps))
    halves = ("exactly a half", "just under a half", "just over a half")
    quotients = ("0.49999999999999994", "under 0.5", "whole", *halves, "at or over 2^64")
    yield from named(subject, (f"gap / flow {kind}" for kind in quotients))


def expected_levels():
    for what in ("to a target", "to full or empty", "no finite number"):
        yield from named("asked", (f"{what}, {kind}" for kind in ("arrived", "some seconds", "never")))
    yield from named("asked", ["above greatest", "below least"])
    yield from expected_gaps("asked")
    yield from named("asked", (f"flow {flow}, {kind} and never" for flow in (0.0, -0.0) for kind in ("arrived", "never")))
    yield from named("asked", ["the greatest seconds that are not never", "the limit that it leaves hides the other"])


def expected_walks():
    yield from named("slow", ["served", "served, 0 at the duration", "both clocks in one list"])
    yield from named("slow", ["refused", "refused at the duration", "refused for several reasons"])
    yield from named("slow", (f"refused for {reason} alone" for reason in ("tank", "fast path", "timesteps")))
    for name in ("report", "pattern", "hydraulic"):
        yield from named("slow", [f"refused with {name} 86,401", f"served with {name} 86,400 the smallest"])
        yield from named("slow", [f"stopped after a day by {name}"])
    yield from named("slow", (f"stopped by {cause} alone" for cause in STOPS))
    yield from named("slow", ["stopped by several", "stopped after 3,600 by hydraulic 0"])
    for sort in ("time", "clock"):
        yield from named("slow", [f"a {sort} control due now", f"a {sort} control due a second ago"])
    yield from named("slow", ["a clock control due now comes again after a day"])
    yield from named("slow", ["a clock control stops it past midnight"])
    tables = ("a level control of no tank", "a pressure control", "the skip flag", "64 controls")
    yield from named("slow", (f"served with {what}" for what in tables))


def expected_timetables():
    yield from named("stops", ["foreseen", "a damaged image accepted"])
    yield from named("stops", (f"refused {number}" for number in range(1, 7)))
    yield from named("stops", (f"none for {reason} alone" for reason in REASONS))
    yield from named("stops", ["none for several reasons", "none with duration 0"])
    yield from named("stops", ["none with hydraulic one below the shorter"])
    yield from named("stops", ["none with hydraulic 0 and the shorter 3,601"])
    yield from named("stops", (f"hydraulic {edge} the shorter" for edge in ("equal to", "one above")))
    yield from named("stops", ["hydraulic between the two", "hydraulic one below the longer"])
    yield from named("stops", (f"hydraulic 0 and the shorter {seconds}" for seconds in ("3,599", "3,600")))
    for name in ("report", "pattern"):
        yield from named("stops", [f"{name} the shorter", f"{name} alone within a day"])
        yield from named("stops", (f"{name} {seconds} the shorter" for seconds in ("86,399", "86,400")))
        yield from named("stops", [f"none with {name} 86,401 the shorter"])
    yield from named("stops", ["report and pattern timestep the same"])
    yield from named("stops", (f"{cause} alone" for cause in STOP_CAUSES))
    yield from named("stops", (f"{one} and {other} at once" for one, other in itertools.combinations(STOP_CAUSES, 2)))
    yield from named("stops", ["four or five causes at once"])
    instants = ("0", "1", "the duration", "a second past it")
    yield from named("stops", (f"a time control at {instant}" for instant in instants))
    yield from named("stops", (f"two {sort} controls at once" for sort in ("time", "clock")))
    yield from named("stops", ["a start clock other than 0 and a clock control"])
    yield from named("stops", ["a clock control at the start's clock comes after a day"])
    days = ("past midnight", "on two days")
    yield from named("stops", (f"a clock control at {clock} stops it" for clock in ("0", "86,399")))
    yield from named("stops", (f"a clock control stops it {day}" for day in days))
    yield from named("stops", (f"duration {seconds}" for seconds in ("0", "1", "315,360,000")))
    yield from named("stops", ["the duration before every other stop", "more than 8,192 stops"])
    yield from named("stops", (f"{number:,} stops" for number in CHUNKED))
    tables = ("a level control of no tank", "a pressure control", "the skip flag and controls", "64 controls")
    yield from named("stops", (f"foreseen with {what}" for what in tables))
    yield from named("stops", ["foreseen without controls", "foreseen with a pattern start"])
    yield from named("stops", ["foreseen with loads or bytes behind the image"])
    yield from named("stops", (f"the count after a list that ends {at} the duration" for at in ("before", "at")))


def expected_closings():
    yield from named("table", ["no tank", "tanks without a link", "every node a tank"])
    yield from named("table", ["no tank for the first and last node", "full, 768 entries"])
    yield from named("table", ["two tanks joined both ways", "two tanks joined twice the same way"])
    yield from named("table", (f"a link between two tanks closed by {which}" for which in CLOSED_BY.values()))
    shapes = ("without links", *(f"with links {way} it alone" for way in WAYS), "with two or more links each way")
    yield from named("table", (f"a tank {shape}" for shape in shapes))
    yield from named("table", ["a tank's links not in link order"])
    yield from named("table", (f"{tank} tank, link {way} it, closed" for tank in ("full", "empty") for way in WAYS))
    yield from named("table", (f"full tank, link {way} it, overflow, left" for way in WAYS))
    yield from named("table", ["a tank's demand changes", "a tank's demand changes in its last bits"])
    orders = ("in link order", "with links out first", "from the last link")
    yield from named("table", (f"a sum {order} gives another demand" for order in orders))
    yield from named("table", (f"straight {when} the other closing" for when in ("after", "before")))
    yield from named("table", ["twice running", "before every other call", "by the start's flows", "at the duration"])
    yield from named("list", (f"code {code} refused 18" for code in ("0", "10", "above 10")))
    yield from named("list", ["cut, refused 18", "refused 18 behind some calls"])


def main():
    parser = argparse.ArgumentParser(description=__doc__, formatter_class=argparse.RawDescriptionHelpFormatter)
    parser.add_argument("--oracle", required=True)
    parser.add_argument("--seed", type=int, default=1)
    parser.add_argument("--count", type=int, default=1000, help="how many seeds")
    arguments = parser.parse_args()
    oracle = Program(arguments.oracle)
    counts = Counter()
    for cases in chunks(list(generate.CASES), arguments.seed, arguments.count):
        answers = oracle.answers([(case.mode, case.input()) for _, _, case in cases])
        for (kind, _, case), answer in zip(cases, answers):
            count_case(counts, kind, case, answer)
    for name, number in sorted(counts.items()):
        print(f"{number:9} {name}")
    wanted = list(expected())
    missing = [name for name in wanted if not counts[name]]
    print(f"{len(wanted) - len(missing)} of the {len(wanted)} things to reach are reached")
    if missing:
        sys.exit("not reached:\n" + "\n".join(missing))


if __name__ == "__main__":
    main()
