"""Loads that a works could well have: the flows and heads of a small hydraulic balance, at each step of its run.

An image has no lengths and no pump curves, so the balance takes every pipe and valve as 1,000 ft of old iron main, its
loss in feet proportional to the square of the flow, and a running pump as one that gives its initial flow times its
setting. Reservoirs and tanks hold their heads, junctions draw what their patterns say. A tank that is full takes
nothing in unless it overflows, one that is empty gives nothing. A part that is cut off from all reservoirs and tanks
gets from its pumps what it draws, as far as they can, or falls dry. Numbers are rounded to four places, and only sums,
products and quotients go into them, so that every machine makes the same.
"""

import math

from works import CLOSED, FIXED_CLOSED, PUMP, Junction, Load, Reservoir, Run, Tank, initial_flow, steps

LENGTH = 1000.0  # ft
FRICTION = 0.025
GRAVITY = 32.2  # ft/s2
LEAST_SLOPE = 1e-3  # ft per cfs: keeps a still pipe's slope above 0
LEAK = 1e-7  # cfs per ft at each junction, so that a part cut off has a head too
PUMPED = 100.0  # ft of pressure in a part that only pumps feed
NOTHING = 1e-18  # what is left of the equations when they count as solved
STEADY = 1e-7  # cfs: the change of a flow at which the balance counts as found
PLACES = 4


def resistance(diameter):
    """The loss of a main in feet at one cubic foot per second."""
    square = diameter * diameter
    return 8.0 * FRICTION * LENGTH / (math.pi * math.pi * GRAVITY * (square * square * diameter))


def loads_of(project, most):
    """A load for every step of the run, or for the first so many."""
    going, loads = Run(project), []
    while not going.ended and len(loads) < most:
        going.apply_controls()
        loads.append(balanced_load(going))
        going.step(loads[-1])
    return loads


def text_of(loads):
    """The loads as lines that follow an image's text; numbers in image order."""
    lines = ["", "# Made by stock/make.py.", "loads"]
    for load in loads:
        values = [" ".join(map(str, numbers)) for numbers in (load.flows, load.heads)]
        lines.append(f"load flow {values[0]} head {values[1]}")
    return "\n".join(lines) + "\n"


def balanced_load(going):
    """The balance at this moment, with the links of full and empty tanks closed as it asks for it."""
    closed = {number for number, status in enumerate(going.statuses) if status in (CLOSED, FIXED_CLOSED)}
    balance = Balance(going, closed)
    while more := balance.to_close():
        closed |= more
        balance = Balance(going, closed)
    heads = [balance.heads[index] for index in going.project.junctions()]
    return Load([rounded(flow) for flow in balance.flows], [rounded(head) for head in heads])


def rounded(number):
    return round(number, PLACES) + 0.0  # no -0.0


def total(numbers):
    """The sum from left to right; Python's own sum differs from version to version."""
    result = 0.0
    for number in numbers:
        result += number
    return result


class Balance:
    """The flows and heads at which every junction gets what it draws."""

    def __init__(self, going, closed):
        self.project = going.project
        self.levels = going.levels
        links = range(len(self.project.links))
        self.pumps = [n for n in links if n not in closed and self.project.links[n].sort == PUMP]
        self.mains = [n for n in links if n not in closed and self.project.links[n].sort != PUMP]
        self.flows = [0.0 for _ in links]
        for number in self.pumps:
            self.flows[number] = self.project.links[number].size * going.settings[number]
        for number in self.mains:
            self.flows[number] = initial_flow(self.project.links[number])
        self.heads = [self.fixed_head(index) for index in range(len(self.project.nodes))]
        self.still = [node.elevation for node in self.project.nodes]  # what a junction's head is without any main
        self.draws = [self.wanted(node) for node in self.project.nodes]
        self.feed_parts()
        for _ in range(200):
            if self.newton() < STEADY:
                break

    def fixed_head(self, index):
        node = self.project.nodes[index]
        if isinstance(node, Tank):
            return self.levels.heads[index]
        if isinstance(node, Reservoir) and node.pattern:
            options = self.project.options
            multipliers = self.project.patterns[node.pattern - 1].multipliers
            period = (options.pattern_start + self.levels.instant) // options.pattern
            return node.elevation * multipliers[period % len(multipliers)]
        return node.elevation

    def wanted(self, node):
        return steps.junction_demand(self.project, node, self.levels.instant) if isinstance(node, Junction) else 0.0

    def parts(self):
        """Each node's part: the nodes that open mains join have the same number."""
        part = list(range(len(self.project.nodes)))
        for _ in part:
            before = list(part)
            for number in self.mains:
                link = self.project.links[number]
                part[link.start] = part[link.end] = min(part[link.start], part[link.end])
            if part == before:
                break
        return part

    def feed_parts(self):
        """Fits the pumps and draws of each part with no reservoir or tank to each other; then what pumps take or bring
        counts as drawn at their ends."""
        part = self.parts()
        held = {part[index] for index, node in enumerate(self.project.nodes) if not isinstance(node, Junction)}
        ends = {number: (self.project.links[number].start, self.project.links[number].end) for number in self.pumps}
        for number, (start, _) in ends.items():
            if part[start] not in held:
                self.flows[number] = 0.0
        for one in sorted(set(part) - held):
            inside = [index for index, number in enumerate(part) if number == one]
            feeding = [number for number, (_, end) in ends.items() if part[end] == one]
            drawn, given = total(self.draws[index] for index in inside), total(self.flows[number] for number in feeding)
            for index in inside:
                self.draws[index] *= min(1.0, given / drawn) if drawn > 0.0 else 0.0
                self.still[index] += PUMPED if given > 0.0 else 0.0
            for number in feeding:
                self.flows[number] *= min(1.0, drawn / given) if given > 0.0 else 0.0
        for number, (start, end) in ends.items():
            self.draws[start] += self.flows[number]
            self.draws[end] -= self.flows[number]

    def newton(self):
        """One correction of all heads and flows; answers the greatest change of a flow."""
        slopes, offsets = {}, {}
        for number in self.mains:
            flow, r = self.flows[number], resistance(self.project.links[number].size)
            slope = 2.0 * r * abs(flow) + LEAST_SLOPE
            slopes[number] = slope
            offsets[number] = flow - (r * abs(flow) + LEAST_SLOPE) * flow / slope
        self.solve_heads(slopes, offsets)
        change = 0.0
        for number in self.mains:
            link = self.project.links[number]
            flow = offsets[number] + (self.heads[link.start] - self.heads[link.end]) / slopes[number]
            change = max(change, abs(flow - self.flows[number]))
            self.flows[number] = flow
        return change

    def solve_heads(self, slopes, offsets):
        """The junctions' heads at which the mains, taken as straight lines, bring every junction its draw."""
        unknown = self.project.junctions()
        diagonal = {index: LEAK for index in unknown}
        right = {index: LEAK * self.still[index] - self.draws[index] for index in unknown}
        pairs = []  # of junctions that a main joins
        for number in self.mains:
            link, conductance, offset = self.project.links[number], 1.0 / slopes[number], offsets[number]
            for end, other, brought in ((link.start, link.end, -offset), (link.end, link.start, offset)):
                if end in diagonal:
                    diagonal[end] += conductance
                    right[end] += brought if other in diagonal else brought + conductance * self.heads[other]
            if link.start in diagonal and link.end in diagonal:
                pairs.append((link.start, link.end, conductance))
        heads = solved(diagonal, pairs, right, {index: self.heads[index] for index in unknown})
        for index in unknown:
            self.heads[index] = heads[index]

    def to_close(self):
        """Open links that bring water to a full tank or take it from an empty one."""
        found = set()
        for index in self.project.tanks():
            tank, level = self.project.nodes[index], self.levels.heads[index] - self.project.nodes[index].elevation
            for number in self.pumps + self.mains:
                link = self.project.links[number]
                inflow = {link.end: self.flows[number], link.start: -self.flows[number]}.get(index, 0.0)
                if level >= tank.greatest and not tank.overflow and inflow > 0.0:
                    found.add(number)
                if level <= tank.least and inflow < 0.0:
                    found.add(number)
        return found


def solved(diagonal, pairs, right, start):
    """The solution of symmetric equations by conjugate gradients, each scaled by its diagonal."""

    def product(vector):
        result = {index: entry * vector[index] for index, entry in diagonal.items()}
        for one, other, conductance in pairs:
            result[one] -= conductance * vector[other]
            result[other] -= conductance * vector[one]
        return result

    def inner(one, other):
        return total(one[index] * other[index] for index in diagonal)

    solution, image = dict(start), product(start)
    rest = {index: right[index] - image[index] for index in diagonal}
    direction = {index: rest[index] / diagonal[index] for index in diagonal}
    size = inner(rest, direction)
    for _ in range(4 * len(diagonal)):
        if size < NOTHING:
            break
        image = product(direction)
        along = size / inner(direction, image)
        for index in diagonal:
            solution[index] += along * direction[index]
            rest[index] -= along * image[index]
        scaled = {index: rest[index] / diagonal[index] for index in diagonal}
        last, size = size, inner(rest, scaled)
        direction = {index: scaled[index] + size / last * direction[index] for index in diagonal}
    return solution
