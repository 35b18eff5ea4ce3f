"""The tables of a works under the names of its text, and what document 01 says of them on a state.

Nothing here works out a head or a flow: those are the program's, and a level is a tank's head less its elevation. The
rules below only tell which control, tank or limit a change in the states belongs to.
"""

import math

import image_decode
from image_format import STATUS

HIGH_LEVEL, LOW_LEVEL, TIME, CLOCK = 2, 3, 4, 5  # conditions
OPENS = {"Open", "Active", "Xflow", "XFCV", "XPressure", "FixedOpen"}
LEVEL_TOLERANCE = 0.0001  # feet: L_TOL
REACHED = 0.5  # cubic feet: a level is reached when less is missing
DAY = 86_400  # seconds
HOUR = 3_600  # seconds: the hydraulic timestep where its field is 0
SKIP = 1  # flag of the options


def is_open(status):
    return STATUS.names[status] in OPENS


def standing(status):
    """How a link stands, in a word."""
    if STATUS.names[status] == "Active":
        return "active"
    return "open" if is_open(status) else "closed"


class Network:
    def __init__(self, tables, names):
        self.tables, self.names = tables, names
        self.duration, self.start_clock = tables.options["duration"], tables.options["start clock"]
        self.hydraulic = tables.options["hydraulic"] or HOUR  # the timestep in force
        self.tanks = [index for index, node in enumerate(tables.nodes) if node["kind"] == "tank"]
        self.on_fast_path = bool(tables.options["flags"] & SKIP) and not tables.controls and not self.tanks

    def node_name(self, index):
        return image_decode.thing_name(self.names, "node", self.tables.nodes[index]["kind"], index)

    def link_name(self, index):
        return image_decode.thing_name(self.names, "link", self.link_sort(index), index)

    def link_sort(self, index):
        return image_decode.LINK_SORTS[self.tables.links[index]["sort"]]

    # --- tanks ---

    def level(self, state, tank):
        return state.heads[tank] - self.tables.nodes[tank]["elevation"]

    def has_reached(self, state, tank, target):
        """Module 3: less than half a cubic foot is missing, so that the time to the level is 0."""
        diameter = self.tables.nodes[tank]["diameter"]
        level = self.level(state, tank)
        volumes = [max(feet, 0.0) * math.pi * diameter * diameter / 4 for feet in (level, target)]
        return abs(volumes[1] - volumes[0]) < REACHED

    def limits(self, tank):
        node = self.tables.nodes[tank]
        return {"full": node["greatest"], "empty": node["least"]}

    def overflows(self, tank):
        return bool(self.tables.nodes[tank]["flags"])

    # --- controls, numbered from 1 ---

    def controls(self):
        return list(enumerate(self.tables.controls, 1))

    def level_controls(self, tank):
        """The level controls that watch a tank."""
        return [
            (number, control)
            for number, control in self.controls()
            if control["condition"] in (HIGH_LEVEL, LOW_LEVEL) and control["node or seconds"] == tank
        ]

    def is_due(self, control, instant):
        """Whether a time control's seconds are those of the run, or a clock control's those of the day."""
        if control["condition"] == CLOCK:
            instant = (instant + self.start_clock) % DAY
        return control["node or seconds"] == instant

    def is_active(self, control, state):
        """Module 5, and module 7: pressure controls are passed over; level controls too at time 0."""
        condition, subject = control["condition"], control["node or seconds"]
        if condition in (TIME, CLOCK):
            return self.is_due(control, state.instant)
        if condition not in (HIGH_LEVEL, LOW_LEVEL) or subject not in self.tanks or state.instant == 0:
            return False
        over = self.level(state, subject) - control["target"]
        return over >= -LEVEL_TOLERANCE if condition == HIGH_LEVEL else over <= LEVEL_TOLERANCE

    # --- tank-link closing ---

    def closers(self, link, state):
        """Module 8: the tanks that close a link, each with full or empty."""
        ends, flow = self.tables.links[link], state.flows[link]
        for tank, inflow in ((ends["end"], flow), (ends["start"], -flow)):
            if tank in self.tanks:
                node, head = self.tables.nodes[tank], state.heads[tank]
                if inflow > 0 and head >= node["elevation"] + node["greatest"] and not self.overflows(tank):
                    yield tank, "full"
                if inflow < 0 and head <= node["elevation"] + node["least"]:
                    yield tank, "empty"
