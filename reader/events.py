"""What happens at each time of a run, for a fitter: which pump, valve or tank a time belongs to, and why."""

from image_format import STATUS

from reader.listing import DAY, clock, counted, day, elapsed
from reader.network import CLOCK, HIGH_LEVEL, TIME, is_open, standing
from reader.states import changed


def feet(level):
    return f"{level:.2f} ft"


def moving(demand):
    """How a tank's level goes, by its net inflow."""
    return "rising" if demand > 0 else "falling" if demand < 0 else "standing"


def condition(network, control):
    """When a control is active, in words."""
    subject = control["node or seconds"]
    if control["condition"] == TIME:
        return f"at {elapsed(subject)} of the run"
    if control["condition"] == CLOCK:
        return f"at {clock(subject)}"
    side = "above" if control["condition"] == HIGH_LEVEL else "below"
    return f"{network.node_name(subject)} at or {side} {feet(control['target'])}"


def by_control(network, number, control):
    """The control that something is due to."""
    return f"control {number}: {condition(network, control)}"


class Moment:
    """What happens at one time, and the levels of the tanks that it is about."""

    def __init__(self, instant):
        self.instant, self.said, self.levels = instant, [], {}
        self.reached = {}  # the level controls at whose level a tank has come, by number


class Events:
    """Takes the turns of a run one by one and answers the lines that tell of them."""

    def __init__(self, network, start, reason):
        self.network, self.start, self.reason = network, start, reason
        self.moment = Moment(0)
        self.width = len(elapsed(network.duration))
        self.steps, self.last = 0, start

    def take(self, turn):
        moment = self.moment
        if not self.steps:
            moment.said += self.beginning(turn.closed or turn.loaded)
        self.switch(turn, moment)
        moment.said += self.passings(moment)
        if turn.refused:
            moment.said.append(self.reason)
            return [self.line(moment)]
        moment.said += self.closings(turn)
        self.steps, self.last = self.steps + 1, turn.stepped
        self.moment = Moment(turn.stepped.instant)
        self.moment.said += self.arrivals(turn, self.moment)
        return [self.line(moment)] if moment.said else []

    def end(self):
        """The last line of a run that is not refused."""
        if not self.steps:
            self.moment.said += self.beginning(self.start)
        self.moment.said += self.passings(self.moment)
        self.moment.said.append(f"end of the run, {counted(self.steps)}")
        for tank in self.network.tanks:
            self.tell_level(self.moment, tank)
        return [self.line(self.moment)]

    def line(self, moment):
        seconds = self.network.start_clock + moment.instant
        dated = self.network.start_clock or self.network.duration > DAY
        when = f"  day {day(seconds)} {clock(seconds)}" if dated else ""
        told = "; ".join(moment.said + list(moment.levels.values()))
        return f"{elapsed(moment.instant):>{self.width}}{when}  {told}"

    def tell_level(self, moment, tank):
        """The level as the last step has left it, and how it went there."""
        level, demand = self.network.level(self.last, tank), self.last.demands[tank]
        moment.levels[tank] = f"{self.network.node_name(tank)} {feet(level)}, {moving(demand)}"

    def beginning(self, state):
        """The start once: every tank, pump and valve, and the pipes that are not open."""
        yield "start"
        for tank in self.network.tanks:
            level = feet(self.network.level(self.start, tank))
            yield f"{self.network.node_name(tank)} {level}, {moving(state.demands[tank])}"
        for link, status in enumerate(self.start.statuses):
            if self.network.link_sort(link) != "pipe" or not is_open(status):
                yield f"{self.network.link_name(link)} {standing(status)}"

    # --- controls ---

    def switch(self, turn, moment):
        """What controls change, and the levels of the tanks that they watch as they find them."""
        for link in changed(turn.patterned, turn.controlled):
            by = list(self.switching(link, turn))
            reasons = ", ".join(by_control(self.network, number, control) for number, control in by)
            change = self.change(link, turn.patterned, turn.controlled)
            moment.said.append(f"{self.network.link_name(link)} {change} ({reasons})")
            for number, control in by:
                moment.reached.pop(number, None)
                if control["condition"] not in (TIME, CLOCK):
                    self.tell_level(moment, control["node or seconds"])

    def switching(self, link, turn):
        """The active controls that give a link the status or the setting that it did not have."""
        before, after = turn.patterned, turn.controlled
        for number, control in self.network.controls():
            if control["link"] != link or not self.network.is_active(control, before):
                continue
            # "a status wins over a setting"
            part, new = ("statuses", control["status"]) if control["flags"] & 1 else ("settings", control["setting"])
            old, now = getattr(before, part)[link], getattr(after, part)[link]
            if control["flags"] and old != now == new:
                yield number, control

    def change(self, link, before, after):
        """What changes at a link, in words."""
        old, new = before.statuses[link], after.statuses[link]
        told = []
        if is_open(old) != is_open(new):
            told.append("opens" if is_open(new) else "closes")
        elif old != new:
            told.append(f"goes from {STATUS.names[old]} to {STATUS.names[new]}")
        if before.settings[link] != after.settings[link]:
            verb = "runs at speed" if self.network.link_sort(link) == "pump" else "is set to"
            told.append(f"{verb} {after.settings[link]:g}")
        return " and ".join(told)

    # --- tanks ---

    def closings(self, turn):
        for link in changed(turn.loaded, turn.closed):
            why = " and ".join(
                f"{self.network.node_name(tank)} is {limit}" for tank, limit in self.network.closers(link, turn.loaded)
            )
            yield f"{self.network.link_name(link)} {self.change(link, turn.loaded, turn.closed)}: {why}"

    def arrivals(self, turn, moment):
        """The tanks that a step brings to a limit. Those at a control's level wait until it has had its turn."""
        for tank in self.network.tanks:
            name, level = self.network.node_name(tank), self.network.level(turn.stepped, tank)
            for limit, target in self.network.limits(tank).items():
                if self.reaches(tank, target, turn):
                    over = " and overflows" if limit == "full" and self.network.overflows(tank) else ""
                    yield f"{name} is {limit}{over}, {feet(level)}"
            for number, control in self.network.level_controls(tank):
                if self.reaches(tank, control["target"], turn):
                    moment.reached[number] = control

    def passings(self, moment):
        """The tanks at the level of a control that has changed nothing, and why."""
        for number, control in moment.reached.items():
            tank, target = control["node or seconds"], feet(control["target"])
            name, way = self.network.node_name(tank), moving(self.last.demands[tank])
            if way != ("rising" if control["condition"] == HIGH_LEVEL else "falling"):
                yield f"{name} passes {target}, {way}"
            elif self.network.is_active(control, self.last):
                yield f"{name} reaches {target}, {way}: control {number} has nothing to change"
            else:
                short = abs(self.network.level(self.last, tank) - control["target"])
                yield f"{name} {short:.2g} ft short of {target}, {way}: control {number} is not active yet"

    def reaches(self, tank, target, turn):
        reached = self.network.has_reached
        return reached(turn.stepped, tank, target) and not reached(turn.closed, tank, target)
