"""The stops of a works, told before it runs by the proved program `timetable`, and what calls for a stop.

The instants are the program's. They are held to what every timetable is: rising, and the duration last. Why a works has
no stops beforehand, and what calls for one, is worked out here from the tables by document 02.
"""

import functools
import re

import image_decode

from reader.events import by_control
from reader.failure import DIED, Failure
from reader.network import CLOCK, DAY, TIME

INSTANT = re.compile("0|[1-9][0-9]{0,9}")  # a word of 32 bits at most
REFUSAL = re.compile("refused ([1-9][0-9]?)")
NONE = "none"


# --- What is printed ---


def damaged(what):
    """Something that a timetable cannot do."""
    return Failure(f"timetable {what}", DIED)


class Stops:
    """What the lines of `timetable` say, taken one by one: instants, and a line that ends them."""

    def __init__(self, item):
        self.item = item
        self.last = self.count = 0  # of the instants so far
        self.none = self.ended = False
        self.refused = 0  # document 01's number

    @functools.cached_property
    def network(self):
        """The network of an image that is not refused; one with a fault has no tables to hold the lines to."""
        item = self.item
        if fault := image_decode.count_fault(item.data) or image_decode.decode(item.image_words()).fault:
            raise damaged(f"accepts an image with a fault: {fault}")
        return item.network

    def take(self, line):
        if self.ended:
            raise damaged(f"prints {line!r} behind its last line")
        if INSTANT.fullmatch(line):
            self.take_instant(int(line))
        else:
            self.take_last(line)

    def take_instant(self, instant):
        if instant <= self.last:
            raise damaged(f"stops at {instant}, which is not above {self.last}")
        if instant > self.network.duration:
            raise damaged(f"stops at {instant}, past the duration, {self.network.duration}")
        self.last, self.count = instant, self.count + 1

    def take_last(self, line):
        """A works that has no stops beforehand, or an image that is refused, has no instants either."""
        self.ended = True
        if line.startswith("steps "):
            self.judge_steps(line)
        elif line == NONE and not self.count:
            self.none = True
        elif (refusal := REFUSAL.fullmatch(line)) and not self.count:
            self.refused = int(refusal[1])
        else:
            raise damaged(f"prints {line!r} as line {self.count + 1}, which is no instant and no last line there")

    def judge_steps(self, line):
        if line != f"steps {self.count}":
            raise damaged(f"prints {line!r}, and its instants are {self.count}")
        if self.last != self.network.duration:
            raise damaged(f"ends at {self.last}, and the duration is {self.network.duration}")

    def judge_end(self):
        if not self.ended:
            raise damaged("prints no last line")


# --- Why there are none beforehand ---


def reason(network):
    """Why the stops of a works are not known beforehand."""
    which = stepped_otherwise(network) or too_seldom(network)
    if not which:
        return f"{NONE}: and reader/stops.py, which has the reasons, finds no reason"
    return f"{NONE}: no stops are known beforehand for works {which}"


def stepped_otherwise(network):
    """Whether a works steps otherwise: by the levels of tanks too, or on the fast path by the report timestep alone."""
    if network.tanks:
        return f"with tanks: {network.node_name(network.tanks[0])} is one"
    if network.on_fast_path:
        return "on the fast path (skip, no controls, no tanks)"
    return ""


def too_seldom(network):
    """What fails of R-14: report or pattern timestep at most the hydraulic one in force; one of them at most a day."""
    options = network.tables.options
    report, pattern, hydraulic = options["report"], options["pattern timestep"], network.hydraulic
    both = f"report ({report:,} s) and pattern timestep ({pattern:,} s)"
    if hydraulic < min(report, pattern):
        return f"with a hydraulic timestep in force of {hydraulic:,} s, below both {both}"
    if min(report, pattern) > DAY:
        return f"with {both} both above a day"
    return ""


# --- What calls for a stop ---


def causes(network, instant, by="timetable", at_hydraulic=False):
    """What calls for a stop, as its line has it; `by` is who stops there."""
    found = list(calling(network, instant, at_hydraulic))
    if not found:
        raise Failure(f"{by} stops at {instant}, and nothing calls for a stop there", DIED)
    return "; ".join(found)


def calling(network, instant, at_hydraulic):
    """Document 02: "report, pattern, hydraulic timestep, time and clock controls, duration".

    The hydraulic timestep counts from where a step begins: that it is over is for the caller to say.
    """
    options = network.tables.options
    if instant % options["report"] == 0:
        yield "report timestep"
    if instant % options["pattern timestep"] == 0:
        yield "pattern timestep"
    if at_hydraulic:
        yield "hydraulic timestep"
    for condition in (TIME, CLOCK):
        for number, control in network.controls():
            if control["condition"] == condition and network.is_due(control, instant):
                yield by_control(network, number, control)
    if instant == network.duration:
        yield "duration"
