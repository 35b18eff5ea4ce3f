"""A works as a project, and its run worked out in Python from document 01.

The run is what the loads are made along and what the table of causes counts. It is a second working-out of the
listing; the listings of the stock are the Rust's.
"""

import math
import pathlib
import sys
from dataclasses import dataclass

FOLDER = pathlib.Path(__file__).resolve().parent
for place in ("compare/rust", "tools"):
    sys.path.insert(0, str(FOLDER.parent / place))

import image_decode  # noqa: E402
import image_show  # noqa: E402
import image_text  # noqa: E402
import steps  # noqa: E402
from image import CLOCK_TIME, CLOSED, DAY, FIXED_CLOSED, HIGH_LEVEL, HIGH_PRESSURE  # noqa: E402
from image import LOW_PRESSURE, PUMP, TIME, Control, Junction, Link, Load, Options, Pattern  # noqa: E402
from image import Project, Reservoir, Tank  # noqa: E402
from values import L_TOL, Q_ZERO  # noqa: E402


def project_of(words):
    """The project that an accepted image says."""
    told = image_decode.decode(words)
    if told.fault:
        raise ValueError(str(told.fault))
    return project_told(told)


def project_told(told):
    """A decoded image as a project. Premises are left out."""
    return Project(
        Options(*told.options.values()),
        [Pattern(pattern["multipliers"]) for pattern in told.patterns],
        [node_of(node) for node in told.nodes],
        [Link(*link.values()) for link in told.links],
        [Control(*control.values()) for control in told.controls],
    )


def node_of(told):
    if told["kind"] == "reservoir":
        return Reservoir(told["elevation"], told["head pattern"])
    if told["kind"] == "junction":
        return Junction(told["flags"], told["elevation"], told["demands"])
    return Tank(*list(told.values())[1:])


def initial_flow(link):
    """Document 01, module 4: Q_ZERO for a link that is closed at the start, else by its sort."""
    if link.status in (CLOSED, FIXED_CLOSED):
        return Q_ZERO
    return link.size if link.sort == PUMP else 0.25 * math.pi * (link.size * link.size)


@dataclass
class Step:
    instant: int
    length: int
    causes: list  # the names of what is due when it ends

    def line(self):
        return f"{self.instant} {self.length}"


class Run:
    """A driver's run: each step takes the next load, or goes by the flows that stand."""

    def __init__(self, project):
        self.project = project
        self.levels = steps.starting_levels(project)
        self.flows = [initial_flow(link) for link in project.links]
        self.statuses = [link.status for link in project.links]
        self.settings = [link.setting for link in project.links]

    @property
    def ended(self):
        return self.levels.instant >= self.project.options.duration

    def apply_controls(self):
        for control in self.project.controls:
            if self.is_active(control):
                self.activate(control)

    def is_active(self, control):
        now = self.levels.instant
        if control.condition == TIME:
            return control.subject == now
        if control.condition == CLOCK_TIME:
            return control.subject == (now + self.project.options.start_clock) % DAY
        node = self.project.nodes[control.subject]
        if control.condition in (HIGH_PRESSURE, LOW_PRESSURE) or now == 0 or not isinstance(node, Tank):
            return False
        over = self.levels.heads[control.subject] - node.elevation - control.target
        return over >= -L_TOL if control.condition == HIGH_LEVEL else over <= L_TOL

    def activate(self, control):
        """A status wins over a setting; with either, the flow is the initial one again."""
        if control.flags & 1:
            self.statuses[control.link] = control.status
        elif control.flags & 2:
            self.settings[control.link] = control.setting
        if control.flags:
            self.flows[control.link] = initial_flow(self.project.links[control.link])

    def step(self, load=None):
        """Takes a load, or none, and steps. Controls are applied before, by apply_controls."""
        if load:
            self.flows = list(load.flows)
        heads = load.heads if load else [0.0 for _ in self.project.junctions()]
        steps.put_load(self.project, self.levels, Load(self.flows, heads))
        found = steps.causes(self.project, self.levels)
        length = min(found.values())
        step = Step(self.levels.instant, length, [name for name, seconds in found.items() if seconds == length])
        steps.advance(self.project, self.levels)
        return step


@dataclass
class Ran:
    steps: list
    last: str  # the listing's last line

    def listing(self):
        header = [] if self.last.startswith("refused") and not self.steps else ["from length"]
        return "\n".join(header + [step.line() for step in self.steps] + [self.last, ""])


def run_of(data):
    """The run on a driver's input."""
    (count, *words), _ = image_show.split_words(data)
    told = image_decode.decode(words[:count])
    if told.fault:
        return Ran([], f"refused {told.number}")
    project, left = project_told(told), words[count:]
    going, taken, size = Run(project), [], 1 + image_decode.load_size(told)
    while not going.ended:
        going.apply_controls()
        load = None
        if left:
            if fault := image_decode.judge_load(told, left[:size]):
                return Ran(taken, f"refused {fault.number}")
            load, left = load_of(project, left[:size]), left[size:]
        taken.append(going.step(load))
    return Ran(taken, f"steps {len(taken)}")


def load_of(project, words):
    """A load that has no fault."""
    values = image_decode.numbers_of(words[1:])
    return Load(values[: len(project.links)], values[len(project.links) :])
