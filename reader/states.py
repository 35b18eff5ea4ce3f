"""The states of a run, from the proved program `replay`, which makes the driver's calls in the driver's order."""

import struct
from dataclasses import dataclass

import image_decode

from reader.failure import DIED, Failure

PATTERNS, CONTROLS, LOAD, CLOSE, STEP, SLOW = 1, 2, 3, 4, 7, 8  # the codes of the calls
NAMES = {PATTERNS: "patterns", CONTROLS: "controls", LOAD: "load", CLOSE: "close", STEP: "step", SLOW: "slow"}


@dataclass
class State:
    """A state as `replay` prints it; heads and demands by node, the rest by link."""

    instant: int
    count: int  # of clock moves
    heads: tuple
    demands: tuple
    flows: tuple
    statuses: tuple
    settings: tuple


def changed(before, after):
    """The links whose status or setting differs."""
    old, new = zip(before.statuses, before.settings), zip(after.statuses, after.settings)
    return [link for link, (one, other) in enumerate(zip(old, new)) if one != other]


@dataclass
class Turn:
    """One turn of the driver: the state after each of its calls. A refused load ends the run in mid-turn."""

    patterned: State
    controlled: State
    loaded: State
    refused: int = 0
    closed: State = None
    length: int = 0
    stepped: State = None


class Lines:
    """The lines of `replay`, taken one by one: what a call answers, and the state after it."""

    def __init__(self, lines, project):
        self.lines = iter(lines)
        self.nodes = 3 * len(project.nodes)
        self.form = struct.Struct(f">2Q{self.nodes}d" + "dQd" * len(project.links))

    def next(self, call):
        """The answer to the next call, which is to be this one, and the state."""
        line = next(self.lines, b"").decode()
        name, _, rest = line.partition(" ")
        if name != call:
            raise Failure(f"replay answers {name or 'nothing'} where {call} was called", DIED)
        answer, _, words = rest.partition(" ")
        return answer, self.state(words)

    def state(self, words):
        values = self.form.unpack(bytes.fromhex(words))
        links = 2 + self.nodes
        nodes = values[2:links]
        flows, statuses, settings = (values[links + place :: 3] for place in range(3))
        return State(*values[:2], nodes[0::3], nodes[1::3], flows, statuses, settings)


def refusal(answer):
    """The number with which a call is refused; 0 where it is not."""
    return int(answer.removeprefix("refused=")) if answer.startswith("refused=") else 0


def image_of(data):
    """The count of words and the words, without the loads."""
    (count,) = struct.unpack_from("<I", data)
    return data[: 4 + 4 * count]


def loads_of(data, project):
    """The words of each load behind the image; the last may be cut."""
    at, size = len(image_of(data)), 4 + 4 * image_decode.load_size(project)
    for begin in range(at, len(data), size):
        part = data[begin : begin + size]
        yield struct.unpack_from(f"<{len(part) // 4}I", part)


def input_of(data, project, listing):
    """The input of `replay` that makes the calls of the driver's run."""
    loads = loads_of(data, project)
    calls = []
    for _ in listing.steps:
        calls += turn_calls(loads)
    if listing.refused:
        calls += turn_calls(loads)[:-2]  # the load is the last
    words = [word for call in calls for word in call]
    return image_of(data) + struct.pack(f"<{1 + len(words)}I", len(calls), *words)


def turn_calls(loads, step=STEP):
    """The calls of a turn of the driver, in its order, each as its words; the load if one is left."""
    load = next(loads, None)
    load_call = [] if load is None else [[LOAD, len(load), *load]]
    return [[PATTERNS], [CONTROLS], *load_call, [CLOSE], [step]]


class Run:
    """A run of an accepted image: the state at the start, then the turns as they come."""

    def __init__(self, lines, data, project, listing):
        self.listing = listing
        self.loads = len(list(loads_of(data, project)))
        self.lines = Lines(lines, project)
        _, self.start = self.lines.next("start")

    def turns(self):
        for number, (instant, length) in enumerate(self.listing.steps):
            turn = self.begun(number < self.loads)
            _, turn.closed = self.lines.next("close")
            answer, turn.stepped = self.lines.next("step")
            turn.length = int(answer)
            if (turn.patterned.instant, turn.length) != (instant, length):
                raise Failure(f"driver and replay part at {instant}: steps of {length} and {turn.length} s", DIED)
            yield turn
        if self.listing.refused:
            turn = self.begun(True)
            if turn.refused != self.listing.refused:
                raise Failure(f"driver and replay part: refused {self.listing.refused} and {turn.refused}", DIED)
            yield turn
        # To the end, so that a program that dies there is told of.
        for _ in self.lines.lines:
            raise Failure("replay answers more than was called", DIED)

    def begun(self, with_load):
        """A turn as far as the load."""
        _, patterned = self.lines.next("patterns")
        _, controlled = self.lines.next("controls")
        turn = Turn(patterned, controlled, controlled)
        if with_load:
            answer, turn.loaded = self.lines.next("load")
            turn.refused = refusal(answer)
        return turn
