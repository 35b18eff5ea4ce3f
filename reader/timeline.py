"""What a picture shows of a run, gathered from its turns."""

from dataclasses import dataclass

from reader.network import standing
from reader.states import changed

CONTROL, TANK = "control", "tank"  # what changes a link


@dataclass
class Stretch:
    """A time through which a link stands alike."""

    begin: int
    end: int
    how: str


class Timeline:
    def __init__(self, network, start):
        self.network = network
        self.levels = {tank: [(0, network.level(start, tank))] for tank in network.tanks}
        self.stretches = [[] for _ in start.statuses]
        self.changes = [[] for _ in start.statuses]  # (instant, CONTROL or TANK)
        self.steps = []  # their instants
        self.refused = None  # the number and the instant

    def take(self, turn):
        instant = turn.patterned.instant
        self.note(changed(turn.patterned, turn.controlled), instant, CONTROL)
        if turn.refused:
            self.refused = turn.refused, instant
            return
        self.note(changed(turn.loaded, turn.closed), instant, TANK)
        self.steps.append(instant)
        end = turn.stepped.instant
        for stretches, status in zip(self.stretches, turn.closed.statuses):
            lengthen(stretches, instant, end, standing(status))
        for tank, levels in self.levels.items():
            levels.append((end, self.network.level(turn.stepped, tank)))

    def note(self, links, instant, what):
        for link in links:
            self.changes[link].append((instant, what))

    def links(self):
        """Pumps and valves, and the pipes at which something changes."""
        return [
            link for link, changes in enumerate(self.changes) if changes or self.network.link_sort(link) != "pipe"
        ]


def lengthen(stretches, begin, end, how):
    if stretches and stretches[-1].how == how:
        stretches[-1].end = end
    else:
        stretches.append(Stretch(begin, end, how))
