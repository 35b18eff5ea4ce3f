"""The table of the tanks' links, and closing by it, worked out once more from document 02, R-8."""

from dataclasses import dataclass

from image import TEMP_CLOSED


def laid_out(tanks, ends):
    """"one table grouped by tank, those into it first, with the place where each tank begins": the places and the one
    behind the last tank, the middles, where the links out of a tank begin, and the link numbers, in link order on
    either side of a middle."""
    begins, middles, links = [0], [], []
    for tank in tanks:
        links += [link for link, (_, end) in enumerate(ends) if end == tank]
        middles.append(len(links))
        links += [link for link, (start, _) in enumerate(ends) if start == tank]
        begins.append(len(links))
    return begins, middles, links


@dataclass
class Group:
    """A tank's node, and its part of the table: each link's number and whether it goes into the tank."""

    tank: int
    links: list

    def inflows(self, flows):
        return [flows[link] if into else -flows[link] for link, into in self.links]


def summed(inflows):
    """In order and one rounding at a time, which `sum` is not in every Python."""
    total = 0.0
    for inflow in inflows:
        total += inflow
    return total


def groups(project):
    tanks = project.tanks()
    begins, middles, links = laid_out(tanks, [(link.start, link.end) for link in project.links])
    return [
        Group(tank, [(links[place], place < middle) for place in range(begin, end)])
        for tank, begin, middle, end in zip(tanks, begins, middles, begins[1:])
    ]


def is_full(tank, head):
    return head >= tank.elevation + tank.greatest


def is_empty(tank, head):
    return head <= tank.elevation + tank.least


def closes(tank, head, inflow):
    """Whether a tank at this head closes a link by which so much comes in."""
    return (is_full(tank, head) and not tank.overflow and inflow > 0.0) or (is_empty(tank, head) and inflow < 0.0)


def closed_by_table(project, state):
    """The demands and statuses after closing: of each tank its net inflow, and of each link that it closes."""
    demands, statuses = list(state.demands), list(state.statuses)
    for group in groups(project):
        node, head = project.nodes[group.tank], state.heads[group.tank]
        inflows = group.inflows(state.flows)
        demands[group.tank] = summed(inflows)
        for (link, _), inflow in zip(group.links, inflows):
            if closes(node, head, inflow):
                statuses[link] = TEMP_CLOSED
    return demands, statuses
