"""The largest works that an image may hold, as text: 256 nodes, 384 links, 64 controls, 32 patterns, 128 premises.

Thornmoor is a district of twelve villages, each with a tank. Six have a well, six are fed by a booster from a
neighbour; valves join the ring of villages. Places, sizes, demands and hours are drawn by chance from a fixed seed.
"""

import random

SEED = "thornmoor 1"
VILLAGES = (
    "ALDERBROOK", "BIRKDALE", "COLDWELL", "DUNMOOR", "EASTCOTE", "FERNHILL",
    "GARTH", "HOLMFIELD", "INGS", "KIRKBY", "LANGRIGG", "MILLBANK",
)
WELLS = 6
JUNCTIONS = 256 - WELLS - len(VILLAGES)
LINKS = 384
CLOCK_CONTROLS, TIME_CONTROLS, PRESSURE_CONTROLS = 24, 8, 8
PREMISES = 128
WEEKLY, DAILY = 24, 8  # patterns

HOUSES = (
    0.40, 0.35, 0.30, 0.30, 0.40, 0.70, 1.30, 1.80, 1.70, 1.30, 1.10, 1.05,
    1.10, 1.05, 0.95, 0.95, 1.10, 1.40, 1.60, 1.50, 1.20, 0.95, 0.70, 0.55,
)


class Village:
    def __init__(self, name, number, chance):
        self.name = name
        self.number = number
        self.ground = round(chance.uniform(300.0, 420.0), 1)  # ft
        self.tank = f"{name}-TANK"
        self.places = []  # (name, east, north, elevation)

    @property
    def has_well(self):
        return self.number < WELLS

    def first(self):
        return self.places[0][0]


def text():
    chance = random.Random(SEED)
    villages = [Village(name, number, chance) for number, name in enumerate(VILLAGES)]
    for number in range(JUNCTIONS):
        add_place(villages[number % len(villages)], chance)
    links = list(all_links(villages, chance))
    lines = [
        "# Thornmoor: a district of twelve villages, as large as an image may be, over a week.",
        "#",
        f"# Made by stock/thornmoor.py from the seed {SEED!r}. Loads come in the first hours only; from then on the",
        "# flows stand as they were, except where a control sets its link's flow back to the initial one.",
        "",
        "options duration=168:00:00 hydraulic=0:10:00 report=1:00:00 pattern_timestep=1:00:00"
        " start_clock=0:00:00 default_pattern=WEEK-01 demand_multiplier=1.05",
        "",
        *patterns(chance),
        "",
        *nodes(villages, chance),
        "",
        *(line for _, line in links),
        "",
        *controls(villages, [name for name, _ in links], chance),
        "",
        *premises(villages, chance),
    ]
    return "\n".join(lines) + "\n"


def add_place(village, chance):
    east, north = round(chance.uniform(0.0, 4000.0)), round(chance.uniform(0.0, 4000.0))
    elevation = round(village.ground + chance.uniform(-40.0, 40.0), 1)
    village.places.append((f"{village.name}-{len(village.places) + 1:02}", east, north, elevation))


def patterns(chance):
    """Weeks of 168 hours, livelier at their end, and days of 24."""
    for number in range(1, WEEKLY + 1):
        busy = chance.uniform(1.05, 1.3)
        hours = [HOUSES[hour % 24] * (busy if hour >= 120 else 1.0) * chance.uniform(0.9, 1.1) for hour in range(168)]
        yield f"pattern WEEK-{number:02} " + " ".join(f"{multiplier:.2f}" for multiplier in hours)
    for number in range(1, DAILY + 1):
        begins, ends = chance.randint(5, 9), chance.randint(15, 20)
        hours = [2.0 if begins <= hour < ends else 0.2 for hour in range(24)]
        yield f"pattern SHIFT-{number:02} " + " ".join(map(str, hours))


def nodes(villages, chance):
    for village in villages:
        if village.has_well:
            yield f"reservoir {village.name}-WELL elevation={round(village.ground - chance.uniform(20.0, 90.0), 1)}"
    for village in villages:
        elevation = round(village.ground + chance.uniform(110.0, 140.0), 1)
        greatest = float(chance.randint(10, 18))
        initial = round(greatest * chance.uniform(0.45, 0.7), 1)
        flags = " flags=overflow" if chance.randrange(6) == 0 else ""
        yield (
            f"tank {village.tank} elevation={elevation} initial={initial} least=1.0 greatest={greatest}"
            f" diameter={float(chance.randint(50, 100))}{flags}"
        )
    for village in villages:
        for name, _, _, elevation in village.places:
            yield f"junction {name} elevation={elevation}" + demands(chance)


def demands(chance):
    """Houses, and here and there a shift."""
    parts = [f" demand={round(chance.uniform(0.002, 0.02), 4)} pattern=WEEK-{chance.randint(1, WEEKLY):02}"]
    if chance.randrange(4) == 0:
        parts.append(f" demand={round(chance.uniform(0.005, 0.03), 4)} pattern=SHIFT-{chance.randint(1, DAILY):02}")
    if chance.randrange(3) == 0:
        parts.append(f" demand={round(chance.uniform(0.001, 0.005), 4)}")
    return "".join(parts)


def all_links(villages, chance):
    """(name, line) of each link, LINKS in all: what the villages must have, and loops for the rest."""
    made = []
    for village in villages:
        made += supplies(village, villages, chance) + streets(village)
    made += [ring_valve(village, villages[(village.number + 1) % len(villages)]) for village in villages]
    loops = sorted(
        (distance(one, other), one[0], other[0])
        for village in villages
        for number, one in enumerate(village.places)
        for other in village.places[number + 1 :]
        if not any(f"start={one[0]} end={other[0]} " in line for _, line in made)
    )
    for _, one, other in loops[: LINKS - len(made)]:
        made.append(main(one, other, 0.333))
    return made


def supplies(village, villages, chance):
    """A pump, a pump that stands by, and the tank's main."""
    source = f"{village.name}-WELL" if village.has_well else villages[village.number - WELLS].first()
    flow = round(chance.uniform(0.75, 0.95) if village.has_well else chance.uniform(0.3, 0.4), 2)
    pump = "pump {0} start={1} end={2} status={3} initial_flow={4} setting=1.0"
    tank_main = main(village.places[1][0], village.tank, 0.833)
    supplied = [(f"{village.name}-PUMP", "Open")] + [(f"{village.name}-STANDBY", "Closed")] * village.has_well
    return [(name, pump.format(name, source, village.first(), status, flow)) for name, status in supplied] + [tank_main]


def streets(village):
    """A tree: each place is joined to the nearest of those before it."""
    made = []
    for number, place in enumerate(village.places[1:], 1):
        nearest = min(village.places[:number], key=lambda other: distance(place, other))
        made.append(main(nearest[0], place[0], 0.667 if number < 6 else 0.5))
    return made


def distance(one, other):
    return (one[1] - other[1]) ** 2 + (one[2] - other[2]) ** 2


def main(start, end, diameter):
    name = f"{start}.{end}"
    return name, f"pipe {name} start={start} end={end} diameter={diameter}"


def ring_valve(one, other):
    name = f"{one.name}.{other.name}"
    ends = f"start={one.places[2][0]} end={other.places[2][0]}"
    return name, f"valve {name} {ends} status=Closed diameter=0.5 setting=30.0"


def controls(villages, links, chance):
    for village in villages:
        low, high = round(chance.uniform(3.0, 4.5), 1), round(chance.uniform(8.0, 9.5), 1)
        yield f"control low_level node={village.tank} target={low} link={village.name}-PUMP status=Open"
        yield f"control high_level node={village.tank} target={high} link={village.name}-PUMP status=Closed"
    valves = [f"{one.name}.{other.name}" for one, other in zip(villages, villages[1:] + villages[:1])]
    for number in range(CLOCK_CONTROLS // 2):
        hour, minute = chance.randint(0, 23), chance.choice((0, 5, 7, 15, 20, 30, 45, 50))
        closing = (hour + chance.randint(2, 9)) % 24
        yield f"control clock seconds={hour}:{minute:02}:00 link={valves[number]} status=Open"
        yield f"control clock seconds={closing}:{minute:02}:30 link={valves[number]} status=Closed"
    for number in range(TIME_CONTROLS):
        village = villages[number % WELLS]
        seconds = chance.randint(2, 160) * 3600 + chance.randint(1, 3599)
        setting = round(chance.uniform(0.7, 1.1), 2)
        yield f"control time seconds={seconds} link={village.name}-PUMP setting={setting}"
    for number in range(PRESSURE_CONTROLS):
        village = villages[number]
        condition = ("low_pressure", "high_pressure")[number % 2]
        target = (40.0, 160.0)[number % 2]
        yield f"control {condition} node={village.places[-1][0]} target={target} link={valves[number]} setting=25.0"


def premises(villages, chance):
    for number in range(PREMISES):
        village = villages[number % len(villages)]
        operator = chance.choice(("or", "and"))
        level, hour = round(chance.uniform(1.0, 9.0), 1), chance.randint(0, 23)
        yield f"premise {operator} " + chance.choice((
            f"tank.level {village.tank} < number {level}",
            f"tank.fill_time {village.tank} < number {level}",
            f"tank.drain_time {village.tank} <= number {level}",
            f"link.status {village.name}-PUMP = status Closed",
            f"node.pressure {chance.choice(village.places)[0]} < number {round(level * 10.0, 1)}",
            f"system.clock_time >= time {hour}:00:00",
        ))
