#!/usr/bin/env python3
"""The test batch of the decoder: images and the number that document 01 gives each.

  images.py write DIR      writes case000, case001, .. (the count of words, then the words, little-endian)
                           and `expected`, a line a row: the number, the row's name
  images.py list           prints the rows: the number, the name, the sentence of document 01
  images.py check          compares each number with what tools/image_decode.py answers
  images.py quotes PAPER   checks that each sentence stands in the paper, word for word

A row's number is written here by hand, from the paper; no decoder had a part in it. Each image is the
good image below with one change, so that a wrong answer points at one rule. 0 is acceptance.
"""
import collections
import itertools
import math
import pathlib
import struct
import sys

sys.path.insert(0, str(pathlib.Path(__file__).resolve().parent.parent / "tools"))
import image_decode  # noqa: E402

Row = collections.namedtuple("Row", "number name sentence words")


# --- The sentences of document 01 that the rows are for ---

WHOLE = "no words, or over 16,384"
HEADER = "unknown kind, bits 16 to 27 set, wrong stage, second or missing options, wrong payload size"
CUT = "payload runs past the end"
ONE_MORE = "one more of a counted thing than allowed"
WORDS = "number not finite or out of range, code, flag or unused word wrong, ends equal"
INDEX = "index to nothing declared; the default pattern is judged after the last record"
FIRST_FAULT = "The first fault in image order is reported; no fault means acceptance."
ORDER = "Place, in this order"

STAGES = "Stages in order: options (once), patterns, nodes, links, controls, premises."
COUNTS = "at most 16,384 words, 32 patterns, 256 nodes, 384 links, 64 controls, 128 premises"
TIMES = "Times 0 to 315,360,000, report and pattern timesteps from 1, start clock and clock controls to 86,399."
FEET = "Elevations, levels and targets within ±100,000; least not above greatest."
DIAMETERS = "Diameters 0.001 to 10,000."
OTHERS = "Other image numbers within ±1,000,000, premise numbers within ±10^12."
ENDS = "A link's ends differ."

OPTION_FLAGS = "flags (1 skip, 2 PDA)"
MULTIPLIERS = "1 to 168 multipliers"
TANK_FLAGS = "flag 1 overflow"
JUNCTION_FLAGS = "flag 1 disabled"
DEMANDS = "0 to 4 of (base demand, pattern): 3 to 15"
SORTS = "sort (0 pipe, 1 pump, 2 valve)"
CONDITIONS = "condition 0 to 5 in `ControlCondition` order"
CONTROL_FLAGS = "flags (1 status, 2 setting)"
OPERATORS = "operator (0 or, 1 and)"
VALUES = "value's sort (0 number, 1 status, 2 time)"

PATTERN_WORD = "A pattern word is 0 for none, else index + 1."
STATUSES = "Statuses are 0 to 9 in `LinkStatus` order."
ATTRIBUTES = "Attributes 0 to 11: node, tank, link, system, each in its enum's order."
COMPARISONS = "Comparisons 0 to 5: Eq, Ne, Gt, Lt, Ge, Le."
UNUSED = (
    "Unused words are 0: an absent status or setting, a time control's target, a system index, "
    "a status's or time's high word."
)
PIPE_SETTING = "A pipe's setting is +0.0."
NO_TANK = "a level control whose node is no tank is never active"
WRONG_SORT = "A value of the wrong sort, or a tank attribute of no tank, is false"
LOAD = "A load (kind 15) has every link's flow, then every junction's head, in order, each within ±10^12."
EXAMPLE = (
    "For T alone at level 10, hydraulic 5,000, report 7,200, pattern 3,600, duration 10,000, "
    "other options 0 except multiplier 1:"
)


# --- Numbers ---


class Bits(int):
    """An f64 by its bits, for those that no literal gives."""


NAN = Bits(0x7FF8000000000000)
MINUS_ZERO = Bits(0x8000000000000000)
INFINITY = math.inf
ALL_ONES = 0xFFFFFFFF  # the greatest word

LONGEST = 315_360_000
LAST_OF_DAY = 86_399


def number(x):
    """The two words of an f64, low word first."""
    if isinstance(x, Bits):
        return [x & ALL_ONES, x >> 32]
    if not isinstance(x, float):
        raise TypeError(f"{x!r} is no f64: write it with a point")
    return list(struct.unpack("<2I", struct.pack("<d", x)))


def above(x):
    """The next f64."""
    return math.nextafter(x, math.inf)


def below(x):
    """The f64 before."""
    return math.nextafter(x, -math.inf)


# --- The kinds of record: their payloads, with the good image's values as defaults ---


def joined(parts):
    """The words of several parts, one after the other."""
    return list(itertools.chain.from_iterable(parts))


def record(kind, *parts):
    payload = joined(parts)
    return [kind << 28 | len(payload)] + payload


def options(
    duration=10_000,
    hydraulic=5_000,
    report=7_200,
    pattern_timestep=3_600,
    pattern_start=1_800,
    start_clock=82_800,
    flags=0,
    default_pattern=1,
    demand_multiplier=1.0,
):
    times = [duration, hydraulic, report, pattern_timestep, pattern_start, start_clock]
    return record(1, times, [flags, default_pattern], number(demand_multiplier))


def pattern(*multipliers):
    return record(2, *[number(m) for m in multipliers])


def reservoir(elevation=150.0, head_pattern=1):
    return record(3, number(elevation), [head_pattern])


def tank(elevation=100.0, initial=10.0, least=0.0, greatest=12.0, diameter=20.0, flags=0):
    levels = number(initial) + number(least) + number(greatest)
    return record(4, number(elevation), levels, number(diameter), [flags])


def junction(*demands, flags=0, elevation=50.0):
    """Each demand is a pair: base demand, pattern word."""
    words = [number(base) + [pattern_word] for base, pattern_word in demands]
    return record(5, [flags], number(elevation), *words)


def four_demands(first=(1.0, 1), fourth=(0.25, 2), **others):
    return junction(first, (-2.0, 0), (0.5, 2), fourth, **others)


def link(start, end, sort, status, size, setting):
    """`size` is the diameter, or the pump's initial flow."""
    return record(6, [start, end, sort, status], number(size), number(setting))


def pipe(start=0, end=1, sort=0, status=3, diameter=1.0, setting=0.0):
    return link(start, end, sort, status, diameter, setting)


def pump(start=0, end=2, status=3, initial_flow=2.5, setting=1.25):
    return link(start, end, 1, status, initial_flow, setting)


def valve(start=2, end=3, status=4, diameter=0.5, setting=40.0):
    return link(start, end, 2, status, diameter, setting)


def control(condition, node_or_seconds, target, link=0, flags=1, status=2, setting=0.0):
    """As it stands it sets a status; the setting is absent."""
    return record(7, [condition, node_or_seconds], number(target), [link, flags, status], number(setting))


def high_pressure(node=2, target=60.0, **others):
    return control(0, node, target, **others)


def low_pressure(node=2, target=20.0, **others):
    return control(1, node, target, **others)


def high_level(node=1, target=11.5, **others):
    return control(2, node, target, **others)


def low_level(node=1, target=2.5, **others):
    return control(3, node, target, **others)


def time_control(seconds=900, target=0.0, **others):
    return control(4, seconds, target, **others)


def clock_control(seconds=1_800, target=0.0, **others):
    return control(5, seconds, target, **others)


def with_setting(setting):
    """What a control has that sets a setting and no status."""
    return {"link": 1, "flags": 2, "status": 0, "setting": setting}


def premise(attribute, index, sort, value, operator=1, comparison=2):
    """`value` is the value's two words."""
    return record(8, [operator, attribute, index, comparison, sort], value)


def number_premise(value=10.5, attribute=3, index=1, **others):
    return premise(attribute, index, 0, number(value), **others)


def status_premise(status=2, high=0, attribute=7, index=2, **others):
    return premise(attribute, index, 1, [status, high], **others)


def time_premise(seconds=7_200, high=0, attribute=11, index=0, **others):
    return premise(attribute, index, 2, [seconds, high], **others)


# --- The good image: 2 patterns, 4 nodes, 3 links, 6 controls, 3 premises ---

# Fewer links than nodes: an index judged by the wrong table shows.
GOOD = {
    "options": options(),
    "pattern_0": pattern(1.0, 0.5),
    "pattern_1": pattern(1.5, -0.5, 0.25),
    "reservoir": reservoir(),  # node 0
    "tank": tank(),  # node 1
    "junction": four_demands(),  # node 2
    "plain_junction": junction(),  # node 3
    "pipe": pipe(),  # link 0
    "pump": pump(),  # link 1
    "valve": valve(),  # link 2
    "high_pressure": high_pressure(),
    "low_pressure": low_pressure(),
    "high_level": high_level(),
    "low_level": low_level(),
    "time_control": time_control(),
    "clock_control": clock_control(**with_setting(1.5)),
    "number_premise": number_premise(),
    "status_premise": status_premise(),
    "time_premise": time_premise(),
}

PATTERNS, NODES, LINKS = 2, 4, 3


def image(**changes):
    """The good image with the words of the named records replaced: [] leaves one out, `a + b` makes two of it."""
    unknown = changes.keys() - GOOD.keys()
    if unknown:
        raise KeyError(f"the good image has no {unknown}")
    return joined((GOOD | changes).values())


def up_to(last, **changes):
    """The good image up to the named record; it ends there."""
    names = list(GOOD)
    left_out = names[names.index(last) + 1 :]
    return image(**changes, **{name: [] for name in left_out})


def with_bit(words, bit):
    """The record with a further bit of its header set."""
    return [words[0] | 1 << bit] + words[1:]


def of_size(words, size):
    """The record with so many payload words, its header saying so: cut, or filled up with zeros."""
    payload = (words[1:] + [0] * size)[:size]
    return [words[0] & 0xF0000000 | size] + payload


# What fills a table: with the good image's other patterns, nodes, links, controls, premises it is full.
FULL_TABLES = {
    "pattern_1": pattern(1.0) * 31,
    "plain_junction": junction() * 253,
    "valve": valve() * 382,
    "clock_control": clock_control() * 59,
    "time_premise": time_premise() * 126,
}


# --- Number 1: the image as a whole ---


def longest(last_patterns, last_node):
    """Every table full: 32 patterns, 256 nodes, 384 links, 64 controls, 128 premises.

    Options are 11 words, a junction without demands 4, a link 9, a control 10, a premise 8: all of them
    together 6,155. A pattern of n multipliers is 1 + 2n; 30 of 168 are 10,110. Up to 16,384 that leaves
    119 words for the last two patterns and for the demands of the last node, 3 words each.
    """
    patterns = pattern(*[1.0] * 168) * 30 + last_patterns
    nodes = junction() * 255 + last_node
    return options() + patterns + nodes + pipe() * 384 + time_control() * 64 + time_premise() * 128


def whole_rows():
    # 113 + 3 + 3 words are the 119.
    exact = longest(pattern(*[1.0] * 56) + pattern(1.0), junction((1.0, 1)))
    # 117 + 3 words are 120: nothing is wrong with this image but its length.
    one_more = longest(pattern(*[1.0] * 58) + pattern(1.0), junction())
    yield 1, "no words", WHOLE, []
    yield 0, "exactly 16,384 words, every table full", COUNTS, exact
    yield 1, "16,385 words, every record good", WHOLE, one_more
    yield 1, "16,385 words, the last a header of kind 0", WHOLE, exact + [0]
    yield 1, "16,385 words, the first a header of kind 0", WHOLE, [0] + exact
    yield 3, "16,384 words, the last record cut", CUT, one_more[:-1]


# --- Number 0: images with nothing wrong ---


def good_rows():
    yield 0, "the good image", FIRST_FAULT, image()
    yield 0, "the driver's example: a tank alone", EXAMPLE, (
        options(pattern_start=0, start_clock=0, default_pattern=0) + tank()
    )
    yield 0, "options alone", STAGES, options(default_pattern=0)
    yield 0, "up to the patterns", STAGES, up_to("pattern_1")
    yield 0, "up to the nodes", STAGES, up_to("plain_junction")
    yield 0, "up to the links", STAGES, up_to("valve")
    yield 0, "up to the controls", STAGES, up_to("clock_control")
    yield 0, "nodes without patterns", STAGES, options(default_pattern=0) + reservoir(head_pattern=0) + tank()
    yield 0, "links straight before premises", STAGES, up_to("valve") + number_premise()
    yield 0, "nodes straight before premises", STAGES, up_to("plain_junction") + number_premise()
    for attribute in [9, 10, 11]:
        alone = options(default_pattern=0) + time_premise(attribute=attribute)
        yield 0, f"a premise of system attribute {attribute} straight after options", STAGES, alone
    yield 0, "node kinds mixed: junction, tank, junction, reservoir", STAGES, (
        up_to("pattern_1") + junction() + tank() + four_demands() + reservoir() + pipe()
    )
    yield 0, "two links between the same ends", ENDS, image(pipe=pipe(), pump=pipe(), valve=pipe(start=1, end=0))


def reading_rows():
    """Accepted since no sentence refuses them."""
    yield 0, "tank: initial level above greatest", FEET, image(tank=tank(initial=12.5))
    yield 0, "tank: initial level below least", FEET, image(tank=tank(initial=-0.5))
    yield 0, "tank: levels below 0", FEET, image(tank=tank(initial=-5.0, least=-10.0, greatest=-1.0))
    yield 0, "tank: least equals greatest", FEET, image(tank=tank(least=12.0))
    yield 5, "tank: least just above greatest", FEET, image(tank=tank(least=above(12.0)))
    yield 0, "control: flags 0, nothing to set", CONTROL_FLAGS, image(high_level=high_level(flags=0, status=0))
    yield 0, "control: status and setting", CONTROL_FLAGS, image(high_level=high_level(flags=3, setting=2.0))
    yield 0, "control: a setting for a pipe", CONTROL_FLAGS, (
        image(high_level=high_level(link=0, flags=2, status=0, setting=2.0))
    )
    yield 0, "control: level of a reservoir", NO_TANK, image(high_level=high_level(node=0))
    yield 0, "control: level of a junction", NO_TANK, image(low_level=low_level(node=2))
    yield 0, "control: pressure at a reservoir", CONDITIONS, image(high_pressure=high_pressure(node=0))
    yield 0, "premise: level of a junction", WRONG_SORT, image(number_premise=number_premise(index=2))
    yield 0, "premise: drain time of a reservoir", WRONG_SORT, (
        image(number_premise=number_premise(attribute=5, index=0))
    )


def every_code_rows():
    """Every code and every pair of codes that may meet, many records in one image."""
    statuses = joined(pipe(status=status) for status in range(10))
    yield 0, "link: each status", STATUSES, image(pipe=statuses)
    absent_or_present = [{"flags": 0, "status": 0}, {"flags": 1}, with_setting(1.0), {"flags": 3, "setting": 1.0}]
    pairs = itertools.product(range(6), absent_or_present)
    # 1 is the tank's index and a time of one second; 0.0 is a target and an unused number.
    controls = joined(control(condition, 1, 0.0, **flags) for condition, flags in pairs)
    yield 0, "control: each condition with each flags", CONDITIONS, image(high_level=controls)
    # Index 0 is a node, a link and a system attribute's unused word; the words 0, 0 are a value of every sort.
    pairs = itertools.product(range(12), range(3))
    premises = joined(premise(attribute, 0, sort, [0, 0]) for attribute, sort in pairs)
    yield 0, "premise: each attribute with each sort of value", WRONG_SORT, image(number_premise=premises)
    pairs = itertools.product(range(6), range(3))
    premises = joined(premise(3, 1, sort, [0, 0], comparison=comparison) for comparison, sort in pairs)
    yield 0, "premise: each comparison with each sort of value", COMPARISONS, image(number_premise=premises)


# --- Number 2: headers ---

# A good record of each kind.
KINDS = {
    "options": options(),
    "pattern": pattern(1.0),
    "reservoir": reservoir(),
    "tank": tank(),
    "junction": four_demands(),
    "link": pipe(),
    "control": time_control(),
    "premise": time_premise(),
}

# The last record of the good image of each kind but options.
LAST_OF = {
    "pattern": "pattern_1",
    "reservoir": "reservoir",
    "tank": "tank",
    "junction": "plain_junction",
    "link": "valve",
    "control": "clock_control",
    "premise": "time_premise",
}

# What may not come after it, the kinds of earlier stages; options have rows of their own.
EARLIER = {
    "reservoir": ["pattern"],
    "tank": ["pattern"],
    "junction": ["pattern"],
    "link": ["pattern", "reservoir", "tank", "junction"],
    "control": ["pattern", "reservoir", "tank", "junction", "link"],
    "premise": ["pattern", "reservoir", "tank", "junction", "link", "control"],
}


def kind_rows():
    for kind in [0, 9, 10, 11, 12, 13, 14]:
        yield 2, f"kind {kind} at the end", HEADER, image() + [kind << 28]
    yield 2, "kind 15, a load, in an image", LOAD, image() + [15 << 28]
    yield 2, "kind 0 in front", HEADER, [0] + image()
    yield 2, "kind 9 in the middle", HEADER, image(plain_junction=record(9, [0, 0, 0]))
    for bit in range(16, 28):
        yield 2, f"header bit {bit} set in a tank's", HEADER, image(tank=with_bit(tank(), bit))
    for bit in [16, 27]:
        yield 2, f"header bit {bit} set in the options'", HEADER, image(options=with_bit(options(), bit))


def stage_rows():
    yield 2, "second options straight after the first", HEADER, image(options=options() + options())
    for kind, last in LAST_OF.items():
        yield 2, f"second options after a {kind}", HEADER, up_to(last) + options()
    yield 2, "options missing", HEADER, image(options=[])
    for kind in LAST_OF:
        yield 2, f"options missing: a {kind} alone", HEADER, KINDS[kind]
    yield 2, "options after a pattern instead of before it", HEADER, (
        image(options=[], pattern_0=pattern(1.0) + options())
    )
    for kind, earlier_kinds in EARLIER.items():
        for earlier in earlier_kinds:
            yield 2, f"wrong stage: a {earlier} after a {kind}", STAGES, up_to(LAST_OF[kind]) + KINDS[earlier]


# The sizes that each kind has, and some that it has not.
WRONG_SIZES = {
    "options": [0, 9, 11],  # 10
    "pattern": [0, 1, 3, 335, 337, 338],  # 2, 4, .. 336
    "reservoir": [0, 2, 4],  # 3
    "tank": [0, 10, 12],  # 11
    "junction": [0, 2, 4, 5, 7, 8, 10, 11, 13, 14, 16, 17, 18],  # 3, 6, 9, 12, 15
    "link": [0, 7, 9],  # 8
    "control": [0, 8, 10],  # 9
    "premise": [0, 6, 8],  # 7
}


def size_rows():
    for kind, sizes in WRONG_SIZES.items():
        changed = LAST_OF.get(kind, "options")
        for size in sizes:
            yield 2, f"{kind}: a payload of {size} words", HEADER, image(**{changed: of_size(KINDS[kind], size)})
    yield 2, "tank: a payload of 65,535 words in the header", HEADER, image(tank=[4 << 28 | 65_535] + tank()[1:])
    yield 0, "pattern: 1 multiplier", MULTIPLIERS, image(pattern_0=pattern(1.0))
    yield 0, "pattern: 168 multipliers", MULTIPLIERS, image(pattern_0=pattern(*[1.0] * 168))
    yield 2, "pattern: 169 multipliers", MULTIPLIERS, image(pattern_0=pattern(*[1.0] * 169))
    for count in range(5):
        yield 0, f"junction: {count} demands", DEMANDS, image(junction=junction(*[(1.0, 1)] * count))
    yield 2, "junction: 5 demands", DEMANDS, image(junction=junction(*[(1.0, 1)] * 5))


# --- Number 3: a payload past the end ---


def cut_rows():
    yield 3, "options: the last word missing", CUT, up_to("options")[:-1]
    yield 3, "options: the header alone", CUT, up_to("options")[:1]
    for kind, last in LAST_OF.items():
        whole = up_to(last)
        payload = len(GOOD[last]) - 1
        yield 3, f"{kind}: the last word missing", CUT, whole[:-1]
        yield 3, f"{kind}: the header alone", CUT, whole[:-payload]
    yield 3, "pattern: half of the second multiplier missing", CUT, up_to("pattern_0") + pattern(1.0, 1.0)[:-1]
    yield 3, "junction: the fourth demand missing", CUT, up_to("junction")[:-3]
    yield 3, "pattern: 168 multipliers in the header, 1 there", CUT, up_to("pattern_0") + pattern(*[1.0] * 168)[:3]


# --- Number 4: counts ---


def count_rows():
    tables = [
        # how many, of what, the good image's record that fills the table, a further one
        (32, "patterns", "pattern_1", pattern(1.0)),
        (256, "nodes", "plain_junction", junction()),
        (384, "links", "valve", valve()),
        (64, "controls", "clock_control", clock_control()),
        (128, "premises", "time_premise", time_premise()),
    ]
    for most, things, name, further in tables:
        full = FULL_TABLES[name]
        yield 0, f"{most} {things}", COUNTS, image(**{name: full})
        yield 4, f"{most + 1} {things}", ONE_MORE, image(**{name: full + further})
    for kind in ["reservoir", "tank"]:
        nodes = FULL_TABLES["plain_junction"] + KINDS[kind]
        yield 4, f"257 nodes, the last a {kind}", ONE_MORE, image(plain_junction=nodes)
    yield 0, "256 tanks", COUNTS, options(default_pattern=0) + tank() * 256
    yield 4, "257 tanks", ONE_MORE, options(default_pattern=0) + tank() * 257
    yield 0, "every table full", COUNTS, image(**FULL_TABLES)
    last_of_each = {
        "options": options(default_pattern=32),
        "plain_junction": junction() * 252 + junction((1.0, 32)),
        "valve": valve() * 381 + pipe(start=254, end=255),
        "high_level": high_level(node=255, link=383),
        "number_premise": number_premise(index=255),
        "status_premise": status_premise(index=383),
    }
    yield 0, "every table full, the last of each named", COUNTS, image(**(FULL_TABLES | last_of_each))


# --- Number 5: times ---


def time_rows():
    fields = [
        # name, image with this time, least, greatest
        ("options: duration", lambda t: image(options=options(duration=t)), 0, LONGEST),
        ("options: hydraulic timestep", lambda t: image(options=options(hydraulic=t)), 0, LONGEST),
        ("options: report timestep", lambda t: image(options=options(report=t)), 1, LONGEST),
        ("options: pattern timestep", lambda t: image(options=options(pattern_timestep=t)), 1, LONGEST),
        ("options: pattern start", lambda t: image(options=options(pattern_start=t)), 0, LONGEST),
        ("options: start clock", lambda t: image(options=options(start_clock=t)), 0, LAST_OF_DAY),
        ("time control: seconds", lambda t: image(time_control=time_control(t)), 0, LONGEST),
        ("clock control: seconds", lambda t: image(clock_control=clock_control(t)), 0, LAST_OF_DAY),
        ("premise: time against the clock", lambda t: image(time_premise=time_premise(t)), 0, LONGEST),
        ("premise: time against a level", lambda t: image(time_premise=time_premise(t, attribute=3)), 0, LONGEST),
    ]
    for name, with_time, least, greatest in fields:
        yield 0, f"{name} {least}", TIMES, with_time(least)
        yield 0, f"{name} {greatest:,}", TIMES, with_time(greatest)
        yield 5, f"{name} {greatest + 1:,}", TIMES, with_time(greatest + 1)
        yield 5, f"{name} 2^32 - 1", TIMES, with_time(ALL_ONES)
        if least == 1:
            yield 5, f"{name} 0", TIMES, with_time(0)


# --- Number 5: numbers ---


def number_fields():
    """Each number of the image: name, sentence, image with this number, least, greatest."""
    feet = (-100_000.0, 100_000.0)
    size = (0.001, 10_000.0)
    other = (-1_000_000.0, 1_000_000.0)
    far = (-1e12, 1e12)
    return [
        ("options: demand multiplier", OTHERS, lambda x: image(options=options(demand_multiplier=x)), *other),
        ("pattern: only multiplier", OTHERS, lambda x: image(pattern_0=pattern(x)), *other),
        ("pattern: 168th multiplier", OTHERS, lambda x: image(pattern_0=pattern(*[1.0] * 167, x)), *other),
        ("reservoir: elevation", FEET, lambda x: image(reservoir=reservoir(elevation=x)), *feet),
        ("tank: elevation", FEET, lambda x: image(tank=tank(elevation=x)), *feet),
        ("tank: initial level", FEET, lambda x: image(tank=tank(initial=x)), *feet),
        # Least and greatest are kept in order as far as the limits allow it.
        ("tank: least level", FEET, lambda x: image(tank=tank(least=x, greatest=100_000.0)), *feet),
        ("tank: greatest level", FEET, lambda x: image(tank=tank(least=-100_000.0, greatest=x)), *feet),
        ("tank: diameter", DIAMETERS, lambda x: image(tank=tank(diameter=x)), *size),
        ("junction: elevation", FEET, lambda x: image(plain_junction=junction(elevation=x)), *feet),
        ("junction: first base demand", OTHERS, lambda x: image(junction=four_demands(first=(x, 1))), *other),
        ("junction: fourth base demand", OTHERS, lambda x: image(junction=four_demands(fourth=(x, 1))), *other),
        ("pipe: diameter", DIAMETERS, lambda x: image(pipe=pipe(diameter=x)), *size),
        ("pump: initial flow", OTHERS, lambda x: image(pump=pump(initial_flow=x)), *other),
        ("pump: setting", OTHERS, lambda x: image(pump=pump(setting=x)), *other),
        ("valve: diameter", DIAMETERS, lambda x: image(valve=valve(diameter=x)), *size),
        ("valve: setting", OTHERS, lambda x: image(valve=valve(setting=x)), *other),
        ("high pressure: target", FEET, lambda x: image(high_pressure=high_pressure(target=x)), *feet),
        ("low pressure: target", FEET, lambda x: image(low_pressure=low_pressure(target=x)), *feet),
        ("high level: target", FEET, lambda x: image(high_level=high_level(target=x)), *feet),
        ("low level: target", FEET, lambda x: image(low_level=low_level(target=x)), *feet),
        ("control: setting", OTHERS, lambda x: image(clock_control=clock_control(**with_setting(x))), *other),
        ("premise: number", OTHERS, lambda x: image(number_premise=number_premise(x)), *far),
    ]


def number_rows():
    for name, sentence, with_number, least, greatest in number_fields():
        yield 0, f"{name} {least:,}", sentence, with_number(least)
        yield 0, f"{name} {greatest:,}", sentence, with_number(greatest)
        yield 5, f"{name} just below {least:,}", sentence, with_number(below(least))
        yield 5, f"{name} just above {greatest:,}", sentence, with_number(above(greatest))
        yield 5, f"{name} NaN", WORDS, with_number(NAN)
        yield 5, f"{name} infinity", WORDS, with_number(INFINITY)
        yield 5, f"{name} minus infinity", WORDS, with_number(-INFINITY)


def bits_rows():
    """Bits that a test on the value could take wrongly."""
    not_finite = {
        "a signalling NaN": Bits(0x7FF0000000000001),
        "a negative NaN": Bits(0xFFF8000000000000),
        "all ones": Bits(0xFFFFFFFFFFFFFFFF),
        "the greatest f64": Bits(0x7FEFFFFFFFFFFFFF),
        "the least f64": Bits(0xFFEFFFFFFFFFFFFF),
    }
    for name, bits in not_finite.items():
        yield 5, f"tank: elevation {name}", WORDS, image(tank=tank(elevation=bits))
        yield 5, f"premise: number {name}", WORDS, image(number_premise=number_premise(bits))
    smallest = Bits(1)
    yield 0, "tank: elevation 5e-324", FEET, image(tank=tank(elevation=smallest))
    yield 5, "tank: diameter 5e-324", DIAMETERS, image(tank=tank(diameter=smallest))
    yield 5, "tank: diameter 0", DIAMETERS, image(tank=tank(diameter=0.0))
    yield 5, "tank: diameter -20", DIAMETERS, image(tank=tank(diameter=-20.0))
    # The words of 20.0 exchanged: a reader that takes the high word first would accept it.
    yield 5, "tank: diameter with its words exchanged", DIAMETERS, image(tank=tank(diameter=Bits(0x40340000)))


def minus_zero_rows():
    """-0.0 is a number like 0.0, and is no word of 0."""
    accepted = {
        "options: demand multiplier": image(options=options(demand_multiplier=MINUS_ZERO)),
        "pattern: multiplier": image(pattern_0=pattern(MINUS_ZERO)),
        "reservoir: elevation": image(reservoir=reservoir(elevation=MINUS_ZERO)),
        "tank: elevation": image(tank=tank(elevation=MINUS_ZERO)),
        "tank: initial level": image(tank=tank(initial=MINUS_ZERO)),
        "tank: least level": image(tank=tank(least=MINUS_ZERO)),
        "tank: greatest level, least 0.0": image(tank=tank(least=0.0, greatest=MINUS_ZERO)),
        "junction: elevation": image(plain_junction=junction(elevation=MINUS_ZERO)),
        "junction: base demand": image(junction=four_demands(first=(MINUS_ZERO, 1))),
        "pump: initial flow": image(pump=pump(initial_flow=MINUS_ZERO)),
        "pump: setting": image(pump=pump(setting=MINUS_ZERO)),
        "valve: setting": image(valve=valve(setting=MINUS_ZERO)),
        "high level: target": image(high_level=high_level(target=MINUS_ZERO)),
        "control: setting": image(clock_control=clock_control(**with_setting(MINUS_ZERO))),
        "premise: number": image(number_premise=number_premise(MINUS_ZERO)),
    }
    for name, words in accepted.items():
        yield 0, f"{name} -0.0", FIRST_FAULT, words
    yield 5, "tank: diameter -0.0", DIAMETERS, image(tank=tank(diameter=MINUS_ZERO))
    yield 5, "pipe: diameter -0.0", DIAMETERS, image(pipe=pipe(diameter=MINUS_ZERO))
    yield 5, "pipe: setting -0.0", PIPE_SETTING, image(pipe=pipe(setting=MINUS_ZERO))
    yield 5, "time control: target -0.0", UNUSED, image(time_control=time_control(target=MINUS_ZERO))
    yield 5, "clock control: target -0.0", UNUSED, image(clock_control=clock_control(target=MINUS_ZERO))
    yield 5, "control: absent setting -0.0", UNUSED, image(high_level=high_level(setting=MINUS_ZERO))


# --- Number 5: unused words, flags, codes, ends ---

LOW_WORD = Bits(1)
HIGH_WORD = Bits(1 << 32)


def unused_rows():
    absent_status = with_setting(1.5) | {"status": 3}
    yield 5, "pipe: setting 1.0", PIPE_SETTING, image(pipe=pipe(setting=1.0))
    yield 5, "pipe: setting's low word 1", PIPE_SETTING, image(pipe=pipe(setting=LOW_WORD))
    yield 5, "pipe: setting's high word 1", PIPE_SETTING, image(pipe=pipe(setting=HIGH_WORD))
    for name, make in {"time_control": time_control, "clock_control": clock_control}.items():
        words = name.replace("_", " ")
        yield 5, f"{words}: target's low word 1", UNUSED, image(**{name: make(target=LOW_WORD)})
        yield 5, f"{words}: target's high word 1", UNUSED, image(**{name: make(target=HIGH_WORD)})
        yield 5, f"{words}: target 10.0", UNUSED, image(**{name: make(target=10.0)})
    yield 5, "control: absent status 3", UNUSED, image(clock_control=clock_control(**absent_status))
    yield 5, "control: absent status 3, flags 0", UNUSED, image(high_level=high_level(flags=0, status=3))
    yield 5, "control: absent setting's low word 1", UNUSED, image(high_level=high_level(setting=LOW_WORD))
    yield 5, "control: absent setting's high word 1", UNUSED, image(high_level=high_level(setting=HIGH_WORD))
    yield 5, "control: absent setting 1.5", UNUSED, image(high_level=high_level(setting=1.5))
    yield 5, "control: absent setting 1.5, flags 0", UNUSED, (
        image(high_level=high_level(flags=0, status=0, setting=1.5))
    )
    for attribute in [9, 10, 11]:
        with_index = time_premise(attribute=attribute, index=1)
        yield 5, f"premise: system attribute {attribute} with index 1", UNUSED, image(time_premise=with_index)
    far_index = time_premise(attribute=9, index=ALL_ONES)
    yield 5, "premise: system attribute 9 with index 2^32 - 1", UNUSED, image(time_premise=far_index)
    yield 5, "premise: a status's high word 1", UNUSED, image(status_premise=status_premise(high=1))
    yield 5, "premise: a status's high word 2^32 - 1", UNUSED, image(status_premise=status_premise(high=ALL_ONES))
    yield 5, "premise: a time's high word 1", UNUSED, image(time_premise=time_premise(high=1))
    yield 5, "premise: a time's high word 2^32 - 1", UNUSED, image(time_premise=time_premise(high=ALL_ONES))


def flag_rows():
    fields = [
        # name, sentence, image with these flags, the accepted ones, the known bits
        ("options", OPTION_FLAGS, lambda f: image(options=options(flags=f)), [1, 2, 3], 2),
        ("tank", TANK_FLAGS, lambda f: image(tank=tank(flags=f)), [1], 1),
        ("junction", JUNCTION_FLAGS, lambda f: image(junction=four_demands(flags=f)), [1], 1),
        # The bit stands beside flag 1: the status is present, the setting absent. The accepted ones are above.
        ("control", CONTROL_FLAGS, lambda f: image(high_level=high_level(flags=1 | f)), [], 2),
    ]
    for name, sentence, with_flags, accepted, known_bits in fields:
        for flags in accepted:
            yield 0, f"{name}: flags {flags}", sentence, with_flags(flags)
        for bit in range(known_bits, 32):
            yield 5, f"{name}: flag bit {bit}", WORDS, with_flags(1 << bit)


def code_rows():
    fields = [
        # name, sentence, image with this code, greatest
        ("link: sort", SORTS, lambda c: image(pipe=pipe(sort=c)), 2),
        ("pipe: status", STATUSES, lambda c: image(pipe=pipe(status=c)), 9),
        ("pump: status", STATUSES, lambda c: image(pump=pump(status=c)), 9),
        ("valve: status", STATUSES, lambda c: image(valve=valve(status=c)), 9),
        ("control: condition", CONDITIONS, lambda c: image(high_level=control(c, 1, 0.0)), 5),
        ("control: status", STATUSES, lambda c: image(high_level=high_level(status=c)), 9),
        ("premise: operator", OPERATORS, lambda c: image(number_premise=number_premise(operator=c)), 1),
        ("premise: attribute", ATTRIBUTES, lambda c: image(number_premise=number_premise(attribute=c, index=0)), 11),
        ("premise: comparison", COMPARISONS, lambda c: image(number_premise=number_premise(comparison=c)), 5),
        ("premise: value's sort", VALUES, lambda c: image(number_premise=premise(3, 1, c, [0, 0])), 2),
        ("premise: status", STATUSES, lambda c: image(status_premise=status_premise(c)), 9),
    ]
    for name, sentence, with_code, greatest in fields:
        yield 0, f"{name} 0", sentence, with_code(0)
        yield 0, f"{name} {greatest}", sentence, with_code(greatest)
        yield 5, f"{name} {greatest + 1}", sentence, with_code(greatest + 1)
        yield 5, f"{name} 2^32 - 1", sentence, with_code(ALL_ONES)


def end_rows():
    for name, make in {"pipe": pipe, "pump": pump, "valve": valve}.items():
        yield 5, f"{name}: equal ends", ENDS, image(**{name: make(start=1, end=1)})
    yield 5, "pipe: equal ends, node 0", ENDS, image(pipe=pipe(start=0, end=0))


# --- Number 6: indices ---


def index_rows():
    fields = [
        # name, image with this index, how many are declared
        ("link: start", lambda i: image(pipe=pipe(start=i, end=1)), NODES),
        ("link: end", lambda i: image(pipe=pipe(start=1, end=i)), NODES),
        ("high pressure: node", lambda i: image(high_pressure=high_pressure(node=i)), NODES),
        ("low pressure: node", lambda i: image(low_pressure=low_pressure(node=i)), NODES),
        ("high level: node", lambda i: image(high_level=high_level(node=i)), NODES),
        ("low level: node", lambda i: image(low_level=low_level(node=i)), NODES),
        ("control: link", lambda i: image(high_level=high_level(link=i)), LINKS),
        ("time control: link", lambda i: image(time_control=time_control(link=i)), LINKS),
    ]
    for name, with_index, declared in fields:
        yield 0, f"{name} {declared - 1}, the last", INDEX, with_index(declared - 1)
        yield 6, f"{name} {declared}, one past", INDEX, with_index(declared)
        yield 6, f"{name} 2^32 - 1", INDEX, with_index(ALL_ONES)
    for attribute, declared in enumerate([NODES] * 6 + [LINKS] * 3):
        at_last = number_premise(attribute=attribute, index=declared - 1)
        one_past = number_premise(attribute=attribute, index=declared)
        yield 0, f"premise: attribute {attribute} of {declared - 1}, the last", INDEX, image(number_premise=at_last)
        yield 6, f"premise: attribute {attribute} of {declared}, one past", INDEX, image(number_premise=one_past)
    far = number_premise(attribute=0, index=ALL_ONES)
    yield 6, "premise: attribute 0 of 2^32 - 1", INDEX, image(number_premise=far)
    yield 6, "control: no links at all", INDEX, up_to("plain_junction") + high_level(link=0)
    yield 6, "premise: no links at all", INDEX, up_to("plain_junction") + status_premise(index=0)
    yield 6, "control: no nodes at all", INDEX, options(default_pattern=0) + high_level(node=0)
    yield 6, "premise: no nodes at all", INDEX, options(default_pattern=0) + number_premise(index=0)
    yield 6, "link: no nodes at all", INDEX, options(default_pattern=0) + pipe(start=0, end=1)


def pattern_word_rows():
    fields = [
        ("reservoir: head pattern", lambda w: image(reservoir=reservoir(head_pattern=w))),
        ("junction: first demand's pattern", lambda w: image(junction=four_demands(first=(1.0, w)))),
        ("junction: fourth demand's pattern", lambda w: image(junction=four_demands(fourth=(1.0, w)))),
        ("options: default pattern", lambda w: image(options=options(default_pattern=w))),
    ]
    for name, with_pattern in fields:
        yield 0, f"{name} word 0, none", PATTERN_WORD, with_pattern(0)
        yield 0, f"{name} word {PATTERNS}, the last", PATTERN_WORD, with_pattern(PATTERNS)
        yield 6, f"{name} word {PATTERNS + 1}, one past", INDEX, with_pattern(PATTERNS + 1)
        yield 6, f"{name} word 2^32 - 1", INDEX, with_pattern(ALL_ONES)
    yield 6, "reservoir: pattern word 1, no patterns", INDEX, options(default_pattern=0) + reservoir(head_pattern=1)
    yield 6, "junction: pattern word 1, no patterns", INDEX, options(default_pattern=0) + junction((1.0, 1))
    yield 6, "default pattern word 1, no patterns", INDEX, options(default_pattern=1)


def default_pattern_rows():
    """The default pattern, 9 of 2, is judged after the last record: any other fault comes first."""
    late = {"options": options(default_pattern=9)}
    yield 6, "default pattern 9, nothing else", INDEX, image(**late)
    nine_patterns = image(options=options(default_pattern=9), pattern_0=pattern(1.0) * 8)
    yield 0, "default pattern 9, the ninth declared later", INDEX, nine_patterns
    yield 2, "default pattern 9, then kind 0 at the end", INDEX, image(**late) + [0]
    yield 2, "default pattern 9, then second options", INDEX, image(**late) + options()
    yield 3, "default pattern 9, then the last record cut", INDEX, image(**late)[:-1]
    yield 4, "default pattern 9, then 129 premises", INDEX, image(**late, time_premise=time_premise() * 127)
    yield 5, "default pattern 9, then a pattern's NaN", INDEX, image(**late, pattern_1=pattern(NAN))
    yield 5, "default pattern 9, then a premise's code", INDEX, image(**late, time_premise=time_premise(comparison=6))
    yield 5, "default pattern 9 and report timestep 0", INDEX, image(options=options(default_pattern=9, report=0))


# --- Two faults in one record: 2, 3, 4, 5, 6 in this order ---


def full_but(name, last):
    """The good image up to the named record, filled up until that record's table is full, and `last` after it."""
    return up_to(name, **{name: FULL_TABLES[name]}) + last


def one_record_rows():
    bad_tank = tank(diameter=0.0)
    lost_reservoir = reservoir(head_pattern=9)
    lost_pipe = pipe(start=9)

    yield 2, "2 before 3: kind 9, cut", ORDER, image() + [9 << 28 | 4, 0]
    yield 2, "2 before 3: bit 16 set, cut", ORDER, up_to("reservoir") + with_bit(tank(), 16)[:-1]
    yield 2, "2 before 3: wrong stage, cut", ORDER, image() + tank()[:-1]
    yield 2, "2 before 3: wrong payload size, cut", ORDER, up_to("reservoir") + of_size(tank(), 12)[:-2]
    yield 2, "2 before 3: second options, cut", ORDER, image() + options()[:-1]
    yield 2, "2 before 4: 33rd pattern, bit 16 set", ORDER, full_but("pattern_1", with_bit(pattern(1.0), 16))
    yield 2, "2 before 4: 33rd pattern, odd payload", ORDER, full_but("pattern_1", of_size(pattern(1.0), 3))
    yield 2, "2 before 4: 257th node, wrong payload size", ORDER, full_but("plain_junction", of_size(tank(), 10))
    yield 2, "2 before 5: tank of diameter 0, bit 27 set", ORDER, image(tank=with_bit(bad_tank, 27))
    yield 2, "2 before 5: tank of diameter 0, wrong stage", ORDER, image() + bad_tank
    yield 2, "2 before 6: reservoir of pattern 9, bit 27 set", ORDER, image(reservoir=with_bit(lost_reservoir, 27))
    yield 2, "2 before 6: pipe from node 9, wrong stage", ORDER, image() + lost_pipe

    yield 3, "3 before 4: 33rd pattern, cut", ORDER, full_but("pattern_1", pattern(1.0)[:-1])
    yield 3, "3 before 4: 257th node, cut", ORDER, full_but("plain_junction", tank()[:-1])
    yield 3, "3 before 4: 385th link, cut", ORDER, full_but("valve", pipe()[:-1])
    yield 3, "3 before 4: 65th control, cut", ORDER, full_but("clock_control", time_control()[:-1])
    yield 3, "3 before 4: 129th premise, cut", ORDER, full_but("time_premise", time_premise()[:-1])
    yield 3, "3 before 5: tank with a NaN in front, cut", ORDER, up_to("reservoir") + tank(elevation=NAN)[:-1]
    yield 3, "3 before 5: pipe with equal ends, cut", ORDER, up_to("plain_junction") + pipe(end=0)[:-1]
    yield 3, "3 before 6: pipe from node 9, cut", ORDER, up_to("plain_junction") + lost_pipe[:-1]

    yield 4, "4 before 5: 33rd pattern, NaN", ORDER, full_but("pattern_1", pattern(NAN))
    yield 4, "4 before 5: 257th node, diameter 0", ORDER, full_but("plain_junction", bad_tank)
    yield 4, "4 before 5: 385th link, equal ends", ORDER, full_but("valve", pipe(end=0))
    yield 4, "4 before 5: 65th control, flag 4", ORDER, full_but("clock_control", time_control(flags=5))
    yield 4, "4 before 5: 129th premise, comparison 6", ORDER, full_but("time_premise", time_premise(comparison=6))
    yield 4, "4 before 6: 257th node, reservoir of pattern 33", ORDER, (
        full_but("plain_junction", reservoir(head_pattern=33))
    )
    yield 4, "4 before 6: 385th link, from node 256", ORDER, full_but("valve", pipe(start=256))
    yield 4, "4 before 6: 65th control, link 3", ORDER, full_but("clock_control", time_control(link=3))
    yield 4, "4 before 6: 129th premise, node 4", ORDER, full_but("time_premise", number_premise(index=4))

    yield 5, "5 before 6: reservoir, NaN and pattern 9", ORDER, image(reservoir=reservoir(NAN, 9))
    yield 5, "5 before 6: junction, first pattern 9, fourth base NaN", ORDER, (
        image(junction=four_demands(first=(1.0, 9), fourth=(NAN, 1)))
    )
    yield 5, "5 before 6: junction, pattern 9 and flag 2", ORDER, image(junction=four_demands(first=(1.0, 9), flags=2))
    yield 5, "5 before 6: equal ends, both node 9", ORDER, image(pipe=pipe(start=9, end=9))
    yield 5, "5 before 6: pipe from node 9, status 10", ORDER, image(pipe=pipe(start=9, status=10))
    yield 5, "5 before 6: pipe from node 9, setting -0.0", ORDER, image(pipe=pipe(start=9, setting=MINUS_ZERO))
    yield 5, "5 before 6: valve to node 9, setting NaN", ORDER, image(valve=valve(end=9, setting=NAN))
    yield 5, "5 before 6: control, node 9 and target NaN", ORDER, image(high_level=high_level(node=9, target=NAN))
    yield 5, "5 before 6: control, node 9 and absent setting 1.5", ORDER, (
        image(high_level=high_level(node=9, setting=1.5))
    )
    yield 5, "5 before 6: control, link 9 and status 10", ORDER, image(high_level=high_level(link=9, status=10))
    yield 5, "5 before 6: premise, node 9 and comparison 6", ORDER, (
        image(number_premise=number_premise(index=9, comparison=6))
    )
    yield 5, "5 before 6: premise, node 9 and value NaN", ORDER, image(number_premise=number_premise(NAN, index=9))
    yield 5, "5 before 6: premise, link 9 and a status's high word", ORDER, (
        image(status_premise=status_premise(high=1, index=9))
    )


# --- Faults in two records: the earlier one counts, whatever its number ---


def two_record_rows():
    earlier = {
        2: ("a tank's header bit", {"tank": with_bit(tank(), 20)}),
        4: ("33 patterns", {"pattern_0": pattern(1.0) * 32}),
        5: ("a tank of diameter 0", {"tank": tank(diameter=0.0)}),
        6: ("a reservoir of pattern 40", {"reservoir": reservoir(head_pattern=40)}),
    }
    later = {
        2: ("kind 0 at the end", {"time_premise": time_premise() + [0]}),
        3: ("the last record cut", {"time_premise": time_premise()[:-1]}),
        4: ("129 premises", {"time_premise": time_premise() * 127}),
        5: ("a premise's comparison 6", {"time_premise": time_premise(comparison=6)}),
        6: ("a premise of node 9", {"time_premise": number_premise(index=9)}),
    }
    for first, (first_name, first_change) in earlier.items():
        for second, (second_name, second_change) in later.items():
            if first != second:
                name = f"{first} in front of {second}: {first_name}, then {second_name}"
                yield first, name, FIRST_FAULT, image(**first_change, **second_change)


GROUPS = [
    whole_rows,
    good_rows,
    reading_rows,
    every_code_rows,
    kind_rows,
    stage_rows,
    size_rows,
    cut_rows,
    count_rows,
    time_rows,
    number_rows,
    bits_rows,
    minus_zero_rows,
    unused_rows,
    flag_rows,
    code_rows,
    end_rows,
    index_rows,
    pattern_word_rows,
    default_pattern_rows,
    one_record_rows,
    two_record_rows,
]


def rows():
    return [Row(*fields) for group in GROUPS for fields in group()]


# --- The commands ---


def driver_input(words):
    """The count of words, then the words, little-endian: what the driver reads."""
    return struct.pack(f"<{1 + len(words)}I", len(words), *words)


def write(directory):
    directory = pathlib.Path(directory)
    directory.mkdir(parents=True, exist_ok=True)
    batch = rows()
    for i, row in enumerate(batch):
        (directory / f"case{i:03}").write_bytes(driver_input(row.words))
    lines = [f"{row.number} {row.name}\n" for row in batch]
    (directory / "expected").write_text("".join(lines), encoding="utf-8")


def list_rows():
    for row in rows():
        print(f"{row.number}  {row.name}  [{row.sentence}]")


def check():
    """Answers how many rows the decoder judges otherwise."""
    batch = rows()
    differing = [(row, image_decode.decode(row.words).number) for row in batch]
    differing = [(row, answer) for row, answer in differing if row.number != answer]
    for row, answer in differing:
        print(f"{row.name}: {row.number} here, {answer} by tools/image_decode.py")
    print(f"{len(batch)} rows, {len(differing)} differ")
    return len(differing)


def quotes(paper):
    """Answers how many sentences do not stand in the paper."""
    text = pathlib.Path(paper).read_text(encoding="utf-8")
    sentences = {row.sentence for row in rows()}
    missing = [sentence for sentence in sentences if sentence not in text]
    for sentence in missing:
        print(f"not in the paper: {sentence}")
    print(f"{len(sentences)} sentences, {len(missing)} not in the paper")
    return len(missing)


def main(arguments):
    match arguments:
        case ["write", directory]:
            write(directory)
        case ["list"]:
            list_rows()
        case ["check"]:
            sys.exit(check() > 0)
        case ["quotes", paper]:
            sys.exit(quotes(paper) > 0)
        case _:
            sys.exit(__doc__)


if __name__ == "__main__":
    main(sys.argv[1:])
