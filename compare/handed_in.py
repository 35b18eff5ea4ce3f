#!/usr/bin/env python3
"""The input of the program `handed_in`: tables and states changed one word at a time, and the numbers that the documents give.

  handed_in.py --out FOLDER    writes FOLDER/stdin and FOLDER/stdout

The first project is the good image of images.py. A change that breaks number 10 has every call give 10 (the start too where it is
the tables that break); any other has them give 0, but 7 for the load, which has one word, 9 for premise 0 where there is none, 14
for the second clock and `none` for the stops beforehand, since the project has a tank. The stops go by the tables alone.

The last two numbers of a line are those of laying out the table of the tanks' links, which goes by the tables alone too, and of
closing by such a table: the one that the image gives, with the change made to it. That is 10 also where it is not the table of the
changed records. The other projects are there for it; before the changes of each stands its table, as it is laid out.
"""
import argparse
import collections
import itertools
import math
import pathlib
import struct
import sys

import images
from images import LAST_OF_DAY, LONGEST, above, below, number

sys.path.insert(0, str(pathlib.Path(__file__).resolve().parent / "rust"))
from closing import laid_out  # noqa: E402

NOT_FINITE = [math.nan, math.inf, -math.inf]
LAST_WORD = 2**32 - 1
LAST_INDEX = 2**64 - 1

# --- The codes of the words, as in crates/handed_in/src ---

(INSTANT, COUNT, HEAD, DEMAND, DEMAND_FLOW, FLOW, STATUS, SETTING) = range(8)
(DURATION, HYDRAULIC, REPORT, PATTERN, PATTERN_START, START_CLOCK) = range(8, 14)
(PATTERNS, NODES, LINKS, CONTROLS, PREMISES, LENGTH, MULTIPLIER) = range(14, 21)
(SKIP, PDA, DEFAULT_PATTERN, DEMAND_MULTIPLIER) = range(21, 25)
(ELEVATION, HEAD_PATTERN, INITIAL, LEAST, GREATEST, DIAMETER, OVERFLOW, DISABLED) = range(25, 33)
BASE_DEMANDS = range(33, 37)
DEMAND_PATTERNS = range(37, 41)
# The size is the diameter, or the pump's initial flow.
(START, END, LINK_STATUS, SIZE, LINK_SETTING) = range(41, 46)
(CONTROL_NODE, TARGET, SECONDS, CONTROL_LINK, CONTROL_STATUS, CONTROL_SETTING) = range(46, 52)
(PREMISE_TARGET, PREMISE_NUMBER, PREMISE_STATUS, PREMISE_TIME) = range(52, 56)
# Of the table of the tanks' links; EXCHANGE has another entry's index for its value.
(BEGIN, MIDDLE, ENTRY, EXCHANGE) = range(56, 60)

# --- The records of the good image, by index ---

PATTERN_LENGTHS = [2, 3]
(RESERVOIR, TANK, JUNCTION, PLAIN_JUNCTION) = range(4)
(PIPE, PUMP, VALVE) = range(3)
ENDS = [(0, 1), (0, 2), (2, 3)]
(*WITH_NODE, TIME_CONTROL, CLOCK_CONTROL) = range(6)
ALL_CONTROLS = range(6)
ALL_PREMISES = range(3)


# --- The numbers that the calls give ---


def good(premise=0, second_clock=14, stop="none"):
    return [0, 0, 0, 7, 0, 0, premise, 0, second_clock, stop]


# Without a tank the second clock serves the project, and the stops are known beforehand.
TANKLESS = good(second_clock=0, stop=0)

# The calls whose number tells whether the tables break 10, and whether tables or state do.
STARTING, CLOSING = 0, 4

BROKEN_STATE = [0] + [10] * 8 + ["none"]
BROKEN_TABLES = [10] * 10


def tables(within):
    return good() if within else BROKEN_TABLES


# --- Values in and out of a range, each with whether it is within ---


def whole(value):
    """The low and high word of a count or an index."""
    return [value % 2**32, value // 2**32]


def numbers(limit):
    yield from ((x, True) for x in (0.0, -0.0, 5e-324, limit, -limit, limit / 3))
    yield from ((x, False) for x in (above(limit), -above(limit), 1e300, *NOT_FINITE))


def feet():
    """ "Elevations, levels and targets within ±100,000" """
    return numbers(100_000.0)


def other_numbers():
    """ "Other image numbers within ±1,000,000" """
    return numbers(1_000_000.0)


def premise_numbers():
    """ "premise numbers within ±10^12" """
    return numbers(1e12)


def diameters():
    """ "Diameters 0.001 to 10,000." """
    yield from ((x, True) for x in (0.001, 1.0, 10_000.0))
    yield from ((x, False) for x in (below(0.001), above(10_000.0), 0.0, -0.0, 5e-324, -1.0, *NOT_FINITE))


def times(least=0, most=LONGEST):
    """ "Times 0 to 315,360,000, report and pattern timesteps from 1, start clock and clock controls to 86,399." """
    for value in sorted({0, 1, least, most, most + 1, LAST_WORD}):
        yield value, least <= value <= most


def statuses():
    """ "Statuses are 0 to 9 in `LinkStatus` order." """
    for value in (0, 3, 9, 10, 255, LAST_WORD):
        yield value, value <= 9


def indices(declared):
    """ "index to nothing declared". One of 2^32 has a low word of 0."""
    for value in (*range(declared), declared, LAST_WORD, 2**32, LAST_INDEX):
        yield value, value < declared


def pattern_words():
    """ "A pattern word is 0 for none, else index + 1." """
    for value in (0, 1, images.PATTERNS, images.PATTERNS + 1, 33, LAST_WORD):
        yield value, value <= images.PATTERNS


def numbers_changed(what, index, values):
    for x, within in values:
        yield what, index, number(x), tables(within)


def words_changed(what, index, values):
    for value, within in values:
        yield what, index, whole(value), tables(within)


# --- The changes: what, index, the value's two words, the numbers ---


def state_changes():
    """ "flows or heads beyond 10^12, demands or demand flows beyond 10^20, settings beyond 10^6, instant past duration, count past
    instant, status over 9" """
    for what, limit, last in (
        (HEAD, 1e12, images.NODES),
        (DEMAND, 1e20, images.NODES),
        (DEMAND_FLOW, 1e20, images.NODES),
        (FLOW, 1e12, images.LINKS),
        (SETTING, 1e6, images.LINKS),
    ):
        for index in (0, 1, last - 1):
            for x, within in numbers(limit):
                yield what, index, number(x), good() if within else BROKEN_STATE
    for status, within in statuses():
        yield STATUS, 1, whole(status), good() if within else BROKEN_STATE
    duration = images.GOOD["options"][1]
    for instant in (1, duration - 1, duration, duration + 1, LAST_WORD):
        yield INSTANT, 0, whole(instant), good() if instant <= duration else BROKEN_STATE
    for count in (0, 1, LAST_WORD):
        yield COUNT, 0, whole(count), good() if count == 0 else BROKEN_STATE


def option_changes():
    """ "tables break 4 to 6" in the options; the flags have no wrong value in the tables."""
    for what in (DURATION, HYDRAULIC, PATTERN_START):
        yield from words_changed(what, 0, times())
    for what in (REPORT, PATTERN):
        yield from words_changed(what, 0, times(least=1))
    yield from words_changed(START_CLOCK, 0, times(most=LAST_OF_DAY))
    for what in (SKIP, PDA):
        yield from words_changed(what, 0, [(0, True), (1, True)])
    # "the default pattern is judged after the last record"
    yield from words_changed(DEFAULT_PATTERN, 0, pattern_words())
    yield from numbers_changed(DEMAND_MULTIPLIER, 0, other_numbers())


def count_changes():
    """ "one more of a counted thing than allowed": "32 patterns, 256 nodes, 384 links, 64 controls, 128 premises".

    A count too small leaves an index to nothing, or nothing at all; one too large takes in a filler, which breaks every range.
    """
    for what, allowed, counts in (
        (PATTERNS, {2}, (0, 1, 2, 3, 32, 33)),
        (NODES, {4}, (0, 3, 4, 5, 256, 257)),
        (LINKS, {3}, (0, 2, 3, 4, 384, 385)),
        (CONTROLS, {0, 1, 5, 6}, (0, 1, 5, 6, 7, 64, 65)),
        (PREMISES, {1, 2, 3}, (1, 2, 3, 4, 128, 129)),
    ):
        # The count of the good image with a high word of 1, too.
        for count in (*counts, LAST_WORD, 2**32 + max(allowed), LAST_INDEX):
            yield what, 0, whole(count), tables(count in allowed)
    yield PREMISES, 0, whole(0), good(premise=9)


def pattern_changes():
    """ "1 to 168 multipliers"; those past a pattern's length are fillers."""
    for pattern, length in enumerate(PATTERN_LENGTHS):
        for new in (0, 1, length, length + 1, 168, 169, LAST_WORD, 2**32 + 1, LAST_INDEX):
            yield LENGTH, pattern, whole(new), tables(1 <= new <= length)
        for place in (0, length - 1):
            yield from numbers_changed(MULTIPLIER, 168 * pattern + place, other_numbers())


def node_changes():
    for node in (RESERVOIR, TANK, JUNCTION, PLAIN_JUNCTION):
        yield from numbers_changed(ELEVATION, node, feet())
    yield from words_changed(HEAD_PATTERN, RESERVOIR, pattern_words())
    yield from tank_changes()
    # "flag 1 disabled"
    for node in (JUNCTION, PLAIN_JUNCTION):
        yield from words_changed(DISABLED, node, [(0, True), (1, True)])
    for base, pattern in zip(BASE_DEMANDS, DEMAND_PATTERNS):
        yield from numbers_changed(base, JUNCTION, other_numbers())
        yield from words_changed(pattern, JUNCTION, pattern_words())


def tank_changes():
    """ "least not above greatest": the good tank's are 0.0 and 12.0. The initial level may lie outside."""
    yield from numbers_changed(INITIAL, TANK, feet())
    for x, within in (*feet(), (12.0, True), (above(12.0), True)):
        yield LEAST, TANK, number(x), tables(within and x <= 12.0)
    for x, within in (*feet(), (12.0, True), (below(0.0), True)):
        yield GREATEST, TANK, number(x), tables(within and x >= 0.0)
    yield from numbers_changed(DIAMETER, TANK, diameters())
    # "flag 1 overflow"
    yield from words_changed(OVERFLOW, TANK, [(0, True), (1, True)])


def link_changes():
    for link, (start, end) in enumerate(ENDS):
        # "A link's ends differ."
        for node, within in indices(images.NODES):
            yield START, link, whole(node), tables(within and node != end)
            yield END, link, whole(node), tables(within and node != start)
        yield from words_changed(LINK_STATUS, link, statuses())
    for link in (PIPE, VALVE):
        yield from numbers_changed(SIZE, link, diameters())
    yield from numbers_changed(SIZE, PUMP, other_numbers())
    for link in (PUMP, VALVE):
        yield from numbers_changed(LINK_SETTING, link, other_numbers())


def control_changes():
    """A status or a setting is changed where the control has one, and given where it has none."""
    for control in WITH_NODE:
        # "a level control whose node is no tank is never active": it is accepted.
        yield from words_changed(CONTROL_NODE, control, indices(images.NODES))
        yield from numbers_changed(TARGET, control, feet())
    yield from words_changed(SECONDS, TIME_CONTROL, times())
    yield from words_changed(SECONDS, CLOCK_CONTROL, times(most=LAST_OF_DAY))
    for control in ALL_CONTROLS:
        yield from words_changed(CONTROL_LINK, control, indices(images.LINKS))
        yield from words_changed(CONTROL_STATUS, control, statuses())
        yield from numbers_changed(CONTROL_SETTING, control, other_numbers())


def premise_changes():
    """ "Attributes 0 to 11: node, tank, link, system". A value is changed to one of each sort.

    "A value of the wrong sort, or a tank attribute of no tank, is false": neither is a fault.
    """
    for attribute, declared in enumerate([images.NODES] * 6 + [images.LINKS] * 3):
        for index in (0, declared - 1, declared, LAST_WORD):
            yield PREMISE_TARGET, 0, [index, attribute], tables(index < declared)
            yield PREMISE_TARGET, ALL_PREMISES[-1], [index, attribute], tables(index < declared)
    for attribute in (9, 10, 11):
        yield PREMISE_TARGET, 0, [0, attribute], good()
    for premise in ALL_PREMISES:
        yield from numbers_changed(PREMISE_NUMBER, premise, premise_numbers())
        yield from words_changed(PREMISE_STATUS, premise, statuses())
        yield from words_changed(PREMISE_TIME, premise, times())


# For the entries past the counts: the count and the capacity of a table, and for its words a value that breaks each.
PAST_COUNTS = [
    (images.NODES, 256, {HEAD: math.inf, DEMAND: math.nan, DEMAND_FLOW: -1e300}),
    (images.LINKS, 384, {FLOW: math.inf, STATUS: LAST_WORD, SETTING: 1e300}),
    (images.PATTERNS, 32, {LENGTH: 169}),
    (168 * images.PATTERNS, 5_376, {MULTIPLIER: math.inf}),
    (images.NODES, 256, {ELEVATION: math.inf, HEAD_PATTERN: LAST_WORD}),
    (images.LINKS, 384, {START: LAST_INDEX, END: LAST_INDEX, LINK_STATUS: 10, SIZE: -math.inf}),
    (len(ALL_CONTROLS), 64, {CONTROL_NODE: LAST_INDEX, TARGET: 1e300, CONTROL_LINK: LAST_INDEX}),
    (len(ALL_CONTROLS), 64, {CONTROL_STATUS: 10, CONTROL_SETTING: math.inf}),
    (len(ALL_PREMISES), 128, {PREMISE_TARGET: LAST_WORD, PREMISE_NUMBER: math.inf}),
    (len(ALL_PREMISES), 128, {PREMISE_STATUS: 10, PREMISE_TIME: LAST_WORD}),
]


def past_count_changes():
    """ "entries past the counts hold a fixed filler, are not judged and never change" """
    for count, capacity, words in PAST_COUNTS:
        for what, value in words.items():
            for index in (count, capacity - 1):
                yield what, index, number(value) if isinstance(value, float) else whole(value), good()
    # The rest of a declared pattern's 168.
    for pattern, length in enumerate(PATTERN_LENGTHS):
        for place in (length, 167):
            yield MULTIPLIER, 168 * pattern + place, number(math.inf), good()


GROUPS = [
    state_changes,
    option_changes,
    count_changes,
    pattern_changes,
    node_changes,
    link_changes,
    control_changes,
    premise_changes,
    past_count_changes,
]


def changes():
    return [change for group in GROUPS for change in group()]


# --- The table of the tanks' links: document 02, R-8 ---

# The words of each part: the places where the tanks begin, their middles and the link numbers.
SIZES = (257, 256, 768)
# What each word is before the table is laid out, and how many of each part the program prints.
MARKER = LAST_WORD
SHOWN = 16
# A number that no link has.
NO_LINK = 384


def lent(tanks, ends):
    """The table in words that are all the marker before."""
    return [part + [MARKER] * (size - len(part)) for part, size in zip(laid_out(tanks, ends), SIZES)]


def is_laid_out(table, tanks, ends):
    """Whether the table is the one of these records. What lies past their places and entries is not judged."""
    return all(given[: len(part)] == part for given, part in zip(table, laid_out(tanks, ends)))


def changed_table(table, what, index, low):
    begins, middles, links = table
    if what == BEGIN:
        begins[index] = low
    elif what == MIDDLE:
        middles[index] = low
    elif what == ENTRY:
        links[index] = low
    elif what == EXCHANGE:
        links[index], links[low] = links[low], links[index]
    return table


def changed_records(works, what, index, low):
    """The tanks and the links' ends after a change that breaks nothing. No change makes another kind of a node."""
    tanks, ends = works.tanks, list(works.ends)
    if what == NODES:
        tanks = [tank for tank in tanks if tank < low]
    elif what == LINKS:
        ends = ends[:low]
    elif what in (START, END) and index < len(ends):
        start, end = ends[index]
        ends[index] = (low, end) if what == START else (start, low)
    return tanks, ends


def table_numbers(works, what, index, value, numbers):
    """What laying out and closing by the table give."""
    if numbers[CLOSING] == 10:
        return [numbers[STARTING], 10]
    table = changed_table(lent(works.tanks, works.ends), what, index, value[0])
    return [0, 0 if is_laid_out(table, *changed_records(works, what, index, value[0])) else 10]


# --- The changes of the table, each with what the other calls give ---


def place_changes(works):
    """Every place and every middle: one more, one less, none, and the largest word."""
    for what, part in zip((BEGIN, MIDDLE), laid_out(works.tanks, works.ends)):
        for index, place in enumerate(part):
            for new in sorted({place + 1, max(place - 1, 0), 0, LAST_WORD}):
                yield what, index, whole(new), works.good


def entry_changes(works):
    """Every link number: another link's, one that no link has, and the largest word."""
    *_, links = laid_out(works.tanks, works.ends)
    for index, link in enumerate(links):
        for new in ((link + 1) % len(works.ends), NO_LINK, LAST_WORD):
            yield ENTRY, index, whole(new), works.good


def exchanges(works):
    """Every two entries, and every one with the word past the last: of one part of a group, of both parts, of two groups. An
    entry with itself, and a link's two entries, which are the same number, leave the table as it was."""
    *_, links = laid_out(works.tanks, works.ends)
    for pair in itertools.combinations_with_replacement(range(min(len(links) + 1, SIZES[2])), 2):
        yield EXCHANGE, pair[0], whole(pair[1]), works.good


def past_table_changes(works):
    """What lies past the counts, first and last."""
    for what, size, part in zip((BEGIN, MIDDLE, ENTRY), SIZES, laid_out(works.tanks, works.ends)):
        for index in (len(part), size - 1):
            for new in (0, 1, NO_LINK, LAST_WORD - 1):
                yield what, index, whole(new), works.good


def table_changes(works):
    for group in (place_changes, entry_changes, exchanges, past_table_changes):
        yield from group(works)


# --- The projects: the good image, and those whose tanks and links matter alone ---

# The image's words, the nodes that are tanks, the links' ends, and what the calls without the table give where nothing breaks.
Works = collections.namedtuple("Works", "words tanks ends good")

# Tanks A, B, C, D, E by their nodes. B has no link; the last node is a tank.
A, B, C, D, E = 1, 3, 4, 6, 7
SEVERAL_TANKS = [images.junction(), images.tank(), images.reservoir(head_pattern=0), images.tank()]
SEVERAL_TANKS += [images.tank(), images.junction(), images.tank(), images.tank()]
# A's links go into it and out of it by turns. Two join it to C, one each way. D has one out of it, E two into it; 4 and 11 are at
# no tank.
SEVERAL_ENDS = [(0, A), (A, 5), (2, A), (A, C), (0, 5), (C, 0), (2, C), (D, 5), (5, E), (0, E), (C, A), (0, 2)]


def works_of(nodes, ends):
    """A project of these nodes, of pipes between these ends, and of one premise."""
    tanks = [index for index, record in enumerate(nodes) if record[0] >> 28 == 4]
    pipes = [images.pipe(start, end) for start, end in ends]
    words = images.joined([images.options(default_pattern=0), *nodes, *pipes, images.time_premise()])
    return Works(words, tanks, ends, good() if tanks else TANKLESS)


def several_tanks():
    return works_of(SEVERAL_TANKS, SEVERAL_ENDS)


def several_changes(works):
    yield from table_changes(works)
    # The records changed, and the table left as it was laid out from those before.
    for link, (start, end) in enumerate(works.ends):
        for node in range(len(SEVERAL_TANKS)):
            yield START, link, whole(node), tables(node != end)
            yield END, link, whole(node), tables(node != start)
    for count in (0, 1, 10, 11, 12, 13):
        yield LINKS, 0, whole(count), tables(count <= 12)
    for count in (7, 8, 9):
        yield NODES, 0, whole(count), tables(count == 8)
    yield from numbers_changed(DIAMETER, E, diameters())
    yield from words_changed(OVERFLOW, A, [(0, True), (1, True)])
    for what, index, value in ((FLOW, 11, math.nan), (FLOW, 0, math.inf), (HEAD, E, 1e13), (DEMAND, A, -math.inf)):
        yield what, index, number(value), BROKEN_STATE
    for status, within in statuses():
        yield STATUS, 3, whole(status), good() if within else BROKEN_STATE


def tanks_alone():
    """Three tanks and no link: every place is 0."""
    return works_of([images.tank()] * 3, [])


def alone_changes(works):
    yield from table_changes(works)
    # Tanks without links that are no longer there leave a table that begins as before.
    yield NODES, 0, whole(0), TANKLESS
    for count in (1, 2, 3, 4):
        yield NODES, 0, whole(count), tables(count <= 3)


def no_tanks():
    return works_of([images.reservoir(head_pattern=0), images.junction()], [(0, 1)])


def tankless_changes(works):
    yield from table_changes(works)
    yield START, 0, whole(1), BROKEN_TABLES


def full_table():
    """The most tanks and the most links, each from a tank to a tank: no word lies past the counts."""
    return works_of([images.tank()] * 256, [(i % 256, (i + 1 + i // 256) % 256) for i in range(384)])


def full_changes(works):
    """At either end of each part."""
    for change in (*place_changes(works), *entry_changes(works)):
        what, index = change[:2]
        if index in (0, 1, SIZES[what - BEGIN] - 2, SIZES[what - BEGIN] - 1):
            yield change
    for pair in ((0, 0), (0, 1), (0, 767), (766, 767), (767, 767)):
        yield EXCHANGE, pair[0], whole(pair[1]), works.good
    yield LINKS, 0, whole(383), works.good
    yield START, 383, whole(0), works.good


def projects():
    """Each with its changes."""
    yield Works(images.image(), [TANK], ENDS, good()), changes()
    for make, changed in (
        (several_tanks, several_changes),
        (tanks_alone, alone_changes),
        (no_tanks, tankless_changes),
        (full_table, full_changes),
    ):
        works = make()
        yield works, list(changed(works))


# --- What the program reads and prints ---


def program_input():
    data = []
    for works, changed in projects():
        data += [len(works.words), *works.words, len(changed)]
        for what, index, value, _ in changed:
            data += [what, index, *value]
    return struct.pack(f"<{len(data)}I", *data)


def line(words):
    return "".join(f" {word}" for word in words) + "\n"


def expected_lines():
    for works, changed in projects():
        for part in lent(works.tanks, works.ends):
            yield line(part[:SHOWN])
        for what, index, value, numbers in changed:
            yield line([*numbers, *table_numbers(works, what, index, value, numbers)])


def expected_output():
    return "".join(expected_lines())


def main():
    parser = argparse.ArgumentParser(description=__doc__, formatter_class=argparse.RawDescriptionHelpFormatter)
    parser.add_argument("--out", type=pathlib.Path, required=True)
    out = parser.parse_args().out
    (out / "stdin").write_bytes(program_input())
    (out / "stdout").write_text(expected_output(), encoding="utf-8")
    counts = [len(changed) for _, changed in projects()]
    print(f"{sum(counts)} changes of {len(counts)} projects")


if __name__ == "__main__":
    main()
