"""Each field's values at its limits and beyond them, and the images that try them one by one.

What number a fault gets is not said here: the programs under comparison tell.
"""

import functools

from image import *
from values import BEYOND_ALL, nudged

ONES = 0xFFFFFFFF


def around(most):
    """Numbers at plus and minus the most, just beyond, and none at all."""
    return [most, -most, nudged(most, 1), -nudged(most, 1), 2.0 * most, -0.0, *BEYOND_ALL]


def diameters():
    low, high = LEAST_DIAMETER, GREATEST_DIAMETER
    return [low, nudged(low, -1), high, nudged(high, 1), 0.0, -low, -high, *BEYOND_ALL]


def seconds(least, most):
    return [least, max(least - 1, 0), most, most + 1, 1 << 31, ONES]


def codes(count):
    return [0, count - 1, count, count + 1, 1 << 31, ONES]


def flags(bits):
    return [0, bits, bits + 1, 2 * bits + 1, 1 << 31, ONES]


def indices(count):
    return [max(count - 1, 0), count, count + 1, 1 << 16, ONES]


def pattern_words(project):
    return [0, *indices(len(project.patterns) + 1)]


def option_values(record, project):
    ten_years = seconds(0, LONGEST_TIME)
    return {
        "duration": ten_years, "hydraulic": ten_years, "report": seconds(1, LONGEST_TIME),
        "pattern": seconds(1, LONGEST_TIME), "pattern_start": ten_years, "start_clock": seconds(0, DAY - 1),
        "flags": flags(SKIP | PDA), "default_pattern": pattern_words(project), "multiplier": around(MOST_OTHER),
    }


def pattern_values(record, project):
    return {"multipliers": [changed_entry(record.multipliers, value) for value in around(MOST_OTHER)]}


def changed_entry(entries, value):
    """The list with another last entry."""
    return entries[:-1] + [value]


def reservoir_values(record, project):
    return {"elevation": around(MOST_FEET), "pattern": pattern_words(project)}


def tank_values(record, project):
    feet = around(MOST_FEET)
    return {
        "elevation": feet, "initial": feet, "least": feet + [record.greatest, nudged(record.greatest, 1)],
        "greatest": feet + [record.least, nudged(record.least, -1)], "diameter": diameters(), "overflow": flags(1),
    }


def junction_values(record, project):
    entries = [(base, 0) for base in around(MOST_OTHER)] + [(1.0, word) for word in pattern_words(project)]
    entries.append((nudged(MOST_OTHER, 1), ONES))
    demands = [changed_entry(record.demands, entry) for entry in entries] if record.demands else [[]]
    return {"disabled": flags(1), "elevation": around(MOST_FEET), "demands": demands}


def link_values(record, project):
    nodes = indices(len(project.nodes))
    return {
        "start": nodes + [record.end], "end": nodes + [record.start], "sort": codes(3), "status": codes(10),
        "size": around(MOST_OTHER) if record.sort == PUMP else diameters(), "setting": [0.0, 1.0, *around(MOST_OTHER)],
    }


def control_values(record, project):
    subjects = indices(len(project.nodes)) + seconds(0, LONGEST_TIME) + seconds(0, DAY - 1)
    return {
        "condition": codes(6) + [1, 2, 3, 4], "subject": subjects, "target": [0.0, 1.0, *around(MOST_FEET)],
        "link": indices(len(project.links)), "flags": flags(3) + [1, 2], "status": codes(10) + [1],
        "setting": [0.0, 1.0, *around(MOST_OTHER)],
    }


def premise_values(record, project):
    both_words = [Bits(3 << 32 | 3), Bits(1 << 32)]
    return {
        "operator": codes(2), "attribute": codes(12) + [5, 6, 8, 9],
        "index": indices(len(project.nodes)) + indices(len(project.links)) + [1], "comparison": codes(6),
        "sort": codes(3) + [1], "value": around(MOST_LOADED) + codes(10) + seconds(0, LONGEST_TIME) + both_words,
    }


FIELD_VALUES = {
    Options: option_values, Pattern: pattern_values, Reservoir: reservoir_values, Tank: tank_values,
    Junction: junction_values, Link: link_values, Control: control_values, Premise: premise_values,
}


def field_values(record, project):
    """The values to try in each field of a record."""
    return FIELD_VALUES[type(record)](record, project)


# Tables with one record more than they may have


def table_limits():
    """A record, how many of its kind there may be, and the kinds that count with it."""
    nodes = (Reservoir, Tank, Junction)
    return [
        (Pattern([1.0]), MOST_PATTERNS, (Pattern,)), (Junction(), MOST_NODES, nodes), (Reservoir(), MOST_NODES, nodes),
        (Tank(), MOST_NODES, nodes), (Link(0, 1), MOST_LINKS, (Link,)), (Control(TIME, 0), MOST_CONTROLS, (Control,)),
        (Premise(0, 10, 0, 0, SECONDS, 0), MOST_PREMISES, (Premise,)),
    ]


ORDER = (Options, Pattern, (Reservoir, Tank, Junction), Link, Control, Premise)


def filled_up(project, record, most, kinds):
    """The records with as many of the kind as there may be, up to the end of its stage, and those after it."""
    records = project.records()
    stage = next(index for index, kinds_of_stage in enumerate(ORDER) if isinstance(record, kinds_of_stage))
    end = sum(isinstance(item, ORDER[: stage + 1]) for item in records)
    missing = most - sum(isinstance(item, kinds) for item in records)
    return records[:end] + [copied(record) for _ in range(missing)], records[end:]


# The sweep


def sweep_project():
    """Every kind of record, sort of link, condition, attribute and sort of value."""
    nodes = [Reservoir(50.0, 1), Tank(100.0, 5.0, 0.0, 12.0, 20.0), Junction(0, 10.0, [(1.0, 0), (2.0, 2)]), Junction()]
    links = [Link(0, 1), Link(1, 2, PUMP, CLOSED, 3.0, 0.5), Link(2, 1, VALVE, ACTIVE, 2.0, 7.0)]
    controls = [Control(condition, 1, 5.0, 1, 3, OPEN, 2.0) for condition in range(4)]
    controls += [Control(TIME, 3600, 0.0, 0, 1, CLOSED), Control(CLOCK_TIME, 1800, 0.0, 2, 2, 0, 3.0)]
    controls.append(Control(LOW_LEVEL, 1))
    premises = [Premise(code % 2, code, int(code < 9), code % 6, NUMBER, 5.0) for code in range(12)]
    premises += [Premise(0, 7, 0, 0, STATUS, OPEN), Premise(0, 10, 0, 4, SECONDS, 60)]
    options = Options(86_400, 3600, 3600, 3600, 0, 0, 0, 1, 1.0)
    return Project(options, [Pattern([1.0, 2.0]), Pattern([0.5])], nodes, links, controls, premises)


@functools.cache
def sweep():
    """Images that differ from a good one in one place, or in a few where the order of the checks shows."""
    project = sweep_project()
    images = [project.words()]
    images += swept_fields(project)
    images += swept_headers(project)
    images += swept_tables(project)
    return [Image(words) for words in images] + swept_lengths(project)


def swept_fields(project):
    for number, record in enumerate(project.records()):
        for name, values in field_values(record, project).items():
            for value in values:
                records = copied(project.records())
                setattr(records[number], name, value)
                yield words_of(records)


def words_of(records):
    return [word for item in records for word in item.words()]


def swept_headers(project):
    """Every other kind and size in each header, a bit set that must be 0, and each record dropped, doubled and cut."""
    records = [item.words() for item in project.records()]
    for number, words in enumerate(records):
        before = [word for earlier in records[:number] for word in earlier]
        after = [word for later in records[number + 1 :] for word in later]
        kind, size = words[0] >> 28, len(words) - 1
        for other in range(16):
            yield before + [other << 28 | size] + words[1:] + after
        for other in sorted({*range(17), 18, size - 1, size + 1, 335, 336, 337, 338}):
            yield before + [kind << 28 | other] + (words[1:] + [0] * other)[:other] + after
        yield before + [kind << 28 | 0xFFFF] + words[1:] + after
        for bit in range(16, 28):
            yield before + [words[0] | 1 << bit] + words[1:] + after
        yield before + after
        yield before + words + words + after
        yield before + after + words
        for length in range(len(words)):
            yield before + words[:length]
            yield before + words[:1] + [ONES] * (length - 1)


def swept_tables(project):
    """Each table full, and with one more: a good one, one with faults in its words, one cut, one with a bad header."""
    for record, most, kinds in table_limits():
        full, after = filled_up(project, record, most, kinds)
        full, after, words = words_of(full), words_of(after), record.words()
        yield full
        yield full + after
        for extra in (words, words[:1] + [ONES] * (len(words) - 1), words[:-1], [words[0] | 1 << 16] + words[1:]):
            yield full + extra
            yield full + extra + after


def swept_lengths(project):
    """No words, as many as there may be, more, and counts that say something else."""
    words = project.words()
    images = [Image([]), Image(lengthened(words, MOST_WORDS)), Image(lengthened(words, MOST_WORDS + 1))]
    images += [Image(words, count) for count in (0, len(words) + 1, MOST_WORDS, MOST_WORDS + 1, 1 << 31, ONES)]
    images += [Image([], count) for count in (0, 1, MOST_WORDS, ONES)]
    return images


def lengthened(words, length):
    """The image with premises after it, right but too many, up to a length."""
    more = Premise(0, 9, 0, 0, NUMBER, 0.0).words()
    return (words + more * (length // len(more)))[:length]
