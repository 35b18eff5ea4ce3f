"""Checks of the changes that `handed_in` is run on: python3 -m unittest discover -s compare"""
import collections
import pathlib
import unittest

import handed_in
import images
from images import image_decode

CRATE = pathlib.Path(__file__).resolve().parent.parent / "crates" / "handed_in"
NAMES = list(images.GOOD)
# The first record of each table.
FIRST = ("reservoir", "pipe", "high_pressure", "number_premise")
NODES, LINKS, CONTROLS, PREMISES = (NAMES.index(name) for name in FIRST)

# The stops beforehand do not go by the state.
OF_THE_STATE = range(handed_in.INSTANT, handed_in.SETTING + 1)
# Flags have no wrong value in the tables.
FLAGS = {handed_in.SKIP, handed_in.PDA, handed_in.OVERFLOW, handed_in.DISABLED}
INDICES = {handed_in.START, handed_in.END, handed_in.CONTROL_NODE, handed_in.CONTROL_LINK}

# Where an image has each word: the first record of its table, and its place in a record of each kind. The header's is 0.
WORDS = {
    **{handed_in.DURATION + i: (0, {1: 1 + i}) for i in range(6)},
    handed_in.DEFAULT_PATTERN: (0, {1: 8}),
    handed_in.DEMAND_MULTIPLIER: (0, {1: 9}),
    handed_in.ELEVATION: (NODES, {3: 1, 4: 1, 5: 2}),
    handed_in.HEAD_PATTERN: (NODES, {3: 3}),
    handed_in.INITIAL: (NODES, {4: 3}),
    handed_in.LEAST: (NODES, {4: 5}),
    handed_in.GREATEST: (NODES, {4: 7}),
    handed_in.DIAMETER: (NODES, {4: 9}),
    handed_in.OVERFLOW: (NODES, {4: 11}),
    handed_in.DISABLED: (NODES, {5: 1}),
    **{what: (NODES, {5: 4 + 3 * k}) for k, what in enumerate(handed_in.BASE_DEMANDS)},
    **{what: (NODES, {5: 6 + 3 * k}) for k, what in enumerate(handed_in.DEMAND_PATTERNS)},
    handed_in.START: (LINKS, {6: 1}),
    handed_in.END: (LINKS, {6: 2}),
    handed_in.LINK_STATUS: (LINKS, {6: 4}),
    handed_in.SIZE: (LINKS, {6: 5}),
    handed_in.LINK_SETTING: (LINKS, {6: 7}),
    handed_in.CONTROL_NODE: (CONTROLS, {7: 2}),
    handed_in.TARGET: (CONTROLS, {7: 3}),
    handed_in.SECONDS: (CONTROLS, {7: 2}),
    handed_in.CONTROL_LINK: (CONTROLS, {7: 5}),
}
NUMBERS = {
    handed_in.DEMAND_MULTIPLIER,
    handed_in.ELEVATION,
    handed_in.INITIAL,
    handed_in.LEAST,
    handed_in.GREATEST,
    handed_in.DIAMETER,
    *handed_in.BASE_DEMANDS,
    handed_in.SIZE,
    handed_in.LINK_SETTING,
    handed_in.TARGET,
}


def changed_record(what, index, value):
    """The record's name and its words with the change; None where an image has no such record or word."""
    first, places = WORDS[what]
    if first + index >= len(NAMES):
        return None
    name = NAMES[first + index]
    words = list(images.GOOD[name])
    place = places.get(words[0] >> 28)
    if place is None or (what in INDICES and value[1]):
        return None
    size = 2 if what in NUMBERS else 1
    words[place : place + size] = value[:size]
    return name, words


def action_record(what, index, value):
    """A control that is given a status or a setting, beside what it has."""
    name = NAMES[CONTROLS + index]
    words = list(images.GOOD[name])
    if what == handed_in.CONTROL_STATUS:
        words[6:8] = [words[6] | 1, value[0]]
    else:
        words[6] |= 2
        words[8:10] = value
    return name, words


def premise_record(what, index, value):
    """A premise with another attribute and index, or another value."""
    name = NAMES[PREMISES + index]
    words = list(images.GOOD[name])
    if what == handed_in.PREMISE_TARGET:
        words[2:4] = [value[1], value[0]]
    else:
        words[5] = what - handed_in.PREMISE_NUMBER
        words[6:8] = value
    return name, words


def record_of(what, index, value):
    if what in WORDS:
        return changed_record(what, index, value)
    if what in (handed_in.CONTROL_STATUS, handed_in.CONTROL_SETTING):
        return action_record(what, index, value)
    if what >= handed_in.PREMISE_TARGET:
        return premise_record(what, index, value)
    return None


def judged_groups():
    """The changes of entries below the counts."""
    groups = [group for group in handed_in.GROUPS if group is not handed_in.past_count_changes]
    return [change for group in groups for change in group()]


class Changes(unittest.TestCase):
    def test_the_stored_files_are_what_is_made(self):
        self.assertEqual((CRATE / "stdin").read_bytes(), handed_in.program_input())
        self.assertEqual((CRATE / "stdout").read_text(encoding="utf-8"), handed_in.expected_output())

    def test_every_word_is_accepted_and_refused(self):
        outcomes = collections.defaultdict(set)
        for what, _, _, expected in judged_groups():
            outcomes[what].add(tuple(expected[-3:]))  # the step by either clock, the stops beforehand
        self.assertEqual(sorted(outcomes), list(range(handed_in.PREMISE_TIME + 1)))
        for what, numbers in outcomes.items():
            refused = set() if what in FLAGS else {(10, 10, "none")} if what in OF_THE_STATE else {(10, 10, 10)}
            self.assertEqual(numbers, {(0, 14, "none")} | refused, what)

    def test_the_decoder_refuses_an_image_with_the_same_word(self):
        """ "tables break 4 to 6": what is wrong in an image is wrong in the tables."""
        asked = collections.Counter()
        for what, index, value, expected in judged_groups():
            record = record_of(what, index, value)
            if record is None:
                continue
            name, words = record
            answer = image_decode.decode(images.image(**{name: words})).number
            self.assertEqual(answer != 0, expected == handed_in.BROKEN_TABLES, (what, index, value, answer))
            asked[what] += 1
        self.assertLessEqual(WORDS.keys(), asked.keys())

    def test_entries_past_the_counts_are_past_them(self):
        project = image_decode.decode(images.image())
        lengths = [len(pattern["multipliers"]) for pattern in project.patterns]
        counts = {
            range(handed_in.HEAD, handed_in.FLOW): len(project.nodes),
            range(handed_in.FLOW, handed_in.DURATION): len(project.links),
            range(handed_in.LENGTH, handed_in.MULTIPLIER): len(lengths),
            range(handed_in.ELEVATION, handed_in.START): len(project.nodes),
            range(handed_in.START, handed_in.CONTROL_NODE): len(project.links),
            range(handed_in.CONTROL_NODE, handed_in.PREMISE_TARGET): len(project.controls),
            range(handed_in.PREMISE_TARGET, handed_in.PREMISE_TIME + 1): len(project.premises),
        }
        for codes, count in counts.items():
            indices = [index for what, index, *_ in handed_in.past_count_changes() if what in codes]
            self.assertEqual(min(indices), count, codes)
        for what, index, *_ in handed_in.past_count_changes():
            pattern, place = divmod(index, 168)
            if what == handed_in.MULTIPLIER and pattern < len(lengths):
                self.assertGreaterEqual(place, lengths[pattern])


def outcomes(works, changed):
    """For each code, index and value what closing by the table gives."""
    return {
        (what, index, value[0]): handed_in.table_numbers(works, what, index, value, numbers)[1]
        for what, index, value, numbers in changed
    }


class Tables(unittest.TestCase):
    """The table of the tanks' links, document 02, R-8."""

    def setUp(self):
        self.works = handed_in.several_tanks()
        self.parts = handed_in.laid_out(self.works.tanks, self.works.ends)
        self.closed = outcomes(self.works, handed_in.several_changes(self.works))

    def test_the_projects_are_accepted_and_have_these_tanks_and_ends(self):
        for works, _ in handed_in.projects():
            project = image_decode.decode(works.words)
            self.assertEqual(project.number, 0)
            self.assertEqual([i for i, node in enumerate(project.nodes) if node["kind"] == "tank"], works.tanks)
            self.assertEqual([(link["start"], link["end"]) for link in project.links], works.ends)

    def test_tables_worked_out_by_hand(self):
        for works, begins, middles, links in (
            (self.works, [0, 5, 5, 9, 10, 12], [3, 5, 7, 9, 12], [0, 2, 10, 1, 3, 3, 6, 5, 10, 7, 8, 9]),
            (handed_in.tanks_alone(), [0, 0, 0, 0], [0, 0, 0], []),
            (handed_in.no_tanks(), [0], [], []),
        ):
            self.assertEqual(handed_in.laid_out(works.tanks, works.ends), (begins, middles, links))

    def test_a_full_table_has_no_word_past_the_counts(self):
        works = handed_in.full_table()
        parts = handed_in.laid_out(works.tanks, works.ends)
        self.assertEqual(tuple(map(len, parts)), handed_in.SIZES)
        self.assertEqual(collections.Counter(parts[2]), collections.Counter({link: 2 for link in range(384)}))

    def test_every_word_is_judged_and_none_past_the_counts(self):
        for works, changed in handed_in.projects():
            parts = handed_in.laid_out(works.tanks, works.ends)
            for (what, index, value), number in outcomes(works, changed).items():
                if handed_in.BEGIN <= what <= handed_in.ENTRY:
                    part = parts[what - handed_in.BEGIN]
                    right = index >= len(part) or part[index] == value
                    self.assertEqual(number, 0 if right else 10, (what, index, value))
        for what, part in zip(range(handed_in.BEGIN, handed_in.EXCHANGE), self.parts):
            refused = {index for (code, index, _), number in self.closed.items() if code == what and number == 10}
            self.assertEqual(refused, set(range(len(part))))

    def test_an_exchange_of_different_numbers_is_refused(self):
        links = self.parts[2] + [handed_in.MARKER]
        pairs = {key[1:]: number for key, number in self.closed.items() if key[0] == handed_in.EXCHANGE}
        self.assertEqual(len(pairs), 13 * 14 // 2)
        for (one, other), number in pairs.items():
            self.assertEqual(number, 0 if links[one] == links[other] else 10, (one, other))
        # A link with two tanks stands twice: 3 out of A and into C, 10 into A and out of C.
        alike = {pair for pair, number in pairs.items() if number == 0 and pair[0] != pair[1]}
        self.assertEqual(alike, {(4, 5), (2, 8)})

    def test_a_changed_end_is_refused_where_a_tank_gains_or_loses_the_link(self):
        for (what, link, node), number in self.closed.items():
            if what in (handed_in.START, handed_in.END):
                ends = self.works.ends[link]
                before = ends[what - handed_in.START]
                broken = node == ends[handed_in.END - what]
                moved = node != before and not {node, before}.isdisjoint(self.works.tanks)
                self.assertEqual(number, 10 if broken or moved else 0, (what, link, node))

    def test_fewer_links_and_fewer_tanks(self):
        links = {count: self.closed[handed_in.LINKS, 0, count] for count in (0, 10, 11, 12, 13)}
        self.assertEqual(links, {0: 10, 10: 10, 11: 0, 12: 0, 13: 10})
        works = handed_in.tanks_alone()
        closed = outcomes(works, handed_in.alone_changes(works))
        self.assertEqual([closed[handed_in.NODES, 0, count] for count in range(5)], [0, 0, 0, 0, 10])


if __name__ == "__main__":
    unittest.main()
