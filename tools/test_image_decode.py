"""Checks of the decoder's faults: python3 -m unittest discover -s tools

The numbers are checked on the test batch, in compare; here it is what a fault says.
"""
import pathlib
import struct
import sys
import unittest

sys.path.insert(0, str(pathlib.Path(__file__).resolve().parent.parent / "compare"))
import image_decode  # noqa: E402
import image_text  # noqa: E402
import images  # noqa: E402
from images import NAN, image  # noqa: E402

TEXT = """
options duration=10000 hydraulic=5000 report=7200 pattern_timestep=3600
pattern DAY 1.0 0.5
reservoir SPRING elevation=150.0 pattern=DAY
tank HILL elevation=100.0 initial=10.0 least=0.0 greatest=12.0 diameter=20.0
junction elevation=50.0
pipe MAIN start=SPRING end=HILL diameter=1.0
pump start=SPRING end=2 initial_flow=2.5 setting=1.0
"""


ORDER = "the order is options, patterns, nodes, links, controls, premises"
TANK = images.tank()


def options(**changes):
    """The good image with other options."""
    return image(options=images.options(**changes))


def said(words, names=None):
    return str(image_decode.decode(words, names).fault)


class Faults(unittest.TestCase):
    # The good image of the batch: options, pat0, pat1, reservoir R0, tank T1, junctions J2 and J3, pipe0, pump1,
    # valve2, 6 controls, 3 premises.
    CASES = [
        ([], "1: no words, and an image has at least one"),
        ([0] * 16_385, "1: 16,385 words, and an image has at most 16,384"),
        # Number 2
        (image() + [9 << 28], "2: record 20: kind 9 is none of 1 to 8"),
        (
            image() + [15 << 28],
            "2: record 20: kind 15 is none of 1 to 8: loads stand behind the image, where its count ends",
        ),
        (image(tank=images.with_bit(TANK, 16)), "2: record 5, tank T1: header 0x4001000b: bits 16 to 27 must be 0"),
        (TANK, "2: record 1, tank T0: tank as the first record: options are missing, which stand first"),
        (image(pattern_0=images.options()), "2: record 2, options: a second options record"),
        (image(pump=images.junction()), f"2: record 9, junction J4: junction after a link: wrong stage; {ORDER}"),
        (image(tank=images.of_size(TANK, 4)), "2: record 5, tank T1: payload of 4 words, a tank has 11"),
        (images.of_size(images.options(), 9), "2: record 1, options: payload of 9 words, options have 10"),
        (
            image(pattern_1=images.of_size(images.pattern(1.0), 3)),
            "2: record 3, pattern pat1: payload of 3 words, a pattern has 2 for each of its 1 to 168 multipliers",
        ),
        (
            image(plain_junction=images.of_size(images.junction(), 4)),
            "2: record 7, junction J3: payload of 4 words, a junction has 3, and 3 more for each of its 0 to 4 demands",
        ),
        # Numbers 3 and 4
        (images.options()[:-1], "3: record 1, options: payload of 10 words, and the image has only 9 left"),
        (image(tank=TANK * 254), "4: record 260, junction J256: one too many: an image has at most 256 nodes"),
        (
            image(valve=images.valve() * 383),
            "4: record 392, valve valve384: one too many: an image has at most 384 links",
        ),
        # Number 5: ranges
        (
            options(pattern_timestep=0),
            "5: record 1, options, word 4: pattern timestep 0 is not within 1 to 315,360,000",
        ),
        (options(start_clock=86_400), "5: record 1, options, word 6: start clock 86400 is not within 0 to 86,399"),
        (
            options(demand_multiplier=NAN),
            "5: record 1, options, words 9 and 10: demand multiplier nan is not within ±1,000,000",
        ),
        (
            image(pattern_1=images.pattern(1.0, 2e6)),
            "5: record 3, pattern pat1, words 3 and 4: multiplier 2: 2000000.0 is not within ±1,000,000",
        ),
        (
            image(reservoir=images.reservoir(elevation=1e6)),
            "5: record 4, reservoir R0, words 1 and 2: elevation 1000000.0 is not within ±100,000",
        ),
        (
            image(tank=images.tank(diameter=0.0)),
            "5: record 5, tank T1, words 9 and 10: diameter 0.0 is not within 0.001 to 10,000",
        ),
        (
            image(tank=images.tank(least=13.0)),
            "5: record 5, tank T1, words 5 to 8: least level 13.0 is above the greatest level 12.0",
        ),
        (
            image(junction=images.four_demands(fourth=(-2e6, 0))),
            "5: record 6, junction J2, words 13 and 14: base demand 4: -2000000.0 is not within ±1,000,000",
        ),
        (
            image(pump=images.pump(initial_flow=2e6)),
            "5: record 9, pump pump1, words 5 and 6: initial flow 2000000.0 is not within ±1,000,000",
        ),
        (
            image(number_premise=images.number_premise(2e12)),
            "5: record 17, premise, words 6 and 7: number 2000000000000.0 is not within ±10^12",
        ),
        # Number 5: codes, flags, unused words, ends
        (options(flags=4), "5: record 1, options, word 7: flags 0x4 have an unknown bit; known: 1 skip, 2 PDA"),
        (image(pipe=images.pipe(sort=3)), "5: record 8, link, word 3: sort 3 is none of 0 pipe, 1 pump, 2 valve"),
        (
            image(number_premise=images.number_premise(comparison=6)),
            "5: record 17, premise, word 4: comparison 6 is none of 0 =, 1 <>, 2 >, 3 <, 4 >=, 5 <=",
        ),
        (
            image(pipe=images.pipe(setting=-0.0)),
            "5: record 8, pipe pipe0, words 7 and 8: the setting of a pipe is +0.0: "
            "unused words must be 0, not 0x0 0x80000000",
        ),
        (
            image(time_premise=images.time_premise(index=1)),
            "5: record 19, premise, word 3: a system attribute has no index: an unused word must be 0, not 0x1",
        ),
        (
            image(high_level=images.high_level(flags=0)),
            "5: record 13, control, word 7: flag 1 gives no status: an unused word must be 0, not 0x2",
        ),
        (image(valve=images.valve(3, 3)), "5: record 10, valve valve2, words 1 and 2: start and end are both node 3"),
        # Number 6
        (
            image(pump=images.pump(start=7)),
            "6: record 9, pump pump1, word 1: start node 7: "
            "only 4 nodes are declared before it, and indices count from 0",
        ),
        (
            image(reservoir=images.reservoir(head_pattern=3)),
            "6: record 4, reservoir R0, word 3: head pattern word 3 means index 2: "
            "only 2 patterns are declared before it",
        ),
        (
            options(default_pattern=3),
            "6: record 1, options, word 8: default pattern word 3 means index 2: only 2 patterns are declared",
        ),
    ]

    def test_what_each_says(self):
        for words, text in self.CASES:
            self.assertEqual(said(words), f"refused {text}")

    def test_every_refused_row_has_its_place(self):
        for row in images.rows():
            fault = image_decode.decode(row.words).fault
            if row.number == 1:
                self.assertIsNone(fault.record, row.name)
            elif row.number:
                self.assertEqual(fault.words is not None, row.number in (5, 6), row.name)
                self.assertEqual(record_at(row.words, fault.at), fault.record, row.name)
                self.assertTrue(fault.reason, row.name)

    def test_the_words_of_a_fault_are_to_blame(self):
        """A fault goes, or another comes first, once its own words are those of a good record."""
        for name, place in (("tank", 9), ("pipe", 1), ("high_level", 5), ("number_premise", 2)):
            good = images.GOOD[name]
            bad = good[:place] + [images.ALL_ONES] * 2 + good[place + 2 :]
            first, last = image_decode.decode(image(**{name: bad})).fault.words
            mended = bad[:first] + good[first : last + 1] + bad[last + 1 :]
            self.assertNotEqual(said(image(**{name: mended})), said(image(**{name: bad})))


def record_at(words, at):
    """Which record begins at this word, found by the headers alone."""
    record, place = 1, 0
    while place < at:
        record, place = record + 1, place + 1 + (words[place] & 0xFFFF)
    return record


class NamedByTheText(unittest.TestCase):
    def setUp(self):
        self.names = image_decode.names_of(TEXT)

    def said(self, *change):
        text = TEXT.replace(*change)
        return said(image_text.assemble(text).image_words(), self.names)

    def test_names_in_image_order(self):
        self.assertEqual(self.names.tables["node"], ["SPRING", "HILL", None])
        self.assertEqual(self.names.tables["link"], ["MAIN", None])

    def test_a_name_from_the_text(self):
        self.assertIn("record 4, tank HILL, word", self.said("diameter=20.0", "diameter=0"))
        self.assertIn("record 6, pipe MAIN, word", self.said("diameter=1.0", "diameter=0"))

    def test_a_made_name_where_the_text_has_none(self):
        self.assertIn("record 5, junction J2, word", self.said("elevation=50.0", "elevation=nan"))
        self.assertIn("record 7, pump pump1, word", self.said("setting=1.0", "setting=nan"))

    def test_names_that_are_too_few_are_no_matter(self):
        self.names.tables["link"] = []
        self.assertIn("record 6, pipe pipe0, word", self.said("diameter=1.0", "diameter=0"))

    def test_loads_name_what_they_are_for(self):
        text = TEXT + "loads\nload flow 1 2 head 3\nload flow {} head {}\n"
        for values, place in (
            (("nan 2", "3"), "words 1 and 2: flow nan of pipe MAIN"),
            (("1 -inf", "3"), "words 3 and 4: flow -inf of pump pump1"),
            (("1 2", "2e12"), "words 5 and 6: head 2000000000000.0 of junction J2"),
        ):
            fault = image_decode.judge(image_text.assemble(text.format(*values)).data(counted=True), self.names)
            self.assertEqual(str(fault), f"refused 8: load 2, {place} is not within ±10^12")
            self.assertEqual((fault.record, fault.sort), (2, "load"))


class Inputs(unittest.TestCase):
    """The driver's whole input."""

    GOOD = image_text.assemble(TEXT + "loads\nload flow 1 2 head 3\nload flow 1 2 head 3\n").data(counted=True)

    def test_an_accepted_one(self):
        decoded = image_decode.decode_input(self.GOOD)
        self.assertEqual((decoded.number, decoded.loads), (0, 2))

    def test_the_count(self):
        bare = self.GOOD[4:]
        for data, text in (
            (b"", "0 bytes, and the count of words alone takes 4"),
            (b"abc", "3 bytes, and the count of words alone takes 4"),
            (struct.pack("<I", 0) + bare, "no words, and an image has at least one"),
            (struct.pack("<I", 16_385) + bytes(4 * 16_385), "16,385 words, and an image has at most 16,384"),
            (struct.pack("<I", 999) + bytes(42), "the count of words is 999, and only 10 are there"),
            (bare, "the header of options stands where the count of words should: the count is missing"),
        ):
            self.assertEqual(str(image_decode.judge(data)), f"refused 1: {text}")

    def test_loads(self):
        at = 4 + 4 * struct.unpack_from("<I", self.GOOD)[0]
        second = at + 4 * 7
        for data, text in (
            (self.GOOD[: second + 3], "the load is cut: 3 of the header's 4 bytes"),
            (self.GOOD[:-1], "the load is cut: 5 of its 6 payload words"),
            (self.GOOD[:second] + bytes(28), "kind 0, a load has kind 15"),
            (self.GOOD[:second] + struct.pack("<I", 0xF0010006), "header 0xf0010006: bits 16 to 27 must be 0"),
            (
                self.GOOD[:second] + struct.pack("<I", 0xF0000004),
                "payload of 4 words, a load of this image has 6: flows 2, heads 1",
            ),
        ):
            decoded = image_decode.decode_input(data)
            self.assertEqual(str(decoded.fault), f"refused 7: load 2: {text}")
            self.assertEqual(decoded.loads, 1)
            self.assertEqual(decoded.fault, image_decode.load_fault(decoded, data, second, 2))

    def test_no_load_left(self):
        decoded = image_decode.decode_input(self.GOOD)
        fault = image_decode.load_fault(decoded, self.GOOD, len(self.GOOD), 3)
        self.assertEqual(str(fault), "refused 7: load 3: no word of a load is left")


if __name__ == "__main__":
    unittest.main()
