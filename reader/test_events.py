"""Tests of the calls of a run, of its events and of its picture, on states written by hand."""

import struct
import sys
import unittest
import xml.dom.minidom

sys.dont_write_bytecode = True

from reader import ROOT, picture, states  # noqa: E402
from reader.events import Events  # noqa: E402
from reader.failure import Failure  # noqa: E402
from reader.listing import Listing  # noqa: E402
from reader.network import Network  # noqa: E402
from reader.states import State, Turn  # noqa: E402
from reader.timeline import Timeline  # noqa: E402

import image_decode  # noqa: E402
import image_text  # noqa: E402

CLOSED, OPEN, ACTIVE, TEMP_CLOSED = 2, 3, 4, 1
WORKS = """
options duration=30:00:00 hydraulic=1:00:00 report=1:00:00 pattern_timestep=1:00:00 start_clock=6:00:00
tank HILL elevation=100.0 initial=5.0 least=1.0 greatest=9.0 diameter=20.0
tank POND elevation=50.0 initial=2.0 least=0.0 greatest=4.0 diameter=20.0 flags=overflow
junction MILL elevation=40.0
pump LIFT start=POND end=HILL status=Closed initial_flow=1.0 setting=1.0
valve GATE start=HILL end=MILL status=Active diameter=1.0 setting=30.0
pipe MAIN start=MILL end=POND diameter=1.0
control low_level node=HILL target=3.0 link=LIFT status=Open
control high_level node=HILL target=8.0 link=LIFT status=Closed
control clock seconds=7:00:00 link=LIFT setting=0.9
control time seconds=1:00:00 link=GATE setting=20.0
control time seconds=1:00:00 link=GATE status=Active
"""


def network(text=WORKS, named=True):
    tables = image_decode.decode(image_text.assemble(text).image_words())
    return Network(tables, image_text.names_of(text) if named else None)


def state(instant=0, levels=(5.0, 2.0), demands=(0.0, 0.0), flows=(0.0, 0.0, 0.0), lift=CLOSED, **more):
    """A state of the works: levels and net inflows of its tanks, flows of its links, and how they stand."""
    heads = (100.0 + levels[0], 50.0 + levels[1], 60.0)
    statuses = (lift, more.get("gate", ACTIVE), more.get("main", OPEN))
    settings = (more.get("speed", 1.0), more.get("setting", 30.0), 0.0)
    return State(instant, 0, heads, (*demands, 0.0), flows, statuses, settings)


def turn(before, after, controlled=None, closed=None, loaded=None):
    """A turn in which the calls between change nothing unless it is said."""
    controlled = controlled or before
    loaded = loaded or controlled
    closed = closed or loaded
    return Turn(before, controlled, loaded, closed=closed, length=after.instant - before.instant, stepped=after)


class Told(unittest.TestCase):
    """The lines of one or two turns behind the first."""

    def told(self, *turns, named=True):
        first = turns[0].patterned
        events = Events(network(named=named), state(), "refused 8: load 2: why")
        events.take(turn(state(), first))
        lines = [line for each in turns for line in events.take(each)]
        return [line.split("  ")[-1] for line in lines]

    def test_a_control_that_opens(self):
        low = state(3600, (2.9999, 2.0), demands=(-1.0, 1.0))
        lines = self.told(turn(low, state(7200, (2.5, 2.0)), controlled=state(3600, (2.9999, 2.0), lift=OPEN)))
        self.assertEqual(lines[0], "LIFT opens (control 1: HILL at or below 3.00 ft); HILL 3.00 ft, falling")

    def test_made_names(self):
        low = state(3600, (2.0, 2.0), demands=(1.0, 0.0))
        lines = self.told(turn(low, state(7200), controlled=state(3600, (2.0, 2.0), lift=OPEN)), named=False)
        self.assertEqual(lines[0], "pump0 opens (control 1: T0 at or below 3.00 ft); T0 2.00 ft, rising")

    def test_a_setting_is_the_controls_that_sets_it(self):
        """Control 5 is active too, and changes nothing."""
        now = state(3600)
        lines = self.told(turn(now, state(7200), controlled=state(3600, speed=0.9, setting=20.0)))
        speed = "LIFT runs at speed 0.9 (control 3: at 07:00:00)"
        self.assertEqual(lines, [f"{speed}; GATE is set to 20 (control 4: at 1:00:00 of the run)"])

    def test_a_status_that_neither_opens_nor_closes(self):
        now = state(3600, gate=OPEN)
        lines = self.told(turn(now, state(7200), controlled=state(3600)))
        self.assertEqual(lines, ["GATE goes from Open to Active (control 5: at 1:00:00 of the run)"])

    def test_closing_and_why(self):
        full = state(3600, (9.0, 2.0), flows=(1.0, 0.0, 0.0), lift=OPEN)
        lines = self.told(turn(full, state(7200, (9.0, 2.0)), closed=state(3600, (9.0, 2.0), lift=TEMP_CLOSED)))
        self.assertEqual(lines[0], "HILL is full, 9.00 ft; LIFT closes: HILL is full")

    def test_a_link_into_an_empty_tank_that_drains_it(self):
        empty = state(3600, (5.0, 0.0), flows=(0.0, 0.0, -1.0))
        lines = self.told(turn(empty, state(7200), closed=state(3600, (5.0, 0.0), main=TEMP_CLOSED)))
        self.assertEqual(lines[0], "POND is empty, 0.00 ft; MAIN closes: POND is empty")

    def test_a_link_out_of_an_empty_tank_and_out_of_a_full_one(self):
        """The other way round: out of a tank a flow drains it, and a flow back fills it."""
        for level, flow, limit in ((1.0, 1.0, "empty"), (9.0, -1.0, "full")):
            there, back = [state(3600, (level, 2.0), flows=(0.0, way * flow, 0.0)) for way in (1, -1)]
            self.assertEqual(list(network().closers(1, there)), [(0, limit)])
            self.assertEqual(list(network().closers(1, back)), [])

    def test_level_controls_are_passed_over_at_the_start(self):
        (_, low), *_ = network().controls()
        self.assertEqual([network().is_active(low, state(instant, (2.0, 2.0))) for instant in (0, 1)], [False, True])

    def test_a_tank_that_overflows_closes_nothing(self):
        self.assertEqual(list(network().closers(2, state(3600, (5.0, 4.0), flows=(0.0, 0.0, 1.0)))), [])
        full = state(3600, (5.0, 3.999), demands=(0.0, 1.0))
        self.assertEqual(self.told(turn(full, state(7200)))[0], "POND is full and overflows, 4.00 ft")

    def test_a_level_just_short_of_a_controls(self):
        short = state(3600, (7.9998, 2.0), demands=(1.0, 0.0))
        lines = self.told(turn(short, state(7200)))
        self.assertEqual(lines, ["HILL 0.0002 ft short of 8.00 ft, rising: control 2 is not active yet"])

    def test_a_level_that_passes_or_has_nothing_to_change(self):
        down = state(3600, (8.0, 2.0), demands=(-1.0, 0.0))
        self.assertEqual(self.told(turn(down, state(7200))), ["HILL passes 8.00 ft, falling"])
        up = state(3600, (8.0, 2.0), demands=(1.0, 0.0))
        lines = self.told(turn(up, state(7200)))
        self.assertEqual(lines, ["HILL reaches 8.00 ft, rising: control 2 has nothing to change"])

    def test_what_stays_is_not_told_again(self):
        full = [state(3600 * hour, (9.0, 2.0)) for hour in (1, 2, 3)]
        self.assertEqual(self.told(turn(*full[:2]), turn(*full[1:])), ["HILL is full, 9.00 ft"])


class Lines(unittest.TestCase):
    def test_the_start_and_the_end_with_day_and_clock(self):
        events = Events(network(), state(), "")
        last = state(108_000, (4.0, 3.0), demands=(-1.0, 1.0))
        lines = events.take(turn(state(), last, closed=state(demands=(1.0, 0.0)))) + events.end()
        start = "start; HILL 5.00 ft, rising; POND 2.00 ft, standing; LIFT closed; GATE active"
        end = "end of the run, 1 step; HILL 4.00 ft, falling; POND 3.00 ft, rising"
        self.assertEqual(lines, [f" 0:00:00  day 1 06:00:00  {start}", f"30:00:00  day 2 12:00:00  {end}"])

    def test_a_run_of_no_time(self):
        lines = Events(network(WORKS.replace("30:00:00", "0:00:00")), state(), "").end()
        self.assertEqual(len(lines), 1)
        self.assertIn("start; HILL 5.00 ft, standing", lines[0])
        self.assertIn("end of the run, 0 steps", lines[0])

    def test_a_refused_load(self):
        events = Events(network(), state(), "refused 8: load 1: why")
        lines = events.take(Turn(state(), state(), state(), refused=8))
        self.assertTrue(lines[0].endswith("GATE active; refused 8: load 1: why"))


class Calls(unittest.TestCase):
    def calls(self, name):
        data = (ROOT / "stock" / f"{name}.image").read_bytes()
        (count,) = struct.unpack_from("<I", data)
        project = image_decode.decode(struct.unpack_from(f"<{count}I", data, 4))
        listed = Listing()
        for line in (ROOT / "stock" / f"{name}.listing").read_text().splitlines():
            listed.take(line)
        given = states.input_of(data, project, listed)
        self.assertEqual(given[: 4 + 4 * count], data[: 4 + 4 * count])
        words = list(struct.unpack_from(f"<{(len(given) - 4 - 4 * count) // 4}I", given, 4 + 4 * count))
        return words.pop(0), words, data[4 + 4 * count :]

    def test_the_drivers_order_with_a_load_in_every_turn(self):
        count, words, loads = self.calls("netherbeck")
        codes, taken = [], b""
        while words:
            codes.append(words.pop(0))
            if codes[-1] == states.LOAD:
                size = words.pop(0)
                taken += struct.pack(f"<{size}I", *words[:size])
                del words[:size]
        self.assertEqual((count, codes), (150, [1, 2, 3, 4, 7] * 30))
        self.assertEqual(taken, loads)

    def test_no_load_is_called_where_none_is_left(self):
        count, words, _ = self.calls("coldash")
        self.assertEqual((count, words), (4 * 22, [1, 2, 4, 7] * 22))

    def test_a_refused_load_is_the_last_call(self):
        count, words, loads = self.calls("fernbank")
        size = 1 + 2 * 3
        self.assertEqual(count, 5 + 5 + 3)
        self.assertEqual(words[-4 - size :][:4], [1, 2, states.LOAD, size])
        self.assertEqual(struct.pack(f"<{size}I", *words[-size:]), loads[8 * size : 12 * size])

    def test_lines_that_are_not_the_calls_are_told(self):
        lines = states.Lines([b"patterns ok 00"], network().tables)
        with self.assertRaisesRegex(Failure, "replay answers patterns where start was called"):
            lines.next("start")
        with self.assertRaisesRegex(Failure, "replay answers nothing where start was called"):
            lines.next("start")


class Drawn(unittest.TestCase):
    def drawn(self, *turns, title="A works"):
        timeline = Timeline(network(), state())
        for each in turns:
            timeline.take(each)
        text = picture.drawn(title, timeline)
        return text, xml.dom.minidom.parseString(text)

    def test_how_links_stand_and_what_changes_them(self):
        first = turn(state(), state(3600, lift=OPEN), controlled=state(lift=OPEN))
        second = turn(state(3600, lift=OPEN), state(108_000), closed=state(3600, lift=TEMP_CLOSED))
        text, _ = self.drawn(first, second)
        body = text.partition("</defs>")[2].rpartition('<g transform="translate(16.0 0)">')[0]
        self.assertIn("LIFT", body)
        self.assertNotIn("MAIN", body)
        # LIFT is open for 1 of 30 hours and closed for the rest; GATE is active all through.
        self.assertEqual(body.count('class="open"'), 1)
        self.assertIn(f'class="open" x="170.0" y="294.0" width="{710 / 30:.1f}"', body)
        self.assertIn('class="active" x="170.0" y="314.0" width="710.0"', body)
        self.assertEqual(body.count('class="closed"'), 1)
        self.assertEqual(body.count('<path d="M 166.0'), 1)
        self.assertEqual(body.count('<path class="cross"'), 1)

    def test_limits_levels_of_controls_and_days(self):
        text, _ = self.drawn(turn(state(), state(108_000)))
        for words in ("9.00 full", "1.00 empty", "8.00 control 2", "3.00 control 1", "day 2", "24:00"):
            self.assertIn(f">{words}</text>", text)
        self.assertIn(">30:00:00 from 06:00:00, 1 step</text>", text)

    def test_a_title_may_have_any_letters(self):
        _, document = self.drawn(turn(state(), state(108_000)), title="<Hill & Dale>")
        self.assertEqual(document.getElementsByTagName("title")[0].firstChild.data, "<Hill & Dale>")

    def test_labels_do_not_stand_on_each_other(self):
        self.assertEqual(picture.spread([10.0, 12.0, 60.0]), [10.0, 22.0, 60.0])


if __name__ == "__main__":
    unittest.main()
