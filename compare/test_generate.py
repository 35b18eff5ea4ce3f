"""Checks of generated cases, times to levels, walks, stops and closings: python3 -m unittest discover -s compare"""
import pathlib
import struct
import subprocess
import sys
import types
import unittest

RUST = pathlib.Path(__file__).resolve().parent / "rust"
sys.path.insert(0, str(RUST))
import generate  # noqa: E402
from closing import closed_by_table, groups  # noqa: E402
from image import DAY, LAST_CODE, LONGEST_TIME, MOST_LOADED, SKIP, TEMP_CLOSED  # noqa: E402
from image import Image, Options, Project, Tank  # noqa: E402
from levels import Ask, Question, reach  # noqa: E402
from shrink import shrunk  # noqa: E402
from steps import NEVER, Levels, advance, causes, closing_demand, starting_levels  # noqa: E402
from stops import stops, unforeseen  # noqa: E402
from walk import refusals, walk  # noqa: E402

sys.path.insert(0, str(RUST.parent.parent / "tools"))
import image_text  # noqa: E402

SEEDS = range(1, 9)


def assembled(case):
    return image_text.assemble(generate.text_of(case)).data(counted=True)


class Texts(unittest.TestCase):
    def test_a_drivers_input_comes_back_whole(self):
        for kind in ("driver", "strain", "full"):
            for seed in SEEDS:
                case = generate.CASES[kind](seed)
                self.assertEqual(assembled(case), case.input(), f"{kind} {seed}")

    def test_the_image_of_a_replay_comes_back_and_its_calls_are_comments(self):
        for kind in ("replay", "edge", "hours", "order", "slow", "close"):
            for seed in SEEDS:
                case = generate.CASES[kind](seed)
                words = case.project.words()
                self.assertEqual(assembled(case), struct.pack(f"<{1 + len(words)}I", len(words), *words))
                comments = [line for line in generate.text_of(case).splitlines() if line.startswith("# ")]
                self.assertEqual(len(comments), len(case.calls), f"{kind} {seed}")

    def test_damaged_images_come_back(self):
        for kind, numbers in (("image", SEEDS), ("sweep", range(0, 4242, 101)), ("sweep", range(4230, 4242))):
            for number in numbers:
                case = generate.CASES[kind](number)
                count = len(case.words) if case.count is None else case.count
                data = struct.pack(f"<{1 + len(case.words)}I", count, *case.words)
                self.assertEqual(assembled(case), data, f"{kind} {number}")

    def test_a_refused_one_says_why_in_front(self):
        texts = [generate.text_of(generate.CASES["image"](seed)) for seed in SEEDS]
        self.assertTrue(any(text.startswith("# refused ") for text in texts))

    def test_the_command(self):
        command = [sys.executable, RUST / "generate.py", "--driver", "3"]
        text = subprocess.run([*command, "--text"], capture_output=True, check=True).stdout.decode()
        data = subprocess.run(command, capture_output=True, check=True).stdout
        self.assertEqual(image_text.assemble(text).data(counted=True), data)


class TimesToLevels(unittest.TestCase):
    """Document 02, R-5, in Python alone: coverage.py holds the Rust's answers to the same."""

    def test_the_words_for_document_01s_numbers(self):
        self.assertEqual(list(map(reach, (0, 1, NEVER - 1, NEVER))), ["arrived", "1", str(NEVER - 1), "never"])

    def test_a_question_is_seven_numbers(self):
        case = generate.levels_case(1)
        self.assertEqual(len(case.input()), 4 + 56 * len(case.questions))
        self.assertEqual(struct.unpack("<7d", Ask([Question()]).input()[4:]), (100.0, 0.0, 12.0, 20.0, 110.0, 12.0, 1.0))

    def test_its_text_is_a_line_each(self):
        case = generate.levels_case(1)
        self.assertEqual(len(generate.text_of(case).splitlines()), len(case.questions))

    def test_it_is_shrunk_to_one_question(self):
        asked = generate.levels_case(1)
        wanted = asked.questions[2]
        self.assertEqual(shrunk(asked, lambda case: wanted in case.questions).questions, [wanted])


class SecondClock(unittest.TestCase):
    """Document 02, R-10, in Python alone: coverage.py holds the Rust's answers to the same walk."""

    def test_it_walks_as_far_as_the_drivers_step(self):
        projects = [case.project for case in map(generate.slow_case, range(1, 61)) if not refusals(case.project)]
        self.assertGreater(len(projects), 30)
        for project in projects:
            for start in (0, 1, DAY - 1, project.options.duration - 1, project.options.duration):
                if 0 <= start <= project.options.duration:
                    step = min(causes(project, Levels(start, [], [])).values())
                    self.assertEqual(walk(project, start)[0], step, f"from {start}: {project}")

    def test_it_refuses_tanks_the_fast_path_and_three_timesteps_above_a_day(self):
        above = DAY + 1
        for reasons, project in (
            ([], Project(Options(hydraulic=DAY, report=above, pattern=above))),
            ([], Project(Options(hydraulic=above, report=DAY, pattern=above))),
            ([], Project(Options(hydraulic=above, report=above, pattern=DAY))),
            ([], Project(Options(hydraulic=0, report=LONGEST_TIME, pattern=LONGEST_TIME))),
            (["timesteps"], Project(Options(hydraulic=above, report=above, pattern=above))),
            (["fast path"], Project(Options(flags=SKIP))),
            (["tank"], Project(Options(flags=SKIP), nodes=[Tank()])),
        ):
            self.assertEqual(refusals(project), reasons, project)


class Stops(unittest.TestCase):
    """Document 02, R-14, in Python alone: coverage.py holds the Rust's instants to the same set."""

    def test_a_run_by_steps_visits_them_and_no_others(self):
        cases = [case for case in map(generate.stops_case, range(1, 121)) if not isinstance(case, Image)]
        projects = [case.project for case in cases if not unforeseen(case.project)]
        self.assertGreater(len(projects), 50)
        for project in projects:
            levels, visited = starting_levels(project), []
            while levels.instant < project.options.duration:
                advance(project, levels)
                visited.append(levels.instant)
            self.assertEqual(visited, list(stops(project)), project)

    def test_which_works_are_not_foreseen_and_why(self):
        above = DAY + 1
        for reasons, project in (
            ([], Project(Options(hydraulic=600, report=600, pattern=900))),
            ([], Project(Options(hydraulic=600, report=900, pattern=600))),
            ([], Project(Options(hydraulic=0, report=3600, pattern=LONGEST_TIME))),
            ([], Project(Options(hydraulic=above, report=above, pattern=DAY))),
            (["hydraulic"], Project(Options(hydraulic=599, report=600, pattern=900))),
            (["hydraulic"], Project(Options(hydraulic=0, report=3601, pattern=3601))),
            (["day"], Project(Options(hydraulic=above, report=above, pattern=above))),
            (["fast path"], Project(Options(flags=SKIP))),
            (["tank"], Project(Options(flags=SKIP), nodes=[Tank()])),
        ):
            self.assertEqual(unforeseen(project), reasons, project)


class ClosingByTheTable(unittest.TestCase):
    """Document 02, R-8, in Python alone: coverage.py holds the Rust's closing to the same."""

    def setUp(self):
        self.cases = [generate.close_case(seed) for seed in range(1, 61)]

    def test_a_group_has_exactly_the_links_at_its_tank_those_into_it_first(self):
        for project in (case.project for case in self.cases):
            found = groups(project)
            self.assertEqual([group.tank for group in found], project.tanks())
            for group in found:
                into = [number for number, link in enumerate(project.links) if link.end == group.tank]
                out = [number for number, link in enumerate(project.links) if link.start == group.tank]
                self.assertEqual(group.links, [(link, True) for link in into] + [(link, False) for link in out])

    def test_it_leaves_what_a_walk_over_every_link_for_every_tank_leaves(self):
        closed = 0
        for case in self.cases:
            for state in loaded_states(case):
                right = walked(case.project, state)
                closed += state.statuses != right[1]
                self.assertEqual(closed_by_table(case.project, state), right, generate.text_of(case))
        self.assertGreater(closed, 30)

    def test_lists_have_both_closings_and_few_are_refused(self):
        codes = [{call.code for call in case.calls} for case in map(generate.close_case, range(1, 201))]
        self.assertGreater(sum({4, 9} <= found for found in codes), 50)
        refused = sum(not found <= set(range(1, LAST_CODE + 1)) for found in codes)
        self.assertTrue(3 < refused < 30, refused)


def loaded_states(case):
    """The start of a case with the flows of each of its loads that is not spoilt."""
    levels, statuses = starting_levels(case.project), [link.status for link in case.project.links]
    for flows in (call.load.flows for call in case.calls if call.load):
        if all(isinstance(flow, float) and abs(flow) <= MOST_LOADED for flow in flows):
            yield types.SimpleNamespace(heads=levels.heads, demands=levels.demands, flows=flows, statuses=statuses)


def walked(project, state):
    """Demands and statuses after closing, every tank asking every link."""
    demands, statuses = list(state.demands), list(state.statuses)
    for tank in project.tanks():
        node, head = project.nodes[tank], state.heads[tank]
        demands[tank] = closing_demand(project, tank, state.flows)
        full = head >= node.elevation + node.greatest and not node.overflow
        empty = head <= node.elevation + node.least
        for number, (link, flow) in enumerate(zip(project.links, state.flows)):
            inflow = {link.end: flow, link.start: -flow}.get(tank, 0.0)
            if (full and inflow > 0.0) or (empty and inflow < 0.0):
                statuses[number] = TEMP_CLOSED
    return demands, statuses


if __name__ == "__main__":
    unittest.main()
