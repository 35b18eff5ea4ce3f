"""Tests of the stock: python3 -m unittest discover -s stock"""

import re
import sys
import unittest

sys.dont_write_bytecode = True

import flows  # noqa: E402
import make  # noqa: E402
import stops  # noqa: E402
import walk  # noqa: E402
import works  # noqa: E402
from works import FOLDER, Junction, image_decode, steps  # noqa: E402

REFUSED = {"fernbank": "refused 8", "blank": "refused 5"}


def input_of(item):
    """The words of the image, and those of the loads."""
    (count, *words), _ = works.image_show.split_words(item.path("image").read_bytes())
    return words[:count], words[count:]


def load_size(project):
    return 1 + 2 * (len(project.links) + len(project.junctions()))


class Files(unittest.TestCase):
    def test_an_image_is_its_text_and_loads(self):
        for item in make.STOCK:
            text = item.path("txt").read_text()
            if item.loads:
                text += item.path("loads").read_text()
            self.assertEqual(works.image_text.assemble(text).data(counted=True), item.path("image").read_bytes(), item)

    def test_a_listing_is_the_run_worked_out_again(self):
        for item in make.STOCK:
            run = works.run_of(item.path("image").read_bytes())
            self.assertEqual(run.listing(), item.path("listing").read_text(), item)

    def test_only_two_are_refused(self):
        for item in make.STOCK:
            last = item.path("listing").read_text().splitlines()[-1]
            self.assertEqual(last.startswith("refused"), item.name in REFUSED, item)
            self.assertEqual(last, REFUSED.get(item.name, last), item)

    def test_a_load_for_every_step_where_it_is_said(self):
        for item in make.STOCK:
            if item.loads == make.EVERY_STEP:
                words, loads = input_of(item)
                taken = len(loads) // load_size(works.project_of(words))
                self.assertEqual(item.path("listing").read_text().splitlines()[-1], f"steps {taken}", item)

    def test_the_largest_has_the_most_of_each(self):
        item = next(item for item in make.STOCK if item.name == "thornmoor")
        told = image_decode.decode(input_of(item)[0])
        counts = [len(table) for table in (told.patterns, told.nodes, told.links, told.controls, told.premises)]
        self.assertEqual(counts, [32, 256, 384, 64, 128])

    def test_nothing_else_lies_there(self):
        known = {item.name for item in make.STOCK}
        for path in FOLDER.iterdir():
            if path.suffix in (".txt", ".loads", ".image", ".listing"):
                self.assertIn(path.stem, known)

    def test_the_table_of_the_readme(self):
        text = (FOLDER / "README.md").read_text()
        for item in make.STOCK:
            row = re.search(rf"^\| `{item.name}` \|.*\| ([\d,]+) \|$", text, re.MULTILINE)
            run = works.run_of(item.path("image").read_bytes())
            self.assertEqual(int(row[1].replace(",", "")), len(run.steps), item)


def accepted():
    """The works whose image is accepted, each with its project."""
    for item in make.STOCK:
        told = image_decode.decode(input_of(item)[0])
        if not told.fault:
            yield item, works.project_told(told)


class SecondClock(unittest.TestCase):
    """Document 02, R-10: the works that the clock counting seconds serves, walked in Python, against their listings."""

    @staticmethod
    def served():
        return ((item, project) for item, project in accepted() if not walk.refusals(project))

    def test_it_serves_the_two_without_tanks_and_off_the_fast_path(self):
        self.assertEqual([item.name for item, _ in self.served()], ["coldash", "yarrowford"])

    def test_a_walk_by_seconds_gives_the_listing(self):
        for item, project in self.served():
            lines, instant = ["from length"], 0
            while instant < project.options.duration:
                length, _ = walk.walk(project, instant)
                lines.append(f"{instant} {length}")
                instant += length
            lines.append(f"steps {len(lines) - 1}")
            self.assertEqual("\n".join(lines) + "\n", item.path("listing").read_text(), item)

    def test_every_cause_stops_yarrowford_alone(self):
        project = next(project for item, project in self.served() if item.name == "yarrowford")
        instant, alone = 0, set()
        while instant < project.options.duration:
            length, causes = walk.walk(project, instant)
            alone |= set(causes) if len(causes) == 1 else set()
            instant += length
        self.assertEqual(alone, set(walk.STOPS))


class Stops(unittest.TestCase):
    """Document 02, R-14: the works whose stops are known beforehand, by its rules, against their listings."""

    @staticmethod
    def foreseen():
        return [(item, project) for item, project in accepted() if not stops.unforeseen(project)]

    def test_only_one_is_foreseen_and_why_the_others_are_not(self):
        reasons = {item.name: stops.unforeseen(project) for item, project in accepted()}
        self.assertEqual(reasons.pop("coldash"), [])
        self.assertEqual(reasons.pop("yarrowford"), ["hydraulic"])
        self.assertEqual(reasons.pop("hazelcombe"), ["fast path"])
        self.assertTrue(all("tank" in found for found in reasons.values()), reasons)

    def test_the_rules_give_the_instants_of_the_listing(self):
        self.assertTrue(self.foreseen())
        for item, project in self.foreseen():
            lines = item.path("listing").read_text().splitlines()[1:-1]
            ends = [sum(map(int, line.split())) for line in lines]
            self.assertEqual(list(stops.stops(project)), ends, item)

    def test_every_cause_sets_an_instant_of_coldash(self):
        project = next(project for item, project in self.foreseen() if item.name == "coldash")
        found = stops.stops(project).values()
        alone = {causes[0] for causes in found if len(causes) == 1}
        self.assertEqual(alone, set(stops.CAUSES))
        self.assertTrue(any(len(causes) > 1 for causes in found))


class Flows(unittest.TestCase):
    def test_every_junction_gets_what_it_draws(self):
        """In ravensdale's first load, before any tank is full or empty and any part cut off."""
        item = next(item for item in make.STOCK if item.name == "ravensdale")
        words, loads = input_of(item)
        project = works.project_of(words)
        load = works.load_of(project, loads[: load_size(project)])
        for index, node in enumerate(project.nodes):
            if isinstance(node, Junction):
                inflow = steps.closing_demand(project, index, load.flows)
                self.assertAlmostEqual(inflow, steps.junction_demand(project, node, 0), delta=5e-4, msg=str(index))

    def test_water_runs_downhill(self):
        item = next(item for item in make.STOCK if item.name == "netherbeck")
        words, loads = input_of(item)
        project = works.project_of(words)
        load = works.load_of(project, loads[: load_size(project)])
        heads = dict(zip(project.junctions(), load.heads))
        for link, flow in zip(project.links, load.flows):
            if link.start in heads and link.end in heads:
                self.assertGreaterEqual(flow * (heads[link.start] - heads[link.end]), 0.0)

    def test_no_minus_zero(self):
        self.assertEqual(str(flows.rounded(-0.00001)), "0.0")


if __name__ == "__main__":
    unittest.main()
