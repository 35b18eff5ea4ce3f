"""Tests of the repository as a whole: python3 -m unittest, or ./test for these and more.

With no more words `python3 -m unittest` finds this file and the package reader; the suites of the other folders, which
are no packages, are found from here.
"""

import pathlib
import re
import subprocess
import sys
import tempfile
import unittest

sys.dont_write_bytecode = True

ROOT = pathlib.Path(__file__).resolve().parent
FOLDERS = ["tools", "stock", "compare"]
CRATES = ROOT / "crates"
for place in ("compare", "compare/rust", "stock", "tools"):
    sys.path.append(str(ROOT / place))

import driver_cases  # noqa: E402
import image_text  # noqa: E402
import images  # noqa: E402
import levels_asked  # noqa: E402
import planes  # noqa: E402
import stops_asked  # noqa: E402
import timetable_cases  # noqa: E402
import vectors  # noqa: E402
import works  # noqa: E402
import wrong_answers  # noqa: E402


def load_tests(loader, own, pattern):
    """The tests of this file, and those of the folders."""
    for folder in FOLDERS:
        found = unittest.TestLoader().discover(str(ROOT / folder), pattern or "test*.py")
        if not found.countTestCases():
            raise SystemExit(f"there are no tests in {folder}")
        own.addTests(found)
    return own


class Suites(unittest.TestCase):
    def test_none_is_left_out(self):
        found = {path.parent for path in ROOT.glob("*/**/test_*.py") if "target" not in path.parts}
        self.assertEqual(found, {ROOT / folder for folder in [*FOLDERS, "reader"]})


def files(folder):
    return {path.name: path.read_bytes() for path in folder.iterdir()}


class StoredCases(unittest.TestCase):
    """The stored cases of the crates are what their generators make, as far as that needs no Rust."""

    def test_image_cases(self):
        with tempfile.TemporaryDirectory() as folder:
            images.write(folder)
            made = files(pathlib.Path(folder))
        numbers = [line.split()[0] for line in made.pop("expected").decode().splitlines()]
        self.assertEqual(files(CRATES / "image_cases" / "data"), made)
        stdout = (CRATES / "image_cases" / "stdout").read_text()
        self.assertEqual(stdout, "\n".join(numbers + [f"{len(numbers)} images", ""]))

    def test_handed_in(self):
        with tempfile.TemporaryDirectory() as folder:
            command = [sys.executable, ROOT / "compare" / "handed_in.py", "--out", folder]
            subprocess.run(command, check=True, capture_output=True)
            for name, content in files(pathlib.Path(folder)).items():
                self.assertEqual((CRATES / "handed_in" / name).read_bytes(), content, name)

    def test_planes_cases(self):
        made = planes.script()
        self.assertEqual((CRATES / "planes_cases" / "stdin").read_bytes(), made.program_input())
        self.assertEqual((CRATES / "planes_cases" / "stdout").read_text(), made.expected_output())

    def test_driver_cases(self):
        """The inputs; the answers are the Rust's, but those to the stock stand there as its listings too."""
        inputs = driver_cases.inputs()
        made = {f"case{number:03}": given for number, given in enumerate(inputs)}
        self.assertEqual(files(CRATES / "driver_cases" / "data"), made)
        stdout = (CRATES / "driver_cases" / "stdout").read_text()
        for image in (ROOT / "stock").glob("*.image"):
            name = next(name for name, given in made.items() if given == image.read_bytes())
            self.assertIn(f"{name}\n{image.with_suffix('.listing').read_text()}", stdout)

    def test_timetable_cases(self):
        """The inputs; the answers are the Rust's, and document 02's rules give the same in Python."""
        made = {f"case{number:03}": given for number, given in enumerate(timetable_cases.inputs())}
        self.assertEqual(files(CRATES / "timetable_cases" / "data"), made)
        answers = zip(made, timetable_cases.right_answers(), strict=True)
        expected = "".join(f"{name}\n{answer}" for name, answer in answers) + f"{len(made)} cases\n"
        self.assertEqual((CRATES / "timetable_cases" / "stdout").read_text(), expected)

    def test_timetable(self):
        """The works coldash, which stops where its listing's steps end."""
        self.assertEqual((CRATES / "timetable" / "stdin").read_bytes(), (ROOT / "stock" / "coldash.image").read_bytes())
        expected = timetable_cases.answer_of_stock(ROOT / "stock" / "coldash.image")
        self.assertEqual((CRATES / "timetable" / "stdout").read_text(), expected)

    def test_stops_asked(self):
        given, expected = stops_asked.made()
        self.assertEqual((CRATES / "stops_asked" / "stdin").read_bytes(), given)
        self.assertEqual((CRATES / "stops_asked" / "stdout").read_text(), expected)

    def test_levels_asked(self):
        """The input; the answers are the Rust's, and document 01's rules give the same in Python."""
        self.assertEqual((CRATES / "levels_asked" / "stdin").read_bytes(), levels_asked.asked().input())
        levels_asked.check((CRATES / "levels_asked" / "stdout").read_text())

    def test_replay_cases_of_the_stock(self):
        """Works walked by the second clock stand one behind the other; the answers are their listings' lengths, or 14."""
        made, folder = vectors.stock(), CRATES / "replay_cases"
        inputs = [path.read_bytes() for path in sorted((folder / "data").iterdir())]
        walked = slice(inputs.index(made[0]), inputs.index(made[-1]) + 1)
        self.assertEqual(inputs[walked], made)
        answers = re.split(r"^case\d+\n", (folder / "stdout").read_text(), flags=re.M)[1:]
        vectors.check_stock([answer.encode() for answer in answers[walked]])


class Sources(unittest.TestCase):
    """What a request asks of the source and no proof can tell."""

    def test_comparisons_in_the_manuals_order(self):
        """R-6: the contract of `compare_f64` holds in any order of its arms."""
        body = (CRATES / "number" / "src" / "compare.rt").read_text().partition("pub fn compare_f64")[2]
        asked = re.findall(r"ComparisonOperator::(\w+) =>", body)
        self.assertEqual(asked, ["Eq", "Ne", "Lt", "Gt", "Le", "Ge"])

    def test_the_second_clock_shares_no_arithmetic(self):
        """R-10: of other crates it has types, what reads the tables, and the judgement; no function works out a step."""
        sources = [path.read_text() for path in sorted((CRATES / "second_clock" / "src").glob("*.rt"))]
        code = re.sub(r"^ghost .*|//.*", "", "\n".join(sources), flags=re.M)
        uses = re.findall(r"^(?:pub )?use ([\w:]+?)(?:::\{([\w\s,*]+)\}|(::\*)?);", code, re.M)
        self.assertEqual(len(uses), len(re.findall(r"\buse\b", code)))
        named = {f"{path}::{name}" for path, names, _ in uses for name in re.findall(r"[\w*]+", names)}
        named |= {path + star for path, names, star in uses if not names}
        named = {name for name in named if not name.startswith(("crate::", "step::"))}
        types = {"calls::StepCalled", "clock::Clock", "clock::Times", "model::*"}
        reading = {"awaited::awaited_by", "judge::in_order", "simulation::no_tanks", "simulation::times_of"}
        self.assertEqual(named - types, reading)
        # Nothing else by its path, and no method: those of Clock and Times are the driver's arithmetic.
        self.assertEqual(re.findall(r"\b[a-z_]+::[a-z_]+\(", code), [])
        self.assertEqual(re.findall(r"\.\w+\(", code), [])


class Documents(unittest.TestCase):
    """What the documents name is there."""

    def setUp(self):
        paths = [ROOT / "README.md", *sorted((ROOT / "docs").glob("*.md"))]
        self.texts = {path.name: path.read_text() for path in paths if path.name != "NOTES.md"}

    def test_crates(self):
        listed = re.findall(r"^(\w+):", (ROOT / "crates.txt").read_text(), re.M)
        self.assertEqual(sorted(listed), sorted(path.name for path in CRATES.iterdir()))
        for name in listed:
            self.assertIn(f"`{name}`", self.texts["README.md"])

    def test_files_of_crates(self):
        for document, text in self.texts.items():
            for crate, rest in re.findall(r"`(?:crates/)?(\w+)/((?:src|specs|proofs|must-fail)[\w./*-]*)`", text):
                if (CRATES / crate).is_dir():
                    place = CRATES / crate / rest
                    found = [name for end in ("", ".antt") for name in place.parent.glob(place.name + end)]
                    self.assertTrue(found or wrong_answers.tried(CRATES / crate, place.name), f"{document}: {crate}/{rest}")

    def test_definitions(self):
        """Behind `CRATE/specs/FILE`: stand names of that file."""
        for document, text in self.texts.items():
            for crate, file, names in re.findall(r"`(\w+)/specs/(\w+)(?:\.antt)?`: (`\w+`(?:, `\w+`)*)", text):
                defined = (CRATES / crate / "specs" / f"{file}.antt").read_text()
                for name in re.findall(r"\w+", names):
                    self.assertRegex(defined, rf"\b{name}\b", f"{document}: {crate}/specs/{file}")

    def test_wrong_answers(self):
        """Every label of the table of wrong answers is one of its crate."""
        table = self.texts["PROMISES.md"].partition("| Crate | Function: wrong answers |")[2]
        rows = re.findall(r"^\| (.*) \| (.*) \|$", table, re.M)
        self.assertTrue(rows)
        for row in rows:
            labels = re.findall(r"(?<![`\w])[a-z0-9]+_[a-z0-9_]*\*?", re.sub(r"`[^`]*`", "", row[1]))
            crates = [name for name in re.findall(r"`(\w+)`", row[0])]
            for label in labels:
                found = [path for name in crates for path in wrong_answers.tried(CRATES / name, label)]
                self.assertTrue(found, f"{crates}: {label}")

    def test_links(self):
        for document, text in self.texts.items():
            home = ROOT if document == "README.md" else ROOT / "docs"
            for target in re.findall(r"\]\(([^)#]+)", text):
                self.assertTrue((home / target).exists(), f"{document}: {target}")

    def test_inputs_of_differences(self):
        """Each is a text that assembles; a run begins as its row says, worked out in Python from document 01."""
        text = self.texts["DIFFERENCES.md"].partition("## The inputs")[2]
        inputs = dict(re.findall(r"^\*\*(.+?)\*\*\n\n```\n(.*?)```", text, re.M | re.S))
        begins = {name: DIFFERENCES.get(name) for name in inputs}
        self.assertEqual(set(DIFFERENCES) - set(inputs), set())
        for name, begin in begins.items():
            data = image_text.assemble(inputs[name]).data(counted=True)
            if begin is not None:
                self.assertEqual(works.run_of(data).listing().splitlines()[: len(begin)], begin, name)


# How the runs of docs/DIFFERENCES.md begin; the other inputs end in calls for `replay`.
DIFFERENCES = {
    "1": ["from length", "0 7200"],
    "2": ["from length", "0 3600"],
    "3": ["from length", "0 10000"],
    "4, two tanks": ["from length", "0 10000"],
    "4, one tank": ["from length", "0 6", "6 9994"],
    "5": ["from length", "0 200000"],
    "7": ["from length", "0 314"],
    "8": ["from length", "0 314"],
    "15": ["from length", "0 3600", "3600 3600"],
    "16": ["from length", "0 3600"],
    "21, empty pattern": ["refused 2"],
    "21, timestep 0": ["refused 5"],
}


if __name__ == "__main__":
    unittest.main()
