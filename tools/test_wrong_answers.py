"""Checks of the wrong answers and of the tool that judges them: python3 -m unittest discover -s tools"""
import contextlib
import io
import pathlib
import tempfile
import unittest
from unittest import mock

import wrong_answers
from wrong_answers import faults, judged, together, tried

ROOT = pathlib.Path(__file__).resolve().parent.parent

SOURCE = """pub fn depth(level: f64) -> f64
    ensures { result ≡ depth_of level }
{
    if level < 0.0 {
        return 0.0;
    }
    level
}

pub fn area(width: f64) -> f64
    ensures value { result ≡ area_of width }
{
    width * width
}
"""
SPECS = """-- a depth is never below 0
unfoldable pub depth_of : Float → Float
depth_of x = cond (lt x zero) zero x

-- square
abbrev pub square : Float → Float
square x = x · x

unfoldable pub area_of : Float → Float
area_of x = square x
"""
DEPTH = ("wrong: depth_at_zero", "refused: depth", "file: src/lib.rt", "old: level < 0.0", "new: level > 0.0")
AREA = ("wrong: area_doubled", "refused: area", "file: src/lib.rt", "old: width * width", "new: width + width")
SQUARE = ("wrong: square_of_zero", "refused: area", "file: specs/Shapes.antt", "old: square x = x · x", "new: square x = x")


class Folder(unittest.TestCase):
    def setUp(self):
        folder = tempfile.TemporaryDirectory()
        self.addCleanup(folder.cleanup)
        self.root = pathlib.Path(folder.name)
        self.crate = self.root / "crates" / "shapes"
        self.write("src/lib.rt", SOURCE)
        self.write("specs/Shapes.antt", SPECS)

    def write(self, name, text):
        path = self.crate / name
        path.parent.mkdir(parents=True, exist_ok=True)
        path.write_text(text)
        return path

    def edit(self, *answers):
        return together(self.write("must-fail/first.edit", "\n\n".join("\n".join(lines) for lines in answers) + "\n"))

    def said(self, *words, log=""):
        """The status and the words of the command, where the check of an edit says this."""
        asked = []

        def check(crate, answers):
            asked.append((crate.name, [answer.label for answer in answers]))
            return log

        with contextlib.redirect_stdout(io.StringIO()) as said, contextlib.redirect_stderr(io.StringIO()):
            status = wrong_answers.main(self.root, words, check)
        self.asked = asked
        return status, said.getvalue()


class Form(Folder):
    """What wrong answers of one edit have to keep to."""

    def found(self, *answers):
        return list(faults(self.crate, self.edit(*answers)))

    def test_of_two_functions(self):
        self.assertEqual([answer.label for answer in self.edit(DEPTH, AREA)], ["depth_at_zero", "area_doubled"])
        self.assertEqual(self.found(DEPTH, AREA), [])

    def test_of_a_function_and_another_ones_definition(self):
        self.assertEqual(self.found(DEPTH, SQUARE), [])

    def test_an_edit_of_one_is_left_to_rt(self):
        self.assertEqual(self.edit(AREA[2:]), [])

    def test_one_function_twice(self):
        twice = ("wrong: area_halved", *AREA[1:4], "new: width / width")
        self.assertIn("area_halved: area is to be refused for another one too", self.found(AREA, twice))

    def test_a_definition_that_the_contract_of_another_comes_to(self):
        elsewhere = (SQUARE[0], "refused: depth", *SQUARE[2:])
        self.assertEqual(self.found(AREA, elsewhere), ["square_of_zero: it bears on area, which is to be refused for another one"])

    def test_a_definition_that_what_another_calls_comes_to(self):
        self.write("src/lib.rt", SOURCE.replace("    level\n", "    area(level) / level\n"))
        self.assertEqual(self.found(DEPTH, SQUARE), ["square_of_zero: it bears on depth, which is to be refused for another one"])

    def test_a_change_outside_every_definition(self):
        outside = (*SQUARE[:3], "old: -- a depth is never below 0", "new: -- a depth")
        self.assertEqual(self.found(DEPTH, outside), ["square_of_zero: it changes no definition"])

    def test_a_change_of_a_function_that_is_not_named(self):
        self.assertEqual(self.found((*AREA[:1], "refused: depth", *AREA[2:])), ["area_doubled: it changes no function that it names"])

    def test_a_change_of_a_contract(self):
        contract = (*AREA[:3], "old: area_of width", "new: depth_of width")
        self.assertEqual(self.found(DEPTH, contract), [])
        self.write("src/lib.rt", SOURCE.replace("    level\n", "    area(level) / level\n"))
        self.assertEqual(self.found(DEPTH, contract), ["area_doubled: it changes the contract of a function that depth calls"])

    def test_no_function(self):
        self.assertIn("area_doubled: it names no function, or changes nothing", self.found(AREA[:1] + AREA[2:]))
        self.assertIn("square_of_zero: volume is no function of the crate", self.found((SQUARE[0], "refused: volume", *SQUARE[2:])))

    def test_a_text_that_is_gone_or_stands_twice(self):
        for old in ("width * height", "level"):
            self.assertIn("area_doubled: its old text does not stand once in src/lib.rt", self.found((*AREA[:3], f"old: {old}", AREA[4])))


class Judged(Folder):
    """By what the prover says of a check."""

    OWN = "/r/proofs/depth/Answers.antt:6:13: error: `returns`: the two types differ\nfn shapes::depth: not proved\n"
    BARE = "fn shapes::area: no proof: expected answers in /r/proofs/area/Answers.antt; `search` did not prove `returns`\n"

    def found(self, text, *answers):
        return list(judged(self.edit(*answers), text))

    def test_both_refused(self):
        self.assertEqual(self.found(self.OWN + self.BARE, DEPTH, AREA), [])

    def test_one_accepted_behind_another(self):
        self.assertEqual(self.found(self.OWN + "fn shapes::area: proved\n", DEPTH, AREA), ["area_doubled is accepted by area"])

    def test_refused_for_what_it_calls_alone(self):
        because = "it calls `shapes::depth`, which is not proved"
        for said in (f"not proved; {because}", f"no proof: expected answers in /r/proofs/area/Answers.antt; {because}",
                     f"no proof: {because}", "no proof: it calls `shapes::depth` and `shapes::width`, which are not proved"):
            called = f"fn shapes::area: {said}\n"
            for answer in (AREA, SQUARE):
                self.assertEqual(self.found(self.OWN + called, DEPTH, answer), [f"{answer[0][7:]} is accepted by area"])
            self.assertEqual(self.found(self.OWN + called, DEPTH), [])

    def test_refused_for_its_own_code_and_for_what_it_calls(self):
        error = "/r/proofs/area/Answers.antt:7:2: error: `returns`: the two types differ\n"
        called = "fn shapes::area: not proved; it calls `shapes::depth`, which is not proved\n"
        self.assertEqual(self.found(self.OWN + error + called, DEPTH, AREA), [])

    def test_code_that_is_refused_only_because_a_law_is(self):
        for said in ("`area`: `law` was not admitted, so this cannot be checked",
                     "1 declaration that depends on `law`, which was rejected, was not checked: returns"):
            law = f"/r/proofs/area/Answers.antt:9:5: error: {said}\nfn shapes::area: not proved\n"
            self.assertEqual(self.found(self.OWN + law, DEPTH, AREA), ["area_doubled is accepted by area"])
            self.assertEqual(self.found(self.OWN + law, DEPTH, SQUARE), [])

    def test_a_function_that_none_names(self):
        self.assertEqual(self.found(self.OWN + self.BARE, DEPTH), ["area is refused, and none of its wrong answers names it"])

    def test_the_command(self):
        self.edit(DEPTH, AREA)
        untried = (1, "shapes/first: it was not tried as it stands; tools/wrong_answers.py try shapes does that\n")
        self.assertEqual(self.said(), untried)
        self.assertEqual(self.said("try", log=self.OWN), (1, "shapes/first: area_doubled is accepted by area\n"))
        self.assertEqual(self.said(), untried)
        self.assertEqual(self.said("try", "shapes", log=self.OWN + self.BARE), (0, ""))
        self.assertEqual(self.asked, [("shapes", ["depth_at_zero", "area_doubled"])])
        self.assertEqual(self.said(), (0, ""))
        self.assertEqual(self.said("try", log=self.OWN), (0, ""))
        self.assertEqual(self.asked, [])

    def test_what_has_changed_is_tried_again(self):
        changes = (("src/lib.rt", SOURCE + "\n"), ("specs/Shapes.antt", SPECS + "\n"), ("proofs/area/Answers.antt", "x\n"))
        edit = self.crate / "must-fail" / "first.edit"
        self.edit(DEPTH, AREA)
        for path, text in (*changes, ("must-fail/first.edit", edit.read_text() + "\n")):
            self.assertEqual(self.said("try", log=self.OWN + self.BARE), (0, ""))
            self.write(path, text)
            self.assertEqual(self.said()[0], 1, path)

    def test_a_check_that_refuses_nothing_is_not_noted(self):
        self.edit(DEPTH, AREA)
        for log in ("rt: the library sum did not build, so nothing above it was checked\n", "fn shapes::area: proved\n"):
            self.assertEqual(self.said("try", log=log)[0], 1)
            self.assertEqual(self.said()[0], 1)

    def test_a_check_is_of_the_wrong_answers_and_puts_them_back(self):
        answers, seen = self.edit(DEPTH, AREA), []
        with mock.patch("subprocess.run", lambda *_, cwd, **__: seen.append((cwd / "src/lib.rt").read_text()) or mock.Mock()):
            wrong_answers.checked(self.crate, answers)
        self.assertEqual(seen, [SOURCE.replace("level < 0.0", "level > 0.0").replace("width * width", "width + width")])
        self.assertEqual((self.crate / "src/lib.rt").read_text(), SOURCE)


class Repository(unittest.TestCase):
    """The wrong answers of the crates."""

    def test_those_of_one_edit_can_be_told_apart(self):
        several = [edit for edit in sorted(ROOT.glob("crates/*/must-fail/*.edit")) if together(edit)]
        self.assertTrue(several)
        for edit in several:
            self.assertEqual(list(faults(edit.parent.parent, together(edit))), [], edit)

    def test_every_one_has_a_name_and_a_rule(self):
        for folder in sorted(ROOT.glob("crates/*/must-fail")):
            names = tried(folder.parent, "*")
            self.assertEqual(sorted(names), sorted(set(names)), folder)
            for edit in folder.glob("*.edit"):
                lines = edit.read_text().splitlines()
                for line, following in zip(lines, lines[1:]):
                    if line.startswith("wrong:"):
                        self.assertRegex(following, "^# .", edit)
                self.assertTrue(together(edit) or lines[0].startswith("# "), edit)


if __name__ == "__main__":
    unittest.main()
