"""Checks of the image tool: python3 -m unittest discover -s tools"""
import contextlib
import pathlib
import random
import re
import struct
import subprocess
import sys
import tempfile
import unittest

import image_decode
import image_format
import image_show
import image_text
from image_format import FORMS, Cases, Field, Flags, Form, IndexOrNone, Names, Present, Runs, TextError, Tokens, Word

TOOL = pathlib.Path(__file__).resolve().parent / "image"
sys.path.insert(0, str(TOOL.parent.parent / "compare"))
import images  # noqa: E402

ROWS = images.rows()

EXAMPLE = """
# The driver's example: tank T alone.
options duration=10000 hydraulic=5000 report=2:00:00 pattern_timestep=1:00:00
tank T elevation=100.0 initial=10.0 least=0.0 greatest=12.0 diameter=20.0
"""

NETWORK = """
options duration=10000 hydraulic=5000 report=7200 pattern_timestep=3600 default_pattern=NIGHT
pattern DAY 1.0 0.5
pattern NIGHT 0.25
reservoir R elevation=150.0 pattern=DAY
tank T elevation=100.0 initial=10.0 least=0.0 greatest=12.0 diameter=20.0 flags=overflow
junction J elevation=50.0 demand=1.5 pattern=DAY demand=0.5
junction K elevation=50.0 flags=disabled
pipe P start=R end=T diameter=1.0
pump U start=R end=J status=Closed initial_flow=2.5 setting=1.0
"""


def words_of(text):
    return image_text.assemble(text).image_words()


def packed(words):
    return struct.pack(f"<{len(words)}I", *words)


def raw(text):
    """Whether a line of a shown text is no record by its form."""
    return text.split()[0] in ("raw", "words")


class Assembling(unittest.TestCase):
    def test_the_drivers_example(self):
        self.assertEqual(
            words_of(EXAMPLE),
            [0x1000000A, 10000, 5000, 7200, 3600, 0, 0, 0, 0, 0, 0x3FF00000]
            + [0x4000000B, 0, 0x40590000, 0, 0x40240000, 0, 0, 0, 0x40280000, 0, 0x40340000, 0],
        )

    def test_the_count_stands_in_front(self):
        assembly = image_text.assemble(EXAMPLE)
        self.assertEqual(assembly.data(counted=True), packed([23]) + assembly.data(counted=False))

    def test_names_are_indices(self):
        words = words_of(NETWORK)
        self.assertEqual(words[8], 2)  # the default pattern, declared later: index 1, and 1 more
        pipe, pump = words[-18:-9], words[-9:]
        self.assertEqual(pipe, [0x60000008, 0, 1, 0, 3, 0, 0x3FF00000, 0, 0])
        self.assertEqual(pump, [0x60000008, 0, 2, 1, 2, 0, 0x40040000, 0, 0x3FF00000])

    def test_bare_indices_and_codes(self):
        named = words_of(NETWORK + "control high_level node=T target=1.0 link=U status=Closed")
        bare = words_of(NETWORK + "control 2 node=1 target=1.0 link=1 status=2")
        self.assertEqual(named, bare)

    def test_raw_records_count_as_entries(self):
        tank = "tank T elevation=0 initial=0 least=0 greatest=0 diameter=1"
        words = words_of(f"raw 3 0 0 0\n{tank}\npipe start=0 end=T diameter=1.0")
        self.assertEqual(words[-8:-6], [0, 1])

    def test_numbers(self):
        cases = {
            "0.1": 0x3FB999999999999A,
            "-0.0": 0x8000000000000000,
            "1e3": 0x408F400000000000,
            "5e-324": 1,
            "inf": 0x7FF0000000000000,
            "-inf": 0xFFF0000000000000,
            "nan": 0x7FF8000000000000,
            "0x7ff0000000000001": 0x7FF0000000000001,
            "0x1": 1,
        }
        for text, bits in cases.items():
            self.assertEqual(words_of(f"pattern {text}"), [0x20000002, bits & 0xFFFFFFFF, bits >> 32], text)

    def test_premises(self):
        cases = {
            "or node.demand J = number 1.0": [0, 0, 2, 0, 0, 0, 0x3FF00000],
            "and node.pressure R <> number 1.0": [1, 2, 0, 1, 0, 0, 0x3FF00000],
            "and tank.level T > number 1.0": [1, 3, 1, 2, 0, 0, 0x3FF00000],
            "and tank.drain_time T < time 60": [1, 5, 1, 3, 2, 60, 0],
            "and link.flow U >= number 1.0": [1, 6, 1, 4, 0, 0, 0x3FF00000],
            "and link.status P <= status FixedClosed": [1, 7, 0, 5, 1, 9, 0],
            "and system.demand > number 1.0": [1, 9, 0, 2, 0, 0, 0x3FF00000],
            "and system.clock_time >= time 6:30:00": [1, 11, 0, 4, 2, 23400, 0],
        }
        for text, payload in cases.items():
            self.assertEqual(words_of(NETWORK + "premise " + text)[-8:], [0x80000007] + payload, text)

    def test_controls(self):
        cases = {
            "low_level node=T target=1.0 link=P": [3, 1, 0, 0x3FF00000, 0, 0, 0, 0, 0],
            "time seconds=1:00:00 link=U status=Open": [4, 3600, 0, 0, 1, 1, 3, 0, 0],
            "clock seconds=60 link=U setting=1.0": [5, 60, 0, 0, 1, 2, 0, 0, 0x3FF00000],
            "time seconds=0 link=U setting=1.0 status=Xhead": [4, 0, 0, 0, 1, 3, 0, 0, 0x3FF00000],
        }
        for text, payload in cases.items():
            self.assertEqual(words_of(NETWORK + "control " + text)[-10:], [0x70000009] + payload, text)

    def test_damaged_images_can_be_said(self):
        self.assertEqual(words_of("raw 9 1 0xffffffff"), [0x90000002, 1, 0xFFFFFFFF])
        self.assertEqual(words_of("words 0x0fff0000 7"), [0x0FFF0000, 7])
        self.assertEqual(words_of(NETWORK + "pipe start=7 end=7 status=12 diameter=-1")[-8:-4], [7, 7, 0, 12])


class Loads(unittest.TestCase):
    def loads(self, text):
        return [word for _, words in image_text.assemble(NETWORK + "loads\n" + text).loads for word in words]

    def test_named_and_plain(self):
        plain = self.loads("load flow 1.0 2.0 head 3.0 4.0")
        named = self.loads("load flow U=2.0 P=1.0 head K=4.0 J=3.0")
        self.assertEqual(plain, named)
        self.assertEqual(plain[0], 0xF0000008)
        self.assertEqual(struct.unpack("<4d", packed(plain[1:])), (1.0, 2.0, 3.0, 4.0))

    def test_a_load_of_nothing(self):
        assembly = image_text.assemble("options duration=0 hydraulic=0 report=1 pattern_timestep=1\nloads\nload")
        self.assertEqual(assembly.loads, [(3, [0xF0000000])])

    def test_shown_by_name_until_the_first_fault(self):
        text = NETWORK + "loads\nload flow 1 2 head 3 4\nload flow 1 2 head 3 nan\nload flow 1 2 head 3 4\n"
        data = image_text.assemble(text).data(counted=True)
        shown = image_show.show_input(data)
        self.assertIn("load flow pipe0=1.0 pump1=2.0 head J2=3.0 J3=4.0", shown.lines)
        self.assertEqual([line.split()[0] for line in shown.lines[-4:]], ["loads", "load", "raw", "raw"])
        self.assertIn("refused 8: load 2", str(shown.fault))
        self.assertEqual(assembled(shown, counted=True), data)

    def test_a_load_of_the_wrong_size_and_stray_bytes(self):
        data = image_text.assemble(NETWORK + "loads\nload flow 1.0\nbytes 0a ff").data(counted=True)
        shown = image_show.show_input(data)
        self.assertIn("refused 7: load 1", str(shown.fault))
        self.assertEqual(shown.lines[-1], "bytes 0a ff")
        self.assertEqual(assembled(shown, counted=True), data)


def assembled(shown, counted):
    return image_text.assemble("\n".join(shown.lines)).data(counted)


class Showing(unittest.TestCase):
    def test_every_row_of_the_batch_comes_back(self):
        for row in ROWS:
            with self.subTest(row.name):
                shown = image_show.show(packed(row.words))
                self.assertEqual(assembled(shown, counted=False), packed(row.words))
                counted = images.driver_input(row.words)
                self.assertEqual(assembled(image_show.show_input(counted), counted=True), counted)

    def test_an_accepted_image_has_no_raw_lines(self):
        for row in ROWS:
            if row.number == 0:
                shown = image_show.show(packed(row.words))
                self.assertFalse(any(map(raw, shown.lines)), row.name)
                self.assertIsNone(shown.fault, row.name)

    def test_a_refused_image_is_raw_from_its_first_fault_on(self):
        for row in ROWS:
            if row.number:
                shown = image_show.show(packed(row.words))
                kinds = [raw(line) for line in shown.lines]
                self.assertEqual(kinds, sorted(kinds), row.name)
                self.assertEqual(shown.fault.number, row.number, row.name)
                read = image_decode.decode(row.words).read
                self.assertEqual(any(kinds), read < len(row.words), row.name)

    def test_the_raw_part_begins_at_the_faulty_record(self):
        shown = image_show.show(packed(images.image(tank=images.tank(diameter=0.0))))
        first = next(line for line in shown.lines if raw(line))
        self.assertTrue(first.startswith("raw 4 "))

    def test_random_changes_come_back(self):
        chance = random.Random(1)
        batch = [row.words for row in ROWS if len(row.words) < 400]
        for _ in range(300):
            data = bytearray(images.driver_input(chance.choice(batch)))
            for _ in range(chance.randrange(4)):
                data[chance.randrange(4, len(data) + 1) - 1] = chance.randrange(256)
            data = bytes(data[: chance.choice([len(data), chance.randrange(4, len(data) + 1)])])
            self.assertEqual(assembled(image_show.show_input(data), counted=True), data)
            self.assertEqual(assembled(image_show.show(data), counted=False), data)

    def test_a_count_that_is_not_true(self):
        shown = image_show.show_input(packed([5, 0x1000000A, 1]))
        self.assertEqual(shown.lines, ["count 5", "words 0x1000000a 1"])
        self.assertEqual(shown.fault.number, 1)

    def test_nan_keeps_its_bits(self):
        line = image_format.NUMBER.show([1, 0x7FF00000], Names())
        self.assertEqual(line, "0x7ff0000000000001")

    def test_a_hydraulic_timestep_left_out(self):
        """It is the 0 that is read as an hour, and is shown as the word that it is."""
        rest = "report=1 pattern_timestep=1"
        self.assertEqual(words_of(f"options duration=1 {rest}"), words_of(f"options duration=1 hydraulic=0 {rest}"))
        (line,) = image_show.show(packed(words_of(f"options duration=1 {rest}"))).lines
        self.assertIn("hydraulic=0", line)

    def test_times_of_day(self):
        words = words_of("options duration=90000 hydraulic=0 report=1 pattern_timestep=1 start_clock=82805")
        (line,) = image_show.show(packed(words)).lines
        self.assertIn("duration=90000", line)
        self.assertIn("start_clock=23:00:05", line)


NUMBER_EXPECTED = "expected a decimal as in 12, -0.5 or 1e-3, inf, -inf, nan, or 0x and bits"
TIME_EXPECTED = "expected whole seconds from 0 or h:mm:ss, as in 5400 or 1:30:00"
NAME_EXPECTED = "expected a letter (A to Z, a to z) or _ and then letters, digits, _ . -"
TANK = "tank [NAME] elevation= initial= least= greatest= diameter= [flags=]"
PIPE = "pipe [NAME] start= end= [status=] diameter="
OPTIONS = "options duration={} hydraulic=0 report=1 pattern_timestep=1"


class Errors(unittest.TestCase):
    CASES = [
        # text, line, the message or its beginning
        ("tank T elevation=1", 1, f"initial= is missing; expected {TANK}"),
        ("# a comment\n\npump elevation=1", 3, "start= is missing; expected pump [NAME] start="),
        ("tub T elevation=1", 1, "tub is no record; expected one of options pattern"),
        (NETWORK + "pipe P start=R end=T diameter=1", 11, "there is a link P already; expected another name"),
        (NETWORK + "pipe Q start=X end=T diameter=1", 11, "start=X is no node of this image; expected the name of a"),
        (NETWORK + "pipe Q start=2x end=T diameter=1", 11, "start=2x is no node of this image; expected the name of a"),
        (NETWORK + "pipe Q start=R end=T diameter=1 hue=red", 11, f"hue=red does not belong here; expected {PIPE}"),
        (NETWORK + "pipe Q start=R end=T diameter=1 diameter=2", 11, f"diameter= stands there twice; expected {PIPE}"),
        (NETWORK + "pipe Q start=R end=T diameter=1,5", 11, f"diameter=1,5 is no number; {NUMBER_EXPECTED}"),
        (NETWORK + "pipe Q start=R end=T diameter=", 11, f"diameter= is no number; {NUMBER_EXPECTED}"),
        (NETWORK + "pipe Q start=R end=T diameter=1e999", 11, "diameter=1e999 is beyond every f64; expected inf"),
        (NETWORK + "pipe Q start=R end=T status=open diameter=1", 11, "status=open is no status; expected one of Xhead"),
        (NETWORK + "control level node=T target=1 link=P", 11, "level is no condition; expected one of high_pressure,"),
        (NETWORK + "control 6 node=T target=1 link=P", 11, "6 is no condition; expected 0 to 5, or a raw line"),
        (NETWORK + "control", 11, "condition is missing; expected control CONDITION .. link= [status=] [setting=]"),
        (NETWORK + "premise and tank.level > number 10.0", 11, "> is no node of this image; expected the name of a"),
        (NETWORK + "premise and tank.level T = nought 1", 11, "nought is no value's sort; expected one of number"),
        (NETWORK + "premise tank.level T > number 1", 11, "tank.level is no operator; expected one of or, and"),
        (NETWORK + "junction L elevation=1 pattern=DAY demand=1", 11, "pattern=DAY does not belong here; expected"),
        (NETWORK + "junction L elevation=1 demand=1 pattern=DUSK", 11, "pattern=DUSK is no pattern of this image;"),
        (NETWORK + "junction L elevation=1 flags=off", 11, "flags=off has an unknown flag; expected none or disabled"),
        (OPTIONS.format(1) + " flags=skip+off", 1, "flags=skip+off has an unknown flag; expected none, skip or PDA ("),
        (NETWORK + "pattern", 11, "multiplier is missing; expected pattern [NAME] MULTIPLIER .."),
        (OPTIONS.format("1:5"), 1, f"duration=1:5 is no time; {TIME_EXPECTED}"),
        (OPTIONS.format(4294967296), 1, "duration=4294967296 does not fit a word of 32 bits; expected at most 42949"),
        ("raw", 1, "the kind is missing; expected raw KIND WORD .."),
        ("raw 16 0", 1, "kind 16 does not fit the 4 bits of a header; expected 0 to 15"),
        ("raw 2 4294967296", 1, "4294967296 does not fit a word"),
        ("words 1 x", 1, "x is no word; expected a whole number from 0 or 0x and hex digits"),
        ("bytes 00\nraw 2", 1, "stray bytes in front of other lines; expected them on the last line"),
        ("bytes", 1, "0 bytes cannot stand after the last word; expected one to three"),
        ("bytes 100", 1, "100 is no byte; expected two hex digits"),
        ("count", 1, "0 words behind `count`; expected one"),
        (NETWORK + "load flow 1", 11, "a load in the image; expected the line `loads` in front of the loads"),
        (NETWORK + "loads\npattern 1.0", 12, "pattern behind the line `loads`; expected load flow"),
        (NETWORK + "loads\nloads", 12, "the loads have begun already; expected one line `loads`"),
        (NETWORK + "loads\nload 1.0 2.0", 12, "1.0 is not the word flow; expected load flow .. head .."),
        (NETWORK + "loads\nload flow P=1.0 head 1.0 2.0", 12, "link U is missing; expected a value for every link"),
        (NETWORK + "loads\nload flow P=1.0 P=1.0 U=1.0", 12, "link P stands there twice; expected every link once"),
        (NETWORK + "loads\nload flow P=1.0 2.0", 12, "2.0 has no link in front; expected the values of a load all"),
        (NETWORK + "loads\nload flow P=x U=1", 12, f"P=x is no number; {NUMBER_EXPECTED}"),
        (NETWORK + "loads\nload flow P = 1.0 U=1", 12, "there are spaces around the = of P; expected P=1.0"),
        (NETWORK + "loads\nload flow 1 2 head T=1 J=1 K=1", 12, "T is no junction of this image; expected the name of"),
    ]

    def check(self, text, line, message):
        with self.subTest(text.splitlines()[-1]):
            with self.assertRaises(TextError) as caught:
                image_text.assemble(text)
            self.assertEqual(caught.exception.message[: len(message)], message)
            self.assertIn("; expected ", caught.exception.message)
            self.assertEqual(caught.exception.line, line)

    def test_each_names_its_line_and_what_was_expected(self):
        for text, line, message in self.CASES:
            self.check(text, line, message)

    def test_a_premise_without_the_sort_of_its_value(self):
        message = "10.0 is no value's sort; expected one of number, status, time, then the value, as in `number 10.0`"
        self.check(NETWORK + "premise and tank.level T >= 10.0", 11, message)

    def test_times(self):
        for time in ("24h", "-5", "1.5", "1:00", "1:60:00"):
            self.check(OPTIONS.format(time), 1, f"duration={time} is no time; {TIME_EXPECTED}")

    def test_spaces_around_the_sign(self):
        for spaced in ("elevation = 100", "elevation =100", "elevation= 100"):
            text = f"tank T {spaced} initial=1 least=0 greatest=2 diameter=1"
            self.check(text, 1, "there are spaces around the = of elevation; expected elevation=100")

    def test_names(self):
        fields = "elevation=1 initial=1 least=0 greatest=2 diameter=1"
        for name in ("Höhe", "1", "-T", "T,1", "T(1)", "Tå"):
            self.check(f"tank {name} {fields}", 1, f"{name} is no name; {NAME_EXPECTED}")
        self.check("pattern Tag/Nacht 1.0", 1, f"Tag/Nacht is no name; {NAME_EXPECTED}")
        for name in ("none", "nan", "inf"):
            message = f"{name} is no name; expected another: none, nan or inf means something else"
            self.check(f"tank {name} {fields}", 1, message)
        for name in ("T", "_", "t.1-a_B", "elevation"):
            self.assertEqual(len(words_of(f"tank {name} {fields}")), 12, name)

    def test_loads_are_of_the_drivers_form(self):
        with self.assertRaises(TextError) as caught:
            image_text.assemble(NETWORK + "loads\nload").data(counted=False)
        self.assertEqual(caught.exception.line, 11)
        self.assertEqual(caught.exception.message, "loads and a count belong to the driver's form; expected no --bare")

    def test_lines_are_counted_as_editors_do(self):
        for end in ("\n", "\r\n", "\r"):
            self.check(f"# one{end}# two\x0c\u2028 still two{end}tub", 3, "tub is no record")


class RunsTheTool(unittest.TestCase):
    def run_tool(self, *arguments, given=b""):
        return subprocess.run([sys.executable, TOOL, *arguments], input=given, capture_output=True, check=False)

    def check(self, done, status, out="", error=""):
        self.assertEqual((done.returncode, done.stdout.decode(), done.stderr.decode()), (status, out, error))


class Command(RunsTheTool):
    def test_there_and_back(self):
        with tempfile.TemporaryDirectory() as folder:
            text = pathlib.Path(folder) / "network.txt"
            text.write_text(NETWORK, encoding="utf-8")
            for form in ([], ["--bare"]):
                made = self.run_tool("assemble", *form, str(text))
                self.assertEqual(made.stdout, image_text.assemble(NETWORK).data(counted=not form))
                self.assertEqual((made.returncode, made.stderr), (0, b""))
                shown = self.run_tool("show", *form, "-", given=made.stdout)
                self.assertEqual((shown.returncode, shown.stderr), (0, b""))
                again = self.run_tool("assemble", *form, "-", given=shown.stdout)
                self.assertEqual(again.stdout, made.stdout)

    def test_a_refused_image_is_shown_and_named(self):
        fault = "-: refused 2: record 1, options: payload of 0 words, options have 10\n"
        self.check(self.run_tool("show", "--bare", "-", given=packed([0x10000000])), 1, "raw 1\n", fault)
        self.check(self.run_tool("show", "-", given=packed([1, 0x10000000])), 1, "raw 1\n", fault)

    def test_the_other_form_is_told(self):
        words = words_of(EXAMPLE)
        bare, counted = packed(words), images.driver_input(words)
        message = "-: this is an image without the count of words in front; expected the driver's form, or --bare\n"
        self.check(self.run_tool("show", "-", given=bare), 2, "", message)
        message = "-: this is an image with the count of words in front; expected the words alone, or no --bare\n"
        self.check(self.run_tool("show", "--bare", "-", given=counted), 2, "", message)

    def test_a_text_and_an_image_are_told_apart(self):
        message = "-: this is an image and no text; expected a text; `tools/image show` prints that of an image\n"
        self.check(self.run_tool("assemble", "-", given=images.driver_input(words_of(EXAMPLE))), 2, "", message)
        message = "-: this is a text and no image; expected an image; `tools/image assemble` makes one of a text\n"
        self.check(self.run_tool("show", "-", given=EXAMPLE.encode()), 2, "", message)

    def test_an_error_names_the_file_and_the_line(self):
        done = self.run_tool("assemble", "-", given=b"\ntub\n")
        self.assertEqual((done.returncode, done.stdout), (2, b""))
        self.assertTrue(done.stderr.startswith(b"-:2: tub is no record; expected one of options"))

    def test_encodings(self):
        plain = self.run_tool("assemble", "-", given=EXAMPLE.encode())
        marked = self.run_tool("assemble", "-", given=b"\xef\xbb\xbf" + EXAMPLE.strip().encode())
        self.assertEqual((marked.returncode, marked.stdout, marked.stderr), (0, plain.stdout, b""))
        for command in ("assemble", "check"):
            latin = EXAMPLE.replace("tank T alone", "Behälter").encode("latin-1")
            message = "-:2: byte 0xe4 is not UTF-8; expected a text saved as UTF-8\n"
            self.check(self.run_tool(command, "-", given=latin), 2, "", message)
            message = "-: the text is UTF-16; expected UTF-8\n"
            self.check(self.run_tool(command, "-", given=EXAMPLE.encode("utf-16")), 2, "", message)

    def test_help(self):
        for arguments in (["--help"], ["show", "--help"], ["check", "-h"]):
            done = self.run_tool(*arguments)
            self.assertEqual((done.returncode, done.stderr), (0, b""))
            self.assertIn(b"usage: tools/image", done.stdout)

    def test_wrong_arguments(self):
        for arguments in [[], ["show"], ["paint", "x"], ["show", "--check", "x"], ["check", "a", "b"]]:
            done = self.run_tool(*arguments)
            self.assertEqual((done.returncode, done.stdout), (2, b""), arguments)
            self.assertIn(b"usage: tools/image", done.stderr)
        self.check(self.run_tool("show", "/no/such/file"), 2, "", "/no/such/file: No such file or directory\n")

    def test_a_closed_pipe(self):
        image = TOOL.parent.parent / "stock" / "thornmoor.image"
        pipes = {"stdout": subprocess.PIPE, "stderr": subprocess.PIPE}
        with subprocess.Popen([sys.executable, TOOL, "show", image], **pipes) as tool:
            tool.stdout.readline()
            tool.stdout.close()
            self.assertEqual(tool.stderr.read(), b"")


class Checking(RunsTheTool):
    """`check`: an image, the words alone, or a text; loads included."""

    LOADS = "loads\nload flow 1 2 head 3 4\nload flow P=1 U=2 head J=3 K=4\n"
    ACCEPTED = "accepted: 67 words, 2 patterns, 4 nodes, 2 links, 0 controls, 0 premises"

    def check_image(self, text, status, out):
        data = image_text.assemble(text).data(counted=True)
        self.check(self.run_tool("check", "-", given=data), status, out)

    def check_text(self, text, status, out):
        self.check(self.run_tool("check", "-", given=text.encode()), status, out)

    def test_accepted(self):
        for kind in (self.check_image, self.check_text):
            kind(NETWORK, 0, f"-: {self.ACCEPTED}, 0 loads\n")
            kind(NETWORK + self.LOADS, 0, f"-: {self.ACCEPTED}, 2 loads\n")
        bare = self.run_tool("check", "-", given=packed(words_of(NETWORK)))
        self.check(bare, 0, f"-: {self.ACCEPTED}, 0 loads; no count in front\n")

    def test_an_image_is_refused(self):
        text = NETWORK + "pipe Q start=T end=T diameter=1\n"
        reason = "words 1 and 2: start and end are both node 1\n"
        self.check_image(text, 1, f"-: refused 5: record 10, pipe pipe2, {reason}")
        self.check_text(text, 1, f"-:11: refused 5: record 10, pipe Q, {reason}")

    def test_a_load_is_refused(self):
        wrong = [
            ("load flow 1 nan head 3 4", "refused 8: load 3, words 3 and 4: flow nan of pump {} is not within ±10^12"),
            (
                "load flow 1 2 head 3",
                "refused 7: load 3: payload of 6 words, a load of this image has 8: flows 2, heads 2",
            ),
            ("raw 3", "refused 7: load 3: kind 3, a load has kind 15"),
            ("bytes 0f", "refused 7: load 3: the load is cut: 1 of the header's 4 bytes"),
        ]
        for line, fault in wrong:
            self.check_image(NETWORK + self.LOADS + line, 1, f"-: {fault.format('pump1')}\n")
            self.check_text(NETWORK + self.LOADS + line, 1, f"-:14: {fault.format('U')}\n")

    def test_the_default_pattern_is_named_on_the_line_of_the_options(self):
        text = NETWORK.replace("default_pattern=NIGHT", "default_pattern=7")
        fault = "refused 6: record 1, options, word 8: default pattern word 8 means index 7"
        self.check_text(text, 1, f"-:2: {fault}: only 2 patterns are declared\n")

    def test_what_is_no_image(self):
        empty = self.run_tool("check", "-", given=b"")
        self.check(empty, 1, "-: refused 1: 0 bytes, and the count of words alone takes 4\n")
        self.check_text("# nothing\n", 1, "-: refused 1: no words, and an image has at least one\n")
        done = self.run_tool("check", "-", given=b"tub\n")
        self.assertEqual((done.returncode, done.stdout), (2, b""))
        self.assertTrue(done.stderr.startswith(b"-:1: tub is no record; expected"))

    def test_the_stock(self):
        stock = TOOL.parent.parent / "stock"
        for name in ("netherbeck", "fernbank", "blank"):
            done = self.run_tool("check", stock / f"{name}.image")
            last = (stock / f"{name}.listing").read_text().splitlines()[-1]
            told = last if last.startswith("refused") else "accepted"
            self.assertIn(f"{name}.image: {told}:", done.stdout.decode())
            self.assertEqual(done.returncode, told != "accepted")


class Readme(unittest.TestCase):
    """What tools/README.md shows is what happens."""

    TEXT = (TOOL.parent / "README.md").read_text(encoding="utf-8")

    def blocks(self, language):
        return re.findall(rf"^```{language}\n(.*?)^```$", self.TEXT, re.DOTALL | re.MULTILINE)

    def test_the_commands_print_what_stands_below_them(self):
        shown = [one for block in self.blocks("console") for one in block.removeprefix("$ ").split("\n$ ")]
        self.assertGreater(len(shown), 10)
        # A folder of their own, since some leave files.
        with tempfile.TemporaryDirectory() as folder:
            for name in ("tools", "stock"):
                pathlib.Path(folder, name).symlink_to(TOOL.parent.parent / name)
            for command, _, expected in (one.partition("\n") for one in shown):
                pipes = {"stdout": subprocess.PIPE, "stderr": subprocess.STDOUT}
                done = subprocess.run(["sh", "-c", command], cwd=folder, **pipes, check=False)
                self.assertEqual(done.stdout.decode().rstrip("\n"), expected.rstrip("\n"), command)

    def test_the_pieces_of_text_make_an_accepted_works(self):
        text = "".join(self.blocks("text"))
        decoded = image_decode.decode_input(image_text.assemble(text).data(counted=True))
        self.assertIsNone(decoded.fault)
        self.assertEqual((len(decoded.premises), decoded.loads), (3, 2))

    def test_every_record_and_field_is_listed(self):
        for form in FORMS:
            (row,) = re.findall(rf"^\| `{form.keyword}(?:| NAME| high_pressure)` \|(.*)\|$", self.TEXT, re.MULTILINE)
            for key in re.findall(r"(\w+)=", form.usage()):
                self.assertIn(f"`{key}`", row, form.keyword)


class NewKinds(unittest.TestCase):
    """The requests to come want new entries in the table and nothing else."""

    ACTION = Present(Field("status", image_format.STATUS), Field("setting", image_format.NUMBER))
    POINT = [Field("level", image_format.NUMBER), Field("volume", image_format.NUMBER)]
    CURVE = Form("curve", 9, [Runs(POINT)], ("curve",), "curve")
    RULE = Form(
        "rule",
        10,
        [
            Field("first", Word()),
            Field("premises", Word()),
            Field("priority", IndexOrNone("priority"), "none"),
            Runs([Field("then", image_format.LINK), ACTION], [Field("else", image_format.LINK), ACTION], counted=True),
        ],
    )

    @contextlib.contextmanager
    def in_the_table(self, *forms):
        FORMS.extend(forms)
        try:
            yield
        finally:
            del FORMS[-len(forms) :]

    def check(self, form, text, payload):
        with self.in_the_table(form):
            words = words_of(NETWORK + text)[-len(payload) - 1 :]
            self.assertEqual(words, [form.kind << 28 | len(payload)] + payload)
            self.assertIs(image_show.fitting_form(form.kind, payload), form)
            line = form.show(payload, Names(), "x")
            self.assertEqual(form.read(Tokens(line.split()[1:]), Names()), payload)

    def test_a_curve(self):
        points = [0, 0, 0, 0, 0, 0x3FF00000, 0, 0x40000000]
        self.check(self.CURVE, "curve C level=0.0 volume=0.0 level=1.0 volume=2.0", points)

    def test_a_rule(self):
        actions = [0, 1, 2, 0, 0] + [1, 2, 0, 0, 0x3FF00000] + [0, 1, 3, 0, 0]
        text = "rule first=0 premises=2 priority=5 then=P status=Closed then=U setting=1.0 else=P status=Open"
        self.check(self.RULE, text, [0, 2, 6, 2, 1] + actions)

    def test_a_twelfth_word_and_a_flag(self):
        tank = image_format.form_of("tank")
        parts = tank.parts[:-1] + [
            Field("flags", Flags("overflow", "new"), "none"),
            Runs([Field("curve", IndexOrNone("curve"))]),
        ]
        curved = Form("curved_tank", 11, parts, ("node",), "T")
        numbers = [0, 0] * 5
        fields = "elevation=0 initial=0 least=0 greatest=0 diameter=0"
        self.check(curved, f"curved_tank V {fields} flags=new curve=0", numbers + [2, 1])
        self.check(curved, f"curved_tank V {fields}", numbers + [0])

    def test_the_table_is_sound(self):
        keywords = [form.keyword for form in FORMS]
        self.assertEqual(len(keywords), len(set(keywords)))
        for form in FORMS:
            self.assertEqual(form.tables, image_format.tables_of(form.kind), form.keyword)
            for part in form.parts:
                if isinstance(part, Cases):
                    self.assertEqual(len(part.cases), len(part.code.value.names), form.keyword)


if __name__ == "__main__":
    unittest.main()
