"""Tests of the stops that are told beforehand, and of what calls for them.

The stand-in for timetable looks at every second by itself, by document 02's sentence. With PRINTS it prints that in
place of its answer, and then it does what DOES says.
"""

import os
import pathlib
import signal
import subprocess
import sys
import tempfile
import unittest

sys.dont_write_bytecode = True

from reader import programs, stops, test_command, test_slow, works  # noqa: E402
from reader.failure import DIED, Failure  # noqa: E402
from reader.test_slow import DIES, FAST, load, text, works_of  # noqa: E402

TIMETABLE = test_slow.STAND_IN + '''
signal.signal(signal.SIGPIPE, signal.SIG_DFL)  # it ends as the program does, without a word of Python's
if "PRINTS" in os.environ:
    print(os.environ["PRINTS"], end="", flush=True)
    exec(os.environ.get("DOES", ""))
    sys.exit()


def foreseen():
    tanks = [node for node in tables.nodes if node["kind"] == "tank"]
    fast = options["flags"] & 1 and not tables.controls
    in_force = options["hydraulic"] or 3600
    frequent = in_force >= report or in_force >= pattern
    return frequent and (report <= 86400 or pattern <= 86400) and not tanks and not fast


def stops(second):
    due = {4: second, 5: (second + options["start clock"]) % 86400}
    at_controls = [due.get(control["condition"]) == control["node or seconds"] for control in tables.controls]
    return 0 in (second % report, second % pattern) or any(at_controls) or second == options["duration"]
''' + test_slow.TAKES_IMAGE + '''
report, pattern = options["report"], options["pattern timestep"]
if not foreseen():
    print("none")
    sys.exit()
instants = [second for second in range(1, options["duration"] + 1) if stops(second)]
print(*instants, f"steps {len(instants)}", sep="\\n")
'''

BEGIN = "none: no stops are known beforehand for works "
NO_REASON = "none: and reader/stops.py, which has the reasons, finds no reason"

# Of every works of the stock but coldash, which has stops, and blank, which is refused.
WITHOUT = {
    "fernbank": "with tanks: BANK is one",
    "hazelcombe": FAST,
    "netherbeck": "with tanks: BECK-HILL is one",
    "oxbarrow": "with tanks: OX-HILL is one",
    "ravensdale": "with tanks: HILL is one",
    "thornmoor": "with tanks: ALDERBROOK-TANK is one",
    "withycombe": "with tanks: LOWER is one",
    "yarrowford": "with a hydraulic timestep in force of 9,000 s, below both report (21,600 s) and pattern timestep "
    "(14,400 s)",
}


def ends(name):
    """Where the steps of a listing end."""
    steps = [map(int, line.split()) for line in test_command.listing(name).splitlines()[1:-1]]
    return [begin + length for begin, length in steps]


class Lines(unittest.TestCase):
    """Lines that are taken one by one, of a run of 10,000 s."""

    def taken(self, *lines, said=None):
        told = stops.Stops(works_of(said or text()))
        for line in lines:
            told.take(line)
        return told

    def test_instants_and_their_number(self):
        told = self.taken("1", "3000", "10000")
        self.assertEqual((told.last, told.count, told.ended), (10_000, 3, False))
        told.take("steps 3")
        told.judge_end()
        self.assertEqual((told.ended, told.none, told.refused), (True, False, 0))

    def test_a_run_of_no_time(self):
        told = self.taken("steps 0", said=text(duration=0))
        told.judge_end()
        self.assertEqual((told.ended, told.none, told.refused), (True, False, 0))

    def test_none_and_a_refusal_alone(self):
        for line, none, refused in (("none", True, 0), ("refused 5", False, 5), ("refused 14", False, 14)):
            told = self.taken(line)
            told.judge_end()
            self.assertEqual((told.ended, told.none, told.refused), (True, none, refused))

    def assert_died(self, message, *lines, said=None):
        """The last of the lines is the damaged one."""
        told = self.taken(*lines[:-1], said=said)
        with self.assertRaises(Failure) as caught:
            told.take(lines[-1])
        self.assertEqual((str(caught.exception), caught.exception.status), (f"timetable {message}", DIED))

    def test_lines_that_are_no_instants(self):
        numbers = ["-1", "+1", "01", "00", "1.0", "1e3", "0x1", "1_000", "1 2", "1\u0661", "9" * 11, "9" * 5_000]
        spaced = ["", " ", "1 ", " 1", "10000\r", "steps", "refused", "refused ", "refused 5 ", "refused\t5", "none "]
        others = ["x", "\ufffd", "step 1", "Steps 1", "refused 0", "refused x", "refused 100", "None", "from length"]
        message = "prints {!r} as line {}, which is no instant and no last line there"
        for line in numbers + spaced + others:
            self.assert_died(message.format(line, 1), line)
            self.assert_died(message.format(line, 3), "1", "2", line)

    def test_none_and_a_refusal_behind_instants(self):
        for line in ("none", "refused 5"):
            message = f"prints {line!r} as line 2, which is no instant and no last line there"
            self.assert_died(message, "10000", line)

    def test_instants_that_do_not_rise(self):
        self.assert_died("stops at 0, which is not above 0", "0")
        self.assert_died("stops at 3000, which is not above 3000", "3000", "3000")
        self.assert_died("stops at 2999, which is not above 3000", "1", "3000", "2999")

    def test_an_instant_past_the_duration(self):
        self.assert_died("stops at 10001, past the duration, 10000", "3000", "10001")
        self.assert_died("stops at 9999999999, past the duration, 10000", "9999999999")
        self.assert_died("stops at 1, past the duration, 0", "1", said=text(duration=0))

    def test_a_number_that_is_not_that_of_the_instants(self):
        for line in ("steps 1", "steps 3", "steps 0", "steps 02", "steps 2 ", "steps  2", "steps x", "steps "):
            self.assert_died(f"prints {line!r}, and its instants are 2", "3000", "10000", line)

    def test_a_last_instant_before_the_duration(self):
        self.assert_died("ends at 9999, and the duration is 10000", "9999", "steps 1")
        self.assert_died("ends at 0, and the duration is 10000", "steps 0")

    def test_an_end_without_a_last_line(self):
        for lines in ([], ["3000"], ["3000", "10000"]):
            with self.assertRaises(Failure) as caught:
                self.taken(*lines).judge_end()
            self.assertEqual((str(caught.exception), caught.exception.status), ("timetable prints no last line", DIED))

    def test_something_behind_the_last_line(self):
        for last in (["10000", "steps 1"], ["none"], ["refused 5"]):
            for line in ("10000", "steps 1", "none", "refused 5", ""):
                self.assert_died(f"prints {line!r} behind its last line", *last, line)

    def test_an_answer_for_an_image_that_has_a_fault(self):
        fault = "refused 5: record 1, options, word 3: report timestep 0 is not within 1 to 315,360,000"
        for line in ("10000", "steps 0"):
            self.assert_died(f"accepts an image with a fault: {fault}", line, said=text(report=0))
        # What is there of a cut image may be whole records.
        cut = stops.Stops(works.Works("", works_of(text()).data[:-36]))
        with self.assertRaisesRegex(Failure, "^timetable accepts .*: refused 1: the count of words is .* are there$"):
            cut.take("1")


class Answered(unittest.TestCase):
    """Answers of the stand-in in this process."""

    def answer(self, said, behind=b""):
        with tempfile.TemporaryDirectory() as folder:
            timetable = pathlib.Path(folder, "timetable")
            timetable.write_text(TIMETABLE)
            timetable.chmod(0o755)
            return [line.decode() for line in programs.lines(timetable, works_of(said, behind).data)]


class Reasons(test_slow.SteppedOtherwise, Answered):
    def reason(self, said):
        """The reason, and that the stand-in has no stops either."""
        self.assertEqual(self.answer(said), ["none"])
        reason = stops.reason(works_of(said).network)
        self.assertTrue(reason.startswith(BEGIN), reason)
        return reason.removeprefix(BEGIN)

    def test_a_hydraulic_timestep_below_report_and_pattern(self):
        told = "with a hydraulic timestep in force of {} s, below both report ({} s) and pattern timestep ({} s)"
        self.assertEqual(self.reason(text(hydraulic=2_999)), told.format("2,999", "3,000", "4,000"))
        hour = text(hydraulic=0, report=90_000, pattern_timestep=3_601)
        self.assertEqual(self.reason(hour), told.format("3,600", "90,000", "3,601"))

    def test_report_and_pattern_above_a_day(self):
        above = text(hydraulic=86_401, report=90_000, pattern_timestep=86_401)
        told = "with report (90,000 s) and pattern timestep (86,401 s) both above a day"
        self.assertEqual(self.reason(above), told)

    def test_a_works_that_has_stops_has_no_reason(self):
        for said in (
            text(hydraulic=3_000, report=3_000, pattern_timestep=3_001),
            text(hydraulic=3_000, report=3_001, pattern_timestep=3_000),
            text(hydraulic=0, report=3_600, pattern_timestep=86_401),
            text(hydraulic=86_400, report=86_401, pattern_timestep=86_400),
            text(hydraulic=90_000, report=86_400, pattern_timestep=86_401),
            text("control clock seconds=3600 link=MAIN status=Open", flags="skip"),
            text(flags="PDA"),
        ):
            self.assertRegex(self.answer(said)[-1], "^steps [1-9]", said)
            self.assertEqual(stops.reason(works_of(said).network), NO_REASON)


class Causes(Answered):
    def causes(self, instant, controls="", **options):
        return stops.causes(works_of(text(controls, **options)).network, instant)

    def test_each_alone(self):
        controls = "".join(f"control {sort} link=MAIN\n" for sort in ("time seconds=7300", "clock seconds=7600"))
        for instant, cause in (
            (3_000, "report timestep"),
            (4_000, "pattern timestep"),
            (7_300, "control 1: at 2:01:40 of the run"),
            (7_600, "control 2: at 02:06:40"),
            (10_000, "duration"),
        ):
            self.assertEqual(self.causes(instant, controls), cause)

    def test_all_at_once(self):
        told = self.causes(86_400, test_slow.AT_ONCE, **test_slow.AT_ONCE_OPTIONS)
        self.assertEqual(told, f"report timestep; pattern timestep; {test_slow.TOLD_AT_ONCE}; duration")

    def test_the_hydraulic_timestep_is_none(self):
        with self.assertRaisesRegex(Failure, "^timetable stops at 5000, and nothing calls for a stop there$") as caught:
            self.causes(5_000)
        self.assertEqual(caught.exception.status, DIED)

    def test_every_stop_has_one_and_no_other_instant_has(self):
        controls = "".join(f"control {sort} link=MAIN\n" for sort in ("time seconds=77", "clock seconds=0:20:00"))
        said = text(controls, duration=9_100, start_clock="23:59:00")
        network = works_of(said).network
        called = [instant for instant in range(1, 9_101) if list(stops.calling(network, instant, False))]
        self.assertEqual([77, 1_260, 3_000, 4_000, 6_000, 8_000, 9_000, 9_100], called)
        self.assertEqual([*map(str, called), f"steps {len(called)}"], self.answer(said))


class Commands(test_slow.Own):
    stand_ins = {**test_command.Copied.stand_ins, "timetable": TIMETABLE}

    def assert_told(self, status, lines, *arguments, stdin=b"", **environment):
        """The status and the lines on standard output; answers the last one on standard error."""
        done = self.run_it("--stops", *arguments, stdin=stdin, **environment)
        self.assertEqual((done.returncode, done.stdout.splitlines()), (status, lines), done.stderr)
        return (done.stderr.splitlines() or [""])[-1]

    def test_where_the_steps_of_the_listing_end(self):
        instants = ends("coldash")
        self.assertEqual((len(instants), instants[0], instants[-1]), (22, 14_400, 182_400))
        done = self.run_it("--stops", "coldash", DRIVER_DIES="11")
        self.assertEqual(done.returncode, 0)
        self.assertEqual(done.stdout, "".join(f"{instant}\n" for instant in instants) + "steps 22\n")
        self.assertIn("run: proving and building timetable, ", done.stderr)
        built = [path.name for path in self.root.glob("crates/*/out/*")]
        self.assertEqual(built, ["timetable"])

    def test_a_file_a_text_and_standard_input(self):
        lines = [*map(str, ends("coldash")), "steps 22"]
        image, said = test_command.STOCK / "coldash.image", test_command.STOCK / "coldash.txt"
        for word, given in ((image, b""), (said, b""), ("-", image.read_bytes()), ("-", said.read_bytes())):
            self.assert_told(0, lines, word, stdin=given)

    def test_none_for_the_rest_of_the_stock_and_why(self):
        self.assertEqual({*WITHOUT, "coldash", "blank"}, set(works.stock()))
        for name, why in WITHOUT.items():
            self.assertEqual(self.assert_told(1, ["none"], name), BEGIN + why)

    def test_none_for_texts_and_images_of_the_stock(self):
        for name in ("hazelcombe", "netherbeck", "yarrowford"):
            for end in ("txt", "image"):
                path = test_command.STOCK / f"{name}.{end}"
                self.assertEqual(self.assert_told(1, ["none"], path), BEGIN + WITHOUT[name])

    def test_netherbeck_if_nothing_is_named(self):
        self.assertEqual(self.assert_told(1, ["none"]), BEGIN + WITHOUT["netherbeck"])

    def test_none_above_a_day(self):
        name = self.write(text(hydraulic=90_000, report=90_000, pattern_timestep=100_000))
        why = "with report (90,000 s) and pattern timestep (100,000 s) both above a day"
        self.assertEqual(self.assert_told(1, ["none"], name), BEGIN + why)

    def test_made_names(self):
        image = (test_command.STOCK / "netherbeck.image").read_bytes()
        self.assertEqual(self.assert_told(1, ["none"], "-", stdin=image), f"{BEGIN}with tanks: T1 is one")

    def test_none_for_no_reason_known(self):
        self.assertEqual(self.assert_told(1, ["none"], "coldash", PRINTS="none\n"), NO_REASON)

    def test_a_refused_image_explains_itself(self):
        reason = "refused 5: record 1, options, word 4: pattern timestep 0 is not within 1 to 315,360,000"
        for word in ("blank", test_command.STOCK / "blank.image", test_command.STOCK / "blank.txt"):
            self.assertEqual(self.assert_told(1, ["refused 5"], word), reason)
        counted = "refused 1: 3 bytes, and the count of words alone takes 4"
        self.assertEqual(self.assert_told(1, ["refused 1"], "-", stdin=b"\0bc"), counted)

    def test_a_refusal_for_no_reason_known(self):
        told = self.assert_told(1, ["refused 3"], "coldash", PRINTS="refused 3\n")
        self.assertEqual(told, "refused 3: and tools/image_decode.py, which has the reasons, says None")

    def test_loads_are_not_read(self):
        lines = ["3000", "4000", "6000", "8000", "9000", "10000", "steps 6"]
        name = self.write(text() + "\nloads\nload flow 1.0 head 2.0\nload flow inf head 2.0\n")
        self.assert_told(0, lines, name)
        self.assert_told(0, lines, "-", stdin=works_of(text(), load(1.0, 2.0)[:7]).data)

    def test_a_run_of_no_time_and_one_of_a_second(self):
        self.assert_told(0, ["steps 0"], self.write(text(duration=0)))
        self.assert_told(0, ["1", "steps 1"], self.write(text(duration=1)))

    def test_times(self):
        lines = self.run_it("--stops", "--times", "coldash").stdout.splitlines()
        self.assertTrue(lines[0].startswith("Cold Ash: a reservoir site"))
        self.assertEqual(lines[1], "        at   day  time")
        self.assertEqual(lines[2], "     14400     1  09:30:00")
        self.assertEqual(lines[9:11], ["     64800     1  23:30:00", "     72000     2  01:30:00"])
        self.assertEqual(lines[23:], ["    182400     3  08:10:00", "steps 22"])
        self.assertEqual([int(line.split()[0]) for line in lines[2:24]], ends("coldash"))

    def test_the_times_of_the_listing(self):
        """A step begins where the one before it stops: the day and the time of day are the same."""
        listed = self.run_it("--times", "coldash").stdout.splitlines()
        told = self.run_it("--stops", "--times", "coldash").stdout.splitlines()
        self.assertEqual([line[:10] + line[19:34] for line in listed[3:-1]], [line[:25] for line in told[2:-2]])

    def test_the_title_and_no_times_where_there_are_no_stops(self):
        for name, title, line in (("hazelcombe", "Hazelcombe", "none"), ("blank", "A reservoir site", "refused 5")):
            lines = self.run_it("--times", "--stops", "--causes", name).stdout.splitlines()
            self.assertEqual([lines[0][: len(title)], lines[1:]], [title, [line]])
        self.assert_told(1, ["standard input", "refused 1"], "--times", "-", stdin=b"\0bc")
        own = "Own: a lake, a mill and a pipe"
        self.assert_told(0, [own, "steps 0"], "--times", "--causes", self.write(text(duration=0)))
        second = [own, "        at   day  time", "         1     1  00:00:01", "steps 1"]
        self.assert_told(0, second, "--times", self.write(text(duration=1)))

    def test_causes_behind_each_instant(self):
        lines = self.run_it("--causes", "coldash", "--stops").stdout.splitlines()
        self.assertEqual(lines[0], "14400  pattern timestep")
        self.assertEqual(lines[3], "36900  control 3: at 10:15:00 of the run")
        self.assertEqual(lines[4], "43200  report timestep; pattern timestep")
        self.assertEqual(lines[6], "58500  control 2: at 21:45:00")
        self.assertEqual(lines[20], "172800  report timestep; pattern timestep; control 1: at 05:30:00")
        self.assertEqual(lines[21:], ["182400  duration", "steps 22"])
        self.assertEqual([int(line.partition("  ")[0]) for line in lines[:-1]], ends("coldash"))

    def test_causes_with_times(self):
        lines = self.run_it("--causes", "coldash", "--stops", "--times").stdout.splitlines()
        self.assertEqual(lines[1:3], ["        at   day  time", "     14400     1  09:30:00  pattern timestep"])
        self.assertEqual(lines[23:], ["    182400     3  08:10:00  duration", "steps 22"])

    def test_a_stop_that_nothing_calls_for(self):
        """With causes it is told, and the lines before it stand."""
        name, prints = self.write(text()), "3000\n5000\n10000\nsteps 3\n"
        told = self.assert_told(3, ["3000  report timestep"], "--causes", name, PRINTS=prints)
        self.assertEqual(told, "run: timetable stops at 5000, and nothing calls for a stop there")

    def test_damaged_lines_are_told_and_those_before_stand(self):
        name = self.write(text())
        for prints, lines, message in (
            ("3000\nx\n", ["3000"], "prints 'x' as line 2, which is no instant and no last line there"),
            ("3000\n3000\n", ["3000"], "stops at 3000, which is not above 3000"),
            ("3000\n10001\n", ["3000"], "stops at 10001, past the duration, 10000"),
            ("10000\nsteps 2\n", ["10000"], "prints 'steps 2', and its instants are 1"),
            ("3000\nsteps 1\n", ["3000"], "ends at 3000, and the duration is 10000"),
            ("", [], "prints no last line"),
            ("3000\n10000\n", ["3000", "10000"], "prints no last line"),
            ("10000\nsteps 1", ["10000"], "prints no last line"),
            ("10000\nsteps 1\nsteps 1\n", ["10000", "steps 1"], "prints 'steps 1' behind its last line"),
            ("none\n3000\n", ["none"], "prints '3000' behind its last line"),
        ):
            self.assertEqual(self.assert_told(3, lines, name, PRINTS=prints), f"run: timetable {message}")

    def test_bytes_that_are_no_text(self):
        does = r"sys.stdout.buffer.write(b'\xff\n')"
        told = self.assert_told(3, [], "coldash", PRINTS="", DOES=does)
        message = "prints '\ufffd' as line 1, which is no instant and no last line there"
        self.assertEqual(told, f"run: timetable {message}")

    def test_an_answer_for_a_refused_image(self):
        fault = "refused 5: record 1, options, word 4: pattern timestep 0 is not within 1 to 315,360,000"
        for prints, lines in (("3600\n", []), ("steps 0\n", []), ("none\n", ["none"])):
            told = self.assert_told(3, lines, "blank", PRINTS=prints)
            self.assertEqual(told, f"run: timetable accepts an image with a fault: {fault}")

    def test_a_death_is_told(self):
        """Behind the last line too."""
        died = "run: the program timetable was ended by signal 11, Segmentation fault, after {} lines"
        name = self.write(text())
        for lines in (["3000"], ["10000", "steps 1"], ["none"], ["refused 5"]):
            told = self.assert_told(3, lines, name, PRINTS="".join(f"{line}\n" for line in lines), DOES=DIES)
            self.assertEqual(told, died.format(len(lines)))

    def test_a_reader_that_has_enough(self):
        """More lines than are held back before they are written, and nobody to read them."""
        name = self.write(text(duration=20_000, report=1))
        reads, writes = os.pipe()
        os.close(reads)
        pipes = {"stdout": writes, "stderr": subprocess.PIPE}
        command = [self.root / "run", "--stops", name]
        done = subprocess.run(command, cwd=self.place, **pipes, env=self.environment(), timeout=60)
        os.close(writes)
        self.assertEqual(done.returncode, 128 + signal.SIGPIPE)
        self.assertNotIn(b"Error", done.stderr)


if __name__ == "__main__":
    unittest.main()
