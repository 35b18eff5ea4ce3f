"""Tests of the listing by the second clock, and of what calls for its stops.

The stand-in for replay walks the seconds by itself, a loop over document 02's sentence. It writes what it is given to
the file `calls` beside it, and its process to `process`. At the call with the number AT it does first what DOES says.
"""

import os
import pathlib
import signal
import struct
import subprocess
import sys
import tempfile
import time
import unittest
import unittest.mock

sys.dont_write_bytecode = True

from reader import ROOT, slow, test_command, test_programs, works  # noqa: E402
from reader.failure import DIED, Failure  # noqa: E402

import image_text  # noqa: E402

# How a stand-in begins, and how it takes its image.
STAND_IN = f"""#!{sys.executable} -S
import sys
sys.dont_write_bytecode = True
sys.path.append({str(ROOT / "tools")!r})
""" + '''
import os, pathlib, signal, struct, time
import image_decode


def take(count):
    data = sys.stdin.buffer.read(4 * count)
    return struct.unpack_from(f"<{len(data) // 4}I", data)


'''
TAKES_IMAGE = '''
(count,) = take(1) or (0,)
image = take(count) if count <= 16384 else ()
tables = image_decode.decode(image if len(image) == count else ())
if tables.fault:
    print(f"refused {tables.number}")
    sys.exit()
options = tables.options
'''

REPLAY = STAND_IN + '''
beside = pathlib.Path(__file__).parent
log = (beside / "calls").open("a", buffering=1)
(beside / "process").write_text(str(os.getpid()))


def say(answer):
    print(f"{answer} {instant:016x} {moves:016x}{rest}", flush=True)


def stops(second, begin):
    due = {4: second, 5: (second + options["start clock"]) % 86400}
    at_controls = [due.get(control["condition"]) == control["node or seconds"] for control in tables.controls]
    at_timesteps = 0 in (second % options["report"], second % options["pattern timestep"])
    return at_timesteps or second - begin == hydraulic or any(at_controls) or second == options["duration"]


def walk():
    global instant, moves
    begin = instant
    if begin < options["duration"]:
        instant += 1
        while not stops(instant, begin):
            instant += 1
        moves += 1
    return instant - begin


def answer(code):
    if code == 3:
        words = take(*take(1))
        print(3, *words, file=log)
        fault = image_decode.judge_load(tables, words)
        return f"load refused={fault.number}" if fault else "load ok"
    print(code, file=log)
    if code == 8:
        return f"slow {walk()}" if serves else "slow refused=14"
    return {1: "patterns ok", 2: "controls ok", 4: "close ok"}[code]
''' + TAKES_IMAGE + '''
instant = moves = 0
hydraulic = options["hydraulic"] or 3600
tanks = [node for node in tables.nodes if node["kind"] == "tank"]
fast = options["flags"] & 1 and not tables.controls
serves = not tanks and not fast and min(options["report"], options["pattern timestep"], hydraulic) <= 86400
rest = " 0000000000000000" * (3 * len(tables.nodes) + 3 * len(tables.links))
say("start ok")
(calls,) = take(1)
print("calls", calls, file=log)
for number in range(1, calls + 1):
    code = take(1)
    if not code:
        break
    if number == int(os.environ.get("AT", 0)):
        exec(os.environ["DOES"])
    say(answer(*code))
'''

NODES = """
reservoir LAKE elevation=100.0
junction MILL elevation=50.0
pipe MAIN start=LAKE end=MILL diameter=1.0
"""
TANK = "tank HILL elevation=60.0 initial=1.0 least=0.0 greatest=2.0 diameter=9.0\n"
DIES = "os.kill(os.getpid(), signal.SIGSEGV)"
FAST = "on the fast path (skip, no controls, no tanks)"

# Four controls that are due at once, a day after the start, and what is told of them: two of a sort in image order;
# those of the clock behind those of the run.
AT_ONCE = """
control clock seconds=1:00:00 link=MAIN status=Open
control time seconds=86400 link=MAIN status=Open
control time seconds=86400 link=MAIN setting=1.0
control clock seconds=1:00:00 link=MAIN setting=1.0
"""
AT_ONCE_OPTIONS = {
    "duration": 86_400,
    "hydraulic": 7_200,
    "report": 1_800,
    "pattern_timestep": 2_700,
    "start_clock": 3_600,
}
TOLD_AT_ONCE = "; ".join(
    [
        "control 2: at 24:00:00 of the run",
        "control 3: at 24:00:00 of the run",
        "control 1: at 01:00:00",
        "control 4: at 01:00:00",
    ]
)


def text(controls="", nodes=NODES, **options):
    """A works without tanks: 10,000 s, every timestep at most a day and none alike, unless it is said."""
    options = {"duration": 10_000, "hydraulic": 5_000, "report": 3_000, "pattern_timestep": 4_000, **options}
    return f"options {' '.join(f'{name}={value}' for name, value in options.items())}\n{nodes}{controls}"


def works_of(said, behind=b""):
    return works.Works("", image_text.assemble(said).data(counted=True) + behind, said)


def load(*values):
    """A load of a flow and a head."""
    return struct.pack("<I2d", 15 << 28 | 4, *values)


class Walked(unittest.TestCase):
    """Listings in this process."""

    def setUp(self):
        test_programs.end_a_wait(self)
        folder = tempfile.TemporaryDirectory()
        self.addCleanup(folder.cleanup)
        self.replay = pathlib.Path(folder.name, "replay")
        self.replay.write_text(REPLAY)
        self.replay.chmod(0o755)

    def listing(self, said, behind=b"", **environment):
        with unittest.mock.patch.dict(os.environ, environment):
            return list(slow.listing(self.replay, works_of(said, behind)))

    def calls(self):
        """What each run of the program was given: the count of calls, then the calls."""
        lines = self.replay.with_name("calls").read_text().splitlines()
        begins = [place for place, line in enumerate(lines) if line.startswith("calls")]
        return [lines[begin:end] for begin, end in zip(begins, [*begins[1:], len(lines)])]

    def called(self):
        """The calls of the second run, the listing's."""
        return self.calls()[1][1:]


class Listings(Walked):
    def test_the_steps_in_the_drivers_form(self):
        lines = ["from length", "0 3000", "3000 1000", "4000 2000", "6000 2000", "8000 1000", "9000 1000", "steps 6"]
        self.assertEqual(self.listing(text()), lines)

    def test_one_call_tells_whether_it_serves_and_then_turns_follow(self):
        self.listing(text())
        self.assertEqual(self.calls(), [["calls 1", "8"], ["calls 50000", *["1", "2", "4", "8"] * 6]])

    def test_loads_as_long_as_some_are_left(self):
        loads = [load(1.0, 2.0), load(3.0, 4.0)]
        self.assertEqual(self.listing(text(), b"".join(loads))[-1], "steps 6")
        first, second = (f"3 {' '.join(map(str, struct.unpack('<5I', each)))}" for each in loads)
        turns = [["1", "2", first, "4", "8"], ["1", "2", second, "4", "8"], *[["1", "2", "4", "8"]] * 4]
        self.assertEqual(self.called(), sum(turns, []))

    def test_a_refused_load_is_the_last_call(self):
        lines = self.listing(text(), load(1.0, 2.0) + load(float("nan"), 2.0) + load(1.0, 2.0))
        self.assertEqual(lines, ["from length", "0 3000", "refused 8"])
        self.assertEqual([line.split()[0] for line in self.called()], ["1", "2", "3", "4", "8", "1", "2", "3"])

    def test_a_cut_load_is_refused_when_its_turn_comes(self):
        for cut in (1, 3, 4, 18):
            lines = self.listing(text(), load(1.0, 2.0) + load(1.0, 2.0)[:cut])
            self.assertEqual(lines, ["from length", "0 3000", "refused 7"], cut)

    def test_loads_left_over_are_not_read(self):
        self.assertEqual(self.listing(text(), 6 * load(1.0, 2.0) + b"no load")[-1], "steps 6")

    def test_a_run_of_no_time(self):
        """Nothing is called but what tells whether it serves."""
        self.assertEqual(self.listing(text(duration=0), b"no load"), ["from length", "steps 0"])
        self.assertEqual([call for run in self.calls() for call in run[1:]], ["8"])

    def test_the_longest_run_has_as_many_calls_as_a_word_takes(self):
        far = text(duration=315_360_000, report=86_400, pattern_timestep=86_400, hydraulic=86_400)
        self.listing(far, load(1.0, 2.0)[:1])
        self.assertEqual(self.calls()[1][0], "calls 1576800000")

    def test_a_refused_image_alone(self):
        self.assertEqual(self.listing(text(report=0)), ["refused 5"])
        self.assertEqual(self.listing(text(report=0, nodes=TANK)), ["refused 5"])
        self.assertFalse(self.replay.with_name("calls").read_text())

    def test_calls_do_not_fill_up_an_image_that_is_cut(self):
        whole = works_of(text()).data
        for data in (b"", whole[:3], whole[:-1], whole[:-4], whole[:-8], b"\0" * 4, struct.pack("<I", 16_385) + whole):
            lines = list(slow.listing(self.replay, works.Works("", data)))
            self.assertEqual(lines, ["refused 1"], data)


class Parted(Walked):
    """A program that answers what no clock does."""

    def assert_died(self, message, said=None, **environment):
        with self.assertRaisesRegex(Failure, f"^{message}$") as caught:
            self.listing(said or text(), **environment)
        self.assertEqual(caught.exception.status, DIED)

    def test_a_count_that_is_not_that_of_the_turns(self):
        self.assert_died("replay counts 7 steps where 6 were made", AT="12", DOES="moves += 1")

    def test_a_clock_that_stands_or_jumps(self):
        message = "the second clock answers {} s at 3000 and leaves {}"
        self.assert_died(message.format(0, 3000), AT="8", DOES="walk = lambda: 0")
        self.assert_died(message.format(999, 4000), AT="8", DOES="real, walk = walk, lambda: real() - 1")
        past = "options['duration'] = 10001; stops = lambda second, begin: second == 10001"
        self.assert_died(message.format(7001, 10001), AT="8", DOES=past)

    def test_another_call_answered(self):
        self.assert_died("replay answers close where slow was called", AT="8", DOES="answer = lambda code: 'close ok'")

    def test_an_end_before_the_last_turn(self):
        self.assert_died("replay answers nothing where close was called", AT="7", DOES="sys.exit()")

    def test_a_death_in_the_first_call_and_later(self):
        died = "the program replay was ended by signal 11, Segmentation fault, after {} lines"
        self.assert_died(died.format(1), AT="1", DOES=DIES)
        self.assert_died(died.format(7), AT="7", DOES=DIES)
        # Between two calls, so that the next one finds nobody who reads it.
        last = "say(answer(*code)); " + DIES
        self.assert_died(died.format(8), AT="7", DOES=last)

    def test_a_death_over_a_line(self):
        died = "the program replay was ended by signal 11, Segmentation fault, after 8 lines"
        self.assert_died(died, AT="8", DOES="print('slow 1', end='', flush=True); " + DIES)


class SteppedOtherwise:
    """The reasons that both the second clock and the stops beforehand have; `reason` tells one."""

    def test_tanks(self):
        """The first is named, whatever else stands against it."""
        clock = "control clock seconds=3600 link=MAIN status=Open"
        self.assertEqual(self.reason(text(clock, nodes=TANK + NODES)), "with tanks: HILL is one")
        two = f"reservoir LAKE elevation=1.0\n{TANK}{TANK.replace('HILL', 'POND')}"
        for hydraulic in (1, 90_000):
            self.assertEqual(self.reason(text(nodes=two, flags="skip", hydraulic=hydraulic)), "with tanks: HILL is one")

    def test_the_fast_path(self):
        self.assertEqual(self.reason(text(flags="skip+PDA")), FAST)
        self.assertEqual(self.reason(text(flags="skip", hydraulic=1)), FAST)


class Reasons(SteppedOtherwise, Walked):
    def reason(self, said):
        """The reason, and that the stand-in refuses too."""
        self.assertEqual(self.listing(said), ["refused 14"])
        begin = "refused 14: the second clock does not serve works "
        reason = slow.reason(works_of(said).network)
        self.assertTrue(reason.startswith(begin), reason)
        return reason.removeprefix(begin)

    def test_every_timestep_above_a_day(self):
        above = text(hydraulic=86_401, report=90_000, pattern_timestep=86_401)
        self.assertEqual(self.reason(above), "with report, pattern and hydraulic timestep all above a day")

    def test_a_works_that_is_served_has_none(self):
        for said in (
            text(hydraulic=86_400, report=86_401, pattern_timestep=86_401),
            text(hydraulic=86_401, report=86_400, pattern_timestep=86_401),
            text(hydraulic=86_401, report=86_401, pattern_timestep=86_400),
            text(hydraulic=0, report=86_401, pattern_timestep=86_401),
            text("control clock seconds=3600 link=MAIN status=Open", flags="skip"),
            text(flags="PDA"),
        ):
            self.assertEqual(self.listing(said)[0], "from length", said)
            finds_none = "refused 14: and reader/slow.py, which has the reasons, finds none"
            self.assertEqual(slow.reason(works_of(said).network), finds_none)


class Causes(unittest.TestCase):
    def causes(self, begin, length, controls="", **options):
        return slow.causes(works_of(text(controls, **options)).network, begin, length)

    def test_each_alone(self):
        controls = "".join(f"control {sort} link=MAIN\n" for sort in ("time seconds=7300", "clock seconds=7600"))
        for step, cause in (
            ((2000, 1000), "report timestep"),
            ((3000, 1000), "pattern timestep"),
            ((2, 5000), "hydraulic timestep"),
            ((7000, 300), "control 1: at 2:01:40 of the run"),
            ((7200, 400), "control 2: at 02:06:40"),
            ((9000, 1000), "duration"),
        ):
            self.assertEqual(self.causes(*step, controls), cause)

    def test_all_at_once_in_document_02s_order(self):
        told = self.causes(79_200, 7_200, AT_ONCE, **AT_ONCE_OPTIONS)
        self.assertEqual(told, f"report timestep; pattern timestep; hydraulic timestep; {TOLD_AT_ONCE}; duration")

    def test_a_clock_control_past_midnight(self):
        """At 22:00 of the first day; the control is due at 1:30, and not 1:30:00 into the run."""
        control = "control clock seconds=1:30:00 link=MAIN status=Open"
        options = {"start_clock": "22:00:00", "duration": 200_000, "report": 3_500}
        for begin, length in ((12_000, 600), (98_000, 1_000)):
            self.assertEqual(self.causes(begin, length, control, **options), "control 1: at 01:30:00")
        with self.assertRaises(Failure):
            self.causes(5_000, 400, control, **options)

    def test_the_hydraulic_field_0_is_an_hour(self):
        self.assertEqual(self.causes(3_100, 3_600, hydraulic=0), "hydraulic timestep")
        with self.assertRaises(Failure):
            self.causes(3_100, 3_600, hydraulic=3_599)

    def test_neither_pattern_start_nor_what_is_no_time_calls_for_a_stop(self):
        controls = "control low_pressure node=1 target=1.0 link=MAIN status=Open\n" * 2
        with self.assertRaises(Failure):
            self.causes(0, 1, controls, pattern_start=3_999)

    def test_none_is_told(self):
        with self.assertRaisesRegex(Failure, "the second clock stops at 5300, and nothing calls for a stop") as caught:
            self.causes(4_000, 1_300)
        self.assertEqual(caught.exception.status, DIED)


class Own(test_command.Copied):
    """The command, and works of one's own."""

    def write(self, said, name="own.txt"):
        (self.place / name).write_text("# Own: a lake, a mill and a pipe\n" + said)
        return name


class Commands(Own):
    stand_ins = {**test_command.Copied.stand_ins, "replay": REPLAY}

    def beside(self, name):
        """What the stand-in has written."""
        return (self.root / "crates" / "replay" / "out" / name).read_text()

    def test_the_listing_of_the_stock_without_a_driver(self):
        done = self.run_it("--slow", "coldash", DRIVER_DIES="11")
        self.assertEqual((done.returncode, done.stdout), (0, test_command.listing("coldash")))
        self.assertFalse((self.root / "crates" / "driver" / "out").exists())
        self.assertIn("run: proving and building replay, ", done.stderr)

    def test_a_file_and_standard_input(self):
        image = test_command.STOCK / "coldash.image"
        for arguments, given in (([image], b""), (["-"], image.read_bytes())):
            done = self.run_it("--slow", *arguments, stdin=given)
            self.assertEqual((done.returncode, done.stdout), (0, test_command.listing("coldash")))

    def test_causes_behind_each_step(self):
        lines = self.run_it("--causes", "coldash", "--slow").stdout.splitlines()
        self.assertEqual(lines[0], "from length")
        self.assertEqual(lines[4], "28800 8100  control 3: at 10:15:00 of the run")
        self.assertEqual(lines[7], "57600 900  control 2: at 21:45:00")
        both = "report timestep; pattern timestep"
        self.assertEqual(lines[21], f"172799 1  {both}; control 1: at 05:30:00")
        self.assertEqual(lines[22:], ["172800 9600  duration", "steps 22"])
        listed = test_command.listing("coldash").splitlines()
        self.assertEqual([line.partition("  ")[0] for line in lines], listed)

    def test_times_alone_and_with_causes(self):
        plain = self.run_it("--times", "coldash").stdout
        self.assertEqual(self.run_it("--times", "--slow", "coldash").stdout, plain)
        lines = self.run_it("--times", "--slow", "--causes", "coldash").stdout.splitlines()
        self.assertEqual([lines[:2], lines[-1:]], [plain.splitlines()[:2], ["steps 22"]])
        self.assertEqual(lines[10], "     64800     7200     1  23:30:00  01:30:00  day 2  pattern timestep")
        self.assertEqual(len(lines), 25)

    def test_refused_14_alone_and_why(self):
        for arguments, why in (
            (["netherbeck"], "with tanks: BECK-HILL is one"),
            (["hazelcombe", "--causes"], "on the fast path (skip, no controls, no tanks)"),
            ([self.write(text(hydraulic=90_000, report=90_000, pattern_timestep=90_000))],
             "with report, pattern and hydraulic timestep all above a day"),
        ):
            done = self.run_it("--slow", *arguments)
            self.assertEqual((done.returncode, done.stdout), (1, "refused 14\n"))
            reason = f"refused 14: the second clock does not serve works {why}"
            self.assertEqual(done.stderr.splitlines()[-1], reason)
        titled = self.run_it("--slow", "--times", "hazelcombe").stdout.splitlines()
        self.assertEqual([titled[0][:10], titled[1:]], ["Hazelcombe", ["refused 14"]])

    def test_made_names(self):
        image = (test_command.STOCK / "netherbeck.image").read_bytes()
        done = self.run_it("--slow", "-", stdin=image)
        self.assertTrue(done.stderr.endswith("works with tanks: T1 is one\n"), done.stderr)

    def test_a_refusal_for_no_reason_known(self):
        done = self.run_it("--slow", "coldash", AT="1", DOES="serves = False")
        self.assertEqual((done.returncode, done.stdout), (1, "refused 14\n"))
        self.assertIn("refused 14: and reader/slow.py, which has the reasons, finds none\n", done.stderr)

    def test_another_refusal_explains_itself(self):
        done = self.run_it("--slow", "blank")
        self.assertEqual((done.returncode, done.stdout), (1, "refused 5\n"))
        reason = "refused 5: record 1, options, word 4: pattern timestep 0 is not within 1 to 315,360,000"
        self.assertEqual(done.stderr.splitlines()[-1], reason)

    def test_a_refused_count_has_no_times(self):
        done = self.run_it("--slow", "--times", "-", stdin=b"\0bc")
        self.assertEqual((done.returncode, done.stdout), (1, "standard input\nrefused 1\n"))

    def test_a_refused_load_explains_itself(self):
        name = self.write(text() + "\nloads\nload flow 1.0 head 2.0\nload flow inf head 2.0\n")
        for arguments, first in ((["--slow"], "0 3000"), (["--slow", "--causes"], "0 3000  report timestep")):
            done = self.run_it(name, *arguments)
            self.assertEqual((done.returncode, done.stdout), (1, f"from length\n{first}\nrefused 8\n"))
            reason = "refused 8: load 2, words 1 and 2: flow inf of pipe MAIN is not within ±10^12"
            self.assertEqual(done.stderr.splitlines()[-1], reason)

    def test_what_does_not_go_together(self):
        for arguments, message in (
            (["--slow", "--events"], "--slow and --events are two answers: ask for one"),
            (["--picture", "x.svg", "--slow"], "--slow and --picture are two answers: ask for one"),
            (["--causes", "coldash"], "--causes goes with --slow or --stops only"),
            (["--causes", "--events"], "--causes goes with --slow or --stops only"),
        ):
            done = self.run_it(*arguments)
            self.assertEqual((done.returncode, done.stdout), (2, ""))
            self.assertEqual(done.stderr, f"run: {message}; ./run --help has the forms\n")

    def test_a_stop_that_nothing_calls_for(self):
        """The lines before it stand."""
        name = self.write(text())
        done = self.run_it("--slow", "--causes", name, AT="8", DOES="hydraulic = 7")
        self.assertEqual((done.returncode, done.stdout), (3, "from length\n0 3000  report timestep\n"))
        message = "run: the second clock stops at 3007, and nothing calls for a stop there"
        self.assertEqual(done.stderr.splitlines()[-1], message)

    def test_a_death_in_mid_conversation(self):
        name = self.write(text())
        for does, lines in ((DIES, 10), (f"say(answer(*code)); {DIES}", 11)):
            done = self.run_it("--slow", name, AT="10", DOES=does)
            self.assertEqual((done.returncode, done.stdout), (3, "from length\n0 3000\n3000 1000\n"))
            message = f"run: the program replay was ended by signal 11, Segmentation fault, after {lines} lines"
            self.assertEqual(done.stderr.splitlines()[-1], message)

    def test_a_closed_standard_output(self):
        """More lines than are held back before they are written, and nobody to read them."""
        name = self.write(text(duration=5_000, report=1))
        reads, writes = os.pipe()
        os.close(reads)
        pipes = {"stdout": writes, "stderr": subprocess.PIPE}
        command = [self.root / "run", "--slow", name]
        done = subprocess.run(command, cwd=self.place, **pipes, env=self.environment(), timeout=60)
        os.close(writes)
        self.assertEqual(done.returncode, 128 + signal.SIGPIPE)
        self.assertNotIn(b"Error", done.stderr)
        self.assertLess(self.beside("calls").splitlines().count("8"), 5_000)
        self.assertFalse(self.is_running(int(self.beside("process"))))

    def test_interrupted_it_leaves_nothing_running(self):
        does = "(beside / 'waits').touch(); time.sleep(600)"
        waits = self.root / "crates" / "replay" / "out" / "waits"
        for number, status in ((signal.SIGINT, 130), (signal.SIGTERM, 143)):
            process = subprocess.Popen(
                [self.root / "run", "--slow", self.write(text())], cwd=self.place,
                stdout=subprocess.PIPE, stderr=subprocess.PIPE, env=self.environment(AT="7", DOES=does),
            )
            while not waits.exists():
                time.sleep(0.02)
            process.send_signal(number)
            _, said = process.communicate(timeout=10)
            self.assertEqual(process.returncode, status)
            self.assertTrue(said.endswith(b"run: interrupted; nothing is left running\n"))
            self.assertFalse(self.is_running(int(self.beside("process"))))
            waits.unlink()


if __name__ == "__main__":
    unittest.main()
