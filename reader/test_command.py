"""Tests of ./run as a person calls it: python3 -m unittest discover -s reader -t .

It runs in a copy of its own, with a stand-in for rt that builds stand-ins for the programs: a driver that knows the
listings of the stock, and a replay that knows what the proved one prints for two of its works.
"""

import pathlib
import shutil
import signal
import subprocess
import sys
import tempfile
import time
import unittest

sys.dont_write_bytecode = True

ROOT = pathlib.Path(__file__).resolve().parent.parent
STOCK, STORED = ROOT / "stock", ROOT / "reader" / "stored"

RT = """#!/bin/sh
[ "$*" = run ] || { echo "rt: $* is not what is asked of it"; exit 2; }
[ -z "${RT_FAILS-}" ] || { echo 'fn number::bits: not proved'; echo 'logic=not-proved functions=14'; exit 1; }
[ -z "${RT_WAITS-}" ] || { sleep 600 & echo $! >../../sleeps; wait; }
name=${PWD##*/}
for crate in number "$name"; do
    echo "crate $crate: modules loaded=148 checked=5"
    echo 'logic=proved functions=5 sum=dac8208d650f15bf'
done
mkdir -p out
cp "../../bin/$name" out
echo "rt: running out/$name; to give it other input, run that file yourself"
cmp -s - stdin || { echo "rt: the input is another"; exit 1; }
cat stdout
[ -z "${RT_ADDS-}" ] || echo 36
exit "${RT_ENDS-0}"
"""

DRIVER = f"""#!{sys.executable} -S
import os, pathlib, sys
data = sys.stdin.buffer.read()
if "DRIVER_DIES" in os.environ:
    print("from length", "0 3600", sep="\\n", flush=True)
    os.kill(os.getpid(), int(os.environ["DRIVER_DIES"]))
for image in pathlib.Path({str(STOCK)!r}).glob("*.image"):
    if image.read_bytes() == data:
        print(image.with_suffix(".listing").read_text(), end="")
        break
else:
    print("refused 1")
"""

REPLAY = f"""#!{sys.executable} -S
import pathlib, sys
data = sys.stdin.buffer.read()
image = data[: 4 + 4 * int.from_bytes(data[:4], "little")]
for lines in pathlib.Path({str(STORED)!r}).glob("*.replay"):
    if pathlib.Path({str(STOCK)!r}, lines.stem + ".image").read_bytes().startswith(image):
        print(lines.read_text(), end="")
"""


def listing(name):
    return (STOCK / f"{name}.listing").read_text()


class Copied(unittest.TestCase):
    stand_ins = {"rt": RT, "driver": DRIVER, "replay": REPLAY}

    def setUp(self):
        self.folder = tempfile.TemporaryDirectory()
        self.place = pathlib.Path(self.folder.name)
        self.root = self.place / "a root"
        self.root.mkdir()
        for name in ("run", "crates.txt"):
            shutil.copy(ROOT / name, self.root)
        for name in ("reader", "tools", "stock"):
            shutil.copytree(ROOT / name, self.root / name, ignore=shutil.ignore_patterns("__pycache__"))
        for name in ("driver", "replay", "timetable"):
            (self.root / "crates" / name).mkdir(parents=True)
            for file in ("stdin", "stdout"):
                shutil.copy(ROOT / "crates" / name / file, self.root / "crates" / name)
        bin_folder = self.root / "bin"
        bin_folder.mkdir()
        for name, text in self.stand_ins.items():
            (bin_folder / name).write_text(text)
            (bin_folder / name).chmod(0o755)
        (bin_folder / "python3").symlink_to(sys.executable)

    def tearDown(self):
        self.folder.cleanup()

    def environment(self, **more):
        return {"PATH": f"{self.root / 'bin'}:/usr/bin:/bin", **more}

    def run_it(self, *arguments, command=None, stdin=b"", **environment):
        done = subprocess.run(
            [command or self.root / "run", *arguments],
            cwd=self.place, input=stdin, capture_output=True, env=self.environment(**environment), timeout=60,
        )
        done.stdout, done.stderr = done.stdout.decode(), done.stderr.decode()
        return done

    def said(self, *arguments, **environment):
        """What stands on standard error behind what is said of the build."""
        lines = self.run_it(*arguments, **environment).stderr.splitlines()
        return [line for line in lines if not line.startswith(("run: proving", "["))]

    def is_running(self, process):
        """Whether a process is there and no zombie that waits for whoever inherited it."""
        try:
            return pathlib.Path(f"/proc/{process}/stat").read_text().rpartition(")")[2].split()[0] != "Z"
        except FileNotFoundError:
            return False


class Listings(Copied):
    def test_a_works_is_netherbeck_another_or_a_file(self):
        named = [([], "netherbeck"), (["coldash"], "coldash"), ([STOCK / "ravensdale.image"], "ravensdale")]
        for arguments, name in named:
            done = self.run_it(*arguments)
            self.assertEqual((done.returncode, done.stdout), (0, listing(name)))

    def test_a_text_is_assembled_with_the_loads_beside_it(self):
        for name in ("netherbeck", "fernbank"):
            self.assertEqual(self.run_it(STOCK / f"{name}.txt").stdout, listing(name))

    def test_standard_input_and_a_pipe(self):
        image = (STOCK / "withycombe.image").read_bytes()
        self.assertEqual(self.run_it("-", stdin=image).stdout, listing("withycombe"))
        text = (STOCK / "coldash.txt").read_bytes()
        self.assertEqual(self.run_it("-", stdin=text).stdout, listing("coldash"))
        shell = f"'{self.root / 'run'}' <(cat '{STOCK / 'withycombe.image'}')"
        done = subprocess.run(["bash", "-c", shell], capture_output=True, text=True, env=self.environment())
        self.assertEqual(done.stdout, listing("withycombe"))

    def test_through_a_symbolic_link(self):
        link = self.place / "reader-of-works"
        link.symlink_to(self.root / "run")
        self.assertEqual(self.run_it("coldash", command=link).stdout, listing("coldash"))

    def test_only_target_and_what_rt_makes_is_left_behind(self):
        before = sorted(path for path in self.root.rglob("*"))
        self.run_it("--times")
        after = sorted(path for path in self.root.rglob("*") if not {"target", "out"} & {*path.parts})
        self.assertEqual(after, before)

    def test_times_with_the_day_of_the_end_where_it_is_another(self):
        for arguments in (["--times", "withycombe"], ["withycombe", "--times"]):
            lines = self.run_it(*arguments).stdout.splitlines()
            self.assertTrue(lines[0].startswith("Withycombe: two tanks"))
            self.assertEqual(lines[1].split(), ["from", "length", "day", "from", "to"])
            self.assertEqual(lines[2].split(), ["0", "7200", "1", "18:00:00", "20:00:00"])
            self.assertEqual(lines[4].split(), ["14400", "7200", "1", "22:00:00", "00:00:00", "day", "2"])
            self.assertEqual(lines[5].split(), ["21600", "3600", "2", "00:00:00", "01:00:00"])
            self.assertEqual(lines[-1], "steps 107")

    def test_the_list_of_the_stock(self):
        lines = self.run_it("--list").stdout.splitlines()
        self.assertEqual([line.split()[0] for line in lines], sorted(path.stem for path in STOCK.glob("*.image")))
        self.assertIn("netherbeck   Netherbeck: a borehole, one tank on the hill", "\n".join(lines))

    def test_help(self):
        done = self.run_it("--help")
        self.assertEqual((done.returncode, done.stderr), (0, ""))
        options = "--times", "--events", "--picture", "--slow", "--stops", "--causes", "--list"
        for word in ("  NAME", "  FILE.txt", *(f"  {option}" for option in options), "Exit"):
            self.assertIn(f"\n{word} ", done.stdout)

    def test_a_reader_that_has_enough(self):
        shell = f"'{self.root / 'run'}' thornmoor | head -n 1"
        done = subprocess.run(["bash", "-c", shell], capture_output=True, text=True, env=self.environment())
        self.assertEqual(done.stdout, "from length\n")
        self.assertNotIn("Error", done.stderr)


class Wrong(Copied):
    def test_what_is_wrong_with_the_words(self):
        see = "; ./run --help has the forms"
        for arguments, message in (
            (["--wrong"], f"there is no option --wrong{see}"),
            (["coldash", "blank"], f"one works at a time, and blank is one more than coldash{see}"),
            (["--list", "blank"], f"--list is of the whole stock, and blank is one word more{see}"),
            (["--times", "--events"], f"--times and --events are two answers: ask for one{see}"),
            (["--stops", "--slow"], f"--stops and --slow are two answers: ask for one{see}"),
            (["--events", "--stops"], f"--stops and --events are two answers: ask for one{see}"),
            (["--stops", "--picture", "x.svg"], f"--stops and --picture are two answers: ask for one{see}"),
            (["--stops", "--times", "--events"], f"--times and --events are two answers: ask for one{see}"),
            (["--times", "--causes"], f"--causes goes with --slow or --stops only{see}"),
            (["--stops", "--list", "blank"], f"--list is of the whole stock, and blank is one word more{see}"),
            (["--stops", "coldash", "blank"], f"one works at a time, and blank is one more than coldash{see}"),
            (["--stop", "coldash"], f"there is no option --stop{see}"),
            (["--stops", "nosuch"], "nosuch is no works of the stock and no file; ./run --list has the stock"),
            (["--picture"], f"--picture needs a file whose name ends in .svg{see}"),
            (["--picture", "coldash"], f"--picture needs a file whose name ends in .svg, not coldash{see}"),
            (["nosuch"], "nosuch is no works of the stock and no file; ./run --list has the stock"),
            (["a root"], "a root: Is a directory"),
        ):
            done = self.run_it(*arguments)
            self.assertEqual((done.returncode, done.stdout, done.stderr), (2, "", f"run: {message}\n"))

    def test_what_is_wrong_with_a_text(self):
        bad = "options duration=10 hydraulic=5 report=5 pattern_timestep=5\ntank T elevation=high\n"
        (self.place / "bad.txt").write_text(bad)
        (self.place / "late.txt").write_text((STOCK / "netherbeck.txt").read_text())
        (self.place / "late.loads").write_text("\nloads\nload flow 1.0 head x\n")
        (self.place / "latin.txt").write_bytes(b"# \xe9\n")
        for name, message in (
            ("bad.txt", "run: bad.txt:2: .*high is no number"),
            ("late.txt", "run: late.loads:3: .*x is no number"),
            ("latin.txt", "run: latin.txt is no text in UTF-8"),
            ("-", "run: standard input:2: .*high is no number"),
        ):
            done = self.run_it(name, stdin=bad.encode())
            self.assertEqual((done.returncode, done.stdout), (2, ""))
            self.assertRegex(done.stderr, f"^{message}")

    def test_a_refused_image_explains_itself(self):
        for arguments in (["blank"], ["--times", "blank"], ["blank", "--events", "--picture", "x.svg"]):
            done = self.run_it(*arguments)
            self.assertEqual((done.returncode, done.stdout.splitlines()[-1]), (1, "refused 5"))
            reason = "refused 5: record 1, options, word 4: pattern timestep 0 is not within 1 to 315,360,000"
            self.assertEqual(done.stderr.splitlines()[-1], reason)
        self.assertEqual(self.run_it("blank").stdout, "refused 5\n")
        self.assertFalse((self.place / "x.svg").exists())

    def test_a_refused_load_explains_itself(self):
        reason = "refused 8: load 3, words 1 and 2: flow nan of pipe FEED is not within ±10^12"
        done = self.run_it("fernbank")
        self.assertEqual((done.returncode, done.stdout), (1, listing("fernbank")))
        self.assertEqual(self.said("fernbank"), [reason])
        # Without the text the names are made.
        shutil.copy(STOCK / "fernbank.image", self.place / "bare.image")
        self.assertEqual(self.said("bare.image"), [reason.replace("FEED", "pipe0")])

    def test_the_text_beside_an_image_names_its_parts_only_if_it_is_its_text(self):
        shutil.copy(STOCK / "fernbank.image", self.place / "f.image")
        for text, name in (("fernbank", "FEED"), ("coldash", "pipe0")):
            shutil.copy(STOCK / f"{text}.txt", self.place / "f.txt")
            self.assertIn(f"flow nan of pipe {name} is", self.said("f.image")[0])

    def test_a_refused_count_explains_itself(self):
        done = self.run_it("-", stdin=b"\0bc")
        self.assertEqual((done.returncode, done.stdout), (1, "refused 1\n"))
        self.assertIn("refused 1: 3 bytes, and the count of words alone takes 4\n", done.stderr)

    def test_a_driver_that_refuses_for_no_reason_known(self):
        image = (STOCK / "netherbeck.image").read_bytes() + b"\0"
        done = self.run_it("-", stdin=image)
        self.assertEqual((done.returncode, done.stdout), (1, "refused 1\n"))
        self.assertIn("refused 1: and tools/image_decode.py, which has the reasons, says refused 7", done.stderr)

    def test_a_driver_that_dies_is_told(self):
        for arguments in ([], ["--times"], ["--events"]):
            done = self.run_it(*arguments, DRIVER_DIES=str(int(signal.SIGSEGV)))
            self.assertEqual(done.returncode, 3)
            message = "run: the program driver was ended by signal 11, Segmentation fault, after 2 lines"
            self.assertEqual(done.stderr.splitlines()[-1], message)

    def test_a_listing_that_does_not_end_is_told(self):
        (self.root / "bin" / "driver").write_text("#!/bin/sh\ncat >/dev/null\nprintf 'from length\\n0 3600\\n'\n")
        done = self.run_it()
        self.assertEqual((done.returncode, self.said()), (3, ["run: the driver's listing has no last line"]))

    def test_a_failed_proof_is_told(self):
        done = self.run_it(RT_FAILS="yes")
        self.assertEqual((done.returncode, done.stdout), (2, ""))
        self.assertIn("fn number::bits: not proved", done.stderr)
        failed = "run: rt run in crates/driver failed; target/run.log has all that it said\n"
        self.assertIn(failed, done.stderr)

    def test_a_program_that_rt_sees_fail_is_told(self):
        """Proved, but it prints something else than its crate's stdout, or ends with another status than 0."""
        for wrong in ({"RT_ADDS": "yes"}, {"RT_ENDS": "3"}):
            done = self.run_it(**wrong)
            self.assertEqual((done.returncode, done.stdout), (2, ""))
            self.assertTrue(done.stderr.endswith("run: rt run in crates/driver failed; target/run.log has all that it said\n"))

    def test_a_missing_toolchain_is_told(self):
        (self.root / "bin" / "rt").unlink()
        done = self.run_it()
        self.assertEqual((done.returncode, done.stdout), (2, ""))
        self.assertEqual(done.stderr, "run: there is no rt on the PATH: the Rattle toolchain builds the programs\n")


class Progress(Copied):
    def test_the_first_build_speaks(self):
        lines = self.run_it().stderr.splitlines()
        self.assertEqual(lines[0], "run: proving and building driver, 66 crates; this first time takes minutes")
        self.assertRegex(lines[1], r"^\[1/66\] number, \d+ s; 65 left, about \d+ s$")
        self.assertRegex(lines[2], r"^\[66/66\] driver, \d+ s$")

    def test_the_next_is_silent(self):
        self.run_it()
        self.assertEqual(self.run_it().stderr, "")

    def test_interrupted_it_leaves_nothing_running(self):
        for number, status in ((signal.SIGINT, 130), (signal.SIGTERM, 143)):
            process = subprocess.Popen(
                [self.root / "run"], cwd=self.place, stderr=subprocess.PIPE, env=self.environment(RT_WAITS="yes")
            )
            sleeps = self.root / "sleeps"
            while not (sleeps.exists() and sleeps.read_text().endswith("\n")):
                time.sleep(0.02)
            process.send_signal(number)
            _, said = process.communicate(timeout=10)
            self.assertEqual(process.returncode, status)
            self.assertTrue(said.endswith(b"run: interrupted; nothing is left running\n"))
            self.assertFalse(self.is_running(int(sleeps.read_text())))
            sleeps.unlink()


class Runs(Copied):
    def test_events(self):
        for name, status in (("netherbeck", 0), ("fernbank", 1)):
            done = self.run_it("--events", name)
            self.assertEqual((done.returncode, done.stdout), (status, (STORED / f"{name}.events").read_text()))

    def test_a_picture_byte_for_byte_and_the_listing_as_it_is(self):
        for name, status in (("netherbeck", 0), ("fernbank", 1)):
            done = self.run_it(name, "--picture", "drawn.svg")
            self.assertEqual((done.returncode, done.stdout), (status, listing(name)))
            self.assertEqual((self.place / "drawn.svg").read_bytes(), (STORED / f"{name}.svg").read_bytes())

    def test_options_in_any_order(self):
        for arguments in (
            ["netherbeck", "--picture=p.svg", "--events"],
            ["--picture", "p.svg", "netherbeck", "--events"],
            ["--events", "--picture", "p.svg"],
        ):
            self.assertEqual(self.run_it(*arguments).stdout, (STORED / "netherbeck.events").read_text())
            (self.place / "p.svg").unlink()

    def test_a_picture_that_cannot_be_written(self):
        done = self.run_it("--picture", "no/such.svg")
        message = "run: no/such.svg: No such file or directory"
        self.assertEqual((done.returncode, done.stderr.splitlines()[-1]), (2, message))

    def test_a_replay_that_parts_from_the_driver_is_told(self):
        replay = self.root / "bin" / "replay"
        told = "lines.read_text()"
        replay.write_text(replay.read_text().replace(told, f"{told}.replace('step 2753', 'step 2752')"))
        done = self.run_it("--events")
        self.assertEqual(done.returncode, 3)
        self.assertEqual(done.stderr.splitlines()[-1], "run: driver and replay part at 10800: steps of 2753 and 2752 s")


if __name__ == "__main__":
    unittest.main()
