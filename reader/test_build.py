"""Tests of what is said while crates are proved."""

import sys
import unittest

sys.dont_write_bytecode = True

from reader import build  # noqa: E402

TABLE = """
# lowest first
number:
tank: number   # feet
io_words: io
driver: tank io_words io libc
other: number
"""


class Clock:
    now = 100.0

    def __call__(self):
        return self.now


class Crates(unittest.TestCase):
    def test_those_that_a_program_stands_on(self):
        self.assertEqual(build.reached(TABLE, ["driver"]), ["number", "tank", "io_words", "driver"])
        self.assertEqual(build.reached(TABLE, ["tank", "other"]), ["number", "tank", "other"])


class Progress(unittest.TestCase):
    def setUp(self):
        self.clock, self.said = Clock(), []

    def progress(self, first=False):
        return build.Progress(["driver"], ["number", "tank", *"abcdefg", "driver"], first, self.said.append, self.clock)

    def proved(self, progress, name, seconds):
        self.clock.now += seconds
        progress.line(f"crate {name}: modules loaded=148 checked=0")
        progress.line("logic=proved functions=5 sum=dac8208d650f15bf incremental=trusted")

    def test_each_crate_with_how_many_are_left_and_how_long(self):
        progress = self.progress(first=True)
        self.proved(progress, "number", 10)
        self.proved(progress, "tank", 20)
        for name in "abcdefg":
            self.proved(progress, name, 60)
        self.proved(progress, "driver", 5)
        self.assertEqual(self.said[0], "run: proving and building driver, 10 crates; this first time takes minutes")
        self.assertEqual(self.said[1], "[1/10] number, 10 s; 9 left, about 2 min")
        self.assertEqual(self.said[2], "[2/10] tank, 20 s; 8 left, about 2 min")
        self.assertEqual(self.said[9], "[9/10] g, 60 s; 1 left, about 50 s")
        self.assertEqual(self.said[10], "[10/10] driver, 5 s")

    def test_unchanged_crates_count_and_are_not_named(self):
        """rt says nothing of them."""
        progress = self.progress()
        self.assertEqual(self.said, [])
        self.proved(progress, "g", 3)
        self.assertEqual(self.said[-1], "[9/10] g, 3 s; 1 left, about 3 s")

    def test_what_is_quick_is_not_spoken_of(self):
        progress = self.progress()
        self.proved(progress, "tank", 1)
        self.proved(progress, "driver", 1)
        self.assertEqual(self.said, [])

    def test_a_wait_is_told_once(self):
        progress = self.progress()
        progress.waited()
        progress.waited()
        self.assertEqual(self.said, ["run: proving and building driver, 10 crates"])

    def test_other_lines_are_no_crates(self):
        progress = self.progress(first=True)
        for line in (
            "rt: nothing has changed since the last proved build, by out/driver.stamp, so nothing is checked now",
            "library number: modules loaded=86 checked=0", "crate libc: modules loaded=1 checked=0", "logic=proved functions=5",
            "crate tank: modules loaded=1 checked=5", "logic=not-proved functions=5",
        ):
            progress.line(line)
        self.assertEqual((len(self.said), progress.proved), (1, 0))


if __name__ == "__main__":
    unittest.main()
