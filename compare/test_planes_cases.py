"""Checks of the orders that `planes_cases` is run on: python3 -m unittest discover -s compare"""
import math
import pathlib
import struct
import subprocess
import sys
import unittest

import planes
from planes import ROW


class Recorded(planes.Script):
    """A script that remembers its calls: the rows, both buffers before the call, and the second one after it."""

    def __init__(self):
        super().__init__()
        self.calls = []

    def to_planes(self, rows, times=1):
        first, second = self.block, self.planes
        super().to_planes(rows, times)
        self.calls.append(("to", rows, first, second, self.planes))

    def from_planes(self, rows, times=1):
        first, second = self.planes, self.block
        super().from_planes(rows, times)
        self.calls.append(("from", rows, first, second, self.block))


def is_sized(rows, first, second):
    return 0 < rows < 513 and len(first) == len(second) == ROW * rows


class Orders(unittest.TestCase):
    def setUp(self):
        self.calls = planes.script(Recorded()).calls

    def test_both_calls_have_every_number_of_rows_and_every_wrong_size(self):
        for call in ("to", "from"):
            asked = {(rows, len(first), len(second)) for name, rows, first, second, _ in self.calls if name == call}
            self.assertLessEqual({(rows, ROW * rows, ROW * rows) for rows in (0, 1, 2, 511, 512, 513)}, asked)
            for rows in (1, 512):
                exact = ROW * rows
                for off in (-1, 1):
                    self.assertLessEqual({(rows, exact + off, exact), (rows, exact, exact + off)}, asked)
            # Rows whose 8 bytes each wrap to the size of the buffers.
            self.assertTrue(any(rows >= 2**61 and ROW * rows % 2**64 == first == second for rows, first, second in asked))

    def test_a_refused_call_has_a_second_buffer_of_aa_that_stays(self):
        refused = [call for call in self.calls if not is_sized(*call[1:4])]
        self.assertGreater(len(refused), 40)
        for _, rows, _, second, after in refused:
            self.assertEqual(after, second, rows)
            self.assertEqual(second, b"\xaa" * len(second), rows)

    def test_a_call_that_is_accepted_changes_the_buffer(self):
        for _, rows, first, second, after in self.calls:
            if is_sized(rows, first, second) and rows > 1:
                self.assertNotEqual(after, second)
                self.assertEqual(sorted(after), sorted(first))

    def test_there_are_nans_with_payloads(self):
        blocks = [first for name, rows, first, second, _ in self.calls if name == "to" and is_sized(rows, first, second)]
        numbers = [pair for block in blocks for pair in zip(struct.iter_unpack("<Q", block), struct.iter_unpack("<d", block))]
        payloads = {bits % 2**52 for (bits,), (number,) in numbers if math.isnan(number)}
        self.assertGreater(len(payloads), 500)


class EveryNumberOfRows(unittest.TestCase):
    def test_each_stands_once_for_each_call(self):
        told = planes.every_number_of_rows(1).printed[::2]
        rows = [f"rows {rows}, bytes {ROW * rows} and {ROW * rows}: 0" for rows in range(1, 513)]
        self.assertEqual(told, [f"{call} planes, {one}" for one in rows for call in ("to", "from")])

    def test_a_program_that_prints_something_else_is_named(self):
        command = [sys.executable, pathlib.Path(planes.__file__), "--every", "cat"]
        done = subprocess.run(command, capture_output=True, check=False)
        self.assertEqual((done.returncode, done.stdout, done.stderr), (1, b"", b"cat: another answer\n"))


if __name__ == "__main__":
    unittest.main()
