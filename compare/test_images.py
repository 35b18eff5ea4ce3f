"""Checks of the test batch and of the decoder's numbers on it: python3 -m unittest discover -s compare"""
import collections
import pathlib
import struct
import tempfile
import unittest

import images
from images import image_decode

ROWS = images.rows()


class Batch(unittest.TestCase):
    def test_the_decoder_gives_each_row_its_number(self):
        for row in ROWS:
            self.assertEqual(image_decode.decode(row.words).number, row.number, row.name)

    def test_names_tell_the_rows_apart(self):
        names = collections.Counter(row.name for row in ROWS)
        self.assertEqual([name for name, count in names.items() if count > 1], [])
        self.assertFalse(any("\n" in name for name in names))

    def test_every_number_has_rows(self):
        self.assertEqual({row.number for row in ROWS}, {0, 1, 2, 3, 4, 5, 6})

    def test_words_are_words(self):
        for row in ROWS:
            self.assertTrue(all(0 <= word < 1 << 32 for word in row.words), row.name)

    def test_the_longest_are_as_long_as_they_say(self):
        lengths = {row.name: len(row.words) for row in ROWS if row.name.startswith("16,38") or "exactly" in row.name}
        for name, length in lengths.items():
            self.assertIn(f"{length:,} words", name)

    def test_the_good_image_has_what_the_rows_count_on(self):
        project = image_decode.decode(images.image())
        self.assertEqual(len(project.patterns), images.PATTERNS)
        self.assertEqual(len(project.nodes), images.NODES)
        self.assertEqual(len(project.links), images.LINKS)

    def test_the_files(self):
        with tempfile.TemporaryDirectory() as folder:
            images.write(folder)
            folder = pathlib.Path(folder)
            lines = (folder / "expected").read_text(encoding="utf-8").splitlines()
            self.assertEqual(len(lines), len(ROWS))
            # Three digits number the files.
            self.assertLessEqual(len(ROWS), 1000)
            for i, (line, row) in enumerate(zip(lines, ROWS)):
                path = folder / f"case{i:03}"
                self.assertEqual(line, f"{row.number} {row.name}")
                self.assertEqual(path.read_bytes(), images.driver_input(row.words))
                self.assertEqual(image_decode.decode_input(path.read_bytes()).number, row.number, row.name)


class Decoder(unittest.TestCase):
    def test_the_tables_of_the_good_image(self):
        project = image_decode.decode(images.image())
        self.assertEqual(project.options["start clock"], 82_800)
        self.assertEqual(project.options["demand multiplier"], 1.0)
        self.assertEqual([pattern["multipliers"] for pattern in project.patterns], [[1.0, 0.5], [1.5, -0.5, 0.25]])
        self.assertEqual([node["kind"] for node in project.nodes], ["reservoir", "tank", "junction", "junction"])
        self.assertEqual(project.nodes[1]["greatest"], 12.0)
        self.assertEqual(project.nodes[2]["demands"], [(1.0, 1), (-2.0, 0), (0.5, 2), (0.25, 2)])
        self.assertEqual(project.nodes[3]["demands"], [])
        links = [(link["start"], link["end"], link["sort"]) for link in project.links]
        self.assertEqual(links, [(0, 1, 0), (0, 2, 1), (2, 3, 2)])
        self.assertEqual([control["condition"] for control in project.controls], [0, 1, 2, 3, 4, 5])
        self.assertEqual(project.controls[5]["setting"], 1.5)
        self.assertEqual([premise["value"] for premise in project.premises], [10.5, 2, 7_200])

    def test_the_place_of_a_fault(self):
        good = images.image()
        cases = [
            # the words, the record, where it begins, the words in front of it that are read
            (images.image(options=images.options(report=0)), 1, 0, 0),
            (images.image(pattern_0=images.pattern(images.NAN)), 2, 11, 11),
            (images.image(options=images.options(default_pattern=9)), 1, 0, len(good)),
            (good + [0], 20, len(good), len(good)),
        ]
        for words, record, at, read in cases:
            decoded = image_decode.decode(words)
            self.assertEqual((decoded.fault.record, decoded.fault.at, decoded.read), (record, at, read))

    def test_files_that_are_no_count_and_words(self):
        for data in [
            b"",
            b"\x01\x00\x00",
            struct.pack("<I", 0),
            struct.pack("<I", 1),
            struct.pack("<II", 2, 0),
            struct.pack("<I", 16_385) + bytes(4 * 16_385),
        ]:
            self.assertEqual(image_decode.judge(data).number, 1)

    def test_loads(self):
        project = image_decode.decode(images.image())
        # Three links and two junctions.
        good = images.record(15, *[images.number(x) for x in [1e12, -1e12, 0.0, images.MINUS_ZERO, 5.0]])
        self.assertIsNone(image_decode.judge_load(project, good))
        beyond = images.above(1e12)
        faults = [
            (7, []),
            (7, good[:-1]),
            (7, good + [0]),
            (7, good[:1]),
            (7, images.with_bit(good, 16)),
            (7, [good[0] & 0x0FFFFFFF] + good[1:]),
            (7, images.of_size(good, 8)),
            (7, images.of_size(good, 12)),
            (8, good[:-2] + images.number(beyond)),
            (8, good[:-2] + images.number(-beyond)),
            (8, good[:-2] + images.number(images.NAN)),
            (8, good[:-2] + images.number(images.INFINITY)),
            (7, (good[:-2] + images.number(images.NAN))[:-1]),
        ]
        for number, words in faults:
            self.assertEqual(image_decode.judge_load(project, words).number, number)


if __name__ == "__main__":
    unittest.main()
