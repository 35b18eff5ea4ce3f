"""Checks of the planes tool: python3 -m unittest discover -s tools"""
import pathlib
import re
import struct
import subprocess
import sys
import tempfile
import unittest

TOOL = pathlib.Path(__file__).resolve().parent / "planes"
PROGRAM = TOOL.parent.parent / "crates" / "planes_cases"
COMMANDS = {3: "to", 4: "from"}
FULL = pathlib.Path("/dev/full")
ANSWER = re.compile(r"(to|from) planes, rows (\d+), bytes (\d+) and (\d+): (\d+)\n([0-9a-f]*)\n")


def orders():
    """Each order of the program's stored input, by its code and what stands behind it."""
    data = (PROGRAM / "stdin").read_bytes()
    (count,), at = struct.unpack_from("<I", data), 4
    for _ in range(count):
        code, size = struct.unpack_from("<II", data, at)
        if code in COMMANDS:
            yield code, struct.unpack_from("<Q", data, at + 4)[0]
            at += 16
        else:
            yield code, data[at + 8 : at + 8 + size]
            at += 8 + size
    assert at == len(data)


def stored_calls():
    """Each call that the program has made: the tool's command, the rows, the first buffer, the number, the second buffer after it."""
    answers = iter(ANSWER.findall((PROGRAM / "stdout").read_text()))
    buffers = {}
    for code, given in orders():
        if code not in COMMANDS:
            buffers[code] = given
            continue
        first, second = (1, 2) if code == 3 else (2, 1)
        *told, number, after = next(answers)
        assert told == [COMMANDS[code], str(given), str(len(buffers[first])), str(len(buffers[second]))]
        buffers[second] = bytes.fromhex(after)
        yield COMMANDS[code], given, buffers[first], int(number), buffers[second]
    assert next(answers, None) is None


class Command(unittest.TestCase):
    def setUp(self):
        folder = tempfile.TemporaryDirectory()
        self.addCleanup(folder.cleanup)
        self.folder = pathlib.Path(folder.name)

    def run_tool(self, *words, given=b""):
        command = [sys.executable, TOOL, *words]
        return subprocess.run(command, cwd=self.folder, input=given, capture_output=True)

    def file(self, name, data):
        (self.folder / name).write_bytes(data)
        return name

    def assert_fails(self, done, status, message):
        self.assertEqual((done.returncode, done.stdout, done.stderr.decode()), (status, b"", message))


class AgainstTheProgram(Command):
    def test_what_the_program_accepts(self):
        accepted = [call for call in stored_calls() if call[3] == 0]
        self.assertGreaterEqual({rows for _, rows, *_ in accepted}, {1, 2, 511, 512})
        for command, rows, first, _, second in accepted:
            done = self.run_tool(command, "--rows", str(rows), self.file("first", first), "second")
            self.assertEqual((done.returncode, done.stderr), (0, b""))
            self.assertEqual((self.folder / "second").read_bytes(), second)

    def test_what_the_program_refuses(self):
        """But for a second buffer of the wrong size: the tool makes its own."""
        refused = [call for call in stored_calls() if call[3] == 13]
        refused = [call for call in refused if not (0 < call[1] < 513 and len(call[2]) == 8 * call[1])]
        self.assertGreaterEqual({rows for _, rows, *_ in refused}, {0, 1, 2, 512, 513, 2**61 + 1, 2**64 - 1})
        for command, rows, first, *_ in refused:
            done = self.run_tool(command, "--rows", str(rows), self.file("first", first), "second")
            self.assertEqual((done.returncode, done.stdout), (1, b""), rows)
            self.assertRegex(done.stderr.decode(), r"^first: refused 13: .*\n$")
            self.assertFalse((self.folder / "second").exists())


class Words(Command):
    def test_the_lowest_bytes_of_all_come_first(self):
        block = bytes(range(16))
        planes = bytes([0, 8, 1, 9, 2, 10, 3, 11, 4, 12, 5, 13, 6, 14, 7, 15])
        self.assertEqual(self.run_tool("to", "-", "-", given=block).stdout, planes)
        self.assertEqual(self.run_tool("from", "-", "-", given=planes).stdout, block)

    def test_a_file_may_be_put_in_its_own_place(self):
        name = self.file("block", bytes(range(16)))
        self.run_tool("to", name, name)
        self.run_tool("from", name, name)
        self.assertEqual((self.folder / name).read_bytes(), bytes(range(16)))

    def test_show(self):
        block = struct.pack("<3dQ", 10.5, -0.0, 1e-300, 0x7FF4000000000001)
        expected = "  0 4025000000000000 10.5\n  1 8000000000000000 -0.0\n  2 01a56e1fc2f8f359 1e-300\n  3 7ff4000000000001 nan\n"
        self.assertEqual(self.run_tool("show", self.file("block", block)).stdout.decode(), expected)
        self.run_tool("to", "block", "planes")
        self.assertEqual(self.run_tool("show", "--planes", "planes").stdout.decode(), expected)


class Refusals(Command):
    def assert_refused(self, reason, data, *options):
        for command in ("to", "from"):
            self.file("given", data)
            self.file("kept", b"kept")
            done = self.run_tool(command, *options, "given", "kept")
            self.assert_fails(done, 1, f"given: refused 13: {reason}\n")
            self.assertEqual((self.folder / "kept").read_bytes(), b"kept")
        self.assert_fails(self.run_tool("show", *options, "given"), 1, f"given: refused 13: {reason}\n")

    def test_no_rows(self):
        self.assert_refused("no rows", b"")

    def test_more_than_512_rows(self):
        self.assert_refused("513 rows, more than 512", bytes(8 * 513))
        self.assert_refused("1,000,000 rows, more than 512", bytes(8_000_000))

    def test_a_byte_short_or_long(self):
        self.assert_refused("1 byte, not whole rows of 8", b"1")
        self.assert_refused("4,095 bytes, not whole rows of 8", bytes(4095))
        self.assert_refused("4,097 bytes, not whole rows of 8", bytes(4097))

    def test_another_number_of_rows(self):
        self.assert_refused("1 row, not 2", bytes(8), "--rows", "2")
        self.assert_refused("2 rows, not 0", bytes(16), "--rows", "0")

    def test_standard_input_is_named(self):
        self.assert_fails(self.run_tool("to", "-", "-"), 1, "standard input: refused 13: no rows\n")


class Errors(Command):
    def test_no_such_file(self):
        self.assert_fails(self.run_tool("to", "block", "planes"), 2, "block: No such file or directory\n")
        self.assertFalse((self.folder / "planes").exists())

    def test_a_file_that_cannot_be_written(self):
        done = self.run_tool("to", self.file("block", bytes(8)), "none/planes")
        self.assert_fails(done, 2, "none/planes: No such file or directory\n")

    def test_a_folder(self):
        self.assert_fails(self.run_tool("show", "."), 2, ".: Is a directory\n")

    @unittest.skipUnless(FULL.exists(), "there is no device that is always full")
    def test_standard_output_that_is_full(self):
        self.file("block", bytes(8))
        for words in (["to", "block", "-"], ["show", "block"]):
            with FULL.open("wb") as full:
                done = subprocess.run([sys.executable, TOOL, *words], cwd=self.folder, stdout=full, stderr=subprocess.PIPE)
            self.assertEqual((done.returncode, done.stderr), (2, b"standard output: No space left on device\n"))

    def test_a_word_is_missing(self):
        done = self.run_tool("to", "block")
        self.assertEqual(done.returncode, 2)
        self.assertIn("the following arguments are required: PLANES", done.stderr.decode())


if __name__ == "__main__":
    unittest.main()
