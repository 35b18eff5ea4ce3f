"""Tests of programs run beside this one, and of signals that come while one is started."""

import pathlib
import signal
import subprocess
import sys
import unittest
import unittest.mock

sys.dont_write_bytecode = True

from reader import programs  # noqa: E402
from reader.failure import DIED, Failure  # noqa: E402
from reader.interruption import INTERRUPTION, Interrupted, Interruption  # noqa: E402


class Signals(unittest.TestCase):
    def test_one_that_is_held_back_is_raised_behind(self):
        interruption, passed = Interruption(), []
        with self.assertRaises(Interrupted):
            with interruption.held_back():
                interruption.take(signal.SIGTERM, None)
                passed.append("the block")
        self.assertEqual(passed, ["the block"])
        with self.assertRaises(Interrupted):
            interruption.take(signal.SIGTERM, None)

    def test_a_program_that_is_just_being_started_is_ended(self):
        begun = []

        def interrupted_start(*arguments, **options):
            begun.append(popen(*arguments, **options))
            INTERRUPTION.take(signal.SIGINT, None)
            return begun[0]

        popen = subprocess.Popen
        with unittest.mock.patch("subprocess.Popen", interrupted_start), self.assertRaises(Interrupted):
            with programs.started(["sleep", "600"]):
                begun.append("the block")
        self.assertEqual(len(begun), 1)
        self.assertEqual(begun[0].returncode, -signal.SIGTERM)


class Lines(unittest.TestCase):
    def test_what_is_printed_for_an_input(self):
        self.assertEqual(list(programs.lines(pathlib.Path("/bin/cat"), b"one\ntwo\n")), [b"one", b"two"])

    def test_a_status_is_told(self):
        with self.assertRaisesRegex(Failure, "the program false ended with status 1, after 0 lines") as caught:
            list(programs.lines(pathlib.Path("/bin/false"), b""))
        self.assertEqual(caught.exception.status, DIED)

    def test_one_that_is_cut_is_none(self):
        lines = programs.lines(pathlib.Path("/bin/sh"), b"printf '0 3600\\n3600 36'; exit 3")
        self.assertEqual(next(lines), b"0 3600")
        with self.assertRaisesRegex(Failure, "the program sh ended with status 3, after 1 lines"):
            next(lines)


def end_a_wait(test):
    """Two programs that wait for each other would do so for good: after a minute the tests are killed."""
    signal.alarm(60)
    test.addCleanup(signal.alarm, 0)


class Conversations(unittest.TestCase):
    def setUp(self):
        end_a_wait(self)

    def test_each_piece_is_answered_before_the_next_and_then_it_is_stopped(self):
        with programs.conversation(pathlib.Path("/bin/cat")) as talk:
            for piece in (b"one\n", b"two\n"):
                talk.give(piece)
                self.assertEqual(next(talk.lines), piece.rstrip())
        self.assertEqual(talk.process.returncode, -signal.SIGTERM)
        self.assertTrue(talk.process.stdin.closed)

    def test_a_piece_for_one_that_has_died(self):
        with programs.conversation(pathlib.Path("/bin/false")) as talk:
            talk.process.wait()
            for _ in range(2):
                talk.give(b"one\n")
            with self.assertRaisesRegex(Failure, "the program false ended with status 1, after 0 lines"):
                next(talk.lines)

    def test_interrupted_over_a_piece_that_nobody_reads(self):
        before = signal.signal(signal.SIGALRM, INTERRUPTION.take)
        self.addCleanup(signal.signal, signal.SIGALRM, before)
        with self.assertRaises(Interrupted):
            with programs.started(["sleep", "600"], stdin=subprocess.PIPE) as process:
                signal.setitimer(signal.ITIMER_REAL, 0.2)
                programs.Conversation(process, "sleep").give(bytes(1_000_000))
        self.assertEqual(process.returncode, -signal.SIGTERM)


if __name__ == "__main__":
    unittest.main()
