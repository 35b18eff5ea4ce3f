"""The programs under comparison, and their answers to many cases."""

import struct
import subprocess
from pathlib import Path

from image import DRIVER, LEVELS, REPLAY, TIMETABLE

MODES = {REPLAY: "replay", DRIVER: "driver", TIMETABLE: "timetable", LEVELS: "levels"}

# An empty input has no image, which is number 1.
PROBE, PROBE_ANSWER = b"", b"refused 1\n"


class Program:
    """A program with the modes of MODES and, where it has one, `batch`; or one program for each mode."""

    def __init__(self, path=None, replay=None, driver=None, timetable=None, levels=None, batch=None, timeout=600):
        alone = {REPLAY: replay, DRIVER: driver, TIMETABLE: timetable, LEVELS: levels}
        self.commands = {mode: command(alone[mode]) or command(path, name) for mode, name in MODES.items()}
        self.timeout = timeout
        self.batch = command(batch) or command(path, "batch")
        if self.batch and self.batch_answers([(REPLAY, PROBE)]) != [PROBE_ANSWER]:
            self.batch = None

    def can(self, mode):
        return bool(self.batch or self.commands[mode])

    def answers(self, inputs):
        """The answer to each pair of a mode and input bytes."""
        if not self.batch:
            return [self.single_answer(mode, data) for mode, data in inputs]
        answers = []
        while len(answers) < len(inputs):
            answers += self.batch_answers(inputs[len(answers):])
            if len(answers) < len(inputs):
                # The batch ended early: the next case is the one that ended it.
                answers.append(self.single_answer(*inputs[len(answers)]))
        return answers

    def answer(self, mode, data):
        return self.answers([(mode, data)])[0]

    def batch_answers(self, inputs):
        """The answers that came before the batch ended."""
        framed = b"".join(struct.pack("<II", mode, len(data)) + data for mode, data in inputs)
        try:
            done = subprocess.run(self.batch, input=framed, capture_output=True, timeout=self.timeout)
        except (OSError, subprocess.TimeoutExpired):
            return []
        return list(unframed(done.stdout))[: len(inputs)]

    def single_answer(self, mode, data):
        if not self.commands[mode]:
            return b"no answer from the batch\n"
        try:
            done = subprocess.run(self.commands[mode], input=data, capture_output=True, timeout=self.timeout)
        except subprocess.TimeoutExpired:
            return b"no answer in time\n"
        ended = b"" if done.returncode == 0 else b"ended with code %d\n" % done.returncode
        return done.stdout + ended


def add_arguments(parser):
    """The options by which a command line names the program that is compared."""
    modes = ", ".join(MODES.values())
    parser.add_argument("--ours", help=f"a program with the modes {modes}, and batch if it has it")
    for name in (*MODES.values(), "batch"):
        parser.add_argument(f"--{name}", help=f"a program that is our {name}")


def named_by(arguments, parser):
    named = [getattr(arguments, name) for name in ("ours", *MODES.values(), "batch")]
    if not any(named):
        parser.error("no program: give --ours, or --" + ", --".join(MODES.values()) + " or --batch")
    return Program(*named)


def command(path, *arguments):
    return [str(Path(path).resolve()), *arguments] if path else None


def unframed(data):
    """The whole frames of a batch's output."""
    at = 0
    while at + 4 <= len(data):
        length = struct.unpack_from("<I", data, at)[0]
        if at + 4 + length > len(data):
            return
        yield data[at + 4 : at + 4 + length]
        at += 4 + length
