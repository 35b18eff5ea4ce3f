"""Programs run beside this one: what they print as it comes, and none left running."""

import contextlib
import os
import signal
import subprocess
import tempfile
import time

from reader.failure import DIED, Failure
from reader.interruption import INTERRUPTION

LONGEST_END = 5.0  # seconds that killed processes may take to go; one that nobody reaps stays as a zombie


@contextlib.contextmanager
def started(command, **options):
    """A program that leads a group of its own. However the block ends, nothing of the group is left running."""
    process = None
    try:
        with INTERRUPTION.held_back():
            process = subprocess.Popen(command, **options, stdout=subprocess.PIPE, start_new_session=True)
        with process.stdout:
            yield process
    finally:
        with INTERRUPTION.held_back():
            if process:
                stop(process)
                drop_input(process)


def stop(process):
    """Ends a process that leads its group, and all that it has started, and waits until they are gone."""
    if process.poll() is None:
        os.killpg(process.pid, signal.SIGTERM)
        # Not reaped yet, so that the group's number is nobody else's.
        os.waitid(os.P_PID, process.pid, os.WEXITED | os.WNOWAIT)
        os.killpg(process.pid, signal.SIGKILL)
        process.wait()
        latest = time.monotonic() + LONGEST_END
        while has_members(process.pid) and time.monotonic() < latest:
            time.sleep(0.01)


def drop_input(process):
    """Closes the pipe to a process that is gone, with what it has not read."""
    if process.stdin:
        with contextlib.suppress(BrokenPipeError):
            process.stdin.close()


def has_members(group):
    try:
        os.killpg(group, 0)
    except ProcessLookupError:
        return False
    return True


def ended(status):
    """How a program ended, in words."""
    if status > 0:
        return f"ended with status {status}"
    return f"was ended by signal {-status}, {signal.strsignal(-status)}"


def printed(process, name):
    """The lines that a program prints as they come, as bytes without their ends; Failure where it dies."""
    count = 0
    for line in process.stdout:
        if not line.endswith(b"\n"):
            break  # cut, so it says nothing: a 36 may be the beginning of 3600
        count += 1
        yield line[:-1]
    if status := process.wait():
        raise Failure(f"the program {name} {ended(status)}, after {count} lines", DIED)


def lines(path, data):
    """The lines that a program prints for an input."""
    # From a file, so that a program may print before it has read everything.
    with tempfile.TemporaryFile() as stdin:
        stdin.write(data)
        stdin.seek(0)
        with started([path], stdin=stdin) as process:
            yield from printed(process, path.name)


class Conversation:
    """A program that is given its input in pieces, and the lines that it answers."""

    def __init__(self, process, name):
        self.process, self.lines = process, printed(process, name)

    def give(self, data):
        # One that has died reads nothing; the line that does not come tells how it died.
        with contextlib.suppress(BrokenPipeError):
            self.process.stdin.write(data)
            self.process.stdin.flush()


@contextlib.contextmanager
def conversation(path):
    """A program to talk with; it is stopped when the block ends."""
    with started([path], stdin=subprocess.PIPE) as process:
        yield Conversation(process, path.name)
