"""Signals that ask for an end: raised as Interrupted, but for the moments in which a program is started or stopped."""

import contextlib
import signal

SIGNALS = (signal.SIGINT, signal.SIGTERM, signal.SIGHUP)


class Interrupted(BaseException):
    """Like KeyboardInterrupt, nothing on the way takes it for an error."""

    def __init__(self, number):
        super().__init__(number)
        self.number = number


class Interruption:
    def __init__(self):
        self.held, self.came = False, None

    def listen(self):
        for number in SIGNALS:
            signal.signal(number, self.take)

    def take(self, number, frame):
        if not self.held:
            raise Interrupted(number)
        self.came = number

    @contextlib.contextmanager
    def held_back(self):
        """A signal that comes in this block is raised behind it."""
        self.held = True
        try:
            yield
        finally:
            self.held = False
        if self.came is not None:
            number, self.came = self.came, None
            raise Interrupted(number)


INTERRUPTION = Interruption()
