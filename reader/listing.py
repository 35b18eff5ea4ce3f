"""The driver's listing: its lines as they are, with times of day, and how it ended; times of day of stops."""

from dataclasses import dataclass, field

from reader.failure import DIED, Failure

DAY = 86_400  # seconds
HEADER = "from length"
STOP_COLUMNS = f"{'at':>10}   day  time"


def clock(seconds):
    """A time of day."""
    seconds %= DAY
    return f"{seconds // 3600:02}:{seconds // 60 % 60:02}:{seconds % 60:02}"


def elapsed(seconds):
    """A time of the run."""
    return f"{seconds // 3600}:{seconds // 60 % 60:02}:{seconds % 60:02}"


def counted(steps):
    return f"{steps:,} step" if steps == 1 else f"{steps:,} steps"


def day(seconds):
    """The day of the run, from 1."""
    return seconds // DAY + 1


@dataclass
class Listing:
    """What the lines say, taken one by one."""

    accepted: bool = False  # the image; its loads may be refused yet
    steps: list = field(default_factory=list)  # (instant, length)
    refused: int = 0  # document 01's number
    ended: bool = False

    def take(self, line):
        first, _, second = line.partition(" ")
        if first == "from":
            self.accepted = True
        elif first == "refused":
            self.refused, self.ended = int(second), True
        elif first == "steps":
            self.ended = True
        else:
            self.steps.append((int(first), int(second)))

    def judge_end(self):
        if not self.ended:
            raise Failure("the driver's listing has no last line", DIED)


def dated(seconds):
    """The day of the run and the time of day, in the columns that they have."""
    return f"{day(seconds):3}  {clock(seconds)}"


def timed(line, start):
    """A line of the listing with the day and the times of day at which its step begins and ends."""
    first, _, second = line.partition(" ")
    if first == "from":
        return f"{first:>10} {second:>8}   day  from      to"
    if not first.isdigit():
        return line
    begin, end = start + int(first), start + int(first) + int(second)
    later = f"  day {day(end)}" if day(end) != day(begin) else ""
    return f"{first:>10} {second:>8}   {dated(begin)}  {clock(end)}{later}"


def timed_stop(instant, start):
    """The instant of a stop with its day and time of day, under STOP_COLUMNS."""
    return f"{instant:>10}   {dated(start + instant)}"
