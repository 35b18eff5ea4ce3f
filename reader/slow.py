"""The listing by the second clock, which walks a second at a time: the driver's calls, asked of `replay` one by one.

The driver has no part in it. What calls for a stop is worked out once more, from the tables by document 02.
"""

import struct
from contextlib import closing

import image_decode

from reader import programs, stops
from reader.failure import DIED, Failure
from reader.listing import HEADER
from reader.network import DAY
from reader.states import NAMES, SLOW, Lines, image_of, loads_of, refusal, turn_calls

NOT_SERVED = 14  # document 02's number
MOST_CALLS = 5  # of a turn


# --- The listing ---


def listing(replay, item):
    """The lines of a listing in the driver's form, as they come."""
    if number := refused(replay, item):
        yield f"refused {number}"
        return
    yield HEADER
    with programs.conversation(replay) as talk:
        yield from Engine(talk, item).lines()


def refused(replay, item):
    """The number of an image's fault, or 14 where the second clock does not serve it; else 0."""
    with closing(programs.lines(replay, single_call(item.data))) as printed:
        lines = list(printed)
    if lines and lines[0].startswith(b"refused "):
        return int(lines[0].split()[1])
    answers = Lines(lines, item.network.tables)
    answers.next("start")
    return refusal(answers.next(NAMES[SLOW])[0])


def single_call(data):
    """The input with one call of the second clock; none behind a cut image, whose missing words it would be."""
    if image_decode.count_fault(data):
        return data
    return image_of(data) + struct.pack("<2I", 1, SLOW)


class Engine:
    """A `replay` that is asked a call at a time: were more sent on, both could wait for ever, each at a full pipe."""

    def __init__(self, talk, item):
        self.talk = talk
        self.duration = item.network.duration
        self.loads = loads_of(item.data, item.network.tables)
        self.answers = Lines(talk.lines, item.network.tables)
        # Every turn moves the clock, by a second at least; calls that are left at the end are not made.
        talk.give(image_of(item.data) + struct.pack("<I", MOST_CALLS * self.duration))
        _, self.state = self.answers.next("start")

    def lines(self):
        """The lines behind the header."""
        turns = 0
        while self.state.instant < self.duration:
            begin, answer = self.state.instant, self.turn()
            if number := refusal(answer):
                yield f"refused {number}"
                return
            self.judge_step(begin, int(answer))
            turns += 1
            yield f"{begin} {answer}"
        if self.state.count != turns:
            raise Failure(f"replay counts {self.state.count} steps where {turns} were made", DIED)
        yield f"steps {turns}"

    def turn(self):
        """Makes the calls of a turn, as far as none is refused, and answers the last one's answer."""
        for words in turn_calls(self.loads, SLOW):
            self.talk.give(struct.pack(f"<{len(words)}I", *words))
            answer, self.state = self.answers.next(NAMES[words[0]])
            if refusal(answer):
                break
        return answer

    def judge_step(self, begin, length):
        """A step moves the clock by its answer and to the duration at most; one of 0 would be asked for without end."""
        end = self.state.instant
        if not begin < end == begin + length <= self.duration:
            raise Failure(f"the second clock answers {length} s at {begin} and leaves {end}", DIED)


# --- Why it does not serve ---


def reason(network):
    """Why the second clock does not serve a works."""
    options = network.tables.options
    which = stops.stepped_otherwise(network)
    if not which and min(options["report"], options["pattern timestep"], network.hydraulic) > DAY:
        which = "with report, pattern and hydraulic timestep all above a day"
    if not which:
        return f"refused {NOT_SERVED}: and reader/slow.py, which has the reasons, finds none"
    return f"refused {NOT_SERVED}: the second clock does not serve works {which}"


# --- What calls for a stop ---


def causes(network, begin, length):
    """What calls for the stop at which a step ends, as its line has it."""
    return stops.causes(network, begin + length, "the second clock", length == network.hydraulic)
