"""The command ./run: what is asked for, and the answer."""

import os
import pathlib
import signal
import sys
from contextlib import closing
from dataclasses import dataclass

import image_decode

from reader import ROOT, build, picture, programs, slow, states, stops, works
from reader.events import Events
from reader.failure import REFUSED, Failure
from reader.interruption import INTERRUPTION, Interrupted
from reader.listing import STOP_COLUMNS, Listing, timed, timed_stop
from reader.timeline import Timeline

USAGE = """\
./run [OPTION ..] [NAME | FILE | FILE.txt | -]     the listing of a works, by the proved driver

  NAME                 a works of the stock; netherbeck if nothing is named
  FILE                 an image as the driver reads it: the count of words, the words, then loads
  FILE.txt             a text in the form of tools/README.md, with the loads of FILE.loads if that stands beside it
  -                    standard input: an image, or a text, which has no byte 0

  --times              the listing or the stops with a title, and for each line the day and the times of day
  --events             in place of the listing what happens, a line for each time: elapsed h:mm:ss, and the day and the
                       time of day where the run begins at another time than 0:00 or is longer than a day
  --picture FILE.svg   draws the run too: levels, pumps and valves, control instants, steps
  --slow               the listing by the second clock, which walks a second at a time, in place of the driver; it does
                       not serve works with tanks, on the fast path, or with every timestep above a day: refused 14
  --stops              in place of the listing the instants at which a run stops, known before it runs, and how many;
                       the line none for works with tanks, on the fast path, with a hydraulic timestep below both report
                       and pattern timestep, or with both of these above a day
  --causes             with --slow, and behind each step what calls for the stop at its end; or with --stops, and behind
                       each instant what calls for it
  --list               the works of the stock, one line each
  --help               this text

In the events a tank is full or empty, or at a control's level, when less than half a cubic foot is missing, as for the
length of a step; rising and falling say how it came there. Names are those of FILE.txt beside FILE.image, if it is the
text of that image; else they are made of sort and index as in tools/README.md: T1, J2, pipe0, pump1.

The programs are built by `rt run`; the first time that proves every crate they stand on, and takes minutes.

Exit status: 0; 1 refused, or no stops known, and standard error says why; 2 the command, a file or a proof is wrong;
3 a program died or printed what cannot be; 130 interrupted.
"""

TWO_ANSWERS = [
    ("times", "events"),
    ("slow", "events"),
    ("slow", "picture"),
    ("stops", "slow"),
    ("stops", "events"),
    ("stops", "picture"),
]


@dataclass
class Asked:
    works: str = None
    times: bool = False
    events: bool = False
    picture: str = None
    slow: bool = False
    stops: bool = False
    causes: bool = False
    list: bool = False
    help: bool = False


def say(message):
    print(message, file=sys.stderr, flush=True)


def wrong(message):
    return Failure(f"{message}; ./run --help has the forms")


# --- What is asked for ---


def parse(arguments):
    asked, left = Asked(), list(arguments)
    while left:
        word = left.pop(0)
        if word in ("--times", "--events", "--slow", "--stops", "--causes", "--list", "--help"):
            setattr(asked, word[2:], True)
        elif word == "-h":
            asked.help = True
        elif word == "--picture" or word.startswith("--picture="):
            asked.picture = picture_file(word, left)
        elif word.startswith("-") and word != "-":
            raise wrong(f"there is no option {word}")
        elif asked.works is not None:
            raise wrong(f"one works at a time, and {word} is one more than {asked.works}")
        else:
            asked.works = word
    judge(asked)
    return asked


def judge(asked):
    """Whether the options go together."""
    for one, other in TWO_ANSWERS:
        if getattr(asked, one) and getattr(asked, other):
            raise wrong(f"--{one} and --{other} are two answers: ask for one")
    if asked.causes and not (asked.slow or asked.stops):
        raise wrong("--causes goes with --slow or --stops only")
    if asked.list and asked.works is not None:
        raise wrong(f"--list is of the whole stock, and {asked.works} is one word more")


def picture_file(word, left):
    """The file of --picture FILE.svg or --picture=FILE.svg."""
    name = word.partition("=")[2] if "=" in word else left.pop(0) if left else ""
    if not name.endswith(".svg"):
        raise wrong(f"--picture needs a file whose name ends in .svg{', not ' + name if name else ''}")
    return name


# --- The answer ---


def answer(asked):
    if asked.help:
        print(USAGE, end="")
        return 0
    if asked.list:
        for name, path in works.stock().items():
            print(f"{name:12} {works.title_of(path.read_text())}")
        return 0
    item = works.find("netherbeck" if asked.works is None else asked.works)
    first, *rest = build.build(ROOT, needed(asked), say)
    if asked.times or asked.events:
        print(item.title)
    if asked.stops:
        return show_stops(first, item, asked)
    lines = slow.listing(first, item) if asked.slow else printed(first, item)
    listed = list_steps(lines, item, asked)
    reason = explain(refusal_of(item, listed.refused)) if listed.refused else ""
    if rest and listed.accepted:
        show_run(rest[0], item, listed, reason, asked)
    return REFUSED if listed.refused else 0


def needed(asked):
    """The programs that give the answer."""
    if asked.stops:
        return ["timetable"]
    if asked.slow:
        return ["replay"]
    return ["driver", "replay"] if asked.events or asked.picture is not None else ["driver"]


def printed(program, item):
    """The lines that a program prints for a works, as they come."""
    with closing(programs.lines(program, item.data)) as lines:
        for line in lines:
            yield line.decode(errors="replace")


def list_steps(lines, item, asked):
    """Takes the lines of a listing, prints them where no events stand in their place, and answers what they say."""
    listed = Listing()
    with closing(lines):
        for line in lines:
            listed.take(line)
            if not (asked.events and listed.accepted):
                print(shown(line, item, listed, asked))
    listed.judge_end()
    return listed


def shown(line, item, listed, asked):
    """The last line that was taken, with what is asked for beside it."""
    told = timed(line, works.start_clock(item.data)) if asked.times and listed.accepted else line
    if asked.causes and line[0].isdigit():
        told += f"  {slow.causes(item.network, *listed.steps[-1])}"
    return told


def explain(reason):
    """Says on standard error why a works is refused or has no stops beforehand, and answers that."""
    sys.stdout.flush()
    say(reason)
    return reason


def refusal_of(item, number):
    """Why the driver or the second clock refuses a works."""
    return slow.reason(item.network) if number == slow.NOT_SERVED else fault_of(item, number)


def fault_of(item, number):
    """The fault of the driver's input that a program refuses with a number."""
    fault = image_decode.judge(item.data, item.names)
    if fault is None or fault.number != number:
        return f"refused {number}: and tools/image_decode.py, which has the reasons, says {fault}"
    return str(fault)


def show_stops(timetable, item, asked):
    """Prints the stops of a works, and answers the exit status."""
    told = stops.Stops(item)
    with closing(printed(timetable, item)) as lines:
        for line in lines:
            told.take(line)
            print(shown_stop(line, told, asked))
    told.judge_end()
    if told.none:
        explain(stops.reason(told.network))
    if told.refused:
        explain(fault_of(item, told.refused))
    return REFUSED if told.none or told.refused else 0


def shown_stop(line, told, asked):
    """The last line that was taken, with what is asked for beside it; the columns have their heads above the first."""
    if told.ended:
        return line
    text = timed_stop(told.last, told.network.start_clock) if asked.times else line
    if asked.causes:
        text += f"  {stops.causes(told.network, told.last)}"
    return f"{STOP_COLUMNS}\n{text}" if asked.times and told.count == 1 else text


def show_run(replay, item, listed, reason, asked):
    """Prints the events of a run and draws its picture, as asked."""
    network, tables = item.network, item.network.tables
    with closing(programs.lines(replay, states.input_of(item.data, tables, listed))) as lines:
        run = states.Run(lines, item.data, tables, listed)
        events, timeline = Events(network, run.start, reason), Timeline(network, run.start)
        for turn in run.turns():
            if asked.events:
                tell(events.take(turn))
            if asked.picture is not None:
                timeline.take(turn)
    if asked.events and not listed.refused:
        tell(events.end())
    if asked.picture is not None:
        save(asked.picture, picture.drawn(item.title, timeline))


def tell(lines):
    for line in lines:
        print(line)


def save(name, text):
    try:
        pathlib.Path(name).write_text(text, encoding="utf-8")
    except OSError as error:
        raise Failure(f"{name}: {error.strerror}") from None


def main(arguments):
    INTERRUPTION.listen()
    try:
        status = answer(parse(arguments))
        sys.stdout.flush()
        return status
    except Failure as failure:
        sys.stdout.flush()
        say(f"run: {failure}")
        return failure.status
    except Interrupted as interrupted:
        say("run: interrupted; nothing is left running")
        return 128 + interrupted.number
    except BrokenPipeError:
        # Whoever read the listing has read enough; Python would complain once more when it closes standard output.
        os.dup2(os.open(os.devnull, os.O_WRONLY), sys.stdout.fileno())
        return 128 + signal.SIGPIPE
