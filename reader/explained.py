#!/usr/bin/env python3
"""Checks on generated works that every change in the proved programs' states has its reason.

    reader/explained.py FIRST LAST

For each seed it runs crates/driver/out/driver and crates/replay/out/replay on a driver's input of compare/rust/generate.py. Every
link that the controls change has a control that is active, every link that closing closes has a tank that closes it and
the other way round, every refusal the decoder's reason. It prints what it has seen, and stops at what has no reason.
"""

import pathlib
import sys
from collections import Counter

sys.dont_write_bytecode = True
sys.path.insert(0, str(pathlib.Path(__file__).resolve().parent.parent))

from reader import ROOT, programs, states  # noqa: E402
from reader.events import Events  # noqa: E402
from reader.listing import Listing  # noqa: E402
from reader.network import Network  # noqa: E402
from reader.works import Works  # noqa: E402

import image_decode  # noqa: E402

sys.path.append(str(ROOT / "compare" / "rust"))
import generate  # noqa: E402

DRIVER, REPLAY = (ROOT / "crates" / name / "out" / name for name in ("driver", "replay"))
TEMP_CLOSED = 1


def require(holds, what):
    if not holds:
        raise SystemExit(f"no reason: {what}")


def check_turn(network, events, turn, seen, name):
    for link in states.changed(turn.patterned, turn.controlled):
        require(list(events.switching(link, turn)), f"{name}, controls, link {link} at {turn.patterned.instant}")
        seen["links changed by controls"] += 1
    for link in range(len(turn.loaded.statuses)) if not turn.refused else ():
        if list(network.closers(link, turn.loaded)):
            require(turn.closed.statuses[link] == TEMP_CLOSED, f"{name}, link {link} is not closed")
            seen["links closed by tanks"] += 1
        elif link in states.changed(turn.loaded, turn.closed):
            require(False, f"{name}, closing, link {link} at {turn.patterned.instant}")


def check(data, name, seen):
    listed, item, fault = Listing(), Works(name, data), image_decode.judge(data)
    for line in programs.lines(DRIVER, data):
        listed.take(line.decode())
    if listed.refused:
        require(fault and fault.number == listed.refused, f"{name}, refused {listed.refused}")
        seen["refusals"] += 1
    if listed.accepted:
        tables = image_decode.decode(item.image_words())
        network = Network(tables, None)
        run = states.Run(programs.lines(REPLAY, states.input_of(data, tables, listed)), data, tables, listed)
        events = Events(network, run.start, str(fault))
        for turn in run.turns():
            check_turn(network, events, turn, seen, name)
            seen["lines of events"] += len(events.take(turn))
            seen["turns"] += 1


def main(first, last):
    seen = Counter()
    for seed in range(int(first), int(last) + 1):
        for kind, make in (("driver", generate.drive_case), ("strain", generate.strain_case)):
            check(make(seed).input(), f"{kind} {seed}", seen)
            seen["works"] += 1
    print(", ".join(f"{count:,} {thing}" for thing, count in seen.items()))


if __name__ == "__main__":
    if len(sys.argv) != 3:
        sys.exit(__doc__)
    main(*sys.argv[1:])
