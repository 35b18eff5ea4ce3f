#!/usr/bin/env python3
"""Makes the files of reader/stored, which stand in for the proved programs in the tests: reader/store.py

NAME.replay is what the proved `replay` prints for the run of a works of the stock; NAME.events and NAME.svg are what
./run makes of it, to be read and looked at before they are kept. Both programs are built first.
"""

import pathlib
import subprocess
import sys

sys.dont_write_bytecode = True
sys.path.insert(0, str(pathlib.Path(__file__).resolve().parent.parent))

from reader import ROOT, build, programs, states, works  # noqa: E402
from reader.command import say  # noqa: E402
from reader.listing import Listing  # noqa: E402

import image_decode  # noqa: E402

STORED = ROOT / "reader" / "stored"
NAMES = ["netherbeck", "fernbank"]  # a run to its end, and one that a load ends


def store(name, driver, replay):
    item, listed = works.find(name), Listing()
    for line in programs.lines(driver, item.data):
        listed.take(line.decode())
    data = states.input_of(item.data, image_decode.decode(item.image_words()), listed)
    (STORED / f"{name}.replay").write_bytes(b"".join(line + b"\n" for line in programs.lines(replay, data)))
    command = [ROOT / "run", "--events", name, "--picture", STORED / f"{name}.svg"]
    (STORED / f"{name}.events").write_bytes(subprocess.run(command, stdout=subprocess.PIPE).stdout)


def main():
    STORED.mkdir(exist_ok=True)
    driver, replay = build.build(ROOT, ["driver", "replay"], say)
    for name in NAMES:
        store(name, driver, replay)


if __name__ == "__main__":
    main()
