#!/usr/bin/env python3
"""Makes the files of the stock that are not written by hand, or checks that they are what this makes.

    stock/make.py [--oracle PATH]            writes what is generated, the images and, by the oracle, the listings
    stock/make.py --check [--oracle PATH]    writes nothing; names each file that differs; code 1 if one does
    stock/make.py --causes                   what ends the steps of each works, counted

The oracle is the Rust of compare/rust. A listing comes from nowhere else. Without the oracle --check compares the
listings with a second working-out in Python.
"""

import argparse
import subprocess
import sys
from collections import Counter
from dataclasses import dataclass

sys.dont_write_bytecode = True

import flows  # noqa: E402
import thornmoor  # noqa: E402
import works  # noqa: E402
from works import FOLDER  # noqa: E402

EVERY_STEP = 10**9


@dataclass
class Works:
    name: str
    loads: int = 0  # for how many steps loads are generated
    text: object = None  # makes the text, where it is not written by hand

    def path(self, ending):
        return FOLDER / f"{self.name}.{ending}"

    def made(self):
        """The contents of the files that are made, by their endings; the listing is the oracle's matter."""
        files = {}
        text = self.path("txt").read_text() if self.text is None else self.text()
        if self.text:
            files["txt"] = text.encode()
        if self.loads:
            project = works.project_of(works.image_text.assemble(text).image_words())
            files["loads"] = flows.text_of(flows.loads_of(project, self.loads)).encode()
            text += files["loads"].decode()
        files["image"] = works.image_text.assemble(text).data(counted=True)
        return files


STOCK = [
    Works("hazelcombe"),
    Works("netherbeck", loads=EVERY_STEP),
    Works("oxbarrow", loads=EVERY_STEP),
    Works("withycombe", loads=EVERY_STEP),
    Works("coldash"),
    Works("yarrowford"),
    Works("ravensdale", loads=EVERY_STEP),
    Works("thornmoor", loads=48, text=thornmoor.text),
    Works("fernbank"),
    Works("blank"),
]


def oracle_listing(oracle, image):
    return subprocess.run([oracle, "driver"], input=image, capture_output=True, check=True).stdout


def write(oracle):
    for item in STOCK:
        files = item.made()
        if oracle:
            files["listing"] = oracle_listing(oracle, files["image"])
        for ending, content in files.items():
            item.path(ending).write_bytes(content)
            print(f"{len(content):8} {item.path(ending).relative_to(FOLDER.parent)}")


def check(oracle):
    """Whether every committed file is what it should be."""
    wrong = []
    for item in STOCK:
        files = item.made()
        listing = oracle_listing(oracle, files["image"]) if oracle else works.run_of(files["image"]).listing().encode()
        for ending, content in [*files.items(), ("listing", listing)]:
            path = item.path(ending)
            if not path.exists() or path.read_bytes() != content:
                wrong.append(str(path.relative_to(FOLDER.parent)))
    for name in wrong:
        print(f"{name} is not what stock/make.py makes", file=sys.stderr)
    by = "the oracle" if oracle else "compare/rust/steps.py, not by the oracle"
    print(f"{len(STOCK)} works, {len(wrong)} files differ; listings by {by}")
    return not wrong


def causes():
    for item in STOCK:
        run = works.run_of(item.path("image").read_bytes())
        counts = Counter(name for step in run.steps for name in step.causes)
        told = ", ".join(f"{name} {count}" for name, count in counts.most_common())
        print(f"{item.name}: {len(run.steps)} steps, {run.last}; ending at: {told or 'nothing'}")


def main():
    parser = argparse.ArgumentParser(description=__doc__, formatter_class=argparse.RawDescriptionHelpFormatter)
    parser.add_argument("--oracle", metavar="PATH")
    parser.add_argument("--check", action="store_true")
    parser.add_argument("--causes", action="store_true")
    arguments = parser.parse_args()
    if arguments.causes:
        causes()
    elif arguments.check:
        sys.exit(0 if check(arguments.oracle) else 1)
    else:
        write(arguments.oracle)


if __name__ == "__main__":
    main()
