"""Stored cases: inputs and the oracle's answers as a crate's files, for a program that is run without the oracle.

data/case000, data/case001, .. are the inputs; stdout has for each a line with its name and then the answer, and ends
with the number of cases.
"""

import argparse
import shutil
from pathlib import Path

from image import to_bytes
from programs import Program

STOCK = Path(__file__).resolve().parents[2] / "stock"


class Raw:
    """Bytes that are the input as they are."""

    def __init__(self, data):
        self.data = data

    def input(self):
        return self.data


def miscounted(whole):
    """"A count of 0 or over 16,384, or fewer bytes than it needs, is number 1"."""
    yield from (Raw(whole[:size]) for size in (0, 1, 2, 3, 4, 5, len(whole) - 4, len(whole) - 1))
    yield from (Raw(to_bytes([count]) + whole[4:]) for count in (0, 16_385, 0xFFFFFFFF))


def stock_images():
    return sorted(STOCK.glob("*.image"))


def stock():
    """The works of the stock by their names, with their loads."""
    return [Raw(image.read_bytes()) for image in stock_images()]


def store(doc, mode, inputs, check):
    """The command that writes these inputs and the oracle's answers in a mode, if the check lets these pass."""
    parser = argparse.ArgumentParser(description=doc, formatter_class=argparse.RawDescriptionHelpFormatter)
    parser.add_argument("--oracle", required=True)
    parser.add_argument("--out", required=True, help="the crate's folder")
    arguments = parser.parse_args()
    answers = Program(arguments.oracle).answers([(mode, given) for given in inputs])
    check(answers)
    write(Path(arguments.out), inputs, answers)
    print(f"{len(inputs)} cases in {arguments.out}")


def write(folder, inputs, answers):
    data = folder / "data"
    shutil.rmtree(data, ignore_errors=True)
    data.mkdir(parents=True)
    output = b""
    for number, (given, answer) in enumerate(zip(inputs, answers)):
        name = f"case{number:03}"
        (data / name).write_bytes(given)
        output += name.encode() + b"\n" + answer
    (folder / "stdout").write_bytes(output + b"%d cases\n" % len(inputs))
