#!/usr/bin/env python3
"""The input of the program `planes_cases`: blocks put in planes and back, and what document 02 says of each call.

  planes.py --out FOLDER                  writes FOLDER/stdin and FOLDER/stdout
  planes.py --every PROGRAM [--seed 1]    has the program put blocks of every number of rows in planes and back

The answers are worked out by tools/planes_turn.py. The bytes of the second are random.
"""
import argparse
import pathlib
import random
import struct
import subprocess
import sys

sys.path.append(str(pathlib.Path(__file__).resolve().parent.parent / "tools"))

from planes_turn import MOST_ROWS, ROW, from_planes, to_planes  # noqa: E402

# "no rows, more than 512"
ROWS = (0, 1, 2, 511, 512, 513)
# Of the rows that are accepted, those with a buffer a byte short or long.
WRONG_SIZES_AT = (1, 2, 512)
# Rows that pass for none or one where they, or their bytes, are cut to 32 or 64 bits; and the greatest. Each with a size to go with it.
WRAPPING = ((2**29 + 1, 8), (2**32 + 1, 8), (2**61, 0), (2**61 + 1, 8), (2**64 - 1, 8))

# Results that no arithmetic leaves alone: NaNs with payloads, quiet, signalling and negative; infinities, -0.0, the least and the greatest.
NANS = (0x7FF8000000000001, 0x7FF0000000000001, 0xFFF8DEADBEEF0123, 0xFFF4000000000000, 0x7FFFFFFFFFFFFFFF, 0xFFFFFFFFFFFFFFFF)
OTHERS = (0x7FF0000000000000, 0xFFF0000000000000, 0x8000000000000000, 1, 0x7FEFFFFFFFFFFFFF)


def counted(size):
    """Bytes counted up to 250 and from 0 again, so that of 251 rows no two are alike."""
    return bytes(place % 251 for place in range(size))


def untouched(size):
    return b"\xaa" * size


class Script:
    """The orders, and what the program prints for them."""

    def __init__(self):
        self.orders, self.printed = [], []
        self.block = self.planes = b""

    def lend_block(self, data):
        """The bytes of the block from now on."""
        self.block = data
        self.orders.append(struct.pack("<II", 1, len(data)) + data)

    def lend_planes(self, data):
        self.planes = data
        self.orders.append(struct.pack("<II", 2, len(data)) + data)

    def to_planes(self, rows, times=1):
        number, self.planes = to_planes(rows, self.block, self.planes)
        self.orders.append(struct.pack("<IQI", 3, rows, times))
        self.print("to", rows, self.block, self.planes, number)

    def from_planes(self, rows, times=1):
        number, self.block = from_planes(rows, self.planes, self.block)
        self.orders.append(struct.pack("<IQI", 4, rows, times))
        self.print("from", rows, self.planes, self.block, number)

    def print(self, call, rows, first, second, number):
        self.printed += [f"{call} planes, rows {rows}, bytes {len(first)} and {len(second)}: {number}", second.hex()]

    def program_input(self):
        return struct.pack("<I", len(self.orders)) + b"".join(self.orders)

    def expected_output(self):
        return "".join(f"{line}\n" for line in self.printed)


def round_trip(script, rows, block):
    """To planes, then out of those planes into a buffer that holds none of it."""
    script.lend_block(block)
    script.lend_planes(untouched(len(block)))
    script.to_planes(rows)
    script.lend_block(untouched(len(block)))
    script.from_planes(rows)


def both_calls(script, rows, first, second, times=1):
    """Each call on buffers of these sizes, the second of which is to come back untouched if the call is refused."""
    script.lend_block(counted(first))
    script.lend_planes(untouched(second))
    script.to_planes(rows, times)
    script.lend_block(untouched(second))
    script.lend_planes(counted(first))
    script.from_planes(rows, times)


def wrong_sizes(script, rows):
    size = ROW * rows
    for first, second in ((size - 1, size), (size + 1, size), (size, size - 1), (size, size + 1)):
        both_calls(script, rows, first, second)


def script(made=None):
    """Every case, given to an empty script."""
    made = made or Script()
    for rows in ROWS:
        round_trip(made, rows, counted(ROW * rows))
    bits = NANS + OTHERS
    round_trip(made, len(bits), struct.pack(f"<{len(bits)}Q", *bits))
    # 512 NaNs, each with a payload of its own.
    round_trip(made, 512, struct.pack("<512Q", *(0x7FF8000000000000 | (row * 0x123456789A) for row in range(1, 513))))
    for rows in WRONG_SIZES_AT:
        wrong_sizes(made, rows)
    # The rows are handed in, and not counted by the buffers.
    for rows, size in ((2, 8), (1, 16), (0, 8), (1, 0), (513, 4096), (512, 4104)):
        both_calls(made, rows, size, size)
    for rows, size in WRAPPING:
        both_calls(made, rows, size, size)
    # Planes that no call has made; and a call that is made again gives the same.
    both_calls(made, 3, 24, 24, times=3)
    return made


def every_number_of_rows(seed):
    """Both calls on random bytes, with every number of rows that is accepted."""
    made, source = Script(), random.Random(seed)
    for rows in range(1, MOST_ROWS + 1):
        made.lend_block(source.randbytes(ROW * rows))
        made.lend_planes(untouched(ROW * rows))
        made.to_planes(rows)
        made.lend_block(untouched(ROW * rows))
        made.lend_planes(source.randbytes(ROW * rows))
        made.from_planes(rows)
    return made


def write(out):
    made = script()
    (out / "stdin").write_bytes(made.program_input())
    (out / "stdout").write_text(made.expected_output(), encoding="utf-8")


def compare(program, seed):
    made = every_number_of_rows(seed)
    printed = subprocess.run([program], input=made.program_input(), capture_output=True, check=True).stdout
    if printed != made.expected_output().encode():
        sys.exit(f"{program}: another answer")
    print(f"alike: {len(made.printed) // 2} calls")


def main():
    parser = argparse.ArgumentParser(description=__doc__, formatter_class=argparse.RawDescriptionHelpFormatter)
    asked = parser.add_mutually_exclusive_group(required=True)
    asked.add_argument("--out", type=pathlib.Path, metavar="FOLDER")
    asked.add_argument("--every", metavar="PROGRAM")
    parser.add_argument("--seed", type=int, default=1)
    arguments = parser.parse_args()
    if arguments.out:
        write(arguments.out)
    else:
        compare(arguments.every, arguments.seed)


if __name__ == "__main__":
    main()
