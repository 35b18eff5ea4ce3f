#!/usr/bin/env python3
"""The input of the program `stops_asked`: questions about the stops of the works coldash, and what document 02's rules say.

  stops_asked.py --out FOLDER    writes FOLDER/stdin and FOLDER/stdout
"""
import argparse
import pathlib
import struct
import sys

HERE = pathlib.Path(__file__).resolve().parent
sys.path[:0] = [str(HERE / "rust"), str(HERE.parent / "tools"), str(HERE.parent / "stock")]
import image_decode  # noqa: E402
import works  # noqa: E402
from stops import stops  # noqa: E402

IMAGE = (HERE.parent / "stock" / "coldash.image").read_bytes()
LIST = [7] * 8  # before it is lent
LAST_WORD = 2**32 - 1


def project():
    return works.project_told(image_decode.decode(words_of(IMAGE)))


def words_of(data):
    return list(struct.unpack(f"<{len(data) // 4}I", data))[1:]


def questions(instants, duration):
    """About each stop, at the ends of what a run can last and what a word holds; with no room up to more than there is."""
    asked = sorted({0, 1, LAST_WORD} | {near for instant in [*instants, duration] for near in (instant - 1, instant, instant + 1)})
    yield from ((instant, number % 10) for number, instant in enumerate(asked))
    yield from ((instant, LAST_WORD) for instant in (0, instants[-9], instants[-2], duration))


def answer(instants, instant, room):
    later = [stop for stop in instants if stop > instant]
    given = later[: min(room, len(LIST))]
    listed = given + LIST[len(given) :]
    return f"{later[0] if later else 'no more'}; {len(given)}:{''.join(f' {word}' for word in listed)}\n"


def program_input(asked):
    return IMAGE + struct.pack(f"<{1 + 2 * len(asked)}I", len(asked), *(word for question in asked for word in question))


def made():
    """The input and the output."""
    works_asked = project()
    instants = list(stops(works_asked))
    asked = list(questions(instants, works_asked.options.duration))
    return program_input(asked), "".join(answer(instants, *question) for question in asked)


def main():
    parser = argparse.ArgumentParser(description=__doc__, formatter_class=argparse.RawDescriptionHelpFormatter)
    parser.add_argument("--out", required=True)
    out = pathlib.Path(parser.parse_args().out)
    given, expected = made()
    (out / "stdin").write_bytes(given)
    (out / "stdout").write_text(expected)
    print(f"{len(expected.splitlines())} questions")


if __name__ == "__main__":
    main()
