#!/usr/bin/env python3
"""Stores inputs of `replay` with the oracle's answers, for a program that is run without the oracle.

    vectors.py --oracle PATH --out ../../crates/replay_cases --seed 1 --count 4000 --times 3

Out of the seeds' lists of calls and damaged images and out of the sweep, the smallest first, it keeps each that reaches
something which fewer than --times of those kept before it reach, and a large one only for what none of them reaches;
coverage.py names what there is. A list of calls is cut behind the last call that it was kept for, but not to fewer than
--least-calls; on a project with the largest tables it is one call of each sort. In front stand inputs whose count is
wrong, then the cases so kept, then those of the narrow kinds by which faults.py finds what no other kind shows. Behind
them are the second clock's, chosen in the same way among its own and by what coverage.py counts of it, and works of the
stock walked by it, which are held to their listings; and at the end those of closing by the table and of lists that are
refused, chosen in that way too. data/case000, data/case001, .. are the inputs; stdout has for each a line with its name
and then the answer, and ends with the number of cases. Where something is not reached it is named, and the end is code
1; what coverage.py counts of `driver` and `timetable` is not asked for.
"""

import argparse
import sys
from collections import Counter
from dataclasses import dataclass
from pathlib import Path

import generate
from coverage import count_case, expected
from image import LOAD_CALL, MOST_LINKS, MOST_WORDS, PATTERNS_CALL, REPLAY, SLOW_CALL, STEP_CALL, TABLE_CALL
from image import Options, Replay, to_bytes
from programs import Program
from run import chunks
from stored import STOCK, write

KINDS = ["sweep", "image", "replay"]
SECOND_CLOCK = ["slow"]
BY_TABLE = ["close"]
ORDER = KINDS + SECOND_CLOCK + BY_TABLE
# Of these kinds only what coverage.py says of their subjects counts.
SUBJECTS = {"slow": ("slow: ",), "close": ("table: ", "list: ")}
OTHER_KINDS = ("driver", "edge", "hours", "order", "strain", "full", "stops")
NARROW = {"edge": (1, 2, 3, 35, 63, 422), "hours": (1, 2, 149, 155)}  # seeds
LARGE = 20_000  # bytes of input and answer
SECOND_CLOCK_SEEDS = 1000  # the walks are worked out again in Python, which takes its time
SECOND_CLOCK_TIMES = 2
BY_TABLE_SEEDS, BY_TABLE_TIMES = 1000, 1
WALKED = ("coldash", "yarrowford")  # the works of the stock that the second clock serves
NOT_WALKED = ("hazelcombe", "netherbeck")  # one on the fast path, one with a tank
CALL_CODES = range(PATTERNS_CALL, STEP_CALL + 1)
# The calls on a project with the largest tables; by the table two are enough.
LARGEST_CODES = {"replay": CALL_CODES, "close": (LOAD_CALL, TABLE_CALL)}


@dataclass
class Candidate:
    size: int  # of the input and the answer
    kind: str
    seed: int
    names: frozenset  # what it reaches


def main():
    arguments = parse_arguments()
    oracle = Program(arguments.oracle)
    found = candidates(oracle, KINDS, arguments.seed, arguments.count)
    kept, reached = chosen(oracle, found, arguments.times, arguments.least_calls)
    walks = candidates(oracle, SECOND_CLOCK, arguments.seed, min(arguments.count, SECOND_CLOCK_SEEDS))
    walked, reached_walking = chosen(oracle, walks, SECOND_CLOCK_TIMES, arguments.least_calls)
    closings = candidates(oracle, BY_TABLE, arguments.seed, min(arguments.count, BY_TABLE_SEEDS))
    closed, reached_closing = chosen(oracle, closings, BY_TABLE_TIMES, arguments.least_calls)
    reached += reached_walking + reached_closing
    before = [*miscounted(), *inputs_of(kept), *narrow(), *inputs_of(walked)]
    inputs = [*before, *stock(), *inputs_of(closed)]
    answers = oracle.answers([(REPLAY, data) for data in inputs])
    check_stock(answers[len(before) :])
    write(Path(arguments.out), inputs, answers)
    print(f"{len(inputs)} cases in {arguments.out}, which reach {len(reached)} things")
    missing = [name for name in expected() if not name.startswith(OTHER_KINDS) and not reached[name]]
    if missing:
        sys.exit("not reached:\n" + "\n".join(missing))


def parse_arguments():
    parser = argparse.ArgumentParser(description=__doc__, formatter_class=argparse.RawDescriptionHelpFormatter)
    parser.add_argument("--oracle", required=True)
    parser.add_argument("--out", required=True, help="the crate's folder")
    parser.add_argument("--seed", type=int, default=1)
    parser.add_argument("--count", type=int, default=4000, help="how many seeds")
    parser.add_argument("--times", type=int, default=3)
    parser.add_argument("--least-calls", type=int, default=8)
    return parser.parse_args()


def miscounted():
    """Inputs with no count, half a count, and a count of none, of too many and of more words than there are."""
    image = Options().words()
    whole = to_bytes([len(image)] + image)
    counts = (0, len(image) + 1, MOST_WORDS, MOST_WORDS + 1, 1 << 31, (1 << 32) - 1)
    return [b"", whole[:3], whole[:4], whole[:-1]] + [to_bytes([count] + image) for count in counts]


def inputs_of(cases):
    return [case.input() for case in cases]


def narrow():
    return [generate.CASES[kind](seed).input() for kind, seeds in NARROW.items() for seed in seeds]


def lengths(name):
    """The steps' lengths by the listing of a works of the stock."""
    return [line.split()[1] for line in (STOCK / f"{name}.listing").read_text().splitlines() if line[0].isdecimal()]


def stock():
    """Works of the stock walked by the second clock to their end and one call beyond, and two that it refuses."""
    calls = {name: len(lengths(name)) + 1 for name in WALKED} | {name: 1 for name in NOT_WALKED}
    return [image_of(name) + to_bytes([count] + [SLOW_CALL] * count) for name, count in calls.items()]


def image_of(name):
    """The count of words and the words, without loads."""
    data = (STOCK / f"{name}.image").read_bytes()
    return data[: 4 + 4 * int.from_bytes(data[:4], "little")]


def check_stock(answers):
    expected = [lengths(name) + ["0"] for name in WALKED] + [["refused=14"] for _ in NOT_WALKED]
    for name, answer, right in zip(WALKED + NOT_WALKED, answers, expected):
        if [line.split()[1] for line in answer.decode().splitlines()[1:]] != right:
            raise SystemExit(f"{name}: the oracle's answer is not the listing")


def candidates(oracle, kinds, seed, count):
    """Every case with what it reaches, the smallest first. The cases themselves are many, and are made again."""
    found = []
    for cases in chunks(kinds, seed, count):
        answers = oracle.answers([(case.mode, case.input()) for _, _, case in cases])
        for (kind, number, case), answer in zip(cases, answers):
            if is_largest(case):
                case = one_of_each(kind, case)
                answer = oracle.answer(REPLAY, case.input())
            if not is_largest(case) or len(case.calls) == len(LARGEST_CODES[kind]):
                size = len(case.input()) + len(answer)
                found.append(Candidate(size, kind, number, frozenset(names_of(kind, case, answer))))
    return sorted(found, key=lambda candidate: (candidate.size, candidate.kind, candidate.seed))


def is_largest(case):
    return isinstance(case, Replay) and len(case.project.links) == MOST_LINKS


def one_of_each(kind, case):
    """The first call of each sort, in a driver's order. Every answer of a large project is long."""
    firsts = [next((call for call in case.calls if call.code == code), None) for code in LARGEST_CODES[kind]]
    return Replay(case.project, [call for call in firsts if call])


def names_of(kind, case, answer):
    """What the case reaches; of cases for one subject only what is said of that."""
    counts = Counter()
    count_case(counts, kind, case, answer)
    return {name for name, number in counts.items() if number and name.startswith(SUBJECTS.get(kind, ""))}


def chosen(oracle, found, times, least_calls):
    """The cases that are kept, refused images and sweep before lists of calls, and how often each thing is reached."""
    kept, reached = [], Counter()
    for candidate in found:
        enough = times if candidate.size <= LARGE else 1
        wanted = {name for name in candidate.names if reached[name] < enough}
        if wanted:
            case = generate.CASES[candidate.kind](candidate.seed)
            if is_largest(case):
                case = one_of_each(candidate.kind, case)
            elif isinstance(case, Replay):
                case = cut(oracle, candidate.kind, case, wanted, least_calls)
            reached.update(names_of(candidate.kind, case, oracle.answer(REPLAY, case.input())))
            kept.append((ORDER.index(candidate.kind), candidate.seed, case))
    return [case for _, _, case in sorted(kept, key=lambda entry: entry[:2])], reached


def cut(oracle, kind, case, wanted, least_calls):
    """The case with the shortest beginning of its calls that reaches all that is wanted of it. A list that is refused
    stays whole."""
    lines = oracle.answer(REPLAY, case.input()).split(b"\n")
    if b"refused 18" in lines:
        return case

    def reaches(count):
        beginning = Replay(case.project, case.calls[:count])
        return wanted <= names_of(kind, beginning, b"\n".join(lines[: count + 1]) + b"\n")

    low, high = min(least_calls, len(case.calls)), len(case.calls)
    while low < high:
        middle = (low + high) // 2
        low, high = (low, middle) if reaches(middle) else (middle + 1, high)
    return Replay(case.project, case.calls[:low])


if __name__ == "__main__":
    main()
