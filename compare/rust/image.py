"""Projects, loads and calls as values, and the words and bytes that document 01 gives them.

A field holds whatever is to be written, right or wrong: nothing here judges a project. A number is a float, or a Bits
where the very bits matter (a NaN's, say).
"""

import copy
import struct
from dataclasses import dataclass, field, fields

MOST_WORDS = 16_384
MOST_PATTERNS = 32
MOST_MULTIPLIERS = 168
MOST_NODES = 256
MOST_LINKS = 384
MOST_CONTROLS = 64
MOST_PREMISES = 128
MOST_DEMANDS = 4

LONGEST_TIME = 315_360_000
HOUR = 3_600
DAY = 86_400
MOST_FEET = 1e5
MOST_OTHER = 1e6
MOST_LOADED = 1e12
GREATEST_DEMAND = 1e20
LEAST_DIAMETER = 0.001
GREATEST_DIAMETER = 1e4

SKIP, PDA = 1, 2
PIPE, PUMP, VALVE = 0, 1, 2
STATUSES = ("Xhead", "TempClosed", "Closed", "Open", "Active", "Xflow", "XFCV", "XPressure", "FixedOpen", "FixedClosed")
TEMP_CLOSED, CLOSED, OPEN, ACTIVE, FIXED_OPEN, FIXED_CLOSED = 1, 2, 3, 4, 8, 9
CONDITIONS = ("HighPressure", "LowPressure", "HighLevel", "LowLevel", "Time", "ClockTime")
HIGH_PRESSURE, LOW_PRESSURE, HIGH_LEVEL, LOW_LEVEL, TIME, CLOCK_TIME = range(6)
ATTRIBUTES = (
    "node demand", "node head", "node pressure", "tank level", "tank fill time", "tank drain time",
    "link flow", "link status", "link setting", "system demand", "system time", "system clock time",
)
COMPARISONS = ("Eq", "Ne", "Gt", "Lt", "Ge", "Le")
SORTS = ("number", "status", "time")
NUMBER, STATUS, SECONDS = range(3)

PATTERNS_CALL, CONTROLS_CALL, LOAD_CALL, CLOSE_CALL, PRESSURE_CALL, PREMISE_CALL, STEP_CALL, SLOW_CALL = range(1, 9)
TABLE_CALL = LAST_CODE = 9
CALL_NAMES = (None, "patterns", "controls", "load", "close", "pressure", "premise", "step", "slow", "close by table")
LOAD_KIND = 15


class Bits(int):
    """A number given by its 64 bits."""


def bits_of(number):
    return int(number) if isinstance(number, Bits) else struct.unpack("<Q", struct.pack("<d", number))[0]


def float_of(bits):
    return struct.unpack("<d", struct.pack("<Q", bits))[0]


def number_words(number):
    bits = bits_of(number)
    return [bits & 0xFFFFFFFF, bits >> 32]


def numbers_words(numbers):
    return [word for number in numbers for word in number_words(number)]


def to_bytes(words):
    return struct.pack(f"<{len(words)}I", *words)


def record(kind, payload):
    return [kind << 28 | len(payload)] + payload


class Record:
    """A record whose fields stand in the payload's order: a float as a number, anything else as a word."""

    def words(self):
        return record(self.kind, [word for item in fields(self) for word in self.field_words(item)])

    def field_words(self, item):
        value = getattr(self, item.name)
        return number_words(value) if item.type is float else [value]


@dataclass
class Options(Record):
    kind = 1
    duration: int = 0
    hydraulic: int = 0  # an hour
    report: int = 3600
    pattern: int = 3600
    pattern_start: int = 0
    start_clock: int = 0
    flags: int = 0
    default_pattern: int = 0
    multiplier: float = 1.0

    def hydraulic_in_force(self):
        """Document 02, R-7: "From now on 0 is read as 3,600"."""
        return self.hydraulic or HOUR


@dataclass
class Pattern:
    multipliers: list

    def words(self):
        return record(2, numbers_words(self.multipliers))


@dataclass
class Reservoir(Record):
    kind = 3
    elevation: float = 0.0
    pattern: int = 0


@dataclass
class Tank(Record):
    kind = 4
    elevation: float = 0.0
    initial: float = 0.0
    least: float = 0.0
    greatest: float = 0.0
    diameter: float = 1.0
    overflow: int = 0


@dataclass
class Junction:
    disabled: int = 0
    elevation: float = 0.0
    demands: list = field(default_factory=list)  # pairs of a base demand and a pattern word

    def words(self):
        demands = [word for base, pattern in self.demands for word in number_words(base) + [pattern]]
        return record(5, [self.disabled] + number_words(self.elevation) + demands)


@dataclass
class Link(Record):
    kind = 6
    start: int
    end: int
    sort: int = PIPE
    status: int = OPEN
    size: float = 1.0  # a diameter, or a pump's initial flow
    setting: float = 0.0


@dataclass
class Control(Record):
    kind = 7
    condition: int
    subject: int  # a node or seconds
    target: float = 0.0
    link: int = 0
    flags: int = 0
    status: int = 0
    setting: float = 0.0


@dataclass
class Premise:
    operator: int
    attribute: int
    index: int
    comparison: int
    sort: int
    value: object  # a number, a status or seconds

    def words(self):
        is_number = isinstance(self.value, (float, Bits))  # by its type, so that a sort can be wrong
        value = number_words(self.value) if is_number else [self.value, 0]
        return record(8, [self.operator, self.attribute, self.index, self.comparison, self.sort] + value)


@dataclass
class Load:
    """A load, and how its words are spoilt: a change to the header, words cut from the end (below 0) or added."""

    flows: list
    heads: list
    header_change: int = 0  # exclusive or with the header
    length_change: int = 0

    def copy(self):
        return Load(list(self.flows), list(self.heads), self.header_change, self.length_change)

    def words(self):
        words = record(LOAD_KIND, numbers_words(self.flows + self.heads))
        words[0] ^= self.header_change
        if self.length_change < 0:
            return words[: self.length_change]
        return words + [0] * self.length_change


@dataclass
class Call:
    code: int
    premise: int = 0
    load: Load = None

    def words(self):
        if self.code == LOAD_CALL:
            words = self.load.words()
            return [self.code, len(words)] + words
        if self.code == PREMISE_CALL:
            return [self.code, self.premise]
        return [self.code]


@dataclass
class Project:
    options: Options
    patterns: list = field(default_factory=list)
    nodes: list = field(default_factory=list)
    links: list = field(default_factory=list)
    controls: list = field(default_factory=list)
    premises: list = field(default_factory=list)

    def records(self):
        return [self.options, *self.patterns, *self.nodes, *self.links, *self.controls, *self.premises]

    def words(self):
        return [word for item in self.records() for word in item.words()]

    def is_on_fast_path(self):
        return bool(self.options.flags & SKIP) and not self.controls and not self.tanks()

    def tanks(self):
        return [index for index, node in enumerate(self.nodes) if isinstance(node, Tank)]

    def junctions(self):
        return [index for index, node in enumerate(self.nodes) if isinstance(node, Junction)]


# The modes, as a batch numbers them.
REPLAY, DRIVER, TIMETABLE, LEVELS = 1, 2, 3, 4


@dataclass
class Replay:
    """A project and a list of calls, the input of `replay`, and how many bytes are cut from its end."""

    project: Project
    calls: list
    cut: int = 0
    mode = REPLAY

    def input(self):
        image = self.project.words()
        calls = [word for call in self.calls for word in call.words()]
        data = to_bytes([len(image)] + image + [len(self.calls)] + calls)
        return data[: len(data) - self.cut]


@dataclass
class Drive:
    """A project, its loads and the bytes after them, the input of `driver`."""

    project: Project
    loads: list
    tail: bytes = b""
    mode = DRIVER

    def input(self):
        image = self.project.words()
        loads = [word for load in self.loads for word in load.words()]
        return to_bytes([len(image)] + image + loads) + self.tail


@dataclass
class Tabulate(Drive):
    """The input of `timetable`: the driver's, of which the image alone is read."""

    mode = TIMETABLE


@dataclass
class Image:
    """An image as words, right or wrong, and the count that is written before it (its length where none is given).
    In a replay an empty list of calls follows, where the count fits, so that a program answers with the start."""

    words: list
    count: int = None
    mode: int = REPLAY

    def input(self):
        if self.count is not None:
            return to_bytes([self.count] + self.words)
        return to_bytes([len(self.words)] + self.words + ([0] if self.mode == REPLAY else []))


def split_records(words):
    """An image's records by their headers, the last as it comes."""
    records = []
    while words:
        size = 1 + (words[0] & 0xFFFF)
        records.append(words[:size])
        words = words[size:]
    return records


def copied(value):
    return copy.deepcopy(value)


def describe(call):
    """A call on one line, a load as the text of an image has it and with how it is spoilt."""
    if call.code == PREMISE_CALL:
        return f"premise {call.premise}"
    if call.code != LOAD_CALL:
        return CALL_NAMES[call.code] if 0 < call.code < len(CALL_NAMES) else f"code {call.code}"
    load = call.load
    spoilt = f", header ^ {load.header_change:#x}" if load.header_change else ""
    spoilt += f", {load.length_change:+d} words" if load.length_change else ""
    return " ".join(["load flow", *map(shown, load.flows), "head", *map(shown, load.heads)]) + spoilt


def shown(value):
    if isinstance(value, (list, tuple)):
        return "[" + ", ".join(shown(item) for item in value) + "]"
    return f"{int(value):#018x}" if isinstance(value, Bits) else repr(value)
