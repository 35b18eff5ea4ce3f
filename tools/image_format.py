"""The records of the project image as a table: the words of each kind's payload, and how a line of text says them.

FORMS at the end is the table. A new kind of record is a new Form there, a new flag or code a new name in its
list. Values (Number, Seconds, Code, ..) turn one field's words to text and back; parts (Field, Fixed, Cases, ..)
put fields together. Nothing here judges a value: a text may say an image that is refused, and tests need such.
"""
import collections
import contextlib
import dataclasses
import math
import re
import struct

NAME = re.compile(r"[A-Za-z_][A-Za-z0-9_.-]*")
NAME_RULE = "a letter (A to Z, a to z) or _ and then letters, digits, _ . -"
FIELD = re.compile(rf"({NAME.pattern})=(.*)")
WORD = re.compile(r"[0-9]+|0x[0-9a-fA-F]+")
DECIMAL = re.compile(r"[+-]?([0-9]+(\.[0-9]*)?|\.[0-9]+)([eE][+-]?[0-9]+)?")
# These mean something else where a name could stand.
RESERVED = ("none", "nan", "inf")
MOST_IN_A_WORD = (1 << 32) - 1


class TextError(Exception):
    """What is wrong with a text, and what was expected; the line's number is added on the way up."""

    def __init__(self, wrong, expected=None, line=None):
        super().__init__(wrong)
        self.wrong = wrong
        self.expected = expected
        self.line = line

    @property
    def message(self):
        return f"{self.wrong}; expected {self.expected}" if self.expected else self.wrong


@contextlib.contextmanager
def in_front(text):
    """Puts a text in front of an error on the way up."""
    try:
        yield
    except TextError as error:
        error.wrong = text + error.wrong
        raise


class Unfit(Exception):
    """The words of a record that a form cannot say."""


class Names:
    """The names of the entries of each table, in image order; None for one without a name."""

    def __init__(self):
        self.tables = collections.defaultdict(list)

    def declare(self, tables, name):
        for table in tables:
            if name is not None and name in self.tables[table]:
                raise TextError(f"there is a {table} {name} already", "another name")
            self.tables[table].append(name)

    def index(self, table, name):
        if name not in self.tables[table]:
            raise TextError(f"{name} is no {table} of this image", f"the name of a {table}")
        return self.tables[table].index(name)

    def name(self, table, index):
        """None where the entry has no name or is not there."""
        entries = self.tables[table]
        return entries[index] if index < len(entries) else None


# --- Values: the words of one field and their text. An error begins with the text that is wrong ---


def listed(names):
    """'a', 'a or b', 'a, b or c'."""
    return " or ".join(filter(None, [", ".join(names[:-1]), names[-1]]))


def word_of(text):
    """A word: decimal, or hex after 0x."""
    if not WORD.fullmatch(text):
        raise TextError(f"{text} is no word", "a whole number from 0 or 0x and hex digits")
    value = int(text, 16 if text.startswith("0x") else 10)
    if value > MOST_IN_A_WORD:
        raise TextError(f"{text} does not fit a word of 32 bits", f"at most {MOST_IN_A_WORD}")
    return value


class Word:
    """A plain count."""

    size = 1

    def read(self, text, names):
        return [word_of(text)]

    def show(self, words, names):
        return str(words[0])


class Seconds(Word):
    """A time: seconds, or h:mm:ss. A time of day is shown as h:mm:ss."""

    def __init__(self, of_day=False):
        self.of_day = of_day

    def read(self, text, names):
        if WORD.fullmatch(text):
            return super().read(text, names)
        match = re.fullmatch(r"([0-9]+):([0-5][0-9]):([0-5][0-9])", text)
        if not match:
            raise TextError(f"{text} is no time", "whole seconds from 0 or h:mm:ss, as in 5400 or 1:30:00")
        hours, minutes, seconds = map(int, match.groups())
        return [word_of(str(3600 * hours + 60 * minutes + seconds))]

    def show(self, words, names):
        if not self.of_day:
            return super().show(words, names)
        (seconds,) = words
        return f"{seconds // 3600}:{seconds // 60 % 60:02}:{seconds % 60:02}"


class Number:
    """An f64: decimal, inf, -inf, nan, or 0x and the hex digits of its bits. Its words are low, high."""

    size = 2

    def read(self, text, names):
        if text.startswith("0x"):
            return self.of_bits(text)
        value = self.of_decimal(text)
        return list(struct.unpack("<2I", struct.pack("<d", value)))

    def of_bits(self, text):
        if not re.fullmatch(r"0x[0-9a-fA-F]{1,16}", text):
            raise TextError(f"{text} are not the bits of a number", "0x and up to 16 hex digits")
        bits = int(text, 16)
        return [bits & 0xFFFFFFFF, bits >> 32]

    def of_decimal(self, text):
        if text in ("inf", "-inf", "nan"):
            return float(text)
        if not DECIMAL.fullmatch(text):
            raise TextError(f"{text} is no number", "a decimal as in 12, -0.5 or 1e-3, inf, -inf, nan, or 0x and bits")
        value = float(text)
        if math.isinf(value):
            raise TextError(f"{text} is beyond every f64", "inf, if that is meant")
        return value

    def show(self, words, names):
        low, high = words
        (value,) = struct.unpack("<d", struct.pack("<2I", low, high))
        # A NaN has many bit patterns and one decimal text; every other f64 comes back from its repr.
        return f"0x{high << 32 | low:016x}" if math.isnan(value) else repr(value)


class Code:
    """One of a list of names, counted from 0; a bare code is taken too."""

    size = 1

    def __init__(self, *names, what="code", then=""):
        self.names = names
        self.what = what
        self.then = then  # what else to expect behind it

    def read(self, text, names):
        if text in self.names:
            return [self.names.index(text)]
        if WORD.fullmatch(text):
            return [word_of(text)]
        raise TextError(f"{text} is no {self.what}", f"one of {', '.join(self.names)}{self.then}")

    def show(self, words, names):
        (code,) = words
        return self.names[code] if code < len(self.names) else str(code)


class Flags:
    """Flags by their names from bit 0 on, joined by +; none, or a bare word."""

    size = 1

    def __init__(self, *names):
        self.names = names

    def read(self, text, names):
        if text == "none":
            return [0]
        if WORD.fullmatch(text):
            return [word_of(text)]
        flags = 0
        for name in text.split("+"):
            if name not in self.names:
                joined = " (several are joined by +)" if len(self.names) > 1 else ""
                raise TextError(f"{text} has an unknown flag", listed(["none", *self.names]) + joined)
            flags |= 1 << self.names.index(name)
        return [flags]

    def show(self, words, names):
        (flags,) = words
        if flags >> len(self.names):
            return str(flags)
        return "+".join(name for bit, name in enumerate(self.names) if flags >> bit & 1) or "none"


class Index:
    """An entry of a table by its name, or a bare index."""

    size = 1

    def __init__(self, table):
        self.table = table

    def read(self, text, names):
        if WORD.fullmatch(text):
            return [word_of(text)]
        try:
            return [names.index(self.table, text)]
        except TextError as error:
            error.expected += " or its index, counted from 0"
            raise

    def show(self, words, names):
        (index,) = words
        return names.name(self.table, index) or str(index)


class IndexOrNone:
    """none is word 0, an entry is its index + 1."""

    size = 1

    def __init__(self, table):
        self.index = Index(table)

    def read(self, text, names):
        if text == "none":
            return [0]
        (index,) = self.index.read(text, names)
        return [word_of(str(index + 1))]

    def show(self, words, names):
        (word,) = words
        return "none" if word == 0 else self.index.show([word - 1], names)


# --- The text of a line and the words of a payload, taken piece by piece ---


class Tokens:
    """What a line has after its keyword: plain pieces, taken in order, and key=value pieces, taken by key."""

    def __init__(self, pieces):
        self.left = list(pieces)

    def plain(self, what):
        if not self.left or FIELD.fullmatch(self.left[0]):
            raise TextError(f"{what} is missing")
        return self.left.pop(0)

    def name(self, numbers_follow=False):
        """The name in front, if there is one: not a field, and no number where those may follow the name."""
        if not self.left or "=" in self.left[0]:
            return None
        name = self.left[0]
        if numbers_follow and (DECIMAL.fullmatch(name) or name[:2] == "0x" or name in ("nan", "inf", "-inf")):
            return None
        if not NAME.fullmatch(name):
            raise TextError(f"{name} is no name", NAME_RULE)
        if name in RESERVED:
            raise TextError(f"{name} is no name", f"another: {listed(RESERVED)} means something else")
        return self.left.pop(0)

    def field(self, key):
        """The value of key=value; None without it."""
        values = [piece for piece in self.left if piece.startswith(f"{key}=")]
        if len(values) > 1:
            raise TextError(f"{key}= stands there twice")
        if not values:
            return None
        self.left.remove(values[0])
        return values[0][len(key) + 1 :]

    def runs(self, keys):
        """Cuts off what begins with the first of these keys; answers a (key, Tokens) for each run of pieces
        from one of the keys up to the next."""
        opened = []
        for piece in self.left:
            match = FIELD.fullmatch(piece)
            if match and match[1] in keys:
                opened.append((match[1], Tokens([piece])))
            elif opened:
                opened[-1][1].left.append(piece)
        self.left = self.left[: len(self.left) - sum(len(run.left) for _, run in opened)]
        return opened

    def end(self):
        if self.left:
            raise TextError(f"{self.left[0]} does not belong here")


def take(words, size):
    """The next words of a payload."""
    if len(words) < size:
        raise Unfit
    return [words.popleft() for _ in range(size)]


# --- Parts: each reads its words from a line's tokens and shows them as pieces of a line ---


class Field:
    """key=value."""

    def __init__(self, key, value, default=None):
        self.key = key
        self.value = value
        self.default = default

    def read(self, tokens, names):
        text = tokens.field(self.key)
        if text is None:
            text = self.default
        if text is None:
            raise TextError(f"{self.key}= is missing")
        with in_front(f"{self.key}="):
            return self.value.read(text, names)

    def show(self, words, names):
        return [f"{self.key}={self.value.show(take(words, self.value.size), names)}"]

    def usage(self):
        return [f"{self.key}=" if self.default is None else f"[{self.key}=]"]


class Plain:
    """A value without a key, at its place in the line."""

    def __init__(self, what, value):
        self.what = what
        self.value = value

    def read(self, tokens, names):
        return self.value.read(tokens.plain(self.what), names)

    def show(self, words, names):
        return [self.value.show(take(words, self.value.size), names)]

    def usage(self):
        return [self.what.upper()]


class Fixed:
    """Words that are always the same and have no text."""

    def __init__(self, *words):
        self.words = list(words)

    def read(self, tokens, names):
        return self.words

    def show(self, words, names):
        if take(words, len(self.words)) != self.words:
            raise Unfit
        return []

    def usage(self):
        return []


class Cases:
    """A code without a key that decides which parts follow it."""

    def __init__(self, what, code, cases):
        self.code = Plain(what, code)
        self.cases = cases

    def read(self, tokens, names):
        (code,) = self.code.read(tokens, names)
        if code >= len(self.cases):
            raise TextError(f"{code} is no {self.code.what}", f"0 to {len(self.cases) - 1}, or a raw line")
        return [code] + read_parts(self.cases[code], tokens, names)

    def show(self, words, names):
        if not words or words[0] >= len(self.cases):
            raise Unfit
        following = self.cases[words[0]]
        return self.code.show(words, names) + show_parts(following, words, names)

    def usage(self):
        """The parts of each case differ: .. stands for them."""
        return self.code.usage() + [".."]


class Present:
    """A flags word, one bit a field from bit 0 on, then the fields; an absent field's words are 0."""

    def __init__(self, *fields):
        self.fields = fields

    def read(self, tokens, names):
        flags, words = 0, []
        for bit, field in enumerate(self.fields):
            text = tokens.field(field.key)
            if text is None:
                words += [0] * field.value.size
            else:
                flags |= 1 << bit
                words += field.value.read(text, names)
        return [flags] + words

    def show(self, words, names):
        (flags,) = take(words, 1)
        pieces = []
        for bit, field in enumerate(self.fields):
            if flags >> bit & 1:
                pieces += field.show(words, names)
            else:
                Fixed(*[0] * field.value.size).show(words, names)
        return pieces

    def usage(self):
        return [f"[{field.key}=]" for field in self.fields]


class Rest:
    """Values without a key to the end of the line, at least one."""

    def __init__(self, what, value):
        self.each = Plain(what, value)

    def read(self, tokens, names):
        words = self.each.read(tokens, names)
        while tokens.left:
            words += self.each.read(tokens, names)
        return words

    def show(self, words, names):
        pieces = self.each.show(words, names)
        while words:
            pieces += self.each.show(words, names)
        return pieces

    def usage(self):
        return self.each.usage() + [".."]


class Runs:
    """Fields that come again and again to the end of the line, each run opened by its first field's key.

    With one list of parts the runs simply fill the rest of the payload. Counted, their counts stand in front
    of them, list by list.
    """

    def __init__(self, *lists, counted=False):
        self.lists = {parts[0].key: parts for parts in lists}
        self.counted = counted

    def read(self, tokens, names):
        runs = {key: [] for key in self.lists}
        for key, run in tokens.runs(self.lists):
            runs[key].append(read_parts(self.lists[key], run, names))
            run.end()
        words = [len(runs[key]) for key in runs] if self.counted else []
        for run in runs.values():
            words += sum(run, [])
        return words

    def show(self, words, names):
        pieces = []
        if self.counted:
            counts = take(words, len(self.lists))
            for count, parts in zip(counts, self.lists.values()):
                for _ in range(count):
                    pieces += show_parts(parts, words, names)
        else:
            (parts,) = self.lists.values()
            while words:
                pieces += show_parts(parts, words, names)
        return pieces

    def usage(self):
        return [f"[{' '.join(usage_of(parts))}] .." for parts in self.lists.values()]


def read_parts(parts, tokens, names):
    return [word for part in parts for word in part.read(tokens, names)]


def show_parts(parts, words, names):
    return [piece for part in parts for piece in part.show(words, names)]


def usage_of(parts):
    return [piece for part in parts for piece in part.usage()]


def spaced_field(pieces):
    """The error of a field with spaces around its =, as in `elevation = 100`; None where no piece looks like that."""
    told = re.search(r"(\S*)(?: =|= )\s*(\S*)", " ".join(pieces))
    if not told:
        return None
    return TextError(f"there are spaces around the = of {told[1]}", f"{told[1]}={told[2]}")


# --- The table ---


@dataclasses.dataclass(frozen=True)
class Form:
    """One way to write a kind of record: `keyword [name] parts`."""

    keyword: str
    kind: int
    parts: list
    tables: tuple = ()  # those in which the record is an entry and its name is known
    letters: str = ""  # what `show` puts in front of the index to make a name

    def name(self, tokens):
        """The name that the line gives the record, or None."""
        return tokens.name(numbers_follow=isinstance(self.parts[0], Rest)) if self.tables else None

    def read(self, tokens, names):
        """The payload that the line says."""
        pieces = list(tokens.left)
        try:
            self.name(tokens)
            payload = read_parts(self.parts, tokens, names)
            tokens.end()
        except TextError as error:
            error.expected = error.expected or self.usage()
            spaced = spaced_field(pieces) if self.has_fields() else None
            raise spaced or error
        return payload

    def has_fields(self):
        """Whether an = in the line can only be a field's: a premise has it for a comparison."""
        return "=" in self.usage()

    def usage(self):
        name = ["[NAME]"] if self.tables else []
        return " ".join([self.keyword, *name, *usage_of(self.parts)])

    def show(self, payload, names, name):
        """The line that says the payload; Unfit where this form has none."""
        words = collections.deque(payload)
        pieces = show_parts(self.parts, words, names)
        if words:
            raise Unfit
        return " ".join([self.keyword] + ([name] if self.tables else []) + pieces)


NUMBER = Number()
SECONDS = Seconds()
TIME_OF_DAY = Seconds(of_day=True)
PATTERN = IndexOrNone("pattern")
NODE = Index("node")
LINK = Index("link")
STATUS = Code(
    *["Xhead", "TempClosed", "Closed", "Open", "Active", "Xflow", "XFCV", "XPressure", "FixedOpen", "FixedClosed"],
    what="status",
)

CONDITIONS = Code("high_pressure", "low_pressure", "high_level", "low_level", "time", "clock", what="condition")
ATTRIBUTES = Code(
    *["node.demand", "node.head", "node.pressure"],
    *["tank.level", "tank.fill_time", "tank.drain_time"],
    *["link.flow", "link.status", "link.setting"],
    *["system.demand", "system.time", "system.clock_time"],
    what="attribute",
)
OPERATORS = Code("or", "and", what="operator")
COMPARISONS = Code("=", "<>", ">", "<", ">=", "<=", what="comparison")
VALUE_SORTS = Code("number", "status", "time", what="value's sort", then=", then the value, as in `number 10.0`")
OPTION_FLAGS, OVERFLOW, DISABLED = Flags("skip", "PDA"), Flags("overflow"), Flags("disabled")

START, END = Field("start", NODE), Field("end", NODE)
LINK_STATUS = Field("status", STATUS, "Open")
SETTING = Field("setting", NUMBER)

PIPE, PUMP, VALVE = Fixed(0), Fixed(1), Fixed(2)
NO_NUMBER = Fixed(0, 0)  # +0.0

AT_NODE = [Field("node", NODE), Field("target", NUMBER)]
CONDITION = Cases(
    "condition",
    CONDITIONS,
    [
        AT_NODE,
        AT_NODE,
        AT_NODE,
        AT_NODE,
        [Field("seconds", SECONDS), NO_NUMBER],
        [Field("seconds", TIME_OF_DAY), NO_NUMBER],
    ],
)

OF_NODE, OF_LINK, OF_SYSTEM = [Plain("node", NODE)], [Plain("link", LINK)], [Fixed(0)]
ATTRIBUTE = Cases(
    "attribute",
    ATTRIBUTES,
    [OF_NODE] * 6 + [OF_LINK] * 3 + [OF_SYSTEM] * 3,
)

VALUE = Cases(
    "value's sort",
    VALUE_SORTS,
    [[Plain("number", NUMBER)], [Plain("status", STATUS), Fixed(0)], [Plain("time", SECONDS), Fixed(0)]],
)

FORMS = [
    Form(
        "options",
        1,
        [
            Field("duration", SECONDS),
            Field("hydraulic", SECONDS, "0"),
            Field("report", SECONDS),
            Field("pattern_timestep", SECONDS),
            Field("pattern_start", SECONDS, "0"),
            Field("start_clock", TIME_OF_DAY, "0"),
            Field("flags", OPTION_FLAGS, "none"),
            Field("default_pattern", PATTERN, "none"),
            Field("demand_multiplier", NUMBER, "1.0"),
        ],
    ),
    Form("pattern", 2, [Rest("multiplier", NUMBER)], ("pattern",), "pat"),
    Form("reservoir", 3, [Field("elevation", NUMBER), Field("pattern", PATTERN, "none")], ("node",), "R"),
    Form(
        "tank",
        4,
        [
            Field("elevation", NUMBER),
            Field("initial", NUMBER),
            Field("least", NUMBER),
            Field("greatest", NUMBER),
            Field("diameter", NUMBER),
            Field("flags", OVERFLOW, "none"),
        ],
        ("node",),
        "T",
    ),
    Form(
        "junction",
        5,
        [
            Field("flags", DISABLED, "none"),
            Field("elevation", NUMBER),
            Runs([Field("demand", NUMBER), Field("pattern", PATTERN, "none")]),
        ],
        ("node", "junction"),
        "J",
    ),
    Form("pipe", 6, [START, END, PIPE, LINK_STATUS, Field("diameter", NUMBER), NO_NUMBER], ("link",), "pipe"),
    Form("pump", 6, [START, END, PUMP, LINK_STATUS, Field("initial_flow", NUMBER), SETTING], ("link",), "pump"),
    Form("valve", 6, [START, END, VALVE, LINK_STATUS, Field("diameter", NUMBER), SETTING], ("link",), "valve"),
    Form("control", 7, [CONDITION, Field("link", LINK), Present(Field("status", STATUS), SETTING)]),
    Form(
        "premise",
        8,
        [
            Plain("operator", OPERATORS),
            ATTRIBUTE,
            Plain("comparison", COMPARISONS),
            VALUE,
        ],
    ),
]

LOAD = 15


def form_of(keyword):
    """The form that a line's keyword names, or None."""
    return next((form for form in FORMS if form.keyword == keyword), None)


def forms_of(kind):
    return [form for form in FORMS if form.kind == kind]


def tables_of(kind):
    """The tables in which a record of this kind is an entry."""
    return next((form.tables for form in forms_of(kind)), ())


def header(kind, payload):
    """The header of a record with this payload."""
    if len(payload) > 0xFFFF:
        raise TextError(f"a payload of {len(payload)} words is too long for a header", f"at most {0xFFFF}")
    return kind << 28 | len(payload)
