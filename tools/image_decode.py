"""The decoder of the project image, written from document 01: a project, or the first fault with its place and reason.

It is slow and says why it refuses; it is there to be read beside the paper and to be compared with. Sorts, codes
and made names are those of image_format, so that a reason speaks as the text of an image does.
"""
import dataclasses
import struct

import image_text
from image_format import ATTRIBUTES, COMPARISONS, CONDITIONS, DISABLED, LOAD, OPERATORS, OPTION_FLAGS, OVERFLOW, STATUS
from image_format import VALUE_SORTS, form_of, tables_of

# "Ranges: at most 16,384 words, 32 patterns, 256 nodes, 384 links, 64 controls, 128 premises."
MOST_WORDS = 16_384
MOST = {"patterns": 32, "nodes": 256, "links": 384, "controls": 64, "premises": 128}

OPTIONS, PATTERN, RESERVOIR, TANK, JUNCTION, LINK, CONTROL, PREMISE = range(1, 9)
SORT_OF = dict(enumerate(["options", "pattern", "reservoir", "tank", "junction", "link", "control", "premise"], 1))

# "Stages in order: options (once), patterns, nodes, links, controls, premises."
STAGES = ["options", "patterns", "nodes", "links", "controls", "premises"]
STAGE_OF = {
    OPTIONS: "options",
    PATTERN: "patterns",
    RESERVOIR: "nodes",
    TANK: "nodes",
    JUNCTION: "nodes",
    LINK: "links",
    CONTROL: "controls",
    PREMISE: "premises",
}

# The payload sizes of each kind, in words, and how a reason says them; a number takes two.
SIZES = {
    OPTIONS: ([10], "10"),
    PATTERN: ([2 * multipliers for multipliers in range(1, 169)], "2 for each of its 1 to 168 multipliers"),
    RESERVOIR: ([3], "3"),
    TANK: ([11], "11"),
    JUNCTION: ([3 + 3 * demands for demands in range(0, 5)], "3, and 3 more for each of its 0 to 4 demands"),
    LINK: ([8], "8"),
    CONTROL: ([9], "9"),
    PREMISE: ([7], "7"),
}

LONGEST = 315_360_000  # seconds: the greatest time
LAST_OF_DAY = 86_399  # seconds: the greatest clock time
FEET = 100_000.0  # elevations, levels, targets
OTHER = 1_000_000.0  # other image numbers
FAR = 1e12  # premise numbers, loaded flows and heads
LEAST_DIAMETER, GREATEST_DIAMETER = 0.001, 10_000.0  # feet

LINK_SORTS = ["pipe", "pump", "valve"]
PIPE, PUMP, VALVE = range(3)
TIME_CONTROL, CLOCK_CONTROL = 4, 5
NUMBER_VALUE, STATUS_VALUE, TIME_VALUE = range(3)
FIRST_LINK_ATTRIBUTE, FIRST_SYSTEM_ATTRIBUTE = 6, 9


# --- What the decoder answers ---


@dataclasses.dataclass
class Fault:
    """The first fault of an image or of the loads behind it."""

    number: int  # document 01's, 1 to 8
    record: int | None  # which record, the options being 1; of a load, which load; None for number 1
    sort: str  # 'options', 'pattern', 'tank', 'pipe', 'control', 'load', ..; '' where the header names none
    name: str  # the thing's own name or the one that `show` makes; '' for what has none
    words: tuple[int, int] | None  # the first and the last payload word concerned, counted from 1
    reason: str
    at: int = 0  # where the record begins among the words behind the count

    def __str__(self):
        return f"refused {self.number}: {self.place()}{self.reason}"

    def place(self):
        """'record 4, tank T1, words 9 and 10: '; nothing where the image as a whole is at fault."""
        if self.record is None:
            return ""
        if self.sort == "load":
            parts = [f"load {self.record}"]
        else:
            parts = [f"record {self.record}", f"{self.sort} {self.name}".strip()]
        parts.append(words_text(self.words))
        return ", ".join(filter(None, parts)) + ": "


def words_text(words):
    if words is None:
        return ""
    first, last = words
    if first == last:
        return f"word {first}"
    return f"words {first} {'and' if last == first + 1 else 'to'} {last}"


@dataclasses.dataclass
class Decoded:
    """The tables of an image up to its fault, if it has one; each entry is a dict by the paper's names of the fields."""

    options: dict = None
    patterns: list = dataclasses.field(default_factory=list)
    nodes: list = dataclasses.field(default_factory=list)
    links: list = dataclasses.field(default_factory=list)
    controls: list = dataclasses.field(default_factory=list)
    premises: list = dataclasses.field(default_factory=list)
    fault: Fault | None = None
    read: int = 0  # the words of the records that are in the tables
    loads: int = 0  # the loads behind the image that have no fault, counted by `decode_input`

    @property
    def number(self):
        """0 for acceptance, else the number of the first fault."""
        return self.fault.number if self.fault else 0


class Refusal(Exception):
    """A fault on its way up to where the record's place is known."""

    def __init__(self, number, reason, words=None):
        super().__init__(reason)
        self.number = number
        self.reason = reason
        self.words = words


def require(holds, number, reason, words=None):
    if not holds:
        raise Refusal(number, reason, words)


# --- The words of a record: number 5, then 6 ---


def number_of(words):
    """A number is an f64's bits, low word first."""
    return struct.unpack("<d", struct.pack("<2I", *words))[0]


def numbers_of(words):
    return [number_of(words[i : i + 2]) for i in range(0, len(words), 2)]


def limit_text(limit):
    return "10^12" if limit == FAR else f"{limit:,.0f}"


def counted(count, thing):
    """'only 1 node is', 'only 5 nodes are', 'no nodes are'."""
    if count == 1:
        return f"only 1 {thing} is"
    return f"only {count} {thing}s are" if count else f"no {thing}s are"


class Payload:
    """A record's words, asked by their place from 1: each answer is in its range, or refused."""

    def __init__(self, words):
        self.words = words

    def word(self, place):
        return self.words[place - 1]

    def number(self, place):
        return number_of(self.words[place - 1 : place + 1])

    def within(self, place, limit, name):
        value = self.number(place)
        # NaN fails every comparison, the infinities fail one of these: "not finite" needs no test of its own.
        fits = -limit <= value <= limit
        require(fits, 5, f"{name} {value!r} is not within ±{limit_text(limit)}", (place, place + 1))
        return value

    def diameter(self, place):
        value = self.number(place)
        fits = LEAST_DIAMETER <= value <= GREATEST_DIAMETER
        allowed = f"{LEAST_DIAMETER} to {limit_text(GREATEST_DIAMETER)}"
        require(fits, 5, f"diameter {value!r} is not within {allowed}", (place, place + 1))
        return value

    def seconds(self, place, name, least=0, greatest=LONGEST):
        value = self.word(place)
        fits = least <= value <= greatest
        require(fits, 5, f"{name} {value} is not within {least} to {greatest:,}", (place, place))
        return value

    def code(self, place, codes, name):
        value = self.word(place)
        known = ", ".join(f"{code} {text}" for code, text in enumerate(codes))
        require(value < len(codes), 5, f"{name} {value} is none of {known}", (place, place))
        return value

    def flags(self, place, names):
        value = self.word(place)
        known = ", ".join(f"{1 << bit} {name}" for bit, name in enumerate(names))
        reason = f"flags {value:#x} have an unknown bit; known: {known}"
        require(value >> len(names) == 0, 5, reason, (place, place))
        return value

    def unused(self, first, last, name):
        held = self.words[first - 1 : last]
        told = " ".join(f"{word:#x}" for word in held)
        which = "an unused word" if first == last else "unused words"
        require(not any(held), 5, f"{name}: {which} must be 0, not {told}", (first, last))

    def index(self, place, table, thing, name):
        value = self.word(place)
        reason = f"{name} {value}: {counted(len(table), thing)} declared before it, and indices count from 0"
        require(value < len(table), 6, reason, (place, place))

    def pattern(self, place, patterns, name, where=" before it"):
        """A pattern word is 0 for none, else index + 1."""
        value = self.word(place)
        reason = f"{name} word {value} means index {value - 1}: {counted(len(patterns), 'pattern')} declared{where}"
        require(value <= len(patterns), 6, reason, (place, place))


# --- The kinds of record: each judges its payload, 5 before 6, and adds it to the tables ---


def read_options(project, payload):
    project.options = {
        "duration": payload.seconds(1, "duration"),
        "hydraulic": payload.seconds(2, "hydraulic timestep"),
        "report": payload.seconds(3, "report timestep", least=1),
        "pattern timestep": payload.seconds(4, "pattern timestep", least=1),
        "pattern start": payload.seconds(5, "pattern start"),
        "start clock": payload.seconds(6, "start clock", greatest=LAST_OF_DAY),
        "flags": payload.flags(7, OPTION_FLAGS.names),
        "default pattern": payload.word(8),  # judged after the last record
        "demand multiplier": payload.within(9, OTHER, "demand multiplier"),
    }


def read_pattern(project, payload):
    places = range(1, len(payload.words), 2)
    multipliers = [payload.within(place, OTHER, f"multiplier {which}:") for which, place in enumerate(places, 1)]
    project.patterns.append({"multipliers": multipliers})


def read_reservoir(project, payload):
    elevation = payload.within(1, FEET, "elevation")
    payload.pattern(3, project.patterns, "head pattern")
    project.nodes.append({"kind": "reservoir", "elevation": elevation, "head pattern": payload.word(3)})


def read_tank(project, payload):
    tank = {
        "kind": "tank",
        "elevation": payload.within(1, FEET, "elevation"),
        "initial": payload.within(3, FEET, "initial level"),
        "least": payload.within(5, FEET, "least level"),
        "greatest": payload.within(7, FEET, "greatest level"),
        "diameter": payload.diameter(9),
        "flags": payload.flags(11, OVERFLOW.names),
    }
    least, greatest = tank["least"], tank["greatest"]
    require(least <= greatest, 5, f"least level {least!r} is above the greatest level {greatest!r}", (5, 8))
    project.nodes.append(tank)


def read_junction(project, payload):
    flags = payload.flags(1, DISABLED.names)
    elevation = payload.within(2, FEET, "elevation")
    places = range(4, len(payload.words), 3)
    bases = [payload.within(place, OTHER, f"base demand {which}:") for which, place in enumerate(places, 1)]
    for which, place in enumerate(places, 1):
        payload.pattern(place + 2, project.patterns, f"pattern of demand {which}:")
    demands = [(base, payload.word(place + 2)) for base, place in zip(bases, places)]
    project.nodes.append({"kind": "junction", "elevation": elevation, "flags": flags, "demands": demands})


def read_link(project, payload):
    start, end = payload.word(1), payload.word(2)
    sort = payload.code(3, LINK_SORTS, "sort")
    status = payload.code(4, STATUS.names, "status")
    size = payload.within(5, OTHER, "initial flow") if sort == PUMP else payload.diameter(5)
    if sort == PIPE:
        # +0.0 is the only number whose bits are all 0: -0.0 is refused.
        payload.unused(7, 8, "the setting of a pipe is +0.0")
        setting = 0.0
    else:
        setting = payload.within(7, OTHER, "setting")
    require(start != end, 5, f"start and end are both node {start}", (1, 2))
    payload.index(1, project.nodes, "node", "start node")
    payload.index(2, project.nodes, "node", "end node")
    project.links.append(
        {"start": start, "end": end, "sort": sort, "status": status, "diameter or flow": size, "setting": setting}
    )


def judge_condition(payload):
    """Number 5 of a control's condition; answers whether it names a node, and the target."""
    condition = payload.code(1, CONDITIONS.names, "condition")
    if condition == TIME_CONTROL:
        payload.seconds(2, "time")
        payload.unused(3, 4, "a time control has no target")
    elif condition == CLOCK_CONTROL:
        payload.seconds(2, "clock time", greatest=LAST_OF_DAY)
        payload.unused(3, 4, "a clock control has no target")
    else:
        return True, payload.within(3, FEET, "target")
    return False, 0.0


def judge_action(payload):
    """Number 5 of what a control sets; answers the status and the setting."""
    flags, status, setting = payload.flags(6, ["status", "setting"]), 0, 0.0
    if flags & 1:
        status = payload.code(7, STATUS.names, "status")
    else:
        payload.unused(7, 7, "flag 1 gives no status")
    if flags & 2:
        setting = payload.within(8, OTHER, "setting")
    else:
        payload.unused(8, 9, "flag 2 gives no setting")
    return status, setting


def read_control(project, payload):
    at_node, target = judge_condition(payload)
    status, setting = judge_action(payload)
    if at_node:
        payload.index(2, project.nodes, "node", "node")
    payload.index(5, project.links, "link", "link")
    project.controls.append(
        {
            "condition": payload.word(1),
            "node or seconds": payload.word(2),
            "target": target,
            "link": payload.word(5),
            "flags": payload.word(6),
            "status": status,
            "setting": setting,
        }
    )


def judge_value(payload):
    """Number 5 of a premise's value; answers it."""
    sort = payload.code(5, VALUE_SORTS.names, "value's sort")
    if sort == NUMBER_VALUE:
        return payload.within(6, FAR, "number")
    value = payload.code(6, STATUS.names, "status") if sort == STATUS_VALUE else payload.seconds(6, "time")
    payload.unused(7, 7, f"the high word of a {VALUE_SORTS.names[sort]}")
    return value


def read_premise(project, payload):
    payload.code(1, OPERATORS.names, "operator")
    attribute = payload.code(2, ATTRIBUTES.names, "attribute")
    if attribute >= FIRST_SYSTEM_ATTRIBUTE:
        payload.unused(3, 3, "a system attribute has no index")
    payload.code(4, COMPARISONS.names, "comparison")
    value = judge_value(payload)
    if attribute < FIRST_LINK_ATTRIBUTE:
        payload.index(3, project.nodes, "node", "node")
    elif attribute < FIRST_SYSTEM_ATTRIBUTE:
        payload.index(3, project.links, "link", "link")
    project.premises.append(
        {
            "operator": payload.word(1),
            "attribute": attribute,
            "index": payload.word(3),
            "comparison": payload.word(4),
            "sort": payload.word(5),
            "value": value,
        }
    )


READERS = {
    OPTIONS: read_options,
    PATTERN: read_pattern,
    RESERVOIR: read_reservoir,
    TANK: read_tank,
    JUNCTION: read_junction,
    LINK: read_link,
    CONTROL: read_control,
    PREMISE: read_premise,
}


# --- The walk over the records ---


def judge_kind(kind):
    behind = ": loads stand behind the image, where its count ends" if kind == LOAD else ""
    require(kind in STAGE_OF, 2, f"kind {kind} is none of 1 to 8{behind}")


def judge_stage(kind, before):
    """`before` is the kind of the record before, None in front of the first."""
    sort = SORT_OF[kind]
    if before is None:
        require(kind == OPTIONS, 2, f"{sort} as the first record: options are missing, which stand first")
        return
    require(kind != OPTIONS, 2, "a second options record")
    in_order = STAGES.index(STAGE_OF[kind]) >= STAGES.index(STAGE_OF[before])
    require(in_order, 2, f"{sort} after a {SORT_OF[before]}: wrong stage; the order is {', '.join(STAGES)}")


def judge_header(header, before):
    """Number 2."""
    kind, between, size = header >> 28, header >> 16 & 0xFFF, header & 0xFFFF
    judge_kind(kind)
    require(between == 0, 2, f"header {header:#010x}: bits 16 to 27 must be 0")
    judge_stage(kind, before)
    sizes, told = SIZES[kind]
    has = "options have" if kind == OPTIONS else f"a {SORT_OF[kind]} has"
    require(size in sizes, 2, f"payload of {size} words, {has} {told}")
    return kind, size


def judge_room(project, kind):
    """Number 4, of the record that is about to be added."""
    thing = STAGE_OF[kind]
    if thing in MOST:
        most = MOST[thing]
        require(len(getattr(project, thing)) < most, 4, f"one too many: an image has at most {most} {thing}")


def read_record(project, words, before):
    """Judges the next record in the order 2, 3, 4, 5, 6; answers its kind."""
    at = project.read
    kind, size = judge_header(words[at], before)
    end = at + 1 + size
    require(end <= len(words), 3, f"payload of {size} words, and the image has only {len(words) - at - 1} left")
    judge_room(project, kind)
    READERS[kind](project, Payload(words[at + 1 : end]))
    project.read = end
    return kind


def thing_name(names, table, sort, index):
    """The name that the text gives to an entry of a table, or the one that `show` makes of its sort and index."""
    given = names.name(table, index) if names else None
    form = form_of(sort)
    return given or (f"{form.letters}{index}" if form else "")


def record_fault(refusal, project, words, record, names):
    """The fault of the record at which the walk stands."""
    at = project.read
    kind = words[at] >> 28
    sort = SORT_OF.get(kind, "")
    # Behind numbers 2 and 3 the whole payload is there, and a link's third word says its sort.
    if kind == LINK and refusal.number > 3 and words[at + 3] < len(LINK_SORTS):
        sort = LINK_SORTS[words[at + 3]]
    tables = tables_of(kind)
    name = thing_name(names, tables[0], sort, len(getattr(project, STAGE_OF[kind]))) if tables else ""
    return Fault(refusal.number, record, sort, name, refusal.words, refusal.reason, at)


def whole_fault(reason):
    return Fault(1, None, "", "", None, reason)


def length_fault(length):
    """Number 1, of an image of so many words."""
    if length == 0:
        return whole_fault("no words, and an image has at least one")
    if length > MOST_WORDS:
        return whole_fault(f"{length:,} words, and an image has at most {MOST_WORDS:,}")
    return None


def walk(project, words, names):
    """Reads the records into the tables; answers the fault of the first that has one."""
    before, record = None, 0
    while project.read < len(words):
        record += 1
        try:
            before = read_record(project, words, before)
        except Refusal as refusal:
            return record_fault(refusal, project, words, record, names)
    return None


def default_pattern_fault(project, payload):
    """Number 6, judged after the last record."""
    try:
        payload.pattern(8, project.patterns, "default pattern", where="")
    except Refusal as refusal:
        return Fault(refusal.number, 1, SORT_OF[OPTIONS], "", refusal.words, refusal.reason)
    return None


def decode(words, names=None):
    """The tables that an image says, or its first fault; `names` are those of its text, for the fault to use."""
    project = Decoded()
    project.fault = length_fault(len(words)) or walk(project, words, names)
    if project.fault is None:
        project.fault = default_pattern_fault(project, Payload(words[1:11]))
    return project


# --- Loads ---


def loaded(project, names):
    """What a load has a value for, in its order: ('flow', 'pump', 'U'), .., ('head', 'junction', 'J')."""
    for index, link in enumerate(project.links):
        sort = LINK_SORTS[link["sort"]]
        yield "flow", sort, thing_name(names, "link", sort, index)
    for index, node in enumerate(project.nodes):
        if node["kind"] == "junction":
            yield "head", "junction", thing_name(names, "node", "junction", index)


def load_size(project):
    """The payload words of a load: every link's flow, then every junction's head."""
    junctions = [node for node in project.nodes if node["kind"] == "junction"]
    return 2 * (len(project.links) + len(junctions))


def require_load(project, words):
    """Number 7; `words` is the whole load."""
    require(len(words) > 0, 7, "no word of a load is left")
    header, size = words[0], load_size(project)
    require(header >> 28 == LOAD, 7, f"kind {header >> 28}, a load has kind {LOAD}")
    require(header >> 16 & 0xFFF == 0, 7, f"header {header:#010x}: bits 16 to 27 must be 0")
    told = f"a load of this image has {size}: flows {len(project.links)}, heads {size // 2 - len(project.links)}"
    require(header & 0xFFFF == size, 7, f"payload of {header & 0xFFFF} words, {told}")
    require(len(words) >= 1 + size, 7, f"the load is cut: {len(words) - 1} of its {size} payload words")
    require(len(words) == 1 + size, 7, f"{len(words) - 1 - size} words are left over behind the load")


def judge_load(project, words, which=1, names=None, at=0):
    """The fault of a load, 7 or 8, or None; `words` is the whole load, `which` counts from 1."""
    try:
        require_load(project, words)
    except Refusal as refusal:
        return Fault(refusal.number, which, "load", "", None, refusal.reason, at)
    for place, value in enumerate(numbers_of(words[1:])):
        if not -FAR <= value <= FAR:
            what, sort, name = list(loaded(project, names))[place]
            reason = f"{what} {value!r} of {sort} {name} is not within ±{limit_text(FAR)}"
            return Fault(8, which, "load", name, (2 * place + 1, 2 * place + 2), reason, at)
    return None


def load_fault(project, data, at, which, names=None):
    """The fault, 7 or 8, of the load that begins at byte `at` of the driver's input, or None."""
    rest = data[at : at + 4 * (1 + load_size(project))]
    if 0 < len(rest) < 4:
        reason = f"the load is cut: {len(rest)} of the header's 4 bytes"
        return Fault(7, which, "load", "", None, reason, at // 4 - 1)
    words = struct.unpack_from(f"<{len(rest) // 4}I", rest)
    return judge_load(project, words, which, names, at // 4 - 1)


# --- The driver's input: the count of words, the image, loads ---


def count_fault(data):
    """Number 1, of an input from which the image cannot be taken."""
    if len(data) < 4:
        return whole_fault(f"{len(data)} bytes, and the count of words alone takes 4")
    (count,) = struct.unpack_from("<I", data)
    if is_bare(data):
        return whole_fault("the header of options stands where the count of words should: the count is missing")
    there = (len(data) - 4) // 4
    if there < count <= MOST_WORDS:
        return whole_fault(f"the count of words is {count:,}, and only {there:,} are there")
    return length_fault(count)


def is_bare(data):
    """Whether a file begins with the header of options, where the driver's input has the count of words."""
    return data[2:4] == b"\x00\x10"


def decode_input(data, names=None):
    """The tables that the driver's whole input says, and its first fault; every load is judged."""
    if fault := count_fault(data):
        return Decoded(fault=fault)
    (count,) = struct.unpack_from("<I", data)
    project = decode(struct.unpack_from(f"<{count}I", data, 4), names)
    at, size = 4 + 4 * count, 4 * (1 + load_size(project))
    while project.fault is None and at < len(data):
        project.fault = load_fault(project, data, at, project.loads + 1, names)
        project.loads += project.fault is None
        at += size
    return project


def judge(data, names=None):
    """The first fault of the driver's whole input, or None. The driver itself reads only the loads that it steps."""
    return decode_input(data, names).fault


def names_of(text):
    """The names that a works' text gives to patterns, nodes and links, in image order."""
    return image_text.names_of(text)
