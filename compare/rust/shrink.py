"""Makes a case smaller for as long as the programs still differ on it."""

from image import *
from levels import Ask


def shrunk(case, differs):
    """The smallest case found on which `differs` still holds."""
    while True:
        smaller = next((candidate for candidate in smaller_cases(case) if differs(candidate)), None)
        if smaller is None:
            return case
        case = smaller


def smaller_cases(case):
    if isinstance(case, Image):
        yield from smaller_images(case)
        return
    if isinstance(case, Ask):
        yield from fewer_entries(case, "questions")
        return
    yield from fewer_entries(case, "calls" if isinstance(case, Replay) else "loads")
    if isinstance(case, Drive) and case.tail:
        yield changed(case, "tail", case.tail[:-1])
    for table in DROP:
        for kept in without_runs(list(range(len(getattr(case.project, table))))):
            yield with_only(case, table, kept)
    yield from plainer_cases(case)


def changed(value, name, new):
    value = copied(value)
    setattr(value, name, new)
    return value


def without_runs(entries):
    """The list without a half, a quarter, .. and each single entry."""
    size = max(len(entries) // 2, 1)
    while entries:
        for at in range(0, len(entries), size):
            yield entries[:at] + entries[at + size :]
        if size == 1:
            return
        size //= 2


def fewer_entries(case, name):
    for entries in without_runs(getattr(case, name)):
        yield changed(case, name, entries)


def smaller_images(case):
    for records in without_runs(split_records(case.words)):
        yield changed(case, "words", [word for record in records for word in record])
    if len(case.words) < 60:
        for words in without_runs(case.words):
            yield changed(case, "words", words)
        for at, word in enumerate(case.words):
            if word:
                yield changed(case, "words", case.words[:at] + [0] + case.words[at + 1 :])


# Dropping records of a table: what names them goes too, and later indices move down. Each function drops one, in place.


def with_only(case, table, kept):
    """The case with only these records of a table."""
    case = copied(case)
    for index in sorted(set(range(len(getattr(case.project, table)))) - set(kept), reverse=True):
        DROP[table](case, index)
    return case


def loads_of(case):
    if isinstance(case, Drive):
        return case.loads
    return [call.load for call in case.calls if call.load]


def drop_premise(case, index):
    del case.project.premises[index]
    if isinstance(case, Replay):
        case.calls = [call for call in case.calls if call.code != PREMISE_CALL or call.premise != index]
        for call in case.calls:
            call.premise -= call.code == PREMISE_CALL and call.premise > index


def drop_control(case, index):
    del case.project.controls[index]


def drop_link(case, index):
    project = case.project
    drop_premises_of(case, range(6, 9), index)
    project.controls = [control for control in project.controls if control.link != index]
    del project.links[index]
    for control in project.controls:
        control.link -= control.link > index
    for load in loads_of(case):
        del load.flows[index]


def drop_premises_of(case, attributes, index):
    """Drops the premises about a record, and moves those about later ones."""
    premises = case.project.premises
    for number in reversed(range(len(premises))):
        if premises[number].attribute in attributes and premises[number].index == index:
            drop_premise(case, number)
    for premise in premises:
        premise.index -= premise.attribute in attributes and premise.index > index


def goes_by_clock(control):
    return control.condition in (TIME, CLOCK_TIME)


def drop_node(case, index):
    project = case.project
    for number in reversed(range(len(project.links))):
        if index in (project.links[number].start, project.links[number].end):
            drop_link(case, number)
    drop_premises_of(case, range(6), index)
    project.controls = [control for control in project.controls if goes_by_clock(control) or control.subject != index]
    junctions = project.junctions()
    for load in loads_of(case) if index in junctions else []:
        del load.heads[junctions.index(index)]
    del project.nodes[index]
    for control in project.controls:
        control.subject -= not goes_by_clock(control) and control.subject > index
    for link in project.links:
        link.start -= link.start > index
        link.end -= link.end > index


def drop_pattern(case, index):
    def moved(word):
        return 0 if word == index + 1 else word - (word > index + 1)

    project = case.project
    del project.patterns[index]
    project.options.default_pattern = moved(project.options.default_pattern)
    for node in project.nodes:
        if isinstance(node, Reservoir):
            node.pattern = moved(node.pattern)
        elif isinstance(node, Junction):
            node.demands = [(base, moved(pattern)) for base, pattern in node.demands]


DROP = {
    "premises": drop_premise,
    "controls": drop_control,
    "nodes": drop_node,
    "links": drop_link,
    "patterns": drop_pattern,
}


# Plainer values in what is left


PLAIN = {
    Options: {"pattern_start": 0, "start_clock": 0, "hydraulic": LONGEST_TIME, "multiplier": 1.0, "default_pattern": 0},
    Reservoir: {"elevation": 0.0, "pattern": 0},
    Tank: {"elevation": 0.0, "least": 0.0, "overflow": 0},
    Junction: {"disabled": 0, "elevation": 0.0},
    Link: {"sort": PIPE, "status": OPEN, "size": 1.0, "setting": 0.0},
    Control: {"status": 0, "setting": 0.0},
    Premise: {"operator": 0},
}

# Fields that may come to name an earlier record, so that a later one can go.
INDICES = {Link: ("start", "end"), Control: ("link", "subject"), Premise: ("index",)}


def plainer_cases(case):
    for number, item in enumerate(case.project.records()):
        for name, value in plainer_fields(item):
            plainer = copied(case)
            setattr(plainer.project.records()[number], name, value)
            yield plainer
    for number, load in enumerate(loads_of(case)):
        yield from plainer_loads(case, number, load)


def plainer_fields(item):
    """Pairs of a field and a plainer value for it."""
    for name, plain in PLAIN.get(type(item), {}).items():
        if shown(getattr(item, name)) != shown(plain):
            yield name, plain
    for name in INDICES.get(type(item), ()):
        yield from ((name, earlier) for earlier in range(min(getattr(item, name), 2)))
    if isinstance(item, Pattern):
        yield from (("multipliers", fewer) for fewer in without_runs(item.multipliers) if fewer)
    if isinstance(item, Junction):
        yield from (("demands", fewer) for fewer in without_runs(item.demands))


def plainer_loads(case, number, load):
    for name in ("flows", "heads"):
        for index, value in enumerate(getattr(load, name)):
            if bits_of(value) != 0:
                plainer = copied(case)
                getattr(loads_of(plainer)[number], name)[index] = 0.0
                yield plainer
