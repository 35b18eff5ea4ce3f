"""Images and loads with faults in them, by chance."""

from image import *
from limits import ONES, field_values, filled_up, lengthened, table_limits, words_of
from values import *


# Loads


def spoilt_load(chance, load):
    load = load.copy()
    if (load.flows or load.heads) and chance.one_in(2):
        spoil_value(chance, load)
        if chance.one_in(6):
            spoil_shape(chance, load)
    else:
        spoil_shape(chance, load)
    return load


def spoil_value(chance, load):
    values = chance.choice([values for values in (load.flows, load.heads) if values])
    values[chance.randrange(len(values))] = beyond(chance, MOST_LOADED)


def spoil_shape(chance, load):
    """A header with another kind, a bit that must be 0 or another size; words cut off or left over."""
    if chance.one_in(2):
        load.header_change = chance.choice((1 << chance.randint(28, 31), 1 << chance.randint(16, 27), 1, 2, 4, 0x8000))
    if load.header_change == 0 or chance.one_in(6):
        load.length_change = chance.choice((-1, -2, 1, 2, -len(load.words())))


# Images


def damaged(chance, project):
    """An image with none, one or a few faults."""
    return chance.among(
        (8, lambda: Image(words_of(spoil_fields(chance, project)))),
        (6, lambda: Image(spoil_records(chance, project))),
        (4, lambda: Image(spoil_words(chance, project.words()))),
        (2, lambda: Image(words_of(one_past(chance, project)))),
        (1, lambda: spoil_length(chance, project.words())),
        (1, lambda: Image(project.words())),
    )


def spoil_fields(chance, project):
    """Records with one to three values at a limit or beyond it, often in the same record."""
    records = copied(project.records())
    record = record_of_any_type(chance, records)
    for _ in range(chance.choice((1, 1, 2, 3))):
        if chance.one_in(4):
            record = record_of_any_type(chance, records)
        spoil_field(chance, record, project)
    return records


def record_of_any_type(chance, records):
    """A record, each type as likely as the other, however many it has."""
    kind = chance.choice(sorted({type(item) for item in records}, key=lambda kind: kind.__name__))
    return chance.choice([item for item in records if isinstance(item, kind)])


def spoil_field(chance, record, project):
    name, values = chance.choice(list(field_values(record, project).items()))
    setattr(record, name, copied(chance.choice(values)))


def one_past(chance, project):
    """As many of one thing as there may be or one more, the last perhaps with another fault."""
    full, after = filled_up(project, *chance.choice(table_limits()))
    added = [copied(full[-1])] if not chance.one_in(4) else []
    if added and chance.one_in(3):
        spoil_field(chance, added[-1], project)
    return full + added + (after if chance.one_in(2) else [])


# Whole records, as lists of words


def spoil_records(chance, project):
    records = [item.words() for item in project.records()]
    for _ in range(chance.choice((1, 1, 1, 2))):
        if records:
            chance.choice(RECORD_DAMAGES)(chance, records)
            records = [words for words in records if words]
    return [word for words in records for word in words][: MOST_WORDS + 100]


def flip_header_bit(chance, records):
    chance.choice(records)[0] ^= 1 << chance.randrange(32)


def change_kind(chance, records):
    words = chance.choice(records)
    words[0] = chance.randrange(16) << 28 | words[0] & 0x0FFFFFFF


def change_size(chance, records):
    """Another size, with or without the words that it asks for."""
    words = chance.choice(records)
    size = max(chance.choice((len(words) - 2, len(words), len(words) + 1, 0, chance.randrange(20), 338, 0xFFFF)), 0)
    words[0] = words[0] & 0xFFFF0000 | size
    if not chance.one_in(3):
        words[1:] = (words[1:] + [0] * size)[:size]


def swap(chance, records):
    one, other = chance.randrange(len(records)), chance.randrange(len(records))
    records[one], records[other] = records[other], records[one]


def drop(chance, records):
    del records[chance.randrange(len(records))]


def double(chance, records):
    at = chance.randrange(len(records))
    records.insert(chance.choice((at, len(records))), list(records[at]))


def cut_end(chance, records):
    words = records[-1]
    del words[chance.randrange(len(words) + 1):]


def cut_and_spoil_end(chance, records):
    """The last record is cut and has other faults too, which stand later in the order of the checks."""
    words = records[-1]
    for at in range(1, len(words)):
        if chance.one_in(2):
            words[at] = ONES
    del words[chance.randint(1, len(words)):]


def add_words(chance, records):
    records.append([chance.choice((0, 1, ONES, 0xF0000000, 0x90000003, chance.randrange(16) << 28))
                    for _ in range(chance.randint(1, 3))])


RECORD_DAMAGES = (
    flip_header_bit, change_kind, change_size, swap, drop, double, cut_end, cut_and_spoil_end, add_words,
)


# Single words and lengths


def spoil_words(chance, words):
    for _ in range(chance.choice((1, 1, 2, 4))):
        at = chance.randrange(len(words))
        words[at] = chance.choice((
            words[at] ^ 1 << chance.randrange(32), words[at] + 1 & ONES, words[at] - 1 & ONES, 0, 1, 10, ONES,
            0x80000000, 0x7FF00000, 0x7FF80000, 0xFFF00000, chance.randrange(1 << 32),
        ))
    return words


def spoil_length(chance, words):
    """As many words as there may be, more, the image cut anywhere, or a count that asks for more than there are."""
    return chance.among(
        (1, lambda: Image(lengthened(words, MOST_WORDS + chance.randint(0, 2)))),
        (3, lambda: Image(words[: chance.randint(1, len(words))])),
        (1, lambda: Image(words, max(len(words), chance.randrange(1 << 14)) + 1)),
    )
