"""The words of an image from its text: the lines around the records of image_format.

Beside the records a text may have

  raw KIND WORD ..      a record of any kind and payload
  words WORD ..         words as they are, headers too
  bytes HEX ..          up to three bytes after the last word, as the last line
  count N               the count to write in front in place of the true one
  loads                 ends the image; from here on there are loads
  load flow .. head ..  a load: numbers in image order, or NAME=number for every link and junction
"""
import contextlib
import dataclasses
import re
import struct

from image_format import FIELD, FORMS, LOAD, NUMBER, Names, TextError, Tokens
from image_format import form_of, header, in_front, spaced_field, tables_of, word_of

LOAD_USAGE = "load flow .. head .., with a number for every link and then for every junction"


@dataclasses.dataclass
class Line:
    number: int
    keyword: str
    pieces: list


@dataclasses.dataclass
class Assembly:
    """What a text says: (line number, words) for each line of the image and of the loads."""

    image: list = dataclasses.field(default_factory=list)
    loads: list = dataclasses.field(default_factory=list)
    tail: bytes = b""  # stray bytes
    tail_line: int = None
    count: int = None  # the count to write, where it is not the true one
    needs_count: int = None  # the first line that makes sense only behind a count

    def image_words(self):
        return [word for _, words in self.image for word in words]

    def data(self, counted):
        """The bytes of the file: with the count in front, the driver's input."""
        if self.needs_count and not counted:
            raise TextError("loads and a count belong to the driver's form", "no --bare", self.needs_count)
        image = self.image_words()
        words = image + [word for _, words in self.loads for word in words]
        if counted:
            words.insert(0, len(image) if self.count is None else self.count)
        return struct.pack(f"<{len(words)}I", *words) + self.tail

    def line_at(self, place):
        """The number of the line that says the word at this place of image and loads, or the bytes behind them."""
        for number, words in self.image + self.loads:
            place -= len(words)
            if place < 0:
                return number
        return self.tail_line


def lines_of(text):
    """The lines with something on them; # begins a comment. A byte order mark in front is no part of the text."""
    for number, line in enumerate(re.split(r"\r\n|\r|\n", text.removeprefix("\ufeff")), 1):
        pieces = line.split("#", 1)[0].split()
        if pieces:
            yield Line(number, pieces[0], pieces[1:])


@contextlib.contextmanager
def errors_name(line):
    """Gives an error on the way up the number of this line."""
    try:
        yield
    except TextError as error:
        error.line = line.number
        raise


def end_of_image(lines):
    """How many of the lines stand in front of the line `loads`."""
    keywords = [line.keyword for line in lines]
    return keywords.index("loads") if "loads" in keywords else len(lines)


def names_of(text):
    """The names that a text gives to patterns, nodes and links, in image order."""
    lines = list(lines_of(text))
    return declared_names(lines[: end_of_image(lines)])


def declared_names(lines):
    """The names of all the entries: a reference may stand in front of what it names (the default pattern)."""
    names = Names()
    for line in lines:
        with errors_name(line):
            if line.keyword == "raw":
                kind, _ = raw_record(line.pieces)
                names.declare(tables_of(kind), None)
            elif form := form_of(line.keyword):
                names.declare(form.tables, form.name(Tokens(line.pieces)))
    return names


def raw_record(pieces):
    """The kind and the payload of a raw line."""
    if not pieces:
        raise TextError("the kind is missing", "raw KIND WORD ..")
    kind, *payload = map(word_of, pieces)
    if kind > 15:
        raise TextError(f"kind {kind} does not fit the 4 bits of a header", "0 to 15")
    return kind, payload


def record_words(line, names):
    """The words of a record's line, of a raw line or of a words line."""
    if line.keyword == "words":
        return [word_of(piece) for piece in line.pieces]
    if line.keyword == "raw":
        kind, payload = raw_record(line.pieces)
    else:
        form = form_of(line.keyword)
        if form is None:
            known = " ".join(form.keyword for form in FORMS)
            raise TextError(f"{line.keyword} is no record", f"one of {known} raw words, or of loads count bytes")
        kind, payload = form.kind, form.read(Tokens(line.pieces), names)
    return [header(kind, payload)] + payload


def load_words(pieces, names):
    """The words of a load's line."""
    at_head = pieces.index("head") if "head" in pieces else len(pieces)
    flows, heads = pieces[:at_head], pieces[at_head + 1 :]
    if flows and flows.pop(0) != "flow":
        raise TextError(f"{pieces[0]} is not the word flow", LOAD_USAGE)
    payload = load_values(flows, "link", names) + load_values(heads, "junction", names)
    return [header(LOAD, payload)] + payload


def load_values(pieces, table, names):
    """The words of the values: as many plain numbers as there are, or one for every name of the table."""
    named = [FIELD.fullmatch(piece) for piece in pieces]
    if spaced := spaced_field(pieces):
        raise spaced
    if not any(named):
        return [word for piece in pieces for word in NUMBER.read(piece, names)]
    if not all(named):
        plain = pieces[named.index(None)]
        raise TextError(f"{plain} has no {table} in front", "the values of a load all plain or all NAME=number")
    return named_values([match.groups() for match in named], table, names)


def named_values(pairs, table, names):
    values = {}
    for name, text in pairs:
        index = names.index(table, name)
        if index in values:
            raise TextError(f"{table} {name} stands there twice", f"every {table} once")
        with in_front(f"{name}="):
            values[index] = NUMBER.read(text, names)
    for index, name in enumerate(names.tables[table]):
        if index not in values:
            raise TextError(f"{table} {name or index} is missing", f"a value for every {table}")
    return [word for index in sorted(values) for word in values[index]]


def stray_bytes(pieces):
    if not 1 <= len(pieces) <= 3:
        raise TextError(f"{len(pieces)} bytes cannot stand after the last word", "one to three")
    for piece in pieces:
        if not re.fullmatch("[0-9a-fA-F]{2}", piece):
            raise TextError(f"{piece} is no byte", "two hex digits")
    return bytes(int(piece, 16) for piece in pieces)


def only_word(pieces):
    if len(pieces) != 1:
        raise TextError(f"{len(pieces)} words behind `count`", "one")
    return word_of(pieces[0])


def assemble(text):
    """The Assembly that a text says; raises TextError with the line's number."""
    lines = list(lines_of(text))
    end = end_of_image(lines)
    names = declared_names(lines[:end])
    assembly = Assembly()
    for place, line in enumerate(lines):
        with errors_name(line):
            if line.keyword in ("loads", "count"):
                assembly.needs_count = assembly.needs_count or line.number
            if line.keyword == "loads":
                Tokens(line.pieces).end()
                if place > end:
                    raise TextError("the loads have begun already", "one line `loads`")
            elif line.keyword == "bytes":
                if line is not lines[-1]:
                    raise TextError("stray bytes in front of other lines", "them on the last line")
                assembly.tail, assembly.tail_line = stray_bytes(line.pieces), line.number
            elif place < end:
                assemble_image_line(assembly, line, names)
            else:
                assemble_load_line(assembly, line, names)
    return assembly


def assemble_image_line(assembly, line, names):
    if line.keyword == "count":
        assembly.count = only_word(line.pieces)
    elif line.keyword == "load":
        raise TextError("a load in the image", "the line `loads` in front of the loads")
    else:
        assembly.image.append((line.number, record_words(line, names)))


def assemble_load_line(assembly, line, names):
    if line.keyword == "load":
        words = load_words(line.pieces, names)
    elif line.keyword in ("raw", "words"):
        words = record_words(line, names)
    else:
        raise TextError(f"{line.keyword} behind the line `loads`", LOAD_USAGE)
    assembly.loads.append((line.number, words))
