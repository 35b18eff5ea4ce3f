"""The text of an image from its words: record by record up to the first fault, raw lines from there on."""
import dataclasses
import struct

import image_decode
from image_format import NUMBER, Names, TextError, Tokens, Unfit, forms_of, tables_of

WORDS_A_LINE = 8


@dataclasses.dataclass
class Shown:
    lines: list
    fault: object  # what is wrong with the file, or None


def word_text(word):
    return str(word) if word < 0x10000 else f"0x{word:08x}"


def raw_line(kind, payload):
    return " ".join(["raw", str(kind)] + [word_text(word) for word in payload])


def framed(words):
    """The (kind, payload) of each record as far as headers can be followed, then the words that are left."""
    records, at = [], 0
    while at < len(words):
        kind, between, size = words[at] >> 28, words[at] >> 16 & 0xFFF, words[at] & 0xFFFF
        if between or at + 1 + size > len(words):
            break
        records.append((kind, words[at + 1 : at + 1 + size]))
        at += 1 + size
    return records, words[at:]


def raw_lines(words):
    records, left = framed(words)
    lines = [raw_line(kind, payload) for kind, payload in records]
    for at in range(0, len(left), WORDS_A_LINE):
        lines.append(" ".join(["words"] + [word_text(word) for word in left[at : at + WORDS_A_LINE]]))
    return lines


def fitting_form(kind, payload):
    """The first form that says exactly this payload, or None. Names have no part in that: indices stay bare."""
    names = Names()
    for form in forms_of(kind):
        try:
            pieces = form.show(payload, names, "x").split()
            if form.read(Tokens(pieces[1:]), names) == payload:
                return form
        except (Unfit, TextError):
            continue
    return None


def made_names(records, forms):
    """A name for each record that has one, of its form's letters and its index; and the tables of names."""
    names, own = Names(), []
    for (kind, _), form in zip(records, forms):
        tables = tables_of(kind)
        name = f"{form.letters}{len(names.tables[tables[0]])}" if form and tables else None
        names.declare(tables, name)
        own.append(name)
    return names, own


def shown_image(words, end):
    """The lines of an image, by forms up to `end` and raw from there on; and the names that they use."""
    records, _ = framed(words[:end])
    forms = [fitting_form(kind, payload) for kind, payload in records]
    names, own = made_names(records, forms)
    lines = [
        form.show(payload, names, name) if form else raw_line(kind, payload)
        for (kind, payload), form, name in zip(records, forms, own)
    ]
    return lines + raw_lines(words[end:]), names


def shown_load(words, names):
    """The line of a load that has no fault."""
    values = [NUMBER.show(words[at : at + 2], names) for at in range(1, len(words), 2)]
    links, junctions = names.tables["link"], names.tables["junction"]
    named = [f"{name}={value}" for name, value in zip(links + junctions, values)]
    return " ".join(["load", "flow"] + named[: len(links)] + ["head"] + named[len(links) :])


def shown_loads(words, project, names):
    """The lines of the loads up to the first fault, raw lines from there on."""
    lines, at, size = [], 0, image_decode.load_size(project)
    while at < len(words):
        load = words[at : at + 1 + size]
        if image_decode.judge_load(project, load):
            return lines + raw_lines(words[at:])
        lines.append(shown_load(load, names))
        at += len(load)
    return lines


def split_words(data):
    """The words of a file and the bytes after the last of them."""
    count = len(data) // 4
    return list(struct.unpack_from(f"<{count}I", data)), data[4 * count :]


def show(data):
    """An image's file as text: the words alone."""
    words, tail = split_words(data)
    project = image_decode.decode(words)
    lines, _ = shown_image(words, project.read)
    left = f"{len(tail)} bytes are left after the last word" if tail else None
    return Shown(lines + tail_lines(tail), project.fault or left)


def show_input(data):
    """The driver's input as text: the count, the image, loads."""
    words, tail = split_words(data)
    return Shown(input_lines(words) + tail_lines(tail), image_decode.judge(data))


def input_lines(words):
    if not words:
        return []
    count, words = words[0], words[1:]
    if count > len(words):
        return [f"count {count}"] + raw_lines(words)
    project = image_decode.decode(words[:count])
    lines, names = shown_image(words[:count], project.read)
    loads = words[count:]
    if loads:
        lines += ["loads"] + (raw_lines(loads) if project.fault else shown_loads(loads, project, names))
    return lines


def tail_lines(tail):
    return ["bytes " + tail.hex(" ")] if tail else []
