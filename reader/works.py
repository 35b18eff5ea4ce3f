"""The works that is asked for: the driver's input, a title, and the names that its text gives."""

import functools
import pathlib
import re
import struct
import sys
from dataclasses import dataclass

import image_decode
import image_text
from image_format import TextError

from reader import ROOT
from reader.failure import Failure
from reader.network import Network


@dataclass
class Works:
    title: str
    data: bytes  # the driver's input: the count of words, the image, loads
    text: str = ""  # what names its parts, where that is at hand

    def image_words(self):
        """The words of the image, as many of them as are there."""
        words = struct.unpack_from(f"<{len(self.data) // 4}I", self.data)
        return list(words[1 : 1 + words[0]]) if words else []

    @functools.cached_property
    def names(self):
        """The names of the text, if it is the text of this image. None where names are to be made."""
        try:
            if self.text and image_text.assemble(self.text).image_words() == self.image_words():
                return image_decode.names_of(self.text)
        except TextError:
            pass
        return None

    @functools.cached_property
    def network(self):
        """The tables of an accepted image, under the names."""
        return Network(image_decode.decode(self.image_words()), self.names)


def title_of(text):
    """The first line of a works' text says what it is; nothing where it is no comment."""
    first = text.partition("\n")[0]
    return first.lstrip("# ") if first.startswith("#") else ""


def stock():
    """The works of the stock: their names, and the files of their texts."""
    return {path.stem: path for path in sorted((ROOT / "stock").glob("*.txt"))}


def find(asked):
    """The works by its name in the stock, its file, or - for standard input."""
    if asked == "-":
        return of_file(pathlib.Path("standard input"), sys.stdin.buffer.read())
    path = stock()[asked].with_suffix(".image") if asked in stock() else pathlib.Path(asked)
    if not path.exists():
        raise Failure(f"{asked} is no works of the stock and no file; ./run --list has the stock")
    return of_file(path, read(path))


def of_file(path, data):
    """An accepted image has a byte 0 in its count, and a text has none."""
    is_text = path.suffix == ".txt" or (data and b"\0" not in data)
    return of_text(path, data) if is_text else of_image(path, data)


def read(path):
    try:
        return path.read_bytes()
    except OSError as error:
        raise Failure(f"{path}: {error.strerror}") from None


def decoded(path, data):
    try:
        return data.decode("utf-8")
    except UnicodeDecodeError:
        raise Failure(f"{path} is no text in UTF-8") from None


def of_image(path, data):
    """An image, with the text beside it, which is not needed and may be wrong."""
    beside = path.with_suffix(".txt")
    text = read(beside).decode("utf-8", "replace") if path.suffix == ".image" and beside.is_file() else ""
    return Works(title_of(text) or str(path), data, text)


def of_text(path, data):
    """A text, with the loads of the file beside it behind its own lines."""
    own, beside = decoded(path, data), path.with_suffix(".loads")
    text = own
    if path.suffix == ".txt" and beside.is_file():
        text = f"{own}\n{decoded(beside, read(beside))}"
    try:
        data = image_text.assemble(text).data(counted=True)
    except TextError as error:
        raise Failure(f"{place(path, own, error.line)}: {error.message}") from None
    return Works(title_of(own) or str(path), data, own)


def place(path, own, line):
    """Where a line of a text is, which may be one of the loads beside it."""
    lines = len(re.split(r"\r\n|\r|\n", own))
    if line is None or line <= lines:
        return path if line is None else f"{path}:{line}"
    return f"{path.with_suffix('.loads')}:{line - lines}"


def start_clock(data):
    """The start clock of an image: the sixth word of the options, the first record behind the count."""
    return struct.unpack_from("<I", data, 28)[0]
