"""Documents as MongoDB's tools export them: Extended JSON, canonical or relaxed, one document a line or one array.

A file's documents are read as plain JSON (`Export`), and then made the values that the program prints (`taken`).
"""
from __future__ import annotations

import codecs
import json
import re
from datetime import datetime
from itertools import chain
from typing import Any, BinaryIO, Callable, Iterable, Iterator

from cluster import GREATEST, LEVEL_LIMIT, SMALLEST, Document, Fault, Value

BLOCK = 1 << 20
LONGEST = 1 << 26
"""More characters than a document of MongoDB's largest size has."""

EPOCH = datetime(1970, 1, 1)
WHOLE = re.compile(r"-?[0-9]{1,19}")
DATE = re.compile(r"(\d{4}-\d\d-\d\dT\d\d:\d\d:\d\d)(\.\d{1,9})?(?:Z|([+-])(\d\d):?(\d\d))")

DOUBLE = "double that isn't whole"
DOLLAR_NAME = "name that begins with $"
KINDS = {
    "$numberDecimal": "decimal",
    "$numberDouble": DOUBLE,
    "$binary": "binary",
    "$uuid": "binary",
    "$regularExpression": "regular expression",
    "$regex": "regular expression",
    "$code": "JavaScript",
    "$timestamp": "timestamp",
    "$minKey": "MinKey",
    "$maxKey": "MaxKey",
    "$undefined": "undefined",
    "$symbol": "symbol",
    "$dbPointer": "DBPointer",
    "$ref": "DBRef",
}


class Refused:
    """Stands for a value that the program doesn't take, by its type's name."""

    def __init__(self, kind: str):
        self.kind = kind


# Numbers, dates and identities

def double_of(number: float) -> int | Refused:
    """A double, which is taken where it is whole."""
    if not number.is_integer():
        return Refused(DOUBLE)
    return whole_of(int(number))


def whole_of(number: int) -> int | Refused:
    """A whole number, which is taken where 64 bits hold it."""
    return number if SMALLEST <= number <= GREATEST else Refused("number past 64 bits")


def milliseconds_of(text: str) -> int:
    """An ISO date's milliseconds since 1970."""
    if len(text) == 24 and text[4] == text[7] == "-" and text[10] == "T" and text[23] == "Z":
        moment, fraction, offset = text[:19], text[20:23], 0
    else:
        match = DATE.fullmatch(text)
        if match is None:
            raise Fault("no ISO date")
        moment, fraction = match[1], (match[2] or ".")[1:].ljust(9, "0")
        offset = int(match[4] or 0) * 3600 + int(match[5] or 0) * 60
        offset = -offset if match[3] == "-" else offset
        if fraction[3:].strip("0"):
            raise Fault("a date finer than milliseconds")
    try:
        past = datetime.fromisoformat(moment) - EPOCH
        return (past.days * 86400 + past.seconds - offset) * 1000 + int(fraction[:3])
    except ValueError:
        raise Fault("no ISO date") from None


def read_object_id(tag: Document) -> Value:
    """The value of `{"$oid": ..}`."""
    digits = tag["$oid"]
    try:
        if len(digits) == 24 and len(bytes.fromhex(digits)) == 12:
            return tag
    except (TypeError, ValueError):
        pass
    raise Fault("$oid wants 24 hexadecimal digits")


def read_whole(tag: Document) -> Value:
    """The value of `{"$numberLong": ..}` and `{"$numberInt": ..}`."""
    content, = tag.values()
    if isinstance(content, str) and WHOLE.fullmatch(content):
        content = int(content)
    if type(content) is not int or not SMALLEST <= content <= GREATEST:
        raise Fault("no whole number of 64 bits")
    return content


def read_double(tag: Document) -> Value:
    """The value of `{"$numberDouble": ..}`."""
    try:
        return double_of(float(tag["$numberDouble"]))
    except (TypeError, ValueError):
        raise Fault("no double") from None


def read_date(tag: Document) -> Value:
    """The value of `{"$date": ..}`, which has an ISO text, or milliseconds."""
    content = tag["$date"]
    if isinstance(content, str):
        content = milliseconds_of(content)
    elif isinstance(content, dict) and len(content) == 1 and "$numberLong" in content:
        content = read_whole(content)
    if type(content) is not int:
        raise Fault("$date wants an ISO text or milliseconds")
    return {"$date": {"$numberLong": str(content)}}


TAGS: dict[str, Callable[[Document], Value]] = {
    "$oid": read_object_id,
    "$numberLong": read_whole,
    "$numberInt": read_whole,
    "$numberDouble": read_double,
    "$date": read_date,
}


# Values

Note = Callable[[str, str], None]
"""Is told each value that isn't taken, by its field and type."""

PLAIN = frozenset([str, bool, type(None)])


def taken(document: Document, note: Note, path: str = "", level: int = 1) -> Document:
    """The document as the program prints it, without the fields whose values it doesn't take."""
    gone = []
    for name, value in document.items():
        if name < "%" and name[:1] == "$":
            note(path + name, DOLLAR_NAME)
            gone.append(name)
        elif type(value) not in PLAIN and (type(value) is not int or not SMALLEST <= value <= GREATEST):
            value = document[name] = _taken_value(value, note, path + name, level)
            if type(value) is Refused:
                gone.append(name)
    for name in gone:
        del document[name]
    return document


def _taken_value(value: Value, note: Note, place: str, level: int) -> Value:
    """The value, or `Refused` where its field has to go; an array goes whole."""
    kind = type(value)
    if kind is dict:
        read = TAGS.get(next(iter(value))) if len(value) == 1 else None
        if read is None:
            return _taken_object(value, note, place, level + 1)
        value = _taken_tag(read, value, place, level + 1)
    elif kind is list:
        return _taken_list(value, note, place, level + 1)
    elif kind is float:
        value = double_of(value)
    elif kind is int:
        value = whole_of(value)
    if type(value) is Refused:
        note(place, value.kind)
    return value


def _taken_tag(read: Callable[[Document], Value], tag: Document, place: str, level: int) -> Value:
    try:
        if level <= LEVEL_LIMIT:
            return read(tag)
    except Fault as fault:
        raise Fault(f"field {shown(place)}: {fault}") from None
    raise too_deep(place)


def _taken_list(items: list[Value], note: Note, place: str, level: int) -> Value:
    if level > LEVEL_LIMIT:
        raise too_deep(place)
    items = [item if type(item) is str else _taken_value(item, note, place + "[]", level) for item in items]
    return next((item for item in items if type(item) is Refused), items)


def _taken_object(value: Document, note: Note, place: str, level: int) -> Value:
    if level > LEVEL_LIMIT:
        raise too_deep(place)
    kind = next((KINDS[name] for name in value if name in KINDS), None)
    if kind is None:
        return taken(value, note, place + ".", level)
    note(place, kind)
    return Refused(kind)


def shown(place: str) -> str:
    """A field for a person, on one line."""
    return place if place.isprintable() else json.dumps(place)


def too_deep(place: str) -> Fault:
    """What is said of a value that stands deeper than the program takes."""
    return Fault(f"field {shown(place)}: more than {LEVEL_LIMIT} levels")


# Files

def why(error: Exception) -> str:
    """What an error of reading says to a person."""
    if isinstance(error, UnicodeDecodeError):
        return "not UTF-8"
    if isinstance(error, json.JSONDecodeError):
        return f"not JSON: {error.msg[:1].lower()}{error.msg[1:]}"
    return "nested too deep" if isinstance(error, RecursionError) else "not JSON"


def scan(text: str, start: int) -> tuple[Any, int]:
    """The JSON value that begins at a place, and where it ends."""
    try:
        return _scan_once(text, start)
    except StopIteration as stop:
        raise json.JSONDecodeError("Expecting value", text, stop.value) from None


_scan_once = json.JSONDecoder().scan_once


class Export:
    """The documents of an exported file, as JSON. Of every so many the first is taken; lines between aren't read."""

    def __init__(self, file: BinaryIO, every: int = 1):
        self._file = file
        self._every = every
        self._is_array = False
        self._line = 0
        self._number = 0

    @property
    def place(self) -> str:
        """Where the last document stands."""
        return f"line {self._line}, document {self._number}" if self._is_array else f"line {self._line}"

    def __iter__(self) -> Iterator[Document]:
        first = self._first_line()
        if first.lstrip().startswith(b"["):
            self._is_array = True
            return self._of_array(first)
        if first and not first.endswith(b"\n"):
            first += self._file.readline()
        return self._of_lines(chain([first], self._file))

    def _first_line(self) -> bytes:
        """The first line that isn't blank, or its first block."""
        while True:
            line = self._file.readline(BLOCK)
            self._line += 1
            if line.strip() or not line:
                return line

    def _of_lines(self, lines: Iterable[bytes]) -> Iterator[Document]:
        every, left = self._every, 0
        for line in lines:
            if left:
                left -= 1
            elif len(line) > 2 or line.strip():
                left = every - 1
                try:
                    text = str(line, "utf-8")
                    document, end = _scan_once(text, 0)
                    if type(document) is not dict or text[end:] != "\n":
                        document = whole_line(text)
                except (StopIteration, ValueError, RecursionError):
                    document = whole_line(line)
                yield document
            self._line += 1

    def _of_array(self, first: bytes) -> Iterator[Document]:
        text = _Text(self._file, first)
        text.take("[")
        closed = text.skip() == "]"
        while not closed:
            self._number += 1
            self._line = text.line
            document = self._of_text(text)
            if self._number % self._every == 1 % self._every:
                yield document
            closed = text.skip() == "]"
            if not closed:
                text.take(",")
                text.skip()
        text.take("]")
        if text.skip():
            raise Fault("something stands after the array")

    def _of_text(self, text: _Text) -> Document:
        """The document that comes next; where it can't be read, more of the file may help."""
        while True:
            try:
                document, end = scan(text.buffer, text.position)
            except (ValueError, RecursionError) as error:
                if isinstance(error, RecursionError) or not text.grow():
                    raise Fault(why(error)) from None
            else:
                text.move(end)
                return checked(document)


def whole_line(line: bytes | str) -> Document:
    """The one document that a line has, or the fault of it."""
    try:
        text = (line if isinstance(line, str) else str(line, "utf-8")).strip(" \t\r\n")
        document, end = scan(text, 0)
    except json.JSONDecodeError as error:
        raise Fault(f"{why(error)} at character {error.pos + 1}") from None
    except (ValueError, RecursionError) as error:
        raise Fault(why(error)) from None
    if end < len(text):
        raise Fault("something stands after the document")
    return checked(document)


def checked(document: Any) -> Document:
    """A JSON value that has to be a document."""
    if type(document) is not dict:
        raise Fault("no document")
    return document


class _Text:
    """A file's text from a moving place on, read in blocks."""

    def __init__(self, file: BinaryIO, first: bytes):
        self._file = file
        self._decoder = codecs.getincrementaldecoder("utf-8")()
        self.line = 1
        self.buffer = ""
        self.position = 0
        self._add(first)

    def _add(self, block: bytes) -> None:
        try:
            self.buffer = self.buffer[self.position:] + self._decoder.decode(block, final=not block)
        except UnicodeDecodeError:
            raise Fault("not UTF-8") from None
        self.position = 0

    def grow(self) -> bool:
        """Reads a block more, of the length of what is left or longer; false at the end, or where that is too much."""
        left = len(self.buffer) - self.position
        if left > LONGEST:
            return False
        block = self._file.read(max(BLOCK, left))
        self._add(block)
        return bool(block)

    def move(self, end: int) -> None:
        """Goes on to a place of the buffer."""
        self.line += self.buffer.count("\n", self.position, end)
        self.position = end

    def skip(self) -> str:
        """Goes past blanks; the character that comes next, or none at the end."""
        while True:
            while self.position < len(self.buffer):
                if not self.buffer[self.position].isspace():
                    return self.buffer[self.position]
                self.move(self.position + 1)
            if not self.grow():
                return ""

    def take(self, mark: str) -> None:
        """Goes past a character that has to come."""
        if self.skip() != mark:
            raise Fault(f"not JSON: expecting '{mark}'")
        self.move(self.position + 1)
