"""What the tools know of the program: values, chunk maps, cluster files and pages.

A value is kept as the JSON that the program prints: null, whole numbers, texts, booleans, lists and documents as they
are, an ObjectId as {"$oid": ".."} and a date as {"$date": {"$numberLong": ".."}}.
"""
from __future__ import annotations

import bisect
import json
import os
import re
import sys
from dataclasses import dataclass, field
from typing import Any, Callable, Iterable, Iterator, Sequence

Value = Any
Document = dict[str, Any]

INPUT_LIMIT = 67_108_864
DOCUMENT_LIMIT = 100_000
TEXT_LIMIT = 16_384
LEVEL_LIMIT = 32
CHUNK_LIMIT = 64
SHARD_LIMIT = 8
KEY_LIMIT = 3
STEP_LIMIT = 100_000
LANE_LIMIT = 16
BATCH_LIMIT = 500
SMALLEST, GREATEST = -2**63, 2**63 - 1
NAME = re.compile(r"[a-z0-9_]{1,16}")

MIN_KEY, MAX_KEY = "MinKey", "MaxKey"


class Fault(Exception):
    """What is wrong with an input, in words for a person."""


def status_of(tool: str, work: Callable[[], None]) -> int:
    """A tool's status: 1 where an input is bad, which is said; the words' own faults end it with 2 before."""
    try:
        work()
        sys.stdout.flush()
    except BrokenPipeError:
        os.dup2(os.open(os.devnull, os.O_WRONLY), sys.stdout.fileno())
    except (Fault, OSError) as error:
        print(f"{tool}: {error}", file=sys.stderr)
        return 1
    return 0


# Values

_encoder = json.JSONEncoder(ensure_ascii=False, separators=(",", ":"), sort_keys=True, check_circular=False)
_write = json.encoder.c_make_encoder and json.encoder.c_make_encoder(
    None, _encoder.default, json.encoder.encode_basestring, None, ":", ",", True, False, False)


def text_of(value: Value) -> str:
    """The program's text of a value."""
    return "".join(_write(value, 0)) if _write else _encoder.encode(value)


def is_tag(value: Document) -> bool:
    """Whether an object is an ObjectId or a date, and no document."""
    return len(value) == 1 and ("$oid" in value or "$date" in value)


def order_key(value: Value) -> tuple:
    """A tuple that compares with others as the program orders values: by kind, then within it."""
    if value is None:
        return (0,)
    if isinstance(value, bool):
        return (6, value)
    if isinstance(value, int):
        return (1, value)
    if isinstance(value, str):
        return (2, value)
    if isinstance(value, list):
        return (4, tuple(map(order_key, value)))
    if is_tag(value):
        if "$oid" in value:
            return (5, value["$oid"].lower())
        return (7, int(value["$date"]["$numberLong"]))
    pairs = ((order_key(value[name]), name) for name in sorted(value))
    return (3, tuple((key[0], name, key) for key, name in pairs))


def whole_numbers(value: Value) -> Value:
    """The same value with its tagged numbers as plain ones, as the program prints them."""
    if isinstance(value, list):
        return [whole_numbers(item) for item in value]
    if isinstance(value, dict):
        if len(value) == 1:
            (name, inner), = value.items()
            if name in ("$numberLong", "$numberInt"):
                return int(inner)
            if name in ("$oid", "$date"):
                return value
        return {name: whole_numbers(inner) for name, inner in value.items()}
    return value


# Chunk maps

Bound = Any


def key_of(pattern: Sequence[str], document: Document) -> list[Value]:
    """A document's key: a missing field counts as null."""
    return [document.get(name) for name in pattern]


def bound_key(bound: Bound) -> tuple:
    """A tuple that compares with others as the program orders bounds."""
    if bound == MIN_KEY:
        return (0,)
    if bound == MAX_KEY:
        return (2,)
    return (1, tuple(map(order_key, bound)))


@dataclass(frozen=True)
class Chunk:
    """The keys from a lower bound on and below an upper one, and the shard that has them."""

    low: Bound
    high: Bound
    shard: str


class ChunkMap:
    """Chunks in order, from MinKey to MaxKey."""

    def __init__(self, pattern: Sequence[str], chunks: Sequence[Chunk]):
        self.pattern = list(pattern)
        self.chunks = joined(chunks)
        self._lows = [bound_key(chunk.low) for chunk in self.chunks]

    @classmethod
    def at_points(cls, pattern: Sequence[str], points: Sequence[list[Value]], shards: Sequence[str]) -> ChunkMap:
        """The map whose chunks meet at these points and are dealt to the shards in turn."""
        bounds = [MIN_KEY, *points, MAX_KEY]
        pairs = zip(bounds, bounds[1:])
        return cls(pattern, [Chunk(low, high, shards[place % len(shards)]) for place, (low, high) in enumerate(pairs)])

    @classmethod
    def of_rows(cls, pattern: Sequence[str], rows: Iterable[dict]) -> ChunkMap:
        """The map of a cluster file's rows."""
        return cls(pattern, [Chunk(whole_numbers(row["min"]), whole_numbers(row["max"]), row["shard"]) for row in rows])

    def owner_of(self, document: Document) -> str:
        """The shard that has this document's key."""
        key = bound_key(key_of(self.pattern, document))
        return self.chunks[bisect.bisect_right(self._lows, key) - 1].shard

    def rows(self) -> list[dict]:
        """The rows of a cluster file."""
        return [{"min": chunk.low, "max": chunk.high, "shard": chunk.shard} for chunk in self.chunks]


def joined(chunks: Sequence[Chunk]) -> list[Chunk]:
    """The chunks with neighbours of one shard made one, which leaves every key its owner."""
    result: list[Chunk] = []
    for chunk in chunks:
        if result and result[-1].shard == chunk.shard:
            result[-1] = Chunk(result[-1].low, chunk.high, chunk.shard)
        else:
            result.append(chunk)
    return result


# Cluster files

@dataclass
class Cluster:
    """What a cluster file says, as far as the tools ask."""

    shards: list[str]
    old_map: ChunkMap
    new_map: ChunkMap
    documents: list[Document]
    clients: list[dict] = field(default_factory=list)
    lanes: int = 4
    batch: int = 500


def read_cluster(path: str) -> Cluster:
    """The cluster file at a path, which the program has accepted."""
    try:
        with open(path, encoding="utf-8") as file:
            root = json.load(file)
        return Cluster(
            shards=root["shards"],
            old_map=ChunkMap.of_rows(root["oldKey"], root["oldChunks"]),
            new_map=ChunkMap.of_rows(root["newKey"], root["newChunks"]),
            documents=[whole_numbers(document) for document in root["documents"]],
            clients=root.get("clients", []),
            lanes=root.get("lanes", 4),
            batch=root.get("batch", 500),
        )
    except (ValueError, KeyError, TypeError, AttributeError) as error:
        raise Fault(f"{path}: no cluster file that the program takes ({error!r})") from None


# Pages

@dataclass(frozen=True)
class Event:
    """A line of the page's steps: the step's number, its words, and what happened."""

    step: int
    words: tuple[str, ...]
    text: str

    @property
    def is_idle(self) -> bool:
        """Whether nothing happened."""
        return self.text == "idle"


@dataclass
class Reply:
    """The answer to one command of a client."""

    number: int
    text: str
    documents: list[str] = field(default_factory=list)


@dataclass
class ShardPart:
    """What a shard holds at the end: the texts of its documents by `_id`."""

    name: str
    documents: list[str]


@dataclass
class Page:
    """What the program printed. Where it refused, only `refusal` is there."""

    refusal: str = ""
    steps: list[Event] = field(default_factory=list)
    order: list[str] = field(default_factory=list)
    replies: dict[str, list[Reply]] = field(default_factory=dict)
    shards: list[ShardPart] = field(default_factory=list)
    end: str = ""

    @property
    def mark(self) -> str:
        """The switch or the drop."""
        return next((turn for turn in self.order if turn in ("switch", "drop")), "")


def read_page(path: str) -> Page:
    """The page at a path."""
    try:
        with open(path, encoding="utf-8", newline="\n") as file:
            return page_of(file.read().split("\n")[:-1])
    except UnicodeDecodeError:
        raise Fault(f"{path}: no page (not UTF-8)") from None
    except Fault as fault:
        raise Fault(f"{path}: no page ({fault})") from None


def page_of(lines: list[str]) -> Page:
    """The page of these lines."""
    if len(lines) == 1:
        return Page(refusal=lines[0])
    page = Page()
    rest = _Lines(lines)
    if rest.peek() == "steps":
        rest.take()
        while rest.peek() != "order":
            page.steps.append(_event_of(rest.take()))
    rest.expect("order")
    page.order = list(_turns(rest))
    while rest.peek().startswith("client "):
        client = rest.take()[len("client "):]
        page.replies[client] = list(_replies(rest))
    while rest.peek().startswith("shard "):
        page.shards.append(_part(rest))
    page.end = rest.take()
    if not page.end.startswith("end "):
        raise Fault(f"line {rest.place}: {page.end!r} is no end")
    return page


class _Lines:
    """Lines, and how many of them are read."""

    def __init__(self, lines: list[str]):
        self.lines = lines
        self.place = 0

    def peek(self) -> str:
        if self.place == len(self.lines):
            raise Fault("it stops in the middle")
        return self.lines[self.place]

    def take(self) -> str:
        line = self.peek()
        self.place += 1
        return line

    def expect(self, line: str) -> None:
        if self.take() != line:
            raise Fault(f"line {self.place} isn't {line!r}")


def _event_of(line: str) -> Event:
    number, _, rest = line.partition(" ")
    if not number.isdigit():
        raise Fault(f"{line!r} is no step")
    words, _, text = rest.partition(": ")
    return Event(int(number), tuple(words.split(" ")), text)


def _turns(rest: _Lines) -> Iterator[str]:
    """The turns of the order; a client may be called `client`, whose turns rise from 1 as everyone's do."""
    made: dict[str, int] = {}
    while rest.peek() in ("switch", "drop") or _is_turn(rest.peek().split(" "), made):
        line = rest.take()
        client = line.split(" ")[0]
        made[client] = made.get(client, 0) + 1
        yield line


def _is_turn(words: list[str], made: dict[str, int]) -> bool:
    return len(words) in (2, 4) and words[1] == str(made.get(words[0], 0) + 1)


def _replies(rest: _Lines) -> Iterator[Reply]:
    while rest.peek()[:1].isdigit():
        number, _, text = rest.take().partition(" ")
        reply = Reply(int(number), text)
        while rest.peek().startswith("  "):
            reply.documents.append(rest.take()[2:])
        yield reply


def _part(rest: _Lines) -> ShardPart:
    words = rest.take().split(" ")
    if len(words) != 3 or not words[2].isdigit():
        raise Fault(f"line {rest.place}: no shard with its count")
    return ShardPart(words[1], [rest.take() for _ in range(int(words[2]))])
