"""One collection, asked in an order: what a page's replies and documents must be.

It takes the part of the commands that the tests use: whole numbers and texts as values, `$set` and `$inc` of top-level
names as updates.
"""
from __future__ import annotations

import json
from dataclasses import dataclass, field
from typing import Any, Optional

Document = dict[str, Any]


def rank(value: Any) -> tuple:
    """Where a value stands in the order of values: missing, then numbers, then texts."""
    if value is None:
        return (0,)
    return (1, value) if isinstance(value, int) else (2, value)


@dataclass
class ChunkMap:
    """Who owns each key."""
    key: list[str]
    rows: list[dict]

    def owner(self, document: Document) -> str:
        """The shard of the chunk that the document's key falls into."""
        key = [rank(document.get(name)) for name in self.key]
        for row in self.rows:
            low, high = row["min"], row["max"]
            above = low == "MinKey" or [rank(value) for value in low] <= key
            if above and (high == "MaxKey" or key < [rank(value) for value in high]):
                return row["shard"]
        raise AssertionError("the chunks have a gap")

    def target(self, asked: Document) -> Optional[str]:
        """The one shard that a filter names, if it has the whole key."""
        return self.owner(asked) if all(name in asked for name in self.key) else None


def matches(document: Document, asked: Document) -> bool:
    """Whether a filter takes the document."""
    return all(document.get(name) == value for name, value in asked.items())


def changed(document: Document, update: dict) -> Document:
    """What an update makes of a document."""
    made = dict(document)
    for name, value in update.get("$inc", {}).items():
        made[name] = made.get(name, 0) + value
    return {**made, **update.get("$set", {})}


def text(document: Document) -> str:
    """A document as a page has it."""
    return json.dumps(document, sort_keys=True, separators=(",", ":"))


@dataclass
class Collection:
    """The documents of each shard, under the map in force."""
    file: dict
    held: dict[str, dict[Any, Document]] = field(default_factory=dict)
    has_decided: bool = False

    def __post_init__(self) -> None:
        self.old = ChunkMap(self.file["oldKey"], self.file["oldChunks"])
        self.new = ChunkMap(self.file["newKey"], self.file["newChunks"])
        self.map = self.old
        self.held = {shard: {} for shard in self.file["shards"]}
        for document in self.file["documents"]:
            self.held[self.map.owner(document)][document["_id"]] = document

    def switch(self) -> None:
        """Each document goes to the shard that its new key names."""
        documents = [document for held in self.held.values() for document in held.values()]
        self.map, self.has_decided = self.new, True
        self.held = {shard: {} for shard in self.file["shards"]}
        for document in documents:
            held = self.held[self.map.owner(document)]
            assert document["_id"] not in held, "two documents of one _id come to one shard"
            held[document["_id"]] = document

    def drop(self) -> None:
        """The old collection stays."""
        self.has_decided = True

    def found(self, asked: Document) -> list[Document]:
        """The documents that a filter takes, by `_id` and shard."""
        target = self.map.target(asked)
        shards = [target] if target else self.file["shards"]
        rows = [(rank(number), place, document) for place, shard in enumerate(self.file["shards"]) if shard in shards
                for number, document in self.held[shard].items() if matches(document, asked)]
        return [document for *_, document in sorted(rows, key=lambda row: row[:2])]

    def insert(self, document: Document) -> str:
        """The reply to an insert."""
        held = self.held[self.map.owner(document)]
        if document["_id"] in held:
            return "duplicate id"
        held[document["_id"]] = document
        return "inserted"

    def one(self, asked: Document) -> tuple[Optional[str], str]:
        """The shard that holds the one document that a filter names, or why there is none."""
        if "_id" not in asked or not self.map.target(asked):
            return None, "no key"
        shard = self.map.target(asked)
        document = self.held[shard].get(asked["_id"])
        if document is None or not matches(document, asked):
            return None, "not found"
        return shard, ""

    def update(self, asked: Document, update: dict) -> str:
        """The reply to an update."""
        shard, why = self.one(asked)
        if shard is None:
            return why
        before = self.held[shard][asked["_id"]]
        after = changed(before, update)
        owner = self.map.owner(after)
        if owner != shard and asked["_id"] in self.held[owner]:
            return "duplicate id"
        del self.held[shard][asked["_id"]]
        self.held[owner][asked["_id"]] = after
        return f"matched 1 changed {int(after != before)}"

    def delete(self, asked: Document) -> str:
        """The reply to a delete."""
        shard, why = self.one(asked)
        if shard is None:
            return why
        del self.held[shard][asked["_id"]]
        return "deleted"

    def ask(self, command: dict) -> list[str]:
        """The lines of a command's reply."""
        if "insert" in command:
            return [self.insert(command["insert"])]
        if "update" in command:
            return [self.update(command["update"], command["with"])]
        if "delete" in command:
            return [self.delete(command["delete"])]
        if "find" in command:
            found = self.found(command["find"])
            return [f"found {len(found)}", *("  " + text(document) for document in found[:10])]
        if "count" in command:
            return [f"count {len(self.found(command['count']))}"]
        return ["abort too late" if self.has_decided else "abort accepted"]


def page_of(file: dict, order: list[str], end: str) -> list[str]:
    """The lines of a page from `order` on, for the turns in this order."""
    collection = Collection(file)
    replies: dict[str, list[str]] = {client["name"]: [] for client in file.get("clients", [])}
    scripts = {client["name"]: list(client["commands"]) for client in file.get("clients", [])}
    for turn in order:
        if turn in ("switch", "drop"):
            getattr(collection, turn)()
            continue
        client, number = turn.rsplit(" ", 1)
        first, *more = collection.ask(scripts[client].pop(0))
        replies[client] += [f"{number} {first}", *more]
    assert not any(scripts.values()), "a command was never served"
    lines = ["order", *order]
    for client, said in replies.items():
        lines += [f"client {client}", *said]
    for shard, held in collection.held.items():
        lines += [f"shard {shard} {len(held)}", *(text(held[number]) for number in sorted(held, key=rank))]
    return [*lines, end]
