"""The steps of a whole operation, so that a page has lines to look at.

All shards are told, every link clones, and the clients' commands are dealt over the cloning at even distances. Then the
links read what was written, writes are blocked, each client asks once more, and the operation ends; what is left of the
commands comes after it. Where it can't be known where a write goes, each link is asked, and some steps will be idle.
With crashes, each link crashes in the middle of its first batch, and reads that batch again.
"""
from __future__ import annotations

from collections import Counter
from itertools import product
from typing import Collection, Iterator

from cluster import Cluster, Document, Value, order_key, text_of, whole_numbers

Link = tuple[str, str]
"""A recipient and a donor."""


def whole_run(cluster: Cluster, has_crashes: bool = False) -> list[str]:
    """The steps, as a cluster file has them."""
    links = list(product(cluster.shards, cluster.shards))
    tells = [f"tell {shard}" for shard in cluster.shards]
    reports = [f"report {shard}" for shard in cluster.shards]
    clients = [client["name"] for client in cluster.clients if client["commands"]]
    early, late = _turns(cluster)
    written = Writes(cluster, early)
    return [
        "begin", *tells, "advance", *tells,
        *_mixed(list(_cloning(cluster, links, has_crashes)), [f"client {name}" for name, _ in early]),
        *reports, "advance",
        *(step for link in links for step in _catching_up(cluster, link, written.lanes(link))), *reports, "advance",
        *tells, *(f"client {name}" for name in clients),
        *(f"{verb} {recipient} {donor}" for recipient, donor in links for verb in ("fetch", "cut", "record")),
        *reports, "advance", *tells, "advance", *(f"client {name}" for name in late),
    ]


def lane_of(identity: Value, lanes: int) -> int:
    """The lane of an `_id`."""
    return sum(text_of(identity).encode()) % lanes


def _turns(cluster: Cluster) -> tuple[list[tuple[str, dict]], list[str]]:
    """The clients' commands in turn: two thirds of each client's while the links clone, and whose come later."""
    early, late = [], []
    rounds = max((len(client["commands"]) for client in cluster.clients), default=0)
    for place in range(rounds):
        for client in cluster.clients:
            count = len(client["commands"])
            if place < count * 2 // 3:
                early.append((client["name"], client["commands"][place]))
            elif place < count:
                late += [client["name"]] * 2 if place == count * 2 // 3 else [client["name"]]
    return early, late


def _mixed(steps: list[str], others: list[str]) -> list[str]:
    """The steps with the others among them at even distances."""
    result = []
    for place, step in enumerate(steps):
        result += others[place * len(others) // len(steps):(place + 1) * len(others) // len(steps)]
        result.append(step)
    return result


def _cloning(cluster: Cluster, links: list[Link], has_crashes: bool) -> Iterator[str]:
    """Every link's clone, cut, applied and recorded batch by batch."""
    items: dict[Link, list[Value]] = {link: [] for link in links}
    for document in cluster.documents:
        items[cluster.new_map.owner_of(document), cluster.old_map.owner_of(document)].append(document["_id"])
    for (recipient, donor), identities in items.items():
        identities.sort(key=order_key)
        for start in range(0, len(identities) + 1, cluster.batch):
            batch = identities[start:start + cluster.batch]
            yield f"clone {recipient} {donor}"
            lanes = Counter(lane_of(identity, cluster.lanes) for identity in batch)
            if batch and has_crashes and start == 0:
                yield from list(_applying((recipient, donor), lanes))[:1 + len(batch) // 2]
                yield from (f"crash {recipient} {donor}", f"clone {recipient} {donor}")
            if batch:
                yield from _applying((recipient, donor), lanes)


def _applying(link: Link, pieces: Counter) -> Iterator[str]:
    """A batch cut, applied lane by lane, and recorded."""
    words = " ".join(link)
    yield f"cut {words}"
    for lane, count in sorted(pieces.items()):
        yield from [f"apply {words} {lane}"] * count
    yield f"record {words}"


def _catching_up(cluster: Cluster, link: Link, lanes: Counter) -> Iterator[str]:
    """A link's entries, at most so many on each lane, read until fewer than a batch come; any may come in any batch."""
    for _ in range(0, sum(lanes.values()) + 1, cluster.batch):
        yield "fetch " + " ".join(link)
        if lanes:
            yield from _applying(link, lanes)


class Writes:
    """Which links the entries of some commands may come to, and on which lanes."""

    def __init__(self, cluster: Cluster, commands: list[tuple[str, dict]]):
        self._cluster = cluster
        self._lanes: dict[Link, Counter] = {}
        self._known = {self._slot(document): document for document in cluster.documents}
        self._lost: set[str] = set()
        self._names = {*cluster.old_map.pattern, *cluster.new_map.pattern}
        for _, command in commands:
            self._follow(command)

    def lanes(self, link: Link) -> Counter:
        """How many entries a link has on each lane, at most."""
        return self._lanes.get(link, Counter())

    def _slot(self, document: Document) -> tuple[str, str]:
        return text_of(document["_id"]), self._cluster.old_map.owner_of(document)

    def _follow(self, command: dict) -> None:
        sought = whole_numbers(next((command[verb] for verb in ("insert", "update", "delete") if verb in command), {}))
        if not isinstance(sought, dict) or not {"_id", *self._cluster.old_map.pattern} <= sought.keys():
            return
        document = self._known.get(self._slot(sought))
        if text_of(sought["_id"]) in self._lost:
            self._lose(sought["_id"])
        elif "insert" in command and document is None:
            self._known[self._slot(sought)] = sought
            self._enter(sought)
        elif "insert" not in command and document is not None and self._agree(sought, document, sought.keys()):
            self._change(document, command, sought.keys() <= {"_id", *self._names})

    def _agree(self, one: Document, other: Document, names: Collection[str]) -> bool:
        """Whether two documents have the same under those of these names that a key has."""
        return all(text_of(one.get(name)) == text_of(other.get(name)) for name in self._names.intersection(names))

    def _change(self, document: Document, command: dict, is_sure: bool) -> None:
        """An update or a delete that matches this document, surely or maybe."""
        after = self._after(document, command["with"]) if "update" in command else None
        if after is not None and self._agree(document, after, self._names):
            self._enter(document)
        elif not is_sure or "update" in command and (after is None or self._slot(after) != self._slot(document)):
            self._lose(document["_id"])
        else:
            self._enter(document)
            del self._known[self._slot(document)]
            if after is not None:
                self._known[self._slot(after)] = after
                self._enter(after)

    def _after(self, document: Document, update: dict) -> Document | None:
        """The document with the fields of both keys as an update leaves them; none where it isn't known."""
        paths = [path for operand in update.values() for path in operand] + list(update.get("$rename", {}).values())
        if not any(path.split(".")[0] in self._names for path in paths):
            return document
        if update.keys() != {"$set"} or any("." in path for path in paths):
            return None
        return {**document, **whole_numbers(update["$set"])}

    def _enter(self, document: Document) -> None:
        """An entry of this document."""
        link = self._cluster.new_map.owner_of(document), self._cluster.old_map.owner_of(document)
        self._lanes.setdefault(link, Counter())[lane_of(document["_id"], self._cluster.lanes)] += 1

    def _lose(self, identity: Value) -> None:
        """Two entries of this `_id` on every link: from now on its documents may be anywhere."""
        self._lost.add(text_of(identity))
        for link in product(self._cluster.shards, self._cluster.shards):
            self._lanes.setdefault(link, Counter())[lane_of(identity, self._cluster.lanes)] += 2
