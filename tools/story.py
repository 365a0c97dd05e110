"""What a page's steps tell of phases, links, clients and blocked writes, as a picture shows it."""
from __future__ import annotations

import re
from collections import Counter
from dataclasses import dataclass, field
from typing import Optional

from cluster import Event, Page

PHASES = ("cloning", "applying", "blocking writes", "committing", "aborting", "done")
GOT = re.compile(r"got (\d+)")
PLACE = re.compile(r"(?:back to )?place (\d+)")


@dataclass(frozen=True)
class Level:
    """How many items of its feed a link has got, applied and kept from a step on."""

    step: int
    got: int
    applied: int
    kept: int


@dataclass
class LinkStory:
    """What a link did."""

    levels: list[Level] = field(default_factory=lambda: [Level(0, 0, 0, 0)])
    marks: list[tuple[int, str]] = field(default_factory=list)
    kept: list[tuple[int, str]] = field(default_factory=list)

    @property
    def most(self) -> int:
        """The most items that it had."""
        return max(level.got for level in self.levels)

    def take(self, event: Event) -> None:
        """One event more."""
        verb, last = event.words[0], self.levels[-1]
        got, place = GOT.match(event.text), PLACE.match(event.text)
        if verb in ("clone", "fetch"):
            self.marks.append((event.step, verb))
            self._rise(event.step, last.got + int(got[1] if got else 0), last.applied, last.kept)
        elif verb in ("apply", "again") and " rule " in event.text:
            self._rise(event.step, last.got, last.applied + 1, last.kept)
        elif verb == "record" and place:
            self.kept.append((event.step, place[1]))
            self._rise(event.step, last.got, max(last.applied, int(place[1])), int(place[1]))
        elif verb == "crash" and place:
            self.marks.append((event.step, verb))
            self._rise(event.step, int(place[1]), int(place[1]), int(place[1]))

    def _rise(self, step: int, got: int, applied: int, kept: int) -> None:
        self.levels.append(Level(step, got, applied, kept))


@dataclass
class ClientStory:
    """What a client did: the step, the kind, and the number of the command."""

    marks: list[tuple[int, str, int]] = field(default_factory=list)
    made: int = 0
    in_all: int = 0

    def take(self, event: Event) -> None:
        """One event more."""
        kind = event.text.split(" ")[0]
        if kind == "command":
            self.made += 1
        self.marks.append((event.step, kind, self.made + (kind != "command")))


@dataclass
class Story:
    """All of it. Steps count from 1, and `last` is the last."""

    last: int
    phases: list[tuple[int, str]]
    mark: Optional[int]
    mark_text: str
    links: dict[tuple[str, str], LinkStory]
    clients: dict[str, ClientStory]
    blocked: dict[str, tuple[int, Optional[int]]]


def story_of(page: Page) -> Story:
    """The story of a page with steps."""
    shards = [part.name for part in page.shards]
    story = Story(
        last=page.steps[-1].step, phases=[(1, "initializing")], mark=None, mark_text=page.mark,
        links={(recipient, donor): LinkStory() for recipient in shards for donor in shards},
        clients={client: ClientStory(in_all=len(replies)) for client, replies in page.replies.items()},
        blocked={})
    asked = page.end[len("end aborted: asked "):].split(" ") if page.end.startswith("end aborted: asked ") else None
    made: Counter = Counter()
    for event in page.steps:
        if not event.is_idle:
            _take(story, event)
            if event.words[0] == "client" and event.text.startswith("command "):
                made[event.words[1]] += 1
                if asked == [event.words[1], str(made[event.words[1]])]:
                    _decide(story, event.step, "aborting")
    story.links = {link: told for link, told in story.links.items() if told.marks or told.most}
    return story


def _take(story: Story, event: Event) -> None:
    verb, *names = event.words
    if verb == "begin" and event.text == "preparing to donate":
        story.phases.append((event.step, "preparing"))
    elif verb == "advance" and event.text in ("committing", "aborting"):
        _decide(story, event.step, event.text)
    elif verb == "advance" and event.text in PHASES:
        story.phases.append((event.step, event.text))
    elif verb == "fail" and event.text != "too late":
        _decide(story, event.step, "aborting")
    elif verb == "tell" and event.text == "blocked":
        story.blocked[names[0]] = (event.step, None)
    elif verb == "tell" and event.text.split(" ")[0] in ("installed", "released") and names[0] in story.blocked:
        story.blocked[names[0]] = (story.blocked[names[0]][0], event.step)
    elif verb == "client" and names[0] in story.clients:
        story.clients[names[0]].take(event)
    elif tuple(names[:2]) in story.links:
        story.links[names[0], names[1]].take(event)


def _decide(story: Story, step: int, phase: str) -> None:
    """The mark, which comes once."""
    if story.mark is None:
        story.mark = step
        story.phases.append((step, phase))
