"""Made-up pages for the tests."""
from __future__ import annotations

import random


class PageMaker:
    """Puts a page of steps together, line by line."""

    def __init__(self, shards: list[str], clients: list[str]):
        self.shards = shards
        self.made = dict.fromkeys(clients, 0)
        self.lines: list[str] = []
        self.step = 0

    def say(self, *texts: str) -> None:
        """Steps with what happened."""
        for text in texts:
            self.step += 1
            self.lines.append(f"{self.step} {text}")

    def everyone(self, verb: str, text: str) -> None:
        """A step for each shard."""
        self.say(*(f"{verb} {shard}: {text}" for shard in self.shards))

    def command(self, client: str) -> None:
        """A client's next command."""
        self.made[client] += 1
        self.say(f"client {client}: command {self.made[client]}")

    def page(self, mark: str, end: str) -> list[str]:
        """The lines of the whole page."""
        lines = ["steps", *self.lines, "order", mark]
        for client, count in self.made.items():
            lines += [f"client {client}", *(f"{number} inserted" for number in range(1, count + 1))]
        return [*lines, *(f"shard {shard} 0" for shard in self.shards), end]


def opening(maker: PageMaker) -> None:
    """Up to the cloning."""
    maker.say("begin: preparing to donate")
    maker.everyone("tell", "prepared")
    maker.say("advance: cloning")
    maker.everyone("tell", "donating")


def batch(maker: PageMaker, link: str, first: int, count: int) -> None:
    """A batch that is cut and applied."""
    maker.say(f"cut {link}: batch {first} to {first + count}")
    maker.say(*(f"apply {link} 0: insert rule 2, place {place}, stash 0" for place in range(first, first + count)))


def whole_run(shards: int, items: int, seed: int = 1) -> list[str]:
    """A page of a run in which links crash, clients write, and some wait."""
    choose = random.Random(seed)
    maker = PageMaker([f"s{place}" for place in range(shards)], ["shop", "administrator"])
    links = [f"{recipient} {donor}" for recipient in maker.shards for donor in maker.shards]
    opening(maker)
    for link in links:
        maker.say(f"clone {link}: got {items}, end")
        if choose.random() < 0.3:
            batch(maker, link, 0, items // 2)
            maker.say(f"crash {link}: back to place 0", f"clone {link}: got {items}, end")
        batch(maker, link, 0, items)
        for _ in range(choose.randrange(4)):
            maker.command(choose.choice(list(maker.made)))
        maker.say(f"record {link}: place {items}")
    maker.everyone("report", "cloned")
    maker.say("advance: applying", *(f"fetch {link}: nothing" for link in links))
    maker.everyone("report", "near")
    maker.say("advance: blocking writes")
    maker.everyone("tell", "blocked")
    maker.say("client shop: blocked", "client administrator: blocked", "client shop: blocked")
    for link in links:
        maker.say(f"fetch {link}: got 1, final", f"cut {link}: batch {items} to {items + 1}",
                  f"record {link}: place {items + 1}, finished")
    maker.everyone("report", "consistent")
    maker.say("advance: committing")
    maker.everyone("tell", "installed 9")
    maker.say("advance: done", "client shop: refreshed")
    maker.command("shop")
    return maker.page("switch", "end committed")
