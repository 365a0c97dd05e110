"""The program under crashes, losses, failures and aborts at each place of a run: its pages are one collection's."""
from __future__ import annotations

import json
import os
import random
import subprocess
import sys
import unittest
from typing import Iterable, Optional

TOP = os.path.dirname(os.path.dirname(os.path.abspath(__file__)))
sys.path.insert(0, os.path.join(TOP, "tests"))
sys.dont_write_bytecode = True
from one_collection import page_of  # noqa: E402  (it stands beside this file)

PROGRAM = os.environ.get("RESHARD") or os.path.join(TOP, "crates", "resh_cli", "out", "resh_cli")
SHARDS = ["a", "b", "c"]
# so many rounds bring the cluster below to its end
WHOLE = 12
LINKS = [(recipient, donor) for recipient in SHARDS for donor in SHARDS]


def chunks(low: int, high: int) -> list[dict]:
    """Shard `a` below `low`, `b` below `high`, and `c` from there on."""
    return [{"min": "MinKey", "max": [low], "shard": "a"}, {"min": [low], "max": [high], "shard": "b"},
            {"min": [high], "max": "MaxKey", "shard": "c"}]


def cluster(**members: object) -> dict:
    """Three shards that change places, six documents, and two clients that write to all of them."""
    documents = [{"_id": number, "n": 0, "x": number * 5, "y": 30 - number * 5} for number in range(6)]
    shop = [{"update": {"_id": 1, "x": 5}, "with": {"$inc": {"n": 1}}}, {"insert": {"_id": 9, "x": 12, "y": 3}},
            {"update": {"_id": 1, "x": 5}, "with": {"$set": {"y": 2}}}, {"find": {"n": 1}},
            {"update": {"_id": 2, "x": 10}, "with": {"$set": {"x": 25}}}, {"count": {}}]
    desk = [{"delete": {"_id": 4, "x": 20}}, {"update": {"_id": 1, "y": 2}, "with": {"$inc": {"n": 5}}},
            {"insert": {"_id": 4, "x": 1, "y": 25}}, {"update": {"_id": 3, "x": 15}, "with": {"$inc": {"y": 1}}},
            {"delete": {"_id": 9, "x": 12}}, {"find": {"x": 25}}]
    return {"version": 1, "shards": SHARDS, "oldKey": ["x"], "newKey": ["y"], "oldChunks": chunks(10, 20),
            "newChunks": chunks(8, 22), "documents": documents, "lanes": 2, "batch": 1,
            "clients": [{"name": "shop", "commands": shop}, {"name": "desk", "commands": desk}], **members}


def link_steps(recipient: str, donor: str, lanes: int) -> list[str]:
    """A turn of a link."""
    link = f"{recipient} {donor}"
    return [f"clone {link}", f"fetch {link}", f"cut {link}", *(f"apply {link} {lane}" for lane in range(lanes)),
            f"record {link}"]


def rounds(count: int, clients: Iterable[str], lanes: int = 2) -> list[str]:
    """So many rounds of all that may be done; what may not is idle."""
    one = [*(f"client {name}" for name in clients), "begin", *(f"tell {shard}" for shard in SHARDS)]
    for recipient, donor in LINKS:
        one += link_steps(recipient, donor, lanes)
    return (one + [f"report {shard}" for shard in SHARDS] + ["advance"]) * count


class Page:
    """A page that the program wrote."""

    def __init__(self, file: dict):
        ran = subprocess.run([PROGRAM, "plain"], input=json.dumps(file).encode(), capture_output=True, check=False)
        self.file, self.status, self.lines = file, ran.returncode, ran.stdout.decode().split("\n")[:-1]
        at = self.lines.index("order") if "order" in self.lines else 0
        self.steps, self.rest = self.lines[1:at], self.lines[at:]

    @property
    def end(self) -> str:
        """How it ended."""
        return self.lines[-1]

    def order(self) -> list[str]:
        """Its turns."""
        names = {client["name"] for client in self.file["clients"]}
        return [line for line in self.rest[1:self.rest.index("client shop")]
                if line in ("switch", "drop") or line.rsplit(" ", 1)[0] in names]

    def said_of(self, step: str) -> list[str]:
        """What the lines of a step say."""
        return [line.split(": ", 1)[1] for line in self.steps if line.split(" ", 1)[1].startswith(step + ": ")]


@unittest.skipUnless(os.access(PROGRAM, os.X_OK), "the program isn't built")
class Cluster(unittest.TestCase):
    """Whole runs."""

    def run_file(self, file: dict, end: Optional[str] = "end committed") -> Page:
        """Runs a file, whose page must be that of one collection asked in its order."""
        page = Page(file)
        self.assertEqual(page.status, 0 if page.end == "end committed" else 1, page.lines[-3:])
        self.assertEqual(page.rest, page_of(file, page.order(), page.end))
        if end is not None:
            self.assertEqual(page.end, end)
        return page

    def test_crashes(self) -> None:
        """A crash of any link at any place of a run changes nothing of what is answered and held."""
        steps = rounds(WHOLE, ["shop", "desk"])
        choose = random.Random(1)
        for place in range(len(steps)):
            crash = f"crash {' '.join(choose.choice(LINKS))}"
            self.run_file(cluster(steps=[*steps[:place], crash, *steps[place:]]))

    def test_repeats(self) -> None:
        """So do messages told again, and pieces applied again."""
        steps = rounds(WHOLE, ["shop", "desk"])
        choose = random.Random(2)
        for place in range(0, len(steps), 2):
            shard, message = choose.choice(SHARDS), choose.choice(["prepare", "donate", "block", "install", "release"])
            link, lane, number = choose.choice(LINKS), choose.randrange(2), choose.randrange(3)
            more = [f"retell {shard} {message}", f"again {link[0]} {link[1]} {lane} {number}"]
            self.run_file(cluster(steps=[*steps[:place], *more, *steps[place:]]))

    def test_aborts(self) -> None:
        """An abort at each place leaves the old collection, unless it comes too late."""
        steps = rounds(WHOLE, ["shop", "desk"])
        ends = set()
        for place in range(0, len(steps) + 1, 2):
            file = cluster(steps=[*steps[:place], "client admin", *steps[place:]])
            file["clients"].append({"name": "admin", "commands": [{"abort": True}]})
            ends.add(self.run_file(file, None).end)
        self.assertEqual(ends, {"end committed", "end aborted: asked admin 1"})

    def test_interleavings(self) -> None:
        """Steps in any order come to the page of one collection."""
        for seed in range(300):
            choose = random.Random(seed)
            lanes = choose.randint(1, 4)
            steps = rounds(WHOLE, ["shop", "desk"], lanes)
            for place in range(len(steps)):
                other = min(len(steps) - 1, place + choose.randrange(12))
                steps[place], steps[other] = steps[other], steps[place]
            steps += [f"crash {' '.join(choose.choice(LINKS))}" for _ in range(2)]
            self.run_file(cluster(steps=steps, lanes=lanes, batch=choose.randint(1, 4)), None)

    def test_a_fetch_time_between_two_commands(self) -> None:
        """A command before the fetch time is cloned, and one behind it is fetched."""
        steps = ["begin", "tell a", "tell b", "tell c", "client shop", "advance", "client desk", "client desk"]
        page = self.run_file(cluster(steps=steps + rounds(2, [])))
        self.assertEqual(page.steps[4:8], ["5 client shop: command 1", "6 advance: cloning", "7 client desk: command 1",
                                           "8 client desk: command 2"])

    def test_the_old_map_behind_the_switch(self) -> None:
        """Who knows the old map only is told of the new one before it is served, and waits while a shard is blocked."""
        page = self.run_file(cluster(steps=rounds(WHOLE, []) + ["client shop"] * 3))
        self.assertEqual([line.split(": ")[1] for line in page.steps[-3:]], ["refreshed", "command 1", "command 2"])

    def test_blocked_writes(self) -> None:
        """Under blocked shards a command waits, a move between two of them too."""
        steps = rounds(WHOLE, [])
        lines = Page(cluster(steps=steps)).steps
        told = next(place for place, line in enumerate(lines) if line.endswith("tell b: blocked"))
        file = cluster(steps=[*steps[:told + 1], "client shop"])
        file["clients"][0]["commands"] = [{"update": {"_id": 0, "x": 0}, "with": {"$set": {"x": 15}}}]
        self.assertEqual(self.run_file(file).steps[-1].split(": ")[1], "blocked")


OPENING = ["begin", "tell a", "tell b", "tell c", "advance", "tell a", "tell b", "tell c"]


@unittest.skipUnless(os.access(PROGRAM, os.X_OK), "the program isn't built")
class Limits(unittest.TestCase):
    """How many losses and crashes are borne, and what a failure leaves."""

    def lines(self, steps: list[str], plan: Iterable[dict] = ()) -> list[str]:
        """What the steps' lines say, and the end."""
        page = Page(cluster(steps=steps, plan=list(plan)))
        self.assertEqual(page.rest, page_of(page.file, page.order(), page.end))
        return [*(line.split(" ", 1)[1] for line in page.steps), page.end]

    def test_losses(self) -> None:
        """63 losses in one call are borne, and the 64th fails the recipient."""
        lost = {"who": "c a", "deliver": 1, "fate": "lost"}
        said = self.lines([*OPENING, "clone c a"], [{**lost, "through": 63}])
        self.assertEqual(said[-2:], ["clone c a: got 1, more", "end committed"])
        said = self.lines([*OPENING, "clone c a", "clone c a"], [{**lost, "through": 64}])
        self.assertEqual(said[-4:], ["clone c a: lost 64 times", "fail c link", "clone c a: idle",
                                     "end aborted: failed c link"])

    def test_losses_of_the_coordinator(self) -> None:
        """So with what the coordinator tells."""
        lost = {"who": "coordinator", "deliver": 1, "fate": "lost"}
        self.assertEqual(self.lines(["begin", "tell a"], [{**lost, "through": 63}])[-2:],
                         ["tell a: prepared", "end committed"])
        self.assertEqual(self.lines(["begin", "tell a"], [{**lost, "through": 64}])[-3:],
                         ["tell a: lost 64 times", "fail coordinator link", "end aborted: failed coordinator link"])

    def test_crashes(self) -> None:
        """63 crashes of a link are borne, and the 64th fails its recipient."""
        said = self.lines([*OPENING, *["crash c a"] * 63, "clone c a"])
        self.assertEqual(said[-2:], ["clone c a: got 1, more", "end committed"])
        said = self.lines([*OPENING, *["crash c a"] * 64, "crash c a", "clone b b"])
        self.assertEqual(said[-5:], ["crash c a: back to place 0", "fail c crashes", "crash c a: idle",
                                     "clone b b: got 1, more", "end aborted: failed c crashes"])

    def test_crashing_commits(self) -> None:
        """A commit that crashes counts beside the steps that crash."""
        plan = [{"who": "c a", "commit": 1, "fate": "crashedBefore"}]
        steps = [*OPENING, "clone c a", "cut c a", "apply c a 0", "apply c a 1", "record c a", *["crash c a"] * 63]
        said = self.lines(steps, plan)
        self.assertEqual(said[-2:], ["fail c crashes", "end aborted: failed c crashes"])
        self.assertEqual(self.lines(steps[:-1], plan)[-1], "end committed")

    def test_crashes_of_the_coordinator(self) -> None:
        """The coordinator's state outlasts its crashes, of which the 64th fails it."""
        plan = {"who": "coordinator", "commit": 1, "fate": "crashedBefore"}
        said = self.lines(["begin"] * 64, [{**plan, "through": 63}])
        self.assertEqual(said[-3:], ["begin: crashed before", "begin: preparing to donate", "end committed"])
        said = self.lines(["begin"] * 65, [{**plan, "through": 64}])
        self.assertEqual(said[-4:], ["begin: crashed before", "fail coordinator crashes", "begin: idle",
                                     "end aborted: failed coordinator crashes"])

    def test_a_failed_link(self) -> None:
        """A failure closes its own link, and no other."""
        plan = [{"who": "c a", "commit": 1, "fate": "failed"}]
        steps = [*OPENING, "clone c a", "cut c a", "apply c a 0", "apply c a 1", "record c a", "record c a",
                 "crash c a", "clone b b"]
        self.assertEqual(self.lines(steps, plan)[-6:], ["record c a: failed", "fail c commit", "record c a: idle",
                                                        "crash c a: idle", "clone b b: got 1, more",
                                                        "end aborted: failed c commit"])

    def test_a_released_donor(self) -> None:
        """A donor that is done clones no more, though the link is open."""
        file = cluster(steps=[*OPENING, "client admin", "tell a", "clone c a", "clone b b"])
        file["clients"].append({"name": "admin", "commands": [{"abort": True}]})
        said = [line.split(" ", 1)[1] for line in Page(file).steps]
        self.assertEqual(said[-4:], ["client admin: command 1", "tell a: released", "clone c a: idle",
                                     "clone b b: got 1, more"])

    def test_before_the_donors_are_told(self) -> None:
        """Before a shard is told to donate its links are closed and its lanes don't start."""
        early = ["clone b a", "cut b a", "apply b a 0", "again b a 0 0", "record b a", "crash b a"]
        said = self.lines([*OPENING[:6], *early])
        self.assertTrue(all(line.endswith(": idle") for line in said[6:12]), said)


if __name__ == "__main__":
    unittest.main()
