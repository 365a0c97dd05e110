"""The steps of a whole operation."""
from __future__ import annotations

import unittest
from collections import Counter

from support import example

from cluster import Chunk, ChunkMap, Cluster, read_cluster, read_page
from schedule import lane_of, whole_run

CHUNKS = [Chunk("MinKey", [10], "a"), Chunk([10], "MaxKey", "b")]


def steps(documents: list[dict], commands: list[dict], batch: int = 500, has_crashes: bool = False) -> list[str]:
    """The steps of two shards and one client."""
    clients = [{"name": "c", "commands": commands}] if commands else []
    maps = ChunkMap(["x"], CHUNKS), ChunkMap(["y"], CHUNKS)
    return whole_run(Cluster(["a", "b"], *maps, documents, clients, 2, batch), has_crashes)


class Schedules(unittest.TestCase):
    """What the steps have to have."""

    def test_the_examples_run_to_the_end_without_an_idle_step(self) -> None:
        for name in ("parcels", "parcels_crash", "parcels_clash"):
            with self.subTest(name):
                page = read_page(example(name + ".page"))
                self.assertEqual([event for event in page.steps if event.is_idle], [])
                self.assertIn("done", [event.text for event in page.steps])

    def test_each_document_is_applied_on_its_lane(self) -> None:
        cluster = read_cluster(example("parcels.json"))
        cluster.clients = []
        wanted = Counter(f"apply {cluster.new_map.owner_of(document)} {cluster.old_map.owner_of(document)} "
                         f"{lane_of(document['_id'], cluster.lanes)}" for document in cluster.documents)
        self.assertEqual(Counter(step for step in whole_run(cluster) if step.startswith("apply")), wanted)

    def test_a_lane_is_the_sum_of_the_identitys_bytes(self) -> None:
        for identity, total in ((17, 49 + 55), ("\u00e9", 34 + 195 + 169 + 34), (None, 110 + 117 + 108 + 108)):
            self.assertEqual(lane_of(identity, 16), total % 16)

    def test_a_full_batch_is_followed_by_one_more_clone(self) -> None:
        documents = [{"_id": place, "x": 1, "y": 1} for place in range(4)]
        self.assertEqual(steps(documents, [], batch=2).count("clone a a"), 3)
        self.assertEqual(steps(documents, [], batch=3).count("clone a a"), 2)

    def test_a_crash_repeats_the_first_batch(self) -> None:
        made = steps([{"_id": place, "x": 1, "y": 1} for place in range(4)], [], 2, has_crashes=True)
        start = made.index("clone a a")
        self.assertEqual(made[start:start + 8], ["clone a a", "cut a a", "apply a a 0", "crash a a", "clone a a",
                                                 "cut a a", "apply a a 0", "apply a a 1"])

    def test_a_write_is_read_by_its_link_alone_where_that_is_known(self) -> None:
        document = {"_id": 1, "x": 1, "y": 20}
        sought = {"_id": 1, "x": 1}
        for command, links in (({"delete": sought}, ["b a"]), ({"delete": {"_id": 1, "x": 20}}, []),
                               ({"insert": {"_id": 2, "x": 20, "y": 1}}, ["a b"]), ({"count": {}}, []),
                               ({"update": sought, "with": {"$inc": {"n": 1}}}, ["b a"]),
                               ({"update": sought, "with": {"$set": {"y": 2}}}, ["a a", "b a"]),
                               ({"update": sought, "with": {"$inc": {"y": 2}}}, ["a a", "a b", "b a", "b b"])):
            with self.subTest(command):
                made = steps([document], [command] * 2)
                catching_up = made[made.index("report b"):made.index("report b", made.index("report b") + 1)]
                self.assertEqual([step[4:] for step in catching_up if step.startswith("cut")], links)


if __name__ == "__main__":
    unittest.main()
