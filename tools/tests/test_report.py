"""What a report says."""
from __future__ import annotations

import os
import unittest

from pages import whole_run
from support import example, module, run

from cluster import Chunk, ChunkMap, Cluster, page_of

report = module("report")


def said(lines: list[str], documents: list[dict] | None = None) -> str:
    """The report of a page, of two shards whose chunks meet at 10 by both keys."""
    chunks = [Chunk("MinKey", [10], "a"), Chunk([10], "MaxKey", "b")]
    cluster = Cluster(["a", "b"], ChunkMap(["x"], chunks), ChunkMap(["y"], chunks), documents or [])
    return "\n".join(report.report_lines(page_of(lines), cluster))


class Reports(unittest.TestCase):
    """Texts for a person."""

    def test_a_clash_shows_both_documents_and_where_they_come_from(self) -> None:
        answer = run("report", example("clash.json"), example("clash.page"))
        self.assertEqual(answer.returncode, 0, answer.stderr)
        self.assertIn("two documents of one _id would come to shard south by the new key (shop).", answer.stdout)
        self.assertIn('from shard north: {"_id":7,"customer":"ada","shop":61}', answer.stdout)
        self.assertIn('from shard south: {"_id":7,"customer":"zia","shop":62}', answer.stdout)

    def test_a_clash_that_commands_changed_later_is_shown_as_it_came_in(self) -> None:
        documents = [{"_id": 1, "x": 1, "y": 1}, {"_id": 1, "x": 20, "y": 1}]
        end = ["order", "drop", "c 1", "client c", "1 deleted", "shard a 0", "shard b 1", '{"_id":1,"x":20,"y":1}']
        text = said([*end, "end aborted: clash a 1"], documents)
        self.assertIn("as they came in", text)
        self.assertIn('from shard a: {"_id":1,"x":1,"y":1}', text)
        self.assertIn("aren't on the page", said([*end, "end aborted: clash a 1"]))

    def test_every_end_has_its_sentence(self) -> None:
        for end, sentence in (("committed", "The operation committed"), ("aborted: asked shop 3", "with its command 3"),
                              ("aborted: failed coordinator commit", "coordinator couldn't keep its progress"),
                              ("aborted: failed a link", "shard a lost a message 64 times"),
                              ("aborted: failed a crashes", "shard a crashed 64 times"),
                              ("aborted: no memory", "had not enough memory")):
            self.assertIn(sentence, said(["order", "drop", "shard a 0", "shard b 0", f"end {end}"]).split("\n")[0])

    def test_documents_and_bytes_are_counted_before_and_after(self) -> None:
        documents = [{"_id": place, "x": 1, "y": 50} for place in range(3)] + [{"_id": 3, "x": 50, "y": 1}]
        page = ["order", "switch", "shard a 1", '{"_id":3,"x":50,"y":1}', "shard b 3"]
        page += [f'{{"_id":{place},"x":1,"y":50}}' for place in range(3)]
        lines = [line.split() for line in said([*page, "end committed"], documents).split("\n")]
        self.assertIn(["a", "3", "1", "66", "22"], lines)
        self.assertIn(["b", "1", "3", "22", "66"], lines)
        self.assertIn(["largest", "over", "mean", "1.50", "1.50", "1.50", "1.50"], lines)

    def test_replies_are_counted_by_kind_and_client(self) -> None:
        page = ["order", "c 1", "d 1", "c 2", "c 3", "switch", "client c", "1 found 1", '  {"_id":1}', "2 found 0",
                '3 refused: not number "n"', "client d", "1 no key", "shard a 0", "shard b 0", "end committed"]
        lines = [line.split() for line in said(page).split("\n")]
        for row in (["c", "d"], ["found", "2", "0"], ["refused", "1", "0"], ["no", "key", "0", "1"]):
            self.assertIn(row, lines)

    def test_blocked_writes_are_told_by_shard_and_command(self) -> None:
        lines = whole_run(shards=2, items=1)
        text = said([line.replace("s0", "a").replace("s1", "b") for line in lines])
        starts = [line.split(" ")[0] for line in lines if line.endswith(": blocked") and " tell " in line]
        ends = [line.split(" ")[0] for line in lines if "installed" in line]
        waits = [line.split(" ")[0] for line in lines if line.endswith("client shop: blocked")]
        self.assertIn(f"shard a: from step {starts[0]} to step {ends[0]}", text)
        self.assertIn("commands that waited: 2", text)
        self.assertRegex(text, rf"shop \d+ at steps {waits[0]}, {waits[1]}")

    def test_a_refusal_is_passed_on(self) -> None:
        answer = run("report", example("gap.json"), example("gap.page"))
        self.assertEqual(answer.stdout, 'The program ran nothing and said: refused: gap row 1 "/oldChunks"\n')

    def test_clients_may_have_any_name(self) -> None:
        page = page_of(["order", "client 1", "switch 1", "switch", "shard 1", "client client", "1 deleted",
                        "client switch", "1 deleted", "client shard", "1 deleted", "shard a 0", "end committed"])
        self.assertEqual((page.mark, list(page.replies)), ("switch", ["client", "switch", "shard"]))

    def test_bad_input_is_refused(self) -> None:
        self.assertEqual(run("report", example("clash.page"), example("clash.page")).returncode, 1)
        self.assertEqual(run("report", example("clash.json"), example("clash.json")).returncode, 1)
        self.assertEqual(run("report", example("clash.json"), "nowhere").returncode, 1)

    def test_reports_of_the_examples_stand_as_they_are_made(self) -> None:
        for name in sorted(os.listdir(os.path.dirname(example("x")))):
            if name.endswith(".report"):
                name = example(name[:-len(".report")])
                with self.subTest(name), open(name + ".report", encoding="utf-8") as file:
                    self.assertEqual(run("report", name + ".json", name + ".page").stdout, file.read())


if __name__ == "__main__":
    unittest.main()
