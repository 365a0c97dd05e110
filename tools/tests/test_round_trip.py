"""Documents that PyMongo exports come back in the page as they were."""
from __future__ import annotations

import json
import os
import random
import subprocess
import tempfile
import unittest
from datetime import datetime, timedelta, timezone
from typing import Any

from support import program, run

from cluster import page_of, text_of

try:
    from bson import Int64, ObjectId, json_util
except ImportError:
    Int64 = ObjectId = json_util = None

COUNT = 1200
TEXT = "ab\"\\/\b\f\n\r\t\0\x1f\x7f\u00e4\u2028\u20ac\U0001f600${}[]:,"
START = datetime(1, 1, 1, tzinfo=timezone.utc)


class Maker:
    """Random documents of all eight kinds of values."""

    def __init__(self, seed: int):
        self._random = random.Random(seed)

    def document(self, level: int = 1) -> dict[str, Any]:
        """A document without an `_id`."""
        return {self.text().replace("\0", "").lstrip("$"): self.value(level) for _ in range(self._random.randrange(5))}

    def text(self) -> str:
        """A text, with all that has to be escaped."""
        return "".join(self._random.choice(TEXT) for _ in range(self._random.randrange(12)))

    def value(self, level: int) -> Any:
        """A value of any kind."""
        flat = [lambda: None, self.whole, self.text, self.object_id, lambda: self._random.random() < 0.5, self.date]
        deep = [lambda: self.document(level + 1),
                lambda: [self.value(level + 1) for _ in range(self._random.randrange(4))]]
        return self._random.choice(flat if level > 4 else flat + deep)()

    def whole(self) -> int:
        """A whole number of 32 or 64 bits."""
        if self._random.random() < 0.5:
            return self._random.randrange(-2**31, 2**31)
        return Int64(self._random.choice([-2**63, 2**63 - 1, self._random.randrange(-2**63, 2**63)]))

    def object_id(self) -> Any:
        """An ObjectId."""
        return ObjectId(self._random.randbytes(12))

    def date(self) -> datetime:
        """A date in milliseconds."""
        if self._random.random() < 0.5:
            return datetime(1970, 1, 1, tzinfo=timezone.utc) + timedelta(milliseconds=self._random.randrange(10**12))
        return START + timedelta(milliseconds=self._random.randrange(315537897600000))

    def whole_document(self, number: int) -> dict[str, Any]:
        """A document with an `_id` of its own and, mostly, the fields of both keys."""
        identity = self._random.choice([number, Int64(number), str(number), self.object_id(), {"n": number},
                                        self.date()])
        return {**self.document(), "_id": identity, "old": self.value(4), "new": self.value(4)}


def kinds(value: Any) -> Any:
    """A value in which booleans differ from numbers and numbers don't differ by their width."""
    if isinstance(value, dict):
        return {name: kinds(inner) for name, inner in value.items()}
    if isinstance(value, list):
        return [kinds(item) for item in value]
    if isinstance(value, int):
        return type(value) is bool, int(value)
    return value


@unittest.skipIf(json_util is None, "left out: no bson.json_util (Debian's python3-bson and python3-pymongo)")
class RoundTrip(unittest.TestCase):
    """Each mode of json_util."""

    def setUp(self) -> None:
        folder = tempfile.TemporaryDirectory()
        self.addCleanup(folder.cleanup)
        self.folder = folder.name
        maker = Maker(5)
        self.documents = [maker.whole_document(number) for number in range(COUNT)]

    def cluster_file(self, export: str) -> str:
        """The path of the cluster file of an export."""
        source, path = os.path.join(self.folder, "in.jsonl"), os.path.join(self.folder, "out.json")
        with open(source, "w", encoding="utf-8") as file:
            file.write(export)
        answer = run("from_export", "--old-key", "old", "--new-key", "new", "--shards", "a,b,c",
                     "--old-split", '[5, ""]', "--chunks-per-shard", "2", source, "-o", path)
        self.assertEqual(answer.returncode, 0, answer.stderr)
        return path

    def check(self, texts: list[str]) -> None:
        """The texts have to be those of the documents."""
        found = {text_of(json.loads(text)["_id"]): json_util.loads(text) for text in texts}
        self.assertEqual(len(texts), COUNT)
        canonical = json_util.JSONOptions(json_mode=json_util.JSONMode.CANONICAL)
        for document in self.documents:
            again = json_util.loads(json_util.dumps(document, json_options=canonical))
            self.assertEqual(kinds(found[self.identity_text(document["_id"])]), kinds(again))

    def identity_text(self, identity: Any) -> str:
        """The program's text of an `_id`."""
        if isinstance(identity, datetime):
            milliseconds = (identity - datetime(1970, 1, 1, tzinfo=timezone.utc)) // timedelta(milliseconds=1)
            return text_of({"$date": {"$numberLong": str(milliseconds)}})
        return text_of({"$oid": str(identity)} if isinstance(identity, ObjectId) else identity)

    def exports(self) -> dict[str, str]:
        """The documents in each mode, one a line and as an array."""
        result = {}
        for name in ("LEGACY", "RELAXED", "CANONICAL"):
            options = json_util.JSONOptions(json_mode=getattr(json_util.JSONMode, name))
            lines = [json_util.dumps(document, json_options=options) for document in self.documents]
            result[name] = "\n".join(lines)
        result["an array"] = json_util.dumps(self.documents)
        return result

    def test_each_document_stands_in_the_cluster_file_as_it_was(self) -> None:
        for mode, export in self.exports().items():
            with self.subTest(mode), open(self.cluster_file(export), encoding="utf-8") as file:
                self.check([text_of(document) for document in json.load(file)["documents"]])

    @unittest.skipIf(program() is None, "left out: no built program (RESHARD names one)")
    def test_each_document_comes_back_in_the_page_as_it_was(self) -> None:
        with open(self.cluster_file(self.exports()["CANONICAL"]), "rb") as file:
            answer = subprocess.run([program(), "plain"], stdin=file, capture_output=True, check=False)
        page = page_of(answer.stdout.decode().split("\n")[:-1])
        self.assertEqual(page.end, "end committed")
        self.check([text for part in page.shards for text in part.documents])


if __name__ == "__main__":
    unittest.main()
