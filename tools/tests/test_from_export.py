"""What from_export takes, refuses and writes."""
from __future__ import annotations

import json
import os
import subprocess
import sys
import tempfile
import unittest

from support import TOOLS, call, example, run

WORDS = ["--old-key", "customer", "--new-key", "region", "--shards", "east,west", "--old-split", '["m"]']
EVEN = [*WORDS, "--chunks-per-shard", "1"]


class InFolder(unittest.TestCase):
    """Runs in a folder of its own."""

    def setUp(self) -> None:
        folder = tempfile.TemporaryDirectory()
        self.addCleanup(folder.cleanup)
        self.folder = folder.name

    def write(self, name: str, text: str | bytes) -> None:
        """A file of the folder."""
        with open(os.path.join(self.folder, name), "wb") as file:
            file.write(text.encode() if isinstance(text, str) else text)

    def make(self, export: str | bytes, *words: str) -> subprocess.CompletedProcess:
        """from_export of this text."""
        self.write("in.jsonl", export)
        return call("from_export", lambda tool: tool.make(tool.arguments()), [*words, "in.jsonl", "-o", "out.json"],
                    self.folder)

    def made(self, export: str | bytes, *words: str) -> dict:
        """The cluster file that is made of this text."""
        answer = self.make(export, *words)
        self.assertEqual((answer.returncode, answer.stderr.count("\n")), (0, 1), answer.stderr)
        with open(os.path.join(self.folder, "out.json"), encoding="utf-8") as file:
            return json.load(file)

    def refused(self, export: str | bytes, *words: str) -> str:
        """What is said of this text, of which nothing may be written."""
        answer = self.make(export, *words)
        self.assertEqual(answer.returncode, 1, answer.stderr)
        self.assertNotIn("Traceback", answer.stderr)
        self.assertEqual(os.listdir(self.folder).count("out.json"), 0)
        self.assertEqual([name for name in os.listdir(self.folder) if name.startswith(".")], [])
        return answer.stderr


class Values(InFolder):
    """Canonical and relaxed values."""

    def test_each_form_of_a_value_becomes_the_one_that_the_program_prints(self) -> None:
        forms = {
            '{"$numberInt":"-3"}': -3, '{"$numberLong":"9007199254740993"}': 9007199254740993,
            '{"$numberDouble":"4.0"}': 4, "4.0": 4, "1e2": 100, "-9223372036854775808": -2**63,
            '{"$date":{"$numberLong":"-1"}}': {"$date": {"$numberLong": "-1"}},
            '{"$date":"2023-11-14T22:13:20.5Z"}': {"$date": {"$numberLong": "1700000000500"}},
            '{"$date":"2023-11-14T22:13:20.500Z"}': {"$date": {"$numberLong": "1700000000500"}},
            '{"$date":"2023-11-14T23:13:20+01:00"}': {"$date": {"$numberLong": "1700000000000"}},
            '{"$date":"2023-11-14T21:43:20.000-0030"}': {"$date": {"$numberLong": "1700000000000"}},
            '{"$date":"1969-12-31T23:59:59.999Z"}': {"$date": {"$numberLong": "-1"}},
            '{"$date":1700000000000}': {"$date": {"$numberLong": "1700000000000"}},
            '{"$oid":"0123456789abcdef01234567"}': {"$oid": "0123456789abcdef01234567"},
            '{"a":[{"$numberLong":"1"},{"b":null}]}': {"a": [1, {"b": None}]},
            '"\\ud83d\\ude00 \\u0007"': "\U0001f600 \u0007", "true": True, "null": None, "[]": [], "{}": {},
        }
        lines = "".join(f'{{"_id":{place},"v":{form}}}\n' for place, form in enumerate(forms))
        documents = self.made(lines, *EVEN)["documents"]
        self.assertEqual([document["v"] for document in documents], list(forms.values()))

    def test_values_that_are_not_taken_are_told_by_field_type_and_count(self) -> None:
        line = '{"_id":%d,"price":{"$numberDecimal":"1"},"lines":[{"part":0.5}]}\n'
        lines = "".join(line % place for place in range(3))
        lines += '{"_id":3,"tags":[1,{"$binary":{"base64":""}}],"$x":1,"at":{"$timestamp":{"t":1,"i":1}}}\n'
        said = self.refused(lines, *EVEN)
        for line in ("field price: decimal (3, the first at line 1)",
                     "field lines[].part: double that isn't whole (3, the first at line 1)",
                     "field tags[]: binary (1, the first at line 4)", "field $x: name that begins with $",
                     "field at: timestamp"):
            self.assertIn(line, said)
        answer = self.make(lines, *EVEN, "--drop-unsupported")
        self.assertEqual(answer.returncode, 0, answer.stderr)
        self.assertIn("field price: decimal (3,", answer.stderr)
        with open(os.path.join(self.folder, "out.json"), encoding="utf-8") as file:
            self.assertEqual(json.load(file)["documents"], [{"_id": n, "lines": [{}]} for n in range(3)] + [{"_id": 3}])

    def test_other_types_are_told_too(self) -> None:
        kinds = {'{"$numberDouble":"NaN"}': "double", '{"$regularExpression":{"pattern":"","options":""}}': "regular",
                 '{"$code":"x","$scope":{}}': "JavaScript", '{"$uuid":"x"}': "binary", '{"$undefined":1}': "undefined",
                 '{"$ref":"a","$id":1}': "DBRef", "9223372036854775808": "number past 64 bits", "1e30": "number past",
                 '{"$minKey":1}': "MinKey", '{"$symbol":"s"}': "symbol", '{"a":{"$new":1}}': "name that begins with $"}
        for value, kind in kinds.items():
            with self.subTest(value):
                self.assertIn(kind, self.refused(f'{{"_id":1,"v":{value}}}\n', *EVEN))

    def test_the_keys_fields_are_never_dropped(self) -> None:
        for line in ('{"_id":{"$uuid":"x"}}', '{"_id":1,"region":0.5}', '{"_id":1,"customer":[{"a":0.5}]}'):
            self.assertIn("can't be dropped", self.refused(line, *EVEN, "--drop-unsupported"))


class Faults(InFolder):
    """Bad input, by its line."""

    def test_each_fault_is_told_by_its_line(self) -> None:
        deep = '{"a":' * 32 + "{}" + "}" * 32
        faults: list[tuple[str | bytes, str]] = [
            ('{"_id":2,', "not JSON: "), ("7", "no document"),
            ('{"_id":2}{"_id":3}', "something stands after the document"),
            ('{"a":1}', "no _id"), ('{"_id":[2]}', "_id is an array"),
            (b'{"_id":2,"a":"\xff"}', "not UTF-8"), ('{"_id":2,"a":"\\ud800"}', "surrogate"),
            ('{"_id":2,"a":{"$oid":"12"}}', "field a: $oid wants 24"),
            ('{"_id":2,"a":{"b":{"$date":"now"}}}', "field a.b:"),
            ('{"_id":2,"a":{"$date":"2023-02-30T00:00:00Z"}}', "field a: no ISO date"),
            ('{"_id":2,"a":{"$numberLong":"1.5"}}', "field a: no whole"),
            ('{"_id":2,"v":%s}' % deep, "more than 32 levels"),
            ('{"_id":2,"v":"%s"}' % ("x" * 16384), "the document's text has 16400 bytes"),
            ('{"_id":1,"customer":"b"}', "an earlier one"), ('{"_id":1.0}', "an earlier one"),
            ('{"_id":2,"a":%s}' % ("[" * 100000), "nested too deep"),
        ]
        for line, why in faults:
            line = line.encode() if isinstance(line, str) else line
            with self.subTest(line[:60]):
                said = self.refused(b'{"_id":1,"customer":"a"}\n\n' + line + b'\n{"_id":9}\n', *EVEN)
                self.assertIn("in.jsonl: line 3: ", said)
                self.assertIn(why, said)

    def test_one_identity_may_stand_on_two_shards(self) -> None:
        documents = self.made('{"_id":1,"customer":"a"}\n{"_id":1,"customer":"z"}\n', *EVEN)["documents"]
        self.assertEqual(len(documents), 2)

    def test_true_and_one_are_two_identities(self) -> None:
        self.assertEqual(len(self.made('{"_id":1}\n{"_id":true}\n{"_id":"1"}\n{"_id":null}\n', *EVEN)["documents"]), 4)

    def test_the_deepest_document_is_taken(self) -> None:
        self.made('{"_id":1,"v":%s}' % ('{"a":' * 30 + "{}" + "}" * 30), *EVEN)
        os.unlink(os.path.join(self.folder, "out.json"))
        deeper = '{"a":' * 31 + '{"$oid":"0123456789abcdef01234567"}' + "}" * 31
        self.assertIn("more than 32 levels", self.refused('{"_id":1,"v":%s}' % deeper, *EVEN))

    def test_wrong_words_are_status_2(self) -> None:
        for words in (["--old-key", "a.b"], ["--old-key", "a,b,c,d"], ["--old-key", "$a"], ["--sample", "0"],
                      ["--rename", "x=Y"], ["--chunks-per-shard", "65"], ["--lanes", "17"], ["--crashes"]):
            self.assertEqual(self.make("", *EVEN, *words).returncode, 2, words)

    def test_clients_that_are_none_are_refused(self) -> None:
        for text in ("5", "[5]", '[{"name":"c"}]', '[{"name":1,"commands":[]}]', '[{"name":"c","commands":[1]}]', "[",
                     '[{"name":"c","commands":[{"update":{"_id":1,"customer":"a"},"with":5},{}]}]',
                     '[{"name":"c","commands":[{"delete":{"_id":{"$numberLong":"x"},"customer":"a"}},{}]}]'):
            with self.subTest(text):
                self.write("clients.json", text)
                self.refused('{"_id":1,"customer":"a"}', *EVEN, "--clients", "clients.json", "--steps")

    def test_a_missing_file_is_said(self) -> None:
        self.assertIn("No such file", run("from_export", *EVEN, "nowhere.jsonl", cwd=self.folder).stderr)


class Arrays(InFolder):
    """An export as one array."""

    def test_an_array_is_read_as_lines_are(self) -> None:
        lines = [f'{{"_id":{place},"customer":"c","text":"\u00e4[{{,"}}' for place in range(2000)]
        wanted = self.made("\n".join(lines), *EVEN)
        for array in ("[" + ",".join(lines) + "]", "[\n" + " ,\n".join(lines) + "\n]\n", " [" + ", ".join(lines) + "]"):
            self.assertEqual(self.made(array, *EVEN), wanted)
        self.assertEqual(self.made("[]", *EVEN)["documents"], [])

    def test_a_document_longer_than_a_block_is_read(self) -> None:
        long = '{"_id":2,"text":"%s"}' % ("\u00e4" * 3_000_000)
        documents = self.made(f'[{{"_id":1}},{long},{{"_id":3}}]', *EVEN, "--keep", "note")["documents"]
        self.assertEqual(documents, [{"_id": 1}, {"_id": 2}, {"_id": 3}])

    def test_faults_are_told_by_line_and_document(self) -> None:
        for text, why in (('[{"_id":1},\n{"_id":2},{"_id":', "line 2, document 3: not JSON"),
                          ('[{"_id":1},\n5]', "line 2, document 2: no document"),
                          ('[{"_id":1}', "document 1: not JSON"), ('[{"_id":1}{"_id":2}]', "expecting ','"),
                          ('[{"_id":1}]x', "something stands after the array"),
                          ('[{"_id":1},{"a":1}]', "line 1, document 2: no _id"), ("[", "not JSON")):
            with self.subTest(text):
                self.assertIn(why, self.refused(text, *EVEN))


class Choices(InFolder):
    """Fields, samples, keys and chunks."""

    def test_keep_takes_identities_keys_and_these_fields(self) -> None:
        line = '{"_id":1,"customer":"a","region":"eu","f":1,"g":{"x":2},"price":0.5}\n{"_id":2,"g":3}\n'
        self.assertEqual(self.made(line, *EVEN, "--keep", "g,h")["documents"],
                         [{"_id": 1, "customer": "a", "region": "eu", "g": {"x": 2}}, {"_id": 2, "g": 3}])

    def test_sample_takes_every_so_manyth_and_does_not_read_the_others(self) -> None:
        lines = "".join('{"_id":%d}\n' % place if place % 3 == 0 else "no JSON\n" for place in range(10))
        documents = self.made(lines, *EVEN, "--sample", "3")["documents"]
        self.assertEqual([document["_id"] for document in documents], [0, 3, 6, 9])

    def test_points_by_number_stand_at_even_distances(self) -> None:
        lines = "".join('{"_id":%d,"region":%d}\n' % (place, place * 7 % 100) for place in range(100))
        rows = self.made(lines, *WORDS, "--chunks-per-shard", "2")["newChunks"]
        self.assertEqual([row["min"] for row in rows], ["MinKey", [25], [50], [75]])
        self.assertEqual([row["shard"] for row in rows], ["east", "west", "east", "west"])

    def test_one_key_is_a_point_once(self) -> None:
        lines = "".join('{"_id":%d,"region":%d}\n' % (place, place // 90) for place in range(100))
        rows = self.made(lines, *WORDS, "--chunks-per-shard", "2")["newChunks"]
        self.assertEqual(rows, [{"min": "MinKey", "max": "MaxKey", "shard": "east"}])

    def test_points_by_hand_may_have_several_values(self) -> None:
        rows = self.made("", *WORDS[:2], "--new-key", "region,total", *WORDS[4:], "--new-split",
                         '["eu", ["us", {"$numberLong": "5"}]]')["newChunks"]
        self.assertEqual([row["max"] for row in rows], [["eu"], ["us", 5], "MaxKey"])
        os.unlink(os.path.join(self.folder, "out.json"))
        for points in ('[2, 1]', "5", "[[]]", '[["a", "b"]]', "["):
            with self.subTest(points):
                self.assertIn("split point", self.refused("", *WORDS, "--new-split", points))

    def test_more_documents_than_the_program_takes_are_refused_with_advice(self) -> None:
        lines = "".join('{"_id":%d}\n' % place for place in range(100_001))
        self.assertIn("--sample 2 ", self.refused(lines, *EVEN))
        self.assertEqual(len(self.made(lines, *EVEN, "--sample", "2")["documents"]), 50_001)

    def test_more_bytes_than_the_program_takes_are_refused(self) -> None:
        lines = "".join('{"_id":%d,"v":"%s"}\n' % (place, "x" * 16_000) for place in range(4300))
        self.assertIn("bytes in all", self.refused(lines, *EVEN))


class ExportedChunks(InFolder):
    """Chunks as config.chunks is exported."""

    ROW = '{"_id":1,"uuid":{"$uuid":"u"},"min":{"customer":%s},"max":{"customer":%s},"shard":"%s","lastmod":0.5}\n'
    LOW, HIGH = '{"$minKey":1}', '{"$maxKey":1}'

    def chunks(self, rows: list[tuple[str, str, str]], *words: str) -> list[str]:
        """The words that take these chunks."""
        self.write("chunks.jsonl", "".join(self.ROW % row for row in rows))
        return ["--old-key", "customer", "--new-key", "region", "--old-chunks", "chunks.jsonl",
                "--chunks-per-shard", "1", *words]

    def test_chunks_are_put_in_order_and_neighbours_of_one_shard_joined(self) -> None:
        words = self.chunks([('"m"', '"t"', "west"), ('"d"', '"m"', "east"), ('"t"', self.HIGH, "west"),
                             (self.LOW, '"d"', "east")])
        made = self.made('{"_id":1}\n', *words)
        self.assertEqual(made["shards"], ["east", "west"])
        self.assertEqual(made["oldChunks"], [{"min": "MinKey", "max": ["m"], "shard": "east"},
                                             {"min": ["m"], "max": "MaxKey", "shard": "west"}])

    def test_shards_are_renamed(self) -> None:
        rows = [(self.LOW, self.HIGH, "rs-1")]
        self.assertIn("--rename rs-1=NAME", self.refused("", *self.chunks(rows)))
        self.assertEqual(self.made("", *self.chunks(rows, "--rename", "rs-1=one"))["shards"], ["one"])

    def test_faults_of_chunks_are_told_by_their_line(self) -> None:
        low, high = self.LOW, self.HIGH
        for rows, why in (([(low, '"d"', "a"), ('"e"', high, "b")], "chunks.jsonl: line 2: the chunk from [\"e\"]"),
                          ([(low, '"d"', "a"), ('"c"', high, "b")], "line 2: the chunk from [\"c\"]"),
                          ([(low, '"d"', "a")], "don't end at MaxKey"), ([], "don't end at MaxKey"),
                          ([('"d"', high, "a")], "line 1: the chunk from"),
                          ([(low, "0.5", "a"), ("0.5", high, "a")], "line 1: a bound has a double")):
            with self.subTest(why):
                self.assertIn(why, self.refused("", *self.chunks(rows, "--shards", "a,b")))
        self.write("chunks.jsonl", self.ROW % (low, '"d"', "a") + (self.ROW % ('"d"', high, "a")).replace('"u"', '"w"'))
        words = ["--old-key", "customer", "--new-key", "r", "--old-chunks", "chunks.jsonl", "--chunks-per-shard", "1"]
        self.assertIn("line 2: a chunk of another collection", self.refused("", *words))
        self.assertIn("other fields than the key region", self.refused("", "--old-key", "region", *words[2:]))

    def test_more_chunks_than_the_program_takes_are_refused(self) -> None:
        bounds = [self.LOW, *map(str, range(64)), self.HIGH]
        rows = [(low, high, "ab"[place % 2]) for place, (low, high) in enumerate(zip(bounds, bounds[1:]))]
        self.assertIn("65 old chunks", self.refused("", *self.chunks(rows)))

    def test_the_example_is_made_as_it_stands(self) -> None:
        folder = example("parcels")
        words = ["--old-key", "customer", "--old-chunks", "chunks.jsonl", "--rename", "shard-east=east", "--rename",
                 "shard-west=west", "documents.jsonl"]
        whole = ["--new-key", "region,customer", "--chunks-per-shard", "2", "--keep", "placed,weight,lines",
                 "--clients", "clients.json", "--steps", "--batch", "5"]
        clash = ["--new-key", "weight", "--new-split", "[20]", "--keep", "lines", "--steps", "--lanes", "2"]
        for name, more in (("parcels", whole), ("parcels_crash", [*whole, "--crashes"]), ("parcels_clash", clash)):
            with self.subTest(name), open(example(name + ".json"), encoding="utf-8") as file:
                answer = run("from_export", *words, *more, cwd=folder)
                self.assertEqual(answer.stdout, file.read(), answer.stderr)


class Streams(InFolder):
    """Memory doesn't grow with the export."""

    def peak(self, count: int, every: int) -> int:
        """The most memory that an export of so many lines takes, in the system's unit."""
        with open(os.path.join(self.folder, "in.jsonl"), "w", encoding="utf-8") as file:
            for place in range(count):
                file.write('{"_id":%d,"customer":"c%d","note":"%s"}\n' % (place, place, "parcel" * 40))
        words = [sys.executable, os.path.join(TOOLS, "from_export"), *EVEN, "--keep", "total", "--sample", str(every),
                 "in.jsonl", "-o", "out.json"]
        with subprocess.Popen(words, cwd=self.folder, stderr=subprocess.DEVNULL) as process:
            _, status, usage = os.wait4(process.pid, 0)
            process.returncode = status
        self.assertEqual(status, 0)
        return usage.ru_maxrss

    def test_a_hundred_times_longer_export_takes_no_more_memory(self) -> None:
        self.assertLess(self.peak(200_000, 100), self.peak(2_000, 1) * 1.3)


if __name__ == "__main__":
    unittest.main()
