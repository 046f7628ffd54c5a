#!/usr/bin/env python3
"""Tests of poltyqen.py over the built program, in temporary folders.

    clients/python/test_poltyqen.py [PROGRAM] [NAMES OF TESTS ..]

PROGRAM is the built program; where it is not given it is POLTYQEN_PROGRAM of the environment, or the one that was built in this
repository. They are no part of the gate.
"""
import datetime
import json
import os
import signal
import sys
import tempfile
import threading
import unittest
import unittest.mock

import poltyqen

PROGRAM = os.path.abspath(poltyqen.found_program(None))

CONFIG = """index_id = "client"

[doc_mapping]
mode = "strict"
timestamp_field = "at"
field_mappings = [
    { name = "at", type = "datetime", fast = true },
    { name = "level", type = "text", tokenizer = "raw", fast = true },
    { name = "body", type = "text", record = "position" },
    { name = "size", type = "u64", fast = true },
]

[search_settings]
default_search_fields = ["body"]

[indexing_settings]
split_num_docs_target = 100

[indexing_settings.merge_policy]
merge_factor = 3
"""

START = 1_700_000_000
LEVELS = ("debug", "info", "warn", "error")
WORDS = ("red", "green", "blue", "grey", "pink")
PARTITIONS = ("app-1", "app-2", "app-3")


def record(number):
    return {
        "at": START + number,
        "level": LEVELS[number % 4],
        "body": f"{WORDS[number % 5]} fox number {number}",
        "size": number * 7 % 100,
    }


RECORDS = [record(number) for number in range(60)]


class Folders(unittest.TestCase):
    """Folders, and an index over them."""

    def setUp(self):
        self.room = tempfile.TemporaryDirectory(prefix="poltyqen-client-")
        self.addCleanup(self.room.cleanup)
        self.store, self.logs = os.path.join(self.room.name, "store"), os.path.join(self.room.name, "logs")
        os.mkdir(self.store)
        os.mkdir(self.logs)
        self.index = poltyqen.Index(self.store, self.logs, program=PROGRAM)
        self.addCleanup(self.index.close)

    def write(self, partition, lines):
        with open(os.path.join(self.logs, partition), "a", encoding="utf-8") as file:
            file.writelines(line + "\n" for line in lines)

    def filled(self):
        """The index with all records, in three partitions by turns."""
        for place, partition in enumerate(PARTITIONS):
            self.write(partition, (json.dumps(it) for it in RECORDS[place::3]))
        self.index.create(CONFIG)
        return self.index.ingest(upkeep=False)

    def raised(self, kind, call, *given, **named):
        """What the call raises, which is of this kind."""
        with self.assertRaises(poltyqen.PoltyqenError) as caught:
            call(*given, **named)
        self.assertEqual(caught.exception.kind, kind)
        return caught.exception

    def sizes(self, *given, **named):
        return [hit["size"] for hit in self.index.search(*given, **named).hits]


class Ingesting(Folders):
    def test_three_partitions(self):
        self.assertEqual(self.filled(), poltyqen.Ingested(60, 1))
        self.assertEqual(self.index.search("*", max_hits=0).num_hits, 60)
        self.assertEqual(self.index.ingest(), poltyqen.Ingested(0, 0))

    def test_what_comes_later(self):
        self.filled()
        self.write("app-2", [json.dumps(record(60)), "no JSON"])
        self.write("app-4", [json.dumps(record(61))])
        self.assertEqual(self.index.ingest(upkeep=False), poltyqen.Ingested(3, 1))
        told = self.index.describe()
        self.assertEqual((told.docs, told.rejected), (62, 1))
        self.assertEqual(told.checkpoints, {"app-1": 20, "app-2": 22, "app-3": 20, "app-4": 1})

    def test_partitions_that_are_named(self):
        for partition in PARTITIONS:
            self.write(partition, (json.dumps(it) for it in RECORDS[:5]))
        self.index.create(CONFIG)
        self.assertEqual(self.index.ingest(["app-3", "app-1"]).records, 10)
        self.assertEqual(self.index.describe().checkpoints, {"app-1": 5, "app-3": 5})
        self.assertEqual(self.index.ingest("app-3"), poltyqen.Ingested(0, 0))
        self.assertEqual(self.index.ingest().records, 5)
        self.assertEqual(self.raised("nopartition", self.index.ingest, ["app-9"]).place, "app-9")
        for names in ("a b", ["app-1\nat 9"], ["app-1", "app-1"], []):
            self.assertRaises(ValueError, self.index.ingest, names)

    def test_merges_and_old_files(self):
        self.index.create(CONFIG)
        for number in range(6):
            self.write("app-1", [json.dumps(record(number))])
            self.index.ingest(upkeep=False)
        self.assertEqual(self.index.upkeep(), poltyqen.Upkeep(1, 0, 0))
        states = [it.state for it in self.index.splits()]
        self.assertEqual((states.count("marked"), states.count("published")), (6, 1))
        self.assertEqual(self.index.search("fox").num_hits, 6)

    def test_a_log_that_shrank_keeps_nobody_from_the_others(self):
        self.filled()
        with open(os.path.join(self.logs, "app-1"), "w", encoding="utf-8"):
            pass
        self.write("app-3", [json.dumps(record(60))])
        told = self.raised("sourcefault", self.index.ingest)
        self.assertIsInstance(told, poltyqen.StepFailed)
        self.assertIn("app-1", told.sentence)
        self.assertEqual(self.index.describe().checkpoints["app-3"], 21)
        self.assertEqual(self.index.search("*", max_hits=0).num_hits, 61)

    def test_logs_that_are_not_there(self):
        self.index.create(CONFIG)
        os.rmdir(self.logs)
        self.assertIn("logs", self.raised("sourcefault", self.index.ingest).sentence)


class Searching(Folders):
    def setUp(self):
        super().setUp()
        self.filled()

    def test_hits(self):
        found = self.index.search("red", max_hits=3)
        self.assertEqual(found.num_hits, 12)
        self.assertEqual(len(found.hits), 3)
        self.assertEqual(found.aggregations, {})
        self.assertIn(found.hits[0], [it for it in RECORDS if "red" in it["body"]])
        everything = self.index.search("*", max_hits=100).hits
        self.assertEqual(sorted(it["at"] for it in everything), [it["at"] for it in RECORDS])

    def test_pages_in_order(self):
        by_size = sorted(it["size"] for it in RECORDS)
        self.assertEqual(self.sizes("*", sort="size", max_hits=100), by_size)
        self.assertEqual(self.sizes("*", sort="-size", max_hits=4), by_size[::-1][:4])
        self.assertEqual(self.sizes("*", sort="size", max_hits=5, offset=10), by_size[10:15])

    def test_times(self):
        self.assertEqual(self.index.search("*", start=START + 10, end=START + 20).num_hits, 10)
        self.assertEqual(self.index.search("red", start=START + 50).num_hits, 2)
        moment = datetime.datetime.fromtimestamp(START + 5, datetime.timezone.utc)
        self.assertEqual(self.index.search("*", end=moment).num_hits, 5)
        self.assertRaises(ValueError, self.index.search, "*", start=datetime.datetime(2023, 11, 14))

    def test_aggregations(self):
        said = self.index.aggregate(
            {
                "levels": {"terms": {"field": "level"}, "aggs": {"most": {"max": {"field": "size"}}}},
                "sizes": {"histogram": {"field": "size", "interval": 50}},
            },
            "red",
        )
        red = [it for it in RECORDS if "red" in it["body"]]
        levels = {it["key"]: (it["doc_count"], it["most"]["value"]) for it in said["levels"]["buckets"]}
        wanted = {level: [it["size"] for it in red if it["level"] == level] for level in LEVELS}
        self.assertEqual(levels, {level: (len(sizes), max(sizes)) for level, sizes in wanted.items()})
        sizes = {it["key"]: it["doc_count"] for it in said["sizes"]["buckets"]}
        self.assertEqual(sizes, {low: sum(low <= it["size"] < low + 50 for it in red) for low in (0, 50)})

    def test_words_of_any_text(self):
        self.write("app-1", [json.dumps({"at": START, "level": 'a "b" \\ c: (é)\n', "body": "x", "size": 1})])
        self.index.ingest(upkeep=False)
        query = "level:" + poltyqen.quoted('a "b" \\ c: (é)\n')
        self.assertEqual(self.index.search(query).num_hits, 1)

    def test_fields(self):
        self.assertEqual(self.index.search("error", fields="level").num_hits, 15)
        self.assertEqual(self.index.search("error red", fields=["level", "body"]).num_hits, 3)

    def test_several_threads(self):
        counts = []
        threads = [threading.Thread(target=lambda word=word: counts.append(self.index.search(word).num_hits)) for word in WORDS * 4]
        for thread in threads:
            thread.start()
        for thread in threads:
            thread.join()
        self.assertEqual(counts, [12] * 20)

    def test_more_splits_than_one_slice(self):
        for number in range(60, 66):
            self.write("app-1", [json.dumps(record(number))])
            self.index.ingest(upkeep=False)
        with unittest.mock.patch.object(poltyqen, "SLICE", 30):
            self.assertEqual(self.index.search("fox", max_hits=0).num_hits, 66)

    def test_a_new_process_behind_a_long_input(self):
        with unittest.mock.patch.object(poltyqen, "LONG_INPUT", 100):
            for _ in range(3):
                self.assertEqual(self.index.search("red").num_hits, 12)


class Deleting(Folders):
    def test_a_delete(self):
        self.filled()
        before = self.index.describe()
        self.assertEqual(self.index.delete("level:error", end=START + 30), poltyqen.Deleted(1, before.revision + 1))
        self.assertEqual(self.index.search("level:error").num_hits, 15)
        self.assertEqual(self.index.upkeep().rewritten, 1)
        self.assertEqual(self.index.search("level:error").num_hits, 8)
        self.write("app-1", [json.dumps(RECORDS[3])])
        self.index.ingest()
        self.assertEqual(self.index.search("level:error").num_hits, 9)
        self.assertEqual(self.index.describe().opstamp, 1)

    def test_a_delete_of_nothing(self):
        self.filled()
        self.index.delete("absent")
        self.assertEqual(self.index.upkeep(), poltyqen.Upkeep(0, 0, 0))
        self.assertEqual({span.applied for split in self.index.splits() for span in split.spans}, {1})


class Reporting(Folders):
    def test_describe_and_splits(self):
        self.filled()
        told = self.index.describe()
        self.assertEqual((told.docs, told.rejected, told.opstamp), (60, 0, 0))
        self.assertEqual((told.staged, told.published, told.marked), (0, 1, 0))
        self.assertEqual(told.checkpoints, {name: 20 for name in PARTITIONS})
        self.assertEqual(told.revision, self.index.search("*").revision)
        [split] = self.index.splits()
        self.assertEqual((split.number, split.state, split.docs, split.merges), (1, "published", 60, 0))
        self.assertEqual(split.times, (START, START + 59))
        self.assertEqual(split.spans, tuple(poltyqen.Span(name, 0, 20, 0, 0) for name in PARTITIONS))

    def test_an_index_of_nothing(self):
        self.index.create(CONFIG)
        self.assertEqual(self.index.describe(), poltyqen.Description(1, 0, 0, 0, 0, 0, 0, {}))
        self.assertEqual(self.index.splits(), [])
        self.assertEqual(self.index.search("*").num_hits, 0)


class Refusing(Folders):
    def test_a_refused_query(self):
        self.filled()
        told = self.raised("Syntax", self.index.search, "bé AND AND red")
        self.assertIsInstance(told, poltyqen.RequestRefused)
        self.assertEqual(told.place, 11)
        self.assertEqual(str(told), "Syntax at byte 11 of the query\n    bé AND AND red\n              ^")
        self.assertEqual(self.raised("UnknownField", self.index.search, "colour:red").place, "colour")
        self.assertEqual(self.raised("NotFast", self.index.search, "*", sort="body").place, "body")
        self.assertEqual(str(self.raised("TooManyHits", self.index.search, "*", max_hits=20_000)), "TooManyHits: wanted 20000")
        self.assertEqual(self.raised("UnknownKey", self.index.aggregate, {"a": {"median": {}}}).place, "median")
        self.assertEqual(self.raised("BadValue", self.index.delete, "size:many").place, 5)
        self.assertEqual(self.index.search("red").num_hits, 12)

    def test_a_request_that_is_too_long(self):
        self.filled()
        self.assertEqual(self.raised("limit", self.index.search, "a" * poltyqen.LONGEST_LINE).place, "line")
        self.assertEqual(self.index.search("a" * 2_000_000).num_hits, 0)
        self.assertRaises(ValueError, self.index.search, "a", aggs={"a": {"histogram": {"field": "size", "interval": float("nan")}}})
        self.assertEqual(self.index.search("red").num_hits, 12)

    def test_a_store_that_is_not_there(self):
        os.rmdir(self.store)
        for call in (lambda: self.index.search("*"), self.index.describe, lambda: self.index.create(CONFIG)):
            told = self.raised("storefault", call)
            self.assertIsInstance(told, poltyqen.ProgramEnded)
            self.assertEqual((told.status, told.place), (4, None))
            self.assertIn("store", told.sentence)

    def test_an_index_that_was_not_made(self):
        for call in (lambda: self.index.search("*"), self.index.splits, self.index.ingest, lambda: self.index.delete("*")):
            self.assertEqual(self.raised("noindex", call).status, 8)
        self.index.create(CONFIG)
        self.assertEqual(self.index.search("*").num_hits, 0)

    def test_configurations(self):
        told = self.raised("unknownkey", self.index.create, 'colour = "red"\n' + CONFIG)
        self.assertEqual((told.status, told.place), (2, "colour"))
        self.index.create(CONFIG.encode())
        self.assertEqual(self.raised("indexexists", self.index.create, CONFIG).status, 9)

    def test_one_writer_at_a_time(self):
        self.filled()
        other = poltyqen.Index(self.store, self.logs, program=PROGRAM)
        self.assertEqual(self.raised("storefault", other.search, "*").status, 4)
        self.assertEqual(other.describe().docs, 60)
        self.index.close()
        with other:
            self.assertEqual(other.search("*").num_hits, 60)

    def test_an_object_that_is_damaged(self):
        self.filled()
        self.index.close()
        with open(os.path.join(self.store, "meta", f"{1:020}"), "wb") as file:
            file.write(b"?")
        told = self.raised("corrupt", self.index.search, "*")
        self.assertEqual((told.status, told.place), (7, f"meta/{1:020}"))

    def test_a_split_file_that_is_gone(self):
        self.filled()
        os.remove(os.path.join(self.store, "splits", f"{1:020}"))
        self.assertEqual(self.raised("Missing", self.index.search, "red").place, f"splits/{1:020}")

    def test_a_program_that_is_killed_or_not_there(self):
        self.filled()
        self.index._drive.process.send_signal(signal.SIGKILL)
        told = self.raised("killed", self.index.search, "red")
        self.assertEqual(told.status, -signal.SIGKILL)
        self.assertEqual(self.index.search("red").num_hits, 12)
        nowhere = poltyqen.Index(self.store, self.logs, program=os.path.join(self.room.name, "nowhere"))
        self.assertRaises(FileNotFoundError, nowhere.search, "*")

    def test_lines_that_are_cut_off(self):
        self.filled()
        whole, given = poltyqen.Drive._answers, []

        def cut(drive, text, count):
            given.append(text)
            if len(given) > 1:
                raise KeyboardInterrupt
            return whole(drive, text, count)

        with unittest.mock.patch.object(poltyqen.Drive, "_answers", cut):
            self.assertRaises(KeyboardInterrupt, self.index.search, "red")
        self.assertEqual(self.index.search("green").num_hits, 12)


if __name__ == "__main__":
    if len(sys.argv) > 1 and os.path.isfile(sys.argv[1]):
        PROGRAM = os.path.abspath(sys.argv.pop(1))
    if not os.path.isfile(PROGRAM):
        sys.exit(f"{PROGRAM} is not there: build it, or name it")
    unittest.main()
