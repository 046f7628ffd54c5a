#!/usr/bin/env python3
"""Measures the built program beside SQLite FTS5: the same records, the same questions, in one run.

    bench/measure.py PROGRAM [--before PROGRAM] [--records N ..] [--seed N] [--repeat N] [--folder FOLDER] [--json FILE]

PROGRAM is the built program (`rt run` leaves it in crates/quick_node/out). It makes two corpora from a seed: records of a
log (a datetime, a level of four values, a body of 2 to 20 words of a skewed vocabulary of 50,000, a number), and real text,
the package descriptions of the system. Each is indexed by the program over a folder and by SQLite over a file, both are
asked the same questions, the answers are compared, and a table of times, ratios, peak memory and bytes on disk is printed in
Markdown; where another build of the program is named, it indexes the same records too, over a folder of its own, and is asked
the same. The numbers are written as JSON too where a file is named, of which bench/plots.py makes pictures. Only Python's
standard library and clients/python are used; its sqlite3 must have FTS5.
"""
import argparse
import bisect
import glob
import itertools
import json
import os
import platform
import random
import re
import shutil
import sqlite3
import statistics
import subprocess
import sys
import tempfile
import time

sys.path.insert(0, os.path.join(os.path.dirname(os.path.abspath(__file__)), "../clients/python"))
import poltyqen

LEVELS = ["debug", "info", "warn", "error"]
WORDS = 50_000
DOCS_IN_A_SPLIT = 100_000

CONFIG = """version = "0.8"
index_id = "bench"

[doc_mapping]
mode = "strict"
timestamp_field = "at"

[[doc_mapping.field_mappings]]
name = "at"
type = "datetime"
fast = true

[[doc_mapping.field_mappings]]
name = "level"
type = "text"
tokenizer = "raw"
fast = true

[[doc_mapping.field_mappings]]
name = "body"
type = "text"
record = "position"

[[doc_mapping.field_mappings]]
name = "size"
type = "u64"
fast = true

[search_settings]
default_search_fields = ["body"]

[indexing_settings]
split_num_docs_target = %d
"""


# ---- the corpora

def made_words():
    """The vocabulary: words of six letters, each once."""
    letters = "abcdefghijklmnopqrstuvwxyz"
    every = itertools.product("bcdfg", letters, "aeiou", letters, "klmnp", letters)
    return ["".join(it) for it in itertools.islice(itertools.islice(every, 0, None, 43), WORDS)]


def log_records(count, seed):
    """Records of a log, of which a word is the rarer the later it stands in the vocabulary."""
    chance = random.Random(seed)
    words = made_words()
    chance.shuffle(words)
    sums = list(itertools.accumulate(1.0 / (it + 10) for it in range(len(words))))
    for number in range(count):
        picked = [words[min(bisect.bisect(sums, chance.random() * sums[-1]), len(words) - 1)] for _ in range(chance.randint(2, 20))]
        yield {
            "at": 1_700_000_000 + number,
            "level": chance.choices(LEVELS, [10, 70, 15, 5])[0],
            "body": " ".join(picked),
            "size": chance.randrange(100_000),
        }


def descriptions():
    """What the system says of its packages: the longer texts, in lower-case letters and digits."""
    found = []
    for path in sorted(glob.glob("/var/lib/apt/lists/*Packages")) + ["/var/lib/dpkg/status"]:
        with open(path, encoding="utf-8", errors="replace") as file:
            for part in file.read().split("\n\n"):
                told = re.search(r"^Description(?:-en)?: (.*(?:\n .*)*)", part, re.M)
                kind = re.search(r"^Section: (\S+)", part, re.M)
                size = re.search(r"^Installed-Size: (\d+)", part, re.M)
                if told:
                    text = re.sub(r"[^a-z0-9]+", " ", told[1].lower()).strip()
                    found.append((text, kind[1] if kind else "none", int(size[1]) if size else 0))
    return found


def text_records(count, seed):
    """Package descriptions, the whole list again where it is too short."""
    found = descriptions()
    random.Random(seed).shuffle(found)
    for number, (text, kind, size) in zip(range(count), itertools.cycle(found)):
        yield {"at": 1_700_000_000 + number, "level": kind, "body": text, "size": size}


def common_words(records, most):
    """How often each word stands, the commonest first: (records that have it, word)."""
    counts = {}
    for record in records:
        for word in set(record["body"].split()):
            counts[word] = counts.get(word, 0) + 1
    ranked = sorted(counts.items(), key=lambda it: (-it[1], it[0]))
    return ranked[:most], ranked


# ---- the questions

class Question:
    def __init__(self, name, asked, sql, given=(), shown=None):
        self.name, self.asked, self.sql, self.given, self.shown = name, asked, sql, given, shown


def match(text):
    return "SELECT count(*) FROM texts WHERE texts MATCH ?", (text,)


def counted(name, query, sql, given):
    return Question(name, {"query": query, "max_hits": 0}, sql, given, lambda said: said["num_hits"])


def questions(records):
    """What both are asked, made of the words that the records have."""
    ranked, all_ranked = common_words(records, 40)
    first, second, third = (it[0] for it in ranked[2:5])
    rare = next(word for word, count in reversed(all_ranked) if count >= 1)
    body = next(it["body"].split() for it in records if len(it["body"].split()) > 4 and first in it["body"].split()[:-1])
    at = body.index(first)
    pair = f"{body[at]} {body[at + 1]}"
    start = first[:2]
    low, high = 20_000, 30_000
    return [
        counted("a rare word", rare, *match(rare)),
        counted("a common word", first, *match(first)),
        counted("an absent word", "zzzabsent", *match("zzzabsent")),
        counted("AND of two common words", f"{first} AND {second}", *match(f"{first} AND {second}")),
        counted("OR of three common words", f"{first} OR {second} OR {third}", *match(f"{first} OR {second} OR {third}")),
        counted("a common word and NOT another", f"{first} AND NOT {second}", *match(f"{first} NOT {second}")),
        counted("a phrase of two words", f'"{pair}"', *match(f'"{pair}"')),
        counted("a prefix of two letters", f"{start}*", *match(f"{start}*")),
        counted("a range of a number", f"size:[{low} TO {high}]", "SELECT count(*) FROM records WHERE size BETWEEN ? AND ?", (low, high)),
        Question("first 20 of a word by a number", {"query": first, "sort_by": "size", "max_hits": 20},
                 "SELECT size FROM records JOIN texts ON texts.rowid = records.id WHERE texts MATCH ? ORDER BY size, id LIMIT 20", (first,),
                 lambda said: [it["size"] for it in said["hits"]]),
        Question("first 20 of all by time", {"query": "*", "sort_by": "at", "max_hits": 20},
                 "SELECT size FROM records ORDER BY at, id LIMIT 20", (), lambda said: [it["size"] for it in said["hits"]]),
        Question("first 20 of all by place", {"query": "*", "max_hits": 20},
                 "SELECT size FROM records ORDER BY id LIMIT 20", (), lambda said: [it["size"] for it in said["hits"]]),
        Question("10,000 hits by a number", {"query": "*", "sort_by": "size", "max_hits": 10_000},
                 "SELECT size FROM records ORDER BY size, id LIMIT 10000", (), lambda said: [it["size"] for it in said["hits"]]),
        Question("10,000 hits by place", {"query": "*", "max_hits": 10_000},
                 "SELECT size FROM records ORDER BY id LIMIT 10000", (), lambda said: [it["size"] for it in said["hits"]]),
        Question("terms over all", {"query": "*", "max_hits": 0, "aggs": {"levels": {"terms": {"field": "level", "size": 1000}}}},
                 "SELECT level, count(*) FROM records GROUP BY level", (),
                 lambda said: sorted((it["key"], it["doc_count"]) for it in said["aggregations"]["levels"]["buckets"])),
        Question("a histogram over all", {"query": "*", "max_hits": 0, "aggs": {"sizes": {"histogram": {"field": "size", "interval": 1000, "min_doc_count": 1}}}},
                 "SELECT size / 1000 * 1000, count(*) FROM records GROUP BY 1", (),
                 lambda said: sorted((it["key"], it["doc_count"]) for it in said["aggregations"]["sizes"]["buckets"])),
        Question("terms and a histogram in one request", {"query": "*", "max_hits": 0, "aggs": {
                     "levels": {"terms": {"field": "level", "size": 1000}}, "sizes": {"histogram": {"field": "size", "interval": 1000, "min_doc_count": 1}}}},
                 "SELECT 'levels', level, count(*) FROM records GROUP BY level UNION ALL SELECT 'sizes', size / 1000 * 1000, count(*) FROM records GROUP BY 2", (),
                 lambda said: sorted((name, it["key"], it["doc_count"]) for name in ("levels", "sizes") for it in said["aggregations"][name]["buckets"])),
        Question("terms with a nested sum and a greatest", {"query": "*", "max_hits": 0, "aggs": {"levels": {
                     "terms": {"field": "level", "size": 1000}, "aggs": {"all": {"sum": {"field": "size"}}, "most": {"max": {"field": "size"}}}}}},
                 "SELECT level, count(*), sum(size), max(size) FROM records GROUP BY level", (),
                 lambda said: sorted((it["key"], it["doc_count"], it["all"]["value"], it["most"]["value"]) for it in said["aggregations"]["levels"]["buckets"])),
        Question("least, greatest, sum and number of a field", {"query": "*", "max_hits": 0, "aggs": {
                     "least": {"min": {"field": "size"}}, "most": {"max": {"field": "size"}}, "all": {"sum": {"field": "size"}}, "many": {"value_count": {"field": "size"}}}},
                 "SELECT min(size), max(size), sum(size), count(size) FROM records", (),
                 lambda said: [tuple(said["aggregations"][name]["value"] for name in ("least", "most", "all", "many"))]),
        Question("three ranges of a number", {"query": "*", "max_hits": 0, "aggs": {
                     "sizes": {"range": {"field": "size", "ranges": [{"to": low}, {"from": low, "to": high}, {"from": high}]}}}},
                 "SELECT sum(size < ?), sum(size BETWEEN ? AND ? - 1), sum(size >= ?) FROM records", (low, low, high, high),
                 lambda said: [tuple(it["doc_count"] for it in said["aggregations"]["sizes"]["buckets"])]),
    ]


# ---- the program

class Program(poltyqen.Drive):
    """The program at work on a folder, a schedule line at a time."""

    def __init__(self, path, store, logs):
        super().__init__(path, store, logs, stderr=None)

    def ask(self, asked):
        """The reply to a search. One that is refused ends the measurement."""
        found = super().ask(poltyqen.request_text({"search": asked}))
        if "error" in found:
            raise SystemExit(f"refused: {found}")
        return found

    def end(self):
        """Lets the program end, and returns what the system says that it used."""
        self.process.stdin.close()
        _, status, used = os.wait4(self.process.pid, 0)
        self.process.returncode = os.waitstatus_to_exitcode(status)
        self.process.stdout.close()
        return used


def made_index(path, folder, config):
    os.makedirs(f"{folder}/store")
    poltyqen.Index(f"{folder}/store", f"{folder}/logs", path).create(config)


def indexed(path, folder):
    """Indexes the folder's logs, and returns the seconds, the processor's seconds and the peak memory in bytes."""
    begun = time.monotonic()
    program = Program(path, f"{folder}/store", f"{folder}/logs")
    while program.line("indexer 0") != "indexer 0 caughtup":
        pass
    peak = peak_of(program.process.pid)
    used = program.end()
    return time.monotonic() - begun, used.ru_utime + used.ru_stime, peak


def peak_of(process):
    """The most memory that a process had, in bytes: what the system counts for a child begins with its parent's."""
    with open(f"/proc/{process}/status", encoding="utf-8") as file:
        return 1024 * int(re.search(r"VmHWM:\s+(\d+)", file.read())[1])


def disk_of(folder):
    return sum(os.path.getsize(f"{at}/{name}") for at, _, names in os.walk(folder) for name in names)


# ---- SQLite

def in_sqlite(path, records_path):
    """Indexes the same lines in a process of its own."""
    code = (
        "import json, sqlite3, sys\n"
        "to = sqlite3.connect(sys.argv[1])\n"
        "to.execute('CREATE TABLE records (id INTEGER PRIMARY KEY, at INTEGER, level TEXT, body TEXT, size INTEGER)')\n"
        "to.execute(\"CREATE VIRTUAL TABLE texts USING fts5(body, content='records', content_rowid='id')\")\n"
        "lines = (json.loads(it) for it in open(sys.argv[2], encoding='utf-8'))\n"
        "to.executemany('INSERT INTO records (at, level, body, size) VALUES (:at, :level, :body, :size)', lines)\n"
        "to.execute('INSERT INTO texts (rowid, body) SELECT id, body FROM records')\n"
        "to.execute('CREATE INDEX sizes ON records (size)')\n"
        "to.execute('CREATE INDEX levels ON records (level)')\n"
        "to.commit()\n"
        "print('done', flush=True)\n"
        "sys.stdin.read()\n"
    )
    begun = time.monotonic()
    work = subprocess.Popen([sys.executable, "-c", code, path, records_path], stdin=subprocess.PIPE, stdout=subprocess.PIPE)
    work.stdout.readline()
    peak = peak_of(work.pid)
    work.stdin.close()
    _, status, used = os.wait4(work.pid, 0)
    work.returncode = os.waitstatus_to_exitcode(status)
    if work.returncode:
        raise SystemExit("SQLite could not index")
    return time.monotonic() - begun, used.ru_utime + used.ru_stime, peak


def answer_of(base, question):
    rows = base.execute(question.sql, question.given).fetchall()
    if "count(*) FROM" in question.sql and "GROUP" not in question.sql:
        return rows[0][0]
    if "LIMIT" in question.sql:
        return [it[0] for it in rows]
    return sorted(rows)


def cold_sqlite(path, question):
    code = (
        "import sqlite3, sys, time\n"
        "begun = time.monotonic()\n"
        "sqlite3.connect(sys.argv[1]).execute(sys.argv[2], sys.argv[3:]).fetchall()\n"
        "print(time.monotonic() - begun)\n"
    )
    return float(subprocess.run([sys.executable, "-c", code, path, question.sql, *question.given], capture_output=True, check=True).stdout)


# ---- one corpus

def timed(repeat, work):
    taken = []
    for _ in range(repeat):
        begun = time.monotonic()
        found = work()
        taken.append(time.monotonic() - begun)
    return found, statistics.median(taken)


def milli(number):
    """Milliseconds as they are shown."""
    return f"{number:.2f}" if number < 100 else f"{number:.0f}"


def sized(program, folder):
    """Indexes the folder's logs: the seconds, the processor's seconds, the peak memory and the bytes on disk, both in MB."""
    taken, used, peak = indexed(program, folder)
    return taken, used, peak / 1e6, disk_of(f"{folder}/store") / 1e6


def indexed_before(before, folder):
    """The same by another build of the program, over the same logs and a store of its own."""
    os.makedirs(f"{folder}/before")
    os.symlink(os.path.abspath(f"{folder}/logs"), f"{folder}/before/logs")
    made_index(before, f"{folder}/before", CONFIG % DOCS_IN_A_SPLIT)
    return sized(before, f"{folder}/before")


class Table:
    """A table of one corpus, of which each row is printed and kept."""

    def __init__(self, corpus, records, size, has_before):
        self.has_before = has_before
        self.told = {"corpus": corpus, "records": records, "bytes": size, "rows": []}
        print(f"\n**{corpus}, {records:,} records, {size / 1e6:.0f} MB of lines**\n")
        print(f"| | Poltyqen | SQLite FTS5 | Ratio |{' Before |' if has_before else ''}\n|---|---|---|---|{'---|' if has_before else ''}")

    def row(self, what, unit, shown, mine, other, older, same=True):
        """A row: what was measured, in which unit, how a number of it is shown, and the numbers."""
        was = f" {shown(older)} |" if self.has_before else ""
        print(f"| {what}, {unit} | {shown(mine)} | {shown(other)} | {mine / other:.2f}{'' if same else ' (answers differ)'} |{was}")
        numbers = {"poltyqen": mine, "sqlite": other, **({"before": older} if self.has_before else {})}
        self.told["rows"].append({"what": what, "unit": unit, **numbers, "same": same})


def measured(program, before, name, records, folder, repeat):
    os.makedirs(f"{folder}/logs")
    with open(f"{folder}/logs/p0", "w", encoding="utf-8") as file:
        for record in records:
            file.write(json.dumps(record) + "\n")
    made_index(program, folder, CONFIG % DOCS_IN_A_SPLIT)
    ours = sized(program, folder)
    olders = indexed_before(before, folder) if before else [None] * 4
    theirs = in_sqlite(f"{folder}/base.db", f"{folder}/logs/p0")
    table = Table(name, len(records), os.path.getsize(f"{folder}/logs/p0"), before is not None)
    theirs = (*theirs[:2], theirs[2] / 1e6, os.path.getsize(f"{folder}/base.db") / 1e6)
    for (what, unit), mine, other, older in zip((("indexing", "seconds"), ("indexing", "processor seconds"), ("indexing", "peak MB"),
                                                 ("on disk", "MB")), ours, theirs, olders):
        table.row(what, unit, "{:.1f}".format, mine, other, older)
    at_work = Program(program, f"{folder}/store", f"{folder}/logs")
    was_at_work = Program(before, f"{folder}/before/store", f"{folder}/logs") if before else None
    base = sqlite3.connect(f"{folder}/base.db")
    for question in questions(records):
        at_work.ask(question.asked)
        answer_of(base, question)
        said, mine = timed(repeat, lambda: at_work.ask(question.asked))
        told, other = timed(repeat, lambda: answer_of(base, question))
        same = question.shown(said) == told or question.shown(said) == [tuple(it) for it in told] if isinstance(told, list) else question.shown(said) == told
        older = None
        if was_at_work:
            was_at_work.ask(question.asked)
            older = 1000 * timed(repeat, lambda: was_at_work.ask(question.asked))[1]
        table.row(question.name, "ms", milli, 1000 * mine, 1000 * other, older, same)
    at_work.end()
    if was_at_work:
        was_at_work.end()
    in_new_processes(table, program, before, questions(records)[0], folder, repeat)
    sys.stdout.flush()
    return table.told


def in_new_processes(table, program, before, question, folder, repeat):
    """The row of a question that each is asked in a process of its own."""
    def cold(path, store):
        fresh = Program(path, store, f"{folder}/logs")
        found = fresh.ask(question.asked)
        fresh.end()
        return found

    _, mine = timed(repeat, lambda: cold(program, f"{folder}/store"))
    other = statistics.median(cold_sqlite(f"{folder}/base.db", question) for _ in range(repeat))
    older = 1000 * timed(repeat, lambda: cold(before, f"{folder}/before/store"))[1] if before else None
    table.row(f"{question.name} in a new process", "ms", milli, 1000 * mine, 1000 * other, older)


def main():
    given = argparse.ArgumentParser(description=__doc__, formatter_class=argparse.RawDescriptionHelpFormatter)
    given.add_argument("program")
    given.add_argument("--records", type=int, nargs="+", default=[20_000, 200_000, 1_000_000])
    given.add_argument("--seed", type=int, default=7)
    given.add_argument("--repeat", type=int, default=5)
    given.add_argument("--folder")
    given.add_argument("--before", help="another build of the program, which indexes the same and is asked the same")
    given.add_argument("--json", help="a file for the numbers")
    asked = given.parse_args()
    program = os.path.abspath(asked.program)
    before = asked.before and os.path.abspath(asked.before)
    made = {"seed": asked.seed, "repeat": asked.repeat, "processors": os.cpu_count(), "machine": platform.machine(),
            "python": platform.python_version(), "sqlite": sqlite3.sqlite_version, "load": os.getloadavg()[0]}
    print(f"Measured by bench/measure.py with seed {asked.seed} on {made['processors']} processors of {made['machine']}, "
          f"Python {made['python']}, SQLite {made['sqlite']}; load {made['load']:.1f} at the start. "
          f"Times of questions are medians of {asked.repeat}, warm, one process.")
    tables = []
    for name, records_of in [("Records of a log", log_records), ("Package descriptions", text_records)]:
        for count in asked.records:
            folder = tempfile.mkdtemp(prefix="poltyqen-bench-", dir=asked.folder)
            try:
                tables.append(measured(program, before, name, list(records_of(count, asked.seed)), folder, asked.repeat))
            finally:
                shutil.rmtree(folder)
    equal = all(row["same"] for table in tables for row in table["rows"])
    print("\nAll answers are equal." if equal else "\nSome answers differ.")
    if asked.json:
        with open(asked.json, "w", encoding="utf-8") as file:
            json.dump({**made, "tables": tables}, file, indent=1)
            file.write("\n")
    return 0 if equal else 1


if __name__ == "__main__":
    sys.exit(main())
