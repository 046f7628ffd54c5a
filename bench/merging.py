#!/usr/bin/env python3
"""Measures merges: seven splits (or as many of them as fit one) that become one, and a count over many splits before their merges and behind them.

    bench/merging.py PROGRAM [--splits N] [--docs N] [--many N] [--seed N] [--folder FOLDER]

PROGRAM is the built program (`rt run` leaves it in crates/quick_node/out). Short records that are drawn from a number, records of
a log, and package descriptions of the system are indexed in as many splits as are asked for; then a merger makes one of them, a
line at a time, and each line is timed, with the processor time of all, the most memory that the process had and the bytes of the
file that it made. Behind that records of a log are indexed in many splits of 1,000, and a count is asked for before their merges
and behind them. Tables are printed in Markdown.
"""
import argparse
import glob
import itertools
import json
import os
import shutil
import statistics
import tempfile
import time

import measure

WORDS = "alpha beta gamma delta epsilon zeta eta theta iota kappa lambda mu nu xi omicron pi".split()

# Far above the splits that are merged: a split of so many documents is merged no more.
TARGET = 10_000_000

POLICY = """
[indexing_settings.merge_policy]
type = "stable_log"
merge_factor = %d
max_merge_factor = %d
min_level_num_docs = %d
"""


def short_records(count, number):
    """Records of a second, a level, two words of sixteen and a number, drawn by a linear congruence that begins with this number."""
    for second in range(1_700_000_000, 1_700_000_000 + count):
        number = (number * 6364136223846793005 + 1442695040888963407) % 2**64
        drawn = number >> 33
        yield {
            "at": second,
            "level": ("info", "warn", "error", "debug")[drawn % 4],
            "body": f"{WORDS[drawn // 4 % 16]} {WORDS[drawn // 64 % 16]}",
            "size": 200 + drawn // 1024 % 400,
        }


class Index:
    """The folders of an index, and a process at work on it."""

    def __init__(self, path, folder, policy):
        self.path, self.folder = path, folder
        os.makedirs(folder + "/logs")
        measure.made_index(path, folder, measure.CONFIG % TARGET + POLICY % policy)
        self.program = None

    def batches(self, records, docs):
        """Indexes the records, so many in a split: the log grows by as many, and is indexed to its end. Its seconds."""
        records, took = iter(records), 0.0
        self.open()
        while batch := list(itertools.islice(records, docs)):
            with open(f"{self.folder}/logs/p0", "a", encoding="utf-8") as file:
                for record in batch:
                    file.write(json.dumps(record) + "\n")
            begun = time.monotonic()
            while self.program.line("indexer 0") != "indexer 0 caughtup":
                pass
            took += time.monotonic() - begun
        self.close()
        return took

    def open(self):
        self.program = measure.Program(self.path, f"{self.folder}/store", f"{self.folder}/logs")

    def close(self):
        self.program.end()

    def timed(self, text):
        begun = time.monotonic()
        said = self.program.line(text)
        return said, time.monotonic() - begun

    def merge(self):
        """Steps the merger until it has nothing to do: seconds by the word of its outcome, how many merges, and of how many rows."""
        took, merges, rows = {}, 0, 0
        while True:
            said, seconds = self.timed("merger")
            word = said.split()[1]
            if word == "nothing":
                return took, merges, rows
            if word not in ("planned", "fetched", "staged", "uploaded", "replaced"):
                raise SystemExit(f"the merger said: {said}")
            took[word] = took.get(word, 0.0) + seconds
            merges += word == "replaced"
            rows += int(said.split()[2]) if word == "planned" else 0

    def processor(self):
        """The seconds of processor time that the process has used."""
        with open(f"/proc/{self.program.process.pid}/stat", encoding="utf-8") as file:
            words = file.read().rsplit(")", 1)[1].split()
        return (int(words[11]) + int(words[12])) / os.sysconf("SC_CLK_TCK")

    def peak(self):
        return measure.peak_of(self.program.process.pid)

    def counted(self, query, repeat):
        taken = []
        for _ in range(repeat):
            begun = time.monotonic()
            found = self.program.ask({"query": query, "max_hits": 0})["num_hits"]
            taken.append(time.monotonic() - begun)
        return found, statistics.median(taken) * 1000


def merged(path, folder, splits, docs, records):
    """One merge of so many splits: a row of the table."""
    index = Index(path, folder, (splits, splits, docs + 1))
    indexing = index.batches(records, docs) / (splits * docs) * 1e6
    names = set(glob.glob(f"{folder}/store/splits/*"))
    index.open()
    begun = index.processor()
    took, merges, rows = index.merge()
    worked = index.processor() - begun
    peak = index.peak()
    index.close()
    if merges != 1:
        raise SystemExit(f"{merges} merges, not one")
    made = sum(os.path.getsize(it) for it in set(glob.glob(f"{folder}/store/splits/*")) - names)
    seconds = sum(took.values())
    parts = ", ".join(f"{word} {took[word]:.2f}" for word in ("planned", "fetched", "staged", "uploaded", "replaced"))
    return f"{rows} | {rows * docs:,} | {seconds:.2f} ({parts}) | {seconds / (rows * docs) * 1e6:.2f} | {worked / (rows * docs) * 1e6:.2f} | {indexing:.2f} | {made / 1e6:.1f} | {peak / 1e6:.1f} | {peak / made:.2f}"


def many(path, folder, count, seed):
    """A count over many splits of 1,000 records before their merges and behind them."""
    index = Index(path, folder, (10, 12, 1001))
    records = list(measure.log_records(count, seed))
    ranked, _ = measure.common_words(records, 40)
    word = ranked[2][0]
    index.batches(records, 1000)
    index.open()
    found, before = index.counted(word, 5)
    index.close()
    index.open()
    took, merges, _ = index.merge()
    index.close()
    index.open()
    again, behind = index.counted(word, 5)
    rows = index.program.line("client b " + json.dumps({"search": {"query": "*"}})) and index.program.line("client b").split()[3]
    index.close()
    if found != again:
        raise SystemExit(f"{found} before, {again} behind")
    return count // 1000, int(rows), merges, sum(took.values()), before, behind


def main():
    words = argparse.ArgumentParser(description=__doc__.splitlines()[0])
    words.add_argument("program")
    words.add_argument("--splits", type=int, default=7)
    words.add_argument("--docs", type=int, default=100_000)
    words.add_argument("--many", type=int, default=1_000_000)
    words.add_argument("--seed", type=int, default=7)
    words.add_argument("--folder", help="where indexes are made; a new folder of the system's by default")
    args = words.parse_args()
    path = os.path.realpath(args.program)
    folder = tempfile.mkdtemp(prefix="poltyqen-merging-", dir=args.folder)
    count = args.splits * args.docs
    try:
        print("| splits into one | of | records | seconds | microseconds a record | of processor time | of indexing | MB made | peak MB | peak by made |")
        print("|---|---|---|---|---|---|---|---|---|---|")
        print("| short records | " + merged(path, f"{folder}/short", args.splits, args.docs, short_records(count, args.seed)) + " |", flush=True)
        shutil.rmtree(f"{folder}/short")
        print("| records of a log | " + merged(path, f"{folder}/log", args.splits, args.docs, measure.log_records(count, args.seed)) + " |", flush=True)
        shutil.rmtree(f"{folder}/log")
        print("| package descriptions | " + merged(path, f"{folder}/text", args.splits, args.docs, measure.text_records(count, args.seed)) + " |", flush=True)
        shutil.rmtree(f"{folder}/text")
        splits, rows, merges, seconds, before, behind = many(path, f"{folder}/many", args.many, args.seed)
        print("\n| splits | behind merges | merges | seconds of merging | a count before, ms | behind, ms |")
        print("|---|---|---|---|---|---|")
        print(f"| {splits} | {rows} | {merges} | {seconds:.1f} | {before:.2f} | {behind:.2f} |")
    finally:
        shutil.rmtree(folder)


if __name__ == "__main__":
    main()
