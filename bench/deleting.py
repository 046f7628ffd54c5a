#!/usr/bin/env python3
"""Measures deletes: a split that is made anew without what tasks remove, and tasks that remove nothing beside a count.

    bench/deleting.py PROGRAM [--docs N] [--tasks N] [--seed N] [--folder FOLDER]

PROGRAM is the built program (`rt run` leaves it in crates/quick_node/out). Records of a log are indexed in one split. Over a
copy of that index a client deletes: once, so often by a word, and so often by words, two words, phrases and ranges by turns.
Then the delete worker is stepped until it has nothing to do, and each line is timed, with the most memory that the process had
and the bytes of the file that it made. How many records are left is compared with what the records say. Behind that the same
with words that no record has, beside a count of such a word. Tables are printed in Markdown.
"""
import argparse
import glob
import json
import os
import shutil
import statistics
import tempfile
import time

import measure

# Far above the split: no batch is closed before the log's end.
TARGET = 10_000_000
REPLACED = ("planned", "fetched", "staged", "uploaded", "replaced")
RAISED = ("planned", "fetched", "raised")


class Ask:
    """The query of a delete, and whether it finds a record, given as its words and its number."""

    def __init__(self, text, finds):
        self.text, self.finds = text, finds


def of_word(word):
    return Ask(word, lambda words, size: word in words)


def of_two(one, other):
    return Ask(f"{one} AND {other}", lambda words, size: one in words and other in words)


def of_phrase(words):
    return Ask(f'"{words[0]} {words[1]}"', lambda body, size: words in zip(body, body[1:]))


def of_range(low):
    return Ask(f"size:[{low} TO {low + 49}]", lambda words, size: low <= size <= low + 49)


def words_of(ranked, count):
    """Words that stand in one record of some thousand each, where there are so many."""
    first = min(1000, len(ranked) // 2)
    return [word for word, _ in ranked[first:first + count]]


def mixed(records, ranked, count):
    """Deletes of four kinds by turns."""
    rare, common = words_of(ranked, count), [word for word, _ in ranked]
    long = [it["body"].split() for it in records if len(it["body"].split()) > 1]
    made = []
    for number in range(count):
        kinds = (
            lambda: of_word(rare[number]),
            lambda: of_two(common[number], common[number + 100]),
            lambda: of_phrase(tuple(long[number * 7 % len(long)][:2])),
            lambda: of_range(number * 700),
        )
        made.append(kinds[number % len(kinds)]())
    return made


def left_of(records, asks):
    """How many records none of them finds."""
    left = 0
    for record in records:
        words = record["body"].split()
        left += not any(ask.finds(words, record["size"]) for ask in asks)
    return left


class Index:
    """A copy of an index, and a process at work on it."""

    def __init__(self, path, source, folder):
        shutil.copytree(source, folder)
        self.folder = folder
        self.program = measure.Program(path, f"{folder}/store", f"{folder}/logs")

    def end(self):
        self.program.end()
        shutil.rmtree(self.folder)

    def count(self, query):
        return self.program.ask({"query": query, "max_hits": 0})["num_hits"]

    def delete(self, asks):
        """Each is asked for: the milliseconds of one, on average."""
        begun = time.monotonic()
        for number, ask in enumerate(asks):
            self.program.line("client d " + json.dumps({"delete": {"query": ask.text}}))
            said = json.loads(self.program.line("client d"))
            if said.get("opstamp") != number + 1:
                raise SystemExit(f"the delete said: {said}")
        return (time.monotonic() - begun) * 1000 / len(asks)

    def work(self, wanted):
        """Steps the delete worker until it has nothing to do: the seconds of each of its outcomes, which are these."""
        took = {}
        while True:
            begun = time.monotonic()
            said = self.program.line("deleter")
            word = said.split()[1]
            if word == "nothing":
                break
            took[word] = took.get(word, 0.0) + time.monotonic() - begun
            if word not in wanted:
                raise SystemExit(f"the delete worker said: {said}")
        if tuple(took) != wanted:
            raise SystemExit(f"the delete worker's steps: {tuple(took)}")
        return took


def made_index(path, folder, records):
    """An index with one split of these records. The microseconds of indexing one of them."""
    os.makedirs(f"{folder}/logs")
    measure.made_index(path, folder, measure.CONFIG % TARGET)
    with open(f"{folder}/logs/p0", "w", encoding="utf-8") as file:
        for record in records:
            file.write(json.dumps(record) + "\n")
    seconds, _, _ = measure.indexed(path, folder)
    if len(glob.glob(f"{folder}/store/splits/*")) != 1:
        raise SystemExit("not one split")
    return seconds / len(records) * 1e6


def removed(path, source, folder, records, name, asks):
    """What these tasks remove: a row of the table."""
    index = Index(path, source, folder)
    names = set(glob.glob(f"{folder}/store/splits/*"))
    asking = index.delete(asks)
    took = index.work(REPLACED)
    peak = measure.peak_of(index.program.process.pid)
    made = sum(os.path.getsize(it) for it in set(glob.glob(f"{folder}/store/splits/*")) - names)
    left, wanted = index.count("*"), left_of(records, asks)
    index.end()
    if left != wanted:
        raise SystemExit(f"{name}: {left} records are left, not {wanted}")
    seconds = sum(took.values())
    parts = ", ".join(f"{word} {took[word]:.3f}" for word in REPLACED)
    docs = len(records)
    return f"| {name} | {docs - left:,} of {docs:,} | {asking:.2f} | {seconds:.3f} ({parts}) | {seconds / docs * 1e6:.2f} | {made / 1e6:.1f} | {peak / 1e6:.1f} |"


def nothing(path, source, folder, records, asks, repeat):
    """What tasks cost that remove nothing, and a count of a word that no record has."""
    index = Index(path, source, folder)
    index.delete(asks)
    took = index.work(RAISED)
    counts = []
    for _ in range(repeat):
        begun = time.monotonic()
        found = index.count("zzzabsent")
        counts.append((time.monotonic() - begun) * 1000)
        if found:
            raise SystemExit("a word that no record has is found")
    left = index.count("*")
    index.end()
    if left != len(records):
        raise SystemExit(f"{left} records are left of {len(records)}")
    steps = " | ".join(f"{took[word] * 1000:.2f}" for word in RAISED)
    return f"| {len(asks)} | {steps} | {sum(took.values()) * 1000:.2f} | {counts[0]:.2f} | {statistics.median(counts):.2f} |"


def main():
    words = argparse.ArgumentParser(description=__doc__.splitlines()[0])
    words.add_argument("program")
    words.add_argument("--docs", type=int, default=100_000)
    words.add_argument("--tasks", type=int, default=100)
    words.add_argument("--seed", type=int, default=7)
    words.add_argument("--folder", help="where indexes are made; a new folder of the system's by default")
    args = words.parse_args()
    path = os.path.realpath(args.program)
    folder = tempfile.mkdtemp(prefix="poltyqen-deleting-", dir=args.folder)
    source, copy = f"{folder}/source", f"{folder}/copy"
    try:
        records = list(measure.log_records(args.docs, args.seed))
        _, ranked = measure.common_words(records, 1)
        indexing = made_index(path, source, records)
        by_word = [of_word(word) for word in words_of(ranked, args.tasks)]
        print(f"Indexing took {indexing:.2f} microseconds a record.\n")
        print("| tasks | removed | ms a delete | seconds of the delete worker | microseconds a record | MB made | peak MB |")
        print("|---|---|---|---|---|---|---|")
        for name, asks in (
            ("1, of a word", by_word[:1]),
            (f"{args.tasks}, each of a word", by_word),
            (f"{args.tasks}, of four kinds", mixed(records, ranked, args.tasks)),
        ):
            print(removed(path, source, copy, records, name, asks), flush=True)
        print("\n| tasks that remove nothing | planned, ms | fetched, ms | raised, ms | in all, ms | the first count, ms | a count, ms |")
        print("|---|---|---|---|---|---|---|")
        for count in (1, args.tasks):
            asks = [of_word(f"zzzabsent{number}") for number in range(count)]
            print(nothing(path, source, copy, records, asks, 9), flush=True)
    finally:
        shutil.rmtree(folder)


if __name__ == "__main__":
    main()
