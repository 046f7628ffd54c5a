#!/usr/bin/env python3
"""How often a record is written under the policy `stable_log`, by simulation.

    bench/merge_writes.py [--batches N] [--weight N]

A batch of so many documents is published each minute, and after each the merges that the policy asks for are done: the rule is
the one of crates/merge_policy, with the default factors (10 and at most 12), the default target and the default period of
maturation. A document weighs 257 and as many bytes as --weight says, so that a split is full below its count of documents.
Printed for each size of a batch and each least number of documents of a level: the most and the mean number of writes of a
record, its first one with them, and how many splits there are at the end.
"""
import argparse

FACTOR, MOST, TARGET, PERIOD = 10, 12, 10_000_000, 48 * 3600
DOCS, WEIGHT = 16_777_216, 268_435_456


class Row:
    def __init__(self, number, docs, most, now):
        self.number, self.docs, self.most, self.time = number, docs, most, now


def level_of(docs, least):
    level, top = 0, least
    while docs >= top:
        level, top = level + 1, top * FACTOR
    return level


def chosen(rows, least, weight):
    """The rows that are merged next, or none."""
    levels = {}
    for row in rows:
        levels.setdefault(level_of(row.docs, least), []).append(row)
    for level in sorted(levels):
        if len(levels[level]) < FACTOR:
            continue
        taken, docs = [], 0
        for row in sorted(levels[level], key=lambda it: (-it.time, it.number)):
            docs += row.docs
            if len(taken) == MOST or docs > DOCS or docs * weight > WEIGHT:
                break
            taken.append(row)
        if len(taken) >= 2:
            return taken
    return None


def simulated(batch, batches, least, weight):
    rows, over, number, written = [], [], 0, 0
    for minute in range(1, batches + 1):
        now, number = 60 * minute, number + 1
        rows.append(Row(number, batch, 1, now))
        written += batch
        over += [it for it in rows if it.docs >= TARGET or now >= it.time + PERIOD]
        rows = [it for it in rows if it.docs < TARGET and now < it.time + PERIOD]
        while taken := chosen(rows, least, weight):
            number += 1
            docs = sum(it.docs for it in taken)
            rows = [it for it in rows if it not in taken]
            rows.append(Row(number, docs, max(it.most for it in taken) + 1, now))
            written += docs
    return max(it.most for it in rows + over), written / (batch * batches), len(rows) + len(over)


def main():
    words = argparse.ArgumentParser(description=__doc__.splitlines()[0])
    words.add_argument("--batches", type=int, default=10_000)
    words.add_argument("--weight", type=int, default=60, help="bytes of a document")
    args = words.parse_args()
    print("| documents of a batch | least of a level | writes at most | on average | splits at the end |")
    print("|---|---|---|---|---|")
    for batch in (100, 1_000, 10_000, 60_000):
        for least in sorted({100_000, 2 * batch}):
            most, mean, splits = simulated(batch, args.batches, least, 257 + args.weight)
            print(f"| {batch:,} | {least:,} | {most} | {mean:.1f} | {splits:,} |")


if __name__ == "__main__":
    main()
