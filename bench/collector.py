#!/usr/bin/env python3
"""Measures a step of the collector over many rows of which none is due, and the opening of their journal.

    bench/collector.py PROGRAM [--rows N] [--steps N] [--folder FOLDER]

PROGRAM is the built program (`rt run` leaves it in crates/quick_node/out). An indexer stages a row of the one record of a log
and is restarted, N times: so the journal has N rows that were staged, at the moment at which the collector looks. Over it a
`drive` is asked line by line: how long opening takes, a line that does nothing, and a step of the collector; once with no file
beside the journal, so that the listing behind the three other tries has nothing to list, and once with a file for each row, of
which the listing names every one. Medians are printed in Markdown.
"""
import argparse
import os
import shutil
import statistics
import subprocess
import sys
import tempfile
import time

sys.path.insert(0, os.path.join(os.path.dirname(os.path.abspath(__file__)), "../clients/python"))
import poltyqen

CONFIG = """index_id = "collector"

[doc_mapping]
mode = "strict"

[[doc_mapping.field_mappings]]
name = "body"
type = "text"

[search_settings]
default_search_fields = ["body"]
"""


def made_index(program, folder):
    """An index over a log of one record."""
    store, logs = f"{folder}/store", f"{folder}/logs"
    os.mkdir(store)
    os.mkdir(logs)
    with open(f"{logs}/p0", "w", encoding="utf-8") as file:
        file.write('{"body":"red fox"}\n')
    index = poltyqen.Index(store, logs, program)
    index.create(CONFIG)
    return index


def timed_line(drive, text):
    """The outcome of a line, and in how many milliseconds it came."""
    begun = time.perf_counter()
    said = drive.line(text)
    return said, (time.perf_counter() - begun) * 1000


def stage(index, rows):
    """Leaves this many rows staged at moment 1000."""
    text = b"at 1000\n" + b"indexer 0\nindexer 0\nindexer 0\nrestart indexer 0\n" * rows
    done = subprocess.run([index.program, index.store, index.logs, "drive"], input=text, stdout=subprocess.PIPE, check=False)
    staged = done.stdout.count(b" staged ")
    if done.returncode != 0 or staged != rows:
        sys.exit(f"{staged} rows were staged, not {rows}: {done.stdout[-200:]!r}")


def steps_of(index, steps):
    """Milliseconds of the opening, of an `at` line and of a step of the collector: medians of the last two."""
    drive = poltyqen.Drive(index.program, index.store, index.logs)
    _, opened = timed_line(drive, "at 1000")
    nothing = [timed_line(drive, "at 1000")[1] for _ in range(steps)]
    stepped = [timed_line(drive, "collector") for _ in range(steps)]
    drive.end()
    if any(said != "collector nothing" for said, _ in stepped):
        sys.exit(f"the collector did something: {stepped[:3]!r}")
    return opened, statistics.median(nothing), statistics.median(took for _, took in stepped)


def main():
    words = argparse.ArgumentParser(description=__doc__.splitlines()[0])
    words.add_argument("program")
    words.add_argument("--rows", type=int, default=100_000)
    words.add_argument("--steps", type=int, default=100)
    words.add_argument("--folder", help="where the index is made; a new folder of the system's by default")
    args = words.parse_args()
    folder = tempfile.mkdtemp(prefix="poltyqen-collector-", dir=args.folder)
    try:
        index = made_index(os.path.realpath(args.program), folder)
        stage(index, args.rows)
        opened, line, bare = steps_of(index, args.steps)
        os.makedirs(f"{index.store}/splits", exist_ok=True)
        for number in range(1, args.rows + 1):
            with open(f"{index.store}/splits/{number:020}", "wb"):
                pass
        _, _, listed = steps_of(index, max(3, args.steps // 50))
    finally:
        shutil.rmtree(folder)
    print("| Over rows of which none is due | |")
    print("|---|---|")
    print(f"| rows | {args.rows} |")
    print(f"| opening, ms | {opened:.0f} |")
    print(f"| a line that does nothing, ms | {line:.3f} |")
    print(f"| a step of the collector, no file to list, ms | {bare:.3f} |")
    print(f"| a step of the collector, a file for each row, ms | {listed:.0f} |")


if __name__ == "__main__":
    main()
