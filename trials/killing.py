#!/usr/bin/env python3
"""Kills the program at random moments while it indexes, starts it again over the same folders, and looks at the end whether
each record is found once.

    trials/killing.py PROGRAM [--kills N] [--records N] [--docs N] [--reports N] [--seed N] [--run]

The records lie in four partitions, and each has a number of its own. The program is killed (SIGKILL) so many times, and then
let to its end. The collector steps among the indexers, with graces so short that it takes what each killed run left. Beside it
so many loops ask `describe` and `splits` by turns, from the first run to the last: each report must end with status 0, say
nothing on standard error, and never show an older revision than the report before it. With `--run` it is the command `run`
that is killed, with four indexers, a merger, a delete worker and a collector in threads, which live by the system's clock;
else `drive`, step by step. What `*` finds must be as many as there are records, and the numbers that are found, read by pages, each record's own, once. Behind the collector's last step each file
is that of a published row. It prints how often it was killed, how many reports were written, what the collector did, what
stands in the folder, and `each record once`, or what differs.
"""
import argparse
import collections
import json
import os
import random
import shutil
import subprocess
import sys
import tempfile
import threading
import time

sys.path.insert(0, os.path.join(os.path.dirname(os.path.abspath(__file__)), "../clients/python"))
import poltyqen

PARTITIONS = 4
# Later than the moment of the system's clock, at which `create` makes the index.
AFTER_TODAY = 4_000_000_000

CONFIG = """index_id = "killing"

[doc_mapping]
mode = "strict"

[[doc_mapping.field_mappings]]
name = "number"
type = "u64"
fast = true

[[doc_mapping.field_mappings]]
name = "body"
type = "text"

[search_settings]
default_search_fields = ["body"]

[indexing_settings]
split_num_docs_target = %d

[upkeep]
staged_grace_secs = 8
deletion_grace_secs = 5
"""


def collected(drive, done):
    """One step of the collector. Returns the first word that it says."""
    said = drive.line("collector")
    word = said.split()[1]
    if word not in ("nothing", "marked", "doomed", "removed", "swept"):
        raise SystemExit(f"it says: {said}")
    done[word] += 1
    return word


def indexed(drive, moment, collects):
    """Steps the indexers in turn, and the collector behind each round, until all are caught up, or until the program is killed.
    Returns the moment of the last round, or None where it was killed."""
    done = set()
    try:
        while len(done) < PARTITIONS:
            moment += 2
            drive.line(f"at {moment}")
            for number in range(PARTITIONS):
                if number not in done:
                    said = drive.line(f"indexer {number}")
                    if said.endswith("caughtup"):
                        done.add(number)
                    elif said.split()[2] not in ("checkpoint", "read", "staged", "uploaded", "published", "stale", "lost"):
                        raise SystemExit(f"it says: {said}")
            collected(drive, collects)
    except poltyqen.ProgramEnded as ended:
        if ended.status >= 0:
            raise
        return None
    return moment


def all_collected(drive, moment, collects):
    """Lets the collector mark what was left, and behind the grace take it away."""
    for behind in (100, 200):
        drive.line(f"at {moment + behind}")
        while collected(drive, collects) != "nothing":
            pass


class Reports(threading.Thread):
    """Asks for reports until it is told to stop, and keeps what was wrong with one."""

    def __init__(self, path, folder):
        super().__init__(daemon=True)
        self.command = [path, f"{folder}/store", f"{folder}/logs"]
        self.done, self.wrong, self.ended = 0, [], threading.Event()

    def run(self):
        revision = 0
        while not self.ended.is_set():
            asked = "describe" if self.done % 2 == 0 else "splits"
            report = subprocess.run([*self.command, asked], stdin=subprocess.DEVNULL, capture_output=True, check=False)
            if report.returncode != 0 or report.stderr:
                self.wrong.append(f"{asked}: status {report.returncode}, {report.stdout[-200:]!r} {report.stderr[-200:]!r}")
            elif asked == "describe":
                now = int(report.stdout.split()[1])
                if now < revision:
                    self.wrong.append(f"revision {now} behind {revision}")
                revision = now
            self.done += 1


def ran(path, index, *options, killed_behind=None):
    """Starts `run`, and kills it behind so many seconds. Returns the lines of the ends, or None where it was killed."""
    command = [path, index.store, index.logs, "run", f"--indexers={PARTITIONS}", "--searchers=1", "--turns=1000000", *options]
    process = subprocess.Popen(command, stdin=subprocess.DEVNULL, stdout=subprocess.PIPE, stderr=subprocess.PIPE, text=True)
    timer = threading.Timer(killed_behind, process.kill) if killed_behind is not None else None
    if timer:
        timer.start()
    said, told = process.communicate()
    if timer:
        timer.cancel()
    if process.returncode < 0:
        return None
    lines = said.splitlines()
    allowed = ("caughtup", "nothing", "turns", "settled")
    if process.returncode != 0 or told or any(it.split()[-1] not in allowed for it in lines):
        raise SystemExit(f"it ends with status {process.returncode}: {lines} {told!r}")
    return lines


def all_ran(path, index):
    """Runs to the end, and again behind the graces until only published rows are left."""
    ends = ran(path, index, "--settle")
    wanted = [f"indexer {it} caughtup" for it in range(PARTITIONS)]
    if ends is None or ends[:PARTITIONS] != wanted or ends[-1] != "settled":
        raise SystemExit(f"the last run says: {ends}")
    for _ in range(6):
        time.sleep(9)
        ran(path, index)
        if all(it.state == "published" for it in index.splits()):
            break


def found(drive, asked):
    return drive.ask(poltyqen.request_text({"search": asked}))


def main():
    given = argparse.ArgumentParser(description=__doc__, formatter_class=argparse.RawDescriptionHelpFormatter)
    given.add_argument("program")
    given.add_argument("--kills", type=int, default=100)
    given.add_argument("--records", type=int, default=100_000)
    given.add_argument("--docs", type=int, default=700, help="how many documents a split has")
    given.add_argument("--reports", type=int, default=1)
    given.add_argument("--seed", type=int, default=7)
    given.add_argument("--run", action="store_true", help="kill the command run, where every actor has a thread of its own")
    asked = given.parse_args()
    chance, path = random.Random(asked.seed), os.path.abspath(asked.program)
    folder = tempfile.mkdtemp(prefix="poltyqen-killing-")
    os.makedirs(f"{folder}/store")
    os.makedirs(f"{folder}/logs")
    for part in range(PARTITIONS):
        with open(f"{folder}/logs/p{part}", "w", encoding="utf-8") as file:
            for number in range(part, asked.records, PARTITIONS):
                file.write(json.dumps({"number": number, "body": f"record {number % 97}"}) + "\n")
    index = poltyqen.Index(f"{folder}/store", f"{folder}/logs", path)
    index.create(CONFIG % asked.docs)
    reports = [Reports(path, folder) for _ in range(asked.reports)]
    for one in reports:
        one.start()
    killed, moment, collects = 0, AFTER_TODAY, collections.Counter()
    while asked.run and killed < asked.kills:
        # One that ends before it is killed has nothing left to do: then the records were too few.
        if ran(path, index, killed_behind=chance.uniform(0.01, 0.3)) is not None:
            raise SystemExit(f"all is indexed behind {killed} kills: give more records")
        killed += 1
    for _ in range(0 if asked.run else asked.kills):
        drive = poltyqen.Drive(path, index.store, index.logs)
        timer = threading.Timer(chance.uniform(0.01, 0.3), drive.process.kill)
        timer.start()
        moment = (indexed(drive, moment, collects) or moment) + 100
        timer.cancel()
        drive.kill()
        killed += 1
    begun = time.monotonic()
    if asked.run:
        all_ran(path, index)
    drive = poltyqen.Drive(path, index.store, index.logs)
    if not asked.run:
        moment = indexed(drive, moment, collects)
    if moment is None:
        raise SystemExit("the last run ended early")
    for one in reports:
        one.ended.set()
        one.join()
    wrong = [it for one in reports for it in one.wrong]
    if not asked.run:
        all_collected(drive, moment, collects)
    many = found(drive, {"query": "*", "max_hits": 0})["num_hits"]
    numbers = collections.Counter()
    for low in range(0, asked.records, 5_000):
        hits = found(drive, {"query": f"number:[{low} TO {low + 4_999}]", "max_hits": 10_000})["hits"]
        numbers.update(it["number"] for it in hits)
    drive.end()
    files = len(os.listdir(f"{folder}/store/splits"))
    rows = index.splits()
    unread = [it for it in rows if it.state != "published"] or [f"{files} files of {len(rows)} rows"] * (files != len(rows))
    entries = len(os.listdir(f"{folder}/store/meta"))
    print(
        f"{killed} kills, {asked.records} records, {sum(one.done for one in reports)} reports beside, {files} split files, "
        f"{entries} journal entries; the last run took {time.monotonic() - begun:.1f} s; the collector: {dict(collects)}"
    )
    beside = [it for kind in ("meta", "splits") for it in os.listdir(f"{folder}/store/{kind}") if not it.isdigit()]
    twice = sorted(it for it, count in numbers.items() if count > 1)
    lost = sorted(set(range(asked.records)) - set(numbers))
    foreign = sorted(set(numbers) - set(range(asked.records)))
    shutil.rmtree(folder)
    if many == asked.records and not (twice or lost or foreign or wrong or beside or unread):
        print("each record once")
        return 0
    print(f"found {many}; twice {twice[:10]}, lost {lost[:10]}, foreign {foreign[:10]}")
    print(f"reports that were wrong: {len(wrong)} {wrong[:5]}; left beside: {beside[:5]}; not collected: {unread[:5]}")
    return 1


if __name__ == "__main__":
    sys.exit(main())
