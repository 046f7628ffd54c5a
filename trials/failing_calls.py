#!/usr/bin/env python3
"""Lets each system call of a life of the index fail once, and looks for every record behind it. It needs strace.

    trials/failing_calls.py PROGRAM [--kill] [--jobs N] [--most N]

A life is five runs of the program over new folders: `create`, a `drive` that leaves a split file behind, whose row is only
staged, and indexes six records into three splits, a second `drive` that indexes four records that came to the log since and
lets the collector take what was left, `splits`, and a search of `*`. It is played once with nothing failing, to count how often
each run makes each call that has to do with files. Then, for each run, each such call and each of its times, the life is played
anew with just this call answered EIO and not done (with --kill: the process killed as it makes the call), and behind it a life
without a failure goes on over the same folders to its end.

What has to hold of each: the record numbers that the last search finds are those of the log, each once; a run that was not
right named a fault (a line with storefault, sourcefault or error, a reply with StoreFault, or a status that is not 0); no
file beside the keys is left, and no split file but those of the five splits. It prints a line for each kind of call, and ends with 0 where all held.
"""
import argparse
import collections
import concurrent.futures
import json
import os
import re
import shutil
import subprocess
import sys
import tempfile

CALLS = ["openat", "read", "pread64", "write", "fsync", "link", "linkat", "unlink", "unlinkat", "mkdir", "mkdirat", "statx", "getdents64", "lseek", "flock"]

CONFIG = b"""index_id = "failing"

[doc_mapping]
mode = "strict"

[[doc_mapping.field_mappings]]
name = "number"
type = "u64"
fast = true

[[doc_mapping.field_mappings]]
name = "body"
type = "text"

[search_settings]
default_search_fields = ["body"]

[indexing_settings]
split_num_docs_target = 2
"""

FIRST, LATER = 6, 10
STEPS = b"indexer 0\n" * 24
LEAVES = b"at 4000000000\n" + b"indexer 0\n" * 4 + b"restart indexer 0\n"
COLLECTS = b"at 4000010000\n" + b"collector\n" * 12 + b"at 4000020000\n" + b"collector\n" * 12
SEARCH = b'client a {"search":{"query":"*","max_hits":100}}\n' + b"client a\n" * 20


def record(number):
    return json.dumps({"number": number, "body": f"record {number}"}) + "\n"


class Life:
    """Folders, and the runs of the program over them."""

    def __init__(self, program):
        self.program = program
        self.folder = tempfile.mkdtemp(prefix="poltyqen-failing-")
        self.store, self.logs = f"{self.folder}/store", f"{self.folder}/logs"
        os.mkdir(self.store)
        os.mkdir(self.logs)
        self.write(0, FIRST)

    def write(self, low, high):
        with open(f"{self.logs}/p0", "a", encoding="utf-8") as file:
            file.write("".join(record(number) for number in range(low, high)))

    def runs(self):
        """Each run's name, its command and its input. The log grows as the second drive is asked for."""
        yield "create", ["create"], CONFIG
        yield "drive", ["drive"], LEAVES + STEPS
        self.write(FIRST, LATER)
        yield "second drive", ["drive"], STEPS + COLLECTS
        yield "splits", ["splits"], b""
        yield "search", ["drive"], SEARCH

    def run(self, command, given, before=()):
        words = [*before, self.program, self.store, self.logs, *command]
        return subprocess.run(words, input=given, capture_output=True, check=False, timeout=60)

    def end(self):
        shutil.rmtree(self.folder)


def numbers_in(said):
    """The numbers of the hits of the last reply, or None where there is no reply with hits."""
    replies = [line for line in said.decode().split("\n") if line.startswith("{") and '"hits"' in line]
    return [hit["number"] for hit in json.loads(replies[-1])["hits"]] if replies else None


def names_a_fault(run):
    said = run.stdout.decode(errors="replace")
    return run.returncode != 0 or bool(re.search(r"storefault|sourcefault|^error |\"kind\":\"StoreFault\"", said, re.MULTILINE))


def counted(program):
    """How often each run of a life makes each call, with nothing failing."""
    life, counts = Life(program), {}
    for name, command, given in life.runs():
        log = f"{life.folder}/calls"
        life.run(command, given, ["strace", "-f", "-qq", "-o", log, "-e", "trace=" + ",".join(f"?{it}" for it in CALLS)])
        with open(log, encoding="utf-8", errors="replace") as file:
            made = collections.Counter(found.group(1) for line in file if (found := re.match(r"\d+\s+(\w+)\(", line)))
        counts[name] = made
    life.end()
    return counts


def played(program, failing, call, time, kill):
    """A life in which one call of one run fails, and what was wrong with it, if anything."""
    life, wrong = Life(program), None
    what = "signal=SIGKILL" if kill else "error=EIO"
    for name, command, given in life.runs():
        before = ["strace", "-f", "-qq", "-o", "/dev/null", "-e", f"trace=?{call}", "-e", f"inject=?{call}:{what}:when={time}"] if name == failing else []
        run = life.run(command, given, before)
        if name == failing and name == "search" and not kill and not names_a_fault(run) and sorted(numbers_in(run.stdout) or []) != list(range(LATER)):
            wrong = f"the search found {numbers_in(run.stdout)} and named no fault"
        if name == failing and name == "splits" and not kill and not names_a_fault(run) and run.stdout.count(b"published") != 5:
            wrong = f"splits named no fault and wrote {run.stdout!r}"
    # A life without a failure over the same folders.
    made = life.run(["create"], CONFIG)
    if made.returncode not in (0, 9):
        wrong = f"the life behind could not create: {made.stdout!r}"
    for _ in range(3):
        life.run(["drive"], STEPS)
    life.run(["drive"], COLLECTS.replace(b"at 40000", b"at 40001"))
    behind = life.run(["drive"], SEARCH)
    numbers = numbers_in(behind.stdout)
    if numbers is None or sorted(numbers) != list(range(LATER)):
        wrong = f"behind it {numbers} were found: {behind.stdout[-300:]!r}"
    left = [it for _, _, names in os.walk(life.store) for it in names if it.endswith(".half")]
    if left:
        wrong = f"left beside: {left}"
    files = os.listdir(f"{life.store}/splits")
    if len(files) != 5:
        wrong = f"these split files are left: {files}"
    life.end()
    return failing, call, time, wrong


def main():
    given = argparse.ArgumentParser(description=__doc__, formatter_class=argparse.RawDescriptionHelpFormatter)
    given.add_argument("program")
    given.add_argument("--kill", action="store_true")
    given.add_argument("--jobs", type=int, default=os.cpu_count())
    given.add_argument("--most", type=int, default=10_000, help="how many times of one call of one run at the most")
    asked = given.parse_args()
    if not shutil.which("strace"):
        print("not tried: strace is not installed")
        return 0
    program = os.path.abspath(asked.program)
    plans = [(run, call, time) for run, made in counted(program).items() for call, many in sorted(made.items()) for time in range(1, min(many, asked.most) + 1)]
    tried, bad = collections.Counter(), []
    with concurrent.futures.ThreadPoolExecutor(asked.jobs) as pool:
        for run, call, time, wrong in pool.map(lambda plan: played(program, *plan, asked.kill), plans):
            tried[call] += 1
            if wrong:
                bad.append(f"FAILS: {call} number {time} of `{run}`: {wrong}")
    for call, many in sorted(tried.items()):
        print(f"{call}: {many} times")
    print("\n".join(bad[:20]))
    print(f"{len(plans)} calls {'were killed at' if asked.kill else 'failed'} one at a time; {len(bad)} lives were wrong")
    return 1 if bad else 0


if __name__ == "__main__":
    sys.exit(main())
