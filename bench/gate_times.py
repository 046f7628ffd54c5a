#!/usr/bin/env python3
"""Runs a gate and prints the processor time that each crate took, as a table.

    bench/gate_times.py [--every SECONDS] COMMAND ..        (for instance: bench/gate_times.py rt ci --anew)

Every process that the command starts is read from /proc twice a second, and what it used last is counted for the crate that its
words or its folder name: as wrong bodies where it checks a copy of the crate's files that an edit changed, or the proof that these
tries begin with; as the proof otherwise (of a library with its build, of a program with its builds, of tests with theirs). What a
process used in its last half second is lost, some tenths of a second of each. The command's own output goes to standard error.
"""
import argparse
import collections
import os
import re
import subprocess
import sys
import time

TICKS = os.sysconf("SC_CLK_TCK")


def read(path):
    try:
        with open(path, errors="replace") as it:
            return it.read()
    except OSError:
        return ""


def processes():
    """Each process by its number: its parent, when it started, and the seconds that it used."""
    found = {}
    for pid in filter(str.isdigit, os.listdir("/proc")):
        said = read(f"/proc/{pid}/stat")
        words = said[said.rfind(")") + 2 :].split()
        if len(words) > 19:
            found[int(pid)] = int(words[1]), words[19], (int(words[11]) + int(words[12])) / TICKS
    return found


def is_below(pid, top, found):
    while pid in found and pid != top:
        pid = found[pid][0]
    return pid == top


def place_of(pid):
    """The crate and the column that a process counts for."""
    words = read(f"/proc/{pid}/cmdline").replace("\0", " ")
    try:
        folder = os.readlink(f"/proc/{pid}/cwd")
    except OSError:
        folder = ""
    crate = re.search(r"--crate-name (\S+)", words) or re.search(r"/crates/(\w+)$", folder)
    if not crate:
        return None
    is_try = "--incremental" in words or "/rt-edit-" in folder
    return crate[1], "wrong bodies" if is_try else "proof"


def sampled(words, every):
    """The seconds of each crate, by column, and those of all else that the command did; and its exit status."""
    started = subprocess.Popen(words, stdout=sys.stderr)
    places, used = {}, {}
    while started.poll() is None:
        found = processes()
        for pid, (_, start, seconds) in found.items():
            if is_below(pid, started.pid, found):
                places[pid, start] = places.get((pid, start)) or place_of(pid)
                used[pid, start] = seconds
        time.sleep(every)
    times = collections.defaultdict(float)
    for key, seconds in used.items():
        times[places[key]] += seconds
    return times, started.returncode


def main():
    asked = argparse.ArgumentParser(description=__doc__, formatter_class=argparse.RawDescriptionHelpFormatter)
    asked.add_argument("--every", type=float, default=0.5)
    asked.add_argument("command", nargs=argparse.REMAINDER)
    given = asked.parse_args()
    times, status = sampled(given.command, given.every)
    print("| Crate | Proof | Wrong bodies |\n|---|---|---|")
    for crate in sorted({it[0] for it in times if it}):
        proof, tries = times[crate, "proof"], times[crate, "wrong bodies"]
        print(f"| {crate} | {proof:.0f} | {f'{tries:.0f}' if tries else ''} |")
    sums = {column: sum(it for place, it in times.items() if place and place[1] == column) for column in ("proof", "wrong bodies")}
    print(f"\nProcessor minutes: proofs {sums['proof'] / 60:.0f}, wrong bodies {sums['wrong bodies'] / 60:.0f}, all else {times[None] / 60:.0f}")
    sys.exit(status)


if __name__ == "__main__":
    main()
