#!/usr/bin/env python3
"""Shows where a proof spent its time: by kind of module, and by function.

    bench/proof_times.py FOLDER [--top N] [--since FILE]

FOLDER is what a check with one job left of its work (`rt check --jobs 1` leaves it in crates/NAME/out/incremental; remove that
folder first, so that all is proved). Each module's file is written when the module is proved, so the time between two files is
what the later one took. With --since only files at least as new as FILE count: touch a file, check again after a change, and see what the
change costs. Kinds: Lts, Tie, Layout, Reads and Mir come of a function's code, Proof of the search for its goals, Answers of
what was written by hand. A function whose seconds are large beside its kilobytes searches long; one whose Lts is large has many
ways out with wide values still owned (docs/CHANGING.md).
"""
import argparse
import collections
import os
import re

OF_A_FUNCTION = "Lts|Proof|Code|Met|Statement|Goals|Tie|Layout|Reads|Named|Kinds|Given|TheLink|Key|Answers|Invariants"


def place(name):
    """The kind of a module's file, and the function or module that it is of."""
    found = re.match(r"Rattle-\w+?(-specs|-proofs)?\.(.*?)(\.decls)?\.oantt$", name)
    if not found:
        return "other", name[:40]
    parts = found[2].split(".")
    for at, part in enumerate(parts[1:], 1):
        kind = re.match(rf"({OF_A_FUNCTION})(-|$)", part)
        if kind:
            return re.sub(r"-.*", "", parts[-1]) if part == kind[1] else kind[1], ".".join(parts[:at])
    return "lemmas and types", found[2]


def main():
    words = argparse.ArgumentParser(description=__doc__, formatter_class=argparse.RawDescriptionHelpFormatter)
    words.add_argument("folder")
    words.add_argument("--top", type=int, default=30)
    words.add_argument("--since")
    asked = words.parse_args()
    since = os.stat(asked.since).st_mtime_ns if asked.since else 0
    files = []
    for at, _, names in os.walk(asked.folder):
        for name in names:
            found = os.lstat(f"{at}/{name}")
            if found.st_mtime_ns >= since:
                files.append((found.st_mtime_ns, found.st_size, name))
    files.sort()
    kinds, functions, sizes = collections.Counter(), collections.Counter(), collections.Counter()
    for (before, _, _), (now, size, name) in zip(files, files[1:]):
        kind, function = place(name)
        kinds[kind] += now - before
        functions[function] += now - before
        sizes[function] += size
    print(f"{sum(kinds.values()) / 1e9:9.2f} s in {len(files)} files")
    for kind, spent in kinds.most_common(12):
        print(f"{spent / 1e9:9.2f} s  {kind}")
    print()
    for function, spent in functions.most_common(asked.top):
        print(f"{spent / 1e9:9.2f} s {sizes[function] // 1024:8d} KB  {function}")


if __name__ == "__main__":
    main()
