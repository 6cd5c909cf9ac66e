#!/usr/bin/env python3
"""Runs the gate, and tells where its time went: for each crate the processor minutes of its proof, of its tests and of its edits, and
the greatest memory of one process. Run it by hand at the top of the repository; docs/gate.md keeps what it told.

    gate.py             rt ci
    gate.py NAME..      rt ci NAME..

It looks at the processes once a second, so what ends sooner is missed: of each crate a few seconds. What rt ci says goes to
standard error as it comes, the table to standard output, also where the run is ended before its end (SIGINT or SIGTERM).
"""

import collections
import os
import signal
import subprocess
import sys
import time

TICKS = os.sysconf("SC_CLK_TCK")


def descendants(root):
    """Returns the processes below one, by number."""
    parents = {}
    for entry in os.listdir("/proc"):
        if entry.isdigit():
            try:
                with open(f"/proc/{entry}/stat", encoding="utf-8") as it:
                    parents[int(entry)] = int(it.read().rpartition(")")[2].split()[1])
            except (OSError, IndexError):
                pass
    below = {root}
    while True:
        more = {pid for pid, parent in parents.items() if parent in below} - below
        if not more:
            return below
        below |= more


def seen(pid):
    """Returns the crate and the kind of a check, its seconds and its memory in megabytes, or None of any other process."""
    try:
        with open(f"/proc/{pid}/cmdline", encoding="utf-8", errors="replace") as it:
            words = it.read().split("\0")
        with open(f"/proc/{pid}/stat", encoding="utf-8") as it:
            stat = it.read().rpartition(")")[2].split()
        room = os.readlink(f"/proc/{pid}/cwd")
    except OSError:
        return None
    if "--crate-name" not in words or not words[0].endswith("rattle"):
        return None
    crate = words[words.index("--crate-name") + 1]
    kind = "edits" if "rt-edit" in room else "tests" if "--test" in words else "proof"
    return crate.removesuffix("_tests"), kind, (int(stat[11]) + int(stat[12])) / TICKS, int(stat[21]) * 4096 / 1e6


def print_table(last, begun):
    """Prints the minutes and the memory of each crate, by what was last seen of each process."""
    minutes = collections.defaultdict(lambda: collections.defaultdict(float))
    memory = collections.defaultdict(float)
    for (_, crate, kind), (seconds, megabytes) in last.items():
        minutes[crate][kind] += seconds / 60
        memory[crate] = max(memory[crate], megabytes)
    print("| Crate | Proof | Tests | Edits | Greatest process |\n|---|---|---|---|---|")
    total = collections.Counter()
    for crate, kinds in sorted(minutes.items(), key=lambda it: -sum(it[1].values())):
        total.update(kinds)
        cells = " | ".join(f"{kinds[kind]:.1f}" for kind in ("proof", "tests", "edits"))
        print(f"| `{crate}` | {cells} | {memory[crate]:.0f} MB |")
    cells = " | ".join(f"{total[kind]:.1f}" for kind in ("proof", "tests", "edits"))
    print(f"| all | {cells} | |\n\n{(time.time() - begun) / 60:.0f} minutes by the clock on {os.cpu_count()} processors")


def main():
    begun = time.time()
    last = {}
    signal.signal(signal.SIGTERM, lambda *_: sys.exit(1))
    with subprocess.Popen(["rt", "ci", *sys.argv[1:]], stdout=sys.stderr, stderr=subprocess.STDOUT) as gate:
        try:
            while gate.poll() is None:
                for pid in descendants(gate.pid):
                    if found := seen(pid):
                        last[pid, found[0], found[1]] = found[2:]
                time.sleep(1)
        finally:
            gate.terminate()
            print_table(last, begun)
    return gate.returncode


sys.exit(main())
