#!/usr/bin/env python3
"""Measures the built program by 1, 2, 4 and 8 workers.

usage: bench/workers.py [PROGRAM] [ROUNDS]

PROGRAM is crates/quorum/out/quorum unless it is given. Runs each case once a round, ROUNDS rounds, 15 unless it is given, so
that a slow moment falls on all. Times are those of the clock and of the processor, medians, of whole calls. Cases:

- load: 500 transactions over @three that write, read and commit, one a phase, of three clients in turn: one client acts in
  each phase, so workers have at most its three sites to share;
- at once: three clients in one phase over five sites, each with an object of its own that it reads and writes, 300
  transactions in all.

Ends with status 1 where a bar isn't met.
"""

import os
import statistics
import subprocess
import sys
import tempfile
import time

sys.dont_write_bytecode = True

from runs import load, registers

ROOT = os.path.dirname(os.path.dirname(os.path.abspath(__file__)))
WORKERS = (1, 2, 4, 8)


def at_once():
    """Transactions of three clients in one phase, of each on an object of its own."""
    yield "phase"
    for number in range(100):
        for client, name in enumerate("xyz"):
            yield from ("c%d %s" % (client, words)
                        for words in ("begin", "do %s W%d" % (name, number % 2), "do %s R" % name, "commit"))


def seconds(words):
    """The seconds of a call by the clock and of the processor. A call that fails ends all."""
    began = time.perf_counter()
    child = subprocess.Popen(words, stdout=subprocess.DEVNULL)
    _, status, used = os.wait4(child.pid, 0)
    if status:
        sys.exit("%s ended with status %d" % (" ".join(words), status))
    return time.perf_counter() - began, used.ru_utime + used.ru_stime


def main():
    program = os.path.abspath(sys.argv[1] if len(sys.argv) > 1 else os.path.join(ROOT, "crates/quorum/out/quorum"))
    rounds = int(sys.argv[2]) if len(sys.argv) > 2 else 15
    with tempfile.TemporaryDirectory() as folder:
        files = {"load": "\n".join(load(500)) + "\n", "at once": "\n".join(at_once()) + "\n", "five": registers(5, "xyz")}
        for name, text in files.items():
            with open(os.path.join(folder, name), "w") as file:
                file.write(text)
        declarations = {"load": "@three", "at once": os.path.join(folder, "five")}
        calls = {(case, count): [program, "run", declaration, os.path.join(folder, case), "--workers", str(count)]
                 for case, declaration in declarations.items() for count in WORKERS}
        seen = {key: [] for key in calls}
        for _ in range(rounds):
            for key, words in calls.items():
                seen[key].append(seconds(words))
    clock = {key: statistics.median(it[0] for it in measured) for key, measured in seen.items()}
    used = {key: statistics.median(it[1] for it in measured) for key, measured in seen.items()}
    for (case, count) in calls:
        key = case, count
        print("%-8s %d workers %8.1f ms by the clock %8.1f ms of the processor" % (case, count, 1e3 * clock[key], 1e3 * used[key]))
    figure = clock["load", 4] / clock["load", 1]
    print("load, four workers / one %8.2f of at most 1.5" % figure)
    sys.exit(0 if figure <= 1.5 else 1)


if __name__ == "__main__":
    main()
