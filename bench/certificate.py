#!/usr/bin/env python3
"""Measures `check` of qc_cert over two dear certificates within the limits, beside
the plain walk of certificate_walk.rs over the same ones. Dearer ones, as texts, are
in bench/certified.py.

usage: bench/certificate.py [RUNS]

Makes a program of certificate_check.rt.in on a copy of the crates in a temporary
folder, proves and builds it with rt, compiles the walk with rustc -O, and runs
one after the other RUNS times, 7 unless it is given. Seconds are those of the
processor, as the system counts them for each run, less those of making the
list alone; and those times how many such lists a declaration of 4 MiB holds,
counted by the text of their triples. Ends with status 1 where `check` takes more
time than the walk, or more than 4.5 MB beside the list.
"""

import statistics
import subprocess
import sys
import tempfile

sys.dont_write_bytecode = True

import programs

USES = ("qc_table", "qc_cert")

LISTS = ("drawn", "wide")
MOST_TIMES = 1.0
MOST_KILOBYTES = 4608

# How many of each list fit in 4 MiB. A triple of N events is written in 4 N + 6
# bytes at least: all but a few have 4 events in the one list, and 13 in the other.
HELD = {"drawn": 4_194_304 / (65_536 * 22), "wide": 4_194_304 / (56_320 * 58 + 9_216 * 34)}


def build(folder):
    """The program of `check` and that of the walk."""
    check = programs.build(folder, "walk", "certificate_check.rt.in", USES)
    return check, programs.plain(folder, "certificate_walk.rs")


def run(words):
    """The processor's seconds and the peak memory in KB of one run."""
    done = subprocess.run(["/usr/bin/time", "-f", "%U %S %M", *words], capture_output=True, text=True)
    if done.returncode != 0 or "false" in done.stdout:
        sys.exit("status %d of %s: %s" % (done.returncode, " ".join(words), done.stdout + done.stderr))
    user, system, kilobytes = done.stderr.split()
    return float(user) + float(system), int(kilobytes)


def main():
    runs = int(sys.argv[1]) if len(sys.argv) > 1 else 7
    with tempfile.TemporaryDirectory() as folder:
        check, walk = build(folder)
        cases = {}
        for name in LISTS:
            cases[name, "list"] = [check, "list", name]
            cases[name, "check"] = [check, name]
            cases[name, "walk"] = [walk, name]
        seen = {case: [] for case in cases}
        for _ in range(runs):
            for case, words in cases.items():
                seen[case].append(run(words))
    found = {case: tuple(statistics.median(part) for part in zip(*seen[case])) for case in seen}
    good = True
    for name in LISTS:
        seconds = found[name, "check"][0] - found[name, "list"][0]
        plain = found[name, "walk"][0]
        beside = found[name, "check"][1] - found[name, "list"][1]
        good = good and seconds <= MOST_TIMES * plain and beside <= MOST_KILOBYTES
        print("%-6s check %.2f s, walk %.2f s, their ratio %.2f, at most %.1f" %
              (name, seconds, plain, seconds / plain, MOST_TIMES))
        print("       beside the list %d KB, at most %d; a declaration of 4 MiB %.2f s" %
              (beside, MOST_KILOBYTES, seconds * HELD[name]))
    sys.exit(0 if good else 1)


if __name__ == "__main__":
    main()
