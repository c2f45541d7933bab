#!/usr/bin/env python3
"""Measures the rules of links: how long it takes to add 55,000 rules, each for a
message of its own, and to ask for the fates of 100,000 messages, of which 45,000
have no rule.

usage: bench/link.py [RUNS]

Makes a program of link_fates.rt.in, and runs it RUNS times, 7 unless it is given,
in turn with `python3 -c pass`, for scale. The program takes its two times itself,
by the clock. Each fourth rule drops its message, so 13,750 are lost. Ends with
status 1 where the medians of both times come to 0.3 s or more.
"""

import statistics
import subprocess
import sys
import tempfile
import time

sys.dont_write_bytecode = True

import programs

NOTHING = "python3 -c pass"
LOST = 13_750
MOST_SECONDS = 0.3


def fates(program):
    """The seconds of adding the rules and of asking for the fates."""
    told = subprocess.run([program], check=True, capture_output=True, text=True).stdout
    lost, added, asked = (int(word) for word in told.split())
    if lost != LOST:
        sys.exit("%d messages are lost, and not %d" % (lost, LOST))
    return added / 1e6, asked / 1e6


def nothing():
    """The seconds of a run of Python that does nothing."""
    start = time.perf_counter()
    subprocess.run([sys.executable, "-c", "pass"], check=True)
    return time.perf_counter() - start


def main():
    runs = int(sys.argv[1]) if len(sys.argv) > 1 else 7
    with tempfile.TemporaryDirectory() as folder:
        program = programs.build(folder, "fates", "link_fates.rt.in", ("qc_link",))
        seen = [(nothing(), *fates(program)) for _ in range(runs)]
    idle, added, asked = (statistics.median(part) for part in zip(*seen))
    for name, seconds in ((NOTHING, idle), ("55000 rules", added), ("100000 fates", asked)):
        print("%-15s %9.4f s" % (name, seconds))
    print("both %.3f s, to be below %s s; both / %s %.2f" % (added + asked, MOST_SECONDS, NOTHING, (added + asked) / idle))
    sys.exit(0 if added + asked < MOST_SECONDS else 1)


if __name__ == "__main__":
    main()
