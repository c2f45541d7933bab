#!/usr/bin/env python3
"""Measures a journal on a disk in memory: adding records of 100 bytes, and opening.

usage: bench/journal.py [RUNS]

Makes a program of journal_appends.rt.in, and one of journal_walk.rs with `rustc -O`: a plain program that makes the
same calls of a disk of two lists of bytes, what a read gives and what a stop would leave. Runs each case once a
round, RUNS rounds, 25 unless it is given, so that a slow moment falls on all. Seconds are those of the processor, the
least of all rounds, since each case takes but milliseconds. Cases:

- appends: so many records in a new journal; what a call without records takes is taken off;
- opening: the same, and the journal is then opened ten times; what the appends take is taken off.

Ends with status 1 where a bar isn't met.
"""

import sys
import tempfile

sys.dont_write_bytecode = True

import programs

RECORDS = (5_000, 10_000, 20_000)
OPENINGS = 10


def call(words, told):
    """The processor seconds of a call, which has to tell this."""
    took, _, found = programs.call(words)
    if found.split() != [str(told)]:
        sys.exit("%s told %r" % (" ".join(words), found))
    return took


def least(paths, rounds):
    """The least seconds of each program with so many records and openings."""
    cases = [(who, records, openings) for records in (0, *RECORDS) for openings in (0, OPENINGS) for who in paths]
    seen = {case: [] for case in cases}
    for _ in range(rounds):
        for who, records, openings in cases:
            words = [paths[who], str(records), str(openings)]
            seen[who, records, openings].append(call(words, records * openings))
    return {case: min(seconds) for case, seconds in seen.items()}


def main():
    rounds = int(sys.argv[1]) if len(sys.argv) > 1 else 25
    with tempfile.TemporaryDirectory() as folder:
        walk = programs.plain(folder, "journal_walk.rs")
        program = programs.build(folder, "journal_appends", "journal_appends.rt.in", ("qc_outside", "qc_journal"))
        seconds = least({"journal": program, "walk": walk}, rounds)
    whole, appends, opening = {}, {}, {}
    for who in ("journal", "walk"):
        for records in RECORDS:
            whole[who, records] = seconds[who, records, 0]
            appends[who, records] = seconds[who, records, 0] - seconds[who, 0, 0]
            opening[who, records] = (seconds[who, records, OPENINGS] - seconds[who, records, 0]) / OPENINGS
            print("%-8s %6d appends %7.2f ms, the whole call %7.2f ms, opening %7.3f ms" % (
                who, records, *(1e3 * part[who, records] for part in (appends, whole, opening))))
    bars = (
        ("10,000 appends / walk", appends["journal", 10_000] / appends["walk", 10_000], 2),
        ("opening of 10,000 / walk", opening["journal", 10_000] / opening["walk", 10_000], 2),
        ("20,000 appends / 10,000", appends["journal", 20_000] / appends["journal", 10_000], 2.5),
        ("opening of 10,000 / of 5,000", opening["journal", 10_000] / opening["journal", 5_000], 2.5),
        ("opening of 20,000 / of 10,000", opening["journal", 20_000] / opening["journal", 10_000], 2.5),
    )
    for name, figure, bar in bars:
        print("%-32s %8.2f of at most %s" % (name, figure, bar))
    sys.exit(0 if all(figure <= bar for _, figure, bar in bars) else 1)


if __name__ == "__main__":
    main()
