#!/usr/bin/env python3
"""Measures takes and posts on the history of many threads (qc_fabric), under a conduct that allows any turn.

usage: bench/fabric.py [ROUNDS] [TURNS]

Makes a program of fabric_turns.rt.in. Runs each case once a round, ROUNDS rounds, 5 unless it is given, so that a slow moment
falls on all. Times are those of the clock, for the turns alone, in nanoseconds a turn: the time of all threads together, over
the turns of all. A turn is a take, a reserve and a post. TURNS of them a thread, 25,000 unless it is given; twice as
many would meet the limit of steps. Cases:

- still: one thread on the state itself, with no lock, where each message has so many lines, and a tenth or a hundredth of
  the turns: what the copy of a message costs that `take` makes;
- own: each thread serves an actor of its own, so that threads meet at the lock alone;
- pick: threads pick whoever comes next, and all that is ready is there from the beginning;
- chain: one message goes round, so that at each time one thread has something to do and the others wait to be woken.

Ends with status 1 where a history hasn't as many steps as its turns make.
"""

import resource
import statistics
import subprocess
import sys
import tempfile

sys.dont_write_bytecode = True

import programs

USES = ("qc_list", "qc_stamp", "qc_entry", "qc_msg", "qc_decl", "qc_script", "qc_pass", "qc_fabric", "tests_fabric")
PROOFS = (("run", "fabric_run.antt.in"),)
ACTORS = 4


def cases(turns):
    """Each case: its kind, its threads, the turns of each, and the lines of a message."""
    yield "still", 1, turns, 0
    for lines, part in ((10, 10), (100, 10), (1000, 100)):
        yield "still", 1, turns // part, lines
    for kind in ("own", "pick", "chain"):
        for threads in (1, 2, 4):
            yield kind, threads, turns, 0


def steps_of(kind, threads, turns):
    """The steps of a case's history. The phase; a command and a reply for each time that the client sends to all actors which
    are served; and two for each message. In `chain` each turn sends one more."""
    served = {"still": 1, "own": threads, "pick": ACTORS, "chain": 1}[kind]
    commands = {"still": turns, "own": turns, "pick": threads * turns // ACTORS, "chain": 1}[kind]
    messages = commands * served
    if kind == "chain":
        messages += threads * turns
    return 1 + 2 * commands + 2 * messages


def main():
    rounds = int(sys.argv[1]) if len(sys.argv) > 1 else 5
    turns = int(sys.argv[2]) if len(sys.argv) > 2 else 25_000
    resource.setrlimit(resource.RLIMIT_CORE, (0, 0))
    seen = {case: [] for case in cases(turns)}
    with tempfile.TemporaryDirectory() as folder:
        program = programs.build(folder, "fabric_turns", "fabric_turns.rt.in", USES, PROOFS)
        for _ in range(rounds):
            for case, times in seen.items():
                kind, threads, each, lines = case
                words = [program, kind, str(threads), str(each), str(lines)]
                took, steps = subprocess.run(words, stdout=subprocess.PIPE, text=True, check=True).stdout.split()
                if int(steps) != steps_of(kind, threads, each):
                    sys.exit("%s: %s steps" % (" ".join(words[1:]), steps))
                times.append(1000 * int(took) / (threads * each))
    for (kind, threads, each, lines), times in seen.items():
        spread = "%.0f to %.0f" % (min(times), max(times))
        print("%-6s %d threads %6d turns each %5d lines %9.0f ns a turn (%s)"
              % (kind, threads, each, lines, statistics.median(times), spread))


if __name__ == "__main__":
    main()
