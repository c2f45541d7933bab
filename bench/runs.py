#!/usr/bin/env python3
"""Measures runs of three sites and three clients by one worker of qc_node.

usage: bench/runs.py [RUNS]

Makes a program of script_run.rt.in, and one of load_walk.rs with `rustc -O`, a plain program that does the same
transactions without links, refusals and proofs. Runs each case once a round, RUNS rounds, 7 unless it is given, so that a
slow moment falls on all. Seconds are those of the processor, of a whole call; a peak of memory below this script's own,
some 15 MB, isn't seen. Cases:

- load: transactions that write, read and commit, one a phase, of three clients in turn, 250 and 500; and the walk of 500;
- reads: transactions of 16 reads that are given up, of one client, where no log grows; 25,000 messages, 50,000, 100,000;
  the last also behind 35,000 rules of links, each for a message of its own, none of them sent; and until the limit of steps.

Ends with status 1 where a bar isn't met.
"""

import os
import resource
import statistics
import sys
import tempfile

sys.dont_write_bytecode = True

import programs

USES = ("qc_decl", "qc_msg", "qc_node", "qc_outside", "qc_script")
RULES = 35_000
MESSAGES_OF_A_READ = 4


def load(count, seed=7):
    """So many transactions, each in a phase of its own."""
    state = seed
    for number in range(count):
        state = (75 * state + 74) % 65537
        client = "c%d" % (number % 3)
        yield "phase"
        yield from ("%s %s" % (client, words) for words in ("begin", "do x W%d" % (state % 2), "do x R", "commit"))


def reads(messages, of_a_read=MESSAGES_OF_A_READ):
    """Transactions of 16 reads, each of so many messages, until at least so many messages are sent."""
    yield "phase"
    for _ in range(-(-messages // (16 * of_a_read + 2))):
        yield "c0 begin"
        yield from ["c0 do x R"] * 16
        yield "c0 abort"


def registers(sites, names):
    """A declaration of registers of these names, which any majority of so many sites answers, and of three clients."""
    most = sites // 2 + 1
    lines = ["sites = %d" % sites, "clients = 3", "[[type]]", 'name = "register"', 'states = ["0", "1"]', 'start = "0"',
             'invocations = ["W0", "W1", "R"]', 'responses = ["ok", "0", "1"]',
             'rows = ["0 W0 ok 0", "0 W1 ok 1", "0 R 0 0", "1 W0 ok 0", "1 W1 ok 1", "1 R 1 1"]',
             'depends = ["R W0:ok", "R W1:ok"]', 'triples = ["0 0 -", "0 1 W1:ok", "1 1 -", "1 0 W0:ok"]']
    for name in names:
        lines += ["[[object]]", 'name = "%s"' % name, 'type = "register"']
    lines += ["[[epoch]]", "weights = %s" % ([1] * sites),
              "initial = [%s]" % ", ".join('"%s R %d"' % (name, most) for name in names),
              "final = [%s]" % ", ".join('"%s %s:ok %d"' % (name, write, most) for name in names for write in ("W0", "W1"))]
    return "\n".join(lines) + "\n"


def rules(count):
    """Rules of links, each for a message of its own between two clients, who send each other nothing."""
    return ("link c1 c2 %d drop" % ordinal for ordinal in range(1, count + 1))


CASES = {
    "load 250": lambda: load(250),
    "load 500": lambda: load(500),
    "25,000 messages": lambda: reads(25_000),
    "50,000 messages": lambda: reads(50_000),
    "100,000 messages": lambda: reads(100_000),
    "100,000, rules": lambda: (*rules(RULES), *reads(100_000)),
    "step limit": lambda: reads(110_000),
}
ENDS = {"step limit": "full"}


def main():
    rounds = int(sys.argv[1]) if len(sys.argv) > 1 else 7
    resource.setrlimit(resource.RLIMIT_CORE, (0, 0))
    with tempfile.TemporaryDirectory() as folder:
        program = programs.build(folder, "script_run", "script_run.rt.in", USES)
        calls = {"walk 500": [programs.plain(folder, "load_walk.rs"), "500", "7"]}
        for name, lines in CASES.items():
            path = os.path.join(folder, name.replace(" ", "_"))
            with open(path, "w") as file:
                file.write("\n".join(lines()) + "\n")
            calls[name] = [program, path]
        seen = programs.in_turn(calls, rounds)
    time, memory = {}, {}
    for name, measured in seen.items():
        time[name] = statistics.median(seconds for seconds, _, _ in measured)
        memory[name] = max(megabytes for _, megabytes, _ in measured)
        told = measured[0][2].split()
        if name in CASES and told[:1] != [ENDS.get(name, "quiet")]:
            sys.exit("%s: %s" % (name, told))
        print("%-18s %8.1f ms %7.1f MB   %s" % (name, 1e3 * time[name], memory[name], " ".join(told)))
    bars = (
        ("load 500 / walk 500", time["load 500"] / time["walk 500"], 1.5),
        ("100,000 messages, rules less none, s", time["100,000, rules"] - time["100,000 messages"], 1),
        ("step limit, s", time["step limit"], 2),
        ("step limit, MB", memory["step limit"], 512),
        ("50,000 messages / 25,000", time["50,000 messages"] / time["25,000 messages"], 2.3),
        ("100,000 messages / 50,000", time["100,000 messages"] / time["50,000 messages"], 2.3),
    )
    for name, figure, bar in bars:
        print("%-38s %8.2f of at most %s" % (name, figure, bar))
    sys.exit(0 if all(figure <= bar for _, figure, bar in bars) else 1)


if __name__ == "__main__":
    main()
