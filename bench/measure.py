#!/usr/bin/env python3
"""Measures the built program: processor time and peak memory, medians over several runs.

usage: bench/measure.py [PROGRAM] [RUNS]

PROGRAM is crates/quorum/out/quorum unless it is given, and RUNS is 7. Each round runs every case once, so that a slow
moment of the machine falls on all of them. Seconds are those of the processor, of whole calls. The least peak that can be
seen is this program's own, some 17 MB. Cases:

- begins: one phase of N commands `c0 begin` over @one, of which all but the first are refused;
- load: transactions that write, read and commit over @three, one a phase, of three clients in turn; beside them
  load_walk.rs, compiled with `rustc -O`: a plain program for the same transactions without links, refusals and proofs;
- change: a load of 500, then a client's read that is given up and another one; and the same with the quorums changed between
  the load and the reads (the declaration of examples/quorums_change);
- messages: transactions of 16 reads over @three that are given up, of one client, where no log grows: so many messages; and
  until the limit of steps;
- sixteen sites: the same over sixteen sites, of which each read asks nine, 100,000 messages; alone, and behind 55,000 rules of
  links for messages to a client that nobody sends one;
- lost decisions: transactions of one read over one site that are given up, of one client, where each decision is lost, so that
  each read lock stays; 8,000 and 16,000;
- lost promises: the same with `commit` of a read that no response is legal for, so that each promise stays too; 6,000 and
  12,000;
- triples: `check` of six types of 64 events with 64 groups of 1,024 triples each, those of a group all equal;
- start: `check @one`.

Ends with status 1 where a bar isn't met.
"""

import os
import statistics
import string
import subprocess
import sys
import tempfile

sys.dont_write_bytecode = True

import programs
from runs import load, reads, registers

ROOT = os.path.dirname(os.path.dirname(os.path.abspath(__file__)))
BEGINS = (25_000, 50_000, 100_000)
TRANSACTIONS = (125, 250, 500)
MESSAGES = (25_000, 50_000, 100_000)
PAST_THE_LIMIT = 110_000
RULES = 55_000
# What stays as decisions are lost, how many of them, and what each transaction reads and how it ends.
LOST = (("lost decisions", (8_000, 16_000), "L", "abort"), ("lost promises", (6_000, 12_000), "N", "commit"))
SEED = 7
NOTHING = "python3 -c pass"


def begins(count):
    """One phase in which the client is asked to begin, over and over."""
    return "phase\n" + "c0 begin\n" * count


def one_reader():
    """One site, one client and one object, whose invocations depend on nothing; to N no response is legal."""
    return """sites = 1
clients = 1
[[type]]
name = "t"
states = ["0"]
start = "0"
invocations = ["L", "N"]
responses = ["ok"]
rows = ["0 L ok 0"]
depends = []
triples = ["0 0 -"]
[[object]]
name = "x0"
type = "t"
[[epoch]]
weights = [1]
initial = ["x0 L 1", "x0 N 1"]
final = ["x0 L:ok 1"]
"""


def lost_decisions(count, invocation, end):
    """Transactions of one read that end so, each of whose third message, the decision, is lost."""
    lines = ["link c0 s0 %d drop" % (3 * number) for number in range(1, count + 1)]
    return "\n".join((*lines, "phase", *["c0 begin", "c0 do x0 " + invocation, "c0 " + end] * count)) + "\n"


def change(count, moved):
    """So many transactions, then the quorums change or they don't, then a read that is given up and another one."""
    reads_twice = ["c1 begin", "c1 do x R", "c1 abort", "c1 begin", "c1 do x R", "c1 commit"]
    return "\n".join((*load(count, SEED), "phase", *["admin epoch 2"] * moved, "phase", *reads_twice)) + "\n"


def equal_triples():
    """Six types of 64 states and 64 events, all of them legal in each state, which they leave as it is; each with 64
    groups of 1,024 equal triples."""
    states = [*string.ascii_letters, *string.digits, "aa", "bb"]
    events = ["I%d r%d" % (inv, resp) for inv in range(32) for resp in range(2)]
    lines = ["sites = 1", "clients = 1"]
    for number in range(6):
        rows = ['"%s %s %s"' % (state, event, state) for state in states for event in events]
        triples = ['"%s %s -"' % (state, state) for state in states for _ in range(1024)]
        lines += ["[[type]]", 'name = "t%d"' % number, "states = [%s]" % ",".join('"%s"' % state for state in states),
                  'start = "a"', "invocations = [%s]" % ",".join('"I%d"' % inv for inv in range(32)),
                  'responses = ["r0", "r1"]', "rows = [%s]" % ",".join(rows),
                  "triples = [%s]" % ",".join(triples)]
    lines += ["[[object]]", 'name = "x"', 'type = "t0"', "[[epoch]]", "weights = [1]"]
    return "\n".join(lines) + "\n"


def run(words, wanted=0):
    """The processor seconds and the peak memory in KB of one run, which has to end with this status."""
    child = subprocess.Popen(words, stdout=subprocess.DEVNULL, stderr=subprocess.PIPE)
    told = child.stderr.read().decode(errors="replace")
    _, status, usage = os.wait4(child.pid, 0)
    child.returncode = os.waitstatus_to_exitcode(status)
    if child.returncode != wanted:
        sys.exit("status %d of %s: %s" % (child.returncode, " ".join(words), told.strip()))
    return usage.ru_utime + usage.ru_stime, usage.ru_maxrss


def written(folder, name, text):
    """The path of a file of the folder with this text."""
    path = os.path.join(folder, name)
    with open(path, "w") as file:
        file.write(text)
    return path


def cases(program, folder):
    """The words of each case, by its name."""
    walk = programs.plain(folder, "load_walk.rs")
    words = {NOTHING: [sys.executable, "-c", "pass"], "start": [program, "check", "@one"]}
    for count in BEGINS:
        words["%d begins" % count] = [program, "run", "@one", written(folder, "begins_%d" % count, begins(count))]
    for count in TRANSACTIONS:
        text = "\n".join(load(count, SEED)) + "\n"
        words["load %d" % count] = [program, "run", "@three", written(folder, "load_%d" % count, text)]
    words["walk 500"] = [walk, "500", str(SEED)]
    epochs = os.path.join(ROOT, "examples/quorums_change/decl.toml")
    for name, moved in (("no change", 0), ("change", 1)):
        text = change(TRANSACTIONS[-1], moved)
        words[name] = [program, "run", epochs, written(folder, name.replace(" ", "_"), text)]
    for count in (*MESSAGES, PAST_THE_LIMIT):
        text = "\n".join(reads(count)) + "\n"
        name = "step limit" if count == PAST_THE_LIMIT else "%d messages" % count
        words[name] = [program, "run", "@three", written(folder, "reads_%d" % count, text)]
    sixteen = written(folder, "sixteen.toml", registers(16, "x"))
    for name, rules in (("sixteen sites", ()), ("sixteen sites, rules", ["link * c2 1 drop"] * RULES)):
        text = "\n".join((*rules, *reads(MESSAGES[-1], of_a_read=18))) + "\n"
        words[name] = [program, "run", sixteen, written(folder, name.replace(" ", "_"), text)]
    one = written(folder, "one.toml", one_reader())
    for name, counts, invocation, end in LOST:
        for count in counts:
            text = lost_decisions(count, invocation, end)
            words["%d %s" % (count, name)] = [program, "run", one, written(folder, "%s_%d" % (end, count), text)]
    words["triples"] = [program, "check", written(folder, "triples.toml", equal_triples())]
    return words


def measure(words, runs):
    """The median time and the median peak memory of each case."""
    seen = {name: [] for name in words}
    for _ in range(runs):
        for name in words:
            seen[name].append(run(words[name], 7 if name == "step limit" else 0))
    return {name: tuple(statistics.median(part) for part in zip(*seen[name])) for name in seen}


def bars(found):
    """Each figure that matters, with the most that it may be."""
    seconds = {name: found[name][0] for name in found}
    yield "100000 begins / %s" % NOTHING, seconds["100000 begins"] / seconds[NOTHING], 20
    for count in BEGINS[:-1]:
        ratio = seconds["%d begins" % (2 * count)] / seconds["%d begins" % count]
        yield "%d begins / %d begins" % (2 * count, count), ratio, 2.3
    steps = 1 + 2 * 100_000
    yield "KB a step, of %d" % steps, found["100000 begins"][1] / steps, 1
    yield "load 500 / load 250", seconds["load 500"] / seconds["load 250"], 5
    yield "load 500 / walk 500", seconds["load 500"] / seconds["walk 500"], 2.6
    yield "change / no change", seconds["change"] / seconds["no change"], 1.2
    for count in MESSAGES[:-1]:
        ratio = seconds["%d messages" % (2 * count)] / seconds["%d messages" % count]
        yield "%d messages / %d messages" % (2 * count, count), ratio, 2.3
    yield "%d rules more, s" % RULES, seconds["sixteen sites, rules"] - seconds["sixteen sites"], 1
    yield "step limit, s", seconds["step limit"], 2
    yield "step limit, MB", found["step limit"][1] / 1024, 512
    for name, counts, _, _ in LOST:
        few, many = ("%d %s" % (count, name) for count in counts)
        yield "%s / %s" % (many, few), seconds[many] / seconds[few], 2.3
    yield "16000 lost decisions, s", seconds["16000 lost decisions"], 0.3
    yield "triples, s", seconds["triples"], 1
    yield "start, ms", 1e3 * seconds["start"], 2


def main():
    program = os.path.abspath(sys.argv[1]) if len(sys.argv) > 1 else os.path.join(ROOT, "crates/quorum/out/quorum")
    runs = int(sys.argv[2]) if len(sys.argv) > 2 else 7
    if not os.access(program, os.X_OK):
        sys.exit("no program at %s: run ./quorum once" % program)
    with tempfile.TemporaryDirectory() as folder:
        found = measure(cases(program, folder), runs)
    for name, (seconds, memory) in found.items():
        print("%-24s %9.4f s %9d KB" % (name, seconds, memory))
    missed = 0
    for name, figure, most in bars(found):
        missed += figure > most
        print("%-38s %7.2f  (at most %s)%s" % (name, figure, most, "" if figure <= most else "  MISSED"))
    return 1 if missed else 0


if __name__ == "__main__":
    sys.exit(main())
