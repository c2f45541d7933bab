#!/usr/bin/env python3
"""Runs each example once for each allocation of its run, which then fails.

usage: tools/failing_allocations.py [PROGRAM [WORKERS]]

PROGRAM is crates/quorum/out/quorum unless it is given; it has to be built, and
a C compiler has to be on the path as `cc`. With WORKERS each script is run by so
many; which allocation a number names then differs from run to run, and an
example may be over before each was met. Left out are examples without words, as
the gallery of types, and those with a long text, of which a sweep takes hours.
Each run has to end as the example says, or with nothing on standard output,
status 8 and its cause; a cause may be left untold where its text wants memory.
Runs of JOURNALED keep their journals in a folder: whatever was refused, each has
to read as a journal of records, and the commit records of all of them, in the
order of their stamps, have to be a run of one register.
An example is over when 100 runs after one another met no failing allocation.
Ends with status 1 where a run did something else, and where there is no example.
"""

import collections
import os
import subprocess
import sys
import tempfile

import journals

HERE = os.path.dirname(os.path.abspath(__file__))
ROOT = os.path.dirname(HERE)
EXAMPLES = os.path.join(ROOT, "examples")
WANTING = b"quorum: out of memory\n"
LONG = 10000
# A run by one client, one whose client is in doubt, and one that changes quorums, all over the type `register`.
JOURNALED = "first_run", "client_in_doubt", "quorums_change"
READ, WRITES, OK = 0, {1: 0, 2: 1}, 2


def is_register(commits):
    """Whether these commit records, by their stamps, are a run of one register whose value is 0 at first."""
    value = 0
    for stamp in sorted(commits):
        for _, invocation, response in commits[stamp]:
            if invocation == READ and response != value or invocation != READ and response != OK:
                return False
            value = WRITES.get(invocation, value)
    return True


def is_kept(folder):
    """Whether a folder's journals read as such, and what committed in them is a run of one register."""
    commits = {}
    for path in journals.journals_of(folder):
        with open(path, "rb") as file:
            try:
                records, _ = journals.records_of(file.read())
            except journals.Wrong:
                return False
        for _, kind, fields in records:
            if kind == "Commit":
                commits[fields["clock"], fields["tx"][0]] = fields["operations"]
    return is_register(commits)


def content(folder, name, missing=b""):
    """What a file of an example holds."""
    path = os.path.join(folder, name)
    if not os.path.exists(path):
        return missing
    with open(path, "rb") as file:
        return file.read()


def outcome_of(program, shim, number, folder, more):
    """What the run of an example did whose allocation of this number fails, and whether what it kept in journals stands."""
    if os.path.basename(folder) not in JOURNALED:
        return outcome(program, shim, number, folder, more)
    with tempfile.TemporaryDirectory() as kept:
        did = outcome(program, shim, number, folder, [*more, "--dir", kept])
        return did if is_kept(kept) else did + ", and its journals are wrong"


def outcome(program, shim, number, folder, more):
    """What the run of an example did whose allocation of this number fails, with these words more where it runs a script."""
    words = content(folder, "words").decode().split("\n")[:-1]
    words += more if words[0] == "run" else []
    env = {"LD_PRELOAD": shim, "FAIL_AT": str(number)}
    ran = subprocess.run([program, *words], cwd=folder, env=env, capture_output=True, timeout=60)
    wanted = int(content(folder, "status", b"0")), content(folder, "expected"), content(folder, "expected_error")
    if (ran.returncode, ran.stdout, ran.stderr) == wanted:
        return "whole"
    if (ran.returncode, ran.stdout, ran.stderr) == (*wanted[:2], b""):
        return "untold"
    if (ran.returncode, ran.stdout) == (8, b"") and ran.stderr in (WANTING, b""):
        return "wanting"
    return "status %d, %r, %r" % (ran.returncode, ran.stdout[:40], ran.stderr)


def sweep(program, shim, folder, more):
    """How often the runs of an example did what."""
    counts, number, whole = collections.Counter(), 0, 0
    while whole < 100:
        number += 1
        did = outcome_of(program, shim, number, folder, more)
        whole = whole + 1 if did == "whole" else 0
        counts[did] += 1
    return counts


def main():
    program = os.path.abspath(sys.argv[1] if len(sys.argv) > 1 else os.path.join(ROOT, "crates/quorum/out/quorum"))
    more = ["--workers", sys.argv[2]] if len(sys.argv) > 2 else []
    seen = set()
    with tempfile.TemporaryDirectory() as made:
        shim = os.path.join(made, "shim.so")
        source = os.path.join(HERE, "malloc_that_fails.c")
        subprocess.run(["cc", "-O1", "-shared", "-fPIC", "-o", shim, source, "-ldl"], check=True)
        for name in sorted(os.listdir(EXAMPLES)):
            folder = os.path.join(EXAMPLES, name)
            if not os.path.exists(os.path.join(folder, "words")) or len(content(folder, "expected")) > LONG:
                continue
            counts = sweep(program, shim, folder, more)
            print("%s: %s" % (name, ", ".join("%s: %d" % pair for pair in sorted(counts.items()))))
            seen |= set(counts)
    return 0 if seen and seen <= {"whole", "untold", "wanting"} else 1


if __name__ == "__main__":
    sys.exit(main())
