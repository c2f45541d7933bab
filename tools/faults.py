#!/usr/bin/env python3
"""Runs two stories with every pair of disks that stop or fail, each at one of its first calls.

usage: tools/faults.py [PROGRAM]

PROGRAM is crates/quorum/out/quorum unless it is given; it has to be built. In the one story decisions are lost and their
client falls, in the other quorums change between a write and a read. A client's disk, those of two sites and the
administrator's stop or fail, two of them in each run, each at one of its first eight calls; their actors are restarted
at the end. Each run has to end by itself with status 0; what its text has as the log has to be a run of one register in
the order of stamps; and clients were told of just such commits as the log has. Ends with status 1 where a run did
something else. `tests_top` has the runs with one fault, also where falls leave what wasn't synced.
"""

import itertools
import os
import re
import subprocess
import sys
import tempfile
from concurrent.futures import ThreadPoolExecutor

ROOT = os.path.dirname(os.path.dirname(os.path.abspath(__file__)))
CHANGE = os.path.join(ROOT, "examples", "quorums_change", "decl.toml")
WRITE = "c0 begin\nc0 do x W1\nc0 commit\n"
STORIES = {
    "decisions are lost": (
        "@three",
        "link c0 s0 3 drop\nlink c0 s1 3 drop\nphase\n",
        WRITE + "phase\ncrash c0\nrestart c0\nc1 begin\nc1 do x R\nphase\nc1 do x R\nc1 commit\n",
    ),
    "quorums change": (
        CHANGE,
        "phase\n",
        WRITE + "phase\nadmin epoch 2\nphase\nc1 begin\nc1 do x R\nc1 abort\nc1 begin\nc1 do x R\nc1 commit\n",
    ),
}
ACTORS = "c0", "s0", "s1", "admin"
KINDS = "stop", "fail"
CALLS = range(1, 9)


def is_register(log):
    """Whether the operations of a log's lines are a run of one register whose value is 0 at first."""
    value = "0"
    for line in log:
        for operation in line.split(" ", 2)[2].split(", ") if line.count(" ") > 1 else []:
            _, invocation, response = operation.split(" ")
            if response != (value if invocation == "R" else "ok"):
                return False
            value = value if invocation == "R" else invocation[1:]
    return True


def order(stamp):
    """A stamp's place: by its clock, then by its client."""
    return [int(part) for part in stamp.split(".")]


def stands(text):
    """Whether what a run's text tells holds."""
    replies, log = text.split("log\n", 1)
    log = log.split("states\n", 1)[0].splitlines()
    stamps = [line.split(" ", 1)[0] for line in log]
    told = re.findall(r"^c[0-9]+ commit ([0-9]+\.[0-9]+)$", replies, re.M)
    return is_register(log) and stamps == sorted(set(stamps), key=order) and set(told) <= set(stamps)


def script_of(story, faults):
    """A story in whose first phase these faults are armed, and whose last one restarts their actors."""
    _, before, after = STORIES[story]
    armed = "".join("%s %s at %d\n" % fault for fault in faults)
    return before + armed + after + "phase\n" + "".join("restart %s\n" % actor for _, actor, _ in faults)


def cases():
    """Each story, and the two faults of a run."""
    for story, (one, other) in itertools.product(STORIES, itertools.combinations(ACTORS, 2)):
        for kind, call, other_kind, other_call in itertools.product(KINDS, CALLS, KINDS, CALLS):
            yield story, [(kind, one, call), (other_kind, other, other_call)]


def wrong(program, folder, number, story, faults):
    """What is wrong with a run, or nothing."""
    path = os.path.join(folder, "script-%d" % number)
    with open(path, "w") as file:
        file.write(script_of(story, faults))
    ran = subprocess.run([program, "run", STORIES[story][0], path], capture_output=True, text=True, timeout=60)
    os.remove(path)
    if ran.returncode == 0 and stands(ran.stdout):
        return None
    return "%s, %r: status %d, %s" % (story, faults, ran.returncode, ran.stderr or ran.stdout)


def main(words):
    program = os.path.abspath(words[0] if words else os.path.join(ROOT, "crates/quorum/out/quorum"))
    with tempfile.TemporaryDirectory() as folder, ThreadPoolExecutor(os.cpu_count()) as pool:
        runs = [pool.submit(wrong, program, folder, number, *case) for number, case in enumerate(cases())]
        found = [run.result() for run in runs]
    for what in filter(None, found):
        print(what)
    print("faults: %d runs, %d wrong" % (len(found), sum(map(bool, found))))
    return 1 if not found or any(found) else 0


if __name__ == "__main__":
    sys.exit(main(sys.argv[1:]))
