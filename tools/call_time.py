#!/usr/bin/env python3
"""How long a call of ./quorum takes beside one of the program that it starts.

usage: tools/call_time.py [CALLS]

Runs `check @one` by the built program and by ./quorum in turn, CALLS times each
(200 unless given). Prints the median and the least time of each, and the mean of
the processor's time, in milliseconds, and what ./quorum adds. The program has to
be built.
"""

import os
import resource
import statistics
import subprocess
import sys
import time

ROOT = os.path.dirname(os.path.dirname(os.path.abspath(__file__)))
PROGRAM = os.path.join(ROOT, "crates/quorum/out/quorum")
SCRIPT = os.path.join(ROOT, "quorum")


def processor():
    """The processor's time of all calls so far, in seconds."""
    used = resource.getrusage(resource.RUSAGE_CHILDREN)
    return used.ru_utime + used.ru_stime


def milliseconds(command):
    """How long one call takes, by the clock and by the processor."""
    begun, used = time.perf_counter(), processor()
    subprocess.run([command, "check", "@one"], stdout=subprocess.DEVNULL, check=True)
    return 1000 * (time.perf_counter() - begun), 1000 * (processor() - used)


def main():
    calls = int(sys.argv[1]) if len(sys.argv) > 1 else 200
    runs = [(milliseconds(PROGRAM), milliseconds(SCRIPT)) for _ in range(calls)]
    for name, by, of in (("median", 0, statistics.median), ("least", 0, min), ("processor", 1, statistics.mean)):
        program, script = (of([run[which][by] for run in runs]) for which in (0, 1))
        print("%s: program %.2f ms, ./quorum %.2f ms, beside it %.2f ms" % (name, program, script, script - program))


if __name__ == "__main__":
    main()
