#!/usr/bin/env python3
"""Measures how long records take to be read and written.

usage: bench/record.py [ROUNDS]

Makes a program of record_bytes.rt.in, and one of record_walk.rs with `rustc -O`, a plain program for the same bytes, and
runs each case 10,000 times within a call, reading alone, and reading and writing. Tells the least processor seconds of
ROUNDS calls, 5 unless it is given.
"""

import os
import resource
import sys
import tempfile

sys.dont_write_bytecode = True

import programs

USES = ("qc_record",)
TIMES = 10_000


def tx(client, life, number):
    return bytes([client]) + life.to_bytes(4, "big") + number.to_bytes(4, "big")


def lines(count):
    """So many lines, each of the transaction after."""
    return count.to_bytes(4, "big") + b"".join(
        (9 + number).to_bytes(8, "big") + tx(number % 16, 1, 1 + number) + bytes([1, 0, 3]) for number in range(count))


CASES = {
    "commit": b"\x06" + tx(0, 1, 1) + (1).to_bytes(8, "big") + b"\x10" + b"\x00\x02\x02" * 16,
    "prepare, 20 lines": b"\x02" + tx(0, 1, 1) + b"\x01\x00\x02\x00\x00\x00\x01\x02\x01\x00\x03\x02\x00\x02" + lines(20),
    "install, 500 lines": b"\x05\x02" + (9).to_bytes(8, "big") + lines(500),
}


def main():
    rounds = int(sys.argv[1]) if len(sys.argv) > 1 else 5
    resource.setrlimit(resource.RLIMIT_CORE, (0, 0))
    with tempfile.TemporaryDirectory() as folder:
        program = programs.build(folder, "record_bytes", "record_bytes.rt.in", USES)
        walk = programs.plain(folder, "record_walk.rs")
        for case, body in CASES.items():
            name = os.path.join(folder, "body")
            with open(name, "wb") as file:
                file.write(body)
            for what, more, due in (("read", [], 0), ("read and written", ["write"], TIMES * len(body))):
                least = []
                for words in ([program], [walk]):
                    calls = [programs.call(words + [name, str(TIMES)] + more) for _ in range(rounds)]
                    if any(told.strip() != str(due) for _, _, told in calls):
                        sys.exit("%s: %s" % (case, calls))
                    least.append(min(took for took, _, _ in calls))
                print("%-20s %-18s %7.3f s, plain %7.3f s" % (case, what, *least))


main()
