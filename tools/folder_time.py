#!/usr/bin/env python3
"""Measures what a run with a folder of journals costs beside a plain program that writes the same bytes.

usage: tools/folder_time.py PROGRAM COUNT [ROUNDS]

The script of a load of COUNT transactions is run over @three with a folder and without one, and as `load`. The records
that the files then hold are written again by this program, in the order of the run, each as the journal does it: length,
body and a closed gate, a sync, the open gate, a sync. All are done ROUNDS times (5), in turn; told are the shortest
times, and how many times the plain program's each is. The folder is made where this is called, so that the disk is the
caller's.
"""

import os
import subprocess
import sys
import tempfile
import time

import journals

MODULUS = 65537
# In which order the actors write the records of a transaction.
ORDER = ["Prepare", "Commit", "Done"]


def load_script(count, seed):
    """The script of a load."""
    lines, state = [], seed
    for number in range(count):
        state = (75 * state + 74) % MODULUS
        client = "c%d" % (number % 3)
        lines += ["phase", client + " begin", "%s do x W%d" % (client, state % 2), client + " do x R", client + " commit"]
    return "".join(line + "\n" for line in lines)


def records_in(folder):
    """All records of a load's journals in the order of the run: for each its actor, and its length and body."""
    found = []
    for path in journals.journals_of(folder):
        with open(path, "rb") as file:
            data = file.read()
        records, end = journals.records_of(data)
        ends = [gate for gate, _, _ in records[1:]] + [end]
        for (gate, kind, fields), behind in zip(records, ends):
            client, _, number = fields["tx"]
            found.append((number, client, ORDER.index(kind), int(path[-2:]), data[gate + 1 : behind]))
    return [record[3:] for record in sorted(found)]


def write_plainly(records, actors, folder):
    """Writes these records, each with two writes and two syncs."""
    files, gates = [], [0] * actors
    for actor in range(actors):
        name = os.path.join(folder, "plain-%02d" % actor)
        files.append(os.open(name, os.O_RDWR | os.O_CREAT | os.O_TRUNC, 0o644))
        os.pwrite(files[actor], b"\0", 0)
        os.fsync(files[actor])
    for actor, frame in records:
        file, gate = files[actor], gates[actor]
        os.pwrite(file, frame + b"\0", gate + 1)
        os.fsync(file)
        os.pwrite(file, b"\1", gate)
        os.fsync(file)
        gates[actor] = gate + 1 + len(frame)
    for file in files:
        os.close(file)


def timed(work):
    begun = time.time()
    work()
    return time.time() - begun


def main(program, count, rounds=5):
    with tempfile.TemporaryDirectory(dir=".") as folder:
        script = os.path.join(folder, "script")
        with open(script, "w") as file:
            file.write(load_script(count, 7))

        def called(*words):
            subprocess.run([program, *words], stdout=subprocess.DEVNULL, check=True)

        def in_folder():
            disks = tempfile.mkdtemp(dir=folder)
            called("run", "@three", script, "--dir", disks)
            return disks

        disks = in_folder()
        records, actors = records_in(disks), len(os.listdir(disks))
        ways = {
            "load": lambda: called("load", str(count), "7"),
            "run": lambda: called("run", "@three", script),
            "run with a folder": in_folder,
            "plain": lambda: write_plainly(records, actors, folder),
        }
        best = dict.fromkeys(ways, float("inf"))
        for _ in range(rounds):
            for name, work in ways.items():
                best[name] = min(best[name], timed(work))
    print("%d transactions, %d records" % (count, len(records)))
    for name, seconds in best.items():
        print("%-18s %8.3f s %6.2f" % (name, seconds, seconds / best["plain"]))


if __name__ == "__main__":
    main(sys.argv[1], int(sys.argv[2]), *map(int, sys.argv[3:]))
