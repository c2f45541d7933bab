#!/usr/bin/env python3
"""Kills runs that keep their journals in a folder, and looks at what they leave.

usage: .ci/killed.py PROGRAM KILLS SEED FOLDER

Called by `.ci/folders`. PROGRAM runs a script of many phases over `@three`, by one worker and by four in turn, with a
new folder in FOLDER for each run, and is killed by SIGKILL at a random moment, KILLS times. The moments come from SEED.
While it runs, the files are read again and again. Of each run:

- each file that is left reads as a journal of records (`tools/journals.py`), and begins with all records that were
  seen in it before the kill;
- a client's record Commit stands only where two sites have the record Prepare of that transaction, and a site's Done
  only where the client's Commit stands, with that clock: each record was there before its turn was posted;
- each commit that was printed, in a reply or in the log, stands in its client's file;
- of every tenth run a second call in the folder is refused for the first actor whose file holds bytes, and changes no
  file.

Ends with status 1 where one of these fails, and where too few kills came while records were written.
"""

import os
import random
import subprocess
import sys
import time

sys.path.insert(0, os.path.join(os.path.dirname(os.path.abspath(__file__)), "../tools"))
import journals

# How long a run is to take, in seconds, and how often its files are read meanwhile.
SECONDS = 0.4
PAUSE = 0.004
SITES, CLIENTS, ACTORS = range(0, 3), range(3, 6), range(0, 7)
# No more transactions with two operations each have room in a run.
MOST = 500
# With so many commits of nothing in each phase a run stays below its limit of steps.
MOST_EMPTY = 63
# Two sites of three are asked for a promise.
QUORUM = 2


def script_of(transactions, empty):
    """The lines of a generated load, each phase with so many commits of nothing behind its own."""
    lines, state = [], 7
    for k in range(transactions):
        state = (75 * state + 74) % 65537
        client = "c%d" % (k % 3)
        lines += ["phase", client + " begin", "%s do x W%d" % (client, state % 2), client + " do x R", client + " commit"]
        lines += [client + " begin", client + " commit"] * empty
    return "".join(line + "\n" for line in lines)


class Reader:
    """Reads a file as it grows, up to the last record that is whole."""

    def __init__(self, path):
        self.path, self.seen, self.count = path, b"", 0

    def look(self):
        try:
            with open(self.path, "rb") as file:
                file.seek(len(self.seen))
                more = file.read()
        except FileNotFoundError:
            return
        at = 0
        while more[at : at + 1] not in (b"", b"\0"):
            behind = at + 5 + int.from_bytes(more[at + 1 : at + 5], "big")
            if behind >= len(more):
                break
            at, self.count = behind, self.count + 1
        self.seen += more[:at]


class Run:
    """A run in a new folder, that may be killed."""

    def __init__(self, program, script, workers, folder):
        os.mkdir(folder)
        self.folder, self.readers = folder, [Reader(os.path.join(folder, "actor-%02d" % actor)) for actor in ACTORS]
        self.words = [program, "run", "@three", script, "--workers", str(workers), "--dir", folder]

    def killed_after(self, seconds):
        """Runs it, and kills it then; its status, and what it printed. Nobody is killed where that is none."""
        call = subprocess.Popen(self.words, stdin=subprocess.DEVNULL, stdout=subprocess.PIPE, stderr=subprocess.PIPE)
        begin = time.monotonic()
        # A text that is longer than the pipe holds waits for its reader, so such a run is killed as it prints.
        while seconds is not None and call.poll() is None and time.monotonic() - begin < seconds:
            for reader in self.readers:
                reader.look()
            time.sleep(PAUSE)
        if seconds is not None:
            call.kill()
        output, error = call.communicate(timeout=60)
        return call.returncode, output.decode(), error.decode()

    def faults(self, output):
        """What is wrong with the files."""
        records, faults = {}, []
        for actor, reader in zip(ACTORS, self.readers):
            left = bytes_of(reader.path)
            if left[: len(reader.seen)] != reader.seen:
                faults.append("%s: a record that was seen is lost" % reader.path)
            try:
                records[actor], _ = journals.records_of(left)
            except journals.Wrong as wrong:
                faults.append("%s: %s" % (reader.path, wrong))
        return faults or list(faults_of(records, output))


def bytes_of(path):
    try:
        with open(path, "rb") as file:
            return file.read()
    except FileNotFoundError:
        return b""


def found(records, actors, kind):
    """The transactions of the records of a kind, with their clocks: by actor, a set."""
    return {
        actor: {(fields["tx"], fields.get("clock")) for _, name, fields in records[actor] if name == kind}
        for actor in actors
    }


def faults_of(records, output):
    prepared = found(records, SITES, "Prepare")
    committed = set().union(*found(records, CLIENTS, "Commit").values())
    for actor in CLIENTS:
        for _, name, fields in records[actor]:
            if name == "Commit" and fields["operations"]:
                votes = sum((fields["tx"], None) in prepared[site] for site in SITES)
                if votes < QUORUM:
                    yield "actor %d committed %s by the promises of %d sites" % (actor, fields["tx"], votes)
    for site, decided in found(records, SITES, "Done").items():
        for tx, clock in decided - committed:
            yield "site %d knows that %s committed at %d, and no client does" % (site, tx, clock)
    # What was printed: stamps behind `cN commit`, and the log's lines, of which the last may be cut.
    stamps = {(clock, tx[0]) for tx, clock in committed}
    section = None
    for line in output.split("\n")[:-1]:
        words = line.split(" ")
        if len(words) == 1:
            section = line
        elif section == "replies" and words[1] == "commit" and stamp_of(words[2]) not in stamps:
            yield "the reply %s has no record" % line
        elif section == "log" and stamp_of(words[0]) not in stamps:
            yield "the line %s of the log has no record" % line


def stamp_of(word):
    return tuple(map(int, word.split(".")))


def refused_again(run):
    """What is wrong with a second call in the folder."""
    before = [bytes_of(reader.path) for reader in run.readers]
    holding = [actor for actor in ACTORS if before[actor]]
    status, output, error = run.killed_after(None)
    if not holding:
        return [] if status == 0 else ["%s: a second call over empty files: status %d" % (run.folder, status)]
    wanted = 6, "", "quorum: disk of actor %d: not empty\n" % holding[0]
    faults = [] if (status, output, error) == wanted else ["%s: a second call: %d %s" % (run.folder, status, error)]
    if [bytes_of(reader.path) for reader in run.readers] != before:
        faults.append("%s: a second call changed a file" % run.folder)
    return faults


def time_of(program, script, workers, folder):
    """How long a run takes that isn't killed; and what is wrong with it."""
    run, begin = Run(program, script, workers, folder), time.monotonic()
    status, output, error = run.killed_after(None)
    seconds = time.monotonic() - begin
    if (status, error) != (0, "") or "\nlog\n" not in output:
        return seconds, ["%s: status %d %s" % (folder, status, error)]
    return seconds, run.faults(output)


def fitted(program, folder, script):
    """Writes a script of which a run takes about as long as it should; how long that is, by workers; and faults."""
    transactions, empty, faults = 10, 0, []
    while True:
        with open(script, "w") as file:
            file.write(script_of(transactions, empty))
        seconds, faults = time_of(program, script, 1, "%s/timed-%d-%d" % (folder, transactions, empty))
        if faults or seconds > SECONDS / 2 or empty > MOST_EMPTY / 2:
            break
        if transactions < MOST:
            transactions = min(MOST, transactions * 2)
        else:
            empty = 2 * empty + 1
    longer, more = time_of(program, script, 4, folder + "/timed-4")
    return {1: seconds, 4: longer}, faults + more


def main(program, kills, seed, folder):
    chance, script = random.Random(seed), os.path.join(folder, "script")
    seconds, faults = fitted(program, folder, script)
    killed = written = ended = 0
    for k in range(int(kills)) if not faults else []:
        workers = (1, 4)[k % 2]
        run = Run(program, script, workers, "%s/killed-%d" % (folder, k))
        status, output, error = run.killed_after(chance.uniform(0, seconds[workers]))
        killed += status == -9
        ended += status == 0
        written += status == -9 and any(run.readers[actor].count for actor in CLIENTS)
        if status not in (0, -9) or error:
            faults.append("%s: status %d %s" % (run.folder, status, error))
        faults += run.faults(output)
        if k % 10 == 0:
            faults += refused_again(run)
    print("%d runs of some %.1f s were killed, %d of them with commits that were seen before; %d ended before"
          % (killed, seconds[1], written, ended))
    for fault in faults:
        print(fault, file=sys.stderr)
    if written < int(kills) / 4:
        print("too few were killed while records were written", file=sys.stderr)
        return 1
    return 1 if faults else 0


if __name__ == "__main__":
    sys.exit(main(*sys.argv[1:]))
