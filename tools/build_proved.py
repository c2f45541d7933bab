#!/usr/bin/env python3
"""Proves and builds the program, for `./quorum`: crates that don't stand on each other at the same time.

usage: build_proved.py

The kit's `rt run` proves one crate after another, and two calls of `rt lib` wait for each other at the crates that both
stand on. So its module `rtlib` is called here, by the order of crates.txt: what it builds is what `rt lib` and `rt run`
build. Where this kit's module is another one, `rt run` does it alone. On standard error: how long it may take, a line
for each crate that is done, and one a minute where none is. Ends with status 1 where the program isn't built, and tells
what the kit said of the crate that failed.
"""
import importlib.machinery
import importlib.util
import os
import signal
import subprocess
import sys
import tempfile
import threading
import time
from concurrent.futures import FIRST_COMPLETED, ThreadPoolExecutor, wait

# Nothing is left beside these files.
sys.dont_write_bytecode = True

from edits import Wrong, at_once, below, kit, read_crates

TOP = os.path.dirname(os.path.dirname(os.path.abspath(__file__)))
PROGRAM = "quorum"
# What all crates of the program take from nothing, by docs/TESTING.md.
PROCESSOR_MINUTES = 70
# And one of them of which earlier work is kept.
OVER_KEPT = 0.2
# A line comes at least so often, in seconds.
QUIET = 60


class Told:
    """What is said on standard error."""

    def __init__(self, total):
        self.total, self.done, self.began, self.last = total, 0, time.time(), time.time()
        self.running, self.announced, self.lock = {}, False, threading.Lock()
        self.out = sys.stderr

    def say(self, text):
        self.last = time.time()
        print(text, file=self.out, flush=True)

    def announce(self, minutes=None):
        """Says once that there is something to do, and how long it may take."""
        if not self.announced:
            self.announced = True
            long = f", in some {minutes} min" if minutes else ""
            unproved = "QUORUM_UNPROVED=1 runs it unproved, after some 2 min"
            self.say(f"quorum: proving and building the program first{long}; {unproved}")

    def begin(self, name):
        with self.lock:
            self.running[name] = time.time()

    def end(self, name):
        with self.lock:
            self.done += 1
            self.say(f"[{self.done}/{self.total}] {name} {time.time() - self.running.pop(name):.0f} s")

    def keep_on(self):
        """Says each minute what is being proved, where nothing else is said."""
        while True:
            time.sleep(1)
            with self.lock:
                if self.running and self.announced and time.time() - self.last >= QUIET:
                    names = [f"{name} {time.time() - begun:.0f} s" for name, begun in self.running.items()]
                    self.say(f"[{self.done}/{self.total}] proving {', '.join(names)}")

    def finish(self):
        if self.announced:
            seconds = int(time.time() - self.began)
            self.say(f"quorum: proved and built in {seconds // 60} min {seconds % 60} s")


class Lines:
    """Takes what the kit prints, line by line: says what is done, and keeps what it printed of the last crate."""

    def __init__(self, told):
        self.told, self.rest, self.kept, self.crate, self.is_built = told, "", [], None, False

    def write(self, text):
        *lines, self.rest = (self.rest + text).split("\n")
        for line in lines:
            self.take(line)

    def flush(self):
        pass

    def take(self, line):
        self.kept.append(line)
        if line.startswith("rt: waiting for "):
            self.told.say(line)
        elif line.startswith("rt: chose --jobs "):
            self.told.announce()
            self.crate = line.rpartition(" ")[2]
            self.told.begin(self.crate)
        elif line.startswith("logic=proved ") and self.crate not in (None, PROGRAM):
            self.told.end(self.crate)
            self.kept, self.crate = [], None
        elif line.startswith("rt: running "):
            self.is_built = True
            if self.crate == PROGRAM:
                self.told.end(PROGRAM)


def load(folder):
    """Returns the module of the kit's command `rt`, or nothing where it isn't the one that is known here."""
    file = f"{folder}/bin/rtlib.py"
    if not os.path.isfile(file):
        return None
    loader = importlib.machinery.SourceFileLoader("rtlib", file)
    made = importlib.util.module_from_spec(importlib.util.spec_from_loader("rtlib", loader))
    sys.modules["rtlib"] = made
    loader.exec_module(made)
    known = "build_rlib", "has_kept", "is_built", "stamp", "below", "run"
    is_known = all(hasattr(made.Crate, it) for it in known) and hasattr(made, "lock") and hasattr(made, "guarded")
    return made if is_known else None


def sum_once(rtlib):
    """Has a crate's sum of its sources computed with the sum of each crate below it once, and not once for each way
    down to it, of which there are some ten thousand."""
    whole, held = rtlib.Crate.stamp, threading.local()

    def stamp(crate):
        sums = getattr(held, "sums", None)
        if sums is None:
            held.sums = {}
            try:
                return whole(crate)
            finally:
                held.sums = None
        if crate.name not in sums:
            sums[crate.name] = whole(crate)
        return sums[crate.name]

    rtlib.Crate.stamp = stamp


def size(crate):
    """Returns how much there is to prove of a crate: the bytes of its code."""
    files = (f"{at}/{name}" for at, _, names in os.walk(f"{crate.folder}/src") for name in names)
    return sum(os.path.getsize(it) for it in files)


def minutes_for(crates, todo, lanes):
    """Returns how many minutes the crates may take: all in so many lanes, and no less than their longest chain."""
    each, own, chain = PROCESSOR_MINUTES / max(1, sum(map(size, crates))), {}, {}
    for crate in crates:
        own[crate.name] = 0 if crate not in todo else OVER_KEPT if crate.has_kept() else each * size(crate)
        chain[crate.name] = own[crate.name] + max([chain[it.name] for it in crate.deps], default=0)
    return round(max(sum(own.values()) / lanes, *chain.values())) or 1


def prove(crate, jobs, told):
    """Builds one library. Returns what the kit said of it, or nothing where it is built."""
    told.begin(crate.name)
    with tempfile.TemporaryFile("w+", errors="replace") as crate.out:
        try:
            status = crate.build_rlib(["--jobs", str(jobs)], anew=False)
        except SystemExit:
            status = 2
        crate.out.seek(0)
        said = crate.out.read()
    if status:
        return said or f"{crate.name}: status {status}"
    told.end(crate.name)
    return None


def prove_all(todo, lanes, told):
    """Builds the libraries, those with the longest chain of others above them first. Where one fails, all ends."""
    lower, behind = {it.name: {low.name for low in it.below()} for it in todo}, {}
    for crate in reversed(todo):
        behind[crate.name] = size(crate) + max([behind[it] for it in behind if crate.name in lower[it]], default=0)
    left, running = sorted(todo, key=lambda it: -behind[it.name]), {}
    with ThreadPoolExecutor(lanes) as pool:
        while left or running:
            busy = {it.name for it in [*left, *running.values()]}
            ready = [it for it in left if not busy & lower[it.name]]
            for crate in ready[: lanes - len(running)]:
                # A processor that no other crate waits for helps with this one.
                jobs = max(1, (lanes - len(running)) // len(ready))
                left.remove(crate)
                running[pool.submit(prove, crate, jobs, told)] = crate
            for it in wait(running, return_when=FIRST_COMPLETED).done:
                running.pop(it)
                if it.result():
                    told.say(it.result())
                    # Whatever else is being proved ends with this process.
                    os._exit(1)


def build_by_module(rtlib):
    """Proves all by the kit's own module. Returns what was printed of the program, and what was said."""
    rtlib.guarded()
    sum_once(rtlib)
    program = rtlib.Crate(f"{TOP}/crates/{PROGRAM}", TOP, {})
    crates = [*program.below(), program]
    told = Told(len(crates))
    program.held = rtlib.lock(crates)
    for it in crates:
        rtlib.stop_on_links(it.folder)
    todo = [it for it in program.below() if not it.is_built()]
    threading.Thread(target=told.keep_on, daemon=True).start()
    lanes = at_once()
    if todo:
        told.done = len(crates) - 1 - len(todo)
        told.announce(minutes_for(crates, [*todo, program], lanes))
        prove_all(todo, lanes, told)
    os.makedirs(f"{program.folder}/out", exist_ok=True)
    program.out = Lines(told)
    program.run([], [])
    return program.out, told


def build_by_command():
    """Has `rt run` do all. Returns what was printed, and what was said."""
    crates = read_crates()
    told = Told(len(below(crates, PROGRAM)) + 1)
    threading.Thread(target=told.keep_on, daemon=True).start()
    lines = Lines(told)
    how = {"cwd": f"{TOP}/crates/{PROGRAM}", "stdin": subprocess.DEVNULL, "stderr": subprocess.STDOUT, "text": True}
    with subprocess.Popen(["rt", "run"], stdout=subprocess.PIPE, errors="replace", **how) as ran:
        for line in ran.stdout:
            lines.write(line)
    return lines, told


def hide_output():
    """Has nothing but what is said here come on standard error: the kit starts the program when it is built."""
    sys.stderr = os.fdopen(os.dup(2), "w", errors="replace")
    nowhere = os.open(os.devnull, os.O_RDWR)
    for end in (0, 1, 2):
        os.dup2(nowhere, end)


def main():
    hide_output()
    # At an interrupt this process ends at once, and with it all that it started.
    signal.signal(signal.SIGINT, signal.SIG_DFL)
    try:
        rtlib = load(kit())
    except Wrong:
        rtlib = None
    if rtlib:
        lines, told = build_by_module(rtlib)
    else:
        lines, told = build_by_command()
    if not lines.is_built:
        told.say("\n".join(lines.kept))
        return 1
    told.finish()
    return 0


if __name__ == "__main__":
    sys.exit(main())
