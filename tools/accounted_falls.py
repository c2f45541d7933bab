#!/usr/bin/env python3
"""Compares `Spent`, written once more, with a simulated disk under an armed fault.

usage: accounted_falls.py [STEPS]

Of all histories of one actor up to that many steps, 4 unless it is given (5 take a minute), in which it is armed for each
of the calls to 7, writes, falls and rises, two numbers are compared: how many faults a disk has to count beside what is
armed for the history to come about, whatever it keeps of what was written; and for how many `Spent` takes it. Both are
the same, or neither is there. Ends with status 1 where they differ.

A record takes four calls of the disk that count for what is armed: writes and syncs. Opening a journal takes one, a sync,
or on a disk that holds nothing a write and a sync; reads and the length of the disk count for nothing, and may fail by
the disk's own fault.
"""
import itertools
import sys

KINDS = "Stop", "Disk"
CALLS = range(1, 8)
RECORD = 4


def steps():
    """All steps of an actor: (what, which)."""
    yield from (("armed", (kind, at)) for kind in KINDS for at in CALLS)
    yield from (("writes", None), ("crashes", None), ("damaged", None), ("rises", 0), ("rises", 1))
    yield from ((what, kind) for what in ("fails to write", "fails to open") for kind in KINDS)


WHEN_UP = "writes", "crashes", "fails to write"
IS_UP_AFTER = {"crashes": False, "fails to write": False, "rises": True}


def is_possible(history):
    """Whether an actor that is up writes and falls, and one that is down rises."""
    up = True
    for what, _ in history:
        if what != "armed" and up != (what in WHEN_UP):
            return False
        up = IS_UP_AFTER.get(what, up)
    return True


def calls_of(what, which):
    """The fewest and most calls of a step in which no fault acts."""
    return {"writes": (RECORD, RECORD), "damaged": (1, 1), "rises": (1, 1) if which else (1, 2)}[what]


def fall_of(what):
    """The fewest and most calls of a fall."""
    return (1, RECORD) if what == "fails to write" else (0, 2)


def accounted(history):
    """For how many counted faults `Spent` takes the history, at least: or nothing, where it never does."""
    arm, unarmed = None, 0
    for what, which in history:
        if what == "armed":
            arm = (*which, 0, 0)
        elif what in ("fails to write", "fails to open"):
            fewest, most = fall_of(what)
            if arm and arm[0] == which and arm[1] <= arm[3] + most:
                arm = None
            else:
                unarmed += 1
                arm = arm and (*arm[:2], arm[2] + fewest, arm[3] + most)
        elif what != "crashes":
            fewest, most = calls_of(what, which)
            arm = arm and (*arm[:2], arm[2] + fewest, arm[3] + most)
        if arm and arm[2] >= arm[1]:
            return None
    return unarmed


def after(fuse, what, which):
    """What may be armed after a step, with the faults that the disk counts in it: where a fault is armed for the call
    of that number from now on, or none is."""
    kind, at = fuse or (None, None)
    left = lambda calls: fuse and (kind, at - calls)
    acts_behind = lambda calls: fuse is None or at > calls
    if what == "armed":
        yield which, 0
    elif what == "crashes":
        yield fuse, 0
    elif what in ("fails to write", "fails to open"):
        whole = RECORD if what == "fails to write" else 2
        yield from ((None, 0) for good in range(whole) if fuse and kind == which and at == good + 1)
        fewest, most = fall_of(what)
        yield from ((left(calls), 1) for calls in range(fewest, most + 1) if acts_behind(calls))
    else:
        fewest, most = calls_of(what, which)
        yield from ((left(calls), 0) for calls in range(fewest, most + 1) if acts_behind(calls))


def counted(history):
    """How many faults a disk has to count for the history to come about, at least: or nothing, where none has it."""
    fuses = {None: 0}
    for what, which in history:
        found = {}
        for fuse, faults in fuses.items():
            for then, more in after(fuse, what, which):
                found[then] = min(found.get(then, faults + more), faults + more)
        fuses = found
    return min(fuses.values(), default=None)


def main(longest):
    tried = 0
    for length in range(1, longest + 1):
        for history in filter(is_possible, itertools.product(list(steps()), repeat=length)):
            tried += 1
            if accounted(history) != counted(history):
                print(f"{history}: Spent takes it for {accounted(history)}, disks have it for {counted(history)}")
                return 1
    print(f"{tried} histories: Spent takes just those that a disk may have")
    return 0


if __name__ == "__main__":
    sys.exit(main(int(sys.argv[1]) if len(sys.argv) > 1 else 4))
