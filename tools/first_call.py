#!/usr/bin/env python3
"""Measures the first call of a new clone, proved and unproved, and writes what it took into README.md.

usage: first_call.py [--busy] [--print]

Clones the last commit into a folder of its own, and calls `./quorum check @one` there with and without QUORUM_UNPROVED.
It takes as long as they do: let the machine do nothing else. What is said stands in README.md between two marks; with
--print it is printed, and nothing is written; with --busy it says that the machine did other work too.
"""
import os
import subprocess
import sys
import tempfile
import time

TOP = os.path.dirname(os.path.dirname(os.path.abspath(__file__)))
DOCUMENT = f"{TOP}/README.md"
SAID = """\
The first call proves and builds the program; later calls start at once. With `QUORUM_UNPROVED=1` before it one is built with
no proof, and says so at each call.%s"""
BEGIN, END = "<!-- first call -->\n", "<!-- end -->"


def first_call(more):
    """Returns the minutes by the clock and by the processors that the first call of a new clone takes."""
    with tempfile.TemporaryDirectory(prefix="first-call-") as room:
        subprocess.run(["git", "clone", "-q", TOP, f"{room}/clone"], check=True)
        began, before = time.time(), os.times()
        subprocess.run(["./quorum", "check", "@one"], cwd=f"{room}/clone", env={**os.environ, **more}, check=True)
        after = os.times()
        spent = after.children_user + after.children_system - before.children_user - before.children_system
        return (time.time() - began) / 60, spent / 60


def machine(words):
    busy = " that did other work too" if "--busy" in words else ""
    return f"{len(os.sched_getaffinity(0))} processors{busy}"


def write(text):
    """Puts the text into the document, between its marks."""
    with open(DOCUMENT, encoding="utf-8") as it:
        before, mark, rest = it.read().partition(BEGIN)
    _, end, after = rest.partition(END)
    if not mark or not end:
        sys.exit(f"{DOCUMENT} lacks the marks of the first call")
    with open(DOCUMENT, "w", encoding="utf-8") as it:
        it.write(f"{before}{BEGIN}{text}\n{END}{after}")


def main(words):
    unproved, _ = first_call({"QUORUM_UNPROVED": "1"})
    clock, spent = first_call({"QUORUM_UNPROVED": ""})
    day = time.strftime("%Y-%m-%d", time.gmtime())
    text = SAID % f"""
(Of {day}, on {machine(words)}: {clock:.0f} minutes, {spent:.0f} of processor time; {60 * unproved:.0f} seconds with no proof.)"""
    print(text)
    if "--print" not in words:
        write(text)


if __name__ == "__main__":
    if not {*sys.argv[1:]} <= {"--busy", "--print"}:
        sys.exit(__doc__)
    main(sys.argv[1:])
