#!/usr/bin/env python3
"""Drops each message of the table of ordinals in docs/FORMATS.md, and looks whether it was that one.

usage: tools/ordinals.py [PROGRAM]

PROGRAM is ./quorum of this repository unless it is given. Of a row each message from the client to its first site, and
each answer of that, is dropped by a rule, with the client cut from the site that would be asked in its place: in the
client's first transaction, and in its second, behind one that is undisturbed. What is printed tells which message it
was: too few sites to read or to append, a vote that is wanting, a site that holds the transaction to the end. A rule
for the message behind the last does nothing. Then a site asks a client what became of its transaction, and these
messages have to count. Ends with status 1 where a message of the table is another one, and where there is no table.
"""

import os
import re
import subprocess
import sys
import tempfile

ROOT = os.path.dirname(os.path.dirname(os.path.abspath(__file__)))
PAGE = os.path.join(ROOT, "docs", "FORMATS.md")
HEADING = "### Which message has which ordinal"
REQUESTS = 4
# What is printed where a message is lost between the client and the site of its number.
LOST = {
    "Read": "! quorum read 1 of 2",
    "Append": "! quorum append 1 of 2",
    "Prepare": "! no answer s%d",
    "Decision": "s%d .* held 1",
}
ANSWERS = {"Read": "Granted", "Append": "Granted", "Prepare": "Yes"}


class Row:
    """A transaction's commands, its declaration, and the messages to the site and back."""

    def __init__(self, line):
        cells = [cell.strip() for cell in line.strip("|").split("|")]
        self.commands = re.findall("`([^`]*)`", cells[0])
        self.declaration = cells[1].strip("`")
        self.to = [cell for cell in cells[2:2 + REQUESTS] if cell]
        self.back = [cell for cell in cells[2 + REQUESTS:] if cell]


def rows():
    """The rows of the table, which stand behind its line of dashes."""
    with open(PAGE, encoding="utf-8") as file:
        section = file.read().partition(HEADING + "\n")[2].partition("\n#")[0]
    lines = [line for line in section.split("\n") if line.startswith("|")]
    return [Row(line) for line in lines[2:]]


def losses(program, declaration, lines, site):
    """Which losses show in a run of a script."""
    with tempfile.NamedTemporaryFile("w", suffix=".script") as script:
        script.write("\n".join(lines) + "\n")
        script.flush()
        ran = subprocess.run([program, "run", declaration, script.name], cwd=ROOT, capture_output=True, text=True)
    if ran.returncode != 0:
        return ["status %d, %s" % (ran.returncode, ran.stderr)]
    return [name for name, text in LOST.items() if re.search(text.replace("%d", str(site)), ran.stdout)]


def seen(program, row, client, before, link):
    """Which losses show where that message is lost, in a transaction with so many before it."""
    actor, far = "c%d" % client, "s%d" % ((client + 2) % 3)
    commands = ["begin", *row.commands]
    lines = ["link " + link, "phase", *(actor + " " + command for command in commands * before)]
    lines += ["phase", "cut %s %s" % (actor, far), *(actor + " " + command for command in commands)]
    return losses(program, row.declaration, lines, client)


def asked(program):
    """Whether an Inquiry and its Decision count: the site `s1` refuses `c1` in the middle of a transaction of `c0`."""
    lines = ["phase", "c0 begin", "c0 do x W1", "phase", "c1 begin", "c1 do x R", "phase", "c0 commit"]
    for link, want in (("c0 s1 2", []), ("c0 s1 3", ["Prepare"]), ("s1 c0 2", []), ("s1 c0 3", ["Prepare"])):
        have = losses(program, "@three", ["link %s drop" % link, *lines], 1)
        if have != want:
            print("with an Inquiry, link %s: lost are %s" % (link, have), file=sys.stderr)
            return False
    return True


def cases(row, client, before):
    """Each message with its rule and the loss that shows, and one more each way."""
    there, back = "c%d s%d" % (client, client), "s%d c%d" % (client, client)
    for k, name in enumerate(row.to + [None]):
        yield name, "%s %d drop" % (there, before * len(row.to) + k + 1), [name] if name else []
    for k, name in enumerate(row.back + [None]):
        yield name, "%s %d drop" % (back, before * len(row.back) + k + 1), row.to[k:k + 1] if name else []


def right(program, row):
    """How many messages of a row were tried; the first that is another one is told."""
    if row.back != [ANSWERS[name] for name in row.to if name in ANSWERS]:
        print("%s: the answers aren't those of the requests" % row.commands, file=sys.stderr)
        return 0
    tried = 0
    for client, before in ((0, 0), (0, 1), (1, 0), (1, 1)):
        for name, link, want in cases(row, client, before):
            have = seen(program, row, client, before, link)
            if have != want:
                print("%s, link %s, %s: lost are %s" % (row.commands, link, name, have), file=sys.stderr)
                return 0
            tried += 1
    return tried


def main():
    program = os.path.abspath(sys.argv[1]) if len(sys.argv) > 1 else os.path.join(ROOT, "quorum")
    counts = [right(program, row) for row in rows()]
    print("ordinals: %d rows, %d messages dropped" % (len(counts), sum(counts)))
    return 0 if counts and all(counts) and asked(program) else 1


if __name__ == "__main__":
    sys.exit(main())
