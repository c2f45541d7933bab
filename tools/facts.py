#!/usr/bin/env python3
"""Writes into README.md what changes without an edit of it.

usage: tools/facts.py [--check]

A fact stands between a line `<!-- NAME -->` and the next line `<!-- end -->`. With
--check nothing is written: it ends with status 1 where a fact isn't the one that
would be written now. Blocks of other names are left alone.

`kit`: the kit, by the sum of its logic, which is what a proof rests on. Kits that
differ in letters alone have one logic.
"""

import os
import re
import subprocess
import sys

ROOT = os.path.dirname(os.path.dirname(os.path.abspath(__file__)))
PAGE = "README.md"


def kit():
    """The sentence that tells with which kit everything is proved and built."""
    done = subprocess.run(["rt", "version"], capture_output=True, text=True, check=True)
    logic = re.search(r"logic [0-9a-f]+", done.stdout)
    if logic is None:
        raise SystemExit("rt version names no logic: %s" % done.stdout.strip())
    return "All is proved and built with the Rattle kit of `%s`." % logic[0]


FACTS = {"kit": kit}


def with_fact(page, name, words):
    """The page with these words in the block of the name, of which there has to be one."""
    block = re.compile(r"(?m)^(<!-- %s -->\n)(?:(?!<!--).*\n)*(<!-- end -->)$" % re.escape(name))
    if len(block.findall(page)) != 1:
        raise SystemExit("%s: no block %s, or several" % (PAGE, name))
    return block.sub(lambda found: found[1] + words + "\n" + found[2], page)


def main(words):
    if words not in ([], ["--check"]):
        print(__doc__, file=sys.stderr)
        return 2
    path = os.path.join(ROOT, PAGE)
    with open(path, encoding="utf-8") as file:
        page = file.read()
    old = []
    for name, fact in FACTS.items():
        new = with_fact(page, name, fact())
        if new != page:
            old.append(name)
        page = new
    if words:
        for name in old:
            print("%s: %s isn't up to date: python3 tools/facts.py writes it" % (PAGE, name))
        print("facts: %d up to date, %d not" % (len(FACTS) - len(old), len(old)))
        return 1 if old else 0
    with open(path, "w", encoding="utf-8") as file:
        file.write(page)
    return 0


if __name__ == "__main__":
    sys.exit(main(sys.argv[1:]))
