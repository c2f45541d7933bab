"""Writes the greatest declaration and scripts that the limits allow, and what is to be printed of them.

usage: python3 tools/greatest FOLDER

Into FOLDER come `greatest.toml`; `NAME.script` and `NAME.expected` for each run below, with NAME and its declaration as
a line of the file `runs`; and scripts that come to a limit, with a line of each in the file `limits`: the script's
name, its declaration, the limit's name, the limit, and the number that one worker tells. The texts follow from rules
that are simple for these scripts: one client acts in each phase, so the transactions come one after another, and one
copy of each object gives the responses. Numbers and texts were compared with those of the model of docs/TESTING.md.

  objects     16 clients, one a phase, run transactions of 16 operations over the 16 objects of `greatest.toml`, each of
              which asks all 16 sites. The script has 1,048,576 bytes, most of them rules of links
  held        transactions of one read that are given up, of which the site isn't told, so that it holds each to the end
  replies     commands without a transaction, 1,048,576 bytes of them: the longest text
  phases      1,048,576 bytes of phases in which nothing happens
  controls    1,048,576 bytes of cuts and heals
  steps, operations, lines
              end one below the limit of that name. `NAME_past` has a little more, and comes to just the limit;
              `NAME_meet` comes to it by three clients at once
  restarts    2,048 restarts of one site, which read all its records each time: below the limit of lines. `restarts_past`
              has one more, and passes it; `restarts_meet` passes it by two sites
"""

import os
import sys

sys.dont_write_bytecode = True

from declaration import declaration  # noqa: E402 (no bytecode is written)
from limits import KINDS, LIMITS, MEETING, MOST  # noqa: E402
from runs import RUNS  # noqa: E402


def write(folder, name, text):
    with open(os.path.join(folder, name), "w", encoding="ascii") as file:
        file.write(text)


def main(words):
    if len(words) != 1 or not os.path.isdir(words[0]):
        print(__doc__, file=sys.stderr)
        return 2
    folder, runs, limits = words[0], "", ""
    write(folder, "greatest.toml", declaration())
    for name, make in RUNS.items():
        decl, script, text = make()
        write(folder, name + ".script", script)
        write(folder, name + ".expected", text)
        runs += "%s %s\n" % (name, decl)
    for name, make in LIMITS.items():
        script, text, past, told = make()
        kind = KINDS.get(name, name)
        write(folder, name + ".script", script)
        write(folder, name + ".expected", text)
        write(folder, name + "_past.script", past)
        runs += "%s @one\n" % name
        limits += "%s_past @one %s %d %d\n" % (name, kind, MOST[kind], told)
        script, told = MEETING[name]
        write(folder, name + "_meet.script", script)
        limits += "%s_meet @three %s %d %d\n" % (name, kind, MOST[kind], told)
    write(folder, "runs", runs)
    write(folder, "limits", limits)
    return 0


if __name__ == "__main__":
    sys.exit(main(sys.argv[1:]))
