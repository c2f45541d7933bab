#!/usr/bin/env python3
"""Empties actors' files while a run goes on, whose last phases have these actors rise.

usage: .ci/shortened.py PROGRAM FOLDER

Called by `.ci/folders`, with a new folder. A client writes and commits, another commits many times, and then two sites
fall and rise, of which a read would take what the first one wrote. The run is held (SIGSTOP) while the files of these
sites are emptied. They have to stay down: what they had promised is gone, and a text in which they rose without it
would be wrong. Prints the text's lines of states and sites; ends with status 1 where the run was over before.
"""

import os
import signal
import subprocess
import sys

PHASES = 4000
SCRIPT = ["phase", "c0 begin", "c0 do x W1", "c0 commit"] + ["phase", "c1 begin", "c1 commit"] * PHASES
SCRIPT += ["phase", "crash s0", "restart s0", "crash s1", "restart s1", "c2 begin", "c2 do x R", "c2 commit"]


def holds_bytes(path):
    return os.path.exists(path) and os.path.getsize(path) > 1


def main(program, folder):
    script, kept = os.path.join(folder, "script"), os.path.join(folder, "kept")
    with open(script, "w") as file:
        file.writelines(line + "\n" for line in SCRIPT)
    os.mkdir(kept)
    files = [os.path.join(kept, "actor-%02d" % actor) for actor in range(7)]
    with open(os.path.join(folder, "text"), "w+") as text:
        run = subprocess.Popen([program, "run", "@three", script, "--dir", kept], stdin=subprocess.DEVNULL, stdout=text)
        while not holds_bytes(files[4]) and run.poll() is None:
            pass
        run.send_signal(signal.SIGSTOP)
        over = os.path.getsize(files[4]) >= 20 * PHASES
        for path in files[:2]:
            os.truncate(path, 0)
        run.send_signal(signal.SIGCONT)
        status = run.wait(timeout=120)
        text.seek(0)
        lines = text.read().split("\n")
    print("status %d" % status, *lines[lines.index("states") + 1 :], sep="|")
    return 1 if over else 0


if __name__ == "__main__":
    sys.exit(main(*sys.argv[1:]))
