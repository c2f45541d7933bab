#!/usr/bin/env python3
"""Runs a long script with standard error on a terminal and on a pipe, each held for more than a second in its midst.

usage: .ci/progress.py PROGRAM FOLDER

On the terminal the run has to tell how far it is, in one line that is taken away in the end, and on the pipe nothing.
Where it was held before it began, or after its end, it is run once more and held later. Prints what was told on both, with
the numbers left out.
"""

import os
import pty
import re
import signal
import subprocess
import sys
import time

PHASES = 9000
# After how many seconds a run is held, until one tells something.
DELAYS = 0.02, 0.05, 0.1, 0.2, 0.4, 0.8
LINES = "phase\nc%d begin\nc%d do x R\nc%d abort\n"


def told(command, delay, far, near):
    """What a run tells that writes to the near end, and is held after so many seconds."""
    run = subprocess.Popen(command, stdin=subprocess.DEVNULL, stdout=subprocess.DEVNULL, stderr=near)
    os.close(near)
    time.sleep(delay)
    run.send_signal(signal.SIGSTOP)
    time.sleep(1.2)
    run.send_signal(signal.SIGCONT)
    text = b""
    while True:
        try:
            more = os.read(far, 4096)
        except OSError:
            break
        if not more:
            break
        text += more
    run.wait()
    os.close(far)
    return text.decode()


def main(program, folder):
    script = os.path.join(folder, "long")
    with open(script, "w") as file:
        file.writelines(LINES % ((k % 3,) * 3) for k in range(PHASES))
    command = [program, "run", "@three", script]
    for delay in DELAYS:
        on_terminal = told(command, delay, *pty.openpty())
        if on_terminal:
            break
    on_pipe = told(command, delay, *os.pipe())
    lines = sorted(set(re.sub("[0-9]+", "N", on_terminal.replace("\x1b[K", "<")).split("\r")))
    print(*lines, on_pipe or "nothing", sep="|")


if __name__ == "__main__":
    main(*sys.argv[1:])
