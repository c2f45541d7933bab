#!/usr/bin/env python3
"""What the gate costs, by crate: runs `.ci/run` and watches it.

usage: gate_times.py LOG             at the top of the repository, best in a new clone
       gate_times.py --write LOG     writes the table of an earlier run into docs/TESTING.md, and runs nothing

The gate's text goes to LOG.out. In LOG, and on standard output, comes the table as docs/TESTING.md has it: for each
crate the processor seconds of its proof, its tests, its edits in must-fail/ and those in edits/ that were tried, added
up over the processes of the checker as each was seen last (three times a second), and the processor minutes of the
whole gate as the system counts them. Compare figures of one machine alone. It gives no verdict: it ends with the
gate's status.
"""
import collections
import os
import re
import subprocess
import sys
import time

TICK = os.sysconf("SC_CLK_TCK")
TOP = os.path.dirname(os.path.dirname(os.path.abspath(__file__)))
PARTS = "proof", "tests", "must-fail", "edits"
DOCUMENT = f"{TOP}/docs/TESTING.md"
BEGIN, END = "<!-- gate -->\n", "<!-- end -->"


def below(root):
    """Yields each process below this one, with the processor seconds that it has used."""
    kids = collections.defaultdict(list)
    for pid in filter(str.isdigit, os.listdir("/proc")):
        try:
            with open(f"/proc/{pid}/stat") as it:
                fields = it.read().rpartition(")")[2].split()
        except OSError:
            continue
        kids[int(fields[1])].append((int(pid), (int(fields[11]) + int(fields[12])) / TICK))
    rest = [root]
    while rest:
        for pid, used in kids[rest.pop()]:
            yield pid, used
            rest.append(pid)


def told(pid):
    """Returns the process's words and its folder, or nothing where it has ended."""
    try:
        with open(f"/proc/{pid}/cmdline", errors="replace") as it:
            return it.read().split("\0"), os.readlink(f"/proc/{pid}/cwd")
    except OSError:
        return None


def part_of(words, folder):
    """Returns the crate and the part of the gate that a process works for, or nothing."""
    if not words[0].endswith("/rattle") or "--crate-name" not in words:
        return None
    crate = words[words.index("--crate-name") + 1]
    if "/edits-" in folder:
        return crate, "edits"
    if "/rt-edit-" in folder:
        return crate, "must-fail"
    return crate, "tests" if "--test" in words else "proof"


def watch(gate):
    """Returns the processor seconds by crate and part, once the gate has ended."""
    parts, used = {}, {}
    while gate.poll() is None:
        for pid, seconds in below(gate.pid):
            if parts.get(pid) is None:
                known = told(pid)
                parts[pid] = known and part_of(*known)
            used[pid] = seconds
        time.sleep(0.3)
    spent = collections.Counter()
    for pid, part in parts.items():
        if part is not None:
            spent[part] += used[pid]
    return spent


def number_of_edits(crate, part):
    """Returns how many edits a crate has in must-fail/ or in edits/."""
    folder = f"{TOP}/edits/{crate}" if part == "edits" else f"{TOP}/crates/{crate}/must-fail"
    return len(os.listdir(folder)) if os.path.isdir(folder) else 0


def cell(spent, crate, part):
    seconds, edits = spent[crate, part], 0
    if part in ("must-fail", "edits"):
        edits = number_of_edits(crate, part)
    if not seconds and not edits:
        return " "
    said = f"{seconds:.0f}" if seconds else "not tried"
    return f"{said} ({edits})" if edits else said


def table(spent):
    """Yields the lines of the table, in the order of crates.txt."""
    yield f"| crate | {' | '.join(PARTS)} |"
    yield f"|---{'|---' * len(PARTS)}|"
    with open(f"{TOP}/crates.txt", encoding="utf-8") as it:
        crates = [line.split()[0].rstrip(":") for line in it if re.match(r"\w", line)]
    for crate in crates:
        yield f"| `{crate}` | {' | '.join(cell(spent, crate, part) for part in PARTS)} |"
    yield f"| all | {' | '.join(f'{sum(spent[it, part] for it in crates):.0f}' for part in PARTS)} |"


def machine():
    """Returns what the figures were measured on."""
    with open("/proc/cpuinfo", encoding="utf-8") as it:
        found = re.search(r"model name\s*:\s*(.*)", it.read())
    return f"{len(os.sched_getaffinity(0))} processors ({found[1] if found else 'of no name'})"


def write(log):
    """Puts the table of a run into the document, between its marks."""
    with open(log, encoding="utf-8") as it:
        lines = it.read()
    with open(DOCUMENT, encoding="utf-8") as it:
        before, mark, rest = it.read().partition(BEGIN)
    _, end, after = rest.partition(END)
    if not mark or not end:
        sys.exit(f"{DOCUMENT} lacks the marks of the gate's table")
    with open(DOCUMENT, "w", encoding="utf-8") as it:
        it.write(f"{before}{BEGIN}{lines}{END}{after}")


def main(log):
    began, before = time.time(), os.times()
    with open(f"{log}.out", "w", encoding="utf-8") as out:
        gate = subprocess.Popen(["bash", f"{TOP}/.ci/run"], stdout=out, stderr=out, stdin=subprocess.DEVNULL)
        spent = watch(gate)
    after = os.times()
    seconds = after.children_user + after.children_system - before.children_user - before.children_system
    said = f"Processor seconds of the gate of {time.strftime('%Y-%m-%d', time.gmtime(began))}, on {machine()}:"
    whole = f"The whole gate: {seconds / 60:.0f} processor minutes, {(time.time() - began) / 60:.0f} by the clock."
    text = "\n".join(["", said, "", *table(spent), "", whole, "", ""])
    with open(log, "w", encoding="utf-8") as it:
        it.write(text)
    print(text)
    return gate.returncode


if __name__ == "__main__":
    if sys.argv[1:2] == ["--write"] and len(sys.argv) == 3:
        sys.exit(write(sys.argv[2]))
    if len(sys.argv) != 2 or sys.argv[1].startswith("-"):
        sys.exit(__doc__)
    sys.exit(main(sys.argv[1]))
