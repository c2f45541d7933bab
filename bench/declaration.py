#!/usr/bin/env python3
"""Measures how a declaration of nearly 4 MiB is read: by `accept` of qc_accept,
beside the kit's reader of TOML alone over the same text.

usage: bench/declaration.py [RUNS]

Makes a program of declaration_read.rt.in on a copy of the crates in a temporary
folder, proves and builds it with rt, and runs it on one text in turn RUNS times,
7 unless it is given: only taking the file, reading it as TOML, and accepting it.
The text has 8 types with the most rows and many triples, 16 objects, and each
threshold in each of 8 epochs. The first type's triples lack the start, so that
certificates end at once. Seconds are those of the processor, less those of
taking the file. Ends with status 1 where `accept` takes more than three times
the reader's time, or more memory than 40 times the text's size.
"""

import os
import statistics
import subprocess
import sys
import tempfile

sys.dont_write_bytecode = True

import programs

USES = ("qc_cert", "qc_accept", "toml")
MOST_BYTES = 4_194_304
CASES = ("read", "toml", "accept")
WANTED = {"read": "", "toml": "a table", "accept": "no start triple"}
TYPES, STATES, INVS, RESPS = 8, 64, 32, 2
OBJECTS, EPOCHS, SITES = 16, 8, 16


def name(kind, number):
    """A name of 12 letters."""
    return "%s_%07d" % (kind, number)


def texts(key, items):
    """A line of an array of texts."""
    return "%s = [%s]\n" % (key, ", ".join('"%s"' % item for item in items))


def event(number):
    """The event of this number: of the invocation of half of it."""
    return "%s:%s" % (name("call", number // RESPS), name("resp", number % RESPS))


def rows():
    """Each event in each state."""
    for state in range(STATES):
        for inv in range(INVS):
            for resp in range(RESPS):
                to = (state + 5 * inv + resp) % STATES
                yield "%s %s %s %s" % (name("mode", state), name("call", inv), name("resp", resp), name("mode", to))


def triples(count):
    """So many triples, none of them of two states that are the same."""
    for number in range(count):
        view = number % STATES
        log = (view + 1 + number // STATES % (STATES - 1)) % STATES
        out = ",".join(event((number + step) % (INVS * RESPS)) for step in range(number % 3 + 1))
        yield "%s %s %s" % (name("mode", view), name("mode", log), out)


def type_text(number, count):
    """A type with so many triples."""
    invs = [name("call", inv) for inv in range(INVS)]
    return "[[type]]\n" + "".join((
        'name = "%s"\n' % name("type", number),
        texts("states", [name("mode", state) for state in range(STATES)]),
        'start = "%s"\n' % name("mode", 0),
        texts("invocations", invs),
        texts("responses", [name("resp", resp) for resp in range(RESPS)]),
        texts("rows", rows()),
        texts("depends", ["%s %s" % (inv, event(e)) for inv in invs for e in range(0, 64, 8)]),
        texts("triples", triples(count)),
    ))


def epoch_text():
    """An epoch that lists each threshold."""
    objects = [name("item", number) for number in range(OBJECTS)]
    initial = ["%s %s 9" % (o, name("call", inv)) for o in objects for inv in range(INVS)]
    final = ["%s %s 9" % (o, event(e)) for o in objects for e in range(INVS * RESPS)]
    weights = "weights = [%s]\n" % ", ".join(["1"] * SITES)
    return "[[epoch]]\n" + weights + texts("initial", initial) + texts("final", final)


def document(count):
    """A declaration whose types have so many triples each."""
    objects = ('[[object]]\nname = "%s"\ntype = "%s"\n' % (name("item", o), name("type", o % TYPES)) for o in range(OBJECTS))
    types = (type_text(number, count) for number in range(TYPES))
    return "sites = %d\nclients = 1\n%s" % (SITES, "".join((*types, *objects, EPOCHS * epoch_text())))


def longest():
    """The declaration with the most triples that is within the limit."""
    empty, one = (len(document(count)) for count in (0, 300))
    count = (MOST_BYTES - empty) * 300 // (one - empty) - 2
    return document(count)


def seconds(program, case, path):
    """The processor's seconds of one run."""
    child = subprocess.Popen([program, case, path], stdout=subprocess.PIPE)
    told = child.stdout.read().decode()
    _, status, usage = os.wait4(child.pid, 0)
    child.returncode = os.waitstatus_to_exitcode(status)
    if child.returncode != 0 or not told.endswith("bytes %s\n" % WANTED[case]):
        sys.exit("status %d of %s: %s" % (child.returncode, case, told))
    return usage.ru_utime + usage.ru_stime


def peak(program, case, path):
    """The peak memory in KB of one run."""
    done = subprocess.run(["/usr/bin/time", "-f", "%M", program, case, path], capture_output=True, text=True)
    return int(done.stderr)


def main():
    runs = int(sys.argv[1]) if len(sys.argv) > 1 else 7
    text = longest()
    with tempfile.TemporaryDirectory() as folder:
        program = programs.build(folder, "reader", "declaration_read.rt.in", USES)
        path = os.path.join(folder, "text")
        with open(path, "w") as file:
            file.write(text)
        seen = {case: [] for case in CASES}
        for _ in range(runs):
            for case in CASES:
                seen[case].append(seconds(program, case, path))
        peaks = {case: peak(program, case, path) for case in CASES}
    found = {case: statistics.median(seen[case]) for case in CASES}
    for case in CASES:
        print("%-6s %6.1f ms %7d KB" % (case, 1000 * found[case], peaks[case]))
    ratio = (found["accept"] - found["read"]) / (found["toml"] - found["read"])
    size = 1024 * peaks["accept"] / len(text)
    print("a text of %d bytes: accept / toml %.2f, at most 3; memory / text %.1f, at most 40" % (len(text), ratio, size))
    sys.exit(0 if len(text) <= MOST_BYTES and ratio <= 3 and size <= 40 else 1)


if __name__ == "__main__":
    main()
