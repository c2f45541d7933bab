#!/usr/bin/env python3
"""Gives hostile bytes to what reads bytes from outside, and compares each answer with what the definitions say.

usage: tools/hostile.py [--seed N] [--spoil] [PROGRAM]

PROGRAM is crates/quorum/out/quorum unless it is given; it has to be built. Four kinds of rows, each with its answer:

- journals: which bodies `Journal::open` of qc_journal gives of a disk's bytes, or at which offset they are torn;
- records: which record `read_bytes` of qc_record gives of a body, or the offset of the fault;
- declarations: what `quorum check` prints, and its status;
- scripts: what `quorum run` says on standard error of a script that is refused, and its status; of another one that it
  says nothing there, and that the status is 0. Half of them are over `@three`, half over a declaration of other names.

The rows are made by hostile_bytes.py, hostile_declarations.py and hostile_scripts.py, all of it by the seed, 1 unless
it is given. What is to be answered is computed by code that was written apart from the program: journals.py,
plain_declarations.py and plain_scripts.py. For the first two kinds a program of hostile_journals.rt.in is built with no
proof, in a minute. Rows that the kit's reader of TOML takes otherwise than Python's name another text that is to be
answered the same.

At most ten rows whose answer is another are printed, the shortest first; then a line for each kind, and how often each
refusal came. Ends with status 1 where a row isn't answered as it has to be, and where a refusal never came.

With --spoil one row of each refusal, and of each good answer, is run with a wrong answer to be compared with, and one
with the right one: ends with status 0 where just the spoiled ones are found to differ.
"""

import argparse
import collections
import concurrent.futures
import os
import random
import subprocess
import sys
import tempfile

sys.dont_write_bytecode = True

HERE = os.path.dirname(os.path.abspath(__file__))
ROOT = os.path.dirname(HERE)
sys.path.append(os.path.join(ROOT, "bench"))

import hostile_bytes
import hostile_declarations
import hostile_scripts
import journals
import plain_declarations
import plain_refusals
import plain_scripts
import programs

USES = "qc_stamp", "qc_entry", "qc_msg", "qc_outside", "qc_journal", "qc_record"
GOOD = "read"
TORN = "no whole length", "a length of 0", "a length above 65536", "no whole body", "no gate behind the body"
FAULTS = "an unknown kind", "no record", "not above the one before", "no whole record", "bytes behind a record"
# The refusals of each kind, each of which has to come.
RULES = {
    "journals": TORN,
    "records": FAULTS,
    "declarations": plain_refusals.RULES,
    "scripts": plain_scripts.REFUSALS,
}

# A row is of a kind; `call` says how it is asked; `wanted` is the answer: a line of the made program, or a status,
# standard error, and standard output where that is compared. The rule is the refusal's, or GOOD.
Row = collections.namedtuple("Row", "kind call data wanted rule")


# What is to be answered.


def why_torn(data, gate):
    """Why no record stands behind an open gate."""
    length = int.from_bytes(data[gate + 1 : gate + 5], "big")
    if len(data) < gate + 5:
        return TORN[0]
    if not 1 <= length <= journals.LONGEST_BODY:
        return TORN[2] if length else TORN[1]
    return TORN[3] if len(data) < gate + 5 + length else TORN[4]


def journal_row(number, data):
    """A journal, on a disk of one kind or the other."""
    try:
        bodies, end = journals.bodies_of(data)
    except journals.Wrong as wrong:
        return Row("journals", number % 2, data, "torn at %d" % wrong.offset, why_torn(data, wrong.offset))
    told = ["%d records, end %d" % (len(bodies), end)] + [body.hex() for _, body in bodies]
    return Row("journals", number % 2, data, " ".join(told), GOOD)


def record_row(data):
    if data and data[0] not in journals.KINDS:
        return Row("records", 2, data, "unknown kind %d" % data[0], FAULTS[0])
    try:
        return Row("records", 2, data, journals.text_of_record(*journals.record_of(data, 0)), GOOD)
    except journals.Wrong as wrong:
        return Row("records", 2, data, "torn at %d" % wrong.offset, wrong.what)


def declaration_row(data, asked):
    words = "check", None
    try:
        told = plain_declarations.told(plain_declarations.read(asked))
        return Row("declarations", words, data, (0, b"", told), GOOD)
    except plain_refusals.Refused as refused:
        return Row("declarations", words, data, (2, refused.text, b""), refused.rule)


def script_row(names, name, data):
    words = "run", name, None
    try:
        plain_scripts.read(names, data)
        return Row("scripts", words, data, (0, b"", None), GOOD)
    except plain_scripts.Refused as refused:
        return Row("scripts", words, data, (3, refused.text, b""), refused.rule)


def all_rows(seed, other):
    """All rows; the declaration with other names stands in a file."""
    rng = random.Random(seed)
    rows = [journal_row(number, data) for number, data in enumerate(hostile_bytes.journals(rng))]
    rows += [record_row(data) for data in hostile_bytes.records(rng)]
    rows += [declaration_row(*row) for row in hostile_declarations.declarations(rng)]
    names = plain_scripts.names_of(plain_declarations.read(hostile_scripts.OTHER))
    for data, is_other in hostile_scripts.scripts(rng):
        rows.append(script_row(names, other, data) if is_other else script_row(plain_scripts.THREE, "@three", data))
    return rows


# What is answered.


def made_lines(folder, rows):
    """The lines of the made program for rows of journals and records."""
    name, lines = (os.path.join(folder, it) for it in ("rows", "lines"))
    with open(name, "wb") as file:
        for row in rows:
            file.write(bytes([row.call]) + len(row.data).to_bytes(4, "big") + row.data)
    template = os.path.join(HERE, "hostile_journals.rt.in")
    made = programs.lay_out(os.path.join(folder, "made"), "hostile_journals", template, USES)
    words = "rt", "try", "--", name, lines
    ran = subprocess.run(words, cwd=made, stdin=subprocess.DEVNULL, capture_output=True, text=True)
    if ran.returncode:
        sys.exit("the made program: status %d\n%s" % (ran.returncode, ran.stderr[-4_000:]))
    with open(lines) as file:
        return file.read().splitlines()


def answer(program, folder, number, row):
    """What the program says of a declaration or a script, in the form in which it is wanted."""
    name = os.path.join(folder, str(number))
    with open(name, "wb") as file:
        file.write(row.data)
    words = [program, *(name if word is None else word for word in row.call)]
    try:
        ran = subprocess.run(words, stdin=subprocess.DEVNULL, capture_output=True, timeout=120)
    except subprocess.TimeoutExpired:
        return "no end within two minutes"
    finally:
        os.remove(name)
    return ran.returncode, ran.stderr, None if row.wanted[2] is None else ran.stdout


def answers(program, folder, rows):
    """The answer of each row, several at a time."""
    made = iter(made_lines(folder, [row for row in rows if isinstance(row.call, int)]))

    def found(number):
        row = rows[number]
        return None if isinstance(row.call, int) else answer(program, folder, number, row)

    with concurrent.futures.ThreadPoolExecutor(os.cpu_count()) as pool:
        return [next(made, "no line") if it is None else it for it in pool.map(found, range(len(rows)))]


# What is told.


def spoiled(row):
    """The row with a wrong answer: another status where nothing is said, else another last letter."""
    if isinstance(row.wanted, str):
        return row._replace(wanted=row.wanted[:-1] + ("1" if row.wanted[-1] != "1" else "2"))
    status, error, output = row.wanted
    if error:
        return row._replace(wanted=(status, error[:-2] + bytes([error[-2] ^ 1]) + b"\n", output))
    return row._replace(wanted=(status ^ 1, error, output))


def spoil(rows):
    """Of each kind and rule a spoiled row and, where there is one, a right one; and the numbers of the spoiled ones."""
    found = collections.defaultdict(list)
    for row in rows:
        found[row.kind, row.rule].append(row)
    picked = [it for same in found.values() for it in (spoiled(same[len(same) // 2]), *same[-1:])]
    return picked, [number for number, row in enumerate(picked) if row not in rows]


def show(row, found):
    data = row.data if len(row.data) <= 400 else row.data[:400] + b".."
    print("%s, %s: %r\n    is to give %r\n    gives      %r" % (row.kind, row.rule, data, row.wanted, found))


def group_of(kind, rule):
    """A refusal's part of a kind's line; and where it is told in a line of its own, that line's head and what it is."""
    if rule in plain_refusals.GROUPS and kind == "declarations":
        return plain_refusals.GROUPS[rule], plain_refusals.GROUPS[rule], rule
    head, _, why = rule.partition(": ")
    if kind == "declarations" and why:
        return "field", "field " + head, why
    return head, head if why else None, why


def tell(rows):
    """A line for each kind, and how often each of its refusals came. Whether each did."""
    counts = collections.Counter((row.kind, row.rule) for row in rows)
    missing = [(kind, rule) for kind, rules in RULES.items() for rule in (GOOD, *rules) if not counts[kind, rule]]
    for kind, rules in RULES.items():
        groups, told = collections.Counter(), collections.defaultdict(list)
        for rule in (GOOD, *rules):
            group, head, what = group_of(kind, rule)
            groups[group] += counts[kind, rule]
            told[head].append("%s %d" % (what, counts[kind, rule]))
        total = sum(groups.values())
        print("%s: %d rows: %s" % (kind, total, ", ".join("%s %d" % group for group in groups.items())))
        for head in filter(None, told):
            print("    %s: %s" % (head, ", ".join(told[head])))
    for kind, rule in missing:
        print("%s: this never came: %s" % (kind, rule))
    return not missing


def main():
    parser = argparse.ArgumentParser(usage="tools/hostile.py [--seed N] [--spoil] [PROGRAM]", add_help=False)
    parser.add_argument("--seed", type=int, default=1)
    parser.add_argument("--spoil", action="store_true")
    parser.add_argument("program", nargs="?", default=os.path.join(ROOT, "crates/quorum/out/quorum"))
    words = parser.parse_args()
    with tempfile.TemporaryDirectory() as folder:
        other = os.path.join(folder, "other.toml")
        with open(other, "wb") as file:
            file.write(hostile_scripts.OTHER)
        rows = all_rows(words.seed, other)
        rows, spoils = spoil(rows) if words.spoil else (rows, [])
        found = answers(os.path.abspath(words.program), folder, rows)
    wrong = [number for number, row in enumerate(rows) if found[number] != row.wanted]
    if words.spoil:
        print("%d rows, %d of them spoiled, %d found to differ" % (len(rows), len(spoils), len(wrong)))
        return 0 if wrong == spoils else 1
    for number in sorted(wrong, key=lambda number: len(rows[number].data))[:10]:
        show(rows[number], found[number])
    print("%d rows, %d of them answered otherwise" % (len(rows), len(wrong)))
    return 0 if tell(rows) and not wrong else 1


if __name__ == "__main__":
    sys.exit(main())
