#!/usr/bin/env python3
"""Reads the journals of folders, and prints each record in a line.

usage: tools/journals.py [--summary] FOLDER..

Of each folder the files `actor-NN` are read, in their order, by docs/JOURNAL.md: gates, lengths and bodies, up to the
first closed gate, and each body as a record. It is written apart from the program, and changes no file. A line has the
file's name, the offset of the record's gate, the record's kind and its fields:

    runs/actor-03 0 Commit tx 0.1.1 clock 1 operations 0.2.2 0.0.1

What is counted from 0 there are, as numbers: objects, invocations, responses and events in the order of the
declaration. A transaction is client.life.number, a lock object.invocation, an own line op.object.event, a line
clock/transaction/op.object.event, an operation object.invocation.response, or object.invocation.absent; `-` is none.

With `--summary` there is one line for each file, with its records and the offset of the gate that ends them. A file
that is no journal is told with the offset of the gate where that begins, and a body that is no record with the offset
where it ceases to be one: at the first field out of its range or out of order, at its end within a field, or at the
first byte behind the last. Status 0 where each file reads as a journal of records, 1 where one doesn't, where one can't
be read and where a folder has none, 2 for other words.
"""

import os
import re
import sys

LONGEST_BODY = 65_536
GREATEST = 2**32 - 1
GREATEST_CLOCK = 2**62
ABSENT = 255


class Wrong(Exception):
    """The offset at which bytes cease to be what they are read as, and what they aren't there."""

    def __init__(self, offset, what):
        super().__init__("%d: %s" % (offset, what))
        self.offset, self.what = offset, what


# Journals.


def bodies_of(journal):
    """The offset of each record's gate with its body, and the offset of the gate that ends them."""
    bodies, gate = [], 0
    while len(journal) > 1 and journal[gate] != 0:
        begin = gate + 5
        length = int.from_bytes(journal[gate + 1 : begin], "big")
        # The next gate is behind the body, so it has to be there too.
        if not 1 <= length <= LONGEST_BODY or begin + length >= len(journal):
            raise Wrong(gate, "torn")
        bodies.append((gate, journal[begin : begin + length]))
        gate = begin + length
    return bodies, gate


# Bodies. Each number is read with its bounds.


def numbers_in(item):
    """The numbers of an item, in their order."""
    return [number for part in item for number in numbers_in(part)] if isinstance(item, tuple) else [item]


class Body:
    """A body that is being read."""

    def __init__(self, body, begin):
        self.body, self.begin, self.at = body, begin, 0
        # The numbers of the item before, from the next one on, as long as those up to here were the same.
        self.tied = []

    def number(self, width, least, most):
        """The next number, of so many bytes."""
        behind = self.at + width
        if behind > len(self.body):
            raise Wrong(self.begin + len(self.body), "no whole record")
        found = int.from_bytes(self.body[self.at : behind], "big")
        if not least <= found <= most:
            raise Wrong(self.begin + self.at, "no record")
        if self.tied:
            before, *rest = self.tied
            if found < before or found == before and not rest:
                raise Wrong(self.begin + self.at, "not above the one before")
            self.tied = rest if found == before else []
        self.at = behind
        return found

    def rising(self, count, item, key=lambda item: item):
        """So many items, each above the one before: by the first number that differs."""
        items = []
        for _ in range(count):
            self.tied = numbers_in(key(items[-1])) if items else []
            items.append(item())
        return items

    def end(self):
        if self.at != len(self.body):
            raise Wrong(self.begin + self.at, "bytes behind a record")

    # Parts of records.

    def client(self):
        return self.number(1, 0, 15)

    def object(self):
        return self.number(1, 0, 15)

    def invocation(self):
        return self.number(1, 0, 31)

    def event(self):
        return self.number(1, 0, 63)

    def op(self):
        return self.number(1, 1, 16)

    def epoch(self):
        return self.number(1, 1, 8)

    def stamp_clock(self):
        return self.number(8, 1, GREATEST_CLOCK)

    def clock(self):
        return self.number(8, 0, GREATEST_CLOCK)

    def tx(self):
        return self.client(), self.number(4, 1, GREATEST), self.number(4, 1, GREATEST)

    def lock(self):
        return self.object(), self.invocation()

    def own(self):
        return self.op(), self.object(), self.event()

    def line(self):
        return self.stamp_clock(), self.tx(), self.own()

    def lines(self):
        return self.rising(self.number(4, 0, GREATEST), self.line)

    def operation(self):
        return self.object(), self.invocation(), self.response()

    def response(self):
        found = self.number(1, 0, ABSENT)
        if 31 < found < ABSENT:
            raise Wrong(self.begin + self.at - 1, "no record")
        return "absent" if found == ABSENT else found


# Records: each kind gives its fields by their names, in their order.


def life(body):
    return []


def prepare(body):
    return [
        ("tx", body.tx()),
        ("epoch", body.epoch()),
        ("locks", body.rising(body.number(2, 0, 65_535), body.lock)),
        ("own", body.rising(body.number(1, 0, 16), body.own, key=lambda own: own[:1])),
        ("lines", body.lines()),
    ]


def done(body):
    return [("tx", body.tx()), ("clock", body.stamp_clock())]


def close(body):
    return [("epoch", body.epoch())]


def install(body):
    return [("epoch", body.epoch()), ("clock", body.clock()), ("lines", body.lines())]


def commit(body):
    return done(body) + [("operations", [body.operation() for _ in range(body.number(1, 0, 16))])]


KINDS = {
    1: ("Life", life),
    2: ("Prepare", prepare),
    3: ("Done", done),
    4: ("Close", close),
    5: ("Install", install),
    6: ("Commit", commit),
    7: ("Decide", install),
}


def record_of(bytes_of_body, begin):
    """The record of a body that begins at this offset: its kind's name, and its fields by their names."""
    body = Body(bytes_of_body, begin)
    name, fields = KINDS[body.number(1, 1, 7)]
    record = name, dict(fields(body))
    body.end()
    return record


def records_of(journal):
    """The records, each as the offset of its gate, its kind's name and its fields; and the offset of the last gate."""
    bodies, end = bodies_of(journal)
    return [(gate, *record_of(body, gate + 5)) for gate, body in bodies], end


# Texts.


def text_of(value):
    """A field's text."""
    if isinstance(value, list):
        return " ".join(map(text_of, value)) or "-"
    if isinstance(value, tuple):
        return ("/" if any(isinstance(part, tuple) for part in value) else ".").join(map(text_of, value))
    return str(value)


def text_of_record(kind, fields):
    return " ".join([kind] + ["%s %s" % (name, text_of(value)) for name, value in fields.items()])


# Folders.


def journals_of(folder):
    """The paths of a folder's journals, in the order of their actors."""
    return [os.path.join(folder, name) for name in sorted(os.listdir(folder)) if re.fullmatch("actor-[0-9]{2}", name)]


def tell(path, summary):
    """Prints what a file has; whether it is a journal of records."""
    try:
        with open(path, "rb") as file:
            journal = file.read()
        bodies, end = bodies_of(journal)
        for gate, body in [] if summary else bodies:
            print(path, gate, text_of_record(*record_of(body, gate + 5)))
        if summary:
            records_of(journal)
            print("%s: %d records, then the gate at %d of %d bytes" % (path, len(bodies), end, len(journal)))
        return True
    except (Wrong, OSError) as wrong:
        print("%s: %s" % (path, wrong.strerror if isinstance(wrong, OSError) else wrong))
        return False


def main(words):
    summary = "--summary" in words
    folders = [word for word in words if word != "--summary"]
    if not folders or any(word.startswith("-") for word in folders):
        print("usage: tools/journals.py [--summary] FOLDER..", file=sys.stderr)
        return 2
    right = True
    for folder in folders:
        try:
            paths = journals_of(folder)
        except OSError as wrong:
            print("%s: %s" % (folder, wrong.strerror))
            paths = []
        right &= bool(paths)
        for path in paths:
            right &= tell(path, summary)
    return 0 if right else 1


if __name__ == "__main__":
    sys.exit(main(sys.argv[1:]))
