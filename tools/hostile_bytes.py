"""The hostile journals and records of tools/hostile.py, and what it does to any bytes: cuts, changes, bytes put in and
left out. All of it follows from a seed. Fields, with their least and greatest values, are those of docs/JOURNAL.md.
"""

from collections import namedtuple

LONGEST_BODY = 65_536
CLOCK = 2**62
ORDINAL = 2**32 - 1
ABSENT = 255

# Any bytes.


def cuts(data):
    """Each beginning, the whole too."""
    return [data[:end] for end in range(len(data) + 1)]


def changes(data):
    """Each byte changed: to 0, 1, 255, one more, one less, a newline and a quote."""
    return [
        data[:at] + bytes([value]) + data[at + 1 :]
        for at, byte in enumerate(data)
        for value in sorted({0, 1, 255, (byte + 1) % 256, (byte - 1) % 256, 10, 34} - {byte})
    ]


def left_out(data):
    """Each byte left out."""
    return [data[:at] + data[at + 1 :] for at in range(len(data))]


def put_in(rng, data):
    """At each place a byte more: of those that texts have a meaning for, or any."""
    more = (b"\0", b"\1", b"\xff", b"\n", b"\r", b" ", b'"', b"#", b"0", b"[", b"=", b",", bytes([rng.randrange(256)]))
    return [data[:at] + rng.choice(more) + data[at:] for at in range(len(data) + 1)]


def random_bytes(rng, longest):
    return bytes(rng.randrange(256) for _ in range(rng.randrange(longest + 1)))


def some(rng, rows, count):
    """So many of the rows, or all."""
    return rng.sample(list(rows), min(count, len(rows)))


# Records. A field has its width in bytes, its value, and its least and greatest one.

Field = namedtuple("Field", "width value least most")


def spelled(fields):
    return b"".join(it.value.to_bytes(it.width, "big") for it in fields)


def tx(client, life, number):
    return [Field(1, client, 0, 15), Field(4, life, 1, ORDINAL), Field(4, number, 1, ORDINAL)]


def lock(object_, inv):
    return [Field(1, object_, 0, 15), Field(1, inv, 0, 31)]


def own(op, object_, event):
    return [Field(1, op, 1, 16), Field(1, object_, 0, 15), Field(1, event, 0, 63)]


def line(clock, client, life, number, op, object_, event):
    return [Field(8, clock, 1, CLOCK), *tx(client, life, number), *own(op, object_, event)]


def operation(object_, inv, resp):
    return [*lock(object_, inv), Field(1, resp, 0, 31)]


def counted(width, most, items):
    """A list behind its count."""
    return [Field(width, len(items), 0, most), *(field for item in items for field in item)]


def kind(number):
    return [Field(1, number, 1, 7)]


def prepare(name, epoch, locks, owns, lines):
    lists = counted(2, 65_535, locks) + counted(1, 16, owns) + counted(4, ORDINAL, lines)
    return kind(2) + name + [Field(1, epoch, 1, 8)] + lists


def done(name, clock):
    return kind(3) + name + [Field(8, clock, 1, CLOCK)]


def start(number, epoch, clock, lines):
    """An Install or a Decide."""
    return kind(number) + [Field(1, epoch, 1, 8), Field(8, clock, 0, CLOCK)] + counted(4, ORDINAL, lines)


def commit(name, clock, operations):
    return kind(6) + done(name, clock)[1:] + counted(1, 16, operations)


LEAST, GREATEST = tx(0, 1, 1), tx(15, ORDINAL, ORDINAL)
LEAST_LINE, GREATEST_LINE = (1, 0, 1, 1, 1, 0, 0), (CLOCK, 15, ORDINAL, ORDINAL, 16, 15, 63)
LINES = [line(*LEAST_LINE), line(7, 2, 1, 3, 4, 5, 6), line(*GREATEST_LINE)]
OWNS = [own(op, 15, 63) for op in range(1, 17)]
OPERATIONS = [operation(15, 31, 31)] * 8 + [operation(0, 0, ABSENT)] * 8
RECORDS = [
    kind(1),
    prepare(LEAST, 1, [], [], []),
    prepare(GREATEST, 8, [lock(0, 0), lock(0, 31), lock(15, 31)], OWNS, LINES),
    prepare(tx(1, 2, 3), 1, [lock(0, 0)], [own(1, 0, 1), own(3, 0, 2)], [line(7, 2, 1, 3, 4, 5, 6)]),
    done(LEAST, 1),
    done(GREATEST, CLOCK),
    kind(4) + [Field(1, 1, 1, 8)],
    kind(4) + [Field(1, 8, 1, 8)],
    start(5, 1, 0, []),
    start(5, 8, CLOCK, LINES),
    commit(LEAST, 1, []),
    commit(GREATEST, CLOCK, OPERATIONS),
    commit(tx(0, 1, 1), 5, [operation(0, 2, 2)]),
    start(7, 1, 0, []),
    start(7, 8, CLOCK, LINES[:2]),
]


def edges(fields):
    """Each field at its limits, past them, and with the greatest number that it has room for."""
    for at, it in enumerate(fields):
        room = 256**it.width
        values = {it.least - 1, it.least, it.least + 1, it.most - 1, it.most, it.most + 1, room - 2, room - 1}
        for value in sorted(values):
            if 0 <= value < room:
                yield spelled([*fields[:at], it._replace(value=value), *fields[at + 1 :]])


def pairs(numbers, item):
    """Two items: the second as the first but for one number, one more or one less, and those behind it the least."""
    yield [item(*numbers), item(*numbers)]
    for at, number in enumerate(numbers):
        for other in (number - 1, number + 1):
            yield [item(*numbers), item(*numbers[:at], other, *numbers[at + 1 :])]
            yield [item(*numbers), item(*numbers[:at], other, *LEAST_LINE[at + 1 :][: len(numbers) - at - 1])]


def lists():
    """Records whose lists are in and out of order."""
    for locks in pairs((3, 3), lock):
        yield prepare(LEAST, 1, locks, [], [])
    for owns in pairs((3, 3, 3), own):
        yield prepare(LEAST, 1, [], owns, [])
    for lines in pairs((7, 2, 3, 4, 5, 6, 7), line):
        yield prepare(LEAST, 1, [], [], lines)
        yield start(5, 1, 0, lines)
        yield start(7, 1, 0, [*lines, line(*GREATEST_LINE)])
        yield start(7, 1, 0, [line(*GREATEST_LINE), *lines])
    yield prepare(LEAST, 1, [], [*OWNS, own(17, 0, 0)], [])
    yield prepare(LEAST, 1, [lock(o, i) for o in range(16) for i in range(32)], [], [])
    yield commit(LEAST, 1, [*OPERATIONS, operation(0, 0, 0)])
    yield start(5, 1, 0, [line(clock, 0, 1, 1, 1, 0, 0) for clock in range(1, 3_277)])


def records(rng):
    """The bodies: good ones, and each way to spoil them."""
    rows = [spelled(fields) for fields in [*RECORDS, *lists()]]
    for fields in RECORDS:
        body = spelled(fields)
        rows += cuts(body) + list(edges(fields)) + some(rng, changes(body), 220)
        rows += some(rng, left_out(body), 40) + some(rng, put_in(rng, body), 40)
        rows += [body + body, body + b"\0", bytes([rng.randrange(8, 256)]) + body[1:]]
    rows += [bytes([first]) for first in range(256)]
    rows += [bytes([rng.randrange(1, 8)]) + random_bytes(rng, 60) for _ in range(200)]
    rows += [random_bytes(rng, 40) for _ in range(100)]
    return list(dict.fromkeys(rows))


# Journals.


def framed(body, gate=1):
    """A record: a gate, a length and a body."""
    return bytes([gate]) + len(body).to_bytes(4, "big") + body


def lengths(rng):
    """A length at its limits and past them, with just so many bytes behind it, one less, and more."""
    body = spelled(RECORDS[3])
    counts = (0, 1, 2, len(body) - 1, len(body), len(body) + 1, LONGEST_BODY - 1, LONGEST_BODY, LONGEST_BODY + 1)
    for before in (b"", framed(body)):
        for count in (*counts, 2**16 + 2**8, 2**24, 2**31 - 1, 2**31, ORDINAL):
            head = before + b"\1" + count.to_bytes(4, "big")
            yield head + body + b"\0"
            if count <= LONGEST_BODY + 1:
                filled = head + bytes([rng.randrange(256)]) * count
                yield from (filled[:-1], filled, filled + b"\0", filled + b"\0\1", filled + b"\1")


def journals(rng):
    """The bytes of disks: good journals, and each way to spoil them."""
    bodies = [spelled(fields) for fields in RECORDS]
    least, whole = framed(bodies[0]) + b"\0", b"".join(map(framed, bodies))
    rows = [b"", *(bytes([byte]) for byte in range(256)), *(bytes([byte, 0]) for byte in range(256))]
    rows += [framed(bodies[6], gate) + b"\0" for gate in range(1, 256)] + list(lengths(rng))
    for journal in (least, whole + b"\0", b"".join(map(framed, bodies[3:7])) + b"\0tail", framed(b"abc") * 3 + b"\0"):
        rows += cuts(journal) + some(rng, changes(journal), 450)
        rows += some(rng, left_out(journal), 120) + some(rng, put_in(rng, journal), 120)
    for at in range(len(bodies)):
        rows.append(b"".join(map(framed, bodies[:at] + bodies[at + 1 :])) + b"\0")
        rows.append(b"".join(map(framed, bodies[: at + 1] + bodies[at:])) + b"\0" + random_bytes(rng, 9))
        rows.append(b"".join(map(framed, bodies[at:] + bodies[:at])) + b"\0")
    rows += [bytes([rng.randrange(1, 3), 0, 0, 0]) + random_bytes(rng, 40) for _ in range(200)]
    rows += [random_bytes(rng, 40) for _ in range(100)]
    return list(dict.fromkeys(rows))
