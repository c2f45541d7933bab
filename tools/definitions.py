#!/usr/bin/env python3
"""Computes the definitions of the promise on small histories.

usage: tools/definitions.py

The definitions of hybrid atomicity (crates/theory_onecopy/specs/OneCopy.antt, and
of crates/qc_promise/specs Committed, Deals, Seen, Told, Atomic) once more, as a
plain program, so that they can be read, tried and doubted apart from the prover.
Each file of tools/histories/ has a history of `@one` or of `@three`, step by
step, and the text that is printed of it; both came from a model that was written
apart from this repository. Each history has to be atomic, with the committed
transactions and the states of its text. Then each is spoiled in every way that
`spoiled` knows, and no spoiled one may be atomic. Ends with status 1 where one
of these fails.
"""

import ast
import os
import sys
from collections import namedtuple

HERE = os.path.dirname(os.path.abspath(__file__))
Step = namedtuple("Step", "actor kind number message")
Commit = namedtuple("Commit", "stamp tx ops")
Value = namedtuple("Value", "name fields")

START = 0
INVOCATIONS = ("R", "W0", "W1")
RESPONSES = ("0", "1", "ok")
TABLE = {(0, 0, 0): 0, (1, 0, 1): 1, (0, 1, 2): 0, (1, 1, 2): 0, (0, 2, 2): 1, (1, 2, 2): 1}


# Reading a history. A transaction is (client, life, number), a stamp (clock,
# client), an operation (object, invocation, response or None), a line (stamp,
# transaction, operation's number, object, event).


def value(text):
    """The value of a text such as `Began(tx=(0, 1, 1))`."""
    return value_of(ast.parse(text, mode="eval").body)


def value_of(node):
    if isinstance(node, ast.Call):
        return Value(node.func.id, {k.arg: value_of(k.value) for k in node.keywords})
    if isinstance(node, ast.Tuple):
        return tuple(value_of(e) for e in node.elts)
    return ast.literal_eval(node)


def step(line):
    _, actor, text = line.split(None, 2)
    if text.startswith("Sent"):
        _, number, _, _, message = text.split(None, 4)
        return Step(actor, "Sent", int(number[1:]), value(message))
    taken = value(text)
    if taken.name == "Got":
        return Step(actor, "Got", taken.fields["number"], None)
    if actor == "ctl":
        return Step(actor, taken.name, None, None)
    return Step(actor, taken.name, None, next(iter(taken.fields.values())))


def read(path):
    """The steps of a file, and its lines under `log` and under `states`."""
    with open(path) as file:
        lines = file.read().splitlines()
    cuts = [lines.index(word) for word in ("replies", "log", "states", "sites")]
    return [step(line) for line in lines[: cuts[0]]], lines[cuts[1] + 1 : cuts[2]], lines[cuts[2] + 1 : cuts[3]]


# The definitions.


def is_client(actor):
    return actor.startswith("c")


def written(history):
    """The commit records that clients wrote, in the order of their writing. Sites write records of other kinds."""
    records = [s.message for s in history if s.kind == "Wrote" and is_client(s.actor)]
    return [Commit(r.fields["stamp"], r.fields["tx"], r.fields["ops"]) for r in records if r.name == "Commit"]


def committed(history):
    """The distinct ones, by stamp, then transaction, then operations, an absent response first."""
    key = lambda c: (c.stamp, c.tx, [(o, i, -1 if r is None else r) for o, i, r in c.ops])
    return sorted(set(written(history)), key=key)


def walk(commits):
    """The state after the operations in order on one copy of the register, or None where one has no step."""
    state = START
    for commit in commits:
        for _, invocation, response in commit.ops:
            if response is None:
                if any((state, invocation, r) in TABLE for r in range(len(RESPONSES))):
                    return None
            elif (state, invocation, response) in TABLE:
                state = TABLE[state, invocation, response]
            else:
                return None
    return state


def own(history, client):
    return [s for s in history if s.actor == "c%d" % client]


# The replies that end a transaction; `Unknown` doesn't tell how.
ENDINGS = ("Committed", "Aborted", "Dropped", "Unknown")


def operation(asked, resp):
    """The operation of a `do`; other commands have none."""
    return [(asked.fields["object"], asked.fields["inv"], resp)] if asked and asked.name == "Do" else []


def dealings(history, client, tx):
    """The operations that the client was told for the transaction, and the replies that ended it."""
    asked, begun, ops, ends = None, None, [], []
    for s in own(history, client):
        if s.kind == "Called":
            asked = s.message
        if s.kind != "Told":
            continue
        reply = s.message
        if reply.name == "Began":
            begun = reply.fields["tx"]
        elif reply.name in ("Response", "Absent") and begun == tx:
            ops += operation(asked, reply.fields.get("resp"))
        elif reply.name in ENDINGS:
            if begun == tx:
                ends.append(reply)
            begun = None
    return tuple(ops), ends


REQUESTS = ("Read", "Append", "Prepare")


def seen(history, tx):
    """The transactions that the client had seen: by counted grants and by replies before it began, and by counted grants
    until it ended. An answer counts where its request waits: the first thing that is taken for it is all that counts."""
    mail = [s.message for s in history if s.kind == "Sent"]
    begun, waiting, known, had_seen = None, set(), [], []
    for s in own(history, tx[0]):
        if s.kind == "Sent" and s.message.name in REQUESTS:
            waiting.add(s.number)
        elif s.kind == "Lost":
            waiting.discard(s.message)
        elif s.kind == "Got":
            answer = mail[s.number]
            to = answer.fields.get("to")
            if answer.name == "Granted" and to in waiting:
                lines = [line[1] for line in answer.fields["log"]]
                known += lines
                if begun == tx:
                    had_seen += lines
            waiting.discard(to)
        elif s.kind == "Told":
            reply = s.message
            if reply.name == "Began":
                begun = reply.fields["tx"]
                if begun == tx:
                    had_seen = list(known)
            elif reply.name in ENDINGS:
                if reply.name == "Committed" and begun is not None:
                    known.append(begun)
                begun = None
    return set(had_seen)


def endings(history):
    """Each client's ends of the transactions that it began: the client, the transaction, the reply."""
    begun = {(s.actor, s.message.fields["tx"]) for s in history if s.kind == "Told" and s.message.name == "Began"}
    ends = [(int(actor[1:]), tx) for actor, tx in begun if is_client(actor)]
    return [(client, tx, reply) for client, tx in ends for reply in dealings(history, client, tx)[1]]


def faults(history):
    """The parts of atomicity that the history lacks."""
    commits, ends = committed(history), endings(history)
    records = {(c.tx, c.stamp) for c in commits}
    told = {(client, tx, reply.fields["stamp"]) for client, tx, reply in ends if reply.name == "Committed"}
    given_up = {tx for _, tx, reply in ends if reply.name in ("Aborted", "Dropped")}
    before = lambda tx, stamp: any(c.tx == tx and c.stamp < stamp for c in commits)
    found = {
        "apart": len({c.stamp for c in commits}) == len(commits) == len({c.tx for c in commits}),
        "one copy": walk(commits) is not None,
        "dealt": all(c.ops == dealings(history, c.tx[0], c.tx)[0] for c in commits),
        "seen": all(before(tx, c.stamp) for c in commits for tx in seen(history, c.tx) - {c.tx}),
        "told": {(tx, stamp) for _, tx, stamp in told} <= records
        and all((tx[0], tx, stamp) in told for tx, stamp in records)
        and not given_up & {c.tx for c in commits},
    }
    return [part for part, holds in found.items() if not holds]


# What is printed of a history.


def log_lines(history):
    dots = lambda parts: ".".join(str(p) for p in parts)
    op = lambda o: "x %s %s" % (INVOCATIONS[o[1]], "!" if o[2] is None else RESPONSES[o[2]])
    return [" ".join([dots(c.stamp), dots(c.tx), ", ".join(map(op, c.ops))]).rstrip() for c in committed(history)]


# Spoiled histories.


def with_step(history, place, new):
    return history[:place] + [new] + history[place + 1 :]


def changed(step, **fields):
    return step._replace(message=Value(step.message.name, {**step.message.fields, **fields}))


def with_stamp(history, place, stamp):
    """The commit record that stands there and what its client was told of it, with another stamp."""
    told = next(k for k in range(place, len(history)) if history[k].kind == "Told" and history[k].actor == history[place].actor)
    return with_step(with_step(history, place, changed(history[place], stamp=stamp)), told, changed(history[told], stamp=stamp))


def spoiled(history):
    """Each spoiled history, and what was done to it."""
    for place, s in enumerate(history):
        if s.kind == "Wrote" and s.message.name == "Commit":
            ops, stamp, tx = s.message.fields["ops"], s.message.fields["stamp"], s.message.fields["tx"]
            yield "record is missing", history[:place] + history[place + 1 :]
            yield "record is a site's", with_step(history, place, s._replace(actor="s0"))
            yield "record has another stamp", with_step(history, place, changed(s, stamp=(stamp[0] + 1000, stamp[1])))
            yield "record stands with two stamps", history[: place + 1] + [changed(s, stamp=(stamp[0] + 1000, stamp[1]))] + history[place + 1 :]
            if seen(history, tx) - {tx}:
                yield "transaction comes before what its client had seen", with_stamp(history, place, (0, stamp[1]))
            for c in written(history):
                if c.tx != tx:
                    yield "two transactions have one stamp", with_stamp(history, place, c.stamp)
            for k in range(len(ops)):
                yield "record leaves an operation out", with_step(history, place, changed(s, ops=ops[:k] + ops[k + 1 :]))
                other = (ops[k][0], ops[k][1], None)
                yield "record has another response", with_step(history, place, changed(s, ops=ops[:k] + (other,) + ops[k + 1 :]))
        if s.kind == "Told" and s.message.name == "Committed":
            other = "c%d" % (int(s.actor[1:]) + 1)
            yield "commit isn't told", history[:place] + history[place + 1 :]
            yield "commit is told to another client", with_step(history, place, s._replace(actor=other))
            yield "commit is told as dropped", with_step(history, place, s._replace(message=Value("Dropped", {})))
        if s.kind == "Told" and s.message.name == "Dropped":
            yield "drop is told as a commit", with_step(history, place, s._replace(message=Value("Committed", {"stamp": (1000, 0)})))
    yield from misread(history)


def misread(history):
    """Histories in which a committed read was told another state, and recorded so."""
    for c in committed(history):
        for k, (thing, invocation, response) in enumerate(c.ops):
            if invocation == INVOCATIONS.index("R"):
                wrong = c.ops[:k] + ((thing, invocation, 1 - response),) + c.ops[k + 1 :]
                yield "read is told another state", retold(history, c, k, wrong)


def retold(history, commit, number, ops):
    """The commit's record with these operations, and what its client was told of the operation of this number."""
    begun, told = None, []
    for place, s in enumerate(history):
        if s.kind == "Told" and s.actor == "c%d" % commit.tx[0]:
            if s.message.name == "Began":
                begun = s.message.fields["tx"]
            elif s.message.name in ("Response", "Absent") and begun == commit.tx:
                told.append(place)
        if s.kind == "Wrote" and s.message.name == "Commit" and s.message.fields["tx"] == commit.tx:
            record = place
    spoiled_step = changed(history[told[number]], resp=ops[number][2])
    return with_step(with_step(history, told[number], spoiled_step), record, changed(history[record], ops=ops))


def main():
    histories = doubts = tried = 0
    for name in sorted(os.listdir(os.path.join(HERE, "histories"))):
        history, log, states = read(os.path.join(HERE, "histories", name))
        histories += 1
        for part in faults(history):
            doubts += 1
            print("%s: not atomic: %s" % (name, part))
        if log_lines(history) != log or ["x %d" % walk(committed(history))] != states:
            doubts += 1
            print("%s: not the printed log and states: %s" % (name, log_lines(history)))
        for what, other in spoiled(history):
            tried += 1
            if not faults(other):
                doubts += 1
                print("%s: atomic, though %s" % (name, what))
    print("histories=%d spoiled=%d doubts=%d" % (histories, tried, doubts))
    return 1 if doubts or not histories else 0


if __name__ == "__main__":
    sys.exit(main())
