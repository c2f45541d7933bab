#!/usr/bin/env python3
"""Runs random scripts by several workers, and checks what they print by a plain replay.

usage: tools/workers.py [RUNS] [SEED] [PROGRAM]

Makes RUNS scripts, 1,000 unless it is given, by Python's `random` from SEED, 1 unless it is given. Each is over a declaration
that is built in, one of examples/types/, or a union of up to three of those for up to five clients; many of these have up to
four epochs, and the administrator moves from one to the next. In half of the scripts actors crash and restart, and disks stop
and fail. PROGRAM is crates/quorum/out/quorum unless it is given; it has to be built.
It runs each script by 2, 4 or 8 workers in turn, and by one. The replay is written apart from the proved code. Each run has to
end in 20 seconds, with status 0 and nothing on standard error, and in its text:

- each command has its reply, in the script's order, and one that this client could get then, up or down; each of the
  administrator's is one that he could give, by the epoch that was decided last;
- the stamps of the log rise, and the log has just the transactions that were told as committed, each with the stamp that its
  client was told, and with the operations and responses of its `do`s, and maybe some of which the client was told `?`;
- one copy of each object, by the declaration's rows, gives these responses in the log's order, and ends in the state printed;
- of one client's transactions, each that committed comes behind those that committed before it began.

Prints what the runs by several workers did, and how many of their texts aren't the one that one worker gives, since threads
took their turns in another order. A run that fails may go well the next time, so its files, its words and what it printed are
kept in a folder, whose name has SEED and the number of the script, from 0. Ends with status 1 where a run failed.
"""

import collections
import glob
import json
import os
import random
import re
import shutil
import subprocess
import sys
import tempfile
import tomllib

ROOT = os.path.dirname(os.path.dirname(os.path.abspath(__file__)))
WORKERS = (2, 4, 8)
SECONDS = 20
# A transaction has no more operations.
OPERATIONS = 16
# What a replay asks of the declarations that are built in.
REGISTER = {
    "type": [{
        "name": "register", "start": "0", "invocations": ["R", "W0", "W1"], "responses": ["0", "1", "ok"],
        "rows": ["0 R 0 0", "1 R 1 1", "0 W0 ok 0", "1 W0 ok 0", "0 W1 ok 1", "1 W1 ok 1"],
    }],
    "object": [{"name": "x", "type": "register"}],
}


class Wrong(Exception):
    """What a run did that isn't right."""


# Declarations.


class Declaration:
    """A declaration: the word that names it, its text where it is a file's, and what a replay asks of it."""

    def __init__(self, word, tables, text=None):
        self.word, self.text = word, text
        self.sites, self.clients, self.epochs = tables["sites"], tables["clients"], len(tables.get("epoch", [0]))
        types = {table["name"]: table for table in tables["type"]}
        self.types = {thing["name"]: types[thing["type"]] for thing in tables["object"]}
        self.steps = {thing: steps_of(table) for thing, table in self.types.items()}


def steps_of(table):
    """A type's rows, by state and invocation: the next state by the response."""
    steps = {}
    for row in table["rows"]:
        state, inv, resp, after = row.split(" ")
        steps.setdefault((state, inv), {})[resp] = after
    return steps


def text_of(tables):
    """The text of a declaration."""
    pairs = lambda table, keys: ["%s = %s" % (key, json.dumps(table[key])) for key in keys]
    lines = pairs(tables, ("sites", "clients"))
    for name in ("type", "object", "epoch"):
        for table in tables[name]:
            lines += ["", "[[%s]]" % name, *pairs(table, table)]
    return "\n".join(lines) + "\n"


def union(chance, gallery):
    """Up to three objects of the gallery in one declaration, each with its type and its thresholds."""
    weights = lambda tables: tables["epoch"][0]["weights"]
    first = chance.choice(gallery)
    parts = [first] + chance.choices([it for it in gallery if weights(it) == weights(first)], k=chance.randrange(3))
    types = {part["type"][0]["name"]: part["type"][0] for part in parts}
    objects, epoch = [], {"weights": weights(first), "initial": [], "final": []}
    for number, part in enumerate(parts):
        name = "o%d" % number
        objects.append({"name": name, "type": part["type"][0]["name"]})
        for key in ("initial", "final"):
            epoch[key] += [name + threshold[threshold.index(" ") :] for threshold in part["epoch"][0][key]]
    clients = chance.randint(1, 5)
    return {"sites": first["sites"], "clients": clients, "type": [*types.values()], "object": objects, "epoch": [epoch]}


def with_epochs(chance, tables):
    """The same with up to three epochs more: as the first, or with one half of all weight and the other of one."""
    first = tables["epoch"][0]
    total, more = sum(first["weights"]), []
    for _ in range(chance.randrange(4)):
        initial, final = chance.choice(((None, None), (total, 1), (1, total)))
        need = lambda threshold, weight: threshold if weight is None or threshold.endswith(" 0") else "%s %d" % (
            threshold[: threshold.rindex(" ")], weight)
        more.append({
            "weights": first["weights"], "initial": [need(it, initial) for it in first["initial"]],
            "final": [need(it, final) for it in first["final"]],
        })
    return {**tables, "epoch": [first] + more}


def declaration(chance, gallery):
    """A declaration by chance: one that is built in, one of the gallery, or a union of those. The gallery has the text and
    the tables of each."""
    kind = chance.randrange(10)
    if kind < 3:
        word, count = ("@one", 1) if kind == 0 else ("@three", 3)
        return Declaration(word, {**REGISTER, "sites": count, "clients": count})
    if kind < 6:
        tables = chance.choice(gallery)[1]
    else:
        tables = union(chance, [tables for _, tables in gallery])
    tables = with_epochs(chance, tables)
    text = text_of(tables)
    return Declaration("decl.toml", tables, text)


# Scripts.


class Script:
    """A script by chance: its lines, and its commands in their order, each a client's number, or ADMIN, and its words."""

    def __init__(self, chance, decl):
        self.chance, self.decl, self.lines, self.commands = chance, decl, [], []
        self.open, self.cuts, self.down, self.epoch = set(), [], [], 1
        loses, self.falls = chance.random() < 0.6, chance.random() < 0.5
        if loses:
            self.lines += [self.link() for _ in range(chance.randint(1, 8))]
        for _ in range(chance.randint(1, 6)):
            self.phase(chance.choice((0, 0, 0, 1, 2)) if loses else 0)

    def text(self):
        return "\n".join(self.lines) + "\n"

    def site(self):
        return "s%d" % self.chance.randrange(self.decl.sites)

    def client(self):
        return "c%d" % self.chance.randrange(self.decl.clients)

    def link(self):
        """A rule: mostly for one message, now and then for many."""
        ends = [self.client(), self.site()]
        if self.chance.random() < 0.1:
            ends[self.chance.randrange(2)] = "*"
        self.chance.shuffle(ends)
        ordinal = "*" if self.chance.random() < 0.1 else str(self.chance.randint(1, 12))
        return " ".join(["link", *ends, ordinal, self.chance.choice(("drop", "twice", "late", "again"))])

    def phase(self, controls):
        """A phase, with so many cuts and heals at its head. Each client that acts in it has several commands, which are mixed
        with those of the others."""
        self.lines.append("phase")
        self.lines += [self.control() for _ in range(controls)]
        for _ in range(self.chance.choice((0, 1, 1, 2, 4)) if self.falls else 0):
            self.fall()
        actors = [client for client in range(self.decl.clients) if self.chance.random() < 0.8]
        order = [client for client in actors for _ in range(self.chance.randint(1, 12))]
        self.chance.shuffle(order)
        long = self.chance.random() < 0.03
        order += order[:1] * (30 if long else 0)
        for _ in range(self.chance.choice((0, 0, 1, 1, 2)) if self.decl.epochs > 1 else 0):
            order.insert(self.chance.randint(0, len(order)), ADMIN)
        for client in order:
            if client == ADMIN:
                words = ["epoch", str(self.next_epoch())]
                self.commands.append((ADMIN, words))
                self.lines.append("admin " + " ".join(words))
                continue
            words = self.command(client, long)
            self.commands.append((client, words))
            self.lines.append("c%d %s" % (client, " ".join(words)))

    def next_epoch(self):
        """Mostly the epoch behind the one that was asked for last, or that one again."""
        if self.chance.random() < 0.1:
            return self.chance.randint(2, self.decl.epochs)
        self.epoch = min(self.epoch + (self.chance.random() < 0.7), self.decl.epochs)
        return max(self.epoch, 2)

    def control(self):
        if self.cuts and self.chance.random() < 0.6:
            return "heal %s %s" % self.cuts.pop(self.chance.randrange(len(self.cuts)))
        self.cuts.append((self.client(), self.site()))
        return "cut %s %s" % self.cuts[-1]

    def fall(self):
        """Somebody falls or rises, or a fault is armed."""
        actor = "admin" if self.chance.random() < 0.15 else self.chance.choice((self.site, self.client))()
        word = self.chance.choice(("crash", "restart", "restart", "stop", "fail"))
        if word == "restart" and self.down and self.chance.random() < 0.8:
            actor = self.down.pop(self.chance.randrange(len(self.down)))
        elif word != "restart":
            self.down.append(actor)
        at = self.chance.randint(1, 12)
        self.lines.append("%s %s" % (word, actor) if word in ("crash", "restart") else "%s %s at %d" % (word, actor, at))
        if actor[0] != "s":
            self.commands.append((ADMIN if actor == "admin" else int(actor[1:]), [word]))

    def command(self, client, long):
        """A command that mostly fits what the client has open."""
        if (client in self.open) != (self.chance.random() < 0.95):
            self.open.add(client)
            return ["begin"]
        word = "do" if long else self.chance.choices(("do", "commit", "abort"), (65, 27, 8))[0]
        if word == "do":
            thing = self.chance.choice([*self.decl.types])
            return ["do", thing, self.chance.choice(self.decl.types[thing]["invocations"])]
        self.open.discard(client)
        return [word]


# The replay of a text.

ADMIN = -1

NUMBER = r"(0|[1-9]\d*)"
TRANSACTION = r"%s\.[1-9]\d*\.%s" % (NUMBER, NUMBER)
STAMP = r"%s\.%s" % (NUMBER, NUMBER)
COMMIT = re.compile(r"(%s) (%s)( .+)?" % (STAMP, TRANSACTION))
CONFLICT = re.compile(r"! conflict (%s) s%s" % (TRANSACTION, NUMBER))
QUORUM = re.compile(r"! quorum (read|append) %s of %s" % (NUMBER, NUMBER))
NO_ANSWER = re.compile(r"! no answer s%s" % NUMBER)
RESTARTED = re.compile(r"! restarted s%s %s %s" % (NUMBER, NUMBER, NUMBER))
FAULT = re.compile(r"! fault s%s" % NUMBER)
CLOSED = re.compile(r"! closed ([2-9]) s%s" % NUMBER)
SITES = r"(-|s\d+(?: s\d+)*)"
MOVED = re.compile(r"closed %s installed %s" % (SITES, SITES))
ORDER = re.compile(r"! order ([1-9])")
SHORT = re.compile(r"! quorum close %s of %s" % (NUMBER, NUMBER))
IN_DOUBT = re.compile(r"! in doubt (%s) s%s" % (TRANSACTION, NUMBER))
SITE = re.compile(r"s%s (down|life [1-9]\d* epoch [1-9]\d* lines %s held %s)" % (NUMBER, NUMBER, NUMBER))
# Lines of a script that have no reply.
CONTROLS = "crash", "restart", "stop", "fail"


def want(holds, what):
    if not holds:
        raise Wrong(what)


class Client:
    """What a client was told so far: the transaction that it has begun, what that has done, and those that committed."""

    def __init__(self, number, decl, counts):
        self.number, self.decl, self.counts = number, decl, counts
        self.count, self.commits, self.holders = collections.Counter(), [], []
        # Which transactions it has begun, and of which it was told that it doesn't know; its life, by what it was told and at
        # most; whether it is up, None where a disk may have failed as it rose; and whether a fault was armed for its disk.
        self.begun, self.doubts, self.life, self.most, self.up, self.armed = set(), [], 1, 1, True, False
        self.end()

    def controlled(self, word):
        """A control line: it falls, rises, or a fault is armed for its disk."""
        if word in ("stop", "fail"):
            self.armed = True
        elif word == "crash":
            self.up = False
            self.end()
        elif self.up is not True:
            self.up = None if self.armed else True
            self.most += 1

    def end(self):
        """No transaction is begun. `doomed` is None where a refusal doesn't tell whether it doomed."""
        self.open, self.operations, self.doomed = None, [], False

    def takes(self, words, result):
        """A command and what it was told. The first that isn't right ends the replay."""
        want(self.up is None or self.up == (result != "! down"), "whether it is up was known")
        self.up = result != "! down"
        if not self.up:
            self.counts["told down"] += 1
        elif words[0] == "begin":
            self.begins(result)
        elif self.open is None:
            want(result == "! no transaction", "no transaction is begun")
            self.counts["commands without a transaction"] += 1
        elif words[0] == "do":
            self.does(*words[1:], result)
        elif words[0] == "commit":
            self.ends_by_commit(result)
        else:
            want(result == "ok", "a transaction is begun")
            self.counts["given up"] += 1
            self.end()

    def begins(self, result):
        if self.open is not None:
            want(result == "! already " + self.open, "a transaction is begun")
            self.counts["begun twice"] += 1
            return
        parts = re.fullmatch(r"%d\.([1-9]\d*)\.([1-9]\d*)" % self.number, result)
        want(parts, "a transaction's name")
        self.count[int(parts[1])] += 1
        want(int(parts[2]) == self.count[int(parts[1])], "the next transaction has number %d" % self.count[int(parts[1])])
        # Where a fault was armed, it may have been up as it was restarted, or have risen in vain.
        want(self.life <= int(parts[1]) <= self.most, "its life is %d to %d" % (self.life, self.most))
        want(self.armed or int(parts[1]) == self.most, "its life is %d" % self.most)
        self.life, self.open = int(parts[1]), result
        want(self.open not in self.begun, "a name that is used up")
        self.begun.add(self.open)
        self.counts["transactions"] += 1

    def is_told_doom(self, result):
        """Whether this tells that the transaction is doomed. Where it doesn't, the transaction isn't."""
        want(self.doomed is None or self.doomed == (result == "! doomed"), "whether it is doomed was known")
        self.doomed = result == "! doomed"
        return self.doomed

    def does(self, thing, inv, result):
        self.counts["operations"] += 1
        if self.is_told_doom(result):
            self.counts["doomed"] += 1
            return
        want((len(self.operations) == OPERATIONS) == (result == "! too long"), "%d operations" % len(self.operations))
        clash, quorum = CONFLICT.fullmatch(result), QUORUM.fullmatch(result)
        if result == "! too long":
            self.counts["too long"] += 1
        elif clash:
            want(clash[1] != self.open, "a conflict with itself")
            want(int(clash[2]) < self.decl.clients and int(clash[4]) < self.decl.sites, "a conflict with whom, or where")
            self.holders.append((int(clash[2]), clash[1]))
            self.doomed = None
            self.counts["in conflict"] += 1
        elif quorum:
            want(int(quorum[2]) < int(quorum[3]), "a quorum that is met")
            self.doomed = quorum[1] == "append"
            self.counts["without a quorum"] += 1
        elif CLOSED.fullmatch(result):
            want(int(CLOSED.fullmatch(result)[1]) <= self.decl.epochs, "an epoch that isn't declared")
            self.doomed = None
            self.counts["in a closed epoch"] += 1
        elif result == "! absent":
            self.operations.append("%s %s absent" % (thing, inv))
            self.counts["absent"] += 1
        else:
            want(result in self.decl.types[thing]["responses"], "no such response")
            self.operations.append("%s %s %s" % (thing, inv, result))
            self.counts["with a response"] += 1

    def ends_by_commit(self, result):
        if self.is_told_doom(result):
            self.counts["given up as doomed"] += 1
        elif NO_ANSWER.fullmatch(result):
            self.counts["lost for want of a vote"] += 1
        elif RESTARTED.fullmatch(result) or FAULT.fullmatch(result):
            self.counts["lost for a fall"] += 1
        elif CLOSED.fullmatch(result):
            self.counts["lost for a closed epoch"] += 1
        elif result == "?":
            want(self.armed, "its disk fails by itself")
            self.doubts.append((self.open, self.operations))
            self.up = False
            self.counts["in doubt"] += 1
        else:
            stamp = stamp_of(result)
            want(stamp[1] == self.number, "another client's stamp")
            want(not self.commits or self.commits[-1][0] < stamp, "below a stamp that the client was told before")
            self.commits.append((stamp, self.open, self.operations))
            self.counts["committed"] += 1
        self.end()


class Admin:
    """What the administrator told so far: which epochs may be decided last; whether he is up, None where his disk may have
    failed as he rose; whether a fault was armed for it; and of whom he told that they are in doubt."""

    def __init__(self, decl, counts):
        self.decl, self.counts, self.decided, self.up, self.armed, self.doubts = decl, counts, {1}, True, False, []

    def controlled(self, word):
        if word in ("stop", "fail"):
            self.armed = True
        elif word == "crash":
            self.up = False
        elif self.up is not True:
            self.up = None if self.armed else True

    def takes(self, words, result):
        epoch = int(words[1])
        want(self.up is None or self.up == (result != "! down"), "whether he is up was known")
        self.up = result != "! down"
        moved, order, short, doubt = (it.fullmatch(result) for it in (MOVED, ORDER, SHORT, IN_DOUBT))
        if not self.up:
            self.counts["told down"] += 1
        elif order:
            want(int(order[1]) in self.decided, "another epoch is decided")
            want(epoch != int(order[1]) + 1 and (epoch != int(order[1]) or epoch == 1), "the epoch is in order")
            self.decided = {int(order[1])}
            self.counts["epochs out of order"] += 1
        elif moved:
            closed = moved[1] != "-"
            want(epoch - closed in self.decided, "another epoch is decided")
            want(all(int(it[1:]) < self.decl.sites for it in " ".join(moved.groups()).split(" ") if it != "-"), "which sites")
            self.decided = {epoch}
            self.counts["epochs decided" if closed else "epochs installed again"] += 1
        elif short:
            want(epoch - 1 in self.decided and int(short[1]) < int(short[2]), "sites that close")
            self.decided = {epoch - 1}
            self.counts["epochs that too few closed"] += 1
        elif doubt:
            want(epoch - 1 in self.decided and int(doubt[4]) < self.decl.sites, "in doubt where")
            self.decided = {epoch - 1}
            self.doubts.append((int(doubt[2]), doubt[1]))
            self.counts["epochs in doubt"] += 1
        else:
            want(result == "! fault" and self.armed and epoch - 1 in self.decided, "his disk fails by itself")
            self.decided, self.up = {epoch - 1, epoch}, False
            self.counts["epochs that weren't written"] += 1


def stamp_of(text):
    """A stamp: its clock, its client."""
    parts = re.fullmatch(STAMP, text)
    want(parts, "no stamp: " + text)
    return int(parts[1]), int(parts[2])


def sections(text):
    """The lines of the four sections."""
    want(text.endswith("\n"), "the text has no end")
    found = []
    for line in text.split("\n")[:-1]:
        if line == ("replies", "log", "states", "sites", None)[len(found)]:
            found.append([])
        else:
            want(found, "a line before the replies")
            found[-1].append(line)
    want(len(found) == 4, "%d sections" % len(found))
    return found


def replay_replies(decl, commands, lines, counts):
    """The transactions that were told as committed, by stamp, and those in doubt: each with its operations."""
    asked = [words for number, words in commands if words[0] not in CONTROLS]
    want(len(lines) == len(asked), "%d replies to %d commands" % (len(lines), len(asked)))
    clients, admin = [Client(number, decl, counts) for number in range(decl.clients)], Admin(decl, counts)
    left = iter(lines)
    for number, words in commands:
        actor = admin if number == ADMIN else clients[number]
        if words[0] in CONTROLS:
            actor.controlled(words[0])
            continue
        line = next(left)
        head = "%s %s " % ("admin" if number == ADMIN else "c%d" % number, " ".join(words[words[0] == "do" :]))
        want(line.startswith(head), "%s, where the command is %s" % (line, head))
        try:
            actor.takes(words, line[len(head) :])
        except Wrong as wrong:
            raise Wrong("%s: %s" % (line, wrong)) from wrong
    for client in clients:
        want(all(name in clients[holder].begun for holder, name in client.holders), "a conflict with what wasn't begun")
        counts["left open"] += client.open is not None
    want(all(name in clients[holder].begun for holder, name in admin.doubts), "in doubt of what wasn't begun")
    return sorted(commit for client in clients for commit in client.commits), [it for client in clients for it in client.doubts]


def replay_log(decl, commits, doubts, lines):
    """The state of each object behind all transactions of the log, which are to be these, and maybe some in doubt."""
    log, states = [], {thing: table["start"] for thing, table in decl.types.items()}
    for line in lines:
        parts = COMMIT.fullmatch(line)
        want(parts, "no line of a log: " + line)
        log.append((stamp_of(parts[1]), parts[4], parts[7][1:].split(", ") if parts[7] else []))
    want(all(log[k][0] < log[k + 1][0] for k in range(len(log) - 1)), "the log's stamps don't rise")
    sure = [it for it in log if it[1:] not in doubts]
    want(sure == commits, "not both in the log and told: %s" % [it for it in sure + commits if (it in sure) != (it in commits)])
    for stamp, name, operations in log:
        for operation in operations:
            thing, inv, resp = operation.split(" ")
            legal = decl.steps[thing].get((states[thing], inv), {})
            if resp == "absent" and not legal:
                continue
            want(resp in legal, "%s: one copy in state %s wouldn't answer so: %s" % (name, states[thing], operation))
            states[thing] = legal[resp]
    return states


def replay(decl, commands, text, counts):
    """Raises what isn't right in a text, and counts what there is."""
    replies, log, states, sites = sections(text)
    commits, doubts = replay_replies(decl, commands, replies, counts)
    last = ["%s %s" % pair for pair in replay_log(decl, commits, doubts, log).items()]
    want(states == last, "the states aren't those of the replay: %s" % last)
    found = [SITE.fullmatch(line) for line in sites]
    want(all(found) and [int(it[1]) for it in found] == [*range(decl.sites)], "the sites")


# Runs.


def run(program, folder, words):
    """What a call printed on standard output. Raises what isn't right of its end; its files have what it printed."""
    with open(os.path.join(folder, "output"), "wb") as output, open(os.path.join(folder, "error"), "wb") as error:
        try:
            ran = subprocess.run([program, *words], cwd=folder, stdin=subprocess.DEVNULL, stdout=output, stderr=error,
                                 timeout=SECONDS)
        except subprocess.TimeoutExpired as late:
            raise Wrong("it didn't end in %d seconds" % SECONDS) from late
    want(ran.returncode == 0, "status %d" % ran.returncode)
    want(os.path.getsize(os.path.join(folder, "error")) == 0, "something is on standard error")
    with open(os.path.join(folder, "output"), encoding="ascii", errors="replace") as output:
        return output.read()


def write(folder, name, text):
    with open(os.path.join(folder, name), "w") as file:
        file.write(text)


def trial(program, folder, name, decl, script, workers, counts):
    """Runs a script by so many workers. Gives the text, or None where it isn't right; then a folder of this name keeps all."""
    words = ["run", decl.word, "script", "--workers", str(workers)]
    write(folder, "words", "\n".join(words) + "\n")
    found = collections.Counter()
    try:
        text = run(program, folder, words)
        replay(decl, script.commands, text, found)
    except Wrong as wrong:
        place = tempfile.mkdtemp(prefix="quorum_workers_%s_" % name)
        shutil.copytree(folder, place, dirs_exist_ok=True)
        write(place, "wrong", "%s\n" % wrong)
        print("%s: workers %d: %s" % (place, workers, wrong), flush=True)
        return None
    counts.update(found)
    return text


def main():
    runs = int(sys.argv[1]) if len(sys.argv) > 1 else 1000
    seed = int(sys.argv[2]) if len(sys.argv) > 2 else 1
    program = os.path.abspath(sys.argv[3] if len(sys.argv) > 3 else os.path.join(ROOT, "crates/quorum/out/quorum"))
    gallery = []
    for path in sorted(glob.glob(os.path.join(ROOT, "examples/types/*/*.toml"))):
        with open(path) as file:
            text = file.read()
        gallery.append((text, tomllib.loads(text)))
    counts, unlike, failures = collections.Counter(), 0, 0
    for number in range(runs):
        chance = random.Random("%d %d" % (seed, number))
        decl = declaration(chance, gallery)
        script = Script(chance, decl)
        with tempfile.TemporaryDirectory() as folder:
            write(folder, "script", script.text())
            if decl.text is not None:
                write(folder, decl.word, decl.text)
            name = "%d_%d" % (seed, number)
            text = trial(program, folder, name, decl, script, WORKERS[number % len(WORKERS)], counts)
            alone = trial(program, folder, name, decl, script, 1, collections.Counter())
        failures += (text is None) + (alone is None)
        unlike += text is not None and alone is not None and text != alone
    amounts = lambda *names: ", ".join("%s %d" % (name, counts[name]) for name in names)
    print("runs=%d seed=%d failures=%d; texts unlike one worker's %d" % (runs, seed, failures, unlike))
    print(amounts("transactions", "committed", "given up", "given up as doomed", "lost for want of a vote", "left open"))
    print(amounts("operations", "with a response", "absent", "in conflict", "without a quorum", "doomed", "too long"))
    print(amounts("commands without a transaction", "begun twice", "told down", "in doubt", "lost for a fall"))
    print(amounts("epochs decided", "epochs installed again", "epochs out of order", "epochs in doubt"))
    print(amounts("epochs that too few closed", "epochs that weren't written", "in a closed epoch", "lost for a closed epoch"))
    return 1 if failures or not runs else 0


if __name__ == "__main__":
    sys.exit(main())
