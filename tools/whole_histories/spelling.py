"""Values of the model, spelled as terms."""


def kind(value):
    return type(value).__name__


def term(*parts):
    return "(%s)" % " ".join(str(part) for part in parts) if len(parts) > 1 else str(parts[0])


def listed(items):
    items = list(items)
    return "(%s ∷ [])" % " ∷ ".join(items) if items else "[]"


def optional(value):
    return "None" if value is None else term("Some", value)


def tx(name):
    """A transaction; one of a later life of its client names it."""
    client, life, number = name
    return term("tx", client, number) if life == 1 else term("tx_in", client, life, number)


def stamp(value):
    return term("stamp", *value)


def line(value):
    (clock, client), (owner, life, number), *rest = value
    assert client == owner
    if life > 1:
        return "line_in %d %d %d %d %d %d %d" % (clock, client, life, number, *rest)
    return "line %d %d %d %d %d %d" % (clock, client, number, *rest)


def own_line(value):
    return "own_line %d %d %d" % value


def operation(value):
    return "operation %d %d %s" % (value[0], value[1], optional(value[2]))


def outcome(verdict):
    return term("outcomes.Committed", stamp(verdict[1])) if verdict[0] == "Committed" else "outcomes." + verdict[0]


def promise(p):
    """What a Prepare holds."""
    locks = listed("read_lock %d %d" % lock for lock in p.locks)
    return tx(p.tx), p.epoch, locks, listed(map(own_line, p.own)), listed(map(line, p.lines))


def prepared(p):
    return "prepared %s %d %s %s %s" % promise(p)


def answer(a):
    fields = {
        "Granted": lambda: (term("whole_grant", a.life, a.clock, listed(map(line, a.log))),),
        "Clash": lambda: (tx(a.holder), a.inv, a.event),
        "Closed": lambda: (a.epoch,),
        "Behind": lambda: (a.epoch,),
        "Restarted": lambda: (a.life,),
        "Stale": tuple,
        "Fault": tuple,
        "Yes": lambda: (a.clock,),
        "Shut": lambda: (term("snapshot_with", a.clock, listed(map(line, a.log)), listed(map(prepared, a.prepared))),),
        "Installed": tuple,
        "Answered": lambda: (outcome(a.verdict),),
    }[kind(a)]()
    return term("answers." + kind(a), *fields)


def want(q):
    if kind(q) == "Read":
        return term("wants.Read", term("first_read", q.object, q.inv))
    if kind(q) == "Append":
        return term("wants.Append", q.object, listed(map(line, q.view)), listed(map(own_line, q.own)))
    return "wants.Prepare"


def message(q):
    if kind(q) in ("Read", "Append", "Prepare"):
        return term("messages.Request", tx(q.tx), q.epoch, q.life, want(q))
    if kind(q) == "Decision":
        return term("messages.Decision", tx(q.tx), outcome(q.verdict))
    if kind(q) == "Inquiry":
        return term("messages.Inquiry", tx(q.tx))
    if kind(q) == "Ask":
        return term("messages.Ask", tx(q.tx))
    if kind(q) == "Close":
        return term("messages.Close", q.epoch)
    if kind(q) == "Install":
        return term("messages.Install", term("start_with", q.epoch, q.clock, listed(map(line, q.log))))
    return term("messages.Answer", q.to, answer(q))


def command(c):
    fields = {"Do": lambda: (c.object, c.inv), "Epoch": lambda: (c.number,)}.get(kind(c), tuple)()
    return term("commands." + kind(c), *fields)


def site_set(sites):
    """Sites as a set: site k is bit k."""
    return sum(1 << site for site in sites)


def reply(q):
    fields = {
        "Already": lambda: (tx(q.tx),),
        "Began": lambda: (tx(q.tx),),
        "Response": lambda: (q.resp,),
        "Conflict": lambda: (tx(q.tx), q.site),
        "Closed": lambda: (q.epoch, q.site),
        "Quorum": lambda: ("halves." + q.half, q.got, q.need),
        "Committed": lambda: (stamp(q.stamp),),
        "Aborted": lambda: (term("causes." + q.why[0], *q.why[1:]),),
        "Order": lambda: (q.current,),
        "InDoubt": lambda: (tx(q.tx), q.site),
        "Moved": lambda: (site_set(q.closed), site_set(q.installed)),
        "NoTransaction": tuple, "Doomed": tuple, "TooLong": tuple, "Absent": tuple, "Dropped": tuple,
        "Down": tuple, "Unknown": tuple, "Fault": tuple,
    }[kind(q)]()
    return term("replies." + kind(q), *fields)


def record(x):
    if kind(x) == "Life":
        return "records.Life"
    if kind(x) == "Prepare":
        return term("prepare", *promise(x.prepared))
    if kind(x) == "Done":
        return term("records.Done", tx(x.tx), x.clock)
    if kind(x) == "Close":
        return term("records.Close", x.epoch)
    if kind(x) in ("Install", "Decide"):
        return term("records." + kind(x), term("start_with", x.epoch, x.clock, listed(map(line, x.lines))))
    return term("commit", stamp(x.stamp), tx(x.tx), listed(map(operation, x.ops)))


def step(x):
    fields = {
        "Phase": lambda: (x.number,),
        "Cut": lambda: (x.a, x.b),
        "Heal": lambda: (x.a, x.b),
        "Called": lambda: (command(x.command),),
        "Got": lambda: (x.number,),
        "Lost": lambda: (x.number,),
        "Wrote": lambda: (record(x.record),),
        "Sent": lambda: (x.number, x.to, message(x.message)),
        "Told": lambda: (reply(x.reply),),
        "Armed": lambda: (x.actor, "arms." + x.kind, x.at),
        "Fell": lambda: ("falls." + x.cause, optional(None if x.pending is None else record(x.pending))),
        "Rose": lambda: (listed(map(record, x.records)),),
    }[kind(x)]()
    return term(kind(x), *fields)


def declaration(d):
    def needs(lists):
        return listed(listed(map(str, needed)) for needed in lists)
    kinds = []
    for k in d.kinds:
        rows = listed("row %d %d %d %d" % r for r in k.table.rows)
        pairs = listed("pair %d %d" % p for p in sorted(k.relation.pairs))
        table = (k.table.states, k.table.invs, k.table.resps, k.table.start)
        kinds.append("kind %d %d %d %d %s %s" % (*table, rows, pairs))
    plans = ["plan %s %s %s" % (listed(map(str, p.weights)), needs(p.initial), needs(p.last)) for p in d.plans]
    return "declaration %d %d %s %s %s" % (
        d.sites, d.clients, listed(kinds), listed(map(str, d.objects)), listed(plans))
