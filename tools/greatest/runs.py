"""Runs of long scripts: a declaration, a script and a text of each."""

from declaration import INVOCATIONS, TYPES, Type
from texts import CLIENTS, OBJECTS, OPERATIONS, SITES, filled, long_name, printed

BYTES = 1 << 20


def fill_of_links(size):
    """So many bytes of rules of links at most, for messages that no run comes to, and a remark."""
    rules = "".join("link c%d s%d %d late\n" % (k % CLIENTS, k // 16 % SITES, 99999 - k) for k in range(size // 24))
    return filled(rules[:rules.rindex("\n", 0, size - 2) + 1], size)


def transaction(clock, states):
    """The operations of the transaction with that clock, one on each object, which changes the objects' states."""
    for at in range(OBJECTS):
        inv = (clock * 7 + at * 5) % INVOCATIONS
        response, states[at] = Type(at % TYPES).first(states[at], inv)
        yield "%s i%d" % (long_name("object", at), inv), "r%d" % response


def objects():
    """Three transactions of each client, in a phase of its own: some 105,000 steps."""
    commands, replies, log, states = [], [], [], [0] * OBJECTS
    for clock in range(1, 3 * CLIENTS + 1):
        client, number = divmod(clock - 1, 3)
        actor, tx = "c%d " % client, "%d.1.%d" % (client, number + 1)
        done = list(transaction(clock, states))
        commands += ["phase"] if number == 0 else []
        commands += [actor + "begin", *(actor + "do " + call for call, _ in done), actor + "commit"]
        replies += [actor + "begin " + tx, *(actor + call + " " + response for call, response in done)]
        replies.append("%scommit %d.%d" % (actor, clock, client))
        log.append("%d.%d %s %s" % (clock, client, tx, ", ".join(map(" ".join, done))))
    text = "\n".join(commands) + "\n"
    ends = ["%s s%d" % (long_name("object", at), state) for at, state in enumerate(states)]
    sites = [(3 * CLIENTS * OPERATIONS, 0)] * SITES
    return "greatest.toml", fill_of_links(BYTES - len(text)) + text, printed(replies, log, ends, sites)


def held():
    """Of each transaction the second message to the site is the decision."""
    numbers = range(1, 12001)
    links = "".join("link c0 s0 %d drop\n" % (2 * number) for number in numbers)
    script = links + "phase\n" + "c0 begin\nc0 do x R\nc0 abort\n" * len(numbers)
    replies = ["c0 begin 0.1.%d\nc0 x R 0\nc0 abort ok" % number for number in numbers]
    return "@one", script, printed(replies, [], ["x 0"], [(0, len(numbers))])


def idle(head, line, reply=None):
    """A script of one line over and over, which changes nothing."""
    count = (BYTES - len(head) - 2) // len(line)
    replies = [] if reply is None else [reply] * count
    return "@three", filled(head + line * count, BYTES), printed(replies, [], ["x 0"], [(0, 0)] * 3)


RUNS = {
    "objects": objects,
    "held": held,
    "replies": lambda: idle("phase\n", "c2 abort\n", "c2 abort ! no transaction"),
    "phases": lambda: idle("", "phase\n"),
    "controls": lambda: idle("phase\n", "cut c2 s0\nheal s0 c2\n"),
}
