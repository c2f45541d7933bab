"""Runs that come to a limit: of one client, one below it and just to it, and of three clients at once; of restarts."""

from texts import OPERATIONS, printed


MOST = {"steps": 262144, "operations": 1024, "lines": 8388608}


class Story:
    """A script over `@one`, and what is told of it."""

    def __init__(self):
        self.commands, self.replies, self.log = ["phase"], [], []
        self.begun = 0

    def transaction(self, operations, end):
        """A transaction of these operations and responses; each that commits has the next clock."""
        self.begun += 1
        tx, clock = "0.1.%d" % self.begun, len(self.log) + 1
        invocations = ["do x " + operation.split()[0] for operation in operations]
        self.commands += ["c0 " + command for command in ("begin", *invocations, end)]
        told = ["begin " + tx, *("x " + operation for operation in operations)]
        self.replies += ["c0 " + reply for reply in (*told, "commit %d.0" % clock if end == "commit" else end + " ok")]
        if end == "commit":
            done = ", ".join("x " + operation for operation in operations)
            self.log.append("%d.0 %s %s" % (clock, tx, done) if done else "%d.0 %s" % (clock, tx))

    def operations(self, count, operation, end):
        """So many operations, 16 in a transaction."""
        for first in range(0, count, OPERATIONS):
            self.transaction([operation] * min(OPERATIONS, count - first), end)

    def script(self):
        return "\n".join(self.commands) + "\n"

    def told(self, state, lines):
        return printed(self.replies, self.log, ["x %d" % state], [(lines, 0)])


def steps():
    """A phase is one step, a transaction without operations five, a refused command two: 262,143."""
    story = Story()
    for _ in range(52428):
        story.transaction([], "commit")
    story.commands.append("c0 abort")
    story.replies.append("c0 abort ! no transaction")
    return story.script(), story.told(0, 0), story.script() + "phase\n", 262144


def operations():
    """1,023 writes."""
    story = Story()
    story.operations(1023, "W1 ok", "commit")
    return story.script(), story.told(1, 1023), story.script() + "c0 begin\nc0 do x W1\nc0 commit\n", 1024


def lines():
    """A read is granted all lines: of one line 7 reads, or 8, and of 1,023 lines 8,200."""
    stories = []
    for few in (7, 8):
        stories.append(Story())
        stories[-1].operations(1, "W1 ok", "commit")
        stories[-1].operations(few, "R 1", "abort")
        stories[-1].operations(1022, "W1 ok", "commit")
        stories[-1].operations(8200, "R 1", "abort")
    below, past = stories
    return below.script(), below.told(1, 1023), past.script(), 8388608


def restart(count, sites):
    """So many restarts of each of these sites, in turn."""
    return "phase\n" + "".join("crash s%d\nrestart s%d\n" % (site, site) for site in range(sites)) * count


def restarts():
    """A site rises with a record of each former rise, which counts four lines: 2,048 restarts come to 8,384,512 lines."""
    return restart(2048, 1), printed([], [], ["x 0"], [(0, 0)], life=2049), restart(2049, 1), 8392704


def side_by_side(count, operations, invocation, end):
    """So many transactions of each client."""
    commands = ["begin", *["do x " + invocation] * operations, end]
    return "phase\n" + "".join("c%d %s\n" % (client, line) for client in range(3) for line in commands) * count


LIMITS = {"steps": steps, "operations": operations, "lines": lines, "restarts": restarts}

# What is told of those whose limit has another name.
KINDS = {"restarts": "lines"}

MEETING = {
    "steps": (side_by_side(600, 16, "R", "abort"), 262144),
    "operations": (side_by_side(24, 15, "W1", "commit"), 1035),
    "lines": (side_by_side(21, 16, "W1", "commit") + side_by_side(140, 16, "R", "abort"), 8389248),
    "restarts": (restart(1449, 2), 8392608),
}
