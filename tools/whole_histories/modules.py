"""A history as a module: its declaration, its moves and its entries."""

import collections
import textwrap

from choosing import INPUTS
from spelling import declaration, kind, step, term

COLUMNS = 120
CONTROLS = ("Phase", "Cut", "Heal")


def moves(history):
    """Who took what, and when each turn was posted: at once where it has no step."""
    out, waiting = [], set()
    for k, (actor, x) in enumerate(history):
        if kind(x) in CONTROLS:
            out.append("Acts %s" % step(x))
        elif kind(x) in INPUTS:
            out.append("Takes %d %s" % (actor, step(x)))
            after = next((y for other, y in history[k + 1:] if other == actor), None)
            if after is None or kind(after) in INPUTS:
                out.append("Posts %d" % actor)
            else:
                waiting.add(actor)
        elif actor in waiting:
            out.append("Posts %d" % actor)
            waiting.discard(actor)
    return out


def filled(items, end, sign="∷"):
    """Items joined by a sign, in lines of at most COLUMNS."""
    lines, now = [], "   "
    for item in ["%s %s" % (item, sign) for item in items] + [end]:
        if len(now) + 1 + len(item) > COLUMNS and now.strip():
            lines.append(now)
            now = "   "
        if len(now) + 1 + len(item) > COLUMNS:
            lines += broken(item)
        else:
            now += " " + item
    return "\n".join(lines + [now] if now.strip() else lines)


def broken(item):
    """A long item, broken at its spaces."""
    lines, now = [], "   "
    for word in item.split(" "):
        if len(now) + 1 + len(word) > COLUMNS:
            lines.append(now)
            now = "   "
        now += " " + word
    return lines + [now]


IMPORTS = (
    ("Rattle.std.specs.Prelude", ("List", "[]", "◌∷◌", "◌++◌", "take", "Some", "None")),
    ("Rattle.qc_decl.specs.declared.declaration.Declaration", ("Declaration",)),
    ("Rattle.qc_decl.specs.One", ("three", "row")),
    ("Rattle.qc_msg.specs.Steps", ("Entry", "marked")),
    ("Rattle.tests_histories.specs.Play", ("Move", "Takes", "Posts", "Acts")),
    ("Rattle.tests_histories.specs.Words",
     ("tx", "stamp", "line", "own_line", "operation", "read_lock", "prepare", "commit", "declaration", "kind", "pair",
      "plan")),
    ("Rattle.qc_msg.specs.declared.step.Step.TheVariants",
     ("Phase", "Cut", "Heal", "Called", "Got", "Lost", "Wrote", "Sent", "Told", "Armed", "Fell", "Rose")),
)
VARIANTS = (
    ("answers", "message.Answer"), ("causes", "reply.AbortCause"), ("commands", "step.Command"), ("halves", "reply.Half"),
    ("messages", "message.Message"), ("outcomes", "message.Outcome"), ("records", "record.Record"),
    ("replies", "reply.Reply"), ("wants", "message.Want"), ("falls", "step.Fall"),
)


# What messages and records carry, by its fields.
PAYLOADS = ("whole_grant", "first_read", "snapshot_with", "start_with")


def words_of(text):
    for sign in "()∷;{}":
        text = text.replace(sign, " ")
    return set(text.split())


def imported(where, names):
    """The lines that bring names of a module."""
    if not names:
        return ""
    text = "use %s.{%s}\n" % (where, ", ".join(names))
    half = len(names) // 2
    return text if len(text) <= COLUMNS else imported(where, names[:half]) + imported(where, names[half:])


def variants(used):
    """The lines that bring the variants of the types that are named."""
    def named(name):
        return any(word.startswith(name + ".") for word in used)

    carried = [name for name in PAYLOADS if name in used]
    out = imported("Rattle.qc_msg.specs.Vocabulary", carried)
    out += "".join("use Rattle.qc_msg.specs.declared.%s.TheVariants as %s\n" % (where, name)
                  for name, where in VARIANTS if named(name))
    return out + ("use Rattle.qc_outside.specs.declared.disk.ArmKind.TheVariants as arms\n" if named("arms") else "")


def module(head, decl, history, schedule=None, imports=IMPORTS):
    """A history's module; its moves are the schedule, or else those of `moves`."""
    body = ""
    if decl is not None:
        body += "abbrev pub decl : Declaration\ndecl =\n%s\n\n" % "\n".join(broken(declaration(decl)))
    body += "abbrev pub moves : List Move\nmoves =\n%s\n\n" % filled(schedule or moves(history), "[]")
    return headed(head, body + entries("history", history), imports)


def marked(history):
    return ["marked %d %s" % (actor, step(x)) for actor, x in history]


def entries(name, history):
    """A history as a definition."""
    return "abbrev pub %s : List Entry\n%s =\n%s\n" % (name, name, filled(marked(history), "[]"))


def entries_after(name, story, first, history):
    """A history as a definition: its first entries are those of a story, a module with a history."""
    return "abbrev pub %s : List Entry\n%s =\n    take %d %s.history ++\n%s\n" % (
        name, name, first, story, filled(marked(history[first:]), "[]"))


def headed(head, body, imports, stories=""):
    """A module: its head comment, the names that its body uses, lines that bring stories, the body."""
    used = words_of("\n".join(text for text in body.split("\n") if not text.startswith("--")))
    out = "".join("-- %s\n" % text for text in textwrap.wrap(head, COLUMNS - 3))
    for where, names in imports:
        names = [n for n in names if n.strip("◌") in used or n == "◌∷◌"]
        out += imported(where, names)
    return out + variants(used) + stories + "\n" + body


def told(decl, history):
    """A line on a random history: what it holds."""
    sent = sum(kind(x) == "Sent" for actor, x in history)
    lost = sum(kind(x) == "Lost" for actor, x in history)
    cuts = sum(kind(x) == "Cut" for actor, x in history)
    names = collections.Counter(kind(x.reply) for actor, x in history if kind(x) == "Told")
    parts = (
        ("sites", decl.sites), ("clients", decl.clients), ("steps", len(history)), ("messages", sent), ("lost", lost),
        ("cuts", cuts), ("commits", names["Committed"]), ("aborts", names["Aborted"]), ("conflicts", names["Conflict"]),
        ("short rounds", names["Quorum"]), ("absent", names["Absent"]))
    return "Random: %s." % ", ".join("%s %d" % part for part in parts if part[1])
