"""Lemmas that refuse wrong histories with epochs: what is due at a deed isn't what stands there."""

from modules import imported, variants, words_of
from refusing import DEEDS
from spelling import command as spelled_command, kind, line, listed, reply as spelled_reply, term

NEVER = "let never : ⊥ = cc in never"
INPUTS = ("Called", "Got", "Lost", "Rose")
IMPORTS = (
    ("Rattle.std.proofs.Common", ("◌≡◌", "ℕ", "Bool", "true", "false", "[]", "◌∷◌", "Option", "Some", "None", "ap")),
    ("Rattle.qc_decl.specs.Actors", ("administrator",)),
    ("Rattle.qc_msg.specs.declared.reply.Reply", ("Reply",)),
    ("Rattle.qc_msg.specs.declared.step.Command", ("Command",)),
    ("Rattle.qc_msg.specs.Deeds", ("deeds",)),
    ("Rattle.qc_msg.specs.declared.payload.EpochStart", ("EpochStart",)),
    ("Rattle.tests_histories.specs.Words", ("line", "tx")),
    ("Rattle.tests_due.proofs.SitePlaces",
     ("clock_granted", "count_records", "count_sends", "lines_granted", "site_due_at")),
    ("Rattle.tests_epochs.specs.Declarations", ("three_epochs", "two_objects")),
    ("Rattle.tests_epochs.specs.Whole", ("AreAdminTurns", "IsAdminDueIn", "IsSiteDueIn")),
    ("Rattle.tests_epochs.proofs.Places", ("admin_due_at",)),
    ("Rattle.tests_epochs.proofs.Parts",
     ("clock_decided", "clock_told", "doubt_told", "first_promise", "half_need", "is_clash_told", "is_closed_told",
      "life_granted", "lines_decided", "lines_installed", "lines_pending", "lines_told", "promises_told",
      "sites_closed", "sites_installed")),
)


def lemma_module(head, body, file, name):
    """A module of lemmas on the histories of a file."""
    used, signs = words_of(body), {"◌≡◌": "≡" in body, "◌∷◌": " ∷ " in body}
    out = "-- %s\n" % head
    for where, names in IMPORTS:
        out += imported(where, [n for n in names if signs.get(n, n in used)])
    return out + variants(used) + "use Rattle.tests_epochs.specs.%s as %s\n" % (file, name) + body


def own(history, actor):
    return [x for a, x in history if a == actor and kind(x) in DEEDS]


def acts(deeds, place):
    """What is posted for the input, or the rise, at a place."""
    out = []
    for x in deeds[place + 1:]:
        if kind(x) in INPUTS or kind(x) == "Fell" and x.cause == "Script":
            break
        out.append(x)
    return out


# Parts of posts, replies and decisions, as numbers.

def answer(posted):
    return next(x.message for x in posted if kind(x) == "Sent")


def written(posted):
    return next(x.record for x in posted if kind(x) == "Wrote")


POSTS = {
    "count_records": lambda posted: sum(kind(x) == "Wrote" for x in posted),
    "count_sends": lambda posted: sum(kind(x) == "Sent" for x in posted),
    "promises_told": lambda posted: len(answer(posted).prepared),
    "first_promise": lambda posted: answer(posted).prepared[0].tx[0],
    "lines_told": lambda posted: len(answer(posted).log),
    "clock_told": lambda posted: answer(posted).clock,
    "is_clash_told": lambda posted: int(kind(answer(posted)) == "Clash"),
    "is_closed_told": lambda posted: int(kind(answer(posted)) == "Closed"),
    "lines_granted": lambda posted: len(answer(posted).log),
    "clock_granted": lambda posted: answer(posted).clock,
    "life_granted": lambda posted: answer(posted).life,
    "lines_installed": lambda posted: len(written(posted).lines),
}


def lemma(name, differs, statement, proof):
    kind_of, left, right = differs
    return (
        "\n{0}_differs : ◌≡◌ {{A = {1}}} {2} {3} → ⊥\n{0}_differs e = {4}\n\npub {0}_refused : {5} → ⊥\n"
        "{0}_refused all = {6}\n").format(name, kind_of, left, right, NEVER, statement, proof)


def turns_lemma(said, name, decl):
    """The administrator doesn't act by turns."""
    return lemma(name, ("Bool", "false", "true"), "AreAdminTurns %s %s" % (decl, said), "%s_differs all" % name)


def site_lemma(said, name, site, right, wrong, part):
    """The last input or rise of a site gets another post than is due."""
    mine = own(wrong, site)
    place = max(k for k, x in enumerate(mine[:-1]) if kind(x) in INPUTS)
    due, posted = (POSTS[part](acts(deeds, place)) for deeds in (own(right, site), mine))
    assert due != posted, name
    proof = "%s_differs (ap %s (site_due_at %d three_epochs [] (deeds %d [] %s) all))" % (name, part, place, site, said)
    return lemma(name, ("ℕ", posted, due), "IsSiteDueIn three_epochs %d %s" % (site, said), proof)


def decided(r):
    return "(Some (record { epoch = %d; clock = %d; lines = %s }))" % (r.epoch, r.clock, listed(map(line, r.lines)))


def told_parts(due, told):
    """Two replies of one kind: what they are told apart by."""
    parts = {
        "Moved": (("sites_closed", lambda q: sum(1 << s for s in q.closed)),
                  ("sites_installed", lambda q: sum(1 << s for s in q.installed))),
        "InDoubt": (("doubt_told", lambda q: q.tx[0] * 16 + q.site),),
        "Quorum": (("half_need", lambda q: q.need),),
    }[kind(told)]
    return next((name, part(due), part(told)) for name, part in parts if part(due) != part(told))


# How a deed of the administrator differs from what is due: of what kind both are, what is due and what stands there, and
# how that is read off what is due of the deed.

def posted_at_rise(mine, other, place, due):
    posted, right = acts(mine, place), acts(other, place)
    part = next(p for p in ("count_records", "count_sends") if POSTS[p](posted) != POSTS[p](right))
    return ("ℕ", POSTS[part](posted), POSTS[part](right)), "ap %s (%%s)" % part


def written_before(mine, other, place, due):
    return ("Option EpochStart", decided(mine[place - 1].record), "None"), "((%s).1).0"


def pending_behind(mine, other, place, due):
    left, right = (len(deeds[place + 1].pending.lines) for deeds in (other, mine))
    return ("ℕ", left, right), "ap lines_pending ((%s).1).1"


def reply_untold(mine, other, place, due):
    return ("Option Reply", term("Some", spelled_reply(due.reply)), "None"), "(%s).0"


def decision_unwritten(mine, other, place, due):
    record = next(x.record for x in other if kind(x) == "Wrote")
    return ("Option EpochStart", "None", decided(record)), "(%s).1"


def command_open(mine, other, place, due):
    return ("Option Command", term("Some", spelled_command(mine[0].command)), "None"), "(%s).2"


def never_called_for(mine, other, place, due):
    return ("Bool", "false", "true"), "%s"


def record_due(record, due):
    if due is None or kind(due) != "Wrote":
        return ("Option EpochStart", "None", decided(record)), "(%s).0"
    parts = ("clock_decided", lambda r: r.clock), ("lines_decided", lambda r: len(r.lines))
    part, of = next((part, of) for part, of in parts if of(record) != of(due.record))
    return ("ℕ", of(due.record), of(record)), "ap %s (%%s).0" % part


def reply_due(reply, due):
    told = None if due is None or kind(due) != "Told" else due.reply
    if kind(told) == kind(reply):
        part, left, right = told_parts(told, reply)
        return ("ℕ", left, right), "ap %s (%%s).0" % part
    left = "None" if told is None else term("Some", spelled_reply(told))
    return ("Option Reply", left, term("Some", spelled_reply(reply))), "(%s).0"


def last_reply(mine, other, place, due):
    return reply_due(mine[place].reply, [x for x in other if kind(x) == "Told"][-1])


def fall_missing(mine, other, place, due):
    return reply_due(mine[place].reply, None)


def what_is_due(mine, other, place, due):
    x = mine[place]
    return record_due(x.record, due) if kind(x) == "Wrote" else reply_due(x.reply, due)


PARTS = {
    "due": what_is_due, "last": last_reply, "before": written_before, "pending": pending_behind,
    "posted": posted_at_rise, "untold": reply_untold, "unwritten": decision_unwritten, "busy": command_open,
    "uncalled": never_called_for, "unfallen": fall_missing,
}


def admin_lemma(said, name, decl, admin, right, wrong, place, part):
    """A deed of the administrator isn't due."""
    place = sum(a == admin and kind(x) in DEEDS for a, x in wrong[:place])
    mine, other = own(wrong, admin), own(right, admin)
    due = other[place] if mine[:place] == other[:place] else None
    differs, read_off = PARTS[part](mine, other, place, due)
    at = "admin_due_at %d %s (deeds (administrator %s) [] %s) all" % (place, decl, decl, said)
    return lemma(name, differs, "IsAdminDueIn %s %s" % (decl, said), "%s_differs (%s)" % (name, read_off % at))
