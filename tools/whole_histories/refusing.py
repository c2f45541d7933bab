"""Lemmas that refuse wrong histories: what is due at a step isn't what stands there."""

from modules import imported, variants, words_of
from spelling import kind, listed, operation, reply as spelled_reply, stamp, term, tx

IMPORTS = (
    ("Rattle.std.proofs.Common", ("◌≡◌", "ℕ", "[]", "◌∷◌", "length", "Option", "Some", "None", "ap")),
    ("Rattle.qc_decl.specs.One", ("three",)),
    ("Rattle.qc_entry.specs.declared.record.Commit", ("Commit",)),
    ("Rattle.qc_msg.specs.declared.message.Answer", ("Answer",)),
    ("Rattle.qc_msg.specs.declared.reply.Reply", ("Reply",)),
    ("Rattle.qc_msg.specs.Deeds", ("deeds",)),
    ("Rattle.qc_promise.specs.Replies", ("AreRepliesDue",)),
    ("Rattle.qc_promise.specs.SiteDue", ("AreDue",)),
    ("Rattle.tests_histories.specs.Words", ("operation", "stamp", "tx")),
    ("Rattle.tests_due.proofs.Places", ("client_named", "clock_told", "count_written", "due_at", "number_begun")),
    ("Rattle.tests_due.proofs.SitePlaces",
     ("clock_granted", "count_records", "count_sends", "first_answer", "holder_told", "lines_granted", "own_promised", "site_due_at")),
)
# the first client of `@three` as an actor, and the steps that are deeds of their actors
FIRST_CLIENT = 3
DEEDS = ("Called", "Got", "Lost", "Wrote", "Sent", "Told", "Fell", "Rose")
NEVER = "let never : ⊥ = cc in never"
# by what two replies, or two records, are told apart where their constructors are the same
PARTS = {"client": "client_named", "number": "number_begun", "stamp": "clock_told", "commit": "count_written"}


def lemma_module(head, body, file, name):
    """A module of lemmas on the histories of a file."""
    used, signs = words_of(body), {"◌≡◌": "≡" in body, "◌∷◌": " ∷ " in body}
    out = "-- %s\n" % head
    for where, names in IMPORTS:
        out += imported(where, [n for n in names if signs.get(n, n in used)])
    return out + variants(used) + "use Rattle.tests_due.specs.%s as %s\n" % (file, name) + body


def deeds_before(history, place):
    """How many deeds the actor of a step did before it."""
    return sum(a == history[place][0] and kind(x) in DEEDS for a, x in history[:place])


def reply_at(said, name, history, place, part, due):
    """The step at a place is a client's reply, or its commit record, or an input where a reply is untold."""
    x = history[place][1]
    told = "(Some %s)" % (term("replies.Committed", stamp(x.record.stamp)) if kind(x) == "Wrote" else
                          "replies.Unknown" if kind(x.reply) == "Unknown" else
                          spelled_reply(x.reply)) if part != "untold" else "None"
    commit = kind(x) == "Wrote" and "(Some (record { stamp = %s; tx = %s; ops = %s }))" % (
        stamp(x.record.stamp), tx(x.record.tx), listed(map(operation, x.record.ops)))
    left, right, field = {"record": ("None", due, 1), "commit": (due, commit, 1), "once": (commit, due, 2)}.get(
        part, (due, told, 0))
    actor = history[place][0]
    deeds = "%d (deeds %d [] %s)" % (actor - FIRST_CLIENT, actor, said)
    never = NEVER
    if part in PARTS:
        never = "let same : ◌≡◌ {A = ℕ} (%s %s) (%s %s) = ap %s e in %s" % (
            PARTS[part], left, PARTS[part], right, PARTS[part], never)
    return (
        "\n%s_differs : ◌≡◌ {A = Option %s} %s %s → ⊥\n%s_differs e = %s\n"
        "\npub %s_refused : AreRepliesDue three %s → ⊥\n%s_refused all = %s_differs (due_at %d three %s all).%d\n"
        % (name, "Commit" if field else "Reply", left, right, name, never, name, deeds, name, name,
           deeds_before(history, place), deeds, field))


def last_post(said, name, history, site, part, due, posted):
    """The last input of a site gets another post than is due."""
    own = [x for actor, x in history if actor == site]
    place = max(k for k, x in enumerate(own[:-1]) if kind(x) in ("Got", "Lost"))
    what = "Option Answer" if part == "first_answer" else "ℕ"
    deeds = "(deeds %d [] %s)" % (site, said)
    return (
        "\n%s_differs : ◌≡◌ {A = %s} %s %s → ⊥\n%s_differs e = %s\n"
        "\npub %s_refused : AreDue three [] %s → ⊥\n"
        "%s_refused all = %s_differs (ap %s (site_due_at %d three [] %s all))\n"
        % (name, what, posted, due, name, NEVER, name, deeds, name, name, part, place, deeds))
