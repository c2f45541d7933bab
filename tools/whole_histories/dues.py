#!/usr/bin/env python3
"""Writes right and wrong histories as modules, with laws on what is due in them.

usage: python3 tools/whole_histories/dues.py MODEL

MODEL is the folder of the model, as for the tool in whose folder this one
stands. This one writes crates/tests_due: laws that all is due in each history
of crates/tests_histories; histories for the rows of the table of replies that
those don't have (`later.py`, and one of too many operations); and wrong
histories (`wrong_reads.py`, `wrong_asks.py`, `wrong_commits.py`,
`wrong_sites.py`), each with a law that refuses it. It writes specs/, proofs/
and src/ there, but not proofs/Owed.antt, Places.antt, Sites.antt,
SitePlaces.antt and src/lib.rt, nor what is of turns and mail
(`WRONG_BY_HAND`, proofs/Orders.antt, src/turns_and_mail.rt); `rt fmt` then
finds nothing to lay out.
"""

import os
import sys

sys.dont_write_bytecode = True
import later
import wrong_asks
import wrong_commits
import wrong_reads
import wrong_sites
from editing import Edited
from modules import IMPORTS, filled, imported, variants, words_of
from refusing import FIRST_CLIENT, last_post, lemma_module, reply_at
from runs import GROUP, WORKED, low
from spelling import step as spelled_step

CRATE = os.path.join(os.path.dirname(os.path.abspath(__file__)), "..", "..", "crates", "tests_due")
TOO_LONG = "phase|c0 begin|" + "c0 do x W1|" * 17 + "c0 abort"
# modules of specs/ and proofs/ that are written by hand
WRONG_BY_HAND = ["WrongTurns", "WrongTurnsThroughFalls", "WrongMail"]
# how many random histories the other crate has
RANDOM = 40


def write(path, text):
    path = os.path.join(CRATE, path)
    os.makedirs(os.path.dirname(path), exist_ok=True)
    with open(path, "w") as file:
        file.write(text)


# Histories as terms.

def entry(actor, x):
    return "marked %d %s" % (actor, spelled_step(x))


def module(head, named):
    """A module of histories: (name, what is said of it, history)."""
    body = "".join("\n-- %s\nabbrev pub %s : List Entry\n%s =\n%s\n" % (
        says, name, name, filled([entry(a, x) for a, x in history], "[]")) for name, says, history in named)
    used = words_of("\n".join(text for text in body.split("\n") if not text.startswith("--")))
    out = "-- %s\n" % head
    for where, names in IMPORTS:
        out += imported(where, [n for n in names if n in used or n == "◌∷◌"])
    return out + variants(used) + body


# Laws.

def law(doc, name, clauses):
    return "\n/// %s\npub fn %s()\n%s{}\n" % (
        doc, name, "".join("    ensures %s { %s }\n" % (n, c) for n, c in clauses))


def answers(file, name, lemmas, names, end):
    fields = "".join("  %s = lemmas.%s_%s;\n" % (n, n, end) for n in names)
    write("proofs/%s/%s/Answers.antt" % (file, name), (
        "use Rattle.tests_due.proofs.%s as lemmas\n"
        "use Rattle.tests_due.proofs.%s.%s.Goals as goal\n\n"
        "pub returns : goal.returns\nreturns c = record {\n%s}\n" % (lemmas, file, name, fields)))


def uses(words, sources, ghost=""):
    """The lines that bring definitions, and histories by their modules."""
    paths = list(words)
    for name, source in sources:
        crate = "tests_histories" if source in WORKED or source.startswith("Random") else "tests_due"
        path = "Rattle.%s.specs.%s as %s" % (crate, source, name if crate == "tests_histories" else low(source))
        paths += [path] if path not in paths else []
    return "".join("%suse %s%s\n" % (ghost, path, ";" if ghost else "") for path in paths)


ACTORS = "Rattle.qc_decl.specs.Actors.{actors}"
THREE = "Rattle.qc_decl.specs.One.{three}"
DUE = "Rattle.qc_promise.specs.Due.{Due}"
REPLIES = "Rattle.qc_promise.specs.Replies.{AreRepliesDue}"
SITES = "Rattle.qc_promise.specs.SiteDue.{AreDue}"
DEEDS = "Rattle.qc_msg.specs.Deeds.{deeds}"
# the first client of `@three`, and what it does
FIRST = "0 (deeds 3 [] %s)"


# Right histories.

def declared(name, source):
    """The declaration and the history of this name: a module's, or one in a module of several."""
    if source in WORKED:
        return "three", "%s.history" % name
    if source.startswith("Random"):
        return "%s.decl" % name, "%s.history" % name
    return "three", low(source) + "." + name


def statement(name, source):
    """That all is due in a history; in one of a row to come, that its first client's deeds are."""
    decl, history = declared(name, source)
    return "AreRepliesDue %s %s" % (decl, FIRST % history) if source == "LaterRows" else "Due %s %s" % (decl, history)


def lemma(name, source):
    decl, history = declared(name, source)
    replies = ("due_where_shown %s %s refl" % (decl, FIRST % history) if source == "LaterRows" else
               "all_due_where_shown %s %s %s.clients refl" % (decl, history, decl))
    sites = "sites_due_where_posted %s %s %s.sites refl" % (decl, history, decl)
    turns = "by_turns_where_placed %s %s (actors %s) refl" % (decl, history, decl)
    mail = "mailed_where_shown [] %s refl" % history
    fields = ("turns", turns), ("mail", mail), ("replies", replies), ("sites", sites), ("admin", "tt")
    value = replies if source == "LaterRows" else "record {\n%s}" % "".join("  %s = %s;\n" % f for f in fields)
    return "\npub %s_due : %s\n%s_due = %s\n" % (name, statement(name, source), name, value)


def right(lemmas, doc, name, histories):
    """A module of lemmas that all is due in each of these histories, and the law of it."""
    body = "".join(lemma(n, s) for n, s in histories)
    used = words_of(body)
    words = [path for path in (
        "Rattle.std.proofs.Common.{%srefl}" % ("[], " if "[]" in body else ""), THREE, DEEDS, DUE, REPLIES,
        ACTORS, "Rattle.tests_due.proofs.Orders.{by_turns_where_placed, mailed_where_shown}",
        "Rattle.tests_due.proofs.Owed.{all_due_where_shown}", "Rattle.tests_due.proofs.Owed.{due_where_shown}",
        "Rattle.tests_due.proofs.Sites.{sites_due_where_posted}") if set(words_of(path.split(".")[-1])) & used]
    write("proofs/%s.antt" % lemmas, "-- %s\n%s%s" % (doc, uses(words, histories), body))
    answers("right", name, lemmas, [n for n, _ in histories], "due")
    return law(doc, name, [(n, statement(n, s)) for n, s in histories])


def make_right(run, parts):
    """The right histories: those of the other crate, and those of the rows that they don't have."""
    worked = [(low(n), n) for n in WORKED]
    later_rows = []
    for name, says, script, edit in later.cases(*parts):
        h = Edited(run(script))
        edit(h)
        later_rows.append((name, says, h.history()))
    long = [("too_long", "A transaction has too many operations.", run(TOO_LONG))]
    write("specs/LaterRows.antt", module(
        "Histories in which sites answer as they do once actors fall and epochs close.", later_rows))
    write("specs/LongTransaction.antt", module("A history with the longest transaction.", long))
    others = [(n, "LaterRows") for n, _, _ in later_rows] + [("too_long", "LongTransaction")]
    random = [("random%d" % k, "Random%d" % k) for k in range(1, RANDOM + 1)]
    groups = [
        ("WorkedHistories", "All is due in the worked histories.", "all_is_due_in_worked_histories", worked),
        ("OtherRows", "Rows that those histories and the random ones don't have: their replies are due.",
         "replies_of_other_rows_are_due", others)]
    for first in range(0, len(random), GROUP):
        group = random[first:first + GROUP]
        span = first + 1, first + len(group)
        groups.append(("Random%dTo%d" % span, "All is due in the random histories %d to %d." % span,
                       "all_is_due_in_%d_to_%d" % span, group))
    laws = "".join(right(*group) for group in groups)
    write("src/right.rt", "//! Right histories, in which all is due.\n\nghost use Rattle.std.specs.Prelude.{[]};\n"
          + uses([THREE, DEEDS, DUE, REPLIES], worked + random + others, "ghost ") + laws)
    return ["LaterRows", "LongTransaction"], [group[0] for group in groups]


# Wrong histories.

def make_wrong(run, kinds, source, head, words):
    """The wrong histories of these kinds: a module of specs/, a module of lemmas and a law for each."""
    files, laws = [], ""
    for file, says, cases in kinds:
        named, lemmas, clauses = [], "", []
        for name, wrong_is, script, *rest in cases:
            edit = next(r for r in rest if callable(r))
            h, said = Edited(run(script)), "%s.%s" % (low(file), name)
            place = edit(h)
            place, last = place if isinstance(place, tuple) else (place, place)
            h.end(last)
            history = h.history()
            named.append((name, wrong_is, history))
            if source == "wrong":
                lemmas += reply_at(said, name, history, place, *rest[1:])
                actor = history[place][0]
                clauses.append((name, "AreRepliesDue three %d (deeds %d [] %s) → ⊥" % (
                    actor - FIRST_CLIENT, actor, said)))
            else:
                lemmas += last_post(said, name, history, rest[0], *rest[2:])
                clauses.append((name, "AreDue three [] (deeds %d [] %s) → ⊥" % (rest[0], said)))
        write("specs/%s.antt" % file, module("Wrong histories: " + says, named))
        write("proofs/%s.antt" % file, lemma_module("None of these is due: " + says, lemmas, file, low(file)))
        function = low(file) + "_are_refused"
        answers(source, function, file, [n for n, _ in clauses], "refused")
        laws += law("These aren't due: " + says, function, clauses)
        files.append(file)
    write("src/%s.rt" % source, "//! %s\n\nghost use Rattle.std.specs.Prelude.{[]};\n" % head
          + uses(words, [(None, f) for f in files], "ghost ") + laws)
    return files


def main(words):
    if len(words) != 1:
        sys.exit(__doc__)
    sys.path.insert(0, words[0])
    from oracle import decl as decls, msg, node, record, reply, script as scripts, step
    three, parts = decls.built_in("@three"), (step, msg, record, reply)

    def run(text):
        r = node.Run(three, scripts.read((text.replace("|", "\n") + "\n").encode(), three), node.MemRack())
        r.go()
        return r.still.history

    specs, lemmas = make_right(run, parts)
    wrong_clients = wrong_reads.cases(*parts) + wrong_asks.cases(*parts) + wrong_commits.cases(*parts)
    wrong_files = make_wrong(run, wrong_clients, "wrong",
                             "Wrong histories of clients, each refused.", [THREE, DEEDS, REPLIES])
    wrong_files += make_wrong(run, wrong_sites.cases(*parts), "wrong_sites", "Wrong histories of sites, each refused.",
                              [THREE, DEEDS, SITES])
    write("specs/Lib.antt", "".join("pub mod %s\n" % m for m in specs + wrong_files + ["Orders"] + WRONG_BY_HAND))
    write("proofs/Lib.antt", "".join(
        "pub mod %s\n" % m for m in ["Orders", "Owed", "Places", "Sites", "SitePlaces"] + lemmas + wrong_files
        + ["RightOrders"] + WRONG_BY_HAND))


if __name__ == "__main__":
    main(sys.argv[1:])
