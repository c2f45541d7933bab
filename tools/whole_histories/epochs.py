#!/usr/bin/env python3
"""Writes whole histories with falls and epochs as modules, and wrong ones.

usage: python3 tools/whole_histories/epochs.py MODEL

MODEL is the folder of the model, as for the tool in whose folder this one
stands. This one writes crates/tests_epochs: worked histories and random ones in
which the administrator closes and installs epochs and actors fall and rise,
with laws that all is due in each; and wrong histories of the administrator
(`wrong_epochs.py`, `wrong_calls.py`, `wrong_admin_falls.py`) and of sites
(`wrong_epoch_sites.py`), each with a law that refuses it
(`refusing_epochs.py`). It writes specs/, proofs/ and src/ there, but
not specs/Words.antt, Whole.antt, proofs/Owed.antt, Places.antt, Parts.antt and
src/lib.rt; `rt fmt` then finds nothing to lay out.
"""

import os
import sys

sys.dont_write_bytecode = True
import wrong_calls
import wrong_epoch_sites
import wrong_epochs
from choosing import chosen_of
from editing import Edited
from epoch_scripts import DECLARATIONS, SCHEDULED, WORKED
from falls import told_falls
from modules import COLUMNS, IMPORTS, broken, entries, entries_after, headed, words_of
from refusing_epochs import admin_lemma, lemma_module, site_lemma, turns_lemma
from runs import low
from spelling import declaration, kind
from wrong_admin_falls import ADMIN, TURNS

CRATE = os.path.join(os.path.dirname(os.path.abspath(__file__)), "..", "..", "crates", "tests_epochs")
GROUP = 10
# (fewest steps, most steps, how many): of runs in which the administrator asks about transactions, and of others
ASKING = ((120, 370, 9),)
OTHERS = ((40, 129, 11), (130, 179, 11), (180, 219, 9))
SEEDS = range(1, 2500)
WORDS = IMPORTS + (("Rattle.tests_epochs.specs.Words", ("tx_in", "line_in", "prepared")),)


def write(path, text):
    path = os.path.join(CRATE, path)
    os.makedirs(os.path.dirname(path), exist_ok=True)
    with open(path, "w") as file:
        file.write(text)


def law(doc, name, clauses):
    text = ""
    for clause in clauses:
        line = "    ensures %s { %s }\n" % clause
        text += line if len(line) <= COLUMNS + 1 else line.replace(" → ⊥", "\n        → ⊥")
    return "\n/// %s\npub fn %s()\n%s{}\n" % (doc, name, text)


def answers(source, name, lemmas, names, end):
    fields = "".join("  %s = lemmas.%s_%s;\n" % (n, n, end) for n in names)
    write("proofs/%s/%s/Answers.antt" % (source, name), (
        "use Rattle.tests_epochs.proofs.%s as lemmas\n"
        "use Rattle.tests_epochs.proofs.%s.%s.Goals as goal\n\n"
        "pub returns : goal.returns\nreturns c = record {\n%s}\n" % (lemmas, source, name, fields)))


# Right histories.

def history_module(says, decl, history):
    body = "" if decl is None else "abbrev pub decl : Declaration\ndecl =\n%s\n\n" % "\n".join(
        broken(declaration(decl)))
    return headed(says, body + entries("history", history), WORDS)


def right_lemma(name, decl):
    h = "%s.history" % name
    admin = "(deeds (administrator %s) [] %s)" % (decl, h)
    return (
        "\npub {0}_due : Due {1} {2}\n{0}_due = record {{\n"
        "  turns = by_turns_where_placed {1} {2} (actors {1}) refl;\n  mail = mailed_where_shown [] {2} refl;\n"
        "  replies = all_due_where_shown {1} {2} {1}.clients refl;\n"
        "  sites = sites_due_where_posted {1} {2} {1}.sites refl;\n"
        "  admin = admin_due_where_shown {1} {3} refl;\n}}\n").format(name, decl, h, admin)


LEMMA_PATHS = (
    "Rattle.std.proofs.Common.{[], refl}", "Rattle.qc_decl.specs.Actors.{actors, administrator}",
    "Rattle.qc_msg.specs.Deeds.{deeds}",
    "Rattle.tests_due.proofs.Orders.{by_turns_where_placed, mailed_where_shown}",
    "Rattle.tests_due.proofs.Owed.{all_due_where_shown}", "Rattle.tests_due.proofs.Sites.{sites_due_where_posted}",
    "Rattle.qc_promise.specs.Due.{Due}", "Rattle.tests_epochs.proofs.Owed.{admin_due_where_shown}",
)


def declarations_used(text):
    return [name for name in DECLARATIONS if name in words_of(text)]


def uses(paths, text, sign=""):
    """The lines that bring these, and the shared declarations that a text names."""
    shared = declarations_used(text)
    paths = list(paths) + ["Rattle.tests_epochs.specs.Declarations.{%s}" % ", ".join(shared)] * bool(shared)
    return "".join("%suse %s%s\n" % (sign, path, ";" if sign else "") for path in paths)


def make_right(file, doc, name, histories):
    """A law that all is due in these: (name, what it holds, the name of a shared declaration, or its own, history)."""
    body, clauses, paths = "", [], []
    for n, says, decl, history in histories:
        shared = isinstance(decl, str)
        write("specs/%s.antt" % n, history_module(says, None if shared else decl, history))
        decl = decl if shared else "%s.decl" % low(n)
        body += right_lemma(low(n), decl)
        clauses.append((low(n), "Due %s %s.history" % (decl, low(n))))
        paths.append("Rattle.tests_epochs.specs.%s as %s" % (n, low(n)))
    write("proofs/%s.antt" % file, "-- %s\n%s%s" % (doc, uses(list(LEMMA_PATHS) + paths, body), body))
    answers("right", name, file, [n for n, _ in clauses], "due")
    return paths, law(doc, name, clauses)


def asks(history):
    return any(kind(x) == "Sent" and kind(x.message) == "Ask" for _, x in history)


def outlives(decl, history):
    """Whether the administrator falls, or a record of an epoch outlives a fall."""
    def of_epoch(r):
        return kind(r) in ("Close", "Install", "Decide")

    return any(kind(x) == "Fell" and (a == decl.admin or of_epoch(x.pending))
               or kind(x) == "Rose" and any(map(of_epoch, x.records)) for a, x in history)


def candidates(explore):
    """Runs with epochs, whatever becomes of records."""
    for seed in SEEDS:
        found, _, _, run = explore.one(seed, "free", ("epochs", "all", "tight")[seed % 3], False)
        if found or run is None:
            continue
        decl, history = run.decl, run.still.history
        if (asks(history) or outlives(decl, history)) and not any(kind(x) == "Damaged" for _, x in history):
            yield seed, decl, run.still.script, history


def told_epochs(decl, history):
    """A line on a random history: what it holds."""
    counts = [(word, sum(kind(x) == "Wrote" and kind(x.record) == record for _, x in history))
              for word, record in (("closes", "Close"), ("decisions", "Decide"), ("installs", "Install"))]
    return told_falls(decl, history)[:-1] + "".join(", %s %d" % count for count in counts if count[1]) + "."


def make_all_right(worked, picked):
    groups = [("WorkedHistories", "All is due in the worked histories.", "all_is_due_in_worked_histories", worked)]
    for first in range(0, len(picked), GROUP):
        group = picked[first:first + GROUP]
        span = first + 1, first + len(group)
        groups.append(("Random%dTo%d" % span, "All is due in the random histories %d to %d." % span,
                       "all_is_due_in_%d_to_%d" % span,
                       [("Random%d" % (first + k + 1), told_epochs(decl, history), decl, history)
                        for k, (_, decl, _, history) in enumerate(group)]))
    made = [make_right(*group) for group in groups]
    laws = "".join(text for _, text in made)
    paths = ["Rattle.qc_promise.specs.Due.{Due}"] + [path for paths, _ in made for path in paths]
    write("src/right.rt", "//! Right histories with falls and epochs, in which all is due.\n\n" + uses(
        paths, laws, "ghost ") + laws)
    return [n for group in groups for n, _, _, _ in group[3]], [group[0] for group in groups]


# Wrong histories.

def common_steps(history, other):
    """How many of their first steps are the same."""
    return next((k for k, (x, y) in enumerate(zip(history, other)) if x != y), min(len(history), len(other)))


def wrong_module(says, cases, worked):
    """Each wrong history is written from where it leaves the worked one that it follows longest."""
    body, stories = "", {}
    for name, wrong_is, history, *_ in cases:
        first, story = max(((common_steps(history, right), n) for n, _, _, right in worked), key=lambda found: found[0])
        stories[story] = "use Rattle.tests_epochs.specs.%s as %s\n" % (story, low(story))
        body += "\n-- %s\n%s" % (wrong_is, entries_after(name, low(story), first, history))
    return headed("Wrong histories: " + says, body.lstrip("\n"), WORDS, "".join(stories.values()))


def make_file(file, says, cases, source, worked):
    """The wrong histories of a file: (name, what is wrong, history, lemma, statement)."""
    write("specs/%s.antt" % file, wrong_module(says, cases, worked))
    write("proofs/%s.antt" % file, lemma_module(
        "None of these is due: " + says, "".join(case[3] for case in cases), file, low(file)))
    function = low(file) + "_are_refused"
    answers(source, function, file, [case[0] for case in cases], "refused")
    return law("These aren't due: " + says, function, [(case[0], case[4]) for case in cases])


def make_wrong(run, kinds, source, head, word, worked):
    laws = ""
    for file, says, cases in kinds:
        made = []
        for case in cases:
            name, wrong_is, said = case[0], case[1], "%s.%s" % (low(file), case[0])
            if source == "wrong":
                decl, script, edit, part = case[2:]
            else:
                decl, (script, site, edit, part) = "three_epochs", case[2:]
            right = run(decl, script)
            h = Edited(right)
            place = edit(h)
            place, last = place if isinstance(place, tuple) else (place, place)
            h.end(last)
            wrong = h.history()
            if source == "wrong" and part == TURNS:
                text = turns_lemma(said, name, decl)
                statement = "AreAdminTurns %s %s → ⊥" % (decl, said)
            elif source == "wrong":
                text = admin_lemma(said, name, decl, ADMIN, right, wrong, place, part)
                statement = "IsAdminDueIn %s %s → ⊥" % (decl, said)
            else:
                text = site_lemma(said, name, site, right, wrong, part)
                statement = "IsSiteDueIn three_epochs %d %s → ⊥" % (site, said)
            made.append((name, wrong_is, wrong, text, statement))
        laws += make_file(file, says, made, source, worked)
    paths = ["Rattle.tests_epochs.specs.Whole.{%s}" % word] + [
        "Rattle.tests_epochs.specs.%s as %s" % (file, low(file)) for file, _, _ in kinds]
    write("src/%s.rt" % source, "//! %s\n\n%s%s" % (head, uses(paths, laws, "ghost "), laws))
    return [file for file, _, _ in kinds]


def main(words):
    if len(words) != 1:
        sys.exit(__doc__)
    sys.path.insert(0, words[0])
    from oracle import decl as decls, explore, msg, node, record, reply, script as scripts, step
    declared = {name: decls.accept(text.encode()) for name, text in DECLARATIONS.items()}

    def run(decl, text):
        script = scripts.read((text.replace("|", "\n") + "\n").encode(), declared[decl])
        r = node.Run(declared[decl], script, node.MemRack())
        r.go()
        return list(r.still.history)

    def scheduled(decl, text, seed):
        found, _, _, r = explore.one(seed, "free", "epochs", False, DECLARATIONS[decl], text.split("|"))
        assert not found
        return list(r.still.history)

    write("specs/Declarations.antt", headed(
        "The declarations of the worked histories: three epochs, of one object and of two.", "\n".join(
            "abbrev pub %s : Declaration\n%s =\n%s\n" % (name, name, "\n".join(broken(declaration(decl))))
            for name, decl in declared.items()), WORDS))
    runs = list(candidates(explore))
    asking, seen = chosen_of([r for r in runs if asks(r[3])], ASKING)
    others, more = chosen_of([r for r in runs if not asks(r[3])], OTHERS)
    worked = [(n, says, decl, run(decl, script)) for n, (says, decl, script) in WORKED.items()] + [
        (n, says, decl, scheduled(decl, script, seed)) for n, (says, decl, script, seed) in SCHEDULED.items()]
    specs, lemmas = make_all_right(worked, sorted(asking + others, key=lambda r: len(r[3])))
    parts = step, msg, record, reply
    admin = wrong_epochs.cases(*parts) + wrong_calls.cases(step, msg, reply)
    wrong = make_wrong(run, admin, "wrong", "Wrong histories of the administrator, each refused.",
                       "AreAdminTurns, IsAdminDueIn", worked)
    wrong += make_wrong(run, wrong_epoch_sites.cases(*parts), "wrong_sites", "Wrong histories of sites, each refused.",
                        "IsSiteDueIn", worked)
    for feature, count in sorted((seen + more).items()):
        print("%4d  %s" % (count, feature))
    for folder, known in (("specs", ["Words", "Declarations", "Whole"] + specs),
                          ("proofs", ["Owed", "Places", "Parts"] + lemmas)):
        write("%s/Lib.antt" % folder, "".join("pub mod %s\n" % m for m in known + wrong))


if __name__ == "__main__":
    main(sys.argv[1:])
