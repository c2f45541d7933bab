#!/usr/bin/env python3
"""Writes whole histories with falls as modules, and wrong ones.

usage: python3 tools/whole_histories/falls.py MODEL

MODEL is the folder of the model, as for the tool in whose folder this one
stands. This one writes crates/tests_falls: worked histories and random ones in
which disks fail and actors fall and rise, each with its declaration, the moves
that make it, and its script. A law names each: performed over its script, the
moves give just the history, and nothing is left to do. And wrong histories
(`wrong_falls.py`), with a law that refuses each. It writes specs/, proofs/ and
src/ there, but not specs/Perform.antt, Words.antt, Whole.antt, Refused.antt,
proofs/KeptRecords.antt, Sound.antt, Refusing.antt, src/lib.rt and src/laws.rt; `rt fmt` then finds
nothing to lay out.
"""

import os
import sys

sys.dont_write_bytecode = True
import wrong_falls
from choosing import chosen_of
from falling import moves
from modules import COLUMNS, IMPORTS, filled, imported, module, told, variants, words_of
from runs import low, module as scripts_module
from spelling import kind, record as spelled_record, step as spelled_step
from wrong_falls import NEVER, PARTS

CRATE = os.path.join(os.path.dirname(os.path.abspath(__file__)), "..", "..", "crates", "tests_falls")
GROUP = 10
THREE = "Rattle.qc_decl.specs.One.{three}"
# (fewest steps, most steps, how many)
CHOSEN = ((30, 79, 14), (80, 129, 14), (130, 200, 12))
SEEDS = range(1, 700)
SLOT = """sites = 3
clients = 3
[[type]]
name = "slot"
states = ["empty", "full"]
start = "empty"
invocations = ["Put", "Get"]
responses = ["ok", "item"]
rows = ["empty Put ok full", "full Get item empty"]
depends = ["Put Put:ok", "Put Get:item", "Get Put:ok", "Get Get:item"]
triples = ["empty empty -", "full full -", "empty full Put:ok", "full empty Get:item"]
[[object]]
name = "q"
type = "slot"
[[epoch]]
weights = [1, 1, 1]
initial = ["q Put 2", "q Get 2"]
final = ["q Put:ok 2", "q Get:item 2"]
"""
# name: (what it holds, the declaration, the script)
WORKED = {
    "RestartedSite": (
        "A site that granted restarts: a commit is told that it is in another life.", "@three",
        "link c0 s1 1 again|phase|c0 begin|c0 do x W1|phase|crash s1|restart s1|c0 commit"),
    "UnknownCommit": (
        "A client's disk stops as it writes its commit record: it is told Unknown, and rises without the record.",
        "@three",
        "phase|stop c0 at 3|c0 begin|c0 do x W1|c0 commit|phase|restart c0|c1 begin|c1 do x R|phase|c1 do x R|"
        "c1 commit"),
    "LostDecisions": (
        "A client falls after it committed, and rises: sites that weren't told ask it.", "@three",
        "link c0 s0 3 drop|link c0 s1 3 drop|phase|c0 begin|c0 do x W1|c0 commit|phase|crash c0|restart c0|c1 begin|"
        "c1 do x R|phase|c1 do x R|c1 commit"),
    "FaultyPromise": (
        "A site's disk fails as it writes its promise: the commit is told Fault.", SLOT,
        "phase|fail s1 at 2|c0 begin|c0 do q Put|c0 commit"),
    "SecondLives": (
        "A client rises twice and commits in each life; each stamp is above those of its records.", "@three",
        "phase|c0 begin|c0 do x W1|c0 commit|phase|crash c0|restart c0|c0 begin|c0 do x W0|c0 commit|phase|crash c0|"
        "restart c0|c0 begin|c0 do x R|c0 commit"),
    "KeptPromise": (
        "A site that promised falls and rises: it asks how that stands, and holds what it promised.", "@three",
        "phase|stop c0 at 3|c0 begin|c0 do x W1|c0 commit|phase|crash s0|restart s0|c2 begin|c2 do x R"),
}


def write(path, text):
    path = os.path.join(CRATE, path)
    os.makedirs(os.path.dirname(path), exist_ok=True)
    with open(path, "w") as file:
        file.write(text)


# Histories.

PLAY = (
    ("Rattle.std.specs.Prelude", ("List", "[]", "◌∷◌", "Some", "None", "true", "false")),
    *((where, names) for where, names in IMPORTS[1:] if "Play" not in where),
    ("Rattle.qc_msg.specs.declared.turn.Appended.TheVariants", ("Done", "Failed", "Stopped")),
    ("Rattle.tests_falls.specs.Words", ("tx_in", "line_in")),
    ("Rattle.tests_falls.specs.Perform", ("Move", "Begins", "Acts", "Takes", "Posts", "Rises", "Unopened")),
)


def candidates(explore):
    """Runs of sites and clients in which somebody rises, whatever becomes of records."""
    for seed in SEEDS:
        found, _, _, run = explore.one(seed, "free", ("faults", "race", "all")[seed % 3], False)
        if found or run is None:
            continue
        decl, script, history = run.decl, run.still.script, run.still.history
        kinds = {kind(x) for _, x in history}
        if "Rose" in kinds and "Damaged" not in kinds and all(a != decl.admin for a, _ in history):
            yield seed, decl, script, history


def told_falls(decl, history):
    """A line on a random history: what it holds."""
    fell = [x for _, x in history if kind(x) == "Fell"]
    unwritten = sum(x.pending is not None for x in fell)
    rises = sum(kind(x) == "Rose" for _, x in history)
    more = ", unwritten records %d" % unwritten if unwritten else ""
    return told(decl, history)[:-1] + ", falls %d, rises %d%s." % (len(fell), rises, more)


# Laws.

def law(doc, name, clauses):
    text = ""
    for clause in clauses:
        line = "    ensures %s { %s }\n" % clause
        text += line if len(line) <= COLUMNS + 1 else line.replace(" ≡ ", "\n        ≡ ")
    return "\n/// %s\npub fn %s()\n%s{}\n" % (doc, name, text)


def answers(source, name, lemmas, names, end):
    fields = "".join("  %s = lemmas.%s_%s;\n" % (n, n, end) for n in names)
    write("proofs/%s/%s/Answers.antt" % (source, name), (
        "use Rattle.tests_falls.proofs.%s as lemmas\n"
        "use Rattle.tests_falls.proofs.%s.%s.Goals as goal\n\n"
        "pub returns : goal.returns\nreturns c = record {\n%s}\n" % (lemmas, source, name, fields)))


def make_runs(source, name, doc, file, group, histories):
    """A law of right histories: (name, what it holds, declaration, or None for the built-in one, script, history)."""
    write("specs/%sScripts.antt" % file, scripts_module(doc, [(low(n), s) for n, _, _, s, _ in histories]))
    statements, paths = [], ["Rattle.tests_falls.specs.Perform.{run_with_falls}"]
    for n, says, decl, _, history in histories:
        write("specs/%s.antt" % n, module(says, decl, history, moves(history), PLAY))
        statements.append((low(n), "run_with_falls %s scripts%s.%s %s.moves ≡ Some %s.history" % (
            "%s.decl" % low(n) if decl else "three", group, low(n), low(n), low(n))))
        paths.append("Rattle.tests_falls.specs.%s as %s" % (n, low(n)))
    paths = [THREE] * any(decl is None for _, _, decl, _, _ in histories) + paths
    paths.append("Rattle.tests_falls.specs.%sScripts as scripts%s" % (file, group))
    write("proofs/%sRuns.antt" % file, "-- %s\nuse Rattle.std.proofs.Common.{◌≡◌, Some, refl}\n%s%s" % (
        doc, "".join("use %s\n" % path for path in paths),
        "".join("\npub %s_computed : %s\n%s_computed = refl\n" % (n, said, n) for n, said in statements)))
    answers(source, name, file + "Runs", [n for n, _ in statements], "computed")
    modules = [n for n, _, _, _, _ in histories] + ["%sScripts" % file]
    return modules, "%sRuns" % file, ["ghost use %s;\n" % path for path in paths], law(doc, name, statements)


def make_worked(model):
    decls, node, scripts = model
    histories = []
    for name, (says, text, lines) in WORKED.items():
        decl = decls.built_in(text) if text.startswith("@") else decls.accept(text.encode())
        script = scripts.read((lines.replace("|", "\n") + "\n").encode(), decl)
        run = node.Run(decl, script, node.MemRack())
        run.go()
        histories.append((name, says, None if text.startswith("@") else decl, script, run.still.history))
    modules, lemmas, paths, text = make_runs(
        "worked", "worked_falls_are_runs", "The worked histories are whole runs of their scripts.", "Worked", "",
        histories)
    write("src/worked.rt", "//! Histories with falls that were worked by hand first.\n\n"
          "ghost use Rattle.std.specs.Prelude.{◌≡◌, Some};\n%s%s" % ("".join(paths), text))
    return modules, [lemmas]


def make_random(picked):
    modules, lemmas, paths, laws = [], [], [], ""
    for first in range(0, len(picked), GROUP):
        group = picked[first:first + GROUP]
        span = first + 1, first + len(group)
        named = [("Random%d" % (first + k + 1), told_falls(decl, history), decl, script, history)
                 for k, (_, decl, script, history) in enumerate(group)]
        m, l, p, text = make_runs(
            "random", "falls_%d_to_%d_are_runs" % span,
            "The random histories %d to %d are whole runs of their scripts." % span, "Random%dTo%d" % span,
            str(first // GROUP + 1), named)
        modules, lemmas, paths, laws = modules + m, lemmas + [l], paths + p, laws + text
    write("src/random.rt", "//! Random histories of the model with falls, from the shortest to the longest.\n\n"
          "ghost use Rattle.std.specs.Prelude.{◌≡◌, Some};\n%s%s" % ("".join(dict.fromkeys(paths)), laws))
    return modules, lemmas


# Wrong histories.

def wrong_of(actor):
    """The module of histories in which this actor goes wrong, and its word."""
    return ("WrongSites", "wrong_sites") if actor < 3 else ("WrongClients", "wrong_clients")


def make_wrong(stories):
    """The wrong posts and rises: modules of histories, one of lemmas, and a law for each kind."""
    bodies, lemmas, clauses = {"WrongSites": "", "WrongClients": ""}, "", {"posts": [], "rises": []}
    for name, says, what, actor, before, wrong in stories:
        entries = filled(["marked %d %s" % (a, spelled_step(x)) for a, x in before], "[]")
        given, kind_of = (spelled_step, "Step") if what == "posts" else (spelled_record, "Record")
        module, word = wrong_of(actor)
        bodies[module] += "\n-- %s\n\nabbrev pub %s : List Entry\n%s =\n%s\n" % (says, name, name, entries)
        bodies[module] += "\nabbrev pub %s_then : List %s\n%s_then =\n%s\n" % (
            name, kind_of, name, filled([given(x) for x in wrong], "[]"))
        said = "%s three %d %s.%s %s.%s_then" % (
            "IsNoPost" if what == "posts" else "IsNoRise", actor, word, name, word, name)
        clauses[what].append((name, said))
        never = NEVER
        if name in PARTS:
            never = "let same : ◌≡◌ {A = ℕ} %d %d = ap %s e in %s" % (*PARTS[name][1:], PARTS[name][0], NEVER)
        proof = "refused three %d %s.%s %s.%s_then refl (λ e. %s) (λ e. %s) (λ e. %s)" % (
            actor, word, name, word, name, never, NEVER, NEVER)
        lemmas += "\npub %s_refused : %s\n" % (name, said)
        lemmas += "%s_refused = %s\n" % (name, proof) if what == "posts" else "".join(
            "%s_refused (%s e) = %s\n" % (name, side, NEVER) for side in ("inl", "inr"))
    for module, body in bodies.items():
        used = words_of("\n".join(line for line in body.split("\n") if not line.startswith("--")))
        out = "-- Right beginnings of histories with falls of %s, and what is wrong behind them.\n" % module[5:].lower()
        for where, names in (PLAY[0], *PLAY[2:], ("Rattle.qc_msg.specs.declared.step.Step", ("Step",)),
                             ("Rattle.qc_msg.specs.declared.record.Record", ("Record",))):
            out += imported(where, [n for n in names if n in used or n == "◌∷◌"])
        write("specs/%s.antt" % module, out + variants(used) + body)
    paths = [THREE, "Rattle.tests_falls.specs.Refused.{IsNoPost, IsNoRise}"]
    paths += ["Rattle.tests_falls.specs.%s as %s" % wrong_of(actor) for actor in (3, 0)]
    write("proofs/WrongFalls.antt", (
        "-- No wrong history with falls is right.\nuse Rattle.std.proofs.Common.{◌≡◌, ℕ, inl, inr, refl, ap}\n%s"
        "use Rattle.tests_falls.proofs.Refusing.{clock_written, life_begun, life_granted, refused}\n%s" % (
            "".join("use %s\n" % path for path in paths), lemmas)))
    text = ""
    for what, doc, name in (
            ("posts", "No lawful turn posts these steps.", "wrong_posts_through_falls_are_refused"),
            ("rises", "No journal gives these records back.", "wrong_rises_are_refused")):
        answers("wrong", name, "WrongFalls", [n for n, _ in clauses[what]], "refused")
        text += law(doc, name, clauses[what])
    write("src/wrong.rt", "//! Wrong histories with falls, each refused.\n\n%s%s" % (
        "".join("ghost use %s;\n" % path for path in paths), text))
    return list(bodies), ["WrongFalls"]


def main(words):
    if len(words) != 1:
        sys.exit(__doc__)
    sys.path.insert(0, words[0])
    from oracle import decl as decls, explore, msg, node, record, reply, script as scripts, step
    three = decls.built_in("@three")

    def run(text):
        r = node.Run(three, scripts.read((text.replace("|", "\n") + "\n").encode(), three), node.MemRack())
        r.go()
        return list(r.still.history)

    made = [make_worked((decls, node, scripts))]
    picked, seen = chosen_of(candidates(explore), CHOSEN)
    made.append(make_random(picked))
    made.append(make_wrong(wrong_falls.stories(run, step, msg, record, reply)))
    for feature, count in sorted(seen.items()):
        print("%4d  %s" % (count, feature))
    for folder, known, which in (("specs", ["Words", "Perform", "Whole", "Refused"], 0),
                                 ("proofs", ["KeptRecords", "Sound", "Refusing"], 1)):
        write("%s/Lib.antt" % folder, "".join("pub mod %s\n" % m for m in known + sum((m[which] for m in made), [])))


if __name__ == "__main__":
    main(sys.argv[1:])
