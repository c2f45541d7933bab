#!/usr/bin/env python3
"""Writes whole histories of a model as modules that the checker computes.

usage: python3 tools/whole_histories MODEL

MODEL is the folder of an executable model of the protocol, which was written
apart from this repository (a Python package `oracle`). It isn't needed to build
or to check anything: the modules that this tool makes of its histories are kept
in crates/tests_histories.

It runs each script of WORKED over the built-in declaration of three sites, and
takes random runs of the model: several types and objects, plans with weights,
link rules, cuts, several inputs open at once, no falls and one epoch. Of those
it chooses some of each size, always the one whose kinds of steps are rarest
among the ones that it has (`choosing.py`). Each history becomes a module of
specs/ with its declaration, its moves and its entries (`modules.py`,
`spelling.py`). A law names each: performed from nothing by the conduct, the
moves give just this history. All of specs/, proofs/ and src/ there is written
anew but specs/Play.antt, specs/Words.antt and src/lib.rt; `rt fmt` then finds
nothing to lay out.
"""

import os
import sys

sys.dont_write_bytecode = True
from choosing import chosen
from modules import module, told

CRATE = os.path.join(os.path.dirname(os.path.abspath(__file__)), "..", "..", "crates", "tests_histories")
GROUP = 10

# name: (what it holds, the script)
WORKED = {
    "ReadAfterWrite": (
        "A client writes, reads and commits; then another reads what it wrote.",
        "phase|c0 begin|c0 do x W1|c0 do x R|c0 commit|phase|c1 begin|c1 do x R|c1 commit"),
    "ReadBeforeCommit": (
        "A read conflicts with another's write until that commits.",
        "phase|c0 begin|c0 do x W1|phase|c1 begin|c1 do x R|phase|c0 commit|phase|c1 do x R|c1 commit"),
    "BlindWrites": (
        "Two clients write at once, without a conflict, and a third transaction reads the later one.",
        "phase|c0 begin|c0 do x W0|phase|c1 begin|c1 do x W1|phase|c0 commit|phase|c1 commit|phase|c0 begin|c0 do x R|"
        "c0 commit"),
    "CutOff": (
        "A client that is cut off from two sites gets no quorum.",
        "phase|cut c1 s0|cut c1 s1|c1 begin|c1 do x R"),
    "LateCopy": (
        "A late copy of a request is granted after its transaction ended, and an inquiry drops it.",
        "link c0 s1 1 late|phase|c0 begin|c0 do x W1|c0 commit|phase|c1 begin|c1 do x R|phase|c1 do x R|c1 commit"),
    "EveryMessageTwice": (
        "Each message comes twice.",
        "link * * * twice|phase|c0 begin|c0 do x W1|c0 do x R|c0 commit"),
    "DoomedWrite": (
        "A write that conflicts with another's read dooms its transaction.",
        "phase|c0 begin|c0 do x R|phase|c1 begin|c1 do x W1|c1 commit|phase|c0 commit"),
}


def write(path, text):
    path = os.path.join(CRATE, path)
    os.makedirs(os.path.dirname(path), exist_ok=True)
    with open(path, "w") as file:
        file.write(text)


def low(name):
    """ReadAfterWrite as read_after_write."""
    return "".join(("_" if k else "") + c.lower() if c.isupper() else c for k, c in enumerate(name))


def statement(name):
    return "performed %s %s.moves ≡ Some %s.history" % (
        "three" if name in WORKED else low(name) + ".decl", low(name), low(name))


def uses(names, ghost=""):
    """The lines of a module, or of a source file, that bring the histories of these names."""
    paths = ["Rattle.qc_decl.specs.One.{three}"] if names[0] in WORKED else []
    paths += ["Rattle.tests_histories.specs.Play.{performed}"]
    paths += ["Rattle.tests_histories.specs.%s as %s" % (n, low(n)) for n in names]
    return "".join("%suse %s%s\n" % (ghost, path, ";" if ghost else "") for path in paths)


def write_lemmas(name, head, names):
    """A module of proofs/ with a lemma for each history."""
    text = "-- %s\nuse Rattle.std.proofs.Common.{◌≡◌, Some, refl}\n%s" % (head, uses(names))
    for n in names:
        text += "\npub %s_performed : %s\n%s_performed = refl\n" % (low(n), statement(n), low(n))
    write("proofs/%s.antt" % name, text)


def write_answers(file, law, lemmas, names):
    """What answers the clauses of a law of a source file."""
    fields = "".join("  %s = lemmas.%s_performed;\n" % (low(n), low(n)) for n in names)
    write("proofs/%s/%s/Answers.antt" % (file, law), (
        "use Rattle.tests_histories.proofs.%s as lemmas\n"
        "use Rattle.tests_histories.proofs.%s.%s.Goals as goal\n\n"
        "pub returns : goal.returns\nreturns c = record {\n%s}\n" % (lemmas, file, law, fields)))


def law(doc, name, names):
    clauses = "".join("    ensures %s { %s }\n" % (low(n), statement(n)) for n in names)
    return "\n/// %s\npub fn %s()\n%s{}\n" % (doc, name, clauses)


def write_source(file, head, names, laws):
    uses_all = "ghost use Rattle.std.specs.Prelude.{◌≡◌, Some};\n" + uses(names, "ghost ")
    write("src/%s.rt" % file, "//! %s\n\n%s%s" % (head, uses_all, "".join(laws)))


def make_worked(three, node, scripts):
    """Writes the worked histories."""
    for name, (head, text) in WORKED.items():
        run = node.Run(three, scripts.read((text.replace("|", "\n") + "\n").encode(), three), node.MemRack())
        run.go()
        write("specs/%s.antt" % name, module(head, None, run.still.history))
    names, file = list(WORKED), "WorkedHistories"
    write_lemmas(file, "The worked histories, computed.", names)
    write_answers("worked", "worked_histories_are_performed", file, names)
    write_source("worked", "Histories that were worked by hand first.", names, [law(
        "The conduct performs each worked history, step by step.", "worked_histories_are_performed", names)])
    return [file]


def make_random(picked):
    """Writes the random histories."""
    names = ["Random%d" % (k + 1) for k in range(len(picked))]
    for name, (seed, decl, _, history) in zip(names, picked):
        write("specs/%s.antt" % name, module(told(decl, history), decl, history))
        print(name, "seed", seed, "steps", len(history))
    files, laws = [], []
    for first in range(0, len(names), GROUP):
        group = names[first:first + GROUP]
        span = first + 1, first + len(group)
        file, name = "Random%dTo%d" % span, "histories_%d_to_%d_are_performed" % span
        write_lemmas(file, "Random histories %d to %d, computed." % span, group)
        write_answers("random", name, file, group)
        laws.append(law("The conduct performs the random histories %d to %d, step by step." % span, name, group))
        files.append(file)
    write_source("random", "Random histories of the model, from the shortest to the longest.", names, laws)
    return names, files


def main(words):
    if len(words) != 1:
        sys.exit(__doc__)
    sys.path.insert(0, words[0])
    from oracle import decl as decls, explore, node, script as scripts
    worked_files = make_worked(decls.built_in("@three"), node, scripts)
    picked, seen = chosen(explore)
    names, random_files = make_random(picked)
    for feature, count in sorted(seen.items()):
        print("%4d  %s" % (count, feature))
    write("specs/Lib.antt", "".join("pub mod %s\n" % n for n in ["Play", "Words"] + list(WORKED) + names))
    write("proofs/Lib.antt", "".join("pub mod %s\n" % n for n in worked_files + random_files))


if __name__ == "__main__":
    main(sys.argv[1:])
