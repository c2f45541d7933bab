#!/usr/bin/env python3
"""Writes the scripts of the histories in crates/tests_histories as modules.

usage: python3 tools/whole_histories/runs.py MODEL

MODEL is the folder of the model, as for the tool in whose folder this one
stands, which chooses the histories and writes them with their moves. This one
writes what those are runs of: rules of links, and phases with control lines and
commands. A law names each: performed over its script, where each input is what
is ready then, the moves give just the history, and nothing is left to do.
Another one says that after each move those that may take an input are the
model's. It
writes the scripts in specs/ of crates/tests_runs, and proofs/ and src/ for
them, but not specs/Perform.antt, Whole.antt, Words.antt, proofs/Sound.antt,
proofs/laws/, src/lib.rt and src/laws.rt; `rt fmt` then finds nothing to lay out.
"""

import importlib.util
import os
import sys

sys.dont_write_bytecode = True
from choosing import chosen
from modules import COLUMNS, broken, filled, imported, words_of
from spelling import command, kind, listed, optional, term
from takers import takers

HERE = os.path.dirname(os.path.abspath(__file__))
CRATE = os.path.join(HERE, "..", "..", "crates", "tests_runs")
GROUP = 10


def histories():
    """The tool that chooses the histories: what it has in __main__.py."""
    spec = importlib.util.spec_from_file_location("histories", os.path.join(HERE, "__main__.py"))
    module = importlib.util.module_from_spec(spec)
    spec.loader.exec_module(module)
    return module


WORKED, low = histories().WORKED, histories().low


# Spelling scripts as terms.

def link(rule):
    return "link %s %s %s rules.%s" % (optional(rule[0]), optional(rule[1]), optional(rule[2]), rule[3])


def control(line):
    fields = {
        "Cut": lambda: (line.a, line.b),
        "Heal": lambda: (line.a, line.b),
        "Armed": lambda: (line.actor, "arms." + line.kind, line.at),
        "Crash": lambda: (line.actor,),
        "Restart": lambda: (line.actor,),
    }[kind(line)]()
    return term("controls." + kind(line), *fields)


def phase(lines):
    commands = listed("asks %d %s" % (actor, command(c)) for actor, c in lines.commands)
    return "phase %s %s" % (listed(map(control, lines.controls)), commands)


def script(name, s):
    text = "script %s %s" % (listed(map(link, s.links)), listed(map(phase, s.phases)))
    return "abbrev pub %s : Script\n%s =\n%s\n" % (name, name, "\n".join(broken(text)))


IMPORTS = (
    ("Rattle.std.specs.Prelude", ("[]", "◌∷◌", "Some", "None")),
    ("Rattle.qc_script.specs.declared.script.Script", ("Script",)),
    ("Rattle.tests_runs.specs.Words", ("link", "asks", "phase", "script")),
)
VARIANTS = (
    ("commands", "qc_msg.specs.declared.step.Command"), ("controls", "qc_msg.specs.declared.step.Control"),
    ("rules", "qc_link.specs.declared.rule.Rule"), ("arms", "qc_outside.specs.declared.disk.ArmKind"),
)


def module(head, scripts):
    body = "\n".join(script(name, s) for name, s in scripts)
    used = words_of(body)
    out = "-- %s\n" % head
    for where, names in IMPORTS:
        out += imported(where, [n for n in names if n in used or n == "◌∷◌"])
    for name, where in VARIANTS:
        if any(word.startswith(name + ".") for word in used):
            out += "use Rattle.%s.TheVariants as %s\n" % (where, name)
    return out + "\n" + body


# Who may take an input, as terms.

def takers_module(head, named):
    body = "\n".join("abbrev pub %s : List (List ℕ)\n%s =\n%s\n" % (
        name, name, filled([listed(map(str, actors)) for actors in lists], "[]")) for name, lists in named)
    return "-- %s\nuse Rattle.std.specs.Prelude.{ℕ, List, [], ◌∷◌}\n\n%s" % (head, body)


# Laws.

def declared(name):
    return "three" if name in WORKED else low(name) + ".decl"


def run_statement(name, group):
    return "run_by %s scripts%s.%s %s.moves ≡ Some %s.history" % (
        declared(name), group, low(name), low(name), low(name))


def takers_statement(name, group):
    return "all_takers %s scripts%s.%s %s.moves ≡ takers%s.%s" % (
        declared(name), group, low(name), low(name), group, low(name))


def uses(names, group, file, what, ghost=""):
    """The lines that bring the histories of these names, and what is said of them."""
    paths = ["Rattle.qc_decl.specs.One.{three}"] if names[0] in WORKED else []
    paths += ["Rattle.tests_histories.specs.%s as %s" % (n, low(n)) for n in names]
    paths += ["Rattle.tests_runs.specs.Perform.{%s}" % ", ".join(what)]
    paths += ["Rattle.tests_runs.specs.%sScripts as scripts%s" % (file, group)]
    if "all_takers" in what:
        paths += ["Rattle.tests_runs.specs.%sTakers as takers%s" % (file, group)]
    return "".join("%suse %s%s\n" % (ghost, path, ";" if ghost else "") for path in paths)


def write(path, text):
    path = os.path.join(CRATE, path)
    os.makedirs(os.path.dirname(path), exist_ok=True)
    with open(path, "w") as file:
        file.write(text)


def law(source, name, doc, names, group, file, what, statement):
    """The lemmas of a law, their file, its answers, and the law itself."""
    lemmas = "".join(part.capitalize() for part in name.split("_"))
    common = "◌≡◌, Some, refl" if what == ["run_by"] else "◌≡◌, refl"
    text = "-- %s\nuse Rattle.std.proofs.Common.{%s}\n%s" % (doc, common, uses(names, group, file, what))
    for n in names:
        text += "\npub %s_computed : %s\n%s_computed = refl\n" % (low(n), statement(n, group), low(n))
    write("proofs/%s.antt" % lemmas, text)
    fields = "".join("  %s = lemmas.%s_computed;\n" % (low(n), low(n)) for n in names)
    write("proofs/%s/%s/Answers.antt" % (source, name),
          "use Rattle.tests_runs.proofs.%s as lemmas\n"
          "use Rattle.tests_runs.proofs.%s.%s.Goals as goal\n\n"
          "pub returns : goal.returns\nreturns c = record {\n%s}\n" % (lemmas, source, name, fields))
    out = "\n/// %s\npub fn %s()\n" % (doc, name)
    for n in names:
        clause = "    ensures %s { %s }\n" % (low(n), statement(n, group))
        out += clause if len(clause) <= COLUMNS else clause.replace(" ≡ ", "\n        ≡ ")
    return lemmas, out + "{}\n"


def make(source, head, groups):
    """What is said of groups of histories: (text of its law, group, file, [(name, script, takers)])."""
    modules, lemmas, imports, laws = [], [], [], ""
    for which, said, group, file, histories in groups:
        names = [n for n, _, _ in histories]
        write("specs/%sScripts.antt" % file, module("The scripts of the %s." % said, [
            (low(n), s) for n, s, _ in histories]))
        write("specs/%sTakers.antt" % file, takers_module(
            "The %s: who may take an input, at first and after each move." % said, [(low(n), t) for n, _, t in histories]))
        modules += ["%sScripts" % file, "%sTakers" % file]
        for name, doc, what, statement in (
                ("%s_are_runs" % which, "The %s are whole runs of their scripts." % said, ["run_by"], run_statement),
                ("takers_of_%s_are_right" % which,
                 "In the %s those that may take an input are the model's." % said, ["all_takers"], takers_statement)):
            file_of, text = law(source, name, doc, names, group, file, what, statement)
            lemmas.append(file_of)
            laws += text
        imports += uses(names, group, file, ["all_takers", "run_by"], "ghost ").split("\n")
    write("src/%s.rt" % source, "//! %s\n\nghost use Rattle.std.specs.Prelude.{◌≡◌, Some};\n%s\n%s" % (
        head, "\n".join(line for line in dict.fromkeys(imports) if line), laws))
    return modules, lemmas


def spans(count):
    """Where each group begins and ends. The longest histories stand in smaller ones, so that files stay short."""
    starts = [k for k in range(0, count, GROUP // 2) if k % GROUP == 0 or k > count - GROUP]
    return list(zip(starts, starts[1:] + [count]))


def histories_in(model):
    """The worked and the random histories: names, scripts, takers."""
    sys.path.insert(0, model)
    from oracle import decl as decls, explore, fabric, node, script as scripts
    three, worked = decls.built_in("@three"), []
    for name, (_, text) in WORKED.items():
        read = scripts.read((text.replace("|", "\n") + "\n").encode(), three)
        run = node.Run(three, read, node.MemRack())
        run.go()
        worked.append((name, read, takers(fabric, three, read, run.still.history)))
    random = [("Random%d" % (k + 1), s, takers(fabric, decl, s, history))
              for k, (_, decl, s, history) in enumerate(chosen(explore)[0])]
    return worked, random


def main(words):
    if len(words) != 1:
        sys.exit(__doc__)
    worked, random = histories_in(words[0])
    modules, lemmas = make("worked", "Histories that were worked by hand first.", [
        ("worked_histories", "worked histories", "", "Worked", worked)])
    groups = []
    for k, end in spans(len(random)):
        span = k + 1, end
        groups.append(("histories_%d_to_%d" % span, "random histories %d to %d" % span, str(len(groups) + 1),
                       "Random%dTo%d" % span, random[k:end]))
    more = make("random", "Random histories of the model, from the shortest to the longest.", groups)
    write("specs/Lib.antt", "".join("pub mod %s\n" % m for m in ["Perform", "Whole", "Words"] + modules + more[0]))
    write("proofs/Lib.antt", "".join("pub mod %s\n" % m for m in ["Sound"] + lemmas + more[1]))


if __name__ == "__main__":
    main(sys.argv[1:])
