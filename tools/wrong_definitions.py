#!/usr/bin/env python3
"""Turns one line of the definitions of falls and epochs at a time: the proofs of laws_refinement have to refuse each.

usage: wrong_definitions.py [WORD..]

With words only the edits whose names have one of them are tried. Nothing of the tree is changed: qc_site, qc_epoch,
qc_recover and laws_refinement are copied, with what was kept of them, beside the crates below, which have to be built, as
`rt check` in crates/laws_refinement leaves them. An edit takes half a minute to two. The status is 0 where each is refused, 1 where one
isn't, no longer applies, or isn't a definition any more. Python 3.8 or later.
"""
import os
import shutil
import subprocess
import sys
import tempfile

TOP = os.path.dirname(os.path.dirname(os.path.abspath(__file__)))
COPIED = "qc_site", "qc_epoch", "qc_recover", "laws_refinement"

SITES = "qc_recover/specs/Sites.antt"
CLIENTS = "qc_recover/specs/Clients.antt"
ADMINS = "qc_recover/specs/Admins.antt"
SITE = "qc_site/specs/Site.antt"
ROWS = "qc_site/specs/Epochs.antt"
CONDUCT = "qc_epoch/specs/Conduct.antt"
NET = "laws_refinement/specs/Net.antt"

CLOSE = "keeps k (records.Close epoch) = record k { life = k.life + 1; closed_for = Some epoch }"
INSTALL_CLOCK = "clock = max (latest k.clock start.lines) start.clock;"
INSTALL_LINES = "      began = start.lines;\n      lines = [];"
INSTALL_EPOCH = "      epoch = start.epoch;\n      closed_for = None;"
RISE = "    let records : List Record = net.records a ++ option_to_list back in\n    record {\n      mail = net.mail ++"

# what is wrong, the file, the text, and what takes its place
EDITS = [
    # a client's records
    ("a client rises with clock 0", CLIENTS, "clock = max k.clock commit.stamp.clock", "clock = k.clock"),
    ("a client rises in its first life", CLIENTS, "      life = k.life;\n", "      life = first_life;\n"),
    ("a client rises without its commits", CLIENTS, "commits = k.commits;", "commits = [];"),
    ("a client that rose knows epoch 0", CLIENTS, "      epoch = first_epoch;\n      transaction",
     "      epoch = 0;\n      transaction"),
    # a site's
    ("a rise begins no life", SITES, "keeps k records.Life = record k { life = k.life + 1 }", "keeps k records.Life = k"),
    ("a site that rose holds nothing", SITES, "held = held_by k.promises", "held = []"),
    ("a site that rises forgets its promises", SITES, "prepared = k.promises;\n      clock", "prepared = [];\n      clock"),
    ("a site rises with clock 0", SITES, "      clock = k.clock;\n    }", "      clock = 0;\n    }"),
    ("a Prepare records no lines", SITES, "lines = union k.lines p.lines;", "lines = k.lines;"),
    ("a site rises without the lines that its epoch began with", SITES, "      began = k.began;\n      log = k.lines;",
     "      began = [];\n      log = k.lines;"),
    ("a Done gives no lines", SITES, "lines = union k.lines (without (done_lines k.prepares tx clock) k.began);",
     "lines = k.lines;"),
    ("a Done leaves the promise", SITES, "promises = without_prepared k.promises tx;", "promises = k.promises;"),
    ("a Close record begins no life", SITES, CLOSE, CLOSE.replace("life = k.life + 1; ", "")),
    ("a Close record is forgotten", SITES, CLOSE, CLOSE.replace("; closed_for = Some epoch", "")),
    ("an Install record leaves the site closed", SITES, INSTALL_EPOCH, INSTALL_EPOCH.replace("None", "k.closed_for")),
    ("an Install record is of the next epoch", SITES, INSTALL_EPOCH, INSTALL_EPOCH.replace("= start.epoch", "= k.epoch + 1")),
    ("an Install record leaves the promises", SITES, "      prepares = [];\n      promises = [];\n      clock = max",
     "      prepares = k.prepares;\n      promises = k.promises;\n      clock = max"),
    ("an Install record gives no lines", SITES, INSTALL_LINES, INSTALL_LINES.replace("began = start.lines", "began = []")),
    ("an Install record leaves the lines", SITES, INSTALL_LINES, INSTALL_LINES.replace("[]", "k.lines")),
    ("an Install record's own clock is forgotten", SITES, INSTALL_CLOCK, "clock = latest k.clock start.lines;"),
    ("an Install record's clock forgets the one before", SITES, INSTALL_CLOCK, "clock = max (latest 0 start.lines) start.clock;"),
    # the administrator's
    ("the administrator forgets his decision", ADMINS, "(λ (start : EpochStart). Some start)",
     "(λ (start : EpochStart). k)"),
    ("the administrator rises in another epoch than he decided", ADMINS, "epoch_by (Some d) = d.epoch",
     "epoch_by (Some d) = d.clock"),
    ("the administrator rises in his epoch without its record", ADMINS, "decided = k; doing", "decided = None; doing"),
    # turns, falls and rises
    ("Installs are sent though the decision isn't written", CONDUCT, "failed_sends = [];\n      failed_told = Some",
     "failed_sends = install_sends decl d;\n      failed_told = Some"),
    ("Shut is told though the Close isn't written", SITE, "failed_sends = answering from number Fault",
     "failed_sends = answering from number answer"),
    ("a site that closes begins no life", ROWS, "record s { life = s.life + 1; closed_for", "record s { closed_for"),
    ("a closed site tells the lines since alone", ROWS, "snapshot_with s.clock (known s)", "snapshot_with s.clock s.log"),
    ("a site that installs leaves its lines", ROWS, "      log = [];", "      log = s.log;"),
    ("a site that installs takes no lines", ROWS, "      began = lines;", "      began = [];"),
    ("a rise may lose all records", NET, RISE, RISE.replace("net.records a ++ ", "")),
    ("a turn that isn't written sends its messages", NET, "(sends ≡ turn.failed_sends) ⊎", "(sends ≡ turn.sends) ⊎"),
]


def below():
    """Returns the lines of crates.txt for laws_refinement and all crates of the repository that it stands on, by crate."""
    with open(f"{TOP}/crates.txt", encoding="utf-8") as it:
        lines = {line.split(":")[0].split()[0]: line for line in it if ":" in line.split("#")[0]}
    wanted, new = set(), {"laws_refinement"}
    while new:
        wanted |= new
        new = {name for crate in new for name in lines[crate].partition(":")[2].split() if name in lines} - wanted
    return {name: line for name, line in lines.items() if name in wanted}


def link_or_copy(old, new):
    try:
        os.link(old, new)
    except OSError:
        shutil.copy2(old, new)


def copy_to(folder):
    """Copies the three crates into a folder, and links the files of those below."""
    with open(f"{folder}/crates.txt", "w", encoding="utf-8") as it:
        it.writelines(below().values())
    for name in below():
        old, new = f"{TOP}/crates/{name}", f"{folder}/crates/{name}"
        if name in COPIED:
            shutil.copytree(old, new)
        else:
            shutil.copytree(old, new, copy_function=link_or_copy, ignore=shutil.ignore_patterns("incremental"))


def tried(folder):
    """Returns how a check of laws_refinement ends: proved, refused, refused by a crate below, or why it is no definition."""
    ran = subprocess.run(["rt", "check", "--jobs", "1"], cwd=f"{folder}/crates/laws_refinement", stdin=subprocess.DEVNULL,
                         capture_output=True, text=True)
    said = ran.stdout + ran.stderr
    if "crate laws_refinement:" not in said:
        own = "logic=not-proved" in said and "./specs/" not in said
        return "refused below" if own else "not a definition"
    return "PROVED" if "logic=proved" in said.split("crate laws_refinement:")[1] else "refused"


def outcome(folder, file, old, new):
    """Makes an edit, tries it, and takes it back."""
    path = f"{folder}/crates/{file}"
    with open(path, encoding="utf-8") as it:
        text = it.read()
    if text.count(old) != 1:
        return "doesn't apply"
    try:
        with open(path, "w", encoding="utf-8") as it:
            it.write(text.replace(old, new))
        return tried(folder)
    finally:
        with open(path, "w", encoding="utf-8") as it:
            it.write(text)


def main(words):
    if {"-h", "--help"} & set(words):
        print(__doc__)
        return 0
    wanted = [edit for edit in EDITS if not words or any(word in edit[0] for word in words)]
    wrong = 0
    with tempfile.TemporaryDirectory() as folder:
        copy_to(folder)
        if tried(folder) != "PROVED":
            raise SystemExit("wrong_definitions: laws_refinement isn't proved as it stands")
        for label, file, old, new in wanted:
            end = outcome(folder, file, old, new)
            wrong += end not in ("refused", "refused below")
            print(f"{end}: {label}", flush=True)
    print(f"{len(wanted) - wrong} refused, {wrong} not")
    return 1 if wrong or not wanted else 0


if __name__ == "__main__":
    sys.exit(main(sys.argv[1:]))
