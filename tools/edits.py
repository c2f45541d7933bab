#!/usr/bin/env python3
"""Tries the wrong bodies of edits/CRATE/*.edit, all of a crate in one check: the prover has to refuse each.

usage: edits.py [--all] [--note] [--kept] [--jobs N] [CRATE..]
       edits.py --clear

An edit has the form of a must-fail edit, and a line 'fn: PATH': the function that the prover has to refuse, as a
check prints it behind `fn CRATE::`. Tried are the crates that are named, or else those whose files or edits aren't
those of edits/LEDGER, and beside them every eighth, picked by the commit. --all tries all. --note writes into the
ledger which crates had all their edits refused. --kept works over a copy of what `rt check` kept of the crate, which
is quicker, and is not for the gate. --jobs says how many checks run at once (else one a processor, as memory allows).

Only the turned functions and those that they call are checked, over the libraries in crates/*/out/rlib. In a new
clone the gate leaves them there. Where one is missing, or is older than a source, `rt lib` builds it, which may prove
much. The gate puts back the libraries that it found, so before the gate --clear removes all of them, where not all
can be used.

An edit is refused where its function's own proof fails. One that is only told as calling a refused function is tried
once more, alone; so is each that can't stand in one text with another. The status is 0 where each is refused, 1 where
one isn't, doesn't apply or doesn't compile, and 2 where nothing could be judged. Python 3.8 or later.
"""
import argparse
import collections
import concurrent.futures
import hashlib
import os
import re
import shutil
import subprocess
import sys
import tempfile

TOP = os.path.dirname(os.path.dirname(os.path.abspath(__file__)))
LEDGER = f"{TOP}/edits/LEDGER"
PARTS = "src", "specs", "proofs"
# One crate in so many is tried although nothing of it changed.
SAMPLE = 8
# What a check takes at most.
MEMORY = 3_000_000_000
REFUSED, MASKED = "refused", "masked"

Edit = collections.namedtuple("Edit", "label function changes")


class Wrong(Exception):
    """Why nothing can be judged."""


def kit():
    """Returns the folder of the kit."""
    try:
        page = subprocess.run(["rt", "doc"], capture_output=True, text=True, check=True).stdout.strip()
    except (OSError, subprocess.CalledProcessError) as error:
        raise Wrong(f"the command rt can't be run: {error}") from None
    return os.path.dirname(page)


def read_crates():
    """Returns what crates.txt names behind each crate."""
    found = {}
    with open(f"{TOP}/crates.txt", encoding="utf-8") as it:
        for line in it:
            head, colon, rest = line.split("#")[0].partition(":")
            if colon:
                found[head.split()[0]] = rest.split()
    return found


def below(crates, crate):
    """Returns the repository's crates below one, in the order of crates.txt."""
    found, rest = set(), list(crates[crate])
    while rest:
        name = rest.pop()
        if name in crates and name not in found:
            found.add(name)
            rest += crates[name]
    return [name for name in crates if name in found]


def files_of(folder):
    """Yields the files below a folder, sorted."""
    for at, folders, names in os.walk(folder):
        folders.sort()
        for name in sorted(names):
            yield f"{at}/{name}"


def sources(crate):
    """Yields the files of a crate's code, specs and proofs."""
    for part in PARTS:
        yield from files_of(f"{TOP}/crates/{crate}/{part}")


def text_of(file):
    with open(file, encoding="utf-8") as it:
        return it.read()


def read_edit(label, file):
    """Returns an edit: its function, and its changes, each a path, the text there, and what takes its place."""
    function, path, old, changes = None, None, None, []
    for line in text_of(file).splitlines():
        word, _, rest = line.partition(":")
        rest = rest[1:] if rest.startswith(" ") else rest
        if word == "fn":
            function = rest.strip()
        elif word == "file":
            path = rest.strip()
        elif word == "old":
            old = rest
        elif word == "new" and path and old:
            changes.append((path, old, rest))
            old = None
    if not function or not changes:
        raise Wrong(f"{label}: it needs a line 'fn:', a line 'file:', and pairs of lines 'old:' and 'new:'")
    return Edit(label, function, changes)


def edits_of(crate):
    """Returns the edits of a crate, sorted by name."""
    found = []
    for file in files_of(f"{TOP}/edits/{crate}"):
        label = f"{crate}/{os.path.relpath(file, f'{TOP}/edits/{crate}')}"
        if not re.fullmatch(r"\w+/\w+\.edit", label):
            raise Wrong(f"edits/{label}: an edit is a file edits/CRATE/NAME.edit")
        found.append(read_edit(label, file))
    return found


# The libraries.


def library(name):
    return f"{TOP}/crates/{name}/out/rlib/{name}.rlib"


def date_of(path):
    try:
        return os.stat(path).st_mtime
    except OSError:
        return 0


def unusable(crates, wanted):
    """Returns the first library below the wanted crates that is missing, or older than a source of it or below it."""
    newest = {}
    for name in crates:
        newest[name] = max([date_of(it) for it in sources(name)], default=0)
    for name in needed(crates, wanted):
        changed = max(newest[it] for it in [name, *below(crates, name)])
        if date_of(library(name)) <= changed:
            return name
    return None


def needed(crates, wanted):
    """Returns the crates whose libraries the checks of the wanted crates read, lowest first."""
    found = {name for crate in wanted for name in below(crates, crate)}
    return [name for name in crates if name in found]


def build(crates, wanted):
    """Has `rt lib` build each library that is needed; one that is up to date is left as it is."""
    print("edits: libraries are missing or older than their sources; `rt lib` builds them first", flush=True)
    for name in needed(crates, wanted):
        ran = subprocess.run(["rt", "lib"], cwd=f"{TOP}/crates/{name}", stdin=subprocess.DEVNULL, capture_output=True)
        if ran.returncode:
            raise Wrong(f"crates/{name}: `rt lib` doesn't build it, so no edit above it can be judged")


def clear(crates, wanted):
    """Removes the libraries where not all can be used, so that those that the gate builds stay in their place."""
    name = unusable(crates, wanted)
    if name:
        for it in crates:
            shutil.rmtree(f"{TOP}/crates/{it}/out/rlib", ignore_errors=True)


# A check.


def words(crates, crate, folder):
    """Returns the words of a check of the crate over built libraries, as the kit's own commands give them."""
    root = "main" if os.path.isfile(f"{TOP}/crates/{crate}/src/main.rt") else "lib"
    found = ["check", "--crate-name", crate, f"src/{root}.rt", "--extern", f"std={folder}/rlibs/std.rlib"]
    for name in crates[crate]:
        found += ["--extern", f"{name}={library(name) if name in crates else f'{folder}/rlibs/{name}.rlib'}"]
    found += ["-L", f"dependency={folder}/rlibs"]
    for name in below(crates, crate):
        found += ["-L", f"dependency={os.path.dirname(library(name))}"]
    found += ["--antt-project", f"{folder}/rattle/logic/antt-project.json", "--logic-built", f"{folder}/logic_built"]
    return [*found, "--links", f"{crate}=", "--jobs", "1"]


def applied(edit, texts, crate):
    """Returns the texts with the edit in them, by path, or nothing where an old text doesn't stand once."""
    turned = dict(texts)
    for path, old, new in edit.changes:
        if path not in turned:
            file = f"{TOP}/crates/{crate}/{path}"
            if not path.startswith("src/") or not os.path.isfile(file):
                return None
            turned[path] = text_of(file)
        if turned[path].count(old) != 1:
            return None
        turned[path] = turned[path].replace(old, new)
    return turned


def grouped(crate, edits):
    """Returns groups of edits that can stand in one text, each with its texts, and the edits that don't apply. The
    edits of a group turn different functions, since a check says only once why a function is refused."""
    groups, lost = [], []
    for edit in edits:
        alone = applied(edit, {}, crate)
        if alone is None:
            lost.append(edit)
            continue
        for at, (members, texts) in enumerate(groups):
            turned = applied(edit, texts, crate)
            if turned and edit.function not in [it.function for it in members]:
                groups[at] = [*members, edit], turned
                break
        else:
            groups.append(([edit], alone))
    return groups, lost


def checked(check, crate, edits, texts, is_kept):
    """Returns what a check of the turned crate says of the edits' functions."""
    with tempfile.TemporaryDirectory(prefix="edits-") as room:
        for part in PARTS:
            if os.path.isdir(f"{TOP}/crates/{crate}/{part}"):
                shutil.copytree(f"{TOP}/crates/{crate}/{part}", f"{room}/{part}")
        for path, text in texts.items():
            with open(f"{room}/{path}", "w", encoding="utf-8") as it:
                it.write(text)
        more = [f"--only={it.function}" for it in edits]
        kept = f"{TOP}/crates/{crate}/out/incremental"
        if is_kept and os.path.isdir(kept):
            shutil.copytree(kept, f"{room}/kept")
            more += ["--incremental", f"{room}/kept"]
        how = {"cwd": room, "stdin": subprocess.DEVNULL, "stdout": subprocess.PIPE, "stderr": subprocess.STDOUT}
        return subprocess.run([*check, *more], **how).stdout.decode(errors="replace")


# An error in the code or a clause that says that the text has no meaning, and not that it isn't proved.
UNREAD = re.compile(r"(?m)^(?:\./)?(?:src|specs)/\S+:\d+:\d+: error.*$")


def judged(crate, edit, said):
    """Returns what a check says of an edit: refused, masked, or what is wrong."""
    if not re.search(r"(?m)^only=\d+ proved=\d+\n?\Z", said):
        lines = [it for it in said.splitlines() if "error" in it] or said.splitlines()[-1:] or ["nothing"]
        return f"NOT JUDGED, it doesn't compile or can't be checked: {lines[0][:300]}"
    unread = UNREAD.search(said)
    if unread:
        return f"NOT JUDGED, its text can't be read: {unread[0][:300]}"
    line = re.search(rf"(?m)^fn {crate}::{re.escape(edit.function)}: (.*)$", said)
    if not line:
        return f"NOT JUDGED, no line tells of the function {edit.function}"
    if line[1].startswith("proved"):
        return "NOT REFUSED: the function is still proved"
    if re.match(r"no(t proved|t assumed| proof): it calls ", line[1]):
        return MASKED
    # A function that only wants a proof by hand now isn't refused by a clause.
    if line[1].startswith(("no proof", "not proved")) and "/Proof.antt" not in line[1]:
        return REFUSED
    return f"NOT JUDGED: {line[1][:300]}"


def tried(crates, folder, crate, is_kept):
    """Returns, for each edit of the crate, whether the prover refuses it, or what is wrong."""
    check = [f"{folder}/bin/rattle", *words(crates, crate, folder)]
    groups, lost = grouped(crate, edits_of(crate))
    found = {it.label: "NOT JUDGED, it doesn't apply: an old text doesn't stand once in a file of src/" for it in lost}
    for members, texts in groups:
        said = checked(check, crate, members, texts, is_kept)
        for edit in members:
            found[edit.label] = judged(crate, edit, said)
            if found[edit.label] != REFUSED and len(members) > 1:
                alone = checked(check, crate, [edit], applied(edit, {}, crate), is_kept)
                found[edit.label] = judged(crate, edit, alone)
            if found[edit.label] == MASKED:
                found[edit.label] = f"NOT REFUSED in {edit.function}, but in what it calls: name that function"
    return found


# The ledger.


def logic_of(version):
    """Returns the part of the kit's version that proofs rest on; kits that differ in letters alone have one logic."""
    found = re.search(r"logic [0-9a-f]+", version)
    return found[0] if found else version


def sum_of(crate, logic):
    """Returns a sum of the crate's own files and edits, and of the kit's logic."""
    sum = hashlib.sha256(logic.encode())
    for file in [*sources(crate), *files_of(f"{TOP}/edits/{crate}")]:
        with open(file, "rb") as it:
            sum.update(repr((os.path.relpath(file, TOP), it.read())).encode())
    return sum.hexdigest()


def read_ledger():
    if not os.path.isfile(LEDGER):
        return {}
    return dict(line.split() for line in text_of(LEDGER).splitlines() if line)


def write_ledger(noted):
    with open(LEDGER, "w", encoding="utf-8") as it:
        it.writelines(f"{crate} {noted[crate]}\n" for crate in noted)


def is_picked(crate, commit):
    return int(hashlib.sha256(f"{commit} {crate}".encode()).hexdigest(), 16) % SAMPLE == 0


def output_of(*command):
    return subprocess.run(command, cwd=TOP, capture_output=True, text=True).stdout.strip()


# All together.


def at_once():
    """Returns how many checks run at once: one a processor, as many as memory holds, or what RT_JOBS says."""
    said = os.environ.get("RT_JOBS", "")
    if said.isdigit() and said != "0":
        return int(said)
    with open("/proc/meminfo", encoding="utf-8") as it:
        free = 1024 * int(re.search(r"MemAvailable:\s+(\d+)", it.read())[1])
    return max(1, min(len(os.sched_getaffinity(0)), free // MEMORY))


def crates_with_edits(crates):
    """Returns the crates that have edits, lowest first."""
    names = [it for it in os.listdir(f"{TOP}/edits") if it != "LEDGER"] if os.path.isdir(f"{TOP}/edits") else []
    lost = sorted(set(names) - set(crates))
    if lost:
        raise Wrong(f"edits/{lost[0]}: crates.txt has no such crate")
    return [it for it in crates if it in names]


def chosen(given, crates, sums, noted):
    """Returns the crates to try."""
    for it in given.crates:
        if it not in crates:
            raise Wrong(f"{it} has no edits in edits/")
    if given.crates or given.all:
        return [it for it in crates if it in given.crates or given.all]
    commit = output_of("git", "rev-parse", "HEAD")
    return [it for it in crates if noted.get(it) != sums[it] or is_picked(it, commit)]


def read_words(given):
    parser = argparse.ArgumentParser(usage=__doc__.split("usage: ")[1].split("\n\n")[0])
    for flag in ("--all", "--note", "--kept", "--clear"):
        parser.add_argument(flag, action="store_true")
    parser.add_argument("--jobs", type=int)
    parser.add_argument("crates", nargs="*")
    return parser.parse_args(given)


def main(given):
    crates, folder = read_crates(), kit()
    mine = crates_with_edits(crates)
    if given.clear:
        clear(crates, mine)
        return 0
    logic, noted = logic_of(output_of("rt", "version")), read_ledger()
    sums = {it: sum_of(it, logic) for it in mine}
    wanted = chosen(given, mine, sums, noted)
    if unusable(crates, wanted):
        build(crates, wanted)
    failed = []
    with concurrent.futures.ThreadPoolExecutor(given.jobs or at_once()) as pool:
        runs = [(it, pool.submit(tried, crates, folder, it, given.kept)) for it in wanted]
        for crate, run in runs:
            found = run.result()
            wrong = {label: text for label, text in found.items() if text != REFUSED}
            print(f"{crate}: {len(found) - len(wrong)} of {len(found)} edits refused", flush=True)
            for label, text in wrong.items():
                print(f"{label}: {text}", flush=True)
            failed += wrong
            if not wrong:
                noted[crate] = sums[crate]
    if given.note:
        write_ledger({it: noted[it] for it in mine if it in noted})
    print(f"edits: {len(wanted)} of {len(mine)} crates tried, {len(failed)} edits not refused", flush=True)
    return 1 if failed else 0


if __name__ == "__main__":
    try:
        sys.exit(main(read_words(sys.argv[1:])))
    except Wrong as why:
        print(f"edits: {why}", file=sys.stderr)
        sys.exit(2)
