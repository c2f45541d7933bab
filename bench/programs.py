"""Makes the programs of the benches. A bench keeps a file NAME.rt.in, the `main`
of a program that is no crate of the repository: it is proved and built with rt, in
a temporary folder, beside a copy of the crates that it uses.
"""

import os
import shutil
import subprocess
import sys

ROOT = os.path.dirname(os.path.dirname(os.path.abspath(__file__)))


def libraries():
    """The line of each crate of the repository in crates.txt, and what it uses, by
    its name, lowest first."""
    lines, used = {}, {}
    with open(os.path.join(ROOT, "crates.txt")) as file:
        for line in file:
            head, colon, tail = line.split("#")[0].partition(":")
            if colon:
                name = head.split()[0]
                lines[name], used[name] = line, tail.split()
    return lines, used


def below(used, names):
    """These crates of the repository and those below them, lowest first."""
    found, left = set(), list(names)
    while left:
        name = left.pop()
        if name in used and name not in found:
            found.add(name)
            left += used[name]
    return [name for name in used if name in found]


def lay_out(folder, name, template, uses, proofs=()):
    """Makes the crate of a program of this name from a template, beside a copy of the libraries that it uses, and tells
    its folder. A template that isn't named by a whole path is one of the bench. With pairs of a function and a file of
    the bench, that file is the function's Invariants.antt."""
    lines, used = libraries()
    crates = below(used, uses)
    for crate in crates:
        made = os.path.join(folder, "crates", crate)
        shutil.copytree(os.path.join(ROOT, "crates", crate), made, ignore=shutil.ignore_patterns("out"))
    source = os.path.join(folder, "crates", name, "src")
    os.makedirs(source)
    shutil.copy(os.path.join(ROOT, "bench", template), os.path.join(source, "main.rt"))
    for function, given in proofs:
        stated = os.path.join(folder, "crates", name, "proofs", function)
        os.makedirs(stated)
        shutil.copy(os.path.join(ROOT, "bench", given), os.path.join(stated, "Invariants.antt"))
    with open(os.path.join(folder, "crates.txt"), "w") as file:
        for crate in crates:
            file.write(lines[crate])
        file.write("%s: %s\n" % (name, " ".join(uses)))
    return os.path.join(folder, "crates", name)


def build(folder, name, template, uses, proofs=()):
    """Proves and builds such a program, and tells where it stands."""
    made = lay_out(folder, name, template, uses, proofs)
    subprocess.run(["rt", "run"], cwd=made, check=True, stdout=subprocess.DEVNULL)
    return os.path.join(made, "out", name)


def plain(folder, source):
    """Compiles a plain program of the bench into a folder, and tells where it
    stands."""
    made = os.path.join(folder, source[: -len(".rs")])
    subprocess.run(["rustc", "-O", "-o", made, os.path.join(ROOT, "bench", source)], check=True)
    return made


def in_turn(calls, rounds):
    """What each call gave in each round, by its name. Every call is made once a
    round, so that a slow moment falls on all."""
    seen = {name: [] for name in calls}
    for _ in range(rounds):
        for name, words in calls.items():
            seen[name].append(call(words))
    return seen


def call(words):
    """The processor seconds of a call, its peak of memory in megabytes, and what it wrote. A call that fails ends all."""
    ran = subprocess.Popen(words, stdout=subprocess.PIPE, text=True)
    told = ran.stdout.read()
    _, status, used = os.wait4(ran.pid, 0)
    if status:
        sys.exit("%s ended with status %d" % (" ".join(words), status))
    return used.ru_utime + used.ru_stime, used.ru_maxrss / 1024, told
