#!/usr/bin/env python3
"""Which functions make a crate dear to prove, read off what a first check kept.

usage: dear.py CRATE..        at the top of the repository, after `rm -r crates/CRATE/out && rt check` in the crate

Lines, the dearest first: seconds, kB of the function's code, kB of the walk through its ways out, function. Laws,
definitions and types stand under `other`. A check writes each module as it ends with it, and the time between two is
counted for the later one, so with several jobs the seconds are rough; the sizes are exact, and tell nearly the same.
"""
import collections
import os
import re
import sys

PARTS = "Lts|Code|Proof|Tie|Answers|Goals|Kinds|Met|Statement|TheLink|Invariants"
MODULE = re.compile(rf"Rattle-\w+-proofs\.(.*?)\.({PARTS})(\..*)?\.oantt$")
SHOWN = 15


def modules(crate):
    """Returns the kept modules in the order of their writing: when, how large, name."""
    found = []
    for at, _, names in os.walk(f"crates/{crate}/out/incremental"):
        for name in names:
            if name.endswith(".oantt"):
                kept = os.stat(f"{at}/{name}")
                found.append((kept.st_mtime, kept.st_size, name))
    return sorted(found)


def tell(crate):
    """Prints the dearest functions of a crate. Whether anything was kept of it."""
    seconds, sizes, before = collections.Counter(), collections.Counter(), None
    for when, size, name in modules(crate):
        found = MODULE.match(name)
        function, part = (found[1], found[2]) if found else ("other", None)
        seconds[function] += when - before if before else 0
        sizes[function, part] += size
        before = when
    if before is None:
        print(f"{crate}: `rt check` kept nothing in crates/{crate}/out", file=sys.stderr)
        return False
    functions = {function for function, part in sizes if part == "Code"}
    print(f"{crate}: {sum(seconds.values()):.0f} s, {len(functions)} functions")
    for function, spent in seconds.most_common(SHOWN):
        code, walk = sizes[function, "Code"] // 1000, sizes[function, "Lts"] // 1000
        print(f"{spent:8.1f} {code:6d} {walk:6d}  {function}")
    return True


def main(crates):
    if not crates:
        sys.exit(__doc__)
    return 0 if all([tell(it) for it in crates]) else 1


if __name__ == "__main__":
    sys.exit(main(sys.argv[1:]))
