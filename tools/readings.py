#!/usr/bin/env python3
"""Tells what `rt ci` reads for the lines of crates.txt, by crate.

usage: readings.py [N]
       readings.py --check

Before and after it proves a library, `rt ci` sums its sources and those of all crates below, each as often as there are
ways to it over the lines of crates.txt. Printed are the N crates (else 20) for which most is read, with the number of
those ways, and all that is read; then the crates that a line names and the crate's sources don't. A gigabyte takes 17
to 36 processor seconds, of one thread at a time. With --check only the last is told, and the status is 1 where a line
names too much. Python 3.8 or later.
"""
import functools
import os
import re
import sys

sys.dont_write_bytecode = True

import edits


def main(words):
    named = edits.read_crates()
    below = {crate: [it for it in names if it in named] for crate, names in named.items()}
    sizes, unnamed = {}, {}
    for crate in below:
        all_texts = [edits.text_of(file) for file in edits.sources(crate)]
        sizes[crate] = sum(len(it.encode()) for it in all_texts)
        said = set(re.findall(r"\w+", "\n".join(re.sub(r"(?m)^\s*(//|--).*$", "", it) for it in all_texts)))
        unnamed[crate] = [it for it in below[crate] if it not in said]

    if words != ["--check"]:
        tell(below, sizes, int(words[0]) if words else 20)
    for crate, names in unnamed.items():
        if names:
            print(f"{crate} doesn't name: {' '.join(names)}")
    return 1 if words == ["--check"] and any(unnamed.values()) else 0


def tell(below, sizes, most):
    """Prints what is read, of so many crates and of all."""

    @functools.lru_cache(None)
    def ways(crate):
        return 1 + sum(ways(it) for it in below[crate])

    @functools.lru_cache(None)
    def read(crate):
        return sizes[crate] + sum(read(it) for it in below[crate])

    # A program has no library, so it isn't summed.
    libraries = [it for it in below if not os.path.isfile(f"{edits.TOP}/crates/{it}/src/main.rt")]
    for crate in sorted(libraries, key=read, reverse=True)[:most]:
        print(f"{crate:24} {ways(crate):8} ways, {2 * read(crate) / 1e9:7.2f} GB")
    print(f"all: {sum(2 * read(it) for it in libraries) / 1e9:.1f} GB")


if __name__ == "__main__":
    sys.exit(main(sys.argv[1:]))
