"""Makes the pictures of docs/pictures from the repository's own facts.

usage: python3 tools/pictures [--check]

With --check nothing is written: it ends with status 1 where a picture isn't the
one that would be made now, where one is missing, and where one is made by nothing.
"""

import os
import sys

sys.dont_write_bytecode = True

import crates
import inputs
import messages
import ordering
import quorums
import states

ROOT = os.path.dirname(os.path.dirname(os.path.dirname(os.path.abspath(__file__))))
FOLDER = os.path.join(ROOT, "docs", "pictures")
PICTURES = {
    "crates.svg": crates.draw,
    "first_run.svg": messages.draw_first_run,
    "inputs.svg": inputs.draw,
    "one_do.svg": messages.draw_one_do,
    "ordering.svg": ordering.draw,
    "quorums.svg": quorums.draw,
    "site.svg": states.draw_site,
    "transaction.svg": states.draw_transaction,
}


def content(path):
    """What a file has, or None where it isn't there."""
    if not os.path.exists(path):
        return None
    with open(path, encoding="utf-8") as file:
        return file.read()


def check(made):
    """The names of the pictures that aren't those of today's facts."""
    there = {name for name in os.listdir(FOLDER) if name.endswith(".svg")} if os.path.isdir(FOLDER) else set()
    return sorted(name for name in there | set(made) if content(os.path.join(FOLDER, name)) != made.get(name))


def main(words):
    if words not in ([], ["--check"]):
        print(__doc__, file=sys.stderr)
        return 2
    made = {name: draw(ROOT) for name, draw in PICTURES.items()}
    if words:
        old = check(made)
        for name in old:
            print("docs/pictures/%s isn't up to date: python3 tools/pictures makes it" % name)
        print("pictures: %d up to date, %d not" % (len(made) - len(set(old) & set(made)), len(old)))
        return 1 if old else 0
    os.makedirs(FOLDER, exist_ok=True)
    for name, text in made.items():
        with open(os.path.join(FOLDER, name), "w", encoding="utf-8") as file:
            file.write(text)
    return 0


if __name__ == "__main__":
    sys.exit(main(sys.argv[1:]))
