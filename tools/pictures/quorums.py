"""Two quorums that meet: an initial one of the invocation R and a final one of the event W1:ok over `@three`.

The weights and the threshold are those of the line DECLARED of the definitions.
"""

import glob
import os
import re

from svg import Picture, WIDTH

DECLARED = re.compile(r"^three = register_store (\d+) \(([\d∷ ]+)\[\]\) (\d+)$", re.M)
Y, RADIUS, APART, TALL = 132, 44, 230, 66


def declared(root):
    """The weights of the sites, and the threshold of R and of the two events."""
    for path in sorted(glob.glob(os.path.join(root, "crates/*/specs/**/*.antt"), recursive=True)):
        with open(path, encoding="utf-8") as file:
            found = DECLARED.search(file.read())
        if found:
            weights = [int(w) for w in re.findall(r"\d+", found[2])]
            if len(weights) == int(found[1]):
                return weights, int(found[3])
    raise SystemExit("no definition of @three in crates/*/specs, as a line like %s" % DECLARED.pattern)


def quorum(sites, weights, need):
    """As many of the sites, in this order, as weigh what is needed."""
    found = []
    while sum(weights[s] for s in found) < need:
        found.append(sites[len(found)])
    return sorted(found)


def sum_text(sites, weights):
    return "%s = %d" % (" + ".join(str(weights[s]) for s in sites), sum(weights[s] for s in sites))


def draw(root):
    weights, need = declared(root)
    sites = list(range(len(weights)))
    first, last = quorum(sites, weights, need), quorum(sites[::-1], weights, need)
    shared = sorted(set(first) & set(last))
    x = [WIDTH / 2 + APART * (s - (len(sites) - 1) / 2) for s in sites]
    picture = Picture(352, "Two quorums that meet")
    quorums = [("a final quorum of W1:ok", first, 0, "", -1), ("an initial quorum of R", last, 12, "7 5", 1)]
    for name, of, grow, dash, side in quorums:
        left, right = x[of[0]] - TALL - grow, x[of[-1]] + TALL + grow
        picture.box(left, Y - TALL - grow, right - left, 2 * (TALL + grow), TALL, dash=dash, thick=1.8, fill="none")
        middle = (left + right) / 2 + side * APART / 2
        picture.text(middle, Y + side * (TALL + 30) + 4, "%s: weight %s" % (name, sum_text(of, weights)), size=13)
    for s in sites:
        picture.circle(x[s], Y, RADIUS, thick=3 if s in shared else 1)
        if s in shared:
            picture.circle(x[s], Y, RADIUS - 5, thick=1)
        picture.text(x[s], Y - 2, "s%d" % s, size=16, bold=True)
        picture.text(x[s], Y + 16, "weight %d" % weights[s], size=11)
    both = " and ".join("s%d" % s for s in shared)
    notes = [
        "R depends on W1:ok. All sites weigh %s, and %d + %d is more:" % (sum_text(sites, weights), need, need)
        + " so each initial quorum of R",
        "shares a site with each final quorum of W1:ok; here it is %s. The event was appended there," % both,
        "so R sees it, whichever other sites answer.",
    ]
    for place, note in enumerate(notes):
        picture.text(WIDTH / 2, 286 + 20 * place, note, size=13)
    return picture.whole()
