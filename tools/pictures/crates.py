"""The crates of crates.txt, in bands, each above those that it stands on.

Dashed are those on which the program doesn't stand.
"""

import os

from layers import Layers, heights, reachable
from svg import Picture, WIDTH, width_of

SIZE, HIGH, STEP, MARGIN, LABEL, GAP = 12, 24, 50, 10, 22, 12
TESTS, PROGRAM = "tests_", "quorum"
# from the bottom up; a crate stands on none of a later band
BANDS = {
    "base": "list stamp number table cert plan entry lock link view outside pass journal decl accept",
    "theory": "theory_onecopy theory_machine theory_witnesses theory_bases theory_marks",
    "system": "msg record fit script mailbox fabric promise spent store site commit front client epoch recover admin core process gen",
    "laws": "laws_turns laws_due laws_bounds laws_refinement laws_atomic laws_reach laws_guarantees laws_votes laws_room",
    "outside": "node report text words top files quorum",
}


def crates_of(text):
    """For each crate of the repository the crates of the repository that it names."""
    below = {}
    for line in text.splitlines():
        head, colon, deps = line.split("#")[0].partition(":")
        if colon:
            below[head.split()[0]] = deps.split()
    return {name: [d for d in deps if d in below] for name, deps in below.items()}


def bands_of(below):
    """The band of each crate, by its place in BANDS."""
    found = {}
    for place, names in enumerate(BANDS.values()):
        for name in names.split():
            found[name if name in below else "qc_" + name] = place
    if set(found) != set(below):
        raise SystemExit("BANDS and crates.txt differ: %s" % sorted(set(found) ^ set(below)))
    wrong = [(name, d) for name, deps in below.items() for d in deps if found[d] > found[name]]
    if wrong:
        raise SystemExit("crates that stand on one of a later band: %s" % wrong)
    return found


def rows_of(below, bands):
    """How high each crate stands, and how high each band begins and ends."""
    high, ends, start = {}, [], 0
    for place in range(len(BANDS)):
        inside = {name: [d for d in deps if bands[d] == place] for name, deps in below.items() if bands[name] == place}
        within = heights(inside)
        for name in inside:
            # what nobody stands on and stands on others of its band is a row higher where there is one
            alone = inside[name] and not any(name in deps for deps in below.values())
            high[name] = start + min(within[name] + (1 if alone else 0), max(within.values()))
        ends.append((start, start + max(within.values())))
        start += max(within.values()) + 1
    return high, ends


def room(place):
    """How wide a place is: a crate's box, or an arrow that passes."""
    return width_of(place, SIZE, mono=True) + 12 if isinstance(place, str) else 12


def ends(layers, x, of, to, sign):
    """Where each arrow meets its box, left and right of the middle: by arrow."""
    found = {}
    for place, others in of.items():
        others = sorted(others, key=lambda it: x[it])
        wide = min(12, room(place) * 0.7 / max(len(others), 1)) if isinstance(place, str) else 0
        for at, other in enumerate(others):
            shift = (at - (len(others) - 1) / 2) * wide
            found[(place, other) if sign else (other, place)] = x[place] + shift
    return found


def smooth(points):
    """The steps of a curve through the points, upright at both ends. Where it passes a row it
    goes down twice as fast as across, so that it stays clear of the boxes beside it."""
    slopes = [(0, points[1][1] - points[0][1])]
    for before, after in zip(points, points[2:]):
        across, down = (after[0] - before[0]) / 2, (after[1] - before[1]) / 2
        slopes.append((min(max(across, -down / 2), down / 2), down))
    slopes.append((0, points[-1][1] - points[-2][1]))
    steps = ["M", points[0]]
    for a, b, m, n in zip(points, points[1:], slopes, slopes[1:]):
        steps += ["C", (a[0] + m[0] / 3, a[1] + m[1] / 3 * 1.2), (b[0] - n[0] / 3, b[1] - n[1] / 3 * 1.2), b]
    return steps


def draw_bands(picture, ends_of_bands, rows):
    """A ground for each band, every other one grey, with its name at the left."""
    for place, (name, (low, top)) in enumerate(zip(BANDS, ends_of_bands)):
        upper, tall = MARGIN + STEP * (rows - 1 - top) - (STEP - HIGH) / 2, STEP * (top - low + 1)
        picture.add("rect", x=0, y=upper, width=WIDTH, height=tall, fill="#eeeeee" if place % 2 == 0 else "white")
        picture.text(LABEL - 4, upper + tall / 2, name, size=13, bold=True, slope=-90)


def draw(root):
    with open(os.path.join(root, "crates.txt"), encoding="utf-8") as file:
        below = crates_of(file.read())
    below = {name: deps for name, deps in below.items() if not name.startswith(TESTS)}
    used = reachable(below, PROGRAM) | {PROGRAM}
    high, ends_of_bands = rows_of(below, bands_of(below))
    layers = Layers(below, high)
    x = {it: LABEL + MARGIN + at for it, at in layers.across(WIDTH - LABEL - 2 * MARGIN, room, GAP).items()}
    y = {it: MARGIN + STEP * row for row, its in enumerate(layers.rows) for it in its}
    notes = ["An arrow leads to a crate that is used; arrows that follow from others are left out."]
    notes += ["Dashed: the program doesn't stand on it. The crates of tests, %s.., aren't drawn." % TESTS]
    height = MARGIN + STEP * (len(layers.rows) - 1) + HIGH + 24 + 16 * len(notes) + 4
    picture = Picture(height, "The crates, each above those that it stands on")
    draw_bands(picture, ends_of_bands, len(layers.rows))
    out, into = ends(layers, x, layers.down, x, True), ends(layers, x, layers.up, x, False)
    for way in layers.ways:
        bend = [(x[it], y[it] + HIGH / 2) for it in way[1:-1]]
        points = [(out[way[0], way[1]], y[way[0]] + HIGH), *bend, (into[way[-2], way[-1]], y[way[-1]])]
        picture.path(smooth(points), dash="" if way[0] in used else "4 3")
        picture.head(points[-1], (points[-1][0], points[-1][1] - 10))
    for it in x:
        if isinstance(it, str):
            picture.box(x[it] - room(it) / 2, y[it], room(it), HIGH, 4, dash="" if it in used else "4 3")
            picture.text(x[it], y[it] + HIGH / 2 + 4, it, size=SIZE, mono=True)
    for place, note in enumerate(notes):
        picture.text(WIDTH / 2, height - 8 - 16 * (len(notes) - 1 - place), note, size=11)
    return picture.whole()
