"""The ordering law at the site that two quorums share: lock first, and line first.

The quorums are those of the invocation R and the event W1:ok over `@three`. The stories are read as they
stand. A step has who sends to the site, what, and lines of text: the site's answer, or, where nothing is
held any more, the record that it writes.
"""

from quorums import declared, quorum
from svg import Picture, WIDTH

LOCK_FIRST = {
    "title": "Lock first: v has the smaller stamp",
    "steps": [
        ("v", "Read x R", ["Granted"]),
        ("v", "v committed", ["Done of v"]),
        ("u", "Append W1:ok", ["Granted: the clock", "has passed v's stamp"]),
    ],
    "held": ["v's lock is held:", "meanwhile an Append", "of W1:ok is refused"],
    "end": ["u's stamp is above this clock,", "so it is above v's stamp"],
}

LINE_FIRST = {
    "title": "Line first: v is shown the line",
    "steps": [
        ("u", "Append W1:ok", ["Granted"]),
        ("u", "u committed", ["Done of u: its line", "joins the log"]),
        ("v", "Read x R", ["Granted, with the log:", "u's line stands in it"]),
    ],
    "held": ["u's own line is held:", "meanwhile a Read", "of R is refused"],
    "end": ["v's view has the line,", "and v's stamp is above u's"],
}

PANEL, LEFT, LANE, TOP, STEP, SIZE, BAR = 400, 62, 138, 126, 84, 11, 12
BOTTOM = TOP + 3 * STEP


def lines(picture, x, y, words, anchor="middle", bold=False):
    for place, line in enumerate(words):
        picture.text(x, y + 14 * place, line, anchor, SIZE, bold=bold)


def draw_panel(picture, left, story, site):
    """Time goes down the lanes of v's client, of the site and of u's client."""
    x = {"v": left, "site": left + LANE, "u": left + 2 * LANE}
    picture.text(x["site"], TOP - 54, story["title"], size=14, bold=True)
    for lane, name in [("v", "client of v"), ("site", site), ("u", "client of u")]:
        picture.text(x[lane], TOP - 24, name, size=12)
        picture.line((x[lane], TOP - 16), (x[lane], BOTTOM))
    steps = [(who, asked, words, TOP + 10 + STEP * place) for place, (who, asked, words) in enumerate(story["steps"])]
    # what is held is held from the first step to the second
    (holder, _, _, began), (_, _, _, ended) = steps[:2]
    picture.box(x["site"] - BAR / 2, began, BAR, ended - began, fill="#bbbbbb")
    away = -1 if holder == "u" else 1
    side = "end" if holder == "u" else "start"
    lines(picture, x["site"] + away * (BAR / 2 + 6), began + 14, story["held"], side)
    for place, (who, asked, words, y) in enumerate(steps):
        edge, middle = x["site"] + (BAR / 2 if who == "u" else -BAR / 2) * (place < 2), (x[who] + x["site"]) / 2
        picture.arrow((x[who], y), (edge, y))
        picture.text(middle, y - 5, asked, size=SIZE)
        if y != ended:
            picture.arrow((edge, y + 14), (x[who], y + 14), dash="5 3")
        lines(picture, middle, y + (15 if y == ended else 28), words)
    lines(picture, (x[steps[2][0]] + x["site"]) / 2, BOTTOM + 20, story["end"], bold=True)


def draw(root):
    weights, need = declared(root)
    sites = list(range(len(weights)))
    first, last = quorum(sites, weights, need), quorum(sites[::-1], weights, need)
    shared = "s%d" % min(set(first) & set(last))
    asked = [" and ".join("s%d" % s for s in of) for of in (first, last)]
    picture = Picture(BOTTOM + 92, "The ordering law at the site that two quorums share")
    note = "R depends on W1:ok. v reads x by R at %s, and u writes it by W1 at %s: both ask %s."
    picture.text(WIDTH / 2, 28, note % (*asked, shared), size=13)
    draw_panel(picture, LEFT, LOCK_FIRST, "site " + shared)
    draw_panel(picture, LEFT + PANEL, LINE_FIRST, "site " + shared)
    picture.line((PANEL, 50), (PANEL, BOTTOM + 44), dash="2 4")
    note = "Time goes down. Grey is what the site holds, from the grant to the Done record. Both transactions commit."
    picture.text(WIDTH / 2, BOTTOM + 76, note, size=SIZE)
    return picture.whole()
