"""The states of a transaction and of a site in the protocol, and what leads from one to another.

The lists are read as they stand. A state has its name, lines of text, and its place:
a column and a row, which may lie between two. An edge has where it starts and ends, its
lines of text, and how far it bends to the left of its way, in points; an edge from a state to
itself has the side on which it lies.
"""

import math

from svg import Picture, WIDTH, width_of

TRANSACTION = {
    "title": "The status of a transaction",
    "states": [
        ("NotBegun", ["nothing is known of it"], 0, 0.5),
        ("Active", ["executes operations"], 1, 0.5),
        ("Voting", ["sites are asked"], 2, 0.5),
        ("Pending", ["the record may be", "kept or lost"], 3, 0.5),
        ("Committed", ["its record stands"], 3, -0.5),
        ("Aborted", ["it has no record"], 3, 1.5),
    ],
    "edges": [
        ("NotBegun", "Active", ["begin"], 0),
        ("Active", "Voting", ["prepare"], 0),
        ("Voting", "Committed", ["commit"], 26),
        ("Active", "Aborted", ["abort"], -40),
        ("Voting", "Aborted", ["abort"], -14),
        ("Voting", "Pending", ["commit", "unknown"], 0),
        ("Pending", "Committed", ["recover:", "it was kept"], 0),
        ("Pending", "Aborted", ["recover:", "it was lost"], 0),
    ],
    "notes": [
        "Commit unknown: the client falls while its commit record is pending; when it rises, the disk tells which.",
        "Committed and Aborted are for ever, and each verdict that is sent is one of them.",
    ],
}

SITE = {
    "title": "The state of a site",
    "states": [
        ("Serving", ["epoch k;", "nothing is prepared"], 0, 0),
        ("Prepared", ["epoch k; holds", "prepared transactions"], 0, 1.3),
        ("Closed", ["epoch k has ended here;", "grants nothing"], 1.5, 0.65),
        ("Serving next", ["a later epoch, with the", "log that is installed"], 3, 0.65),
    ],
    "edges": [
        ("Serving", "Serving", ["grant"], "left"),
        ("Serving", "Serving", ["fall and rise"], "top"),
        ("Serving", "Prepared", ["prepare"], -34),
        ("Prepared", "Serving", ["the last", "verdict"], -34),
        ("Prepared", "Prepared", ["grant, prepare,", "verdict"], "left"),
        ("Prepared", "Prepared", ["fall and rise"], "bottom"),
        ("Serving", "Closed", ["close"], 0),
        ("Prepared", "Closed", ["close"], 0),
        ("Closed", "Closed", ["snapshot, verdict,", "fall and rise"], "bottom"),
        ("Closed", "Serving next", ["install"], 0),
        ("Serving", "Serving next", ["install, where the", "close was missed"], 66),
        ("Prepared", "Serving next", ["install, where the", "close was missed"], -66),
    ],
    "notes": [
        "Fall and rise, and close, begin a new life: what is held and isn't prepared is dropped; records stay.",
        "The verdict of a commit adds the own lines of what was prepared to the log; each verdict frees what was held.",
    ],
}

SIZE, HIGH, MARGIN, ROW = 11, 54, 20, 118


def box_edge(middle, half, towards):
    """Where the line from the middle of a box, so wide to each side, to a point leaves the box."""
    across, down = towards[0] - middle[0], towards[1] - middle[1]
    share = min(half / abs(across) if across else math.inf, HIGH / 2 / abs(down) if down else math.inf)
    return (middle[0] + across * share, middle[1] + down * share)


class Diagram:
    """States as boxes on a grid, edges as curves between them."""

    def __init__(self, said, left, top):
        self.said = said
        self.half = max(width_of(line, SIZE) for _, lines, _, _ in said["states"] for line in lines) / 2 + 6
        columns = max(s[2] for s in said["states"])
        low, high = min(s[3] for s in said["states"]), max(s[3] for s in said["states"])
        left, step = left + self.half, (WIDTH - left - MARGIN - 2 * self.half) / columns
        self.at = {name: (left + step * column, top + ROW * (row - low)) for name, _, column, row in said["states"]}
        self.bottom = top + ROW * (high - low) + HIGH / 2

    def draw(self, height):
        picture = Picture(height, self.said["title"])
        for start, end, words, bend in self.said["edges"]:
            (self.loop if start == end else self.edge)(picture, start, end, bend)
        for name, lines, _, _ in self.said["states"]:
            x, y = self.at[name]
            picture.box(x - self.half, y - HIGH / 2, 2 * self.half, HIGH, 10, thick=1.5)
            picture.text(x, y - 7 * len(lines) + 2, name, size=13, bold=True)
            for place, line in enumerate(lines):
                picture.text(x, y - 7 * len(lines) + 17 + 13 * place, line, size=SIZE)
        for start, end, words, bend in self.said["edges"]:
            x, y = self.loop_text(start, bend, words) if start == end else self.middle(start, end, bend)
            picture.label(x, y, words, size=SIZE)
        for place, note in enumerate(self.said["notes"]):
            picture.text(WIDTH / 2, height - 10 - 16 * (len(self.said["notes"]) - 1 - place), note, size=SIZE)
        return picture.whole()

    def turn(self, start, end, bend):
        """The point that the curve bends towards."""
        (a, b), (c, d) = self.at[start], self.at[end]
        long = math.hypot(c - a, d - b)
        return ((a + c) / 2 + 2 * bend * (d - b) / long, (b + d) / 2 - 2 * bend * (c - a) / long)

    def ends(self, start, end, bend):
        turn = self.turn(start, end, bend)
        return box_edge(self.at[start], self.half, turn), turn, box_edge(self.at[end], self.half, turn)

    def middle(self, start, end, bend):
        a, turn, b = self.ends(start, end, bend)
        return tuple((a[i] + 2 * turn[i] + b[i]) / 4 for i in (0, 1))

    def edge(self, picture, start, end, bend):
        a, turn, b = self.ends(start, end, bend)
        picture.path(["M", a, "Q", turn, b])
        picture.head(b, turn)

    def loop(self, picture, name, _, side):
        x, y = self.at[name]
        if side == "left":
            a, b = (x - self.half, y - 14), (x - self.half, y + 14)
            picture.path(["M", a, "C", (a[0] - 34, a[1] - 8), (b[0] - 34, b[1] + 8), b])
            picture.head(b, (b[0] - 20, b[1] + 7))
        else:
            sign = -1 if side == "top" else 1
            a, b = (x - 22, y + sign * HIGH / 2), (x + 22, y + sign * HIGH / 2)
            picture.path(["M", a, "C", (a[0] - 12, a[1] + sign * 34), (b[0] + 12, b[1] + sign * 34), b])
            picture.head(b, (b[0] + 7, b[1] + sign * 20))

    def loop_text(self, name, side, words):
        x, y = self.at[name]
        if side == "left":
            return x - self.half - 32 - max(width_of(line, SIZE) for line in words) / 2, y
        return x, y + (-1 if side == "top" else 1) * (HIGH / 2 + 27 + 7 * len(words))


def draw_transaction(root):
    """The lists are the only facts."""
    diagram = Diagram(TRANSACTION, MARGIN, 44)
    return diagram.draw(diagram.bottom + 60)


def draw_site(root):
    diagram = Diagram(SITE, 136, 84)
    return diagram.draw(diagram.bottom + 110)
