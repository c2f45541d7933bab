"""A history in which several inputs are open at once, with each input as a box.

Its steps are those that docs/ARCHITECTURE.md lists under a heading.
"""

import os

from messages import PAGE, Chart, steps_of
from svg import WIDTH, Picture

HEADING, TITLE = "## A history with two inputs open", "Inputs that are open, from take to post"
TAKES = "Called", "Got", "Lost"
HALF = 9


def spans(steps):
    """The inputs: the actor, the step that took it, and the last step of the turn that was posted for it."""
    last, found = {}, []
    for number, actor, kind, _ in steps:
        if kind in TAKES:
            last[actor] = len(found)
            found.append([actor, number, number])
        elif actor in last:
            found[last[actor]][2] = number
    return found


class Inputs(Chart):
    """The chart of messages, over a box for each input that its actor took."""

    def draw(self, picture):
        for actor, take, post in spans(self.steps):
            top, bottom = self.y[take] - HALF, self.y[post] + HALF
            picture.box(self.x[actor] - HALF, top, 2 * HALF, bottom - top, fill="#ddd")
        super().draw(picture)


NOTES = [
    "Down the left: the steps of the history, by number. A box is an input of an actor, from its take to its post.",
    "Beside a box others take and post; within it nobody takes or posts for its actor.",
]


def draw(root):
    """The chart of the history under the heading."""
    with open(os.path.join(root, PAGE), encoding="utf-8") as file:
        chart = Inputs(steps_of(file.read(), HEADING))
    picture = Picture(chart.end + 52, TITLE)
    chart.draw(picture)
    for place, note in enumerate(NOTES):
        picture.text(WIDTH / 2, chart.end + 24 + 16 * place, note, size=11)
    return picture.whole()
