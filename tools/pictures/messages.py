"""A history as a chart: who said what to whom, step by step.

Its steps are those that docs/ARCHITECTURE.md lists under a heading.
"""

import math
import os
import re
import textwrap

from svg import Picture, WIDTH

PAGE = "docs/ARCHITECTURE.md"
FIRST_RUN = "## The whole history of the first run", "The first run, step by step"
ONE_DO = "## The history of one `do`", "One operation over three sites, step by step"
STEP = re.compile(r"^ {4,}(\d+) +(\S+) +(Phase|Called|Told|Wrote|Got|Lost|Sent)\b ?(.*)$")
SENT = re.compile(r"^(\d+) +to (\w+): (.*)$")
NUMBERS, SCRIPT, ROW, TOP, SIZE = 34, 92, 26, 62, 11
WRAP = 36
# where the last actor stands: left of the records that sites write, where there are any
BESIDE_RECORDS, AT_THE_EDGE = 552, 740


def steps_of(text, heading):
    """The steps: number, actor, kind, and what is said behind them."""
    _, found, rest = text.partition("\n%s\n" % heading)
    steps = [STEP.match(line) for line in rest.split("\n## ")[0].splitlines()]
    steps = [(int(s[1]), s[2], s[3], s[4].strip()) for s in steps if s]
    if not found or [s[0] for s in steps] != list(range(len(steps))) or not steps:
        raise SystemExit("%s: no history, numbered from 0, under %r" % (PAGE, heading))
    return steps


class Chart:
    """Where each actor stands, and how far down each step is."""

    def __init__(self, steps):
        self.steps = steps
        actors = sorted({actor for _, actor, _, _ in steps if re.fullmatch(r"[cs]\d+", actor)})
        last = BESIDE_RECORDS if any(kind == "Wrote" for _, _, kind, _ in steps) else AT_THE_EDGE
        self.gap = (last - SCRIPT) / len(actors)
        self.x = {actor: SCRIPT + self.gap * (place + 1) for place, actor in enumerate(actors)}
        self.y, self.end = {}, TOP
        for number, actor, kind, words in steps:
            lines = self.record(words) if kind == "Wrote" else []
            self.y[number] = self.end + ROW / 2
            self.end += max(ROW, 14 * len(lines) + 12) if kind == "Wrote" else ROW
        self.came = {words: number for number, _, kind, words in steps if kind == "Got"}
        self.gone = {words for _, _, kind, words in steps if kind == "Lost"} - set(self.came)

    def record(self, words):
        return textwrap.wrap("writes " + words, WRAP)

    def draw(self, picture):
        for place, (actor, x) in enumerate([("script", SCRIPT), *self.x.items()]):
            name = {"c": "client ", "s": "site ", "script": "the "}[actor if actor == "script" else actor[0]] + actor
            picture.text(x, 28, name, size=13, bold=True)
            picture.line((x, 38), (x, self.end), dash="2 3" if not place else "")
        for number, actor, kind, words in self.steps:
            picture.text(NUMBERS, self.y[number] + 4, str(number), anchor="end", size=10)
            getattr(self, kind.lower())(picture, number, actor, words)

    def phase(self, picture, number, actor, words):
        y = self.y[number]
        picture.line((SCRIPT - 36, y), (WIDTH - 20, y), dash="6 4")
        picture.label((SCRIPT + min(self.x.values())) / 2, y, ["phase " + words], SIZE)

    def called(self, picture, number, actor, words):
        picture.arrow((SCRIPT, self.y[number]), (self.x[actor], self.y[number]))
        picture.text((SCRIPT + self.x[actor]) / 2, self.y[number] - 4, words, size=SIZE)

    def told(self, picture, number, actor, words):
        picture.arrow((self.x[actor], self.y[number]), (SCRIPT, self.y[number]), dash="5 3")
        picture.text((SCRIPT + self.x[actor]) / 2, self.y[number] - 4, words, size=SIZE)

    def sent(self, picture, number, actor, words):
        """A message goes from the step that sent it to the one that took it, ends half way where it is
        dropped, or goes out of the chart. What it says stands in the gap beside the site."""
        mail, receiver, content = SENT.match(words).groups()
        start = (self.x[actor], self.y[number])
        end = (self.x[receiver], self.y.get(self.came.get(mail), self.end))
        if mail in self.gone:
            end = (end[0] - self.gap / 8, start[1] + ROW / 2)
            picture.line(start, end)
            self.cross(picture, end)
        else:
            picture.arrow(start, end)
        slope = math.degrees(math.atan2(end[1] - start[1], end[0] - start[0]))
        slope -= 180 * (slope > 90) - 180 * (slope < -90)
        x = max(start[0], self.x[receiver]) - self.gap / 2
        y = start[1] + (end[1] - start[1]) * (x - start[0]) / (end[0] - start[0])
        picture.text(x, y - 4, "%s  %s" % (mail, content), size=SIZE, slope=slope)

    def cross(self, picture, at):
        """Where a message is dropped."""
        for down in (4, -4):
            picture.line((at[0] - 4, at[1] - down), (at[0] + 4, at[1] + down), thick=1.5)

    def lost(self, picture, number, actor, words):
        """A client learns that its request is lost."""
        middle = (SCRIPT + self.x[actor]) / 2
        picture.text(middle, self.y[number] + 4, "learns that %s is lost" % words, size=SIZE)

    def got(self, picture, number, actor, words):
        """The arrow's head shows it."""

    def wrote(self, picture, number, actor, words):
        """A record: right of a site, left of a client."""
        lines, x, y = self.record(words), self.x[actor], self.y[number]
        wide, high = 5.9 * max(len(line) for line in lines) + 12, 14 * len(lines) + 5
        left = x + 10 if actor[0] == "s" else x - 10 - wide
        picture.line((x, y), (left if actor[0] == "s" else left + wide, y))
        picture.box(left, y - 11, wide, high, thick=1.5)
        for place, line in enumerate(lines):
            picture.text(left + wide / 2, y + 3 + 14 * place, line, size=SIZE)


NOTES = [
    "Down the left: the steps of the history, by number. From the script: commands, and dashed their replies.",
    "Between actors: messages by number, from the step that sends to the step that takes.",
]


def draw(root, heading, title):
    """The chart of the history under a heading."""
    with open(os.path.join(root, PAGE), encoding="utf-8") as file:
        chart = Chart(steps_of(file.read(), heading))
    notes = NOTES + (["Boxed: records."] if any(kind == "Wrote" for _, _, kind, _ in chart.steps) else [])
    notes += ["Crossed: a message that is dropped."] if chart.gone else []
    notes = [NOTES[0], " ".join(notes[1:])]
    picture = Picture(chart.end + 52, title)
    chart.draw(picture)
    for place, note in enumerate(notes):
        picture.text(WIDTH / 2, chart.end + 24 + 16 * place, note, size=11)
    return picture.whole()


def draw_first_run(root):
    return draw(root, *FIRST_RUN)


def draw_one_do(root):
    return draw(root, *ONE_DO)
