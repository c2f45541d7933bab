"""Histories of a model that are edited: steps dropped, put in, changed; messages numbered anew."""

import dataclasses

from spelling import kind


class Edited:
    """A history, as a list of steps with their actors."""

    def __init__(self, history):
        self.steps = [list(entry) for entry in history]

    def find(self, name, nth=0, actor=None, test=lambda x: True):
        """The place of the step of this kind that passes the test, the first one or a later one."""
        places = [k for k, (a, x) in enumerate(self.steps)
                  if kind(x) == name and actor in (None, a) and test(x)]
        return places[nth]

    def sent(self, name, nth=0, **fields):
        """The place where a message of this kind and with these fields is sent."""
        return self.find("Sent", nth, test=lambda x: kind(x.message) == name and all(
            getattr(x.message, field) == value for field, value in fields.items()))

    def told(self, name, nth=0):
        return self.find("Told", nth, test=lambda x: kind(x.reply) == name)

    def wrote(self, name, nth=0, actor=None):
        return self.find("Wrote", nth, actor, test=lambda x: kind(x.record) == name)

    def step(self, k):
        return self.steps[k][1]

    def end(self, k):
        """Nothing stands behind a place."""
        del self.steps[k + 1:]

    def drop(self, first, last=None):
        """The steps of these places go."""
        del self.steps[first:(first if last is None else last) + 1]

    def put(self, k, actor, step):
        self.steps.insert(k, [actor, step])

    def change(self, k, **fields):
        self.steps[k][1] = dataclasses.replace(self.steps[k][1], **fields)

    def change_message(self, k, **fields):
        self.change(k, message=dataclasses.replace(self.step(k).message, **fields))

    def change_record(self, k, **fields):
        self.change(k, record=dataclasses.replace(self.step(k).record, **fields))

    def drop_message(self, k):
        """The message that is sent at a place goes, with all that is taken of it and answered to it."""
        number = self.step(k).number
        while True:
            answers = [j for j, (_, x) in enumerate(self.steps)
                       if kind(x) == "Sent" and getattr(x.message, "to", None) == number]
            if not answers:
                break
            self.drop_message(answers[0])
        self.steps = [[a, x] for a, x in self.steps if not (
            kind(x) in ("Got", "Lost", "Sent") and x.number == number)]

    def history(self):
        """The history, its messages numbered as they are sent."""
        numbers = {}
        for _, x in self.steps:
            if kind(x) == "Sent":
                numbers[x.number] = len(numbers)
        out = []
        for actor, x in self.steps:
            if kind(x) in ("Got", "Lost", "Sent"):
                x = dataclasses.replace(x, number=numbers[x.number])
            if kind(x) == "Sent" and hasattr(x.message, "to"):
                x = dataclasses.replace(x, message=dataclasses.replace(x.message, to=numbers[x.message.to]))
            out.append((actor, x))
        return out
