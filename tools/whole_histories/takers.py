"""Who may take an input after each move of a history, by the model."""

from choosing import INPUTS
from modules import CONTROLS
from spelling import kind


class Posted:
    """A turn whose steps are known."""

    def __init__(self, steps):
        self.known = steps

    def steps(self, outcome, first):
        return self.known


def takers(fabric, decl, script, history):
    """The actors that may take an input in the model, at first and after each move."""
    still, out, k = fabric.Still(decl, script), [], 0
    actors, waiting = range(decl.sites + decl.clients), {}

    def note():
        out.append([a for a in actors if still.ready(a) is not None])

    def controls_done():
        return not any(kind(x) in ("Cut", "Heal") for _, x in history[k + 1:k + 2])

    def post(actor):
        """The steps that the actor adds next, up to its next input."""
        own = [x for other, x in history[k:] if other == actor]
        steps = own[:next((n for n, x in enumerate(own) if kind(x) in INPUTS), len(own))]
        still.post(actor, Posted(steps))
        note()
        return len(steps)

    note()
    while k < len(history):
        actor, x = history[k]
        if kind(x) in INPUTS:
            still.take(actor)
            note()
            k += 1
            after = next((y for other, y in history[k:] if other == actor), None)
            if after is None or kind(after) in INPUTS:
                post(actor)
        elif kind(x) in CONTROLS:
            still.begin_phase() if kind(x) == "Phase" else still.control(x)
            if controls_done():
                still.open_phase()
            note()
            k += 1
        else:
            k += post(actor)
    return out
