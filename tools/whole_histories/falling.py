"""The moves of histories in which actors fall and rise."""

from choosing import INPUTS
from spelling import kind


def end_of_post(history, k, actor):
    """How the record of the turn ends whose steps begin at a place, and the place behind them."""
    while k < len(history) and history[k][0] == actor and kind(history[k][1]) in ("Wrote", "Sent", "Told"):
        k += 1
    if k < len(history) and history[k][0] == actor and kind(history[k][1]) == "Fell":
        cause = history[k][1].cause
        if cause != "Script":
            return {"Disk": "Failed", "Stop": "Stopped"}[cause], k + 1
    return "Done", k


def ends_quietly(after):
    """Whether what an actor does next isn't of the turn that it is to post: this has no step."""
    return (after is None or kind(after) in INPUTS + ("Rose",)
            or kind(after) == "Fell" and (after.cause == "Script" or after.pending is None))


class Journal:
    """The records that an actor wrote, and the one that it was writing as it fell last."""

    def __init__(self):
        self.up, self.records, self.pending = True, [], None

    def rises(self, records):
        """Whether a rise gives back the pending record."""
        given = list(records) != self.records
        assert not given or list(records) == self.records + [self.pending]
        self.up, self.records, self.pending = True, list(records), None
        return given


def moves(history):
    """Who took what, and when each turn was posted: at once where it has no step."""
    out, waiting, journals, behind = [], set(), {}, 0
    for k, (actor, x) in enumerate(history):
        name, journal = kind(x), journals.setdefault(actor, Journal())
        was_up = journal.up
        if name == "Wrote":
            journal.records.append(x.record)
        elif name == "Fell":
            journal.up, journal.pending = False, x.pending or journal.pending
        if k < behind:
            continue
        if name == "Phase":
            out.append("Begins")
        elif name in ("Cut", "Heal", "Armed") or name == "Fell" and x.cause == "Script":
            out.append("Acts")
        elif name == "Fell" and not was_up:
            out.append("Unopened falls.%s" % x.cause)
        elif name == "Rose":
            given = journal.rises(x.records)
            end, behind = end_of_post(history, k + 1, actor)
            out.append("Rises %s %s" % (str(given).lower(), end))
        elif name in INPUTS:
            out.append("Takes %d" % actor)
            if ends_quietly(next((y for other, y in history[k + 1:] if other == actor), None)):
                out.append("Posts %d Done" % actor)
            else:
                waiting.add(actor)
        else:
            assert actor in waiting
            end, behind = end_of_post(history, k, actor)
            out.append("Posts %d %s" % (actor, end))
            waiting.discard(actor)
    return out
