"""Histories of rows that no run comes to before actors fall and epochs close: the model's, edited so that a site
answers what none answers yet. What the client then tells is due.
"""

from bases import COMMIT, READ, WRITE


def cases(step, msg, record, reply):
    """(name, what it holds, script, edit)."""

    def refused(h, name, nth, told, answer):
        """The nth answer of this name is another one, and this is told at the command's end."""
        k = h.sent(name, nth)
        h.change(k, message=answer(h.step(k).message.to))
        if name == "Yes":
            h.drop(h.wrote("Prepare", nth))
            h.drop(h.wrote("Commit"), h.told("Committed") - 1)
        k = h.told("Committed" if name == "Yes" else "Response")
        h.change(k, reply=told)
        h.end(k)

    def closed_reading(h):
        refused(h, "Granted", 1, reply.Closed(2, 1), lambda to: msg.Closed(to, 2))

    def closed_appending(h):
        refused(h, "Granted", 1, reply.Closed(2, 1), lambda to: msg.Closed(to, 2))
        h.steps += [[3, step.Called(step.Do(0, 0))], [3, step.Told(reply.Doomed())],
                    [3, step.Called(step.Commit())], [3, step.Told(reply.Aborted(("Doomed",)))],
                    [3, step.Called(step.Begin())], [3, step.Told(reply.Began((0, 1, 2)))],
                    [3, step.Called(step.Do(0, 0))],
                    [3, step.Sent(100, 0, msg.Read((0, 1, 2), 2, 0, 0, 0))]]

    def closed_vote(h):
        refused(h, "Yes", 1, reply.Aborted(("Closed", 2, 1)), lambda to: msg.Closed(to, 2))

    def restarted(h):
        refused(h, "Yes", 1, reply.Aborted(("Restarted", 1, 1, 2)), lambda to: msg.Restarted(to, 2))

    def fault(h):
        refused(h, "Yes", 1, reply.Aborted(("Fault", 1)), lambda to: msg.Fault(to))

    def forgotten(h):
        refused(h, "Yes", 1, reply.Aborted(("Forgot", 1)), lambda to: msg.Stale(to))

    def left_behind(h):
        refused(h, "Yes", 1, reply.Aborted(("Forgot", 1)), lambda to: msg.Behind(to, 0))

    def unknown(h):
        k = h.wrote("Commit")
        pending = h.step(k).record
        h.drop(k, h.told("Committed") - 1)
        h.steps[k] = [3, step.Told(reply.Unknown())]
        h.steps[k + 1:] = [[3, step.Fell("Disk", pending)]]

    return (
        ("closed_reading", "A site's epoch is closed, as it is read.", READ, closed_reading),
        ("closed_appending",
         "A site's epoch is closed while its transaction appends; the next one is of the next epoch.", WRITE,
         closed_appending),
        ("closed_vote", "A site's epoch is closed, as it is to promise.", COMMIT, closed_vote),
        ("restarted", "A site has risen since it granted.", COMMIT, restarted),
        ("fault", "A site can't write its promise.", COMMIT, fault),
        ("forgotten", "A site holds nothing any more.", COMMIT, forgotten),
        ("left_behind", "A site is in an earlier epoch.", COMMIT, left_behind),
        ("unknown", "A client falls as it writes its record.", COMMIT, unknown),
    )
