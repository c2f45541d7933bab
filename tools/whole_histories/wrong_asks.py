"""Wrong histories of clients that ask whom they aren't to ask, that answer of what isn't declared, or that leave a
reply untold: each is a right one of the model, edited so that its last step isn't due.

An edit takes a history (`editing.py`) of `@three` and gives the place of the step that isn't due. Beside it stands what
is due there.
"""

from bases import CUT_OFF, NOTHING, READ, RESPONSE_0


def cases(step, msg, record, reply):
    """(file, what the file has, [(name, what is wrong, script, edit, which part isn't so, what is due)])."""

    def asked_again(h, site, answer):
        """A third request of the `do` goes to a site, and its answer is the first that is taken."""
        h.put(h.sent("Read", 1) + 1, 3, step.Sent(100, site, msg.Read((0, 1, 1), 1, 0, 0, 0)))
        k = h.find("Got", actor=3)
        for n, (actor, x) in enumerate(((site, step.Got(100)), (site, step.Sent(101, 3, answer)), (3, step.Got(101)))):
            h.put(k + n, actor, x)

    def conflict_of_a_site_too_many(h):
        asked_again(h, 2, msg.Clash(100, (1, 1, 1), 0, 0))
        h.change(h.told("Response"), reply=reply.Conflict((1, 1, 1), 2))
        return h.told("Conflict")

    def closed_by_a_site_too_many(h):
        asked_again(h, 2, msg.Closed(100, 2))
        h.change(h.told("Response"), reply=reply.Closed(2, 2))
        return h.told("Closed")

    def out_of_order(h):
        for nth, site in enumerate((1, 2)):
            k = h.sent("Read", nth)
            number = h.step(k).number
            h.change(k, to=site)
            h.steps[h.find("Got", test=lambda x: x.number == number)][0] = site
            h.steps[h.sent("Granted", to=number)][0] = site
        return h.told("Response")

    def waits_for_a_site_too_many(h):
        k = h.sent("Read", 1)
        h.put(k + 1, 3, step.Sent(100, 2, msg.Read((0, 1, 1), 1, 0, 0, 0)))
        k = h.told("Response")
        h.put(k, 3, step.Lost(100))
        return k

    def begin_untold(h):
        h.drop(h.told("Began"))
        return h.find("Called", 1)

    def refusal_untold(h):
        k = h.told("Quorum")
        h.end(k)
        h.steps[k] = [4, step.Called(step.Abort())]
        return k

    def in_another_epoch(h, rest):
        """Its epoch is closed for the ninth, which isn't declared; the next transaction begins there."""
        k = h.sent("Granted", 1)
        h.change(k, message=msg.Closed(h.step(k).message.to, 9))
        k = h.told("Response")
        h.end(k)
        h.change(k, reply=reply.Closed(9, 1))
        h.steps += [[3, step.Called(step.Abort())], [3, step.Told(reply.Dropped())],
                    [3, step.Called(step.Begin())], [3, step.Told(reply.Began((0, 1, 2)))]] + rest
        return len(h.steps) - 1

    def response_without_a_plan(h):
        return in_another_epoch(h, [[3, step.Called(step.Do(0, 0))], [3, step.Told(reply.Response(0))]])

    def absent_without_a_table(h):
        k = h.told("Began")
        h.end(k)
        h.steps += [[3, step.Called(step.Do(7, 0))], [3, step.Told(reply.Absent())]]
        return k + 2

    return (
        ("WrongAsks", "requests that no round wants, replies of what isn't declared, and untold replies.", [
            ("conflict_of_a_site_too_many", "The conflict of a third site is told where two are enough.", READ,
             conflict_of_a_site_too_many, "due", RESPONSE_0),
            ("closed_by_a_site_too_many", "So is a closed epoch.", READ, closed_by_a_site_too_many, "due", RESPONSE_0),
            ("out_of_order", "The sites are asked in another order than the client's.", READ, out_of_order, "due",
             NOTHING),
            ("waits_for_a_site_too_many", "A third site is waited for where two have granted.", READ,
             waits_for_a_site_too_many, "untold", RESPONSE_0),
            ("begin_untold", "A `do` is called though the begin has no reply.", READ, begin_untold, "untold",
             "(Some (replies.Began (tx 0 1)))"),
            ("refusal_untold", "A transaction is given up though its `do` is to be refused.", CUT_OFF, refusal_untold,
             "untold", "(Some (replies.Quorum halves.Read 1 2))"),
            ("response_without_a_plan", "A `do` is answered in an epoch that isn't declared.", READ,
             response_without_a_plan, "due", NOTHING),
            ("absent_without_a_table", "A `do` of an object that isn't declared is told Absent.", READ,
             absent_without_a_table, "due", NOTHING),
        ]),
    )
