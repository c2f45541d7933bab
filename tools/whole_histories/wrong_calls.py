"""Wrong histories of the administrator who asks others, or at another time, than his command calls for; and of one for
whom an answer counts that came too late. Each is a right one of the model with one change, and with what follows of it.
"""

from epoch_scripts import AGAIN, MOVED_ONCE, SEVERAL, STAMPS, UNHEARD
from spelling import kind
from wrong_admin_falls import ADMIN, ALL, DUE, LAST


def cases(step, msg, reply):
    """(file, what the file has, [(name, what is wrong, declaration, script, edit, the part)])."""

    def given_to(h, number, actor):
        """A message goes to another actor, who takes and answers it in the place of its receiver."""
        k = h.find("Sent", test=lambda x: x.number == number)
        h.change(k, to=actor)
        k = h.find("Got", test=lambda x: x.number == number)
        h.steps[k][0] = actor
        if kind(h.step(k + 1)) == "Wrote":
            h.drop(k + 1)
        h.steps[k + 1][0] = actor

    def number(h, k):
        return h.step(k).number

    def close_of_another_epoch(h):
        answers = []
        for nth in (0, 1):
            h.change_message(h.sent("Close", nth), epoch=3)
            answers.append(number(h, h.sent("Shut")))
            k = h.sent("Shut")
            h.change(k, message=msg.Behind(h.step(k).message.to, 1))
            h.drop(k - 1)
        k = h.find("Got", actor=ADMIN, test=lambda x: x.number == answers[1])
        h.steps[k + 1:] = [[ADMIN, step.Sent(100, 2, msg.Close(3))], [2, step.Got(100)],
                           [2, step.Sent(101, ADMIN, msg.Behind(100, 1))], [ADMIN, step.Got(101)],
                           [ADMIN, step.Told(reply.Quorum("Close", 0, 2))]]
        return k + 5

    def site_asked_twice(h):
        given_to(h, number(h, h.sent("Close", 1)), 0)
        return h.wrote("Decide")

    def another_site(h):
        given_to(h, number(h, h.sent("Close", 1)), 2)
        return h.wrote("Decide")

    def asked_early(h):
        ask = h.sent("Ask")
        second = number(h, h.sent("Shut", 1))
        asked = h.steps.pop(ask)
        h.steps.insert(h.find("Got", actor=ADMIN, test=lambda x: x.number == second), asked)
        return h.wrote("Decide")

    def another_client(h):
        given_to(h, number(h, h.sent("Ask")), 4)
        return h.wrote("Decide")

    def out_of_order(h):
        first, second = h.sent("Ask", 0), h.sent("Ask", 1)
        h.steps[first], h.steps[second] = h.steps[second], h.steps[first]
        return h.wrote("Decide")

    def site_left_out(h):
        given_to(h, number(h, h.sent("Install", 2)), 1)
        k = h.told("Moved")
        h.change(k, reply=reply.Moved(frozenset((0, 1)), frozenset((0, 1))))
        return k

    def earlier_installs(h):
        """The command for the next epoch comes in the place of that for the decided one."""
        h.change(h.find("Called", 1, actor=ADMIN), command=step.Epoch(3))
        h.drop(h.told("Moved", 1))
        h.drop(h.find("Called", 2, actor=ADMIN))
        k = h.wrote("Decide", 1)
        h.put(k + 1, ADMIN, step.Told(reply.Moved(ALL, ALL)))
        return k + 1

    def answered_late(h):
        """That an Install is lost comes before another one's answer, and its own answer behind it."""
        lost = h.find("Lost", actor=ADMIN)
        install = h.step(lost)
        answer = h.find("Sent", actor=2, test=lambda x: kind(x.message) == "Installed")
        last = h.find("Got", actor=ADMIN, test=lambda x: x.number > number(h, h.sent("Installed")))
        h.drop(lost)
        h.steps[last:last] = [[ADMIN, install], [ADMIN, step.Got(number(h, answer))]]
        k = h.told("Moved")
        h.change(k, reply=reply.Moved(frozenset((0, 1)), ALL))
        return k

    closes = (
        ("a_close_of_another_epoch", "Sites are to close for another epoch than the next one, and too few are told.",
         "three_epochs", MOVED_ONCE, close_of_another_epoch, DUE),
        ("a_site_asked_twice", "A site is asked twice, and counts twice.", "three_epochs", MOVED_ONCE,
         site_asked_twice, DUE),
        ("another_site_asked", "Another site is asked than the next one of the round.", "three_epochs", MOVED_ONCE,
         another_site, DUE),
    )
    asks = (
        ("asked_too_early", "A client is asked before enough sites have closed.", "three_epochs", STAMPS, asked_early,
         DUE),
        ("another_client_asked", "Another client is asked about a transaction.", "three_epochs", STAMPS,
         another_client, DUE),
        ("asked_out_of_order", "Clients are asked in another order than that of the promises.", "three_epochs",
         SEVERAL, out_of_order, DUE),
    )
    installs = (
        ("a_site_left_out", "A site is sent the epoch twice, and another one never.", "three_epochs", MOVED_ONCE,
         site_left_out, DUE),
        ("earlier_installs_count", "What was sent of the epoch before counts for the next one.", "three_epochs", AGAIN,
         earlier_installs, DUE),
        ("an_answer_of_what_was_lost", "An answer counts that came when its request was lost already.", "three_epochs",
         UNHEARD, answered_late, LAST),
    )
    return (
        ("WrongCloses", "the administrator closes otherwise than the next epoch's round asks.", closes),
        ("WrongAsks", "the administrator asks other clients, or at another time.", asks),
        ("WrongInstalls", "the administrator installs elsewhere than everywhere, or counts what doesn't.", installs),
    )
