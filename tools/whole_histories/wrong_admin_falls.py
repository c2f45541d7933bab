"""Wrong histories of the administrator with falls, and of his turns: each is a right one of the model with one change.
An edit gives the place of the last step that counts, or that of the deed that isn't due with the last one.
"""

import dataclasses

from epoch_scripts import AGAIN, DOWN, MOVED_ONCE, STOPPED

ADMIN = 6
ALL = frozenset((0, 1, 2))
# which part of what is due of the deed is another one: the reply or the decision, a reply that is due as the right one's
# last, or with the fall behind it alone, what is written before, what is pending at the fall, what is posted at a rise; at
# an input, that a reply is untold, a decision unwritten, or a command without its reply; or the turns are wrong
LAST, UNFALLEN = "last", "unfallen"
DUE, BEFORE, PENDING, POSTED, TURNS = "due", "before", "pending", "posted", "turns"


def through_falls(step, reply):
    def fault_though_decided(h):
        k = h.wrote("Decide")
        h.put(k + 1, ADMIN, step.Told(reply.Fault()))
        return k + 1

    def fault_before_a_fall(h):
        k = fault_though_decided(h)
        h.put(k + 1, ADMIN, step.Fell("Disk", h.step(k - 1).record))
        return k, k + 1

    def fault_and_no_fall(h):
        rose = h.find("Rose", actor=ADMIN)
        h.drop(rose, rose + 1)
        h.drop(h.find("Fell", actor=ADMIN))
        return h.told("Fault"), h.find("Called", 1, actor=ADMIN)

    def another_record_pending(h):
        k = h.find("Fell", actor=ADMIN)
        h.change(k, pending=dataclasses.replace(h.step(k).pending, lines=()))
        return k - 1, k

    def risen_with_it(h):
        """He rises with the decision that he was writing as he fell."""
        h.change(h.find("Rose", actor=ADMIN), records=(h.step(h.find("Fell", actor=ADMIN)).pending,))
        return h.wrote("Decide")

    def decided_by_command(h):
        k = h.sent("Install", 3)
        h.steps[k] = [ADMIN, step.Wrote(h.step(h.wrote("Decide")).record)]
        return k

    def lost_one_installed(h):
        """He rises without his decision, and what he sends for the next command are the Installs of it."""
        h.drop(h.find("Called", 1, actor=ADMIN) + 1, h.wrote("Decide"))
        k = h.told("Moved")
        h.change(k, reply=reply.Moved(frozenset(), ALL))
        return k

    def shut_before_his_fall(h):
        earlier, later = (h.step(h.sent("Shut", nth)).number for nth in (1, 3))
        h.change(h.find("Got", actor=ADMIN, test=lambda x: x.number == later), number=earlier)
        return h.wrote("Decide")

    def closed_before(h):
        k = h.told("Moved", 1)
        h.change(k, reply=reply.Moved(frozenset((0, 1)), ALL))
        return k

    def installs_as_he_rises(h):
        k = h.find("Rose", actor=ADMIN)
        for site in (2, 1, 0):
            sent = h.step(h.sent("Install", site))
            h.put(k + 2, ADMIN, dataclasses.replace(sent, number=100 + site))
        return k, k + 4

    def no_life(h):
        k = h.find("Rose", actor=ADMIN)
        h.drop(k + 1)
        return k, k + 1

    def first_epoch_again(h):
        k = h.sent("Close", 2)
        h.steps[k] = [ADMIN, step.Told(reply.Order(1))]
        return k

    def refused_while_down(h):
        k = h.told("Down")
        h.change(k, reply=reply.Order(2))
        return k

    falls = (
        ("fault_though_decided", "Fault is told, though the decision is written.", "three_epochs", MOVED_ONCE,
         fault_though_decided, DUE),
        ("fault_before_a_fall", "It is told so, and he falls with the record that he wrote.", "three_epochs",
         MOVED_ONCE, fault_before_a_fall, BEFORE),
        ("fault_and_no_fall", "Fault is told as his disk stops, and he doesn't fall.", "three_epochs", STOPPED,
         fault_and_no_fall, UNFALLEN),
        ("another_record_pending", "As he falls he was writing another decision than is due.", "three_epochs", STOPPED,
         another_record_pending, PENDING),
        ("decided_again_though_it_rose", "He rises with the decision that he was writing, and writes it again.",
         "three_epochs", STOPPED, risen_with_it, DUE),
        ("decided_again_after_a_rise", "A risen administrator decides an epoch again that his records have.",
         "three_epochs", AGAIN, decided_by_command, DUE),
    )
    rises = (
        ("a_lost_decision_installed", "A decision is installed that he didn't rise with.", "three_epochs", STOPPED,
         lost_one_installed, DUE),
        ("a_shut_of_before_his_fall", "What a site told before he fell counts.", "three_epochs", STOPPED,
         shut_before_his_fall, DUE),
        ("closed_before_his_fall", "A risen administrator tells the sites as closed that had closed before.",
         "three_epochs", AGAIN, closed_before, DUE),
        ("installs_as_he_rises", "He installs his decision as he rises, and nobody called.", "three_epochs", AGAIN,
         installs_as_he_rises, POSTED),
        ("no_life_written", "He rises and writes no record of it.", "three_epochs", AGAIN, no_life, POSTED),
        ("the_first_epoch_again", "A risen administrator knows of the first epoch alone.", "three_epochs", AGAIN,
         first_epoch_again, DUE),
        ("refused_while_down", "He refuses an epoch while he is down.", "three_epochs", DOWN, refused_while_down, DUE),
    )
    return falls, rises


def turns(step, record, reply):
    def fallen_untold(h):
        k = h.told("Fault")
        h.drop(k)
        return k

    def life_between(h):
        k = h.wrote("Decide")
        h.steps[k] = [ADMIN, step.Wrote(record.Life())]
        return k

    def installed_first(h):
        k = h.wrote("Decide")
        h.put(k, ADMIN, dataclasses.replace(h.step(h.sent("Install")), number=100))
        return k + 1

    def down_while_up(h):
        k = h.sent("Close")
        h.steps[k] = [ADMIN, step.Told(reply.Down())]
        return k

    return (
        ("fallen_untold", "He falls as he writes his decision, and tells nothing.", "three_epochs", STOPPED,
         fallen_untold, TURNS),
        ("life_between", "He writes that he rose, and didn't.", "three_epochs", MOVED_ONCE, life_between, TURNS),
        ("installed_first", "An Install is sent before the decision is written.", "three_epochs", MOVED_ONCE,
         installed_first, TURNS),
        ("down_while_up", "He tells that he is down while he is up.", "three_epochs", MOVED_ONCE, down_while_up,
         TURNS),
    )
