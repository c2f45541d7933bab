"""Wrong histories of the administrator: each is a right one of the model with one change. An edit gives the place of
the last step that counts, or that of the deed that isn't due with the last one; what stands behind that goes.
"""

import dataclasses

import wrong_admin_falls
from epoch_scripts import ASK_LOST, DOUBT, EACH, FEW, MOVED_ONCE, SEVERAL, STAMPS, STOPPED, THIRD, UNHEARD, WRITES
from spelling import kind
from wrong_admin_falls import ADMIN, ALL, DUE

TWICE = WRITES + "phase|admin epoch 2|phase|admin epoch 2"
UNTOLD, UNWRITTEN, BUSY, UNCALLED = "untold", "unwritten", "busy", "uncalled"


def cases(step, msg, record, reply):
    """(file, what the file has, [(name, what is wrong, declaration, script, edit, the part)])."""

    def moved(closed, installed):
        return lambda h: changed_reply(h, h.told("Moved"), reply.Moved(frozenset(closed), frozenset(installed)))

    def changed_reply(h, k, said):
        h.change(k, reply=said)
        return k

    def tells(h, k, said):
        """A reply in place of a step."""
        h.steps[k] = [ADMIN, step.Told(said)]
        return k

    def writes(h, k, written):
        """A record in place of a step."""
        h.steps[k] = [ADMIN, step.Wrote(written)]
        return k

    def called(said):
        """The first command is told this at once."""
        return lambda h: tells(h, h.find("Sent", actor=ADMIN), said)

    def decides(**fields):
        """The decision has other fields."""
        def edit(h):
            k = h.wrote("Decide")
            h.change_record(k, **{name: change(getattr(h.step(k).record, name)) for name, change in fields.items()})
            return k
        return edit

    def decision(h, nth=0):
        return h.step(h.wrote("Decide", nth)).record

    def in_place_of_decision(said):
        return lambda h: tells(h, h.wrote("Decide"), said)

    def before_the_answers(h):
        k = h.sent("Install", 2)
        h.put(k + 1, ADMIN, step.Told(reply.Moved(frozenset((0, 1)), frozenset())))
        return k + 1

    def doubt(tx, site):
        return lambda h: changed_reply(h, h.told("InDoubt"), reply.InDoubt(tx, site))

    def doubt_unasked(h):
        return tells(h, h.sent("Ask"), reply.InDoubt((0, 1, 1), 0))

    def decided_in_doubt(h):
        return writes(h, h.told("InDoubt"), decision(h))

    def decided_twice(h):
        return writes(h, h.sent("Install", 3), decision(h))

    def decided_by_too_few(h):
        shut = h.step(h.sent("Shut")).message
        return writes(h, h.told("Quorum"), record.Decide(2, shut.clock, shut.log))

    def decided_by_another_plan(h):
        """For the third epoch two of three sites have closed, as for the second."""
        shut = h.step(h.sent("Shut", 3)).message
        k = h.find("Got", 1, actor=ADMIN, test=lambda x: x.number in shuts_of(h)[2:])
        h.put(k + 1, ADMIN, step.Wrote(record.Decide(3, shut.clock, shut.log)))
        return k + 1

    def shuts_of(h):
        return [x.number for _, x in h.steps if kind(x) == "Sent" and kind(x.message) == "Shut"]

    def earlier_shut(h):
        """The second site's Shut for the second command doesn't come; that for the first one comes once more."""
        earlier, later = (h.step(h.sent("Shut", nth)).number for nth in (1, 3))
        h.change(h.find("Got", actor=ADMIN, test=lambda x: x.number == later), number=earlier)
        return h.wrote("Decide")

    def aborted_lines(lines):
        return tuple(sorted(lines + (((1, 0), (0, 1, 1), 1, 0, 3),)))

    def another_log(h):
        for k, (_, x) in enumerate(h.steps):
            if kind(x) == "Sent" and kind(x.message) == "Install":
                h.change_message(k, log=())
            elif kind(x) == "Wrote" and kind(x.record) == "Install":
                h.change_record(k, lines=())
        return h.told("Moved")

    def short(got, need, at):
        return lambda h: tells(h, at(h), reply.Quorum("Close", got, need))

    def untold(h):
        h.drop(h.told("Moved"))
        return h.find("Called", 1, actor=ADMIN)

    def unwritten(h):
        h.drop(h.wrote("Decide"))
        return h.find("Got", 2, actor=ADMIN)

    def called_twice(h):
        k = h.sent("Close", 1)
        h.put(k + 1, ADMIN, step.Called(step.Epoch(2)))
        return k + 1

    def another_log_sent(h):
        k = h.sent("Install")
        h.change_message(k, log=())
        return k

    def installed_undecided(h):
        k = h.sent("Close", 3)
        h.put(k + 1, ADMIN, dataclasses.replace(h.step(h.sent("Install", 2)), number=100))
        return k + 1

    def third_close(h):
        return h.sent("Close", 2)

    def told_short(h):
        return h.told("Quorum")

    moves = (
        ("another_site_closed", "Another site is told as closed.", "three_epochs", MOVED_ONCE, moved((0, 2), ALL), DUE),
        ("a_closed_site_left_out", "A closed site isn't told.", "three_epochs", MOVED_ONCE, moved((0,), ALL), DUE),
        ("an_install_unheard_of", "A site is told as installed, of which he didn't hear.", "three_epochs", UNHEARD,
         moved((0, 1), ALL), DUE),
        ("moved_before_the_answers", "Moved is told before any site answers.", "three_epochs", MOVED_ONCE,
         before_the_answers, DUE),
        ("moved_without_closing", "Moved is told, though nobody is asked.", "three_epochs", MOVED_ONCE,
         called(reply.Moved(frozenset(), ALL)), DUE),
        ("the_next_epoch_refused", "The next epoch is refused.", "three_epochs", MOVED_ONCE, called(reply.Order(1)),
         DUE),
    )
    doubts = (
        ("doubt_of_what_is_answered", "A transaction is told as in doubt that committed.", "three_epochs", STAMPS,
         in_place_of_decision(reply.InDoubt((0, 1, 4), 0)), DUE),
        ("doubt_at_another_site", "The doubt is told at another site than the first one.", "three_epochs", ASK_LOST,
         doubt((0, 1, 1), 1), DUE),
        ("doubt_of_another_promise", "A transaction is told as in doubt that isn't the one.", "three_epochs", DOUBT,
         doubt((2, 1, 1), 0), DUE),
        ("doubt_before_it_is_asked", "A transaction is told as in doubt, and nobody was asked.", "three_epochs",
         ASK_LOST, doubt_unasked, DUE),
        ("decided_in_doubt", "An epoch is decided, though a transaction is in doubt.", "three_epochs", ASK_LOST,
         decided_in_doubt, DUE),
    )
    rounds = (
        ("decided_twice", "A decided epoch is decided once more.", "three_epochs", TWICE, decided_twice, DUE),
        ("decided_by_too_few", "An epoch is decided, though too few sites have closed.", "three_epochs", FEW,
         decided_by_too_few, DUE),
        ("decided_by_another_plan", "An epoch is decided by the plan of the one before the last.", "three_epochs", THIRD,
         decided_by_another_plan, DUE),
        ("a_shut_of_an_earlier_command", "What a site told for an earlier command counts.", "three_epochs", ASK_LOST,
         earlier_shut, DUE),
        ("short_before_all_are_asked", "Too few are told before all sites are asked.", "three_epochs", FEW,
         short(0, 2, third_close), DUE),
        ("short_of_another_weight", "Too few are told with another weight.", "three_epochs", FEW,
         short(1, 3, told_short), DUE),
        ("fault_of_nothing", "Fault is told, though the record fits, and he doesn't fall.", "three_epochs", MOVED_ONCE,
         in_place_of_decision(reply.Fault()), DUE),
    )
    inputs = (
        ("a_reply_untold", "A command comes, though the one before has no reply that is due.", "three_epochs", TWICE,
         untold, UNTOLD),
        ("a_decision_unwritten", "Installs are answered, though the decision isn't written.", "three_epochs",
         MOVED_ONCE, unwritten, UNWRITTEN),
        ("called_before_its_reply", "A command comes while the one before runs.", "three_epochs", MOVED_ONCE,
         called_twice, BUSY),
    )
    decisions = (
        ("a_clock_that_leaves_out_stamps", "The clock doesn't pass the stamp of a promise that committed.",
         "three_epochs", STAMPS, decides(clock=lambda clock: clock - 1), DUE),
        ("committed_lines_left_out", "The lines of a promise that committed are left out.", "three_epochs", ASK_LOST,
         decides(lines=lambda lines: ()), DUE),
        ("aborted_lines_merged", "The lines of a promise that aborted are there.", "three_epochs", SEVERAL,
         decides(lines=aborted_lines), DUE),
        ("a_line_that_nobody_told", "A line is there that no site told.", "three_epochs", MOVED_ONCE,
         decides(lines=aborted_lines), DUE),
        ("one_entry_of_a_transaction", "Of the lines that two sites promised of a transaction one site's are there.",
         "two_objects", EACH, decides(lines=lambda lines: lines[:1]), DUE),
        ("another_log_installed", "The sites are sent other lines than the decision has.", "three_epochs", MOVED_ONCE,
         another_log, DUE),
    )
    sends = (
        ("another_log", "An Install of another log than the one that he decided.", "three_epochs", MOVED_ONCE,
         another_log_sent, UNCALLED),
        ("not_decided", "An Install of what was being decided as he fell, before it is decided.", "three_epochs",
         STOPPED, installed_undecided, UNCALLED),
    )
    falls, rises = wrong_admin_falls.through_falls(step, reply)
    return (
        ("WrongMoves", "the administrator tells what he moved, or refuses, otherwise than he did.", moves),
        ("WrongDoubts", "doubts of the administrator, and a decision in doubt.", doubts),
        ("WrongRounds", "what the administrator makes of the sites that closed.", rounds),
        ("WrongSends", "the administrator sends what nothing calls for.", sends),
        ("WrongInputs", "what the administrator takes while something else is due.", inputs),
        ("WrongDecisions", "decisions of the administrator with another clock or other lines.", decisions),
        ("WrongFalls", "decisions of the administrator as his disk fails, and of one who rose.", falls),
        ("WrongRises", "the administrator's other deeds as he rises, and while he is down.", rises),
        ("WrongAdminTurns", "the administrator doesn't act by turns.", wrong_admin_falls.turns(step, record, reply)),
    )
