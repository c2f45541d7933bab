"""Wrong histories of sites that close and install epochs: each is a right one of the model with one change. An edit
gives the place of the last step that counts; what stands behind that goes.
"""

from epoch_scripts import (
    CLOSED, HELD, KEPT, LATE, MOVED_ONCE, REDEEMED, SEVERAL, SHUT_RISES, STAMPS, UNINSTALLED)
from spelling import kind


def cases(step, msg, record, reply):
    """(file, what the file has, [(name, what is wrong, script, the site, edit, what is compared)])."""

    def tells(nth, name="Shut", **fields):
        """The nth message of this name has other fields."""
        def edit(h):
            k = h.sent(name, nth)
            said = h.step(k).message
            h.change_message(k, **{field: change(getattr(said, field)) for field, change in fields.items()})
            return k
        return edit

    def unwritten(name):
        """The first record of this name isn't written; its answer is sent."""
        def edit(h):
            k = h.wrote(name)
            h.drop(k)
            return k
        return edit

    def line_less(h):
        k = h.wrote("Install")
        h.change_record(k, lines=h.step(k).record.lines[1:])
        return k + 1

    def granted(site, life, clock):
        """In place of a Closed the site grants what it is asked."""
        def edit(h):
            k = h.find("Sent", actor=site, test=lambda x: kind(x.message) == "Closed")
            h.change(k, message=msg.Granted(h.step(k).message.to, life, clock, ()))
            return k
        return edit

    def first_grant(h):
        """The first grant of the second site once it installed."""
        installed = h.wrote("Install", actor=1)
        places = [k for k, (a, x) in enumerate(h.steps)
                  if k > installed and a == 1 and kind(x) == "Sent" and kind(x.message) == "Granted"]
        return places[0]

    def grants(**fields):
        def edit(h):
            k = first_grant(h)
            h.change_message(k, **fields)
            return k
        return edit

    def risen_grant(h):
        """The first grant of the second site once it rose in the next epoch."""
        rose = [k for k, (a, x) in enumerate(h.steps) if a == 1 and kind(x) == "Rose"][-1]
        k = [k for k, (a, x) in enumerate(h.steps)
             if k > rose and a == 1 and kind(x) == "Sent" and kind(x.message) == "Granted"][0]
        h.change_message(k, log=())
        return k

    def asks_nobody(h):
        k = h.find("Sent", actor=0, test=lambda x: kind(x.message) == "Inquiry")
        h.drop(k)
        return k - 1

    def closes_again(h):
        k = h.find("Sent", 1, actor=0, test=lambda x: kind(x.message) == "Shut")
        h.put(k, 0, step.Wrote(record.Close(2)))
        return k + 1

    def votes(h):
        """In place of a Closed the site promises what it is asked, and votes for it."""
        k = h.find("Sent", actor=0, test=lambda x: kind(x.message) == "Closed")
        h.change(k, message=msg.Yes(h.step(k).message.to, 1))
        h.put(k, 0, step.Wrote(record.Prepare(record.Prepared((0, 1, 1), 1, (), ((1, 0, 3),), ()))))
        return k + 1

    def clashes(h):
        """In place of its first grant once it installed, the site tells who had its lock before."""
        k = first_grant(h)
        h.change(k, message=msg.Clash(h.step(k).message.to, (0, 1, 1), 0, 3))
        return k

    def installs_earlier(h):
        """The third site installs the epoch whose Install comes late."""
        k = h.find("Sent", 1, actor=2, test=lambda x: kind(x.message) == "Installed")
        earlier = h.step(h.wrote("Decide")).record
        h.put(k, 2, step.Wrote(record.Install(earlier.epoch, earlier.clock, earlier.lines)))
        return k + 1

    def redeems(h):
        """The first site writes what became of what it had promised before it installed."""
        decisions = {x.number for _, x in h.steps if kind(x) == "Sent" and kind(x.message) == "Decision"}
        k = [k for k, (a, x) in enumerate(h.steps) if a == 0 and kind(x) == "Got" and x.number in decisions][-1]
        h.put(k + 1, 0, step.Wrote(record.Done((0, 1, 1), 1)))
        return k + 1

    shuts = (
        ("promises_by_their_coming", "A Shut tells the promises in the order in which they came.", SEVERAL, 0,
         tells(0, prepared=lambda ps: tuple(reversed(ps))), "first_promise"),
        ("a_promise_left_out", "A Shut leaves a promise out.", SEVERAL, 0, tells(0, prepared=lambda ps: ps[:1]),
         "promises_told"),
        ("shut_without_a_record", "A site tells that it has closed, and writes nothing.", SEVERAL, 0,
         unwritten("Close"), "count_records"),
        ("a_line_left_out", "A Shut leaves a line out.", MOVED_ONCE, 0, tells(0, log=lambda lines: lines[1:]),
         "lines_told"),
        ("shut_below_its_clock", "A Shut's clock is below that of a line.", MOVED_ONCE, 0,
         tells(0, clock=lambda clock: clock - 1), "clock_told"),
        ("promised_once_closed", "A closed site promises a transaction, and votes for it.", UNINSTALLED, 0, votes,
         "is_closed_told"),
        ("installed_without_a_record", "A site tells that it has installed, and writes nothing.", MOVED_ONCE, 0,
         unwritten("Install"), "count_records"),
        ("installed_without_a_line", "A site installs a line less.", MOVED_ONCE, 0, line_less, "lines_installed"),
        ("an_earlier_epoch_installed", "A site installs an earlier epoch than its own.", LATE, 2, installs_earlier,
         "count_records"),
        ("redeemed_once_installed", "A site redeems a promise of the epoch before.", REDEEMED, 0, redeems,
         "count_records"),
    )
    grants_after = (
        ("granted_in_a_closed_epoch", "A site grants in an epoch that it left.", MOVED_ONCE, 1, granted(1, 2, 1),
         "is_closed_told"),
        ("granted_without_installed_lines", "A grant leaves out the lines that the epoch began with.", MOVED_ONCE,
         1, grants(log=()), "lines_granted"),
        ("granted_below_installed_clock", "A grant's clock doesn't pass the epoch's.", STAMPS, 1, grants(clock=0),
         "clock_granted"),
        ("granted_in_the_first_life", "A site that has closed grants in its first life.", MOVED_ONCE, 1,
         grants(life=1), "life_granted"),
        ("refused_for_what_was_dropped", "A site refuses a read for what was held in the epoch before.", HELD, 1,
         clashes, "is_clash_told"),
    )
    risen = (
        ("a_closed_site_grants", "A closed site rises, and grants in the closed epoch.", SHUT_RISES, 0, granted(0, 3, 0),
         "is_closed_told"),
        ("a_told_promise_forgotten", "A site rises, and its Shut leaves out a promise that it told before.", KEPT, 0,
         tells(2, prepared=lambda ps: ()), "promises_told"),
        ("a_promise_unasked", "A closed site rises with a promise, and asks nobody about it.", KEPT, 0, asks_nobody,
         "count_sends"),
        ("closed_again", "A closed site rises, and writes again that it closes.", KEPT, 0, closes_again,
         "count_records"),
        ("an_epoch_forgotten", "A site rises, and grants in the epoch before the one that it installed.", CLOSED, 1,
         granted(1, 2, 1), "is_closed_told"),
        ("installed_lines_forgotten", "A site rises, and grants without the lines that it installed.", CLOSED, 1,
         risen_grant, "lines_granted"),
    )
    return (
        ("WrongShuts", "sites that close and install epochs.", shuts),
        ("WrongGrants", "sites that grant what the next epoch doesn't let them.", grants_after),
        ("WrongRisenSites", "sites that rise closed, or in an installed epoch.", risen),
    )
