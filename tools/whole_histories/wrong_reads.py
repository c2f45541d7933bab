"""Wrong histories of clients that read and append: each is a right one of the model, edited so that its last step isn't
due.

An edit takes a history (`editing.py`) of `@three` and gives the place of the step that isn't due, or that place and the
last one that is kept. Beside it stands what is due there.
"""

from bases import READ, TWO_READS, LATE, CUT_OFF, CLASH, WRITE
from bases import TWO_WRITES, WRITE_AFTER, DOOMED, ENDED, NOTHING, RESPONSE_0


def cases(step, msg, record, reply):
    """(file, what the file has, [(name, what is wrong, script, edit, which part isn't so, what is due)])."""

    def tells(h, k, actor, r):
        """The step at a place is a reply."""
        h.steps[k] = [actor, step.Told(r)]
        return k

    # Reads.

    def unasked(h):
        h.drop(h.sent("Read"), h.told("Response") - 1)
        return h.told("Response")

    def one_grant(h):
        h.drop_message(h.sent("Read", 1))
        return h.told("Response")

    def one_site_twice(h):
        k = h.sent("Read", 1)
        number = h.step(k).number
        h.change(k, to=0)
        h.steps[h.find("Got", test=lambda x: x.number == number)][0] = 0
        h.steps[h.sent("Granted", to=number)][0] = 0
        return h.told("Response")

    def another_invocation(h):
        for nth in range(2):
            h.change_message(h.sent("Read", nth), inv=1)
        return h.told("Response")

    def another_epoch(h):
        for nth in range(2):
            h.change_message(h.sent("Read", nth), epoch=2)
        return h.told("Response")

    def earlier_answers(h):
        earlier = [h.step(h.sent("Granted", nth)).number for nth in range(2)]
        first, last = h.find("Got", test=lambda x: x.number == h.step(h.sent("Read", 2)).number), h.told("Response", 1)
        h.steps[first:last] = [[3, step.Got(number)] for number in earlier]
        return h.told("Response", 1)

    def late_answer(h):
        late = h.step(h.sent("Granted", 0)).number
        k = h.sent("Read", 2)
        h.steps[k + 1:h.told("Response")] = [[3, step.Got(late)]]
        return h.told("Response")

    def each_told(h, told):
        """Both commands are told so at once; the first reply isn't due."""
        k = h.find("Called", test=lambda x: type(x.command) is step.Do)
        h.steps[k + 1:] = [[3, step.Told(told)], h.steps[k], [3, step.Told(told)]]
        return k + 1, k + 3

    def each_conflicts(h):
        return each_told(h, reply.Conflict((1, 1, 1), 0))

    def each_short(h):
        return each_told(h, reply.Quorum("Read", 0, 2))

    def short_too_early(h):
        h.drop_message(h.sent("Read", 2))
        return h.told("Quorum")

    def short_of_open_requests(h):
        h.drop(h.find("Lost", 1))
        return h.told("Quorum")

    def short_of_less(h):
        h.change(h.told("Quorum"), reply=reply.Quorum("Read", 0, 2))
        return h.told("Quorum")

    def conflict_with_another(h):
        h.change(h.told("Conflict"), reply=reply.Conflict((2, 1, 1), 1))
        return h.told("Conflict")

    def granted_despite_a_clash(h):
        return tells(h, h.told("Conflict"), 4, reply.Response(0))

    # Replies of a `do`.

    def absent(h):
        return tells(h, h.told("Response"), 3, reply.Absent())

    def other_response(h):
        return tells(h, h.told("Response"), 3, reply.Response(1))

    def doomed_for_nothing(h):
        return tells(h, h.told("Response"), 3, reply.Doomed())

    def too_long_at_one(h):
        return tells(h, h.told("Response"), 3, reply.TooLong())

    def told_twice(h):
        k = h.told("Response")
        h.put(k + 1, 3, h.step(k))
        return k + 1

    # Appends.

    def new_line_left_out(h):
        for nth in range(2):
            h.change_message(h.sent("Append", nth), own=())
        return h.told("Response")

    def earlier_line_left_out(h):
        for nth in (2, 3):
            k = h.sent("Append", nth)
            h.change_message(k, own=h.step(k).message.own[1:])
        return h.told("Response", 1)

    def view_left_out(h):
        for nth in (2, 3):
            h.change_message(h.sent("Append", nth), view=())
        return h.told("Response", 2)

    def one_append_granted(h):
        h.drop_message(h.sent("Append", 1))
        return h.told("Response")

    def doomed_without_an_append(h):
        k = h.told("Conflict")
        h.end(k)
        h.steps += [[4, step.Called(step.Do(0, 0))], [4, step.Told(reply.Doomed())]]
        return k + 2

    def goes_on_though_doomed(h):
        k = h.told("Conflict")
        h.end(k)
        h.steps += [[4, step.Called(step.Do(0, 2))], [4, step.Told(reply.Conflict((0, 1, 1), 1))]]
        return k + 2

    # Transactions.

    def begins_twice(h):
        k = h.told("Began")
        h.steps[k + 1:] = [[3, step.Called(step.Begin())], [3, step.Told(reply.Began((0, 1, 2)))]]
        return k + 2

    def begins_at_two(h):
        h.change(h.told("Began"), reply=reply.Began((0, 1, 2)))
        return h.told("Began")

    def drops_nothing(h):
        return tells(h, h.told("NoTransaction"), 3, reply.Dropped())

    def forgets_its_transaction(h):
        return tells(h, h.told("Dropped"), 3, reply.NoTransaction())

    return (
        ("WrongReads", "rounds of Reads that no site, or too few, answered.", [
            ("unasked", "A right response is told, and no site was asked.", READ, unasked, "due", NOTHING),
            ("each_conflicts", "Each `do` is told Conflict.", TWO_READS, each_conflicts, "due", NOTHING),
            ("each_short", "Each `do` is told that its quorum is short.", TWO_READS, each_short, "due", NOTHING),
            ("one_grant", "One grant is counted for a weight of two.", READ, one_grant, "due", NOTHING),
            ("one_site_twice", "Two grants of one site are counted for two sites.", READ, one_site_twice, "due",
             NOTHING),
            ("another_invocation", "Another invocation was read for.", READ, another_invocation, "due", NOTHING),
            ("another_epoch", "Sites were asked for another epoch.", READ, another_epoch, "due", NOTHING),
            ("earlier_answers", "Answers to an earlier command's requests are counted.", TWO_READS, earlier_answers,
             "due", NOTHING),
            ("late_answer", "A late answer is counted after its request was lost.", LATE, late_answer, "due", NOTHING),
            ("short_too_early", "Quorum is told before all sites were asked.", CUT_OFF, short_too_early, "due",
             NOTHING),
            ("short_of_open_requests", "Quorum is told while a request is open.", CUT_OFF, short_of_open_requests,
             "due", NOTHING),
            ("short_of_less", "Quorum tells less weight than was granted.", CUT_OFF, short_of_less, "due",
             "(Some (replies.Quorum halves.Read 1 2))"),
            ("conflict_with_another", "Conflict names another holder.", CLASH, conflict_with_another, "client",
             "(Some (replies.Conflict (tx 0 1) 1))"),
            ("granted_despite_a_clash", "A response is told though a site clashed.", CLASH, granted_despite_a_clash,
             "due", "(Some (replies.Conflict (tx 0 1) 1))"),
        ]),
        ("WrongReplies", "replies that aren't the first row's.", [
            ("absent", "Absent is told where a response is legal.", READ, absent, "due", RESPONSE_0),
            ("other_response", "Another response is told than the first legal one.", READ, other_response, "due",
             RESPONSE_0),
            ("doomed_for_nothing", "Doomed is told though nothing was refused.", READ, doomed_for_nothing, "due",
             RESPONSE_0),
            ("doomed_without_an_append", "Doomed is told after a refusal while reading.", CLASH,
             doomed_without_an_append, "due", NOTHING),
            ("goes_on_though_doomed", "A doomed transaction is told another conflict.", DOOMED, goes_on_though_doomed,
             "due", "(Some replies.Doomed)"),
            ("too_long_at_one", "TooLong is told of the first operation.", READ, too_long_at_one, "due", RESPONSE_0),
            ("told_twice", "One command gets two replies.", READ, told_twice, "due", NOTHING),
            ("begins_twice", "A transaction begins though one is begun.", READ, begins_twice, "due",
             "(Some (replies.Already (tx 0 1)))"),
            ("begins_at_two", "The first transaction is number 2.", READ, begins_at_two, "number",
             "(Some (replies.Began (tx 0 1)))"),
            ("drops_nothing", "Dropped is told though no transaction is begun.", ENDED, drops_nothing, "due",
             "(Some replies.NoTransaction)"),
            ("forgets_its_transaction", "NoTransaction is told though one is begun.", ENDED, forgets_its_transaction,
             "due", "(Some replies.Dropped)"),
        ]),
        ("WrongAppends", "responses after Appends that lack what they are to carry.", [
            ("new_line_left_out", "The Appends lack the new own line.", WRITE, new_line_left_out, "due", NOTHING),
            ("earlier_line_left_out", "The second write's Appends lack the first own line.", TWO_WRITES,
             earlier_line_left_out, "due", NOTHING),
            ("view_left_out", "The Appends lack the line that the transaction read.", WRITE_AFTER, view_left_out, "due",
             NOTHING),
            ("one_append_granted", "One grant is counted for a weight of two.", WRITE, one_append_granted, "due",
             NOTHING),
        ]),
    )
