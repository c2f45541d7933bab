"""Wrong histories of sites: each is a right one of the model, edited so that what a site posts for its last input isn't
due. An edit gives the place of the last step that counts; what stands behind that goes.
"""

import dataclasses

from bases import CLASH, COMMIT, DOOMED, READ, WRITE, WRITE_AFTER

ENDED_WRITE = "phase|c0 begin|c0 do x W1|c0 abort|phase|c1 begin|c1 do x R"
TWO_WRITERS = "phase|c0 begin|c0 do x W0|phase|c2 begin|c2 do x W1|phase|c1 begin|c1 do x R"

# what is compared of a post: the answer, the count of messages, the holder of a clash, the lines or the clock of a
# grant, the count of records, the own lines of a promise
ANSWER, MESSAGES, HOLDER, LINES, CLOCK, RECORDS, OWN = (
    "first_answer", "count_sends", "holder_told", "lines_granted", "clock_granted", "count_records", "own_promised")


def cases(step, msg, record, reply):
    """(file, what the file has, [(name, what is wrong, script, the site, edit, what is compared, due, posted)])."""

    def answers(h, k, make):
        """The answer at a place is another one."""
        h.change(k, message=make(h.step(k).message.to))
        return k

    def stale(h):
        k = h.sent("Yes")
        h.drop(k - 1)
        return answers(h, k - 1, msg.Stale)

    def held_off(h):
        return answers(h, h.sent("Granted"), lambda to: msg.Clash(to, (1, 1, 1), 0, 3))

    def lets_in(h):
        k = h.sent("Clash")
        return answers(h, k, lambda to: msg.Granted(to, 1, 0, ()))

    def lets_append_in(h):
        k = h.sent("Clash")
        return answers(h, k, lambda to: msg.Granted(to, 1, 0, ()))

    def keeps_out(h):
        k = h.sent("Granted", 2)
        return answers(h, k, lambda to: msg.Clash(to, (0, 1, 1), 0, 3))

    def other_holder(h):
        k = h.sent("Clash")
        return answers(h, k, lambda to: msg.Clash(to, (2, 1, 1), 0, 3))

    def asks_nobody(h):
        k = h.sent("Clash")
        h.drop(k + 1)
        return k

    def closed(h):
        return answers(h, h.sent("Granted"), lambda to: msg.Closed(to, 2))

    def behind(h):
        return answers(h, h.sent("Granted"), lambda to: msg.Behind(to, 0))

    def restarted(h):
        k = h.sent("Yes")
        h.drop(k - 1)
        return answers(h, k - 1, lambda to: msg.Restarted(to, 2))

    def promises_to_a_read(h):
        return answers(h, h.sent("Granted"), lambda to: msg.Yes(to, 0))

    def lines_left_out(h):
        k = h.sent("Granted", 2)
        return answers(h, k, lambda to: msg.Granted(to, 1, 1, ()))

    def clock_left_behind(h):
        k = h.sent("Granted", 2)
        return answers(h, k, lambda to: msg.Granted(to, 1, 0, h.step(k).message.log))

    def answers_nobody(h):
        k = h.sent("Granted")
        h.drop(k)
        h.put(k, 0, h.step(k - 1))
        return k

    def answers_twice(h):
        k = h.sent("Granted")
        h.put(k + 1, 0, dataclasses.replace(h.step(k), number=100))
        return k + 1

    def unkept(h):
        k = h.sent("Yes")
        h.drop(k - 1)
        return k - 1

    def kept_without_its_line(h):
        k = h.wrote("Prepare")
        h.change_record(k, prepared=dataclasses.replace(h.step(k).record.prepared, own=()))
        return k + 1

    def done_without_a_record(h):
        k = h.wrote("Done", actor=0)
        h.drop(k)
        h.put(k, 0, h.step(k - 1))
        return k

    def done_though_aborted(h):
        k = h.find("Got", actor=0, test=lambda x: x.number == h.step(h.sent("Decision")).number)
        h.put(k + 1, 0, step.Wrote(record.Done((0, 1, 1), 1)))
        return k + 1

    return (
        ("WrongRefusals", "sites that refuse what they are to grant, or grant what they are to refuse.", [
            ("stale", "A site answers Stale to a Prepare of what it granted.", COMMIT, 0, stale, ANSWER,
             "(Some (answers.Yes 0))", "(Some answers.Stale)"),
            ("held_off", "A site tells of a clash though nothing is held.", READ, 0, held_off, ANSWER,
             "(Some (answers.Granted (whole_grant 1 0 [])))", "(Some (answers.Clash (tx 1 1) 0 3))"),
            ("lets_in", "A Read is granted though another's own line is in its way.", CLASH, 1, lets_in, ANSWER,
             "(Some (answers.Clash (tx 0 1) 0 3))", "(Some (answers.Granted (whole_grant 1 0 [])))"),
            ("lets_append_in", "An Append is granted though another's lock is in its way.", DOOMED, 1, lets_append_in,
             ANSWER, "(Some (answers.Clash (tx 0 1) 0 3))", "(Some (answers.Granted (whole_grant 1 0 [])))"),
            ("keeps_out", "A site tells of a clash with a transaction that was given up.", ENDED_WRITE, 1, keeps_out,
             ANSWER, "(Some (answers.Granted (whole_grant 1 0 [])))", "(Some (answers.Clash (tx 0 1) 0 3))"),
            ("other_holder", "Not the least holder is told.", CLASH, 1, other_holder, HOLDER, "0", "2"),
            ("asks_nobody", "The holder's client isn't asked.", CLASH, 1, asks_nobody, MESSAGES, "2", "1"),
            ("closed", "A site says Closed in the first epoch.", READ, 0, closed, ANSWER,
             "(Some (answers.Granted (whole_grant 1 0 [])))", "(Some (answers.Closed 2))"),
            ("behind", "A site says Behind in the request's epoch.", READ, 0, behind, ANSWER,
             "(Some (answers.Granted (whole_grant 1 0 [])))", "(Some (answers.Behind 0))"),
            ("restarted", "A site that didn't fall says Restarted.", COMMIT, 0, restarted, ANSWER,
             "(Some (answers.Yes 0))", "(Some (answers.Restarted 2))"),
        ]),
        ("WrongPosts", "sites that answer or write something else than is due.", [
            ("promises_to_a_read", "A site says Yes to a Read.", READ, 0, promises_to_a_read, ANSWER,
             "(Some (answers.Granted (whole_grant 1 0 [])))", "(Some (answers.Yes 0))"),
            ("lines_left_out", "A Read is granted without a line that the site knows.", WRITE_AFTER, 1, lines_left_out,
             LINES, "1", "0"),
            ("clock_left_behind", "A grant tells an earlier clock.", WRITE_AFTER, 1, clock_left_behind, CLOCK, "1",
             "0"),
            ("answers_nobody", "A request gets no answer.", READ, 0, answers_nobody, MESSAGES, "1", "0"),
            ("answers_twice", "A request gets two answers.", READ, 0, answers_twice, MESSAGES, "1", "2"),
            ("unkept", "A Yes has no Prepare record.", COMMIT, 0, unkept, RECORDS, "1", "0"),
            ("kept_without_its_line", "A Prepare record lacks an own line.", COMMIT, 0, kept_without_its_line, OWN, "1",
             "0"),
            ("done_without_a_record", "A promised transaction committed, and no Done is written.", COMMIT, 0,
             done_without_a_record, RECORDS, "1", "0"),
            ("done_though_aborted", "Done is written of a transaction that was given up.", ENDED_WRITE, 0,
             done_though_aborted, RECORDS, "0", "1"),
        ]),
    )
