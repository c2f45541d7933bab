"""Wrong histories of clients that commit, as in `wrong_reads.py`."""

import dataclasses

from bases import WRITE_AFTER, COMMIT, LOST_VOTE, SECOND, DOOMED, NOTHING, COMMITTED, RECORD


def cases(step, msg, record, reply):
    """(file, what the file has, [(name, what is wrong, script, edit, which part isn't so, what is due)])."""

    def tells(h, k, actor, r):
        """The step at a place is a reply."""
        h.steps[k] = [actor, step.Told(r)]
        return k

    # Commits.

    def votes_for_another(h):
        for nth in range(2):
            h.change_message(h.sent("Prepare", nth), tx=(0, 1, 1))
            k = h.wrote("Prepare", nth)
            h.change_record(k, prepared=dataclasses.replace(h.step(k).record.prepared, tx=(0, 1, 1)))
        return h.wrote("Commit")

    def record_before_the_votes(h):
        k = h.wrote("Commit")
        entry = h.steps[k]
        h.drop(k)
        h.put(h.find("Called", test=lambda x: type(x.command) is step.Commit) + 1, *entry)
        return h.wrote("Commit")

    def unvoted(h):
        h.drop(h.sent("Prepare"), h.wrote("Commit") - 1)
        return h.wrote("Commit")

    def one_vote(h):
        h.drop(h.wrote("Prepare", actor=1))
        h.drop_message(h.sent("Prepare", 1))
        return h.wrote("Commit")

    def one_vote_open(h):
        number = h.step(h.sent("Yes", 1)).number
        h.drop(h.find("Got", test=lambda x: x.number == number))
        return h.wrote("Commit")

    def record_missing(h):
        h.drop(h.wrote("Commit"))
        return h.told("Committed")

    def operation_left_out(h):
        h.change_record(h.wrote("Commit"), ops=())
        return h.wrote("Commit")

    def recorded_twice(h):
        k = h.wrote("Commit")
        h.put(k + 1, *h.steps[k])
        return k + 1

    def low_stamp(h):
        h.change_record(h.wrote("Commit", 1), stamp=(1, 1))
        return h.wrote("Commit", 1)

    def no_answer_though_answered(h):
        k = h.wrote("Commit")
        h.drop(k, h.told("Committed") - 1)
        return tells(h, k, 3, reply.Aborted(("NoAnswer", 0)))

    def aborted_though_recorded(h):
        return tells(h, h.told("Committed"), 3, reply.Aborted(("NoAnswer", 0)))

    def recorded_without_a_vote(h):
        k = h.told("Aborted")
        h.put(k, 3, step.Wrote(record.Commit((1, 0), (0, 1, 1), ((0, 2, 2),))))
        return k

    def committed_though_doomed(h):
        k = h.told("Aborted")
        h.put(k, 4, step.Wrote(record.Commit((1, 1), (1, 1, 1), ())))
        return k

    def stranger_votes(h):
        k = h.sent("Prepare")
        h.end(k)
        h.change(k, to=2)
        h.steps += [[3, step.Lost(h.step(k).number)], [3, step.Told(reply.Aborted(("NoAnswer", 2)))]]
        return k + 2

    def unknown_without_a_fall(h):
        k = h.wrote("Commit")
        h.drop(k, h.told("Committed") - 1)
        return tells(h, k, 3, reply.Unknown())

    def committed_though_it_fell(h):
        k = h.wrote("Commit")
        pending = h.step(k).record
        h.drop(k, h.told("Committed") - 1)
        h.steps[k + 1:] = [[3, step.Fell("Disk", pending)]]
        return k, k + 1

    return (
        ("WrongVotes", "commits without their votes.", [
            ("votes_for_another", "The votes are for an earlier transaction.", SECOND, votes_for_another, "due",
             NOTHING),
            ("unvoted", "No participant is asked.", COMMIT, unvoted, "due", NOTHING),
            ("one_vote", "One of two participants is asked.", COMMIT, one_vote, "due", NOTHING),
            ("one_vote_open", "One of two participants hasn't voted.", COMMIT, one_vote_open, "due", NOTHING),
            ("recorded_without_a_vote", "The record is written though a vote is lost.", LOST_VOTE,
             recorded_without_a_vote, "due", "(Some (replies.Aborted (causes.NoAnswer 0)))"),
            ("no_answer_though_answered", "NoAnswer is told of a participant whose vote counted.", COMMIT,
             no_answer_though_answered, "due", COMMITTED),
            ("stranger_votes", "Aborted names a site that granted nothing.", COMMIT, stranger_votes, "due", NOTHING),
            ("committed_though_doomed", "A doomed transaction commits.", DOOMED, committed_though_doomed, "due",
             "(Some (replies.Aborted causes.Doomed))"),
        ]),
        ("WrongRecords", "commits without their record.", [
            ("record_before_the_votes", "The record is written before the votes are asked for.", COMMIT,
             record_before_the_votes, "due", NOTHING),
            ("record_missing", "Committed is told without a record.", COMMIT, record_missing, "record", RECORD),
            ("operation_left_out", "The record lacks the operation.", COMMIT, operation_left_out, "commit", RECORD),
            ("recorded_twice", "The record is written twice.", COMMIT, recorded_twice, "once", NOTHING),
            ("low_stamp", "The stamp isn't above a clock that counted.", WRITE_AFTER, low_stamp, "stamp",
             "(Some (replies.Committed (stamp 2 1)))"),
            ("aborted_though_recorded", "Aborted is told though the record stands.", COMMIT, aborted_though_recorded,
             "due", COMMITTED),
            ("unknown_without_a_fall", "Unknown is told though the client didn't fall.", COMMIT,
             unknown_without_a_fall, "due", COMMITTED),
            ("committed_though_it_fell", "Committed is told though the client falls as it writes its record.", COMMIT,
             committed_though_it_fell, "due", "(Some replies.Unknown)"),
        ]),
    )
