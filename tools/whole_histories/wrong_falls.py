"""Wrong histories with falls: after a right beginning of the model's, a post that no lawful turn has, or records that
no journal gives back. A story is (name, what is wrong, which of the two, actor, the steps before, the wrong ones).
"""

import dataclasses

from spelling import kind

NEVER = "let never : ⊥ = cc in never"
# by what a due post and a wrong one are told apart where all their constructors are the same: due, wrong
PARTS = {"old_life": ("life_granted", 2, 1), "old_name": ("life_begun", 2, 1), "stamp_again": ("clock_written", 2, 1)}
RESTARTED = "link c0 s1 1 again|phase|c0 begin|c0 do x W1|phase|crash s1|restart s1|c0 commit"
UNKNOWN = "phase|stop c0 at 3|c0 begin|c0 do x W1|c0 commit|phase|restart c0|c0 begin|c1 begin|c1 do x R"
DOWN = "phase|stop c0 at 3|c0 begin|c0 do x W1|c0 commit|phase|c0 begin"
LOST = ("link c0 s0 3 drop|link c0 s1 3 drop|phase|c0 begin|c0 do x W1|c0 commit|phase|crash c0|restart c0|c1 begin|"
        "c1 do x R")
FAULT = "phase|fail s1 at 2|c0 begin|c0 do x W1|c0 commit"
KEPT = "phase|stop c0 at 3|c0 begin|c0 do x W1|c0 commit|phase|crash s0|restart s0|c2 begin|c2 do x R"
TWO = "phase|c0 begin|c0 do x W1|c0 commit|phase|crash c0|restart c0|c0 begin|c0 do x W0|c0 commit"


def find(history, name, nth=0, actor=None, test=lambda x: True):
    return [k for k, (a, x) in enumerate(history) if kind(x) == name and actor in (None, a) and test(x)][nth]


def sent(history, name, nth=0, actor=None):
    return find(history, "Sent", nth, actor, lambda x: kind(x.message) == name)


def told(history, name, nth=0, actor=None):
    return find(history, "Told", nth, actor, lambda x: kind(x.reply) == name)


def stories(run, step, msg, record, reply):
    """All of them; `run` makes the history of a script over `@three`."""
    out = []

    def post(name, says, history, k, wrong):
        """The actor at a place posts these steps there in place of its own."""
        out.append((name, says, "posts", history[k][0], history[:k], wrong))

    def rise(name, says, actor, history, wrong):
        out.append((name, says, "rises", actor, history, wrong))

    h = run(RESTARTED)
    k = sent(h, "Granted", 1, actor=1)
    x = h[k][1]
    post("old_life", "A site that rose grants in its old life.", h, k,
         [dataclasses.replace(x, message=dataclasses.replace(x.message, life=1))])
    k = sent(h, "Restarted")
    x = h[k][1]
    post("old_grant", "A site that rose votes for what it granted before.", h, k,
         [record_yes(h, step, msg), dataclasses.replace(x, message=msg.Yes(x.message.to, 0))])
    post("old_grant_unwritten", "It votes for it and writes nothing.", h, k,
         [dataclasses.replace(x, message=msg.Yes(x.message.to, 0))])

    h = run(KEPT)
    rose = find(h, "Rose", actor=0)
    life, inquiry = h[rose + 1][1], h[rose + 2][1]
    assert kind(life) == "Wrote" and kind(inquiry.message) == "Inquiry"
    post("nothing_asked", "A site rises with a promise and asks nobody about it.", h, rose + 1, [life])
    post("no_life", "A site rises and writes no Life.", h, rose + 1, [inquiry])
    post("asked_unwritten", "A site that rises asks, though its Life isn't written.", h, rose + 1,
         [inquiry, step.Fell("Disk", life.record)])
    k = sent(h, "Clash", actor=0)
    x = h[k][1]
    post("promise_dropped", "A site that rose grants what its promise holds.", h, k,
         [dataclasses.replace(x, message=msg.Granted(x.message.to, 2, 0, ()))])

    h = run(FAULT)
    k = sent(h, "Fault")
    x, fall = h[k][1], h[k + 1][1]
    post("fault_alone", "A site says that it can't write its promise, and doesn't fall.", h, k, [x])
    post("voted_unwritten", "A site votes, and falls as it writes the promise.", h, k,
         [dataclasses.replace(x, message=msg.Yes(x.message.to, 0)), fall])

    h = run(UNKNOWN)
    k = told(h, "Unknown")
    x, fall = h[k][1], h[k + 1][1]
    post("unknown_alone", "A client is told Unknown, and doesn't fall.", h, k, [x])
    post("committed_unwritten", "A client is told Committed, and falls as it writes the record.", h, k,
         [step.Told(reply.Committed((1, 0))), fall])
    post("old_name", "A client that rose begins a transaction of its old life.", h, told(h, "Began", 1, actor=3),
         [step.Told(reply.Began((0, 1, 1)))])
    k = sent(h, "Decision", actor=3)
    x = h[k][1]
    post("decided_without_record", "A client whose record didn't stay decides that its transaction committed.", h, k,
         [dataclasses.replace(x, message=msg.Decision(x.message.tx, ("Committed", (1, 0))))])
    rose = find(h, "Rose", actor=3)
    given_up = h[:rose + 2] + [(3, step.Fell("Script", None))]
    rise("late_record", "A record that its rise before didn't give back comes at the next one.", 3, given_up,
         [record.Life(), fall.pending])

    h = run(LOST)
    k = sent(h, "Decision", 2, actor=3)
    x = h[k][1]
    post("decided_against_record", "A client whose record stayed decides that its transaction aborted.", h, k,
         [dataclasses.replace(x, message=msg.Decision(x.message.tx, ("Aborted",)))])
    rose = find(h, "Rose", actor=3)
    written = h[rose][1].records[0]
    rise("record_lost", "A client rises without the record that it wrote.", 3, h[:rose], [])
    rise("record_more", "A client rises with a record that it never wrote.", 3, h[:rose], [written, written])

    h = run(DOWN)
    post("begun_while_down", "A client that is down begins a transaction.", h, told(h, "Down"),
         [step.Told(reply.Began((0, 2, 1)))])

    h = run(TWO)
    k = find(h, "Wrote", actor=3, nth=2)
    again = dataclasses.replace(h[k][1].record, stamp=(1, 0))
    decisions = [dataclasses.replace(x, message=dataclasses.replace(x.message, verdict=("Committed", (1, 0))))
                 for _, x in h[k + 1:] if kind(x) == "Sent" and kind(x.message) == "Decision"][:2]
    post("stamp_again", "A client rises with a clock below its records, and takes a stamp again.", h, k,
         [step.Wrote(again), *decisions, step.Told(reply.Committed((1, 0)))])
    return out


def record_yes(h, step, msg):
    """The promise that the other site wrote."""
    return next(x for a, x in h if kind(x) == "Wrote" and kind(x.record) == "Prepare")
