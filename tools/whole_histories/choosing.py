"""Which random runs of the model become modules."""

import collections

from spelling import kind

INPUTS = ("Called", "Got", "Lost")
# (fewest steps, most steps, how many)
CHOSEN = ((20, 79, 12), (80, 179, 14), (180, 340, 14))
SEEDS = range(1, 1200)


def features(decl, history):
    """What is worth having in a history, as words."""
    found, waiting, most = set(), set(), 0
    for actor, x in history:
        name = kind(x)
        if name == "Told":
            q = x.reply
            name += " " + kind(q) + (" " + q.why[0] if kind(q) == "Aborted" else q.half if kind(q) == "Quorum" else "")
        elif name == "Sent":
            q = x.message
            name += " " + kind(q) + (" " + q.verdict[0] if kind(q) == "Decision" else "")
            name += " with lines" if getattr(q, "log", getattr(q, "view", ())) else ""
            name += " in a life" if getattr(q, "life", 0) and kind(q) != "Granted" else ""
        elif name == "Wrote":
            name += " " + kind(x.record)
        elif name == "Fell":
            name += " by %s" % x.cause + (" with " + kind(x.pending) if x.pending else "")
        elif name == "Rose":
            found.update("Rose with " + kind(r) for r in x.records)
        found.add(name)
        waiting = waiting | {actor} if name in INPUTS else waiting - {actor}
        most = max(most, len(waiting))
    found.add("%d inputs open at once" % most)
    found.add("%d types" % len(decl.kinds))
    found.add("%d objects" % len(decl.objects))
    found.add("%d sites" % decl.sites)
    return found


def of_this_stage(decl, script, history):
    """No actor falls, and nobody is asked for an epoch."""
    controls = [kind(c) for phase in script.phases for c in phase.controls]
    replies = [kind(x.reply) for actor, x in history if kind(x) == "Told"]
    return (set(controls) <= {"Cut", "Heal"} and "Down" not in replies
            and all(actor != decl.admin for actor, x in history)
            and all(kind(x) not in ("Fell", "Rose", "Armed", "Damaged") for actor, x in history))


def candidates(explore):
    for seed in SEEDS:
        found, _, _, run = explore.one(seed, "disk", "race" if seed % 3 == 0 else "calm", False)
        if found or run is None:
            continue
        decl, script, history = run.decl, run.still.script, run.still.history
        if of_this_stage(decl, script, history):
            yield seed, decl, script, history


def chosen_of(left, sizes):
    """Of these runs, so many of each size, always the one whose features are rarest among the ones before."""
    found, seen, out = [(c, features(c[1], c[3])) for c in left], collections.Counter(), []
    for fewest, most, count in sizes:
        for _ in range(count):
            fits = [c for c in found if fewest <= len(c[0][3]) <= most]
            best = max(fits, key=lambda c: (sum(1 / (1 + seen[f]) ** 2 for f in c[1]), -c[0][0]))
            found.remove(best)
            seen.update(best[1])
            out.append(best[0])
    return sorted(out, key=lambda c: len(c[3])), seen


def chosen(explore):
    return chosen_of(candidates(explore), CHOSEN)
