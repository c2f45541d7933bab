"""Which triples show a type's relation exact, and which plans are admitted, written once more apart from the program:
by docs/CERTIFICATES.md and docs/FORMATS.md. Types, epochs and objects are those of plain_declarations.
"""

from plain_refusals import Refused


def next_in(kind, state, event):
    """The state behind an event of this number, or None."""
    return kind.rows.get((state, *kind.events[event]))


def event_name(kind, event):
    inv, resp = kind.events[event]
    return "%s:%s" % (kind.invocations[inv], kind.responses[resp])


def faults_of(kind, is_covered, view, log, out):
    """What is wrong with a triple, in the order in which it is looked for: what is told, and the rule."""
    names = [event_name(kind, event) for event in range(len(kind.events))]
    for event, name in enumerate(names):
        after = next_in(kind, log, event)
        if after is not None and not is_covered(view, after, out | {event}):
            yield name + " left out isn't covered", "left out isn't covered"
    for inv, inv_name in enumerate(kind.invocations):
        if any((inv, event) in kind.depends for event in out):
            continue
        for resp, resp_name in enumerate(kind.responses):
            if ((view, inv, resp) in kind.rows) != ((log, inv, resp) in kind.rows):
                yield "%s %s differs" % (inv_name, resp_name), "differs"
        for event, name in enumerate(names):
            after = next_in(kind, view, event), next_in(kind, log, event)
            if kind.events[event][0] == inv and None not in after and not is_covered(*after, out):
                yield name + " taken isn't covered", "taken isn't covered"


def certify(kind):
    """Refuses a type whose triples don't show its relation exact."""
    sets = {}
    for view, log, out in kind.triples:
        sets.setdefault((view, log), []).append(out)

    def is_covered(view, log, out):
        return any(less <= out for less in sets.get((view, log), ()))

    if not is_covered(kind.start, kind.start, frozenset()):
        raise Refused("type %s: no start triple" % kind.name, "no start triple")
    for number, triple in enumerate(kind.triples):
        for what, rule in faults_of(kind, is_covered, *triple):
            raise Refused("type %s: triple %d: %s" % (kind.name, number, what), rule)


def admit(number, epoch, objects):
    """Refuses an epoch whose quorums don't meet where they have to."""
    weight = sum(epoch.weights)
    if weight == 0:
        raise Refused("epoch %d: no weight" % number, "no weight")
    for place, it in enumerate(objects):
        if any(at == place and need > weight for side in epoch[1:] for (at, _), need in side.items()):
            raise Refused("epoch %d: %s too heavy" % (number, it.name), "too heavy")
    for place, it in enumerate(objects):
        for inv, event in sorted(it.type.depends):
            if epoch.initial.get((place, inv), 0) + epoch.final.get((place, event), 0) <= weight:
                names = it.name, it.type.invocations[inv], event_name(it.type, event)
                raise Refused("epoch %d: %s %s can miss %s" % (number, *names), "can miss")
