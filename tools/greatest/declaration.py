"""The greatest declaration: each count at its limit, but for rows, of which 64 states and 64 events have fewer."""

from texts import CLIENTS, OBJECTS, SITES, filled, long_name

TYPES = EPOCHS = 8
WEIGHT = 255
STATES, INVOCATIONS = 64, 32
TRIPLES, ALIKE = 65536, 1024
BYTES = 4 << 20


class Type:
    """A register of 64 values. Each invocation has two responses: in every state both, or one by the state."""

    def __init__(self, number):
        self.name, self.chooses = long_name("type", number), number % 2 == 0

    def legal(self, state, inv):
        """The responses of an invocation, and the state behind each."""
        kinds = (0, 1) if self.chooses else (state % 2,)
        return {(inv + kind) % INVOCATIONS: 2 * inv + 1 - kind for kind in kinds}

    def first(self, state, inv):
        """The response that is told, the lowest of those that are legal, and the state behind it."""
        return min(self.legal(state, inv).items())

    def rows(self):
        pairs = [(state, inv) for state in range(STATES) for inv in range(INVOCATIONS)]
        return ["s%d i%d r%d s%d" % (*pair, *after) for pair in pairs for after in self.legal(*pair).items()]

    def events(self):
        """Each event with the state that it leads to, from whatever state."""
        answers = [self.legal(state, inv).items() for state in (0, 1) for inv in range(INVOCATIONS)]
        invocations = [inv for _ in (0, 1) for inv in range(INVOCATIONS)]
        return {"i%d:r%d" % (inv, r): after for inv, pairs in zip(invocations, answers) for r, after in pairs}

    def depends(self):
        return ["i%d %s" % (inv, event) for inv in range(INVOCATIONS) for event in self.events()]

    def triples(self):
        """What a view lacks: nothing, or the last event at least."""
        same = ["s%d s%d -" % (state, state) for state in range(STATES)]
        lacks = [(state, event) for state in range(STATES) for event in self.events().items()]
        return same + ["s%d s%d %s" % (state, after, event) for state, (event, after) in lacks if state != after]


def array(name, texts):
    return "%s = [%s]\n" % (name, ",".join('"%s"' % text for text in texts))


def numbered(letter, count):
    return ["%s%d" % (letter, number) for number in range(count)]


def type_text(number):
    """A type's table; the first type has the most triples, which repeat one another."""
    type_ = Type(number)
    triples = type_.triples()
    if number == 0:
        more = TRIPLES - len(triples) - (ALIKE - 1)
        triples += triples[:1] * (ALIKE - 1) + (triples[1:] * TRIPLES)[:more]
    return '[[type]]\nname = "%s"\nstart = "s0"\n' % type_.name + "".join([
        array("states", numbered("s", STATES)),
        array("invocations", numbered("i", INVOCATIONS)),
        array("responses", numbered("r", INVOCATIONS)),
        array("rows", type_.rows()),
        array("depends", type_.depends()),
        array("triples", triples),
    ])


def epoch_text():
    """An epoch in which every operation asks all sites."""
    total = SITES * WEIGHT
    names = [(long_name("object", number), Type(number % TYPES)) for number in range(OBJECTS)]
    initial = ["%s i%d %d" % (name, inv, total) for name, _ in names for inv in range(INVOCATIONS)]
    final = ["%s %s %d" % (name, event, total) for name, type_ in names for event in type_.events()]
    weights = "weights = %s\n" % ([WEIGHT] * SITES)
    return "[[epoch]]\n" + weights + array("initial", initial) + array("final", final)


def declaration():
    """The text, filled up with a remark."""
    objects = [(long_name("object", number), long_name("type", number % TYPES)) for number in range(OBJECTS)]
    parts = ["sites = %d\nclients = %d\n" % (SITES, CLIENTS)]
    parts += [type_text(number) for number in range(TYPES)]
    parts += ['[[object]]\nname = "%s"\ntype = "%s"\n' % pair for pair in objects]
    parts += [epoch_text()] * EPOCHS
    return filled("".join(parts), BYTES)
