#!/usr/bin/env python3
"""Measures how declarations of nearly 4 MiB with the dearest certificates that
were found are accepted, from the text on, beside the plain walk of certificate_walk.rs.

usage: bench/certified.py [RUNS [FOLDER [PROGRAM..]]]

Makes a program of declaration_read.rt.in on a copy of the crates in a temporary
folder, proves and builds it with rt, and runs it on each text in turn RUNS times,
3 unless it is given: to accept it, and to refuse the same text without a start
triple, so that no certificate is walked. What is between is the time of
certificates. All are seconds of the processor. The plain walk over one type of the
drawn list tells how fast the machine was meanwhile. The texts stay in FOLDER, where
it is given, for `quorum check`, and so does the program, as `reader`. With programs
that were so made nothing is built, and all are run in turn. Ends with status 1 where
a text takes the last program more than MOST_SECONDS, or isn't accepted.

Each type has 64 states and 64 events, each legal in each state but in the first
leading on to another one, and depends on nothing. So an event is looked up twice at
each triple, left out and taken.
"""

import itertools
import os
import random
import shutil
import statistics
import sys
import tempfile

sys.dont_write_bytecode = True

import programs

USES = ("qc_cert", "qc_accept", "toml")
MOST_BYTES = 4_194_304
MOST_TYPES = 8
MOST_ALIKE = 1024
MOST_SECONDS = 2.0
EVENTS = 64

NAMES = "abcdefghijklmnopqrstuvwxyzABCDEFGHIJKLMNOPQRSTUVWXYZ0123456789_"
STATES = [*NAMES, "aa"]
TEXTS = ["%s:%s" % (NAMES[event // 2], NAMES[event % 2]) for event in range(EVENTS)]
START = "a a -"

# The event that alone covers, in lists where one set does.
LAST = EVENTS - 1


def looked_last(events):
    """Whether a search for this set looks at the part of the last event last: it
    begins at the event that the set's hash gives."""
    number = sum(1 << event for event in events)
    return (number * 0x9E3779B97F4A7C15 % 2**64 >> 32) % 64 <= min(events)


# A list is a step, from a state past 0 and an event to a state past 0, and groups:
# view, log, which of the sets are kept where a type is cut short, and the sets.
ALL, FIRST, ENDS = "all", "the first", "the first, and the last of all"


def two(_seed):
    """Two events each, in 1,024 groups of 32 by 32 states."""
    sets = [(LAST,), *((event, LAST) for event in range(LAST - 1))]
    groups = [(view, log, FIRST, sets) for view in range(1, 33) for log in range(1, 33)]
    random.Random(0).shuffle(groups)
    return (lambda state, event: 1 + (state + 7 * event) % 32), groups


def drawn(seed):
    """Four events each, drawn by chance, in 63 groups of 1,024."""
    chance, groups = random.Random(seed), []
    for log in range(1, 64):
        found = {(LAST,)}
        while len(found) < MOST_ALIKE:
            found.add((*sorted(chance.sample(range(LAST), 3)), LAST))
        groups.append((0, log, FIRST, sorted(found, key=len)))
    return (lambda state, event: 1 + (state + event % 62) % 63), groups


def own(seed):
    """Four of 14 events each, in 63 groups of 1,001. Each set alone covers itself."""
    sets = list(itertools.combinations(range(50, 64), 4))
    random.Random(seed).shuffle(sets)
    return (lambda state, event: 1 + (state + event % 62) % 63), [(0, log, FIRST, sets) for log in range(1, 64)]


def ten(seed):
    """Eight groups have each set of some of ten events, with an event apart. Those
    of the others have seven of the ten, another and the last. So all but one set of
    what is looked at are looked at in vain."""
    chance, tens, apart = random.Random(seed), range(53, 63), 52
    full = [(apart, *(e for e in tens if bits >> e - 53 & 1)) for bits in range(1, 1024)]
    chance.shuffle(full)
    asking = [(other, *seven, LAST) for seven in itertools.combinations(tens, 7) for other in range(apart)]
    chance.shuffle(asking)
    asking.sort(key=lambda events: not looked_last(events))
    groups = [(0, 9, ALL, [()]), *((0, log, ALL, [(LAST,), *full]) for log in range(1, 9))]
    groups += [(0, log, FIRST, asking[:MOST_ALIKE]) for log in range(10, 64)]
    return (lambda state, event: 9 if state < 9 else 0 if state == 9 else 1 + (state + event) % 8), groups


def on(state, event):
    """The next state, which is another one of 63: an event leads each to one of its own."""
    return 1 + (state + event % 62) % 63


def tens(seed):
    """The same, but what covers all comes last in each of the eight groups."""
    step, groups = ten(seed)
    return step, [(view, log, kept, [*sets[1:], sets[0]]) for view, log, kept, sets in groups]


def pairs(seed):
    """Two of 46 events each, in 63 groups of 1,024. Each set alone covers itself."""
    sets = list(itertools.combinations(range(18, 64), 2))[:MOST_ALIKE]
    random.Random(seed).shuffle(sets)
    return on, [(0, log, FIRST, sets) for log in range(1, 64)]


def three(seed):
    """Three of 20 events each, in 63 groups of 1,024. Each set alone covers itself."""
    sets = list(itertools.combinations(range(6, 64, 3), 3))
    random.Random(seed).shuffle(sets)
    return on, [(0, log, FIRST, sets[:MOST_ALIKE]) for log in range(1, 64)]


def six(seed):
    """Six of 13 events each, in 63 groups of 1,024. Each set alone covers itself."""
    sets = list(itertools.combinations(range(51, 64), 6))
    random.Random(seed).shuffle(sets)
    return on, [(0, log, FIRST, sets[:MOST_ALIKE]) for log in range(1, 64)]


def last(seed):
    """Three events each, in 63 groups of 1,024, of which the last set alone covers."""
    chance, groups = random.Random(seed), []
    for log in range(1, 64):
        sets = [(*pair, LAST) for pair in itertools.combinations(range(LAST), 2)]
        chance.shuffle(sets)
        groups.append((0, log, ENDS, [*sets[:MOST_ALIKE - 1], (LAST,)]))
    return on, groups


def ended(events, seed):
    """Such events and the last one, in 63 groups of 1,024, of which the last set alone covers."""
    chance, groups = random.Random(seed), []
    sets = [(*some, LAST) for some in events]
    for log in range(1, 64):
        chance.shuffle(sets)
        groups.append((0, log, ENDS, [*sets[:MOST_ALIKE - 1], (LAST,)]))
    return on, groups


def fours(seed):
    """Four of 21 events each, in 63 groups of 1,024, of which the last set alone covers."""
    return ended(itertools.combinations(range(3, 63, 3), 3), seed)


def walks(seed):
    """Four of 24 events each, likewise: the parts of five events are just short enough for a walk."""
    return ended(itertools.combinations(range(17, 63, 2), 3), seed)


def sevens(seed):
    """Seven of 14 events each, likewise."""
    return ended(itertools.combinations(range(2, 54, 4), 6), seed)


def apart(seed):
    """Five of 20 events each, drawn anew for each of 63 groups, of which ten sets of two
    events come last and alone cover, each a tenth: they cover in each group, also in a set's own."""
    chance, pairs, groups, found = random.Random(seed), [(e, e + 3) for e in range(4, 64, 6)], [], []
    for pair in pairs:
        for some in itertools.combinations([other for other in pairs if other != pair], 3):
            found += [(*pair, *(events[bits >> k & 1] for k, events in enumerate(some))) for bits in range(8)]
    for log in range(1, 64):
        groups.append((0, log, ALL, [*chance.sample(found, MOST_ALIKE - len(pairs)), *pairs]))
    return on, groups


def ones(seed):
    """One event each, 64 sets in each of 799 groups. All is looked up in 14 groups
    more, of 1,024 sets, of which the last 64 have one event each."""
    chance, full, single = random.Random(seed), [], [(event,) for event in range(EVENTS)]
    for view in range(1, 15):
        sets = list(itertools.combinations(range(EVENTS), 2))
        chance.shuffle(sets)
        full.append((view, 1, ALL, [*sets[:MOST_ALIKE - EVENTS - 1], *single, () if view == 1 else sets[-1]]))
    asking = [(view, log, FIRST, single) for view in range(2, 15) for log in range(2, 64)]
    return (lambda _state, _event: 1), [*full, *asking[:799]]


def asked_elsewhere(asking, covers, ballast, seed):
    """All is looked up in eight groups of up to 1,024 sets, of which the last ones cover. None of those who
    ask has such a set in its own group, so no hint leads there."""
    chance = random.Random(seed)
    for sets in (asking, ballast):
        chance.shuffle(sets)
    full = [*ballast[:MOST_ALIKE - len(covers)], *covers]
    groups = [(0, log, ALL, full) for log in range(1, 9)]
    groups += [(0, log, FIRST, asking[:MOST_ALIKE]) for log in range(9, 64)]
    return (lambda state, event: 1 + (state + event) % 8), groups


# Twenty events in each piece of four, and pairs of them, of which any three have one.
SPREAD = range(4, 64, 3)
HALVES = [pair for half in (SPREAD[:10], SPREAD[10:]) for pair in itertools.combinations(half, 2)]


def halves(seed):
    """Two of 46 events each ask; each event alone covers."""
    events = range(18, 64)
    return asked_elsewhere(
        list(itertools.combinations(events, 2)), [(e,) for e in events], list(itertools.combinations(events, 3)), seed)


def thirds(seed):
    """Three of 20 events each ask; two of them cover."""
    return asked_elsewhere(
        list(itertools.combinations(SPREAD, 3)), HALVES, list(itertools.combinations(SPREAD, 5)), seed)


def quarters(seed):
    """Four of 20 events each ask; two of them cover."""
    return asked_elsewhere(
        list(itertools.combinations(SPREAD, 4)), HALVES, list(itertools.combinations(SPREAD, 6)), seed)


def fifths(seed):
    """Five of 20 events each ask; two of them cover."""
    return asked_elsewhere(
        list(itertools.combinations(SPREAD, 5)), HALVES, list(itertools.combinations(SPREAD, 6)), seed)


def behind(seed):
    """Three of 20 events each ask, 47 groups of 1,024. With an event left out they are looked up in eight groups
    more, in which what covers has that event and two others; with one taken, in eight whose pairs cover."""
    chance, asking = random.Random(seed), list(itertools.combinations(SPREAD, 3))
    chance.shuffle(asking)
    ballast = list(itertools.combinations(SPREAD, 5))
    groups = []
    for log in range(2, 10):
        with_event = sorted({(*sorted({*pair, event}),) for pair in HALVES for event in range(log - 2, EVENTS, 8)})
        chance.shuffle(with_event)
        chance.shuffle(ballast)
        groups += [(0, log, ALL, [*ballast[:MOST_ALIKE - len(HALVES)], *HALVES]), (1, log, ALL, with_event)]
    groups += [(1, log, FIRST, asking[:MOST_ALIKE]) for log in range(10, 57)]
    return (lambda state, event: 0 if state == 1 else 2 + event % 8), groups


def some(count, events, seed):
    """Two of so many events each, in as many groups of so many sets as there may be."""
    side = int((65_535 / count) ** 0.5)
    sets = list(itertools.combinations(range(EVENTS - events, EVENTS), 2))[:count]
    random.Random(seed).shuffle(sets)
    groups = [(view, log, FIRST, sets) for log in range(1, 65) for view in range(1, side + 1)]
    return (lambda state, event: 1 + (state + 7 * event) % side), groups[: 65_535 // count]


def few(seed):
    """Two of 15 events each, 96 sets in each group: the most that get no table."""
    return some(96, 15, seed)


def more(seed):
    """The same with one set more, so that each group has a table."""
    return some(97, 15, seed)


def moved(seed):
    """Four of 14 events each, in 64 groups of 1,001, of eight views and eight logs. Each event leads the view and the
    log on to other ones, so that what is left out is looked up in other groups than what is taken."""
    sets = list(itertools.combinations(range(50, 64), 4))
    random.Random(seed).shuffle(sets)
    groups = [(view, log, FIRST, sets) for view in range(1, 9) for log in range(9, 17)]

    def step(state, event):
        first, by = (1, event % 7) if state < 9 else (9, event // 7 % 7)
        return first + (state - first + 1 + by) % 8

    return step, groups


LISTS = {
    "two": two, "drawn": drawn, "own": own, "ten": ten, "tens": tens, "pairs": pairs, "three": three, "six": six,
    "last": last, "apart": apart, "fours": fours, "walks": walks, "sevens": sevens, "ones": ones, "few": few,
    "more": more, "halves": halves, "thirds": thirds, "quarters": quarters, "fifths": fifths, "behind": behind,
    "moved": moved,
}


def texts(key, items):
    """A line of an array of texts."""
    return "%s = [%s]\n" % (key, ",".join('"%s"' % item for item in items))


def rows(step):
    """Each event in each state."""
    for state in range(64):
        for event in range(EVENTS):
            to = step(state, event) if state else 0
            yield "%s %s %s %s" % (STATES[state], NAMES[event // 2], NAMES[event % 2], STATES[to])


def cut(sets, kept, most):
    """The sets of a group, at most so many where it may be cut short."""
    if kept == ALL or len(sets) <= most:
        return sets
    return sets[:most] if kept == FIRST else [*sets[: most - 1], sets[-1]]


def triples(groups, most):
    """The triples, at most so many of a group that may be cut short."""
    yield START
    for view, log, kept, sets in groups:
        for events in cut(sets, kept, most):
            yield "%s %s %s" % (STATES[view], STATES[log], ",".join(TEXTS[e] for e in events) or "-")


def type_text(number, step, groups, most):
    """A type, with at most so many triples of a group."""
    return "[[type]]\n" + "".join((
        'name = "%s"\n' % NAMES[number],
        texts("states", STATES),
        'start = "%s"\n' % STATES[0],
        texts("invocations", NAMES[:32]),
        texts("responses", NAMES[:2]),
        texts("rows", rows(step)),
        texts("depends", []),
        texts("triples", triples(groups, most)),
    ))


def document(name):
    """The declaration of as many types of a list as fit, the last one cut short."""
    text = "sites = 1\nclients = 1\n"
    end = '[[object]]\nname = "x"\ntype = "a"\n[[epoch]]\nweights = [1]\n'
    end += texts("initial", ["x %s 1" % inv for inv in NAMES[:32]]) + texts("final", ["x %s 1" % e for e in TEXTS])
    for number in range(MOST_TYPES):
        step, groups = LISTS[name](number)
        left, low, high = MOST_BYTES - len(text) - len(end), 0, MOST_ALIKE
        if len(type_text(number, step, groups, 1)) > left:
            break
        while low < high:
            most = (low + high + 1) // 2
            fits = len(type_text(number, step, groups, most)) <= left
            low, high = (most, high) if fits else (low, most - 1)
        text += type_text(number, step, groups, low)
    return text + end


def write(folder, name):
    """Writes the text of a list and that without a start triple, and tells both paths."""
    text = document(name)
    paths = [os.path.join(folder, "%s%s.toml" % (name, end)) for end in ("", "_unstarted")]
    for path, content in zip(paths, (text, text.replace('"%s",' % START, "", 1))):
        with open(path, "w") as file:
            file.write(content)
    return paths


def main():
    runs = int(sys.argv[1]) if len(sys.argv) > 1 else 3
    with tempfile.TemporaryDirectory() as room:
        folder, readers = sys.argv[2] if len(sys.argv) > 2 else room, sys.argv[3:]
        if not readers:
            readers = [os.path.join(folder, "reader")]
            shutil.copy(programs.build(room, "reader", "declaration_read.rt.in", USES), readers[0])
        calls = {"walk": [programs.plain(room, "certificate_walk.rs"), "drawn"]}
        for name in LISTS:
            whole, unstarted = write(folder, name)
            for number, reader in enumerate(readers):
                calls[name, number] = [reader, "accept", whole]
            calls[name] = [readers[-1], "accept", unstarted]
        seen = programs.in_turn(calls, runs)
    found = {case: statistics.median(run[0] for run in seen[case]) for case in seen}
    good, numbers = True, range(len(readers))
    for name in LISTS:
        told = [seen[name, number][0][2] for number in numbers]
        good = good and found[name, numbers[-1]] <= MOST_SECONDS and "no start" in seen[name][0][2]
        good = good and all("accepted" in it for it in told)
        print("%-6s accepted in %s s, at most %.1f; its reading %.2f s" % (
            name, ", ".join("%.2f" % found[name, number] for number in numbers), MOST_SECONDS, found[name]))
    print("the plain walk over one type of the drawn list %.2f s" % found["walk"])
    sys.exit(0 if good else 1)


if __name__ == "__main__":
    main()
