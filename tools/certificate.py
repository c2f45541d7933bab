#!/usr/bin/env python3
"""Finds the certificate of a dependency relation that is given, or why there is none.

usage: tools/certificate.py DECL [--needed]

It finds no relation by itself: which invocation depends on which events is the
designer's to say, in `depends`. DECL is a declaration's file. Its triples aren't
read: of each type it prints those that follow from the rows and the dependences, in
the form that a declaration has them in. Where an invocation answers otherwise from a
view than from the whole log it prints both, and ends with status 1: the relation
isn't exact then, and no triples help. A dependence has to be added.

A file that it can't use is told in a sentence: status 2. Whether a declaration is
right in all else is for `./quorum check` to say, which tells each fault by its path.

With --needed it prints for each dependence whether the relation is exact without
it, and if not a log and the part of it that a view then has.

The search begins at the start, with nothing left out, and goes on from each triple
by each event that the view leaves out or that both take, as docs/CERTIFICATES.md
tells. Of triples with the same two states those stay that leave out least.
"""

import sys
import tomllib


class Wrong(Exception):
    """What is wrong with a file, in words."""


class Type:
    """The rows of a type by state and invocation, its events and its dependences."""

    def __init__(self, table):
        self.name, self.start = text_of(table, "name"), text_of(table, "start")
        self.rows, self.events = {}, []
        for state, inv, resp, after in self.texts(table, "rows", 4):
            event = inv + ":" + resp
            self.rows.setdefault((state, inv), {})[event] = after
            if event not in self.events:
                self.events.append(event)
        self.invocations = list_of(table, "invocations")
        self.depends = [tuple(words) for words in self.texts(table, "depends", 2)]
        for inv, event in self.depends:
            if inv not in self.invocations or event not in self.events:
                raise Wrong("%s: no row has what `%s %s` in `depends` names" % (self.name, inv, event))

    def texts(self, table, key, count):
        """The words of each text of a list."""
        for item in list_of(table, key):
            if len(item.split(" ")) != count:
                raise Wrong("%s: `%s` in `%s` hasn't %d words" % (self.name, item, key, count))
            yield item.split(" ")

    def step(self, state, event):
        """The state behind an event, or None where it isn't legal."""
        return self.rows.get((state, event.split(":")[0]), {}).get(event)

    def allowed(self, state, inv):
        """The events of an invocation that a state allows."""
        return set(self.rows.get((state, inv), {}))


class Search:
    """The triples found so far: of each two states the least sets left out, each with the way there."""

    def __init__(self, type_, depends):
        self.type, self.found, self.todo = type_, {}, []
        self.needs = {inv: {e for i, e in depends if i == inv} for inv in type_.invocations}
        self.wrong = None
        self.add((type_.start, type_.start), frozenset(), ())
        while self.todo and self.wrong is None:
            self.go_on(*self.todo.pop(0))

    def add(self, states, out, way):
        """A triple, unless one covers it."""
        known = self.found.setdefault(states, [])
        if not any(other <= out for other in known):
            known[:] = [other for other in known if not out <= other] + [out]
            self.todo.append((states, out, way))

    def go_on(self, states, out, way):
        """What a triple becomes by one event more."""
        view, log = states
        if out not in self.found[states]:
            return
        for event in self.type.events:
            after = self.type.step(log, event)
            if after is not None:
                self.add((view, after), out | {event}, way + ((event, False),))
        for inv in self.type.invocations:
            if not self.needs[inv] & out:
                self.answer(inv, states, out, way)

    def answer(self, inv, states, out, way):
        """An invocation that may answer from this view."""
        seen, whole = (self.type.allowed(state, inv) for state in states)
        if seen != whole:
            self.wrong = self.wrong or (inv, seen, whole, way)
            return
        for event in sorted(seen, key=self.type.events.index):
            after = tuple(self.type.step(state, event) for state in states)
            self.add(after, out, way + ((event, True),))

    def triples(self):
        """The triples as texts, in the order in which their states were found."""
        return [
            "%s %s %s" % (*states, ",".join(sorted(out, key=self.type.events.index)) or "-")
            for states, sets in self.found.items()
            for out in sets
        ]


def told(wrong):
    """What goes wrong, in words."""
    inv, seen, whole, way = wrong
    log = ", ".join(event for event, _ in way) or "nothing"
    view = ", ".join(event for event, taken in way if taken) or "nothing"
    answers = [", ".join(sorted(events)) or "none" for events in (seen, whole)]
    return "%s from the view %s answers %s; after the log %s it answers %s" % (inv, view, answers[0], log, answers[1])


def show(type_):
    """Prints the triples of a type, or what goes wrong; whether the relation is exact."""
    search = Search(type_, type_.depends)
    if search.wrong:
        print("%s: %s" % (type_.name, told(search.wrong)))
        return False
    print("%s: %d triples" % (type_.name, len(search.triples())))
    for triple in search.triples():
        print('    "%s",' % triple)
    return True


def show_needed(type_):
    """Prints for each dependence whether the type's relation is exact without it."""
    for pair in type_.depends:
        search = Search(type_, [other for other in type_.depends if other != pair])
        print("%s without %s %s: %s" % (type_.name, *pair, told(search.wrong) if search.wrong else "exact"))
    return True


# Reading a declaration.


def text_of(table, key):
    if not isinstance(table.get(key), str):
        raise Wrong("a type has no text `%s`" % key)
    return table[key]


def list_of(table, key):
    """A list of texts; `depends` may be missing."""
    found = table.get(key, [] if key == "depends" else None)
    if not isinstance(found, list) or not all(isinstance(item, str) for item in found):
        raise Wrong("a type has no list of texts `%s`" % key)
    return found


def types_in(name):
    """The types of a declaration's file."""
    try:
        with open(name, "rb") as file:
            tables = tomllib.load(file).get("type")
    except OSError as fault:
        raise Wrong("the file can't be read: %s" % fault.strerror)
    except (tomllib.TOMLDecodeError, UnicodeDecodeError, RecursionError) as fault:
        raise Wrong("the file isn't TOML: %s" % fault)
    if not isinstance(tables, list) or not tables or not all(isinstance(table, dict) for table in tables):
        raise Wrong("the file has no tables `[[type]]`")
    return [Type(table) for table in tables]


def main(words):
    show_one = {(): show, ("--needed",): show_needed}.get(tuple(words[1:]))
    if "--help" in words or "-h" in words:
        print(__doc__)
        return 0
    if not words or words[0].startswith("-") or show_one is None:
        print(__doc__, file=sys.stderr)
        return 2
    try:
        types = types_in(words[0])
    except Wrong as wrong:
        print("%s: %s" % (words[0], wrong), file=sys.stderr)
        return 2
    return 0 if all([show_one(type_) for type_ in types]) else 1


if __name__ == "__main__":
    sys.exit(main(sys.argv[1:]))
