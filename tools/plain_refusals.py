"""Which refusals of declarations there are, by docs/DIAGNOSTICS.md: each path of a field with each rule that it may
break, and all other faults. Each is told with the rule, so that it can be said which never came.
"""

import re

NAMES = "missing", "no array", "count", "no text", "no name", "twice"
WHOLE = "missing", "no whole number", "range"
TABLES = "missing", "no array", "count"
BROKEN = {
    "sites": WHOLE,
    "clients": WHOLE,
    "type": TABLES,
    "type[]": ("no table",),
    "type[].name": ("missing", "no text", "no name", "twice"),
    "type[].states": NAMES,
    "type[].start": ("missing", "no text", "no state"),
    "type[].invocations": NAMES,
    "type[].responses": NAMES,
    "type[].rows": ("missing", "no array", "count", "no text", "words", "no name"),
    "type[].depends": ("no array", "no text", "words", "no invocation", "no event"),
    "type[].triples": ("no array", "count", "no text", "words", "no state", "no event", "twice", "alike"),
    "type[].*": ("unknown key",),
    "object": TABLES,
    "object[]": ("no table",),
    "object[].name": ("missing", "no text", "no name", "twice"),
    "object[].type": ("missing", "no text", "no type"),
    "object[].*": ("unknown key",),
    "epoch": TABLES,
    "epoch[]": ("no table",),
    "epoch[].weights": ("missing", "no array", "count", "no whole number", "range"),
    "epoch[].initial": ("no array", "no text", "words", "no object", "no invocation", "no number", "twice"),
    "epoch[].final": ("no array", "no text", "words", "no object", "no event", "no number", "twice"),
    "epoch[].*": ("unknown key",),
    "*": ("unknown key",),
}
GROUPED = {
    "not toml": ("no UTF-8", "not TOML", "a whole number past 64 bits", "a float past all"),
    "table": ("row: unknown name", "row: repeated", "too many events"),
    "certificate": ("no start triple", "left out isn't covered", "taken isn't covered", "differs"),
    "plan": ("no weight", "too heavy", "can miss"),
}
# The group of each rule that isn't a field's.
GROUPS = {rule: group for group, rules in GROUPED.items() for rule in rules}
RULES = tuple(GROUPS) + tuple("%s: %s" % (path, why) for path, whys in BROKEN.items() for why in whys)


class Refused(Exception):
    """The text of a refusal, and the rule that was broken."""

    def __init__(self, text, rule):
        assert rule in RULES, rule
        super().__init__(rule)
        self.text, self.rule = ("quorum: declaration: %s\n" % text).encode(), rule


def rule_of(path, why):
    """A rule of a field, whatever its place."""
    return "%s: %s" % (re.sub(r"\[[0-9]+\]", "[]", path), why)


def field(path, why):
    """What is told of a field that isn't as it has to be."""
    return Refused("field " + path, rule_of(path, why))


def unknown_key(path, key):
    """What is told of a key that no table has under this path."""
    return Refused("field " + path + key, rule_of(path + "*", "unknown key"))
