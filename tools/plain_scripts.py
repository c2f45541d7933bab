"""The first line that is refused of the script that bytes spell, written once more apart from the program: by
docs/FORMATS.md and docs/DIAGNOSTICS.md, and where these leave something open by `qc_script/specs/`.
"""

import re

NUMBER = re.compile(rb"[0-9]{1,5}")
ACTOR = re.compile(rb"([sc])(0|[1-9][0-9]{0,4})")
CLIENT = re.compile(rb"c(0|[1-9][0-9]{0,4})")
RULES = b"drop", b"twice", b"late", b"again"
ALONE = b"begin", b"commit", b"abort"
WORDS, NAME, NUMBERS, PLACE = "words", "name", "number", "place"
KINDS = WORDS, NAME, NUMBERS, PLACE

# Which of the four a line of which form is refused as; the words of no form have none.
FORMS = {
    "link": (NAME, NUMBERS, PLACE),
    "cut": (NAME, NUMBERS, PLACE),
    "heal": (NAME, NUMBERS, PLACE),
    "crash": (NAME, PLACE),
    "restart": (NAME, PLACE),
    "stop": (NAME, NUMBERS, PLACE),
    "fail": (NAME, NUMBERS, PLACE),
    "begin": (NAME, PLACE),
    "do": (NAME, PLACE),
    "commit": (NAME, PLACE),
    "abort": (NAME, PLACE),
    "epoch": (NUMBERS, PLACE),
}
REFUSALS = (WORDS,) + tuple("%s: %s" % (kind, form) for form, kinds in FORMS.items() for kind in kinds)


class Refused(Exception):
    """The first line that is refused, from 1, why, and of which form it is."""

    def __init__(self, line, kind, form):
        rule = kind if kind == WORDS else "%s: %s" % (kind, form)
        assert rule in REFUSALS, rule
        super().__init__(rule)
        self.text, self.rule = b"quorum: script: line %d: %s\n" % (line, kind.encode()), rule


class Names:
    """What a declaration has that a script may name."""

    def __init__(self, sites, clients, objects, epochs):
        self.sites, self.clients, self.objects, self.epochs = sites, clients, objects, epochs

    def has(self, actor):
        """Whether the actor is declared."""
        if actor == b"admin":
            return True
        return int(actor[1:]) < (self.sites if actor[:1] == b"s" else self.clients)

    def has_invocation(self, name, inv):
        return inv in self.objects.get(name, ())


# The declaration `@three`.
THREE = Names(3, 3, {b"x": (b"R", b"W0", b"W1")}, 1)


def names_of(decl):
    """What there is to name of an accepted declaration of plain_declarations."""
    objects = {it.name.encode(): [inv.encode() for inv in it.type.invocations] for it in decl.objects}
    return Names(decl.sites, decl.clients, objects, len(decl.epochs))


# Forms. A line is its form, the actors that it names, the numbers that have to be in a range, and an object with an
# invocation; or None.


def is_actor(word):
    return word == b"admin" or bool(ACTOR.fullmatch(word))


def is_number(word):
    return bool(NUMBER.fullmatch(word))


def link(words):
    if len(words) != 4 or words[3] not in RULES:
        return None
    ends, ordinal = [word for word in words[:2] if word != b"*"], words[2]
    if not all(map(is_actor, ends)) or ordinal != b"*" and not is_number(ordinal):
        return None
    return "link", ends, [] if ordinal == b"*" else [int(ordinal)], None


def pair(first, words):
    return (first, words, [], None) if len(words) == 2 and all(map(is_actor, words)) else None


def single(first, words):
    return (first, words, [], None) if len(words) == 1 and is_actor(words[0]) else None


def armed(first, words):
    if len(words) != 3 or not is_actor(words[0]) or words[1] != b"at" or not is_number(words[2]):
        return None
    return first, words[:1], [int(words[2])], None


def epoch(words):
    if len(words) != 2 or words[0] != b"epoch" or not is_number(words[1]):
        return None
    return "epoch", [], [int(words[1])], None


def command(first, words):
    if not CLIENT.fullmatch(first):
        return None
    if len(words) == 1 and words[0] in ALONE:
        return words[0].decode(), [first], [], None
    if len(words) == 3 and words[0] == b"do" and words[1] and words[2]:
        return "do", [first], [], (words[1], words[2])
    return None


def form_of(line):
    first, *words = line.split(b" ")
    if first == b"phase":
        return None if words else ("phase", [], [], None)
    if first == b"link":
        return link(words)
    if first in (b"cut", b"heal"):
        return pair(first.decode(), words)
    if first in (b"crash", b"restart"):
        return single(first.decode(), words)
    if first in (b"stop", b"fail"):
        return armed(first.decode(), words)
    return epoch(words) if first == b"admin" else command(first, words)


# Scripts.


def is_in_range(names, form, actors, numbers):
    if form in ("cut", "heal"):
        return actors[0] != actors[1]
    least, most = (2, names.epochs) if form == "epoch" else (1, 99_999)
    return all(least <= number <= most for number in numbers)


class Place:
    """Where in a script the next line stands."""

    def __init__(self):
        self.in_phase = self.behind_command = False

    def takes(self, form):
        """Whether a line of this form may stand here; the next one then stands behind it."""
        if form == "phase":
            self.in_phase, self.behind_command = True, False
            return True
        if form == "link":
            return not self.in_phase
        if form in ("begin", "do", "commit", "abort", "epoch"):
            self.behind_command = True
            return self.in_phase
        return self.in_phase and not self.behind_command


def why_refused(names, place, line):
    """Why a line that isn't skipped is refused, and its form; or None."""
    found = form_of(line)
    if found is None:
        return WORDS, None
    form, actors, numbers, asked = found
    if not all(map(names.has, actors)) or asked and not names.has_invocation(*asked):
        return NAME, form
    if not is_in_range(names, form, actors, numbers):
        return NUMBERS, form
    return None if place.takes(form) else (PLACE, form)


def read(names, data):
    """Raises `Refused` where a line is."""
    place = Place()
    for number, line in enumerate(data.split(b"\n"), 1):
        line = line.removesuffix(b"\r")
        why = why_refused(names, place, line) if line and not line.startswith(b"#") else None
        if why:
            raise Refused(number, *why)
