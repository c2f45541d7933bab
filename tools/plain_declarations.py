"""The declaration that bytes spell, or why it is refused, written once more apart from the program: by docs/FORMATS.md,
docs/DIAGNOSTICS.md and docs/CERTIFICATES.md, and where these leave something open by `qc_accept/specs/`. What is TOML
is what `tomllib` takes, which is TOML 1.0; of where the kit's reader takes more or less, `loaded` knows the byte order
mark, and numbers that are too large.
"""

import math
import re
import tomllib
from collections import namedtuple

from plain_certificates import admit, certify
from plain_refusals import Refused, field, unknown_key

SITES, CLIENTS, TYPES, OBJECTS, EPOCHS = 16, 16, 8, 16, 8
STATES, INVOCATIONS, RESPONSES, EVENTS = 64, 32, 32, 64
ROWS, TRIPLES, ALIKE = 131_072, 65_536, 1_024
WEIGHT, THRESHOLD = 255, 65_535
NAME = re.compile("[A-Za-z0-9_]{1,32}")
NUMBER = re.compile("[0-9]{1,5}")

TOP_KEYS = "sites", "clients", "type", "object", "epoch"
TYPE_KEYS = "name", "states", "start", "invocations", "responses", "rows", "depends", "triples"
OBJECT_KEYS = "name", "type"
EPOCH_KEYS = "weights", "initial", "final"

Type = namedtuple("Type", "name states start invocations responses rows events depends triples")
Object = namedtuple("Object", "name type")
Epoch = namedtuple("Epoch", "weights initial final")
Declaration = namedtuple("Declaration", "sites clients types objects epochs")


# Documents.


def real(text):
    """A float. One that is too large isn't TOML to the kit's reader, and `inf` is."""
    value = float(text)
    if math.isinf(value) and "inf" not in text:
        raise Refused("not toml", "a float past all")
    return value


def are_small(value):
    """Whether all whole numbers have 64 bits."""
    if isinstance(value, (dict, list)):
        return all(map(are_small, value.values() if isinstance(value, dict) else value))
    return not isinstance(value, int) or -(2**63) <= value < 2**63


def loaded(data):
    """The document: UTF-8 that is TOML, with or without a byte order mark."""
    try:
        table = tomllib.loads(data.decode().removeprefix("\ufeff"), parse_float=real)
    except UnicodeDecodeError:
        raise Refused("not toml", "no UTF-8") from None
    except tomllib.TOMLDecodeError:
        raise Refused("not toml", "not TOML") from None
    if not are_small(table):
        raise Refused("not toml", "a whole number past 64 bits")
    return table


# Fields. A path is that of the table, and a key or nothing.


def required(table, path, key):
    if key not in table:
        raise field(path + key, "missing")
    return table[key]


def array(value, path, least, most):
    if not isinstance(value, list):
        raise field(path, "no array")
    if not least <= len(value) <= most:
        raise field(path, "count")
    return value


def optional(table, path, key):
    return array(table.get(key, []), path + key, 0, math.inf)


def whole(value, path, least, most):
    if not isinstance(value, int) or isinstance(value, bool):
        raise field(path, "no whole number")
    if not least <= value <= most:
        raise field(path, "range")
    return value


def text(value, path):
    if not isinstance(value, str):
        raise field(path, "no text")
    return value


def new_name(value, path, names):
    """A name that isn't among these."""
    if not NAME.fullmatch(text(value, path)):
        raise field(path, "no name")
    if value in names:
        raise field(path, "twice")
    return value


def names_in(table, path, key, most):
    names = []
    for value in array(required(table, path, key), path + key, 1, most):
        names.append(new_name(value, path + key, names))
    return names


def words(value, path, count):
    """So many words, one space between two."""
    found = text(value, path).split(" ")
    if len(found) != count:
        raise field(path, "words")
    return found


def among(value, known, path, why):
    """The number of what is one of these."""
    if value not in known:
        raise field(path, why)
    return known.index(value)


def no_others(table, path, keys):
    others = sorted((key for key in table if key not in keys), key=str.encode)
    if others:
        raise unknown_key(path, others[0])


def table_at(value, path):
    if not isinstance(value, dict):
        raise field(path, "no table")
    return value


# Types. An event is a pair of numbers, and a set of events has their numbers.


def row_in(value, path, kinds):
    """A row by its numbers; one that no name has is None."""
    found = words(value, path, 4)
    if not all(map(NAME.fullmatch, found)):
        raise field(path, "no name")
    return [names.index(word) if word in names else None for word, names in zip(found, kinds)]


def rows_in(values, path, name, kinds):
    """The rows as a table: by state, invocation and response, where each leads to."""
    rows = [row_in(value, path, kinds) for value in values]
    for number, row in enumerate(rows):
        if None in row:
            raise Refused("type %s: row %d: unknown name" % (name, number), "row: unknown name")
    table = {}
    for number, (*case, then) in enumerate(rows):
        if tuple(case) in table:
            raise Refused("type %s: row %d: repeated" % (name, number), "row: repeated")
        table[tuple(case)] = then
    return table


def event_in(value, path, names, events):
    """The number of an event of a row, `INV:RESP`."""
    return among(value, ["%s:%s" % (names[0][inv], names[1][resp]) for inv, resp in events], path, "no event")


def events_in(value, path, names, events):
    """OUT: `-`, or distinct events."""
    found = [] if value == "-" else [event_in(part, path, names, events) for part in value.split(",")]
    if len(set(found)) < len(found):
        raise field(path, "twice")
    return frozenset(found)


def triple_in(value, path, states, names, events):
    view, log, out = words(value, path, 3)
    pair = among(view, states, path, "no state"), among(log, states, path, "no state")
    return *pair, events_in(out, path, names, events)


def triples_in(values, path, states, names, events):
    triples = [triple_in(value, path, states, names, events) for value in array(values, path, 0, TRIPLES)]
    alike = {}
    for view, log, _ in triples:
        alike[view, log] = alike.get((view, log), 0) + 1
    if any(count > ALIKE for count in alike.values()):
        raise field(path, "alike")
    return triples


def dependence_in(value, path, names, events):
    inv, event = words(value, path, 2)
    return among(inv, names[0], path, "no invocation"), event_in(event, path, names, events)


def type_in(value, place, before):
    path = "type[%d]" % place
    table, path = table_at(value, path), path + "."
    name = new_name(required(table, path, "name"), path + "name", before)
    states = names_in(table, path, "states", STATES)
    start = among(text(required(table, path, "start"), path + "start"), states, path + "start", "no state")
    names = names_in(table, path, "invocations", INVOCATIONS), names_in(table, path, "responses", RESPONSES)
    listed = array(required(table, path, "rows"), path + "rows", 0, ROWS)
    rows = rows_in(listed, path + "rows", name, (states, *names, states))
    events = list(dict.fromkeys((inv, resp) for _, inv, resp in rows))
    if len(events) > EVENTS:
        raise Refused("type %s: too many events" % name, "too many events")
    pairs = optional(table, path, "depends")
    depends = {dependence_in(value, path + "depends", names, events) for value in pairs}
    triples = triples_in(optional(table, path, "triples"), path + "triples", states, names, events)
    no_others(table, path, TYPE_KEYS)
    return Type(name, states, start, *names, rows, events, depends, triples)


# Objects, epochs and declarations.


def object_in(value, place, before, types):
    path = "object[%d]" % place
    table, path = table_at(value, path), path + "."
    name = new_name(required(table, path, "name"), path + "name", before)
    kind = text(required(table, path, "type"), path + "type")
    found = among(kind, [it.name for it in types], path + "type", "no type")
    no_others(table, path, OBJECT_KEYS)
    return Object(name, types[found])


def thresholds_in(table, path, key, objects):
    """By object and place, its threshold; 0 where none is listed."""
    found, path_in = {}, path + key
    for value in optional(table, path, key):
        name, what, number = words(value, path_in, 3)
        place = among(name, [it.name for it in objects], path_in, "no object")
        kind = objects[place].type
        if key == "initial":
            where = among(what, kind.invocations, path_in, "no invocation")
        else:
            where = event_in(what, path_in, (kind.invocations, kind.responses), kind.events)
        if not NUMBER.fullmatch(number) or int(number) > THRESHOLD:
            raise field(path_in, "no number")
        if (place, where) in found:
            raise field(path_in, "twice")
        found[place, where] = int(number)
    return found


def epoch_in(value, place, sites, objects):
    path = "epoch[%d]" % place
    table, path = table_at(value, path), path + "."
    weights = array(required(table, path, "weights"), path + "weights", sites, sites)
    weights = [whole(weight, path + "weights", 0, WEIGHT) for weight in weights]
    initial, final = (thresholds_in(table, path, key, objects) for key in ("initial", "final"))
    no_others(table, path, EPOCH_KEYS)
    return Epoch(weights, initial, final)


def fields_of(table):
    sites = whole(required(table, "", "sites"), "sites", 1, SITES)
    clients = whole(required(table, "", "clients"), "clients", 1, CLIENTS)
    types, objects = [], []
    for place, value in enumerate(array(required(table, "", "type"), "type", 1, TYPES)):
        types.append(type_in(value, place, [it.name for it in types]))
    for place, value in enumerate(array(required(table, "", "object"), "object", 1, OBJECTS)):
        objects.append(object_in(value, place, [it.name for it in objects], types))
    listed = array(required(table, "", "epoch"), "epoch", 1, EPOCHS)
    epochs = [epoch_in(value, place, sites, objects) for place, value in enumerate(listed)]
    no_others(table, "", TOP_KEYS)
    return Declaration(sites, clients, types, objects, epochs)


def read(data):
    """The declaration that bytes spell; or raises `Refused`."""
    decl = fields_of(loaded(data))
    for kind in decl.types:
        certify(kind)
    for number, epoch in enumerate(decl.epochs, 1):
        admit(number, epoch, decl.objects)
    return decl


def told(decl):
    """What is printed of an accepted declaration."""
    return b"accepted types %d objects %d epochs %d\n" % tuple(map(len, decl[2:]))
