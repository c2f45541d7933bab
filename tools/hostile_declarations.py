"""The hostile declarations of tools/hostile.py. All of them follow from a seed, the base of docs/DIAGNOSTICS.md and the
declarations of examples/. A row is its bytes, and the bytes of which plain_declarations is asked in their place: others
where the kit's reader takes more for TOML than `tomllib` does, or less.
"""

import glob
import os
import re

from hostile_bytes import changes, cuts, left_out, put_in, random_bytes, some

ROOT = os.path.dirname(os.path.dirname(os.path.abspath(__file__)))


def content(*path):
    with open(os.path.join(ROOT, *path), "rb") as file:
        return file.read()


def base():
    """The base, as docs/DIAGNOSTICS.md shows it."""
    return re.search(rb"```toml title=base.toml\n(.*?)```", content("docs", "DIAGNOSTICS.md"), re.DOTALL)[1]


def examples():
    """The declarations of examples/."""
    return [content(path) for path in sorted(glob.glob(os.path.join(ROOT, "examples", "**", "*.toml"), recursive=True))]


# Declarations by their keys. A table is its header, and what stands behind each key: an array's texts, or some TOML.

BASE = (
    ("", {"sites": "1", "clients": "1"}),
    ("[[type]]", {
        "name": '"register"',
        "states": ["0", "1"],
        "start": '"0"',
        "invocations": ["R", "W0", "W1"],
        "responses": ["0", "1", "ok"],
        "rows": ["0 R 0 0", "1 R 1 1", "0 W0 ok 0", "1 W0 ok 0", "0 W1 ok 1", "1 W1 ok 1"],
        "depends": ["R W0:ok", "R W1:ok"],
        "triples": ["0 0 -", "0 1 W1:ok", "1 1 -", "1 0 W0:ok"],
    }),
    ("[[object]]", {"name": '"x"', "type": '"register"'}),
    ("[[epoch]]", {"weights": "[1]", "initial": ["x R 1"], "final": ["x W0:ok 1", "x W1:ok 1"]}),
)


def value_text(value):
    if isinstance(value, str):
        return value
    return "[%s]" % ", ".join(it[1:] if it.startswith("=") else '"%s"' % it for it in value)


def written(tables):
    """The text of a declaration. An item of an array that begins with `=` stands there without it and its quotes."""
    lines = []
    for head, keys in tables:
        lines += [head] if head else []
        lines += ["%s = %s" % (key, value_text(value)) for key, value in keys.items()]
    return "\n".join(lines).encode() + b"\n"


def turned(place, **keys):
    """The base with other values in one of its tables; a key whose value is None is left out."""
    tables = [(head, dict(it)) for head, it in BASE]
    tables[place][1].update(keys)
    return written([(head, {key: it for key, it in old.items() if it is not None}) for head, old in tables])


def many(place, tables):
    """The base with other tables in the place of one of its four."""
    return written([*BASE[:place], *tables, *BASE[place + 1 :]])


def named(place, names, **more):
    """So many tables of one kind, each with a name of its own."""
    head, keys = BASE[place]
    return [(head, {**keys, "name": '"%s"' % name, **more}) for name in names]


ALWAYS = "0", "17", "1.0", '"R"', '"a b"', "[]", "[0]", "[1]", "[256]", "[{}]", '["0", "0"]'
VALUES = (
    "0", "-0", "1", "2", "8", "16", "17", "255", "256", "-1", "+1", "01", "0x1", "0b1", "0o1", "1_0", "1__0", "_1",
    "1.0", "1e0", "1.", "inf", "nan", "-inf", "1e999", "-1e999", "9223372036854775807", "9223372036854775808",
    "-9223372036854775808", "-9223372036854775809", "true", "false", "True", '"1"', "'1'", '"""1"""', '""', '"0"',
    '"R"', '"a b"', '"-"', '"' + 32 * "n" + '"', '"' + 33 * "n" + '"', '"\\u0030"', '"\\u00e9"', '"\\ud800"', '"\\q"',
    '"0', "[]", "[0]", "[1]", "[1, 1]", "[1, ]", "[, 1]", "[1 1]", "[256]", "[255]", "[-1]", "[true]", "[1.0]",
    "[[1]]", "[{}]", "{}",
    "{ name = 1 }", '["0"]', '["0", "0"]', '["a b"]', '[""]', '["' + 33 * "n" + '"]', '["\\t"]', "1979-05-27",
    "1979-05-27T07:32:00Z", "07:32:00", "1979-13-27", "", "=", "# nothing", "1 # one", "1 1",
)
TEXTS = (
    "=1", "=[]", "=true", "", " ", "-", "a", "0 R 0", "0 R  0 0", "0 R 0 -", "0 R 0 0 ", " 0 R 0 0", "0 R 0 0 0",
    "2 R 0 0", "0 S 0 0", "0 R 2 0", "0 R 0 2", "0 W0 ok 0", "1 R 0 0", "R", "S W0:ok", "R W0", "R W0:1", "R W0:ok ",
    "R W0:ok:ok", "R W0:ok W1:ok", "R :ok", "R W0:", "0 0", "0 2 -", "2 0 -", "0 0 W1", "0 0 W1:ok,", "0 0 ,W1:ok",
    "0 0 -,W1:ok", "0 0 --", "0 0 W1:ok,W1:ok", "1 1 W1:ok", "0 1 -", "0 0 W1:ok,W0:ok", "0 0 W1:ok,W0:ok,R:0,R:1",
    "0 0 W1:ok, W0:ok", "0 0 ", "x R", "y R 1", "x S 1", "x R +1", "x R -1", "x R 000001", "x R 00001", "x R 65535",
    "x R 65536", "x R 99999", "x R ", "x R 0", "x R 1 ", "x R 1.0", "x W0 1", "x W0:1 1", "x W0:ok 1",
    "x W0:ok 65535", "x W0:ok 65536", "x W0:ok", "y W0:ok 1", "x W0:ok 2", "x R 2", "x R:0 1",
)


def ruled(rng):
    """The base with each key left out, with each value in its place, and with each text in the place of an item."""
    for place, (_, keys) in enumerate(BASE):
        for key, value in keys.items():
            yield turned(place, **{key: None})
            yield from (turned(place, **{key: it}) for it in (*ALWAYS, *some(rng, VALUES, 30)))
            if isinstance(value, list):
                for text in TEXTS:
                    where = rng.randrange(len(value))
                    yield turned(place, **{key: value[:where] + [text] + value[where + 1 :]})
                yield from (turned(place, **{key: [*value, it]}) for it in some(rng, TEXTS, 14))
                yield from (turned(place, **{key: value[:at] + value[at + 1 :]}) for at in range(len(value)))
                yield from (turned(place, **{key: value[: at + 1] + value[at:]}) for at in range(len(value)))
        for key in ("hue", '"hue\\nall"', '""', "'a b'", "a.b", "name.x", "\u00e9", "sites", "name", "Type", "weights"):
            yield turned(place, **{key: "1"})
    for pair in ("zz aa", "B a", '"\u00e9" z', '"\u00e9" \'~\'', '"\uffff" "\\U0001F600"'):
        yield turned(0, **{key: "1" for key in pair.split(" ")})
    yield from (many(place, ()) for place in range(4))
    for place, key in enumerate(("type", "object", "epoch"), 1):
        top = [("", {**BASE[0][1], key: value}) for value in (*ALWAYS, *some(rng, VALUES, 30))]
        yield from (written([it, *BASE[1:place], *BASE[place + 1 :]]) for it in top)
    yield from (many(place, [BASE[place]] * 2) for place in range(4))


def events(count):
    """A type with so many events."""
    invs, resps = ["i%d" % k for k in range(9)], ["r%d" % k for k in range(8)]
    rows = ["s %s %s s" % (invs[k // 8], resps[k % 8]) for k in range(count)]
    lists = {"invocations": invs, "responses": resps, "rows": rows, "depends": None, "triples": ["s s -"]}
    return turned(1, states=["s"], start='"s"', **lists)


def triples(more):
    """A type with the most triples, and more; as many with the same two states as may be."""
    states = ["s%d" % k for k in range(9)]
    listed = ["%s %s -" % (view, log) for view in states[:8] for log in states[:8] for _ in range(1_024)]
    lists = {"invocations": ["i"], "responses": ["r"], "rows": ["s0 i r s0"], "depends": None, "triples": listed}
    return turned(1, states=states, start='"s0"', **{**lists, "triples": listed + ["s8 s8 -"] * more})


def limits():
    """Each count at its limit and one past it."""
    for more in (0, 1):
        yield turned(0, sites=str(16 + more), clients=str(16 + more))
        yield turned(0, clients=str(16 + more))
        for sites in (1, 16):
            yield turned(0, sites=str(sites)).replace(b"[1]\n", b"[%s]\n" % b", ".join([b"1"] * (sites + more)))
            yield turned(0, sites=str(sites)).replace(b"[1]\n", b"[%s]\n" % b", ".join([b"%d" % (255 + more)] * sites))
        yield many(1, named(1, ["register", *("t%d" % k for k in range(7 + more))]))
        yield many(2, named(2, ["x", *("o%d" % k for k in range(15 + more))]))
        yield many(3, [BASE[3]] * (8 + more))
        for key, most in (("states", 64), ("invocations", 32), ("responses", 32)):
            first = BASE[1][1][key]
            yield turned(1, **{key: first + ["n%d" % k for k in range(most + more - len(first))]})
        yield events(64 + more)
        for place, key in ((1, "name"), (2, "name")):
            yield turned(place, **{key: '"%s"' % ("n" * (32 + more))})
        yield turned(1, triples=["0 0 -"] * (1_024 + more) + BASE[1][1]["triples"][1:])
        yield turned(1, triples=["0 0 -", *["0 0 W0:ok"] * (1_024 + more), *BASE[1][1]["triples"][1:]])
        yield turned(1, rows=BASE[1][1]["rows"] * 2 if more else BASE[1][1]["rows"])
        yield turned(1, rows=["0 R 0 0"] * (131_072 + more))
        yield triples(more)
        yield turned(3, initial=["x R %d" % (65_535 + more)])
        yield turned(3, initial=["x R %s1" % ("0" * (4 + more))])
        yield turned(3, final=["x W0:ok %d" % (65_535 + more), "x W1:ok 1"])
        yield turned(3, final=["x W0:ok %s1" % ("0" * (4 + more)), "x W1:ok 1"])
        yield turned(2, name='"%s"' % "_-"[more])


def relations(rng):
    """The base with other dependences and triples, some of them right, and other thresholds."""
    keys, events_ = BASE[1][1], ["R:0", "R:1", "W0:ok", "W1:ok"]
    for _ in range(150):
        out = [",".join(rng.sample(events_, rng.randrange(5))) or "-" for _ in range(6)]
        more = ["%d %d %s" % (rng.randrange(2), rng.randrange(2), it) for it in out[: rng.randrange(7)]]
        listed = [it for it in keys["triples"] if rng.random() < 0.95] + more
        needs = [it for it in keys["depends"] if rng.random() < 0.9]
        others = rng.choice((0, 0, 1, 3))
        needs += ["%s %s" % (rng.choice(keys["invocations"]), rng.choice(events_)) for _ in range(others)]
        yield turned(1, depends=needs, triples=rng.sample(listed, len(listed)))
    for place, triple in enumerate(keys["triples"]):
        for out in (*events_, "R:0,W0:ok", "W1:ok,W0:ok,R:1,R:0", "-"):
            listed = [*keys["triples"][:place], triple[:4] + out, *keys["triples"][place + 1 :]]
            yield turned(1, triples=listed)
    for _ in range(100):
        weights, need = [rng.randrange(3) for _ in range(3)], lambda: rng.choice((0, 1, 2, 2, 3, 3, 4))
        final = ["x %s %d" % (event, need()) for event in events_ if rng.random() < 0.7]
        text = turned(3, weights=str(weights), initial=["x R %d" % need(), "x W1 %d" % need()], final=final)
        yield text.replace(b"sites = 1", b"sites = 3")


def seconds():
    """Faults of the second type, object and epoch, and faults of the second object's thresholds."""
    rows, triples_ = BASE[1][1]["rows"], BASE[1][1]["triples"]
    faults = [(1, {"triples": triples_[:at] + triples_[at + 1 :]}) for at in range(4)]
    faults += [(1, {"depends": ["R W0:ok"]}), (1, {"rows": [*rows, "2 R 0 0"]}), (1, {"rows": [*rows, rows[0]]})]
    faults += [(place, {"hue": "1"}) for place in (1, 2, 3)] + [(2, {"type": '"zz"'})]
    faults += [(3, {"weights": "[0]"}), (3, {"weights": "[]"})]
    faults += [(3, {"initial": ["x R 2"]}), (3, {"final": ["x W1:ok 1"]}), (3, {"initial": []})]
    for place, fault in faults:
        name = {} if place == 3 else {"name": '"second"'}
        yield many(place, [BASE[place], (BASE[place][0], {**BASE[place][1], **name, **fault})])
        yield many(place, [(BASE[place][0], {**BASE[place][1], **fault}), (BASE[place][0], {**BASE[place][1], **name})])
    for x, y in ((1, 1), (1, 2), (2, 1), (2, 2), (1, 0), (0, 1)):
        for key, events_ in (("initial", "R"), ("final", "W0:ok W1:ok")):
            needs = [(it, need, event) for it, need in (("x", x), ("y", y)) for event in events_.split(" ")]
            final = [*BASE[3][1]["final"], "y W0:ok 1", "y W1:ok 1"]
            whole = {"initial": ["x R 1", "y R 1"], "final": final}
            whole[key] = ["%s %s %d" % (it, event, need) for it, need, event in needs]
            yield written([*BASE[:2], *named(2, "xy"), (BASE[3][0], {**BASE[3][1], **whole})])


# What the kit's reader takes otherwise than `tomllib`, and what is asked of in its place.


def otherwise():
    good, bad, plain, hue = base(), b"sites", b"sites = 1", turned(0, hue="1")
    yield b"\xef\xbb\xbf" + good, good
    yield b"\xef\xbb\xbf\xef\xbb\xbf" + good, bad
    yield good.replace(b'"x"', b'"\\x78"'), good
    yield good.replace(b'"x"', b'"\\e"'), good.replace(b'"x"', b'"\\u001b"')
    yield good.replace(b'"x"', b'"\\x7"'), bad
    for value in (b"07:32", b"1979-05-27T07:32Z", b"1979-05-27 07:32", b"{\n}", b"{ a = 1,\n b = 2 }", b"{ a = 1, }"):
        yield good.replace(plain, b"sites = " + value), good.replace(plain, b'sites = "1"')
    for value in (b"{ , }", b"{ a = 1,, }", b"{ a\n = 1 }", b"{ a = 1 b = 2 }", b"07"):
        yield good.replace(plain, b"sites = " + value), bad
    for deep in (79, 80, 81, 200, 5_000):
        then = hue if deep <= 80 else bad
        yield turned(0, hue="[" * deep + "1" + "]" * deep), then
        yield turned(0, hue="{ a = " * deep + "1" + " }" * deep), then
        yield turned(0, **{"hue" + ".a" * (deep - 1): "1"}), then
        yield good + b"[hue" + b".a" * (deep - 1) + b"]\n", then
        yield good + b"[[hue" + b".a" * (deep - 1) + b"]]\n", then


# Texts that are changed anywhere.


def lines_changed(rng, data):
    """A line left out, doubled, or changed for another."""
    lines = data.splitlines(keepends=True)
    for at, line in enumerate(lines):
        yield b"".join(lines[:at] + lines[at + 1 :])
        yield b"".join(lines[:at] + [line] + lines[at:])
        other = rng.randrange(len(lines))
        swapped = list(lines)
        swapped[at], swapped[other] = lines[other], line
        yield b"".join(swapped)


def items_left_out(data):
    """Each text of an array left out."""
    return [data[: it.start()] + data[it.end() :] for it in re.finditer(rb'"[^"\n]*",', data)]


def words_changed(rng, data, more):
    """Each word changed for another of the text, or for one of these."""
    words = list(re.finditer(rb"[A-Za-z0-9_:]+", data))
    pool = sorted({it[0] for it in words})
    return [data[: it.start()] + rng.choice([rng.choice(pool), rng.choice(more)]) + data[it.end() :] for it in words]


MORE = b"zz", b"", b"-", b" ", b"a b", b"0", b"1", b"2", b"65536", b"00001", b"\xff", b"\xc3\xa9", b"ok", b"R:0"


def declarations(rng):
    """The rows: bytes, and those of which plain_declarations is asked."""
    first, others = base(), examples()
    rows = [first, *others, *ruled(rng), *limits(), *seconds(), *relations(rng), b"", written(BASE)]
    rows += some(rng, cuts(first), 250) + some(rng, changes(first), 350)
    rows += some(rng, left_out(first), 150) + some(rng, put_in(rng, first), 150)
    rows += lines_changed(rng, first)
    for data in others:
        rows += some(rng, cuts(data), 8) + some(rng, changes(data), 12) + some(rng, list(lines_changed(rng, data)), 14)
        rows += some(rng, items_left_out(data), 10)
    for data in (first, *others):
        rows += some(rng, [it for _ in range(2) for it in words_changed(rng, data, MORE)], 30)
    rows += [random_bytes(rng, 60) for _ in range(60)] + [first + random_bytes(rng, 12) for _ in range(60)]
    rows += [first.replace(b"\n", b"\r\n"), first.replace(b"\n", b"\r"), first.replace(b" ", b"\t"), first + first]
    return list(dict.fromkeys([(data, data) for data in rows] + list(otherwise())))
