"""The hostile scripts of tools/hostile.py. All of them follow from a seed, two scripts that use each form of a line,
and the scripts of examples/. A row is its bytes, and whether it is run over OTHER, a declaration with other names, and
not over `@three`.
"""

import glob
import os
import re

from hostile_bytes import changes, cuts, left_out, put_in, random_bytes, some
from hostile_declarations import ROOT, content, lines_changed

OTHER = b"""sites = 2
clients = 4
[[type]]
name = "cell"
states = ["off", "on"]
start = "off"
invocations = ["Get", "Set"]
responses = ["off", "on", "done"]
rows = ["off Get off off", "on Get on on", "off Set done on", "on Set done on"]
depends = ["Get Set:done"]
triples = ["off off -", "off on Set:done", "on on -", "on on Set:done"]
[[type]]
name = "bell"
states = ["_"]
start = "_"
invocations = ["Ring"]
responses = ["done"]
rows = ["_ Ring done _"]
triples = ["_ _ -", "_ _ Ring:done"]
[[object]]
name = "door_1"
type = "cell"
[[object]]
name = "admin"
type = "bell"
[[epoch]]
weights = [1, 1]
initial = ["door_1 Get 1"]
final = ["door_1 Set:done 2"]
[[epoch]]
weights = [1, 2]
initial = ["door_1 Get 2"]
final = ["door_1 Set:done 2"]
[[epoch]]
weights = [1, 1]
initial = ["door_1 Get 2"]
final = ["door_1 Set:done 1"]
"""

THREE_SCRIPT = b"""# every form
link s0 c0 1 drop
link * s1 2 twice
link c1 * * late
link admin s2 99999 again
phase
cut s0 c0
heal s0 c0
stop s1 at 3
fail c1 at 00007
crash s2
restart s2
c0 begin
c0 do x W1
c0 do x R
c0 commit
c1 begin
c1 abort

phase
cut admin s0
phase
c2 begin
c2 do x W0
c2 commit
"""

OTHER_SCRIPT = b"""link * * 00001 late
link c3 s1 * drop
phase
phase
fail admin at 99999
stop s0 at 1
heal c2 c3
crash admin
restart admin
c3 begin
c3 do door_1 Set
c3 do admin Ring
c3 commit
admin epoch 2
c0 begin
c0 do door_1 Get
c0 abort
phase
crash c0
admin epoch 00003
"""

# A line of each form, and the same with a name, and with a number, that is none; over OTHER, whose epochs are three.
FORMS = (
    (b"link s0 c0 1 drop", b"link s2 c0 1 drop", b"link s0 c0 0 drop"),
    (b"link * admin * again", b"link * c4 * again", b"link * admin 00000 again"),
    (b"cut s0 s1", b"cut s0 s2", b"cut s1 s1"),
    (b"heal c0 admin", b"heal c4 admin", b"heal admin admin"),
    (b"crash c3", b"crash c4", None),
    (b"restart s1", b"restart s2", None),
    (b"stop s0 at 99999", b"stop s99999 at 1", b"stop s0 at 0"),
    (b"fail c0 at 1", b"fail c10 at 1", b"fail c0 at 00000"),
    (b"c0 begin", b"c4 begin", None),
    (b"c0 do door_1 Get", b"c0 do x Get", None),
    (b"c1 do admin Ring", b"c1 do admin Get", None),
    (b"c0 commit", b"c4 commit", None),
    (b"c0 abort", b"c5 abort", None),
    (b"admin epoch 2", None, b"admin epoch 1"),
    (b"admin epoch 3", None, b"admin epoch 4"),
)

POOL = (
    b"phase link cut heal crash restart stop fail at admin epoch begin do commit abort drop twice late again * # s c s0"
    b" s1 s2 s3 s15 s16 c0 c1 c2 c3 c4 c16 s00 c01 s-1 s99999 s100000 c4294967296 S0 C0 x R W0 W1 y door_1 Get Set Ring"
    b" bell cell ok W0:ok"
    b" 0 1 2 3 4 8 9 00001 00000 99999 099999 100000 000001 +1 -1 1.0 1e3 0x1 \xd9\xa1 \xff \t \r \0 c0\t admin\r"
).split(b" ") + [b""]


# Numbers at the most digits and past them, and with leading zeros.
DIGITS = (
    b"c99999 begin", b"c100000 begin", b"c01 begin", b"c00000 do door_1 Get", b"crash s99999", b"crash s100000",
    b"crash s00", b"crash c1 ", b"stop s0 at 00001", b"stop s0 at 000001", b"stop s0 at 100000", b"fail admin at ",
    b"admin epoch 00003", b"admin epoch 000003", b"admin epoch 99999", b"admin epoch 100000", b"cut s0 s00",
    b"heal c0 c99999", b"c0 do admin  ", b"c0 do  Ring", b"c0 do door_1 ", b"admin do admin Ring", b"s0 begin",
    b"phase 1", b"phase ", b"link admin admin 00001 late", b"stop s0 at +1", b"fail c0 at -1", b"admin epoch +2",
    b"link * s0 +1 late",
)

ENDS = b"", b"\n", b"\r", b"\r\n", b"\r\r\n", b" ", b"\0", b"\nx"


def formed(ends_of_lines):
    """Each form before a phase, in one, behind a command and in the next phase; right, and with something wrong."""
    for lines in FORMS:
        for line in filter(None, lines):
            for before in (b"", b"phase\n", b"phase\nc0 begin\n", b"phase\nc0 begin\nphase\n", b"link * * * drop\n"):
                yield from (before + line + behind for behind in ends_of_lines)
            yield b"phase\n" + line.replace(b" ", b"  ", 1)
            yield b"phase\n" + line.replace(b" ", b"\t", 1)
            yield b"phase\n " + line
            yield b"phase\n" + line.upper()
            yield b"phase\n" + b" ".join(line.split(b" ")[:-1])


def lines_of_pool(rng):
    """A few lines of random words, the first a form's as often as not."""
    lines = [rng.choice((b"phase", b"phase", b"link * * * late", b"# no line", b""))]
    for _ in range(rng.randrange(1, 4)):
        words = [rng.choice(POOL) for _ in range(rng.randrange(1, 6))]
        lines.append(b" ".join(words) if rng.random() < 0.3 else form_changed(rng))
    return b"\n".join(lines)


def form_changed(rng):
    """A line of a form with a word or two changed, put in or left out."""
    words = rng.choice([line for lines in FORMS for line in lines if line]).split(b" ")
    for _ in range(rng.randrange(3)):
        at = rng.randrange(len(words) + 1)
        words[at : at + rng.randrange(2)] = [rng.choice(POOL)] * rng.randrange(1, 2)
    return b" ".join(words)


def words_changed(rng, data):
    """Each word changed for another one."""
    return [data[: it.start()] + rng.choice(POOL) + data[it.end() :] for it in re.finditer(rb"[^ \n]+", data)]


def ends(data):
    """Other ends of lines, and none."""
    others = b"\r\n", b"\r", b"\r\r\n", b"\n\n", b"\n\r\n", b" \n", b"\n#\n", b"\0\n", b""
    return [data.replace(b"\n", end) for end in others]


def examples():
    """The scripts of examples/, but for the long one."""
    found = [content(path) for path in sorted(glob.glob(os.path.join(ROOT, "examples", "*", "script")))]
    return [data for data in found if len(data) < 4_000]


def scripts(rng):
    """The rows: bytes, and whether they are run over OTHER."""
    rows = [(b"", False), (b"", True)]
    for data, is_other in ((THREE_SCRIPT, False), (OTHER_SCRIPT, True)):
        made = [*cuts(data), *lines_changed(rng, data), *ends(data)]
        made += [it for _ in range(2) for it in words_changed(rng, data)]
        made += some(rng, changes(data), 250) + some(rng, left_out(data), 90) + some(rng, put_in(rng, data), 90)
        rows += [(it, is_other) for it in made]
    for data in examples():
        made = [data, *some(rng, cuts(data), 4), *some(rng, list(lines_changed(rng, data)), 5)]
        made += some(rng, changes(data), 4) + some(rng, words_changed(rng, data), 6)
        rows += [(it, False) for it in made]
    rows += [(it, True) for it in formed((b"", b"\n"))]
    rows += [(before + line, True) for line in DIGITS for before in (b"", b"phase\n", b"#\n\nphase\r\nadmin epoch 2\n")]
    for is_other, count in ((True, 200), (False, 100)):
        rows += [(it, is_other) for it in some(rng, list(formed(ENDS)), count)]
    rows += [(lines_of_pool(rng), rng.random() < 0.7) for _ in range(600)]
    rows += [(random_bytes(rng, 40), False) for _ in range(60)]
    rows += [(b"phase\n" + random_bytes(rng, 9), True) for _ in range(40)]
    rows += [(bytes([byte]), False) for byte in range(0, 256, 3)]
    return list(dict.fromkeys(rows))
