"""Scripts in which epochs are closed and installed, and what each holds."""

KINDS = """sites = 3
clients = 3
[[type]]
name = "register"
states = ["0", "1"]
start = "0"
invocations = ["R", "W0", "W1"]
responses = ["0", "1", "ok"]
rows = ["0 R 0 0", "1 R 1 1", "0 W0 ok 0", "1 W0 ok 0", "0 W1 ok 1", "1 W1 ok 1"]
depends = ["R W0:ok", "R W1:ok"]
triples = ["0 0 -", "0 1 W1:ok", "1 1 -", "1 0 W0:ok"]
"""


def declared(objects, weights):
    """Sites, clients and these objects, with an epoch for each pair of weights: of a read, of a write."""
    text = KINDS + "".join('[[object]]\nname = "%s"\ntype = "register"\n' % o for o in objects)
    for read, wrote in weights:
        initial = ", ".join('"%s R %d"' % (o, read) for o in objects)
        last = ", ".join('"%s W%d:ok %d"' % (o, value, wrote) for o in objects for value in (0, 1))
        text += "[[epoch]]\nweights = [1, 1, 1]\ninitial = [%s]\nfinal = [%s]\n" % (initial, last)
    return text


DECLARATIONS = {
    "three_epochs": declared("x", ((2, 2), (1, 3), (2, 2))),
    "two_objects": declared("xy", ((2, 2), (1, 3), (2, 2))),
}
WRITES = "phase|c0 begin|c0 do x W1|c0 commit|"
READS = "phase|c1 begin|c1 do x R|c1 abort|c1 begin|c1 do x R|c1 commit"
# its transaction is promised at two sites, and its verdict reaches none
PROMISED = "link c0 s0 3 drop|link c0 s1 3 drop|"
MOVED_ONCE = WRITES + "phase|admin epoch 2|" + READS
STAMPS = (PROMISED + "phase|c0 begin|c0 commit|c0 begin|c0 commit|c0 begin|c0 commit|c0 begin|c0 do x R|c0 commit|"
          "phase|admin epoch 2|phase|c1 begin|c1 do x W1|c1 abort|c1 begin|c1 do x W1|c1 commit")
ASK_LOST = PROMISED + "link admin c0 1 drop|" + WRITES + "phase|admin epoch 2|phase|admin epoch 2|" + READS
LATE = ("link admin s2 1 late|link admin s1 2 drop|" + WRITES + "phase|admin epoch 3|admin epoch 2|admin epoch 2|phase|"
        "admin epoch 3|admin epoch 2|admin epoch 3|" + READS)
FEW = ("phase|cut admin s0|cut admin s1|c0 begin|c0 do x W1|c0 commit|admin epoch 2|phase|heal admin s0|admin epoch 2|"
       "phase|c1 begin|c1 do x R|phase|heal admin s1|admin epoch 2")
THREE_WRITERS = ("phase|c2 begin|c2 do x W1|c2 commit|phase|c1 begin|c1 do x W0|c1 commit|" + WRITES +
                 "phase|admin epoch 2|")
SEVERAL = ("link c2 s0 3 drop|link c2 s1 3 drop|link c1 s0 3 drop|link c1 s1 3 drop|link c0 s1 2 drop|" + PROMISED +
           THREE_WRITERS + READS)
DOUBT = ("".join("link c%d s%d 3 drop|" % (c, s) for c in (2, 1, 0) for s in (0, 1, 2)) + "link admin c1 1 drop|" +
         THREE_WRITERS + "phase|admin epoch 2|" + READS)
EACH = ("link c0 s1 2 drop|link c0 s0 4 drop|link c0 s1 4 drop|link c0 s2 3 drop|phase|c0 begin|c0 do x W1|c0 do y W1|"
        "c0 commit|phase|cut admin s0|admin epoch 2|phase|c1 begin|c1 do y R|c1 abort|c1 begin|c1 do y R|c1 do x R|"
        "c1 commit")
UNHEARD = "link s2 admin 1 drop|" + WRITES + "phase|admin epoch 2"
DOUBTFUL = "phase|stop c0 at 3|c0 begin|c0 do x W1|c0 commit|phase|admin epoch 2|phase|restart c0|admin epoch 2"
STOPPED = WRITES + "phase|stop admin at 3|admin epoch 2|phase|restart admin|admin epoch 2"
CLOSED = (WRITES + "phase|cut s1 admin|admin epoch 2|phase|crash s0|crash s2|restart s0|restart s2|heal s1 admin|"
          "admin epoch 2|phase|crash s1|restart s1|c1 begin|c1 do x R|c1 abort|c1 begin|c1 do x R|c1 commit")
AGAIN = WRITES + "phase|admin epoch 2|phase|crash admin|restart admin|admin epoch 2|phase|admin epoch 3|admin epoch 2"
SHUT_RISES = ("phase|cut s1 admin|cut s2 admin|admin epoch 2|phase|crash s0|restart s0|c0 begin|c0 do x R|phase|"
              "heal s1 admin|admin epoch 2")
KEPT = (PROMISED + "link c0 s0 4 drop|link admin c0 1 drop|" + WRITES + "phase|admin epoch 2|phase|crash s0|restart s0|"
        "admin epoch 2")
DOWN = "phase|admin epoch 2|phase|crash admin|admin epoch 3|phase|restart admin|admin epoch 3"
DECISIONS = ("phase|admin epoch 2|" + WRITES + "phase|admin epoch 3|phase|crash admin|restart admin|admin epoch 3|"
             "admin epoch 2")
UNINSTALLED = "link admin s0 2 drop|phase|c0 begin|c0 do x W1|phase|admin epoch 2|phase|c0 commit"
HELD = "phase|c0 begin|c0 do x W1|phase|admin epoch 2|" + READS
REDEEMED = ("link c0 s0 3 drop|link c0 s0 4 late|" + WRITES + "phase|crash s0|restart s0|admin epoch 2|phase|c1 begin")
THIRD = WRITES + "phase|admin epoch 2|phase|admin epoch 3"

# name: (what it holds, the declaration, the script)
WORKED = {
    "MovedOnce": (
        "An epoch is closed and the next one installed; a client learns of it.", "three_epochs", MOVED_ONCE),
    "StampsPassReads": (
        "The clock of a decision passes the stamp of a promised transaction that committed.", "three_epochs", STAMPS),
    "AskLost": (
        "An Ask is lost, so a transaction is in doubt; the next command closes again, and moves.", "three_epochs",
        ASK_LOST),
    "InstallsLate": (
        "An Install comes late, after that of a later epoch; a decided epoch is installed again; other epochs are "
        "refused.", "three_epochs", LATE),
    "TooFewClose": ("Too few sites close, and then enough.", "three_epochs", FEW),
    "SeveralPromises": (
        "Sites have promised several transactions, in another order than their names; one of them aborted.",
        "three_epochs", SEVERAL),
    "DoubtOfSecond": (
        "Of several promised transactions the last is in doubt, at the second site.", "three_epochs", DOUBT),
    "EachEntryMerged": (
        "Two closed sites have promised other lines of one transaction: all of them are merged.", "two_objects", EACH),
    "OneUnheard": ("A site installs, and the administrator doesn't hear of it.", "three_epochs", UNHEARD),
    "DoubtfulCommit": (
        "A client's disk stops as it writes its commit record, so the epoch is in doubt; it rises, and the epoch is "
        "decided.", "three_epochs", DOUBTFUL),
    "DecideStops": (
        "The administrator's disk stops as he writes his decision; he rises without it, and decides anew.",
        "three_epochs", STOPPED),
    "ClosedRises": (
        "Closed sites fall and rise, and are sent the next epoch again; a site rises in that epoch.", "three_epochs",
        CLOSED),
    "ShutRises": (
        "A closed site rises: it grants nothing of the closed epoch, and another command closes enough.",
        "three_epochs", SHUT_RISES),
    "ToldPromiseStays": (
        "A closed site that promised rises, and tells its promise again.", "three_epochs", KEPT),
    "InstalledAgain": (
        "An administrator rises with his decision, and installs it again on command: no site has closed.",
        "three_epochs", AGAIN),
    "LastDecision": (
        "An administrator rises with two decisions, and installs the last one again.", "three_epochs", DECISIONS),
    "AdministratorDown": (
        "An administrator is called while he is down; he rises with the epoch that he decided.", "three_epochs", DOWN),
}

ACTIVE = "phase|c0 begin|c0 do x W1|phase|c0 commit|admin epoch 2|phase|admin epoch 2"
# name: (what it holds, the declaration, the script, the seed of its schedule)
SCHEDULED = {
    "AskedWhileActive": (
        "The administrator asks about a transaction that waits for votes, and it is in doubt; then it aborted, and he "
        "moves.", "three_epochs", ACTIVE, 5),
}
