"""What the greatest declaration and the scripts share: names, what is printed of a run, remarks that fill a file up."""

import sys

SITES = CLIENTS = OBJECTS = OPERATIONS = 16


def long_name(kind, number):
    """A name of 32 letters."""
    return ("%s%d" % (kind, number)).ljust(32, "_")


def filled(text, size):
    """The text with a remark behind it, of so many bytes."""
    if len(text) + 2 > size:
        sys.exit("the text has %d bytes, and %d are the limit" % (len(text), size))
    return text + "#" * (size - len(text) - 1) + "\n"


def printed(replies, log, states, sites, life=1):
    """The text of a run: its replies, its log, each object's state, each site's lines and how many it holds."""
    lines = ["replies", *replies, "log", *log, "states", *states, "sites"]
    lines += ["s%d life %d epoch 1 lines %d held %d" % (number, life, *site) for number, site in enumerate(sites)]
    return "\n".join(lines) + "\n"
