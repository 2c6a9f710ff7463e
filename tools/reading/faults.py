"""What is wrong with a text, as the reading tells it."""
from collections import namedtuple

# at one place the first of these counts
ORDER = ("twice", "wrong number", "unknown", "left out", "wrong type", "limit block")

# a fault of names and types: where it stands, its kind, where the token ends, and the number that is due where another one stands
Fault = namedtuple("Fault", "start kind end due")


class FirstFault(Exception):
    """A token that is none, or isn't expected: the reading ends there."""

    def __init__(self, kind, start, end=None):
        super().__init__(kind, start)
        self.kind, self.start, self.end = kind, start, end


class LimitPassed(Exception):
    """A limit of the program's: `depth`, `lines` or `text`."""

    def __init__(self, limit):
        super().__init__(limit)
        self.limit = limit


def first_of(faults):
    """The first by place, and at one place by the order of kinds."""
    return min(faults, key=lambda fault: (fault.start, ORDER.index(fault.kind)))


def as_answer(text, kind, start, end=None, due=None):
    """The status and the line that tell of a fault in this text, whose file is `a.ll`."""
    words = kind.encode()
    if kind in ("twice", "unknown", "left out"):
        words += b": " + text[start:end]
    elif kind == "wrong number":
        words += b": expected %d" % due
    return 3, b"", b"a.ll:%d: %s\n" % (start, words)
