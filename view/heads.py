"""The heads of a message's two frames: their fields, and what they have to be."""

from collections import Counter, namedtuple

Head = namedtuple("Head", "subcontract operation tag offset size access flags pad")
DATA, REPLY, CACHE = 1, 2, 4
ACCESS = ("none", "read", "write")
# What a node gives to its pager by itself, and what its pager orders it to do. The rest are grants.
PUSHES = ("page_out", "write_out", "sync")
ORDERS = ("flush_back", "deny_writes", "write_back", "delete_range")


def read_head(text):
    """The fields of a head given in hex."""
    cuts = (0, 4, 8, 16, 32, 40, 42, 44, 48)
    return Head(*(int(text[begin:end], 16) for begin, end in zip(cuts, cuts[1:])))


def operations(kind):
    """The operations of a message's two frames, each with its interface."""
    if kind == "zero_fill":
        return ("pager", "page_in"), ("cache", "zero_fill")
    return (("pager" if kind == "page_in" or kind in PUSHES else "cache", kind),) * 2


def flags(kind, brings):
    """The flags of a message's two frames; `brings` says whether the page goes along."""
    if kind == "page_in":
        return 0, REPLY | (DATA if brings else 0)
    if kind == "zero_fill":
        return 0, CACHE
    if kind in PUSHES:
        return DATA if brings else 0, REPLY
    return CACHE, CACHE | REPLY | (DATA if brings else 0)


class Numbers:
    """The numbers of the operations, as the heads of a report have them most often.

    A report does not name its interfaces. So the numbers are only asked to be the same for the same
    operation, and others for other operations of an interface.
    """

    def __init__(self, report):
        counts = {}
        for part in report.files:
            for row in part.rows:
                if row.heads:
                    for text, operation in zip(row.heads, operations(row.kind)):
                        counts.setdefault(operation, Counter())[int(text[4:8], 16)] += 1
        self.number = {operation: count.most_common(1)[0][0] for operation, count in counts.items()}

    def twins(self):
        """Two operations of one interface that have one number, or None."""
        seen = {}
        for (interface, name), number in sorted(self.number.items()):
            if (interface, number) in seen:
                return "%s.%s" % (interface, seen[interface, number]), "%s.%s" % (interface, name), number
            seen[interface, number] = name
        return None


def faults(row, file_number, page_size, right, brings, numbers):
    """What is wrong with the heads of a message, in words. `right` is what the node has after it."""
    found, both = [], flags(row.kind, brings)
    for which, text, operation, flag in zip(("first", "second"), row.heads, operations(row.kind), both):
        head = read_head(text)
        meant = Head(2, numbers.number[operation], file_number, row.page * page_size, page_size, right, flag, 0)
        for field, has, should in zip(Head._fields, head, meant):
            if has != should:
                found.append("the %s head has %s %d, and it should be %d" % (which, field, has, should))
    return found
