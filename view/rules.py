"""The table of events: when each may happen, and what it moves.

Each node has for each page a right, and if it has one a copy, which shows the page as it was at some
place, its `at`. The ground always has the right to write. Every rule here is about one node, its pager
and its children. Together they keep one writer or many readers of each page at each layer.
"""

from collections import OrderedDict

import plain
from heads import read_head

NOTHING, READ, WRITE = 0, 1, 2
RIGHTS = ("nothing", "read", "write")
DENIALS = ("write_out", "deny_writes")
DROPS = ("page_out", "flush_back", "delete_range")


class Column:
    """One page: each node's right, place and copy, the place of the newest write, and what it left."""

    __slots__ = ("rights", "at", "copies", "newest", "plain")

    def __init__(self, nodes, page_size):
        self.plain = plain.at_start(page_size)
        self.rights = [WRITE] + [NOTHING] * (nodes - 1)
        self.at = [0] * nodes
        self.copies = [self.plain] + [None] * (nodes - 1)
        self.newest = 0


class State:
    """One file after the events so far. `moves` has the cells that the last event changed."""

    def __init__(self, stack, pages):
        self.stack, self.pages, self.columns = stack, pages, {}
        self.lives = [0] * len(stack.nodes)
        self.used = {node.number: OrderedDict() for node in stack.nodes}
        self.unsettled = set()
        self.moves = []

    def column(self, page):
        """The column of a page."""
        if page not in self.columns:
            self.columns[page] = Column(len(self.stack.nodes), self.stack.page_size)
        return self.columns[page]

    def put(self, page, node, right, at, copy):
        """Gives a node a right and a copy, or takes both away."""
        column, number = self.column(page), node.number
        column.rights[number] = right
        column.at[number], column.copies[number] = (at, copy) if right else (0, None)
        if right == NOTHING:
            self.used[number].pop(page, None)
        elif page not in self.used[number]:
            self.used[number][page] = True
        if number == 0:
            self.note_settled(page)
        self.moves.append((number, right, column.at[number]))

    def note_settled(self, page):
        """Keeps the list of pages whose newest bytes the ground has not."""
        column = self.column(page)
        if column.newest > column.at[0]:
            self.unsettled.add(page)
        else:
            self.unsettled.discard(page)

    def use(self, page, node):
        """Notes a use of a page at a node."""
        if page in self.used[node.number]:
            self.used[node.number].move_to_end(page)

    def changed(self, page, node):
        """Whether a node's copy is not of the place of its pager's."""
        column = self.column(page)
        return column.rights[node.number] != NOTHING and column.at[node.number] != column.at[node.parent.number]


def holders(nodes, column, least):
    """The names of the nodes that have at least a right, or None."""
    found = [node.name for node in nodes if column.rights[node.number] >= least]
    return " and ".join(found) if found else None


def children_fault(node, page, column, least):
    """What is wrong if no child of a node may have a right, in words, or None."""
    found = holders(node.children, column, least)
    what = "may write page %d" % page if least == WRITE else "has a right on page %d" % page
    return "%s, above %s, %s" % (found, node.name, what) if found else None


def has_fault(node, page, column, rights):
    """What is wrong if a node's right is none of some, in words, or None."""
    right = column.rights[node.number]
    if right in rights:
        return None
    has = ("has no right", "may only read", "may write")[right]
    should = " or ".join(("have no right", "be a reader", "be the writer")[wanted] for wanted in rights)
    return "%s %s page %d, and should %s" % (node.name, has if right else has + " on", page, should)


def access_faults(state, row, node):
    """Why a node may not read, write or clear its copy now."""
    column = state.column(row.page)
    if row.kind == "read":
        return [has_fault(node, row.page, column, (READ, WRITE)), children_fault(node, row.page, column, WRITE)]
    return [has_fault(node, row.page, column, (WRITE,)), children_fault(node, row.page, column, READ)]


def grant_faults(state, row, node, right):
    """Why a node may not get a right from its pager now."""
    column, pager = state.column(row.page), node.parent
    others = [child for child in pager.children if child is not node]
    if right == READ:
        found = [has_fault(node, row.page, column, (NOTHING,)),
                 has_fault(pager, row.page, column, (READ, WRITE)),
                 children_fault(pager, row.page, column, WRITE)]
    else:
        found = [has_fault(node, row.page, column, (NOTHING,) if row.kind == "zero_fill" else (NOTHING, READ)),
                 has_fault(pager, row.page, column, (WRITE,))]
        other = holders(others, column, READ)
        found.append(other and "%s would be the writer of page %d while %s, beside it, has a right on it" % (
            node.name, row.page, other))
    if node.frames and column.rights[node.number] == NOTHING and len(state.used[node.number]) >= node.frames:
        found.append("%s has %d frames, and all are taken" % (node.name, node.frames))
    return found


def give_up_faults(state, row, node):
    """Why a node may not give bytes or a right up to its pager now."""
    column = state.column(row.page)
    if row.kind == "page_out":
        return [has_fault(node, row.page, column, (READ, WRITE)), page_out_fault(state, row, node)]
    if row.kind == "delete_range":
        return [has_fault(node, row.page, column, (READ,)), children_fault(node, row.page, column, READ)]
    found = [has_fault(node, row.page, column, (WRITE,))]
    if row.kind in DENIALS:
        found.append(children_fault(node, row.page, column, WRITE))
    if row.kind == "flush_back":
        found.append(children_fault(node, row.page, column, READ))
    return found


def page_out_fault(state, row, node):
    """Why a page may not leave its frame, in words, or None."""
    if not node.frames:
        return "%s is no memory manager, and pages nothing out" % node.name
    oldest = next(iter(state.used[node.number]), row.page)
    return None if oldest == row.page else "%s used page %d longer ago than page %d" % (node.name, oldest, row.page)


def end_faults(state, node):
    """Why the channels of a node and of those above it may not end now."""
    return ["%s still has a right on page %d" % (below.name, min(state.used[below.number]))
            for below in node.subtree() if state.used[below.number]]


def settled_faults(state, start):
    """Which pages the ground has not as of a place or later, though they were written since."""
    return ["the ground has page %d %s, and it was written at place %d" % (
        page, write_words(state.column(page).at[0]), state.column(page).newest - 1)
            for page in sorted(state.unsettled) if state.column(page).at[0] < start]


def write_words(at):
    """A place of bytes, in words: by the write that left them."""
    return "with the write of place %d" % (at - 1) if at else "as at the start"


def granted_right(row):
    """The right that a grant gives, by the first of its heads."""
    return READ if read_head(row.heads[0]).access == READ else WRITE


def right_after(state, row, node):
    """The right that a node has after a message."""
    if row.kind in ("page_in", "zero_fill"):
        return granted_right(row)
    if row.kind in DENIALS:
        return READ
    return NOTHING if row.kind in DROPS else state.column(row.page).rights[node.number]


def brings(state, row, node):
    """Whether the page goes along with a message."""
    if row.kind == "page_in":
        return state.column(row.page).rights[node.number] == NOTHING
    if row.kind in ("zero_fill", "delete_range"):
        return False
    return state.changed(row.page, node)


def message_faults(state, row, node):
    """Why a message may not go now."""
    if row.kind in ("page_in", "zero_fill"):
        return grant_faults(state, row, node, granted_right(row))
    return give_up_faults(state, row, node)


def told_faults(state, row, node):
    """What a grant tells of the bytes of its pager's copy, if that cannot be."""
    column, pager = state.column(row.page), node.parent
    copy = column.copies[pager.number]
    if copy is None or column.rights[node.number] != NOTHING:
        return []
    if row.kind == "zero_fill" and not copy.tell_zeros():
        return ["%s gets page %d as zeros, and it is not all zeros at %s" % (node.name, row.page, pager.name)]
    if row.kind == "page_in" and not copy.tell_not_zeros():
        return ["%s gets page %d with its bytes, and it is all zeros at %s" % (node.name, row.page, pager.name)]
    return []


def take_message(state, row, node):
    """Moves rights, places and copies as a message does."""
    column, pager, page = state.column(row.page), node.parent, row.page
    had, at, copy = column.rights[node.number], column.at[node.number], column.copies[node.number]
    right = right_after(state, row, node)
    if row.kind in ("page_in", "zero_fill"):
        if had == NOTHING:
            at, copy = column.at[pager.number], column.copies[pager.number]
        state.put(page, node, right, at, copy)
        state.use(page, node)
        return
    if row.kind != "delete_range" and had != NOTHING and column.rights[pager.number] != NOTHING:
        state.put(page, pager, column.rights[pager.number], at, copy)
    state.put(page, node, right if had != NOTHING else NOTHING, at, copy)


def take_write(state, row, node):
    """Puts written bytes, or zeros, into the plain page, and into the node's own copy."""
    column = state.column(row.page)
    copy = column.copies[node.number]
    column.plain = changed_bytes(column.plain, row)
    column.newest = row.place + 1
    if copy is not None:
        state.put(row.page, node, column.rights[node.number], row.place + 1, changed_bytes(copy, row))
    state.note_settled(row.page)


def changed_bytes(held, row):
    """What a page holds after a write or a clear."""
    return held.written(row.off, row.told) if row.kind == "write" else held.cleared()
