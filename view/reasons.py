"""Why each message was sent: the call behind it for which the plan names it, and the rule that does.

The plan of an access at a node has three rules, in this order: the deepest node off the way from the
ground to that node that hinders it gives way; a full leaf gives up the page that it used longest ago; the
lowest node on the way that lacks the right gets it from its pager. Of a sync the deepest node that has
bytes to give gives them down. Of an end of caches the deepest node with a right gives it up. Of equally
deep nodes that of the greatest number goes first, but in a sync.

A report does not name the call that a message is for. So it is looked for: the first one behind the
message for which the plan, by the rights that there were then, names just that message; of a page that
goes out, the access to the page that the leaf gets next.
"""

from collections import namedtuple

from report import SYNCS
from rules import NOTHING, READ, WRITE

MOST_OPEN = 256
GRANTS = ("page_in", "zero_fill")
REVOKES = ("flush_back", "deny_writes", "delete_range")

Reason = namedtuple("Reason", "call words")


def path_of(node):
    """The nodes from one to the ground."""
    found = [node]
    while found[-1].parent is not None:
        found.append(found[-1].parent)
    return found


class Sent:
    """A message that waits for its call: what each node had of its page when it was sent."""

    def __init__(self, index, row, node, column, right):
        self.index, self.place, self.kind, self.page, self.node = index, row.place, row.kind, row.page, node
        self.rights, self.at = list(column.rights), list(column.at)
        self.right, self.wanted = right, None

    def holders(self, nodes, least):
        """Those nodes, but for the ground, that had at least a right."""
        return [node for node in nodes if node.number and self.rights[node.number] >= least]


def is_deepest(node, nodes):
    """Whether a node is one of some nodes, and none of them is deeper."""
    return node in nodes and all(other.depth <= node.depth for other in nodes)


def is_first(node, nodes):
    """Whether a node is the deepest of some nodes, and of equal depth the one of the greatest number."""
    return is_deepest(node, nodes) and all(other.number <= node.number for other in nodes if other.depth == node.depth)


def words_for_access(sent, stack, row, node):
    """Why the plan of an access names a message, in words, or None if it does not."""
    least, way = READ if row.kind == "read" else WRITE, path_of(node)
    if sent.kind == "page_out":
        return sent.node is node and sent.wanted == row.page and (
            "%s had no page %d, and its frames were all taken (%d): page %d is the one that it used longest ago" % (
                node.name, row.page, node.frames, sent.page))
    if sent.page != row.page:
        return None
    off = sent.holders([other for other in stack.nodes if other not in way], WRITE if least == READ else READ)
    if sent.kind in REVOKES:
        writes = sent.rights[sent.node.number] == WRITE
        kind = "deny_writes" if least == READ else "flush_back" if writes else "delete_range"
        return sent.kind == kind and is_first(sent.node, off) and (
            "%s hindered it: it might %s page %d, and is not on the way from %s to %s; the deepest such node goes first"
            % (sent.node.name, "write" if writes else "read", sent.page, stack.nodes[0].name, node.name))
    lacking = [other for other in way if sent.rights[other.number] < least]
    fits = sent.kind in GRANTS and not off and lacking and lacking[-1] is sent.node and sent.right == least
    return fits and "nothing hindered it, and %s was the lowest node on the way from %s to %s that lacked the right " \
        "to %s page %d" % (sent.node.name, stack.nodes[0].name, node.name, "read" if least == READ else "write",
                           sent.page)


def words_for_sync(sent, stack, row, node):
    """Why the plan of a sync names a message, in words, or None if it does not."""
    down = sent.node in path_of(node)
    kind = ("sync" if down else "write_back") if row.kind == "synced" else ("write_out" if down else "deny_writes")
    pushers = sent.holders(stack.nodes, WRITE)
    if row.kind == "synced":
        pushers = [other for other in pushers if sent.at[other.number] != sent.at[other.parent.number]]
    fits = sent.kind == kind and row.start <= sent.place and is_deepest(sent.node, pushers)
    return fits and "the ground lacked the newest bytes of page %d, and %s was the deepest node that might write it%s" % (
        sent.page, sent.node.name, ", of those with a changed copy" if row.kind == "synced" else "")


def words_for_end(sent, node):
    """Why the plan of an end of caches names a message, in words, or None if it does not."""
    right = sent.rights[sent.node.number]
    fits = sent.kind == ("flush_back" if right == WRITE else "delete_range")
    return fits and is_first(sent.node, sent.holders(node.subtree(), READ)) and (
        "%s was the deepest node with a right on page %d, of %s and those above it" % (
            sent.node.name, sent.page, node.name))


class Reasons:
    """The reasons of a file's messages, by row.

    `open` has the messages whose call has not come yet, by their page; `outs` those that gave a page up for
    another one, by their node. Of each the newest are kept: a call that failed has no event.
    """

    def __init__(self, stack):
        self.stack, self.found = stack, {}
        self.open, self.outs = {}, {}

    def message(self, index, row, node, column, right):
        """Notes a message, before it moves anything. `right` is what its node has after it."""
        if row.kind in GRANTS and column.rights[node.number] == NOTHING:
            for sent in self.outs.get(node.number, []):
                if sent.wanted is None:
                    sent.wanted = row.page
        kept, key = (self.outs, node.number) if row.kind == "page_out" else (self.open, row.page)
        waiting = kept.setdefault(key, [])
        waiting.append(Sent(index, row, node, column, right))
        del waiting[:-MOST_OPEN]

    def call(self, index, row, node):
        """Gives a call that was done to the messages that its plan named."""
        if row.page is not None:
            self.settle(self.open, row.page, index, row, node)
            self.settle(self.outs, node.number, index, row, node)
            return
        for page in list(self.open):
            self.settle(self.open, page, index, row, node)

    def settle(self, kept, key, index, row, node):
        """Gives a call to those messages of one list that its plan named."""
        left = []
        for sent in kept.get(key, []):
            words = self.words_for(sent, row, node)
            if words:
                self.found[sent.index] = Reason(index, words)
            else:
                left.append(sent)
        if left:
            kept[key] = left
        else:
            kept.pop(key, None)

    def words_for(self, sent, row, node):
        """Why the plan of a call names a message, in words; nothing if it does not."""
        if row.kind in SYNCS:
            return words_for_sync(sent, self.stack, row, node)
        if row.page is None:
            return words_for_end(sent, node)
        return words_for_access(sent, self.stack, row, node)
