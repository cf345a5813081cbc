"""What each row says, in a sentence."""

from heads import ACCESS, DATA, read_head
from report import ENDS, MESSAGES, SYNCS

MOST_HEX = 24
SENTENCES = {
    "page_in": "{node} asks {pager} for {page} and may {right} it; {along}",
    "zero_fill": "{node} asks {pager} for {page}, which is zeros, and may {right} it",
    "page_out": "{node} gives {page} up to {pager}, to free its frame; {along}",
    "write_out": "{node} gives {page} to {pager}, and may only read it now; {along}",
    "sync": "{node} gives {page} to {pager}, and keeps its right; {along}",
    "flush_back": "{pager} takes {page} back from {node}, which drops its copy; {along}",
    "deny_writes": "{pager} lets {node} only read {page} now; {along}",
    "write_back": "{pager} asks {node} for the bytes of {page}; {along}",
    "delete_range": "{pager} has {node} drop its copy of {page}",
}


def message_words(row, node):
    """What a message does, given the node, or None if the stack has none of the name."""
    pager = node.parent.name if node and node.parent else "?"
    heads = [read_head(head) for head in row.heads]
    right = ("nothing",) + ACCESS[1:]
    said = SENTENCES[row.kind].format(
        node=row.node, pager=pager, page="page %d" % row.page,
        right=right[heads[0].access] if heads[0].access < len(right) else "nothing",
        along="its bytes go along" if (heads[0].flags | heads[1].flags) & DATA else "no bytes go along")
    return said + (", in packets" if node and node.is_far() else "")


def bytes_words(data):
    """Bytes in hex, or the first of them and how many there are."""
    told = data.hex()
    return told if len(told) <= MOST_HEX else "%s..(%d bytes)" % (told[:16], len(data))


def asked_words(row):
    """The words of a call, without its caller and its node."""
    words = [row.kind]
    if row.kind in SYNCS:
        words.append("from %d" % row.start)
    if row.page is not None:
        words.append(str(row.page))
    if row.off is not None:
        words += [str(row.off), str(row.length) if row.kind == "read" else bytes_words(row.told)]
    return " ".join(words)


def answer_words(row):
    """What a call was answered."""
    if row.answer is None:
        return "done"
    answer, said = row.answer
    return bytes_words(row.told) if answer == "bytes" else answer if said is None else "%s %d" % (answer, said)


def row_words(row, stack):
    """What a row says, on one line of a terminal."""
    if row.kind == "unreadable":
        return row.text
    if row.kind in MESSAGES:
        return message_words(row, stack.by_name.get(row.node))
    life = "" if row.kind in SYNCS + ENDS + ("open",) or not row.life else ", life %d" % row.life
    return "%s at %s%s: %s -> %s" % (row.caller, row.node, life, asked_words(row), answer_words(row))
