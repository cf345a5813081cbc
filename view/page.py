"""The page that shows a history: one HTML text, with the events and what the check made of them."""

import json
from bisect import bisect_left
from pathlib import Path

from heads import ORDERS
from report import ENDS, MESSAGES, SYNCS
from sentences import message_words
from texts import beside

HERE = Path(__file__).resolve().parent
MOST_ROWS = 300000
MOST_FINDINGS = 200
MOST_LANES = 6
SCRIPTS = ("page_rows.js", "page_draw.js", "page_details.js", "page.js")
ACCESSES = ("open", "read", "write", "clear")
KINDS = MESSAGES + ACCESSES + SYNCS + ENDS + ("unreadable",)


class Texts:
    """A table of texts, so that each stands in the page once."""

    def __init__(self):
        self.texts, self.places = [], {}

    def place(self, text):
        """The number of a text in the table."""
        if text not in self.places:
            self.places[text] = len(self.texts)
            self.texts.append(text)
        return self.places[text]


def pack_row(file, index, row, stack, texts):
    """A row as a list: place, kind, line, node, page, the cells that changed, and more by its kind."""
    node = stack.by_name.get(row.node)
    steps = [number for step in file.steps[index] for number in step]
    packed = [-1 if row.place is None else row.place, KINDS.index(row.kind), row.line,
              -1 if node is None else node.number, -1 if row.page is None else row.page, steps]
    if row.kind == "unreadable":
        return packed + [texts.place(row.text)]
    if row.kind in MESSAGES:
        return packed + pack_message(file, index, row, node, texts)
    packed += [texts.place(row.caller), row.number]
    if row.kind in SYNCS:
        return packed + [row.start]
    if row.kind in ENDS:
        return packed + [[number for life in file.lives.get(index, []) for number in life]]
    answer, said = row.answer
    words = "" if answer == "bytes" else answer if said is None else "%s %d" % (answer, said)
    return packed + [row.life, row.off or 0, row.length or 0, texts.place(row.told.hex() if row.told else ""),
                     texts.place(words), int(index in file.effective)]


def pack_message(file, index, row, node, texts):
    """What a message's row has behind the rest: its heads, its sentence, its call's row, and the reason."""
    reason = file.reasons.found.get(index)
    said = [texts.place(head) for head in row.heads] + [texts.place(message_words(row, node) + ".")]
    return said + ([-1, -1] if reason is None else [reason.call, texts.place(reason.words)])


def spans_of(rows):
    """Each sync as its first row, its last row and its lane: two that overlap have different lanes."""
    spans, ends, places = [], [], []
    for row in rows:
        places.append(places[-1] if row.place is None and places else row.place or 0)
    syncs = sorted((min(bisect_left(places, row.start), index), index)
                   for index, row in enumerate(rows) if row.kind in SYNCS)
    for begin, end in syncs:
        lane = next((lane for lane, last in enumerate(ends) if last < begin), len(ends))
        ends[lane:lane + 1] = [end]
        if lane < MOST_LANES:
            spans.append([begin, end, lane])
    return spans


def openings(file):
    """What is known of the bytes that each page had at the start."""
    found = {}
    for page, column in file.state.columns.items():
        opening = column.plain.opening
        if opening.known:
            value, known = opening.value.to_bytes(opening.size, "big"), opening.known.to_bytes(opening.size, "big")
            found[page] = "".join("%02x" % byte if sure else ".." for byte, sure in zip(value, known))
    return found


def pack_file(file, stack, texts, room):
    """A file's history, as many rows as there is room for."""
    rows = file.part.rows[:room]
    return {
        "name": file.part.name, "pages": file.pages, "whole": file.whole, "openings": openings(file),
        "rows": [pack_row(file, index, row, stack, texts) for index, row in enumerate(rows)],
        "spans": spans_of(rows), "left": len(file.part.rows) - len(rows),
        "said": file.words()}


def pack_findings(check):
    """What is wrong, each with its file and row if it has them."""
    parts = ["file %s" % file.part.name for file in check.files]
    return [[parts.index(finding.part) if finding.index is not None else -1,
             -1 if finding.index is None else finding.index, finding.words(), finding.text]
            for finding in check.findings[:MOST_FINDINGS]]


def first_shown(check, name, page):
    """The file and page to begin with: those asked for, else of the first fault, else the busiest page."""
    at = next((at for at, file in enumerate(check.files) if file.part.name == name), 0)
    if name is None and check.findings and check.findings[0].index is not None:
        at = pack_findings(check)[0][0]
    rows = check.files[at].part.rows
    if page is None:
        counts = {}
        for row in rows:
            if row.page is not None:
                counts[row.page] = counts.get(row.page, 0) + 1
        page = max(sorted(counts), key=counts.get, default=0)
        if check.findings and check.findings[0].index is not None and name is None:
            broken = rows[check.findings[0].index].page
            page = page if broken is None else broken
    return at, page


def pack_node(node):
    """A node of the tree; the ground has no parent."""
    return {"name": node.name, "kind": node.kind, "machine": node.machine, "depth": node.depth,
            "frames": node.frames, "parent": node.parent.number if node.parent else -1}


def pack(check, name, page):
    """All that the page needs, as one value."""
    stack, texts, room, files = check.stack, Texts(), MOST_ROWS, []
    for file in check.files:
        files.append(pack_file(file, stack, texts, room))
        room -= len(files[-1]["rows"])
    at, page = first_shown(check, name, page)
    return {
        "pageSize": stack.page_size, "traced": check.traced, "kinds": KINDS, "messages": len(MESSAGES),
        "orders": ORDERS, "syncs": SYNCS, "accesses": ACCESSES,
        "columns": [node.number for node in stack.columns()],
        "nodes": [pack_node(node) for node in stack.nodes],
        "files": files, "findings": pack_findings(check), "found": len(check.findings),
        "notices": beside(check),
        "texts": texts.texts, "file": at, "page": page}


def read_part(name):
    """A part of the page, which lies beside this file."""
    return (HERE / name).read_text(encoding="utf-8")


def fill(name, scripts, packed):
    """A page as a text: a part with a style, scripts and data put in."""
    data = json.dumps(packed, separators=(",", ":")).replace("<", "\\u003c")
    text, script = read_part(name), "".join(read_part(name) for name in scripts)
    for mark, part in (("STYLE", read_part("page.css")), ("SCRIPT", script), ("DATA", data)):
        before, after = text.split("/*%s*/" % mark)
        text = before + part + after
    return text


def make(check, name=None, page=None):
    """The page as a text."""
    return fill("page.html", SCRIPTS, pack(check, name, page))
