"""A picture of one page's history: an SVG that stands alone, drawn as the page draws it."""

from xml.sax.saxutils import escape

from heads import DATA, ORDERS, read_head
from page import first_shown, spans_of
from report import ENDS, MESSAGES, SYNCS
from rules import NOTHING, READ, WRITE

MOST_ROWS = 80
HIGH, COLUMN, PLACE, CALL, NEWEST, SYNC = 30, 128, 46, 232, 62, 44
PITCH, BOX = 44, 30
STYLE = """
  svg { --back: #fbfbf9; --panel: #f2f3f0; --ink: #1c2227; --soft: #5d6770; --line: #d9dcd8; --faint: #b9bfc4;
    --read: #d6e6f5; --edge: #3a78b0; --write: #b4530f; --core: #fbe3cf; --ground: #7a848c; --bad: #a8201a;
    --badback: #fbe9e7; --good: #22693a; --band: #f3f4f2; }
  @media (prefers-color-scheme: dark) { svg { --back: #14181c; --panel: #1b2025; --ink: #e4e8eb; --soft: #9aa6b0;
    --line: #2c333a; --faint: #4a545d; --read: #1d3d5a; --edge: #73b0e6; --write: #e58e4e; --core: #5a2c0c;
    --ground: #8a959e; --bad: #ff9b92; --badback: #3a1d1b; --good: #7fcf98; --band: #191e23; } }
  text { font: 12px ui-monospace, "SF Mono", Consolas, "DejaVu Sans Mono", monospace; fill: var(--ink); }
  .sans { font: 12px system-ui, "Segoe UI", "Liberation Sans", Arial, sans-serif; fill: var(--soft); }
  .bold { font-weight: 700; } .soft { fill: var(--soft); } .bad { fill: var(--bad); }
  .mid { text-anchor: middle; } .end { text-anchor: end; } .kind { font-size: 9.5px; }
  .name { font-size: 10.5px; text-anchor: middle; paint-order: stroke; stroke: var(--back); stroke-width: 4px; }
  .back { fill: var(--back); } .band { fill: var(--band); } .badrow { fill: var(--badback); }
  .box { fill: var(--panel); stroke: var(--faint); } .link { fill: none; stroke: var(--faint); stroke-width: 1.5; }
  .rule { stroke: var(--line); } .lead { stroke: var(--faint); stroke-dasharray: 2 3; }
  .nothing { stroke: var(--faint); stroke-dasharray: 1 4; } .read { fill: var(--read); }
  .edge { stroke: var(--edge); stroke-width: 1.5; fill: none; }
  .full { fill: var(--write); } .core { fill: var(--core); }
  .ground { stroke: var(--ground); stroke-width: 1.5; fill: none; }
  .thin { stroke: var(--ink); fill: none; } .thick { stroke: var(--ink); stroke-width: 3.4; fill: none; }
  .far { stroke-dasharray: 7 3; }
  .tip { fill: var(--ink); } .mark { fill: var(--back); stroke: var(--ink); stroke-width: 1.6; }
  .solid { fill: var(--ink); } .span { stroke: var(--good); stroke-width: 2; fill: none; } .dot { fill: var(--good); }
"""


def bar(x, top, bottom, right, changed):
    """A node's right between two heights."""
    if right == NOTHING:
        return '<path class="nothing" d="M%g %gV%g"/>' % (x, top, bottom)
    high = bottom - top
    core = '<rect class="core" x="%g" y="%g" width="3" height="%g"/>' % (x - 1.5, top, high) if changed else ""
    if right == WRITE:
        return '<rect class="full" x="%g" y="%g" width="11" height="%g"/>' % (x - 5.5, top, high) + core
    return '<rect class="read" x="%g" y="%g" width="10" height="%g"/><path class="edge" d="M%g %gV%gM%g %gV%g"/>' % (
        x - 5, top, high, x - 5, top, bottom, x + 5, top, bottom) + core


def arrow(begin, end, y, thick, far=False):
    """A frame that goes from a column to another one, thick if it brings the page, and broken if in a packet."""
    way, size, half = (1 if end > begin else -1), (9 if thick else 6), (5 if thick else 3)
    begin, end = begin + 8 * way, end - 8 * way
    look = ("thick" if thick else "thin") + (" far" if far else "")
    return '<path class="%s" d="M%g %gH%g"/><path class="tip" d="M%g %gl%g %gv%gz"/>' % (
        look, begin, y, end - way * size, end, y, -way * size, -half, 2 * half)


def call_words(row):
    """A caller's event, as it is written beside its row, and its answer."""
    if row.kind in SYNCS:
        return "%s from %d" % (row.kind, row.start), "done"
    if row.kind in ENDS:
        return row.kind, "done"
    answer, said = row.answer
    answer = short(row.told) if answer == "bytes" else answer if said is None else "%s %d" % (answer, said)
    parts = {"open": [], "clear": [row.page], "read": [row.page, row.off, row.length],
             "write": [row.page, row.off, short(row.told or b"")]}[row.kind]
    return " ".join([row.kind] + [str(part) for part in parts]), answer


def short(told):
    """Bytes as hex, cut if they are many."""
    return told.hex() if len(told) <= 6 else told[:4].hex() + "…"


class Picture:
    """The picture of one file and page. `parts` has its elements so far."""

    def __init__(self, check, file, page):
        self.stack, self.file, self.page, self.parts = check.stack, file, page, []
        self.columns = self.stack.columns()
        self.left = PLACE + CALL
        self.x = {node.number: self.left + (at + 0.5) * COLUMN for at, node in enumerate(self.columns)}
        self.right = self.left + COLUMN * len(self.columns)
        self.wide = self.right + NEWEST + SYNC
        self.deepest = max(node.depth for node in self.stack.nodes)
        self.foot = 28 + (self.deepest + 1) * PITCH
        self.rights = [WRITE] + [NOTHING] * (len(self.stack.nodes) - 1)
        self.at = [0] * len(self.stack.nodes)
        self.wrong = {finding.index for finding in check.findings if finding.part == "file " + file.part.name}
        self.newest = None

    def add(self, text, *values):
        """Adds an element."""
        self.parts.append(text % values)

    def text(self, x, y, style, words):
        """Adds a text."""
        self.add('<text x="%g" y="%g" class="%s">%s</text>', x, y, style, escape(words))

    def draw_tree(self):
        """The nodes above their columns, by machine."""
        begin = 0
        for at in range(1, len(self.columns) + 1):
            machine = self.columns[begin].machine
            if at == len(self.columns) or self.columns[at].machine != machine:
                left, right = self.left + begin * COLUMN, self.left + at * COLUMN
                self.add('<rect class="band" x="%g" y="4" width="%g" height="%g" rx="6"/>',
                         left + 3, right - left - 6, self.foot - 4)
                self.text((left + right) / 2, 18, "sans mid", "machine " + machine)
                begin = at
        tops = {node.number: 26 + (self.deepest - node.depth) * PITCH for node in self.stack.nodes}
        for node in self.stack.nodes[1:]:
            pager = node.parent.number
            beside = [other for other in self.stack.nodes[:pager]
                      if other.depth == node.parent.depth and other.children]
            self.add('<path class="link" d="M%g %gV%gH%gV%g"/>', self.x[node.number], tops[node.number] + BOX,
                     tops[pager] - 4 - 3 * (len(beside) % 3), self.x[pager], tops[pager])
        for node in self.stack.nodes:
            x, top = self.x[node.number], tops[node.number]
            self.add('<rect class="box" x="%g" y="%g" width="118" height="%g" rx="4"/>', x - 59, top, BOX)
            self.text(x, top + 13, "bold mid", node.name)
            self.text(x, top + 25, "sans mid kind", node.kind)

    def draw_heads(self):
        """The names of the columns."""
        y = self.foot + 18
        self.text(PLACE - 10, y, "sans end", "place")
        self.text(PLACE, y, "sans", "call → answer")
        for node in self.columns:
            self.text(self.x[node.number], y, "bold mid", node.name)
        self.text(self.right + 8, y, "sans", "newest")
        self.text(self.right + NEWEST, y, "sans", "syncs")
        self.add('<path class="rule" d="M0 %gH%g"/>', self.foot + 26, self.wide)

    def draw_bars(self, y, before, changed_before):
        """The rights of all nodes, before and after a row."""
        for node in self.stack.nodes:
            x, right, changed = self.x[node.number], self.rights[node.number], self.changed(node)
            old = before[node.number], changed_before[node.number]
            if node.number == 0:
                self.add('<path class="ground" d="M%g %gV%gM%g %gV%g"/>', x - 3, y, y + HIGH, x + 3, y, y + HIGH)
            elif not self.file.whole or old == (right, changed):
                self.add("%s", bar(x, y, y + HIGH, right if self.file.whole else NOTHING, changed))
            else:
                self.add("%s%s", bar(x, y, y + 18, *old), bar(x, y + 18, y + HIGH, right, changed))

    def changed(self, node):
        """Whether a node's copy is not what its pager has."""
        return node.number > 0 and self.rights[node.number] != NOTHING and \
            self.at[node.number] != self.at[node.parent.number]

    def draw_message(self, row, y):
        """The two frames of a message."""
        node = self.stack.by_name.get(row.node)
        if node is None or node.parent is None:
            return
        here, pager = self.x[node.number], self.x[node.parent.number]
        begin, end = (pager, here) if row.kind in ORDERS else (here, pager)
        data = [read_head(head).flags & DATA for head in row.heads]
        self.add("%s%s", arrow(begin, end, y + 15, data[0], node.is_far()),
                 arrow(end, begin, y + 23, data[1], node.is_far()))
        self.text((begin + end) / 2, y + 10, "name", row.kind)

    def draw_call(self, row, y, effective):
        """A caller's event: its words, and a mark at its node."""
        words, answer = call_words(row)
        self.add('<text x="%g" y="%g"><tspan class="bold">%s</tspan> %s <tspan class="soft">→ %s</tspan></text>',
                 PLACE, y + 19, escape(row.caller), escape(words), escape(answer))
        if row.node not in self.stack.by_name:
            return
        x, middle = self.x[self.stack.by_name[row.node].number], y + 15
        self.add('<path class="lead" d="M%g %gH%g"/>', self.left, middle, x - 9)
        if row.kind == "read" and effective:
            self.add('<circle class="mark" cx="%g" cy="%g" r="5"/>', x, middle)
        elif row.kind in ("write", "clear") and effective:
            self.add('<path class="mark%s" d="M%g %gl6.5 6.5l-6.5 6.5l-6.5 -6.5z"/>',
                     " solid" if row.kind == "write" else "", x, middle - 6.5)
        elif row.kind == "open":
            self.add('<rect class="mark" x="%g" y="%g" width="8" height="8"/>', x - 4, middle - 4)
        elif row.kind in SYNCS:
            self.add('<path class="mark" d="M%g %gh12l-6 9z"/>', x - 6, middle - 4.5)
        else:
            self.add('<path class="mark" d="M%g %gl10 10m0 -10l-10 10"/>', x - 5, middle - 5)

    def draw_row(self, index, row, y):
        """One row, and what it changes."""
        if index in self.wrong:
            self.add('<rect class="badrow" x="0" y="%g" width="%g" height="%g"/>', y, self.wide, HIGH)
        before, changed = list(self.rights), [self.changed(node) for node in self.stack.nodes]
        if row.page == self.page:
            for number, right, at in self.file.steps[index]:
                self.rights[number], self.at[number] = right, at
            if row.kind in ("write", "clear") and index in self.file.effective:
                self.newest = row.place
        self.draw_bars(y, before, changed)
        self.text(PLACE - 10, y + 19, "end bad bold" if index in self.wrong else "end soft",
                  "?" if row.place is None else str(row.place))
        if row.kind in MESSAGES and row.page == self.page:
            self.draw_message(row, y)
        elif row.kind in MESSAGES:
            self.text(PLACE, y + 19, "soft", "%s, page %d" % (row.kind, row.page))
        elif row.kind != "unreadable":
            self.draw_call(row, y, index in self.file.effective)
        moved = self.newest is not None and self.newest == row.place
        self.text(self.right + 10, y + 19, "bold" if moved else "soft",
                  "·" if self.newest is None else str(self.newest))

    def draw_spans(self, spans, top, shown):
        """The syncs, each from its start to its end."""
        for begin, end, lane in spans:
            x, first, last = self.right + NEWEST + 10 + 12 * lane, top + begin * HIGH + 4, top + end * HIGH + 15
            if end < shown:
                self.add('<path class="span" d="M%g %gh8M%g %gV%g"/><circle class="dot" cx="%g" cy="%g" r="4"/>',
                         x - 4, first, x, first, last, x, last)

    def draw_legend(self, y):
        """What the signs mean."""
        top, foot = y - 12, y + 4
        signs = [(bar(0, top, foot, READ, False), 12, "may read", 78),
                 (bar(0, top, foot, WRITE, False), 12, "may write", 82),
                 (bar(0, top, foot, WRITE, True), 12, "changed: not what its pager has", 206),
                 (arrow(-16, 26, y - 4, False), 26, "a frame", 84),
                 (arrow(-16, 26, y - 4, True), 26, "with the page", 0)]
        x = 20
        for sign, sign_wide, words, wide in signs:
            self.add('<g transform="translate(%g 0)">%s</g>', x, sign)
            self.text(x + sign_wide, y, "sans", words)
            x += wide + 24

    def draw(self, spans):
        """The whole picture, as a text."""
        rows = self.file.part.rows[:MOST_ROWS]
        top = self.foot + 28
        high = top + len(rows) * HIGH + 40
        self.draw_tree()
        self.draw_heads()
        for index, row in enumerate(rows):
            self.draw_row(index, row, top + index * HIGH)
        self.draw_spans(spans, top, len(rows))
        self.draw_legend(top + len(rows) * HIGH + 24)
        if len(rows) < len(self.file.part.rows):
            self.text(self.wide - 10, top + len(rows) * HIGH + 24, "sans end", "%d more events are left out" % (
                len(self.file.part.rows) - len(rows)))
        head = '<svg xmlns="http://www.w3.org/2000/svg" viewBox="0 0 %g %g" width="%g" height="%g" role="img">' % (
            self.wide, high, self.wide, high)
        title = "<title>The history of page %d of file %s</title>" % (self.page, self.file.part.name)
        return "\n".join([head, title, "<style>%s</style>" % STYLE, '<rect class="back" width="100%" height="100%"/>']
                         + self.parts + ["</svg>", ""])


def draw(check, name=None, page=None):
    """The picture of a file's page: those asked for, or those with which the page begins."""
    at, page = first_shown(check, name, page)
    file = check.files[at]
    return Picture(check, file, page).draw(spans_of(file.part.rows))
