"""The histories as lines for a terminal: one for each event, with what each node has of its page then."""

from sentences import row_words
from texts import of_lines

SIGNS = ("-", "r", "w")
LEGEND = "- nothing, r may read, w may write, * changed: not what its pager has, | the ground"


class Sheet:
    """Each node's right and place on each page, along the events of one file."""

    def __init__(self, file):
        self.file, self.nodes = file, file.stack.nodes
        self.cells, self.newest = {}, {}

    def take(self, index, row):
        """Moves the cells that an event changed."""
        for number, right, at in self.file.steps[index]:
            self.cells[row.page, number] = right, at
        if row.kind in ("write", "clear") and index in self.file.effective:
            self.newest[row.page] = row.place

    def sign(self, page, node):
        """What a node has of a page."""
        if node.parent is None:
            return "|"
        right, at = self.cells.get((page, node.number), (0, 0))
        below = self.cells.get((page, node.parent.number), (0, 0))[1]
        return SIGNS[right] + ("*" if right and at != below else "")


def table(lines, last):
    """Lines of words, each column as wide as its widest word; the last one is not filled up."""
    widths = [max(len(line[at]) for line in lines) for at in range(last)]
    return ["  ".join([word.rjust(width) if at < 3 else word.ljust(width)
                       for at, (word, width) in enumerate(zip(line, widths))] + line[last:]).rstrip()
            for line in lines]


def heading(columns):
    """The lines over the columns: the nodes, their pagers and their machines."""
    names = [["place", "page", "newest"] + [node.name for node in columns] + ["event"]]
    return names if not columns else names + [
            ["", "", "pager"] + [node.parent.name if node.parent else "" for node in columns] + [""],
            ["", "", "machine"] + [node.machine for node in columns] + [""]]


def event_lines(file, columns, page, wrong):
    """The lines of a file's events, or of those of one page and those of no page."""
    sheet, found = Sheet(file), []
    for index, row in enumerate(file.part.rows):
        sheet.take(index, row)
        if page is not None and row.page not in (None, page):
            continue
        reason = file.reasons.found.get(index)
        behind = "" if reason is None else " (for place %d)" % file.part.rows[reason.call].place
        found.append([
            ("! " if index in wrong else "") + ("?" if row.place is None else str(row.place)),
            "" if row.page is None else str(row.page), str(sheet.newest.get(row.page, ""))] + [
                "" if row.page is None else sheet.sign(row.page, node) for node in columns] + [
                    row_words(row, file.stack) + behind])
    return found


def file_lines(check, file, page):
    """A file's part: what was followed, the columns, and the events."""
    columns = file.stack.columns() if file.whole else []
    wrong = {finding.index for finding in check.findings if finding.part == "file %s" % file.part.name}
    lines = heading(columns) + event_lines(file, columns, page, wrong)
    head = "file %s, pages of %d bytes%s" % (file.part.name, file.stack.page_size, "" if file.whole else ", not traced")
    told = [notice.words() for notice in check.notices if notice.file == file.part.name]
    return [head] + told + ([LEGEND] if file.whole else []) + table(lines, 3 + len(columns))


def draw(check, name, page):
    """The text: what is told of the script's lines, and then all files, or the one that is named."""
    told = of_lines(check)
    parts = ([told] if told else []) + [file_lines(check, file, page) for file in check.files if name in (None, file.part.name)]
    return "\n\n".join("\n".join(lines) for lines in parts) + "\n"
