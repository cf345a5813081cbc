"""The report of a run: its parts and lines, as they are told. Nothing is checked here."""

import re

MESSAGES = ("page_in", "zero_fill", "page_out", "write_out", "sync", "flush_back", "deny_writes", "write_back",
            "delete_range")
ENDS = ("destroy_cache", "done_with_pager_object")
SYNCS = ("synced", "cleaned")
NUMBER = re.compile(r"(0|[1-9][0-9]*)\Z")
HEX = re.compile(r"([0-9a-f]{2})+\Z")
HEAD = re.compile(r"[0-9a-f]{48}\Z")


class ReportError(Exception):
    """A text that has no history."""


class Row:
    """One event of a file. `kind` is a message's operation, an access, a sync, an end, or `unreadable`.

    `told` is what the line says of bytes: those that a read answers, or that a write writes.
    """

    __slots__ = ("line", "text", "place", "kind", "node", "page", "caller", "number", "life", "off", "length",
                 "told", "answer", "start", "heads")

    def __init__(self, line, text):
        self.line, self.text = line, text
        self.kind, self.place = "unreadable", None
        self.node = self.page = self.caller = self.number = self.life = self.off = self.length = None
        self.told = self.answer = self.start = self.heads = None


class NameRow:
    """One entry of the names' history."""

    def __init__(self, line, words):
        self.line, self.place, self.caller, self.number = line, int(words[0]), words[1], int(words[2])
        self.call, self.path, self.answer = words[3], words[4], " ".join(words[5:])


class FilePart:
    """The history of one file: its name, the line that begins it, and its rows."""

    def __init__(self, name, line):
        self.name, self.line, self.rows = name, line, []


class Report:
    """A report: what each client was told, the files' histories, the names' history, and the end.

    `odd` has the lines that are none of a report, with their numbers; `lines` is how many there are, and
    `heading` the line that begins each client's part.
    """

    def __init__(self):
        self.clients, self.files, self.names = {}, [], None
        self.closing, self.status, self.odd = [], None, []
        self.lines, self.heading = 0, {}

    def is_traced(self):
        """Whether the report has a line of a page message."""
        return any(row.heads for part in self.files for row in part.rows)


def number_of(word):
    """The number that a word is; ValueError if it is none."""
    if not NUMBER.match(word):
        raise ValueError(word)
    return int(word)


def hex_of(word):
    """The bytes that a word of hex is; ValueError if it is none."""
    if not HEX.match(word):
        raise ValueError(word)
    return bytes.fromhex(word)


def read_message(row, words):
    """Takes the words of a page message into a row: PLACE NODE OPERATION PAGE FIRST SECOND."""
    _, row.node, row.kind, page, first, second = words
    row.page, row.heads = number_of(page), (first, second)
    if not HEAD.match(first) or not HEAD.match(second):
        raise ValueError("head")


def read_access(row, words):
    """Takes the words behind LIFE into a row: an access and its answer."""
    row.kind = words[0]
    if row.kind == "open":
        said = words[1:]
    elif row.kind == "clear":
        row.page, said = number_of(words[1]), words[2:]
    else:
        row.page, row.off = number_of(words[1]), number_of(words[2])
        if row.kind == "read":
            row.length, said = number_of(words[3]), words[4:]
        else:
            row.told, said = hex_of(words[3]), words[4:]
            row.length = len(row.told)
    row.answer = read_answer(row, said)


def read_answer(row, said):
    """An access's answer: `done`, or `life` or `revoked` with a number, or `bytes`."""
    if len(said) == 2 and said[0] == "revoked" and row.kind != "open":
        return "revoked", number_of(said[1])
    if row.kind == "open" and len(said) == 2 and said[0] == "life":
        return "life", number_of(said[1])
    if row.kind == "read" and len(said) == 1:
        row.told = hex_of(said[0])
        return "bytes", None
    if row.kind in ("write", "clear") and said == ["done"]:
        return "done", None
    raise ValueError("answer")


def read_call(row, words):
    """Takes the words of a caller's event into a row: PLACE CALLER NUMBER NODE and what it was."""
    row.caller, row.number, row.node = words[1], number_of(words[2]), words[3]
    if words[4] in ENDS and words[5:] == ["done"]:
        row.kind = words[4]
    elif words[4] in SYNCS and words[6:] == ["done"]:
        row.kind, row.start = words[4], number_of(words[5])
    elif words[5] in ("open", "read", "write", "clear"):
        row.life = number_of(words[4])
        read_access(row, words[5:])
    else:
        raise ValueError("event")


def read_row(line, text):
    """The row of a line of a file's part. One that is none of the forms is `unreadable`."""
    row, words = Row(line, text), text.split(" ")
    try:
        row.place = number_of(words[0])
        if len(words) == 6 and words[2] in MESSAGES:
            read_message(row, words)
        else:
            read_call(row, words)
    except (ValueError, IndexError):
        place = row.place
        row = Row(line, text)
        row.place = place
    return row


def read_name_row(report, line, text):
    """Takes a line of the names' history into the report."""
    words = text.split(" ")
    if len(words) >= 6 and NUMBER.match(words[0]) and NUMBER.match(words[2]):
        report.names.append(NameRow(line, words))
    else:
        report.odd.append((line, text))


def read_heading(report, line, words):
    """Takes a line that begins a part, or stands behind all of them. False if it is none."""
    if words[0] == "client" and len(words) == 2:
        report.heading[words[1]] = line
        return report.clients.setdefault(words[1], [])
    if words[0] == "file" and len(words) == 2:
        report.files.append(FilePart(words[1], line))
        return report.files[-1]
    if words == ["names"]:
        report.names = []
        return report.names
    if words[0] == "closing" and len(words) > 2:
        report.closing.append((line, words[1], " ".join(words[2:])))
        return None
    if words[0] == "bay" and len(words) == 3:
        return None
    if words[0] == "status" and len(words) == 2 and NUMBER.match(words[1]):
        report.status = int(words[1])
        return None
    return False


def looks_like_report(text):
    """Whether a text begins as the report of a run does."""
    return re.match(r"(client|file) [a-z][a-z0-9_]*\n", text) is not None


def read_report(text):
    """The report of a text."""
    report, part = Report(), None
    for line, said in enumerate(text.splitlines(), 1):
        words, report.lines = said.split(" "), line
        if not words[0].isdigit():
            heading = read_heading(report, line, words)
            if heading is not False:
                part = heading
            elif isinstance(part, FilePart):
                part.rows.append(read_row(line, said))
            else:
                report.odd.append((line, said))
        elif isinstance(part, FilePart):
            part.rows.append(read_row(line, said))
        elif part is not None and part is report.names:
            read_name_row(report, line, said)
        elif part is not None:
            part.append((line, words[0], " ".join(words[1:])))
        else:
            report.odd.append((line, said))
    if not report.files:
        raise ReportError("the report has no history of a file%s" % (
            "" if report.status is None else ": it ended with status %d" % report.status))
    return report
