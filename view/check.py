"""Whether a history is one of a coherent file system, from its lines alone.

Each file's events are taken in order. Of each it is asked whether its line can be true after those before
it. What is wrong is told in words, beside the row. A row that is wrong is taken as it is told, so rows
after it may be wrong for its sake alone: the first counts.
"""

from collections import Counter

import doors
import heads
import losses
import names
import rules
import told
from reasons import Reasons
from report import ENDS, MESSAGES, NUMBER, SYNCS

MOUNT = "mount"


class Finding:
    """A broken rule: in which file or part, at which row of it, on which line, and why."""

    def __init__(self, part, index, place, line, text):
        self.part, self.index, self.place, self.line, self.text = part, index, place, line, text

    def order(self):
        """What is told first: rows of files, then those of names, then what follows from them."""
        return self.index is None, self.index is None and self.place is None, self.line

    def words(self):
        """The finding as a line of text."""
        place = "" if self.place is None else ", place %d" % self.place
        return "%s%s, line %d: %s" % (self.part, place, self.line, self.text)


class FileCheck:
    """One file's history, followed event by event.

    `whole` is whether its rows are all the events. `steps` has for each row the cells that it changed, as
    node, right and place. `lives` has for each row with a DestroyCache the new lives, and `reasons` for each
    message why it was sent.
    """

    def __init__(self, check, part, number):
        self.check, self.stack, self.part, self.number = check, check.stack, part, number
        self.pages = dict(check.stack.files).get(part.name, 0)
        self.state = rules.State(check.stack, self.pages)
        self.whole = check.traced or all(row.place == index for index, row in enumerate(part.rows))
        self.numbers, self.last = Counter(), {}
        self.before, self.index = -1, 0
        self.steps, self.lives, self.effective = [], {}, set()
        self.reasons = Reasons(check.stack)

    def run(self):
        """Follows all rows."""
        for self.index, row in enumerate(self.part.rows):
            self.state.moves = []
            self.take(row)
            self.steps.append(self.state.moves)

    def fault(self, row, text):
        """Notes that a row breaks a rule."""
        if text:
            self.check.fault(self.part, self.index, row, text)

    def words(self):
        """What was followed, as a line of text."""
        calls = sum(row.caller is not None for row in self.part.rows)
        if self.whole:
            return "file %s: %d events, %d calls and %d messages: they agree" % (
                self.part.name, len(self.part.rows), calls, len(self.part.rows) - calls)
        return "file %s: %d calls agree; it is not traced, so rights and copies were not checked" % (
            self.part.name, calls)

    def take(self, row):
        """Asks whether one event can be, and moves what it moves."""
        if row.place is None:
            self.before += 1
        else:
            self.take_place(row)
        if row.kind == "unreadable":
            return self.fault(row, "the line is none of a history")
        node = self.stack.by_name.get(row.node)
        if row.caller is not None:
            self.take_caller(row)
        if node is None or node.number == 0:
            return self.fault(row, "%s is no layer above the ground" % row.node)
        if row.page is not None and not self.is_in_page(row):
            return self.fault(row, "it is not within one of the %d pages of %d bytes" % (
                self.pages, self.stack.page_size))
        if row.kind in MESSAGES:
            self.take_message(row, node)
        elif row.kind in SYNCS:
            self.take_sync(row)
            self.reasons.call(self.index, row, node)
        elif row.kind in ENDS:
            self.take_end(row, node)
        else:
            self.take_access(row, node)

    def take_place(self, row):
        """Asks whether the places rise, by one if the rows are all the events."""
        if row.place <= self.before:
            self.fault(row, "place %d stands behind place %d" % (row.place, self.before))
        elif self.whole and row.place != self.before + 1:
            self.fault(row, "place %d stands where place %d should" % (row.place, self.before + 1))
        self.before = row.place

    def take_caller(self, row):
        """Asks whether a caller's numbers are in order, and whether the closing sync comes last."""
        if row.caller not in self.check.report.clients and row.caller != MOUNT:
            self.fault(row, "no client is called %s" % row.caller)
        should = self.numbers[row.caller]
        if row.number != should:
            self.fault(row, "it is event %d of %s, and should be %d" % (row.number, row.caller, should))
        self.numbers[row.caller] = row.number + 1
        if row.caller == MOUNT and row.kind not in SYNCS:
            self.fault(row, "mount makes closing syncs alone")
        if row.caller != MOUNT and MOUNT in self.last:
            self.fault(row, "%s calls after the closing sync" % row.caller)

    def is_in_page(self, row):
        """Whether the page is one of the file, and the range, if there is one, within it."""
        fits = row.page < self.pages
        return fits and (row.off is None or row.length > 0 and row.off + row.length <= self.stack.page_size)

    def take_message(self, row, node):
        """A page message between a node and its pager."""
        state = self.state
        right, goes = rules.right_after(state, row, node), rules.brings(state, row, node)
        for text in rules.message_faults(state, row, node):
            self.fault(row, text)
        for text in heads.faults(row, self.number, self.stack.page_size, right, goes, self.check.numbers):
            self.fault(row, text)
        for text in rules.told_faults(state, row, node):
            self.fault(row, text)
        self.reasons.message(self.index, row, node, state.column(row.page), right)
        rules.take_message(state, row, node)

    def take_access(self, row, node):
        """An open, read, write or clear; one of another life does nothing."""
        life = self.state.lives[node.number]
        answer, said = row.answer
        if row.kind == "open":
            if said != life:
                self.fault(row, "the open answers life %d, and that of %s is %d" % (said, node.name, life))
        elif row.life != life:
            if answer != "revoked" or said != life:
                self.fault(row, "it is of life %d, and that of %s is %d: it should answer revoked %d" % (
                    row.life, node.name, life, life))
        elif answer == "revoked":
            self.fault(row, "it answers revoked, and life %d is that of %s" % (life, node.name))
        else:
            self.effective.add(self.index)
            self.take_effect(row, node)
        self.last[row.caller] = row.place

    def take_effect(self, row, node):
        """A read, write or clear of the node's life."""
        self.reasons.call(self.index, row, node)
        column = self.state.column(row.page)
        if self.whole:
            for text in rules.access_faults(self.state, row, node):
                self.fault(row, text)
        if row.kind == "read":
            self.take_read(row, node, column)
        else:
            rules.take_write(self.state, row, node)
        self.state.use(row.page, node)

    def take_read(self, row, node, column):
        """Asks whether a read answers the newest write's bytes, and whether the node's copy is as new."""
        if len(row.told) != row.length:
            return self.fault(row, "it answers %d bytes, and should %d" % (len(row.told), row.length))
        if not column.plain.tell(row.off, row.told):
            has = column.plain.shown(row.off, row.length)
            wrote = "the page was last written at place %d" % (column.newest - 1) if column.newest else \
                "nobody wrote the page before"
            self.fault(row, "it answers %s, and the newest bytes are %s: %s" % (row.told.hex(), has, wrote))
        elif self.whole and column.copies[node.number] and column.at[node.number] < column.newest:
            self.fault(row, "%s has the page %s, and it was written at place %d" % (
                node.name, rules.write_words(column.at[node.number]), column.newest - 1))

    def take_sync(self, row):
        """A sync that is done: it began after its caller's last event, and all is settled since then."""
        if row.start > row.place:
            self.fault(row, "it began at place %d, after its end" % row.start)
        last = max(self.last.values(), default=-1) if row.caller == MOUNT else self.last.get(row.caller, -1)
        if row.start <= last:
            self.fault(row, "it began at place %d, and place %d is before it for %s" % (row.start, last, row.caller))
        if self.whole:
            for text in rules.settled_faults(self.state, row.start):
                self.fault(row, text)
        self.last[row.caller] = row.place

    def take_end(self, row, node):
        """An end of a node's channels: no copy is left there. DestroyCache begins new lives."""
        self.reasons.call(self.index, row, node)
        if self.whole:
            for text in rules.end_faults(self.state, node):
                self.fault(row, text)
        if row.kind == "destroy_cache":
            for below in node.subtree():
                self.state.lives[below.number] += 1
            self.lives[self.index] = [(below.number, self.state.lives[below.number]) for below in node.subtree()]
        self.last[row.caller] = row.place


class Check:
    """A report over its stack, checked. `findings` has what is wrong, in the order of the report's lines.

    `notices` is what was told of the disks in mirrors beside the report; nothing of it is checked. `losses` has
    the lines that lost a call, `doors` what is told of the doors of objects, if the script is given.
    """

    def __init__(self, stack, report, notices=(), script=""):
        self.stack, self.report, self.notices, self.findings = stack, report, list(notices), []
        self.losses = losses.find_losses(report)
        self.doors = doors.told_doors(script, report)
        self.traced = report.is_traced()
        self.numbers = heads.Numbers(report)
        self.files = []
        for part in report.files:
            position = [name for name, _ in stack.files].index(part.name) if part.name in dict(stack.files) else 0
            self.files.append(FileCheck(self, part, position))
        self.check_parts()
        for file in self.files:
            file.run()
        self.check_numbers()
        self.check_lines()
        self.check_losses()
        self.check_told()
        self.check_closing()
        if report.names is not None:
            for row, text in names.faults(stack, report):
                self.findings.append(Finding("names", None, row.place, row.line, text))
        self.findings.sort(key=Finding.order)

    def fault(self, part, index, row, text):
        """Notes that a row of a file breaks a rule."""
        self.findings.append(Finding("file %s" % part.name, index, row.place, row.line, text))

    def check_parts(self):
        """Asks whether the parts are those of the stack, and whether each line is one of a report."""
        has, should = [part.name for part in self.report.files], [name for name, _ in self.stack.files]
        if has != should:
            self.findings.append(Finding("report", None, None, self.report.files[0].line, (
                "it has the files %s, and the stack has %s" % (" ".join(has), " ".join(should)))))
        for line, text in self.report.odd:
            self.findings.append(Finding("report", None, None, line, "the line is none of a report: %s" % text))
        if self.report.status is None:
            self.findings.append(Finding("report", None, None, self.report.lines, "it does not end with a status"))

    def check_numbers(self):
        """Asks whether the operations of an interface have different numbers."""
        twins = self.numbers.twins()
        if twins:
            self.findings.append(Finding("report", None, None, 1, (
                "the heads have one number for %s and %s: %d" % twins)))

    def check_lines(self):
        """Asks whether each client's lines of the script are in order, and each line is one client's."""
        seen = set()
        for client, lines in self.report.clients.items():
            before = 0
            for line, number, _ in lines:
                if not NUMBER.match(number) or int(number) <= before or number in seen:
                    self.findings.append(Finding("client %s" % client, None, None, line, (
                        "line %s of the script is told behind line %d, or twice" % (number, before))))
                else:
                    before = int(number)
                seen.add(number)

    def check_losses(self):
        """Asks whether the lines that lost a call tell what can be, and whether the status tells of them."""
        for client, line, text in losses.faults(self.report):
            self.findings.append(Finding("client %s" % client, None, None, line, text))
        if self.losses and self.report.status == 0:
            self.findings.append(Finding("report", None, None, self.report.lines, (
                "it ends with status 0, and %d of its lines lost a call" % len(self.losses))))

    def check_told(self):
        """Asks whether what each client was told is what its events answer."""
        for client, line, text in told.faults(self.report, self.losses):
            self.findings.append(Finding("client %s" % client, None, None, line, text))

    def check_closing(self):
        """Asks whether each file has its closing sync, or the report tells why it has not."""
        refused = {name for _, name, _ in self.report.closing}
        for part in self.report.files:
            done = any(row.caller == MOUNT for row in part.rows)
            if done == (part.name in refused):
                self.findings.append(Finding("file %s" % part.name, None, None, part.line, (
                    "the closing sync is both done and refused" if done else
                    "the closing sync is neither done nor told to be refused")))
