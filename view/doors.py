"""The doors of a run's replicon objects: which each has, by the script, and where it went on by another one.

A report has no objects. So a line of a replicon object is looked for among its client's events, in order: those
of a line are the first behind the lines before that are its call, at its doors, with its answer. If nothing is
found, nothing is told.
"""

ACCESSES = ("read", "write", "clear")


class Line:
    """A call line of the script: its number, its client, its words without the client, and its answer."""

    def __init__(self, number, client, words, answer):
        self.number, self.client, self.words, self.answer = number, client, words, answer
        self.call = words[0]


class Held:
    """A client's open replicon object: its file, and the views of the doors that are left."""

    def __init__(self, file, doors):
        self.file, self.doors = file, list(doors)


def called_lines(script, report):
    """The script's lines that are answered in the report, in their order."""
    told = {(client, number): answer for client, lines in report.clients.items() for _, number, answer in lines}
    found = []
    for number, text in enumerate(script.splitlines(), 1):
        client, *words = text.split(" ")
        if words and (client, str(number)) in told:
            found.append(Line(number, client, words, told[(client, str(number))]))
    return found


def bound_objects(lines):
    """The replicon objects that were bound: pairs of a path and the object."""
    return [(line.words[1], Held(line.words[2], line.words[3].split("/"))) for line in lines
            if line.call == "replicate" and line.answer == "done"]


def asked_words(row):
    """The words that a script's line has for a row's access, behind its call and its object."""
    words = [str(row.page)] + ([] if row.off is None else [str(row.off)])
    if row.kind == "read":
        words.append(str(row.length))
    return words + ([row.told.hex()] if row.kind == "write" else [])


def is_call(row, line, node):
    """Whether a row is a line's call at a node."""
    if row.kind != line.call or row.node != node:
        return False
    return row.kind == "open" or asked_words(row) == line.words[2:]


def is_answered(row, answer):
    """Whether a row's answer is a line's, or the line's is that a call was lost."""
    kind, said = row.answer
    words = row.told.hex() if kind == "bytes" else kind if said is None else "%s %d" % (kind, said)
    return answer == words or answer.startswith("link ")


class Followed:
    """A client's lines, followed along its events: `at` has how many events of each file are behind."""

    def __init__(self, client, report, bound):
        self.client, self.bound, self.objects, self.said = client, bound, {}, []
        self.at = {part.name: 0 for part in report.files}
        self.rows = {part.name: [row for row in part.rows if row.caller == client and row.kind != "unreadable"]
                     for part in report.files}

    def tell(self, line, words):
        """Says a sentence of a line."""
        self.said.append((line.number, "client %s, line %d of the script: %s" % (self.client, line.number, words)))

    def opens_of(self, held, line):
        """The place behind the events of a line that opened an object; None if there are none such."""
        rows, many = self.rows[held.file], len(held.doors)
        for start in range(self.at[held.file], len(rows) - many + 1):
            opens = zip(rows[start:], held.doors)
            if all(is_call(row, line, view) for row, view in opens) and is_answered(rows[start], line.answer):
                return start + many
        return None

    def opened(self, line):
        """Follows an `open` that was done, if its path was one of a replicon object."""
        name, path = line.words[1:3]
        for held in [held for bound_at, held in self.bound if bound_at == path and held.file in self.rows]:
            end = self.opens_of(held, line)
            if end is not None:
                self.objects[name], self.at[held.file] = Held(held.file, held.doors), end
                self.tell(line, "%s has doors to %s at %s" % (name, held.file, " and ".join(held.doors)))
                return

    def rows_of(self, held, line, doors):
        """The events of a line's access by these doors, in order; None if there are none such."""
        rows = self.rows[held.file]
        for start in range(self.at[held.file], len(rows)):
            found = []
            for row, node in zip(rows[start:start + len(doors)], doors):
                if not is_call(row, line, node):
                    break
                found.append(row)
                if row.answer[0] != "revoked":
                    break
            if found and is_answered(found[-1], line.answer):
                self.at[held.file] = start + len(found)
                return found
        return None

    def accessed(self, line):
        """Follows an access of a replicon object: the doors that it dropped.

        A line that lost a call may have dropped doors and have no event behind: then a later line tells of it.
        """
        name, held = line.words[1], self.objects[line.words[1]]
        for gone in range(len(held.doors)):
            found = self.rows_of(held, line, held.doors[gone:])
            if found is not None:
                for view in held.doors[:gone]:
                    self.tell(line, "%s has no door at %s any more: a line before lost a call" % (name, view))
                del held.doors[:gone]
                for row in found[:-1]:
                    view = held.doors.pop(0)
                    self.tell(line, "%s drops its door at %s, whose life was over at place %d, and goes on at %s" % (
                        name, view, row.place, held.doors[0]))
                return

    def follow(self, line):
        """Follows a line."""
        if line.call == "open" and line.answer.startswith("life "):
            self.opened(line)
        elif line.call == "copy" and line.answer == "done" and line.words[1] in self.objects:
            held = self.objects[line.words[1]]
            self.objects[line.words[2]] = Held(held.file, held.doors)
        elif line.call == "drop" and line.answer == "done":
            self.objects.pop(line.words[1], None)
        elif line.call in ACCESSES and line.words[1] in self.objects:
            self.accessed(line)


def told_doors(script, report):
    """What the script and the histories tell of doors, as sentences in the order of the script's lines."""
    lines = called_lines(script, report)
    bound, said = bound_objects(lines), []
    for client in report.clients:
        followed = Followed(client, report, bound)
        for line in lines:
            if line.client == client:
                followed.follow(line)
        said += followed.said
    return [words for _, words in sorted(said, key=lambda told: told[0])]
