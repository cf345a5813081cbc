"""Two reports over one stack: where each file's histories part."""

import page
from sentences import row_words


class Difference:
    """One file's first difference: its name, the row where it is, or None, and what stands there in each report."""

    def __init__(self, one, other):
        self.name = one.part.name
        mine, theirs = one.part.rows, other.part.rows
        both = [index for index, (row, twin) in enumerate(zip(mine, theirs)) if row.text != twin.text]
        ends = None if len(mine) == len(theirs) else min(len(mine), len(theirs))
        self.index, self.events, self.page = both[0] if both else ends, len(mine), None
        if self.index is not None:
            self.page = (mine if self.index < len(mine) else theirs)[self.index].page
            self.said = said_at(self.index, one, other)

    def words(self):
        """The difference as a line of text."""
        if self.index is None:
            return "file %s: the same %d events" % (self.name, self.events)
        return "file %s, row %d: %s | %s" % ((self.name, self.index + 1) + tuple(self.said))


def said_at(index, one, other):
    """What stands at a row in two files, in words that differ."""
    rows = [file.part.rows[index] if index < len(file.part.rows) else None for file in (one, other)]
    said = ["the history has ended" if row is None else "place %s, %s" % (row.place, row_words(row, one.stack))
            for row in rows]
    return said if said[0] != said[1] else [row.text for row in rows]


def differences(one, other):
    """The first differences of two checks, for each file that both have."""
    others = {file.part.name: file for file in other.files}
    return [Difference(file, others[file.part.name]) for file in one.files if file.part.name in others]


def marked(check, found, first, asked_page):
    """The page of one of the reports, with the first differences marked; it begins with one of them."""
    at = {difference.name: difference.index for difference in found}
    begin = first.page if asked_page is None else asked_page
    packed = page.pack(check, first.name, begin if first.index is not None else asked_page)
    for file in packed["files"]:
        file["differs"] = -1 if at.get(file["name"]) is None else at[file["name"]]
    packed["pair"] = True
    return page.fill("page.html", page.SCRIPTS, packed)


def make(checks, names, name, asked_page):
    """The page with two reports side by side, as a text."""
    found = differences(*checks)
    parted = [one for one in found if one.index is not None and name in (None, one.name)]
    first = next(iter(parted + [one for one in found if name in (None, one.name)]))
    return page.fill("pair.html", ("pair.js",), {
        "names": names, "pages": [marked(check, found, first, asked_page) for check in checks],
        "differences": [[one.name, -1 if one.index is None else one.index, one.words()] for one in found]})
