"""The texts that the tools read and write, and what they say of a check."""

import sys

MOST_TOLD = 20


def read_text(name):
    """The text of a file, or of the standard input."""
    if name == "-":
        return sys.stdin.read()
    with open(name, encoding="ascii", errors="backslashreplace") as file:
        return file.read()


def write_text(name, text):
    """Writes a text to a file, or to the standard output."""
    if name is None:
        sys.stdout.write(text)
        return
    with open(name, "w", encoding="utf-8") as file:
        file.write(text)


def first_of(said, behind):
    """The first sentences, and how many more there are, in words."""
    return said[:MOST_TOLD] + ([behind % (len(said) - MOST_TOLD)] if len(said) > MOST_TOLD else [])


def of_lines(check):
    """What is told of the script's lines: those that lost a call, and the doors of objects."""
    return first_of([loss.words() for loss in check.losses], "and %d more lines lost a call") + first_of(
        check.doors, "and %d more of doors")


def beside(check):
    """What is told beside the check: the notices of disks, and what is told of lines."""
    return [notice.words() for notice in check.notices] + of_lines(check)


def verdict(check):
    """What was found, as lines: each file's rows, or what is wrong; and what is told beside."""
    said = [finding.words() for finding in check.findings[:MOST_TOLD]]
    if len(check.findings) > MOST_TOLD:
        said.append("and %d more, which may follow from the first" % (len(check.findings) - MOST_TOLD))
    return (said or [file.words() for file in check.files]) + beside(check)
