"""The notices of a run: what became of the disks in mirrors, as the program tells it on the standard error."""

SENTENCES = {
    "bad": "its blocks are no image, and not blank: it was left out, and nothing was written to it",
    "out": "it is left out: it could not be opened, or refused a call",
    "made": "it was blank, and got every page",
    "copied": "it was behind, and got what it lacked",
}


class Notice:
    """What is told of one disk of a file."""

    def __init__(self, file, disk, word):
        self.file, self.disk, self.word = file, disk, word

    def words(self):
        """The notice as a sentence."""
        return "disk %s of file %s: %s (%s)" % (self.disk, self.file, self.word, SENTENCES[self.word])


def read_notice(line):
    """The notice that a line is, or None."""
    words = line.split(" ")
    if len(words) != 4 or words[0] != "mirror" or words[3] not in SENTENCES:
        return None
    return Notice(*words[1:])


def read_notices(text):
    """The notices among the lines of a text, in their order."""
    return [notice for notice in map(read_notice, text.splitlines()) if notice is not None]
