"""Whether what each client was told is what its events answer. How many there are of each answer is compared."""

from collections import Counter

from names import is_hex
from report import ENDS


def answer_words(row):
    """What an event's caller is told."""
    if row.answer is None:
        return "done"
    answer, said = row.answer
    return row.told.hex() if answer == "bytes" else answer if said is None else "%s %d" % (answer, said)


def is_beyond(answer, told, made):
    """Whether there are more lines with an answer than can come from so many events with it.

    A line is told bytes by an event alone, but may be done without one.
    """
    return told > made and (is_hex(answer) or answer.startswith(("life ", "revoked ")))


def untold(answer, told, made):
    """How many events with an answer are no line's that has it.

    Each event that answers bytes or `done` is one line's. An object may be opened, and a life be refused, in
    the midst of a line.
    """
    return max(made - told, 0) if answer == "done" or is_hex(answer) else 0


def wrong_answers(told, made, ends, lost):
    """The answers of which a client has another number of lines than can be, each with words.

    A line that lost a call tells no answer of it, and the call may have its event: so for each such line one
    event at most may be no other line's. The `ends` of caches and channels go without a link.
    """
    wrong, room = [], lost
    for answer in sorted(set(made) | set(told)):
        left = untold(answer, told[answer], made[answer])
        if is_beyond(answer, told[answer], made[answer]) or left > room:
            behind = ", and %d of its lines lost a call" % lost if lost else ""
            wrong.append((answer, "%d of its lines have the answer %s, and %d of its events%s" % (
                told[answer], answer, made[answer], behind)))
        elif answer == "done" and told[answer] < ends:
            wrong.append((answer, "%d of its lines have the answer done, and it ended caches or channels %d times, "
                                  "which goes without a link" % (told[answer], ends)))
        room = max(room - left, 0)
    return wrong


def faults(report, losses):
    """What is wrong: for each a client, a line of the report, and words."""
    if report.status in (None, 8):
        return []
    made, ends, wrong = {client: Counter() for client in report.clients}, Counter(), []
    for part in report.files:
        for row in part.rows:
            if row.caller in made:
                made[row.caller][answer_words(row)] += 1
                ends[row.caller] += row.kind in ENDS
    lost = Counter(loss.client for loss in losses)
    for client, lines in report.clients.items():
        told = Counter(answer for _, _, answer in lines)
        for answer, words in wrong_answers(told, made[client], ends[client], lost[client]):
            line = max([line for line, _, said in lines if said == answer] + [report.heading[client]])
            wrong.append((client, line, words))
    return wrong
