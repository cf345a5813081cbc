"""The lines of a run that lost a call, as the report tells them: each is answered `link COUNT`.

COUNT is how many packets of the client were lost so far. Each try of the call lost one, so it rises by as
many as there are tries with each such line of a client.
"""

import re

TRIES = 8
LINK = re.compile(r"link (0|[1-9][0-9]*)\Z")


class Loss:
    """A line that lost a call: of which client, at which line of the report and of the script, and the count."""

    def __init__(self, client, line, number, count):
        self.client, self.line, self.number, self.count = client, line, number, count

    def words(self):
        """The loss as a sentence."""
        return ("client %s, line %s of the script: a call had no reply: each of %d tries lost its request or its "
                "reply; %d of the client's packets were lost so far" % (self.client, self.number, TRIES, self.count))


def find_losses(report):
    """The lines of a report that lost a call, in its order."""
    found = []
    for client, lines in report.clients.items():
        for line, number, answer in lines:
            match = LINK.match(answer)
            if match:
                found.append(Loss(client, line, number, int(match.group(1))))
    return found


def faults(report):
    """What is wrong in the lines that are answered `link`: for each a client, a line of the report, and words."""
    wrong = []
    for client, lines in report.clients.items():
        before = 0
        for line, _, answer in lines:
            match = LINK.match(answer)
            if match is None:
                if answer.split(" ")[0] == "link":
                    wrong.append((client, line, "the answer `%s` has no count of packets" % answer))
                continue
            count = int(match.group(1))
            if count < before + TRIES:
                wrong.append((client, line, "it tells of %d lost packets, and should of %d or more: of %d tries each "
                                            "lost one, and %d were lost before" % (count, before + TRIES, TRIES, before)))
            before = count
    return wrong
