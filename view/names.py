"""The names' history: what each entry has to answer, from those before it.

The names start with a context for each view, which has an object for each file.
"""

from collections import Counter

from report import HEX

CALLS = ("context", "bind", "resolve", "unbind", "list")


def is_hex(answer):
    """Whether an answer is bytes."""
    return bool(HEX.match(answer))


def starting_names(stack):
    """The names at the start: whether each path is a context."""
    found = {}
    for node in stack.nodes[1:]:
        if node.kind in ("coherency", "dfs"):
            found[(node.name,)] = True
            for name, _ in stack.files:
                found[(node.name, name)] = False
    return found


def refusal_on_the_way(found, parts):
    """The first refusal of a part that has to be a context, or None."""
    for end in range(1, len(parts) + 1):
        is_context = found.get(parts[:end])
        if is_context is None:
            return "not bound %s" % parts[end - 1]
        if not is_context:
            return "not context %s" % parts[end - 1]
    return None


def answer_of(found, call, path):
    """What a call on the names answers. The names change as it says."""
    if path == "/":
        return "done"
    parts = tuple(path.split("/"))
    refusal = refusal_on_the_way(found, parts if call == "list" else parts[:-1])
    if refusal or call == "list":
        return refusal or "done"
    if call in ("context", "bind"):
        if parts in found:
            return "already bound %s" % parts[-1]
        found[parts] = call == "context"
        return "done"
    if parts not in found:
        return "not bound %s" % parts[-1]
    if call == "resolve":
        return "not object %s" % parts[-1] if found[parts] else "done"
    for other in [other for other in found if other[:len(parts)] == parts]:
        del found[other]
    return "done"


def faults(stack, report):
    """What is wrong in the names' history, as pairs of a row and words."""
    found, numbers, wrong = starting_names(stack), Counter(), []
    for place, row in enumerate(report.names):
        if row.place != place:
            wrong.append((row, "place %d stands where place %d should" % (row.place, place)))
        if row.caller not in report.clients:
            wrong.append((row, "no client is called %s" % row.caller))
        if row.number != numbers[row.caller]:
            wrong.append((row, "it is call %d of %s on names, and should be %d" % (
                row.number, row.caller, numbers[row.caller])))
        numbers[row.caller] = row.number + 1
        if row.call not in CALLS:
            wrong.append((row, "%s is no call on names" % row.call))
            continue
        answer = answer_of(found, row.call, row.path)
        if answer != row.answer:
            wrong.append((row, "%s %s answers `%s`, and should `%s`" % (row.call, row.path, row.answer, answer)))
    return wrong
