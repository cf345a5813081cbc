"""Layers that send each other pages, and the report of what they did: the histories that the tests read.

This knows nothing of the checker. Each layer has copies of its own, with the place whose bytes each one
shows, and a message moves one copy. What comes next is decided from the rights that the layers have. The
calls of the clients of a phase are mixed at random, one event at a time.
"""

import random
import struct

NUMBERS = {"page_in": 0, "page_out": 1, "write_out": 2, "sync": 3,
           "flush_back": 0, "deny_writes": 1, "write_back": 2, "delete_range": 3, "zero_fill": 4}
NONE, READ, WRITE = 0, 1, 2


def head(name, number, offset, size, right, flags):
    """The head of a frame, in hex."""
    return struct.pack(">HHIQIBBH", 2, NUMBERS[name], number, offset, size, right, flags, 0).hex()


class Copy:
    """A page as a layer has it."""

    def __init__(self, data, place, right):
        self.data, self.place, self.right = bytearray(data), place, right


class Layer:
    """One layer's copies of one file's pages. `used` has the pages, the one used longest ago first."""

    def __init__(self, name, machine, parent, frames):
        self.name, self.machine, self.parent, self.frames = name, machine, parent, frames
        self.above, self.copies, self.used, self.life = [], {}, [], 0
        self.depth = parent.depth + 1 if parent else 0
        if parent:
            parent.above.append(self)

    def right(self, page):
        """The layer's right on a page."""
        return self.copies[page].right if page in self.copies else NONE if self.parent else WRITE

    def copy(self, page, size):
        """The layer's copy; the ground has zeros at the start."""
        if page not in self.copies and not self.parent:
            self.copies[page] = Copy(bytes(size), 0, WRITE)
        return self.copies[page]

    def touch(self, page):
        """Makes a page the one used last."""
        if page in self.used:
            self.used.remove(page)
        self.used.append(page)

    def drop(self, page):
        """Drops a copy."""
        del self.copies[page]
        self.used.remove(page)

    def path(self):
        """The layers from the ground to this one."""
        return (self.parent.path() if self.parent else []) + [self]

    def tower(self):
        """This layer and all that stand on it."""
        found = [self]
        for layer in self.above:
            found += layer.tower()
        return found


class File:
    """One file: its layers, the lines of its history, its bytes, and each page's newest place.

    `behind` has for each message's place that of the call which it was sent for.
    """

    def __init__(self, name, number, size, pages, tree, image=None):
        self.name, self.number, self.size, self.pages = name, number, size, pages
        self.layers, self.lines, self.counts, self.turns = [], [], {}, {}
        self.behind = {}
        for title, machine, parent, frames in tree:
            self.layers.append(Layer(title, machine, None if parent is None else self.layers[parent], frames))
        self.bytes = {page: bytearray(size) for page in range(pages)}
        self.newest = {page: 0 for page in range(pages)}
        for page, data in (image or {}).items():
            self.bytes[page][:len(data)] = data
            self.layers[0].copy(page, size).data[:len(data)] = data

    def say(self, caller, words, sent=()):
        """Enters an event of a caller, behind the messages that were sent for it."""
        count = self.counts.get(caller, 0)
        self.counts[caller] = count + 1
        self.behind.update((place, len(self.lines)) for place in sent)
        self.lines.append("%d %s %d %s" % (len(self.lines), caller, count, words))

    def send(self, layer, name, page, right, first, second, question=None):
        """Enters a message, with the flags of its frames."""
        heads = [head(operation, self.number, page * self.size, self.size, right, flags)
                 for operation, flags in ((question or name, first), (name, second))]
        self.lines.append("%d %s %s %d %s" % (len(self.lines), layer.name, name, page, " ".join(heads)))

    def grant(self, layer, page, right):
        """The layer gets a right from its pager, with a copy if it has none."""
        if layer.right(page) == NONE:
            below = layer.parent.copy(page, self.size)
            if any(below.data):
                self.send(layer, "page_in", page, right, 0, 3)
            else:
                self.send(layer, "zero_fill", page, right, 0, 4, "page_in")
            layer.copies[page] = Copy(below.data, below.place, right)
        else:
            self.send(layer, "page_in", page, right, 0, 2)
            layer.copies[page].right = right
        layer.touch(page)

    def give(self, layer, name, page, right):
        """The layer gives its bytes to its pager, if they are others, and keeps a right."""
        mine, below = layer.copies[page], layer.parent.copy(page, self.size)
        data = int(mine.place != below.place)
        if name in ("page_out", "write_out", "sync"):
            self.send(layer, name, page, right, data, 2)
        else:
            self.send(layer, name, page, right, 4, 6 + data)
        below.data, below.place, mine.right = bytearray(mine.data), mine.place, right
        if right == NONE:
            layer.drop(page)

    def delete(self, layer, page):
        """The layer drops a copy that it may only read."""
        self.send(layer, "delete_range", page, NONE, 4, 6)
        layer.drop(page)

    def step(self, layer, page, want):
        """Sends the one message that comes next for an access, or answers that none does."""
        least = READ if want == WRITE else WRITE
        beside = [(other.depth, at, other) for at, other in enumerate(self.layers)
                  if at and other not in layer.path() and other.right(page) >= least]
        if beside:
            other = max(beside)[2]
            if want == READ:
                self.give(other, "deny_writes", page, READ)
            elif other.right(page) == WRITE:
                self.give(other, "flush_back", page, NONE)
            else:
                self.delete(other, page)
        elif layer.frames and layer.right(page) == NONE and len(layer.used) >= layer.frames:
            self.give(layer, "page_out", layer.used[0], NONE)
        else:
            lacking = [other for other in layer.path()[1:] if other.right(page) < want]
            if not lacking:
                return False
            self.grant(lacking[0], page, want)
        return True

    def access(self, caller, layer, life, words):
        """An access, event by event. Its answer is returned."""
        page, kind, sent = int(words[1]), words[0], []
        while life == layer.life and self.turns.setdefault(page, caller) != caller:
            yield
        while life == layer.life and self.step(layer, page, READ if kind == "read" else WRITE):
            sent.append(len(self.lines) - 1)
            yield
        if self.turns.get(page) == caller:
            del self.turns[page]
        answer = self.do(layer, kind, page, words) if life == layer.life else "revoked %d" % layer.life
        self.say(caller, "%s %d %s %s" % (layer.name, life, " ".join(words), answer), sent)
        return answer

    def do(self, layer, kind, page, words):
        """Reads, writes or clears the layer's own copy, and the plain bytes."""
        mine = layer.copies[page]
        layer.touch(page)
        if kind == "read":
            off, length = int(words[2]), int(words[3])
            assert mine.data == self.bytes[page]
            return bytes(mine.data[off:off + length]).hex()
        for data in (mine.data, self.bytes[page]):
            if kind == "write":
                new = bytes.fromhex(words[3])
                data[int(words[2]):int(words[2]) + len(new)] = new
            else:
                data[:] = bytes(self.size)
        mine.place = self.newest[page] = len(self.lines) + 1
        return "done"

    def open(self, caller, layer):
        """Opens the file at a layer."""
        self.say(caller, "%s 0 open life %d" % (layer.name, layer.life))
        yield
        return "life %d" % layer.life

    def unsettled(self, start):
        """The lowest page that was written and that the ground has not as of a place, or None."""
        for page in range(self.pages):
            shown = self.layers[0].copy(page, self.size).place
            if shown < start and self.newest[page] > shown:
                return page
        return None

    def sync(self, caller, layer, clean=False):
        """Brings the bytes to the ground, the deepest layer first."""
        start, sent = len(self.lines), []
        while self.unsettled(start) is not None:
            page = self.unsettled(start)
            full = [(other.depth, at, other) for at, other in enumerate(self.layers)
                    if at and other.right(page) == WRITE and
                    (clean or other.copies[page].place != other.parent.copy(page, self.size).place)]
            other = max(full)[2]
            down = other in layer.path()
            if clean:
                self.give(other, "write_out" if down else "deny_writes", page, READ)
            else:
                self.give(other, "sync" if down else "write_back", page, WRITE)
            sent.append(len(self.lines) - 1)
            yield
        self.say(caller, "%s %s %d done" % (layer.name, "cleaned" if clean else "synced", start), sent)
        return "done"

    def end(self, caller, layer, destroy):
        """Ends the caches of a layer and of all that stand on it."""
        sent = []
        while True:
            held = [(-page, other.depth, at, other) for at, other in enumerate(self.layers)
                    for page in list(other.copies) if other in layer.tower()]
            if not held:
                break
            page, other = -max(held)[0], max(held)[3]
            if other.right(page) == WRITE:
                self.give(other, "flush_back", page, NONE)
            else:
                self.delete(other, page)
            sent.append(len(self.lines) - 1)
            yield
        if destroy:
            for other in layer.tower():
                other.life += 1
        self.say(caller, "%s %s done" % (layer.name, "destroy_cache" if destroy else "done_with_pager_object"), sent)
        return "done"


class Run:
    """A run of clients over files. `told` has for each client its lines' numbers and answers."""

    def __init__(self, size, files, tree, clients, seed=1, image=None):
        self.dice = random.Random(seed)
        self.files = [File(name, at, size, pages, tree, image) for at, (name, pages) in enumerate(files)]
        self.told = {client: [] for client in clients}
        self.names, self.counts = [], {}
        self.line = len(clients)

    def layer(self, file, name):
        """A layer of a file by its name."""
        return next(layer for layer in self.files[file].layers if layer.name == name)

    def resolve(self, client, path):
        """Enters a look-up of a path into the names' history."""
        count = self.counts.get(client, 0)
        self.counts[client] = count + 1
        self.names.append("%d %s %d resolve %s done" % (len(self.names), client, count, path))

    def call(self, client, words):
        """One call, as `FILE LAYER WORDS`, event by event."""
        number, title, kind, *rest = words.split(" ")
        file, layer = self.files[int(number)], self.layer(int(number), title)
        if kind in ("open", "map"):
            if kind == "open":
                self.resolve(client, "%s/%s" % (title, file.name))
            return (yield from file.open(client, layer))
        if kind in ("sync", "clean"):
            return (yield from file.sync(client, layer, kind == "clean"))
        if kind in ("revoke", "release"):
            return (yield from file.end(client, layer, kind == "revoke"))
        return (yield from file.access(client, layer, int(rest[0]), [kind] + rest[1:]))

    def line_of(self, client, words):
        """A line's answer, event by event. One that begins with `replies COUNT` or `requests COUNT` loses these of
        its call, so that the count stands then."""
        lost, _, behind = words.partition(" ")
        if lost not in ("replies", "requests"):
            return (yield from self.call(client, words))
        count, _, call = behind.partition(" ")
        if lost == "replies":
            yield from self.call(client, call)
        return "link %s" % count

    def lines_of(self, client, calls):
        """A client's lines of a phase, event by event."""
        for line, words in calls:
            answer = yield from self.line_of(client, words)
            self.told[client].append("%d %s" % (line, answer))

    def phase(self, calls):
        """A phase: the calls as pairs of a client and its words, in the order of the script."""
        self.line += 1
        mine = {}
        for client, words in calls:
            self.line += 1
            mine.setdefault(client, []).append((self.line, words))
        going = [self.lines_of(client, lines) for client, lines in mine.items()]
        while going:
            one = self.dice.choice(going)
            try:
                next(one)
            except StopIteration:
                going.remove(one)

    def report(self, names=True):
        """The report, with the closing syncs."""
        said = []
        for client, lines in self.told.items():
            said += ["client %s" % client] + lines
        for file in self.files:
            for _ in file.sync("mount", file.layers[1]):
                pass
            said += ["file %s" % file.name] + file.lines
        lost = any(" link " in line for lines in self.told.values() for line in lines)
        return "\n".join(said + (["names"] + self.names if names else []) + ["status %d" % lost]) + "\n"
