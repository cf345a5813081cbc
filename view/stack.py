"""The stack text, and the tree of nodes that it makes.

Node 0 is the ground: the disk or mirror on which a layer stands that is no mirror and no mirror's side.
The other nodes are the layers above it, in the order of their lines. A mirror's side is no node.
"""

WORDS = {"page": 2, "file": 3, "disk": 3, "mirror": 5, "coherency": 4, "dfs": 4, "vmm": 5}


class StackError(Exception):
    """A stack text that makes no tree."""


class Layer:
    """One line of the stack that names a layer. `frames` is 0 if it is no memory manager."""

    def __init__(self, words):
        self.kind, self.name, self.machine = words[:3]
        self.below = [] if self.kind == "disk" else words[3:5] if self.kind == "mirror" else words[3:4]
        self.frames = int(words[4]) if self.kind == "vmm" else 0


class Node:
    """A layer that has rights of its own on pages."""

    def __init__(self, number, layer, parent):
        self.number, self.parent = number, parent
        self.name, self.kind, self.machine = layer.name, layer.kind, layer.machine
        self.frames, self.depth, self.children = layer.frames, 0, []
        if parent is not None:
            self.depth = parent.depth + 1
            parent.children.append(self)

    def is_far(self):
        """Whether its pager is on another machine, so that its frames go as packets."""
        return self.parent is not None and self.parent.machine != self.machine

    def subtree(self):
        """The node and every node below which it is the pager, this one first."""
        found = [self]
        for child in self.children:
            found += child.subtree()
        return found


class Stack:
    """A stack: the size of a page, the files as pairs of name and pages, and the nodes."""

    def __init__(self, page_size, files, nodes):
        self.page_size, self.files, self.nodes = page_size, files, nodes
        self.by_name = {node.name: node for node in nodes}

    def columns(self):
        """The nodes as they are drawn: by machine, and in a machine each behind its parent."""
        order = self.nodes[0].subtree()
        machines = []
        for node in order:
            if node.machine not in machines:
                machines.append(node.machine)
        return [node for machine in machines for node in order if node.machine == machine]


def read_layers(text):
    """The page size, the files and the layers by name, of a stack text."""
    page_size, files, layers = None, [], {}
    for number, line in enumerate(text.splitlines(), 1):
        words = line.split(" ")
        if WORDS.get(words[0]) != len(words):
            raise StackError("line %d is no line of a stack: %s" % (number, line))
        try:
            if words[0] == "page":
                page_size = int(words[1])
            elif words[0] == "file":
                files.append((words[1], int(words[2])))
            else:
                layers[words[1]] = layer = Layer(words)
        except ValueError:
            raise StackError("line %d has a word that is no number: %s" % (number, line))
        if words[0] not in ("page", "file") and not all(name in layers for name in layer.below):
            raise StackError("line %d stands on a layer that no line before it names: %s" % (number, line))
    if not page_size or not files:
        raise StackError("the stack has no page line, or no file")
    return page_size, files, layers


def pager(layers, below, machine):
    """The layer that serves pages to a layer of a machine: a distributed layer of it is gone round."""
    while layers[below].kind == "dfs" and layers[below].machine == machine:
        below = layers[below].below[0]
    return below


def read_stack(text):
    """The stack of a text."""
    page_size, files, layers = read_layers(text)
    sides = {side for layer in layers.values() if layer.kind == "mirror" for side in layer.below}
    upper = [layer for layer in layers.values() if layer.kind not in ("disk", "mirror") and layer.name not in sides]
    grounds = {layer.below[0] for layer in upper if layers[layer.below[0]].kind in ("disk", "mirror")}
    if len(grounds) != 1:
        raise StackError("the stack has %d grounds, and a tree has one" % len(grounds))
    ground = grounds.pop()
    nodes = [Node(0, layers[ground], None)]
    by_name = {ground: nodes[0]}
    for layer in upper:
        parent = by_name.get(pager(layers, layer.below[0], layer.machine))
        if parent is None:
            raise StackError("the layer %s stands on %s, which is no node" % (layer.name, layer.below[0]))
        by_name[layer.name] = node = Node(len(nodes), layer, parent)
        nodes.append(node)
    return Stack(page_size, files, nodes)
