"""Trees as the tools keep them, and what each operation of a frame does to one.

A tree is its data and a map from ids to nodes; nodes are never changed in place, so a copy of the map is a copy of the tree.
"""
from dataclasses import dataclass, field, replace

BLANK_DATA = {"parent": 0, "focused": 0, "loaded": False, "focus": 0, "sel": [0, 0, 0, 0], "title": "", "url": ""}
BLANK_RECT = (0, 0, 0, 0)


@dataclass(frozen=True)
class Node:
    """A node: its look, its children's ids, and the id above it, 0 for the root."""
    role: str = "generic"
    states: frozenset = frozenset()
    attrs: tuple = ()
    rect: tuple = BLANK_RECT
    children: tuple = ()
    parent: int = 0

    def attributes(self):
        """The attributes as a map from names to values."""
        return dict(self.attrs)

    def get(self, name):
        """The value of an attribute, or None."""
        return self.attributes().get(name)


def frozen(attributes):
    """Attributes as a node keeps them: sorted pairs."""
    return tuple(sorted(attributes.items()))


@dataclass
class Tree:
    """A tree: 0 as root means that there is none."""
    root: int = 0
    nodes: dict = field(default_factory=dict)
    data: dict = field(default_factory=lambda: dict(BLANK_DATA))

    def copy(self):
        """An equal tree that later edits of this one don't change."""
        return Tree(self.root, dict(self.nodes), dict(self.data))

    def pre_order(self):
        """Each id with its level, a node before the nodes below it. Levels count from 1."""
        waiting = [(self.root, 1)] if self.root else []
        while waiting:
            node, level = waiting.pop()
            yield node, level
            waiting.extend((child, level + 1) for child in reversed(self.nodes[node].children))

    def below(self, node):
        """The node and all ids below it."""
        found, waiting = [], [node]
        while waiting:
            here = waiting.pop()
            found.append(here)
            waiting.extend(self.nodes[here].children)
        return found

    def edit(self, op):
        """Does an operation that the program has accepted. Passes and touches change no tree."""
        EDITS.get(op["op"], lambda tree, op: None)(self, op)

    def put_child(self, parent, index, node):
        """Lists the node among the parent's children."""
        old = self.nodes[parent]
        self.nodes[parent] = replace(old, children=old.children[:index] + (node,) + old.children[index:])

    def drop_child(self, node):
        """Takes the node out of its parent's list."""
        parent = self.nodes[node].parent
        old = self.nodes[parent]
        self.nodes[parent] = replace(old, children=tuple(c for c in old.children if c != node))


def looked(node, op):
    """The node with the members of a look that the operation gives; an attribute that is null goes."""
    given = {}
    if "role" in op:
        given["role"] = op["role"]
    if "states" in op:
        given["states"] = frozenset(op["states"])
    if "rect" in op:
        given["rect"] = tuple(op["rect"])
    if "attrs" in op:
        merged = {**node.attributes(), **op["attrs"]}
        given["attrs"] = frozen({name: value for name, value in merged.items() if value is not None})
    return replace(node, **given)


def edit_root(tree, op):
    """The tree is this one node."""
    tree.root = op["node"]
    tree.nodes = {op["node"]: looked(Node(), op)}


def edit_insert(tree, op):
    """A new leaf."""
    tree.put_child(op["parent"], op["index"], op["node"])
    tree.nodes[op["node"]] = looked(Node(parent=op["parent"]), op)


def edit_remove(tree, op):
    """The node and all below it go."""
    gone = tree.below(op["node"])
    tree.drop_child(op["node"])
    for node in gone:
        del tree.nodes[node]


def edit_move(tree, op):
    """The node with all below it stands elsewhere."""
    tree.drop_child(op["node"])
    tree.put_child(op["parent"], op["index"], op["node"])
    tree.nodes[op["node"]] = replace(tree.nodes[op["node"]], parent=op["parent"])


def edit_set(tree, op):
    """The node has the given look."""
    tree.nodes[op["node"]] = looked(tree.nodes[op["node"]], op)


def edit_data(tree, op):
    """The tree has the given data."""
    tree.data = {**tree.data, **{name: op[name] for name in BLANK_DATA if name in op}}


EDITS = {"root": edit_root, "insert": edit_insert, "remove": edit_remove, "move": edit_move,
         "set": edit_set, "data": edit_data}


def container_of(tree, node):
    """The id from which the node's rectangle is measured, or None: an ancestor that its `container` names."""
    named = tree.nodes[node].get("container")
    above = tree.nodes[node].parent
    while above:
        if above == named:
            return named
        above = tree.nodes[above].parent
    return None


def origin(tree, node, known):
    """Where the node's left upper corner is on the page. `known` keeps what was told before."""
    if node not in known:
        x, y = tree.nodes[node].rect[:2]
        base = container_of(tree, node)
        if base is not None:
            base_x, base_y = origin(tree, base, known)
            scrolled = tree.nodes[base].attributes()
            x += base_x - scrolled.get("scroll_x", 0)
            y += base_y - scrolled.get("scroll_y", 0)
        known[node] = (x, y)
    return known[node]


def extents(tree):
    """Each node's rectangle on the page."""
    known = {}
    return {node: (*origin(tree, node, known), *tree.nodes[node].rect[2:]) for node, _ in tree.pre_order()}
