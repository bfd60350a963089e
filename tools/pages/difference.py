"""The operations that bring one tree to another."""
from bisect import bisect_left

from . import tables
from .model import BLANK_DATA, Node


def edits_between(old, new):
    """The operations, in their order, that make `new` of `old`; `old` is edited by them on the way."""
    edits = Edits(old)
    edits.set_data(new.data)
    if new.root and old.root != new.root:
        edits.do({"op": "root", "node": new.root, **look_members(new.nodes[new.root])})
    if new.root:
        edits.drop_dead(new)
        edits.place_all(new)
        edits.drop_dead(new)
        edits.set_all(new)
    return edits.done


class Edits:
    """Operations that are done upon a tree while they are listed."""

    def __init__(self, tree):
        self.tree = tree
        self.done = []

    def do(self, op):
        """Does and lists an operation."""
        self.tree.edit(op)
        self.done.append(op)

    def set_data(self, data):
        """The tree has these data."""
        members = {name: data[name] for name in BLANK_DATA if self.tree.data[name] != data[name]}
        if members:
            self.do({"op": "data", **members})

    def drop_dead(self, new):
        """Removes what the new tree hasn't, where nothing below it stays; the highest such node takes the others along."""
        alive = {0}
        for node in new.nodes:
            while node in self.tree.nodes and node not in alive:
                alive.add(node)
                node = self.tree.nodes[node].parent
        highest = [node for node, told in self.tree.nodes.items() if node not in alive and told.parent in alive]
        for node in highest:
            self.do({"op": "remove", "node": node})

    def place_all(self, new):
        """Each node stands below its parent in its order, beside what is still to leave.

        Parents come before children. So all above a node stands as in the new tree when the node is put there, and no node is moved below itself.
        """
        for parent, _ in new.pre_order():
            wanted = new.nodes[parent].children
            staying = longest_rise(self.tree.nodes[parent].children, wanted)
            before = None
            for node in wanted:
                if node not in staying:
                    self.place(parent, before, node, new.nodes[node])
                before = node

    def place(self, parent, before, node, look):
        """Puts a node right behind a child of the parent, or first."""
        others = [child for child in self.tree.nodes[parent].children if child != node]
        index = 0 if before is None else others.index(before) + 1
        if node in self.tree.nodes:
            self.do({"op": "move", "node": node, "parent": parent, "index": index})
        else:
            self.do({"op": "insert", "parent": parent, "index": index, "node": node, **look_members(look)})

    def set_all(self, new):
        """Each node has the look that it has in the new tree."""
        for node, _ in new.pre_order():
            members = look_members(new.nodes[node], self.tree.nodes[node])
            if members:
                self.do({"op": "set", "node": node, **members})


def look_members(node, old=Node()):
    """The members of a look in which the node differs from the old one, as an operation gives them."""
    members = {}
    if node.role != old.role:
        members["role"] = node.role
    if node.states != old.states:
        members["states"] = [name for name in tables.states(2) if name in node.states]
    if node.attrs != old.attrs:
        members["attrs"] = changed_attributes(old.attributes(), node.attributes())
    if node.rect != old.rect:
        members["rect"] = list(node.rect)
    return members


def changed_attributes(old, new):
    """The attributes that differ; None stands for one that goes."""
    return {name: new.get(name) for name in {**new, **old} if old.get(name) != new.get(name)}


def longest_rise(children, wanted):
    """The most children that stand in the wanted order already: a longest rising part of their wanted places."""
    place = {node: index for index, node in enumerate(wanted)}
    ends, end_nodes, behind = [], [], {}
    for child in children:
        if child in place:
            at = bisect_left(ends, place[child])
            behind[child] = end_nodes[at - 1] if at else None
            ends[at:at + 1] = [place[child]]
            end_nodes[at:at + 1] = [child]
    kept, node = set(), end_nodes[-1] if end_nodes else None
    while node is not None:
        kept.add(node)
        node = behind[node]
    return kept
