"""Trees, and the operations between two of them."""
import random
import unittest

from pages.difference import edits_between, longest_rise
from pages.model import Node, Tree, extents, frozen

ROLES = ("generic", "button", "link")


def random_tree(draw, ids):
    """A tree of some of these ids, each below one that came before it."""
    order = draw.sample(ids, draw.randint(1, len(ids)))
    tree = Tree()
    tree.edit({"op": "root", "node": order[0]})
    for at, node in enumerate(order[1:], 1):
        parent = draw.choice(order[:at])
        index = draw.randint(0, len(tree.nodes[parent].children))
        tree.edit({"op": "insert", "parent": parent, "index": index, "node": node, "role": draw.choice(ROLES),
                   "attrs": {"name": draw.choice("abc")} if draw.random() < 0.5 else {}})
    tree.data["title"] = draw.choice("xy")
    return tree


def refusal(tree, op):
    """Why the program would refuse an operation, or None."""
    kind, node, parent = op["op"], op.get("node"), op.get("parent")
    if kind in ("remove", "move", "set") and node not in tree.nodes:
        return "UnknownNode"
    if kind in ("insert", "move"):
        if parent not in tree.nodes:
            return "UnknownNode"
        others = [child for child in tree.nodes[parent].children if child != node]
        if not 0 <= op["index"] <= len(others):
            return "BadIndex"
    if kind == "insert" and node in tree.nodes:
        return "IdTaken"
    if kind in ("remove", "move") and node == tree.root:
        return "IsRoot"
    if kind == "move" and parent in tree.below(node):
        return "IntoItself"
    return None


class Between(unittest.TestCase):
    """Operations between trees."""

    def test_random_pairs(self):
        draw = random.Random(5)
        for _ in range(1500):
            ids = list(range(1, draw.randint(2, 14)))
            old, new = random_tree(draw, ids), random_tree(draw, ids)
            if draw.random() < 0.7:
                new = reroot(new, old.root) or new
            start = old.copy()
            edits = edits_between(old, new)
            self.assertEqual(old, new)
            for op in edits:
                self.assertIsNone(refusal(start, op), op)
                start.edit(op)
            self.assertEqual(start, new)

    def test_equal_trees_need_nothing(self):
        tree = random_tree(random.Random(1), list(range(1, 9)))
        self.assertEqual(edits_between(tree.copy(), tree), [])

    def test_one_moved_child_is_one_move(self):
        old = flat([2, 3, 4, 5, 6])
        self.assertEqual(edits_between(old, flat([6, 2, 3, 4, 5])), [{"op": "move", "node": 6, "parent": 1, "index": 0}])

    def test_wrapping_a_child(self):
        old, new = flat([2, 3]), flat([9, 3])
        new.edit({"op": "insert", "parent": 9, "index": 0, "node": 2})
        self.assertEqual(edits_between(old, new), [{"op": "insert", "parent": 1, "index": 0, "node": 9},
                                                   {"op": "move", "node": 2, "parent": 9, "index": 0}])

    def test_unwrapping_a_child(self):
        old, new = flat([9, 3]), flat([2, 3])
        old.edit({"op": "insert", "parent": 9, "index": 0, "node": 2})
        self.assertEqual(edits_between(old, new), [{"op": "move", "node": 2, "parent": 1, "index": 0}, {"op": "remove", "node": 9}])

    def test_an_attribute_that_goes_is_null(self):
        old, new = flat([]), flat([])
        old.edit({"op": "set", "node": 1, "attrs": {"name": "a", "level": 2}})
        new.edit({"op": "set", "node": 1, "attrs": {"level": 3}})
        self.assertEqual(edits_between(old, new), [{"op": "set", "node": 1, "attrs": {"level": 3, "name": None}}])

    def test_longest_rise(self):
        self.assertEqual(longest_rise((5, 1, 2, 7, 3), (1, 2, 3, 5)), {1, 2, 3})
        self.assertEqual(longest_rise((), (1,)), set())


class Places(unittest.TestCase):
    """Where nodes are on the page."""

    def test_containers_and_scrolling(self):
        tree = Tree()
        tree.edit({"op": "root", "node": 1, "rect": [0, 0, 100, 100]})
        tree.edit({"op": "insert", "parent": 1, "index": 0, "node": 2, "rect": [10, 10, 80, 200], "attrs": {"container": 1, "scroll_y": 50}})
        tree.edit({"op": "insert", "parent": 2, "index": 0, "node": 3, "rect": [5, 60, 20, 10], "attrs": {"container": 2}})
        tree.edit({"op": "insert", "parent": 2, "index": 1, "node": 4, "rect": [5, 60, 20, 10], "attrs": {"container": 3}})
        self.assertEqual(extents(tree)[3], (15, 20, 20, 10))
        self.assertEqual(extents(tree)[4], (5, 60, 20, 10), "a node that isn't above is no container")


def flat(children):
    """A root, 1, with these children."""
    tree = Tree()
    tree.edit({"op": "root", "node": 1})
    for index, node in enumerate(children):
        tree.edit({"op": "insert", "parent": 1, "index": index, "node": node})
    return tree


def reroot(tree, root):
    """The tree with another of its ids in the root's place, or None where it hasn't that id."""
    if root not in tree.nodes or root == tree.root:
        return None
    swap = {root: tree.root, tree.root: root}

    def name(node):
        return swap.get(node, node)

    nodes = {name(node): Node(told.role, told.states, frozen(told.attributes()), told.rect, tuple(map(name, told.children)), name(told.parent))
             for node, told in tree.nodes.items()}
    return Tree(root, nodes, tree.data)


if __name__ == "__main__":
    unittest.main()
