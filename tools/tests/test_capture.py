"""A page of our own is captured in the real browser, and its replay ends with the browser's own tree."""
import re
import tempfile
import unittest
from pathlib import Path

import jsonschema

from pages.model import Tree, extents
from pages.output import read_dump
from pages.running import PROGRAM, run
from pages.story import Story
from pages.tables import states
from tests.browser_tests import DATA, TOOLS, read_json, tool


def capture(folder, name, *words, steps=("market",), page="market"):
    """A capture of a page: the script, the browser's trees at the end, and what was said."""
    script, final, done = (Path(folder, f"{name}.{ending}") for ending in ("json", "final.json", "steps"))
    done.write_text("".join((DATA / f"{part}.steps").read_text() for part in steps))
    _, said = tool("capture", DATA / f"{page}.html", "--steps", done, "--to", script, "--final", final, *words)
    return script, final, said


def nested(tree, root):
    """A tree's nodes in the form in which the browser's own tree is written."""
    told = tree.nodes[root]
    return {"id": root, "role": told.role, "name": told.get("name") or "", "states": [name for name in states(2) if name in told.states],
            "attrs": told.attributes(), "rect": list(told.rect), "children": [nested(tree, child) for child in told.children]}


def as_final(trees):
    """Trees by number in the form in which the browser's own trees are written; None is a tree that has ended."""
    return [{"tree": number, **({"gone": True} if tree is None else {"data": tree.data, "root": nested(tree, tree.root)})}
            for number, tree in trees.items()]


def run_by_hand(script):
    """The frames' trees after all operations, by the tools' own edits."""
    trees = {}
    for frame in script["frames"]:
        trees[frame["tree"]] = tree = Tree()
        for op in frame["ops"]:
            tree.edit(op)
    ended = {op["tree"] for op in script.get("browser", []) if op["op"] == "destroy"}
    return {number: None if number in ended else tree for number, tree in trees.items()}


class Captured(unittest.TestCase):
    """One capture of each kind, looked at by several tests."""

    @classmethod
    def setUpClass(cls):
        cls.folder = tempfile.TemporaryDirectory()
        cls.addClassCleanup(cls.folder.cleanup)
        cls.whole = capture(cls.folder.name, "whole", "--queries", steps=("market", "frames"))
        cls.alone = capture(cls.folder.name, "alone", "--no-order")
        cls.first = capture(cls.folder.name, "first", "--no-order", "--version", "1")
        cls.left = capture(cls.folder.name, "left", "--no-order", "--step", "click a", "--step", "wait 300", "--step", "key Tab", steps=(), page="card")
        cls.nested = capture(cls.folder.name, "nested", "--queries", steps=("desk",), page="desk")
        cls.all = (cls.whole, cls.alone, cls.first, cls.left, cls.nested)

    def test_the_operations_give_the_browsers_tree(self):
        for script, final, _ in self.all:
            self.assertEqual(as_final(run_by_hand(read_json(script))), read_json(final)["trees"])

    def test_what_was_captured(self):
        script, final, said = self.whole
        script, final = read_json(script), read_json(final)
        self.assertEqual([frame["tree"] for frame in script["frames"]], [1, 2, 3])
        self.assertEqual([op["op"] for op in script["browser"]], ["destroy"])
        self.assertTrue(final["trees"][1]["gone"])
        self.assertEqual(final["trees"][0]["data"]["title"], "Closed")
        self.assertEqual(final["trees"][2]["data"]["title"], "Neu")
        passes = sum(op["op"] == "pass" for frame in script["frames"] for op in frame["ops"])
        self.assertGreaterEqual(passes, 20)
        self.assertEqual(len(script["readers"]), 5)
        self.assertIn("the boxes of a text's lines", said)
        self.assertNotIn("settable", said)

    def test_the_schema_has_the_scripts(self):
        schema = jsonschema.Draft202012Validator(read_json(TOOLS.parent / "docs/script.schema.json"))
        for script, _, _ in self.all:
            self.assertEqual(list(schema.iter_errors(read_json(script))), [])

    def test_the_order_is_whole(self):
        script = read_json(self.whole[0])
        left = {"b": iter(script["browser"]), **{f"r{at}": iter(reader) for at, reader in enumerate(script["readers"], 1)},
                **{f"f{frame['tree']}": iter(frame["ops"]) for frame in script["frames"]}}
        on_the_way, receipts = [], 0
        for item in script["order"].split(" "):
            if item[0] == "a":
                on_the_way.remove(item[1:])
                receipts += 1
            else:
                told = next(left[item])
                self.assertEqual(told.get("after", receipts), receipts)
                if told.get("op") == "pass":
                    on_the_way.append(item[1:])
        self.assertEqual([list(rest) for rest in (*left.values(), on_the_way)], [[]] * (len(left) + 1))
        self.assertGreater(sum(len(reader) for reader in script["readers"]), 100)

    def test_a_frame_stands_inside_the_border_of_its_element(self):
        trees = read_json(self.whole[1])["trees"]
        host = next(node for node in every(trees[0]["root"]) if node["attrs"].get("child_tree") == 3)
        x, y, width, height = extents(run_by_hand(read_json(self.whole[0]))[1])[host["id"]]
        self.assertEqual(trees[2]["root"]["rect"], [x + 8, y + 8, width - 16, height - 16], "a border of 3 and a padding of 5 pixels")
        self.assertEqual(trees[2]["data"]["parent"], 1)

    def test_frames_inside_frames(self):
        script, trees = read_json(self.nested[0]), read_json(self.nested[1])["trees"]
        self.assertEqual([tree.get("gone", False) for tree in trees], [False, True, True])
        told = {frame["tree"]: [op for op in frame["ops"] if op["op"] == "data"] for frame in script["frames"]}
        self.assertEqual([told[number][0].get("parent", 0) for number in (1, 2, 3)], [0, 1, 2])
        self.assertEqual([op["focused"] for op in told[1] if "focused" in op], [1, 3, 2, 0], "the focus goes with the frame in which it was")
        self.assertEqual(trees[0]["data"]["focus"], 0)

    def test_what_is_inside_a_field_has_a_box(self):
        text = next(node for node in every(read_json(self.whole[1])["trees"][0]["root"]) if node["name"] == "Ana é🍐")
        self.assertGreater(min(text["rect"][2:]), 10)

    def test_texts_states_and_values(self):
        nodes = {node["name"]: node for node in reversed(list(every(read_json(self.whole[1])["trees"][0]["root"])))}
        self.assertEqual(nodes["Name"]["attrs"]["value"], "Ana é🍐")
        self.assertEqual(nodes["Name"]["attrs"]["placeholder"], "who")
        self.assertLessEqual({"editable", "required"}, set(nodes["Name"]["states"]))
        self.assertIn("protected", nodes["Word"]["states"])
        self.assertEqual(nodes["Word"]["attrs"]["value"], "••••••", "Tab went there from the name")
        self.assertEqual(nodes["Gift"]["attrs"]["tooltip"], "Down", "the page was told of a key with its number")
        self.assertEqual(nodes["Gift"]["attrs"]["checked"], "false", "it was checked, and then unchecked by a key")
        self.assertEqual(nodes["More"]["states"], ["focusable", "expanded"])
        self.assertEqual(nodes["Amount"]["attrs"]["value_now"], 3)
        self.assertEqual(nodes["Closing"]["role"], "static_text")
        self.assertEqual(nodes["Help"]["attrs"]["description"], "Closing")
        self.assertNotIn("container", nodes["Help"]["attrs"], "it is fixed to the window")

    def test_a_page_that_is_left(self):
        roots = [op["attrs"]["name"] for op in read_json(self.left[0])["frames"][0]["ops"] if op["op"] == "root"]
        self.assertEqual(roots, ["Karte", "Market"])
        told = read_json(self.left[1])["trees"][0]["data"]
        self.assertEqual((told["title"], told["url"].rsplit("/", 1)[1]), ("Market", "market.html"))

    def test_a_selection_counts_scalars(self):
        for _, final, _ in self.all[:3]:
            told = read_json(final)["trees"][0]
            ids = {node["name"]: node["id"] for node in every(told["root"])}
            self.assertEqual(told["data"]["sel"], [ids["O🍎ne"], 2, ids["two"], 2])

    def test_a_selection_in_a_field(self):
        script = read_json(self.alone[0])
        field = next(op["node"] for op in script["frames"][0]["ops"] if op.get("attrs", {}).get("placeholder") == "who")
        chosen = [op["sel"] for op in script["frames"][0]["ops"] if "sel" in op]
        self.assertIn([field, 6, field, 6], chosen, "behind the six scalars of what was typed")

    def test_moves_are_moves(self):
        script = read_json(self.whole[0])
        moves = [op for op in script["frames"][0]["ops"] if op["op"] == "move"]
        self.assertGreaterEqual(len(moves), 4)
        final = read_json(self.whole[1])["trees"][0]["root"]
        goods = next(node for node in every(final) if node["role"] == "list")
        texts = [[leaf["name"] for leaf in every(item) if leaf["role"] == "static_text"] for item in goods["children"]]
        self.assertEqual(texts, [["Figs"], ["Plums"], ["Nuts"], ["Apples"]])

    def test_scrolling_moves_no_box_of_what_is_inside(self):
        script = read_json(self.whole[0])
        tree = run_by_hand(script)[1]
        goods = next(node for node, told in tree.nodes.items() if told.role == "list")
        self.assertEqual(tree.nodes[goods].get("scroll_y"), 40)
        self.assertEqual(tree.nodes[tree.root].get("scroll_y"), 150)
        item = tree.nodes[goods].children[0]
        self.assertEqual(tree.nodes[item].get("container"), goods)
        self.assertEqual(extents(tree)[item][1], extents(tree)[goods][1] - 40 + tree.nodes[item].rect[1])

    def test_nothing_is_left_to_send(self):
        for script, _, _ in self.all:
            for frame in read_json(script)["frames"]:
                self.assertEqual(frame["ops"][-1], {"op": "pass"})

    @unittest.skipUnless(PROGRAM.exists(), "the program isn't built")
    def test_the_replay_ends_with_the_browsers_tree(self):
        for script, final, _ in self.all:
            status, text = run(script.read_bytes())
            lines = text.splitlines()
            self.assertEqual(status, 0, lines[:1])
            self.assertEqual([line for line in lines if re.match(r"f\d+ (?!pass )", line) and not line.endswith(" ok")], [])
            self.assertEqual(as_final(read_dump(lines[lines.index("dump") + 1:])), read_json(final)["trees"])
            self.assertEqual(Story(read_json(script), text).faults, [])


def every(node):
    """A node and all below it."""
    yield node
    for child in node["children"]:
        yield from every(child)


if __name__ == "__main__":
    unittest.main()
