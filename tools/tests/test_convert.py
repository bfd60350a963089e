"""Snapshots, made by hand, that become trees."""
import unittest

from pages.convert import Frame
from pages.model import extents
from pages.notes import Notes
from pages.places import Page
from pages.snapshot import Element, FrameShot


def node(number, role, *children, ignored=False, name="", value=None, **values):
    """A node as the browser tells it; its children are nodes."""
    told = {"nodeId": str(number), "backendDOMNodeId": number, "role": {"value": role}, "ignored": ignored, "childIds": [child["nodeId"] for child in children],
            "properties": [{"name": key, "value": value} for key, value in values.items()], "inside": children}
    if name:
        told["name"] = {"value": name}
    if value is not None:
        told["value"] = {"value": value}
    return told


def flag(value):
    """A property's value."""
    return {"value": value}


def related(*numbers):
    """A property that names nodes."""
    return {"relatedNodes": [{"backendDOMNodeId": number} for number in numbers]}


def listed(root, parent=None):
    """A node and all below it, as one list."""
    below = [one for child in root.pop("inside") for one in listed(child, root)]
    return [dict(root, **({"parentId": parent["nodeId"]} if parent else {})), *below]


def convert(root, elements=None, version=2, **shot):
    """The tree of a page of one frame, and what was noted."""
    notes = Notes()
    told = FrameShot("F", "", nodes=listed(root), elements=elements or {}, **shot)
    page = Page([told], {"F": 1}, (100, 80))
    return Frame(1, version, notes).tree(told, page, {}), notes.lines()


def box(left, top, right, bottom, name="DIV", **more):
    """An element with a box."""
    return Element(name, box=(left, top, right, bottom), **more)


class Looks(unittest.TestCase):
    """Roles, states and attributes."""

    def test_roles(self):
        tree, notes = convert(node(9, "RootWebArea", node(8, "button"), node(7, "columnheader"), node(6, "Canvas"), node(5, "switch")))
        self.assertEqual([tree.nodes[number].role for number in range(1, 6)], ["root_web_area", "button", "cell", "generic", "switch"])
        self.assertEqual(notes, ["role Canvas, told as generic (1, first 1:4)", "role columnheader, told as cell (1, first 1:3)"])

    def test_version_1_has_fewer_names(self):
        tree, notes = convert(node(9, "RootWebArea", node(8, "switch", pressed=flag("true"), roledescription=flag("lever"))), version=1)
        self.assertEqual((tree.nodes[2].role, tree.nodes[2].states, tree.nodes[2].attrs), ("generic", frozenset(), ()))
        self.assertEqual(len(notes), 2)

    def test_states_and_attributes(self):
        field = node(8, "textbox", name="Who", value="Ana", focusable=flag(True), required=flag(True), editable=flag("plaintext"), expanded=flag(False),
                     invalid=flag("false"), checked=flag("mixed"), level=flag(3), hasPopup=flag("menu"))
        tree, notes = convert(node(9, "RootWebArea", field))
        told = tree.nodes[2]
        self.assertEqual(told.states, {"focusable", "required", "editable", "collapsed"})
        self.assertEqual(told.attributes(), {"name": "Who", "value": "Ana", "checked": "mixed", "level": 3})
        self.assertEqual(notes, ["property hasPopup (1, first 1:2)"])

    def test_numbers(self):
        tree, notes = convert(node(9, "RootWebArea", node(8, "slider", value=2, valuemin=flag(0), valuemax=flag(10.5))))
        self.assertEqual(tree.nodes[2].attributes(), {"value_now": 2, "value_min": 0})
        self.assertEqual(notes, ["value_max that is no whole number of 32 bits (1, first 1:2)"])

    def test_relations(self):
        tree, notes = convert(node(9, "RootWebArea", node(8, "button", controls=related(7, 9), details=related(4)), node(7, "none", ignored=True)))
        self.assertEqual(tree.nodes[2].attributes(), {"controls": 3})
        self.assertEqual(tree.nodes[3].states, {"ignored"})
        self.assertEqual(notes, ["controls with more than one node (1, first 1:2)", "details with a node outside the tree (1, first 1:2)"])

    def test_halves_of_pairs(self):
        tree, notes = convert(node(9, "RootWebArea", node(8, "button", name="a\ud83cb")))
        self.assertEqual(tree.nodes[2].get("name"), "a\ufffdb")
        self.assertEqual(notes, ["halves of surrogate pairs in a text (1, first 1:2)"])

    def test_lines_boxes_are_left_out(self):
        tree, notes = convert(node(9, "RootWebArea", node(8, "StaticText", node(7, "InlineTextBox"), name="a")))
        self.assertEqual(tree.nodes[2].children, ())
        self.assertEqual(notes, ["the boxes of a text's lines (1, first tree 1)"])

    def test_what_is_too_deep(self):
        deep = node(1000, "generic")
        for number in range(999, 700, -1):
            deep = node(number, "generic", deep)
        tree, notes = convert(node(9, "RootWebArea", deep))
        self.assertEqual(len(tree.nodes), 256)
        self.assertEqual(notes, ["nodes below level 256 (1, first tree 1)"])

    def test_selection_and_focus(self):
        root = node(9, "RootWebArea", node(8, "StaticText", name="abc"), node(7, "textbox"))
        tree, _ = convert(root, selection=((8, 1), (7, 0)), active=7, has_focus=True, title="T", url="u", loaded=True)
        self.assertEqual(tree.data, {"parent": 0, "focused": 1, "loaded": True, "focus": 3, "sel": [2, 1, 3, 0], "title": "T", "url": "u"})
        tree, notes = convert(node(9, "RootWebArea"), selection=((5, 1), (9, 0)), active=5, has_focus=True)
        self.assertEqual((tree.data["sel"], tree.data["focus"]), ([0, 0, 0, 0], 1))
        self.assertEqual(notes, ["a selection that ends at no accessible node (1, first tree 1)"])

    def test_a_window_without_focus(self):
        tree, _ = convert(node(9, "RootWebArea", node(8, "textbox")), active=8)
        self.assertEqual((tree.data["focus"], tree.data["focused"]), (0, 0))


class Boxes(unittest.TestCase):
    """Rectangles in both versions."""

    def page(self, version):
        """A page that is scrolled by 10, with a box that is scrolled by 5 and something in it, and something that is fixed."""
        scrolled = {"overflow-y": "auto", "overflow-x": "auto"}
        elements = {8: box(5, 20, 55, 40, styles=scrolled, scroll=(0, 5, 50, 90), client=(0, 0, 50, 20)), 7: box(5.5, 25, 25.2, 30),
                    6: box(50, 70, 90, 90, styles={"position": "fixed"}), 5: box(0, 300, 10, 310)}
        root = node(9, "RootWebArea", node(8, "list", node(7, "listitem")), node(6, "button", node(4, "StaticText")), node(5, "link"))
        return convert(root, {**elements, 4: box(51, 71, 60, 80)}, version, scroll=(0, 10), content=(100, 400))[0]

    def test_version_2(self):
        tree = self.page(2)
        self.assertEqual(tree.nodes[1].attributes(), {"clips": True, "scroll_x": 0, "scroll_y": 10})
        self.assertEqual(tree.nodes[2].attributes(), {"clips": True, "scroll_x": 0, "scroll_y": 5, "container": 1})
        self.assertEqual([tree.nodes[number].rect for number in (1, 2, 3)], [(0, 0, 100, 80), (5, 20, 50, 20), (0, 10, 21, 5)])
        self.assertEqual([tree.nodes[number].get("container") for number in (3, 4, 5, 6)], [2, None, None, 1])
        self.assertIn("offscreen", tree.nodes[6].states)

    def test_a_box_that_only_the_window_has(self):
        inner = Element(box_in_window=(10, 30, 40, 44.5))
        for version, rect in ((1, (10, 30, 30, 15)), (2, (10, 40, 30, 15))):
            tree, _ = convert(node(9, "RootWebArea", node(8, "StaticText")), {8: inner}, version, scroll=(0, 10), content=(100, 400))
            self.assertEqual((tree.nodes[2].rect, tree.nodes[2].states), (rect, frozenset()))

    def test_turned_boxes(self):
        turned, moved = box(1, 1, 9, 9, styles={"transform": "matrix(0, 1, -1, 0, 0, 0)"}), box(1, 1, 9, 9, styles={"transform": "matrix(1, 0, 0, 1, 5, 5)"})
        _, notes = convert(node(9, "RootWebArea", node(8, "link"), node(7, "link")), {8: turned, 7: moved})
        self.assertEqual(notes, ["a turned box, of which the box around is told (1, first 1:2)"])

    def test_both_versions_say_the_same_of_the_page(self):
        first, second = self.page(1), self.page(2)
        self.assertEqual({number: told.rect for number, told in first.nodes.items()}, extents(second))
        self.assertEqual(first.nodes[3].rect, (5, 15, 21, 5))


if __name__ == "__main__":
    unittest.main()
