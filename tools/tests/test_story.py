"""Outputs that are read back, and the steps that are made of a script and its output."""
import json
import unittest
from pathlib import Path

from pages.model import BLANK_DATA, Node, frozen
from pages.output import Unreadable, read_dump, read_node
from pages.page import change, filled, for_script_element, story_page
from pages.story import NotOfScript, Story

EXAMPLES = Path(__file__).resolve().parents[2] / "examples"
NAMES = list(json.loads((EXAMPLES / "stories.json").read_text()))


def story_of(name):
    """The story of an example."""
    return Story(json.loads((EXAMPLES / f"{name}.json").read_text()), (EXAMPLES / f"{name}.txt").read_text())


def kinds(story, kind):
    """The steps of one kind."""
    return [step for step in story.steps if step.kind == kind]


class Dumps(unittest.TestCase):
    """Lines of a dump."""

    def test_a_node_with_all_parts(self):
        line = r'    12 switch [-1,0,5,6] +focusable +pressed name="a \"b\" \\ \n\u0001 c" level=-3 clips=no container=4'
        self.assertEqual(read_node(line), (3, 12, Node("switch", frozenset({"focusable", "pressed"}), frozen(
            {"name": 'a "b" \\ \n\x01 c', "level": -3, "clips": False, "container": 4}), (-1, 0, 5, 6))))

    def test_trees(self):
        trees = read_dump(['tree 1 parent 2 focused 3 loaded yes focus 4 sel 5 6 7 8 title "t" url "u"', "1 generic", "  2 link", "    3 link", "  4 link",
                           "tree 2 gone", "tree 3 empty"])
        self.assertEqual(trees[1].data, dict(BLANK_DATA, parent=2, focused=3, loaded=True, focus=4, sel=[5, 6, 7, 8], title="t", url="u"))
        self.assertEqual({node: (told.children, told.parent) for node, told in trees[1].nodes.items()},
                         {1: ((2, 4), 0), 2: ((3,), 1), 3: ((), 2), 4: ((), 1)})
        self.assertIsNone(trees[2])
        self.assertEqual(trees[3].root, 0)

    def test_lines_of_no_dump(self):
        for lines in (["1 generic"], ["tree 1 gone", "x"], ['tree 1 parent 0 focused 0 loaded no focus 0 sel 0 0 0 0 title "" url ""', "1 link ?"]):
            with self.assertRaises(Unreadable):
                read_dump(lines)


class Stories(unittest.TestCase):
    """The examples, step by step."""

    def test_the_dump_is_what_the_steps_give(self):
        for name in NAMES:
            self.assertEqual(story_of(name).faults, [], name)

    def test_every_line_stands_in_a_step(self):
        for name in NAMES:
            lines = [line for step in story_of(name).steps for line in step.lines]
            self.assertEqual(lines, (EXAMPLES / f"{name}.txt").read_text().splitlines(), name)

    def test_two_frames(self):
        story = story_of("two-frames")
        self.assertEqual([step.told for step in kinds(story, "pass")][:3], [
            "Frame 1 makes pass 1, the whole tree: 1 update with 6 nodes", "Frame 2 makes pass 1, the whole tree: 1 update with 4 nodes",
            "Frame 1 makes pass 2, upon pass 1: 2 updates with 3 nodes"])
        receipt = [step for step in kinds(story, "receipt") if step.tree == 2][1]
        self.assertEqual(receipt.events[2], [2, "children_changed"])
        self.assertEqual(sorted(change(receipt)["nodes"]), [2, 3, 4, 5])
        self.assertEqual(story.asked[0]["reply"], "NoFocus")
        self.assertEqual([asked["reply"] for asked in story.asked if asked["query"].startswith("hit")],
                         ["2:4 button “Buy”", "2:5 static_text “18.00 for two”", "1:1 root_web_area “Harbour news”"])
        self.assertEqual(change(kinds(story, "destroy")[0]), {"side": "copy", "tree": 2, "ended": True})

    def test_a_refused_edit_changes_nothing(self):
        steps = kinds(story_of("edited-page"), "edits")
        self.assertIn("f1 move 3 IntoItself 3", steps[1].lines)
        self.assertEqual(steps[1].told, "Frame 1: 3 edits, 1 refused")
        self.assertEqual(steps[1].after.nodes[5].parent, 3)

    def test_broken_token(self):
        story = story_of("broken-token")
        self.assertEqual([(step.mark, step.side) for step in kinds(story, "receipt")],
                         [("●1", "copy"), ("◌2", ""), ("✕3", ""), ("✕4", ""), ("●5", "copy")])
        self.assertEqual(kinds(story, "receipt")[2].told, "The browser can't apply pass 3 of frame 1: it stands upon pass 2, and the copy is at pass 1")

    def test_actions_change_the_sources(self):
        story = story_of("actions")
        found = [change(step) for step in kinds(story, "action")]
        self.assertEqual([(told["tree"], sorted(told["nodes"]), told.get("data", {}).get("focus")) for told in found],
                         [(1, [3], None), (1, [], 4), (1, [5], None), (1, [], None), (2, [], 2), (2, [], None), (3, [], None)])

    def test_a_combined_tree_is_shown(self):
        script, text = {"version": 1, "frames": [{"tree": 1, "ops": []}]}, "finale\ndump\ntree 1 empty\ncombined\ntree 1 empty\n"
        self.assertEqual([step.lines for step in Story(script, text).steps], [["finale"], ["dump", "tree 1 empty"], ["combined", "tree 1 empty"]])

    def test_the_order_that_threads_took(self):
        script, text = (EXAMPLES / "first-run.json").read_text(), (EXAMPLES / "first-run.txt").read_text()
        steps = Story(json.loads(script), "order f1 f1\n" + text).steps
        self.assertEqual((steps[0].kind, steps[0].lines, len(steps)), ("order", ["order f1 f1"], 6))

    def test_another_scripts_output_is_refused(self):
        script = json.loads((EXAMPLES / "edited-page.json").read_text())
        for name in ("two-frames", "probes", "live-region"):
            with self.assertRaises(NotOfScript, msg=name):
                Story(script, (EXAMPLES / f"{name}.txt").read_text())
        with self.assertRaisesRegex(NotOfScript, "refused the script: script NotJson"):
            Story(script, "script NotJson\n")

    def test_a_wrong_dump_is_told(self):
        script, text = (EXAMPLES / "probes.json").read_text(), (EXAMPLES / "probes.txt").read_text()
        story = Story(json.loads(script), text.replace("    4 generic", "    4 link"))
        self.assertEqual(story.faults, ["tree 7 of the dump isn't the tree that the steps give"])
        self.assertIn("isn&#x27;t the tree", story_page(story, "wrong"))


class Pages(unittest.TestCase):
    """The text of a page."""

    def test_nothing_of_a_script_ends_its_element(self):
        self.assertNotIn("<", for_script_element({"name": "</script><!--"}))
        self.assertEqual(json.loads(for_script_element("</script>\u2028")), "</script>\u2028")

    def test_templates(self):
        self.assertEqual(filled("a{{x}}b{{y}}", x="{{y}}", y="2"), "a{{y}}b2")

    def test_no_outside_parts(self):
        page = story_page(story_of("probes"), "<probes>")
        self.assertIn("<title>&lt;probes&gt;</title>", page)
        self.assertIn("<p>a &amp; b</p>", story_page(story_of("probes"), "a", "a & b"))
        for outside in (" src=", "<link", "@import", "url("):
            self.assertNotIn(outside, page)


if __name__ == "__main__":
    unittest.main()
