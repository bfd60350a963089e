"""The schema of scripts, against the examples, a list of scripts that are refused, and the program's own answers."""
import copy
import json
import unittest
from pathlib import Path

import jsonschema

from pages.running import PROGRAM, REFUSED, run

TOP = Path(__file__).resolve().parents[2]
VALIDATOR = jsonschema.Draft202012Validator(json.loads((TOP / "docs/script.schema.json").read_text()))

ATTRIBUTES = {"name": "a", "level": -1, "clips": True, "container": 1, "child_tree": 2}
LOOK = {"role": "switch", "states": ["pressed", "pressed"], "attrs": ATTRIBUTES, "rect": [-5, 0, 9, 0]}
WHOLE = {
    "version": 2,
    "frames": [
        {"tree": 1, "ops": [
            {"op": "root", "node": 1, **LOOK}, {"op": "insert", "parent": 1, "index": 0, "node": 2, **LOOK},
            {"op": "set", "node": 2, "attrs": {"name": None, "container": None, "clips": None}, "states": []},
            {"op": "move", "node": 2, "parent": 1, "index": 0}, {"op": "remove", "node": 2}, {"op": "touch", "node": 1}, {"op": "touch_below", "node": 1},
            {"op": "data", "parent": 0, "focused": 0, "loaded": True, "focus": 0, "sel": [1, 2, 0, 0], "title": "", "url": ""},
            {"op": "data"}, {"op": "pass"}]},
        {"tree": 1000, "ops": []}],
    "browser": [
        {"op": "ask", "tree": 1, "after": 0}, {"op": "destroy", "tree": 1000},
        {"op": "probe", "tree": 1, "update": {"clear": 0, "root": 1, "nodes": [{"node": 1, **LOOK, "children": [2, 3]}], "data": {"title": "a"}}}],
    "readers": [
        [{"q": query, "tree": 1, "node": 1, "after": 1} for query in ("node", "parent", "children", "next", "prev", "bounds", "u_parent", "u_children",
                                                                    "u_next", "u_prev", "u_text")],
        [{"q": "hit", "x": -1, "y": 1}, {"q": "focus"}, {"q": "offset", "at": None}, {"q": "leaf", "at": {"tree": 1, "node": 1, "child": 0}},
         {"q": "up", "at": {"tree": 1, "node": 1, "offset": 0}}, {"q": "text", "at": {"tree": 1, "node": 1, "offset": 0, "affinity": "up"}, "to": None},
         {"q": "compare", "at": None, "to": None}, {"q": "move", "at": None, "unit": "word", "way": "prev"}]],
    "order": "f1 f1 f1 f1 f1 f1 f1 f1 f1 f1 a1 b d1000:1000000 r2",
    "actions": [{"do": "focus", "tree": 1, "node": 1}, {"do": "scroll", "tree": 1, "node": 1}, {"do": "set_value", "tree": 1, "node": 1, "value": ""}],
}
OPS, TREE_2 = "$.frames[0].ops", "$.frames[1]"


def changed(**changes):
    """The whole script with values put at paths; `...` takes a member away."""
    script = copy.deepcopy(WHOLE)
    for path, value in changes.items():
        *way, last = [int(word) if word.isdigit() else word for word in path.split("__")]
        place = script
        for word in way:
            place = place[word]
        if value is ...:
            del place[last]
        else:
            place[last] = value
    return script


def first_version(**more):
    """A small script of version 1."""
    return {"version": 1, "frames": [{"tree": 1, "ops": [{"op": "root", "node": 1, **more}]}]}


REFUSED_BY_BOTH = {
    "UnknownMember $": changed(other=0),
    "Missing $.version": changed(version=...),
    "BadType $.version": changed(version="1"),
    "BadNumber $.version": changed(version=3),
    "Missing $.frames": changed(frames=...),
    "BadType $.frames": changed(frames={}),
    "BadCount $.frames": changed(frames=[]),
    "BadType $.frames[0]": changed(frames__0=None),
    "UnknownMember $.frames[1]": changed(frames__1__node=1),
    "BadNumber $.frames[1].tree": changed(frames__1__tree=1001),
    f"Missing {OPS}[0].op": changed(frames__0__ops__0__op=...),
    f"BadName {OPS}[0].op": changed(frames__0__ops__0__op="fly"),
    f"UnknownMember {OPS}[9]": changed(frames__0__ops__9__node=1),
    f"Missing {OPS}[1].parent": changed(frames__0__ops__1__parent=...),
    f"BadNumber {OPS}[1].index": changed(frames__0__ops__1__index=-1),
    f"BadNumber {OPS}[1].node": changed(frames__0__ops__1__node=0),
    f"BadName {OPS}[1].role": changed(frames__0__ops__1__role="knob"),
    f"BadName {OPS}[1].states[0]": changed(frames__0__ops__1__states=["bright"]),
    f"UnknownMember {OPS}[1].attrs": changed(frames__0__ops__1__attrs={"color": "red"}),
    f"BadType {OPS}[1].attrs.name": changed(frames__0__ops__1__attrs={"name": None}),
    f"BadNumber {OPS}[1].attrs.level": changed(frames__0__ops__1__attrs={"level": 2147483648}),
    f"BadNumber {OPS}[1].attrs.child_tree": changed(frames__0__ops__1__attrs={"child_tree": 0}),
    f"BadCount {OPS}[1].rect": changed(frames__0__ops__1__rect=[0, 0, 1]),
    f"BadNumber {OPS}[1].rect[2]": changed(frames__0__ops__1__rect=[0, 0, -1, 0]),
    f"BadNumber {OPS}[7].sel[1]": changed(frames__0__ops__7__sel=[0, 1, 0, 0]),
    f"BadNumber {OPS}[7].sel[3]": changed(frames__0__ops__7__sel=[1, 1, 0, 1]),
    f"BadNumber {OPS}[7].parent": changed(frames__0__ops__7__parent=1001),
    f"BadType {OPS}[7].loaded": changed(frames__0__ops__7__loaded=1),
    f"BadType {OPS}[7].title": changed(frames__0__ops__7__title=None),
    "BadName $.browser[0].op": changed(browser__0__op="stop"),
    "UnknownMember $.browser[0]": changed(browser__0__update={"nodes": []}),
    "BadNumber $.browser[0].after": changed(browser__0__after=1000001),
    "Missing $.browser[2].update": changed(browser__2__update=...),
    "Missing $.browser[2].update.nodes": changed(browser__2__update__nodes=...),
    "BadNumber $.browser[2].update.nodes[0].children[0]": changed(browser__2__update__nodes__0__children=[0]),
    "UnknownMember $.browser[2].update.data": changed(browser__2__update__data={"tree": 1}),
    "BadCount $.readers": changed(readers=[[]] * 17),
    "BadType $.readers[0]": changed(readers__0={}),
    "BadName $.readers[0][0].q": changed(readers__0__0__q="why"),
    "UnknownMember $.readers[1][1]": changed(readers__1__1__x=1),
    "BadNumber $.readers[1][0].x": changed(readers__1__0__x=2147483648),
    "UnknownMember $.readers[1][3].at": changed(readers__1__3__at__offset=1),
    "BadName $.readers[1][5].at.affinity": changed(readers__1__5__at__affinity="left"),
    "BadName $.readers[1][7].unit": changed(readers__1__7__unit="line"),
    "BadType $.order": changed(order=None),
    "BadOrder 1": changed(order=" "),
    "BadOrder 2": changed(order="f1 "),
    "BadOrder 3": changed(order="f1 f1 f01"),
    "BadName $.actions[0].do": changed(actions__0__do="shout"),
    "UnknownMember $.actions[0]": changed(actions__0__value="a"),
    "BadType $.actions[2].value": changed(actions__2__value=1),
    "BadName $.frames[0].ops[0].role": first_version(role="switch"),
    "BadName $.frames[0].ops[0].states[0]": first_version(states=["pressed"]),
    "UnknownMember $.frames[0].ops[0].attrs": first_version(attrs={"tooltip": "a"}),
    "BadName $.readers[0][0].q ": {**first_version(), "readers": [[{"q": "bounds", "tree": 1, "node": 1}]]},
    "UnknownMember $ ": {**first_version(), "actions": []},
}
BEYOND_A_SCHEMA = {
    "BadNumber $.frames[1].tree": changed(frames__1__tree=1),
    f"BadNumber {OPS}[1].rect[2]": changed(frames__0__ops__1__rect=[1, 0, 2147483647, 0]),
    "BadNumber $.browser[0].tree": changed(browser__0__tree=7),
    "BadOrder 1": changed(order="f2"),
    "BadOrder 2": changed(order="f1 r3"),
}


def accepts(script):
    """Whether the schema has the script."""
    return VALIDATOR.is_valid(script)


class Schema(unittest.TestCase):
    """What it accepts and refuses."""

    def test_it_is_a_schema(self):
        jsonschema.Draft202012Validator.check_schema(VALIDATOR.schema)

    def test_examples(self):
        for name in json.loads((TOP / "examples/stories.json").read_text()):
            errors = list(VALIDATOR.iter_errors(json.loads((TOP / f"examples/{name}.json").read_text())))
            self.assertEqual(errors, [], name)

    def test_every_form_is_accepted(self):
        self.assertTrue(accepts(WHOLE))
        self.assertTrue(accepts(first_version()))

    def test_refusals(self):
        for line, script in REFUSED_BY_BOTH.items():
            self.assertFalse(accepts(script), line)

    def test_what_a_schema_can_not_say(self):
        for line, script in BEYOND_A_SCHEMA.items():
            self.assertTrue(accepts(script), line)


@unittest.skipUnless(PROGRAM.exists(), "the program isn't built")
class AgainstTheProgram(unittest.TestCase):
    """The program reads the whole grammar, so its refusals can be compared with the schema's."""

    def answer(self, script):
        """The refusal's line, or None."""
        status, text = run(json.dumps(script).encode())
        return text.removeprefix("script ").strip() if status == REFUSED else None

    def test_what_is_accepted(self):
        for script in (WHOLE, first_version()):
            self.assertIsNone(self.answer(script))

    def test_what_is_refused(self):
        for line, script in (*REFUSED_BY_BOTH.items(), *BEYOND_A_SCHEMA.items()):
            self.assertEqual(self.answer(script), line.strip())


if __name__ == "__main__":
    unittest.main()
