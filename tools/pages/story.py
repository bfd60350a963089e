"""A script and what the program printed of it, as steps with the trees before and after each."""
import re
from dataclasses import dataclass, field

from . import words
from .model import Tree, container_of
from .output import is_dump_line, read_dump

FRAME_LINE = re.compile(r"f(\d+) (\w+)(?: (.*))?$")
PASS_NOTE = re.compile(r"(\d+) base (\d+) token (\d+)$")
UPDATE = re.compile(r"  u clear (\d+) root (\d+) list (-|\d+(?: \d+)*)( data)?$")
EVENT = re.compile(r"  e (\d+)(?::(\d+))? (\w+)$")
RECEIPT = re.compile(r"a(\d+) (applied|stale|gap|gone)(?: (.*))?$")
BROWSER = re.compile(r"b (ask|destroy|probe) (\d+) (.*)$")
DELIVERY = re.compile(r"d(\d+):(\d+)$")
REPLY = re.compile(r"r(\d+) (\w+) = (.*)$")
ACTION = re.compile(r"p(\d+) (focus|set_value|scroll) (\d+) (.*)$")


class NotOfScript(Exception):
    """A line that no run of this script prints."""


@dataclass
class Step:
    """A step: what it is, in which lane of the time line, its lines, a sentence, and what it changed.

    `side` is `source` or `copy` where a tree was changed; `before` and `after` are that tree, None where it isn't there.
    """
    kind: str
    lane: str
    lines: list
    told: str
    mark: str = ""
    side: str = ""
    tree: int = 0
    before: object = None
    after: object = None
    events: list = field(default_factory=list)
    updates: list = field(default_factory=list)


class Story:
    """The steps of a run, with its trees at the end and what was found wrong with them."""

    def __init__(self, script, text):
        self.script = script
        self.lines = text.split("\n")[:-1] if text.endswith("\n") else text.split("\n")
        self.at = 0
        self.order = [frame["tree"] for frame in script["frames"]]
        self.sources = {tree: Tree() for tree in self.order}
        self.copies = {tree: Tree() for tree in self.order}
        self.ops = {frame["tree"]: iter(frame["ops"]) for frame in script["frames"]}
        self.queries = [iter(reader) for reader in script.get("readers", [])]
        self.actions = {tree: iter([a for a in script.get("actions", []) if a["tree"] == tree]) for tree in self.order}
        self.passes = {tree: {} for tree in self.order}
        self.waiting = {tree: [] for tree in self.order}
        self.steps, self.asked, self.faults, self.rest = [], [], [], []
        self.tell()

    def tell(self):
        """Reads all lines."""
        if self.lines[:1] and self.lines[0].startswith("script "):
            raise NotOfScript(f"the program refused the script: {self.lines[0]}")
        if self.lines[:1] and self.lines[0].startswith("order"):
            self.step("order", "all", [self.take()], "The order that the threads took")
        while self.at < len(self.lines):
            self.one_step(self.lines[self.at])

    def take(self):
        """The next line."""
        line = self.lines[self.at]
        self.at += 1
        return line

    def take_while(self, wanted):
        """The next lines that are wanted."""
        start = self.at
        while self.at < len(self.lines) and wanted(self.lines[self.at]):
            self.at += 1
        return self.lines[start:self.at]

    def step(self, kind, lane, lines, told, **more):
        """Adds a step."""
        self.steps.append(Step(kind, lane, lines, told, **more))

    def one_step(self, line):
        """The step that begins with this line."""
        for pattern, read in ((FRAME_LINE, self.frame), (RECEIPT, self.receipt), (BROWSER, self.browser), (DELIVERY, self.delivery),
                              (REPLY, self.reply), (ACTION, self.action)):
            if found := pattern.match(line):
                return read(found)
        if line == "finale":
            return self.step("finale", "all", [self.take()], "The order is done; what is left follows, and then the asking for what no pass sent")
        if line == "actions":
            return self.step("finale", "all", [self.take()], "The actions of readers")
        if line == "dump":
            return self.dump()
        if line == "combined":
            self.rest = self.take_while(lambda _: True)
            return self.step("end", "all", self.rest, "The combined tree of all trees that hang together")
        raise NotOfScript(f"line {self.at + 1} is none of a replay: {line}")

    # ---- frames

    def known(self, tree):
        """The tree's number, which the script has to have."""
        if int(tree) not in self.sources:
            raise NotOfScript(f"line {self.at + 1}: the script has no tree {tree}")
        return int(tree)

    def next_op(self, tree, name):
        """The frame's next operation, of this name. Passes of the finale are in no list."""
        op = next(self.ops[tree], {"op": "pass"})
        if op["op"] != name:
            raise NotOfScript(f"line {self.at + 1}: frame {tree} does {name}, the script has {op['op']}")
        return op

    def frame(self, found):
        """A run of edits of one frame, or a pass."""
        tree = self.known(found[1])
        if found[2] == "pass":
            return self.make_pass(tree, found[3])
        before, lines = self.sources[tree].copy(), []
        while self.at < len(self.lines) and (found := FRAME_LINE.match(self.lines[self.at])):
            if int(found[1]) != tree or found[2] == "pass":
                break
            op = self.next_op(tree, found[2])
            lines.append(self.take())
            if lines[-1].endswith(" ok"):
                self.sources[tree].edit(op)
        self.step("edits", f"f{tree}", lines, words.edits_words(tree, lines), mark=str(len(lines)), side="source", tree=tree,
                  before=before, after=self.sources[tree].copy())

    def make_pass(self, tree, note):
        """A pass with its updates."""
        self.next_op(tree, "pass")
        lines = [self.take(), *self.take_while(UPDATE.match)]
        updates = [read_update(line) for line in lines[1:]]
        found = PASS_NOTE.match(note)
        numbers = tuple(map(int, found.groups())) if found else None
        if numbers:
            self.passes[tree][numbers[0]] = self.sources[tree].copy()
            self.waiting[tree].append(numbers[0])
        self.step("pass", f"f{tree}", lines, words.pass_words(tree, numbers, updates), mark=f"▲{numbers[0]}" if numbers else "△",
                  tree=tree, updates=updates)

    def delivery(self, found):
        """A token that reaches its frame."""
        tree = self.known(found[1])
        self.step("delivery", f"f{tree}", [self.take()], f"Token {found[2]} reaches frame {tree}: its next pass sends the whole tree",
                  mark=f"t{found[2]}", tree=tree)

    def action(self, found):
        """An action of a reader upon a frame."""
        tree = self.known(found[1])
        before, action = self.sources[tree].copy(), next(self.actions[tree], None)
        if action is None or (action["do"], action["node"]) != (found[2], int(found[3])):
            raise NotOfScript(f"line {self.at + 1}: this isn't the script's next action upon frame {tree}")
        if found[4] == "ok":
            self.sources[tree].edit(edit_of(action, self.sources[tree]))
        self.step("action", f"f{tree}", [self.take()], f"Action {found[2]} upon {words.shown_place(self.copies, tree, int(found[3]))}: {found[4]}",
                  mark="!", side="source", tree=tree, before=before, after=self.sources[tree].copy())

    # ---- the browser

    def receipt(self, found):
        """What became of the oldest packet of a tree, with its events."""
        tree = self.known(found[1])
        if not self.waiting[tree]:
            raise NotOfScript(f"line {self.at + 1}: no pass of frame {tree} is on its way")
        number = self.waiting[tree].pop(0)
        lines = [self.take(), *self.take_while(EVENT.match)]
        verdict = [found[2], *(found[3] or "").split()]
        events = [read_event(line) for line in lines[1:]]
        more = {}
        if found[2] == "applied":
            if int(verdict[1]) != number:
                raise NotOfScript(f"pass {verdict[1]} of frame {tree} is applied, but pass {number} is the oldest on its way")
            more = {"side": "copy", "before": self.copies[tree], "after": self.passes[tree][number]}
            self.copies[tree] = self.passes[tree][number]
        mark = {"applied": "●", "stale": "◌", "gap": "✕", "gone": "∅"}[found[2]] + str(number)
        self.step("receipt", f"a{tree}", lines, words.receipt_words(tree, number, verdict, len(events)), mark=mark, tree=tree,
                  events=events, **more)

    def browser(self, found):
        """An ask, a destroy or a probe."""
        tree = self.known(found[2])
        more = {}
        if found[1] == "destroy" and found[3] == "ok":
            more = {"side": "copy", "before": self.copies[tree], "after": None}
            self.copies[tree] = None
        mark = {"ask": "?", "destroy": "†", "probe": "~"}[found[1]]
        self.step(found[1], f"a{tree}", [self.take()], words.browser_words(found[1], tree, found[3].split()), mark=mark, tree=tree, **more)

    # ---- readers and the end

    def reply(self, found):
        """A query with its reply."""
        reader = int(found[1])
        if not 1 <= reader <= len(self.queries):
            raise NotOfScript(f"line {self.at + 1}: the script has no reader {reader}")
        query = next(self.queries[reader - 1], None)
        if query is None or query["q"] != found[2]:
            raise NotOfScript(f"line {self.at + 1}: this isn't the next query of reader {reader}")
        reply = words.reply_words(found[3], self.copies)
        self.asked.append({"step": len(self.steps), "reader": reader, "query": words.query_words(query), "reply": reply, "members": query})
        self.step("query", f"r{reader}", [self.take()], f"Reader {reader} asks {words.query_words(query)}: {reply}", mark="?")

    def dump(self):
        """The dump, which has to have the trees that were told so far."""
        self.take()
        lines = self.take_while(is_dump_line)
        printed = read_dump(lines)
        for tree in self.order:
            if tree not in printed or printed[tree] != self.copies[tree]:
                self.faults.append(f"tree {tree} of the dump isn't the tree that the steps give")
        self.step("end", "all", ["dump", *lines], "The copies at the end, as they are printed")


def read_update(line):
    """The parts of an update's line."""
    clear, root, ids, data = UPDATE.match(line).groups()
    return {"clear": int(clear), "root": int(root), "list": [] if ids == "-" else list(map(int, ids.split())), "data": bool(data)}


def read_event(line):
    """Node, 0 for the tree itself, and name of an event."""
    _, node, name = EVENT.match(line).groups()
    return [int(node or 0), name]


def edit_of(action, tree):
    """The operation that an action stands for."""
    node = action["node"]
    if action["do"] == "focus":
        return {"op": "data", "focus": node}
    if action["do"] == "set_value":
        return {"op": "set", "node": node, "attrs": {"value": action["value"]}}
    x, y = tree.nodes[node].rect[:2]
    return {"op": "set", "node": container_of(tree, node), "attrs": {"scroll_x": x, "scroll_y": y}}
