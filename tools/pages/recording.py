"""A page on its way to a script: from each snapshot to the operations, passes and destroys that bring the frames there."""
import time

from .convert import Frame
from .difference import edits_between
from .model import Tree
from .notes import Notes
from .places import Page
from .queries import queries_after, readers_of
from .snapshot import take_snapshot
from .tables import GREATEST_TREE, states

LOOKS = 25
PAUSE = 0.1


class TooManyFrames(Exception):
    """More frames were seen than scripts have trees."""


class Recording:
    """The script so far. Frames are told apart by the browser's own names of them."""

    def __init__(self, version, size, with_queries=False, settle=PAUSE):
        self.version, self.size, self.settle = version, size, settle
        self.notes = Notes()
        self.frames, self.trees, self.ops = {}, {}, {}
        self.gone = set()
        self.browser, self.order, self.receipts = [], [], 0
        self.readers = [[] for _ in range(readers_of(version))] if with_queries else []

    def look(self, browser):
        """The trees that the page shows once it is at rest: two looks, one a pause after the other, that give the same."""
        before = self.convert(take_snapshot(browser))
        for _ in range(LOOKS):
            time.sleep(self.settle)
            now = self.convert(take_snapshot(browser))
            if now == before:
                return now
            before = now
        self.notes.add("a page that never came to rest: what it was at the last look is told")
        return before

    def convert(self, shots):
        """The tree of each frame, by its number."""
        for shot in shots:
            self.number(shot.frame)
        numbers = {shot.frame: self.frames[shot.frame].number for shot in shots}
        page = Page(shots, numbers, self.size)
        owners = {shot.owner: numbers[shot.frame] for shot in shots if shot.owner}
        return {numbers[shot.frame]: self.frames[shot.frame].tree(shot, page, owners) for shot in shots}

    def number(self, frame):
        """The number of a frame, the next one where it is new or had ended."""
        if frame not in self.frames or self.frames[frame].number in self.gone:
            number = len(self.trees) + 1
            if number > GREATEST_TREE:
                raise TooManyFrames(f"more than {GREATEST_TREE} frames")
            self.frames[frame] = Frame(number, self.version, self.notes)
            self.trees[number], self.ops[number] = Tree(), []
        return self.frames[frame].number

    def take(self, browser):
        """Brings the script to what the page shows now. Says whether anything was to be sent."""
        now = self.look(browser)
        changed = [place for number, tree in now.items() for place in self.send(number, tree)]
        for number in self.trees:
            if number not in now and number not in self.gone:
                self.destroy(number)
        if changed and self.readers:
            self.ask(changed)
        return bool(changed)

    def send(self, number, tree):
        """The operations and the pass that bring a frame to its tree; the places that they change."""
        edits = edits_between(self.trees[number], tree) if tree.root else []
        if not edits:
            return []
        self.ops[number] += [*edits, {"op": "pass"}]
        self.order += [f"f{number}"] * (len(edits) + 1) + [f"a{number}"]
        self.receipts += 1
        return list(dict.fromkeys((number, edit.get("node", tree.root)) for edit in edits))

    def destroy(self, number):
        """A frame that isn't there any more ends, if anything was sent of it."""
        self.gone.add(number)
        if self.ops[number]:
            self.browser.append({"op": "destroy", "tree": number, "after": self.receipts})
            self.order.append("b")

    def ask(self, changed):
        """Each reader asks about the places that were changed."""
        live = {number: tree for number, tree in self.trees.items() if number not in self.gone}
        asked = queries_after(self.version, live, [place for place in changed if place[0] in live])
        for at, queries in enumerate(asked):
            self.readers[at] += [{**query, "after": self.receipts} for query in queries]
            self.order += [f"r{at + 1}"] * len(queries)

    def script(self):
        """The whole script, without frames of which nothing was sent."""
        script = {"version": self.version, "frames": [{"tree": number, "ops": ops} for number, ops in self.ops.items() if ops]}
        if self.browser:
            script["browser"] = self.browser
        if self.readers:
            script["readers"] = self.readers
        script["order"] = " ".join(self.order)
        return script

    def final(self, browser):
        """The browser's own trees at the end, as a fresh look gives them, in a form that can be compared with a dump."""
        now = self.look(browser)
        trees = [{"tree": number, **({"gone": True} if number not in now else whole_tree(now[number]))} for number, ops in self.ops.items() if ops]
        return {"version": self.version, "trees": trees, "replies": []}


def whole_tree(tree):
    """Data and nodes of a tree, each node with those below it."""
    return {"data": tree.data, "root": whole_node(tree, tree.root) if tree.root else None}


def whole_node(tree, root):
    """A node with all below it, built from the leaves up."""
    built = {}
    for node, _ in reversed(list(tree.pre_order())):
        told = tree.nodes[node]
        built[node] = {"id": node, "role": told.role, "name": told.get("name") or "", "states": in_order(told.states), "attrs": told.attributes(),
                       "rect": list(told.rect), "children": [built[child] for child in told.children]}
    return built[root]


def in_order(names):
    """States in the order of their table."""
    return [name for name in states(2) if name in names]
