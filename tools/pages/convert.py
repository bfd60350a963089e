"""From a frame as the browser tells it to a tree as scripts have it."""
from . import tables
from .attributes import Attributes, properties, role_of
from .model import BLANK_DATA, BLANK_RECT, Node, Tree, frozen
from .places import as_rect, clips, is_turned
from .scripts import without_lone_surrogates

SAME_ROLES = {
    "RootWebArea": "root_web_area", "StaticText": "static_text", "Iframe": "iframe", "IframePresentational": "iframe",
    "textbox": "text_field", "searchbox": "text_field", "img": "image", "image": "image", "listitem": "list_item",
    "menuitem": "menu_item", "tablist": "tab_list", "treeitem": "tree_item", "progressbar": "progress_bar",
    "none": "generic", "presentation": "generic", "GenericContainer": "generic", "heading": "heading",
    **{name: name for name in """generic paragraph link button checkbox list table row cell dialog alert menu tab main navigation
       form slider status article banner complementary search region tree switch""".split()},
}
NEAR_ROLES = {
    "gridcell": "cell", "columnheader": "cell", "rowheader": "cell", "grid": "table", "treegrid": "table", "alertdialog": "dialog",
    "menubar": "menu", "menuitemcheckbox": "menu_item", "menuitemradio": "menu_item", "spinbutton": "text_field", "meter": "progress_bar",
    "directory": "list", "LineBreak": "static_text", "log": "status", "contentinfo": "region", "DescriptionList": "list",
}


class Frame:
    """A frame whose shots become trees: the ids that its nodes have are kept from one to the next."""

    def __init__(self, tree, version, notes):
        self.number = tree
        self.version = version
        self.notes = notes
        self.ids = {}

    def id_of(self, key):
        """The id of a node, a new one where it has none yet."""
        return self.ids.setdefault(key, len(self.ids) + 1)

    def tree(self, shot, page, owners):
        """The tree of a shot. `page` tells where boxes are; `owners` has the tree numbers of the frames inside by their owners."""
        conversion = Conversion(self, shot, page, owners)
        conversion.walk()
        return conversion.result


def key_of(node):
    """What a node keeps while the page changes: the number of its element, or that of the node itself."""
    return node.get("backendDOMNodeId") or "node " + node["nodeId"]


class Conversion:
    """One shot on its way to a tree."""

    def __init__(self, frame, shot, page, owners):
        self.frame, self.shot, self.page, self.owners = frame, shot, page, owners
        self.named = {node["nodeId"]: node for node in shot.nodes}
        self.chosen = {}
        self.boxes = {}
        self.containers = {}
        self.result = Tree()

    def note(self, remark, node=None):
        """Notes what can't be said, with the tree and the node's id."""
        where = f"{self.frame.number}:{self.frame.id_of(key_of(node))}" if node else f"tree {self.frame.number}"
        self.frame.notes.add(remark, where)

    def walk(self):
        """Chooses the nodes, then tells of each."""
        roots = [node for node in self.shot.nodes if "parentId" not in node or node["parentId"] not in self.named]
        if roots:
            self.choose(roots[0])
        children = {key: [] for key in self.chosen}
        for key, (_, above) in self.chosen.items():
            if above is not None:
                children[above].append(self.frame.id_of(key))
        self.result.root = self.frame.id_of(next(iter(self.chosen))) if self.chosen else 0
        for key, (node, above) in self.chosen.items():
            parent = self.frame.id_of(above) if above is not None else 0
            self.result.nodes[self.frame.id_of(key)] = self.told(key, node, tuple(children[key]), parent)
        self.result.data = self.data()

    def choose(self, root):
        """The nodes of the tree in pre-order, each with the key above it. Boxes of lines are left out, and what is too deep."""
        waiting = [(root, None, 1)]
        while waiting:
            node, above, level = waiting.pop()
            key = key_of(node)
            if key in self.chosen:
                continue
            if level > tables.GREATEST_DEPTH:
                self.note(f"nodes below level {tables.GREATEST_DEPTH}")
                continue
            self.chosen[key] = (node, above)
            self.frame.id_of(key)
            below = [] if key in self.owners else [self.named[child] for child in node.get("childIds", []) if child in self.named]
            kept = [child for child in below if role_of(child) != "InlineTextBox"]
            if len(kept) < len(below):
                self.note("the boxes of a text's lines")
            waiting.extend((child, key, level + 1) for child in reversed(kept))

    def told(self, key, node, children, parent):
        """The node as scripts have it."""
        element = self.shot.elements.get(node.get("backendDOMNodeId"))
        attributes = Attributes(self, node)
        states = self.states(node, element)
        if not node.get("ignored"):
            attributes.add_properties()
        attributes.add_markup(element)
        if key in self.owners:
            attributes.set("child_tree", self.owners[key])
        rect = self.place(key, node, element, attributes)
        allowed = tables.states(self.frame.version)
        return Node(self.role(node), frozenset(state for state in states if state in allowed), frozen(attributes.given), rect, children, parent)

    def role(self, node):
        """The role's name, the nearest one, or `generic`."""
        role = role_of(node)
        name = SAME_ROLES.get(role)
        if name is None:
            name = NEAR_ROLES.get(role, "generic")
            self.note(f"role {role}, told as {name}", node)
        if name not in tables.roles(self.frame.version):
            self.note(f"role {name}, which came with version 2, told as generic", node)
            name = "generic"
        return name

    def states(self, node, element):
        """The names of the states."""
        values = properties(node)
        states = {name for name in ("focusable", "required", "multiselectable") if values.get(name)}
        if "expanded" in values:
            states.add("expanded" if values["expanded"] else "collapsed")
        if values.get("editable"):
            states.add("editable")
        if values.get("pressed") in ("true", "mixed", True):
            states.add("pressed")
        if values.get("pressed") == "mixed":
            self.note("a button that is pressed in part", node)
        if node.get("ignored"):
            states.add("ignored")
        if element is not None:
            if element.styles.get("visibility", "visible") != "visible" or values.get("hidden"):
                states.add("invisible")
            if element.attributes.get("type") == "password" and element.name == "INPUT":
                states.add("protected")
            if self.page.is_off(self.shot.frame, element):
                states.add("offscreen")
        return states

    def place(self, key, node, element, attributes):
        """The node's rectangle, with what it is measured from and how far it is scrolled."""
        is_root = self.chosen[key][1] is None
        box = self.page.window(self.shot.frame) if is_root else self.page.box(self.shot.frame, element)
        self.boxes[key] = box
        if box is None:
            return BLANK_RECT
        if is_root or (element is not None and clips(element)):
            attributes.set("clips", True)
        if element is not None and is_turned(element):
            self.note("a turned box, of which the box around is told", node)
        if self.frame.version == 1:
            return as_rect(box)
        scroll = self.page.scroll(self.shot.frame, None if is_root else element)
        if scroll is not None:
            attributes.set("scroll_x", scroll[0])
            attributes.set("scroll_y", scroll[1])
            self.containers[key] = scroll
        elif is_root:
            self.containers[key] = (0, 0)
        return self.measured(key, element, box, attributes)

    def measured(self, key, element, box, attributes):
        """The rectangle from its container: the nearest node above that scrolls, or the root, unless it is fixed to the window."""
        base = None
        above = key
        while base is None and not self.is_fixed(above) and self.chosen[above][1] is not None:
            above = self.chosen[above][1]
            base = above if above in self.containers else None
        if base is None:
            return as_rect(box)
        attributes.set("container", self.frame.id_of(base))
        left, top = self.boxes[base][:2]
        scroll = self.containers[base]
        return as_rect((box[0] - left + scroll[0], box[1] - top + scroll[1], box[2] - left + scroll[0], box[3] - top + scroll[1]))

    def is_fixed(self, key):
        """Whether the element of a node is fixed to the window."""
        element = self.shot.elements.get(key)
        return element is not None and element.styles.get("position") == "fixed"

    def data(self):
        """The tree data."""
        data = dict(BLANK_DATA, title=self.clean(self.shot.title), url=self.clean(self.shot.url), loaded=self.shot.loaded)
        data["focus"] = self.page.focus(self.shot, self.result.root, self.known_id)
        data["sel"] = self.selection()
        data["parent"] = self.page.parent(self.shot.frame)
        data["focused"] = self.page.focused_tree() if not self.shot.parent else 0
        return data

    def known_id(self, key):
        """The id of a node of this tree, or 0."""
        return self.frame.id_of(key) if key in self.chosen else 0

    def selection(self):
        """The ends of the selection, or none where one stands at no node of the tree."""
        ends = [(self.known_id(node), offset) for node, offset in self.shot.selection]
        if not ends:
            return [0, 0, 0, 0]
        if not all(node for node, _ in ends):
            self.note("a selection that ends at no accessible node")
            return [0, 0, 0, 0]
        return [number for end in ends for number in end]

    def clean(self, text, node=None):
        """The text as UTF-8 can have it."""
        text, changed = without_lone_surrogates(text)
        if changed:
            self.note("halves of surrogate pairs in a text", node)
        return text
