"""What the browser itself says to the queries of a capture, by calls of its protocol that the capture doesn't make.

The tree is walked node by node, a parent is the browser's list of a node's ancestors, a box is that of the content quads, a hit that of the browser's
own hit test, the focus the node that it calls focused, and letters and words are those of its own segmenter. The protocol knows no positions in text:
texts and offsets are put together from the names that it tells of leaves, and `compare`, `leaf` and `up` can't be asked of it.
"""
import json
import math
from bisect import bisect_left, bisect_right
from itertools import accumulate

from pages.attributes import properties, role_of
from pages.chromium import BrowserError
from pages.convert import NEAR_ROLES, SAME_ROLES, key_of
from pages.snapshot import frames_of, node_number

SEGMENTS = """(texts => texts.map(text => ['grapheme', 'word'].map(granularity =>
  [...new Intl.Segmenter('en', {granularity}).segment(text)].map(part => [...part.segment]))))(%s)"""
UNSAID = ("compare", "leaf", "up")


class Moment:
    """The page as it is now: the places of all frames in one pre-order, each with the browser's node, what is above and what is below it."""

    def __init__(self, browser, recording):
        self.browser = browser
        listed = list(frames_of(browser.call("Page.getFrameTree")["frameTree"], ""))
        self.frames = {name: recording.frames[name] for name, _ in listed}
        self.owners = {browser.call("DOM.getFrameOwner", frameId=name)["backendNodeId"]: name for name, parent in listed if parent}
        self.nodes, self.above, self.below, self.by_number = {}, {}, {}, {}
        self.walk(listed[0][0])
        self.places = list(self.nodes)
        self.leaves = [place for place in self.places if not self.below[place]]
        self.starts = [0, *accumulate(len(self.name(place)) for place in self.leaves)]

    # ---- the walk

    def walk(self, frame):
        """Goes through the page's frame and all inside it."""
        waiting = [(frame, self.root(frame), None)]
        while waiting:
            frame, node, above = waiting.pop()
            place = (self.frames[frame].number, self.frames[frame].ids[key_of(node)])
            self.nodes[place], self.above[place], self.below[place] = node, above, []
            self.by_number[node.get("backendDOMNodeId")] = place
            if above:
                self.below[above].append(place)
            waiting.extend((inside, child, place) for inside, child in reversed(self.children(frame, node)))

    def root(self, frame):
        """A frame's topmost node."""
        return self.browser.call("Accessibility.getRootAXNode", frameId=frame)["node"]

    def children(self, frame, node):
        """A node's children, each with its frame; at a frame's element that is the topmost node inside."""
        inside = self.owners.get(node.get("backendDOMNodeId"))
        if inside:
            return [(inside, self.root(inside))]
        found = self.browser.call("Accessibility.getChildAXNodes", id=node["nodeId"], frameId=frame)["nodes"] if node.get("childIds") else []
        named = {child["nodeId"]: child for child in found if role_of(child) != "InlineTextBox"}
        return [(frame, named[child]) for child in node["childIds"] if child in named] if found else []

    # ---- what is told of a place

    def is_shown(self, place):
        """Whether assistive technology is to see it."""
        return not self.nodes[place].get("ignored")

    def name(self, place):
        """Its name."""
        return self.nodes[place].get("name", {}).get("value", "") if self.is_shown(place) else ""

    def shown(self):
        """The places that are shown, in order."""
        return list(filter(self.is_shown, self.places))

    def shown_above(self, place):
        """The nearest shown place above, or None."""
        above = self.above[place]
        while above and not self.is_shown(above):
            above = self.above[above]
        return above

    def is_below(self, place, top):
        """Whether a place is another one or below it."""
        while place and place != top:
            place = self.above[place]
        return place == top

    def neighbour(self, places, place, way):
        """The place that many steps further among those listed, or what says that there is none."""
        at = places.index(place) + way
        return shown_place(places[at]) if 0 <= at < len(places) else "AtEnd" if way > 0 else "AtStart"

    # ---- queries of a node

    def say_node(self, place):
        """Role and number of children."""
        role = role_of(self.nodes[place])
        return f"{SAME_ROLES.get(role) or NEAR_ROLES.get(role, 'generic')} {len(self.below[place])}"

    def say_parent(self, place):
        """The next of the ancestors that the browser lists."""
        number = self.nodes[place].get("backendDOMNodeId")
        if number is None:
            return shown_place(self.above[place])
        chain = self.browser.call("Accessibility.getAXNodeAndAncestors", backendNodeId=number)["nodes"]
        if len(chain) > 1:
            return shown_place(self.by_number[chain[1]["backendDOMNodeId"]])
        return shown_place(self.above[place]) if self.above[place] else "NoParent"

    def say_children(self, place):
        """What is right below."""
        return " ".join(map(shown_place, self.below[place])) or "-"

    def say_next(self, place):
        """What follows in pre-order."""
        return self.neighbour(self.places, place, 1)

    def say_prev(self, place):
        """What comes before in pre-order."""
        return self.neighbour(self.places, place, -1)

    def say_bounds(self, place):
        """The least box of whole pixels around its quads; of a frame's topmost node, the window or the inside of the frame's element."""
        number = self.nodes[place].get("backendDOMNodeId")
        if role_of(self.nodes[place]) == "RootWebArea":
            return box_text(self.window(place))
        corners = [corner for quad in self.quads(number) for corner in quad]
        return box_text(corners) if corners else "[0,0,0,0]"

    def window(self, place):
        """The corners of what a frame shows."""
        if self.above[place]:
            owner = self.nodes[self.above[place]]["backendDOMNodeId"]
            return self.browser.call("DOM.getBoxModel", backendNodeId=owner)["model"]["content"]
        seen = self.browser.call("Page.getLayoutMetrics")["cssLayoutViewport"]
        return [0, 0, seen["clientWidth"], seen["clientHeight"]]

    def say_u_parent(self, place):
        """The nearest shown place above."""
        return shown_place(self.shown_above(place)) if self.shown_above(place) else "NoParent"

    def say_u_children(self, place):
        """The shown places right below, as they are shown."""
        return " ".join(shown_place(child) for child in self.shown() if self.shown_above(child) == place) or "-"

    def say_u_next(self, place):
        """What is shown next."""
        return self.neighbour(self.shown(), place, 1)

    def say_u_prev(self, place):
        """What is shown before."""
        return self.neighbour(self.shown(), place, -1)

    def say_u_text(self, place):
        """The names of the shown leaves below."""
        inner = {self.shown_above(child) for child in self.shown()}
        return text_of("".join(self.name(leaf) for leaf in self.shown() if leaf not in inner and self.is_below(leaf, place)))

    # ---- queries of the page

    def say_hit(self, query):
        """The nearest place at or above the element that the browser finds at a point, or the text of it that has a line there."""
        x, y = query["x"], query["y"]
        seen = self.browser.call("Page.getLayoutMetrics")["cssLayoutViewport"]
        if not (0 <= x < seen["clientWidth"] and 0 <= y < seen["clientHeight"]):
            return "NoHit"
        point = {"x": x + seen["pageX"], "y": y + seen["pageY"]}
        found = self.browser.call("DOM.getNodeForLocation", **point, includeUserAgentShadowDOM=True)["backendNodeId"]
        while found not in self.by_number:
            handle = self.browser.call("DOM.resolveNode", backendNodeId=found)["object"]
            found = node_number(self.browser, handle, "function() { return this.parentNode || this.host; }")
        return shown_place(self.refined(self.by_number[found], x, y))

    def refined(self, place, x, y):
        """The place of a text where an element is told; the place above where an element is told that doesn't reach to the point.

        The hit test tells elements alone. It tells the text inside a field for the field's padding, and the topmost element for all beside it.
        """
        while self.above[place] and not self.holds(place, x, y):
            place = self.above[place]
        texts = [child for child in self.below[place] if role_of(self.nodes[child]) == "StaticText" and self.holds(child, x, y)]
        return texts[-1] if texts else place

    def holds(self, place, x, y):
        """Whether a part of a place, as a line of its text, holds a point."""
        if role_of(self.nodes[place]) == "RootWebArea":
            return True
        quads = self.quads(self.nodes[place].get("backendDOMNodeId"))
        return any(quad[0] <= x < quad[4] and quad[1] <= y < quad[5] for quad in quads)

    def quads(self, number):
        """The four corners of each part of a node, as the window has them."""
        try:
            return self.browser.call("DOM.getContentQuads", backendNodeId=number)["quads"]
        except BrowserError:
            return []

    def say_focus(self, _):
        """The innermost node that the browser calls focused, or the one that is active in it."""
        focused = [place for place, node in self.nodes.items() if properties(node).get("focused")]
        inner = [place for place in focused if not any(other != place and self.is_below(other, place) for other in focused)]
        if not inner:
            return "NoFocus"
        active = properties(self.nodes[inner[-1]]).get("activedescendant")
        return shown_place(self.by_number[active[0]] if active else inner[-1])

    # ---- queries of texts

    def offset(self, position):
        """The global offset of a position: the names of all leaves before it, and its own offset."""
        place = (position["tree"], position["node"])
        order = {place: at for at, place in enumerate(self.places)}
        before = sum(order[leaf] < order[place] for leaf in self.leaves)
        return self.starts[before] + position["offset"]

    def say_offset(self, query):
        """The global offset."""
        return str(self.offset(query["at"]))

    def say_text(self, query):
        """The names of the leaves between two positions."""
        whole = "".join(map(self.name, self.leaves))
        ends = sorted((self.offset(query["at"]), self.offset(query["to"])))
        return text_of(whole[slice(*ends)])

    def say_move(self, query):
        """Where a step goes, by the browser's own letters and words."""
        here, bounds = self.offset(query["at"]), self.bounds(query["unit"])
        at = bisect_right(bounds, here) if query["way"] == "next" else bisect_left(bounds, here) - 1
        if not 0 <= at < len(bounds):
            return "AtEnd" if query["way"] == "next" else "AtStart"
        leaf = bisect_right(self.starts[:-1], bounds[at]) - 1
        return f"{shown_place(self.leaves[leaf])} text {bounds[at] - self.starts[leaf]} down"

    def bounds(self, unit):
        """The global offsets at which a step may end, in order."""
        if unit == "leaf":
            return sorted(set(self.starts[:-1]))
        told = self.browser.evaluate(SEGMENTS % json.dumps(list(map(self.name, self.leaves))))
        found = set()
        for start, (letters, words) in zip(self.starts, told):
            parts = letters if unit == "char" else words
            ends = list(accumulate(map(len, parts), initial=start))
            found.update(ends if unit == "char" else (end for end, part in zip(ends, parts) if not part[0].isspace()))
        return sorted(found)


def say(moment, query):
    """The browser's reply to a query as the program would print it, or None where it can't be asked."""
    kind = query["q"]
    if kind in UNSAID:
        return None
    answer = getattr(moment, f"say_{kind}")
    if "node" not in query:
        return answer(query)
    place = (query["tree"], query["node"])
    return answer(place) if moment.is_shown(place) or not kind.startswith("u_") else "Ignored"


def shown_place(place):
    """A place as it is printed."""
    return f"{place[0]}:{place[1]}"


def text_of(text):
    """A text as it is printed."""
    return json.dumps(text, ensure_ascii=False)


def box_text(corners):
    """The least box of whole numbers around corners, x and y in turn, as it is printed."""
    left, top = math.floor(min(corners[0::2])), math.floor(min(corners[1::2]))
    width, height = math.ceil(max(corners[0::2])) - left, math.ceil(max(corners[1::2])) - top
    return f"[{left},{top},{width},{height}]"
