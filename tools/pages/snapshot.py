"""What the browser shows at one moment, as it tells it: each frame with its accessibility nodes, its elements' boxes and its state."""
from dataclasses import dataclass, field

from .chromium import BrowserError

STYLES = ["overflow-x", "overflow-y", "position", "visibility", "padding-left", "padding-top", "padding-right", "padding-bottom", "transform"]
SELECTION = """(() => {
  const named = document.activeElement, active = named === document.body && !named.matches(':focus') ? null : named, chosen = getSelection();
  const control = active && typeof active.selectionStart === 'number';
  return control ? {nodes: [active, active], offsets: [active.selectionStart, active.selectionEnd], text: active.value, active}
    : {nodes: [chosen.anchorNode, chosen.focusNode], offsets: [chosen.anchorOffset, chosen.focusOffset], active};
})()"""

OFFSET = """function() {
  const node = this.nodes[%d], offset = this.offsets[%d], text = this.text ?? (node.nodeType === Node.TEXT_NODE ? node.data : null);
  return text === null ? offset : [...text.slice(0, offset)].length;
}"""


@dataclass
class Element:
    """What a snapshot of the document tells of a node: attributes, box in the document, styles, and how far it is scrolled.

    Of what the browser itself puts into a control no snapshot tells: there the box is that in the window.
    """
    name: str = ""
    attributes: dict = field(default_factory=dict)
    box: tuple = None
    box_in_window: tuple = None
    styles: dict = field(default_factory=dict)
    scroll: tuple = None
    client: tuple = None


@dataclass
class FrameShot:
    """A frame at one moment. Keys of elements, and what refers to them, are the browser's own numbers of nodes."""
    frame: str
    parent: str
    owner: int = 0
    nodes: list = field(default_factory=list)
    elements: dict = field(default_factory=dict)
    title: str = ""
    url: str = ""
    scroll: tuple = (0, 0)
    content: tuple = (0, 0)
    loaded: bool = False
    has_focus: bool = False
    active: int = 0
    selection: tuple = ()


def take_snapshot(browser):
    """Each frame of the page, a frame before those inside it. A frame that goes while it is looked at is left out, with those inside it."""
    documents = read_documents(browser)
    shots = {"": None}
    for frame, parent in frames_of(browser.call("Page.getFrameTree")["frameTree"], ""):
        if frame in documents and parent in shots:
            documents[frame].parent = parent
            try:
                add_state(browser, documents[frame])
            except BrowserError:
                continue
            shots[frame] = documents[frame]
    return list(shots.values())[1:]


def frames_of(tree, parent):
    """Each frame's id with its parent's."""
    yield tree["frame"]["id"], parent
    for child in tree.get("childFrames", []):
        yield from frames_of(child, tree["frame"]["id"])


def read_documents(browser):
    """A shot with elements and scrolling for each document that the browser shows, by its frame."""
    answer = browser.call("DOMSnapshot.captureSnapshot", computedStyles=STYLES, includeDOMRects=True)
    strings = answer["strings"]
    shots = {}
    for document in answer["documents"]:
        frame = strings[document["frameId"]]
        shots[frame] = FrameShot(
            frame, "", elements=read_elements(document, strings), title=string_at(strings, document["title"]),
            url=string_at(strings, document["documentURL"]), scroll=(document.get("scrollOffsetX", 0), document.get("scrollOffsetY", 0)),
            content=(document.get("contentWidth", 0), document.get("contentHeight", 0)))
    return shots


def string_at(strings, index):
    """The string of that number, or the empty one."""
    return strings[index] if index >= 0 else ""


def read_elements(document, strings):
    """Each node of a document by the browser's number."""
    nodes, layout = document["nodes"], document["layout"]
    elements = []
    for at, name in enumerate(nodes["nodeName"]):
        pairs = [string_at(strings, index) for index in nodes["attributes"][at]]
        elements.append(Element(string_at(strings, name), dict(zip(pairs[::2], pairs[1::2]))))
    for row, at in enumerate(layout["nodeIndex"]):
        read_layout(elements[at], layout, row, strings)
    return dict(zip(nodes["backendNodeId"], elements))


def read_layout(element, layout, row, strings):
    """Adds a row of the layout to its element; an element with several rows has the box around them."""
    x, y, width, height = layout["bounds"][row]
    box = (x, y, x + width, y + height)
    old = element.box or box
    element.box = (min(old[0], box[0]), min(old[1], box[1]), max(old[2], box[2]), max(old[3], box[3]))
    element.styles = dict(zip(STYLES, (string_at(strings, index) for index in layout["styles"][row])))
    element.scroll = tuple(layout["scrollRects"][row]) or None
    element.client = tuple(layout["clientRects"][row]) or None


def add_state(browser, shot):
    """Adds what only the frame itself tells: its accessibility nodes, owner, focus and selection."""
    if shot.parent:
        shot.owner = browser.call("DOM.getFrameOwner", frameId=shot.frame)["backendNodeId"]
    shot.nodes = browser.call("Accessibility.getFullAXTree", frameId=shot.frame)["nodes"]
    add_inner_boxes(browser, shot)
    world = browser.call("Page.createIsolatedWorld", frameId=shot.frame)["executionContextId"]
    shot.loaded = evaluate_in(browser, world, "document.readyState").get("value") == "complete"
    shot.has_focus = evaluate_in(browser, world, "document.hasFocus()").get("value")
    add_selection(browser, shot, evaluate_in(browser, world, SELECTION, handle=True))


def add_inner_boxes(browser, shot):
    """Adds the boxes of accessible nodes that the snapshot hasn't, such as the text inside a field."""
    for node in shot.nodes:
        number = node.get("backendDOMNodeId")
        if number is not None and number not in shot.elements:
            shot.elements[number] = Element(box_in_window=quads_box(browser, number))


def quads_box(browser, number):
    """The box in the window around a node, or None where it has none."""
    try:
        quads = browser.call("DOM.getContentQuads", backendNodeId=number)["quads"]
    except BrowserError:
        return None
    across = [corner for quad in quads for corner in quad[0::2]]
    down = [corner for quad in quads for corner in quad[1::2]]
    return (min(across), min(down), max(across), max(down)) if quads else None


def evaluate_in(browser, world, expression, handle=False):
    """The result of an expression in a frame's own world: its value, or a handle of it."""
    answer = browser.call("Runtime.evaluate", expression=expression, contextId=world, returnByValue=not handle)
    if "exceptionDetails" in answer:
        raise BrowserError(answer["exceptionDetails"]["text"])
    return answer["result"]


def add_selection(browser, shot, chosen):
    """The active element, and the selection's ends: node, offset in scalars."""
    shot.active = node_number(browser, chosen, "function() { return this.active; }")
    ends = []
    for end in (0, 1):
        node = node_number(browser, chosen, f"function() {{ return this.nodes[{end}]; }}")
        if node:
            ends.append((node, value_of(browser, chosen, OFFSET % (end, end))))
    shot.selection = tuple(ends) if len(ends) == 2 else ()


def node_number(browser, handle, function):
    """The browser's number of the node that a function of the handle gives, or 0."""
    answer = browser.call("Runtime.callFunctionOn", objectId=handle["objectId"], functionDeclaration=function)["result"]
    if answer.get("subtype") != "node":
        return 0
    return browser.call("DOM.describeNode", objectId=answer["objectId"])["node"]["backendNodeId"]


def value_of(browser, handle, function):
    """The value that a function of the handle gives."""
    answer = browser.call("Runtime.callFunctionOn", objectId=handle["objectId"], functionDeclaration=function, returnByValue=True)
    return answer["result"].get("value")
