"""Where things are: boxes in the plane of the window, what scrolls, and the focus."""
import math

from . import tables

CLIPPING = ("hidden", "clip", "auto", "scroll")


def clips(element):
    """Whether an element cuts off what reaches beyond it."""
    return element.name in ("IFRAME", "FRAME") or any(element.styles.get(side) in CLIPPING for side in ("overflow-x", "overflow-y"))


def pixels(element, style):
    """A style's number of pixels."""
    return float(element.styles.get(style, "0").removesuffix("px") or 0)


def is_turned(element):
    """Whether an element is turned or skewed, so that its box isn't one of the page's own."""
    parts = element.styles.get("transform", "none").removeprefix("matrix(").removesuffix(")").split(", ")
    return parts != ["none"] and (len(parts) != 6 or float(parts[1]) != 0 or float(parts[2]) != 0)


def as_rect(box):
    """A box as x, y, width and height."""
    return (box[0], box[1], box[2] - box[0], box[3] - box[1])


def enclosing(left, top, right, bottom):
    """The least box of whole numbers around a box; none where it passes 32 bits."""
    box = (math.floor(left), math.floor(top), math.ceil(right), math.ceil(bottom))
    return box if all(tables.LEAST_INT <= number <= tables.GREATEST_INT for number in box) else None


class Page:
    """Where things are: the boxes of all frames in the plane of the window, and the focus."""

    def __init__(self, shots, trees, size):
        self.shots = {shot.frame: shot for shot in shots}
        self.trees = trees
        self.size = size
        self.origins = {}

    def parent(self, frame):
        """The number of the tree around, or 0."""
        return self.trees.get(self.shots[frame].parent, 0)

    def owner_box(self, frame):
        """The inside of the element that shows a frame, as numbers with fractions."""
        shot = self.shots[frame]
        owner = self.shots[shot.parent].elements.get(shot.owner)
        if owner is None or owner.box is None:
            return (0, 0, 0, 0)
        left, top, right, bottom = self.exact(shot.parent, owner)
        client = owner.client or (0, 0, right - left, bottom - top)
        left, top = left + client[0] + pixels(owner, "padding-left"), top + client[1] + pixels(owner, "padding-top")
        width = client[2] - pixels(owner, "padding-left") - pixels(owner, "padding-right")
        height = client[3] - pixels(owner, "padding-top") - pixels(owner, "padding-bottom")
        return (left, top, left + width, top + height)

    def origin(self, frame):
        """Where the document's origin is in the window."""
        if frame not in self.origins:
            shot = self.shots[frame]
            left, top = self.owner_box(frame)[:2] if shot.parent else (0, 0)
            self.origins[frame] = (left - shot.scroll[0], top - shot.scroll[1])
        return self.origins[frame]

    def exact(self, frame, element):
        """An element's box in the window, with fractions."""
        if element.box_in_window:
            return element.box_in_window
        x, y = self.origin(frame)
        left, top, right, bottom = element.box
        return (left + x, top + y, right + x, bottom + y)

    def box(self, frame, element):
        """An element's box in the window, in whole numbers, or None."""
        if element is None or element.box is None and element.box_in_window is None:
            return None
        return enclosing(*self.exact(frame, element))

    def window(self, frame):
        """The box through which a frame is seen."""
        return enclosing(*self.owner_box(frame)) if self.shots[frame].parent else (0, 0, *self.size)

    def is_off(self, frame, element):
        """Whether an element with a box lies outside what its frame shows of it."""
        if self.box(frame, element) is None:
            return False
        left, top, right, bottom = self.exact(frame, element)
        window = self.window(frame)
        return window is not None and (right <= window[0] or bottom <= window[1] or left >= window[2] or top >= window[3])

    def scroll(self, frame, element):
        """How far an element, or the frame's document, is scrolled, where it has more than it shows."""
        if element is None:
            shot, window = self.shots[frame], self.window(frame)
            larger = window and (shot.content[0] > window[2] - window[0] or shot.content[1] > window[3] - window[1])
            return (round(shot.scroll[0]), round(shot.scroll[1])) if larger or any(shot.scroll) else None
        if element.scroll is None or element.client is None or not clips(element) or element.name == "HTML":
            return None
        larger = element.scroll[2] > element.client[2] or element.scroll[3] > element.client[3]
        return (round(element.scroll[0]), round(element.scroll[1])) if larger or any(element.scroll[:2]) else None

    def focus(self, shot, root, known_id):
        """The id of the focus in a frame that has it: the active element, or the root."""
        if not shot.has_focus:
            return 0
        return known_id(shot.active) or root

    def focused_tree(self):
        """The number of the innermost tree that has the focus, or 0."""
        holders = [frame for frame, shot in self.shots.items() if shot.has_focus]
        return self.trees[holders[-1]] if holders else 0
