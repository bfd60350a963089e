"""Queries that readers ask while a page is captured: of the nodes that a pass changed, each reader its own kind."""
from .model import extents

KINDS = {1: ("look_at", "walk", "read", "step"), 2: ("look_at", "walk", "read", "step", "measure")}
AT_ONCE = 3


def readers_of(version):
    """How many readers ask."""
    return len(KINDS[version])


def queries_after(version, trees, changed):
    """For each reader its queries after a pass: `changed` has the places that it changed, `trees` the trees that are there."""
    some = spread([place for place in changed if place[1] in trees[place[0]].nodes], AT_ONCE)
    return [ASKED[kind](trees, some) for kind in KINDS[version]]


def spread(places, most):
    """At most so many of the places, evenly spread."""
    if len(places) <= most:
        return places
    return [places[at * len(places) // most] for at in range(most)]


def named(place):
    """The members that name a place."""
    return {"tree": place[0], "node": place[1]}


def look_at(trees, places):
    """Where the focus is, and what stands in the middle of each box."""
    asked = [{"q": "focus"}]
    for tree, node in places:
        x, y, width, height = extents(trees[tree])[node]
        if width and height:
            asked.append({"q": "hit", "x": x + width // 2, "y": y + height // 2})
    return asked


def walk(trees, places):
    """Each place, and what is around it."""
    return [{"q": query, **named(place)} for place in places for query in ("node", "parent", "children", "next", "prev")]


def positions(trees, places):
    """Each place's start, and its end where it is a leaf."""
    for tree, node in places:
        told = trees[tree].nodes[node]
        length = len(told.get("name") or "") if not told.children and told.get("child_tree") is None else 0
        yield {**named((tree, node)), "offset": 0}, {**named((tree, node)), "offset": length}


def read(trees, places):
    """The text of each place, and its offset in the document."""
    asked = []
    for start, end in positions(trees, places):
        asked += [{"q": "offset", "at": end}, {"q": "text", "at": start, "to": end}, {"q": "compare", "at": start, "to": end}]
    return asked


def step(trees, places):
    """Steps by letter, word and leaf from each place, and the same point said on a leaf and on the parent."""
    asked = []
    for start, end in positions(trees, places):
        asked += [{"q": "leaf", "at": end}, {"q": "up", "at": start}]
        asked += [{"q": "move", "at": start, "unit": unit, "way": "next"} for unit in ("char", "word", "leaf")]
        asked.append({"q": "move", "at": end, "unit": "word", "way": "prev"})
    return asked


def measure(trees, places):
    """Where each place is on the page, and what is around it without the ignored nodes."""
    return [{"q": query, **named(place)} for place in places
            for query in ("bounds", "u_parent", "u_children", "u_next", "u_prev", "u_text")]


ASKED = {"look_at": look_at, "walk": walk, "read": read, "step": step, "measure": measure}
