"""One HTML page without outside parts that shows a story."""
import html
import json
from pathlib import Path

from .words import count

ASSETS = Path(__file__).parent / "assets"
EVENT_LANE = "e"


def node_members(node):
    """A node as the page has it."""
    return {"up": node.parent, "role": node.role, "states": sorted(node.states), "attrs": node.attributes(),
            "rect": list(node.rect), "children": list(node.children)}


def change(step):
    """What a step changed of a tree, or None where it changed none."""
    if not step.side:
        return None
    if step.after is None:
        return {"side": step.side, "tree": step.tree, "ended": True}
    old = step.before.nodes if step.before else {}
    told = {"side": step.side, "tree": step.tree, "root": step.after.root,
            "nodes": {node: node_members(now) for node, now in step.after.nodes.items() if old.get(node) is not now and old.get(node) != now},
            "gone": [node for node in old if node not in step.after.nodes]}
    if step.before is None or step.before.data != step.after.data:
        told["data"] = step.after.data
    return told


def step_members(step):
    """A step as the page has it."""
    members = {"kind": step.kind, "lane": step.lane, "mark": step.mark, "told": step.told, "lines": step.lines}
    if step.tree:
        members["tree"] = step.tree
    if step.events:
        members["events"] = step.events
    if step.updates:
        members["updates"] = step.updates
    if found := change(step):
        members["change"] = found
    return members


def lanes(story):
    """The lanes of the time line in which something stands, each with its name. Events are counted in one of their own."""
    used = {step.lane for step in story.steps} | {EVENT_LANE for step in story.steps if step.events}
    named = [(lane, name) for tree in story.order for lane, name in ((f"f{tree}", f"Frame {tree}"), (f"a{tree}", f"Copy of {tree}"))]
    named.append((EVENT_LANE, "Events"))
    named += [(f"r{reader}", f"Reader {reader}") for reader in range(1, len(story.queries) + 1)]
    return [[lane, name] for lane, name in named if lane in used]


def summary(story):
    """A line on the whole run."""
    kinds = [step.kind for step in story.steps]
    applied = sum(step.kind == "receipt" and step.side == "copy" for step in story.steps)
    parts = [(len(story.order), "frame"), (len(kinds), "step"), (kinds.count("pass"), "pass", "passes"), (kinds.count("receipt"), "receipt"),
             (applied, "applied", "applied"), (sum(len(step.events) for step in story.steps), "event"), (len(story.asked), "query", "queries")]
    return ", ".join(count(*part) for part in parts)


def story_members(story, title):
    """All that the page is given."""
    return {"title": title, "version": story.script["version"], "trees": story.order, "lanes": lanes(story), "faults": story.faults,
            "steps": [step_members(step) for step in story.steps], "asked": story.asked}


def for_script_element(value):
    """JSON that can stand inside a `script` element."""
    text = json.dumps(value, ensure_ascii=False, separators=(",", ":"))
    return text.replace("<", "\\u003c").replace("\u2028", "\\u2028").replace("\u2029", "\\u2029")


def filled(template, **parts):
    """The template with each `{{name}}` replaced, in one sweep, so that what is put in isn't looked at again."""
    pieces = template.split("{{")
    rest = (piece.split("}}", 1) for piece in pieces[1:])
    return pieces[0] + "".join(parts[name] + tail for name, tail in rest)


def story_page(story, title, about=""):
    """The whole page: `about` is a sentence below the title."""
    faults = "".join(f"<p class=\"fault\" role=\"alert\">{html.escape(fault)}</p>" for fault in story.faults)
    sentence = f"<p>{html.escape(about)}</p>\n" if about else ""
    return filled((ASSETS / "view.html").read_text(), title=html.escape(title), about=sentence, summary=html.escape(summary(story)), faults=faults,
                  style=(ASSETS / "view.css").read_text(), data=for_script_element(story_members(story, title)),
                  code=(ASSETS / "view.js").read_text())


def gallery_page(entries):
    """A page of links: for each entry its file, title and what it tells."""
    rows = "\n".join(f"<li><a href=\"{html.escape(file)}\">{html.escape(title)}</a><p>{html.escape(told)}</p></li>" for file, title, told in entries)
    return filled((ASSETS / "gallery.html").read_text(), style=(ASSETS / "view.css").read_text(), rows=rows)
