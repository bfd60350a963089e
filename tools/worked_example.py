#!/usr/bin/env python3
"""Writes a worked example of the rules: a script as a term, and a lemma that computes its whole text.

    worked_example.py [--command replay|combine|act] --title TITLE --reference PROGRAM SCRIPT.json > proofs/examples/NAME.antt

PROGRAM is a reference of the program: called with the command as its one argument and with the script at its input, it
writes the text that the rules are to give. TITLE is the file's first line: what the example shows.
"""
import argparse
import json
import re
import shlex
import subprocess
from pathlib import Path

TABLES = Path(__file__).resolve().parent.parent / "crates/ax_attrs/specs/Tables.antt"


def table(name):
    """The rows of a table of `ax_attrs`: each name with its number and, for attributes, the kind of its values."""
    text = TABLES.read_text()
    rows = text.split(f"\n{name} =\n", 1)[1].split("[]", 1)[0]
    found = re.findall(r'(\d+) \(codes "(\w+)"\) ?(\w*)', rows)
    return {row: (int(number), kind) for number, row, kind in found}


ROLES, STATES, KEYS = table("role_rows"), table("state_rows"), table("key_rows")

WALKS = {
    "node": "Node", "parent": "Parent", "children": "Children", "next": "Next", "prev": "Prev", "bounds": "Bounds",
    "u_parent": "UParent", "u_children": "UChildren", "u_next": "UNext", "u_prev": "UPrev", "u_text": "UText",
}


def listed(terms):
    terms = list(terms)
    return f"({' ∷ '.join(terms)} ∷ [])" if terms else "[]"


def text(s):
    """A text as the list of its scalars."""
    if s == "":
        return "[]"
    if not all(32 <= ord(c) < 127 for c in s):
        return listed(str(ord(c)) for c in s)
    escaped = s.replace("\\", "\\\\").replace('"', '\\"')
    return f'(codes "{escaped}")'


def some(term):
    return "None" if term is None else f"(Some {term})"


def number_or_none(n):
    return "None" if n == 0 else f"(Some {n})"


def integer(n):
    return f"(pos {n})" if n >= 0 else f"(negsuc {-n - 1})"


def value(key, v):
    kind = KEYS[key][1]
    if kind == "Text":
        return f"(values.Text {text(v)})"
    if kind == "Int":
        return f"(values.Int {integer(v)})"
    if kind == "Flag":
        return f"(values.Flag {'true' if v else 'false'})"
    return f"(values.{kind} {v})"


def by_key(attrs):
    return sorted(attrs, key=lambda k: KEYS[k][0])


def area(rect):
    return "(area " + " ".join(integer(n) for n in rect) + ")"


def states(names):
    return listed(str(n) for n in sorted({STATES[s][0] for s in names}))


def node(o):
    attrs = listed(f"({KEYS[k][0]}, {value(k, o['attrs'][k])})" for k in by_key(o.get("attrs", {})))
    children = listed(str(c) for c in o.get("children", []))
    if "role" in o or "states" in o or "rect" in o or children != "[]":
        role = ROLES[o.get("role", "generic")][0]
        rect = area(o["rect"]) if "rect" in o else "no_area"
        return f"(node {o['node']} {role} {states(o.get('states', []))} {attrs} {rect} {children})"
    return f"(blank {o['node']})" if attrs == "[]" else f"(having {o['node']} {attrs})"


def changes(o):
    attrs = o.get("attrs", {})
    return listed(
        f"change {KEYS[k][0]} {some(value(k, attrs[k]) if attrs[k] is not None else None)}" for k in by_key(attrs)
    )


def set_op(o):
    if not {"role", "states", "rect"} & set(o):
        return f"set_attrs {o['node']} {changes(o)}"
    role = some(ROLES[o["role"]][0] if "role" in o else None)
    states_term = some(states(o["states"]) if "states" in o else None)
    return f"set {o['node']} {role} {states_term} {changes(o)} {some(area(o['rect']) if 'rect' in o else None)}"


def end(node_id, offset):
    return "None" if node_id == 0 else f"(Some ({node_id}, {offset}))"


def data_op(o):
    given = []
    for name in ("parent", "focused", "focus"):
        if name in o:
            given.append(f"{name} = Some {number_or_none(o[name])}")
    if "loaded" in o:
        given.append(f"loaded = Some {'true' if o['loaded'] else 'false'}")
    if "sel" in o:
        s = o["sel"]
        given.append(f"anchor = Some {end(s[0], s[1])}; end = Some {end(s[2], s[3])}")
    for name in ("title", "url"):
        if name in o:
            given.append(f"{name} = Some {text(o[name])}")
    return f"about (record no_data {{ {'; '.join(given)} }})" if given else "about no_data"


def frame_op(o):
    name = o["op"]
    if name == "root":
        return f"root {node(o)}"
    if name == "insert":
        return f"insert {o['parent']} {o['index']} {node(o)}"
    if name == "remove":
        return f"remove {o['node']}"
    if name == "move":
        return f"move {o['node']} {o['parent']} {o['index']}"
    if name == "set":
        return set_op(o)
    if name == "data":
        return data_op(o)
    if name == "touch":
        return f"ops.Touch {o['node']}"
    if name == "touch_below":
        return f"ops.TouchBelow {o['node']}"
    return "ops.Pass"


def browser_op(o):
    name, tree = o["op"], o["tree"]
    if name == "probe":
        u = o["update"]
        nodes = listed(node(n) for n in u["nodes"])
        op = f"Probe {tree} (update {number_or_none(u.get('clear', 0))} {number_or_none(u.get('root', 0))} {nodes})"
    else:
        op = f"{name.capitalize()} {tree}"
    return f"after {o.get('after', 0)} (browsers.{op})"


def position(p):
    if p is None:
        return "positions.Null"
    if "child" in p:
        return f"(child_at {p['tree']} {p['node']} {p['child']})"
    affinity = p.get("affinity", "down").capitalize()
    return f"(text_at {p['tree']} {p['node']} {p['offset']} affinities.{affinity})"


def query(o):
    name = o["q"]
    if name in WALKS:
        q = f"queries.{WALKS[name]} (place {o['tree']} {o['node']})"
    elif name == "hit":
        q = f"queries.Hit (point {integer(o['x'])} {integer(o['y'])})"
    elif name == "focus":
        q = "queries.Focus"
    elif name in ("offset", "leaf", "up"):
        q = f"queries.{name.capitalize()} {position(o['at'])}"
    elif name in ("compare", "text"):
        q = f"queries.{name.capitalize()} {position(o['at'])} {position(o['to'])}"
    else:
        q = f"queries.Move {position(o['at'])} units.{o['unit'].capitalize()} ways.{o['way'].capitalize()}"
    return f"asked {o.get('after', 0)} ({q})"


def item(s):
    if s[0] == "d":
        tree, token = s[1:].split(":")
        return f"d {tree} {token}"
    return "b" if s == "b" else f"{s[0]} {s[1:]}"


def action(o):
    what = {"focus": "whats.Focus", "scroll": "whats.Scroll"}.get(o["do"]) or f"(whats.SetValue {text(o['value'])})"
    return f"action {o['tree']} {o['node']} {what}"


def lines(terms, indent):
    pad = " " * indent
    return "".join(f"{pad}{term} ∷\n" for term in terms) + f"{pad}[]"


def script_term(j):
    """The script as a term, a line for each operation, and the lists that it has beside its frames."""
    frames = "".join(
        f"    frame {o['tree']} (\n{lines(map(frame_op, o['ops']), 6)}) ∷\n" for o in j["frames"]
    )
    order = j.get("order", "")
    more = {
        "browser": listed(map(browser_op, j.get("browser", []))),
        "readers": listed(listed(map(query, qs)) for qs in j.get("readers", [])),
        "order": listed(map(item, order.split(" ") if order else [])),
        "actions": listed(map(action, j.get("actions", []))),
    }
    given = {name: term for name, term in more.items() if term != "[]"}
    head = f"frames (\n{frames}    [])"
    if not given:
        return head
    return "record (" + head + ") {\n" + "".join(f"  {name} = {term};\n" for name, term in given.items()) + "}"


def expected(out):
    """The text as a term, a line for each of its lines."""
    terms = []
    for line in out.decode().split("\n")[:-1]:
        escaped = line.replace("\\", "\\\\").replace('"', '\\"')
        if all(32 <= ord(c) < 127 for c in line):
            terms.append(f'codes "{escaped}\\n"')
        else:
            terms.append("encode_utf8_all " + listed([str(ord(c)) for c in line] + ["10"]))
    return " ++\n    ".join(terms)


IMPORTS = [
    ("Rattle.std.proofs.Common", ["ℕ", "ℤ", "pos", "negsuc", "◌≡◌", "true", "false", "[]", "◌∷◌", "◌++◌", "refl", "Some", "None"]),
    ("Rattle.std.specs.Prelude", ["codes", "encode_utf8_all"]),
]
MODULES = {
    "affinities": "Rattle.ax_base.specs.declared.position.Affinity.TheVariants",
    "positions": "Rattle.ax_base.specs.declared.position.Pos.TheVariants",
    "units": "Rattle.ax_base.specs.declared.position.Unit.TheVariants",
    "values": "Rattle.ax_node.specs.declared.value.Value.TheVariants",
    "ops": "Rattle.ax_ask.specs.declared.op.FrameOp.TheVariants",
    "browsers": "Rattle.ax_ask.specs.declared.op.BrowserOp.TheVariants",
    "queries": "Rattle.ax_ask.specs.declared.query.Query.TheVariants",
    "ways": "Rattle.ax_base.specs.declared.position.Way.TheVariants",
    "whats": "Rattle.ax_ask.specs.declared.action.What.TheVariants",
}
WORDS = [
    "area", "no_area", "node", "blank", "having", "root", "insert", "remove", "move", "set", "set_attrs", "change",
    "no_data", "about", "after", "update", "asked", "place", "point", "child_at", "text_at", "action", "f", "a", "b",
    "d", "r", "frame", "frames",
]
CALLS = {
    "replay": ("ReplayText", "replay_text", "replay_text script script.order"),
    "combine": ("CombineText", "combine_text", "combine_text script"),
    "act": ("ActText", "act_text", "act_text script"),
}


def used(body, word):
    plain = re.sub(r'"(\\.|[^"\\])*"', '""', body)
    if word.startswith("◌"):
        return word.strip("◌") in plain
    if word == "[]":
        return True
    return re.search(rf"(?<![\w.'])(?<!\w\. ){re.escape(word)}(?![\w'])", plain) is not None


def example(title, command, script, out):
    module, call, term = CALLS[command]
    body = f"abbrev pub script : Script\nscript = {script_term(script)}\n"
    body += f"\nthe_text : {term} ≡ Some (\n    {expected(out)})\nunfolding computing\nthe_text = refl\n"
    head = [f"-- {title}"]
    for name, words in IMPORTS:
        found = [w for w in words if used(body, w)]
        if found:
            head.append(f"use {name}.{{{', '.join(found)}}}")
    for alias, name in MODULES.items():
        if f"{alias}." in body:
            head.append(f"use {name} as {alias}")
    head.append("use Rattle.ax_run_rules.specs.Scripts.{Script}")
    head.append(f"use Rattle.ax_rules.specs.{module}.{{{call}}}")
    head.append("use Rattle.ax_run_rules.proofs.Computing.{computing}")
    head.append(f"use Rattle.ax_run_rules.proofs.ScriptWords.{{{', '.join(w for w in WORDS if used(body, w))}}}")
    return "\n".join(head) + "\n\n" + body


def main():
    parser = argparse.ArgumentParser()
    parser.add_argument("--command", choices=sorted(CALLS), default="replay")
    parser.add_argument("--title", required=True)
    parser.add_argument("--reference", required=True)
    parser.add_argument("script")
    args = parser.parse_args()
    source = Path(args.script).read_bytes()
    ran = subprocess.run(shlex.split(args.reference) + [args.command], input=source, capture_output=True, check=True)
    print(example(args.title, args.command, json.loads(source), ran.stdout), end="")


if __name__ == "__main__":
    main()
