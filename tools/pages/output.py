"""What the program prints, read back: the lines of a replay and its dump."""
import re

from . import tables
from .model import BLANK_DATA, Node, Tree, frozen

ESCAPES = {"b": "\b", "f": "\f", "n": "\n", "r": "\r", "t": "\t"}
HEAD = re.compile(r"tree (\d+) (?:(gone|empty)$|parent (\d+) focused (\d+) loaded (yes|no) focus (\d+) sel (\d+) (\d+) (\d+) (\d+) title )")
NODE = re.compile(r"( *)(\d+) ([a-z_]+)")
RECT = re.compile(r" \[(-?\d+),(-?\d+),(-?\d+),(-?\d+)\]")
PART = re.compile(r" \+([a-z_]+)| ([a-z_]+)=")


class Unreadable(Exception):
    """A line that no program of this format prints."""


def read_string(line, at):
    """The string that begins at the quote, and the place after it."""
    text, at = [], at + 1
    while line[at:at + 1] != '"':
        if at >= len(line):
            raise Unreadable(line)
        if line[at] != "\\":
            text.append(line[at])
            at += 1
        elif line[at + 1:at + 2] == "u":
            text.append(chr(int(line[at + 2:at + 6], 16)))
            at += 6
        else:
            text.append(ESCAPES.get(line[at + 1], line[at + 1]))
            at += 2
    return "".join(text), at + 1


def read_value(name, line, at):
    """The value of an attribute, and the place after it."""
    if line[at:at + 1] == '"':
        return read_string(line, at)
    end = line.find(" ", at)
    end = len(line) if end < 0 else end
    word = line[at:end]
    return word == "yes" if tables.KINDS[name] == "Flag" else int(word), end


def read_node(line):
    """Level from 1, id and node of a dump's line, without children and parent."""
    start = NODE.match(line)
    if not start:
        raise Unreadable(line)
    rect, at = (0, 0, 0, 0), start.end()
    if found := RECT.match(line, at):
        rect, at = tuple(map(int, found.groups())), found.end()
    states, attrs = set(), {}
    while at < len(line):
        part = PART.match(line, at)
        if not part:
            raise Unreadable(line)
        at = part.end()
        if part[1]:
            states.add(part[1])
        else:
            attrs[part[2]], at = read_value(part[2], line, at)
    return len(start[1]) // 2 + 1, int(start[2]), Node(start[3], frozenset(states), frozen(attrs), rect)


def read_data(line, head):
    """The tree data of a tree's line."""
    title, at = read_string(line, head.end())
    if line[at:at + 5] != " url ":
        raise Unreadable(line)
    url, _ = read_string(line, at + 5)
    numbers = [int(head[n]) for n in (3, 4, 6, 7, 8, 9, 10)]
    return dict(BLANK_DATA, parent=numbers[0], focused=numbers[1], loaded=head[5] == "yes", focus=numbers[2],
                sel=numbers[3:], title=title, url=url)


def add_node(tree, chain, line):
    """Adds the node of a dump's line; `chain` has the ids above it."""
    level, node, look = read_node(line)
    del chain[level - 1:]
    parent = chain[-1] if chain else 0
    if parent:
        above = tree.nodes[parent]
        tree.nodes[parent] = Node(above.role, above.states, above.attrs, above.rect, above.children + (node,), above.parent)
    else:
        tree.root = node
    tree.nodes[node] = Node(look.role, look.states, look.attrs, look.rect, (), parent)
    chain.append(node)


def read_dump(lines):
    """Each tree of a dump by its number; None where the tree is gone."""
    trees, tree, chain = {}, None, []
    for line in lines:
        if head := HEAD.match(line):
            tree, chain = Tree(), []
            trees[int(head[1])] = None if head[2] == "gone" else tree
            if head[2] is None:
                tree.data = read_data(line, head)
        elif tree is None:
            raise Unreadable(line)
        else:
            add_node(tree, chain, line)
    return trees


def is_dump_line(line):
    """Whether a line may stand in a dump."""
    return bool(HEAD.match(line) or NODE.match(line))
