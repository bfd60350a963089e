"""Sentences for the steps of a story."""

VERDICTS = {"stale": "drops pass {0} of frame {1}: it was made before the token {3} was told, with the token {2}",
            "gap": "can't apply pass {0} of frame {1}: it stands upon pass {2}, and the copy is at pass {3}",
            "gone": "drops pass {0} of frame {1}: the tree has ended"}


def count(number, one, many=None):
    """A number with its noun."""
    return f"{number} {one if number == 1 else many or one + 's'}"


def shown_place(trees, tree, node):
    """A place with the role and name of what stands there."""
    told = trees[tree].nodes.get(node) if trees.get(tree) else None
    if told is None:
        return f"{tree}:{node}"
    name = told.get("name")
    return f"{tree}:{node} {told.role}" + (f" “{name}”" if name else "")


def edits_words(tree, lines):
    """What a run of edits did."""
    refused = sum(not line.endswith(" ok") for line in lines)
    return f"Frame {tree}: {count(len(lines), 'edit')}" + (f", {refused} refused" if refused else "")


def pass_words(tree, note, updates):
    """What a pass sends."""
    if note is None:
        return f"Frame {tree}: a pass with nothing to send"
    number, base, token = note
    nodes = sum(len(update["list"]) for update in updates)
    upon = "the whole tree" if base == 0 else f"upon pass {base}"
    told = f"Frame {tree} makes pass {number}, {upon}: {count(len(updates), 'update')} with {count(nodes, 'node')}"
    return told + (f", by token {token}" if token else "")


def receipt_words(tree, number, words, events):
    """What became of a packet."""
    if words[0] == "applied":
        return f"The browser applies pass {number} of frame {tree}: {count(events, 'event')}"
    return "The browser " + VERDICTS[words[0]].format(number, tree, *words[1:])


def browser_words(op, tree, words):
    """What the browser did."""
    if words == ["gone"]:
        return f"The browser's {op} finds that tree {tree} has ended"
    if op == "ask":
        return f"The browser asks frame {tree} for the whole tree, by token {words[1]}"
    if op == "destroy":
        return f"The browser ends tree {tree}"
    if words[0] == "accepted":
        return f"An update tried upon the copy of tree {tree} would be accepted and give {count(int(words[1]), 'node')}"
    return f"An update tried upon the copy of tree {tree} would be refused: {' '.join(words)}"


def position_words(position):
    """A position as a query gives it."""
    if position is None:
        return "no position"
    place = f"{position['tree']}:{position['node']}"
    if "child" in position:
        return f"{place} child {position['child']}"
    return f"{place} text {position['offset']} {position.get('affinity', 'down')}"


def query_words(query):
    """A query with what it asks of."""
    parts = [query["q"]]
    if "x" in query:
        parts.append(f"({query['x']}, {query['y']})")
    elif "node" in query:
        parts.append(f"{query['tree']}:{query['node']}")
    parts += [position_words(query[member]) for member in ("at", "to") if member in query]
    parts += [query[member] for member in ("unit", "way") if member in query]
    return " ".join(parts)


def reply_words(reply, trees):
    """A reply; places with role and name, where there are few."""
    words = reply.split(" ")
    if len(words) > 4 or reply.startswith('"') or not all(is_place(word) for word in words):
        return reply
    return ", ".join(shown_place(trees, *map(int, word.split(":"))) for word in words)


def is_place(word):
    """Whether a word is a place."""
    tree, colon, node = word.partition(":")
    return bool(colon) and tree.isdigit() and node.isdigit()
