"""Scripts as text: one operation a line, and members without blanks."""
import json


def compact(value):
    """A JSON value in one line."""
    return json.dumps(value, ensure_ascii=False, separators=(",", ":"))


def listed(values):
    """An array with one value a line."""
    return "[\n" + ",\n".join(map(compact, values)) + "]" if values else "[]"


def frame_text(frame):
    """A frame with one operation a line."""
    return '{"tree":%d,"ops":%s}' % (frame["tree"], listed(frame["ops"]))


def script_text(script):
    """The script as a file has it."""
    parts = ['"version":%d' % script["version"],
             '"frames":[\n' + ",\n".join(map(frame_text, script["frames"])) + "]"]
    if script.get("browser"):
        parts.append('"browser":' + listed(script["browser"]))
    if script.get("readers"):
        parts.append('"readers":[\n' + ",\n".join(map(listed, script["readers"])) + "]")
    for name in ("order", "actions"):
        if script.get(name):
            parts.append(f'"{name}":{compact(script[name])}')
    return "{" + ",\n".join(parts) + "}\n"


def without_lone_surrogates(text):
    """The text as UTF-8 can have it, and whether a half of a pair stood alone in it."""
    clean = text.encode("utf-16", "surrogatepass").decode("utf-16", "replace")
    return clean, clean != text
