"""What is done in a page, step by step, and the words for it.

    click SELECTOR             presses the mouse in the middle of an element
    hover SELECTOR             moves the mouse there
    type TEXT                  types a text, key by key
    key NAME                   presses a key: Enter, Tab, Shift+Tab, Escape, Space, ArrowDown, a letter and so on
    scroll SELECTOR X Y        scrolls an element to an offset; `window` stands for the page
    wait MILLISECONDS          lets time pass
    run JAVASCRIPT             runs a line of JavaScript in the page

A selector is one of CSS; `FRAME >>> SELECTOR` looks inside the frame that the first selector names.
"""
import time
from dataclasses import dataclass

from .chromium import BrowserError, LeftPage

KEYS = {"Enter": 13, "Tab": 9, "Escape": 27, "Space": 32, "Backspace": 8, "Delete": 46, "Home": 36, "End": 35, "PageUp": 33,
        "PageDown": 34, "ArrowLeft": 37, "ArrowUp": 38, "ArrowRight": 39, "ArrowDown": 40}
MODIFIERS = {"Alt": 1, "Control": 2, "Meta": 4, "Shift": 8}
TEXTS = {"Enter": "\r", "Space": " "}
WORDS = {"click": 1, "hover": 1, "type": 1, "key": 1, "scroll": 3, "wait": 1, "run": 1}


class BadStep(Exception):
    """A step that isn't one of the words above."""


@dataclass(frozen=True)
class Step:
    """A step: its word and the values behind it."""
    word: str
    values: tuple

    def __str__(self):
        return " ".join((self.word, *self.values))


def read_step(line):
    """The step that a line tells."""
    word, _, rest = line.lstrip().partition(" ")
    if word not in WORDS:
        raise BadStep(f"no step begins with {word!r}: {', '.join(WORDS)}")
    rest = rest if word == "type" else rest.strip()
    values = tuple(rest.rsplit(" ", 2)) if WORDS[word] == 3 else (rest,)
    if len(values) != WORDS[word] or not all(values):
        raise BadStep(f"{word} wants {WORDS[word]} values: {line.strip()!r}")
    numbers = values[1:] if word == "scroll" else values if word == "wait" else ()
    if not all(number.removeprefix("-").isdigit() for number in numbers):
        raise BadStep(f"{word} wants whole numbers: {line.strip()!r}")
    return Step(word, values)


def read_steps(text):
    """The steps of a file: one a line; empty lines, and those that begin with #, are left out."""
    return [read_step(line) for line in text.splitlines() if line.strip() and not line.lstrip().startswith("#")]


def do_step(browser, step):
    """Does a step in the page, and waits until what it loads is there."""
    DOINGS[step.word](browser, *step.values)
    browser.wait_until("document.readyState === 'complete'", f"the page wasn't loaded after {step}")


def find(browser, selector):
    """The protocol's number of the element that a selector names."""
    node = browser.call("DOM.getDocument", depth=-1, pierce=True)["root"]["nodeId"]
    parts = [part.strip() for part in selector.split(">>>")]
    for at, part in enumerate(parts):
        node = browser.call("DOM.querySelector", nodeId=node, selector=part)["nodeId"]
        if not node:
            raise BrowserError(f"no element is named by {part!r} of {selector!r}")
        if at + 1 < len(parts):
            node = document_inside(browser, node, part)
    return node


def document_inside(browser, node, selector):
    """The number of the document inside a frame's element."""
    told = browser.call("DOM.describeNode", nodeId=node, pierce=True)["node"]
    if "contentDocument" not in told:
        raise BrowserError(f"{selector!r} names no frame")
    number = told["contentDocument"]["backendNodeId"]
    return browser.call("DOM.pushNodesByBackendIdsToFrontend", backendNodeIds=[number])["nodeIds"][0]


def middle(browser, selector):
    """The middle of an element, once it is scrolled to."""
    node = find(browser, selector)
    browser.call("DOM.scrollIntoViewIfNeeded", nodeId=node)
    quads = browser.call("DOM.getContentQuads", nodeId=node)["quads"]
    if not quads:
        raise BrowserError(f"{selector!r} has no box")
    return sum(quads[0][0::2]) / 4, sum(quads[0][1::2]) / 4


def hover(browser, selector):
    """Moves the mouse to an element."""
    x, y = middle(browser, selector)
    browser.call("Input.dispatchMouseEvent", type="mouseMoved", x=x, y=y)
    return x, y


def click(browser, selector):
    """Presses and releases the mouse in the middle of an element."""
    x, y = hover(browser, selector)
    for kind in ("mousePressed", "mouseReleased"):
        browser.call("Input.dispatchMouseEvent", type=kind, x=x, y=y, button="left", clickCount=1)


def press(browser, name):
    """Presses and releases a key, with the modifiers named before it."""
    *held, key = name.split("+") if len(name) > 1 else [name]
    if not all(modifier in MODIFIERS for modifier in held) or (key not in KEYS and len(key) != 1):
        raise BadStep(f"no key is named {name!r}")
    modifiers = sum(MODIFIERS[modifier] for modifier in held)
    text = TEXTS.get(key, key if key not in KEYS else "")
    told = {"key": " " if key == "Space" else key, "code": key if key in KEYS else "", "modifiers": modifiers,
            "windowsVirtualKeyCode": KEYS.get(key, ord(key.upper()[0]))}
    browser.call("Input.dispatchKeyEvent", type="keyDown", **told, **({"text": text} if text and modifiers in (0, 8) else {}))
    browser.call("Input.dispatchKeyEvent", type="keyUp", **told)


def type_text(browser, text):
    """Types a text."""
    for letter in text:
        press(browser, "Space" if letter == " " else letter)


def scroll(browser, selector, x, y):
    """Scrolls an element, the inside of a frame, or the page."""
    target = f"{{left: {x}, top: {y}, behavior: 'instant'}}"
    if selector == "window":
        browser.evaluate(f"window.scrollTo({target})")
        return
    node = find(browser, selector)
    if browser.call("DOM.describeNode", nodeId=node)["node"]["nodeName"] in ("IFRAME", "FRAME"):
        node = document_inside(browser, node, selector)
    handle = browser.call("DOM.resolveNode", nodeId=node)["object"]["objectId"]
    function = f"function() {{ (this.defaultView || this).scrollTo({target}); }}"
    answer = browser.call("Runtime.callFunctionOn", objectId=handle, functionDeclaration=function)
    if "exceptionDetails" in answer:
        raise BrowserError(f"{selector!r} can't be scrolled")


def wait(_, milliseconds):
    """Lets time pass."""
    time.sleep(int(milliseconds) / 1000)


def run(browser, line):
    """Runs JavaScript in the page, which may leave it."""
    try:
        browser.evaluate(f"(async () => {{ {line} }})()")
    except LeftPage:
        pass


DOINGS = {"click": click, "hover": hover, "type": type_text, "key": press, "scroll": scroll, "wait": wait, "run": run}
