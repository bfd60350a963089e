"""The view in the real browser: it loads, steps, and is usable by keyboard and by assistive tools."""
import re
import tempfile
import unittest
from pathlib import Path

from pages.chromium import Browser
from tests.browser_tests import TOOLS, tool

EXAMPLES = TOOLS.parent / "examples"
STYLE = (TOOLS / "pages/assets/view.css").read_text()
INTERACTIVE = ("button", "slider", "radio", "checkbox", "listbox", "tree", "treeitem", "option", "textbox")
EVERY_BACK = ("back", "panel", "select", "change-back", "new-back")
TEXTS = {"text": EVERY_BACK, "faint": EVERY_BACK, "change": ("change-back",), "new": ("new-back", "back"), "fault": ("back",), "accent-text": ("accent",)}
ROWS = "[...document.querySelectorAll('.row')].map(row => row.getAttribute('aria-level') + ' ' + row.firstChild.textContent)"
MARKED = """[...document.querySelectorAll('.row.new, .row.changed')]
  .map(row => row.dataset.place + ' ' + row.querySelector('.badge').textContent)"""
FORTH = """window.seen = [];
  for (let step = 0; step < story.steps.length; step++) { show(step); seen.push(document.querySelector('main').innerText); }"""
BACK = """(() => {
  for (let step = story.steps.length - 1; step >= 0; step--) {
    show(step);
    if (document.querySelector('main').innerText !== seen[step]) return step;
  }
  return 'same';
})()"""
INKED = """(() => {
  const canvas = document.getElementById('boxes'), points = canvas.getContext('2d').getImageData(0, 0, canvas.width, canvas.height).data;
  return points.filter((value, at) => at % 4 === 3 && value > 0).length;
})()"""
CLICKED = """(() => {
  const canvas = document.getElementById('boxes'), box = canvas.getBoundingClientRect();
  canvas.dispatchEvent(new MouseEvent('click', {clientX: box.left + 600 * drawn.scale, clientY: box.top + 120 * drawn.scale}));
})()"""

MARKED_COUNTS = """[...document.querySelectorAll('#line > [aria-hidden]')].map(mark => [Number(mark.style.gridColumnStart), Number(mark.textContent)])"""
MISNAMED = """(() => {
  const all = selector => [...document.querySelectorAll(selector)], faults = [], ids = all('[id]').map(one => one.id);
  if (new Set(ids).size < ids.length) faults.push('an id stands twice');
  for (const name of ['aria-labelledby', 'aria-describedby', 'aria-activedescendant', 'for']) {
    const named = all(`[${name}]`).flatMap(one => one.getAttribute(name).split(' '));
    faults.push(...named.filter(id => !document.getElementById(id)).map(id => `${name} names ${id}`));
  }
  all('h1, h2, h3').map(one => Number(one.tagName[1])).reduce((above, level) => {
    if (level > above + 1) faults.push(`a heading of level ${level} below one of ${above}`);
    return level;
  }, 0);
  for (const one of all('button, [role=option]')) {
    const box = one.getBoundingClientRect();
    if (Math.min(box.width, box.height) < 24 && !one.classList.contains('all')) faults.push(`${one.id || one.textContent} is small`);
  }
  return faults;
})()"""
FOCUS_MARK = "(style => [style.outlineStyle, parseFloat(style.outlineWidth)])(getComputedStyle(document.activeElement))"


def to_step(test):
    """JavaScript that shows the first step of which a test holds."""
    return f"show(story.steps.findIndex(step => {test}))"


def luminance(color):
    """How bright a color is, from 0 to 1."""
    parts = [int(color[at:at + 2], 16) / 255 for at in (1, 3, 5)]
    linear = [part / 12.92 if part <= 0.04045 else ((part + 0.055) / 1.055) ** 2.4 for part in parts]
    return 0.2126 * linear[0] + 0.7152 * linear[1] + 0.0722 * linear[2]


def contrast(one, other):
    """How far two colors differ, from 1 to 21."""
    dark, bright = sorted((luminance(one), luminance(other)))
    return (bright + 0.05) / (dark + 0.05)


class Colors(unittest.TestCase):
    """Texts and marks against what they stand on, by day and by night."""

    def test_contrast(self):
        schemes = [dict(re.findall(r"--([\w-]+): (#\w{6})", block)) for block in re.findall(r":root \{(.*?)\}", STYLE, re.S)]
        self.assertEqual(len(schemes), 2)
        for colors in schemes:
            for text, backs in TEXTS.items():
                for back in backs:
                    self.assertGreaterEqual(contrast(colors[text], colors[back]), 4.5, f"{text} on {back}")
            for mark in ("edge", "accent", "change", "new", "fault"):
                self.assertGreaterEqual(contrast(colors[mark], colors["back"]), 3, mark)


class View(unittest.TestCase):
    """A page of an example."""

    @classmethod
    def setUpClass(cls):
        cls.folder = tempfile.TemporaryDirectory()
        cls.addClassCleanup(cls.folder.cleanup)
        tool("view", "--gallery", "--to", cls.folder.name)
        cls.browser = Browser(1280, 1000)
        cls.enterClassContext(cls.browser)

    def open(self, name):
        """Loads a page; nothing may be thrown while it is used."""
        self.browser.events.clear()
        self.browser.go(Path(self.folder.name, f"{name}.html").as_uri())
        self.addCleanup(self.no_faults)

    def no_faults(self):
        """Nothing was thrown, and nothing was asked of the network."""
        self.browser.evaluate("1")
        self.assertEqual([event["params"] for event in self.browser.events if event["method"] == "Runtime.exceptionThrown"], [])
        self.assertEqual(self.browser.evaluate("performance.getEntriesByType('resource').length"), 0)

    def text(self, selector):
        """The text of an element."""
        return self.browser.evaluate(f"document.querySelector({selector!r}).textContent")

    def press(self, key, times=1):
        """Presses a key."""
        for _ in range(times):
            for kind in ("keyDown", "keyUp"):
                self.browser.call("Input.dispatchKeyEvent", type=kind, key=key, code=key, windowsVirtualKeyCode=KEYS[key])

    def test_each_example_loads_and_steps_to_its_end(self):
        for path in sorted(EXAMPLES.glob("*.txt")):
            with self.subTest(path.stem):
                self.open(path.stem)
                count = self.browser.evaluate("story.steps.length")
                self.browser.evaluate("for (let step = 0; step < story.steps.length; step++) show(step);")
                self.assertEqual(self.text("#place"), f"{count} of {count}")
                self.no_faults()

    def test_the_gallery_names_each_example(self):
        self.open("index")
        linked = self.browser.evaluate("[...document.querySelectorAll('a')].map(link => link.getAttribute('href'))")
        self.assertEqual(sorted(linked), sorted(f"{path.stem}.html" for path in EXAMPLES.glob("*.txt")))

    def test_the_last_trees_are_those_of_the_dump(self):
        self.open("two-frames")
        self.browser.evaluate("document.getElementById('last').click()")
        self.assertEqual(self.browser.evaluate(ROWS), ["1 root_web_area", "2 heading", "2 paragraph", "3 static_text", "3 link", "2 button"])
        self.assertIn("has ended", self.text("#trees"))

    def test_going_back_gives_the_same_as_going_forth(self):
        self.open("two-frames")
        self.browser.evaluate(FORTH)
        self.assertEqual(self.browser.evaluate(BACK), "same")

    def test_changes_are_marked(self):
        self.open("two-frames")
        self.browser.evaluate(to_step("step.lines[0] === 'a2 applied 2'"))
        self.assertEqual(self.browser.evaluate(MARKED), ["2:2 changed: children", "2:3 changed: value", "2:5 new", "2:4 changed: box"])
        self.assertIn("4 changed by this step", self.text("#boxes-told"))

    def test_the_boxes_are_drawn(self):
        self.open("scroll-containers")
        self.browser.evaluate("show(0); document.getElementById('last').click(); choose('1:7', false)")
        self.assertIn("30, 100, 340, 60", self.text("#node"))
        self.assertGreater(self.browser.evaluate(INKED), 2000)

    def test_a_box_can_be_chosen(self):
        self.open("two-frames")
        self.browser.evaluate(to_step("step.lines[0] === 'a2 applied 1'"))
        self.browser.evaluate(CLICKED)
        self.assertEqual(self.browser.evaluate("view.chosen"), "2:4")
        self.assertEqual(self.browser.evaluate("document.querySelector('[aria-selected=true].row').dataset.place"), "2:4")

    def test_sources_can_be_shown(self):
        self.open("broken-token")
        self.browser.evaluate("document.querySelector('[value=source]').click()")
        self.browser.evaluate(to_step("step.lines[0] === 'f1 remove 3 ok'"))
        self.assertIn("gone: 3", self.text("#told"))

    def test_by_keyboard_alone(self):
        self.open("two-frames")
        self.browser.evaluate("document.getElementById('line').focus()")
        self.press("Home")
        self.assertEqual(self.text("#place").split(" ")[0], "1")
        self.press("ArrowRight", 2)
        self.assertEqual(self.text("#place").split(" ")[0], "3")
        self.assertEqual(self.browser.evaluate("document.getElementById('line').getAttribute('aria-activedescendant')"), "mark-2")
        self.browser.evaluate("document.querySelector('.row').focus()")
        self.press("ArrowDown", 2)
        self.assertEqual(self.browser.evaluate("[view.chosen, document.activeElement.dataset.place].join()"), "1:3,1:3")
        self.press("ArrowRight")
        self.press("ArrowLeft", 2)
        self.assertEqual(self.browser.evaluate("view.chosen"), "1:1")
        self.press("End")
        self.assertEqual(self.browser.evaluate("document.activeElement.dataset.place"), "1:6")

    def test_every_control_can_be_reached_by_tab(self):
        self.open("two-frames")
        self.browser.evaluate("document.activeElement.blur()")
        reached = []
        for _ in range(40):
            self.press("Tab")
            reached.append(self.browser.evaluate("(e => e.id || e.className || e.type || e.tagName)(document.activeElement)"))
        for wanted in ("first", "previous", "step", "next-update", "line", "whole", "lines"):
            self.assertIn(wanted, reached)
        self.assertTrue(any(name.startswith("row") for name in reached))

    def test_roles_and_names(self):
        self.open("two-frames")
        nodes = [node for node in self.browser.call("Accessibility.getFullAXTree")["nodes"] if not node.get("ignored")]
        seen = {}
        for node in nodes:
            seen.setdefault(node["role"]["value"], []).append(node.get("name", {}).get("value", ""))
        for role in INTERACTIVE:
            self.assertNotIn("", seen.get(role, []), role)
        for role in ("button", "slider", "radio", "checkbox", "listbox", "option", "tree", "treeitem", "table", "main", "banner"):
            self.assertIn(role, seen)
        self.assertEqual(seen["listbox"], ["Time line"])
        self.assertIn("Boxes", seen.get("image", []) + seen.get("img", []))
        self.assertEqual(self.browser.evaluate("document.documentElement.lang"), "en")

    def test_events_are_counted_in_the_time_line(self):
        self.open("two-frames")
        told = self.browser.evaluate("story.steps.flatMap((step, at) => step.events ? [[at + 1, step.events.length]] : [])")
        self.assertEqual(self.browser.evaluate(MARKED_COUNTS), told)
        self.assertEqual(sum(count for _, count in told), 20)
        self.assertIn("Events", self.text("#lanes"))

    def test_names_headings_and_sizes(self):
        for page in ("two-frames", "actions", "index"):
            self.open(page)
            self.assertEqual(self.browser.evaluate(MISNAMED), [])

    def test_the_focus_is_seen(self):
        self.open("two-frames")
        self.browser.evaluate("document.activeElement.blur()")
        for _ in range(30):
            self.press("Tab")
            if self.browser.evaluate("document.activeElement !== document.body"):
                style, width = self.browser.evaluate(FOCUS_MARK)
                self.assertTrue(style != "none" and width >= 2, self.browser.evaluate("document.activeElement.outerHTML.slice(0, 80)"))

    def test_a_narrow_window(self):
        self.open("two-frames")
        self.browser.call("Emulation.setDeviceMetricsOverride", width=360, height=700, deviceScaleFactor=1, mobile=False)
        self.addCleanup(self.browser.call, "Emulation.setDeviceMetricsOverride", width=1280, height=1000, deviceScaleFactor=1, mobile=False)
        self.assertLessEqual(self.browser.evaluate("document.documentElement.scrollWidth"), 360)


KEYS = {"Home": 36, "End": 35, "ArrowLeft": 37, "ArrowUp": 38, "ArrowRight": 39, "ArrowDown": 40, "Tab": 9}

if __name__ == "__main__":
    unittest.main()
