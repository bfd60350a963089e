"""The replies that readers get in a replay are those that the browser itself gave while the page was captured."""
import json
import unittest
from collections import Counter

from pages.chromium import Browser
from pages.recording import Recording
from pages.running import PROGRAM, run
from pages.steps import do_step, read_steps
from tests.browser_says import UNSAID, Moment, say
from tests.browser_tests import DATA

SIZE = (1024, 768)


def captured(page, *steps):
    """The script of a page with readers, and for each reader what the browser said to its queries."""
    with Browser(*SIZE) as browser:
        recording = Recording(2, SIZE, with_queries=True)
        said = [[] for _ in recording.readers]
        browser.go((DATA / page).as_uri())
        for step in [None, *(step for name in steps for step in read_steps((DATA / name).read_text()))]:
            if step:
                do_step(browser, step)
            if recording.take(browser):
                moment = Moment(browser, recording)
                for queries, replies in zip(recording.readers, said):
                    replies += [say(moment, query) for query in queries[len(replies):]]
        return recording.script(), said


def replies(text, readers):
    """The replies of a run, reader by reader."""
    told = [[] for _ in range(readers)]
    for line in text.splitlines():
        head, _, reply = line.partition(" = ")
        if reply and head.startswith("r"):
            told[int(head[1:].split(" ")[0]) - 1].append(reply)
    return told


@unittest.skipUnless(PROGRAM.exists(), "the program isn't built")
class Replies(unittest.TestCase):
    """Every query that the protocol can answer."""

    def compare(self, page, *steps):
        """Compares all replies; how many of each kind were compared."""
        script, said = captured(page, *steps)
        status, text = run(json.dumps(script).encode())
        self.assertEqual(status, 0, text[:200])
        compared, differing = Counter(), []
        for reader, (queries, wanted, given) in enumerate(zip(script["readers"], said, replies(text, len(said))), 1):
            self.assertEqual(len(given), len(queries))
            for query, want, reply in zip(queries, wanted, given):
                compared[query["q"]] += want is not None
                if want not in (None, reply):
                    differing.append(f"r{reader} {query}: {reply}, the browser says {want}")
        print("compared with the browser:", ", ".join(f"{kind} {number}" for kind, number in sorted(compared.items())))
        self.assertFalse(differing, "\n".join(["", *differing]))
        return compared

    def test_a_page_that_changes(self):
        compared = self.compare("market.html", "market.steps", "frames.steps")
        self.assertEqual({kind for kind, number in compared.items() if not number}, set(UNSAID))

    def test_a_frame_inside_a_frame(self):
        compared = self.compare("desk.html", "desk.steps")
        self.assertGreater(min(number for kind, number in compared.items() if kind not in UNSAID), 8)


if __name__ == "__main__":
    unittest.main()
