"""The program prints of each example what stands beside it."""
import json
import tempfile
import unittest
from pathlib import Path

from pages.running import OK, PROGRAM, USAGE, run
from tests.browser_tests import tool

EXAMPLES = Path(__file__).resolve().parents[2] / "examples"
STORIES = json.loads((EXAMPLES / "stories.json").read_text())


class Examples(unittest.TestCase):
    """Scripts and their outputs."""

    def test_each_script_has_its_story_and_its_output(self):
        scripts = {path.stem for path in EXAMPLES.glob("*.json")} - {"stories"}
        self.assertEqual(scripts, set(STORIES))
        self.assertEqual({path.stem for path in EXAMPLES.glob("*.txt")}, set(STORIES))

    @unittest.skipUnless(PROGRAM.exists(), "the program isn't built")
    def test_the_program_prints_them(self):
        for name, story in STORIES.items():
            with self.subTest(name):
                status, text = run((EXAMPLES / f"{name}.json").read_bytes(), story["command"])
                if status == USAGE:
                    print(f"not run by this program yet: {name}, by its command {story['command']}")
                    continue
                self.assertEqual((status, text), (OK, (EXAMPLES / f"{name}.txt").read_text()))

    @unittest.skipUnless(PROGRAM.exists(), "the program isn't built")
    def test_the_view_runs_the_program(self):
        with tempfile.TemporaryDirectory() as folder:
            page = Path(folder, "first-run.view.html")
            Path(folder, "first-run.json").write_bytes((EXAMPLES / "first-run.json").read_bytes())
            printed, _ = tool("view", Path(folder, "first-run.json"))
            self.assertEqual(printed.strip(), str(page))
            self.assertIn("a1 applied 1", page.read_text())

    def test_the_view_says_what_is_wrong(self):
        for words, wrong in (((EXAMPLES / "first-run.json", EXAMPLES / "probes.txt"), "the script has no tree 7"),
                             ((EXAMPLES / "first-run.json", "--program", "/no/program"), "isn't there"), ((EXAMPLES / "no.json",), "No such file")):
            with self.assertRaisesRegex(AssertionError, wrong):
                tool("view", *words)


if __name__ == "__main__":
    unittest.main()
