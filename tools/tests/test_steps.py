"""Words for what is done in a page."""
import unittest

from pages.steps import BadStep, Step, read_step, read_steps


class Steps(unittest.TestCase):
    """Lines that are steps, and lines that are none."""

    def test_steps(self):
        rows = {"click #a > b": ("click", "#a > b"), "key Shift+Tab": ("key", "Shift+Tab"), "type a b ": ("type", "a b "), "wait 20": ("wait", "20"),
                "scroll #a b 10 -20": ("scroll", "#a b", "10", "-20"), "run a(); b();": ("run", "a(); b();"), "hover i >>> b": ("hover", "i >>> b")}
        for line, (word, *values) in rows.items():
            self.assertEqual(read_step(line), Step(word, tuple(values)))
            self.assertEqual(read_step(str(read_step(line))), read_step(line))

    def test_a_file_of_steps(self):
        self.assertEqual([step.word for step in read_steps("# a\n\nclick a\n  wait 5\n")], ["click", "wait"])

    def test_no_steps(self):
        for line in ("fly", "click", "wait x", "scroll a 1", "scroll a x 1", ""):
            with self.assertRaises(BadStep, msg=line):
                read_step(line)


if __name__ == "__main__":
    unittest.main()
