"""The tools' tables are those of docs/FORMATS.md and of the schema."""
import json
import re
import unittest
from pathlib import Path

from pages import tables

TOP = Path(__file__).resolve().parents[2]
PAGE = (TOP / "docs/FORMATS.md").read_text()
SCHEMA = json.loads((TOP / "docs/script.schema.json").read_text())["$defs"]


def part(heading):
    """The text below a heading of the page, up to the next."""
    return re.split(r"^#+ ", PAGE.split(f"## {heading}\n", 1)[1], maxsplit=1, flags=re.M)[0]


class Tables(unittest.TestCase):
    """Names, order, kinds and versions."""

    def test_roles(self):
        rows = dict(re.findall(r"(\d+) `(\w+)`", part("Roles")))
        named = [rows[str(number)] for number in range(1, len(rows) + 1)]
        self.assertEqual(named, tables.roles(2))
        self.assertEqual(len(tables.roles(1)), 28)
        self.assertIn("Rows 29 to 36 came with version 2.", part("Roles"))

    def test_states(self):
        rows = re.findall(r"^\| \d+ `(\w+)` \| `\w+` \| \w+ \| (\d) \|$", part("States"), re.M)
        self.assertEqual([name for name, _ in rows], tables.states(2))
        self.assertEqual([name for name, version in rows if version == "1"], tables.states(1))

    def test_attributes(self):
        rows = re.findall(r"^\| \d+ `(\w+)` \| (\w+) \| [^|]+ \| (\d) \|$", part("Attributes"), re.M)
        self.assertEqual([(name, kind) for name, kind, _ in rows], list(tables.attributes(2).items()))
        self.assertEqual([name for name, _, version in rows if version == "1"], list(tables.attributes(1)))

    def test_schema(self):
        self.assertEqual(SCHEMA["role"]["enum"], tables.roles(2))
        self.assertEqual(SCHEMA["states"]["items"]["enum"], tables.states(2))
        for part_name in ("attrs", "changed_attrs"):
            self.assertEqual(list(SCHEMA[part_name]["properties"]), list(tables.attributes(2)))
        first = SCHEMA["look_of_version_1"]["properties"]
        self.assertEqual(first["role"]["enum"], tables.roles(1))
        self.assertEqual(first["states"]["items"]["enum"], tables.states(1))
        self.assertEqual(first["attrs"]["propertyNames"]["enum"], list(tables.attributes(1)))


if __name__ == "__main__":
    unittest.main()
