"""tools/crate_list.py: the layers of crates by hand, and that docs/ARCHITECTURE.md agrees with crates.txt."""

from __future__ import annotations

import os
import re
import unittest

from cdma_tools.repository.crate_list import (
    NoList,
    chains,
    crates_below,
    longest_chain,
    picture,
    with_crates,
    with_sides,
)
from cdma_tools.repository.reading_order import NoItem, lines_between, with_counts
from tools.tests.helping import ROOT

MOST_COLUMNS = 100
BELOW: dict[str, list[str]] = {
    "core": [],
    "codes": ["core"],
    "cell": ["core", "codes"],
    "base_modulator": ["codes", "cell"],
    "pilot_survey": ["core"],
    "tuned_listener": ["codes"],
    "core_tests": ["core"],
    "program": ["tuned_listener", "base_modulator"],
}
PICTURE = """\
   base station    both   handset         program, laws  tests
5                                         program
4  base_modulator
3  cell                   tuned_listener
2                  codes  pilot_survey                   core_tests
1                  core
"""


class Layers(unittest.TestCase):
    """Crates with two tops, the base station's and the handset's."""

    def test_the_picture_has_a_line_for_each_layer(self) -> None:
        self.assertEqual(picture(BELOW), PICTURE)

    def test_a_chain_ends_with_its_crate(self) -> None:
        self.assertEqual(chains(BELOW)["tuned_listener"], ["core", "codes", "tuned_listener"])
        self.assertEqual(longest_chain(BELOW), ["core", "codes", "cell", "base_modulator", "program"])

    def test_a_circle_has_no_layers(self) -> None:
        with self.assertRaisesRegex(NoList, "^crates.txt has a cycle: one other one$"):
            chains({"one": ["other"], "other": ["one"]})


class Architecture(unittest.TestCase):
    """docs/ARCHITECTURE.md agrees with crates.txt; `python3 -m cdma_tools.repository.crate_list --write` makes it so.
    """

    def setUp(self) -> None:
        self.below = crates_below(ROOT)
        with open(os.path.join(ROOT, "docs", "ARCHITECTURE.md"), encoding="utf-8") as file:
            self.text = file.read()

    def test_the_picture_and_the_table_are_those_of_the_list(self) -> None:
        self.assertEqual(self.text, with_crates(self.text, self.below))
        self.assertIn("\n".join(f"    {line}" for line in picture(self.below).splitlines()), self.text)
        self.assertLessEqual(max(map(len, picture(self.below).splitlines())) + len("    "), MOST_COLUMNS)

    def test_the_table_has_each_crate_once(self) -> None:
        table = re.search(r"(?m)^\| Crate \|.*\n(\|.*\n)+", self.text)
        assert table is not None
        rows = re.findall(r"(?m)^\| `(\w+)` \| ([^|]*) \|", table[0])
        self.assertEqual(sorted(name for name, _ in rows), sorted(self.below))
        for name, purpose in rows:
            with self.subTest(name):
                self.assertTrue(purpose, "write what it is for into docs/ARCHITECTURE.md")

    def test_rows_are_sorted_and_purposes_stay(self) -> None:
        head = "| Crate | Purpose |\n|---|---|\n"
        old = "| `tuned_listener` | hears \\| waits |\n| `gone` | went |\n| `cell` | a cell |\n"
        other = "\n| `find` | of | memory |\n"
        wanted = "".join(f"    {line}\n" for line in PICTURE.splitlines()) + "\n" + head
        made = with_crates("    old\n\n" + head + old + other, BELOW)
        self.assertTrue(made.startswith(wanted + "| `cell` | a cell |\n"), made)
        self.assertTrue(made.endswith("| `core_tests` |  |\n" + other), made)
        self.assertIn("| `tuned_listener` | hears \\| waits |\n", made)
        self.assertNotIn("gone", made)

    def test_the_line_counts_are_those_of_the_tree(self) -> None:
        made = with_counts(self.text, ROOT)
        self.assertEqual(self.text, made, "run python3 -m cdma_tools.repository.crate_list --write")

    def test_the_reading_order_names_modules_of_the_model(self) -> None:
        modules: list[str] = re.findall(r"(?m)^\| \d+ \| `[^`]+` \| `[^`]+` \|.*\| (?:`(\w+)` )?\|$", self.text)
        self.assertEqual(len(modules), 24)
        for module in {it for it in modules if it}:
            self.assertTrue(os.path.exists(os.path.join(ROOT, "cdma_model", f"{module}.py")), module)


class ReadingOrder(unittest.TestCase):
    """The number of lines between two items of a file."""

    def test_definitions(self) -> None:
        text = "use x.{one}\n\n-- A comment.\nabbrev pub one : N\none = 1\n\n-- two\npub record two : Type where\n"
        text += "  pub a : N\n  -- of b\n  pub b : N\n      more\n  pub c : N\n\nend\n"
        wanted = (("one", "one", 3), ("one", "a", 7), ("one", "b", 10), ("two", "two", 7), ("b", "b", 3))
        for first, last, count in wanted:
            with self.subTest(first=first, last=last):
                self.assertEqual(lines_between(text, first, last), count)
        with self.assertRaises(NoItem):
            lines_between(text, "none", "one")

    def test_code(self) -> None:
        text = "//! A module.\n\nimpl X {\n    /// Doc.\n    pub fn one(\n        x: u8,\n    ) -> u8\n    {\n"
        text += "        x\n    }\n\n    fn two() {\n    }\n}\n\n/// A law.\npub fn three()\n    ensures { A }\n{}\n"
        wanted = (("pub fn one", "fn one", 7), ("fn one", "fn two", 10), ("pub fn three", "pub fn three", 4))
        for first, last, count in wanted:
            with self.subTest(first=first, last=last):
                self.assertEqual(lines_between(text, first, last), count)


class Sides(unittest.TestCase):
    """The side of the crates of each layer, as comments in crates.txt give it."""

    def test_the_list_says_whose_its_crates_are(self) -> None:
        with open(os.path.join(ROOT, "crates.txt"), encoding="utf-8") as file:
            text = file.read()
        self.assertEqual(text, with_sides(text, crates_below(ROOT)))

    def test_old_lines_go_and_the_order_stays(self) -> None:
        text = "# A list.\n\n# first\n# tests: none\ncodes:\npilot_survey:\n\n# second\ncell: codes\n"
        wanted = "# A list.\n\n# first\n# both: codes\n# handset: pilot_survey\ncodes:\npilot_survey:\n\n"
        wanted += "# second\n# base station: cell\ncell: codes\n"
        self.assertEqual(with_sides(text, BELOW), wanted)


if __name__ == "__main__":
    unittest.main()
