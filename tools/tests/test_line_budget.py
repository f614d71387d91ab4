"""repository/line_budget.py: what counts as a line, what a budget is, and that no crate has too many lines."""

import os
import unittest

from cdma_tools.repository.line_budget import NoBudget, budget_in, counted, kept_budget, lines_in, over, written
from tools.tests.helping import ROOT, temporary_folder

LINES = {"core": 100, "top": 21}


class Budgets(unittest.TestCase):
    def test_all_lines_of_a_crate_count(self) -> None:
        folder = temporary_folder(self.addCleanup)
        for place, text in (
            ("src/lib.rt", "//! Doubles.\n\nmod a;\n"),
            ("src/a/b.rt", "fn two() {}\n"),
            ("specs/Lib.antt", "-- a comment\nx = 1\n"),
            ("proofs/Deep/Lib.antt", "a\n"),
            ("proofs/notes.txt", "not counted\n"),
            ("must-fail/wrong.edit", "not counted\n"),
            ("out/lib.rt", "not counted\n"),
        ):
            path = os.path.join(folder, place)
            os.makedirs(os.path.dirname(path), exist_ok=True)
            with open(path, "w", encoding="utf-8") as file:
                file.write(text)
        self.assertEqual(lines_in(folder), 7)

    def test_a_budget_is_read_as_it_is_written(self) -> None:
        self.assertEqual(budget_in(written(LINES), LINES), LINES)

    def test_a_crate_may_have_five_percent_more(self) -> None:
        self.assertEqual(list(over({"core": 105, "top": 22}, LINES)), [])
        found = list(over({"core": 106, "top": 23}, LINES))
        wanted = ["core has 106 lines, over 5 % more than its budget of 100"]
        self.assertEqual(found, [*wanted, "top has 23 lines, over 5 % more than its budget of 21"])

    def test_what_is_not_a_budget(self) -> None:
        for text, why in (
            ("core\ntop 21\n", "not a crate and its lines, each crate once: 'core'"),
            ("core many\n", "not a crate and its lines, each crate once: 'core many'"),
            ("core 100\ncore 100\n", "not a crate and its lines, each crate once: 'core 100'"),
            ("core 100 # top 21\n", "crates.txt and line_budget.txt differ in top"),
            ("core 100\nother 1\ntop 21\n", "crates.txt and line_budget.txt differ in other"),
        ):
            with self.subTest(text), self.assertRaises(NoBudget) as found:
                budget_in(text, LINES)
            self.assertEqual(str(found.exception), why)


class Tree(unittest.TestCase):
    def test_no_crate_has_too_many_lines(self) -> None:
        """If one has, shorten it, or raise its budget as line_budget.py says."""
        lines = counted(ROOT)
        self.assertEqual(list(over(lines, kept_budget(lines))), [])


if __name__ == "__main__":
    unittest.main()
