"""docs/GLOSSARY.md: its lists are sorted, no term occurs twice, and the owner of each term exists."""

from __future__ import annotations

import os
import re
import unittest

from cdma_tools.repository.crate_list import crates_below
from tools.tests.helping import ROOT


def sorted_by(word: str) -> str:
    """Returns the letters, digits and spaces of a word, in lower case."""
    return re.sub(r"[^a-z0-9 ]", "", word.casefold())


class Glossary(unittest.TestCase):
    def setUp(self) -> None:
        with open(os.path.join(ROOT, "docs", "GLOSSARY.md"), encoding="utf-8") as file:
            _, self.standard, self.own = re.split(r"(?m)^## .*\n", file.read())

    def entries(self, text: str) -> list[tuple[str, str]]:
        """Returns the terms of a list with their sections or owners."""
        found = re.findall(r"(?m)^- \*\*(.+)\*\*: .+ \[([^\]]+)\]$", text)
        self.assertEqual(len(found), text.count("\n- "))
        return found

    def test_the_terms_are_sorted(self) -> None:
        for text in (self.standard, self.own):
            words = [sorted_by(word) for word, _ in self.entries(text)]
            self.assertEqual(words, sorted(set(words)))

    def test_each_term_of_the_standard_has_a_section(self) -> None:
        for word, section in self.entries(self.standard):
            with self.subTest(word):
                self.assertRegex(section, r"\A(\d+(\.\d+)*(, | to |\Z))+\Z|\Aown\Z|\ATIA/EIA-98\Z")

    def test_each_owner_is_a_crate_or_a_folder(self) -> None:
        crates = crates_below(ROOT)
        for word, owners in self.entries(self.own):
            for owner in re.findall(r"`([^`]*)`", owners):
                with self.subTest(word):
                    self.assertTrue(owner in crates or os.path.isdir(os.path.join(ROOT, owner)), owner)
            self.assertRegex(owners, r"\A(`[^`]+`(, |\Z))+\Z")


if __name__ == "__main__":
    unittest.main()
