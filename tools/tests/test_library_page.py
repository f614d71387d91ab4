"""docs/LIBRARY.md is what the docstrings of the library say, of each public name."""

import os
import unittest

from tools.tests.helping import needs

needs("numpy", "scipy")

import cdma  # noqa: E402
from cdma_tools.repository import library_page  # noqa: E402


class Page(unittest.TestCase):
    """The page and its parts."""

    def test_the_page_is_generated(self) -> None:
        with open(library_page.PAGE, encoding="utf-8") as file:
            written = file.read()
        again = "python3 -m cdma_tools.repository.library_page --write"
        self.assertEqual(written, library_page.page(), f"{os.path.basename(library_page.PAGE)} is old: {again}")

    def test_each_public_name_is_described(self) -> None:
        names = {name.split(".")[0] for group in library_page.GROUPS.values() for name in group}
        self.assertEqual(names | set(library_page.DESCRIBED), set(cdma.__all__))

    def test_examples_become_code(self) -> None:
        told = library_page.as_page("Does it.\n\n    >>> do(\n    ...     1)\n    2\n\n    Again.")
        self.assertEqual(told, "Does it.\n\n    >>> do(\n    ...     1)\n    2\n\nAgain.\n")

    def test_signatures_name_values(self) -> None:
        text = library_page.page()
        for part in ("cdma.find(chips: Source, *, span=2048, workers: Number|None=None) -> Pilot",
                     "    lc=2199023255552,\n", "Run.to_pandas(kind: str) -> Any"):  # fmt: skip
            self.assertIn(part, text)


if __name__ == "__main__":
    unittest.main()
