"""One version: CHANGELOG.md, the package, its manual pages and the tools have the same one, and the same day."""

import datetime
import email.utils
import os
import re
import unittest

from cdma_tools import RELEASED, __version__
from cdma_tools.arguments import version_of
from cdma_tools.packaging import debian
from tools.tests.helping import ROOT


def text_of(page: str) -> str:
    """Returns the text of a page."""
    with open(os.path.join(ROOT, page), encoding="utf-8") as file:
        return file.read()


class OneVersion(unittest.TestCase):
    """The places that have the version or its day."""

    def test_the_newest_entry_is_this_version(self) -> None:
        entries = re.findall(r"(?m)^## (\d+\.\d+\.\d+), (\d{4}-\d\d-\d\d)$", text_of("CHANGELOG.md"))
        self.assertEqual(entries[0], (__version__, RELEASED))
        numbers = [tuple(map(int, version.split("."))) for version, _ in entries]
        days = [day for _, day in entries]
        self.assertEqual((numbers, days), (sorted(set(numbers), reverse=True), sorted(days, reverse=True)))

    def test_the_package(self) -> None:
        """Its files have the day's time, at midnight in UTC, which is never in the future, and its changelog the same day."""
        day = datetime.date.fromisoformat(RELEASED)
        self.assertEqual(debian.SECONDS, (day - datetime.date(1970, 1, 1)).days * 86_400)
        changelog = text_of("debian/changelog")
        self.assertTrue(changelog.startswith(f"cdma-replay ({__version__}) "))
        dates = re.findall(r"(?m)^ -- [^<>]+ <[^<>]+>  (.*)$", changelog)
        self.assertEqual(email.utils.parsedate_to_datetime(dates[0]).timestamp(), debian.SECONDS)
        self.assertIn(f"_{__version__}_", debian.FILE)

    def test_the_tools(self) -> None:
        self.assertEqual(version_of("scan").split()[-1], __version__)

    def test_the_page_of_promises(self) -> None:
        """It covers each part that a user may build on, and both the changelog and README lead to it."""
        page = text_of("docs/VERSIONS.md")
        for part in ("Sample files", "Lines", "Exit statuses", "Options", "library `cdma`"):
            self.assertRegex(page, rf"(?m)^\| [^|]*{part}")
        for other in ("CHANGELOG.md", "README.md"):
            self.assertIn("(docs/VERSIONS.md)", text_of(other))


if __name__ == "__main__":
    unittest.main()
