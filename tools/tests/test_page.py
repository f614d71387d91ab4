"""The manual page: mandoc reports nothing, and it contains each command, option, line and status of docs/FORMATS.md."""

import os
import re
import shutil
import subprocess
import unittest

from cdma_tools.lines import SHAPES
from cdma_tools.starting import INSTALLED
from tools.tests.helping import ROOT

PAGE = os.path.join(ROOT, "docs", "cdma_replay.1")


def text_of(path: str) -> str:
    """Returns the text of a document."""
    with open(path, encoding="ascii" if path == PAGE else "utf-8") as file:
        return file.read()


class Page(unittest.TestCase):
    @unittest.skipUnless(shutil.which("mandoc"), "no mandoc: install the package mandoc")
    def test_lint_is_silent(self) -> None:
        ran = subprocess.run(["mandoc", "-T", "lint", PAGE], capture_output=True, timeout=60)
        self.assertEqual((ran.returncode, ran.stdout, ran.stderr), (0, b"", b""))

    def test_each_word_stands_in_it(self) -> None:
        formats, page = text_of(os.path.join(ROOT, "docs", "FORMATS.md")), text_of(PAGE)
        found = re.search(r"## Command line and exit status\n(.*?)\n\n[^ \n]", formats, re.S)
        assert found
        usage = found[1]
        commands = re.findall(r"cdma_replay (\w+)", usage)
        self.assertEqual(len(commands), 8)
        for command in commands:
            self.assertIn(f".Cm {command}\n", page)
            self.assertIn(f".It Cm {command}\n", page)
        for option in set(re.findall(r"--(\w+)", usage)):
            self.assertRegex(page, rf"\n\.It Fl -{option} Ar [NH]\n")
        table = formats[formats.index("| Status |") :].split("\n\n", 1)[0]
        statuses = re.findall(r"\n\| (\d) \|", table)
        self.assertEqual(re.findall(r"\n\.It (\d)\n", page), statuses)

    def test_each_kind_of_line_stands_in_it(self) -> None:
        page = text_of(PAGE)
        part = page[page.index(".Ss Lines that are written\n") : page.index(".Sh EXIT STATUS\n")]
        kinds = [kind for item in re.findall(r"(?m)^\.It Li (.+)$", part) for kind in item.split(" , ")]
        self.assertEqual(kinds, [f"{shape.line} {shape.word or ''}".rstrip() for shape in SHAPES])

    def test_what_it_names_is_installed(self) -> None:
        """It names no path of a checkout, which readers of the installed page do not have."""
        page = text_of(PAGE)
        for path in re.findall(r"\.Pa (\S+)", page):
            self.assertTrue(path.startswith(("share/", "docs/", "/usr")), path)
            if path.startswith("docs/"):
                self.assertTrue(os.path.exists(os.path.join(ROOT, path)), path)
        for command in re.findall(r"(?m)^\.Ql (cdma-\w+)", page):
            self.assertIn(command, INSTALLED.values())


if __name__ == "__main__":
    unittest.main()
