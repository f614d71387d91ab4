"""The manual pages of the tools: nothing of --help is lost in them, and a formatter has nothing to say against them."""

from __future__ import annotations

import argparse
import os
import re
import shutil
import subprocess
import unittest
import unittest.mock
from collections import Counter

from tools.tests.helping import needs

needs("numpy", "scipy", "build_manpages")

from cdma_tools import RELEASED, __version__  # noqa: E402
from cdma_tools.arguments import STATUS, Parser, PartParser  # noqa: E402
from cdma_tools.errors import Refused  # noqa: E402
from cdma_tools.packaging import manuals, tree  # noqa: E402
from cdma_tools.packaging.parsers import parser_of  # noqa: E402

WIDE = {"COLUMNS": "100000"}  # in which --help parts no word
MACROS = {"TH", "SH", "SS", "TP", "PP", "B", "BR", "nf", "fi", "RS", "RE"}
# Texts that roff takes for requests, for escapes or for other letters.
HOSTILE = """Begins 'so'.

.TH begins a line, and so does
'br, then \\fB, \\\\, a-b, `c`, ^, ~, "d" and %% of it.

    .nf in a table   and 'more'

    cdma-hostile --of .SH | 'sed'

Exit status: 0 .PP isn't ended, 2 wrong arguments
"""


def parts(parser: argparse.ArgumentParser) -> list[argparse._SubParsersAction]:  # type: ignore[type-arg]
    """Returns the argument that names the part of a command, if it has one."""
    return [action for action in parser._actions if isinstance(action, argparse._SubParsersAction)]


def words_of(text: str) -> Counter[str]:
    """Counts the words of a text, whatever their case is and whatever sign follows them."""
    return Counter(word.strip(".,;:").casefold() for word in text.split())


def words_of_help(parser: argparse.ArgumentParser) -> Counter[str]:
    """Counts the words of --help of a command and of its parts, without the headings that are argparse's own."""
    with unittest.mock.patch.dict(os.environ, WIDE):
        texts = [one.format_help() for action in parts(parser) for one in (parser, *action.choices.values())]
        text = "\n".join(texts or [parser.format_help()])
    headings = "usage:|positional arguments:|options:|" + re.escape(STATUS)
    found = words_of(re.sub(f"(?m)^({headings})", "", text))
    return found - words_of(" ".join(str(action.metavar) for action in parts(parser)))


def formatted(page: str) -> str:
    """Returns a page as a terminal that is wide shows it."""
    words = ["mandoc", "-T", "utf8", "-O", "width=1000"]
    shown = subprocess.run(words, input=page, capture_output=True, text=True, check=True, timeout=60).stdout
    return re.sub("(?s).\b", "", shown)


def reported(page: str) -> str:
    """Returns what mandoc reports of a page."""
    words = ["mandoc", "-T", "lint", "-W", "warning"]
    return subprocess.run(words, input=page, capture_output=True, text=True, timeout=60).stdout


class Pages(unittest.TestCase):
    """The pages of all commands."""

    def test_head_and_sections(self) -> None:
        for name, module in tree.commands().items():
            with self.subTest(name):
                page = manuals.manual_of(name, module)
                head = f'.TH {name.upper()} 1 "{RELEASED}" "cdma-replay {__version__}" "User Commands"'
                self.assertEqual(page.split("\n")[1], head)
                self.assertRegex(page, rf"(?m)^\.SH NAME\n{re.escape(manuals.escaped(name))} \\- [a-z][^\n]*[^.]\n\.SH")
                sections = re.findall(r"(?m)^\.SH ([A-Z ]*)$", page)
                wanted = ["NAME", "SYNOPSIS", "DESCRIPTION", "OPTIONS", "EXAMPLES", "EXIT STATUS", "SEE ALSO"]
                if name == "cdma-adapt":  # whose only example is a script within its description
                    wanted.remove("EXAMPLES")
                self.assertEqual(sections, wanted)
                self.assertLessEqual(set(re.findall(r"(?m)^[.'](\w+)", page)), MACROS)

    @unittest.skipUnless(shutil.which("mandoc"), "no mandoc: install the package mandoc")
    def test_no_word_of_help_is_lost(self) -> None:
        for name, module in tree.commands().items():
            with self.subTest(name):
                lost = words_of_help(parser_of(name, module)) - words_of(formatted(manuals.manual_of(name, module)))
                self.assertEqual(lost, Counter())

    @unittest.skipUnless(shutil.which("mandoc"), "no mandoc: install the package mandoc")
    def test_mandoc_reports_nothing(self) -> None:
        for name, module in tree.commands().items():
            with self.subTest(name):
                self.assertEqual(reported(manuals.manual_of(name, module)), "")

    def test_options_of_the_command_come_before_those_of_its_parts(self) -> None:
        for name, module in (("cdma-draw", "draw"), ("cdma-script", "script")):
            before, after = manuals.manual_of(name, module).split(".SH OPTIONS '", 1)
            self.assertIn(r"\fB\-\-version\fR", before)
            self.assertNotIn(r"\-\-version", after)

    def test_examples_have_a_section(self) -> None:
        _, examples = manuals.manual_of("cdma-listen", "listen").split(".SH EXAMPLES\n")
        self.assertIn("\nrtl_sdr \\-f 878490000 \\-s 2400000 \\- | cdma\\-listen ", examples)
        described, _ = manuals.manual_of("cdma-script", "script").split(".SH OPTIONS\n")
        self.assertIn("\ncdma\\-script check FILE        all faults of a script", described)


class Texts(unittest.TestCase):
    """Texts that would be something else to roff."""

    def parser(self) -> Parser:
        """Returns a parser of such texts."""
        parser = Parser("hostile", HOSTILE)
        group = parser.add_argument_group("'group' of -- .SH")
        group.add_argument("--option-a", metavar="A-%", help="'br of 50 %%\n.br \\n(default %(default)s)", default="~")
        made = parser.add_subparsers(metavar="PART", parser_class=PartParser)
        part = made.add_parser("part", help=".TH of 'it'")
        part.add_argument("file", metavar="FILE", help=".SS 'it'")
        return parser

    def page(self) -> str:
        """Returns its page."""
        with unittest.mock.patch("cdma_tools.packaging.manuals.parser_of", return_value=self.parser()):
            return manuals.manual_of("hostile", "hostile")

    @unittest.skipUnless(shutil.which("mandoc"), "no mandoc: install the package mandoc")
    def test_they_stay(self) -> None:
        page = self.page()
        self.assertEqual(reported(page), "")
        self.assertEqual(words_of_help(self.parser()) - words_of(formatted(page)), Counter())

    def test_lines(self) -> None:
        """Only macros begin with a full stop, no line is empty, and the value of an option is in italics."""
        page = self.page()
        self.assertLessEqual(set(re.findall(r"(?m)^[.'](\w+)", page)), MACROS)
        self.assertNotIn("\n\n", page)
        self.assertIn("\n\\fB\\-\\-option\\-a\\fR \\fI\\,A\\-%\\/\\fR\n", page)

    def test_a_version_with_another_head_is_refused(self) -> None:
        with unittest.mock.patch("build_manpages.manpage.Manpage.__str__", return_value=".TH other\n"):
            with self.assertRaisesRegex(Refused, r"^shtab or argparse-manpage has changed: .* 0 times, not 1$"):
                self.page()


if __name__ == "__main__":
    unittest.main()
