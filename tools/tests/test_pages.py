"""The commands of the pages are run as a reader would, in an empty folder, and their output is compared with the page.

A command is written as `    $ COMMAND` in a page, with its output below; a line of `.. and so on` stands for lines that
are left out. The folder has links to the files of a checkout, and is otherwise empty, so that each command finds only
what earlier ones of its page made. An HTML comment before a block marks it: `not run: WHY` is never run here, and `by
hand: WHY` is run if ROLVENST_PAGES=all. `needs: NAME` is run if a program or a Python package of that name is there.
`status: N` is the status of the block's last command. docs/LESSON.md, which shows all output of all of its commands,
has its own test.
"""

import importlib.util
import os
import re
import shutil
import subprocess
import unittest
from dataclasses import dataclass, field

from tools.tests import prose
from tools.tests.helping import NO_PROGRAM, PROGRAM, PYTHON, ROOT, needs, temporary_folder

needs("numpy", "scipy", "matplotlib", "plotly", "tqdm", "distributed", "jinja2")

PAGES = ("README.md", "docs/GUIDE.md", "docs/RADIO.md", "docs/CURVES.md", "docs/FORMATS.md")
LINKED = ("cdma_model", "cdma_tools", "conformance", "docs", "examples", "model", "share", "tools")
IS_WHOLE = os.environ.get("ROLVENST_PAGES") == "all"
MARK = re.compile(r"<!-- (not run|by hand|needs|status): (.+) -->")
LEFT_OUT = ".. and "
SECONDS = 900
# What the reader's radio records: `-` is standard output; otherwise the last argument is the file.
RADIO = '#!/bin/sh\nfor file; do :; done\nif [ "$file" = - ]; then cat "$AIR"; else cat "$AIR" > "$file"; fi\n'


@dataclass
class Command:
    """A command of a page: its line, the output that the page shows, its block's mark, and its status."""

    text: str
    shown: list[str] = field(default_factory=list)
    mark: tuple[str, str] | None = None
    status: int = 0

    def take(self, line: str) -> None:
        """Takes a line below the command: it continues an open quotation mark or a line that ends in a backslash,
        otherwise it is output."""
        if self.text.count('"') % 2 or self.text.endswith("\\"):
            self.text += "\n" + line
        else:
            self.shown.append(line)


def commands_of(text: str) -> list[Command]:
    """Returns the commands of a page, in order. A block without a command, such as a diagram, has none."""
    found: list[Command] = []
    mark: tuple[str, str] | None = None
    is_open = False
    for line in text.splitlines():
        told = MARK.fullmatch(line)
        if told:
            mark = (told[1], told[2])
        elif line.startswith("    $ "):
            found.append(Command(line[6:], mark=mark))
            is_open = True
        elif line.startswith("    ") and is_open:
            found[-1].take(line[4:])
        elif line and is_open:
            close_block(found, mark)
            mark, is_open = None, False
    close_block(found, mark)
    return found


def close_block(found: list[Command], mark: tuple[str, str] | None) -> None:
    """A mark of a status applies to the last command of its block."""
    if mark and mark[0] == "status" and found:
        found[-1].status = int(mark[1])


def pattern_of(shown: list[str]) -> str:
    """Returns the pattern of a command's output: each line as it is, and any lines for those that are left out."""
    return "".join(r"(?:.*\n)+" if line.startswith(LEFT_OUT) else re.escape(line) + "\n" for line in shown)


def is_there(name: str) -> bool:
    """Whether there is a program or a Python package of a name."""
    return shutil.which(name) is not None or importlib.util.find_spec(name) is not None


class Parts(unittest.TestCase):
    """How a page is read."""

    def test_a_command_of_two_lines(self) -> None:
        found = commands_of("    $ one \\\n        two\n    its output\n")
        self.assertEqual([(it.text, it.shown) for it in found], [("one \\\n    two", ["its output"])])

    def test_commands_and_marks(self) -> None:
        page = (
            "text\n\n    $ one \"a\n    b\"\n    said\n    .. and more\n\n<!-- by hand: long -->\n\n    $ two\n\n"
            "text\n\n    figure\n\n<!-- status: 1 -->\n\n    $ three\n    $ four\n\nend\n\n    $ five\n"
        )
        found = [(one.text, one.shown, one.mark and one.mark[0], one.status) for one in commands_of(page)]
        wanted = [
            ('one "a\nb"', ["said", ".. and more"], None, 0),
            ("two", [], "by hand", 0),
            ("three", [], "status", 0),
            ("four", [], "status", 1),
            ("five", [], None, 0),
        ]
        self.assertEqual(found, wanted)

    def test_what_is_needed(self) -> None:
        (command,) = commands_of("text\n\n<!-- needs: numpy -->\n\n    $ one\n")
        self.assertEqual(command.mark, ("needs", "numpy"))
        self.assertEqual([is_there(name) for name in ("numpy", "bash", "no_such_thing")], [True, True, False])

    def test_lines_that_are_left_out(self) -> None:
        pattern = pattern_of(["a+b", ".. and one more"])
        self.assertRegex("a+b\nc\nd\n", rf"\A{pattern}\Z")
        self.assertNotRegex("aab\nc\n", rf"\A{pattern}\Z")
        self.assertNotRegex("a+b\n", rf"\A{pattern}\Z")


@unittest.skipUnless(PROGRAM, NO_PROGRAM)
class Pages(unittest.TestCase):
    """Each page in a separate folder."""

    parted, seconds = True, 50

    def setUp(self) -> None:
        self.folder = temporary_folder(self.addCleanup)
        self.bin = temporary_folder(self.addCleanup)
        for name in LINKED:
            os.symlink(os.path.join(ROOT, name), os.path.join(self.folder, name))
        os.symlink(os.path.abspath(str(PROGRAM)), os.path.join(self.bin, "cdma_replay"))
        radio = os.path.join(self.bin, "rtl_sdr")
        with open(radio, "w", encoding="ascii") as file:
            file.write(RADIO)
        os.chmod(radio, 0o755)
        self.environment = dict(
            os.environ,
            PATH=f"{self.bin}:{os.environ['PATH']}",
            PYTHONDONTWRITEBYTECODE="1",
            AIR=os.path.join(self.bin, "air.cu8"),
        )
        self.environment.pop("CDMA_REPLAY")

    def ran(self, command: str) -> subprocess.CompletedProcess[str]:
        """Runs a command, with both output streams as a terminal shows them."""
        return subprocess.run(
            ["bash", "-c", command], cwd=self.folder, env=self.environment, stdin=subprocess.DEVNULL,
            stdout=subprocess.PIPE, stderr=subprocess.STDOUT, text=True, timeout=SECONDS,
        )  # fmt: skip

    def record_the_air(self) -> None:
        """Writes what the stand-in for a radio receives: a second of a cell."""
        script = os.path.join(ROOT, "examples", "second_of_paging.script")
        made = self.ran(
            f"cdma_replay make < {script} > {self.bin}/air.is95 && {PYTHON} -B tools/channel --type cu8 "
            f"--carrier 2000 --clock 5 --ec-io -9 {self.bin}/air.is95 {self.bin}/air.cu8"
        )
        self.assertEqual(made.returncode, 0, made.stdout)

    def expect_page(self, page: str) -> None:
        """Runs a page's commands, and checks that each ends as the page says and writes what it shows."""
        with open(os.path.join(ROOT, page), encoding="utf-8") as file:
            commands = commands_of(file.read())
        self.assertTrue(commands)
        if any(one.text.startswith("rtl_sdr") for one in commands):
            self.record_the_air()
        for one in commands:
            if one.mark and (one.mark[0] == "not run" or one.mark[0] == "by hand" and not IS_WHOLE):
                continue
            with self.subTest(one.text):
                if one.mark and one.mark[0] == "needs" and not is_there(one.mark[1]):
                    self.skipTest(f"no {one.mark[1]}: install its package")
                ended = self.ran(one.text)
                self.assertEqual(ended.returncode, one.status, ended.stdout)
                if one.shown:
                    self.assertRegex(ended.stdout, rf"\A{pattern_of(one.shown)}\Z")

    def test_the_readme(self) -> None:
        self.expect_page("README.md")

    def test_the_guide(self) -> None:
        self.expect_page("docs/GUIDE.md")

    def test_the_page_on_recordings(self) -> None:
        self.expect_page("docs/RADIO.md")

    def test_the_page_on_curves(self) -> None:
        self.expect_page("docs/CURVES.md")

    def test_the_page_on_formats(self) -> None:
        self.expect_page("docs/FORMATS.md")


class Readme(unittest.TestCase):
    """What the first page promises about itself."""

    def test_its_length(self) -> None:
        with open(os.path.join(ROOT, "README.md"), encoding="utf-8") as file:
            self.assertLessEqual(len(file.readlines()), 120)

    def test_links_name_files_and_headings_that_are_there(self) -> None:
        for page in (name for name in prose.PAGES if name.endswith(".md")):
            with open(os.path.join(ROOT, page), encoding="utf-8") as file:
                found = re.findall(r"\]\((?!http)([^)#]*)(?:#([^)]*))?\)", file.read())
            for name, heading in found:
                with self.subTest(page=page, name=name, heading=heading):
                    path = os.path.join(ROOT, os.path.dirname(page), name) if name else os.path.join(ROOT, page)
                    self.assertTrue(os.path.exists(path))
                    if heading:
                        self.assertIn(heading, headings_of(path))


def headings_of(path: str) -> list[str]:
    """Returns the anchors of a page's headings: lower case, hyphens for spaces, and no other punctuation."""
    with open(path, encoding="utf-8") as file:
        titles = re.findall(r"(?m)^#+ (.*)$", file.read())
    return [re.sub(r"[^\w -]", "", title.lower()).replace(" ", "-") for title in titles]
