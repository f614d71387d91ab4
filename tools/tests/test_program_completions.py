"""What bash and zsh complete for cdma_replay, and what they say if nothing can be completed."""

from __future__ import annotations

import shutil
import unittest

from tools.tests.helping import needs
from tools.tests.shells import AtATerminal, offered_by_bash

needs("numpy")

from cdma_model.words import COMMANDS  # noqa: E402
from cdma_tools.packaging import program_completions  # noqa: E402
from cdma_tools.program import NAME  # noqa: E402


@unittest.skipUnless(shutil.which("zsh"), "no zsh: install the package zsh")
class OfZsh(AtATerminal):
    """What zsh completes."""

    def test_lines(self) -> None:
        """A wrong argument isn't completed; the reason is shown below the line."""
        self.write("_cdma_replay", program_completions.zsh_completion())
        for line, told in (
            ("cdma_replay fi", "cdma_replay find"),
            ("cdma_replay survey --wi", "cdma_replay survey --width"),
            ("cdma_replay make --bits=1", "cdma_replay make --bits=16"),
            ("cdma_replay find --esn 1 --sp", "cdma_replay find --esn 1 --sp"),
            ("cdma_replay fund --sp", "cdma_replay fund --sp"),
        ):
            with self.subTest(line):
                self.assertEqual(self.typed_into_zsh(line).rstrip("= "), told)


class OfBash(unittest.TestCase):
    """What bash completes, and what it says if nothing can be completed."""

    def completed(self, *words: str) -> tuple[list[str], str]:
        """Returns what the Tab key offers for the last word, and what is said."""
        return offered_by_bash(program_completions.bash_completion(), NAME, *words)

    def test_what_is_offered(self) -> None:
        for words, offered in (
            (["f"], ["find", "follow"]),
            (["list", "--"], ["--span", "--workers", "--fingers", "--esn", "--row", "--offset", "--k"]),
            (["list", "--esn", "00c0ffee", "--row", "=", "10", "--o"], ["--offset"]),
            (["find", "--span", "64", "--s"], []),
            (["make", "--bits", ""], ["8", "16"]),
            (["follow", "--paging", "=", ""], list("1234567")),
            (["follow", "--fingers", "="], list("123")),
        ):
            with self.subTest(words):
                self.assertEqual(self.completed(*words), (offered, ""))

    def test_what_is_said(self) -> None:
        for words, said in (
            (["fund", "--"], "fund is not a command: find follow rate2 list idle survey make trial"),
            (["find", "--esn", "00c0ffee", "--"], "find has no --esn: --span --workers"),
            (["find", "--span", ""], "--span: 64 to 32,768"),
            (["idle", "--key", "="], "--key: eight hex digits"),
        ):
            with self.subTest(words):
                self.assertEqual(self.completed(*words), ([], said))

    def test_each_option_is_offered_where_the_program_takes_it(self) -> None:
        """The table of the completions is held to the model's, which reads arguments as the program does."""
        self.assertEqual(self.completed("")[0], list(COMMANDS))
        for command, options in COMMANDS.items():
            self.assertEqual(self.completed(command, "--")[0], [f"--{name}" for name in options])


if __name__ == "__main__":
    unittest.main()
