"""What bash and zsh complete for the tools, by shtab."""

from __future__ import annotations

import shutil
import unittest
import unittest.mock

from tools.tests.helping import needs
from tools.tests.shells import AtATerminal, offered_by_bash

needs("numpy", "scipy", "shtab")

import shtab  # noqa: E402

from cdma_tools.errors import Refused  # noqa: E402
from cdma_tools.packaging import completions, tree  # noqa: E402
from cdma_tools.packaging.parsers import parser_of  # noqa: E402

# Lines and the Tab key, with what both shells make of them.
LINES = (
    ("cdma-scan --conjugate t", "cdma-scan --conjugate try"),  # neither the first choice, nor one of a list
    ("cdma-scan --conjugate=t", "cdma-scan --conjugate=try"),
    ("cdma-lines --csv paging-n", "cdma-lines --csv paging-neighbors"),
    ("cdma-script check --bits=1", "cdma-script check --bits=16"),
    ("cdma-draw survey --ti", "cdma-draw survey --title"),
    ("cdma-draw follow --to", "cdma-draw follow --to"),  # an option of another part
    ("cdma-curve --path 7:1 --pa", "cdma-curve --path 7:1 --path"),
    ("cdma-draw surv", "cdma-draw survey"),
    ("cdma-script ch", "cdma-script check"),
    ("cdma-scan --program alp", "cdma-scan --program alpha.is95"),
    ("cdma-scan --program=alp", "cdma-scan --program=alpha.is95"),
    ("cdma-channel alp", "cdma-channel alpha.is95"),
    ("cdma-channel a b alp", "cdma-channel a b alpha.is95"),
    ("cdma-channel a b c d alp", "cdma-channel a b c d alpha.is95"),
    ("cdma-draw survey a alp", "cdma-draw survey a alpha.is95"),
    ("cdma-script check alp", "cdma-script check alpha.is95"),
    ("cdma-margin a follow alp", "cdma-margin a follow alpha.is95"),
    ("cdma-report my", r"cdma-report my\ file"),
)


@unittest.skipUnless(shutil.which("zsh"), "no zsh: install the package zsh")
class OfZsh(AtATerminal):
    """What zsh completes."""

    def setUp(self) -> None:
        super().setUp()
        for name, module in tree.commands().items():
            self.write(f"_{name}", completions.zsh_completion_of(name, module))

    def test_each_command(self) -> None:
        for name in tree.commands():
            with self.subTest(name):
                self.assertEqual(self.typed_into_zsh(f"{name} --vers"), f"{name} --version")

    def test_lines(self) -> None:
        for line, told in (*LINES, ("cdma-scan --all --al", "cdma-scan --all --al")):
            with self.subTest(line):
                self.assertEqual(self.typed_into_zsh(line), told)

    def test_a_number_is_not_the_name_of_a_file(self) -> None:
        self.assertEqual(self.typed_into_zsh("cdma-scan --rate alp"), "cdma-scan --rate alp")

    def test_parts_are_described(self) -> None:
        made = completions.zsh_completion_of("cdma-draw", "draw")
        self.assertIn('\n    "survey:the strengths of pilots, as bars"\n', made)

    def test_nothing_stays_in_the_shell_but_functions(self) -> None:
        told = self.typed_into_zsh("cdma-draw surv", "\x15print -r -- TOL''D ${(k)parameters[(I)*cdma_*]} .\n")
        self.assertEqual(told, ".")


class OfBashAtATerminal(AtATerminal):
    """What bash completes with readline, which adds names of files."""

    def completed(self, line: str, then: str = "\x01echo TOL''D '\x05'\n") -> str:
        """Returns the line after the Tab key; `then` are the keys by which bash prints it."""
        name = line.partition(" ")[0]
        self.write("completion", completions.completion_of(name, tree.commands()[name]))
        start = "PS1=; bind 'set enable-bracketed-paste off'; source ./completion; rm completion"
        return self.typed(["bash", "--norc", "--noprofile", "-i"], start, f"{line}\t{then}").rstrip()

    def test_lines(self) -> None:
        for line, told in LINES:
            with self.subTest(line):
                self.assertEqual(self.completed(line), told)

    def test_nothing_stays_in_the_shell_but_one_function(self) -> None:
        told = self.completed(
            "cdma-draw surv", "\x15echo TOL''D $(compgen -v | grep -v '^[A-Z_0-9]*$') $(compgen -A function)\n"
        )
        self.assertEqual(told, "_cdma_draw")


class OfBash(unittest.TestCase):
    """What bash offers for a command, without the names of files, which are those of readline."""

    def test_the_tools(self) -> None:
        """Options, choices and parts; nothing for a word of another kind, so that readline completes it."""
        for name, words, offered in (
            ("cdma-scan", ["--conjugate", ""], ["yes", "no", "try"]),
            ("cdma-scan", ["--conjugate", "="], ["yes", "no", "try"]),
            ("cdma-scan", ["--conjugate", "=", "n"], ["no"]),
            ("cdma-scan", ["--conj"], ["--conjugate"]),
            ("cdma-scan", ["a", "--channel", "=", "1", "--band", ""], ["800", "1900"]),
            ("cdma-draw", ["survey", "--ti"], ["--title"]),
            ("cdma-draw", ["surv"], ["survey"]),
            ("cdma-draw", ["survey", "surv"], []),
            ("cdma-draw", ["--ti"], []),
            ("cdma-script", [""], ["check", "show", "new", "words"]),
            ("cdma-scan", ["radio"], []),
            ("cdma-channel", ["a", "b", "c"], []),
        ):
            with self.subTest(name=name, words=words):
                made = completions.completion_of(name, tree.commands()[name])
                self.assertEqual(offered_by_bash(made, name, *words), (offered, ""))


class OfAnotherVersion(unittest.TestCase):
    """A version of shtab that writes something else is refused."""

    def test_each_text_that_is_mended(self) -> None:
        for shell, make, told in (
            ("bash", completions.completion_of, "local IFS=$'\\n'"),
            ("bash", completions.completion_of, '_choices"\n'),
            ("bash", completions.completion_of, "complete -o filenames"),
            ("zsh", completions.zsh_completion_of, "(*)"),
            ("zsh", completions.zsh_completion_of, "_options=("),
            ("zsh", completions.zsh_completion_of, ">cdma-channel"),
        ):
            written = shtab.complete(completions.prepared(parser_of("cdma-channel", "channel"), shell), shell)
            self.assertIn(told, written)
            with self.subTest(told), unittest.mock.patch("shtab.complete", return_value=written.replace(told, "")):
                with self.assertRaisesRegex(Refused, "^shtab or argparse-manpage has changed: .* times, not "):
                    make("cdma-channel", "channel")


if __name__ == "__main__":
    unittest.main()
