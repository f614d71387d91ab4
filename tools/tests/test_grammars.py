"""The grammars of share/: they match every script and every line of the examples and the cases, and no faulty one."""

import json
import os
import re
import unittest
from collections.abc import Iterator
from typing import Any

from tools.tests.helping import EXAMPLES, ROOT, needs

needs("numpy")

from cdma_tools.conformance.cases import CASES, Case, names_of_cases  # noqa: E402
from cdma_tools.lines import SHAPES, NoLine, read_line  # noqa: E402
from cdma_tools.packaging import tree  # noqa: E402
from cdma_tools.scripting.checking import check  # noqa: E402
from tools.tests.test_refused_scripts import LINES  # noqa: E402

Scoped = list[tuple[str, str]]
FIELD = "variable.parameter.is95"
SLIPS = (
    "cell  pn=511 time=1000 lc=20000000000 checks=0",
    "cell pn=511 time=1000 lc=20000000000 checks=0\r",
    "cell pn=511.0 time=1000 lc=20000000000 checks=0",
    "cell time=1000 pn=511 lc=20000000000 checks=0",
    "cell pn=511 time=1000 lc=2000000000 checks=0",
    "link re=-0 im=1 start=0 samples=64",
    "pilot gain=01",
    "# a comment",
    "page half 34:04ff8046c",
    "frame 1200 16:ffff 010101010101010",
)
NO_LINES = ("pilot", "pilot phase=1  energy=2", "paging at=1 neighbours pn=1", "raw at=1 sync 8:a", "bad words")


def grammar_of(name: str) -> dict[str, Any]:
    """Returns a grammar."""
    with open(os.path.join(ROOT, "share", "cdma-replay", f"is95-{name}.tmLanguage.json"), encoding="ascii") as file:
        return dict(json.load(file))


def tokens(patterns: list[dict[str, Any]], text: str) -> Iterator[tuple[str, str]]:
    """Yields the texts that have a scope, as an editor finds them: the leftmost match, and the first of its equals."""
    place = 0
    while place < len(text):
        matches = [(re.compile(one["match"]).search(text, place), one) for one in patterns]
        found = [(match.start(), rank) for rank, (match, _) in enumerate(matches) if match and match.end() > place]
        if not found:
            return
        match, rule = matches[min(found)[1]]
        assert match
        if "name" in rule:
            yield match[0], rule["name"]
        for number, capture in rule.get("captures", {}).items():
            part = match[int(number)] or ""
            if "name" in capture and part:
                yield part, capture["name"]
            yield from tokens(capture.get("patterns", []), part)
        place = match.end()


def scoped(name: str, line: str) -> Scoped:
    """Returns what a grammar finds in a line."""
    return list(tokens(grammar_of(name)["patterns"], line))


class Grammars(unittest.TestCase):
    """What an editor colours."""

    def expect_right(self, name: str, line: str) -> None:
        """Expects each character of a line but its blanks to have a scope, and none to be invalid."""
        found = scoped(name, line)
        self.assertEqual("".join(text for text, _ in found), line.replace(" ", ""))
        self.assertFalse([scope for _, scope in found if scope.startswith("invalid")], line)

    def expect_wrong(self, name: str, line: str) -> None:
        """Expects a whole line to be invalid."""
        self.assertEqual(scoped(name, line), [(line, "invalid.illegal.is95")])

    def test_examples(self) -> None:
        names = [name for name in os.listdir(EXAMPLES) if name.endswith(".script")]
        self.assertGreater(len(names), 5)
        for name in names:
            with open(os.path.join(EXAMPLES, name), encoding="ascii") as file:
                for line in set(file.read().splitlines()):
                    self.expect_right("script", line)

    def test_statements_of_the_tests_of_refused_scripts(self) -> None:
        for line in LINES.values():
            self.expect_right("script", line)

    def test_cases(self) -> None:
        """Scripts without a fault, and all lines that the program has to write."""
        scripts, lines = set(), set()
        for name in names_of_cases():
            case = Case(name)
            for script in case.scripts:
                if not check("".join(f"{line}\n" for line in script).encode(), case.bits or 16):
                    scripts.update(script)
            lines.update(case.text or [])
        self.assertGreater(min(len(scripts), len(lines)), 1_000, CASES)
        for line in scripts:
            self.expect_right("script", line)
        for line in lines:
            self.expect_right("lines", line)
            read_line(line)

    def test_each_kind_of_line_has_its_words_and_fields(self) -> None:
        for shape in SHAPES:
            fields = [field.name for field in shape.fields() if field.name]
            text = shape.line + (" at=1" if shape.word else "") + (f" {shape.word}" if shape.word else "")
            text += " 8:00" if shape.line == "raw" else "".join(f" {name}=0" for name in fields)
            self.expect_right("lines", text)
            found = scoped("lines", text)
            self.assertEqual(found[0], (shape.line, "keyword.control.line.is95"))
            if shape.word:
                self.assertIn((shape.word, "storage.type.is95"), found)
            if shape.line != "raw":
                self.assertLessEqual(set(fields), {name for name, scope in found if scope == FIELD})

    def test_slips_are_invalid(self) -> None:
        for line in SLIPS:
            self.expect_wrong("script", line)
        for line in NO_LINES:
            self.expect_wrong("lines", line)
            with self.assertRaises(NoLine):
                read_line(line)

    def test_they_are_installed(self) -> None:
        places = {entry.place for entry in tree.shared_files()}
        for name in ("script", "lines"):
            self.assertIn(f"share/cdma-replay/is95-{name}.tmLanguage.json", places)


if __name__ == "__main__":
    unittest.main()
