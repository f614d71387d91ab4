"""docs/PROOFS.md agrees with the tree: every name in it exists, every law is named, and clauses belong to their law.

A name is what the page puts into backticks. It has to occur in the code of a crate (outside comments), as the name of a
file or folder, or as a test. In the section of a crate it has to come from that crate or one below it.
"""

from __future__ import annotations

import functools
import glob
import os
import re
import tempfile
import unittest
from collections.abc import Iterator
from dataclasses import dataclass, field

from cdma_tools.repository.crate_list import all_below, crates_below
from tools.tests.helping import ROOT

PAGE = os.path.join(ROOT, "docs", "PROOFS.md")
CODE = (".rt", ".antt")
COMMENT = re.compile(r"(?m)^\s*(?:--|//).*$")
# Identifiers of Rust and of definitions; in the latter hyphens and primes are part of a name too.
WORD = re.compile(r"[A-Za-z_]\w*'*(?:-[A-Za-z_]\w*'*)*")
PLAIN = re.compile(r"[A-Za-z_]\w*")
SPAN = re.compile(r"`([^`]+)`")
GROUP = re.compile(r"\(((?:[^()`]|`[^`]*`)*)\)")
LAW = re.compile(r"(?ms)^pub fn (\w+)\((.*?)^\{")
CLAUSE = re.compile(r"(?m)^    ensures (\w+) \{")
TEST = re.compile(r"(?m)^ *(?:def|class) (\w+)")
# The toolchain's commands, which are not part of the tree.
OUTSIDE = re.compile(r"rt \w+")


def texts_below(folder: str, endings: tuple[str, ...]) -> Iterator[tuple[str, str]]:
    """Yields the path and the text of each file with one of these endings, without what builds leave."""
    for at, folders, names in os.walk(folder):
        folders[:] = [name for name in folders if name not in ("out", "__pycache__")]
        for name in names:
            if name.endswith(endings):
                path = os.path.join(at, name)
                with open(path, encoding="utf-8") as file:
                    yield path, file.read()


def names_in(folder: str) -> frozenset[str]:
    """The names of a crate: those in its code outside comments, and those of its files and folders."""
    found = {os.path.basename(folder)}
    for path, text in texts_below(folder, CODE):
        code = COMMENT.sub("", text)
        found.update(WORD.findall(code), PLAIN.findall(code))
        found.update(re.split(r"[/.]", os.path.relpath(path, folder)))
    return frozenset(found)


def laws_of(root: str) -> dict[str, dict[str, set[str]]]:
    """The laws of each crate that has some, each with the names of its clauses."""
    found: dict[str, dict[str, set[str]]] = {}
    for path in sorted(glob.glob(os.path.join(root, "crates", "*", "src", "laws.rt"))):
        with open(path, encoding="utf-8") as file:
            laws = {law[1]: set(CLAUSE.findall(law[2])) for law in LAW.finditer(file.read())}
        if laws:
            found[path.split(os.sep)[-3]] = laws
    return found


@dataclass(frozen=True)
class Tree:
    """The names of a checkout: those of each crate, and of cases, tests and modules outside the crates."""

    root: str
    crates: dict[str, frozenset[str]]
    others: frozenset[str]

    @staticmethod
    def of(root: str) -> Tree:
        """Reads the names of the checkout at `root`."""
        crates = {name: names_in(os.path.join(root, "crates", name)) for name in crates_below(root)}
        others = {os.path.basename(path) for path in glob.glob(os.path.join(root, "tools", "*"))}
        for path, text in texts_below(os.path.join(root, "tools", "tests"), (".py",)):
            others.update(TEST.findall(text), [os.path.basename(path)[:-3]])
        for case in glob.glob(os.path.join(root, "conformance", "cases", "*.case")):
            others.add(os.path.basename(case)[:-5])
        return Tree(root, crates, frozenset(others))

    def has_path(self, path: str) -> bool:
        """Whether a file or folder has this path, from the top, from crates/ or from a crate, its ending left out."""
        tops = ("", "crates", os.path.join("crates", "*"))
        places = [os.path.join(self.root, top, path) for top in tops]
        return any(glob.glob(place + ending) for place in places for ending in ("", *CODE, ".py"))

    def has(self, name: str, crates: set[str]) -> bool:
        """Whether one of these crates, or what is outside all crates, has a name."""
        return name in self.others or name in self.crates or any(name in self.crates[crate] for crate in crates)


@dataclass
class Section:
    """A section of the page: its heading, its lines, and the crates whose claims it lists."""

    heading: str
    crates: list[str]
    lines: list[str] = field(default_factory=list)


def sections_of(text: str, crates: set[str]) -> list[Section]:
    """The sections of the page. A heading like `### viterbi: ..` or `### a, b and c: ..` names their crates."""
    found = [Section("", [])]
    for line in text.splitlines():
        if line.startswith("#"):
            head = line.strip("# ")
            names = PLAIN.findall(head.partition(":")[0]) if ":" in head else []
            found.append(Section(head, [name for name in names if name in crates]))
        else:
            found[-1].lines.append(line)
    return found


def missing(span: str, tree: Tree, crates: set[str]) -> list[str]:
    """Returns the names in a span of code that neither these crates nor the rest of the tree have."""
    if OUTSIDE.fullmatch(span):
        return []
    if span.endswith(".."):
        return [] if any(name.startswith(span[:-2]) for name in tree.others) else [span]
    absent = []
    for part in span.split():
        if "/" in part:
            absent += [] if tree.has_path(part) else [part]
        else:
            absent += [name for name in PLAIN.findall(part) if len(name) > 1 and not tree.has(name, crates)]
    return absent


def first_cells(lines: list[str]) -> Iterator[str]:
    """Returns the first cell of each row of the tables in these lines."""
    for line in lines:
        if line.startswith("|"):
            yield line.split("|")[1]


def clauses_beside(cell: str) -> set[str]:
    """Returns the names in the round brackets of a cell."""
    return {name for group in GROUP.findall(cell) for name in SPAN.findall(group)}


@functools.cache
def tree() -> Tree:
    """Returns the checkout's names, read once."""
    return Tree.of(ROOT)


class Parts(unittest.TestCase):
    """How names are read, on a small tree."""

    def setUp(self) -> None:
        folder = tempfile.TemporaryDirectory()
        self.addCleanup(folder.cleanup)
        files = {
            "crates.txt": "low:\nhigh: low\nwide:\n",
            "crates/low/src/laws.rt": "pub fn a_law()\n    ensures one { IsOne }\n    ensures other { IsOther }\n{}\n",
            "crates/high/specs/Sums.antt": "-- only_said\nsum_of : List\nle-add x' = x'\n",
            "crates/high/out/Sums.antt": "built",
            "crates/wide/src/lib.rt": "fn wide_sum() {}\n    // half_said\n",
            "tools/tests/test_it.py": "def test_sums() -> None:\n    pass\n",
            "conformance/cases/some_case.case": "",
        }
        for path, text in files.items():
            os.makedirs(os.path.dirname(os.path.join(folder.name, path)), exist_ok=True)
            with open(os.path.join(folder.name, path), "w", encoding="utf-8") as file:
                file.write(text)
        self.tree = Tree.of(folder.name)

    def absent(self, span: str, *crates: str) -> list[str]:
        """Returns what is missing from a span, in these crates or in all."""
        return missing(span, self.tree, set(crates) or set(self.tree.crates))

    def test_names_come_from_code_files_and_tests(self) -> None:
        present = ("sum_of", "low::a_law", "high/specs/Sums", "specs/Sums", "test_it", "test_sums", "some_..", "rt ci")
        for span in present:
            self.assertEqual(self.absent(span), [], span)

    def test_names_of_comments_and_builds_are_missing(self) -> None:
        for span in ("only_said", "half_said", "built", "high/specs/Others", "other_.."):
            self.assertEqual(self.absent(span), [span])
        self.assertEqual(self.absent("sum_of (wide_part)"), ["wide_part"])

    def test_a_name_of_another_crate_is_missing(self) -> None:
        self.assertEqual(self.absent("wide_sum", "high", "low"), ["wide_sum"])
        self.assertEqual(self.absent("wide_sum", "wide"), [])

    def test_laws_and_clauses(self) -> None:
        self.assertEqual(laws_of(self.tree.root), {"low": {"a_law": {"one", "other"}}})
        self.assertEqual(clauses_beside(" **1** `a_law` (`one`; `other`), of `low`"), {"one", "other"})

    def test_sections_name_their_crates(self) -> None:
        found = sections_of("# Page\n### low and high: sums\n- `a`\n### Others\n", {"low", "high"})
        self.assertEqual([one.heading for one in found], ["", "Page", "low and high: sums", "Others"])
        self.assertEqual([one.crates for one in found], [[], [], ["low", "high"], []])
        self.assertEqual(found[2].lines, ["- `a`"])


class Page(unittest.TestCase):
    """The page as it is."""

    def setUp(self) -> None:
        with open(PAGE, encoding="utf-8") as file:
            self.text = file.read()
        self.below = crates_below(ROOT)
        self.sections = sections_of(self.text, set(self.below))

    def test_each_name_is_in_the_tree(self) -> None:
        for section in self.sections:
            crates = set(self.below)
            if section.crates:
                crates = set(section.crates).union(*(all_below(self.below, name) for name in section.crates))
            for line in section.lines:
                for span in SPAN.findall(line):
                    with self.subTest(section.heading, span=span):
                        self.assertEqual(missing(span, tree(), crates), [])

    def test_each_law_is_named(self) -> None:
        named = {name for span in SPAN.findall(self.text) for name in PLAIN.findall(span)}
        for crate, laws in laws_of(ROOT).items():
            self.assertEqual(set(laws) - named, set(), crate)

    def test_clauses_of_laws_in_tables_are_theirs(self) -> None:
        laws: dict[str, set[str]] = {}
        for own in laws_of(ROOT).values():
            for law, clauses in own.items():
                laws[law] = laws.get(law, set()) | clauses
        for section in self.sections:
            allowed: set[str] = set()
            for cell in first_cells(section.lines):
                here = [name for span in SPAN.findall(cell) for name in PLAIN.findall(span) if name in laws]
                allowed = set().union(*(laws[name] for name in here)) if here else allowed
                if allowed:
                    with self.subTest(section.heading, cell=cell):
                        self.assertLessEqual(clauses_beside(cell), allowed)


if __name__ == "__main__":
    unittest.main()
