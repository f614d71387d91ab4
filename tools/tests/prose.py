"""The sentences of pages, help texts, docstrings, errors and comments of crates, and the patterns they may not have.

`python3 -m tools.tests.prose [PAGE ..]` prints the ten longest sentences of each page, with their lengths in words.
"""

import argparse
import ast
import inspect
import os
import re
import sys
from collections.abc import Iterable, Iterator
from dataclasses import dataclass

from tools.tests.helping import ROOT

MOST_WORDS = 45
SHOWN = 10
PAGES = (
    "README.md",
    "CONTRIBUTING.md",
    "CHANGELOG.md",
    "conformance/README.md",
    "docs/ARCHITECTURE.md",
    "docs/CURVES.md",
    "docs/DECISIONS.md",
    "docs/FORMATS.md",
    "docs/GLOSSARY.md",
    "docs/GUIDE.md",
    "docs/LESSON.md",
    "docs/LIBRARY.md",
    "docs/LINK.md",
    "docs/PERFORMANCE.md",
    "docs/PROOFS.md",
    "docs/PROVING.md",
    "docs/RADIO.md",
    "docs/VERSIONS.md",
    "docs/cdma_replay.1",
)
# Words before "else" with which it does not stand for "otherwise" or for a default.
BEFORE_ELSE = (
    "or", "anything", "everything", "nothing", "something", "anyone", "everyone", "nobody", "somebody", "what", "who",
    "anywhere", "everywhere", "nowhere", "somewhere",
)  # fmt: skip
CODE = "`x`"  # replaces code in a sentence
SENTENCE_ENDS = re.compile(r"(?<=[.!?])(?<!e\.g\.)(?<!i\.e\.)[\"')]*\s+(?=[\"'(`A-Z0-9]|--)")
STATUS_ENDS = re.compile(r"(?<=[,;]) (?=\d+ )")  # a list of statuses is not a sentence


@dataclass(frozen=True)
class Sentence:
    """A sentence, with the file of the checkout and the line in which it begins."""

    place: str
    line: int
    text: str

    @property
    def length(self) -> int:
        """Returns its number of words; a piece of code counts as one."""
        return sum(1 for word in self.text.split() if re.search(r"\w", word))


@dataclass(frozen=True)
class Pattern:
    """Words that no sentence may have, and what to write instead."""

    found: re.Pattern[str]
    instead: str


@dataclass(frozen=True)
class Allowed:
    """A text in one place where a pattern is right, and why."""

    place: str
    text: str
    why: str


def pattern(text: str, instead: str) -> Pattern:
    """Returns a pattern by the text of its regular expression."""
    return Pattern(re.compile(text), instead)


PATTERNS = (
    pattern("".join(rf"(?<!\b{word} )" for word in BEFORE_ELSE) + r"\b[Ee]lse\b", "'default N' or 'otherwise'"),
    pattern(r"\b[Ss]o many\b", "the parameter's name, or 'n'"),
    pattern(r"(?<!let )(?<!stand )(?<!stands )\b[Aa]lone\b", "'only' before the words that it limits"),
    pattern(r"\b[Oo]we[ds]?\b", "'required', 'must write', 'expected'"),
    pattern(r"^[Oo]f (?:an?|each|every|some|any) ", "subject, verb, object"),
    pattern(r"^[Tt]o an? ", "subject, verb, object"),
    pattern(r"\b[Bb]ehind\b", "'after'"),
    pattern(r"\b[Ww]ant of\b", "'out of memory', 'lack of'"),
    pattern(r"(?<![Tt]here )\b(?:is|are|was|were) no (?!longer\b|more\b|greater\b|less\b|later\b)[a-z]", "'is not a'"),
    pattern(r"\b[Tt]ells?\b(?!.{1,40}\bapart\b)", "'says', 'gives', 'reports'"),
    pattern(r"\b(?:hasn't|have not|has not) (?:the|an?|any|just|enough)\b", "'has no', 'does not have'"),
    pattern(r"\b[Ii]n place of\b", "'instead of'"),
    pattern(r"\b[Bb]eside\b", "'next to', 'with', 'while .. ran'"),
    pattern(r"\b[Aa]new\b|\b[Oo]nce more\b", "'again', 'another'"),
    pattern(r"\b(?:not|n't) .*\bany more\b", "'no longer'"),
    pattern(r"\b(?:goes|go|went) on\b(?! the air)", "'continues'"),
    pattern("\N{EM DASH}", "a comma, a colon or two sentences"),
)
# Words that are right in a page or a docstring, but not in an error, which says what is wrong.
ERROR_PATTERNS = (
    *PATTERNS,
    pattern(r"\bthere (?:is|are) none\b", "what is missing"),
    pattern(r"\b(?:is|are) (?:none|nothing)\b", "'is not a', 'is invalid'"),
    pattern(r"\bnone of (?!them\b|these\b)", "'not one of'"),
    pattern(r"\b[Hh]ears?\b|\bheard\b", "'receives', 'decodes'"),
    pattern(r"\btold\b", "'given', 'reported'"),
    pattern(r"\b[Ww]here (?:it|an?|the|there|no|one|each|nothing|something)\b", "'if'"),
    pattern(r"^no (?:whole |plain )?(?:number|file|list|object|text|JSON|script)(?=[:,]|$| of\b| with\b)", "'not a'"),
)
# Words that no comment of a crate may have: those that read most as if translated.
CRATE_PATTERNS = (
    pattern("".join(rf"(?<!\b(?i:{it}) )" for it in (*BEFORE_ELSE, "whatever")) + r"\b[Ee]lse\b", "'otherwise'"),
    pattern(r"\b[Ss]o many\b", "the parameter's name, or 'n'"),
    pattern(r"\b[Bb]ehind\b", "'after'"),
    pattern(r"\b[Ww]ant of\b", "'out of memory', 'lack of'"),
    pattern(r"\b[Ii]n place of\b", "'instead of', 'replaces'"),
    pattern(r"\b[Tt]ells? (?:of|what)\b", "'says', 'returns', 'determines', or the event"),
    pattern(r"\b[Hh]angs? on\b", "'depends on'"),
    pattern(r"\bit is owed\b", "'the required output'"),
    pattern(r"\bthe rate alone\b", "'only the rate'"),
)
# Functions and exceptions whose strings a user reads: errors and remarks.
ERRORS = (
    "Refused", "WrongArguments", "ArgumentTypeError", "Error", "Failed", "Missing", "NoFrame", "NoLine", "NoList",
    "NoProgramError", "NoRecipe", "NoStep", "ParameterError", "Remark", "Skipped", "Stopped", "SystemExit", "Told",
    "Wrong", "error", "refuse", "say", "wrong",
)  # fmt: skip


def sentences_of_block(place: str, line: int, text: str) -> Iterator[Sentence]:
    """Yields the sentences of one paragraph, item or cell, all placed at its first line."""
    text = re.sub(r"`[^`]+`", CODE, " ".join(text.split()))
    text = re.sub(r"\[([^\]]*)\]\([^)]*\)", r"\1", text).replace("**", "")
    ends = STATUS_ENDS if text.startswith("Exit status:") else SENTENCE_ENDS
    for part in ends.split(text):
        if part.strip():
            yield Sentence(place, line, part.strip())


def page_sentences(place: str, text: str, code: str = "    ") -> Iterator[Sentence]:
    """Yields the sentences of a page in Markdown, without HTML comments and lines that begin with `code`."""
    block: list[str] = []
    first = 0
    for number, line in enumerate([*text.splitlines(), ""], 1):
        is_code = line.startswith(code) and not block
        is_apart = not line.strip() or re.match(r"<!--|\||#|\s*(?:[-*]|\d+\.) ", line) is not None
        if (is_apart or is_code) and block:
            yield from sentences_of_block(place, first, " ".join(block))
            block = []
        if is_code or not line.strip() or line.startswith("<!--"):
            continue
        if line.startswith("|"):
            for cell in re.split(r"(?<!\\)\|", line.strip("| ")):
                yield from sentences_of_block(place, number, cell)
        elif line.startswith("#"):
            yield from sentences_of_block(place, number, line.lstrip("# "))
        else:
            first = first if block else number
            block.append(re.sub(r"^\s*(?:[-*]|\d+\.) ", "", line))


def manual_sentences(place: str, text: str) -> Iterator[Sentence]:
    """Yields the sentences of a page in mdoc, without what it shows literally, between Bd and Ed.

    The words of a macro are code, but for punctuation at its end, which belongs to the sentence.
    """
    block: list[str] = []
    first, is_left_out = 0, False
    for number, line in enumerate([*text.splitlines(), ".Pp"], 1):
        name = line.split(" ")[0]
        if name in (".Pp", ".Sh", ".Ss", ".It", ".Bl", ".El", ".Bd", ".Ed", ".Op"):
            yield from sentences_of_block(place, first, " ".join(block))
            block = []
            is_left_out = name == ".Bd"
        elif not is_left_out and not line.startswith('.\\"') and name not in (".Dd", ".Dt", ".Os"):
            first = first if block else number
            ends = re.search(r" ([.,;:)])$", line)
            block.append(CODE + (ends[1] if ends else "") if line.startswith(".") else line)
    yield from sentences_of_block(place, first, " ".join(block))


def docstring_sentences(place: str, text: str) -> Iterator[Sentence]:
    """Yields the sentences of all docstrings of a module."""
    module = ast.parse(text)
    for node in ast.walk(module):
        if isinstance(node, (ast.Module, ast.ClassDef, ast.FunctionDef, ast.AsyncFunctionDef)):
            told = ast.get_docstring(node, clean=True)
            if told:
                line = node.body[0].lineno - 1
                for it in page_sentences(place, told):
                    yield Sentence(place, line + it.line, it.text)


def texts_in(node: ast.AST) -> Iterator[str]:
    """Yields the strings in an expression, with code instead of the values in them."""
    if isinstance(node, ast.JoinedStr):
        yield "".join(str(part.value) if isinstance(part, ast.Constant) else CODE for part in node.values)
    elif isinstance(node, ast.Constant) and isinstance(node.value, str):
        yield node.value
    else:
        for part in ast.iter_child_nodes(node):
            yield from texts_in(part)


def error_sentences(place: str, text: str) -> Iterator[Sentence]:
    """Yields the sentences of a module's errors, remarks and help texts: the strings given to ERRORS and to `help=`."""
    for node in ast.walk(ast.parse(text)):
        if not isinstance(node, ast.Call):
            continue
        name = node.func.attr if isinstance(node.func, ast.Attribute) else getattr(node.func, "id", "")
        named = [it.value for it in node.keywords if name in ERRORS or it.arg == "help"]
        for part in [*(node.args if name in ERRORS else []), *named]:
            for found in texts_in(part):
                yield from sentences_of_block(place, node.lineno, found)


def comment_sentences(place: str, text: str) -> Iterator[Sentence]:
    """Yields the sentences of the comments of a crate's file, those after code on its line too."""
    block: list[str] = []
    first = 0
    for number, line in enumerate([*text.splitlines(), ""], 1):
        found = re.match(r"\s*(?://[/!]?|--+)( .*|$)", line)
        if found and found[1].strip():
            first = first if block else number
            block.append(found[1].strip())
            continue
        yield from sentences_of_block(place, first, " ".join(block))
        block = []
        after = re.search(r"\S\s+(?://|--) (\S.*)", line)
        if after:
            yield from sentences_of_block(place, number, after[1])


def help_sentences(place: str, parser: argparse.ArgumentParser) -> Iterator[Sentence]:
    """Yields the sentences of a command line's help: the description, the epilog, and the help of each argument."""
    yield from page_sentences(place, inspect.cleandoc(parser.description or "") + "\n\n" + (parser.epilog or ""))
    for action in parser._actions:
        if action.help and action.help != argparse.SUPPRESS:
            yield from sentences_of_block(f"{place} {'/'.join(action.option_strings) or action.dest}", 0, action.help)
        if isinstance(action, argparse._SubParsersAction):
            for name, part in action.choices.items():
                yield from help_sentences(f"{place} {name}", part)


def read_place(place: str) -> str:
    """Returns the text of a file of this checkout."""
    with open(os.path.join(ROOT, place), encoding="utf-8") as file:
        return file.read()


def sentences_in(place: str) -> list[Sentence]:
    """Returns the sentences of a file of this checkout: a page, a manual page, or a module with its docstrings."""
    text = read_place(place)
    if place.endswith(".md"):
        return list(page_sentences(place, text))
    return list(manual_sentences(place, text) if place.endswith(".1") else docstring_sentences(place, text))


def faults(
    found: Iterable[Sentence], allowed: Iterable[Allowed], used: set[Allowed], patterns: Iterable[Pattern] = PATTERNS
) -> Iterator[str]:
    """Yields a line for each fault of these sentences; the exceptions that apply are added to `used`."""
    for sentence in found:
        if sentence.length > MOST_WORDS:
            yield f"{sentence.place}:{sentence.line}: {sentence.length} words: {sentence.text}"
        for it in patterns:
            if not it.found.search(sentence.text):
                continue
            right = [one for one in allowed if one.place == sentence.place and one.text in sentence.text]
            used.update(right)
            if not right:
                yield f"{sentence.place}:{sentence.line}: write {it.instead}: {sentence.text}"


def longest(place: str) -> list[Sentence]:
    """Returns the longest sentences of a page, the longest first."""
    return sorted(sentences_in(place), key=lambda it: -it.length)[:SHOWN]


def main() -> None:
    """Prints the longest sentences of the pages that are named, by default of all pages."""
    for place in sys.argv[1:] or PAGES:
        for it in longest(place):
            print(f"{place}:{it.line}: {it.length}: {it.text}")


if __name__ == "__main__":
    main()
