"""The English of pages, help texts, docstrings, errors and comments: no translated prose, and no sentence too long."""

import argparse
import importlib
import os
import pkgutil
import re
import unittest
from collections.abc import Iterable, Iterator
from unittest import mock

import cdma_tools.commands
from cdma_tools.repository.crate_list import crates_below
from tools.tests.helping import ROOT, needs
from tools.tests.prose import (
    CRATE_PATTERNS,
    ERROR_PATTERNS,
    MOST_WORDS,
    PAGES,
    Allowed,
    Sentence,
    comment_sentences,
    docstring_sentences,
    error_sentences,
    faults,
    help_sentences,
    manual_sentences,
    page_sentences,
    read_place,
    sentences_in,
)

needs("numpy", "scipy", "matplotlib", "plotly", "tqdm", "distributed", "jinja2")

DOCS = os.path.join(ROOT, "docs")
MOST_WORDS_OF_PAGES = 60_000
# Folders whose docstrings and errors are checked, and this file, which has the old sentences.
FOLDERS = ("cdma", "cdma_tools", "conformance", "examples", "cdma_model", "model", "tools/tests")
THIS_FILE = os.path.relpath(__file__, ROOT)
# Sentences in which a pattern is right. A test fails for an exception that is not needed.
ALLOWED: tuple[Allowed, ...] = ()
# Sentences that read as if translated word by word, as pages and docstrings had them; none may come back.
GONE = (
    "Of a script whose reading failed nothing was",
    "Whether the checks of messages are sent complemented, a sample file tells",
    "Where it isn't good, the line has 14,400",
    "which is else 2,048",
    "needs the recording's type and rate alone",
    "just the text or the file",
    "what a run owes",
    "answers its exit status",
    "Nobody hears a file of which",
    "a page after so many body bits",
    "a kind of statement more is a variant more",
    "What a read of so many samples says",
    "Whether a path stands for something that is there and is no plain file",
    "Its frame holds the receivers once more",
    "What makes an input none",
    "That a handset sleeps, and hears",
    "70 to 80 times as fast as the air sends",
    "what all of these channels send comes back",
    "Any rule would do; a rule there must be",
    "A claim is no wider than what was seen",
    "Where no call of the operating system fails",
    "Who has no such machine has to ask",
    "Only tested: that two workers meet",
    "as a rake does, smoothed over 0.8 to 22 ms, whichever tells them best",
    "The first proves, builds and runs the program, the second",
    "a later run proves what changed alone",
    "as values that a pupil can compute",
    "Of a cell's file over one path",
    "aren't heard, and of rate set 2 the frames alone",
    "each where it says so",
    "are for who carries on",
    "begins a run anew that heard noise",
    "proves no law of theirs again",
    "which is all that there is between the bytes of a file and one line",
    'gives up with "read fault" isn\'t proved',
    "Want of memory is an ordinary answer",
    "A handset may find no memory after the search",
    "stands in the three sets no oftener than once",
    "Such a file by other commands",
    "over ones that tell nothing the rest of each holds",
    "That no flush at all follows one that failed no clause says",
    "A machine isn't the same from hour to hour",
    "Fault where not",
    "They are as many as the span says",
    "What no noise of a size can spoil",
    "are put into one another a little otherwise",
    "and however they get on",
    "Where each channel has the level that it had",
    "The first row of which something is so",
    "a line of the program is none",
    "a line that is none",
    "a place that is none",
    "begins no line",
    "names no kind of",
    "is no whole number",
    "none is heard beside it",
    "none that a listening wrote",
    "is begun anew",
    "another one takes its place",
    "no step that is told differs",
    "pass so, and",
    "is wanted here alone",
)
PAGE = """\
# A title

First sentence. Second one, e.g. with `code. And` more
on two lines.

    $ code alone

- An item. Its [second](x.md#y) sentence
- Another one

<!-- status: 1 -->

| Cell | Other. Third |
|---|---|
"""
MANUAL = """\
.\\" A comment.
.Sh NAME
.It Fl -span Ar N
search in the first
.Ar N
samples.
It ends
.Fl -here .
.Bd -literal
cdma_replay alone
.Ed
.It 0
all was read
"""
MODULE = """\
'''Tells.

A second
paragraph.'''

class One:
    '''A class.'''

    def two(self):
        '''Returns.'''
"""


COMMENTS = """\
//! What it is for.

/// The first part. The second,
/// of `a.b else`.
pub fn one()
{
    two(); // behind the mast
}
    -- A lemma.
x = 1
---- HEAD
y = "//" -1
"""


def texts(found: Iterable[Sentence]) -> list[str]:
    """Returns the texts of sentences."""
    return [it.text for it in found]


ERRORS = """\
def take(path, options, words):
    raise Refused(f"{path}: it has {len(options)} lines" + (f" after {path}" if path else ""))

words.error("--rate needed. Give it")
words.add_argument("--rate", help="samples a second", type=number)
print("not an error")
"""


class Parts(unittest.TestCase):
    """How texts are divided into sentences, and which faults are found in them."""

    def test_a_page(self) -> None:
        wanted = ["A title", "First sentence.", "Second one, e.g. with `x` more on two lines.", "An item."]
        wanted += ["Its second sentence", "Another one", "Cell", "Other.", "Third", "---", "---"]
        self.assertEqual(texts(page_sentences("p", PAGE)), wanted)
        self.assertEqual([it.line for it in page_sentences("p", PAGE)][:3], [1, 3, 3])

    def test_a_manual_page(self) -> None:
        found = texts(manual_sentences("p", MANUAL))
        self.assertEqual(found, ["search in the first `x` samples.", "It ends `x`.", "all was read"])

    def test_docstrings(self) -> None:
        found = list(docstring_sentences("p", MODULE))
        self.assertEqual(sorted(texts(found)), ["A class.", "A second paragraph.", "Returns.", "Tells."])
        self.assertEqual([it.line for it in found if it.text == "A class."], [7])

    def test_comments(self) -> None:
        found = list(comment_sentences("p", COMMENTS))
        wanted = [(1, "What it is for."), (3, "The first part."), (3, "The second, of `x`."), (7, "behind the mast")]
        self.assertEqual([(it.line, it.text) for it in found], [*wanted, (9, "A lemma."), (11, "HEAD")])

    def test_each_pattern_of_comments_is_found(self) -> None:
        for text in (
            "the first, and else the last", "the first so many", "right behind it", "for want of memory", "0 in place of 1",
            "what it tells of a page", "a bit tells what follows", "it hangs on the rate", "it is owed", "by the rate alone",
        ):  # fmt: skip
            with self.subTest(text):
                self.assertEqual(len(list(faults([Sentence("p", 1, text)], (), set(), CRATE_PATTERNS))), 1)
        for text in ("whatever else a file holds", "Nothing else allocates."):
            with self.subTest(text):
                self.assertEqual(list(faults([Sentence("p", 1, text)], (), set(), CRATE_PATTERNS)), [])

    def test_errors_and_help_texts(self) -> None:
        found = list(error_sentences("p", ERRORS))
        wanted = ["--rate needed.", "Give it", "samples a second", "after `x`", "`x`: it has `x` lines"]
        self.assertEqual(sorted(texts(found)), sorted(wanted))
        self.assertEqual({it.line for it in found}, {2, 4, 5})

    def test_each_error_pattern_is_found(self) -> None:
        for text in (
            "there is none", "a line that is none", "`x` is none of 1, 2", "no frame is heard", "nothing was told",
            "refused where it ends", "no whole number: `x`", "no list: `x`", "`x` is no number", "one cell more, anew",
        ):  # fmt: skip
            with self.subTest(text):
                self.assertTrue(list(faults([Sentence("p", 1, text)], (), set(), ERROR_PATTERNS)))

    def test_right_errors_are_not_found(self) -> None:
        for text in ("no program at `x`", "there is no cell 3", "none of them with PILOT_PN 3", "`x` is not a number"):
            with self.subTest(text):
                self.assertEqual(list(faults([Sentence("p", 1, text)], (), set(), ERROR_PATTERNS)), [])

    def test_each_pattern_is_found(self) -> None:
        for text in (
            "from 1 to 3, else 1", "after so many bits", "the frames alone are sent", "what a run owes",
            "Of a cell nothing is known.", "To a reader it is plain.", "right behind the message", "for want of memory",
            "one \N{EM DASH} two", "it is no file", "the header tells two", "it hasn't the form", "one in place of two",
            "one beside two", "begun anew", "not needed any more", "the run goes on",
        ):  # fmt: skip
            with self.subTest(text):
                self.assertEqual(len(list(faults([Sentence("p", 1, text)], (), set()))), 1)

    def test_what_is_right_is_not_found(self) -> None:
        for text in ("or else", "somebody else's", "nothing else", "let alone two", "many", "a cell of a net", "owner", "to tell two apart", "there is no file", "it is no longer so", "it hasn't come"):
            with self.subTest(text):
                self.assertEqual(list(faults([Sentence("p", 1, text)], (), set())), [])

    def test_long_sentences_are_found(self) -> None:
        for count, number in ((MOST_WORDS, 0), (MOST_WORDS + 1, 1)):
            with self.subTest(count):
                found = list(faults([Sentence("p", 1, "word " * count + "- `")], (), set()))
                self.assertEqual(len(found), number)

    def test_exceptions_hold_in_one_place(self) -> None:
        allowed, used = Allowed("p", "behind the mast", "a place"), set[Allowed]()
        sentences = [Sentence("p", 1, "It stands behind the mast."), Sentence("q", 1, "It stands behind the mast.")]
        self.assertEqual(len(list(faults(sentences, (allowed,), used))), 1)
        self.assertEqual(used, {allowed})


class Captured(Exception):
    """The parser that a command was about to use."""


def capture(parser: argparse.ArgumentParser, *_: object) -> None:
    """Raises `Captured` with a parser instead of reading arguments with it."""
    raise Captured(parser)


def parser_of(name: str) -> argparse.ArgumentParser:
    """Returns the parser of a command."""
    command = importlib.import_module(f"cdma_tools.commands.{name}")
    with mock.patch.object(argparse.ArgumentParser, "parse_args", capture):
        try:
            command.main([])
        except Captured as found:
            parser: argparse.ArgumentParser = found.args[0]
            return parser
    raise AssertionError(f"{name} reads no arguments")


def modules_below(folder: str) -> Iterator[str]:
    """Yields the modules of a folder, as paths of the checkout."""
    for path, _, names in os.walk(os.path.join(ROOT, folder)):
        for name in sorted(names):
            if name.endswith(".py"):
                yield os.path.relpath(os.path.join(path, name), ROOT)


class Style(unittest.TestCase):
    """Every text that is checked."""

    seconds = 40

    def test_sentences(self) -> None:
        used = set[Allowed]()
        for place in PAGES:
            with self.subTest(place):
                self.assertEqual(list(faults(sentences_in(place), ALLOWED, used)), [])
        for folder in FOLDERS:
            for place in modules_below(folder):
                with self.subTest(place):
                    self.assertEqual(list(faults(sentences_in(place), ALLOWED, used)), [])
                    errors = error_sentences(place, read_place(place))
                    self.assertEqual(list(faults(errors, ALLOWED, used, ERROR_PATTERNS)), [])
        for command in pkgutil.iter_modules(cdma_tools.commands.__path__):
            with self.subTest(command.name):
                found = help_sentences(command.name, parser_of(command.name))
                self.assertEqual(list(faults(found, ALLOWED, used)), [])
        self.assertEqual(set(ALLOWED) - used, set())

    def test_the_pages_together_are_short(self) -> None:
        """All pages of docs/ have at most 60,000 words, as `cat docs/*.md | wc -w` counts them."""
        words = {place: len(read_place(place).split()) for place in PAGES if re.fullmatch(r"docs/[^/]*\.md", place)}
        self.assertEqual(sorted(words), sorted(f"docs/{name}" for name in os.listdir(DOCS) if name.endswith(".md")))
        self.assertLessEqual(sum(words.values()), MOST_WORDS_OF_PAGES, words)

    def test_comments_of_crates(self) -> None:
        for crate in crates_below(ROOT):
            found: list[str] = []
            for path, _, names in sorted(os.walk(os.path.join(ROOT, "crates", crate))):
                for name in sorted(names):
                    place = os.path.relpath(os.path.join(path, name), ROOT)
                    if name.endswith((".rt", ".antt")) and "out" not in place.split(os.sep):
                        sentences = (it for it in comment_sentences(place, read_place(place)) if it.length <= MOST_WORDS)
                        found += faults(sentences, (), set(), CRATE_PATTERNS)
            with self.subTest(crate):
                self.assertEqual(found, [])

    def test_old_sentences_are_gone(self) -> None:
        """From pages, and from everything in modules."""
        for place in [*PAGES, *(place for folder in FOLDERS for place in modules_below(folder))]:
            if place == THIS_FILE:
                continue
            text = re.sub(r"[\s#]+", " ", read_place(place).replace("`", "")).casefold()
            for sentence in GONE:
                with self.subTest(place, sentence=sentence):
                    self.assertNotIn(sentence.casefold(), text)


if __name__ == "__main__":
    unittest.main()
