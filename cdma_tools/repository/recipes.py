"""Which files one more part of a kind touches, as docs/PROVING.md lists them: an event, a command, a rate and so on.

They are the files that name an existing part of that kind, so that the list is counted and not remembered.
`python3 -m cdma_tools.repository.recipes` writes the lists; with --write it puts each into docs/PROVING.md, after the
line `<!-- files: KIND -->`.
"""

from __future__ import annotations

import os
import re
import sys
from collections.abc import Iterator, Mapping
from dataclasses import dataclass

from cdma_tools.places import TOP

# The folders of a crate that are counted, what isn't (worked values and tests), and what only passes names on.
FOLDERS = ("src", "specs", "proofs")
NOT_COUNTED = re.compile(r"_tests/|/(\w*tests|test_runs|testing)\.rt$|/\w*Worked\w*\.antt$")
PASSES_ON = re.compile(r"/(Common|Lib)\.antt$")
# The line before each list of the page.
MARK = re.compile(r"(?m)^<!-- files: (.+) -->\n(?:(?!\n).*\n)*")


class NoRecipe(Exception):
    """Why there is no list for a kind, in words."""


@dataclass(frozen=True)
class Word:
    """A name that a file has, dots in it too."""

    name: str

    def __str__(self) -> str:
        return self.name

    def is_in(self, text: str) -> bool:
        """Whether a file of this text names it; a law or a goal of it has its name before a hyphen."""
        return self.name in text and re.search(rf"(?<![\w-]){re.escape(self.name)}(?!\w)", text) is not None

    def may_be_in(self, text: str) -> bool:
        """Whether it is any part of a name in a file of this text."""
        return self.name in text and re.search(rf"(?<!\w){re.escape(self.name)}(?!\w)", text) is not None


@dataclass(frozen=True)
class Variant:
    """A variant of an enum, in the code or in definitions, where a module of variants may have a name of its own."""

    enum: str
    name: str

    def __str__(self) -> str:
        return f"{self.enum}::{self.name}"

    def is_in(self, text: str) -> bool:
        """Whether a file of this text names it, or is the enum's own."""
        if self.name not in text:
            return False
        others = "|".join([*re.findall(rf"\b{self.enum}\.TheVariants as (\w+)", text), r"Common\.\{[^}]*\b"])
        named = rf"enum {self.enum} \{{|\b{self.enum}::{self.name}\b|\b{self.enum}\.TheVariants\.\{{[^}}]*\b{self.name}\b"
        goals = rf"(?<=\w)-{self.name}(?!\w)"
        return re.search(rf"{named}|{goals}|\b(?:{others})\.?{self.name}\b", text) is not None

    def may_be_in(self, text: str) -> bool:
        """Whether a file of this text has both names, or the variant's as a part of a goal's name."""
        if self.name not in text:
            return False
        variant = re.search(rf"(?<![\w.]){self.name}(?![\w.])|\b{self.enum}\.{self.name}\b", text)
        return self.is_in(text) or (variant is not None and re.search(rf"\b{self.enum}\b", text) is not None)


@dataclass(frozen=True)
class Fields:
    """A record or struct, known by some of its fields: a file that gives values to all of them."""

    names: tuple[str, ...]

    def __str__(self) -> str:
        return "{ " + ", ".join(self.names) + " }"

    def is_in(self, text: str) -> bool:
        """Whether a file of this text gives values to all of them."""
        return all(name in text for name in self.names) and all(
            re.search(rf"(?m)(?:^|[{{;,(]) *(?:pub )?{name}(?: =|: |,$)", text) for name in self.names
        )

    def may_be_in(self, text: str) -> bool:
        """Whether a file of this text gives values to all of them."""
        return self.is_in(text)


Name = Word | Variant | Fields


@dataclass(frozen=True)
class Recipe:
    """One kind of part: the existing one that it is counted by, and the names that lead to its places in all crates.

    The page gives only the count of a brief recipe.
    """

    example: str
    names: tuple[Name, ...]
    is_brief: bool = False


def words(*names: str) -> tuple[Name, ...]:
    """These names as they are."""
    return tuple(Word(name) for name in names)


WIDTH = (Variant("Width", "Eight"), *words("is_version", "most_samples", "width_for", "bytes_for"))
RECIPES: Mapping[str, Recipe] = {
    "an event": Recipe(
        "the event of the pilot sets",
        (Variant("Event", "Sets"), *words("sets_line", "append_sets", "sets_at", "sets_events_at")),
    ),
    "a message of the paging channel": Recipe(
        "the CDMA Channel List Message",
        (
            Variant("PagingMessage", "Channels"),
            *words("ChannelList", "ChannelFields", "CHANNEL_LIST", "CHANNEL_FIELDS", "IsChannelList"),
            *words("channel_widths", "channel_values", "channel_contents", "channel_names"),
            *words("channel_shape", "kind == 4"),
        ),
    ),
    "script keys of such a message": Recipe(
        "the statement `page`",
        words("page_key", "page_with"),
    ),
    "a command": Recipe(
        "the command `survey`",
        (
            *(Variant(enum, "Survey") for enum in ("Command", "Job")),
            Variant("Findings", "Ranks"),
            *words("SURVEY_OPTIONS", "survey_entry", "survey_text", "write_ranks"),
        ),
    ),
    "a version of the sample file": Recipe("the width of 8 bits", WIDTH),
    "floating-point samples": Recipe("the width of 8 bits", (*WIDTH, Word("sample_spelling")), is_brief=True),
    "a rate": Recipe("1,200 bits a second", (Variant("Rate", "R1200"),)),
    "a rate of rate set 2": Recipe("1,800 bits a second", (Variant("Rate2", "R1800"),)),
    "signaling on rate set 2": Recipe(
        "the signaling of rate set 1",
        words("Mux", "split_frame", "split_9600", "signal_of", "signal_in", "hear_signal"),
    ),
    "a followed channel": Recipe(
        "the traffic channel",
        (
            Fields(("deltas", "traffic", "check16")),
            Fields(("fingers", "paging", "traffic")),
            *words("settings.traffic", "settings.now.traffic", "t.traffic", "HearsFrames"),
        ),
    ),
}


def files_of_crates(root: str) -> Iterator[tuple[str, str]]:
    """Each file that is counted, by its path from crates/ on, and its text."""
    top = os.path.join(root, "crates")
    for crate in sorted(os.listdir(top)):
        for folder in FOLDERS:
            for at, _, names in os.walk(os.path.join(top, crate, folder)):
                for name in names:
                    path = os.path.relpath(os.path.join(at, name), top)
                    if name.endswith((".rt", ".antt")) and not NOT_COUNTED.search(path):
                        with open(os.path.join(at, name), encoding="utf-8") as file:
                            yield path, file.read()


def touched(recipe: Recipe, files: Mapping[str, str]) -> list[str]:
    """The files that have one of a recipe's names, in order; each of its names must stand in some file."""
    for name in recipe.names:
        if not any(name.is_in(text) for text in files.values()):
            raise NoRecipe(f"no file names {name}, by which {recipe.example} is found")
    return sorted(path for path, text in files.items() if any(name.is_in(text) for name in recipe.names))


def without_comments(text: str) -> str:
    """The text of a file without the lines of its comments."""
    return re.sub(r"(?m)^\s*(?://|--( |$)).*$", "", text)


def unlisted(recipe: Recipe, files: Mapping[str, str]) -> list[str]:
    """The files that a recipe's list lacks but that may name the part: one of its names stands in their code."""

    def may_name(text: str) -> bool:
        return any(name.may_be_in(text) for name in recipe.names)

    rest = [path for path in sorted(set(files) - set(touched(recipe, files))) if may_name(files[path])]
    return [path for path in rest if may_name(without_comments(files[path]))]


def shown(path: str) -> str:
    """A file within its crate as the page has it: those of definitions and proofs without their ending."""
    return path.partition("/")[2].removesuffix(".antt")


def listed(recipe: Recipe, files: Mapping[str, str]) -> str:
    """The paragraph of a recipe: how many files there are, by which names, and which in each crate."""
    paths = touched(recipe, files)
    crates = sorted({path.split("/")[0] for path in paths})
    names = ", ".join(f"`{name}`" for name in recipe.names)
    passing = sum(PASSES_ON.search(path) is not None for path in paths)
    more = f"{passing} more that only {'re-exports' if passing == 1 else 're-export'} names"
    within = f"{len(crates)} crate{'' if len(crates) == 1 else 's'}"
    counts = f"{len(paths) - passing} files of {within}, and {more}"
    lines = [f"Counted by {recipe.example} ({names}): {counts}{'.' if recipe.is_brief else ':'}"]
    for crate in () if recipe.is_brief else crates:
        own = ", ".join(f"`{shown(path)}`" for path in paths if path.split("/")[0] == crate)
        lines.append(f"- `{crate}`: {own}")
    return "".join(f"{line}\n" for line in lines)


def with_lists(text: str, files: Mapping[str, str]) -> str:
    """docs/PROVING.md with the list of each kind after its mark; each kind must have one mark."""
    marks = [found[1] for found in MARK.finditer(text)]
    if sorted(marks) != sorted(RECIPES):
        raise NoRecipe(f"docs/PROVING.md has marks for {', '.join(marks) or 'nothing'}, not for each kind once")

    def list_of(found: re.Match[str]) -> str:
        return f"<!-- files: {found[1]} -->\n{listed(RECIPES[found[1]], files)}"

    return MARK.sub(list_of, text)


def read(path: str) -> str:
    """The text of a file."""
    with open(path, encoding="utf-8") as file:
        return file.read()


def main() -> int:
    """Writes the lists, or puts them into their places."""
    try:
        files = dict(files_of_crates(TOP))
        if sys.argv[1:] != ["--write"]:
            print("\n".join(f"{kind}\n{listed(recipe, files)}" for kind, recipe in RECIPES.items()), end="")
            return 0
        path = os.path.join(TOP, "docs", "PROVING.md")
        text = with_lists(read(path), files)
    except NoRecipe as why:
        print(f"recipes: {why}", file=sys.stderr)
        return 1
    with open(path, "w", encoding="utf-8") as file:
        file.write(text)
    return 0


if __name__ == "__main__":
    sys.exit(main())
