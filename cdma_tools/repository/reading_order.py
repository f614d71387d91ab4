"""The reading order of docs/ARCHITECTURE.md: the items from which and to which to read, and the number of lines."""

from __future__ import annotations

import os
import re

ROW = re.compile(r"(?m)^\| (\d+) \| `([^`]+)` \| `([^`]+)` \| (?:`([^`]+)` )?\| (\d+) \|")
STEP = 5  # to which counts are rounded, so that they don't change with each edit


class NoItem(Exception):
    """Reason why an item of the reading order can't be found."""


def definition_of(lines: list[str], name: str) -> int:
    """Returns the index of the line that defines an item: `fn NAME` of code, or the name of a definition or a field."""
    for at, line in enumerate(lines):
        if re.match(r"\s*(?:--|//|ghost use |use )", line) is None:
            if re.search(rf"\b{name}\b" if "fn " in name else rf"\bpub (?:record |data )?{name}\b", line):
                return at
    raise NoItem(name)


def with_comment(lines: list[str], at: int) -> int:
    """Returns the index of the first line of the comment above a line, or of the line itself."""
    while at and re.match(r"\s*(?:--|//)", lines[at - 1]):
        at -= 1
    return at


def end_of(lines: list[str], at: int) -> int:
    """Returns the index after an item: after a function's bracket, a field's deeper lines, or a paragraph."""
    indent = re.match(r" *", lines[at])
    blanks = indent[0] if indent else ""
    if "fn " in lines[at]:
        ends = (place for place in range(at, len(lines)) if lines[place] in (blanks + "}", blanks + "{}"))
        return next(ends, len(lines) - 1) + 1
    for place in range(at + 1, len(lines)):
        line = lines[place]
        if not line.strip() or blanks and not line.startswith(blanks + " "):
            return place
    return len(lines)


def lines_between(text: str, first: str, last: str) -> int:
    """Returns the number of lines from one item of a file, with its comment, to the end of another."""
    lines = text.splitlines()
    return end_of(lines, definition_of(lines, last)) - with_comment(lines, definition_of(lines, first))


def with_counts(text: str, root: str) -> str:
    """Returns a page whose rows of the reading order have the line counts of the files below `root`."""

    def row(found: re.Match[str]) -> str:
        _, place, first, last, count = found.groups()
        with open(os.path.join(root, place), encoding="utf-8") as file:
            lines = lines_between(file.read(), first, last or first)
        rounded = max(STEP, STEP * round(lines / STEP))
        return found[0].removesuffix(f"{count} |") + f"{rounded} |"

    return ROW.sub(row, text)
