"""The budget of lines of each crate, in line_budget.txt next to this module.

A test fails if a crate has over 5 % more lines than its budget, so a crate grows only on purpose. A line counts if it is
in a .rt or .antt file below src, specs or proofs, empty lines and comments too. `tools/house` prints the lines of each
crate next to its budget, and `python3 -m cdma_tools.repository.line_budget --write` sets each budget to the lines of the
tree. To raise one, change its line in the commit that needs it, and give the reason in the commit's message.
"""

from __future__ import annotations

import os
import sys
from collections.abc import Iterable, Iterator, Mapping

from cdma_tools.places import TOP
from cdma_tools.repository.crate_list import NoList, crates_below

FOLDERS = ("src", "specs", "proofs")
ENDINGS = (".rt", ".antt")
PERCENT_OVER = 5
PATH = os.path.join(os.path.dirname(os.path.abspath(__file__)), "line_budget.txt")
HEAD = """\
# The most lines of each crate; line_budget.py says what counts, and how to raise one.
"""


class NoBudget(Exception):
    """Reason why a file is not a budget of these crates."""


def lines_in(crate: str) -> int:
    """Returns the number of lines of the crate in this folder."""
    count = 0
    for part in FOLDERS:
        for path, _, names in os.walk(os.path.join(crate, part)):
            for name in names:
                if name.endswith(ENDINGS):
                    with open(os.path.join(path, name), encoding="utf-8") as file:
                        count += sum(1 for _ in file)
    return count


def counted(root: str) -> dict[str, int]:
    """Returns the number of lines of each crate of a checkout, in the order of crates.txt."""
    return {name: lines_in(os.path.join(root, "crates", name)) for name in crates_below(root)}


def budget_in(text: str, crates: Iterable[str]) -> dict[str, int]:
    """Reads a budget, which has a line for each of these crates and for no other."""
    found: dict[str, int] = {}
    for line in text.splitlines():
        words = line.partition("#")[0].split()
        if not words:
            continue
        if len(words) != 2 or not words[1].isdecimal() or words[0] in found:
            raise NoBudget(f"not a crate and its lines, each crate once: {line[:60]!r}")
        found[words[0]] = int(words[1])
    wanted = list(crates)
    if sorted(found) != sorted(wanted):
        others = sorted(set(found) ^ set(wanted))
        raise NoBudget(f"crates.txt and line_budget.txt differ in {', '.join(others)}")
    return found


def kept_budget(crates: Iterable[str]) -> dict[str, int]:
    """Returns the budget of this checkout."""
    with open(PATH, encoding="utf-8") as file:
        return budget_in(file.read(), crates)


def over(lines: Mapping[str, int], budget: Mapping[str, int]) -> Iterator[str]:
    """Yields a line for each crate that has too many lines."""
    for name, count in lines.items():
        if 100 * count > (100 + PERCENT_OVER) * budget[name]:
            yield f"{name} has {count} lines, over {PERCENT_OVER} % more than its budget of {budget[name]}"


def written(lines: Mapping[str, int]) -> str:
    """Returns the text of a budget of exactly these lines."""
    return HEAD + "".join(f"{name} {count}\n" for name, count in lines.items())


def main() -> int:
    """Writes the budget of the tree, or prints which crates have more lines than theirs."""
    try:
        lines = counted(TOP)
        if sys.argv[1:] == ["--write"]:
            with open(PATH, "w", encoding="utf-8") as file:
                file.write(written(lines))
            return 0
        found = list(over(lines, kept_budget(lines)))
    except (NoBudget, NoList) as why:
        print(f"line_budget: {why}", file=sys.stderr)
        return 1
    for line in found:
        print(line)
    return 1 if found else 0


if __name__ == "__main__":
    sys.exit(main())
