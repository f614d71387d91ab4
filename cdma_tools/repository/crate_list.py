"""The crates of a repository, as crates.txt lists them: their dependencies, sides and layers.

`python3 -m cdma_tools.repository.crate_list` writes the picture of the layers. With --write it puts the picture, the
table of crates and the line counts of the reading order into docs/ARCHITECTURE.md, and the sides of each layer's crates
into crates.txt.
"""

from __future__ import annotations

import os
import re
import sys
from collections.abc import Callable, Mapping, Sequence

from cdma_tools.places import TOP
from cdma_tools.repository.reading_order import with_counts

# The top crates of the base station and of the handset. They and all crates below them belong to that side.
SENDING, HEARING = ("base_modulator",), ("pilot_survey", "tuned_listener")
# The columns of the picture, from the left.
SIDES = ("base station", "both", "handset", "program, laws", "tests")
# The head of the table of crates in docs/ARCHITECTURE.md; the purposes in it are written by hand.
HEAD = "| Crate | Purpose |\n|---|---|\n"


class NoList(Exception):
    """Reason why crates.txt is not a list of crates."""


def listed_crates(root: str) -> dict[str, list[str]]:
    """Returns the crates of crates.txt in order, each with its dependencies, the kit's libraries among them."""
    path = os.path.join(root, "crates.txt")
    try:
        with open(path, encoding="utf-8") as file:
            lines = file.read().splitlines()
    except OSError as why:
        raise NoList(f"{path}: {why.strerror}") from None
    found: dict[str, list[str]] = {}
    for line in lines:
        line = line.partition("#")[0].strip()
        if line:
            head, colon, below = line.partition(":")
            if not colon or not head.split():
                raise NoList(f"crates.txt has a line that names no crate: {line[:60]!r}")
            found[head.split()[0]] = below.split()
    return found


def crates_below(root: str) -> dict[str, list[str]]:
    """Returns the crates of crates.txt in order, each with its dependencies; a crate that isn't listed is the kit's."""
    listed = listed_crates(root)
    return {name: [it for it in below if it in listed] for name, below in listed.items()}


def all_below(below: Mapping[str, Sequence[str]], name: str) -> set[str]:
    """Returns all direct and indirect dependencies of a crate."""
    found: set[str] = set()
    left = list(below[name])
    while left:
        at = left.pop()
        if at not in found:
            found.add(at)
            left += below[at]
    return found


def chains(below: Mapping[str, Sequence[str]]) -> dict[str, list[str]]:
    """Returns for each crate the longest chain of dependencies that ends with it, on a tie the first by crates.txt."""
    found: dict[str, list[str]] = {}

    def chain_to(name: str, above: tuple[str, ...]) -> list[str]:
        if name in above:
            raise NoList(f"crates.txt has a cycle: {' '.join((*above[above.index(name) :], name))}")
        if name not in found:
            found[name] = max((chain_to(it, (*above, name)) for it in below[name]), key=len, default=[]) + [name]
        return found[name]

    for name in below:
        chain_to(name, ())
    return {name: found[name] for name in below}


def longest_chain(below: Mapping[str, Sequence[str]]) -> list[str]:
    """Returns the longest chain of crates that each depend on the one before, on a tie the first by crates.txt."""
    return max(chains(below).values(), key=len, default=[])


def side_of(below: Mapping[str, Sequence[str]], name: str) -> str:
    """Returns the side of a crate, which is its column in the picture."""
    if name.endswith("_tests"):
        return "tests"
    is_sending, is_hearing = (any(name in {it} | all_below(below, it) for it in tops) for tops in (SENDING, HEARING))
    if is_sending:
        return "both" if is_hearing else "base station"
    return "handset" if is_hearing else "program, laws"


def picture(below: Mapping[str, Sequence[str]]) -> str:
    """Returns the picture: the crates by layers, the highest first, those of one layer in the order of crates.txt."""
    layers = {name: len(chain) for name, chain in chains(below).items()}
    rows: list[tuple[str, ...]] = [("", *SIDES)]
    for layer in range(max(layers.values(), default=0), 0, -1):
        columns = [[name for name in below if layers[name] == layer and side_of(below, name) == side] for side in SIDES]
        for at in range(max(map(len, columns))):
            rows.append(("" if at else str(layer), *((column[at:] or [""])[0] for column in columns)))
    widths = [max(map(len, cells)) for cells in zip(*rows)]
    return "".join("  ".join(map(str.ljust, cells, widths)).rstrip() + "\n" for cells in rows)


def table(purposes: Mapping[str, str], below: Mapping[str, Sequence[str]]) -> str:
    """Returns the table of crates, sorted by side, by layer and then as in crates.txt."""
    layers = {name: len(chain) for name, chain in chains(below).items()}
    rows = [
        f"| `{name}` | {purposes.get(name, '')} |\n"
        for name in sorted(below, key=lambda it: (SIDES.index(side_of(below, it)), layers[it]))
    ]
    return HEAD + "".join(rows)


def with_crates(text: str, below: Mapping[str, Sequence[str]]) -> str:
    """Returns docs/ARCHITECTURE.md with the picture as its first literal block, and with the table of crates."""
    shown = "".join(f"    {line}\n" for line in picture(below).splitlines())
    text = re.sub(r"(?m)^(    .*\n)+", lambda _: shown, text, count=1)
    before, head, after = text.partition(HEAD)
    if not head:
        raise NoList("docs/ARCHITECTURE.md has no table of crates")
    old = re.match(r"(?:\|.*\n)*", after)
    rows = old[0] if old else ""
    purposes = dict(re.findall(r"(?m)^\| `(\w+)` \| (.*?) ?\|$", rows))
    return before + table(purposes, below) + after[len(rows) :]


def with_sides(text: str, below: Mapping[str, Sequence[str]]) -> str:
    """Returns crates.txt with comments that list the crates of each group by side."""
    groups = []
    for group in text.split("\n\n"):
        lines = [line for line in group.splitlines() if not line.startswith(tuple(f"# {side}: " for side in SIDES))]
        names = [line.split(":")[0].split()[0] for line in lines if not line.startswith("#")]
        told = [(side, [name for name in names if side_of(below, name) == side]) for side in SIDES]
        at = next((place for place, line in enumerate(lines) if not line.startswith("#")), len(lines))
        lines[at:at] = [f"# {side}: {' '.join(those)}" for side, those in told if those]
        groups.append("\n".join(lines))
    return "\n\n".join(groups) + "\n"


def rewrite(path: str, change: Callable[[str, Mapping[str, Sequence[str]]], str]) -> None:
    """Replaces a file of this checkout by what `change` makes of its text."""
    path = os.path.join(TOP, path)
    with open(path, encoding="utf-8") as file:
        text = change(file.read(), crates_below(TOP))
    with open(path, "w", encoding="utf-8") as file:
        file.write(text)


def main() -> None:
    """Prints the picture, or with --write updates the files."""
    if sys.argv[1:] != ["--write"]:
        print(picture(crates_below(TOP)), end="")
        return
    rewrite(os.path.join("docs", "ARCHITECTURE.md"), lambda text, below: with_counts(with_crates(text, below), TOP))
    rewrite("crates.txt", with_sides)


if __name__ == "__main__":
    main()
