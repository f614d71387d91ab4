"""Draws the crates as the rooms of a house, from the tree.

Each crate of crates.txt is a room, in the column of its side and in the row of its layer, so it stands only on rooms
below it. A room has four numbers of lines, and a bar shows them, all to one scale:

    code          of src/, its tests too, without contracts
    contracts     requires, ensures and every other ghost of src/
    definitions   of specs/
    proofs        of proofs/

Empty lines, comments and the edits of must-fail/ aren't counted.

    tools/house
    tools/house --write docs/pictures/house.svg

Without --write the numbers are printed as a table, with all lines of each crate, empty ones and comments too, and its
budget of them. A test compares docs/pictures/house.svg with the tree, another one the lines with the budget.

Exit status: 0, 1 if crates.txt or a file can't be read or written, 2 for wrong arguments.
"""

from __future__ import annotations

import os

from cdma_tools.arguments import Parser
from cdma_tools.errors import Refused
from cdma_tools.overwriting import OutputFile
from cdma_tools.places import TOP
from cdma_tools.repository.crate_list import NoList, crates_below
from cdma_tools.repository.house import KINDS, Lines, house, lines_of
from cdma_tools.repository.line_budget import NoBudget, counted, kept_budget
from cdma_tools.writing import write_beside


def parser() -> Parser:
    """The arguments of the command line."""
    words = Parser("house", __doc__)
    words.add_argument("--write", type=OutputFile, metavar="FILE", help="write the picture to this file, as SVG")
    return words


def table(lines: dict[str, Lines], counts: dict[str, int], budget: dict[str, int]) -> str:
    """The numbers, a crate a line, and their sums."""
    total = Lines()
    for one in lines.values():
        total = total.plus(one)
    rows: list[tuple[str, ...]] = [("crate", *KINDS, "lines", "budget")]
    rows += [(name, *map(str, one), str(counts[name]), str(budget[name])) for name, one in lines.items()]
    rows += [("all", *map(str, total), str(sum(counts.values())), str(sum(budget.values())))]
    return "".join(f"{row[0]:<20}" + "".join(f"{cell:>12}" for cell in row[1:]) + "\n" for row in rows)


def main(arguments: list[str] | None = None) -> int:
    """Writes the table or the picture."""
    options = parser().parse_args(arguments)
    try:
        below = crates_below(TOP)
        lines = {name: lines_of(os.path.join(TOP, "crates", name)) for name in below}
        drawn = house(below, lines) if options.write else table(lines, counted(TOP), kept_budget(below))
    except (NoBudget, NoList) as why:
        raise Refused(str(why)) from None
    if not options.write:
        print(drawn, end="")
        return 0
    with write_beside(options.write) as file:
        file.write(drawn.encode())
    return 0
