"""The options that name one cell of several in a recording."""

import argparse

from cdma_tools.arguments import whole_within

CELL_OPTIONS = ("cell", "pn")
OFFSETS = 512  # pilot offsets (7.1.3.1.9)
MOST_RANK = 12  # cells that are taken off one after the other


def add_cell_options(words: argparse._ActionsContainer) -> None:
    """Adds --cell and --pn, of which one can be given."""
    which = words.add_mutually_exclusive_group()
    which.add_argument(
        "--cell",
        type=whole_within(1, MOST_RANK),
        metavar="K",
        help="the K-th strongest cell (default 1): stronger ones are subtracted first",
    )
    which.add_argument(
        "--pn", type=whole_within(0, OFFSETS - 1), metavar="P", help="the cell with PILOT_PN P, decoded by the program"
    )
