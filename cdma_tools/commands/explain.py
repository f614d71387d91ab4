"""Shows one frame of a sample file step by step, from the samples to its bits, by the model of `cdma_model/`.

    tools/explain second.is95 --sync
    tools/explain second.is95 --paging 1 --frame 3
    tools/explain call.is95 --traffic 0000abcd 10 --picture frame.png

Frames of the sync channel are counted from the first that begins in the file, those of a paging or a traffic channel
from the mark, which the first sync message sets. Each step is a value of docs/LINK.md that can be computed by hand:

    1  pilot sums of each finger, and symbol sums before and after the pilot has turned them
    2  scrambling bits: chips of the long code
    3  soft values in the order in which the symbols are sent, descrambled
    4  soft values of the code symbols, in the encoder's order, at the rate that is shown
    5  the best codeword of each rate, with its score and that of the second best
    6  quality indicator, as sent and as computed
    7  the bits with their fields, and what they mean

In steps 3 and 4 a letter is a symbol: 0 or 1 if it is sure, o or i if it is weaker than half of the mean, p for a power
control bit, . if nothing is known.

Exit status: 0 shown, 1 there is no such frame, or the file or the picture can't be read or written, 2 wrong arguments.
"""

from __future__ import annotations

import argparse
import re

from cdma_model.handset import Assigned
from cdma_tools.arguments import Parser, whole_within
from cdma_tools.captures import read_whole
from cdma_tools.errors import Refused
from cdma_tools.explaining.frame_steps import TRAFFIC_ROWS, NoFrame, Steps, Wanted, steps_of
from cdma_tools.explaining.frame_text import text_of
from cdma_tools.overwriting import STANDARD, InputFile
from cdma_tools.plots import NEEDED, picture_of


def parser() -> argparse.ArgumentParser:
    """The command line."""
    words = Parser("explain", __doc__)
    words.add_argument("file", type=InputFile, metavar="FILE", help="a sample file")
    channel = words.add_mutually_exclusive_group(required=True)
    channel.add_argument("--sync", action="store_true", help="a frame of the sync channel")
    channel.add_argument("--paging", type=whole_within(1, 7), metavar="C", help="a frame of paging channel C")
    channel.add_argument(
        "--traffic", nargs=2, metavar=("ESN", "ROW"), help="a frame of the traffic channel on row 1 to 63, not 32"
    )
    words.add_argument(
        "--offset",
        type=whole_within(0, 15),
        default=0,
        metavar="N",
        help="FRAME_OFFSET of the traffic channel (default 0)",
    )
    words.add_argument(
        "--rate-set", type=int, choices=[1, 2], default=1, help="rate set of the traffic channel (default 1)"
    )
    words.add_argument(
        "--frame",
        type=whole_within(0, 1 << 20),
        default=0,
        metavar="K",
        help="number of the frame, from 0 on (default 0)",
    )
    words.add_argument(
        "--span",
        type=whole_within(64, 32_768),
        default=2_048,
        metavar="N",
        help="number of samples searched (default 2048)",
    )
    words.add_argument(
        "--fingers",
        type=whole_within(1, 3),
        default=1,
        metavar="N",
        help="number of paths of the base station (default 1)",
    )
    words.add_argument(
        "--picture", type=picture_of, metavar="PICTURE", help="also draw the steps: PNG or SVG, by the end of the name"
    )
    return words


def checked(given: list[str] | None) -> argparse.Namespace:
    """Returns the options; ends the program if an argument is wrong."""
    words = parser()
    options = words.parse_args(given)
    if options.traffic and not re.fullmatch("[0-9a-fA-F]{8}", options.traffic[0]):
        words.error("ESN is eight hex digits")
    if options.traffic and not (re.fullmatch("[0-9]{1,2}", options.traffic[1]) and int(options.traffic[1]) in TRAFFIC_ROWS):
        words.error("ROW must be 1 to 63, but not 32, which is the sync channel's")
    if options.picture == STANDARD:
        words.error("--picture needs a file: standard output has the steps")
    return options


def wanted_of(options: argparse.Namespace) -> Wanted:
    """The frame that is asked for."""
    if options.sync:
        return Wanted("sync", options.frame)
    if options.paging:
        return Wanted("paging", options.frame, options.paging)
    serial, row = options.traffic
    assigned = Assigned(int(serial, 16), int(row), options.offset)
    return Wanted("traffic", options.frame, assigned=assigned, rate_set=options.rate_set)


def drawn(steps: Steps, path: str) -> None:
    """Draws the steps; raises `Refused` if matplotlib is missing."""
    try:
        from cdma_tools.explaining.frame_picture import draw
    except ImportError as missing:
        raise Refused(f"{missing}: {NEEDED}") from None
    draw(steps, path)


def main(arguments: list[str] | None = None) -> int:
    """Runs the tool, and returns its exit status."""
    options = checked(arguments)
    try:
        capture = read_whole(options.file, options.span)
        steps = steps_of(capture, wanted_of(options), options.span, options.fingers)
    except NoFrame as why:
        raise Refused(f"{options.file}: {why}") from None
    if options.picture:
        drawn(steps, options.picture)
    print("\n".join(text_of(steps)), flush=True)
    return 0
