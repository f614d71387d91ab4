"""The arguments that name the channels of a cell that are followed at once, and what is wrong with them."""

import argparse
import glob
import os
import re
from collections.abc import Iterable, Iterator, Sequence
from dataclasses import dataclass

from cdma_tools.arguments import LONGEST, wrong
from cdma_tools.errors import Refused
from cdma_tools.overwriting import InputFile, OutputFolder

ALL = "all"
PAGING_CHANNELS = range(1, 8)  # each on the row of its number
SYNC_ROW, MOST_ROW, MOST_OFFSET = 32, 63, 15
SERIAL, COUNT = re.compile(r"[0-9a-f]{8}"), re.compile(r"0|[1-9][0-9]?")
MOST_CHANNELS = 64
MOST_LINE = 1_000  # characters of a line in a file of channels
# Names of the files of channels.
PATTERNS = ("*cell*-*.txt", "*cell*-*.jsonl")
# Options of one handset, which don't go with several channels.
ONE_HANDSET = ("esn", "row", "offset")
FORM = "ESN:ROW:OFFSET, with :2 after it for rate set 2"


class LinesFolder(OutputFolder):
    """A folder with a file of lines for each channel."""

    def files(self) -> Iterator[str]:
        """The paths of files with names of channels that are there already."""
        for pattern in PATTERNS:
            yield from glob.glob(os.path.join(glob.escape(self), pattern))


@dataclass(frozen=True)
class Traffic:
    """A traffic channel: the serial number of its handset, its Walsh row, its FRAME_OFFSET, and its rate set."""

    esn: str
    row: int
    offset: int
    rate_set: int = 1

    @property
    def name(self) -> str:
        """Its name in lines, as it is given."""
        more = f":{self.rate_set}" if self.rate_set != 1 else ""
        return f"traffic:{self.esn}:{self.row}:{self.offset}{more}"


def fault_of(words: Sequence[str]) -> str:
    """Returns what is wrong with the words of a traffic channel; empty if nothing is."""
    if not 3 <= len(words) <= 4:
        return f"not {FORM}"
    esn, *numbers = words
    if not SERIAL.fullmatch(esn):
        return "ESN is not eight lower-case hex digits"
    if not all(COUNT.fullmatch(number) for number in numbers):
        return f"not {FORM}"
    row, offset, *rate_set = map(int, numbers)
    if not 1 <= row <= MOST_ROW or row == SYNC_ROW:
        return f"there is no traffic channel on row {row}: 1 to {MOST_ROW}, not {SYNC_ROW}"
    if offset > MOST_OFFSET:
        return f"OFFSET is not 0 to {MOST_OFFSET}"
    return "" if rate_set in ([], [1], [2]) else "the rate set is not 1 or 2"


def traffic_of(text: str) -> Traffic:
    """Returns the traffic channel of a text of the form ESN:ROW:OFFSET or ESN:ROW:OFFSET:2."""
    words = text[:LONGEST].split(":")
    if fault := fault_of(words):
        raise wrong(fault, text)
    return Traffic(words[0], *map(int, words[1:]))


def paging_of(text: str) -> tuple[int, ...]:
    """Returns the numbers of paging channels, as 2, 1,2 or all; none stands for all."""
    if text == ALL:
        return ()
    numbers = text[:LONGEST].split(",")
    known = {str(number): number for number in PAGING_CHANNELS}
    if not all(number in known for number in numbers) or len(set(numbers)) != len(numbers):
        raise wrong(f"not different paging channels from 1 to {PAGING_CHANNELS[-1]}, as 1,2, or {ALL}", text)
    return tuple(known[number] for number in numbers)


def traffic_in(path: str) -> list[Traffic]:
    """Returns the traffic channels of a file, one a line; empty lines and those after a # are left out."""
    found = []
    with open(path, encoding="utf-8", errors="replace") as file:
        for number, line in enumerate(iter(lambda: file.readline(MOST_LINE), ""), 1):
            if not (text := line.partition("#")[0].strip()):
                continue
            try:
                found.append(traffic_of(text))
            except argparse.ArgumentTypeError as why:
                raise Refused(f"{path}: line {number}: {why}") from None
            if len(found) > MOST_CHANNELS:
                raise Refused(f"{path}: more than {MOST_CHANNELS} channels")
    if not found:
        raise Refused(f"{path}: no traffic channel is in it")
    return found


def add_channel_options(words: argparse.ArgumentParser) -> None:
    """Adds the options that name several channels."""
    several = words.add_argument_group("several channels at once")
    several.add_argument(
        "--traffic",
        type=traffic_of,
        action="append",
        metavar="CHANNEL",
        help=f"follow a traffic channel, {FORM}; may be repeated",
    )
    listed = "follow the traffic channels in a file, a line each; a # begins a comment"
    several.add_argument("--traffic-file", type=InputFile, metavar="FILE", help=listed)


def traffic_channels(options: argparse.Namespace) -> list[Traffic]:
    """Returns the traffic channels that the options name, those of their file too; refuses two equal ones."""
    found = list(options.traffic or [])
    if options.traffic_file is not None:
        found += traffic_in(options.traffic_file)
    if equal := first_equal(found):
        raise Refused(f"{equal.name}: this channel is given twice")
    if fault := next(filter(None, (row_fault(channel, options.paging) for channel in found)), ""):
        raise Refused(fault)
    if len(found) > MOST_CHANNELS:
        raise Refused(f"{len(found)} traffic channels are more than {MOST_CHANNELS}")
    return found


def first_equal(channels: Iterable[Traffic]) -> Traffic | None:
    """Returns the first of some channels that was there before; None if all differ."""
    seen = set[Traffic]()
    for channel in channels:
        if channel in seen:
            return channel
        seen.add(channel)
    return None


def is_several(options: argparse.Namespace) -> bool:
    """Whether the options name channels rather than one handset."""
    paging = options.paging
    return bool(options.traffic or options.traffic_file) or paging is not None and len(paging) != 1


def channels_fault(options: argparse.Namespace) -> str:
    """Returns what is wrong with the options of several channels; empty if they go together."""
    if not is_several(options):
        return ""
    if given := [name for name in ONE_HANDSET if getattr(options, name) is not None]:
        return f"--{given[0]} doesn't go with several channels: give --traffic ESN:ROW:OFFSET"
    if equal := first_equal(options.traffic or []):
        return f"{equal.name}: this channel is given twice"
    return next(filter(None, (row_fault(channel, options.paging) for channel in options.traffic or [])), "")


def row_fault(channel: Traffic, paging: tuple[int, ...] | None) -> str:
    """Returns the fault of a traffic channel that lies on the row of a paging channel; empty if it doesn't."""
    named = (1,) if not paging else paging
    return f"{channel.name}: row {channel.row} is that of paging channel {channel.row}" if channel.row in named else ""
