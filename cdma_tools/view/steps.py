"""The steps in which a frame of the last chips was decoded, as `explain` shows them, by the model of `cdma_model/`.

The search and the mark of a handset are not made again: the chips' numbers give the code's phase, and a decoded
sync message gives the system time and the state of the long code.
"""

from dataclasses import dataclass, replace
from typing import Any

import numpy

from cdma_model.files import Capture
from cdma_model.handset import Assigned, Mark
from cdma_model.search import Found
from cdma_tools.explaining.frame_steps import NoFrame, Steps, paging_steps, sync_steps, traffic_steps
from cdma_tools.explaining.frame_text import text_of
from cdma_tools.listening.channel_options import traffic_of
from cdma_tools.listening.events import Event
from cdma_tools.listening.notes import FRAME
from cdma_tools.listening.system_time import SUPERFRAME, fields_of, time_told
from cdma_tools.radio.air import PERIOD
from cdma_tools.view.chip_store import ChipStore, Extent

# Chips before a frame in which its messages may begin, and those after it that decode it.
BEFORE, AFTER = 10 * FRAME, 2 * FRAME
# Chips before the mark that a window has, so that paths that come early lie in it.
MARGIN = 1_024
GROUP = 1_536  # chips of a power control group, in which FRAME_OFFSET counts
WHY_NONE = "The steps need samples: the last 27 seconds of chips, and a sync message in them."


@dataclass(frozen=True)
class Handset:
    """The handset that listened: its paging channel, and the serial number and FRAME_OFFSET of its traffic channel."""

    paging: int
    esn: str | None
    offset: int
    flags: int  # of sample files: whether checks of messages are sent complemented
    rate_set: int = 1  # of the traffic channel


def of_channel(handset: Handset, row: int | None, channel: str) -> tuple[Handset, int | None]:
    """Returns the handset that listened to a channel of a name, and the row of its traffic channel; without a name
    they are as they are."""
    kind, _, rest = channel.partition(":")
    if kind == "traffic":
        traffic = traffic_of(rest)
        given = replace(handset, esn=traffic.esn, offset=traffic.offset, rate_set=traffic.rate_set)
        return given, traffic.row
    return (replace(handset, paging=int(kind.removeprefix("paging"))), row) if kind else (handset, row)


@dataclass(frozen=True)
class MarkTold:
    """A sync message's time and state of the long code, and the number of the chip at which they hold."""

    chip: int
    read: dict[str, Any]

    @classmethod
    def of(cls, event: Event) -> "MarkTold | None":
        """Returns the mark of a sync message that was known at the chip of a number; None of another line."""
        time, read = time_told(event), fields_of(event)
        return cls(time.base + SUPERFRAME * time.told, read) if time is not None and read is not None else None

    def in_window(self, begin: int) -> Mark:
        """Returns the model's mark in a window that begins at a chip."""
        read = self.read
        return Mark(self.chip - begin, read["time"], read["lc"], read["pn"], read["prat"])


@dataclass(frozen=True)
class FrameAsked:
    """A frame: the kind of its line, and the number of its first chip."""

    line: str
    first: int

    @classmethod
    def of(cls, read: dict[str, Any], chip: int) -> "FrameAsked | None":
        """Returns the frame in which a line that was known at a chip ends; None of a line of another kind.

        Frames of the sync and paging channels are known when the next one has come.
        """
        lengths = {"sync": 2 * PERIOD, "paging": 2 * FRAME, "frame": FRAME, "frame2": FRAME, "traffic": FRAME}
        return cls(read["line"], chip - lengths[read["line"]]) if read["line"] in lengths else None


def mark_before(marks: list[MarkTold], first: int, extent: Extent) -> MarkTold | None:
    """Returns the last mark that lies some frames before a frame, or just before it; None if none is kept."""
    kept = [mark for mark in marks if extent.first + MARGIN <= mark.chip <= first + MARGIN]
    early = [mark for mark in kept if mark.chip <= first - BEFORE]
    return early[-1] if early else kept[0] if kept else None


def steps_text(
    store: ChipStore,
    extent: Extent,
    asked: FrameAsked,
    marks: list[MarkTold],
    handset: Handset,
    row: int | None,
) -> str:
    """Returns the steps of a frame in lines, or why they can't be shown; `row` is that of the traffic channel."""
    mark = mark_before(marks, asked.first, extent)
    if asked.line == "sync":
        begin = max(extent.first, asked.first - 16 * PERIOD)
    elif mark is None:
        return WHY_NONE
    else:
        begin = mark.chip - MARGIN
    if asked.first < begin or asked.first >= extent.end:
        return WHY_NONE
    window = Extent(begin, min(extent.end, asked.first + 2 * PERIOD + AFTER))
    samples = store.samples(window).astype(numpy.complex128)
    capture = Capture(bool(handset.flags & 1), bool(handset.flags & 2), len(samples), samples, None)
    found = Found(begin % PERIOD, 0, [0])
    try:
        steps = steps_of(capture, found, asked, begin, mark, handset, row)
    except NoFrame as why:
        return str(why)
    return "\n".join(text_of(steps)) if steps is not None else WHY_NONE


def steps_of(
    capture: Capture,
    found: Found,
    asked: FrameAsked,
    begin: int,
    mark: MarkTold | None,
    handset: Handset,
    row: int | None,
) -> Steps | None:
    """Returns the steps of a frame in a window that begins at a chip; None if its channel isn't followed."""
    if asked.line == "sync":
        return sync_steps(capture, found, nearest(asked.first - begin - -found.phase % PERIOD, PERIOD))
    if mark is None:
        return None
    own, since = mark.in_window(begin), asked.first - mark.chip
    if asked.line == "paging":
        return paging_steps(capture, found, own, handset.paging, nearest(since, FRAME))
    if handset.esn is None or row is None:
        return None
    assigned = Assigned(int(handset.esn, 16), row, handset.offset)
    index = nearest(since - GROUP * handset.offset, FRAME)
    return traffic_steps(capture, found, own, assigned, index, handset.rate_set)


def nearest(chips: int, length: int) -> int:
    """Returns the number of frames of a length in some chips, which a path may come early or late."""
    return round(chips / length)
