"""Which frames of a sample file the law by signs covers, and by how much (docs/LINK.md, "A link with noise").

The law asks for nothing but signs, so it holds for a file of any origin: with noise, other cells, other paths, or from
a radio. The file has as many samples as the script's cell sends, and the script's flags; the search finds the cell's
phase; and one finger receives the file. A frame is covered if each of its soft values has the sign that its symbol was
sent with: above 0 for a 0 and below 0 for a 1, before descrambling, power control bits included.

The law asks about each frame of the sync channel that lies in the file, and about the frames of the other channels from
the mark on, if the mark that the file sets is the cell's.
"""

import dataclasses
from collections.abc import Iterator

from cdma_model.cell import FRAME, SLOT, Channel, channels
from cdma_model.codes import state_after
from cdma_model.files import Capture
from cdma_model.frames import DATA_FORM, SYNC_FORM, soft_values
from cdma_model.handset import Mark, hear_sync, reference_fingers
from cdma_model.noise import own_phase
from cdma_model.script import SYNC_ROW, Cell
from cdma_model.search import Found, search
from cdma_tools.errors import Refused

FRAMES_OF_SUPERFRAME = SLOT // FRAME
"""Frames of a paging or traffic channel in a superframe."""


@dataclasses.dataclass(frozen=True)
class Signs:
    """The frames of a channel that the law requires: the number in the file, and the number covered.

    `first` is the sample at which the first of them begins, and `least` the least soft value times its sent sign; both
    are None if no such frame lies in the file.
    """

    name: str
    row: int
    first: int | None
    frames: int
    covered: int
    least: int | None


def expect_together(capture: Capture, cell: Cell, span: int) -> Found:
    """Returns what the search over a file's first `span` samples finds; Refused if the file isn't one of the cell."""
    if capture.count != cell.samples:
        raise Refused(f"the file has {capture.count:,} samples, but the script's cell sends {cell.samples:,}")
    flags = capture.complement_30 + 2 * capture.complement_16
    if flags != cell.checks:
        raise Refused(f"the file's flags are {flags}, but the script has checks={cell.checks}")
    found = search(capture.samples[:span])
    if found.phase != own_phase(cell):
        raise Refused(f"the search finds phase {found.phase} in the file, but the script's cell has {own_phase(cell)}")
    return found


def superframe_of(mark: Mark | None, cell: Cell) -> int | None:
    """Returns the number of the cell's superframe that begins at a mark; None if the mark isn't the cell's."""
    if mark is None or not cell.sync:
        return None
    number, rest = divmod(mark.sample + cell.start, SLOT)
    state = state_after(cell.lc, SLOT * number)
    own = Mark(mark.sample, cell.time + number, state, cell.pn, cell.sync["prat"])
    return number if rest == 0 and mark == own else None


def frames_in(capture: Capture, cell: Cell, channel: Channel, least: int) -> Iterator[tuple[int, int]]:
    """Yields the frames of a channel that lie in a file, from the number `least` on: each number and first sample."""
    number = max(least, -((channel.first - cell.start) // channel.frame))
    start = channel.first + channel.frame * number - cell.start
    while start + channel.frame <= capture.count:
        yield number, start
        number, start = number + 1, start + channel.frame


def signs_of(
    capture: Capture, cell: Cell, found: Found, channel: Channel, name: str, superframe: int | None
) -> Signs:
    """Returns what the law covers of a channel's frames.

    `superframe` is the number of the cell's superframe at the mark, None if the mark isn't the cell's.
    """
    is_sync = channel.row == SYNC_ROW
    form = SYNC_FORM if is_sync else DATA_FORM
    fingers = reference_fingers(found, channel.row)
    first: int | None = None
    least: list[int] = []
    if is_sync or superframe is not None:
        begin = 0 if is_sync else FRAMES_OF_SUPERFRAME * (superframe or 0)
        for number, start in frames_in(capture, cell, channel, begin):
            first = start if first is None else first
            softs = soft_values(capture, fingers, form, start)
            least.append(int((softs * (1 - 2 * channel.symbols(number))).min()))
    covered = sum(one > 0 for one in least)
    return Signs(name, channel.row, first, len(least), covered, min(least, default=None))


def signs(capture: Capture, cell: Cell, span: int, names: dict[int, str]) -> tuple[Mark | None, list[Signs]]:
    """Returns the mark of a file if it is the cell's, and what the law covers of some channels.

    `names` has the names of these channels by their rows. Refused if the file isn't one of the cell.
    """
    found = expect_together(capture, cell, span)
    _, mark = hear_sync(capture, found, capture.count)
    superframe = superframe_of(mark, cell)
    meant = [channel for channel in channels(cell) if channel.row in names]
    covered = [signs_of(capture, cell, found, channel, names[channel.row], superframe) for channel in meant]
    return (mark if superframe is not None else None), covered
