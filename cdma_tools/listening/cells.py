"""The strongest cells of a recording, each as a recording of its own from which the others were subtracted."""

from __future__ import annotations

import contextlib
import tempfile
from collections.abc import Callable, Iterator
from dataclasses import dataclass, replace
from fractions import Fraction
from typing import TYPE_CHECKING, Any

from cdma_tools.errors import Refused, said
from cdma_tools.listening.parts import Recording
from cdma_tools.listening.stream_lock import LockOptions
from cdma_tools.progress import bar
from cdma_tools.starting import called

if TYPE_CHECKING:
    from cdma_tools.analysis.cells import Cell, Search

# Samples that are added at once.
PIECE = 1 << 18


@dataclass(frozen=True)
class CellsWanted:
    """The cells that are wanted: a number of the strongest ones, or those of PILOT_PNs, decoded by a program."""

    count: int | None = None
    pns: tuple[int, ...] = ()
    program: str = ""

    @property
    def are_several(self) -> bool:
        """Whether there may be more than one."""
        return len(self.pns) != 1

    @property
    def most(self) -> int:
        """Returns the greatest number of them."""
        return len(self.pns) or self.count or 1


@dataclass(frozen=True)
class CellRecording:
    """A cell: its number by strength from 1 on, and the samples of a recording without the other cells."""

    number: int
    recording: Recording


def say_line(text: str) -> None:
    """Says a line on a cell."""
    said(called("listen"), text)


@contextlib.contextmanager
def cell_recordings(
    recording: Recording, wanted: CellsWanted, show: Callable[..., Any] = bar, say: Callable[[str], None] = say_line
) -> Iterator[list[CellRecording]]:
    """Yields the wanted cells of a recording; refuses one without a pilot, or without the cell of a PILOT_PN.

    Meanwhile there are temporary files of floating point, one of the recording and one for each cell. `show` makes the
    bar of progress, and `say` says a line on each cell.
    """
    from cdma_tools.analysis.cells import Search
    from cdma_tools.radio.locking import Options

    lock = recording.lock
    options = Options(
        lock.kind, Fraction(lock.rate), shift=lock.shift, search=lock.search, conjugate=lock.conjugate,
        equaliser=lock.equaliser, fingers=lock.fingers, count=1,
    )  # fmt: skip
    with tempfile.TemporaryDirectory(prefix="cells-") as folder, show(text="cells", unit="cells") as shown:

        def tell(text: str) -> None:
            shown.set_description(text)
            shown.update(1)

        with Search(recording.path, options, folder, tell) as search:
            numbers = cells_of(search, wanted, say)
            yield [CellRecording(number, separated(search, number, lock)) for number in numbers]


def cells_of(search: Search, wanted: CellsWanted, say: Callable[[str], None]) -> list[int]:
    """Returns the numbers of the wanted cells, and says a line on each that was found."""
    from cdma_tools.analysis.importing import told

    if wanted.pns:
        return cells_of_pns(search, wanted, say)
    while len(search.told) < wanted.most and (cell := search.next_cell()) is not None:
        say(told(len(search.told), cell, None))
    return list(range(1, len(search.told) + 1))


def cells_of_pns(search: Search, wanted: CellsWanted, say: Callable[[str], None]) -> list[int]:
    """Returns the numbers of the cells of the wanted PILOT_PNs; refuses a recording in which one isn't sent."""
    from cdma_tools.analysis.importing import told, written_pn

    found: list[int | None] = []
    while not set(wanted.pns) <= set(found) and (cell := search.next_cell()) is not None:
        found.append(written_pn(search, cell, wanted.program))
        say(told(len(found), cell, found[-1]))
    if missing := [pn for pn in wanted.pns if pn not in found]:
        heard = f"{len(found)} cell was found" if len(found) == 1 else f"{len(found)} cells were found"
        names = ", ".join("no sync message" if pn is None else str(pn) for pn in found)
        raise Refused(f"{heard}, none of them with PILOT_PN {missing[0]}: {names}")
    return [found.index(pn) + 1 for pn in sorted(wanted.pns, key=found.index)]


def separated(search: Search, number: int, lock: LockOptions) -> Recording:
    """Returns a cell of a search as a recording without the other cells, which takes the place of the cell's part."""
    from cdma_tools.analysis.cells import NEXT_SEARCH
    from cdma_tools.analysis.kept_samples import KIND

    cell, left = search.told[number - 1], search.left
    assert left is not None
    for first in range(0, left.count, PIECE):
        count = min(PIECE, left.count - first)
        cell.part.write(first, left.read(first, count) + cell.part.read(first, count))
    options = replace(
        lock, kind=KIND, shift=carrier_of(cell), search=NEXT_SEARCH, conjugate="no",
        equaliser="yes" if cell.held.stretches.has_equaliser else "no",
    )  # fmt: skip
    return Recording(cell.part.path, left.count, options)


def carrier_of(cell: Cell) -> float:
    """Returns a cell's carrier half way, in Hz above the middle."""
    fit = cell.held.pieces[0].fit
    return float(fit.hertz((fit.chip[0] + fit.chip[-1]) / 2))
