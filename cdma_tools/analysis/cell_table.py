"""The table of a recording's cells: who they are, how strong each is in all that was received, and when each comes."""

import contextlib
import os
from collections.abc import Iterator, Sequence
from dataclasses import asdict, dataclass
from typing import Any, Callable

from cdma_tools.analysis.cells import Cell, Search, later
from cdma_tools.lines import NoLine, read_line
from cdma_tools.program import written_of
from cdma_tools.radio.air import CHIP_RATE, PERIOD, decibels
from cdma_tools.radio.locking import Locked, write_held
from cdma_tools.radio.second_pass import chips_of
from cdma_tools.radio.strength import PilotMeter, emptied
from cdma_tools.recordings import Recording, Samples

LIGHT = 299_792_458.0  # metres a second
OFFSET_CHIPS = 64  # from the code of one pilot offset to the next (7.1.3.1.9)
Reads = Sequence[dict[str, Any]]  # objects of the lines that the program wrote of a cell


@dataclass(frozen=True)
class CellFacts:
    """What is known of a cell; None if no message has it."""

    rank: int  # by strength, from 1 on
    pn: int | None
    ec_io_db: float  # of all power that was received, the other cells with it
    seconds: float  # over which Ec/Io was taken
    phase: int  # the code phase at the first received chip
    delay_chips: float | None  # against the first cell, on top of the offsets
    carrier_hz: float
    carrier_difference_hz: float  # against the first cell
    sync_messages: int
    paging_messages: int
    sid: int | None
    nid: int | None
    base_id: int | None

    @property
    def delay_us(self) -> float | None:
        """The delay in microseconds."""
        return None if self.delay_chips is None else self.delay_chips / CHIP_RATE * 1e6

    @property
    def delay_m(self) -> float | None:
        """The delay as metres of way."""
        return None if self.delay_chips is None else self.delay_chips / CHIP_RATE * LIGHT

    @property
    def line(self) -> str:
        """Returns what is known as name=value."""
        return " ".join(f"{name}={value}" for name, value in self.as_json().items() if value is not None)

    def as_json(self) -> dict[str, Any]:
        """The facts by their names, numbers rounded to what they are exact to."""
        told = asdict(self) | {"delay_us": self.delay_us, "delay_m": self.delay_m}
        decimals = {"ec_io_db": 2, "delay_chips": 3, "delay_us": 3, "delay_m": 1}
        return {
            name: round(value, decimals.get(name, 3)) if isinstance(value, float) else value
            for name, value in told.items()
        }


def middle_hertz(cell: Cell) -> float:
    """Returns a cell's carrier half way through what was received of it."""
    fit = cell.held.pieces[0].fit
    return float(fit.hertz((fit.chip[0] + fit.chip[-1]) / 2))


def received(cell: Cell, recorded: Samples) -> PilotMeter:
    """What a meter shows of a cell's chips in all that was received."""
    front, before = cell.held.front, cell.held.front.recording
    front.recording = recorded
    try:
        meter = PilotMeter(1 - emptied(front))
        for piece in cell.held.pieces:
            for first, part in chips_of(front, piece):
                meter.add(first, part)
    finally:
        front.recording = before
    return meter


def last_read(reads: Reads, line: str, message: str | None = None) -> dict[str, Any] | None:
    """The last object of a kind of line."""
    return next((read for read in reversed(reads) if read["line"] == line and read.get("message") == message), None)


def pn_heard(reads: Reads) -> int | None:
    """Returns PILOT_PN of the last sync message."""
    sync = last_read(reads, "sync")
    return int(sync["pn"]) if sync else None


def delay_of(cell: Cell, first: Cell, pn: int | None, first_pn: int | None) -> float | None:
    """Returns the chips by which a cell's code is later than the first one's, beyond the difference of their offsets.
    """
    if cell is first:
        return 0.0
    if pn is None or first_pn is None:
        return None
    chips = later(cell, first) - OFFSET_CHIPS * (pn - first_pn)
    return float((chips + PERIOD / 2) % PERIOD - PERIOD / 2)


@dataclass(frozen=True)
class HeardAlone:
    """A cell without the others: its lock, and what the program decoded from it."""

    cell: Cell
    locked: Locked
    reads: Reads


def facts_of(heard: Sequence[HeardAlone], recorded: Recording) -> list[CellFacts]:
    """The table of cells, strongest first.

    The strongest one's Ec/Io is that of its lock. The others' pilots are measured without the stronger ones, whose
    codes correlate with theirs by about a per cent, and are compared with the power that was received.
    """
    if not heard:
        return []
    made, first = [], heard[0].cell
    whole = received(first, recorded.conjugate() if first.held.is_conjugate else recorded)
    first_pn = pn_heard(heard[0].reads)
    for rank, (cell, reads) in enumerate(((one.cell, one.reads) for one in heard), 1):
        pilot = whole.pilot_power if cell is first else heard[rank - 1].locked.pilot_power
        pn, sync, system = pn_heard(reads), last_read(reads, "sync"), last_read(reads, "paging", "system")
        made.append(
            CellFacts(
                rank=rank,
                pn=pn,
                ec_io_db=decibels(pilot / whole.all_power),
                seconds=whole.chips / CHIP_RATE,
                phase=cell.held.pieces[0].first % PERIOD,
                delay_chips=delay_of(cell, first, pn, first_pn),
                carrier_hz=middle_hertz(cell),
                carrier_difference_hz=middle_hertz(cell) - middle_hertz(first),
                sync_messages=sum(read["line"] == "sync" for read in reads),
                paging_messages=sum(read["line"] == "paging" for read in reads),
                sid=sync["sid"] if sync else None,
                nid=sync["nid"] if sync else None,
                base_id=system["base"] if system else None,
            )
        )
    return made


def reads_of(text: bytes) -> list[dict[str, Any]]:
    """Returns the objects of lines that the program wrote, without texts that are not lines."""

    def read() -> Iterator[dict[str, Any]]:
        for line in text.decode("ascii", "replace").splitlines():
            with contextlib.suppress(NoLine):
                yield read_line(line)

    return list(read())


def table_of_cells(search: Search, count: int, program: str | None, tell: Callable[[int], object]) -> list[CellFacts]:
    """Returns up to `count` cells of a recording; without a program no messages are decoded. `tell` gets each cell."""
    while len(search.told) < count and search.next_cell():
        tell(1)
    heard = [heard_alone(search, cell, program) for cell in search.told]
    options = search.options
    with Recording(search.path, options.kind, float(options.rate), options.skip) as recorded:
        return facts_of(heard, recorded)


def heard_alone(search: Search, cell: Cell, program: str | None) -> HeardAlone:
    """Returns a cell without the others, with what the program decodes from it, if there is a program."""
    assert search.left is not None
    path = os.path.join(search.folder, "heard.is95")
    options = search.options._replace(version=1, scale=None, count=None)
    with open(path, "wb") as file:
        locked = write_held(cell.alone(search.left), options, file)
    try:
        with open(path, "rb") as file:
            text = b"" if program is None else written_of(program, ["follow"], file)
        return HeardAlone(cell, locked, reads_of(text))
    finally:
        os.unlink(path)
