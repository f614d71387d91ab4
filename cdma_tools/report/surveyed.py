"""The pilots of a survey, explained by what was received.

`survey` counts each phase to the offset that is next to it, at most 31 chips away. A pilot that comes later than that,
by its way, stands at the next offset there: PN 411, 55 chips late, at PN 412, 9 chips early. Here it is moved to the
likely offset by what was received, in this order:

1. a cell that was received in the recording, at its own delay;
2. the serving cell, or one of its neighbor list, within the search window of the System Parameters;
3. another multiple of PILOT_INC, within the window for all others.
"""

from dataclasses import dataclass, field
from typing import Any, NamedTuple, Sequence

from cdma_tools.analysis.cell_table import CellFacts
from cdma_tools.report.gathering import STEP, Gathered, Ran
from cdma_tools.report.meaning import WINDOW_CHIPS

OFFSETS = 512  # pilot offsets (7.1.3.1.9)
SURE = 3.0  # chips by which a survey's phase may differ from a received cell's: a half, and a remaining clock error
MOST_STEPS = 4  # offsets to each side to which a pilot may be moved: 256 chips, half of the widest window
# The widths of windows in chips without System Parameters: as wide as the survey's own.
DEFAULT_WINDOW = 2 * 31


class Surveyed(NamedTuple):
    """A pilot of the survey: its offset, by how many chips it comes later, its strength, and the number of its line."""

    pn: int
    late: int
    strength: float
    number: int


@dataclass(frozen=True)
class Heard:
    """What was received of the pilots around; windows are whole widths in chips."""

    serving: int | None = None
    cells: dict[int, float] = field(default_factory=dict)  # delays in chips against the serving cell, by PILOT_PN
    neighbors: frozenset[int] = frozenset()
    increment: int = 1
    active: int = DEFAULT_WINDOW
    neighbor: int = DEFAULT_WINDOW
    remaining: int = DEFAULT_WINDOW


def last(ran: Ran, message: str) -> dict[str, Any] | None:
    """The last page of a kind."""
    found = [read for _, read in ran.reads("paging") if read.get("message") == message]
    return found[-1] if found else None


def heard_of(gathered: Gathered, cells: Sequence[CellFacts]) -> Heard:
    """Returns what the messages of the strongest cell, and the table of cells, say of the pilots around."""
    syncs = gathered.follow.reads("sync")
    system, neighbors = last(gathered.follow, "system"), last(gathered.follow, "neighbors")
    widths = [WINDOW_CHIPS[system[f"win{name}"]] if system else DEFAULT_WINDOW for name in "anr"]
    delays = {cell.pn: cell.delay_chips for cell in cells if cell.pn is not None and cell.delay_chips is not None}
    return Heard(
        serving=int(syncs[-1][1]["pn"]) if syncs else None,
        cells=delays,
        neighbors=frozenset(int(pn) for _, pn in neighbors["pilots"]) if neighbors else frozenset(),
        increment=max(1, int(neighbors["inc"])) if neighbors else 1,
        active=widths[0],
        neighbor=widths[1],
        remaining=widths[2],
    )


def rank_of(pn: int, late: int, heard: Heard) -> int | None:
    """Returns how likely a pilot is that of an offset, 0 for the most; None if it can't be."""
    if pn in heard.cells:
        return 0 if abs(late - heard.cells[pn]) <= SURE else None
    if pn == heard.serving:
        return 1 if 2 * abs(late) <= heard.active else None
    if pn in heard.neighbors:
        return 1 if 2 * abs(late) <= heard.neighbor else None
    if pn % heard.increment == 0:
        return 2 if 2 * abs(late) <= heard.remaining else None
    return None


def explained(pilot: Surveyed, heard: Heard) -> Surveyed:
    """The pilot at the offset that is most likely; as the survey has it if none is."""
    likely = []
    for steps in range(-MOST_STEPS, MOST_STEPS + 1):
        pn, late = (pilot.pn + steps) % OFFSETS, pilot.late - STEP * steps
        if (rank := rank_of(pn, late, heard)) is not None:
            likely.append((rank, abs(late), pn, late))
    if not likely:
        return pilot
    _, _, pn, late = min(likely)
    return pilot._replace(pn=pn, late=late)


def explained_pilots(pilots: list[Surveyed], floor: float, heard: Heard) -> list[Surveyed]:
    """Returns the pilots of a survey, strongest first, each offset once: those above the floor at likely offsets.

    If no sync message has the offsets, they stay as they are.
    """
    if heard.serving is None:
        return pilots
    moved = [explained(pilot, heard) if pilot.strength >= floor else pilot for pilot in pilots]
    kept: dict[int, Surveyed] = {}
    for pilot in sorted(moved, key=lambda one: -one.strength):
        kept.setdefault(pilot.pn, pilot)
    return list(kept.values())
