"""One cell of several: a sample file of the K-th strongest, or of the one of a PILOT_PN, without the stronger ones."""

import os
from typing import IO, Callable, NamedTuple

from cdma_tools.analysis.cells import Cell, Search
from cdma_tools.errors import Refused
from cdma_tools.lines import NoLine, read_line
from cdma_tools.program import written_of
from cdma_tools.radio.air import PERIOD
from cdma_tools.radio.locking import Locked, Options, write_held


class Wanted(NamedTuple):
    """The wanted cell: its rank by strength from 1 on, or its PILOT_PN, with the program that decodes it."""

    rank: int | None = None
    pn: int | None = None
    program: str | None = None


class Taken(NamedTuple):
    """What was written of a cell, and the remarks on the others, a line each."""

    locked: Locked
    said: list[str]


def pn_of(program: str, path: str) -> int | None:
    """Returns PILOT_PN in the sync messages of a sample file; None if no message decodes."""
    with open(path, "rb") as file:
        text = written_of(program, ["follow", "--messages", "1"], file)
    for line in text.decode("ascii", "replace").splitlines():
        try:
            read = read_line(line)
        except NoLine:
            continue
        if read["line"] == "sync":
            return int(read["pn"])
    return None


def written_pn(search: Search, cell: Cell, program: str) -> int | None:
    """PILOT_PN of a cell, of a file that is written for that."""
    assert search.left is not None
    path = os.path.join(search.folder, "heard.is95")
    with open(path, "wb") as file:
        write_held(cell.alone(search.left), search.options._replace(version=1, scale=None, count=None), file)
    try:
        return pn_of(program, path)
    finally:
        os.unlink(path)


def told(number: int, cell: Cell, pn: int | None) -> str:
    """A line on a cell."""
    fit = cell.held.pieces[0].fit
    middle = (fit.chip[0] + fit.chip[-1]) / 2
    named = "" if pn is None else f" pn={pn}"
    return (
        f"cell {number}: phase={cell.held.pieces[0].first % PERIOD}{named} carrier_hz={float(fit.hertz(middle)):.1f}"
        f" rows={len(cell.used)}"
    )


def find(search: Search, wanted: Wanted) -> tuple[Cell, list[str]]:
    """Returns the wanted cell, and a line on each that was found; raises Refused if it isn't there."""
    lines: list[str] = []
    names: list[str] = []
    while cell := search.next_cell():
        number = len(search.told)
        pn = None
        if wanted.pn is not None:
            assert wanted.program is not None
            pn = written_pn(search, cell, wanted.program)
            names.append("no sync message" if pn is None else str(pn))
        lines.append(told(number, cell, pn))
        if number == wanted.rank or pn is not None and pn == wanted.pn:
            return cell, lines
    count = len(search.told)
    heard = f"{count} cell was found" if count == 1 else f"{count} cells were found"
    if wanted.pn is None:
        raise Refused(f"{heard}: there is no cell {wanted.rank}")
    raise Refused(f"{heard}, none of them with PILOT_PN {wanted.pn}: {', '.join(names)}")


def take(
    path: str,
    options: Options,
    wanted: Wanted,
    file: IO[bytes],
    folder: str,
    tell: Callable[[str], None] = lambda text: None,
) -> Taken:
    """Writes a sample file of one cell of a recording; `folder` is for files of the size of its samples."""
    with Search(path, options, folder, tell) as search:
        cell, lines = find(search, wanted)
        assert search.left is not None
        locked = write_held(cell.alone(search.left), options, file)
    return Taken(locked, lines)
