"""The noise that a cell's channels bear, and the worst noise of a size (docs/LINK.md, "A link with noise")."""

import math
from dataclasses import replace
from typing import Any, NamedTuple

import numpy as np
from numpy.typing import NDArray

from cdma_model.cell import OFFSET_STEP, samples
from cdma_model.codes import PERIOD
from cdma_model.script import PILOT_ROW, SYNC_ROW, Cell
from cdma_model.search import energies
from cdma_model.words import read_words


UNITS = ((1, 0), (0, 1), (-1, 0), (0, -1))


def bears(cell: Cell, gain: int, noise: int) -> bool:
    """Whether no noise of this size, in either part of each sample, turns a symbol of a channel of this gain: moved along
    any axis each, the pilot's level and the channel's have a product above 0."""

    def moved(by: int) -> list[tuple[int, int]]:
        return [(by * cell.re + noise * x, by * cell.im + noise * y) for x, y in UNITS]

    return all(p * x + q * y > 0 for p, q in moved(cell.pilot_gain) for x, y in moved(gain))


def margin(cell: Cell, gain: int) -> int | None:
    """Returns the greatest noise that a channel of this gain bears; None if it doesn't even bear noise of 0."""
    if not bears(cell, gain, 0):
        return None
    least, beyond = 0, 1
    while bears(cell, gain, beyond):
        least, beyond = beyond, 2 * beyond
    while beyond - least > 1:
        middle = (least + beyond) // 2
        least, beyond = (middle, beyond) if bears(cell, gain, middle) else (least, middle)
    return least


class Roots(NamedTuple):
    """Roots of the energies of a cell's `span` clean samples: that of the path's own phase, rounded down, and the
    greatest one of all other phases, rounded up."""

    own: int
    others: int
    span: int

    def margin(self) -> int | None:
        """Returns the greatest noise through which the search finds the path; None if it bears not even none.

        Noise of the size e changes a root by at most 2 e for each sample, so that of the path stays greater than all
        others if others + 4 e span < own.
        """
        apart = self.own - self.others - 1
        return apart // (4 * self.span) if apart >= 0 else None


def own_phase(cell: Cell) -> int:
    """Returns the phase of the code at which the cell's path stands in its samples."""
    return (cell.start - OFFSET_STEP * cell.pn) % PERIOD


def search_roots(cell: Cell, span: int) -> Roots:
    """Returns the roots of the energies of the cell's first `span` samples, or of all of them if it sends fewer."""
    clean = np.concatenate(list(samples(replace(cell, samples=min(span, cell.samples)))))
    found = energies(clean)
    own, others = int(found[own_phase(cell)]), int(np.delete(found, own_phase(cell)).max())
    root = math.isqrt(others)
    return Roots(math.isqrt(own), root + (root * root < others), len(clean))


def rows_heard(words: list[str]) -> list[int]:
    """Returns the Walsh rows of the channels that a command receives besides the pilot's, the sync channel's first."""
    _, options = read_words(words)
    return [SYNC_ROW, *(options[name] for name in ("paging", "row") if name in options)]


def margins(cell: Cell, rows: list[int]) -> dict[int, int | None]:
    """The margin of each channel on such a row that the cell sends."""
    return {row: margin(cell, gain) for row, gain in cell.gains() if row in rows and row != PILOT_ROW}


def against(cell: Cell, row: int, size: int) -> NDArray[Any]:
    """Returns noise against the channel on a row: in each part of each sample it has this size and the sign opposite to
    the channel's part of the sample, and is 0 if the channel adds nothing."""
    adds = np.concatenate(list(samples(cell, {row})))
    return -size * (np.sign(adds.real) + 1j * np.sign(adds.imag))


def divided(parts: NDArray[Any], by: int) -> NDArray[Any]:
    """Whole numbers divided by another and rounded to the nearest, a half upwards."""
    return (2 * parts + by) // (2 * by)


def rounded(sums: NDArray[Any], by: int) -> NDArray[Any]:
    """Samples whose parts are divided and rounded."""
    return divided(sums.real.astype(np.int64), by) + 1j * divided(sums.imag.astype(np.int64), by)


def weaker(cell: Cell, by: int) -> Cell | None:
    """Returns the cell over a link that is weaker by a factor; None if its own factor isn't whole then."""
    if cell.re % by or cell.im % by:
        return None
    return replace(cell, re=cell.re // by, im=cell.im // by)
