"""How much noise a script's cell can take, whatever the noise is (docs/LINK.md, "A link with noise").

Let each part of each sample differ by at most e from what the cell sends. A channel of gain g with a pilot of gain
g0, over a link of factor h, keeps the sign of each of its symbols if for each unit u of 1, j, -1 and -j, with
w = g0 h - e u,

    e max(|Re w|, |Im w|)  <  g Re(w conj(h))

That is the same as sixteen products, of which each moves the pilot's level and the channel's by e along an axis. The
greatest such e is the channel's margin, in units of a sample's parts.

The search over N samples finds the path if B + 4 e N < A. A is the root of the energy of the clean samples at the
path's own phase, and B the greatest root at any other phase. The greatest such e is the margin of the search.

Both are bounds for the worst noise, not statistics: a cell takes white noise of that standard deviation far better.
"""

import bisect
import dataclasses
import math
from collections.abc import Collection

from cdma_model.noise import search_roots
from cdma_model.script import Cell
from cdma_tools.errors import Refused
from cdma_tools.scripts import PILOT_ROW, SYNC_ROW, Script


@dataclasses.dataclass(frozen=True)
class Margin:
    """The margin of a channel or of the search, with the name and Walsh row of the channel that it depends on.

    `gain` is that channel's, and `amplitude` the root mean square of its own part of a sample's I or Q. `margin` is in
    the same units; `of_channel` and `of_signal` are its shares of `amplitude` and of the root mean square of all that
    the cell sends. The search depends on the pilot.
    """

    name: str
    row: int
    gain: int
    amplitude: float
    margin: int
    of_channel: float
    of_signal: float


def is_borne(re: int, im: int, pilot: int, gain: int, e: int) -> bool:
    """Returns whether a channel of this gain, with a pilot over a link of this factor, bears noise of the size e."""
    for x, y in ((1, 0), (0, 1), (-1, 0), (0, -1)):
        real, imaginary = pilot * re - e * x, pilot * im - e * y
        if e * max(abs(real), abs(imaginary)) >= gain * (real * re + imaginary * im):
            return False
    return True


def margin_of(script: Script, gain: int) -> int | None:
    """Returns the greatest noise, in units of a sample's parts, that a channel of this gain bears.

    None if it doesn't bear even 0, as if its gain is 0.
    """
    pilot, re, im = script.gains.get(PILOT_ROW, 0), int(script.link.real), int(script.link.imag)
    if not is_borne(re, im, pilot, gain, 0):
        return None
    # What moves one level to 0 isn't borne, and what is borne is all that is less than the margin or equal to it.
    most = range(gain * (abs(re) + abs(im)))
    return bisect.bisect_left(most, True, key=lambda e: not is_borne(re, im, pilot, gain, e + 1))


def name_of(script: Script, row: int) -> str:
    """Returns the name of the channel on a row."""
    if row == SYNC_ROW:
        return "sync"
    return f"paging {row}" if row in script.paging else f"traffic {row}"


def rows_sent(script: Script, rows: Collection[int] | None = None) -> list[int]:
    """Returns those of some Walsh rows, or of all but the pilot's, on which channels are sent, in the script's order.

    Refused if no channel is sent on one of the rows, or if nothing but a pilot is sent.
    """
    for row in rows or ():
        if row not in script.gains or row == PILOT_ROW:
            raise Refused(f"no channel is sent on row {row}" if row != SYNC_ROW else "no sync channel is sent")
    meant = [row for row in script.gains if row != PILOT_ROW and (rows is None or row in rows)]
    if not meant:
        raise Refused("nothing but a pilot is sent")
    return meant


def margins(script: Script, rows: Collection[int] | None = None) -> list[Margin]:
    """Returns the margins of the channels on some rows, or of all but the pilot, in the order of the script.

    Refused as `rows_sent` refuses, or if a channel bears no noise.
    """
    return [channel_margin(script, row) for row in rows_sent(script, rows)]


def all_margins(script: Script, cell: Cell, span: int, rows: Collection[int] | None = None) -> list[Margin]:
    """Returns the margin of the search over the first `span` samples, and then those of channels, as `margins` does.

    `cell` is the cell of the script.
    """
    channels = margins(script, rows)
    return [search_margin(script, cell, span), *channels]


def channel_margin(script: Script, row: int) -> Margin:
    """Returns the margin of the channel on a row; Refused if it bears no noise."""
    gain, name = script.gains[row], name_of(script, row)
    margin = margin_of(script, gain)
    if not margin:
        pilot, factor = script.gains.get(PILOT_ROW, 0), script.link
        why = f"gain {gain}, pilot {pilot}, link re={factor.real:.0f} im={factor.imag:.0f}"
        raise Refused(f"{name} bears no noise: its margin is 0 ({why})")
    return with_shares(script, name, row, margin)


def search_margin(script: Script, cell: Cell, span: int) -> Margin:
    """Returns the margin of the search over the first `span` samples; Refused if it bears no noise.

    `cell` is the cell of the script.
    """
    if cell.samples < span:
        raise Refused(f"the cell sends {cell.samples:,} samples, but the search needs {span:,}")
    roots = search_roots(cell, span)
    margin = roots.margin()
    if not margin:
        why = f"the root of the energy is {roots.own:,} at the cell's phase and {roots.others:,} at another one"
        raise Refused(f"the search over {span:,} samples bears no noise: {why}")
    return with_shares(script, "search", PILOT_ROW, margin)


def with_shares(script: Script, name: str, row: int, margin: int) -> Margin:
    """Returns a margin that depends on the channel on a row, with its shares."""
    amplitude, signal = script.gains[row] * abs(script.link), math.sqrt(script.power() / 2)
    return Margin(name, row, script.gains[row], amplitude, margin, margin / amplitude, margin / signal)
