"""The second pass: one sample a chip, at the fitted instants, without carrier, scaled once and written."""

from typing import IO, Callable, Iterator, NamedTuple

import numpy
from numpy.typing import NDArray

from cdma_tools.radio.fitting import Fit
from cdma_tools.radio.front import AT_ONCE, GUARD, Front, turn
from cdma_tools.radio.strength import PilotMeter, emptied
from cdma_tools.sample_file import FORM, GREATEST

# The root mean square at which chips are written, by the file's version. A part is a Gaussian variable or nearly so;
# 16 bits leave it 22 dB for bursts, 8 bits 16 dB.
ROOT_MEAN_SQUARE = {1: 2_500.0, 2: 20.0}
# Chips of a row of the turning: 32 times 32 of them make a block, so a block takes 64 sines and not 1,024.
TURN_ROW = 32
# Zeros that are written at once where chips were lost.
ZEROS = 1 << 16


class Piece(NamedTuple):
    """Chips from `first` to before `behind`, by one fit."""

    fit: Fit
    first: int
    behind: int


class Written(NamedTuple):
    """What the second pass saw: parts that were cut at the ends of the range, chips that are zeros, and the pilot.

    Its Ec/Io is in dB, its power that of a chip before scaling.
    """

    cut: int
    lost: int
    ec_io: float
    pilot_power: float


def ramps(turns: NDArray[numpy.float64], rates: NDArray[numpy.float64], count: int) -> NDArray[numpy.complex64]:
    """exp(2 pi j (turns + rates k)) for k of 0 to count - 1, a row for each of the turns, as products of two."""
    rows = -(-count // TURN_ROW)
    coarse = turn(turns[:, None] + rates[:, None] * (TURN_ROW * numpy.arange(rows)))
    fine = turn(rates[:, None] * numpy.arange(TURN_ROW))
    return (coarse[:, :, None] * fine[:, None, :]).reshape(len(turns), -1)[:, :count]


def chips_of(front: Front, piece: Piece, delay: float = 0.0) -> Iterator[tuple[int, NDArray[numpy.complex64]]]:
    """A piece's chips at the fitted instants without carrier, some 100,000 at a time, each with its first's number.

    They are taken `delay` chips later, as those of another path are.
    """
    fit, hop = piece.fit, front.hop
    for start in range(piece.first, piece.behind, AT_ONCE * hop):
        rows = min(AT_ONCE, -(-(piece.behind - start) // hop))
        firsts = start + hop * numpy.arange(rows, dtype=float)
        middles = firsts + hop / 2
        out = front.blocks(fit.times(middles) + delay - front.chips / 2, 1, fit.offset.derivative(middles))
        # In a block of less than a millisecond the carrier is steady.
        rates = fit.rate(middles)
        chips = out[:, GUARD : GUARD + hop] * ramps(rates * (hop / 2) - fit.turned(middles), -rates, hop)
        yield start, chips.reshape(-1)[: piece.behind - start]


def whole_parts(chips: NDArray[numpy.complex64], scale: float, version: int) -> tuple[NDArray[numpy.int16], int]:
    """Returns the parts, i and q in turn, as a sample file stores them, and the number cut at the ends of the range."""
    parts = numpy.rint(numpy.ascontiguousarray(chips).view(numpy.float32) * numpy.float32(scale))
    top = GREATEST[version]
    cut = 0
    if len(parts) and max(float(parts.max()), -float(parts.min())) > top:
        cut = int(numpy.count_nonzero((parts > top) | (parts < -top - 1)))
        numpy.clip(parts, -top - 1, top, out=parts)
    return parts.astype(FORM[version]), cut


def write_chips(
    front: Front,
    pieces: list[Piece],
    file: IO[bytes],
    count: int,
    scale: float,
    version: int,
    tell: Callable[[float], None],
) -> Written:
    """Writes `count` chips of pieces, with zeros between them for lost chips; `tell` gets the part that is done."""
    meter, cut, lost = PilotMeter(1 - emptied(front)), 0, 0
    begin = chip = pieces[0].first
    end = begin + count
    size = 2 * numpy.dtype(FORM[version]).itemsize
    for piece in pieces:
        gap = max(0, min(piece.first, end) - chip)
        for start in range(0, gap, ZEROS):
            file.write(bytes(size * min(ZEROS, gap - start)))
        lost, chip = lost + gap, max(chip, min(piece.first, end))
        for first, chips in chips_of(front, piece._replace(behind=min(piece.behind, end))):
            meter.add(first, chips)
            parts, more = whole_parts(chips, scale, version)
            file.write(parts.tobytes())
            cut, chip = cut + more, first + len(chips)
            tell((chip - begin) / count)
    return Written(cut, lost, meter.ec_io, meter.pilot_power)
