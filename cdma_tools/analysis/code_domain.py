"""The code domain: the power, the phase and the time of each Walsh row of a cell's chips, and how well they are sent.

Formulas, for chips x and the rows y_r of their blocks (`walsh`): u is the pilot's gain g over its absolute value,
smoothed over some milliseconds, and a mean is taken over the blocks.

- The power of a row is P_r = 2 mean(Re(y_r / u)^2 - Im(y_r / u)^2). Noise and other cells have both parts alike, so
  none of it is left. The pilot's is P_0 = 2 mean(Re(y_0(b) conj y_0(b + 1))), whose two noises are independent.
- The noise of a row is N = 2 mean(Im(y_r / u)^2) over all rows but the pilot's: it spreads P_r by 2 N / sqrt(blocks).
- The share of a row is P_r / (k I - q S), where I is the mean of |x|^2, S the sum of P_r over the rows in use, and q
  the power of the pulse's sides (`pulse`), which the transmitter doesn't send as an error. The factor k is the part of
  a pulse's power that the front leaves, which empties the bin of direct current: I is k times what it would be, P_r k^2
  times. The sum of the shares of the rows in use is rho, at most 1. Its spread is that of the means of parts of the
  chips. The error vector is sqrt((1 - rho) / rho).
- The total of a row is the standard's code domain power, with the noise that falls into it:
  (2 mean(|y_r|^2) - q S / 64) / (k I - q S), without the pulse's sides, which spread evenly. The 64 totals add up to 1.
  The floor is the mean of the totals of the rows that aren't in use.
- Where only the pilot is sent its waveform quality is the standard's rho, coherent over a power control group:
  2 mean(|g|^2) / (k I - q S), with the mean g of each group.
- The phase of a row is half the angle of the sum of (y_r / u)^2.
- The time of a row is -mean(Re(y'_r / u y_r / u)) / (P_r / 2 sum R'(k)^2), where y' are the rows of
  sum_k x(n + k) R'(k).
"""

from dataclasses import dataclass
from typing import Any, Iterable, NamedTuple

import numpy
from numpy.typing import NDArray

from cdma_tools.analysis.pulse import REACH, SLOPES_REACH, matched_pulse, slopes_of
from cdma_tools.analysis.walsh import (
    FRAME_BLOCKS,
    GROUP_BLOCKS,
    PILOT_ROW,
    SYNC_BLOCKS,
    SYNC_ROW,
    despread,
    moving,
    to_whole_symbols,
)
from cdma_tools.radio.air import CHIP_RATE, PERIOD, ROWS, decibels, ratio_of, short_code

# Chips that are taken at once: 80 ms, three periods of the code and 64 power control groups. All that is done with them
# stays in a processor's cache.
PIECE = 3 * PERIOD
GROUP_CHIPS = GROUP_BLOCKS * ROWS
GROUPS_A_FRAME = FRAME_BLOCKS // GROUP_BLOCKS
# Groups over which the pilot's gain is smoothed: 3.75 ms.
SMOOTHED = 3
# Standard deviations of noise from which a row counts as in use, and the least share in dB: 64 rows of noise pass six
# of them once in ten million times, and the pulse's sides make rows of -45 dB.
LEAST_SIGMA, LEAST_SHARE = 6.0, -33.0
# Parts of the chips, whose values of rho give its spread.
PARTS = 16
# The least spread of noise that is reckoned with, as a part of all power: made files have none.
LEAST_SPREAD = 1e-7
# Chips to each side at which the pulse after its filter is widest.
WIDEST_SIDE = 4


class Chips(NamedTuple):
    """A run of a cell's chips, and the code phase of its first."""

    phase: int
    chips: NDArray[numpy.complex64]


@dataclass(frozen=True)
class Row:
    """What one Walsh row shows; its phase and its time are relative to the pilot's."""

    row: int
    db: float  # of all power, without the noise in it; -99 if nothing is left
    total_db: float  # of all power, with the noise in it: the standard's code domain power
    sigma: float  # its power above the noise, in standard deviations
    is_used: bool
    degrees: float
    chips: float


@dataclass(frozen=True)
class CodeDomain:
    """The 64 rows over the whole and by frames, and the quality of the waveform."""

    rows: tuple[Row, ...]
    frames: NDArray[numpy.float32]  # (frames, 64), parts of all power of that frame
    rho: float  # at most 1
    rho_spread: float  # the standard deviation of rho
    pilot_share: float  # the pilot's part of all power
    pilot_only_rho: float | None  # the standard's waveform quality where only the pilot is sent
    chips: int  # that were measured
    time_left: float  # delay of the pilot, in chips, against the instants of the chips
    carrier_left: float  # Hz
    peak_db: float  # the greatest power of a chip over the mean
    in_rows: float  # the power of the rows in use over that of all chips

    @property
    def used(self) -> list[Row]:
        """The rows in use."""
        return [row for row in self.rows if row.is_used]

    @property
    def unused(self) -> list[Row]:
        """The other rows, the one with the greatest total first."""
        return sorted((row for row in self.rows if not row.is_used), key=lambda row: -row.total_db)

    @property
    def floor_db(self) -> float:
        """The mean of the totals of the rows that aren't in use, in dB of all power."""
        return decibels(float(numpy.mean([ratio_of(row.total_db) for row in self.unused]))) if self.unused else -99.0


class Sums(NamedTuple):
    """Sums of a piece, by groups of 24 blocks: (groups, 64) each, and the pilot's smoothed gain (groups,).

    `squares` are of (y / u)^2, `powers` of |y|^2, and `lates` of y' / u times y / u, real parts; `total` is |x|^2, and
    `four` the sync row's squares over symbols of four blocks.
    """

    squares: NDArray[numpy.complex64]
    powers: NDArray[numpy.float32]
    lates: NDArray[numpy.float32]
    total: NDArray[numpy.float64]
    four: NDArray[numpy.float64]
    gains: NDArray[numpy.complex64]
    neighbours: NDArray[numpy.float64]
    peak: float


def smoothed_gain(pilot: NDArray[numpy.complex64]) -> tuple[NDArray[numpy.complex64], NDArray[numpy.complex64]]:
    """The pilot's gain at each block, drawn straight between the smoothed ones of groups; and those of groups."""
    groups = pilot.reshape(-1, GROUP_BLOCKS).mean(axis=1)
    smooth = moving(groups, SMOOTHED)
    at = numpy.arange(len(pilot))
    middles = GROUP_BLOCKS * (numpy.arange(len(groups)) + 0.5) - 0.5
    drawn = numpy.interp(at, middles, smooth.real) + 1j * numpy.interp(at, middles, smooth.imag)
    return drawn.astype(numpy.complex64), groups


def by_groups(values: NDArray[Any]) -> NDArray[Any]:
    """The sums of rows (64, blocks) over groups, (groups, 64)."""
    sums: NDArray[Any] = values.reshape(ROWS, -1, GROUP_BLOCKS).sum(axis=2).T
    return sums


def sums_of(chips: NDArray[numpy.complex64], slopes: NDArray[numpy.complex64] | None, phase: int) -> Sums:
    """Returns the sums of whole groups of chips, the first of which begins a block; slopes are of the same chips, if
    wanted."""
    rows = despread(chips, phase)
    pilot = rows[PILOT_ROW]
    gain, groups = smoothed_gain(pilot)
    unit = gain.conj() / numpy.maximum(numpy.abs(gain), numpy.float32(1e-30))
    products = (pilot[1:] * pilot[:-1].conj()).real
    neighbours = numpy.add.reduceat(numpy.append(products, 0.0), numpy.arange(0, len(pilot), GROUP_BLOCKS), dtype=float)
    powers = (chips.real**2 + chips.imag**2).reshape(-1, GROUP_CHIPS)
    rows *= unit
    squares = rows * rows
    sizes = rows.real**2 + rows.imag**2
    lates = numpy.zeros((len(groups), ROWS), dtype=numpy.float32)
    if slopes is not None:
        late = despread(slopes, phase) * unit
        lates = by_groups(late.real * rows.real - late.imag * rows.imag)
    fours = rows[SYNC_ROW].reshape(-1, SYNC_BLOCKS).sum(axis=1) / SYNC_BLOCKS
    four = (fours.real**2 - fours.imag**2).reshape(len(groups), -1)
    return Sums(
        by_groups(squares), by_groups(sizes), lates, powers.sum(axis=1, dtype=float), four.sum(axis=1, dtype=float),
        groups, neighbours, float(powers.max()),
    )  # fmt: skip


class Meter:
    """Takes a cell's chips in runs of any length, and returns its code domain."""

    def __init__(self, has_times: bool = True, is_pulsed: bool = True, kept: float = 1.0) -> None:
        """`has_times` also measures the rows' times; `is_pulsed` is set if chips come through the pulse and its filter.

        `kept` is the part of a pulse's power that the front left of it.
        """
        self.has_times, self.is_pulsed, self.kept_power = has_times, is_pulsed, kept
        self.sums: list[Sums] = []
        self.kept = numpy.zeros(0, dtype=numpy.complex64)
        self.phase: int | None = None  # of the first chip that is kept

    def add(self, run: Chips) -> None:
        """Takes chips; if they don't follow the last ones, what doesn't fill a group is left out."""
        if self.phase is None or (self.phase + len(self.kept)) % PERIOD != run.phase % PERIOD:
            self.finish_run()
            skip = to_whole_symbols(run.phase + SLOPES_REACH)
            self.phase, self.kept = (run.phase + skip) % PERIOD, run.chips[skip:]
        else:
            self.kept = numpy.concatenate([self.kept, run.chips])
        while len(self.kept) >= PIECE + 2 * SLOPES_REACH:
            self.take(PIECE)

    def finish_run(self) -> None:
        """Takes what is kept, as far as it fills groups."""
        count = (len(self.kept) - 2 * SLOPES_REACH) // GROUP_CHIPS * GROUP_CHIPS
        if count > 0:
            self.take(count)

    def take(self, count: int) -> None:
        """Measures the first chips that are kept, which have SLOPES_REACH more before and after them."""
        assert self.phase is not None
        chips = self.kept[SLOPES_REACH : SLOPES_REACH + count]
        slopes = slopes_of(self.kept[: count + 2 * SLOPES_REACH]) if self.has_times else None
        self.sums.append(sums_of(chips, slopes, self.phase + SLOPES_REACH))
        self.kept, self.phase = self.kept[count:], (self.phase + count) % PERIOD

    def domain(self) -> CodeDomain | None:
        """Returns what all chips show; None if they don't fill a group."""
        self.finish_run()
        self.phase, self.kept = None, self.kept[:0]
        return domain_of(self.sums, self.has_times, self.is_pulsed, self.kept_power) if self.sums else None


class Levels(NamedTuple):
    """Powers of the 64 rows with and without noise, and of all chips, over some groups."""

    signal: NDArray[numpy.float64]
    total: NDArray[numpy.float64]
    mean: float
    blocks: int


def levels_of(sums: list[Sums], squares: NDArray[numpy.complex64], powers: NDArray[numpy.float32]) -> Levels:
    """The powers over all groups of pieces, whose squares and powers are given joined."""
    blocks = len(squares) * GROUP_BLOCKS
    mean = sum(float(piece.total.sum()) for piece in sums) / (blocks * ROWS) or 1e-30
    signal = 2 * squares.real.sum(axis=0, dtype=float) / blocks
    signal[PILOT_ROW] = 2 * sum(float(piece.neighbours.sum()) for piece in sums) / (blocks - len(sums))
    signal[SYNC_ROW] = 2 * sum(float(piece.four.sum()) for piece in sums) / (blocks / SYNC_BLOCKS)
    return Levels(signal, 2 * powers.sum(axis=0, dtype=float) / blocks, mean, blocks)


class Quality(NamedTuple):
    """The rows in use, and all rows' shares and totals."""

    sigma: NDArray[numpy.float64]
    used: NDArray[numpy.bool_]
    shares: NDArray[numpy.float64]
    totals: NDArray[numpy.float64]
    clean: float  # all power without the pulse's sides


def quality_of(levels: Levels, noise: float, is_pulsed: bool, kept: float) -> Quality:
    """Returns what the powers of rows show, with `noise` in a row's real part."""
    signal, total, mean, blocks = levels
    spread = numpy.full(ROWS, 2 * noise / numpy.sqrt(blocks))
    spread[SYNC_ROW] /= numpy.sqrt(SYNC_BLOCKS)
    sigma = signal / numpy.maximum(spread, LEAST_SPREAD * mean)
    used = (sigma > LEAST_SIGMA) & (signal / mean > 10 ** (LEAST_SHARE / 10))
    used[PILOT_ROW] = True
    own = (matched_pulse().sides if is_pulsed else 0.0) * float(signal[used].sum())
    clean = kept * mean - own
    return Quality(sigma, used, signal / clean, numpy.maximum(total - own / ROWS, 0.0) / clean, clean)


def spread_of(sums: list[Sums], used: NDArray[numpy.bool_], ratio: float) -> float:
    """The standard deviation of rho, by the means of parts; `ratio` is rho over the rows' part of all chips."""
    signal = numpy.concatenate([piece.squares.real[:, used].sum(axis=1, dtype=float) for piece in sums])
    pilot = numpy.concatenate([piece.squares.real[:, PILOT_ROW] for piece in sums])
    neighbours = numpy.concatenate([piece.neighbours for piece in sums])
    total = numpy.concatenate([piece.total for piece in sums])
    parts = min(PARTS, len(total))
    if parts < 2:
        return 0.0
    held = signal - pilot + neighbours  # the pilot's power is that between neighbouring blocks, as in the whole
    shares = [
        2 * ROWS * float(one.sum()) / max(float(other.sum()), 1e-30)
        for one, other in zip(numpy.array_split(held, parts), numpy.array_split(total, parts))
    ]
    return ratio * float(numpy.std(shares, ddof=1)) / float(numpy.sqrt(parts))


def domain_of(sums: list[Sums], has_times: bool, is_pulsed: bool, kept: float) -> CodeDomain:
    """The code domain of what pieces add up."""
    squares, powers, lates = (numpy.concatenate([piece[k] for piece in sums]) for k in (0, 1, 2))
    total = numpy.concatenate([piece.total for piece in sums])
    levels = levels_of(sums, squares, powers)
    noise = float((powers - squares.real)[:, 1:].mean(dtype=float)) / GROUP_BLOCKS
    sigma, used, shares, totals, clean = quality_of(levels, noise, is_pulsed, kept)
    degrees, times = phases_and_times(squares, lates, levels.signal, levels.blocks, has_times)
    rows = tuple(
        Row(
            row, decibels(float(shares[row])), decibels(float(totals[row])), float(sigma[row]), bool(used[row]),
            degrees[row] - degrees[PILOT_ROW], times[row] - times[PILOT_ROW],
        )
        for row in range(ROWS)  # fmt: skip
    )
    in_rows = float(levels.signal[used].sum()) / (kept * levels.mean)
    gains = numpy.concatenate([piece.gains for piece in sums])
    pilot_only = 2 * float(numpy.mean(numpy.abs(gains) ** 2)) / clean if used.sum() == 1 else None
    return CodeDomain(
        rows=rows,
        frames=by_frames(squares, total),
        rho=min(float(shares[used].sum()), 1.0),
        rho_spread=spread_of(sums, used, kept * levels.mean / clean),
        pilot_share=float(shares[PILOT_ROW]),
        pilot_only_rho=None if pilot_only is None else min(pilot_only, 1.0),
        chips=levels.blocks * ROWS,
        time_left=times[0],
        carrier_left=carrier_of(sums),
        peak_db=decibels(max(piece.peak for piece in sums) / levels.mean),
        in_rows=in_rows,
    )


def phases_and_times(
    squares: NDArray[numpy.complex64],
    lates: NDArray[numpy.float32],
    level: NDArray[numpy.float64],
    blocks: int,
    has_times: bool,
) -> tuple[list[float], list[float]]:
    """The phases in degrees and the times in chips of all rows."""
    degrees = numpy.degrees(numpy.angle(squares.sum(axis=0, dtype=complex))) / 2
    if not has_times:
        return degrees.tolist(), [0.0] * ROWS
    held = numpy.maximum(numpy.abs(level) / 2 * blocks, 1e-30) * matched_pulse().steepness
    return degrees.tolist(), (-lates.sum(axis=0, dtype=float) / held).tolist()


def by_frames(squares: NDArray[numpy.complex64], total: NDArray[numpy.float64]) -> NDArray[numpy.float32]:
    """The rows' parts of the power of each run of 16 groups, a frame's length."""
    frames = len(squares) // GROUPS_A_FRAME
    kept = frames * GROUPS_A_FRAME
    power = 2 * ROWS * squares.real[:kept].reshape(frames, GROUPS_A_FRAME, ROWS).sum(axis=1, dtype=float)
    held = total[:kept].reshape(frames, GROUPS_A_FRAME).sum(axis=1)
    parts: NDArray[numpy.float32] = (power / numpy.maximum(held, 1e-30)[:, None]).astype(numpy.float32)
    return parts


def carrier_of(sums: list[Sums]) -> float:
    """The carrier that is left in Hz: the slope of a line through the pilot's phase, weighted by its power."""
    gains = numpy.concatenate([piece.gains for piece in sums])
    if len(gains) < 3:
        return 0.0
    seconds = numpy.arange(len(gains)) * GROUP_CHIPS / CHIP_RATE
    turns = numpy.unwrap(numpy.angle(gains)) / (2 * numpy.pi)
    return float(numpy.polyfit(seconds, turns, 1, w=numpy.abs(gains))[0])


def is_pulsed(run: Chips) -> bool:
    """Whether chips come through the pulse and its filter: the pilot is then also 4 chips to each side, with a 13th.

    A file that `make` wrote has exactly one chip at each instant; one of a lock has the pulse's sides.
    """
    side, count = WIDEST_SIDE, (len(run.chips) - 2 * WIDEST_SIDE) // GROUP_CHIPS * GROUP_CHIPS
    code = short_code()[(run.phase + side + numpy.arange(count)) % PERIOD].conj()
    before, here, after = (
        (run.chips[place : place + count] * code).reshape(-1, GROUP_CHIPS).sum(axis=1) for place in (0, side, 2 * side)
    )
    energy = max(float(numpy.vdot(here, here).real), 1e-30)
    least = min(float(numpy.vdot(here, other).real) for other in (before, after)) / energy
    return least > float(matched_pulse().values[REACH + side]) / 2


def measured(
    runs: Iterable[Chips], has_times: bool = True, is_pulsed: bool = True, kept: float = 1.0
) -> CodeDomain | None:
    """Returns the code domain of runs of a cell's chips; None if they are too few."""
    meter = Meter(has_times, is_pulsed, kept)
    for run in runs:
        meter.add(run)
    return meter.domain()
