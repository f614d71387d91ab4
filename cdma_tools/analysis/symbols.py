"""What a cell sends, row by row and symbol by symbol, as far as it was received.

A cell's chips are despread over all its paths, which are combined by the pilot's gains as in a rake. Then y is a row's
amplitude relative to the pilot's times its symbol, with noise of N = E|n|^2 in a block. A row's amplitude a is that of
its power control group, since rows change their power from frame to frame, and frames begin at any group. The level
that is sent is a tanh(2 a y / N): the mean of a s over both symbols, weighted by their probabilities.
"""

from dataclasses import dataclass
from typing import IO, Any, Iterator

import numpy
from numpy.typing import NDArray

from cdma_tools.analysis.walsh import (
    GROUP_BLOCKS,
    PILOT_ROW,
    SYNC_BLOCKS,
    SYNC_ROW,
    despread,
    moving,
    spread,
    to_whole_symbols,
)
from cdma_tools.errors import Refused
from cdma_tools.radio.air import PERIOD, ROWS
from cdma_tools.radio.front import Front
from cdma_tools.radio.paths import Way
from cdma_tools.radio.second_pass import Piece, chips_of

GROUP_CHIPS = GROUP_BLOCKS * ROWS
# Blocks over which the pilot's gain may be averaged, of which the best is taken: 0.8 to 22 ms.
WINDOWS = (16, 48, 144, 432)
# Power control groups over which a row's power is averaged, from the coarse to the fine, and those over which noise is.
AVERAGED, NOISE_GROUPS = (33, 9, 3, 1), 16
# Standard deviations of noise from which a row is sent again.
LEAST_SIGMA = 6.0
# Groups whose symbols are decided at once: 80 ms.
GROUPS_AT_ONCE = 64
LEVEL_BYTES = 4


def best_window(pilot: NDArray[numpy.complex64]) -> int:
    """Returns the number of blocks over which the pilot's gain is best averaged: those around a block predict it best.
    """
    errors = []
    windows = [width for width in WINDOWS if 3 * width < len(pilot)] or [WINDOWS[0]]
    for width in windows:
        count = 2 * (width // 2) + 1
        others = (moving(pilot, width) * count - pilot) / (count - 1)
        errors.append(float(numpy.mean(numpy.abs(pilot - others)[width:-width] ** 2)) if len(windows) > 1 else 0.0)
    return windows[int(numpy.argmin(errors))]


@dataclass
class Symbols:
    """The levels that a cell sends in a piece of its chips: of each group, block and row, in a file; and gains.

    The first block begins at chip `base`. `gains` are (paths, blocks), `used` the rows that are sent again.
    """

    base: int
    blocks: int
    gains: NDArray[numpy.complex64]
    used: list[int]
    file: IO[bytes]

    @property
    def behind(self) -> int:
        """The chip after the last one."""
        return self.base + self.blocks * ROWS

    def levels(self, block: int, count: int) -> NDArray[numpy.float32]:
        """Returns the levels (64, count) of blocks from one on, with zeros for missing ones."""
        out = numpy.zeros((count, ROWS), dtype=numpy.float32)
        low, high = max(block, 0), min(block + count, self.blocks)
        if low < high:
            self.file.seek(LEVEL_BYTES * ROWS * low)
            held = numpy.fromfile(self.file, numpy.float32, ROWS * (high - low))
            out[low - block : high - block] = held.reshape(-1, ROWS)
        return numpy.ascontiguousarray(out.T)

    def write(self, block: int, values: NDArray[numpy.float32]) -> None:
        """Writes values (64, count) over those of blocks from one on."""
        self.file.seek(LEVEL_BYTES * ROWS * block)
        data = numpy.ascontiguousarray(values.T, dtype=numpy.float32).tobytes()
        if self.file.write(data) != len(data):
            raise Refused(f"no room for {self.blocks * ROWS * LEVEL_BYTES:,} bytes in the temporary folder")

    def chips(self, first: int, count: int) -> NDArray[numpy.complex64]:
        """Returns chips `first` to first + count - 1 as each path has them, (paths, count), with zeros for missing
        ones."""
        low = (first - self.base) // ROWS
        size = -(-(first + count - self.base) // ROWS) - low
        step = GROUPS_AT_ONCE * GROUP_BLOCKS
        sent = numpy.concatenate([
            spread(self.levels(block, min(step, low + size - block)), self.base + ROWS * block)
            for block in range(low, low + size, step)
        ])  # fmt: skip
        gains = numpy.take(self.gains, numpy.clip(low + numpy.arange(size), 0, self.blocks - 1), axis=1)
        skip = first - self.base - ROWS * low
        chips: NDArray[Any] = sent * numpy.repeat(gains, ROWS, axis=1)
        return chips[:, skip : skip + count]


def rows_of(front: Front, piece: Piece, ways: list[Way]) -> Iterator[list[NDArray[numpy.complex64]]]:
    """The rows (64, blocks) of each path in whole groups of blocks, from the first that begins a sync symbol."""
    skip = to_whole_symbols(piece.first)
    kept = [numpy.zeros(0, dtype=numpy.complex64)] * len(ways)
    phase = piece.first + skip
    for parts in zip(*(chips_of(front, piece, way.delay) for way in ways)):
        kept = [numpy.concatenate([old, chips[skip:]]) for old, (_, chips) in zip(kept, parts)]
        skip = max(0, skip - len(parts[0][1]))
        count = len(kept[0]) // GROUP_CHIPS * GROUP_CHIPS
        if count:
            yield [despread(chips[:count], phase) for chips in kept]
            kept, phase = [chips[count:] for chips in kept], (phase + count) % PERIOD


def gains_of(front: Front, piece: Piece, ways: list[Way]) -> NDArray[numpy.complex64]:
    """The pilot's smoothed gain on each path in each block, (paths, blocks)."""
    parts = [numpy.array([rows[PILOT_ROW] for rows in fingers]) for fingers in rows_of(front, piece, ways)]
    pilots = numpy.concatenate([numpy.zeros((len(ways), 0), dtype=numpy.complex64), *parts], axis=1)
    return numpy.array([moving(pilot, best_window(pilot)) for pilot in pilots], dtype=numpy.complex64)


@dataclass
class Powers:
    """By groups: the powers of rows (groups, 64) against the pilot's, and the noise of a block (groups,).

    `four` is the sync channel's power over its symbols of four blocks.
    """

    rows: NDArray[numpy.float64]
    noise: NDArray[numpy.float64]
    four: NDArray[numpy.float64]

    def means(self) -> tuple[NDArray[numpy.float64], NDArray[numpy.float64]]:
        """Returns each row's mean power, with groups weighted by their certainty, and the deviations by which it stands
        out."""
        weight = GROUP_BLOCKS / numpy.maximum(self.noise, 1e-12) ** 2
        total = weight @ self.rows / weight.sum()
        total[SYNC_ROW] = weight @ self.four / weight.sum()
        sigma = total * numpy.sqrt(weight.sum())
        sigma[SYNC_ROW] *= numpy.sqrt(SYNC_BLOCKS)
        return total, sigma

    def amplitudes(self, rows: list[int]) -> NDArray[numpy.float64]:
        """Returns the amplitudes of rows in groups, (groups, rows): the mean, and changes as far as they stand out of
        noise."""
        total, _ = self.means()
        noise = numpy.maximum(self.noise, 1e-12)[:, None]
        weight = GROUP_BLOCKS / noise**2
        out = numpy.tile(numpy.maximum(total[rows], 0.0), (len(noise), 1))
        for width in AVERAGED:
            held = moving(weight, width)
            local = moving(weight * self.rows[:, rows], width) / held
            variance = (1 + 4 * numpy.maximum(out, 0) / noise) / (held * width)
            change = (local - out) ** 2
            out = out + numpy.maximum(1 - 4 * variance / numpy.maximum(change, 1e-30), 0) * (local - out)
        amplitudes: NDArray[numpy.float64] = numpy.sqrt(numpy.maximum(out, 0))
        return amplitudes


def combined(fingers: list[NDArray[numpy.complex64]], gains: NDArray[numpy.complex64]) -> NDArray[numpy.complex64]:
    """The rows of all paths together, against the pilot's gain."""
    energy = numpy.maximum((numpy.abs(gains) ** 2).sum(axis=0), 1e-30)
    total = numpy.zeros_like(fingers[0])
    for rows, gain in zip(fingers, gains):
        total += rows * (gain.conj() / energy).astype(numpy.complex64)
    return total


def heard(front: Front, piece: Piece, ways: list[Way], file: IO[bytes]) -> Symbols | None:
    """Receives a piece of a cell's chips over its paths; None if it has no whole group. The levels go to a file."""
    gains = gains_of(front, piece, ways)
    if not gains.shape[1]:
        return None
    symbols = Symbols(piece.first + to_whole_symbols(piece.first), gains.shape[1], gains, [], file)
    powers, noises, fours, block = [], [], [], 0
    for fingers in rows_of(front, piece, ways):
        count = fingers[0].shape[1]
        turned = combined(fingers, gains[:, block : block + count])
        squares = turned.real**2 - turned.imag**2
        powers.append(squares.reshape(ROWS, -1, GROUP_BLOCKS).mean(axis=2).T)
        noises.append(2 * (turned[1:].imag ** 2).mean(axis=0).reshape(-1, GROUP_BLOCKS).mean(axis=1))
        four = turned[SYNC_ROW].reshape(-1, SYNC_BLOCKS).mean(axis=1)
        fours.append((four.real**2 - four.imag**2).reshape(-1, GROUP_BLOCKS // SYNC_BLOCKS).mean(axis=1))
        symbols.write(block, turned.real)
        block += count
    noise = moving(numpy.concatenate(noises).astype(float), NOISE_GROUPS)
    told = Powers(numpy.concatenate(powers).astype(float), noise, numpy.concatenate(fours).astype(float))
    decide(symbols, told)
    symbols.gains = gains / numpy.sqrt(numpy.mean(numpy.abs(gains) ** 2))
    return symbols


def decide(symbols: Symbols, powers: Powers) -> None:
    """Replaces what was received by the levels that are sent."""
    _, sigma = powers.means()
    symbols.used = [PILOT_ROW] + [row for row in range(1, ROWS) if sigma[row] > LEAST_SIGMA]
    rows = symbols.used[1:]
    amplitudes = powers.amplitudes(rows).astype(numpy.float32)
    for group in range(0, len(powers.noise), GROUPS_AT_ONCE):
        noise = numpy.repeat(powers.noise[group : group + GROUPS_AT_ONCE], GROUP_BLOCKS).astype(numpy.float32)
        size = numpy.repeat(amplitudes[group : group + GROUPS_AT_ONCE], GROUP_BLOCKS, axis=0).T
        got = symbols.levels(group * GROUP_BLOCKS, len(noise))
        got[SYNC_ROW] = numpy.repeat(got[SYNC_ROW].reshape(-1, SYNC_BLOCKS).sum(axis=1), SYNC_BLOCKS)
        levels = numpy.zeros_like(got)
        levels[PILOT_ROW] = 1
        levels[rows] = size * numpy.tanh(2 * size * got[rows] / noise)
        symbols.write(group * GROUP_BLOCKS, levels)
