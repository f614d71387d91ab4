"""What a sample file shows by itself: level, pilot, carrier and clock that are left, correlation, constellation.

Strengths are ratios of a pilot's energy to what it would be if the samples contained only the pilot: for N samples
whose squares add up to W that is 2 N W, since a point of the code has two parts of 1 (docs/LINK.md). In pure noise an energy is 2 W on average, and above x times that with probability exp(-x).
"""

import dataclasses
import os
from typing import NamedTuple

import numpy
from numpy.typing import NDArray
from scipy.linalg import hadamard

from cdma_tools.radio.air import CHIP_RATE, PERIOD, ROWS, short_code
from cdma_tools.sample_header import FORM, HEADER, MAGIC

PIECE = 1 << 20  # samples that are measured at once
# Multiple of the noise's mean from which an energy stands out. The greatest of 32,768 phases in noise passes 20 times
# its mean with a chance below 32,768 exp(-20), 1 in 14,000.
STANDING_OUT = 20
WINDOW = 40  # chips on each side of the best phase that are shown: 33 microseconds, 10 km of way
SYNC_FRAME = 32_768  # chips of a frame of the sync channel, and of the pilot's code (7.1.3.1.1)
SYMBOL = 256  # chips of a modulation symbol of the sync channel: 4,800 a second (7.1.3.1.4)
PILOT_SUM = 1_024  # chips over which the pilot is summed to derotate the symbols around them
SYNC_ROW = hadamard(ROWS)[32]  # Walsh row 32 (7.1.3.1.8)
MOST_FRAMES = 16  # sync frames whose symbols are shown: 2,048 points


class Level(NamedTuple):
    """Strength of the samples: the mean of their squared absolute value, and their greatest part."""

    power: float
    top: int


class Correlation(NamedTuple):
    """Strengths around the best phase: chips from it, and the ratio at each."""

    deltas: NDArray[numpy.int64]
    ratios: NDArray[numpy.float64]


class Symbols(NamedTuple):
    """Symbols of the sync channel, turned by the pilot, in units of its amplitude, and the sample at which each began."""

    points: NDArray[numpy.complex128]
    places: NDArray[numpy.int64]


@dataclasses.dataclass(frozen=True)
class Measured:
    """What was measured of a sample file; None if it is too short, or no pilot stands out.

    `version` is 0 if it is not a sample file; `told` is the number of samples in its header, and `count` the number it
    has.
    """

    version: int
    told: int
    count: int
    span: int
    level: Level | None = None
    ratio: float | None = None
    correlation: Correlation | None = None
    symbols: Symbols | None = None
    carrier: float | None = None
    drift: int | None = None

    @property
    def seconds(self) -> float:
        """Returns the length of the samples."""
        return self.count / CHIP_RATE

    @property
    def floor(self) -> float:
        """The ratio that noise hardly ever reaches."""
        return STANDING_OUT / self.span

    @property
    def stands_out(self) -> bool:
        """Whether the best pilot can't be noise."""
        return self.ratio is not None and self.ratio >= self.floor


class ReadablePart:
    """A sample file, or as much as there is of it."""

    def __init__(self, path: str) -> None:
        """Reads the header; only complete samples count, and a file of another kind has version 0 and no samples."""
        self.path, self.version, self.told, self.count = path, 0, 0, 0
        with open(path, "rb") as file:
            head = file.read(HEADER.size).ljust(HEADER.size, b"\0")
        magic, version, _, told = HEADER.unpack(head)
        if magic == MAGIC and version in FORM:
            self.version, self.told, self.form = version, told, numpy.dtype(FORM[version])
            self.count = min(told, max(0, os.path.getsize(path) - HEADER.size) // (2 * self.form.itemsize))

    def read(self, first: int, count: int) -> NDArray[numpy.complex128]:
        """Samples first to first + count - 1, which the file has."""
        offset = HEADER.size + 2 * first * self.form.itemsize
        parts = numpy.fromfile(self.path, self.form, 2 * count, offset=offset).astype(float)
        return parts[::2] + 1j * parts[1::2]


def level_of(file: ReadablePart) -> Level:
    """The level of all samples of a file that has some."""
    power, top = 0.0, 0
    for first in range(0, file.count, PIECE):
        parts = file.read(first, min(PIECE, file.count - first)).view(float)
        power += float(parts @ parts)
        top = max(top, int(numpy.abs(parts).max()))
    return Level(power / file.count, top)


def code_at(points: NDArray[numpy.complex128], phase: int, count: int) -> NDArray[numpy.complex128]:
    """Returns the points that `count` samples meet, the first of them at a phase."""
    return points[(phase + numpy.arange(count)) % PERIOD]


def ratios_at(
    samples: NDArray[numpy.complex128], points: NDArray[numpy.complex128], phase: int
) -> NDArray[numpy.float64]:
    """The strengths at WINDOW phases on each side of one, and at that one."""
    power = float(numpy.vdot(samples, samples).real)
    code = code_at(points, phase - WINDOW, len(samples) + 2 * WINDOW)
    shifted = numpy.lib.stride_tricks.sliding_window_view(code, len(samples))
    sums = numpy.abs(shifted.conj() @ samples) ** 2
    return sums / (2 * len(samples) * power) if power else numpy.zeros(len(sums))


def frames_shown(file: ReadablePart, phase: int) -> NDArray[numpy.int64]:
    """The samples at which sync frames begin, at most MOST_FRAMES of them, evenly over the file."""
    starts = numpy.arange(-phase % PERIOD, file.count - SYNC_FRAME + 1, SYNC_FRAME)
    if len(starts) <= MOST_FRAMES:
        return starts
    return starts[numpy.linspace(0, len(starts) - 1, MOST_FRAMES).round().astype(int)]


def turned(
    file: ReadablePart, points: NDArray[numpy.complex128], start: int
) -> tuple[NDArray[numpy.complex128], NDArray[numpy.complex128]]:
    """Returns the sync symbols of a frame, 128 of them turned by the pilot, and the frame's 32 sums of the pilot.

    A symbol that is sent like the pilot is 1 if both have the same amplitude.
    """
    chips = file.read(start, SYNC_FRAME) * points.conj()
    pilot = chips.reshape(-1, PILOT_SUM).sum(axis=1) / PILOT_SUM
    row = numpy.tile(SYNC_ROW, SYMBOL // len(SYNC_ROW))
    symbols = (chips.reshape(-1, SYMBOL) * row).sum(axis=1) / SYMBOL
    around = numpy.repeat(pilot, PILOT_SUM // SYMBOL)
    size = numpy.abs(pilot).mean() or 1.0
    return symbols * around.conj() / (numpy.maximum(numpy.abs(around), 1e-9) * size), pilot


def symbols_of(
    file: ReadablePart, points: NDArray[numpy.complex128], phase: int
) -> tuple[Symbols | None, float | None]:
    """Symbols of the sync channel over the file, and the carrier that is left, in Hz: how fast the pilot turns."""
    starts = frames_shown(file, phase)
    if not len(starts):
        return None, None
    frames = [turned(file, points, int(start)) for start in starts]
    turn = sum(complex(numpy.vdot(pilot[:-1], pilot[1:])) for _, pilot in frames)
    hertz = float(numpy.angle(turn)) / (2 * numpy.pi) * CHIP_RATE / PILOT_SUM
    places = numpy.concatenate([start + SYMBOL * numpy.arange(SYNC_FRAME // SYMBOL) for start in starts])
    return Symbols(numpy.concatenate([symbols for symbols, _ in frames]), places), hertz


def drift_of(file: ReadablePart, points: NDArray[numpy.complex128], phase: int, span: int) -> int | None:
    """Returns the chips by which the pilot is earlier at the file's end than at its begin; None if it doesn't stand
    out."""
    first = file.count - span
    ratios = ratios_at(file.read(first, span), points, phase + first)
    best = int(ratios.argmax())
    return best - WINDOW if ratios[best] >= STANDING_OUT / span else None


def measured(path: str, phase: int | None, span: int) -> Measured:
    """Returns what a sample file shows by itself, at the phase that the program found in its first samples, if it did.
    """
    file = ReadablePart(path)
    plain = Measured(file.version, file.told, file.count, span)
    if not file.count:
        return plain
    plain = dataclasses.replace(plain, level=level_of(file))
    if phase is None or file.count < span:
        return plain
    points = short_code().astype(complex)
    ratios = ratios_at(file.read(0, span), points, phase)
    found = Correlation(numpy.arange(-WINDOW, WINDOW + 1), ratios)
    plain = dataclasses.replace(plain, correlation=found, ratio=float(ratios[WINDOW]))
    if not plain.stands_out:
        return plain
    symbols, hertz = symbols_of(file, points, phase)
    return dataclasses.replace(plain, symbols=symbols, carrier=hertz, drift=drift_of(file, points, phase, span))
