"""A cell's waveform in a recording, made from the symbols that were received of it, and subtracted from the raw
samples.

It is the front's way back: a block of chips is transformed, repeated to the width of the raw samples, multiplied by the
pulse's response and a linear phase, and transformed to raw samples. Each path has three copies, half a chip apart,
which compensate the error of its delay. The gains of all copies are those of least squares in windows of 6,144 chips,
and are linear from one window's middle to the next one's.
"""

import math
from typing import Iterator, NamedTuple

import numpy
from numpy.typing import NDArray
from scipy import fft

from cdma_tools.analysis.kept_samples import KeptSamples
from cdma_tools.analysis.symbols import Symbols
from cdma_tools.radio.fitting import Fit
from cdma_tools.radio.front import AT_ONCE, GUARD, LEAST_DELAY, Front, turn
from cdma_tools.radio.paths import Way

# Chips of a window of least squares, and windows that are worked on at once: 80 ms.
WINDOW, WINDOWS_AT_ONCE = 6_144, 16
# Delays of the copies of a path, in chips.
COPIES = (-0.5, 0.0, 0.5)
# The part of the mean power that is added to the squares' matrix, since copies are much alike.
RIDGE = 1e-3
# Chips at both ends of what was received whose waves are incomplete.
MARGIN = 32
# Samples between which places in chips are drawn straight, and those between which the carrier's phase is.
PLACES_STEP, PHASE_STEP = 4_096, 256
# Samples between which gains are drawn as steps.
GAIN_STEP = 64


class Span(NamedTuple):
    """Raw samples from `first` to before `behind`."""

    first: int
    behind: int


class Copy(NamedTuple):
    """A copy that is sent: the number of its path, and its delay in chips."""

    path: int
    delay: float


class Waves:
    """A piece of a cell's chips in raw samples."""

    def __init__(self, front: Front, fit: Fit, symbols: Symbols, ways: list[Way]) -> None:
        self.front, self.fit, self.symbols = front, fit, symbols
        self.copies = [Copy(number, way.delay + half) for number, way in enumerate(ways) for half in COPIES]
        # The conjugate: the base station's own equaliser.
        self.response = front.response.conj() * numpy.float32(front.samples / front.chips)

    @property
    def span(self) -> Span:
        """The raw samples of which the waves are whole."""
        ends = (self.symbols.base + MARGIN, self.symbols.behind - MARGIN)
        first, behind = (float(self.fit.times(chip)) * self.front.ratio for chip in ends)
        return Span(max(0, math.ceil(first)), max(0, math.floor(behind)))

    def chips_at(self, times: NDArray[numpy.float64]) -> NDArray[numpy.float64]:
        """The chips, whole or not, that come at times."""
        chips = times - self.fit.base - self.fit.shift
        for _ in range(3):
            chips = chips - (self.fit.times(chips) - times)
        return chips

    def whole(self, spectrum: NDArray[numpy.complex64]) -> NDArray[numpy.complex64]:
        """Raw samples of spectra (rows, bins)."""
        room = numpy.zeros((len(spectrum), self.front.samples), dtype=numpy.complex64)
        room[:, self.front.bins % self.front.samples] = spectrum
        samples: NDArray[numpy.complex64] = fft.ifft(room, axis=1, overwrite_x=True)
        return samples

    def rows(self, first: int, count: int) -> NDArray[numpy.complex64]:
        """The waves of all copies at samples from one on, (copies, count), without their gains, with the carrier."""
        guard = int(GUARD * self.front.ratio)
        hop = self.front.samples - 2 * guard
        out = numpy.zeros((len(self.copies), count), dtype=numpy.complex64)
        for begin in range(0, count, AT_ONCE * hop):
            starts = numpy.arange(begin, min(begin + AT_ONCE * hop, count), hop) + first - guard
            for number, wave in enumerate(self.blocks(starts)):
                part = wave[:, guard : guard + hop].reshape(-1)[: count - begin]
                out[number, begin : begin + len(part)] = part
        return out * self.carrier(first, count)

    def blocks(self, starts: NDArray[numpy.int64]) -> Iterator[NDArray[numpy.complex64]]:
        """The waves of each copy in blocks of raw samples that begin at samples, (rows, samples)."""
        front, size, big = self.front, self.front.chips, self.front.samples
        middle = self.chips_at((starts + big / 2) / front.ratio)
        pace = 1 / (1 + self.fit.offset.derivative(middle)) / front.ratio  # chips a sample
        low = numpy.floor(middle).astype(numpy.int64) - size // 2
        sent = self.symbols.chips(int(low[0]), int(low[-1]) + size - int(low[0]))
        views = numpy.lib.stride_tricks.sliding_window_view(sent, size, axis=1)[:, low - low[0]]
        spectra = [fft.fft(view, axis=1)[:, front.bins % size] * self.response for view in views]
        cycles = front.bins / size
        begins = middle - low - size / 2  # the places of the blocks' first samples in the blocks' chips
        slip = (pace - size / big).astype(numpy.float32)
        ramp = (numpy.arange(big) - big / 2).astype(numpy.float32)
        for path, delay in self.copies:
            spectrum = spectra[path] * turn((begins - delay)[:, None] * cycles)
            wave = self.whole(spectrum)
            if numpy.abs(slip).max() * big / 2 > LEAST_DELAY:
                spectrum *= (2j * numpy.pi * cycles).astype(numpy.complex64)
                wave += self.whole(spectrum) * (slip[:, None] * ramp)
            yield wave

    def carrier(self, first: int, count: int) -> NDArray[numpy.complex64]:
        """The carrier at samples from one on."""
        numbers = first + numpy.arange(count)
        grid = numpy.arange(first, first + count + PLACES_STEP, PLACES_STEP)
        places = self.chips_at(grid / self.front.ratio)
        fine = numpy.arange(first, first + count + PHASE_STEP, PHASE_STEP)
        phase = self.front.coarse / self.front.samples * fine + self.fit.turned(numpy.interp(fine, grid, places))
        return turn(numpy.interp(numbers, fine, phase))


class Fitted(NamedTuple):
    """The middle of a window in raw samples, and the gains of the copies there."""

    middle: float
    gains: NDArray[numpy.complex64]


def least_squares(rows: NDArray[numpy.complex64], samples: NDArray[numpy.complex64], middle: float) -> Fitted | None:
    """Returns the gains with which rows come nearest to the samples; None if there is nothing in them."""
    gram = rows.conj() @ rows.T
    level = float(numpy.trace(gram).real) / len(gram)
    if level < 1e-3 * rows.shape[1]:
        return None
    gram += RIDGE * level * numpy.eye(len(gram), dtype=numpy.complex64)
    return Fitted(middle, numpy.linalg.solve(gram, rows.conj() @ samples))


def drawn(rows: NDArray[numpy.complex64], first: int, fitted: list[Fitted]) -> NDArray[numpy.complex64]:
    """The sum of rows at samples from one on, times gains that are drawn straight between those of windows."""
    count = rows.shape[1]
    middles = [one.middle for one in fitted]
    at = first + numpy.arange(0, count, GAIN_STEP) + GAIN_STEP / 2
    out = numpy.zeros(count, dtype=numpy.complex64)
    for number, row in enumerate(rows):
        gains = numpy.array([one.gains[number] for one in fitted])
        steps = numpy.interp(at, middles, gains.real) + 1j * numpy.interp(at, middles, gains.imag)
        out += row * numpy.repeat(steps.astype(numpy.complex64), GAIN_STEP)[:count]
    return out


class Wave(NamedTuple):
    """A cell's waveform at samples from one on."""

    first: int
    samples: NDArray[numpy.complex64]


def waveform(waves: Waves, recording: KeptSamples, part: KeptSamples) -> Iterator[Wave]:
    """Yields a cell's waves in a recording, from which its part was subtracted before, some of it at a time.

    What is yielded may be written over the samples at once: the next windows' have been read by then, or come later.
    """
    first, behind = waves.span
    size = int(WINDOW * waves.front.ratio)
    kept, begin = numpy.zeros((len(waves.copies), 0), dtype=numpy.complex64), first
    fitted: list[Fitted] = []
    for start in range(first, behind, WINDOWS_AT_ONCE * size):
        end = min(start + WINDOWS_AT_ONCE * size, behind)
        rows = waves.rows(start, end - start)
        samples = recording.read(start, end - start) + part.read(start, end - start)
        for edge in range(0, end - start, size):
            window = rows[:, edge : edge + size]
            fit = least_squares(window, samples[edge : edge + size], start + edge + window.shape[1] / 2)
            fitted += [fit] if fit else []
        kept = numpy.concatenate([kept, rows], axis=1)
        # Up to the middle of the last window; what lies after it waits for the next window's gains.
        until = end if end == behind or not fitted else int(fitted[-1].middle) // GAIN_STEP * GAIN_STEP
        if fitted and until > begin:
            yield Wave(begin, drawn(kept[:, : until - begin], begin, fitted))
            kept, begin, fitted = kept[:, until - begin :], until, fitted[-2:]
