"""Raw samples to chips: filter, coarse carrier and resampling in one transform.

A block of K chips is N raw samples. Its transform of N bins is emptied at DC and rolled by the carrier. It is multiplied
by the pulse's response (the matched filter) and by a linear phase, which puts the result at any fraction of a chip. Then
it is folded into K bins or 2 K, and transformed back: K chips, at one or two samples each. Some chips at both ends of a
block are spoilt by the filter's length and are never used.

Times are in nominal chips of the recording: raw sample n lies at n 1,228,800 / rate.
"""

from typing import NamedTuple

import numpy
from numpy.typing import ArrayLike, NDArray
from scipy import fft

from cdma_tools.errors import Refused
from cdma_tools.radio.air import CHIP_RATE, equaliser_spectrum, pulse_spectrum
from cdma_tools.recordings import Samples

# Chips at each end of a block that are spoilt: the pulse is 6 chips to each side, the cut of the block rings on.
GUARD = 24
# The lengths of block, in chips, among which the exact one is sought; near 1,024 the transforms fit into a cache.
SHORTEST, LONGEST, WANTED = 768, 1_600, 1_024
# The part by which a block may be longer than its samples: at its ends that is 1/50 of a chip, which the first
# derivative corrects; the remaining error is of second order.
MOST_STRETCH = 4e-5
# Chips: below this the derivative isn't taken. A sample so far off loses 10^-5 of its power.
LEAST_DELAY = 0.002
# Cycles a chip up to which bins are kept: the stop band of the pulse begins at 740 kHz, 0.602 cycles.
KEPT = 0.62
# Blocks that are transformed at once: some 8 MB of numbers at 2.4 million samples a second.
AT_ONCE = 96


class Block(NamedTuple):
    """Chips of a block, and its raw samples."""

    chips: int
    samples: int


def turn(turns: ArrayLike) -> NDArray[numpy.complex64]:
    """exp(2 pi j turns), of the same shape; whole turns are dropped in double precision, the rest is single."""
    whole = numpy.asarray(turns, dtype=float)
    angle = ((whole - numpy.rint(whole)) * (2 * numpy.pi)).astype(numpy.float32)
    out = numpy.empty(angle.shape, dtype=numpy.complex64)
    out.real, out.imag = numpy.cos(angle), numpy.sin(angle)
    return out


def block_size(ratio: float) -> Block:
    """Returns the block for a ratio of samples to chips: exact if possible, of small factors, near 1,024 chips."""
    best: tuple[tuple[int, bool, int], Block] | None = None
    for chips in range(SHORTEST, LONGEST + 1, 2):
        samples = round(chips * ratio)
        error = abs(samples / chips / ratio - 1)
        slow = (fft.next_fast_len(chips) != chips) + (fft.next_fast_len(samples) != samples)
        rank = (slow, error > 1e-9, abs(chips - WANTED))
        if error < MOST_STRETCH and (best is None or rank < best[0]):
            best = rank, Block(chips, samples)
    if best is None:
        raise Refused(
            f"{ratio * CHIP_RATE:.6f} samples a second: no block of {SHORTEST} to {LONGEST} chips has nearly a whole"
            " number of samples"
        )
    return best[1]


class Front:
    """The way from raw samples to chips, for one recording."""

    def __init__(self, recording: Samples) -> None:
        self.recording = recording
        self.ratio = recording.rate / CHIP_RATE
        self.chips, self.samples = block_size(self.ratio)
        # A rate that is not a ratio of small numbers leaves a block slightly longer or shorter than its chips.
        self.stretch = self.samples / self.chips / self.ratio
        self.coarse = 0
        self.set_filter(False)

    @property
    def length(self) -> float:
        """Returns the length of the recording in chips."""
        return self.recording.count / self.ratio

    @property
    def hop(self) -> int:
        """Chips of a block that are not spoilt."""
        return self.chips - 2 * GUARD

    def set_filter(self, has_equaliser: bool) -> None:
        """Takes the matched filter, and with has_equaliser the inverse of the transmitter's phase equaliser too."""
        top = int(min(KEPT * self.chips, self.samples / 2 - 1))
        self.bins = numpy.arange(-top, top + 1)
        self.frequency = self.bins / (self.chips * self.stretch)  # cycles a chip
        response = pulse_spectrum(self.frequency).astype(complex)
        if has_equaliser:
            response *= equaliser_spectrum(self.frequency).conj()
        self.response = response.astype(numpy.complex64)

    def set_carrier(self, hertz: float) -> None:
        """Takes a carrier away from now on, to the next whole bin; a bin is 1,200 Hz in blocks of 1,024 chips."""
        self.coarse = round(hertz / CHIP_RATE * self.chips * self.stretch)

    @property
    def carrier(self) -> float:
        """The carrier that is taken away, in Hz."""
        return self.coarse * CHIP_RATE / (self.chips * self.stretch)

    def blocks(self, starts: ArrayLike, over: int, slopes: ArrayLike = 0.0) -> NDArray[numpy.complex64]:
        """Returns blocks as rows of `over` samples per chip, row b from time starts[b] on, with GUARD spoilt chips at
        each end.

        Row b runs 1 + slopes[b] times as fast, around its middle. The shape is (rows, over * chips).
        """
        begins = numpy.asarray(starts, dtype=float) - self.chips / 2 * (self.stretch - 1)
        spectrum = self.spectra(begins, over)
        out = self.inverse(spectrum, over)
        paces = numpy.broadcast_to(numpy.asarray(slopes, dtype=float) + (1 - self.stretch), begins.shape)
        if numpy.abs(paces).max() * self.chips / 2 > LEAST_DELAY:
            # y(t + e) = y(t) + e y'(t), with e of at most 1/50 of a chip.
            spectrum *= (2j * numpy.pi * self.frequency).astype(numpy.complex64)
            ramp = (numpy.arange(over * self.chips) / over - self.chips / 2).astype(numpy.float32)
            out += self.inverse(spectrum, over) * (paces.astype(numpy.float32)[:, None] * ramp)
        return out

    def spectra(self, begins: NDArray[numpy.float64], over: int) -> NDArray[numpy.complex64]:
        """The filtered spectra of blocks that begin at times, at the bins that are kept: (rows, bins)."""
        first = numpy.floor(begins * self.ratio).astype(numpy.int64)
        low = int(first.min())
        raw = self.recording.read(low, int(first.max()) + self.samples - low)
        rows = numpy.lib.stride_tricks.sliding_window_view(raw, self.samples)[first - low]
        whole = fft.fft(rows, axis=1, overwrite_x=True)
        whole[:, 0] = 0.0  # DC: a thousandth of the band, where a receiver's own offset lies
        spectrum = whole[:, (self.bins + self.coarse) % self.samples]
        # The delay to the wanted fraction of a chip, and the phase of the coarse carrier at the first raw sample.
        late = begins - first / self.ratio
        phase = -self.coarse / self.samples * first % 1.0
        spectrum *= turn(late[:, None] * self.frequency + phase[:, None])
        spectrum *= self.response * numpy.float32(over * self.chips / self.samples)
        return spectrum

    def inverse(self, spectrum: NDArray[numpy.complex64], over: int) -> NDArray[numpy.complex64]:
        """The transform back of rows of kept bins to rows of `over` samples a chip; what doesn't fit is folded."""
        size, top = over * self.chips, int(self.bins[-1])
        folded = numpy.zeros((len(spectrum), size), dtype=numpy.complex64)
        folded[:, : top + 1] = spectrum[:, top:]
        folded[:, size - top :] += spectrum[:, :top]
        return fft.ifft(folded, axis=1, overwrite_x=True)

    def steady(self, start: float, count: int, over: int, slope: float = 0.0) -> NDArray[numpy.complex64]:
        """`count` samples in a row, `over` a chip, from time `start` on, of which a chip lasts 1 + slope."""
        rows = -(-count // (over * self.hop))
        pieces = []
        for begin in range(0, rows, AT_ONCE):
            numbers = numpy.arange(begin, min(begin + AT_ONCE, rows))
            middles = start + (1 + slope) * self.hop * (numbers + 0.5)
            out = self.blocks(middles - self.chips / 2, over, slope)
            pieces.append(out[:, over * GUARD : over * (GUARD + self.hop)].reshape(-1))
        return numpy.concatenate(pieces)[:count]
