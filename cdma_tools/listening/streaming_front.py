"""A fast front: the same filter and the same blocks as `radio.front`, several rows at once.

Phases are products of two short ramps, and no derivative is taken. If the clock is 25 millionths off, a block of 1,024
chips is off by 0.013 chips at its ends, an error 37 dB below the signal.
"""

from typing import cast

import numpy
from numpy.typing import ArrayLike, NDArray
from scipy import fft

from cdma_tools.listening.ring import Ring, Window
from cdma_tools.radio.front import GUARD, Front
from cdma_tools.radio.second_pass import ramps
from cdma_tools.recordings import Recording

# Blocks that are transformed at once. With 64 or more their arrays are so large that the C library maps each of them
# again, and the page faults take as long as all of the work.
AT_ONCE = 40


class StreamingFront(Front):
    """The way from the samples of a ring to chips."""

    def __init__(self, source: Ring | Window) -> None:
        """A front over a ring, or over a window of one."""
        # It reads what Front reads of a recording: its rate, its count and its samples.
        super().__init__(cast(Recording, source))
        self.source = source

    def spectra(self, begins: NDArray[numpy.float64], over: int) -> NDArray[numpy.complex64]:
        """The filtered spectra of blocks that begin at times, at the bins that are kept: (rows, bins)."""
        first = numpy.floor(begins * self.ratio).astype(numpy.int64)
        whole = fft.fft(self.source.rows(first, self.samples), axis=1, overwrite_x=True)
        whole[:, 0] = 0.0
        late = begins - first / self.ratio
        phase = -self.coarse / self.samples * first % 1.0
        top = int(self.bins[-1])
        step = float(self.frequency[top + 1])  # cycles a chip of one bin
        spectrum = ramps(phase - late * step * top, late * step, 2 * top + 1)
        spectrum *= self.kept_bins(whole, top)
        spectrum *= self.response * numpy.float32(over * self.chips / self.samples)
        return spectrum

    def kept_bins(self, whole: NDArray[numpy.complex64], top: int) -> NDArray[numpy.complex64]:
        """Returns the kept bins of whole spectra, around the coarse carrier; one slice unless they wrap around."""
        begin, count = (self.coarse - top) % self.samples, 2 * top + 1
        if begin + count <= self.samples:
            return whole[:, begin : begin + count]
        return numpy.concatenate([whole[:, begin:], whole[:, : begin + count - self.samples]], axis=1)

    def blocks(self, starts: ArrayLike, over: int, slopes: ArrayLike = 0.0) -> NDArray[numpy.complex64]:
        """Blocks as rows of `over` samples a chip, row b from time starts[b] on, GUARD spoilt chips at each end.

        The slopes of the clock within a block aren't followed.
        """
        begins = numpy.asarray(starts, dtype=float) - self.chips / 2 * (self.stretch - 1)
        return self.inverse(self.spectra(begins, over), over)

    def segments(
        self, begins: NDArray[numpy.float64], count: int, over: int, slope: float
    ) -> NDArray[numpy.complex64]:
        """Rows of `count` samples in a row, `over` a chip, one from each of the times on; a chip lasts 1 + slope."""
        each = -(-count // (over * self.hop))
        middles = begins[:, None] + (1 + slope) * self.hop * (numpy.arange(each) + 0.5)
        starts = middles.reshape(-1) - self.chips / 2
        pieces = [
            self.blocks(starts[first : first + AT_ONCE], over)[:, over * GUARD : over * (GUARD + self.hop)]
            for first in range(0, len(starts), AT_ONCE)
        ]
        rows: NDArray[numpy.complex64] = numpy.concatenate(pieces).reshape(len(begins), -1)
        return rows[:, :count]
