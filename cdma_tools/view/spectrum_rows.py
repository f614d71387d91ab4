"""Rows of a waterfall: the spectrum of some samples as they come, in dB of full scale."""

import numpy
from numpy.typing import NDArray
from scipy import fft

from cdma_tools.analysis.spectrum import AVERAGED, BINS, decibels, full_scale_of, window_of
from cdma_tools.recordings import TYPES


class SpectrumRows:
    """Makes rows of BINS levels, the lowest frequency first, of bytes of a stream."""

    def __init__(self, kind: str) -> None:
        """Takes samples of a type."""
        self.kind = TYPES[kind]
        self.window = window_of(full_scale_of(self.kind))

    def row(self, data: bytes) -> NDArray[numpy.float64] | None:
        """Returns the mean of up to AVERAGED transforms, evenly over whole samples; None if there are too few."""
        count = len(data) // self.kind.size
        if count < BINS:
            return None
        parts = numpy.frombuffer(data, self.kind.form, 2 * count)
        begins = numpy.linspace(0, count - BINS, min(AVERAGED, count // BINS)).astype(int)
        pieces = numpy.stack([parts[2 * begin : 2 * (begin + BINS)] for begin in begins]).astype(numpy.float32)
        if self.kind.is_floating:
            numpy.nan_to_num(pieces, copy=False, nan=0.0, posinf=0.0, neginf=0.0)
        samples = (pieces - numpy.float32(self.kind.middle)).view(numpy.complex64) * self.window
        power = numpy.mean(numpy.abs(fft.fft(samples, axis=1)) ** 2, axis=0)
        return decibels(fft.fftshift(power))
