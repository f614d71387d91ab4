"""The spectrum of a recording, on average and over its time."""

from typing import NamedTuple

import numpy
from numpy.typing import NDArray
from scipy import fft

from cdma_tools.recordings import Kind, Recording

# Bins of a transform, rows of time, and transforms that are averaged for a row: they lie evenly in the row's time.
BINS, ROWS, AVERAGED = 256, 160, 24

class Spectrum(NamedTuple):
    """Levels in dB of full scale: hertz above the middle (bins,), means (bins,), seconds (rows,), (rows, bins)."""

    hertz: NDArray[numpy.float64]
    mean: NDArray[numpy.float64]
    seconds: NDArray[numpy.float64]
    rows: NDArray[numpy.float64]


def full_scale_of(kind: Kind) -> float:
    """The greatest part of a type of samples."""
    form = numpy.dtype(kind.form)
    return 1.0 if form.kind == "f" else float(numpy.iinfo(form).max) - kind.middle


def window_of(scale: float) -> NDArray[numpy.float64]:
    """Returns the window of a transform, by which the powers of all bins add up to the mean power; `scale` is 1."""
    from scipy.signal.windows import hann  # takes half a second to load, and only this needs it

    window: NDArray[numpy.float64] = hann(BINS, sym=False)
    return window / (numpy.sqrt(BINS * numpy.sum(window**2)) * scale)


def decibels(power: NDArray[numpy.float64]) -> NDArray[numpy.float64]:
    """Powers in dB, none below -160."""
    levels: NDArray[numpy.float64] = 10 * numpy.log10(numpy.maximum(power, 1e-16))
    return levels


def spectrum_of(recording: Recording) -> Spectrum:
    """The spectrum of a recording: of a long one, of some moments in each part of its time."""
    rows = min(ROWS, max(1, recording.count // (BINS * AVERAGED)))
    window = window_of(full_scale_of(recording.kind))
    length = recording.count / rows
    powers = numpy.empty((rows, BINS))
    for row in range(rows):
        begins = (length * (row + numpy.arange(AVERAGED) / AVERAGED)).astype(int)
        pieces = numpy.array([recording.read(int(begin), BINS) for begin in begins]) * window
        powers[row] = numpy.mean(numpy.abs(fft.fft(pieces, axis=1)) ** 2, axis=0)
    powers = fft.fftshift(powers, axes=1)
    hertz = fft.fftshift(fft.fftfreq(BINS, 1 / recording.rate))
    seconds = (numpy.arange(rows) + 0.5) * length / recording.rate
    return Spectrum(hertz, decibels(powers.mean(axis=0)), seconds, decibels(powers))
