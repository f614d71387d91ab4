"""Paths: the delays at which the pilot's energy comes, against the chips that are written."""

from typing import NamedTuple

import numpy
from numpy.typing import NDArray
from scipy.interpolate import CubicSpline

from cdma_tools.radio.air import decibels
from cdma_tools.radio.fitting import Fit
from cdma_tools.radio.front import Front
from cdma_tools.radio.tracking import SEGMENT, SUM, pilot_sums

# Chips to each side that are looked at: 13 microseconds, a detour of 4 km.
WIDTH = 16
# Segments that are averaged, spread over the recording: 0.2 s.
SEGMENTS = 16
# The finer grid of delays: sixteenths of a chip.
FINE = 16
# The part of the greatest peak from which a peak is a path, -10 dB. The pulse's own side peaks lie at -19 dB.
LEAST = 0.1


class Way(NamedTuple):
    """A path: its delay in chips, and its level in dB below the greatest."""

    delay: float
    level: float


def watched(front: Front, fit: Fit, middle: float) -> tuple[NDArray[numpy.complex64], float]:
    """Returns the pilot's sums in a segment around a chip, at delays of -WIDTH to WIDTH chips in halves, and a chip's
    power.

    Timing and carrier are the fitted ones.
    """
    chip = int(middle - SEGMENT / 2)
    slope = float(fit.offset.derivative(middle))
    return pilot_sums(front, chip, float(fit.times(chip)), slope, float(fit.hertz(middle)) - front.carrier, 2 * WIDTH)


def mean_energies(front: Front, fit: Fit) -> NDArray[numpy.float64]:
    """The pilot's mean energies at delays of -WIDTH to WIDTH chips in halves, by the fitted timing and carrier."""
    heard = numpy.flatnonzero(fit.snr > 0)
    chosen = heard[numpy.unique(numpy.linspace(0, len(heard) - 1, SEGMENTS).astype(int))]
    rows = []
    for place in chosen:
        sums, power = watched(front, fit, float(fit.chip[place]))
        rows.append(numpy.mean(numpy.abs(sums) ** 2, axis=1) - 2 * SUM * power)
    return numpy.mean(rows, axis=0)


def peaks(energies: NDArray[numpy.float64]) -> list[Way]:
    """Returns the peaks within 10 dB of the greatest among energies at delays of half chips, around 0."""
    from scipy.signal import find_peaks  # takes half a second to load, and only this needs it

    reach = len(energies) // 2
    fine = numpy.arange(-reach * FINE // 2, reach * FINE // 2 + 1) / FINE
    drawn = CubicSpline(numpy.arange(-reach, reach + 1) / 2, energies)(fine)
    tops, _ = find_peaks(drawn, height=LEAST * drawn.max())
    return [Way(float(fine[top]), decibels(float(drawn[top] / drawn.max()))) for top in tops]
