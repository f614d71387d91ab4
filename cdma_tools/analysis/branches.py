"""The two branches of a radio: their offset and their imbalance, from the raw samples.

Signals and noise have both branches alike and without a mean. So an offset, unequal powers and a correlation in the
samples are the radio's own.
"""

from dataclasses import dataclass

import numpy

from cdma_tools.recordings import Samples

PIECE = 1 << 18  # samples that are read at once


@dataclass(frozen=True)
class Branches:
    """Offsets as parts of the root mean square; dB by which q is stronger than i; degrees by which q leans to i."""

    offset_i: float
    offset_q: float
    imbalance_db: float
    skew_degrees: float
    peak_db: float  # the greatest power of a sample over the mean


def branches_of(recording: Samples) -> Branches:
    """Returns what the samples of a recording show of the radio."""
    sums, products, peak = numpy.zeros(2), numpy.zeros((2, 2)), 0.0
    for first in range(0, recording.count, PIECE):
        samples = recording.read(first, min(PIECE, recording.count - first))
        parts = numpy.stack([samples.real, samples.imag]).astype(float)
        sums += parts.sum(axis=1)
        products += parts @ parts.T
        peak = max(peak, float((parts**2).sum(axis=0).max()))
    mean = sums / recording.count
    power = float(numpy.trace(products)) / recording.count or 1e-30
    (ii, iq), (_, qq) = products / recording.count - numpy.outer(mean, mean)
    ii, qq = max(ii, 1e-30), max(qq, 1e-30)
    root = float(numpy.sqrt(power))
    return Branches(
        float(mean[0]) / root,
        float(mean[1]) / root,
        float(10 * numpy.log10(qq / ii)),
        float(numpy.degrees(numpy.arcsin(iq / numpy.sqrt(ii * qq)))),
        float(10 * numpy.log10(max(peak / power, 1e-10))),
    )
