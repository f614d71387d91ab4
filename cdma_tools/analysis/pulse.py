"""The pulse after its matched filter, at whole chips: how much of its neighbors a chip contains, and how fast it
changes.

The standard's pulse (7.1.3.1.10) isn't free of interference between chips: after the matched filter R(k) isn't 0 at
whole chips k. The squares of these sides are 2.27 % of a chip's power. They belong to the transmitter, and are not an
error of it.
"""

import functools
from typing import NamedTuple

import numpy
from numpy.typing import NDArray
from scipy import fft

from cdma_tools.radio.air import pulse_spectrum

# The reach of the pulse's values to each side, in chips, and of its slopes: beyond it they are below a hundredth of the
# steepest. The pulse is drawn at this number of samples a chip, and of samples in all.
REACH, SLOPES_REACH, OVER, SIZE = 12, 7, 8, 4_096


class MatchedPulse(NamedTuple):
    """R(k) at chips -REACH to REACH, of which R(0) is 1, and R'(k) in 1 / chip at -SLOPES_REACH to SLOPES_REACH."""

    values: NDArray[numpy.float64]
    slopes: NDArray[numpy.float64]

    @property
    def sides(self) -> float:
        """The power of a chip's neighbours against its own: the sum of R(k)^2 over k but 0."""
        return float(numpy.sum(self.values**2)) - 1.0

    @property
    def steepness(self) -> float:
        """Returns the sum of R'(k)^2: the output of the slopes' filter, with opposite sign, for a chip that is late by
        1."""
        return float(numpy.sum(self.slopes**2))


def places(reach: int) -> NDArray[numpy.int64]:
    """The samples of the pulse at whole chips -reach to reach."""
    return OVER * numpy.arange(-reach, reach + 1)


@functools.lru_cache(maxsize=1)
def matched_pulse() -> MatchedPulse:
    """The pulse after its matched filter."""
    cycles = fft.fftfreq(SIZE, 1 / OVER)
    response = pulse_spectrum(cycles) ** 2
    values = fft.ifft(response).real * OVER
    slopes = fft.ifft(response * 2j * numpy.pi * cycles).real * OVER
    return MatchedPulse(values[places(REACH)] / values[0], slopes[places(SLOPES_REACH)] / values[0])


def matched_at_halves(count: int) -> NDArray[numpy.float64]:
    """R(k / 2) for k of 0 to count - 1: the pulse after its matched filter, half a chip apart."""
    values = fft.ifft(pulse_spectrum(fft.fftfreq(SIZE, 1 / OVER)) ** 2).real
    halves: NDArray[numpy.float64] = values[: OVER // 2 * count : OVER // 2] / values[0]
    return halves


def slopes_of(chips: NDArray[numpy.complex64]) -> NDArray[numpy.complex64]:
    """Returns sum_k x(n + k) R'(k) for each chip that has SLOPES_REACH neighbors to each side: fewer by that at both
    ends."""
    taps = matched_pulse().slopes.astype(numpy.float32)
    count = len(chips) - 2 * SLOPES_REACH
    out = numpy.zeros(count, dtype=numpy.complex64)
    for place in range(1, SLOPES_REACH + 1):
        # The slope is odd, so a pair of chips has one tap.
        after, before = chips[SLOPES_REACH + place :], chips[SLOPES_REACH - place :]
        out += (after[:count] - before[:count]) * taps[SLOPES_REACH + place]
    return out
