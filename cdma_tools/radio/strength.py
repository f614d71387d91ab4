"""The pilot's Ec/Io: its part of all power on the air, from the chips that the matched filter leaves.

The filter changes both powers. The pulse isn't free of interference between chips, so a chip contains parts of its
neighbors (`analysis.pulse`). The power of the chips is I = N + (1 + q) S, with the noise N, the power S of all that is
sent with the pulse, and q = 2.27 % for the pulse's sides. On the air it is N + S. The front empties the bin of direct
current, which leaves k of I, and k^2 of what correlates with the code. So for a pilot P in chips of power I

    Ec/Io = P / (k I - q S).

The correlation of chips with later ones separates S from the noise: the noise came through the
filter once and has the pulse's own correlation R(m), what is sent came through it twice and has sum_k R(k) R(k + m).
"""

import numpy
from numpy.typing import NDArray

from cdma_tools.analysis.pulse import REACH, matched_pulse
from cdma_tools.radio.air import PERIOD, decibels, short_code
from cdma_tools.radio.front import Front
from cdma_tools.radio.tracking import SUM

# Chips later up to which the correlation of chips is taken: the pulse's greatest side lies at 4.
LAGS = 6
# Chips of each run whose correlation is added: an accuracy of some hundredths suffices.
CORRELATED = 32_768
# The value in dB if there is no pilot or no power.
NOTHING = -99.0


def emptied(front: Front) -> float:
    """The part of the power of a matched pulse that lies in the bin of direct current, which the front empties."""
    at = numpy.flatnonzero((front.bins + front.coarse) % front.samples == 0)
    power = numpy.abs(front.response) ** 2
    return float(power[at].sum() / power.sum())


def sent_part(correlations: NDArray[numpy.float64]) -> float:
    """S / I: the part of the power of chips that is sent with the pulse.

    The correlations are those of chips with the chips 1, 2 .. LAGS later, as parts of their power.
    """
    values = matched_pulse().values
    twice = numpy.correlate(values, values, "full")
    middle = len(values) - 1
    noise = values[REACH + 1 : REACH + 1 + LAGS]
    sent = twice[middle + 1 : middle + 1 + LAGS] - twice[middle] * noise
    part = float(sent @ (correlations - noise) / (sent @ sent))
    return min(max(part, 0.0), 1 / float(twice[middle]))


class PilotMeter:
    """The pilot's Ec/Io in chips of a lock: coherent over 512 chips, the noise's own energy taken away."""

    def __init__(self, kept: float = 1.0) -> None:
        """`kept` is the part of a pulse's power that the front left of it."""
        self.kept = kept
        self.pilot, self.power, self.chips = 0.0, 0.0, 0
        self.correlations, self.correlated = numpy.zeros(LAGS), 0.0
        self.code = numpy.concatenate([short_code(), short_code()]).conj()

    def add(self, first: int, chips: NDArray[numpy.complex64]) -> None:
        """Takes chips `first` and on."""
        for begin in range(0, len(chips) // SUM * SUM, PERIOD):
            part = chips[begin : begin + min(PERIOD, (len(chips) - begin) // SUM * SUM)]
            sums = (part * self.code[(first + begin) % PERIOD :][: len(part)]).reshape(-1, SUM).sum(axis=1)
            power = float(numpy.vdot(part, part).real)
            self.power += power
            self.chips += len(part)
            self.pilot += (float(numpy.vdot(sums, sums).real) - 2 * power) / (2 * (SUM - 1))
        self.correlate(chips[:CORRELATED])

    def correlate(self, chips: NDArray[numpy.complex64]) -> None:
        """Adds the correlation of chips with those 1 to LAGS chips later."""
        count = len(chips) - LAGS
        if count > 0:
            here = chips[:count]
            self.correlated += float(numpy.vdot(here, here).real)
            self.correlations += [float(numpy.vdot(here, chips[lag : lag + count]).real) for lag in range(1, LAGS + 1)]

    @property
    def pilot_power(self) -> float:
        """The pilot's power of a chip on the air."""
        return self.pilot / max(self.chips, 1) / self.kept**2

    @property
    def all_power(self) -> float:
        """All power of a chip on the air; 0 where there are no chips."""
        if not self.correlated:
            return 0.0
        sent = sent_part(self.correlations / self.correlated)
        return self.power / max(self.chips, 1) * (self.kept - matched_pulse().sides * sent) / self.kept**2

    @property
    def ec_io(self) -> float:
        """Ec/Io in dB."""
        return decibels(self.pilot_power / self.all_power) if self.power and self.all_power else NOTHING
