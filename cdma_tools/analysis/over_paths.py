"""The share of all power that a cell has over all its paths, by moments of its pilot.

The pilot's amplitude h(t) at delays t, in sums of 512 chips, is the response of all paths through the pulse and its
matched filter. Two consecutive sums have independent noise, so the mean of h h^H between them contains only the paths.
It gives two powers of the pilot:

- In the chips it is the sum of 2 h(k) conj h(k') rho(k - k') over whole delays k and k', with the sides of the pulse
  and of all paths; rho(m) is the correlation of a row's chips with those m chips later (`row_correlation`).
- As it arrives it is 2 h^H K h, where K is the inverse of the matrix R(t - t') of the matched pulse: the power of those
  copies of the pulse, half a chip apart, that together have the response h. Paths that lie close to each other raise or
  lower it by their phases, and it needs no delays of paths.

A cell's rows come over the same paths, so its power is the pilot's times the sum of all rows' powers over the pilot's,
which the code domain gives (`code_domain`). Symbols aren't decided, so none follow the noise.

What a row shows at a delay also contains the autocorrelation of its chips at the other paths' delays: it is A h, with
the matrix A of the row's own conj rho(t - t'). So A of the pilot is removed from its sums, and each row's power is
divided by what A makes of it at delay 0. In the chips, the terms with k or k' of 0 are what the rows show there as they
are measured, with the chance correlation of symbols; the others are computed.
"""

import functools
import math
from typing import NamedTuple

import numpy
from numpy.typing import NDArray

from cdma_tools.analysis.code_domain import CodeDomain
from cdma_tools.analysis.pulse import matched_at_halves
from cdma_tools.analysis.row_correlation import between, row_correlations
from cdma_tools.analysis.walsh import PILOT_ROW
from cdma_tools.radio.air import ratio_of
from cdma_tools.radio.fitting import Fit
from cdma_tools.radio.locking import Held
from cdma_tools.radio.paths import WIDTH, Way, watched
from cdma_tools.radio.strength import emptied
from cdma_tools.radio.tracking import SEGMENT, SUM

# Chips before the first path and after the last one at which the response is taken: what lies further off of a pulse
# has a thousandth of its power.
MARGIN = 6
# Segments of 13 ms that are added at most, spread over the recording: 5 seconds.
MOST_SEGMENTS = 375
# The part of the matched pulse's greatest spectrum below which there is only noise: 0.0002 of a pulse.
LEAST_SPECTRUM = 0.01
# By how much the received pilot must exceed the strongest path's, in addition to this number of standard deviations of
# noise, if only one path was found: paths within a chip have one peak.
LEAST_MORE, LEAST_SIGMA = 0.003, 3.0


class PilotResponse(NamedTuple):
    """The pilot's response over all paths, as amplitudes against the root of all power in the chips."""

    delays: NDArray[numpy.int64]  # half chips
    products: NDArray[numpy.complex128]  # the mean of h(t) conj h(t')
    spread: float  # the standard deviation of `arriving` by noise

    @property
    def arriving(self) -> float:
        """The pilot's power as it arrives."""
        return 2 * float(numpy.sum(arriving_form(len(self.delays)) * self.products.real))

    def gains(self, correlations: NDArray[numpy.complex128]) -> NDArray[numpy.float64]:
        """The power that rows show at delay 0, by their correlations (rows, chips), against what the path there has."""
        here = int(numpy.flatnonzero(self.delays == 0)[0])
        turned = numpy.array([between(row, self.delays)[here].conj() for row in correlations])
        shown = numpy.sum((turned @ self.products) * turned.conj(), axis=1).real
        return shown / float(self.products[here, here].real)

    def beside(self, correlation: NDArray[numpy.complex128]) -> float:
        """The power in the chips of what comes at other whole delays than 0.

        `correlation` is what is sent against itself some chips later, times its power over the pilot's.
        """
        other = (self.delays % 2 == 0) & (self.delays != 0)
        held = self.products[numpy.ix_(other, other)] * between(correlation, self.delays[other])
        return 2 * float(numpy.sum(held.real))

    def is_spread(self, domain: CodeDomain) -> bool:
        """Whether more of the pilot arrives than the part of all power that its row shows."""
        alone = domain.in_rows * domain.pilot_share / domain.rho
        return self.arriving > (1 + LEAST_MORE) * alone + LEAST_SIGMA * self.spread


@functools.lru_cache(maxsize=8)
def arriving_form(count: int) -> NDArray[numpy.float64]:
    """The matrix K of `count` delays half a chip apart; it leaves out what the pulse doesn't let through."""
    pulse = matched_at_halves(count)
    places = numpy.arange(count)
    matrix = pulse[numpy.abs(places[:, None] - places)]
    form: NDArray[numpy.float64] = numpy.linalg.pinv(matrix, rcond=LEAST_SPECTRUM, hermitian=True)
    return form


def delays_of(ways: list[Way]) -> NDArray[numpy.int64]:
    """The delays in half chips at which the response of paths is taken."""
    low = max(2 * (math.floor(min(way.delay for way in ways)) - MARGIN), -2 * WIDTH)
    high = min(2 * (math.ceil(max(way.delay for way in ways)) + MARGIN), 2 * WIDTH)
    return numpy.arange(low, high + 1)


def middles_of(held: Held) -> list[tuple[Fit, float]]:
    """The middles of segments, one after the other, with their fits."""
    middles = [
        (piece.fit, middle)
        for piece in held.pieces
        for middle in numpy.arange(piece.first + SEGMENT / 2, piece.behind - SEGMENT / 2, SEGMENT).tolist()
    ]
    chosen = numpy.unique(numpy.linspace(0, len(middles) - 1, min(len(middles), MOST_SEGMENTS)).astype(int))
    return [middles[place] for place in chosen]


def pilot_response(held: Held) -> PilotResponse | None:
    """Returns the pilot's response over all paths of a lock; None if it has no whole segment."""
    delays = delays_of(held.ways)
    products = numpy.zeros((len(delays), len(delays)), dtype=complex)
    total, pairs = 0.0, 0
    for fit, middle in middles_of(held):
        sums, power = watched(held.front, fit, middle)
        response = sums[delays + 2 * WIDTH].astype(complex) / (2 * SUM)
        products += response[:, 1:] @ response[:, :-1].conj().T
        pairs += response.shape[1] - 1
        total += power * (response.shape[1] - 1)
    if not total:
        return None
    # Noise of power 1 is one of 1 / (2 SUM) in an amplitude; there are as many amplitudes as whole delays.
    spread = math.sqrt(2 * numpy.count_nonzero(delays % 2 == 0) / pairs) / (2 * SUM)
    # The bin that the front empties takes its part of all power, and twice that of what correlates with the pilot.
    kept = total * (1 - emptied(held.front))
    return PilotResponse(delays, without_own(products, delays) / kept, spread)


def without_own(products: NDArray[numpy.complex128], delays: NDArray[numpy.int64]) -> NDArray[numpy.complex128]:
    """Returns the mean of h h^H, where products are that of (A h) (A h)^H."""
    inverse = numpy.linalg.inv(between(row_correlations(2 * WIDTH)[PILOT_ROW], delays).conj())
    cleared: NDArray[numpy.complex128] = inverse @ products @ inverse.conj().T
    return cleared


def part_over_paths(domain: CodeDomain, pilot: PilotResponse) -> float:
    """Returns the cell's share of all power: 1 - left / all, where all is what is left in the chips and what arrives of
    it."""
    used = domain.used  # the pilot's row first
    correlations = row_correlations(2 * WIDTH)[[row.row for row in used]]
    powers = numpy.array([ratio_of(row.db) for row in used]) / pilot.gains(correlations)
    powers /= powers[0]
    left = 1 - domain.in_rows - pilot.beside(powers @ correlations)
    arriving = float(powers.sum()) * pilot.arriving
    return min(arriving / (arriving + left), 1.0)
