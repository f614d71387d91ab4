"""Fitting: the clock and the carrier of a stretch of a recording, as smooth curves through its points.

A base station's clock and a radio's are rigid, and paths that fade shouldn't be followed: a receiver's fingers are set
once and stay. So the delays get a stiff curve, and the carrier a less stiff one, whose integral is the phase.
"""

import numpy
from numpy.typing import ArrayLike, NDArray
from scipy import fft
from scipy.interpolate import CubicSpline, LSQUnivariateSpline

from cdma_tools.radio.air import CHIP_RATE, equaliser_spectrum, ratio_of
from cdma_tools.radio.tracking import REACH, SEGMENT, SUM, SUMS, Point

# Seconds between the knots of the delay and of the carrier: a crystal's clock bends over tens of seconds, its carrier,
# a thousand times finer in chips, over parts of one.
DELAY_KNOTS, CARRIER_KNOTS = 2.0, 0.4
# Points that a knot needs within half a gap to each side, and those that a cubic spline needs at all.
POINTS_A_KNOT, POINTS_A_SPLINE = 8, 8
# Rounds in which points far from the curve lose weight.
ROUNDS = 4
# The gain in squared energies from which the inverse of the phase equaliser is applied: any. A single path gains 13
# parts in 100 if the transmitter has one, and loses 12 if it has none; two paths gain 1 or more, and lose 6 or more.
EQUALISED = 1.0
# Half chips at which sums watch the pilot, in chips, and the finer grid of delays: sixteenths of a chip.
COARSE_DELAYS = numpy.arange(-REACH, REACH + 1) / 2
FINE = 16
FINE_DELAYS = numpy.arange(-FINE * REACH // 2, FINE * REACH // 2 + 1) / FINE
# Cubic splines through a one at each of the half chips and zeros at the others, of which any other is a sum.
SPLINES = CubicSpline(COARSE_DELAYS, numpy.eye(len(COARSE_DELAYS)))
# Points whose sums are filtered at once: some 6 MB of transforms.
BATCH = 128
# Chips in which a receiver sets its fingers, the part of its mean energy that a path should have there, and the level
# in dB from which a path counts.
FIRST_CHIPS, UNFADED, STRONG_PATH = 2_048, 0.5, -5.0


class Curve:
    """A cubic spline of least squares with knots some way apart, robust, and straight outside its points."""

    def __init__(self, x: ArrayLike, y: ArrayLike, weight: ArrayLike, gap: float) -> None:
        """Points x, y with weights, of which those of 0 don't count; `gap` is the knots' distance in units of x."""
        weights = numpy.asarray(weight, dtype=float)
        keep = weights > 0
        xs, ys, weights = numpy.asarray(x, float)[keep], numpy.asarray(y, float)[keep], weights[keep] / weights.max()
        self.low, self.high = float(xs[0]), float(xs[-1])
        self.spline: LSQUnivariateSpline | None = None
        self.level = float(ys[0])
        if len(xs) < 2:
            return
        degree = 3 if len(xs) > POINTS_A_SPLINE else 1
        knots = self.knots(xs, gap) if degree == 3 else []
        robust = numpy.ones(len(xs))
        for _ in range(ROUNDS):
            self.spline = LSQUnivariateSpline(xs, ys, knots, w=numpy.sqrt(weights * robust), k=degree)
            miss = numpy.abs(ys - self.spline(xs))
            scale = max(1.5 * float(numpy.sqrt(numpy.average(miss**2, weights=weights * robust))), 1e-9)
            robust = 1 / numpy.maximum(1, miss / scale)
        assert self.spline is not None  # there is a round
        self.slope = self.spline.derivative()

    def knots(self, xs: NDArray[numpy.float64], gap: float) -> list[float]:
        """Knots about a gap apart, but for those near which a long fade has left too few points."""
        count = int((self.high - self.low) / gap)
        inner = numpy.linspace(self.low, self.high, count + 1)[1:-1] if count > 1 else numpy.zeros(0)
        return [float(knot) for knot in inner if numpy.sum(numpy.abs(xs - knot) < gap / 2) > POINTS_A_KNOT]

    def __call__(self, x: ArrayLike) -> NDArray[numpy.float64]:
        if self.spline is None:
            return numpy.full(numpy.shape(x), self.level)
        inside = numpy.clip(x, self.low, self.high)
        return self.spline(inside) + self.slope(inside) * (x - inside)

    def derivative(self, x: ArrayLike) -> NDArray[numpy.float64]:
        """The slope at x."""
        return numpy.zeros(numpy.shape(x)) if self.spline is None else self.slope(numpy.clip(x, self.low, self.high))


def equalised(sums: NDArray[numpy.complex64]) -> NDArray[numpy.complex64]:
    """Pilot sums (points, delays, SUMS) as they would be with the transmitter's phase equaliser taken away.

    Sums over delays are the channel's response, so a filter on the samples is the same filter on them.
    """
    size = 8 * REACH  # the all-pass rings on for some chips
    delays = numpy.arange(-REACH, REACH + 1) % size
    response = equaliser_spectrum(fft.fftfreq(size, 0.5)).conj().astype(numpy.complex64)
    turned = numpy.empty_like(sums)
    for first in range(0, len(sums), BATCH):
        rows = sums[first : first + BATCH]
        room = numpy.zeros((len(rows), size, sums.shape[2]), dtype=numpy.complex64)
        room[:, delays] = rows
        turned[first : first + BATCH] = fft.ifft(fft.fft(room, axis=1) * response[:, None], axis=1)[:, delays]
    return turned


def profiles(sums: NDArray[numpy.complex64], powers: NDArray[numpy.float64]) -> NDArray[numpy.float64]:
    """The mean energies (points, delays) with the noise's taken away, as energy of a chip."""
    return (numpy.mean(numpy.abs(sums) ** 2, axis=2) - 2 * SUM * powers[:, None]) / (2 * SUM**2)


def equaliser_gain(points: list[Point]) -> float:
    """Returns the gain of the inverse of the phase equaliser: the ratio of the squared energies over the delays.

    The energy of a path that isn't dispersed is gathered at one delay, so its square is greatest with the right filter.
    """
    sums = numpy.array([point.sums for point in points])
    powers = numpy.array([point.power for point in points])
    fine = numpy.arange(-4 * REACH, 4 * REACH + 1) / 8
    plain, other = (
        float(numpy.sum(CubicSpline(COARSE_DELAYS, profiles(rows, powers), axis=1)(fine) ** 2))
        for rows in (sums, equalised(sums))
    )
    return other / plain if plain else 0.0


def fine_energies(rows: NDArray[numpy.float64], against: NDArray[numpy.float64]) -> NDArray[numpy.float64]:
    """Rows of energies over delays in half chips, drawn over the finer ones; row p lies against[p] chips later."""
    ends = COARSE_DELAYS[0], COARSE_DELAYS[-1]
    return numpy.array([SPLINES(numpy.clip(FINE_DELAYS - shift, *ends)) @ row for shift, row in zip(against, rows)])


def best_delay(energies: NDArray[numpy.float64], fingers: int, middle: float | None = None) -> float:
    """The delay within half a chip of a middle at which fingers, whole chips apart, hold most of the mean energies.

    The middle is that of the greatest of them, unless another one is given. One finger is at the delay itself.
    """
    middle = float(FINE_DELAYS[energies.argmax()]) if middle is None else middle
    shifts = middle + numpy.arange(-FINE // 2, FINE // 2 + 1) / FINE
    reach = 3 if fingers > 1 else 0
    taps = numpy.interp(shifts[:, None] + numpy.arange(-reach, reach + 1), FINE_DELAYS, energies, 0, 0)
    held = numpy.sort(taps, axis=1)[:, -fingers:].sum(axis=1)
    return float(shifts[held.argmax()])


class Fit:
    """The timing and the phase of a stretch of a recording; chips have the numbers of its points."""

    def __init__(self, coarse: float, points: list[Point], has_equaliser: bool, fingers: int) -> None:
        """Fits points that were tracked after a front that removes `coarse` Hz, for a receiver of `fingers` fingers."""
        self.coarse = coarse
        self.chip = numpy.array([point.chip for point in points])
        self.time = numpy.array([point.time for point in points])
        self.snr = numpy.array([point.snr for point in points])
        self.powers = numpy.array([point.power for point in points])
        sums = numpy.array([point.sums for point in points])
        self.sums = equalised(sums) if has_equaliser else sums
        offset = self.time + numpy.array([point.late for point in points]) - self.chip
        self.base, self.shift = float(offset[0]), 0.0
        self.offset = Curve(self.chip, offset - self.base, self.snr, DELAY_KNOTS * CHIP_RATE)
        self.hertz = Curve(self.chip, [point.hertz for point in points], self.snr, CARRIER_KNOTS * CHIP_RATE)
        self.align(fingers)
        self.integrate()

    @property
    def power(self) -> float:
        """The mean power of a chip."""
        return float(numpy.mean(self.powers))

    def times(self, chip: ArrayLike) -> NDArray[numpy.float64]:
        """The nominal times of chips."""
        return numpy.asarray(chip) + self.base + self.offset(chip) + self.shift

    def chip_at(self, time: float) -> float:
        """The chip that comes at a time, whole or not."""
        chip = time - self.base - self.shift
        for _ in range(3):  # each round takes 10^-4 or less of the error
            chip -= float(self.times(chip)) - time
        return chip

    def align(self, fingers: int) -> None:
        """Sets the constant part of the timing, and with it the mean energies over delays, `profile` at `delays`.

        With one finger it is the greatest peak. With several it is the instants at which `fingers` taps, whole chips
        apart, have the most energy together.
        """
        self.against = self.time - self.times(self.chip)
        self.profile = numpy.mean(fine_energies(profiles(self.sums, self.powers), self.against), axis=0)
        self.shift = best_delay(self.profile, fingers)
        self.delays = FINE_DELAYS - self.shift
        self.against = self.against - self.shift

    def strong_delays(self) -> NDArray[numpy.float64]:
        """The delays of the peaks of the mean energies within 5 dB of the greatest."""
        energy = self.profile
        inner = (energy[1:-1] > energy[:-2]) & (energy[1:-1] >= energy[2:])
        strong = energy[1:-1] > ratio_of(STRONG_PATH) * energy.max()
        tops = numpy.flatnonzero(inner & strong) + 1
        return self.delays[tops] if len(tops) else numpy.zeros(1)

    def strong_start(self, seconds: float) -> int:
        """The first chip of a run of 2,048 in which no strong path is faded, among the first seconds."""
        runs = FIRST_CHIPS // SUM
        early = self.chip <= self.chip[0] + seconds * CHIP_RATE
        delays = self.strong_delays()
        places = numpy.rint((delays[None, :] - self.against[early][:, None]) * 2).astype(int) + REACH
        places = numpy.clip(places, 0, 2 * REACH)
        here = numpy.take_along_axis(numpy.abs(self.sums[early]) ** 2, places[:, :, None], axis=1)
        here = here.reshape(*here.shape[:2], SUMS // runs, runs).mean(axis=3)
        level = (here / here.mean(axis=(0, 2), keepdims=True)).min(axis=1).reshape(-1)
        enough = numpy.flatnonzero(level > UNFADED)
        best = int(enough[0]) if len(enough) else int(level.argmax())
        each = SUMS // runs
        return int(self.chip[early][best // each] - SEGMENT / 2 + FIRST_CHIPS * (best % each))

    def integrate(self) -> None:
        """The carrier's phase in turns, besides the coarse carrier's, at the middles of the pilot's sums."""
        centres = (self.chip[:, None] - SEGMENT / 2 + SUM * (numpy.arange(SUMS) + 0.5)).reshape(-1)
        rate = (self.hertz(centres) - self.coarse) / CHIP_RATE
        steps = (rate[1:] + rate[:-1]) / 2 * numpy.diff(self.times(centres))
        self.centres, self.rates = centres, rate
        self.turns = numpy.concatenate([[0.0], numpy.cumsum(steps)])

    def rate(self, chip: NDArray[numpy.float64]) -> NDArray[numpy.float64]:
        """The carrier at chips in turns a chip, besides the coarse carrier."""
        return numpy.interp(chip, self.centres, self.rates)

    def turned(self, chip: NDArray[numpy.float64]) -> NDArray[numpy.float64]:
        """The phase of chips in turns, besides the coarse carrier's; outside the points the carrier stays as it is."""
        turns = numpy.interp(chip, self.centres, self.turns)
        turns += numpy.minimum(chip - self.centres[0], 0) * self.rates[0]
        turns += numpy.maximum(chip - self.centres[-1], 0) * self.rates[-1]
        return turns
