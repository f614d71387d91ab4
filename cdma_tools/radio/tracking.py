"""Tracking: the pilot's delay and carrier, segment by segment of a recording.

A segment of 16,384 chips is correlated with the pilot in 32 sums of 512 chips, at delays a half chip apart around its
expected place. Energies give the delay, and products of neighboring sums the carrier. Lines through the last points
give the expected place of the next segment.
"""

from typing import Callable, NamedTuple

import numpy
from numpy.typing import NDArray

from cdma_tools.radio.acquisition import Found
from cdma_tools.radio.air import CHIP_RATE, PERIOD, short_code
from cdma_tools.radio.front import Front, turn

# Chips of a pilot sum: products of neighbours are then unambiguous within 1,200 Hz, and 300 Hz cost 0.2 dB.
SUM = 512
SUMS = 32
SEGMENT = SUMS * SUM
# Half chips to each side at which the pilot is watched: paths up to 4 chips apart, and the flanks of the pulse.
REACH = 8
# Half chips to each side of the expected place in which the path is chosen, before and after the eighth point.
FIRST_REACH, NEXT_REACH, SETTLED = 3, 2, 8
# The energy over noise, in standard deviations of a segment's mean, from which the segment counts as received.
HEARD = 4
# Chips without a pilot after which it counts as lost: longer than the fades of a walking handset.
PATIENCE = CHIP_RATE // 4
# Segments that are close to each other, before one of every four is enough: 53 ms, in which a clock found to within a
# millionth drifts by 0.07 chips.
CLOSE, EVERY = 16, 4
# Segments over which energies are averaged to choose a path: a tenth of a second or two.
SMOOTHED = 8
# Points that a line through the delays, and through the carriers, remembers: half a second to two.
DELAY_MEMORY, CARRIER_MEMORY = 38, 20
# How far a line trusts its slope: the error of a point over what the slope is known to be near to. A delay is exact to
# 0.3 chips in the worst fade and the clock known to 1.5 millionths; a carrier to 20 Hz, and it drifts by 100 Hz a second.
DELAY_STIFFNESS, CARRIER_STIFFNESS = 0.3 / 1.5e-6, 20 / (100 / CHIP_RATE)
# The first clock error: the slopes tried around a multiple of a coarse step, and the segments that are summed. In half
# a coarse step a segment slips by half a chip at most, so its energy stays at one delay.
MOST_REST, CLOCK_STEP, CLOCK_SEGMENTS, COARSE_CLOCK = 35e-6, 1e-6, 24, 60e-6


class Point(NamedTuple):
    """What one segment shows."""

    chip: float  # the number of the chip in its middle; modulo 32,768 it is the code's
    time: float  # the nominal time at which that chip was expected
    late: float  # by how many chips the pilot comes later
    snr: float  # its energy over the noise's in a sum of 512 chips; 0 if it wasn't received
    hertz: float  # the carrier
    power: float  # the mean power of a chip
    sums: NDArray[numpy.complex64]  # (2 REACH + 1, SUMS), in the phase of the coarse carrier


class Track(NamedTuple):
    """The points of a stretch of the recording, and whether the pilot was lost before and after them."""

    points: list[Point]
    lost_before: bool
    lost_behind: bool


class Line:
    """A weighted line through the last points, which predicts the next one."""

    def __init__(self, memory: int, stiffness: float) -> None:
        self.memory, self.stiffness = memory, stiffness
        self.points: list[tuple[float, float, float]] = []

    def __len__(self) -> int:
        return len(self.points)

    def add(self, x: float, y: float, weight: float) -> None:
        """Takes a point, and forgets the one that is too old."""
        self.points = (self.points + [(x, y, weight)])[-self.memory :]

    def at(self, x: float) -> tuple[float, float]:
        """The line's value and slope at x; few points close together give a slope near 0."""
        points = numpy.array(self.points)
        weight = points[:, 2] / points[:, 2].sum()
        middle, level = weight @ points[:, 0], weight @ points[:, 1]
        spread = weight @ (points[:, 0] - middle) ** 2 + self.stiffness**2 / len(points)
        slope = weight @ ((points[:, 0] - middle) * (points[:, 1] - level)) / spread
        return float(level + slope * (x - middle)), float(slope)


def code_at(chip: int, count: int) -> NDArray[numpy.complex64]:
    """The code's points of chips `chip` to chip + count - 1."""
    return short_code()[(chip + numpy.arange(count)) % PERIOD]


def pilot_sums(
    front: Front, chip: int, begin: float, slope: float, rest: float, reach: int, count: int = SUMS
) -> tuple[NDArray[numpy.complex64], float]:
    """A segment's sums, of shape (2 reach + 1, count), a row for each delay in half chips, and a chip's mean power.

    Its first chip is number `chip` and expected at time `begin`; a chip lasts 1 + slope, and the carrier lies `rest` Hz
    above the one that the front takes away.
    """
    size = SUM * count
    halves = front.steady(begin - reach / 2, 2 * (size + reach), 2, slope)
    turned = code_at(chip, size).conj() * turn(-rest / CHIP_RATE * numpy.arange(size))
    sums = numpy.empty((2 * reach + 1, count), dtype=numpy.complex64)
    for delay in range(2 * reach + 1):
        sums[delay] = (halves[delay:][: 2 * size : 2] * turned).reshape(count, SUM).sum(axis=1)
    prompt = halves[reach : reach + 2 * size : 2]
    return sums, float(numpy.vdot(prompt, prompt).real) / size


def clock_error(front: Front, found: Found, known: float = 0.0) -> tuple[float, float]:
    """Returns the slope of the pilot's delay, in chips per chip, and its lateness in chips at the place found.

    `known` is the slope to some millionths. The energies of the third of a second after the place, or before it, are
    added along straight lines of all slopes. So neither paths that fade in turn nor one long fade lead astray, as a
    line from point to point would.
    """
    coarse = COARSE_CLOCK * round(known / COARSE_CLOCK)
    is_forward = found.time + (CLOCK_SEGMENTS + 1) * SEGMENT < front.length or found.time < front.length / 2
    reach = 2 * int(numpy.ceil(MOST_REST * SEGMENT * CLOCK_SEGMENTS)) + 6
    middles, rows = [], []
    for number in range(CLOCK_SEGMENTS):
        shift = SEGMENT * (number if is_forward else -number - 1)
        begin = found.time + shift * (1 + coarse)
        if begin < 0 or begin + SEGMENT > front.length:
            break
        sums, power = pilot_sums(front, found.phase + shift, begin, coarse, found.hertz - front.carrier, reach)
        middles.append(shift + SEGMENT / 2)
        rows.append(numpy.mean(numpy.abs(sums) ** 2, axis=1) / max(2 * SUM * power, 1e-30) - 1)
    if len(rows) < 4:
        return coarse, 0.0
    slope, late = best_line(numpy.array(middles), numpy.array(rows), reach)
    return coarse + slope, late


def best_line(middles: NDArray[numpy.float64], rows: NDArray[numpy.float64], reach: int) -> tuple[float, float]:
    """The slope and the start, in chips, of the straight line along which rows of energies have the greatest sum.

    Row k has the energies at delays of -reach to reach half chips, and lies middles[k] chips after the start.
    """
    slopes = numpy.arange(-MOST_REST, MOST_REST + CLOCK_STEP / 2, CLOCK_STEP)
    starts = numpy.arange(-4, 5) / 4  # chips; acquisition is exact to a half
    delays = numpy.arange(-reach, reach + 1) / 2
    energy = numpy.zeros((len(slopes), len(starts)))
    for middle, row in zip(middles, rows):
        energy += numpy.interp(starts[None, :] + slopes[:, None] * middle, delays, row)
    slope, start = numpy.unravel_index(int(energy.argmax()), energy.shape)
    return float(slopes[slope]), float(starts[start])


class Tracker:
    """Goes through segments one after the other from a place on, or one before the other."""

    def __init__(self, front: Front, found: Found, direction: int, clock: float, tell: Callable[[float], None]) -> None:
        """`clock` is the slope of the delay at the place found; `tell` gets the times that are reached."""
        self.front, self.found, self.direction = front, found, direction
        self.clock, self.tell = clock, tell
        self.lates = Line(DELAY_MEMORY, DELAY_STIFFNESS)
        self.carriers = Line(CARRIER_MEMORY, CARRIER_STIFFNESS)
        self.points: list[Point] = []
        self.smooth: NDArray[numpy.float32] | None = None
        self.quiet = 0

    @property
    def is_lost(self) -> bool:
        """Whether the pilot hasn't been received for a quarter of a second."""
        return self.quiet * SEGMENT * EVERY > PATIENCE

    def run(self) -> list[Point]:
        """Returns all points, the first one taken first, without those at the end in which nothing was received."""
        chip = self.found.phase - (SEGMENT if self.direction < 0 else 0)
        while not self.is_lost:
            time, late, slope, hertz = self.expected(chip + SEGMENT / 2)
            begin = time - (1 + slope) * SEGMENT / 2
            if begin + SEGMENT > self.front.length or self.direction < 0 and begin < 0:
                break
            rest = hertz - self.front.carrier
            sums, power = pilot_sums(self.front, chip, begin, slope, rest, REACH)
            self.take(chip + SEGMENT / 2, time, late, hertz, sums, power)
            self.tell(time)
            chip += self.direction * SEGMENT * (1 if len(self.lates) < CLOSE else EVERY)
        heard = max((number + 1 for number, point in enumerate(self.points) if point.snr), default=0)
        return self.points[:heard]

    def expected(self, middle: float) -> tuple[float, float, float, float]:
        """For a chip: its time, how late that is against the clock at the place found, the delay's slope, the carrier."""
        late, slope = self.lates.at(middle) if len(self.lates) else (0.0, 0.0)
        time = self.found.time + (middle - self.found.phase) * (1 + self.clock) + late
        if len(self.carriers) > 3:
            hertz = self.carriers.at(middle)[0]
        else:
            hertz = self.carriers.points[-1][1] if len(self.carriers) else self.found.hertz
        return time, late, slope + self.clock, hertz

    def peak(self, energies: NDArray[numpy.float32]) -> tuple[int, float]:
        """Returns the row of the chosen path, and its delay in chips relative to the expected one.

        Energies of the last tenths of a second choose the path, so that paths which fade in turn are seen together. The
        segment's own energies, by a parabola, give its delay, since smoothed ones would lag.
        """
        if self.smooth is None:
            self.smooth = energies
        else:
            self.smooth = self.smooth + (energies - self.smooth) / min(len(self.points) + 1, SMOOTHED)
        reach = FIRST_REACH if len(self.lates) < SETTLED else NEXT_REACH
        top = REACH - reach + int(self.smooth[REACH - reach : REACH + reach + 1].argmax())
        before, here, after = (float(energy) for energy in energies[top - 1 : top + 2])
        bend = before - 2 * here + after
        shift = min(max(0.25 * (before - after) / bend, -0.4), 0.4) if bend < 0 else 0.0
        return top, (top - REACH) / 2 + shift

    def take(
        self, middle: float, time: float, late: float, hertz: float, sums: NDArray[numpy.complex64], power: float
    ) -> None:
        """Takes note of what a segment shows."""
        noise = max(2 * SUM * power, 1e-30)
        energies = numpy.mean(numpy.abs(sums) ** 2, axis=1) - noise
        top, peak = self.peak(energies)
        snr = max(float(energies[top]) / noise, 0.0)
        near = sums[max(top - 1, 0) : top + 2]
        product = complex(numpy.sum(near[:, 1:] * near[:, :-1].conj()))
        error = float(numpy.angle(product)) / (2 * numpy.pi) * CHIP_RATE / SUM
        if snr * numpy.sqrt(SUMS) > HEARD:
            self.lates.add(middle, late + peak, snr)
            self.carriers.add(middle, hertz + error, snr)
            self.quiet = 0
            if abs(peak) > 0.75:
                self.smooth = None  # the expected place moves, and with it the energies
        else:
            self.quiet, snr = self.quiet + 1, 0.0
        centres = SUM * (numpy.arange(SUMS) + 0.5)
        rest = hertz - self.front.carrier
        turned = sums * turn(rest / CHIP_RATE * centres)
        self.points.append(Point(middle, time, peak, snr, hertz + error, power, turned))


def track(front: Front, found: Found, clock: float, tell: Callable[[float], None], has_before: bool = True) -> Track:
    """All points of the recording after the place found, and with has_before those before it."""
    after = Tracker(front, found, 1, clock, tell)
    points = after.run()
    if not points or not has_before or found.time <= SEGMENT:
        return Track(points, False, after.is_lost)
    # Backwards from the place found, with the carrier that is known by now.
    before = Tracker(front, found._replace(hertz=points[0].hertz), -1, clock, lambda _: None)
    points = before.run()[::-1] + points
    return Track(points, before.is_lost, after.is_lost)
