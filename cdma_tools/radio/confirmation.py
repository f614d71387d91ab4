"""Confirmation: whether a pilot that stands out is one, and its clock error.

Acquisition's threshold is made for white noise, and pulses, sweeps and other codes pass it now and then. Confirmation
uses chips that acquisition hasn't used: sums of 512 chips at all delays that a clock error may bring there. Their
energies are added along straight lines of all slopes. A pilot's line stands out, and its slope is the clock error; what
passed the threshold by chance is noise there.
"""

from typing import Iterator, NamedTuple

import numpy
from numpy.typing import NDArray

from cdma_tools.radio.acquisition import MOST_STRETCHES, STRETCH, Found, finer, looks
from cdma_tools.radio.front import GUARD, Front
from cdma_tools.radio.search_policy import PLACES
from cdma_tools.radio.tracking import SUM, SUMS, pilot_sums

# The clock's errors that a lock follows, and those among which the line is looked for: a line at the edge of what is
# looked for may be a part of a steeper one.
MOST_CLOCK, MOST_SLOPE = 110e-6, 150e-6
# The steps of the slopes in the first look and in the second.
COARSE_STEP, FINE_STEP = 4e-6, 0.5e-6
# Segments of 32 sums of the two looks: the first has to be short, since it has to be wide.
SHORT, LONG = 8, 24
# Starts of lines in chips, as acquisition is exact to a half, and as the first look is.
FIRST_STARTS, NEXT_STARTS = numpy.arange(-4, 5) / 4, numpy.arange(-6, 7) / 8
# Half chips to each side of the line in the second look; the outer two of each side give the noise's spread.
NEAR = 6
# Groups of sums whose peaks make the line exact to some hundredths of a chip, and by how many chips they may move it.
GROUPS, MOST_MOVED = 6, 0.5
# Chips that acquisition has used.
SEARCHED = MOST_STRETCHES * STRETCH
# Standard deviations of noise from which a line counts. Signals without a pilot reached 3.9, pilots at -20 dB 106.
LEAST = 12.0


class Part(NamedTuple):
    """A run of chips near the place found: its distance in chips after it, and its number of sums of 512."""

    shift: int
    sums: int


class Line(NamedTuple):
    """A straight line of delays: chips a chip, and chips at the place found."""

    slope: float
    start: float


class Energies(NamedTuple):
    """Sums of 512 chips: the chips from the place found to their middles, and their energies over noise, less 1.

    The energies have a row for each sum, with a column for each delay in half chips.
    """

    middles: NDArray[numpy.float64]
    rows: NDArray[numpy.float64]


class Confirmation(NamedTuple):
    """What the chips near a place show."""

    slope: float = 0.0  # of the pilot's delay, in chips a chip
    late: float = 0.0  # chips at the place found
    sigma: float = 0.0  # the line above the noise, in standard deviations

    @property
    def is_pilot(self) -> bool:
        """Whether the line stands out as a pilot's does."""
        return self.sigma >= LEAST

    @property
    def clock_ppm(self) -> float:
        """Returns the slowness of the recording's clock in millionths."""
        return -1e6 * self.slope

    @property
    def is_followed(self) -> bool:
        """Whether a lock follows a clock that is so far off."""
        return abs(self.slope) <= MOST_CLOCK + FINE_STEP


class Pilot(NamedTuple):
    """A place at which a pilot was looked for; the confirmation says whether it is one.

    The front is that of the recording, or of its conjugate, with the carrier removed.
    """

    front: Front
    found: Found
    confirmation: Confirmation


def parts_beside(front: Front, found: Found, segments: int) -> list[Part]:
    """Returns the nearest chips to those searched, in runs of one segment: after them, and before them where those end.
    """
    margin = GUARD + MOST_SLOPE * (SEARCHED + SUM * SUMS * segments)
    after = max(0, int((front.length - margin - found.time - SEARCHED) // SUM))
    after = min(after, SUMS * segments)
    before = min(max(0, int((found.time - margin) // SUM)), SUMS * segments - after)
    ahead = [Part(SEARCHED + SUM * first, min(SUMS, after - first)) for first in range(0, after, SUMS)]
    sizes = [min(SUMS, before - first) for first in range(0, before, SUMS)]
    return ahead + [Part(-SUM * (SUMS * number + size), size) for number, size in enumerate(sizes)]


def energies_of(front: Front, found: Found, parts: list[Part], line: Line, reach: int) -> Energies:
    """The energies of sums at `reach` half chips to each side of a line."""
    middles, rows = [], []
    for shift, sums in parts:
        begin = found.time + line.start + shift * (1 + line.slope)
        rest = found.hertz - front.carrier
        got, power = pilot_sums(front, found.phase + shift, begin, line.slope, rest, reach, sums)
        rows.append((numpy.abs(got) ** 2).T / max(2 * SUM * power, 1e-30) - 1)
        middles.append(shift + SUM * (numpy.arange(sums) + 0.5))
    return Energies(numpy.concatenate(middles), numpy.concatenate(rows))


def best_line(energies: Energies, slopes: NDArray[numpy.float64], starts: NDArray[numpy.float64]) -> tuple[Line, float]:
    """The line along which the energies have the greatest sum, and that sum."""
    reach = energies.rows.shape[1] // 2
    sums = numpy.zeros((len(slopes), len(starts)))
    for middle, row in zip(*energies):
        place = (starts[None, :] + slopes[:, None] * middle) * 2 + reach
        low = numpy.clip(place.astype(int), 0, 2 * reach - 1)
        part = place - low
        sums += row[low] * (1 - part) + row[low + 1] * part
    slope, start = numpy.unravel_index(int(sums.argmax()), sums.shape)
    return Line(float(slopes[slope]), float(starts[start])), float(sums[slope, start])


def refined(energies: Energies, line: Line) -> Line:
    """The line to some hundredths of a chip: a straight line through the peaks of groups of sums."""
    reach, points = energies.rows.shape[1] // 2, []
    for group in numpy.array_split(numpy.argsort(energies.middles), GROUPS):
        if not len(group):
            continue
        middle = float(energies.middles[group].mean())
        at = line.start + line.slope * middle
        top = min(max(round(2 * at) + reach, 1), 2 * reach - 1)
        before, here, after = energies.rows[group, top - 1 : top + 2].mean(axis=0).tolist()
        bend = before - 2 * here + after
        if bend < 0 < here:
            late = (top - reach + 0.5 * (before - after) / bend) / 2 - at
            points.append((middle, min(max(late, -MOST_MOVED), MOST_MOVED), here))
    if len(points) < GROUPS:
        return line
    middles, lates, weights = numpy.array(points).T
    slope, start = numpy.polyfit(middles, lates, 1, w=numpy.sqrt(weights))
    return Line(line.slope + float(slope), line.start + float(start))


def confirm(front: Front, found: Found) -> Confirmation:
    """Returns what the chips near a place found show, in a wide look and in a long one."""
    parts = parts_beside(front, found, SHORT)
    if not parts:
        return Confirmation()
    furthest = max(max(-part.shift, part.shift + SUM * part.sums) for part in parts)
    reach = 2 * int(numpy.ceil(MOST_SLOPE * furthest)) + 4
    coarse = numpy.arange(-MOST_SLOPE, MOST_SLOPE + COARSE_STEP / 2, COARSE_STEP)
    wide = energies_of(front, found, parts, Line(0.0, 0.0), reach)
    line, _ = best_line(wide, coarse, FIRST_STARTS)
    near = numpy.arange(-2 * COARSE_STEP, 2 * COARSE_STEP + FINE_STEP / 2, FINE_STEP)
    long = energies_of(front, found, parts_beside(front, found, LONG), line, NEAR)
    more, energy = best_line(long, near, NEXT_STARTS)
    # The noise's own spread next to the line: bursts have more than white noise, whose energies spread by 1.
    spread = max(float(long.rows[:, [0, 1, -2, -1]].std()), 1.0)
    sigma = energy / (spread * numpy.sqrt(len(long.rows)))
    if sigma >= LEAST:
        more = refined(long, more)
    return Confirmation(line.slope + more.slope, line.start + more.start, float(sigma))


def examined(front: Front, found: Found) -> Pilot:
    """Returns a place that passed acquisition's threshold, with its finer carrier and what the chips near it show."""
    own = Front(front.recording.conjugate() if found.is_conjugate else front.recording)
    own.set_carrier(found.hertz)
    fine = finer(own, found)
    own.set_carrier(fine.hertz)
    return Pilot(own, fine, confirm(own, fine))


def first_pilot(
    front: Front,
    span: float,
    is_conjugate: tuple[bool, ...] = (False,),
    parts: tuple[float, ...] = PLACES,
    beyond: float = 0.0,
) -> Pilot:
    """Returns the first place at which a pilot is confirmed, otherwise the one that comes nearest to it.

    The carrier lies within span Hz of the front's, and more than `beyond` Hz from it if that is given.
    """
    best: Pilot | None = None
    for pilot in seen(front, span, is_conjugate, parts, beyond):
        if pilot.confirmation.is_pilot:
            return pilot
        if best is None or pilot.found.excess > best.found.excess:
            best = pilot
    assert best is not None
    return best


def seen(
    front: Front, span: float, is_conjugate: tuple[bool, ...], parts: tuple[float, ...], beyond: float
) -> Iterator[Pilot]:
    """Yields each place of acquisition, examined if it passes the threshold."""
    for found in looks(front, span, is_conjugate, parts, beyond):
        yield examined(front, found) if found.excess > 1 else Pilot(front, found, Confirmation())
