"""The instants of a stream between chips: by the pilot's mean energies over delays, of all that was received so far.

The lock of a file chooses one constant by the mean energies of the whole recording. A stream can't, and over paths that
fade close to each other the first second is a bad guide. So it chooses in the same way, by what was received so far,
and moves its instants there so slowly that no chip jumps and a receiver's fingers keep their settings.
"""

import numpy

from cdma_tools.listening.timeline import Timeline
from cdma_tools.radio.fitting import FINE, Fit, best_delay, equalised, fine_energies, profiles
from cdma_tools.radio.tracking import Point

# Points over which energies are averaged with equal weights, a minute of them; older ones are forgotten slowly.
MEMORY = 1_024
# The most chips by which instants move from one node to the next, 0.05 a second; and the most by which they move at
# all, since between paths further apart no pilot is held.
STEP, NEAR = 0.005, 0.5


class Instants:
    """The mean energies over delays from the path that is followed, and the delay that they choose."""

    def __init__(self, fit: Fit, has_equaliser: bool, fingers: int) -> None:
        """Begins with the first points, for a receiver of `fingers` fingers."""
        self.has_equaliser, self.fingers = has_equaliser, fingers
        self.energies, self.count = fit.profile, len(fit.chip)
        self.last = float(fit.chip[-1])  # the chip of the last point that counts

    def add(self, points: list[Point], timeline: Timeline) -> None:
        """Takes the points up to the last node that haven't been taken."""
        new = [point for point in points if self.last < point.chip <= timeline.last.chip]
        if not new:
            return
        sums = numpy.array([point.sums for point in new])
        rows = profiles(equalised(sums) if self.has_equaliser else sums, numpy.array([point.power for point in new]))
        against = numpy.array([point.time for point in new])
        against -= timeline.path_times(numpy.array([point.chip for point in new]))
        for row in fine_energies(rows, against):
            self.count = min(self.count + 1, MEMORY)
            self.energies = self.energies + (row - self.energies) / self.count
        self.last = new[-1].chip

    def wanted(self, present: float) -> float:
        """The delay at which instants would lie best, as a file's lock would choose it, or the best one near by."""
        best = best_delay(self.energies, self.fingers)
        if abs(best - present) <= NEAR:
            return best
        return best_delay(self.energies, self.fingers, round(present * FINE) / FINE)

    def next(self, present: float) -> float:
        """The delay of the next node's instants."""
        return present + min(max(self.wanted(present) - present, -STEP), STEP)
