"""Lost samples: where a lost pilot is received again, and the chips at which the one timing ends and the next begins.

The code's phase gives the number of lost chips, but for whole periods of 32,768.
"""

from typing import NamedTuple

import numpy

from cdma_tools.radio.acquisition import (BIN, MOST_STRETCHES, STEP, STRETCH,
                                          Found, strongest)
from cdma_tools.radio.air import CHIP_RATE, PERIOD
from cdma_tools.radio.fitting import Fit
from cdma_tools.radio.front import GUARD, Front, turn
from cdma_tools.radio.tracking import SEGMENT, SUM, code_at

# Chips by which the clock may have drifted while nothing was received: that many fewer than before are not a whole
# period less.
ASTRAY = 64
# The longest step, in periods, from one try to find the pilot again to the next: a fifth of a second.
LONGEST_STEP = 8
# Tries that the threshold allows for: a recording of 27 seconds in steps of a fifth.
TRIES = 128
# Sums of 512 chips that are compared at once.
AT_ONCE = 256


class Gap(NamedTuple):
    """A loss of samples: seconds from the beginning of the recording, and chips, but for whole periods."""

    seconds: float
    chips: int


def find_again(front: Front, fit: Fit, begin: float) -> Found | None:
    """Returns the place at which the pilot is received again from time `begin` on; None if the recording ends before.

    The phase is the number of the chip, as the fit counts them, with the fewest lost chips that the code allows.
    """
    needed, step = MOST_STRETCHES * STRETCH, PERIOD
    rest = float(fit.hertz(fit.chip[-1])) - front.carrier
    turned = turn(-rest / CHIP_RATE / 2 * numpy.arange(2 * needed))
    while begin + needed + 2 * GUARD < front.length:
        halves = front.steady(begin, 2 * needed, 2) * turned
        best = strongest(lambda k: halves[2 * k * STRETCH :][: 2 * STRETCH], STEP * numpy.arange(-1, 2), TRIES)
        if best.excess > 1:
            chip = round(fit.chip_at(begin + best.late))
            lost = (best.phase - chip) % PERIOD
            lost -= PERIOD if lost > PERIOD - ASTRAY else 0
            hertz = front.carrier + rest + best.bin * BIN
            return Found(begin + best.late, chip + lost, hertz, best.excess)
        begin, step = begin + step, min(2 * step, LONGEST_STEP * PERIOD)
    return None


def energies(front: Front, fit: Fit, first: int, count: int) -> list[float]:
    """The energies of `count` pilot sums from chip `first` on, by a fit's timing and carrier."""
    out: list[float] = []
    rate = (float(fit.hertz(first)) - front.carrier) / CHIP_RATE
    for begin in range(0, count, AT_ONCE):
        size = SUM * min(AT_ONCE, count - begin)
        chip = first + SUM * begin
        chips = front.steady(float(fit.times(chip)), size, 1, float(fit.offset.derivative(chip)))
        turned = code_at(chip, size).conj() * turn(-rate * numpy.arange(size))
        out += (numpy.abs((chips * turned).reshape(-1, SUM).sum(axis=1)) ** 2).tolist()
    return out


def part_ways(front: Front, before: Fit, after: Fit) -> tuple[int, int]:
    """Returns the chip after the last one by the fit before, and the first one by the fit after a loss.

    The loss lies between the last segment received and the first one received again. Sums of 512 chips by both timings
    give its place: where the energies of the one before and of the other after are greatest.
    """
    begin, end = float(before.times(before.chip[-1] - SEGMENT / 2)), float(after.times(after.chip[0]))
    count = max(0, int(end - begin) // SUM)
    old, new = (round(fit.chip_at(begin)) for fit in (before, after))
    ahead = numpy.concatenate([[0.0], numpy.cumsum(energies(front, before, old, count))])
    behind = numpy.concatenate([[0.0], numpy.cumsum(energies(front, after, new, count))])
    split = SUM * int((ahead + behind[-1] - behind).argmax())
    return min(old, new) + split, new + split
