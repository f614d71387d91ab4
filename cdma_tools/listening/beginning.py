"""Chips at which a run of `follow` may begin: those at which the pilot is strong enough for the program to find it.

The program searches the pilot in a run's first 2,048 chips, and sets its fingers there. In a fade it would find noise,
and decode nothing in all of its run.
"""

import numpy
from numpy.typing import NDArray

from cdma_tools.listening.seams import KeptChips
from cdma_tools.radio.air import CHIP_RATE, PERIOD, short_code

# This number of stretches of a run's first chips is compared. A stretch counts as strong if its pilot has this part of
# their mean energy in each of its parts.
START_CHIPS, START_STRETCHES, START_PARTS, STRONG = 2_048, 32, 2, 0.5
START = START_CHIPS * START_STRETCHES
# The energy over the noise's mean in a pilot's stretch from which the program finds it there: noise has more at one of
# the code's 32,768 phases once in 270 stretches.
FOUND = 16.0
# The mean energy of stretches over the noise's from which there is a pilot: the noise for which one stretch was chosen
# leaves a mean of only 1.4 over 32 stretches.
THERE = 3.0
# Chips after which a run begins even if the lock's pilot isn't received: a lock gives up after two seconds without it,
# and one that continues for longer follows something else, which the run's search then finds.
WAIT = 5 * CHIP_RATE // 2
# Chips after the beginning of a run that found noise at which the next one may begin.
AGAIN = CHIP_RATE // 2


def correlations(
    chips: NDArray[numpy.complex64], phase: int
) -> tuple[NDArray[numpy.complex64], NDArray[numpy.float32]]:
    """A pilot's sums over the parts of whole stretches, and the energy that noise of their power has in each stretch.

    The pilot's code has the phase at the first chip.
    """
    count = len(chips) // START_CHIPS
    stretches = chips[: count * START_CHIPS].reshape(count, START_PARTS, -1)
    code = short_code()[(phase + numpy.arange(stretches.size)) % PERIOD].conj().reshape(stretches.shape)
    return (stretches * code).sum(axis=2), 2 * (numpy.abs(stretches) ** 2).sum(axis=(1, 2))


def strong_stretch(chips: NDArray[numpy.complex64], first: int) -> int | None:
    """Returns the chips after `first` at which a stretch begins in which the pilot isn't faded; None if it is in all of
    them."""
    sums, noise = correlations(chips, first)
    energy = (numpy.abs(sums) ** 2).min(axis=1)
    is_strong = energy > STRONG * energy.mean()
    is_strong &= numpy.abs(sums.sum(axis=1)) ** 2 > FOUND * noise
    return START_CHIPS * int(is_strong.argmax()) if is_strong.any() else None


def is_there(chips: NDArray[numpy.complex64], phase: int) -> bool:
    """Whether a pilot stands out of the noise of some chips, at the first of which its code has a phase."""
    sums, noise = correlations(chips, phase)
    return bool((numpy.abs(sums.sum(axis=1)) ** 2).sum() > THERE * noise.sum())


class Beginning:
    """The search for the chip at which a run begins."""

    def __init__(self, wanted: int) -> None:
        """From a chip on."""
        self.wanted = self.place = wanted
        self.latest = wanted + WAIT
        self.is_again = False  # whether a run found noise

    def next(self, kept: KeptChips, end: int) -> int | None:
        """Returns the next chip at which a run may begin, by the chips up to `end`; None if more must come first."""
        self.place = max(self.place, kept.first)
        while self.place + START <= end:
            stretch = strong_stretch(kept.samples(self.place, START), self.place)
            if stretch is not None:
                return self.place + stretch
            if self.place >= self.latest:
                return self.place
            self.place += START
        return None

    def again(self, begin: int) -> None:
        """A run that began at a chip found noise: the next one begins some time after it."""
        self.is_again = True
        self.place = begin + AGAIN
        self.latest = self.place + WAIT
