"""Finds a pilot in a stream: the first one, or one that was lost."""

import itertools
import time as clock
from dataclasses import dataclass

import numpy
from numpy.typing import NDArray

from cdma_tools.listening.pursuit import STRIDE, Pursuit
from cdma_tools.listening.ring import Ring, Window
from cdma_tools.listening.streaming_front import StreamingFront
from cdma_tools.radio.acquisition import (
    BIN,
    MOST_STRETCHES,
    STEP,
    STRETCH,
    Best,
    Found,
    bins_within,
    finer,
    limited,
    looks,
    places_of,
    strongest,
)
from cdma_tools.radio.air import CHIP_RATE, PERIOD
from cdma_tools.radio.confirmation import confirm
from cdma_tools.radio.front import GUARD, turn
from cdma_tools.radio.gaps import ASTRAY, LONGEST_STEP, TRIES
from cdma_tools.radio.search_policy import SearchPolicy, Step
from cdma_tools.radio.tracking import clock_error

# Chips that a search for a pilot looks at, and the parts of them at which it looks in turn.
WINDOW = int(1.2 * CHIP_RATE)
PARTS = (0.0, 0.45)
# Chips from a search that found nothing to the next one: with the conjugate too, a search takes longer than real time,
# and a live stream would fall behind. The chips between are skipped.
PAUSE = 2 * WINDOW
# Rounds in which the carrier is made finer.
ROUNDS = 2
# For a live stream: bins of a slice, which a processor searches in some 0.1 s, and seconds after which no further slice
# is begun, so that the search never lags further than the samples kept for it.
SLICE_BINS, MOST_SEARCH = 33, 1.5
NEIGHBORS = STEP * numpy.arange(-4, 5)


@dataclass(frozen=True)
class Start:
    """The place at which a pilot was found in a stream, and the slope of its delay."""

    found: Found
    clock: float


def code_steps(phase: int, chip: int) -> int:
    """Returns the fewest chips that were lost if chip number `chip` is expected and the code has a phase."""
    lost = (phase - chip) % PERIOD
    return lost - PERIOD if lost > PERIOD - ASTRAY else lost


def first_pilot(ring: Ring, first: int, count: int, centre: float, step: Step) -> Start | None:
    """Returns the place of a pilot in samples first to first + count - 1; conjugates the ring if the pilot is in its
    conjugate.

    The step says how far from `centre` the carrier is searched, and in which spectra.
    """
    window = StreamingFront(Window(ring, first, count))
    window.set_carrier(centre)
    found = next((seen for seen in looks(window, step.span, step.spectra, PARTS, step.beyond) if seen.excess > 1), None)
    return None if found is None else confirmed(ring, window, first, found)


def confirmed(ring: Ring, window: StreamingFront, first: int, found: Found) -> Start | None:
    """The start of a pilot that seems to stand out in a window; None if nothing near that place confirms it."""
    ring.is_conjugate ^= found.is_conjugate
    for _ in range(ROUNDS):
        window.set_carrier(found.hertz)
        found = finer(window, found)
    window.set_carrier(found.hertz)
    confirmation = confirm(window, found)
    if not confirmation.is_pilot:
        ring.is_conjugate ^= found.is_conjugate
        return None
    clock, late = clock_error(window, found, confirmation.slope)
    time = first / window.ratio + found.time + late
    return Start(found._replace(time=time), clock)


@dataclass(frozen=True)
class Slice:
    """Bins and a spectrum that are searched together."""

    bins: NDArray[numpy.int64]
    is_conjugate: bool


def bands_outward(bins: NDArray[numpy.int64]) -> list[NDArray[numpy.int64]]:
    """Bins in bands of neighbors: first the one around 0, then those further and further off to both sides."""
    numbers = (bins // STEP + SLICE_BINS // 2) // SLICE_BINS
    return [bins[numbers == number] for number in sorted(set(numbers.tolist()), key=abs)]


class LiveSearch:
    """The search in a live stream, which keeps up with real time: slices of the carriers, the nearest first, in turn.

    A search ends after a round of all slices, or when it has taken `MOST_SEARCH` seconds; the next one continues with the
    next slice. What comes in the meantime is left out.
    """

    def __init__(self, search: float, conjugates: tuple[bool, ...]) -> None:
        """Nothing was searched yet."""
        self.slices = [Slice(band, turned) for band in bands_outward(bins_within(search)) for turned in conjugates]
        self.turns = itertools.cycle(self.slices)
        self.seconds = 0.0  # that the last search took

    def first_pilot(self, ring: Ring, first: int, count: int, centre: float) -> Start | None:
        """Where a pilot stands out in samples first to first + count - 1; see the function of this name."""
        began = clock.monotonic()
        try:
            window = StreamingFront(Window(ring, first, count))
            window.set_carrier(centre)
            halves = Halves(window)
            for part in itertools.islice(self.turns, len(self.slices)):
                found = halves.look(part, len(PARTS) * len(self.slices))
                if found is not None:
                    return confirmed(ring, window, first, found)
                if clock.monotonic() - began > MOST_SEARCH:
                    return None
            return None
        finally:
            self.seconds = clock.monotonic() - began


class Halves:
    """The stretches of a window in which slices are looked for, two samples a chip, each made once."""

    def __init__(self, window: StreamingFront) -> None:
        """None is made yet."""
        self.window, self.places = window, places_of(window, PARTS)
        self.kept: dict[tuple[float, int], NDArray[numpy.complex64]] = {}

    def stretch(self, place: float, number: int, is_conjugate: bool) -> NDArray[numpy.complex64]:
        """A stretch after a place."""
        if (place, number) not in self.kept:
            made = limited(self.window.steady(place + number * STRETCH, 2 * STRETCH, 2))
            self.kept[place, number] = made
        made = self.kept[place, number]
        return made.conj() if is_conjugate else made

    def strongest(self, place: float, part: Slice, tries: int) -> Best:
        """The strongest cell of a slice at a place."""
        return strongest(lambda number: self.stretch(place, number, part.is_conjugate), part.bins, tries)

    def look(self, part: Slice, tries: int) -> Found | None:
        """Looks for a slice at each place."""
        for place in self.places:
            best = self.strongest(place, part, tries)
            if best.excess > 1:
                # A strong pilot stands out in its neighbors too, which may belong to another slice.
                best = self.strongest(place, Slice(best.bin + NEIGHBORS, part.is_conjugate), tries)
                shift = -self.window.carrier if part.is_conjugate else self.window.carrier
                return Found(place + best.late, best.phase, shift + best.bin * BIN, best.excess, part.is_conjugate)
        return None


class SearchTurns:
    """Which steps of the policy each search of a file takes: the first one all, later ones fewer.

    They take the near step, and every second one of them a band of the further carriers too.
    """

    def __init__(self, policy: SearchPolicy) -> None:
        """No search was made yet."""
        near, *bands = policy.steps_in_bands()
        self.near, self.first = near, policy.steps()
        turns = [turn for band in bands for turn in ([near], [near, band])]
        self.turns = itertools.cycle(turns or [[near]])

    def next(self) -> list[Step]:
        """The steps of the next search, in their order."""
        steps, self.first = self.first or next(self.turns), []
        return steps

    def heard(self) -> None:
        """A pilot was found: its spectrum and its carrier are known, and later searches take only the near step."""
        self.turns, self.first = itertools.cycle([[self.near._replace(spectra=(False,))]]), []


class SearchNear:
    """Tries to receive a lost pilot again near the carrier and the clock that it had, each at its own place."""

    def __init__(self, front: StreamingFront, lost: Pursuit) -> None:
        """The search for a pilot that was followed and is lost."""
        assert lost.timeline is not None
        self.front, self.lost = front, lost
        self.slope = lost.timeline.slope_at_end()
        self.since = lost.timeline.time_of(lost.heard)
        self.rate = float(lost.timeline.at(numpy.array([lost.heard])).rates[0])
        self.place, self.step = self.since + STRIDE, PERIOD

    def needed(self) -> float:
        """The nominal time up to which samples have to be there for the next try."""
        return self.place + MOST_STRETCHES * STRETCH + 2 * GUARD + self.front.chips

    def chip_at(self, time: float) -> int:
        """The number that the chip at a time would have if nothing was lost."""
        return round(self.lost.heard + (time - self.since) / (1 + self.slope))

    def attempt(self) -> Found | None:
        """Looks at the next place; the phase found counts on from the old chips."""
        count = MOST_STRETCHES * STRETCH
        rest = self.rate - self.front.carrier / CHIP_RATE
        halves = self.front.steady(self.place, 2 * count, 2) * turn(-rest / 2 * numpy.arange(2 * count))
        best = strongest(lambda k: halves[2 * k * STRETCH :][: 2 * STRETCH], STEP * numpy.arange(-1, 2), TRIES)
        time = self.place + best.late
        self.place += self.step
        self.step = min(2 * self.step, LONGEST_STEP * PERIOD)
        if best.excess <= 1:
            return None
        chip = self.chip_at(time)
        hertz = self.rate * CHIP_RATE + best.bin * BIN
        return Found(time, chip + code_steps(best.phase, chip), hertz, best.excess)
