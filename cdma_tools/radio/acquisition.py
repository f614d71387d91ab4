"""Acquisition: the code phase and the carrier at which a pilot stands out.

A stretch of 2,048 chips is correlated with the whole code, at two samples a chip and in steps of 300 Hz. Energies of
one stretch after the other are added, until a cell of phase and carrier stands out.

A first pass takes a quarter of the cells by transforms of 32,768: every second step, at one sample a chip. The others
are taken one by one, and only those whose neighbors in the first pass have the greatest energies.
"""

import functools
import os
from concurrent.futures import ThreadPoolExecutor
from typing import Callable, Iterator, NamedTuple

import numpy
from numpy.typing import NDArray
from scipy import fft
from scipy.special import gammainccinv

from cdma_tools.errors import Refused
from cdma_tools.radio.air import CHIP_RATE, PERIOD, short_code
from cdma_tools.radio.front import GUARD, Front, turn

# Chips of a stretch: 1.67 ms, in which a carrier that is 150 Hz off loses 0.9 dB.
STRETCH = 2_048
# Stretches after which the energies are looked at. One shows a pilot down to some -16 dB, four down to -21 dB.
LOOKS = (1, 2, 4)
MOST_STRETCHES = LOOKS[-1]
# Hz of a bin of a transform of 32,768 chips, and bins of a step: half of the width of a stretch's line.
BIN = CHIP_RATE / PERIOD
STEP = PERIOD // STRETCH // 2
# One in this many recordings without a pilot is taken for one with a pilot.
ONE_IN = 1e6
# Multiple of the median magnitude to which a chip is clipped: noise exceeds it once in 500 chips, so a pilot loses
# nothing, and a strong pulse of some chips, to which many stretches of the code are similar, can't stand out.
PULSE = 3.0
# Bins of a batch of transforms, 4 MB of numbers, and those that are searched at once, whose energies take 17 MB.
BATCH, MOST_BINS = 16, 256
# Processors that share the transforms of a stretch.
WORKERS = min(4, len(os.sched_getaffinity(0)))
# Squares of four cells that pure noise lets pass to a close look, and the most that get one.
FEW, MOST_SQUARES = 32, 64
# The finer carrier: chips of a sum, and bins of its transform; the span is one step of the search and a half more.
FINE_CHIPS, FINE_BINS, FINE_SPAN = 64, 4_096, 1.5 * STEP * BIN


class Found(NamedTuple):
    """Result of acquisition: at nominal time `time` the code has phase `phase`, and the carrier lies at `hertz`."""

    time: float
    phase: int
    hertz: float
    excess: float  # its energy over the one that noise reaches in one recording of a million
    is_conjugate: bool = False


class Best(NamedTuple):
    """The strongest cell: its bin of 37.5 Hz, its lateness in chips (0 or 1/2), its phase, its excess."""

    bin: int
    late: float
    phase: int
    excess: float


def bins_within(span: float, beyond: float = 0.0) -> NDArray[numpy.int64]:
    """Returns the bins of a search of `span` Hz to each side, in steps, around 0; without those of a search of `beyond`
    Hz."""
    most = int(numpy.ceil(span / BIN / STEP))
    steps = numpy.arange(-most, most + 1)
    return STEP * (steps[numpy.abs(steps) > numpy.ceil(beyond / BIN / STEP)] if beyond else steps)


def least_energy(cells: float, stretches: int) -> float:
    """Returns the energy over the mean of one stretch's noise that pure noise reaches in `cells` cells once in a
    million.

    The energy of noise in a sum of stretches has the Gamma distribution with as many degrees.
    """
    return float(gammainccinv(stretches, 1 / (ONE_IN * cells)))


@functools.lru_cache(maxsize=1)
def code_spectrum() -> NDArray[numpy.complex64]:
    """The transform of the code, 32,768 bins."""
    return fft.fft(short_code())


def transformed_bins(bins: NDArray[numpy.int64]) -> list[NDArray[numpy.int64]]:
    """Returns the bins of a first pass for each run of neighboring bins: every second one, from end to end.

    The last one lies a step after a run of an even number of bins, or two steps after a single one.
    """
    runs = numpy.split(bins, numpy.flatnonzero(numpy.diff(bins) != STEP) + 1)
    return [run[0] + 2 * STEP * numpy.arange(max(len(run) // 2, 1) + 1) for run in runs]


class Cells(NamedTuple):
    """Cells of a search, as arrays: their bins, their lateness in half chips (0 or 1), their phases."""

    bins: NDArray[numpy.int64]
    halves: NDArray[numpy.int64]
    phases: NDArray[numpy.int64]

    def of_bins(self, bins: NDArray[numpy.int64]) -> "Cells":
        """The cells of some bins."""
        kept = numpy.isin(self.bins, bins)
        return Cells(*(column[kept] for column in self))


class Squares(NamedTuple):
    """Squares of four cells of the first pass: the lower bins, the later phases, and the sums of the energies."""

    bins: NDArray[numpy.int64]
    phases: NDArray[numpy.int64]
    sums: NDArray[numpy.float32]

    def greatest(self) -> "Squares":
        """The squares with the greatest sums."""
        kept = numpy.argsort(self.sums)[-MOST_SQUARES:]
        return Squares(self.bins[kept], self.phases[kept], self.sums[kept])

    def cells_between(self) -> Cells:
        """The cells in the middle of the squares and of their edges, each once."""
        # Steps to the bin, and half chips before the later phase.
        steps, early = numpy.array([(1, 0), (0, 1), (1, 1), (2, 1), (1, 2)]).T
        found = numpy.stack([self.bins[:, None] + STEP * steps, 2 * self.phases[:, None] - early])
        bins, doubled = numpy.unique(found.reshape(2, -1), axis=1)
        # A phase half a chip before a whole one is that one's in the samples half a chip later.
        return Cells(bins, doubled % 2, (doubled + 1) // 2 % PERIOD)


class Search:
    """The energies of stretches in the cells of some bins, and the cell with the greatest.

    A pilot between the cells of the first pass, in phase, in carrier or in both, leaves most of its energy in the four
    around it. So of the other cells only those around the greatest sums of four are computed.
    """

    def __init__(self, bins: NDArray[numpy.int64]) -> None:
        """No stretch was added yet."""
        self.bins = numpy.unique(bins)
        self.runs = transformed_bins(self.bins)
        self.rows = numpy.concatenate(self.runs)
        self.energies = numpy.zeros((len(self.rows), PERIOD), dtype=numpy.float32)
        self.stretches: list[NDArray[numpy.complex64]] = []

    @property
    def cells(self) -> int:
        """The number of cells."""
        return 2 * PERIOD * len(self.bins)

    @property
    def mean(self) -> float:
        """The mean energy of one stretch in a cell."""
        return max(float(self.energies.mean(axis=1).mean(dtype=float)), 1e-30) / len(self.stretches)

    def add(self, halves: NDArray[numpy.complex64]) -> None:
        """Adds the next stretch, of two samples per chip."""
        whole = numpy.zeros(PERIOD, dtype=numpy.complex64)
        # The stretch stands at its own place, so that the phase found is that of the search's first chip.
        place = STRETCH * len(self.stretches)
        whole[place : place + STRETCH] = halves[::2]
        self.stretches.append(halves)
        spectrum = fft.fft(whole).conj()
        add_rows = functools.partial(self.add_rows, numpy.concatenate([spectrum, spectrum]))
        parts = numpy.array_split(numpy.arange(len(self.rows)), min(WORKERS, -(-len(self.rows) // BATCH)))
        if len(parts) == 1:
            add_rows(parts[0])
            return
        with ThreadPoolExecutor(len(parts)) as pool:
            list(pool.map(add_rows, parts))

    def add_rows(self, spectra: NDArray[numpy.complex64], numbers: NDArray[numpy.int64]) -> None:
        """Adds the energies of a stretch to consecutive rows; `spectra` is its conjugate spectrum twice in a row."""
        code = code_spectrum()
        room = numpy.empty((min(BATCH, len(numbers)), PERIOD), dtype=numpy.complex64)
        power = numpy.empty(PERIOD, dtype=numpy.float32)
        for batch in numpy.array_split(numbers, -(-len(numbers) // BATCH)):
            for row, first in zip(room, self.rows[batch] % PERIOD):
                numpy.multiply(spectra[first : first + PERIOD], code, out=row)  # the spectrum rolled to the left
            got = fft.ifft(room[: len(batch)], axis=1, overwrite_x=True)
            for energies, sums in zip(self.energies[batch[0] : batch[-1] + 1], got):
                for part in (sums.real, sums.imag):
                    energies += numpy.multiply(part, part, out=power)

    def squares(self, mean: float) -> Squares:
        """The squares of four cells with the greatest sums; `mean` is the mean energy of one stretch in a cell."""
        count = len(self.stretches)
        least = mean * float(gammainccinv(4 * count, min(1.0, FEW / self.energies.size)))
        found, first = [], 0
        for run in self.runs:
            pairs = neighbors_added(self.energies[first])
            for row, bin_before in enumerate(run[:-1], first + 1):
                before, pairs = pairs, neighbors_added(self.energies[row])
                before += pairs
                phases = numpy.flatnonzero(before > least)
                found.append(Squares(numpy.full(len(phases), bin_before), phases, before[phases]))
            first += len(run)
        return Squares(*(numpy.concatenate(column) for column in zip(*found))).greatest()

    def energies_of(self, cells: Cells) -> NDArray[numpy.float32]:
        """The energies of cells, each by its own sum over each stretch."""
        code = short_code()
        windows = numpy.lib.stride_tricks.sliding_window_view(numpy.concatenate([code, code[:STRETCH]]), STRETCH)
        bins, of_bin = numpy.unique(cells.bins, return_inverse=True)
        ramps = turn(bins[:, None] / PERIOD * numpy.arange(STRETCH))
        energies = numpy.zeros(len(cells.bins), dtype=numpy.float32)
        for number, halves in enumerate(self.stretches):
            terms = windows[(cells.phases + number * STRETCH) % PERIOD]
            terms *= halves.reshape(-1, 2).T.conj()[cells.halves]
            terms *= ramps[of_bin]
            sums = terms.sum(axis=1)
            energies += sums.real**2 + sums.imag**2
        return energies

    def strongest(self, tries: int) -> Best:
        """The strongest cell; its excess is over the energy that noise reaches in `tries` tries of as many cells."""
        mean, tops = self.mean, self.energies.max(axis=1)
        tops[~numpy.isin(self.rows, self.bins)] = 0.0
        row = int(tops.argmax())
        best, greatest = Best(int(self.rows[row]), 0.0, int(self.energies[row].argmax()), 0.0), float(tops[row])
        cells = self.squares(mean).cells_between().of_bins(self.bins)
        energies = self.energies_of(cells)
        if len(energies) and energies.max() > greatest:
            bin_found, half, phase = (int(column[energies.argmax()]) for column in cells)
            best, greatest = Best(bin_found, half / 2, phase, 0.0), float(energies.max())
        count = len(self.stretches)
        return best._replace(excess=greatest / mean / least_energy(self.cells * tries * len(LOOKS), count))


def neighbors_added(energies: NDArray[numpy.float32]) -> NDArray[numpy.float32]:
    """The energies at each phase and at the one before, added."""
    pairs = energies.copy()
    pairs[1:] += energies[:-1]
    pairs[0] += energies[-1]
    return pairs


def strongest(stretch: Callable[[int], NDArray[numpy.complex64]], bins: NDArray[numpy.int64], tries: int) -> Best:
    """Returns the strongest cell of the energies of stretches, which `stretch(k)` gives as two samples per chip.

    It continues until a cell stands out of noise in `tries` tries with this number of cells, up to four stretches.
    """
    search, best = Search(bins), Best(0, 0.0, 0, 0.0)
    for count in range(1, MOST_STRETCHES + 1):
        search.add(stretch(count - 1))
        if count in LOOKS:
            best = search.strongest(tries)
            if best.excess > 1:
                break
    return best


def places_of(front: Front, parts: tuple[float, ...]) -> list[float]:
    """The times at which a pilot is looked for; refuses a recording that is shorter than one period of the code."""
    if front.length < PERIOD:
        raise Refused(
            f"{front.length:.0f} chips are too few: the search for a pilot needs one period of the code, {PERIOD} chips"
            f" or {1000 * PERIOD / CHIP_RATE:.1f} ms"
        )
    room = front.length - MOST_STRETCHES * STRETCH - 2 * GUARD
    return sorted({float(int(GUARD + room * part)) for part in parts})


def limited(chips: NDArray[numpy.complex64]) -> NDArray[numpy.complex64]:
    """Chips with what is above PULSE times their median magnitude cut to that."""
    size = numpy.abs(chips)
    most = PULSE * numpy.median(size)
    if most == 0:
        return chips
    return (chips * (most / numpy.maximum(size, most))).astype(chips.dtype)


def looks(
    front: Front, span: float, is_conjugate: tuple[bool, ...], parts: tuple[float, ...], beyond: float = 0.0
) -> Iterator[Found]:
    """Yields the strongest cell at each place, of the recording and of its conjugate in turn.

    The conjugate of the samples is searched with the code turned round, so both share the front's work.
    """
    bins = bins_within(span, beyond)
    bands = numpy.array_split(bins, -(-len(bins) // MOST_BINS))
    places = places_of(front, parts)
    tries = len(places) * len(is_conjugate) * len(bands)
    shift = front.carrier
    for place in places:
        kept: dict[int, NDArray[numpy.complex64]] = {}

        def halves(number: int) -> NDArray[numpy.complex64]:
            if number not in kept:
                kept[number] = limited(front.steady(place + number * STRETCH, 2 * STRETCH, 2))
            return kept[number]

        for turned in is_conjugate:
            for band in bands:
                best = strongest(lambda k: halves(k).conj() if turned else halves(k), band, tries)
                hertz = (-shift if turned else shift) + best.bin * BIN
                yield Found(place + best.late, best.phase, hertz, best.excess, turned)


def finer(front: Front, found: Found) -> Found:
    """The carrier to some 20 Hz: the spectrum of the pilot's sums over 64 chips, of as many chips as were searched."""
    time = numpy.arange(MOST_STRETCHES * STRETCH)
    chips = front.steady(found.time, len(time), 1) * turn(-(found.hertz - front.carrier) / CHIP_RATE * time)
    sums = (chips * short_code()[(found.phase + time) % PERIOD].conj()).reshape(-1, FINE_CHIPS).sum(axis=1)
    # Energies over four parts, so that neither a drift nor a fade spoils them.
    power = (numpy.abs(fft.fft(sums.reshape(4, -1), FINE_BINS, axis=1)) ** 2).sum(axis=0)
    frequency = fft.fftfreq(FINE_BINS, FINE_CHIPS / CHIP_RATE)
    power[numpy.abs(frequency) > FINE_SPAN] = 0
    return found._replace(hertz=found.hertz + float(frequency[power.argmax()]))
