"""The way back: a recording as a radio would make it, from the sample files of cells.

Sample n of the recording is taken at chip (n 1,228,800 / rate) (1 + clock) + delay of the cells, so a positive clock
error is a radio whose clock is slow. The pulse is that of the standard (TIA/EIA-95-B, 7.1.3.1.10), with unit energy a
chip; the noise is white over the recording's band. A chip's power is that of a cell's samples.
"""

import math
from fractions import Fraction
from typing import IO, Callable, Iterator, NamedTuple

import numpy
from numpy.typing import NDArray
from scipy import fft
from scipy.linalg import hadamard

from cdma_tools.errors import Refused
from cdma_tools.radio.air import CHIP_RATE, PERIOD, ROWS, equaliser_spectrum, pulse_spectrum, ratio_of, short_code
from cdma_tools.radio.front import turn
from cdma_tools.recordings import TYPES
from cdma_tools.sample_file import GREATEST, SampleFile, header

# Steps of the pulse's table within a chip: a step is off by 1/2,048 at most, whose error lies 66 dB below the signal.
PHASES = 1_024
# Chips of the pulse to each side: its 48 taps reach to 6.
REACH = 8
# Sinusoids of a fading path, and the seconds between which their sum is drawn straight: a 20th of a turn at 1 kHz.
SINUSOIDS, FADING_STEP = 32, 50e-6
# Samples that are made at once.
AT_ONCE = 1 << 18
# The root mean square of the samples below full scale, in dB: the noise of 8 bits lies 40 dB below it.
LEVELS = {name: -12.5 if kind.size == 2 else -20.0 for name, kind in TYPES.items()}
# The root mean square of the ideal receiver's chips.
IDEAL_LEVEL = 2_000.0
# By how much faster chips may arrive before some are missing at the end, unless the clock is slower than that.
SLACK = 50e-6


class Path(NamedTuple):
    """A path: chips of delay, dB and degrees of gain, and the Doppler spread in Hz, 0 if it doesn't fade."""

    delay: float = 0.0
    level: float = 0.0
    degrees: float = 0.0
    doppler: float = 0.0

    @property
    def gain(self) -> complex:
        """The mean gain, an amplitude and a phase."""
        return complex(numpy.sqrt(ratio_of(self.level)) * numpy.exp(1j * numpy.radians(self.degrees)))


class Radio(NamedTuple):
    """What a radio does with the signal at its antenna."""

    rate: Fraction  # samples a second
    kind: str
    carrier: float = 0.0  # Hz above the middle
    drift: float = 0.0  # Hz a second
    clock: float = 0.0  # of the radio's clock, in millionths; positive if it is slow
    clock_drift: float = 0.0  # millionths a second
    delay: float = 0.0  # chips
    direct: float = 0.0  # the offset of both branches, as a part of the root mean square
    imbalance: float = 0.0  # dB by which q is stronger than i
    skew: float = 0.0  # degrees by which q leans to i
    level: float | None = None  # dB below full scale
    is_conjugate: bool = False
    has_equaliser: bool = False  # of the base station's
    losses: tuple[tuple[int, int], ...] = ()  # places in samples, and the number lost there


class Fading:
    """A path's complex gain over time: Rayleigh, with Jakes' spectrum, as a sum of sinusoids from all directions."""

    def __init__(self, path: Path, draws: numpy.random.Generator) -> None:
        self.path = path
        angles = (numpy.arange(SINUSOIDS) + draws.uniform(size=SINUSOIDS)) * 2 * numpy.pi / SINUSOIDS
        self.hertz = path.doppler * numpy.cos(angles)
        self.turns = draws.uniform(size=SINUSOIDS)

    def at(self, seconds: NDArray[numpy.float64]) -> complex | NDArray[numpy.complex128]:
        """The gain at rising times, of mean power that of the path."""
        if not self.path.doppler:
            return self.path.gain
        count = int((seconds[-1] - seconds[0]) / FADING_STEP) + 2
        knots = numpy.linspace(seconds[0], seconds[-1], count)
        sums = turn(knots[:, None] * self.hertz + self.turns).sum(axis=1) / numpy.sqrt(SINUSOIDS)
        drawn = numpy.interp(seconds, knots, sums.real) + 1j * numpy.interp(seconds, knots, sums.imag)
        return self.path.gain * drawn


def pulse_table(has_equaliser: bool, is_matched: bool = False) -> NDArray[numpy.float32]:
    """The pulse (PHASES + 1, 2 REACH): row p, tap l is its value p / PHASES + REACH - 1 - l chips from its middle.

    With is_matched it is the pulse after a matched filter.
    """
    size = 64 * PHASES
    frequency = fft.fftfreq(size, 1 / PHASES)
    response = pulse_spectrum(frequency).astype(complex)
    if is_matched:
        response = response**2
    elif has_equaliser:
        response *= equaliser_spectrum(frequency)
    pulse = fft.ifft(response).real * PHASES
    places = numpy.arange(PHASES + 1)[:, None] + PHASES * (REACH - 1 - numpy.arange(2 * REACH))
    return pulse[places % size].astype(numpy.float32)


class Cell:
    """A cell's sample file, with its gain in dB and its delay in chips."""

    def __init__(self, path: str, level: float = 0.0, delay: float = 0.0) -> None:
        self.file = SampleFile(path)
        self.count, self.delay = self.file.count, delay
        self.gain = float(numpy.sqrt(ratio_of(level)))
        self.measure()

    def measure(self) -> None:
        """Finds the power of a chip and the pilot's part, over the whole file, and the first chip's code phase."""
        head = self.file.read(0, min(self.count, PERIOD))
        got = numpy.abs(fft.ifft(fft.fft(short_code()) * fft.fft(head, PERIOD).conj()))
        self.phase = int(got.argmax())
        power = 0.0
        for first in range(0, self.count, AT_ONCE):
            chips = self.file.read(first, min(AT_ONCE, self.count - first))
            power += float(numpy.sum(chips.real**2 + chips.imag**2, dtype=float))
        self.power = self.gain**2 * power / self.count
        # A chip of the code has power 2. In whole blocks the other rows take no part; a file may be too short for one.
        blocks = list(self.row_sums(0))
        pilot = numpy.mean(numpy.concatenate(blocks), dtype=complex) if blocks else got[self.phase] / (2 * len(head))
        self.pilot = self.gain**2 * 2 * abs(complex(pilot)) ** 2

    def row_sums(self, row: int) -> Iterator[NDArray[numpy.complex64]]:
        """The amplitudes of a Walsh row (7.1.3.1.8) in all whole blocks of 64 chips, many at a time."""
        signs = hadamard(ROWS, dtype=numpy.float32)[row]
        skipped = -self.phase % ROWS
        end = skipped + (self.count - skipped) // ROWS * ROWS
        for first in range(skipped, end, AT_ONCE):
            chips = self.file.read(first, min(AT_ONCE, end - first))
            code = short_code()[(self.phase + first + numpy.arange(len(chips))) % PERIOD]
            yield (chips * code.conj()).reshape(-1, ROWS) @ signs / (2 * ROWS)

    def row_power(self, row: int) -> float:
        """The power of a chip of a Walsh row over the whole file, from its symbols of 64 chips, if it has one."""
        blocks = list(self.row_sums(row))
        if not blocks:
            return math.nan
        sums = numpy.concatenate(blocks)
        return self.gain**2 * 2 * float(numpy.mean(sums.real**2 + sums.imag**2, dtype=float))

    def at(self, chips: NDArray[numpy.float64], table: NDArray[numpy.float32]) -> NDArray[numpy.complex64]:
        """Returns what the cell sends at rising places in chips."""
        places = chips - self.delay
        first = int(numpy.floor(places[0])) - REACH
        sent = self.file.read(first, int(places[-1]) + REACH + 2 - first) * numpy.float32(self.gain)
        whole = numpy.floor(places).astype(numpy.int64)
        row = numpy.rint((places - whole) * PHASES).astype(numpy.int64)
        place = whole - REACH + 1 - first
        out = numpy.zeros(len(places), dtype=numpy.complex64)
        for tap in range(2 * REACH):
            out += sent[place + tap] * table[row, tap]
        return out


class Link:
    """Cells, paths and noise: what comes to an antenna. Powers are those of a chip."""

    def __init__(self, cells: list[Cell], paths: list[Path], seed: int) -> None:
        self.cells, self.paths, self.seed = cells, paths, seed
        self.draws = numpy.random.default_rng(seed)
        self.fadings = [Fading(path, self.draws) for path in paths]
        self.start = float(self.draws.uniform())  # the carrier's phase in turns
        gain = sum(abs(path.gain) ** 2 for path in paths)
        self.gain = gain
        self.power = gain * sum(cell.power for cell in cells)
        self.pilot = gain * cells[0].pilot
        self.noise = 0.0

    def close(self) -> None:
        """Closes the cells' files."""
        for cell in self.cells:
            cell.file.close()

    def set_ec_io(self, level: float) -> None:
        """Adds so much noise that the first cell's pilot has this share of all power, in dB."""
        self.noise = self.pilot / ratio_of(level) - self.power
        if self.noise < 0:
            clean = 10 * numpy.log10(self.pilot / self.power)
            raise Refused(f"Ec/Io can't be {level:g} dB: even without noise it is {clean:.1f} dB")

    def set_eb_nt(self, level: float, row: int, rate: int) -> None:
        """Adds so much noise that a bit of a row of the first cell, at `rate` bits a second, has this energy, in dB,

        over the density of noise and other cells.
        """
        bit = self.gain * self.cells[0].row_power(row) * CHIP_RATE / rate
        others = self.gain * sum(cell.power for cell in self.cells[1:])
        self.noise = bit / ratio_of(level) - others
        if self.noise < 0:
            raise Refused(
                f"Eb/Nt can't be {level:g} dB: the other cells limit it to {10 * numpy.log10(bit / others):.1f} dB"
            )

    def received(
        self, chips: NDArray[numpy.float64], seconds: NDArray[numpy.float64], table: NDArray[numpy.float32]
    ) -> NDArray[numpy.complex64]:
        """The sum over cells and paths at places in chips, which are reached at times."""
        out = numpy.zeros(len(chips), dtype=numpy.complex64)
        for path, fading in zip(self.paths, self.fadings):
            sent = self.cells[0].at(chips - path.delay, table)
            for cell in self.cells[1:]:
                sent += cell.at(chips - path.delay, table)
            out += sent * fading.at(seconds)
        return out


def noise_of(draws: numpy.random.Generator, count: int, variance: float) -> NDArray[numpy.complex64]:
    """White complex noise of a variance."""
    parts = draws.standard_normal((count, 2), dtype=numpy.float32) * numpy.float32(numpy.sqrt(variance / 2))
    return parts.view(numpy.complex64)[:, 0]


class Made(NamedTuple):
    """Samples of a recording, and parts that were cut at the ends of the range."""

    samples: int
    cut: int


def full_scale(kind: str) -> float:
    """The greatest part of a type."""
    kept = TYPES[kind]
    return 1.0 if kept.is_floating else float(numpy.iinfo(kept.form).max) - kept.middle


def as_parts(samples: NDArray[numpy.complex64], radio: Radio, root: float) -> tuple[bytes, int]:
    """Returns samples of unit power as their type stores them at the level `root`, and the number of parts that were
    cut."""
    i, q = samples.real * root, samples.imag * root
    lean, gain = numpy.radians(radio.skew), ratio_of(radio.imbalance) ** 0.5
    parts = numpy.stack([i, gain * (q * numpy.cos(lean) + i * numpy.sin(lean))], axis=1) + radio.direct * root
    form, _, middle = TYPES[radio.kind]
    if TYPES[radio.kind].is_floating:
        return parts.astype(form).tobytes(), 0
    low, high = numpy.iinfo(form).min, numpy.iinfo(form).max
    whole = numpy.rint(parts + middle)
    cut = int(numpy.count_nonzero((whole < low) | (whole > high)))
    return numpy.clip(whole, low, high).astype(form).tobytes(), cut


def sample_numbers(begin: int, end: int, losses: tuple[tuple[int, int], ...]) -> NDArray[numpy.float64]:
    """The times, in samples, of samples begin to end - 1 of a recording that has lost some."""
    numbers = numpy.arange(begin, end, dtype=float)
    late = numpy.zeros(len(numbers))
    for place, count in losses:
        late += numpy.where(numbers >= place, count, 0)
    return numbers + late


def slack_of(radio: Radio, chips: int) -> float:
    """Returns the greatest number of chips by which chips come faster in a recording of `chips`."""
    return max(SLACK, 1e-6 * (radio.clock + max(0.0, radio.clock_drift) * chips / CHIP_RATE / 2))


def record(
    link: Link, radio: Radio, chips: int, file: IO[bytes], tell: Callable[[int], None] = lambda count: None
) -> Made:
    """Writes the recording of a link over `chips` chips; `tell` gets the samples as they are written."""
    per_sample = CHIP_RATE / float(radio.rate)
    lost = sum(count for _, count in radio.losses)
    count = int((chips - 2 * REACH) / per_sample / (1 + slack_of(radio, chips))) - lost
    if count < 1:
        raise Refused(f"{chips} chips are too few for a recording")
    variance = link.noise * float(radio.rate) / CHIP_RATE
    level = LEVELS[radio.kind] if radio.level is None else radio.level
    root = full_scale(radio.kind) * numpy.sqrt(ratio_of(level))
    unit = numpy.float32(1 / numpy.sqrt(link.power + variance))
    table = pulse_table(radio.has_equaliser)
    cut = 0
    for begin in range(0, count, AT_ONCE):
        numbers = sample_numbers(begin, min(begin + AT_ONCE, count), radio.losses)
        seconds = numbers / float(radio.rate)
        pace = 1 + 1e-6 * (radio.clock + radio.clock_drift * seconds / 2)
        samples = link.received(numbers * per_sample * pace + radio.delay, seconds, table)
        samples *= turn(link.start + radio.carrier * seconds + radio.drift / 2 * seconds**2)
        if variance:
            samples += noise_of(link.draws, len(samples), variance)
        data, more = as_parts((samples.conj() if radio.is_conjugate else samples) * unit, radio, float(root))
        file.write(data)
        cut += more
        tell(len(samples))
    return Made(count, cut)


def write_ideal(link: Link, chips: int, file: IO[bytes], tell: Callable[[int], None] = lambda count: None) -> int:
    """Writes the same link's chips as an ideal receiver has them, and returns their number.

    Timing and carrier are the true ones; noise is added at one sample per chip; the first path lies at whole chips.
    """
    draws = numpy.random.default_rng([link.seed, 7])  # another noise than the recording's
    table = pulse_table(False, is_matched=True)
    # A pulse that arrives on time affects only one chip: an ideal receiver has no interference of neighbours.
    table[0], table[-1] = numpy.arange(2 * REACH) == REACH - 1, numpy.arange(2 * REACH) == REACH
    scale = numpy.float32(IDEAL_LEVEL / numpy.sqrt(link.power + link.noise))
    count, start = chips - 2 * REACH, link.paths[0].delay
    file.write(header(1, link.cells[0].file.flags, count))
    for begin in range(0, count, AT_ONCE):
        places = numpy.arange(begin, min(begin + AT_ONCE, count), dtype=float)
        out = link.received(places + start, places / CHIP_RATE, table)
        if link.noise:
            out += noise_of(draws, len(out), link.noise)
        parts = numpy.clip(numpy.rint((out * scale).view(numpy.float32)), -GREATEST[1] - 1, GREATEST[1])
        file.write(parts.astype(">i2").tobytes())
        tell(len(places))
    return count
