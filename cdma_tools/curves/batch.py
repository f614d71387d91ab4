"""One batch of a point, a worker's task: a file of the script's samples with noise of its own, received and counted.

A batch's counts depend only on its setup, its level of noise and its numbers. Nothing is kept from batch to batch but
the samples without noise, which each process makes once.
"""

import dataclasses
import functools
import shlex
from collections.abc import Iterator

import numpy
import scipy
from numpy.typing import NDArray

from cdma_tools.curves.antenna import Antenna, Caught, caught
from cdma_tools.curves.counting import Counts, Expected, all_unlocked, counted, expected, moved
from cdma_tools.curves.levels import ROUNDING, Air, air_of, air_over
from cdma_tools.curves.noise import GREATEST, LEAST, check_room, generator, link_seed, noisy
from cdma_tools.curves.receiver import digest, heard, made, sample_file
from cdma_tools.errors import Refused
from cdma_tools.heard_run import FRAME
from cdma_tools.scripts import Script, Traffic, chosen_channel, read_script


# Samples in which a lock is tried without noise: three seconds.
TRIED = 150 * FRAME


@dataclasses.dataclass(frozen=True)
class Curve:
    """A receiver whose frames are counted: its program and that one's checksum, its arguments, and its name in tables."""

    program: str
    checksum: str
    words: str
    label: str


@dataclasses.dataclass(frozen=True)
class Setup:
    """All that a run's batches share: `others` are scripts of other cells, `paths` have delays in chips and factors."""

    name: str
    text: str
    row: int
    others: tuple[str, ...]
    paths: tuple[tuple[int, complex], ...]
    maker: str
    maker_checksum: str
    curves: tuple[Curve, ...]
    seed: int
    minutes: float
    numpy_version: str
    antenna: Antenna | None = None


@dataclasses.dataclass(frozen=True)
class Prepared:
    """The samples without noise (parts, i and q in turn), and what each curve's arguments should receive from them."""

    script: Script
    traffic: Traffic
    flags: int
    parts: NDArray[numpy.int16]
    greatest: int
    wanted: tuple[Expected, ...]
    air: Air


def versions_of(antenna: Antenna | None) -> str:
    """The versions of what draws the noise, and of what a lock computes by."""
    return f"{numpy.__version__} with scipy {scipy.__version__}" if antenna else numpy.__version__


def check_machine(setup: Setup) -> None:
    """Refuses a machine on which the same seeds might give other counts."""
    if (here := versions_of(setup.antenna)) != setup.numpy_version:
        raise Refused(f"numpy is {here} here, but {setup.numpy_version} on the machine that began the run")
    programs = {(setup.maker, setup.maker_checksum), *((curve.program, curve.checksum) for curve in setup.curves)}
    for program, checksum in sorted(programs):
        if digest(program) != checksum:
            raise Refused(f"{program} is another program here than on the machine that began the run")


def on_air(setup: Setup, parts: NDArray[numpy.int16]) -> NDArray[numpy.int16]:
    """The samples of all paths and of the other cells, rounded, for the parts of the script's own path."""
    if not (setup.paths or setup.others):
        return parts
    own = parts.astype(numpy.float32).view(numpy.complex64)
    sums = own.copy()
    for delay, factor in setup.paths:
        sums[delay:] += numpy.complex64(factor) * own[: len(own) - delay]
    for number, text in enumerate(setup.others, 1):
        _, other = made(setup.maker, text, f"--other {number}", setup.minutes)
        length = min(len(sums), len(other) // 2)
        sums[:length] += other[: 2 * length].astype(numpy.float32).view(numpy.complex64)
    rounded = numpy.rint(sums.view(numpy.float32))
    if rounded.min() < LEAST or rounded.max() > GREATEST:
        raise Refused("the paths and cells together exceed the range of samples: give the scripts lower gains")
    return rounded.astype(numpy.int16)


@functools.lru_cache(maxsize=1)
def prepared(setup: Setup) -> Prepared:
    """Returns what a process keeps of a setup."""
    check_machine(setup)
    script = read_script(setup.text, setup.name)
    traffic = chosen_channel(script, setup.row, setup.name)
    flags, own = made(setup.maker, setup.text, setup.name, setup.minutes)
    parts = own if setup.antenna else on_air(setup, own)
    data = sample_file(flags, parts)
    wanted: dict[str, Expected] = {}
    for curve in setup.curves:
        if curve.words not in wanted:
            name = f"{setup.maker} {curve.words}"
            wanted[curve.words] = expected(script, traffic, heard(setup.maker, curve.words, data, setup.minutes), name)
    others = sum(read_script(text, "--other").power() for text in setup.others)
    if setup.antenna:
        air = air_over(script, setup.antenna.gains(), others, setup.antenna.kind())
    else:
        air = air_of(script, tuple(factor for _, factor in setup.paths), others)
    greatest = int(numpy.abs(parts.astype(numpy.int32)).max())
    return Prepared(
        script, traffic, flags, parts, greatest, tuple(wanted[curve.words] for curve in setup.curves), air
    )


def run_batch(setup: Setup, point: int, sigma: float, batch: int) -> list[Counts]:
    """The counts of each curve for batch number `batch` at a point, at a level of noise."""
    ready = prepared(setup)
    if setup.antenna:
        return run_locked(setup, setup.antenna, ready, 2 * sigma**2 + ROUNDING, link_seed(setup.seed, point, batch))
    check_room(ready.greatest, sigma)
    data = sample_file(ready.flags, noisy(ready.parts, sigma, generator(setup.seed, point, batch)))
    return [
        counted(wanted, heard(curve.program, curve.words, data, setup.minutes), f"{curve.program} {curve.words}")
        for curve, wanted in zip(setup.curves, ready.wanted)
    ]


def cells_of(setup: Setup, ready: Prepared) -> Iterator[bytes]:
    """The sample files of the script's cell and of the other cells."""
    yield sample_file(ready.flags, ready.parts)
    for number, text in enumerate(setup.others, 1):
        yield sample_file(*made(setup.maker, text, f"--other {number}", setup.minutes))


def fingers_of(words: str) -> int:
    """Returns the number of fingers in a receiver's arguments, by default 1."""
    found = 1
    parts = [part for word in shlex.split(words) for part in word.split("=", 1)]
    for name, value in zip(parts, parts[1:]):
        if name == "--fingers" and value in ("1", "2", "3"):
            found = int(value)
    return found


@functools.lru_cache(maxsize=256)
def expected_from(setup: Setup, words: str, begin: int, length: int) -> Expected:
    """Returns what receivers with these arguments should receive, without noise, from `length` samples from `begin` on.
    """
    ready = prepared(setup)
    samples = min(length, len(ready.parts) // 2 - begin)
    cut = dataclasses.replace(ready.script, start=ready.script.start + begin, samples=samples)
    data = sample_file(ready.flags, ready.parts[2 * begin : 2 * (begin + samples)])
    name = f"{setup.maker} {words}"
    return expected(cut, ready.traffic, heard(setup.maker, words, data, setup.minutes), name)


def wanted_of(setup: Setup, words: str, got: Caught) -> Expected:
    """Returns what should be received from a file that a lock made, from its first chip on, if the pilot wasn't lost
    there."""
    if got.is_late:
        return moved(expected_from(setup, words, 0, got.begin + got.length), got.begin)
    return expected_from(setup, words, got.begin, got.length)


def run_locked(setup: Setup, antenna: Antenna, ready: Prepared, noise: float, seed: int) -> list[Counts]:
    """The counts of each curve over a recording, in noise of so much power a chip, and a lock of its own."""
    fingers = {fingers_of(curve.words) for curve in setup.curves}
    found = caught(antenna, list(cells_of(setup, ready)), noise, seed, ready.flags, fingers)
    counts = []
    for curve, wanted in zip(setup.curves, ready.wanted):
        got = found[fingers_of(curve.words)]
        if isinstance(got, Refused):
            counts.append(all_unlocked(wanted))
            continue
        lines = heard(curve.program, curve.words, got.data, setup.minutes)
        here = wanted_of(setup, curve.words, got)
        counts.append(counted(here, lines, f"{curve.program} {curve.words}", got.unheard))
    return counts


def check_lock(setup: Setup, antenna: Antenna, ready: Prepared) -> None:
    """Refuses a link over which the lock finds no pilot even without noise in the first seconds."""
    first, *others = cells_of(setup, ready)
    count = min(len(ready.parts), 2 * TRIED)
    head = sample_file(ready.flags, ready.parts[:count])
    got = caught(antenna, [head, *others], 0.0, setup.seed, ready.flags, {1})[1]
    if isinstance(got, Refused):
        raise Refused(f"--channel: there is no lock even without noise: {got}")
