"""The plain ways from a recording to chips, with a known carrier and clock: as is, every n-th sample, resampled."""

import argparse
from fractions import Fraction
from typing import Any

import numpy
from numpy.typing import NDArray

from cdma_tools.arguments import text_of
from cdma_tools.errors import Refused
from cdma_tools.radio.air import CHIP_RATE
from cdma_tools.recordings import TYPES, first_byte, sample_count
from cdma_tools.sample_file import FORM, GREATEST, MOST_CHIPS
from cdma_tools.sources.taking import TakenSource

# The ratio up to which a rate is resampled at once: scipy's filter has some 20 taps for each unit of it.
LARGEST_RATIO = 100_000


def resampled(branch: NDArray[Any], up: int, down: int) -> NDArray[numpy.float64]:
    """Samples of one branch at up / down times their rate."""
    try:
        from scipy.signal import resample_poly  # takes half a second to load, and only this needs it
    except ImportError as missing:
        raise Refused(f"{missing}: to resample, install the package python3-scipy") from None
    return resample_poly(branch.astype(numpy.float64), up, down)


class Plan:
    """How the samples of a rate become chips."""

    def __init__(self, rate: Fraction, options: argparse.Namespace) -> None:
        self.rate = rate
        ratio = rate / CHIP_RATE
        if ratio < 1:
            raise Refused(f"{text_of(rate)} samples a second are fewer than the chip rate, {CHIP_RATE}")
        self.is_whole = ratio.denominator == 1
        self.multiple = ratio.numerator  # samples of a chip, if that is whole
        self.up, self.down = ratio.denominator, ratio.numerator
        self.offset = options.offset or 0
        self.has_sum = options.sum
        if ratio == 1 and (options.offset or options.sum):
            raise Refused("--offset and --sum have no effect at the chip rate, with one sample to a chip")
        if not self.is_whole and (options.offset is not None or options.sum):
            raise Refused(f"--offset and --sum need a multiple of the chip rate, and {text_of(rate)} isn't one")
        if self.is_whole and self.offset >= self.multiple:
            raise Refused(
                f"--offset is {self.offset}, but a chip has {self.multiple} samples: 0 to {self.multiple - 1}"
            )
        if not self.is_whole and max(self.up, self.down) > LARGEST_RATIO:
            raise Refused(f"{text_of(rate)} to {CHIP_RATE} is {self.down} to {self.up}: not a ratio of small numbers")

    def samples_for(self, chips: int) -> int:
        """Returns the number of samples of a recording that suffice for `chips` chips."""
        if self.is_whole:
            return self.multiple * (chips + 1)
        return chips * self.down // self.up + 64 * (self.down // self.up + 2)

    def chips(self, parts: NDArray[Any]) -> NDArray[Any]:
        """The chips of samples, a row of two parts each; whole numbers stay whole at a multiple."""
        if not self.is_whole:
            return numpy.stack([resampled(parts[:, k], self.up, self.down) for k in (0, 1)], axis=1)
        if self.multiple == 1:
            return parts
        if not self.has_sum:
            return parts[self.offset :: self.multiple]
        count = max(0, len(parts) - self.offset) // self.multiple
        return parts[self.offset : self.offset + count * self.multiple].reshape(count, self.multiple, 2).sum(axis=1)


def read_samples(path: str, kind: str, skip: int, most: int | None) -> NDArray[Any]:
    """The samples of a recording, a row of two parts each: whole numbers, or floating point of its own."""
    kept = TYPES[kind]
    total = sample_count(path, kind)
    if total <= skip:
        raise Refused(f"{path}: no samples left" + (f" after --skip {skip}: it has {total}" if skip else ""))
    count = total - skip
    if most is not None:
        count = min(count, most)
    try:
        read = numpy.fromfile(path, dtype=kept.form, count=2 * count, offset=first_byte(path) + kept.size * skip)
    except OSError as why:
        raise Refused(f"{path}: {why.strerror}") from None
    if len(read) != 2 * count:
        raise Refused(f"{path}: the file ended early")
    parts = read.astype(numpy.float64 if kept.is_floating else numpy.int64).reshape(-1, 2) - kept.zero
    if kept.is_floating:
        lost = numpy.flatnonzero(~numpy.isfinite(parts).all(axis=1))
        if len(lost):
            raise Refused(f"{path}: sample {skip + lost[0]} isn't finite")
    return parts


def turned(parts: NDArray[Any], hertz: float, rate: Fraction) -> NDArray[numpy.float64]:
    """Returns the samples with a carrier of `hertz` moved to 0."""
    angle = -2 * numpy.pi * (hertz / float(rate) * numpy.arange(len(parts)) % 1.0)
    i, q = parts.T
    samples = (i + 1j * q) * numpy.exp(1j * angle)
    return numpy.stack([samples.real, samples.imag], axis=1)


def scaled(chips: NDArray[Any], scale: float | str | None, version: int) -> tuple[NDArray[Any], float]:
    """The chips as whole numbers that the version holds, and the scale that made them."""
    most, is_whole = GREATEST[version], chips.dtype.kind == "i"
    top = numpy.abs(chips).max()
    if scale == "fit" or scale is None and not is_whole:
        factor = float(most / top) if top else 1.0
    else:
        factor = 1.0 if scale is None else float(scale)
    parts = chips if is_whole and factor == 1.0 else numpy.rint(chips * factor)
    outside = numpy.flatnonzero(((parts < -most - 1) | (parts > most)).any(axis=1))
    if len(outside):
        at = outside[0]
        raise Refused(
            f"chip {at} would be ({parts[at, 0]:.0f}, {parts[at, 1]:.0f}), but version {version} holds"
            f" {-most - 1} to {most}: give a --scale of at most {most / float(top):.9g}, or --scale fit"
        )
    return parts.astype(FORM[version]), factor


def plain_chips(options: argparse.Namespace, recording: TakenSource) -> tuple[NDArray[Any], float]:
    """The chips to write, and the scale that was taken."""
    kind, rate, path = recording.kind, recording.rate, recording.path
    plan = Plan(rate, options)
    most = None if options.count is None else plan.samples_for(options.count)
    parts = read_samples(path, kind, options.skip, most)
    if options.shift:
        parts = turned(parts, options.shift, rate)
    chips = plan.chips(parts)[: options.count]
    if not len(chips):
        raise Refused(f"{path}: too few samples for one chip")
    if len(chips) > MOST_CHIPS[options.version]:
        raise Refused(
            f"{path}: {len(chips)} chips, but a file of version {options.version} holds at most"
            f" {MOST_CHIPS[options.version]}: give --count"
        )
    return scaled(chips, options.scale, options.version)
