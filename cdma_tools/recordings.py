"""Raw samples of a radio: their types, and reading them in any place."""

import copy
import os
from collections.abc import Callable, Iterator
from typing import NamedTuple, Protocol

import numpy
from numpy.typing import NDArray

from cdma_tools.errors import Refused


# Seconds of samples that are read of a file at once.
BLOCK_SECONDS = 0.05


class Kind(NamedTuple):
    """How a sample type stores one part of a sample."""

    form: str  # numpy's name for it
    zero: int  # the whole number that means 0
    middle: float  # the true middle of the converter's range

    @property
    def size(self) -> int:
        """Bytes of a sample, both parts together."""
        return 2 * numpy.dtype(self.form).itemsize

    @property
    def is_floating(self) -> bool:
        """Whether the parts are numbers of floating point."""
        return numpy.dtype(self.form).kind == "f"


# A converter of unsigned bytes has its middle between 127 and 128; where samples are to stay whole, 128 is 0.
TYPES = {
    "ci16_le": Kind("<i2", 0, 0.0),
    "ci16_be": Kind(">i2", 0, 0.0),
    "ci8": Kind("i1", 0, 0.0),
    "cu8": Kind("u1", 128, 127.5),
    "cf32_le": Kind("<f4", 0, 0.0),
    "cf32_be": Kind(">f4", 0, 0.0),
    "ci32_le": Kind("<i4", 0, 0.0),
    "cf64_le": Kind("<f8", 0, 0.0),
}
# Short names of types, whose bytes are in the order of most machines.
SHORT_NAMES = {name.removesuffix("_le"): name for name in TYPES if name.endswith("_le")}


def type_named(text: str) -> str:
    """The name of a type, also by its short name; any other text as it is."""
    return SHORT_NAMES.get(text, text)


class SamplePath(str):
    """The path of a file in which samples stand among other bytes: their first byte, and how many bytes they have."""

    first: int
    size: int

    def __new__(cls, path: str, first: int, size: int) -> "SamplePath":
        """The path, with the place of its samples."""
        made = super().__new__(cls, path)
        made.first, made.size = first, size
        return made

    def __reduce__(self) -> tuple[type["SamplePath"], tuple[str, int, int]]:
        """How it is sent to another process."""
        return SamplePath, (str(self), self.first, self.size)


def first_byte(path: str) -> int:
    """The byte of a file at which its samples begin."""
    return path.first if isinstance(path, SamplePath) else 0


def sample_bytes(path: str) -> int:
    """How many bytes the samples of a file have; refuses a file that isn't there."""
    try:
        total = os.stat(path).st_size
    except OSError as why:
        raise Refused(f"{path}: {why.strerror}") from None
    return min(path.size, max(0, total - path.first)) if isinstance(path, SamplePath) else total


def absolute(path: str) -> str:
    """The path from the root, with the place of its samples."""
    whole = os.path.abspath(path)
    return SamplePath(whole, path.first, path.size) if isinstance(path, SamplePath) else whole


def sample_count(path: str, kind: str) -> int:
    """How many whole samples a file holds; refuses a file that ends within one, or isn't there."""
    size, total = TYPES[kind].size, sample_bytes(path)
    if total % size:
        raise Refused(f"{path}: {total} bytes are not a whole number of samples of {size} bytes")
    return total // size


def blocks_of_file(path: str, first: int, count: int, block: int) -> Iterator[bytes]:
    """Yields bytes first to first + count - 1 of a file, some at a time; raises Refused if they can't be read."""
    try:
        with open(path, "rb", buffering=0) as file:
            file.seek(first_byte(path) + first)
            left = count
            while left > 0:
                data = file.read(min(block, left))
                if not data:
                    raise Refused(f"{path}: the file ended early")
                left -= len(data)
                yield data
    except OSError as why:
        raise Refused(f"{path}: {why.strerror}") from None


def with_zeros(
    first: int, count: int, held: int, inside: Callable[[int, int], NDArray[numpy.complex64]]
) -> NDArray[numpy.complex64]:
    """Returns samples first to first + count - 1, with zeros outside the `held` ones: `inside` gives low to high - 1 of
    those."""
    out = numpy.zeros(count, dtype=numpy.complex64)
    low, high = max(first, 0), min(first + count, held)
    if low < high:
        out[low - first : high - first] = inside(low, high)
    return out


class Samples(Protocol):
    """Raw samples that a front reads: a recording, or what replaces it."""

    rate: float
    count: int

    def read(self, first: int, count: int) -> NDArray[numpy.complex64]:
        """Returns samples first to first + count - 1, with zeros for missing ones."""

    def conjugate(self) -> "Samples":
        """The conjugate of the same samples."""

    def close(self) -> None:
        """Closes its file."""


class Recording:
    """The samples of a recording as complex numbers of single precision, read on demand.

    They are read from the file and not mapped, so that the memory in use doesn't grow with the file.
    """

    def __init__(self, path: str, kind: str, rate: float, skip: int = 0, is_conjugate: bool = False) -> None:
        """Opens samples `skip` and on of a file with `rate` samples a second; with is_conjugate, their conjugates."""
        total = sample_count(path, kind)
        if total <= skip:
            raise Refused(f"{path}: no samples left" + (f" after --skip {skip}: it has {total}" if skip else ""))
        self.path, self.kind, self.rate, self.first = path, TYPES[kind], float(rate), first_byte(path)
        self.skip, self.count = skip, total - skip
        self.is_conjugate = is_conjugate
        try:
            self.file = open(path, "rb", buffering=0)
        except OSError as why:
            raise Refused(f"{path}: {why.strerror}") from None

    def __enter__(self) -> "Recording":
        return self

    def __exit__(self, *_: object) -> None:
        self.close()

    def close(self) -> None:
        """Closes the file."""
        self.file.close()

    def conjugate(self) -> "Recording":
        """The conjugate of the same samples, by the same open file."""
        other = copy.copy(self)
        other.is_conjugate = not self.is_conjugate
        return other

    def read(self, first: int, count: int) -> NDArray[numpy.complex64]:
        """Returns samples first to first + count - 1, with zeros outside the recording."""
        return with_zeros(first, count, self.count, self.inside)

    def inside(self, low: int, high: int) -> NDArray[numpy.complex64]:
        """Samples low to high - 1, which the recording has."""
        try:
            self.file.seek(self.first + (self.skip + low) * self.kind.size)
            parts = numpy.fromfile(self.file, dtype=self.kind.form, count=2 * (high - low))
        except OSError as why:
            raise Refused(f"{self.path}: {why.strerror}") from None
        if len(parts) != 2 * (high - low):
            raise Refused(f"{self.path}: the file ended early")
        taken = parts.astype(numpy.float32)
        if self.kind.middle:
            taken -= numpy.float32(self.kind.middle)
        if self.kind.is_floating and not numpy.isfinite(taken).all():
            lost = self.skip + low + int(numpy.flatnonzero(~numpy.isfinite(taken))[0]) // 2
            raise Refused(f"{self.path}: sample {lost} isn't finite")
        samples = taken.view(numpy.complex64)
        return samples.conj() if self.is_conjugate else samples
