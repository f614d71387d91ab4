"""Chips: the samples of a sample file as an array, and such files read and written (docs/FORMATS.md)."""

import os
from collections.abc import Callable, Iterator
from typing import IO, Any

import numpy
from numpy.typing import ArrayLike, NDArray

from cdma.errors import FileError, ParameterError, as_errors
from cdma.parameters import number_within, path_of
from cdma_model.files import PART, BadFile, read_header
from cdma_tools.heard_run import CHIP_RATE
from cdma_tools.sample_header import HEADER, MOST_CHIPS, header
from cdma_tools.writing import write_beside

PIECE = 1 << 18  # samples that are converted at once
VERSIONS = {numpy.dtype(numpy.int16): 1, numpy.dtype(numpy.int8): 2}
Signed = numpy.dtype[numpy.signedinteger[Any]]


class Chips(numpy.ndarray[Any, Signed]):
    """Samples of a cell, one for each chip: an array of shape (n, 2), I and Q, of type int16 or int8.

    `Chips(samples, checks=0)` takes whole numbers of that shape. Numbers of type int8 stay so, all others become int16.
    `checks` has the flags of a sample file: 1 if the 30-bit checks of messages are complemented, plus 2 if the 16-bit
    ones are. Slices keep it. There are 1,228,800 chips in a second.

    Raises `cdma.ParameterError` if the shape or a number is wrong.

    >>> cdma.Chips([[100, -100], [3, 4]])
    <Chips: 2 samples of 16 bits, 1.63e-06 s, checks=0>
    >>> cdma.Chips([[100, -100], [3, 4]]).as_complex()
    array([100.-100.j,   3.  +4.j], dtype=complex64)
    """

    checks: int

    def __new__(cls, samples: ArrayLike, checks: int = 0) -> "Chips":
        """Takes whole numbers of shape (n, 2)."""
        array = whole_parts(array_of(samples, "samples"), "samples")
        chips = numpy.ascontiguousarray(array).view(cls)
        chips.checks = number_within("checks", checks, 0, 3)
        return chips

    def __array_finalize__(self, other: object) -> None:
        """Takes the flags of what this was made from."""
        self.checks = getattr(other, "checks", 0)

    def __reduce__(self) -> tuple[Callable[..., Any], tuple[NDArray[Any], int]]:
        """Keeps the flags in copies that go to other processes."""
        return restored, (numpy.asarray(self), self.checks)

    def __repr__(self) -> str:
        """Returns the number of samples, their width, their time, and the flags."""
        if self.ndim != 2 or self.shape[1] != 2:
            return repr(numpy.asarray(self))
        width = f"{8 * self.itemsize} bits" if self.dtype in VERSIONS else str(self.dtype)
        return f"<Chips: {len(self):,} samples of {width}, {self.seconds:.3g} s, checks={self.checks}>"

    __str__ = __repr__

    @property
    def seconds(self) -> float:
        """Their time in seconds."""
        return len(self) / CHIP_RATE

    def as_complex(self) -> NDArray[numpy.complex64]:
        """Returns the samples as complex numbers, I + jQ: shape (n,), type complex64."""
        return numpy.ascontiguousarray(self, numpy.float32).view(numpy.complex64)[:, 0]

    def save(self, path: str | os.PathLike[str]) -> None:
        """Writes a sample file, of version 1 for int16 and of version 2 for int8; see `cdma.save`."""
        save(self, path)


def restored(array: NDArray[Any], checks: int) -> Chips:
    """Returns a copy of chips from another process."""
    chips = array.view(Chips)
    chips.checks = checks
    return chips


Samples = Chips | NDArray[Any]
Source = Samples | str | os.PathLike[str]  # chips, or the path of a sample file


def whole_parts(array: NDArray[Any], name: str) -> NDArray[Any]:
    """Returns samples as int16 or int8; raises ParameterError if they aren't whole numbers of shape (n, 2)."""
    if array.ndim != 2 or array.shape[1] != 2:
        raise ParameterError(name, f"an array of shape (n, 2) is needed, not {array.shape}")
    if array.dtype.kind not in "iu":
        raise ParameterError(name, f"whole numbers are needed, not {array.dtype}")
    if array.dtype.newbyteorder("=") not in VERSIONS:
        bounds = numpy.iinfo(numpy.int16)
        if array.size and (array.min() < bounds.min or array.max() > bounds.max):
            raise ParameterError(name, f"a number is out of range ({bounds.min:,} to {bounds.max:,})")
        array = array.astype(numpy.int16)
    most = MOST_CHIPS[VERSIONS[array.dtype.newbyteorder("=")]]
    if len(array) > most:
        raise ParameterError(name, f"{len(array):,} samples, but a file has at most {most:,}")
    return array if array.dtype.isnative else array.astype(array.dtype.newbyteorder("="))


def chips_of(samples: Samples, name: str = "chips") -> Chips:
    """Returns samples as chips."""
    array = whole_parts(array_of(samples, name), name)
    return restored(array, getattr(samples, "checks", 0))


def array_of(samples: object, name: str) -> NDArray[Any]:
    """Returns samples as an array; raises ParameterError if their rows differ in length."""
    try:
        return numpy.asarray(samples)
    except ValueError:
        raise ParameterError(name, f"an array of shape (n, 2) is needed, not {samples!r:.60}") from None


def loaded(source: Source, name: str = "chips") -> Chips:
    """Returns chips as they are, or those of the sample file at a path."""
    return load(path_of(name, source)) if isinstance(source, (str, os.PathLike)) else chips_of(source, name)


def file_pieces(chips: Chips) -> Iterator[bytes | memoryview]:
    """Yields the bytes of the sample file of chips."""
    version = VERSIONS[chips.dtype]
    yield header(version, chips.checks, len(chips))
    for first in range(0, len(chips), PIECE):
        yield numpy.asarray(chips[first : first + PIECE]).astype(PART[version]).data.cast("B")


def read_samples(file: IO[bytes]) -> Chips:
    """Returns the chips of an open sample file; raises FileError if it is none."""
    try:
        version, flags, count = read_header(file.read(HEADER.size))
    except BadFile as why:
        raise FileError(why.kind, why.place) from None
    parts = numpy.empty((count, 2), PART[version])
    taken = 0
    data = parts.data.cast("B") if count else memoryview(b"")
    while taken < len(data):
        read = file.readinto(data[taken:])  # type: ignore[attr-defined]
        if not read:
            raise FileError("short", HEADER.size + taken)
        taken += read
    if file.read(1):
        raise FileError("extra", HEADER.size + taken)
    if not parts.dtype.isnative:
        parts = parts.byteswap(inplace=True).view(parts.dtype.newbyteorder("="))
    return restored(parts, flags)


def load(path: str | os.PathLike[str]) -> Chips:
    """Returns the chips of a sample file.

    Raises `cdma.FileError` if the file is not a complete sample file, and `cdma.Error` if it can't be read.

    >>> cdma.load(examples / "pilot_in_noise.is95")
    <Chips: 4,096 samples of 16 bits, 0.00333 s, checks=0>
    """
    name = path_of("path", path)
    with as_errors(), open(name, "rb") as file:
        try:
            return read_samples(file)
        except FileError as why:
            raise FileError(why.kind, why.place, name) from None


def save(chips: Samples, path: str | os.PathLike[str]) -> None:
    """Writes chips into a sample file, of version 1 for int16 and of version 2 for int8.

    The file is written completely or not at all. Raises `cdma.ParameterError` if `chips` are none, and `cdma.Error` if
    the file can't be written.

    >>> cdma.save(cdma.Chips([[100, -100], [3, 4]]), folder / "two.is95")
    >>> cdma.load(folder / "two.is95").tolist()
    [[100, -100], [3, 4]]
    """
    pieces = file_pieces(chips_of(chips))
    name = path_of("path", path)
    with as_errors(), write_beside(name) as file:
        for piece in pieces:
            file.write(piece)
