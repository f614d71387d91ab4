"""The sample file, read and written (docs/FORMATS.md, "Sample file")."""

import struct
from dataclasses import dataclass
from typing import Any

import numpy as np
from numpy.typing import NDArray

HEADER = struct.Struct(">4sHHQ")
MAGIC = b"IS95"
MOST_SAMPLES = {1: 33_554_432, 2: 67_108_864}
PART: dict[int, np.dtype[Any]] = {1: np.dtype(">i2"), 2: np.dtype("i1")}
VERSION_OF_BITS = {16: 1, 8: 2}
KNOWN_FLAGS = 3
COUNT_PLACE = 8

PIECE = 4_096
"""Samples that are read at once after the searched ones: a piece that a file cuts short isn't heard."""


class BadFile(Exception):
    """A fault of a sample file: its kind, and its place in bytes."""

    def __init__(self, kind: str, place: int) -> None:
        super().__init__(f"{kind} at {place}")
        self.kind, self.place = kind, place


@dataclass(frozen=True)
class Capture:
    """A sample file: its flags, the count in its header, its samples, and its fault at the end if it has one.

    A sample is a complex number of whole parts.
    """

    complement_30: bool
    complement_16: bool
    count: int
    samples: NDArray[Any]
    end: BadFile | None

    def taken(self, span: int) -> int:
        """Returns the number of samples received if `span` are searched: all of them, or all complete pieces."""
        if len(self.samples) == self.count:
            return self.count
        return span + (len(self.samples) - span) // PIECE * PIECE


def read_header(data: bytes) -> tuple[int, int, int]:
    """The version, the flags and the count; raises `BadFile`."""
    if len(data) < HEADER.size:
        raise BadFile("short", len(data))
    magic, version, flags, count = HEADER.unpack_from(data)
    if magic != MAGIC:
        raise BadFile("magic", 0)
    if version not in MOST_SAMPLES:
        raise BadFile("version", 4)
    if flags > KNOWN_FLAGS:
        raise BadFile("flags", 6)
    if count > MOST_SAMPLES[version]:
        raise BadFile("count", COUNT_PLACE)
    return version, flags, count


def read_capture(data: bytes, needed: int) -> Capture:
    """Returns the sample file in bytes, which must have `needed` samples; raises `BadFile`."""
    version, flags, count = read_header(data)
    if count < needed:
        raise BadFile("too few", COUNT_PLACE)
    width = 2 * PART[version].itemsize
    here = min(count, (len(data) - HEADER.size) // width)
    end = None
    if here < count:
        end = BadFile("short", len(data))
        if here < needed:
            raise end
    elif len(data) > HEADER.size + count * width:
        end = BadFile("extra", HEADER.size + count * width)
    parts = np.frombuffer(data, PART[version], 2 * here, HEADER.size)
    samples = np.empty(here, np.complex64)  # a part of 16 bits fits a single-precision number
    samples.real, samples.imag = parts[::2], parts[1::2]
    return Capture(bool(flags & 1), bool(flags & 2), count, samples, end)


def header_bytes(bits: int, flags: int, count: int) -> bytes:
    """The header of a file of samples of 16 or 8 bits."""
    return HEADER.pack(MAGIC, VERSION_OF_BITS[bits], flags, count)


def sample_bytes(bits: int, samples: NDArray[Any]) -> bytes:
    """Samples as a file has them."""
    parts = np.empty(2 * len(samples), PART[VERSION_OF_BITS[bits]])
    parts[::2], parts[1::2] = samples.real, samples.imag
    return parts.tobytes()
