"""The type of a recording's samples, guessed from its bytes.

Samples of a radio are Gaussian or nearly so, and most of the time far from the ends of their range. Numbers of floating
point then nearly all have one exponent. In 16 bits the low bytes are nearly uniform, and the high ones near 0. In 8
bits the bytes of both branches are alike, and near the middle: 127.5 if unsigned, 0 if signed.
"""


import numpy
from numpy.typing import NDArray

from cdma_tools.errors import Refused
from cdma_tools.recordings import first_byte, sample_bytes

# The name of a type that is taken from the samples' own bytes.
AUTO = "auto"
# The types that bytes may show; those of other types look like one of these, or like none.
GUESSED = ("cf32_le", "ci16_le", "ci16_be", "cu8", "ci8")
# Bytes of a piece that is looked at, and pieces, spread over the file.
PIECE, PIECES = 1 << 14, 16
# Spread of floating-point numbers around their median, in doublings; a Gaussian's is 1.6.
MOST_SPREAD = 4.0
# The difference between the bytes at even and at odd places from which they are the two bytes of one number.
LEAST_UNLIKE = 0.2
LEAST_BYTES = 1 << 12
# By how many times the bytes' power has to be less about the one middle than about the other.
LEAST_RATIO = 1.25


def bytes_of(path: str, skip: int) -> NDArray[numpy.uint8]:
    """Returns bytes of some pieces of a file, after the first `skip`; refuses one that has few."""
    try:
        size, skip = sample_bytes(path) - skip, first_byte(path) + skip
        if size < LEAST_BYTES:
            raise Refused(f"{path}: {max(size, 0)} bytes are too few to guess the sample type: give --type")
        places = numpy.linspace(0, max(0, size - PIECE), PIECES).astype(int) // 8 * 8
        return numpy.concatenate(
            [
                numpy.fromfile(path, numpy.uint8, min(PIECE, size) // 8 * 8, offset=skip + place)
                for place in places
            ]
        )
    except OSError as why:
        raise Refused(f"{path}: {why.strerror}") from None


def is_floating(data: NDArray[numpy.uint8]) -> bool:
    """Whether bytes are numbers of single precision of about one size."""
    with numpy.errstate(invalid="ignore"):
        numbers = numpy.abs(data.view("<f4"))
    if not numpy.isfinite(numbers).all() or not (numbers > 0).any():
        return False
    doublings = numpy.log2(numbers[numbers > 0].astype(float))
    return (
        float(numpy.mean(numpy.abs(doublings - numpy.median(doublings)))) < MOST_SPREAD and (numbers > 0).mean() > 0.5
    )


def shares(data: NDArray[numpy.uint8]) -> NDArray[numpy.float64]:
    """Returns the share of each of the 256 bytes."""
    return numpy.bincount(data, minlength=256) / len(data)


def entropy(parts: NDArray[numpy.float64]) -> float:
    """The entropy of shares, in bits."""
    held = parts[parts > 0]
    return float(-(held * numpy.log2(held)).sum())


def type_of(path: str, skip: int = 0) -> str:
    """Returns the type of the samples of a file after the first `skip` bytes; refuses one whose bytes show none."""
    data = bytes_of(path, skip)
    if shares(data).max() > 0.99:
        raise Refused(f"{path}: the sample type can't be guessed, since nearly all bytes are the same: give --type")
    if is_floating(data):
        return "cf32_le"
    even, odd = shares(data[0::2]), shares(data[1::2])
    if 0.5 * float(numpy.abs(even - odd).sum()) > LEAST_UNLIKE:
        return "ci16_le" if entropy(odd) < entropy(even) else "ci16_be"
    unsigned, signed = float(numpy.mean((data - 127.5) ** 2)), float(
        numpy.mean(data.view(numpy.int8).astype(float) ** 2)
    )
    if max(unsigned, signed) < LEAST_RATIO * min(unsigned, signed):
        raise Refused(
            f"{path}: the sample type can't be guessed, since the bytes are spread over the whole range: give --type"
        )
    return "cu8" if unsigned < signed else "ci8"
