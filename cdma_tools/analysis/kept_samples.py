"""Raw samples of floating point that are kept in a file, read and written in any place."""

import numpy
from numpy.typing import NDArray

from cdma_tools.recordings import Recording, Samples

KIND = "cf32_le"
SAMPLE_BYTES = 8
PIECE = 1 << 18  # samples that are copied at once


class KeptSamples(Recording):
    """A recording in a file of its own, which can be written too."""

    def __init__(self, path: str, rate: float, count: int) -> None:
        """Makes a file of `count` zeros."""
        with open(path, "wb") as file:
            file.truncate(SAMPLE_BYTES * count)
        super().__init__(path, KIND, rate)
        self.changed = open(path, "r+b")

    def close(self) -> None:
        """Closes the file."""
        super().close()
        self.changed.close()

    def write(self, first: int, samples: NDArray[numpy.complex64]) -> None:
        """Writes samples from a place on, all of which lie in the file."""
        self.changed.seek(SAMPLE_BYTES * first)
        self.changed.write(numpy.ascontiguousarray(samples, dtype="<c8").data)
        self.changed.flush()

    def clear(self, first: int, behind: int) -> None:
        """Writes zeros over samples from `first` to before `behind`."""
        for begin in range(max(first, 0), min(behind, self.count), PIECE):
            self.write(begin, numpy.zeros(min(PIECE, behind - begin, self.count - begin), dtype=numpy.complex64))

    def copy(self, recording: Samples) -> None:
        """Takes the samples of another recording."""
        for begin in range(0, self.count, PIECE):
            self.write(begin, recording.read(begin, min(PIECE, self.count - begin)))


class Together:
    """The sum of two recordings of one length."""

    def __init__(self, one: Samples, other: Samples) -> None:
        self.one, self.other = one, other
        self.rate, self.count = one.rate, one.count

    def read(self, first: int, count: int) -> NDArray[numpy.complex64]:
        """Returns samples first to first + count - 1, with zeros for missing ones."""
        return self.one.read(first, count) + self.other.read(first, count)

    def conjugate(self) -> "Together":
        """The sum of the conjugates."""
        return Together(self.one.conjugate(), self.other.conjugate())

    def close(self) -> None:
        """Closes nothing: each of the two is closed by who opened it."""
