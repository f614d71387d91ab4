"""The samples of a stream that are still needed, read as a recording is, in bounded memory."""

from typing import Any

import numpy
from numpy.lib.stride_tricks import sliding_window_view
from numpy.typing import NDArray

from cdma_tools.recordings import TYPES

# Seconds of samples for which there is room from the start: a search's second, and two in which a pilot was lost.
ROOM_SECONDS = 3.2


class Ring:
    """Samples as they came, numbered from the stream's start; those before `keep` may be forgotten.

    They stay in their own type in one array, whose needed part is moved to its front when it is full. The middle of an
    unsigned converter isn't subtracted, since a front empties each block's bin of direct current. Numbers that aren't
    finite count as 0, and `damaged` counts them.
    """

    def __init__(self, kind: str, rate: float) -> None:
        """An empty ring for samples of a type, at `rate` samples per second."""
        self.kind, self.rate = TYPES[kind], float(rate)
        self.data: NDArray[Any] = numpy.empty(2 * int(ROOM_SECONDS * rate), dtype=self.kind.form)
        self.base = self.count = self.keep = self.damaged = 0
        self.rest = b""
        self.is_conjugate = False

    def add(self, data: bytes) -> None:
        """Takes bytes as they come; those of a sample that isn't whole wait for the others."""
        data = self.rest + data
        whole = len(data) // self.kind.size * self.kind.size
        self.rest = data[whole:]
        block = numpy.frombuffer(data[:whole], dtype=self.kind.form)
        used = self.make_room(len(block))
        taken = self.data[used : used + len(block)]
        taken[:] = block
        if self.kind.is_floating and not numpy.isfinite(block).all():
            self.damaged += int(numpy.count_nonzero(~numpy.isfinite(block)))
            numpy.nan_to_num(taken, copy=False, nan=0.0, posinf=0.0, neginf=0.0)
        self.count += len(block) // 2

    def make_room(self, parts: int) -> int:
        """Makes space for `parts` parts, by forgetting what isn't needed or by growing; returns the place of the first.
        """
        used = 2 * (self.count - self.base)
        if used + parts <= len(self.data):
            return used
        gone = 2 * (self.keep - self.base)
        kept = self.data[gone:used].copy()
        if len(kept) + parts > len(self.data):
            self.data = numpy.empty(2 * (len(kept) + parts), dtype=self.kind.form)
        self.data[: len(kept)] = kept
        self.base = self.keep
        return len(kept)

    def skip(self, count: int) -> None:
        """Forgets all samples, and leaves out `count` samples of the stream from here on."""
        self.count += count
        self.base = self.keep = self.count
        self.rest = b""

    def read(self, first: int, count: int) -> NDArray[numpy.complex64]:
        """Returns samples first to first + count - 1, with the middle of the range for missing ones."""
        parts = numpy.full(2 * count, self.kind.middle, dtype=numpy.float32)
        low, high = max(first, self.base), min(first + count, self.count)
        if low < high:
            parts[2 * (low - first) : 2 * (high - first)] = self.data[2 * (low - self.base) : 2 * (high - self.base)]
        return self.complex_of(parts)

    def rows(self, firsts: NDArray[numpy.int64], count: int) -> NDArray[numpy.complex64]:
        """Rows of `count` samples, one from each of `firsts` on."""
        if firsts.min() < self.base or firsts.max() + count > self.count:
            return numpy.stack([self.read(int(first), count) for first in firsts])
        windows = sliding_window_view(self.data, 2 * count)
        return self.complex_of(windows[2 * (firsts - self.base)].astype(numpy.float32))

    def complex_of(self, parts: NDArray[numpy.float32]) -> NDArray[numpy.complex64]:
        """Returns complex numbers of parts, conjugate if the spectrum is inverted."""
        samples = parts.view(numpy.complex64)
        return numpy.conj(samples, out=samples) if self.is_conjugate else samples

    def drop(self, before: int) -> None:
        """Samples before this one are no longer needed."""
        self.keep = max(self.keep, min(before, self.count))


class Window:
    """A stretch of a ring as a recording of its own, since acquisition looks at the whole of one."""

    def __init__(self, ring: Ring, first: int, count: int) -> None:
        """Samples first to first + count - 1 of the ring."""
        self.ring, self.first, self.count, self.rate = ring, first, count, ring.rate

    def read(self, first: int, count: int) -> NDArray[numpy.complex64]:
        """Samples first to first + count - 1 of the window."""
        return self.ring.read(self.first + first, count)

    def rows(self, firsts: NDArray[numpy.int64], count: int) -> NDArray[numpy.complex64]:
        """Rows of `count` samples, one from each of `firsts` on."""
        return self.ring.rows(self.first + firsts, count)
