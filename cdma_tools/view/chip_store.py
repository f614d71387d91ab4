"""The last chips of a listening, in a file without a name that the listening and the page's server share."""

import os
import tempfile
from typing import IO, NamedTuple

import numpy
from numpy.typing import NDArray

from cdma_tools.listening.pieces import Chips
from cdma_tools.radio.air import CHIP_RATE
from cdma_tools.sample_header import FORM, MOST_CHIPS, SAMPLE_BYTES, header

VERSION = 1  # of sample files: parts of 16 bits, as the lock makes them
CHIP_BYTES = SAMPLE_BYTES[VERSION]
# Chips of the longest sample file, and those that may be written while they are read.
MOST, SPARE = MOST_CHIPS[VERSION], 4 * CHIP_RATE
ROOM = MOST + SPARE
# Zeros that are written at once for chips that were lost, and chips that are copied at once.
ZEROS, PIECE = 1 << 16, 1 << 18


class Extent(NamedTuple):
    """The chips that are kept: the number of the first, and the one after the last."""

    first: int
    end: int

    def last(self, count: int = MOST) -> "Extent":
        """Returns the last `count` chips of these, or all if there are fewer."""
        return Extent(max(self.first, self.end - min(count, MOST)), self.end)


class ChipStore:
    """A file with space for the chips of the longest sample file, each at its number modulo the space."""

    def __init__(self) -> None:
        """An empty file, which is gone once both processes have ended."""
        self.file = tempfile.TemporaryFile(prefix="cdma-view-", buffering=0)

    def write(self, first: int, parts: bytes) -> None:
        """Writes chips from number `first` on."""
        done = 0
        while done < len(parts):
            place = CHIP_BYTES * (first % ROOM) + done
            place -= CHIP_BYTES * ROOM * (place // (CHIP_BYTES * ROOM))
            done += os.pwrite(self.file.fileno(), parts[done : done + CHIP_BYTES * ROOM - place], place)

    def read(self, extent: Extent) -> bytes:
        """Returns the parts of chips, which have been written."""
        parts, chip = [], extent.first
        while chip < extent.end:
            count = min(extent.end - chip, ROOM - chip % ROOM)
            data = os.pread(self.file.fileno(), CHIP_BYTES * count, CHIP_BYTES * (chip % ROOM))
            parts.append(data.ljust(CHIP_BYTES * count, b"\0"))
            chip += count
        return b"".join(parts)

    def samples(self, extent: Extent) -> NDArray[numpy.complex64]:
        """Returns chips as complex numbers."""
        parts = numpy.frombuffer(self.read(extent), FORM[VERSION]).astype(numpy.float32)
        return parts.view(numpy.complex64)

    def sample_file(self, extent: Extent, flags: int = 0) -> IO[bytes]:
        """Returns the sample file of chips, in a file without a name, so that they may be written over meanwhile."""
        file = tempfile.TemporaryFile(prefix="cdma-view-")
        file.write(header(VERSION, flags, extent.end - extent.first))
        for first in range(extent.first, extent.end, PIECE):
            file.write(self.read(Extent(first, min(first + PIECE, extent.end))))
        file.seek(0)
        return file


class ChipKeeper:
    """Writes the chips of a listening to the file, with zeros for those that were lost."""

    def __init__(self, store: ChipStore) -> None:
        """No chip has come yet."""
        self.store = store
        self.extent = Extent(0, 0)

    def add(self, chips: Chips) -> None:
        """Writes the next chips; restarts if they don't follow, or only after more than there is space for."""
        first, end = self.extent
        gap = chips.first - end
        if first == end or not 0 <= gap < MOST:
            first, gap = chips.first, 0
        for place in range(chips.first - gap, chips.first, ZEROS):
            self.store.write(place, bytes(CHIP_BYTES * min(ZEROS, chips.first - place)))
        self.store.write(chips.first, chips.parts)
        self.extent = Extent(max(first, chips.end - MOST), chips.end)

    def restart(self) -> None:
        """Restarts with the next chips, which do not continue the ones before."""
        self.extent = Extent(0, 0)
