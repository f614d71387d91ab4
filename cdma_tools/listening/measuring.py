"""Measures what the lock that streams takes and gives, in a process of its own, so that its memory is its own.

    python3 -m cdma_tools.listening.measuring KIND RATE RECORDING FILE FINGERS

It locks to a recording as if that came as a stream, writes a sample file of the chips up to what one may hold, and
prints its figures as JSON.
"""

import contextlib
import json
import re
import resource
import sys
import time
from dataclasses import asdict, dataclass
from typing import IO

from cdma_tools.listening.pieces import Break, Chips, Lost, Piece
from cdma_tools.listening.stream_lock import LockOptions, StreamLock
from cdma_tools.radio.air import CHIP_RATE
from cdma_tools.recordings import BLOCK_SECONDS, TYPES, blocks_of_file, sample_count
from cdma_tools.sample_header import MOST_CHIPS, header

# Lost chips that are written at once.
ZEROS = 1 << 16


@dataclass
class Figures:
    """What a lock took and gave."""

    chips: int = 0
    phase: int = 0  # of the first chip
    lost: int = 0
    breaks: int = 0
    locked_air: float = 0.0  # seconds of the recording after the first chips came
    locked_seconds: float = 0.0  # of the processor, for those
    first_seconds: float = 0.0  # of the processor, up to the first chips
    late: float = 0.0  # the greatest lag of chips after their samples, in seconds
    megabytes: float = 0.0


class Measure:
    """A lock whose chips are written to a file."""

    def __init__(self, lock: StreamLock, file: IO[bytes]) -> None:
        """Nothing has come."""
        self.lock, self.file, self.figures = lock, file, Figures()
        self.begin = time.process_time()
        self.locked: tuple[float, float] | None = None  # when the first chips came: processor, seconds of the recording

    def take(self, piece: Piece) -> None:
        """Writes what comes out of the lock."""
        if isinstance(piece, Break):
            self.figures.breaks += 1
        elif isinstance(piece, Lost):
            self.figures.lost += piece.chips
            for first in range(0, piece.chips, ZEROS):
                self.write(bytes(4 * min(ZEROS, piece.chips - first)))
        elif isinstance(piece, Chips):
            if self.locked is None:
                self.locked = time.process_time(), self.lock.seconds
                self.figures.phase = piece.first % (1 << 15)
                self.figures.first_seconds = self.locked[0] - self.begin
            self.write(piece.parts)

    def write(self, parts: bytes) -> None:
        """Writes as many chips as the file may still have."""
        left = MOST_CHIPS[1] - self.figures.chips
        self.file.write(parts[: 4 * left])
        self.figures.chips += min(left, len(parts) // 4)

    def after_block(self) -> None:
        """Takes note of how late the chips are."""
        if self.locked is not None and self.lock.origin is not None:
            late = self.lock.seconds - (self.lock.out - self.lock.origin) / CHIP_RATE
            self.figures.late = max(self.figures.late, late)

    def finish(self) -> Figures:
        """The figures at the end."""
        if self.locked is not None:
            self.figures.locked_seconds = time.process_time() - self.locked[0]
            self.figures.locked_air = self.lock.seconds - self.locked[1]
        self.figures.megabytes = greatest_memory()
        self.file.seek(0)
        self.file.write(header(1, 0, self.figures.chips))
        return self.figures


def greatest_memory() -> float:
    """The most MB that this program has had. The system's count of a process begins with the one that started it."""
    with contextlib.suppress(OSError):
        with open("/proc/self/status", encoding="ascii", errors="replace") as file:
            if found := re.search(r"(?m)^VmHWM:\s*(\d+) kB", file.read()):
                return int(found[1]) / 1_000
    return resource.getrusage(resource.RUSAGE_SELF).ru_maxrss / 1_000


def measured(kind: str, rate: float, path: str, out: str, fingers: int) -> Figures:
    """The figures of a lock to a recording, whose chips are written to a sample file."""
    size = TYPES[kind].size
    lock = StreamLock(LockOptions(kind, rate, fingers))
    with open(out, "wb") as file:
        measure = Measure(lock, file)
        file.write(header(1, 0, 0))
        for data in blocks_of_file(path, 0, size * sample_count(path, kind), size * int(BLOCK_SECONDS * rate)):
            for piece in lock.feed(data):
                measure.take(piece)
            measure.after_block()
        for piece in lock.finish():
            measure.take(piece)
        return measure.finish()


if __name__ == "__main__":
    KIND, RATE, RECORDING, FILE, FINGERS = sys.argv[1:]
    print(json.dumps(asdict(measured(KIND, float(RATE), RECORDING, FILE, int(FINGERS)))))
