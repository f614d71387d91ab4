"""A file of samples, played as the air would have sent it."""

import contextlib
import threading
import time
from collections.abc import Iterator
from dataclasses import dataclass
from fractions import Fraction

from cdma_tools.errors import Refused
from cdma_tools.listening.parts import Recording
from cdma_tools.recordings import BLOCK_SECONDS, TYPES, blocks_of_file
from cdma_tools.sources.backlog import Backlog
from cdma_tools.sources.live import Stream


@dataclass(frozen=True)
class PacedRecording(Stream):
    """A recording whose samples come `speed` times as fast as they were taken."""

    path: str = ""
    count: int = 0  # samples
    speed: float = 1.0

    @classmethod
    def of(cls, recording: Recording, speed: float) -> "PacedRecording":
        """Returns a recording to be played at a speed."""
        kind, rate = recording.lock.kind, Fraction(recording.lock.rate)
        return cls(kind, rate, path=recording.path, count=recording.count, speed=speed)

    @contextlib.contextmanager
    def opened(self, is_tried_again: bool = True) -> Iterator[Backlog]:
        """Its backlog, which a thread fills at the recording's pace."""
        backlog = Backlog()
        threading.Thread(target=self.play, args=(backlog,), daemon=True).start()
        try:
            yield backlog
        finally:
            backlog.stop()

    def play(self, backlog: Backlog) -> None:
        """Puts the samples into a backlog, each block when its last sample would have come."""
        size, begun, taken = TYPES[self.kind].size, time.monotonic(), 0
        block = size * max(1, int(BLOCK_SECONDS * self.rate))
        try:
            for data in blocks_of_file(self.path, 0, size * self.count, block):
                taken += len(data)
                due = begun + taken / (size * float(self.rate) * self.speed)
                if backlog.is_stopped.wait(max(0.0, due - time.monotonic())) or backlog.is_ending:
                    return
                backlog.put(data)
            backlog.put(None)
        except Refused as why:
            backlog.put(why)
