"""Chips at which one run of `follow` hands over to the next, and at which that one begins.

Counted from a handset's mark, paging messages, frames and moments of the pilot sets end at multiples of 512 chips; so
do frames of the sync channel, counted from the pilot's own code. A finger adds up to 32 chips, and another active pilot
up to 226. So no event ends within 15 chips of a chip T = 496 - 64 PILOT_PN modulo 512, in either run.
"""

from collections import deque

import numpy
from numpy.typing import NDArray

from cdma_tools.listening.follow_run import MOST
from cdma_tools.listening.pieces import Chips
from cdma_tools.radio.air import CHIP_RATE, PERIOD

# Chips of a paging or traffic frame; a frame of the sync channel has PERIOD.
FRAME = 24_576
# Chips from a run's start to the chip at which it takes over, and the fewest: a sending of the sync channel that is
# under way and the next one, of 13 superframes each, four superframes to the mark, and a run of pages of 8,192 bits.
OVERLAP, LEAST_OVERLAP = 10 * CHIP_RATE, 43 * CHIP_RATE // 10
# Chips that a run is fed after its seam: if its input ends within a piece of 4,096 chips it drops the whole piece.
AFTER = 8_192
# Chips before the end of what a run can take, at which the next one takes over: in a file's last frame an event is
# reported a frame earlier, as no frame follows it.
RESERVE = PERIOD + AFTER
# The distance of events, counted from the mark, and the place between two of them.
GRID, OFF_GRID = 512, 496


def off_grid(wanted: int, offset: int) -> int:
    """The last chip up to `wanted` at which no event ends, of a pilot with this PILOT_PN."""
    return wanted - (wanted + 64 * offset - OFF_GRID) % GRID


def end_of(begin: int) -> int:
    """The last chip at which a run that began at a chip may give over."""
    return begin + MOST - RESERVE


class KeptChips:
    """The last chips of a stream, from which a run may begin."""

    def __init__(self, count: int) -> None:
        """Keeps at least `count` chips."""
        self.count, self.pieces = count, deque[Chips]()

    @property
    def first(self) -> int:
        """The number of the first chip that is kept."""
        return self.pieces[0].first

    def add(self, chips: Chips) -> None:
        """Takes the next chips, and forgets the oldest."""
        self.pieces.append(chips)
        while self.pieces[0].end < chips.end - self.count:
            self.pieces.popleft()

    def clear(self) -> None:
        """Forgets all."""
        self.pieces.clear()

    def samples(self, first: int, count: int) -> NDArray[numpy.complex64]:
        """Chips first to first + count - 1, as many of them as are kept."""
        parts = [
            piece.parts[4 * max(0, first - piece.first) : 4 * max(0, first + count - piece.first)]
            for piece in self.pieces
        ]
        return numpy.frombuffer(b"".join(parts), dtype=">i2").astype(numpy.float32).view(numpy.complex64)
