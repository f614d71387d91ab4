"""Notes of SigMF on what was decoded of a recording, each on the samples in which it was sent."""

import contextlib
from bisect import bisect_right
from collections.abc import Iterator, Sequence
from fractions import Fraction
from typing import TYPE_CHECKING, Any

from cdma_tools import sigmf
from cdma_tools.listening.listening import Anchor
from cdma_tools.listening.system_time import frames_of
from cdma_tools.radio.air import CHIP_RATE, PERIOD

if TYPE_CHECKING:
    from cdma_tools.radio.locking import Held  # scipy takes half a second to load

FRAME = 24_576  # chips of a frame of the paging channel and of a traffic channel
SAME_LOSS = 0.002  # seconds between the places at which tools see the same loss of samples
LABELS = {"sync": "IS-95 sync", "paging": "IS-95 paging", "frame": "IS-95 frame", "traffic": "IS-95 traffic"}


def extent_of(read: dict[str, Any], chip: int) -> tuple[int, int]:
    """Returns the first chip of what a line has, and the chip after its last one.

    It is known at `chip`. A message of the sync channel has all its frames, any other one the frame in which it ends.
    Frames of the sync and of the paging channel are known when the next one has come.
    """
    if read["line"] == "sync":
        end = chip - PERIOD
        return end - PERIOD * frames_of(read), end
    end = chip - FRAME if read["line"] == "paging" else chip
    return end - FRAME, end


def time_at(anchors: Sequence[Anchor], chip: float) -> float:
    """Returns the nominal time of a chip in the recording, in chips, by the anchors around it."""
    if len(anchors) == 1:
        return anchors[0].time + chip - anchors[0].chip
    number = min(max(bisect_right([anchor.chip for anchor in anchors], chip) - 1, 0), len(anchors) - 2)
    before, after = anchors[number], anchors[number + 1]
    return before.time + (chip - before.chip) * (after.time - before.time) / (after.chip - before.chip)


def comment_of(read: dict[str, Any], text: str) -> str:
    """Returns a line without its first word and its place, which the note has as its range."""
    return text.split(" ", 2)[2]


class Notes:
    """The notes on a recording."""

    def __init__(self, rate: float, maker: str) -> None:
        """The recording has `rate` samples per second, and `maker` decodes it."""
        self.rate, self.maker = rate, maker
        self.anchors: Sequence[Anchor] = ()
        self.found: list[dict[str, Any]] = []
        self.losses: list[tuple[int, int]] = []  # the first sample after each, and the number of lost samples

    def take(self, read: dict[str, Any], text: str, chip: int) -> None:
        """Takes a line that was known at a chip, if it has a message or a frame, by the anchors of its part."""
        if read["line"] not in LABELS or not self.anchors:
            return
        first, end = (max(0, self.sample_at(place)) for place in extent_of(read, chip))
        note = {
            "core:sample_start": first,
            "core:sample_count": end - first,
            "core:generator": self.maker,
            "core:label": LABELS[read["line"]],
            "core:comment": comment_of(read, text),
        }
        self.found.append(note)

    def take_loss(self, seconds: float, chips: int) -> None:
        """Takes a loss of samples between two of the recording."""
        self.losses.append((round(seconds * self.rate), round(chips * self.rate / CHIP_RATE)))

    def take_lock(self, held: "Held", skipped: float) -> None:
        """Takes the anchors and the losses of a lock, which writes its first chip as number 0.

        `skipped` are the seconds of the recording before the lock's first sample.
        """
        first = held.pieces[0].first
        self.anchors = [
            Anchor(float(piece.fit.times(chip)) + skipped * CHIP_RATE, chip - first)
            for piece in held.pieces
            if piece.first < piece.behind
            for chip in sorted({*range(piece.first, piece.behind, CHIP_RATE), piece.behind - 1})
        ]
        for gap in held.gaps:
            self.take_loss(gap.seconds + skipped, gap.chips)

    def sample_at(self, chip: int) -> int:
        """Returns the sample of the recording nearest to a chip's begin."""
        return round(time_at(self.anchors, chip) * self.rate / CHIP_RATE)


@contextlib.contextmanager
def noted(path: str, recording: str, kind: str, rate: Fraction, samples: str, maker: str) -> Iterator[Notes]:
    """Yields notes on a recording, which are added to the .sigmf-meta at `path` at the end.

    The samples at the path `samples` have a type and a rate; refuses a .sigmf-meta that can't describe them.
    """
    sigmf.check_note(path, samples)
    meta = sigmf.meta_for(path, recording, kind, rate, samples)
    notes = Notes(float(rate), maker)
    yield notes
    sigmf.annotate_all(meta, notes.found)
    for first, lost in notes.losses:
        sigmf.begin_capture(meta, first, lost, near=round(SAME_LOSS * notes.rate))
    sigmf.write_meta(path, meta)
