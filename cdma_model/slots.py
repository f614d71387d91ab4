"""The slots of a handset that sleeps between them (6.6.2.1.1.3, 6.6.7.1; the hash own)."""

from typing import Iterator

from cdma_model.cell import FRAME, SLOT
from cdma_model.files import Capture
from cdma_model.frames import decoded_spans
from cdma_model.handset import PAGING_FRAME_BITS, Mark, paging_messages, paging_stream
from cdma_model.lines import paging_line, slot_line
from cdma_model.search import Found

FRAMES = SLOT // FRAME
"""Frames of a paging channel in a slot: four."""

LEAST_CYCLE = 16
"""Slots of the shortest cycle."""


def slot_of(key: int) -> int:
    """The slot of a key of 32 bits, 0 to 2,047."""
    low, high, decorrelated = key & 0xFFFF, key >> 16, 6 * (key & 0xFFF)
    return 40_503 * (low ^ high ^ decorrelated) % 65_536 // 32


def is_monitored(key: int, cycle: int, time: int) -> bool:
    """Whether a handset is awake in the slot of a time."""
    return (time - slot_of(key)) % (LEAST_CYCLE << cycle) == 0


def slot_lines(
    capture: Capture, found: Found, mark: Mark, channel: int, key: int, cycle: int, taken: int
) -> Iterator[str]:
    """Yields the lines of the monitored slots: each slot by itself, its frames as spans among the four."""
    if mark.prat not in PAGING_FRAME_BITS:
        return
    stream = paging_stream(found, mark, channel)
    slot = 0
    while stream.start(FRAMES * slot) < taken:
        frames = range(FRAMES * slot, FRAMES * (slot + 1))
        at = stream.end(frames[-1])
        if is_monitored(key, cycle, mark.time + slot) and at <= taken:
            if all(stream.is_inside(capture.count, frame) for frame in frames):
                softs = {frame: stream.code_softs(capture, frame) for frame in frames}
                spans = {frame: [near for near in (frame - 1, frame, frame + 1) if near in softs] for frame in frames}
                bits = decoded_spans(stream, softs, spans)
                messages = list(paging_messages([bits[frame] for frame in frames], capture.complement_30))
                yield slot_line(at, mark.time + slot, len(messages))
                yield from (paging_line(at, message) for _, message, _ in messages)
        slot += 1
