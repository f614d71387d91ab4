"""A recording in parts, which are processed by themselves, and their lines as those of one recording.

Part k owns the lines from its beginning to the next part's. It is locked from up to a minute before, and a little
longer than it lasts. Its chips have numbers of their own, which differ from those of the part before by a multiple of
the code's period; the time that both parts give to a chip determines it. So the parts, and what is received in them,
are the same whether one process does them or many.

A part's traffic channel begins on the row in which the part before ends. Parts begin before that is known, on the given
row; if it turns out to be another one at the part's beginning, the part is processed again.
"""

import math
from bisect import bisect_right
from collections.abc import Callable, Iterator, Sequence
from dataclasses import dataclass, replace

from cdma_tools.listening.events import Collected, Event, Remark
from cdma_tools.listening.follow_run import Handset, sets_of
from cdma_tools.listening.listening import Anchor, Listening
from cdma_tools.listening.relays import Followed
from cdma_tools.listening.seams import OVERLAP, off_grid
from cdma_tools.listening.stream_lock import LockOptions
from cdma_tools.listening.system_time import SystemTime, time_told
from cdma_tools.radio.air import CHIP_RATE, PERIOD
from cdma_tools.recordings import BLOCK_SECONDS, TYPES, blocks_of_file

# Seconds of a part, for which it is locked before its beginning, and after its end.
PART, LEAD, TRAIL = 600.0, 60.0, 5.0
# Seconds before a part's beginning at which its first run begins, besides the overlap of runs.
EARLIER = 1.0
# By how much a radio's clock may be off.
CLOCK_MARGIN = 2e-4


@dataclass(frozen=True)
class Recording:
    """A file of samples."""

    path: str
    count: int  # samples
    lock: LockOptions

    @property
    def seconds(self) -> float:
        """Returns its length in seconds."""
        return self.count / self.lock.rate


@dataclass(frozen=True)
class Part:
    """A part of a recording, in seconds: what is locked, from when on runs listen, and what it owns."""

    number: int
    locked_from: float
    heard_from: float
    begin: float
    end: float
    locked_to: float

    @property
    def is_first(self) -> bool:
        """Whether the recording begins with it."""
        return self.number == 0


@dataclass(frozen=True)
class PartHeard:
    """What was received in a part, by the part's own numbers of chips; `origin` is the one at the recording's start."""

    events: list[Event]
    remarks: list[Remark]
    anchors: list[Anchor]
    origin: int
    row: int | None  # on which the traffic channel was begun
    is_heard: bool  # whether a pilot was


def parts_of(recording: Recording, seconds: float = PART, lead: float = LEAD) -> list[Part]:
    """Returns the parts of a recording, each of `seconds` but for the last one, which isn't shorter."""
    count = max(1, int(recording.seconds // seconds))
    parts = []
    for number in range(count):
        begin = number * seconds
        end = recording.seconds if number == count - 1 else begin + seconds
        heard = begin - OVERLAP / CHIP_RATE - EARLIER if number else 0.0
        locked = max(0.0, begin - max(lead, begin - heard)) if number else 0.0
        trail = min(recording.seconds, end + TRAIL)
        parts.append(Part(number, locked, max(0.0, heard), begin, end, trail))
    return parts


def part_at(parts: list[Part], at: int) -> int:
    """Returns the number of a part that has begun when `at` chips have come, however wrong the radio's clock is."""
    seconds = at / CHIP_RATE * (1 - CLOCK_MARGIN) - 1
    return max([0, *(part.number for part in parts if part.begin <= seconds)])


def hear_part(
    recording: Recording, handsets: Sequence[Handset], part: Part, look: Callable[[], None] = lambda: None
) -> list[PartHeard]:
    """Returns what each handset receives in a part, all over the same chips; remarks on these are the first one's.

    `look` is called now and then, and may raise to break it off.
    """
    lock, size = recording.lock, TYPES[recording.lock.kind].size
    first, last = round(part.locked_from * lock.rate), round(part.locked_to * lock.rate)
    heard = [Collected() for _ in handsets]
    since = part.heard_from - first / lock.rate if part.number else 0.0
    others = [Followed(handset, one) for handset, one in zip(handsets[1:], heard[1:])]
    listening = Listening(lock, handsets[0], heard[0], since, keeps_anchors=True, others=others)
    block = size * int(BLOCK_SECONDS * lock.rate)
    try:
        for data in blocks_of_file(recording.path, size * first, size * (last - first), block):
            look()
            listening.feed(data)
        listening.finish()
    finally:
        listening.kill()
    begin = first / lock.rate
    anchors = [replace(anchor, time=anchor.time + begin * CHIP_RATE) for anchor in listening.anchors]
    origin = listening.origin - round(begin * CHIP_RATE)
    return [
        PartHeard(one.events, later_by(begin, one.remarks), anchors, origin, handset.row, listening.is_heard)
        for handset, one in zip(handsets, heard)
    ]


def later_by(seconds: float, remarks: list[Remark]) -> list[Remark]:
    """Returns remarks with their seconds counted from an earlier time."""
    return [replace(remark, seconds=remark.seconds + seconds) for remark in remarks]


def chip_at(anchors: list[Anchor], time: float) -> float:
    """Returns the number of the chip at a nominal time of the recording, by the anchors around it."""
    if len(anchors) == 1:
        return anchors[0].chip + time - anchors[0].time
    number = min(max(bisect_right([anchor.time for anchor in anchors], time) - 1, 0), len(anchors) - 2)
    before, after = anchors[number], anchors[number + 1]
    return before.chip + (time - before.time) * (after.chip - before.chip) / (after.time - before.time)


def times_of(events: list[Event]) -> Iterator[tuple[Event, SystemTime]]:
    """Yields the sync messages, each with its time."""
    for event in events:
        if time := time_told(event):
            yield event, time


def offset_at(events: list[Event], chip: int) -> int | None:
    """Returns PILOT_PN of the last sync message up to a chip; None if there was none."""
    before = [event for event in reversed(events) if event.chip <= chip]
    return next((time.offset for _, time in times_of(before)), None)


def row_at(events: list[Event], chip: int, offset: int | None) -> int | None:
    """Returns the row on which the pilot of an offset sends the traffic channel at a chip; None if no line has it."""
    for event in reversed(events):
        if event.kind == "sets" and event.chip <= chip:
            rows = [row for pn, row in sets_of(event.line).active if pn == offset]
            if rows:
                return rows[0]
    return None


@dataclass(frozen=True)
class Joined:
    """What a part adds to the recording; `origin` is the number of the chip at the recording's start."""

    events: list[Event]
    remarks: list[Remark]
    origin: int
    is_heard: bool


class Joiner:
    """Joins what was received in parts, one after the other.

    Chips have the numbers of the first part in which a pilot was found; `origin` is the one at the recording's start.
    """

    def __init__(self, row: int | None) -> None:
        """No part was joined yet; the traffic channel begins on a row."""
        self.row = row  # on which the channel is sent at the seam
        self.origin: int | None = None
        self.seam: int | None = None  # the chip after which the next part's lines count
        self.anchors: list[Anchor] = []
        self.offset: int | None = None  # PILOT_PN
        self.events: list[Event] = []  # of the last part in which there were any
        self.first_row = row  # on which that part began
        self.told: dict[int, int] = {}  # of sync messages already in the file: `at` by SYS_TIME

    def resume(self, part: Part, times: dict[int, int], sets: list[Event], offset: int) -> None:
        """Continues with a part, if existing lines have times and the pilot sets, by `at`."""
        self.told, self.events, self.offset = times, sets, offset
        heard_from, begin = (round(seconds * CHIP_RATE) for seconds in (part.heard_from, part.begin))
        self.first_row = row_at(sets, heard_from, offset) or self.row
        self.row = row_at(sets, begin, offset) or self.row
        self.seam = begin

    def can_resume(self, heard: PartHeard) -> bool:
        """Whether a part has one of those times too, and so the chip at the recording's start; notes it."""
        own = [event.chip - self.told[time.told] for event, time in times_of(heard.events) if time.told in self.told]
        if not own or self.seam is None:
            return False
        self.origin = own[-1]
        self.seam += self.origin
        self.events = [replace(event, chip=event.chip + self.origin) for event in self.events]
        return True

    def numbered(self, heard: PartHeard) -> PartHeard:
        """Returns what was received, with the recording's numbers of chips."""
        if not heard.anchors:
            return heard
        first = heard.anchors[0]
        if self.origin is None:
            self.origin = heard.origin
        shift = 0
        if self.anchors:
            shift = PERIOD * round((chip_at(self.anchors, first.time) - first.chip) / PERIOD)
        return replace(
            heard,
            events=[replace(event, chip=event.chip + shift) for event in heard.events],
            anchors=[replace(anchor, chip=anchor.chip + shift) for anchor in heard.anchors],
            origin=heard.origin + shift,
        )

    def row_before(self, part: Part) -> int | None:
        """Returns the row on which a part must begin, by the parts before."""
        if part.is_first or not self.anchors:
            return self.first_row
        begin = round(chip_at(self.anchors, part.heard_from * CHIP_RATE))
        told = row_at(self.events, begin, self.offset)
        return self.first_row if told is None else told

    def is_on_row(self, heard: PartHeard) -> bool:
        """Whether a part is at its seam on the row of the parts before."""
        if self.seam is None or not heard.events:
            return True
        own = self.numbered(heard)
        return (row_at(own.events, self.seam, self.offset) or heard.row) == self.row

    def join(self, part: Part, heard: PartHeard, is_last: bool) -> Joined:
        """The lines that a part owns, and its remarks."""
        own = self.numbered(heard)
        begin = self.seam
        if own.anchors:
            self.anchors = own.anchors
        if not is_last and self.anchors:
            wanted = int(chip_at(self.anchors, part.end * CHIP_RATE))
            told = offset_at(own.events, wanted)
            self.offset = self.offset if told is None else told
            self.seam = off_grid(wanted, self.offset or 0)
            if own.events:
                self.events, self.first_row = own.events, own.row
                self.row = row_at(own.events, self.seam, self.offset) or own.row
        owned = [
            event
            for event in own.events
            if (begin is None or event.chip > begin) and (is_last or self.seam is None or event.chip <= self.seam)
        ]
        end = math.inf if is_last else part.end
        remarks = [remark for remark in own.remarks if part.begin <= remark.seconds < end]
        return Joined(owned, remarks, self.origin or 0, own.is_heard)
