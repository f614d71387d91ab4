"""Lines of one recording: counted from its start, as text or as JSON, whole lines at a time."""

import json
import sys
from collections import Counter
from collections.abc import Callable
from dataclasses import dataclass, field
from typing import Any

from cdma_tools.errors import Refused, said
from cdma_tools.lines import ORIGIN, TIME_NAME, NoLine, read_line
from cdma_tools.listening.events import AT, Event, Remark
from cdma_tools.listening.notes import Notes
from cdma_tools.listening.system_time import SystemTime, time_told
from cdma_tools.starting import called
from cdma_tools.wireshark.stream import PacketStream

# What each of the counting options counts, by the first words of lines.
TAPS = {
    "pilots": ("pilot", "sets"),
    "messages": ("sync", "paging", "traffic"),
    "frames": ("frame", "frame2"),
    "raw": ("raw",),
}
TAP_OF = {kind: tap for tap, kinds in TAPS.items() for kind in kinds}

Write = Callable[[bytes], None]


@dataclass
class Already:
    """Lines that an interrupted listening wrote before."""

    counts: Counter[str] = field(default_factory=Counter)  # lines by their option
    at: int | None = None  # of the last line that has one
    same: Counter[str] = field(default_factory=Counter)  # lines with that `at`, by their option
    unplaced: int = 0  # lines without one after it
    times: dict[int, int] = field(default_factory=dict)  # of sync messages: `at` by SYS_TIME
    offset: int | None = None  # PILOT_PN as the last of them gave it
    sets: list[Event] = field(default_factory=list)  # lines of pilot sets, by `at`
    has_origin: bool = False  # whether a line gives another origin: then they are lines of streams

    @property
    def lines(self) -> int:
        """Returns the number of lines."""
        return self.counts.total()

    def stands(self, event: Event, origin: int, tap: str) -> bool:
        """Whether a line is there; called once for each line of the recording, in order."""
        at = event.chip - origin
        if AT.search(event.line):
            if self.at is None or at > self.at:
                return False
            self.same[tap] -= at == self.at
            return at < self.at or self.same[tap] >= 0
        if self.at is not None and at <= self.at:
            return True
        self.unplaced -= 1
        return self.unplaced >= 0


def object_of(text: str) -> dict[str, Any]:
    """The object of a line; refuses a text that is none."""
    try:
        return read_line(text)
    except NoLine as why:
        raise Refused(f"the program wrote an invalid line: {why}: {text[:60]!r}") from None


class LineWriter:
    """A listener that writes lines, each counted from the chip at the recording's start."""

    def __init__(self, write: Write, is_json: bool, most: dict[str, int], already: Already | None = None) -> None:
        """Writes lines by `write`, for each option of TAPS at most its limit; lines that are already there count."""
        self.write, self.is_json, self.most = write, is_json, most
        self.already = already or Already()
        self.counts = Counter(self.already.counts)
        self.origin = 0
        self.began = ""  # the time from which lines count, if a line must give it
        self.is_appended = False  # whether lines of another stream come before
        self.title = ""  # of remarks, if several cells or carriers are listened to
        self.place: dict[str, Any] = {}  # cell, carrier and channel, which each object has if several are followed
        self.written = 0  # lines
        self.time: SystemTime | None = None
        self.packets: PacketStream | None = None  # which gets each line's packet too
        self.notes: Notes | None = None  # which gets a note on each message and frame

    def begin(self, origin: int) -> None:
        """Takes the number of the chip from which lines count."""
        self.origin = origin
        if self.began:
            self.put(f"{ORIGIN} utc={self.began}")
            self.began = ""

    def event(self, event: Event) -> None:
        """Writes a line, if its option allows another and the line isn't there already."""
        if time := time_told(event):
            self.time = time
        tap = TAP_OF.get(event.kind)
        if tap is None:
            return
        text = event.counted_from(self.origin)
        if self.already.stands(event, self.origin, tap):
            if self.packets is not None:
                self.packets.learn(object_of(text))
        elif self.counts[tap] < self.most.get(tap, sys.maxsize):
            self.add(text, event, tap)
        else:
            return
        if self.notes is not None:
            self.notes.take(object_of(text), text, event.chip)

    def add(self, text: str, event: Event, tap: str) -> None:
        """Writes a line, and its packet."""
        self.counts[tap] += 1
        self.put(text, event)
        if self.packets is not None:
            self.packets.take(object_of(text), event.chip, self.time)

    def put(self, text: str, event: Event | None = None) -> None:
        """Writes a line, that of an event or one of the listening's own."""
        self.write(((self.as_json(event, text) if self.is_json else text) + "\n").encode("ascii"))
        self.written += 1

    def as_json(self, event: Event | None, text: str) -> str:
        """Returns the object of a line, with its time in UTC if that is known."""
        read = object_of(text)
        if self.time is not None and event is not None and "at" in read:
            read[TIME_NAME] = self.time.utc(event.chip)
        return json.dumps(read | self.place, separators=(",", ":"))

    def remark(self, remark: Remark) -> None:
        """Says a remark on standard error, and notes a loss."""
        if self.notes is not None and remark.lost_chips:
            self.notes.take_loss(remark.seconds, remark.lost_chips)
        said(called("listen"), f"at {remark.seconds:.4f} s: {self.title}{remark.text}")
