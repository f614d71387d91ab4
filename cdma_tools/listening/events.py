"""Events: lines of the program with the chip at which each was known, and remarks about the recording."""

import re
from dataclasses import dataclass
from typing import Protocol

AT = re.compile(r" at=(\d+)")


@dataclass(frozen=True)
class Event:
    """A line that a run wrote, and the number of the chip at which it was known.

    A line without `at`, such as that of the pilot, was known at the first chip of its run.
    """

    chip: int
    line: str

    @property
    def kind(self) -> str:
        """The line's first word."""
        return self.line.split(" ", 1)[0]

    def counted_from(self, origin: int) -> str:
        """The line with its `at` counted from a chip on."""
        return AT.sub(f" at={self.chip - origin}", self.line, count=1)


@dataclass(frozen=True)
class Remark:
    """A remark for the user, the second of the recording to which it applies, and the chips that it reports as lost."""

    seconds: float
    text: str
    lost_chips: int = 0


class Listener(Protocol):
    """A consumer of events and remarks."""

    def begin(self, origin: int) -> None:
        """Takes the number of the chip at the stream's start, before any line."""

    def event(self, event: Event) -> None:
        """Takes a line, in the order of lines."""

    def remark(self, remark: Remark) -> None:
        """Takes a remark."""


class Collected:
    """A listener that keeps what it gets."""

    def __init__(self) -> None:
        """An empty listener."""
        self.events: list[Event] = []
        self.remarks: list[Remark] = []

    def begin(self, origin: int) -> None:
        """Lines are kept with the numbers that they have."""

    def event(self, event: Event) -> None:
        """Keeps a line."""
        self.events.append(event)

    def remark(self, remark: Remark) -> None:
        """Keeps a remark."""
        self.remarks.append(remark)
