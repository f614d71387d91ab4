"""What was received in a recording of any length, by the lines of listen: as few of them as a page can hold.

All lines are counted. Of frames, of repeated messages and of changed ones every second, every fourth, and so on is
kept, as many as there is space for, each kind by itself; and so are the points of the power control's steps.
"""

import itertools
import json
import os
from collections.abc import Iterator
from dataclasses import dataclass, field
from typing import Any, Generic, TypeVar

from cdma_tools.errors import Refused
from cdma_tools.heard_run import CHIP_RATE, LANES
from cdma_tools.lines import ORIGIN, RATES, NoLine, read_line, spell_line
from cdma_tools.report.gathering import Line

# How a file of lines may begin.
BEGINNINGS = (b'{"line":"', b'{"line": "', b"pilot phase=", b"sync at=")
# Points of a plot, and lines of each kind, that a page has at most; a line of a page has some 130 bytes, and a few
# hundred in messages.
MOST_POINTS, MOST_FRAMES, MOST_MESSAGES, MOST_CHANGES = 20_000, 10_000, 2_500, 1_000
LONGEST = 1 << 16

Kept = TypeVar("Kept")


class Thinned(Generic[Kept]):
    """Every n-th of a list of things, with n the least power of two for which there are no more than `most`."""

    def __init__(self, most: int) -> None:
        """None yet."""
        self.most, self.step, self.count = most, 1, 0
        self.kept: list[Kept] = []

    def add(self, thing: Kept) -> None:
        """Takes the next thing."""
        if self.count % self.step == 0:
            self.kept.append(thing)
        self.count += 1
        if len(self.kept) > self.most:
            self.kept = self.kept[::2]
            self.step *= 2


@dataclass
class Count:
    """Number of lines of a kind, and the samples at which the first and the last were known."""

    number: int = 0
    first: int = 0
    last: int = 0
    bad: int = 0

    def add(self, at: int, is_bad: bool = False) -> None:
        """Takes a line."""
        self.first = at if not self.number else self.first
        self.number, self.last, self.bad = self.number + 1, at, self.bad + is_bad


@dataclass
class HeardLines:
    """The lines of a recording, or of streams one after the other, as if nothing lay between them."""

    counts: dict[str, Count] = field(default_factory=dict)
    number: int = 0
    end: int = 0  # the last sample at which something was known
    base: int = 0  # the sample from which the lines of this stream count
    level: int = 0  # of the power control's steps
    steps: Thinned[tuple[int, int]] = field(default_factory=lambda: Thinned(MOST_POINTS))
    frames: Thinned[tuple[int, str]] = field(default_factory=lambda: Thinned(MOST_FRAMES))
    messages: Thinned[tuple[int, str]] = field(default_factory=lambda: Thinned(MOST_MESSAGES))
    changes: Thinned[tuple[int, str]] = field(default_factory=lambda: Thinned(MOST_CHANGES))
    seen: dict[str, str] = field(default_factory=dict)  # of each message of the base station: its fields, last time

    def add(self, text: str, read: dict[str, Any]) -> None:
        """Takes a line and its object."""
        kind = read["line"]
        if kind == ORIGIN:
            self.base = self.end
        if "at" in read:
            read = {**read, "at": read["at"] + self.base}
        at = read.get("at", 0)
        self.end = max(self.end, at)
        self.number += 1
        if kind == "frame":
            self.add_frame(read)
            self.frames.add((self.number, text))
            return
        name = " ".join([kind, *([read["message"]] if "message" in read else [])])
        if kind in ("sync", "paging", "traffic", "sets"):
            self.counts.setdefault("pilot sets" if kind == "sets" else name, Count()).add(at)
        kept = self.changes if self.is_change(name, read) else self.messages
        kept.add((self.number, text))

    def add_frame(self, read: dict[str, Any]) -> None:
        """Counts a frame, and the steps of its power control bits."""
        self.counts.setdefault(f"frames {read['rate']}", Count()).add(read["at"], read["good"] == 0)
        self.level += sum(-1 if bit else 1 for bit in read["commands"])
        self.steps.add((read["at"], self.level))

    def is_change(self, name: str, read: dict[str, Any]) -> bool:
        """Whether a line differs from the one of its kind before; times and numbers of messages don't count."""
        if name in ("paging other", "traffic other") or read["line"] == "raw":
            return False
        told = {key: value for key, value in read.items() if key not in ("at", "lc", "time", "ack", "seq")}
        fields = json.dumps(told)
        is_new = self.seen.get(name) != fields
        self.seen[name] = fields
        return is_new

    def lines(self) -> list[Line]:
        """The lines that are kept, in their order."""
        kept = sorted([*self.frames.kept, *self.messages.kept, *self.changes.kept])
        return [Line(text, read_line(text)) for _, text in kept]

    def rows(self) -> list[tuple[str, str, str]]:
        """Returns each kind, with the number of its lines, and its first and last second."""
        rows = []
        for name in (*LANES, *(f"frames {rate}" for rate in RATES), "pilot sets"):
            if count := self.counts.get(name):
                told = name + (f", {count.bad} bad" if count.bad else "")
                rows.append((told, str(count.number), f"{count.first / CHIP_RATE:.2f} to {count.last / CHIP_RATE:.2f}"))
        return rows

    def left_out(self) -> str:
        """Returns in words which lines the page leaves out, empty if it has all."""
        kinds = (("frames", self.frames), ("messages that repeat", self.messages), ("those that changed", self.changes))
        parts = [f"1 of {thinned.step} {name}" for name, thinned in kinds if thinned.step > 1]
        return f"Of {self.number:,} lines the page has {', '.join(parts)}." if parts else ""


def is_lines(path: str) -> bool:
    """Whether a file has lines that a listening wrote, by how it begins."""
    if not os.path.isfile(path):
        return False
    with open(path, "rb") as file:
        return file.read(max(map(len, BEGINNINGS))).startswith(BEGINNINGS)


def objects(path: str) -> Iterator[tuple[str, dict[str, Any]]]:
    """Yields the lines of a file, each with its object; refuses what is not a line."""
    with open(path, encoding="ascii", errors="replace") as file:
        for number in itertools.count(1):
            if not (text := file.readline(LONGEST)):
                return
            try:
                text = text.rstrip("\n")
                if text.startswith("{"):
                    text = spell_line(json.loads(text))
                yield text, read_line(text)
            except (NoLine, ValueError, AttributeError) as why:
                raise Refused(f"{path}: line {number} is invalid: {why}") from None


def heard_lines(path: str) -> HeardLines:
    """All lines of a file."""
    heard = HeardLines()
    for text, read in objects(path):
        heard.add(text, read)
    return heard
