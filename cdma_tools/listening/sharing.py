"""The parts of a recording, done by this process or handed to workers by dask.distributed."""

import asyncio
import concurrent.futures
import contextlib
import heapq
import itertools
import threading
import time
from collections.abc import Callable, Iterable, Iterator, Sequence
from dataclasses import dataclass
from typing import Any, Protocol

from cdma_tools.cluster import AHEAD, connected, result_of, some_ended, workers_of
from cdma_tools.errors import Refused
from cdma_tools.listening.follow_run import Handset
from cdma_tools.listening.line_writer import LineWriter
from cdma_tools.listening.parts import Joined, Joiner, Part, PartHeard, Recording, hear_part, part_at, parts_of
from cdma_tools.progress import bar
from cdma_tools.workers import in_order

LOOK_AGAIN = 0.1  # seconds after which it is looked whether a part that workers do is still wanted


def nothing() -> None:
    """Does nothing."""


class Workers(Protocol):
    """Who listens to channels of parts."""

    def heard_by(self, number: int, handsets: tuple[Handset, ...]) -> list[PartHeard]:
        """Returns what each handset receives in a part, which later parts seem to begin with too."""


class Alone:
    """This process."""

    def __init__(self, recording: Recording, parts: list[Part], look: Callable[[], None] = nothing) -> None:
        """The parts of a recording; `look` is called now and then, and may raise to break a part off."""
        self.recording, self.parts, self.look = recording, parts, look
        self.last: tuple[tuple[int, tuple[Handset, ...]], list[PartHeard]] | None = None

    def heard_by(self, number: int, handsets: tuple[Handset, ...]) -> list[PartHeard]:
        """Returns what each handset receives in a part."""
        if self.last is None or self.last[0] != (number, handsets):
            heard = hear_part(self.recording, handsets, self.parts[number], self.look)
            self.last = (number, handsets), heard
        return self.last[1]


class Handed:
    """The workers of a scheduler."""

    def __init__(
        self, recording: Recording, parts: list[Part], client: Any, look: Callable[[], None] = nothing
    ) -> None:
        """The parts of a recording, and a client of the scheduler; `look` is that of one process."""
        self.recording, self.parts, self.client, self.look = recording, parts, client, look
        self.under_way: dict[tuple[int, tuple[Handset, ...]], Any] = {}

    def heard_by(self, number: int, handsets: tuple[Handset, ...]) -> list[PartHeard]:
        """Returns what each handset receives in a part; those after it are handed out meanwhile."""
        ahead = AHEAD * max(1, workers_of(self.client))
        for other in range(number, min(number + ahead, len(self.parts))):
            if (other, handsets) not in self.under_way:
                self.under_way[other, handsets] = self.client.submit(
                    hear_part, self.recording, handsets, self.parts[other], pure=False
                )
        for key in [key for key in self.under_way if key[0] < number]:
            self.under_way.pop(key).cancel()
        future = self.under_way[number, handsets]
        try:
            while self.look is not nothing and not future.done():
                self.look()
                time.sleep(LOOK_AGAIN)
            some_ended(self.client, [future])
            heard: list[PartHeard] = result_of(future, "part")
        except (OSError, concurrent.futures.CancelledError, asyncio.CancelledError):
            raise Refused("the scheduler ended, or cancelled the run") from None
        return heard

    def cancel(self) -> None:
        """Cancels what is under way."""
        with contextlib.suppress(Exception):
            self.client.cancel(list(self.under_way.values()), force=True)


@dataclass(frozen=True)
class Channel:
    """A channel of a cell that is listened to: the handset that follows it, and what writes its lines."""

    handset: Handset
    writer: LineWriter


def on_rows(channels: Sequence[Channel], rows: Iterable[int | None]) -> tuple[Handset, ...]:
    """Returns the handsets of channels, each with its traffic channel on a row."""
    return tuple(channel.handset.on_row(row) for channel, row in zip(channels, rows))


def start_of(parts: list[Part], channels: Sequence[Channel], workers: Workers) -> tuple[list[Joiner], int]:
    """Returns the beginning of a listening: the part in which the last existing line of a channel lies, if that part
    has the time too. The earliest of such parts counts. If notes are wanted, it is the first part: those have the
    samples of all lines."""
    already = [channel.writer.already for channel in channels]
    first = min(0 if one.at is None or one.offset is None else part_at(parts, one.at) for one in already)
    if any(channel.writer.notes is not None for channel in channels):
        first = 0
    if first:
        joiners = [Joiner(channel.handset.row) for channel in channels]
        for joiner, one in zip(joiners, already):
            assert one.offset is not None
            joiner.resume(parts[first], one.times, one.sets, one.offset)
        rows = [joiner.row_before(parts[first]) for joiner in joiners]
        heard = workers.heard_by(first, on_rows(channels, rows))
        if all(joiner.can_resume(one) for joiner, one in zip(joiners, heard)):
            return joiners, first
    return [Joiner(channel.handset.row) for channel in channels], 0


def joined_channels(
    workers: Workers, parts: list[Part], channels: Sequence[Channel], joiners: list[Joiner], first: int
) -> Iterator[list[Joined]]:
    """Yields what each part adds to each channel, from one of them on."""
    for part in parts[first:]:
        rows = [joiner.row_before(part) for joiner in joiners]
        heard = workers.heard_by(part.number, on_rows(channels, rows))
        are_right = [joiner.is_on_row(one) for joiner, one in zip(joiners, heard)]
        if not all(are_right):
            rows = [row if is_right else joiner.row for row, is_right, joiner in zip(rows, are_right, joiners)]
            heard = workers.heard_by(part.number, on_rows(channels, rows))
        yield [joiner.join(part, one, part is parts[-1]) for joiner, one in zip(joiners, heard)]


@contextlib.contextmanager
def workers_for(
    recording: Recording, parts: list[Part], count: int, scheduler: str | None, look: Callable[[], None] = nothing
) -> Iterator[Workers]:
    """Yields `count` workers of this machine, this process if it is 1, or those of a scheduler."""
    if scheduler is None and count == 1:
        yield Alone(recording, parts, look)
        return
    # Python handles signals in its main thread. In another thread, as with `import cdma`, they are the program's own.
    is_main = threading.current_thread() is threading.main_thread()
    cluster = connected(scheduler, count)
    with in_order(cluster) if scheduler is None and is_main else cluster as client:
        handed = Handed(recording, parts, client, look)
        try:
            yield handed
        finally:
            handed.cancel()


def hear_recording(
    recording: Recording,
    channels: Sequence[Channel],
    seconds: float,
    count: int | None,
    scheduler: str | None,
    look: Callable[[], None] = nothing,
    show: Callable[..., Any] = bar,
) -> bool:
    """Listens to channels of a recording, in parts of `seconds`; returns whether a pilot was found.

    This process does all if `count`, the number of processes of this machine, is None or 1, and there is no scheduler.
    `look` is called now and then, and may raise to break the listening off. `show` makes the bar of progress.
    """
    parts, is_heard = parts_of(recording, seconds), False
    with workers_for(recording, parts, count or 1, scheduler, look) as workers:
        joiners, first = start_of(parts, channels, workers)
        is_heard = first > 0
        with show(total=len(parts) - first, text="parts", unit="") as shown:
            for joined in joined_channels(workers, parts, channels, joiners, first):
                write_joined(channels, joiners, joined)
                is_heard = is_heard or joined[0].is_heard
                shown.update(1)
    return is_heard


def write_joined(channels: Sequence[Channel], joiners: list[Joiner], joined: list[Joined]) -> None:
    """Writes what a part adds to each channel: remarks, and then the lines of all channels by their chips."""
    writers = [channel.writer for channel in channels]
    for writer, joiner, one in zip(writers, joiners, joined):
        writer.begin(one.origin)
        if writer.notes is not None:
            writer.notes.anchors = joiner.anchors
        for remark in one.remarks:
            writer.remark(remark)
    events = [zip(itertools.repeat(writer), one.events) for writer, one in zip(writers, joined)]
    for writer, event in heapq.merge(*events, key=lambda written: written[1].chip):
        writer.event(event)
