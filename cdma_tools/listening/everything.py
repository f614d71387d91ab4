"""All that is asked of a source at once: channels of several cells, on several carriers of a wide recording.

Carriers are listened to at once: those of a file of samples each in its own process, with one cell after the other,
and those of a stream each in its own thread. The transforms of a lock leave Python to the other threads.
"""

import contextlib
import os
import threading
from collections.abc import Callable, Iterator, Sequence
from dataclasses import dataclass, replace
from functools import partial
from typing import Any, Protocol

from cdma_tools.errors import Refused, said
from cdma_tools.interrupts import each_hang_up, first_interrupt
from cdma_tools.listening.at_once import Show, Task, done_at_once
from cdma_tools.listening.cells import CellsWanted, cell_recordings
from cdma_tools.listening.channels import ChannelOutputs, Trial, Wanted, sent_channels
from cdma_tools.listening.line_writer import LineWriter
from cdma_tools.listening.live import LiveListening
from cdma_tools.listening.output import Output, Reopened
from cdma_tools.listening.parts import Recording
from cdma_tools.listening.relays import Followed
from cdma_tools.listening.sharing import Channel, hear_recording
from cdma_tools.listening.stream_lock import LockOptions
from cdma_tools.progress import bar
from cdma_tools.sources.backlog import Backlog, Item
from cdma_tools.sources.live import Stream
from cdma_tools.starting import called


@dataclass(frozen=True)
class Place:
    """A cell, by its number, and its carrier, in Hz above the middle; whether others are listened to as well."""

    cell: int
    carrier: float
    has_cells: bool = False
    has_carriers: bool = False

    @property
    def hertz(self) -> float:
        """Returns the carrier, a whole number if it is one."""
        return int(self.carrier) if self.carrier == int(self.carrier) else self.carrier

    def file_name(self, channel: str) -> str:
        """Returns the name of the file of a channel, without its end."""
        return (f"carrier{self.hertz:+}-" if self.has_carriers else "") + f"cell{self.cell}-{channel}"

    def names(self, channel: str) -> dict[str, Any]:
        """Returns what objects of a channel have besides their line and its time."""
        return {"cell": self.cell, "carrier": self.hertz, "channel": channel}

    @property
    def title(self) -> str:
        """Returns the beginning of a remark on it; empty if nothing else is listened to."""
        carrier = f"carrier {self.hertz:+} Hz: " if self.has_carriers else ""
        return carrier + (f"cell {self.cell}: " if self.has_cells else "")


@dataclass(frozen=True)
class Writers:
    """What makes the writers of channels: their outputs, whether these get objects, and the limits of lines."""

    outputs: ChannelOutputs
    counts: dict[str, int]
    is_recording: bool
    check: Callable[[Output, str], None]  # refuses the output of a path that can't be gone on with

    def of(self, place: Place, wanted: Wanted) -> LineWriter:
        """Returns what writes the lines of a channel."""
        name = place.file_name(wanted.handset.name)
        output = self.outputs.of(name, wanted.is_tried)
        self.check(output, self.outputs.path(name))
        already = output.already if self.is_recording else None
        writer = LineWriter(output.write, self.outputs.is_json, self.counts, already)
        writer.is_appended = not self.is_recording and output.already.lines > 0
        writer.place, writer.title = place.names(wanted.handset.name), place.title
        return writer


@dataclass(frozen=True)
class Sharing:
    """How a file of samples is shared out: seconds of a part, processes of this machine if a number is given, or a
    scheduler; and what makes bars of progress."""

    part: float
    workers: int | None
    scheduler: str | None
    show: Show = bar

    def of_carriers(self, count: int) -> tuple[int, "Sharing"]:
        """Returns the number of carriers that are listened to at once, of `count`, and how each one is shared out."""
        at_once = min(count, self.workers or len(os.sched_getaffinity(0)))
        return at_once, replace(self, workers=max(1, (self.workers or 1) // at_once))


def hear_file(
    recording: Recording,
    shifts: Sequence[float],
    cells: CellsWanted | None,
    wanted: Sequence[Wanted],
    writers: Writers,
    sharing: Sharing,
) -> bool:
    """Listens to a file of samples on carriers around `shifts`; returns whether a pilot was found."""
    at_once, shared = sharing.of_carriers(len(shifts))

    def hear_carrier(place: Place, show: Show) -> bool:
        """Listens to a carrier; returns whether a pilot was found."""
        on_carrier = replace(recording, lock=replace(recording.lock, shift=place.carrier))
        with told_of(place):
            is_heard = hear_cells(on_carrier, place, cells, wanted, writers, replace(shared, show=show))
            say_unheard(place, is_heard)
            return is_heard
        return False

    places = places_on(shifts, cells)
    return any(done_at_once([Task(place.title, partial(hear_carrier, place)) for place in places], at_once))


def say_unheard(place: Place, is_heard: bool) -> None:
    """With several carriers, says that no pilot is on one."""
    if place.has_carriers and not is_heard:
        said(called("listen"), f"{place.title}no pilot stands out")


@contextlib.contextmanager
def told_of(place: Place) -> Iterator[None]:
    """With several carriers, says why one can't be listened to; with one, leaves that to the caller."""
    try:
        yield
    except Refused as why:
        if not place.has_carriers:
            raise
        said(called("listen"), f"{place.title}{why}")


def hear_cells(
    recording: Recording,
    place: Place,
    cells: CellsWanted | None,
    wanted: Sequence[Wanted],
    writers: Writers,
    sharing: Sharing,
) -> bool:
    """Listens to the wanted cells of a carrier, or to the strongest one; returns whether a pilot was found."""
    if cells is None:
        return hear_cell(recording, place, wanted, writers, sharing)
    with cell_recordings(recording, cells, sharing.show) as found:
        heard = [
            hear_cell(one.recording, replace(place, cell=one.number), wanted, writers, sharing) for one in found
        ]
    return any(heard)


def hear_cell(
    recording: Recording, place: Place, wanted: Sequence[Wanted], writers: Writers, sharing: Sharing
) -> bool:
    """Listens to the channels of the strongest cell; returns whether a pilot was found."""
    handsets = sent_channels(recording, wanted)
    channels = [Channel(one, writers.of(place, Wanted(one))) for one in handsets]
    return hear_recording(recording, channels, sharing.part, sharing.workers, sharing.scheduler, show=sharing.show)


def places_on(shifts: Sequence[float], cells: CellsWanted | None = None) -> list[Place]:
    """Returns the places of the strongest cell on carriers, on which some cells are wanted."""
    has_cells = cells is not None and cells.are_several
    return [Place(1, shift, has_cells, len(shifts) > 1) for shift in shifts]


class MakesWriters(Protocol):
    """What makes the writers of channels."""

    def of(self, place: Place, wanted: Wanted) -> LineWriter:
        """Returns what writes the lines of a channel."""


def followed_channels(
    place: Place, wanted: Sequence[Wanted], writers: MakesWriters
) -> tuple[list[Followed], list[LineWriter]]:
    """Returns what follows the channels of a stream, and their writers."""
    made = [writers.of(place, one) for one in wanted]
    followed = [
        Trial(writer).followed(one.handset) if one.is_tried else Followed(one.handset, writer)
        for one, writer in zip(wanted, made)
    ]
    return followed, made


def live_listening(lock: LockOptions, place: Place, wanted: Sequence[Wanted], writers: MakesWriters) -> LiveListening:
    """Returns a listening to the channels of the strongest cell of a stream."""
    followed, made = followed_channels(place, wanted, writers)
    return LiveListening(lock, wanted[0].handset, made[0], made[0].is_appended, followed[1:], made[1:])


class CarrierThread:
    """A listening to a carrier of a stream, in a thread of its own, which gets what comes of the stream."""

    def __init__(self, live: LiveListening, backlog: Backlog | None = None) -> None:
        """Starts it, with a backlog that others fill if there is one."""
        self.live, self.backlog = live, backlog or Backlog()
        self.fault: BaseException | None = None
        self.thread = threading.Thread(target=self.run, daemon=True)
        self.thread.start()

    def run(self) -> None:
        """Listens up to the end, and keeps the fault that ends it before."""
        try:
            self.live.take_all(self.backlog)
        except BaseException as why:  # raised again by the main thread
            self.fault = why
            self.backlog.stop()

    def put(self, item: Item | None) -> None:
        """Gives it what comes next, None at the end; waits until there is space."""
        self.check()
        self.backlog.put(item)
        self.check()

    def check(self) -> None:
        """Raises the fault that ended it."""
        if self.fault is not None:
            raise self.fault

    def join(self) -> None:
        """Waits until all is decoded."""
        self.thread.join()
        self.check()


class CarrierListening:
    """A listening to several carriers of a stream."""

    def __init__(self, lives: Sequence[LiveListening]) -> None:
        """Begins with nothing."""
        self.lives = lives

    def hear(self, stream: Stream, output: Reopened) -> None:
        """Listens up to the stream's end. An interrupt ends it after what has come; a second one breaks it off."""
        try:
            with stream.opened() as backlog, each_hang_up(output.reopen):

                def stop() -> None:
                    self.lives[0].is_stopped = True
                    backlog.end()

                with first_interrupt(stop):
                    self.share(backlog, [CarrierThread(live) for live in self.lives])
        finally:
            for live in self.lives:
                live.listening.kill()

    def share(self, backlog: Backlog, threads: list[CarrierThread]) -> None:
        """Gives all that comes to each carrier; if the source fails, what came before is finished first."""
        fault: Refused | None = None
        try:
            for item in backlog:
                for thread in threads:
                    thread.put(item)
        except Refused as why:
            fault = why
        for thread in threads:
            thread.put(None)
        for thread in threads:
            thread.join()
        if fault is not None:
            raise fault

    def summary(self) -> str:
        """Returns a summary in words."""
        lines, first = sum(live.written for live in self.lives), self.lives[0]
        seconds = first.listening.lock.seconds
        return f"stopped after {seconds:,.1f} s: {lines:,} lines were written, {first.lost:,} samples were lost"


def hear_live(
    stream: Stream, lock: LockOptions, places: Sequence[Place], wanted: Sequence[Wanted], writers: Writers
) -> bool:
    """Listens to a stream on the carriers of places; returns whether a pilot was found."""
    lives = [live_listening(replace(lock, shift=place.carrier), place, wanted, writers) for place in places]
    listening: CarrierListening | LiveListening = CarrierListening(lives) if len(lives) > 1 else lives[0]
    listening.hear(stream, writers.outputs)
    if lives[0].is_stopped or lives[0].lost:
        said(called("listen"), listening.summary())
    for place, live in zip(places, lives):
        say_unheard(place, live.listening.is_heard)
    return any(live.listening.is_heard for live in lives)
