"""What a page follows: cells on carriers, with the stream of each."""

import contextlib
from collections.abc import Iterator, Sequence
from contextlib import ExitStack
from dataclasses import dataclass, replace
from functools import partial

from cdma_tools.errors import Refused, said
from cdma_tools.interrupts import first_interrupt
from cdma_tools.listening.cells import CellsWanted, cell_recordings
from cdma_tools.listening.everything import CarrierThread, Place
from cdma_tools.listening.live import LiveListening
from cdma_tools.listening.parts import Recording
from cdma_tools.listening.stream_lock import LockOptions
from cdma_tools.progress import Silent
from cdma_tools.sources.live import Stream
from cdma_tools.starting import called
from cdma_tools.view.outbox import Outbox
from cdma_tools.view.paced import PacedRecording

LOOK_AGAIN = 0.2  # seconds after which it is looked again whether a thread has failed


@dataclass(frozen=True)
class FollowedCell:
    """A cell on a carrier, how it is locked to, and its own stream, if it has one."""

    place: Place
    lock: LockOptions
    stream: Stream | None = None


class StageBar(Silent):
    """A bar whose text the page shows: which cell is being looked for."""

    def __init__(self, outbox: Outbox, **_: str) -> None:
        """Nothing is looked for yet."""
        super().__init__()
        self.outbox = outbox

    def set_description(self, text: str) -> None:
        """Shows what is looked for."""
        self.outbox.tell("stage", text=f"taking the cells apart: {text}")


def say_of(outbox: Outbox, place: Place, text: str) -> None:
    """Says a line on a carrier, on the page too."""
    line = (f"carrier {place.hertz:+} Hz: " if place.has_carriers else "") + text
    outbox.tell("remark", seconds=0.0, text=line)
    said(called("view"), line)


@contextlib.contextmanager
def separated_cells(
    recording: Recording, places: Sequence[Place], wanted: CellsWanted, speed: float, outbox: Outbox
) -> Iterator[list[FollowedCell]]:
    """Yields the wanted cells on carriers of a recording, each a recording of its own that is played at a speed.

    If there are none on one of several carriers, that is said. Refused if there are none at all.
    """
    found: list[FollowedCell] = []
    fault: Refused | None = None
    with ExitStack() as stack:
        for place in places:
            on_carrier = replace(recording, lock=replace(recording.lock, shift=place.carrier))
            say = partial(say_of, outbox, place)
            try:
                cells = stack.enter_context(cell_recordings(on_carrier, wanted, partial(StageBar, outbox), say))
            except Refused as why:
                if not place.has_carriers:
                    raise
                fault = why
                say(str(why))
                continue
            for one in cells:
                played = PacedRecording.of(one.recording, speed)
                found.append(FollowedCell(replace(place, cell=one.number), one.recording.lock, played))
        if fault is not None and not found:
            raise fault
        yield found


class SeparateListening:
    """Listenings at the same time, each to a stream of its own."""

    def __init__(self, lives: Sequence[tuple[LiveListening, Stream]]) -> None:
        """Begins with nothing."""
        self.lives = lives

    def hear(self) -> None:
        """Listens up to the end of all streams. An interrupt ends it after what has come, a second one at once."""
        try:
            with ExitStack() as stack:
                backlogs = [stack.enter_context(stream.opened()) for _, stream in self.lives]

                def stop() -> None:
                    self.lives[0][0].is_stopped = True
                    for backlog in backlogs:
                        backlog.end()

                with first_interrupt(stop):
                    self.join([CarrierThread(live, backlog) for (live, _), backlog in zip(self.lives, backlogs)])
        finally:
            for live, _ in self.lives:
                live.listening.kill()

    def join(self, threads: Sequence[CarrierThread]) -> None:
        """Waits until all is decoded; raises the first fault at once."""
        while any(thread.thread.is_alive() for thread in threads):
            for thread in threads:
                thread.thread.join(LOOK_AGAIN)
                thread.check()
        for thread in threads:
            thread.check()
