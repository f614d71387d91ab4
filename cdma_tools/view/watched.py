"""Listening whose spectra, chips and figures are passed on to the page."""

import threading
import time
from collections.abc import Callable, Iterable, Sequence
from typing import Any

from cdma_tools.errors import said
from cdma_tools.listening.channels import Wanted
from cdma_tools.listening.events import Event, Remark
from cdma_tools.listening.everything import Place, followed_channels
from cdma_tools.listening.follow_run import Handset
from cdma_tools.listening.line_writer import LineWriter
from cdma_tools.listening.listening import Listening
from cdma_tools.listening.live import LiveListening
from cdma_tools.listening.pieces import Break, Chips, Lost, Piece
from cdma_tools.listening.relays import Followed
from cdma_tools.listening.stream_lock import LockOptions, State, StreamLock
from cdma_tools.listening.system_time import time_told
from cdma_tools.radio.air import CHIP_RATE
from cdma_tools.radio.strength import emptied
from cdma_tools.recordings import TYPES
from cdma_tools.sources.backlog import Backlog, Item
from cdma_tools.starting import called
from cdma_tools.view.chip_store import ChipKeeper, ChipStore
from cdma_tools.view.following import FollowedCell
from cdma_tools.view.outbox import Outbox
from cdma_tools.view.spectrum_rows import SpectrumRows

# Seconds from one spectrum to the next, and from one report of figures to the next.
SPECTRUM_EVERY, FIGURES_EVERY = 0.1, 0.25
# The lines that only a listening to a channel has.
PAGING_LINES, TRAFFIC_LINES = ("paging",), ("frame", "frame2", "traffic", "sets")
# What a lock is doing, in words.
STATES = {
    State.SEARCHING: "searching a pilot",
    State.SETTLING: "a pilot stands out",
    State.FOLLOWING: "following the pilot",
    State.MISSING: "the pilot is lost",
    State.RETURNING: "the pilot comes back",
}


class Every:
    """Says when something is due again."""

    def __init__(self, seconds: float, clock: Callable[[], float] = time.monotonic) -> None:
        """It is due at once."""
        self.seconds, self.clock = seconds, clock
        self.next = clock()

    def is_due(self) -> bool:
        """Whether `seconds` have passed since it was due last; then it is due again after that time."""
        now = self.clock()
        if now < self.next:
            return False
        self.next = now + self.seconds
        return True


class PageWriter(LineWriter):
    """Writes lines to the page, and remarks to the page and to standard error."""

    def __init__(self, outbox: Outbox, most: dict[str, int], kinds: Sequence[str] = ()) -> None:
        """No line has come yet; for each option of TAPS at most its limit is passed on, and only lines of `kinds`, if
        there are some."""
        super().__init__(outbox.line, True, most)
        self.outbox, self.kinds = outbox, kinds

    def event(self, event: Event) -> None:
        """Passes a line on, unless another channel of the cell has it too."""
        if not self.kinds or event.kind in self.kinds:
            super().event(event)
        elif time := time_told(event):
            self.time = time

    def remark(self, remark: Remark) -> None:
        """Passes a remark on."""
        text = self.title + remark.text
        self.outbox.tell("remark", seconds=round(remark.seconds, 4), text=text)
        said(called("view"), f"at {remark.seconds:.4f} s: {text}")


class PageWriters:
    """Makes the writers of channels: the first of a cell passes on all lines, each other one only those of its channel.
    """

    def __init__(self, outbox: Outbox, most: dict[str, int]) -> None:
        """No channel is known yet; see `PageWriter`."""
        self.outbox, self.most = outbox, most
        self.places = set[Place]()

    def of(self, place: Place, wanted: Wanted) -> LineWriter:
        """Returns what writes the lines of a channel."""
        own = TRAFFIC_LINES if wanted.handset.esn is not None else PAGING_LINES
        writer = PageWriter(self.outbox, self.most, own if place in self.places else ())
        self.places.add(place)
        writer.title = place.title
        if wanted.handset.name:
            writer.place = place.names(wanted.handset.name)
        return writer


class WatchedListening(Listening):
    """A listening that keeps its last chips, and counts those that were lost."""

    def __init__(
        self,
        lock: LockOptions,
        handset: Handset,
        writer: LineWriter,
        keeper: ChipKeeper,
        others: Sequence[Followed],
    ) -> None:
        """Nothing has come yet."""
        super().__init__(lock, handset, writer, others=others)
        self.keeper = keeper
        self.lost_chips = 0

    def take(self, piece: Piece) -> None:
        """Takes what comes out of the lock."""
        if isinstance(piece, Chips):
            self.keeper.add(piece)
        elif isinstance(piece, Lost):
            self.lost_chips += piece.chips
        elif isinstance(piece, Break):
            self.keeper.restart()
        super().take(piece)


class WatchedStream(LiveListening):
    """Listening to the cell of a number in a stream, which reports to the page what arrives."""

    def __init__(
        self, cell: FollowedCell, number: int, wanted: Sequence[Wanted], outbox: Outbox, store: ChipStore,
        made: PageWriters,
    ) -> None:  # fmt: skip
        """Nothing has come yet of the channels of a cell."""
        followed, writers = followed_channels(cell.place, wanted, made)
        handset, lock, keeper = wanted[0].handset, cell.lock, ChipKeeper(store)
        super().__init__(lock, handset, writers[0], False, followed[1:], writers[1:])
        self.watched = self.listening = WatchedListening(lock, handset, writers[0], keeper, followed[1:])
        self.number, self.outbox, self.keeper = number, outbox, keeper
        self.size = TYPES[lock.kind].size
        self.spectra = SpectrumRows(lock.kind)
        self.spectrum_due = Every(SPECTRUM_EVERY)
        self.backlog: Backlog | None = None
        self.kept: tuple[float, float] | None = None  # of the filter, at a carrier

    def take_all(self, backlog: Iterable[Item]) -> None:
        """Takes all that arrives. Meanwhile a thread reports the figures, so that a long search shows how it lags."""
        self.backlog = backlog if isinstance(backlog, Backlog) else None
        is_ended = threading.Event()
        teller = threading.Thread(target=self.tell_until, args=(is_ended,), daemon=True)
        teller.start()
        try:
            super().take_all(backlog)
        finally:
            is_ended.set()
            teller.join()
            self.tell_figures()

    def tell_until(self, is_ended: threading.Event) -> None:
        """Reports the figures now and then, up to the end; runs in its own thread."""
        while not is_ended.wait(FIGURES_EVERY):
            self.tell_figures()

    def take(self, item: Item) -> None:
        """Takes what arrives, and reports its spectrum now and then."""
        if isinstance(item, bytes) and self.spectrum_due.is_due():
            self.tell_spectrum(item)
        super().take(item)

    def summary(self, more: int = 0) -> str:
        """Returns how the listening ended, in words; `more` lines were written of other cells."""
        seconds, lines = self.listening.lock.seconds, self.written + more
        how = "stopped" if self.is_stopped else "the source ended"
        return f"{how} after {seconds:,.1f} s: {lines:,} lines, {self.lost:,} samples were lost"

    def tell_spectrum(self, data: bytes) -> None:
        """Reports the spectrum of what has just arrived."""
        lock = self.listening.lock
        levels = self.spectra.row(data[-len(lock.ring.rest) % self.size :])
        if levels is not None:
            told = {"seconds": round(lock.seconds, 3), "levels": levels.round(1).tolist()}
            self.outbox.tell("spectrum", number=self.number, **told)

    def tell_figures(self) -> None:
        """Reports what the lock is doing, its carrier and clock, the chips that are kept, and what was lost."""
        lock = self.listening.lock
        waiting = self.backlog.bytes if self.backlog is not None else 0
        figures: dict[str, Any] = {
            "seconds": round(lock.seconds, 3),
            "state": STATES[lock.state],
            "is_locked": lock.state == State.FOLLOWING,
            "lag": round(waiting / self.size / lock.ring.rate, 3),
            "lost_samples": self.lost,
            "lost_chips": self.watched.lost_chips,
            "dropped_lines": self.outbox.dropped,
            "chips": list(self.keeper.extent),
            "origin": self.listening.origin,
            **self.timing(lock),
        }
        self.outbox.tell("figures", number=self.number, **figures)

    def timing(self, lock: StreamLock) -> dict[str, Any]:
        """Returns the carrier, the clock and the filter's part of a pulse's power, if a pilot is followed."""
        pursuit = lock.pursuit
        timeline = pursuit.timeline if pursuit is not None else None
        if lock.state != State.FOLLOWING or timeline is None:
            return {}
        hertz, is_inverted = timeline.last.rate * CHIP_RATE, lock.ring.is_conjugate
        if self.kept is None or self.kept[0] != lock.chip_front.carrier:
            self.kept = lock.chip_front.carrier, 1 - emptied(lock.chip_front)
        return {
            "carrier_hz": round(-hertz if is_inverted else hertz, 2),
            "clock_ppm": round(-1e6 * timeline.slope_at_end(), 3),
            "is_inverted": is_inverted,
            "kept": self.kept[1],
        }
