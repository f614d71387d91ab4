"""What the program reports of chips: the strongest pilot, the ranks of all pilots, and what a handset hears."""

import contextlib
import os
import threading
from collections.abc import Iterable, Iterator
from types import TracebackType
from typing import IO, Any

from cdma.chips import Source, chips_of, file_pieces
from cdma.errors import Error, ParameterError, as_errors
from cdma.events import KINDS, Event, Pilot, Rank, Table, event_of, html_table
from cdma.keeping import KeptLines, text_lines
from cdma.parameters import HexNumber, Number, option_words, path_of, whole
from cdma.running import Piece, Running, lines_of
from cdma_tools.csv_lines import KINDS as LINES

SPAN = 2_048
TABLES = tuple(sorted({*KINDS, *(kind for kind in LINES if kind.split("-")[0] in KINDS)}))  # kinds of events
GOOD = (0, 1)  # statuses of `follow`: 1 means that no sync message was received
ENDED = -1  # stands for the status of a run that has a fault


@contextlib.contextmanager
def opened(source: Source, most: int | None = None) -> Iterator[IO[bytes] | Iterable[Piece]]:
    """Yields what a run reads: the open file of a path, or the bytes of chips, of which `most` are enough."""
    if isinstance(source, (str, os.PathLike)):
        path = path_of("chips", source)
        with as_errors():
            file = open(path, "rb")
        with file:
            yield file
    else:
        yield file_pieces(chips_of(chips_of(source)[:most]))


def find(chips: Source, *, span: Number = SPAN, workers: Number | None = None) -> Pilot:
    """Returns the strongest pilot in the first `span` samples, and its energy.

    `chips` are samples, or the path of a sample file. `span` is 64 to 32,768. `workers`, 1 to 64, is the number of
    threads of the search, and does not change its result.

    Raises `cdma.FileError` if there are fewer samples than `span`.

    >>> cdma.find(examples / "pilot_in_noise.is95")
    Pilot(phase=12345, energy=21272219170)
    """
    words = option_words("find", {"span": span, "workers": workers})
    with opened(chips, whole("span", span)) as source:
        (line,) = lines_of(words, source)
    found = event_of(line)
    assert isinstance(found, Pilot)
    return found


def survey(
    chips: Source,
    *,
    span: Number = SPAN,
    workers: Number | None = None,
    base: Number = 0,
    width: Number = 10,
    top: Number = 512,
) -> Table[Rank]:
    """Returns the `top` strongest of all 512 pilots in the first `span` samples, the strongest first.

    `base`, 0 to 32,767, is the code phase of the pilot of offset 0. `width`, 0 to 31, is the greatest distance in chips
    from its own phase at which a pilot is measured. `top` is 1 to 512. The other parameters and the errors are those of
    `cdma.find`.

    >>> cdma.survey(examples / "pilot_in_noise.is95", base=12345, top=1)
    [Rank(pn=0, delta=0, energy=21272219170)]
    """
    values = {"span": span, "workers": workers, "base": base, "width": width, "top": top}
    words = option_words("survey", values)
    with opened(chips, whole("span", span)) as source:
        lines = lines_of(words, source)
    return Table(rank for rank in map(event_of, lines) if isinstance(rank, Rank))


class Run:
    """What a handset hears: an iterator over events, which come while the program still reads the chips.

    A run keeps lines, in a temporary file from 64 KiB on: it can be iterated again, and memory stays flat. The end of a
    `with` block, an interrupt, and dropping the run close it. An event costs some 1 µs of processor time, and 6 to 15
    µs more if its fields are read.
    """

    def __init__(self, running: Running) -> None:
        """Takes a run of `follow` that has begun."""
        self._running = running
        self._kept = KeptLines()
        self._lock = threading.Lock()
        self._status: int | None = None

    def __iter__(self) -> Iterator[Event]:
        """Yields the events from the first one on, as they come.

        Raises `cdma.FileError` after the last event if the file has a fault at its end.
        """
        place = 0
        while lines := self._kept.read(place) or self._advance(place):
            place += len(lines)
            try:
                yield from map(event_of, text_lines(lines))
            except Error:  # what came is no event
                self.close()
                raise

    def _advance(self, place: int) -> bytes:
        """Waits for the lines from a place on; returns none at the end."""
        with self._lock:
            if lines := self._kept.read(place):
                return lines
            if self._status is not None:
                return b""
            try:
                if lines := self._running.read():
                    with as_errors():
                        self._kept.add(lines)
                    return lines
            except BaseException:
                self._running.stop()
                self._finish()
                raise
            self._finish()
            return b""

    def _finish(self) -> None:
        """Takes the end of the run; raises its error unless it was ended."""
        self._status = ENDED
        self._status = self._running.finish(*GOOD)

    def close(self) -> None:
        """Ends the program if it still runs, in any thread; the events that came stay."""
        if self._status is None:
            self._running.stop()
            with self._lock:
                if self._status is None:
                    self._finish()

    def __enter__(self) -> "Run":
        """Returns the run."""
        return self

    def __exit__(
        self, kind: type[BaseException] | None, why: BaseException | None, trace: TracebackType | None
    ) -> None:
        """Closes the run."""
        self.close()

    @property
    def is_synced(self) -> bool | None:
        """Whether a sync message with a long-code state was heard; None before the end, and if the run was ended."""
        return None if self._status is None else {0: True, 1: False}.get(self._status)

    def table(self, kind: str) -> Table[Event]:
        """Returns all events of a kind, after the end of the run: `sync`, `paging`, `paging-system`, `frame` and so on.

        The kinds are those of `tools/lines --csv`; a kind without a hyphen has all its messages.
        """
        if not isinstance(kind, str) or kind not in TABLES:
            raise ParameterError("kind", f"one of {', '.join(TABLES)} is needed, not {kind!r:.60}")
        return Table(event for event in self if kind in (event.kind, event.first))

    def to_pandas(self, kind: str) -> Any:
        """Returns `table(kind)` as a `pandas.DataFrame`, one column for each field.

        Raises `cdma.Error` if pandas is missing.
        """
        return self.table(kind).to_pandas()

    def counts(self) -> dict[str, int]:
        """Returns the number of events of each kind that have come so far."""
        found: dict[str, int] = {}
        place = 0
        while lines := self._kept.read(place):
            place += len(lines)
            for event in map(event_of, text_lines(lines)):
                found[event.kind] = found.get(event.kind, 0) + 1
        return found

    def __repr__(self) -> str:
        """Returns the numbers of events so far."""
        state = "running" if self._status is None else "ended"
        counts = ", ".join(f"{count} {kind}" for kind, count in self.counts().items())
        return f"<Run: {state}; {counts or 'no events'}>"

    def _repr_html_(self) -> str:
        """Returns the numbers of events so far as an HTML table."""
        counts = self.counts()
        return html_table([{"kind": kind, "events": count} for kind, count in counts.items()], len(counts))


def follow(
    chips: Source,
    *,
    esn: HexNumber | None = None,
    row: Number | None = None,
    offset: Number | None = None,
    fingers: Number = 1,
    paging: Number = 1,
    span: Number = SPAN,
    workers: Number | None = None,
    pilots: Number | None = None,
    messages: Number | None = None,
    frames: Number | None = None,
    raw: Number = 0,
) -> Run:
    """Returns the run of a handset through chips, or through the sample file at a path.

    The handset follows 1 to 3 paths (`fingers`) and decodes the sync channel and paging channel `paging`, 1 to 7. `esn`
    (a number or eight hex digits), `row` (1 to 63, not 32) and `offset` (0 to 15, default 0) name a traffic channel to
    decode as well. `pilots`, `messages`, `frames` and `raw` are the numbers of events after which those of a kind are
    left out, without a limit by default; `raw` is 0 by default. `span` and `workers` are those of `cdma.find`.

    Iterating the run raises `cdma.FileError` if there are fewer samples than `span`, or if the file has a fault at its
    end.

    >>> cell = cdma.Cell(pn=511, samples=400_000)
    >>> cell.add_sync()
    >>> run = cdma.follow(cdma.make(cell))
    >>> for event in run:
    ...     print(event)
    pilot phase=64 energy=167772160000
    sync at=294848 prev=3 min=1 sid=1 nid=2 pn=511 lc=102a1d2e508 time=1007 lp=13 ltm=0 daylt=0 prat=0 rest=3:00
    >>> run.table("sync")[0].time
    1007
    """
    if esn is None and row is None and offset is not None and whole("offset", offset) == 0:
        offset = None
    values = {"esn": esn, "row": row, "offset": offset, "fingers": fingers, "paging": paging, "span": span}
    limits = {"pilots": pilots, "messages": messages, "frames": frames, "raw": raw}
    words = option_words("follow", {**values, "workers": workers, **limits})
    with opened(chips) as source:
        return Run(Running(words, source))
