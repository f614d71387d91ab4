"""Listening: what a handset hears of a radio or of a recording of any length (docs/RADIO.md)."""

import contextlib
import os
import queue
import threading
import weakref
from collections import deque
from collections.abc import Callable, Iterator
from fractions import Fraction
from types import TracebackType
from typing import Any, Protocol

import numpy
from numpy.typing import NDArray

from cdma.errors import Error, ParameterError, as_errors
from cdma.events import Event, event_of
from cdma.parameters import HexNumber, Number, hex_text, number_within, parsed, path_of, words_of
from cdma.programs import script_of_model
from cdma_tools.commands import listen as command
from cdma_tools.errors import Refused, text_of
from cdma_tools.listening import events as heard
from cdma_tools.listening.follow_run import Handset
from cdma_tools.listening.line_writer import LineWriter
from cdma_tools.listening.live import LiveListening
from cdma_tools.listening.options import counts_of, handset_of, lock_options, shifts_of, source_of
from cdma_tools.listening.parts import Recording
from cdma_tools.listening.sharing import Channel, hear_recording
from cdma_tools.listening.stream_lock import LockOptions
from cdma_tools.overwriting import STANDARD
from cdma_tools.progress import Silent
from cdma_tools.radio.search_policy import policy_of
from cdma_tools.sources.backlog import LOOK_AGAIN, PIECE_BYTES, Backlog, Item
from cdma_tools.sources.live import Stream

MOST_WAITING = 1_000  # events that wait for whoever iterates
MOST_REMARKS = 1_000  # that are kept, the last ones


class Readable(Protocol):
    """An open file of bytes."""

    def read(self, size: int, /) -> bytes:
        """Returns at most `size` bytes, none at the end."""


Blocks = Callable[[], NDArray[Any] | None]  # gives the next samples, None at the end
ListenSource = str | os.PathLike[str] | Readable | Blocks


class Stopped(Exception):
    """Nothing more is wanted."""


class Mailbox:
    """What passes between whoever iterates and the thread that listens."""

    def __init__(self) -> None:
        """An empty one."""
        self.items: queue.Queue[Event | heard.Remark | BaseException | None] = queue.Queue(MOST_WAITING)
        self.stopped = threading.Event()
        self.ending = threading.Event()
        self.backlog: Backlog | None = None

    def put(self, item: Event | heard.Remark | BaseException | None) -> None:
        """Adds an item, None as the end; waits for room. Raises Stopped if nothing more is wanted."""
        while not self.stopped.is_set():
            with contextlib.suppress(queue.Full):
                self.items.put(item, timeout=LOOK_AGAIN)
                return
        raise Stopped

    def look(self) -> None:
        """Raises Stopped if nothing more is wanted."""
        if self.stopped.is_set():
            raise Stopped

    def wanted(self, backlog: Backlog) -> Iterator[Item]:
        """Yields the items of a backlog, as long as they are wanted."""
        self.backlog = backlog
        if self.ending.is_set():
            backlog.end()
        for item in backlog:
            self.look()
            yield item
        self.look()


class EventWriter(LineWriter):
    """A listener that puts events into a mailbox, not lines into a file."""

    def __init__(self, box: Mailbox, most: dict[str, int]) -> None:
        """Puts at most the given number of events of each kind."""
        super().__init__(lambda data: None, False, most)
        self.box = box

    def put(self, text: str, event: heard.Event | None = None) -> None:
        """Puts the event of a line."""
        is_timed = self.time is not None and event is not None and heard.AT.search(text)
        time_utc = self.time.utc(event.chip) if is_timed and self.time is not None and event is not None else None
        self.box.put(event_of(text, time_utc))

    def remark(self, remark: heard.Remark) -> None:
        """Puts a remark."""
        self.box.put(remark)


class Listening:
    """An iterator over what is heard; a thread listens meanwhile.

    It may be iterated in one thread and closed in another. The end of a `with` block, an interrupt, and dropping it
    close it too.
    """

    def __init__(self, box: Mailbox, thread: threading.Thread) -> None:
        """Takes the thread that listens, which has begun."""
        self._box, self._thread, self._is_over = box, thread, False
        self._remarks: deque[heard.Remark] = deque(maxlen=MOST_REMARKS)
        self._stop = weakref.finalize(self, box.stopped.set)

    def __iter__(self) -> "Listening":
        """Returns itself: each event comes once."""
        return self

    def __next__(self) -> Event:
        """Waits for the next event; raises `cdma.Error` if the source fails, or if no pilot stood out in it."""
        try:
            while not self._is_over and not self._box.stopped.is_set():
                with contextlib.suppress(queue.Empty):
                    item = self._box.items.get(timeout=LOOK_AGAIN)
                    if isinstance(item, Event):
                        return item
                    self._take(item)
        except BaseException:
            self.close()
            raise
        raise StopIteration

    def _take(self, item: heard.Remark | BaseException | None) -> None:
        """Takes a remark, a fault or the end."""
        if isinstance(item, heard.Remark):
            self._remarks.append(item)
        elif isinstance(item, BaseException):
            raise item
        else:
            self._is_over = True
            self._thread.join()

    @property
    def remarks(self) -> list[str]:
        """What the tool would say on standard error, such as losses of samples; the last 1,000 are kept."""
        return [f"at {remark.seconds:.4f} s: {remark.text}" for remark in list(self._remarks)]

    def finish(self) -> None:
        """Takes no more samples of a stream; the events in those that have come still follow."""
        self._box.ending.set()
        if self._box.backlog is not None:
            self._box.backlog.end()

    def close(self) -> None:
        """Breaks the listening off, and waits until nothing of it runs any more."""
        self._stop()
        if threading.current_thread() is not self._thread:
            self._thread.join()

    def __enter__(self) -> "Listening":
        """Returns the listening."""
        return self

    def __exit__(
        self, kind: type[BaseException] | None, why: BaseException | None, trace: TracebackType | None
    ) -> None:
        """Closes the listening."""
        self.close()


def block_bytes(block: NDArray[Any]) -> bytes:
    """Returns a block of complex numbers as cf32_le."""
    array = numpy.asarray(block)
    if array.ndim != 1 or array.dtype.kind != "c":
        shape = f"{array.dtype} of shape {array.shape}"
        raise ParameterError("source", f"blocks are rows of complex numbers, not {shape}")
    return array.astype("<c8").tobytes()


def pieces_of(source: Readable | Blocks) -> Iterator[bytes]:
    """Yields the bytes that an open file or a callable gives."""
    if callable(source):
        while (block := source()) is not None and len(block):
            yield block_bytes(block)
        return
    read = getattr(source, "read1", source.read)
    while data := read(PIECE_BYTES):
        yield data


def fill(source: Readable | Blocks, backlog: Backlog, faults: list[BaseException]) -> None:
    """Takes all that a file or a callable gives, until it isn't wanted any more; keeps the fault of a source."""
    try:
        for data in pieces_of(source):
            if backlog.is_stopped.is_set() or backlog.is_ending:
                break
            backlog.put(data)
    except Exception as why:
        faults.append(why)
    backlog.put(None)


@contextlib.contextmanager
def filled(source: Readable | Blocks) -> Iterator[Backlog]:
    """Yields a backlog that a thread fills; raises the source's fault at the end."""
    backlog, faults = Backlog(), list[BaseException]()
    threading.Thread(target=fill, args=(source, backlog, faults), daemon=True).start()
    try:
        yield backlog
    finally:
        backlog.stop()
    for fault in faults:
        raise fault


def hear_stream(
    box: Mailbox,
    opened: contextlib.AbstractContextManager[Backlog],
    lock: LockOptions,
    handset: Handset,
    most: dict[str, int],
) -> bool:
    """Listens to a stream, and returns whether a pilot was found."""
    live = LiveListening(lock, handset, EventWriter(box, most), False)
    try:
        with opened as backlog:
            live.take_all(box.wanted(backlog))
    finally:
        live.listening.kill()
    return live.listening.is_heard


def hear_file(box: Mailbox, recording: Recording, handset: Handset, most: dict[str, int], options: Any) -> bool:
    """Listens to a file of samples in parts, and returns whether a pilot was found."""

    def no_bar(**words: object) -> Silent:
        return Silent()

    channels = [Channel(handset, EventWriter(box, most))]
    return hear_recording(
        recording, channels, options.part, options.workers, options.scheduler, box.look, no_bar
    )


def work(box: Mailbox, hear: Callable[[], bool], no_pilot: str, kept: contextlib.ExitStack) -> None:
    """Listens in a thread of its own, and puts what it comes to into the mailbox."""
    with contextlib.suppress(Stopped), kept:
        try:
            if not hear():
                raise Refused(no_pilot)
        except Stopped:
            raise
        except Refused as why:
            box.put(Error(str(why)))
        except OSError as why:
            box.put(Error(text_of(why)))
        except BaseException as why:
            box.put(why)
        box.put(None)


def listen(
    source: ListenSource,
    *,
    type: str | None = None,
    rate: float | Fraction | None = None,
    capture: int | None = None,
    frequency: float | None = None,
    channel: int | None = None,
    band: int | None = None,
    gain: float | None = None,
    ppm: int | None = None,
    bias_tee: bool = False,
    agc: bool = False,
    esn: HexNumber | None = None,
    row: Number | None = None,
    offset: Number | None = None,
    paging: Number = 1,
    fingers: Number = 1,
    pilots: Number | None = None,
    messages: Number | None = None,
    frames: Number | None = None,
    raw: Number | None = None,
    complement_30: bool = False,
    complement_16: bool = False,
    shift: float | None = None,
    search: float | None = None,
    conjugate: str | None = None,
    equaliser: str | None = None,
    part: float | None = None,
    workers: Number | None = None,
    scheduler: str | None = None,
) -> Listening:
    """Returns an iterator over what a handset hears of a source, as the samples come.

    `source` is one of:

    - the path of a `.sigmf-meta`, a `.sigmf`, a `.wav`, or of raw samples of `type` and `rate`
    - an address such as `rtl_tcp://HOST:PORT`, `tcp://HOST:PORT` or `udp://HOST:PORT`, with `rate`
    - an open file that gives bytes of `type` at `rate`
    - a callable that gives the next samples at `rate`: a row of complex numbers, or None at the end

    The other parameters are those of `cdma.follow` and `cdma.lock`, and count over the whole source. A file of samples
    is listened to in parts of `part` seconds (default 600), whose events come at their ends. Parts are shared by
    `workers` processes, 1 to 64 (default 1), or by those of a `scheduler` of dask.distributed.

    Events are those of `cdma.follow`, with two differences: `at` counts chips from the start of the source, and
    `time_utc` has the time. A source that can't wait loses samples if the events aren't taken in time; a remark says
    how many. With `cdma.use_model()` events come only when a run of the model ends.

    Raises `cdma.Error` if the source can't be opened, and while it is iterated if the source fails or no pilot stands
    out. What a callable raises comes through.

    >>> cell = cdma.Cell(pn=3, samples=983_040)
    >>> cell.add_sync()
    >>> recording = cdma.record(cdma.make(cell), type="cf32_le", ec_io=-5)
    >>> blocks = iter(numpy.array_split(recording.as_complex(), 40))
    >>> with cdma.listen(lambda: next(blocks, None), rate=recording.rate, search=3_000) as listening:
    ...     print(next(event.sid for event in listening if isinstance(event, cdma.Sync)))
    1
    """
    given: dict[str, object] = {
        "type": type, "rate": rate, "capture": capture, "frequency": frequency, "channel": channel, "band": band,
        "gain": gain, "ppm": ppm, "bias_tee": bias_tee, "agc": agc,
        "esn": None if esn is None else hex_text("esn", esn, 8).lower(), "row": row, "offset": offset,
        "paging": number_within("paging", paging, 1, 7), "fingers": fingers, "pilots": pilots, "messages": messages,
        "frames": frames, "raw": raw, "complement_30": complement_30, "complement_16": complement_16, "shift": shift,
        "search": search, "conjugate": conjugate, "equaliser": equaliser, "part": part, "workers": workers,
        "scheduler": scheduler,
    }  # fmt: skip
    is_path = isinstance(source, (str, os.PathLike))
    if not is_path and not callable(source) and not hasattr(source, "read"):
        raise ParameterError("source", f"a path, an open file or a callable is needed, not {source!r:.60}")
    if not is_path and rate is None:
        raise ParameterError("rate", "an open file or a callable needs it")
    if not is_path and callable(source):
        if type is not None:
            raise ParameterError("type", "blocks of complex numbers have their own")
        given["type"] = "cf32_le"
    with contextlib.ExitStack() as stack:
        path = path_of("source", source) if isinstance(source, (str, os.PathLike)) else STANDARD
        program = stack.enter_context(script_of_model())
        parser = command.parser()
        options = parsed(parser, [*words_of(given), f"--program={program}", "--", path])
        command.check(parser, options)
        if is_path and path == STANDARD:
            raise ParameterError("source", "give an open file such as sys.stdin.buffer instead of -")
        with as_errors():
            box = Mailbox()
            hear = hearing_of(box, source, options)
        policy = policy_of(options)
        no_pilot = f"no pilot stands out anywhere {policy.searched(shifts_of(options)[0])}{policy.advice}"
        thread = threading.Thread(target=work, args=(box, hear, no_pilot, stack.pop_all()), daemon=True)
    thread.start()
    return Listening(box, thread)


def hearing_of(box: Mailbox, source: ListenSource, options: Any) -> Callable[[], bool]:
    """Returns what listens to a source, in a thread of its own."""
    handset, most = handset_of(options), counts_of(options)
    if not isinstance(source, (str, os.PathLike)):
        lock = lock_options(options, options.type, options.rate, is_live=True)
        opened = filled(source)
        return lambda: hear_stream(box, opened, lock, handset, most)
    found = source_of(options)
    if isinstance(found, Recording):
        recording = found
        return lambda: hear_file(box, recording, handset, most, options)
    stream, lock = found, lock_options(options, found.kind, found.rate, is_live=True)
    return lambda: hear_stream(box, opened_here(stream), lock, handset, most)


@contextlib.contextmanager
def opened_here(stream: Stream) -> Iterator[Backlog]:
    """Yields the backlog of a stream, whose file is closed at the end."""
    try:
        with stream.opened() as backlog:
            yield backlog
    finally:
        if stream.file is not None:
            stream.file.close()
