"""The server of the page: it takes what the listener reports, and sends it to each browser at most ten times a second."""

import asyncio
import gzip
import importlib.util
import json
import os
import re
import secrets
import signal
import socket
import tempfile
import time
from collections.abc import Callable, Sequence
from concurrent.futures import ThreadPoolExecutor
from typing import IO, Any

from tornado.httpserver import HTTPServer
from tornado.ioloop import PeriodicCallback
from tornado.iostream import PipeIOStream, StreamClosedError
from tornado.netutil import bind_sockets
from tornado.web import Application, HTTPError, RequestHandler
from tornado.websocket import WebSocketClosedError, WebSocketHandler

from cdma_tools.errors import Refused, said
from cdma_tools.interrupts import INTERRUPTS, blocked_interrupts
from cdma_tools.listening.events import Event
from cdma_tools.report.heard_lines import heard_lines
from cdma_tools.starting import INTERRUPTED, called
from cdma_tools.view.chip_store import ChipStore, Extent
from cdma_tools.view.feed import Feed
from cdma_tools.view.kept import Kept, KeptCell, KeptLine, field_rows
from cdma_tools.view.listener import ListenerProcess
from cdma_tools.view.outbox import message_of
from cdma_tools.view.safety import Door
from cdma_tools.view.steps import WHY_NONE, FrameAsked, Handset, MarkTold, of_channel, steps_text
from cdma_tools.view.waveform import WHOLE, Measured, Wanted, measured

HERE = os.path.dirname(os.path.abspath(__file__))
# Seconds from one update of a browser to the next, from one measurement of a cell to its next, and to that of another
# cell.
UPDATE_EVERY, MEASURE_EVERY, TURN_EVERY = 0.1, 0.5, 0.25
MOST_VIEWERS = 16
# Seconds from one ping of a browser to the next, and without an answer after which it is gone. A machine that is very
# busy may let a browser wait for half a minute.
PING_EVERY, GONE = 20, 120
LONGEST_MESSAGE, LONGEST_LINE = 1_000, 1 << 20  # bytes: of a browser's request, and of the listening's
LONGEST_NUMBER, LONGEST_NAME = 4, 40  # characters of a cell's number in a request, and of its name in a file's
NO_WORD = re.compile(r"[^0-9A-Za-z-]+")
# Seconds for which a listening may take to end, and a browser to take its end.
ENDING, LAST_WORDS = 60.0, 1.0
ASSETS = {"view.js": "text/javascript", "view.css": "text/css"}
PIECE = 1 << 16  # bytes of a file that are sent at once
DEBIAN_PLOTLY = "/usr/share/python3-plotly/plotly.js"
PACKING = 6  # the level to which it is compressed


class Hub:
    """One listening, and the browsers that watch it."""

    plotly: "asyncio.Future[bytes]"  # Plotly's script, compressed

    def __init__(self, name: str, stores: Sequence[ChipStore], handset: Handset, row: int | None) -> None:
        """No browser watches yet of the source of a name, with a store of chips for each cell that may be followed;
        the traffic channel begins on a row."""
        self.kept, self.handset, self.row = Kept(name), handset, row
        self.stores = stores
        self.number = secrets.token_hex(8)  # of this run, so that a page recognizes a new one
        self.viewers: set[Viewer] = set()
        self.worker, self.explainer = ThreadPoolExecutor(max_workers=1), ThreadPoolExecutor(max_workers=1)
        self.measured: dict[KeptCell, tuple[float, Extent, Wanted]] = {}  # of each cell: when, and what, last
        self.is_measuring = False
        self.turn = 0  # of the cell that is measured next

    def store_of(self, cell: KeptCell) -> ChipStore:
        """Returns the store of a cell's chips, which is empty if the cell is not followed."""
        number = self.kept.cells.index(cell)
        return self.stores[number if number < len(self.stores) else 0]

    def extent_of(self, cell: KeptCell) -> Extent:
        """Returns the chips of a cell that are kept."""
        return Extent(*cell.figures.get("chips", (0, 0)))

    async def take_all(self, descriptor: int) -> None:
        """Takes everything that the listener reports."""
        stream = PipeIOStream(descriptor, max_buffer_size=4 * LONGEST_LINE)
        try:
            while True:
                self.kept.take(await stream.read_until(b"\n", max_bytes=LONGEST_LINE))
        except StreamClosedError:
            pass
        finally:
            stream.close()
        if self.kept.ended is None:
            self.kept.take(message_of("ended", status=1, text="the listening's process was killed"))

    def update(self) -> None:
        """Sends each browser what is new."""
        if self.viewers:
            self.kept.note_counts()
        for viewer in list(self.viewers):
            viewer.update()

    async def measure(self) -> None:
        """Measures the last chips of the next cell that has new ones, if nothing is being measured."""
        if self.is_measuring or (cell := self.next_measured()) is None:
            return
        extent, wanted = self.extent_of(cell), self.wanted_of(cell)
        self.is_measuring, self.measured[cell] = True, (time.monotonic(), extent, wanted)
        seconds, store = cell.figures["seconds"], self.store_of(cell)
        try:
            loop = asyncio.get_running_loop()
            told = await loop.run_in_executor(self.worker, measure_chips, store, extent.last(WHOLE), wanted)
        finally:
            self.is_measuring = False
        if told is not None:
            cell.add_measured(seconds, told.panels, told.figures)

    def wanted_of(self, cell: KeptCell) -> Wanted:
        """Returns what is known of a cell."""
        return Wanted(self.handset.paging if cell.has_pages else None, cell.pilot, cell.figures.get("kept", 1.0))

    def next_measured(self) -> KeptCell | None:
        """Returns the cell whose turn it is, of those with enough chips of which something is new; None if there are
        none."""
        cells = self.kept.cells
        for number in range(self.turn, self.turn + len(cells)):
            if self.is_due(cells[number % len(cells)]):
                self.turn = number % len(cells) + 1
                return cells[number % len(cells)]
        return None

    def is_due(self, cell: KeptCell) -> bool:
        """Whether a cell should be measured again."""
        extent = self.extent_of(cell)
        then, *last = self.measured.get(cell, (0.0, None, None))
        is_new = last != [extent, self.wanted_of(cell)]
        return is_new and extent.end - extent.first >= WHOLE and time.monotonic() >= then + MEASURE_EVERY

    async def steps(self, line: KeptLine) -> str:
        """Returns the steps of the frame in which a line ends, or why there are none."""
        cell = self.kept.cell_at(line.place)
        if cell is None or not self.extent_of(cell).end:
            return WHY_NONE
        origin = cell.figures.get("origin", 0)
        asked = FrameAsked.of(line.read, line.read.get("at", 0) + origin)
        if asked is None:
            return WHY_NONE
        told = [MarkTold.of(Event(sync.chip + origin, sync.line)) for sync in cell.syncs]
        marks = [mark for mark in told if mark is not None]
        loop = asyncio.get_running_loop()
        channel = "" if line.place is None else line.place.channel
        handset, row = of_channel(self.handset, self.row, channel)
        words = self.store_of(cell), self.extent_of(cell), asked, marks, handset, cell.rows.get(channel) or row
        return await loop.run_in_executor(self.explainer, steps_text, *words)


def measure_chips(store: ChipStore, extent: Extent, wanted: Wanted) -> Measured | None:
    """Returns what chips show; runs in a thread of its own."""
    return measured(store.samples(extent), extent.first, wanted)


class Guarded(RequestHandler):
    """A handler that answers only requests of the server's own page."""

    door: Door
    hub: Hub
    needs_origin = False

    def initialize(self, door: Door, hub: Hub) -> None:
        """Takes what the server knows."""
        self.door, self.hub = door, hub

    def set_default_headers(self) -> None:
        """Sets what each answer has: what the page may do, and that nobody else may use it."""
        self.clear_header("Server")
        self.set_header("X-Content-Type-Options", "nosniff")
        self.set_header("Referrer-Policy", "no-referrer")
        self.set_header("Cross-Origin-Resource-Policy", "same-origin")
        self.set_header("Cross-Origin-Opener-Policy", "same-origin")
        self.set_header("Cache-Control", "no-store")

    def prepare(self) -> None:
        """Refuses a request that isn't of the own page."""
        host = self.request.headers.get("Host", "")
        if not self.door.is_own_host(host):
            raise HTTPError(403)
        if not self.door.is_own_origin(self.request.headers, self.needs_origin):
            raise HTTPError(403)
        if not self.door.is_token(self.path_kwargs.get("token") or ""):
            raise HTTPError(404)
        self.set_header("Content-Security-Policy", self.door.policy(host))

    def write_error(self, status_code: int, **more: Any) -> None:
        """Answers with a status and its name, and nothing of the request."""
        self.set_header("Content-Type", "text/plain; charset=utf-8")
        self.finish(f"{status_code} {self._reason}\n")

    def log_exception(self, *_: Any) -> None:
        """Leaves out what a request did wrong."""


class Page(Guarded):
    """The page."""

    def get(self, token: str | None = None) -> None:
        """Sends the page."""
        with open(os.path.join(HERE, "page.html"), "rb") as file:
            self.set_header("Content-Type", "text/html; charset=utf-8")
            self.write(file.read())


class Asset(Guarded):
    """The page's script and style."""

    def get(self, name: str, token: str | None = None) -> None:
        """Sends a file of the package."""
        with open(os.path.join(HERE, name), "rb") as file:
            self.set_header("Content-Type", f"{ASSETS[name]}; charset=utf-8")
            self.write(file.read())


def plotly_path() -> str:
    """Returns the path of Plotly's script, that of Debian or that of the package; Refused if there is none.

    The package itself isn't imported here, since it loads much that only its figures need.
    """
    found = importlib.util.find_spec("plotly")
    folders = found.submodule_search_locations or [] if found is not None else []
    paths = [DEBIAN_PLOTLY, *(os.path.join(folder, "package_data", "plotly.min.js") for folder in folders)]
    path = next((path for path in paths if os.path.isfile(path)), None)
    if path is None:
        raise Refused("no plotly: install the package python3-plotly, and run /usr/bin/python3")
    return path


def packed_plotly() -> bytes:
    """Returns Plotly's script, compressed."""
    with open(plotly_path(), "rb") as file:
        return gzip.compress(file.read(), PACKING)


class Plotly(Guarded):
    """Plotly's script."""

    async def get(self, token: str | None = None) -> None:
        """Sends it compressed, as every browser takes it."""
        self.set_header("Content-Type", "text/javascript; charset=utf-8")
        self.set_header("Content-Encoding", "gzip")
        self.write(await self.hub.plotly)


class Saved(Guarded):
    """A file of what was heard so far."""

    async def get(self, name: str, token: str | None = None) -> None:
        """Sends the lines of all cells, a report of those of one, or its last chips as a sample file."""
        cell, cells = self.cell(), self.hub.kept.cells
        kinds = {"lines.jsonl": "application/x-ndjson", "report.html": "text/html; charset=utf-8"}
        self.set_header("Content-Type", kinds.get(name, "application/octet-stream"))
        saved = file_name(name, cell.name if len(cells) > 1 else "")
        self.set_header("Content-Disposition", f'attachment; filename="{saved}"')
        loop = asyncio.get_running_loop()
        if name == "report.html":
            self.write(await loop.run_in_executor(self.hub.explainer, self.report, cell))
        elif name == "lines.jsonl":
            await self.send(open(self.hub.kept.file.path, "rb"))
        else:
            await self.send(await loop.run_in_executor(self.hub.explainer, self.sample_file, cell))

    def cell(self) -> KeptCell:
        """Returns the cell of the number that the request has, the first one without a number."""
        number, cells = self.get_query_argument("cell", "0") or "", self.hub.kept.cells
        if not number.isascii() or not number.isdigit() or len(number) > LONGEST_NUMBER or int(number) >= len(cells):
            raise HTTPError(404)
        return cells[int(number)]

    async def send(self, file: IO[bytes]) -> None:
        """Sends a file, some at a time, so that a large one takes no memory."""
        with file:
            while data := file.read(PIECE):
                self.write(data)
                await self.flush()

    def report(self, cell: KeptCell) -> bytes:
        """Returns the report of all lines so far of a cell."""
        from cdma_tools.report.lines_page import page_of_lines  # takes seconds to load, with all of Plotly

        kept = self.hub.kept
        if len(kept.cells) == 1:
            return page_of_lines(kept.name, heard_lines(kept.file.path)).encode()
        with tempfile.NamedTemporaryFile(prefix="cdma-view-") as file:
            file.writelines(kept.lines_of(cell))
            file.flush()
            return page_of_lines(f"{kept.name}, cell {cell.name}", heard_lines(file.name)).encode()

    def sample_file(self, cell: KeptCell) -> IO[bytes]:
        """Returns the sample file of the last chips of a cell."""
        return self.hub.store_of(cell).sample_file(self.hub.extent_of(cell).last(), self.hub.handset.flags)


def file_name(name: str, cell: str) -> str:
    """Returns the name under which a browser saves a file of a cell; that of the lines has all cells."""
    if not cell or name == "lines.jsonl":
        return name
    stem, end = os.path.splitext(name)
    return f"{stem}-cell-{NO_WORD.sub('-', cell)[:LONGEST_NAME]}{end}"


class Viewer(Guarded, WebSocketHandler):
    """A browser that watches."""

    needs_origin = True

    def check_origin(self, origin: str) -> bool:
        """Leaves it to `prepare`, which has looked at it."""
        return True

    async def get(self, *words: Any, **named: Any) -> None:
        """Opens the connection, unless as many browsers watch as may."""
        if len(self.hub.viewers) >= MOST_VIEWERS:
            raise HTTPError(503)
        await super().get(*words, **named)

    def open(self, *_: Any, **__: Any) -> None:
        """Sends what there is, and from now on what is new."""
        self.set_nodelay(True)
        self.feed = Feed(self.hub.kept, self.hub.number)
        self.sending: asyncio.Future[None] | None = None
        self.is_explaining = False
        self.hub.kept.note_counts()
        self.send(self.feed.first())
        self.hub.viewers.add(self)

    def on_close(self) -> None:
        """Forgets it."""
        self.hub.viewers.discard(self)

    async def on_message(self, message: str | bytes) -> None:
        """Answers a click on a line, with its fields or with the steps of its frame, or the choice of a cell."""
        asked = asked_for(message)
        if asked is None:
            self.close(1003)
            return
        what, number = asked
        if what == "cell":
            self.send(self.feed.chosen(number))
            return
        line = self.hub.kept.lines.at(number)
        if what == "line":
            rows = field_rows(line.read) if line is not None else []
            self.send({"fields": {"line": number, "text": line.text if line is not None else "", "rows": rows}})
        elif line is not None and not self.is_explaining:
            self.is_explaining = True
            try:
                self.send({"steps": {"line": number, "text": await self.hub.steps(line)}})
            finally:
                self.is_explaining = False

    def send(self, told: dict[str, Any]) -> None:
        """Sends something."""
        try:
            self.sending = self.write_message(json.dumps(told, separators=(",", ":")))
        except WebSocketClosedError:
            self.hub.viewers.discard(self)

    def update(self) -> None:
        """Sends what is new, unless the last update is still on its way."""
        if self.sending is not None and not self.sending.done():
            return
        if self.sending is not None and self.sending.exception() is not None:
            self.hub.viewers.discard(self)
            return
        if news := self.feed.news():
            self.send(news)


def asked_for(message: str | bytes) -> tuple[str, int] | None:
    """Returns what a browser asks for, fields ("line") or steps of a line, or a cell, and the number of that; None if
    it is something else."""
    try:
        asked = json.loads(message)
    except (ValueError, RecursionError):
        return None
    if not isinstance(asked, dict) or len(asked) != 1:
        return None
    what, number = next(iter(asked.items()))
    return (what, number) if what in ("line", "steps", "cell") and type(number) is int else None


def bound(address: str, port: int) -> list[socket.socket]:
    """Returns sockets that listen; refuses a port that is taken, or an address that isn't this machine's."""
    try:
        return bind_sockets(port, address or None, reuse_port=False)
    except (OSError, OverflowError) as why:
        raise Refused(f"{address} port {port}: {getattr(why, 'strerror', None) or why}") from None


def application(door: Door, hub: Hub) -> Application:
    """Returns what answers requests."""
    shared = {"door": door, "hub": hub}
    start = r"/(?:(?P<token>[\w-]{8,64})/)?" if door.token else "/"
    files = "|".join(name.replace(".", r"\.") for name in ASSETS)
    return Application(
        [
            (start, Page, shared),
            (rf"{start}(?P<name>{files})", Asset, shared),
            (rf"{start}plotly\.js", Plotly, shared),
            (rf"{start}events", Viewer, shared),
            (rf"{start}save/(?P<name>lines\.jsonl|report\.html|samples\.is95)", Saved, shared),
        ],
        log_function=lambda handler: None,
        websocket_ping_interval=PING_EVERY,
        websocket_ping_timeout=GONE,
        websocket_max_message_size=LONGEST_MESSAGE,
    )


class Serving:
    """The server of one listening, up to its end."""

    def __init__(self, hub: Hub, listener: ListenerProcess, is_ending: bool) -> None:
        """With `is_ending` it ends with the listening, otherwise with an interrupt."""
        self.hub, self.listener, self.is_ending = hub, listener, is_ending
        self.interrupts = 0
        self.interrupted = asyncio.Event()

    def hear_interrupts(self, loop: asyncio.AbstractEventLoop) -> None:
        """Lets a loop take interrupts, unless they are ignored."""
        for number in INTERRUPTS:
            if signal.getsignal(number) is not signal.SIG_IGN:
                loop.add_signal_handler(number, self.interrupt)

    def interrupt(self) -> None:
        """Ends the listening in order; the next time, or if it has ended, the server."""
        self.interrupts += 1
        self.interrupted.set()
        if self.hub.kept.ended is None:
            self.listener.stop()

    async def serve(self, sockets: list[socket.socket], door: Door) -> int:
        """Serves the page, and returns the exit status."""
        loop = asyncio.get_running_loop()
        self.hub.plotly = loop.run_in_executor(self.hub.worker, packed_plotly)
        server = HTTPServer(application(door, self.hub), max_buffer_size=1 << 16, max_header_size=1 << 14)
        server.add_sockets(sockets)
        ticks = [
            PeriodicCallback(self.hub.update, 1_000 * UPDATE_EVERY),
            PeriodicCallback(self.hub.measure, 1_000 * TURN_EVERY),
        ]
        for tick in ticks:
            tick.start()
        await self.hub.take_all(self.listener.reader)
        status = await self.end_of_listening()
        if not self.is_ending and not self.interrupts:
            await self.interrupted.wait()
        await self.last_words()
        for tick in ticks:
            tick.stop()
        server.stop()
        return status

    async def end_of_listening(self) -> int:
        """Says how the listening ended, and returns its status."""
        loop = asyncio.get_running_loop()
        status = await loop.run_in_executor(None, self.listener.wait, ENDING)
        ended = self.hub.kept.ended or {}
        if status != INTERRUPTED:
            more = "" if self.is_ending or self.interrupts else "; the page stays until Ctrl-C"
            said(called("view"), f"{ended.get('text', '')}{more}")
        return status

    async def last_words(self) -> None:
        """Lets the browsers take the end."""
        self.hub.update()
        until = time.monotonic() + LAST_WORDS
        while time.monotonic() < until and any(
            viewer.sending is not None and not viewer.sending.done() for viewer in self.hub.viewers
        ):
            await asyncio.sleep(UPDATE_EVERY)
        for viewer in list(self.hub.viewers):
            viewer.close(1001)


def serve(
    hub: Hub, begin: Callable[[], ListenerProcess], sockets: list[socket.socket], door: Door, is_ending: bool
) -> int:
    """Begins a listening, serves its page, and returns the exit status."""
    runner = asyncio.Runner()
    # An interrupt waits until the loop takes it: then the child ends too, and no loop is half made.
    with blocked_interrupts():
        serving = Serving(hub, begin(), is_ending)
        serving.hear_interrupts(runner.get_loop())
    with runner:
        try:
            status = runner.run(serving.serve(sockets, door))
        finally:
            signal.pthread_sigmask(signal.SIG_BLOCK, INTERRUPTS)  # since the command is over
    for worker in (hub.worker, hub.explainer):
        worker.shutdown(wait=False, cancel_futures=True)
    if status == INTERRUPTED:
        raise KeyboardInterrupt
    return status
