"""Live sources of samples, by their addresses: servers, datagrams, GNU Radio's sockets, and radios.

| Address | Samples |
|---|---|
| `rtl_tcp://HOST:PORT` | a server with the protocol of rtl_tcp, which is tuned (`sources`); cu8 |
| `tcp://HOST:PORT` | a server that sends samples and nothing else |
| `udp://HOST:PORT` | datagrams that come to a port of this machine, as a UDP sink of GNU Radio sends them |
| `zmq://HOST:PORT` | a PUB socket, such as a ZMQ PUB sink of GNU Radio; cf32_le unless another type is given |
| `soapy:driver=NAME,..` | a radio that SoapySDR knows, which is tuned; cf32_le |

A source that ends ends the listening. One that is silent for ten seconds, or fails, is refused in one line; what was
received by then stays.
"""

from __future__ import annotations

import contextlib
import socket
import threading
from collections.abc import Callable, Iterator
from dataclasses import dataclass
from fractions import Fraction
from typing import Any, BinaryIO
from urllib.parse import urlsplit

from cdma_tools.errors import Refused
from cdma_tools.recordings import TYPES
from cdma_tools.sources.backlog import PIECE_BYTES, STANDARD_INPUT, Backlog, Item, Told, read_pipe
from cdma_tools.sources.rtl_tcp import DEFAULT_PORT, SERVER_TIMEOUT, Server, ServerReader, Tuning

RTL_TCP, TCP, UDP, ZMQ, SOAPY = "rtl_tcp", "tcp", "udp", "zmq", "soapy"
# The type that each sends, unless it sends any; and whether it can be tuned.
SENT_TYPES = {RTL_TCP: "cu8", ZMQ: "cf32_le", SOAPY: "cf32_le"}
FIXED_TYPES, TUNED = (RTL_TCP, SOAPY), (RTL_TCP, SOAPY)
# Samples read from a radio at once; what SoapySDR returns if samples were lost, and if none arrived.
SOAPY_SAMPLES, SOAPY_OVERFLOW, SOAPY_TIMEOUT = 1 << 15, -4, -1
MICROSECONDS = 1_000_000


@dataclass(frozen=True)
class LiveSource:
    """A live source: its address as it is given, its scheme, its samples, and how it is tuned."""

    address: str
    scheme: str
    kind: str
    rate: Fraction
    tuning: Tuning

    @property
    def place(self) -> tuple[str, int]:
        """The host and the port of the address; refuses one that names none."""
        # A scheme can't contain an underscore, so the scheme is removed first.
        try:
            parts = urlsplit(self.address.removeprefix(f"{self.scheme}:"))
            port = parts.port
        except ValueError as why:
            raise Refused(f"{self.address}: {why}") from None
        port = DEFAULT_PORT if port is None and self.scheme == RTL_TCP else port
        has_more = parts.path not in ("", "/") or parts.query or parts.fragment or parts.username
        if not parts.hostname or port is None or has_more:
            raise Refused(f"{self.address}: not an address of the form {self.scheme}://HOST:PORT")
        return parts.hostname, port

    def begin(self, backlog: Backlog, is_tried_again: bool = True) -> Callable[[], None]:
        """Connects to the source, and returns what fills a backlog with its samples, in its own thread.

        If the connection to an rtl_tcp server is lost it connects again, unless is_tried_again is False.
        """
        if self.scheme == RTL_TCP:
            host, port = self.place
            server = Server(host, port, int(self.rate), TYPES[self.kind].size, self.tuning)
            return ServerReader(server, backlog, is_tried_again).run
        items = {TCP: tcp_items, UDP: udp_items, ZMQ: zmq_items, SOAPY: soapy_items}[self.scheme](self)
        first = next(items)  # reaches it
        assert first == b""
        return lambda: fill(backlog, items)


@dataclass(frozen=True)
class Stream:
    """A live source, or a pipe."""

    kind: str
    rate: Fraction
    file: BinaryIO | None = None
    live: LiveSource | None = None
    path: str = STANDARD_INPUT  # of the pipe

    @property
    def name(self) -> str:
        """Its name in faults."""
        return self.path if self.live is None else self.live.address

    @contextlib.contextmanager
    def opened(self, is_tried_again: bool = True) -> Iterator[Backlog]:
        """Its backlog, which a thread fills; see `LiveSource.begin` for is_tried_again."""
        backlog = Backlog()
        if self.live is not None:
            reader = threading.Thread(target=self.live.begin(backlog, is_tried_again), daemon=True)
        else:
            reader = threading.Thread(target=read_pipe, args=(self.file, backlog, self.name), daemon=True)
        reader.start()
        try:
            yield backlog
        finally:
            backlog.stop()


def scheme_of(source: str) -> str | None:
    """The scheme of a live source's address; None of anything else."""
    if source.startswith(f"{SOAPY}:"):
        return SOAPY
    return next((scheme for scheme in (RTL_TCP, TCP, UDP, ZMQ) if source.startswith(f"{scheme}://")), None)


def fill(backlog: Backlog, items: Iterator[Item]) -> None:
    """Puts what a source sends into a backlog, until it ends or is no longer wanted."""
    try:
        for item in items:
            if backlog.is_stopped.is_set():
                break
            backlog.put(item)
        backlog.put(None)
    except Refused as why:
        backlog.put(why)
    finally:
        items.close()  # type: ignore[attr-defined]


def received(source: LiveSource, take: Callable[[int], bytes]) -> Iterator[Item]:
    """What a socket sends, up to its end; refuses one that fails, or is silent for too long."""
    while True:
        try:
            data = take(PIECE_BYTES)
        except TimeoutError:
            raise Refused(f"{source.address}: no samples for {SERVER_TIMEOUT:.0f} s") from None
        except OSError as why:
            raise Refused(f"{source.address}: {why.strerror or why}") from None
        if not data:
            return
        yield data


def tcp_items(source: LiveSource) -> Iterator[Item]:
    """What a server sends; nothing first, once it is reached."""
    try:
        connection = socket.create_connection(source.place, timeout=SERVER_TIMEOUT)
    except OSError as why:
        raise Refused(f"{source.address}: {why.strerror or why}") from None
    with connection:
        yield b""
        yield from received(source, connection.recv)


def udp_items(source: LiveSource) -> Iterator[Item]:
    """Datagrams that come to a port; an empty one ends them. Nothing first, once the port is open."""
    host, port = source.place
    try:
        family, kind, protocol, _, place = socket.getaddrinfo(host, port, type=socket.SOCK_DGRAM)[0]
        opened = socket.socket(family, kind, protocol)
        opened.bind(place)
    except OSError as why:
        raise Refused(f"{source.address}: {why.strerror or why}") from None
    with opened:
        opened.settimeout(SERVER_TIMEOUT)
        yield b""
        yield from received(source, opened.recv)


def zmq_items(source: LiveSource) -> Iterator[Item]:
    """Messages of a PUB socket, as GNU Radio sends them: only samples. Nothing first, once it is connected to."""
    try:
        import zmq  # Debian's python3-zmq, which only this source needs
    except ImportError as missing:
        raise Refused(f"{missing}: for {source.address}, install the package python3-zmq") from None
    host, port = source.place
    with zmq.Context() as context, context.socket(zmq.SUB) as subscriber:
        subscriber.setsockopt(zmq.LINGER, 0)
        subscriber.setsockopt(zmq.RCVTIMEO, int(1_000 * SERVER_TIMEOUT))
        subscriber.setsockopt(zmq.SUBSCRIBE, b"")
        try:
            subscriber.connect(f"tcp://{f'[{host}]' if ':' in host else host}:{port}")
            yield b""
            while True:
                if data := subscriber.recv():
                    yield data
        except zmq.Again:
            raise Refused(f"{source.address}: no samples for {SERVER_TIMEOUT:.0f} s") from None
        except zmq.ZMQError as why:
            raise Refused(f"{source.address}: {why}") from None


def soapy_items(source: LiveSource) -> Iterator[Item]:
    """What a radio sends that SoapySDR knows. Nothing first, once it is tuned and has begun."""
    try:
        import SoapySDR  # Debian's python3-soapysdr, which only this source needs
    except ImportError as missing:
        raise Refused(f"{missing}: for {source.address}, install the package python3-soapysdr") from None
    try:
        device = SoapySDR.Device(source.address.removeprefix(f"{SOAPY}:"))
        tune_soapy(SoapySDR.SOAPY_SDR_RX, device, source)
        stream = device.setupStream(SoapySDR.SOAPY_SDR_RX, SoapySDR.SOAPY_SDR_CF32)
        device.activateStream(stream)
    except (RuntimeError, ValueError) as why:
        raise Refused(f"{source.address}: {why}") from None
    try:
        yield b""
        yield from soapy_samples(device, stream, source)
    finally:
        device.deactivateStream(stream)
        device.closeStream(stream)


def tune_soapy(direction: int, device: Any, source: LiveSource) -> None:
    """Sets a radio's rate, frequency, gain, correction, bias tee and automatic gain."""
    tuning = source.tuning
    device.setSampleRate(direction, 0, float(source.rate))
    if tuning.frequency is not None:
        device.setFrequency(direction, 0, float(tuning.frequency))
    if tuning.ppm is not None:
        device.setFrequencyCorrection(direction, 0, float(tuning.ppm))
    if tuning.gain is not None or tuning.has_agc:
        device.setGainMode(direction, 0, tuning.has_agc)
    if tuning.gain is not None:
        device.setGain(direction, 0, tuning.gain)
    if tuning.has_bias_tee:
        device.writeSetting("biastee", "true")


def soapy_samples(device: Any, stream: Any, source: LiveSource) -> Iterator[Item]:
    """The samples of a radio that has begun."""
    import numpy

    block = numpy.zeros(SOAPY_SAMPLES, dtype=numpy.complex64)
    while True:
        ended = device.readStream(stream, [block], len(block), timeoutUs=int(SERVER_TIMEOUT * MICROSECONDS))
        if ended.ret > 0:
            yield block[: ended.ret].tobytes()
        elif ended.ret == SOAPY_OVERFLOW:
            yield Told(f"{source.address}: samples were lost because they were not read in time")
        elif ended.ret == SOAPY_TIMEOUT:
            raise Refused(f"{source.address}: no samples for {SERVER_TIMEOUT:.0f} s")
        else:
            raise Refused(f"{source.address}: reading failed with error {ended.ret}")
