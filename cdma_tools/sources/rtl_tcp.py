"""A server of samples with the protocol of rtl_tcp, which tunes a radio."""

import socket
import struct
import time
from dataclasses import dataclass

from cdma_tools.errors import Refused, text_of
from cdma_tools.sources.backlog import PIECE_BYTES, Backlog, Skipped, Told

# A header of its word, the tuner's type and the number of its gains; and commands of a byte and a number, of which
# these set the middle of the band in Hz, the rate, who sets the gain (1: by hand), the gain in tenths of dB, the
# correction in millionths, the automatic gain of the converter, and the bias tee.
SERVER_HEADER, SERVER_WORD = struct.Struct(">4sII"), b"RTL0"
COMMAND, SET_FREQUENCY, SET_RATE, SET_GAIN_MODE, SET_GAIN, SET_PPM = struct.Struct(">BI"), 1, 2, 3, 4, 5
SET_AGC, SET_BIAS_TEE, WORD = 8, 14, 0xFFFF_FFFF
SCHEME, DEFAULT_PORT = "rtl_tcp", 1234
# Seconds for which a server may be silent, and from one try to reach it to the next.
SERVER_TIMEOUT, RETRY = 10.0, 5.0


@dataclass(frozen=True)
class Tuning:
    """How a radio is tuned; None leaves what it has."""

    frequency: float | None = None  # Hz of its middle
    gain: float | None = None  # dB; with has_agc the radio sets it by itself
    ppm: int | None = None  # correction of its crystal, in millionths
    has_bias_tee: bool = False  # whether it feeds an amplifier at the antenna
    has_agc: bool = False


@dataclass(frozen=True)
class Server:
    """A server of samples, and what is asked of it."""

    host: str
    port: int
    rate: int
    sample_bytes: int
    tuning: Tuning = Tuning()

    def commands(self) -> list[tuple[int, int]]:
        """The commands that tune it, by their numbers."""
        tuning, told = self.tuning, [(SET_RATE, self.rate)]
        if tuning.frequency is not None:
            told.append((SET_FREQUENCY, round(tuning.frequency)))
        if tuning.ppm is not None:
            told.append((SET_PPM, tuning.ppm & WORD))
        if tuning.gain is not None or tuning.has_agc:
            told += [(SET_GAIN_MODE, 0 if tuning.gain is None else 1), (SET_AGC, int(tuning.has_agc))]
        if tuning.gain is not None:
            told.append((SET_GAIN, round(10 * tuning.gain) & WORD))
        return told + ([(SET_BIAS_TEE, 1)] if tuning.has_bias_tee else [])

    @property
    def name(self) -> str:
        """Its address as it is given."""
        return f"{SCHEME}://{self.host}:{self.port}"


class ServerReader:
    """Takes the samples of a server, and connects again if it goes away."""

    def __init__(self, server: Server, backlog: Backlog, is_tried_again: bool = True) -> None:
        """Connects to the server; raises Refused if none there speaks the protocol.

        With is_tried_again a server that goes away is tried until it is there again; otherwise that is a fault.
        """
        self.server, self.backlog, self.is_tried_again = server, backlog, is_tried_again
        self.received = self.lost = 0  # bytes of this connection, and those of the last ones that found no room
        self.since = 0.0  # when the last bytes came
        try:
            self.connection = self.connected()
        except OSError as why:
            raise Refused(f"{server.name}: {why.strerror or why}") from None

    def connected(self) -> socket.socket:
        """A connection whose header has come, at the rate that is asked for."""
        server = self.server
        connection = socket.create_connection((server.host, server.port), timeout=SERVER_TIMEOUT)
        try:
            head = b""
            while len(head) < SERVER_HEADER.size:
                piece = connection.recv(SERVER_HEADER.size - len(head))
                if not piece:
                    raise OSError("the server closed the connection before its header")
                head += piece
            if SERVER_HEADER.unpack(head)[0] != SERVER_WORD:
                raise OSError("this is not an rtl_tcp server")
            connection.sendall(b"".join(COMMAND.pack(*command) for command in server.commands()))
        except OSError:
            connection.close()
            raise
        self.since = time.monotonic()
        return connection

    def run(self) -> None:
        """Takes what arrives until it is no longer wanted; runs in its own thread."""
        while not self.backlog.is_stopped.is_set():
            try:
                data = self.connection.recv(PIECE_BYTES)
                why = "the server closed the connection"
            except OSError as fault:
                is_silent = isinstance(fault, TimeoutError) and not fault.errno
                data, why = b"", f"no samples for {SERVER_TIMEOUT:.0f} s" if is_silent else text_of(fault)
            if data:
                self.take(data)
            elif self.is_tried_again:
                self.reach_again(why)
            else:
                self.backlog.put(Refused(f"{self.server.name}: {why}"))
                break
        self.connection.close()

    def take(self, data: bytes) -> None:
        """Adds bytes to the backlog; if that is full they are left out, and the next one taken begins a sample."""
        self.since = time.monotonic()
        first = -self.received % self.server.sample_bytes if self.lost else 0
        self.received += len(data)
        rest = data[first:]
        if self.lost and not (rest and self.backlog.has_room(len(rest))):
            self.lost += len(data)
            return
        self.tell_lost(first)
        if not self.backlog.put(rest, may_wait=False):
            self.lost += len(rest)

    def tell_lost(self, more: int = 0) -> None:
        """Reports what was left out, and `more` bytes of an incomplete sample."""
        if self.lost:
            samples = -(-(self.lost + more) // self.server.sample_bytes)
            self.backlog.put(Skipped(samples, f"the lock couldn't keep up with {self.server.name}"))
            self.lost = 0

    def reach_again(self, why: str) -> None:
        """Tries to connect to the server until it is there again."""
        self.connection.close()
        self.tell_lost()
        lost = f"the connection to {self.server.name} was lost: {why}; connecting again every {RETRY:.0f} s"
        self.backlog.put(Told(lost))
        while not self.backlog.is_stopped.wait(RETRY):
            since = self.since
            try:
                self.connection = self.connected()
            except OSError:
                continue
            away = self.since - since
            self.received = 0
            unreachable = f"{self.server.name} was unreachable for {away:.1f} s"
            self.backlog.put(Skipped(round(away * self.server.rate), unreachable))
            return
