"""Every tool that reads a radio's samples, with every source, and each way in which that may end.

The sources are stand-ins on this machine. Each tool gets some tenths of a second of a cell; then the source ends, ends
within a sample, or falls silent, or it can't be reached at all. A tool does its work on what came, and has at most one
line for what was wrong. The gate tries one ending for each pair of a source and a tool; with EVERY_SOURCE=1 all are
tried.
"""

from __future__ import annotations

import contextlib
import os
import re
import socket
import sys
import threading
import time
import types
import unittest
from collections.abc import Callable, Iterator
from dataclasses import dataclass
from enum import Enum
from typing import Any
from unittest import mock

from tools.tests.helping import HEADER, needs, run_tool, temporary_folder

needs("numpy", "scipy", "matplotlib", "plotly", "zmq")

import numpy  # noqa: E402
import zmq  # noqa: E402

from cdma_tools.sources import live, rtl_tcp  # noqa: E402
from tools.tests.radio_helping import cell_chips, run_main, write_cell  # noqa: E402

CHIPS, RATE = 300_000, 2_457_600
SILENCE = 0.5  # seconds after which a source is given up here
SILENT = 2.0  # seconds for which one is silent
HOST, PIECE = "127.0.0.1", 8_000
NARROW = ("--search", 600, "--conjugate", "no")
LOCK = (*NARROW, "--equaliser", "no")
# A program that hears the pilot and nothing else, whose output a page and a listening can take.
PROGRAM = """#!/bin/sh
[ "$1" = survey ] || echo 'pilot phase=12345 energy=1509949440000'
cat > /dev/null
"""


class Ending(Enum):
    """How a source ends."""

    END = "it ends"
    HALF = "it ends within a sample"
    SILENCE = "it falls silent"
    REFUSAL = "it can't be reached"


@dataclass(frozen=True)
class Offered:
    """A source that a test offers: its name, its arguments, and what is said of its end, as a pattern."""

    name: str
    words: tuple[Any, ...]
    told: str
    status: int  # of a tool that did its work
    data: bytes | None = None  # for standard input


@dataclass(frozen=True)
class Tool:
    """A tool that reads samples: its arguments, and how it is seen that it did its work."""

    name: str
    words: Callable[[str, str], tuple[Any, ...]]  # of a folder, and of a program
    has_worked: Callable[[str, str], bool]  # of its folder, and what it wrote
    failed: int = 1  # its status for a fault


def chips_in(folder: str) -> int:
    """The number of chips that an import wrote, 0 if there is no file."""
    try:
        with open(os.path.join(folder, "out.is95"), "rb") as file:
            count: int = HEADER.unpack(file.read(HEADER.size))[3]
            return count
    except FileNotFoundError:
        return 0


def page_in(folder: str) -> bool:
    """Whether there is a page of a recording that was imported."""
    try:
        with open(os.path.join(folder, "page.html"), encoding="utf-8") as file:
            text = file.read()
        return "</html>" in text and "can&#x27;t be imported" not in text
    except FileNotFoundError:
        return False


def remarks_in(folder: str, source: str) -> list[str]:
    """The remarks on a source that a page has."""
    name = re.escape("standard input" if source == "-" else source)
    with open(os.path.join(folder, "page.html"), encoding="utf-8") as file:
        return re.findall(f"{name}: the stream ended[^<]*", file.read())


TOOLS = (
    Tool("import_capture", lambda folder, _: (f"{folder}/out.is95",), lambda folder, _: chips_in(folder) > 0),
    Tool("scan", lambda folder, _: NARROW, lambda _, wrote: wrote.startswith("carrier_hz=")),
    Tool("domain", lambda folder, program: (*LOCK, "--program", program), lambda _, wrote: wrote.startswith("rho=")),
    Tool(
        "report",
        lambda folder, program: (
            *NARROW, "--import=--equaliser no", "--program", program, "--out", f"{folder}/page.html"
        ),
        lambda folder, _: page_in(folder),
        failed=9,
    ),
    Tool("listen", lambda folder, program: (*LOCK, "--program", program), lambda _, wrote: wrote.startswith("pilot ")),
)  # fmt: skip


def wait_until(condition: Callable[[], bool]) -> None:
    """Waits until a condition holds, for a minute at most."""
    until = time.monotonic() + 60
    while not condition():
        assert time.monotonic() < until, "too slow"
        time.sleep(0.005)


def is_taken(port: int) -> bool:
    """Whether a socket has a port of datagrams. To try it would take the port from the tool for a moment."""
    with open("/proc/net/udp", encoding="ascii") as table:
        return any(line.split()[1].endswith(f":{port:04X}") for line in table)


def free_port(kind: socket.SocketKind) -> int:
    """A port that nothing has."""
    with socket.socket(socket.AF_INET, kind) as free:
        free.bind((HOST, 0))
        port: int = free.getsockname()[1]
        return port


class Stand:
    """What stands in for sources, and what ends with a test."""

    def __init__(self, folder: str, samples: dict[str, bytes]) -> None:
        """With the samples of a cell by their type."""
        self.folder, self.samples, self.stack = folder, samples, contextlib.ExitStack()
        self.is_over = threading.Event()
        self.stack.callback(self.is_over.set)

    def data(self, kind: str, ending: Ending) -> bytes:
        """What is sent of samples."""
        return self.samples[kind] + (b"\1" if ending is Ending.HALF else b"")

    def run(self, serve: Callable[[], None]) -> None:
        """Runs a stand-in in a thread of its own, which may lose its client."""

        def quietly() -> None:
            with contextlib.suppress(OSError):
                serve()

        thread = threading.Thread(target=quietly, daemon=True)
        thread.start()
        self.stack.callback(thread.join, 10)

    def server(self, head: bytes, data: bytes, ending: Ending) -> int:
        """The port of a server that sends samples to who connects."""
        if ending is Ending.REFUSAL:
            return free_port(socket.SOCK_STREAM)
        listener = self.stack.enter_context(socket.create_server((HOST, 0)))

        def serve() -> None:
            connection, _ = listener.accept()
            with connection:
                connection.sendall(head + data)
                if ending is Ending.SILENCE:
                    self.is_over.wait(SILENT)
                connection.shutdown(socket.SHUT_WR)
                while connection.recv(PIECE):  # the commands that tune it
                    pass

        self.run(serve)
        port: int = listener.getsockname()[1]
        return port

    def tcp(self, ending: Ending) -> Offered:
        """A server that sends samples and nothing else."""
        port = self.server(b"", self.data("ci16_le", ending), ending)
        return Offered(f"tcp://{HOST}:{port}", ("--type", "ci16", "--rate", RATE), TOLD[ending], STATUS[ending])

    def rtl_tcp(self, ending: Ending) -> Offered:
        """A server with the protocol of rtl_tcp."""
        port = self.server(b"RTL0" + bytes(8), self.data("cu8", ending), ending)
        told = TOLD[ending] if ending in (Ending.SILENCE, Ending.REFUSAL) else "the server closed the connection"
        return Offered(f"rtl_tcp://{HOST}:{port}", ("--rate", "2457.6k", "--channel", 384, "--band", 800), told, 1)

    def udp(self, ending: Ending) -> Offered:
        """Datagrams to a port of this machine, of which an empty one is the last."""
        port, words = free_port(socket.SOCK_DGRAM), ("--type", "cu8", "--rate", RATE)
        if ending is Ending.REFUSAL:
            taken = self.stack.enter_context(socket.socket(socket.AF_INET, socket.SOCK_DGRAM))
            taken.bind((HOST, port))
            return Offered(f"udp://{HOST}:{port}", words, "Address already in use", 1)
        data = self.data("cu8", ending)

        def serve() -> None:
            wait_until(lambda: self.is_over.is_set() or is_taken(port))
            with socket.socket(socket.AF_INET, socket.SOCK_DGRAM) as sender:
                for begin in range(0, len(data), PIECE):
                    sender.sendto(data[begin : begin + PIECE], (HOST, port))
                    time.sleep(0.004)
                if ending is not Ending.SILENCE:
                    sender.sendto(b"", (HOST, port))

        self.run(serve)
        return Offered(f"udp://{HOST}:{port}", words, TOLD[ending], STATUS[ending])

    def zmq(self, ending: Ending) -> Offered:
        """A PUB socket, as GNU Radio has it. Whether one ends, or never was there, nobody hears: it is silent."""
        words, silence = ("--rate", RATE), TOLD[Ending.SILENCE]
        if ending is Ending.REFUSAL:
            return Offered(f"zmq://{HOST}:{free_port(socket.SOCK_STREAM)}", words, silence, 1)
        context = self.stack.enter_context(zmq.Context())
        publisher = self.stack.enter_context(context.socket(zmq.XPUB))
        publisher.setsockopt(zmq.LINGER, 0)
        publisher.setsockopt(zmq.SNDHWM, 0)
        port, data = publisher.bind_to_random_port(f"tcp://{HOST}"), self.data("cf32_le", ending)

        def serve() -> None:
            if publisher.poll(60_000):  # a subscription
                for begin in range(0, len(data), PIECE):
                    publisher.send(data[begin : begin + PIECE])

        self.run(serve)
        return Offered(f"zmq://{HOST}:{port}", words, silence, 1)

    def soapy(self, ending: Ending) -> Offered:
        """A radio of SoapySDR, which sends whole samples: it fails, falls silent, or isn't there."""
        samples = numpy.frombuffer(self.samples["cf32_le"], numpy.complex64)
        self.stack.enter_context(mock.patch.dict(sys.modules, {"SoapySDR": soapy_module(samples, ending)}))
        told = {Ending.SILENCE: TOLD[ending], Ending.REFUSAL: "no match"}.get(ending, "reading failed with error -2")
        return Offered("soapy:driver=stand", ("--rate", RATE, "--frequency", "881.52M", "--gain", 30), told, 1)

    def standard_input(self, ending: Ending) -> Offered:
        """Standard input. How long it may be silent is the writer's affair."""
        data = b"" if ending is Ending.REFUSAL else self.data("ci8", ending)
        return Offered("-", ("--type", "ci8", "--rate", RATE), TOLD_OF_PIPES[ending], STATUS[ending], data)

    def fifo(self, ending: Ending) -> Offered:
        """A named pipe."""
        path = os.path.join(self.folder, "fifo")
        os.mkfifo(path)
        data = b"" if ending is Ending.REFUSAL else self.data("cu8", ending)

        def serve() -> None:
            with open(path, "wb") as file:
                file.write(data)

        self.run(serve)
        return Offered(path, ("--type", "cu8", "--rate", RATE), TOLD_OF_PIPES[ending], STATUS[ending])


def soapy_module(samples: Any, ending: Ending) -> types.ModuleType:
    """A stand-in for SoapySDR whose radio sends samples, and then ends."""
    left = [samples]
    last = -1 if ending is Ending.SILENCE else -2

    class Device:
        """A radio."""

        def __init__(self, words: str) -> None:
            if ending is Ending.REFUSAL:
                raise RuntimeError(f"no match for {words}")

        def __getattr__(self, name: str) -> Any:
            return lambda *words: None

        def readStream(self, stream: Any, blocks: list[Any], count: int, timeoutUs: int) -> Any:
            """The next samples, or what is wrong."""
            taken, left[0] = left[0][:count], left[0][count:]
            blocks[0][: len(taken)] = taken
            return types.SimpleNamespace(ret=len(taken) or last)

    module = types.ModuleType("SoapySDR")
    module.__dict__.update(Device=Device, SOAPY_SDR_RX=1, SOAPY_SDR_CF32="CF32")
    return module


TOLD = {
    Ending.END: r"the stream ended after 0\.244 s|^$",
    Ending.HALF: "ended within a sample: its last 1 bytes were dropped",
    Ending.SILENCE: "no samples for 0 s",
    Ending.REFUSAL: "Connection refused",
}
TOLD_OF_PIPES = TOLD | {Ending.END: "^$", Ending.REFUSAL: "no samples arrived|no pilot stands out anywhere"}
STATUS = {Ending.END: 0, Ending.HALF: 0, Ending.SILENCE: 1, Ending.REFUSAL: 1}
SOURCES: tuple[Callable[[Stand, Ending], Offered], ...] = (
    Stand.rtl_tcp, Stand.tcp, Stand.udp, Stand.zmq, Stand.soapy, Stand.standard_input, Stand.fifo,
)  # fmt: skip
# Endings that a source doesn't have: a pipe's silence has no bound, whole samples come of SoapySDR.
MISSING = {
    (Stand.standard_input, Ending.SILENCE), (Stand.fifo, Ending.SILENCE), (Stand.soapy, Ending.HALF),
}  # fmt: skip


def endings(place: int, source: Callable[[Stand, Ending], Offered], tool: Tool) -> Iterator[Ending]:
    """The endings that are tried of a source with a tool: the refusal, and one of the others or all."""
    others = [ending for ending in Ending if ending is not Ending.REFUSAL and (source, ending) not in MISSING]
    if tool.name == "listen" and source is Stand.rtl_tcp:
        others = []  # a listening tries that again without end (test_listen)
    yield Ending.REFUSAL
    if others:
        yield from others if os.environ.get("EVERY_SOURCE") else [others[place % len(others)]]


def started(tool: str, words: tuple[Any, ...], data: bytes | None) -> tuple[int, str, str]:
    """A run of a tool: within this process, unless data is to come on standard input, which then is a pipe."""
    if data is None:
        return run_main(tool, *words)
    status, wrote, said = run_tool(tool, *words, data=data)
    return status, wrote.decode(), said


class EverySource(unittest.TestCase):
    samples: dict[str, bytes]
    program: str

    @classmethod
    def setUpClass(cls) -> None:
        folder = temporary_folder(cls.addClassCleanup)
        cell = write_cell(os.path.join(folder, "cell.is95"), cell_chips(CHIPS))
        cls.samples = {}
        for kind in ("cu8", "ci8", "ci16_le", "cf32_le"):
            path = os.path.join(folder, "recording")
            words = ("--type", kind, "--rate", RATE, "--ec-io", -7, "--seed", 3)
            status, _, said = run_main("channel", *words, cell, path)
            assert status == 0, said
            with open(path, "rb") as file:
                cls.samples[kind] = file.read()
        cls.program = os.path.join(folder, "program")
        with open(cls.program, "w", encoding="ascii") as made:
            made.write(PROGRAM)
        os.chmod(cls.program, 0o755)

    def setUp(self) -> None:
        for module in (live, rtl_tcp):
            replaced = mock.patch.object(module, "SERVER_TIMEOUT", SILENCE)
            replaced.start()
            self.addCleanup(replaced.stop)

    def ran(self, tool: Tool, offer: Callable[[Stand, Ending], Offered], ending: Ending) -> None:
        """Runs a tool with a source that ends so, and holds it to what is promised."""
        folder = temporary_folder(self.addCleanup)
        stand = Stand(folder, self.samples)
        with stand.stack:
            source = offer(stand, ending)
            words = (*source.words, source.name, *tool.words(folder, self.program))
            status, wrote, said = started(tool.name, words, source.data)
        told = [line for line in said.splitlines() if line.startswith(f"{tool.name}: ")]
        self.assertNotIn("Traceback", said)
        if ending is Ending.REFUSAL:
            self.assertEqual((status, wrote), (tool.failed, ""), said)
            self.assertEqual((len(told), os.path.exists(f"{folder}/out.is95")), (1, False), said)
            self.assertRegex(told[0], source.told)
            return
        self.assertEqual(status, tool.failed if source.status else 0, said)
        self.assertTrue(tool.has_worked(folder, wrote), said or wrote)
        if os.path.exists(f"{folder}/out.is95"):
            self.assertEqual(chips_in(folder), len(self.samples["cu8"]) // 4)  # all samples that were sent
        if tool.name == "report" and not source.status:
            told += remarks_in(folder, source.name)
        matching = [line for line in told if re.search(source.told, line)]
        self.assertEqual(len(matching), 0 if "^$" in source.told and not told else 1, said)

    def test_each_tool_with_each_source(self) -> None:
        for row, offer in enumerate(SOURCES):
            for column, tool in enumerate(TOOLS):
                for ending in endings(row + column, offer, tool):
                    with self.subTest(source=offer.__name__, tool=tool.name, ending=ending.value):
                        self.ran(tool, offer, ending)


if __name__ == "__main__":
    unittest.main()
