"""`cdma.listen`: the same events as the command's from each kind of source, and nothing left when it is closed."""

import contextlib
import gc
import io
import json
import os
import socket
import struct
import subprocess
import threading
import time
import unittest
from collections.abc import Callable, Iterator
from datetime import datetime, timedelta, timezone
from pathlib import Path
from typing import Any

from tools.tests.helping import PYTHON, ROOT, needs, run_tool, temporary_folder

needs("numpy", "scipy")

import numpy  # noqa: E402
from numpy.typing import NDArray  # noqa: E402

import cdma  # noqa: E402
import cdma.programs  # noqa: E402
from tools.tests.test_library import choose  # noqa: E402

RATE = 2_000_000
NEAR: dict[str, Any] = {"search": 2_000, "conjugate": "no"}  # so that the search takes little time
EPOCH = datetime(1980, 1, 6, tzinfo=timezone.utc)
SECONDS = 15  # for which something that has to happen is waited for


def processes() -> set[int]:
    """Returns the processes that this one has begun and that aren't gone.

    Python's own resource tracker is left out: it lives as long as a process that once began others.
    """
    found: set[int] = set()
    for task in os.listdir("/proc/self/task"):
        with contextlib.suppress(OSError):
            found |= set(map(int, Path(f"/proc/self/task/{task}/children").read_text().split()))
    return {process for process in found if b"resource_tracker" not in command_line(process)}


def command_line(process: int) -> bytes:
    """Returns the command line of a process, none if it is gone."""
    with contextlib.suppress(OSError):
        return Path(f"/proc/{process}/cmdline").read_bytes()
    return b""


class Heard(unittest.TestCase):
    """A recording of one cell, listened to in each way."""

    seconds = 25

    @classmethod
    def setUpClass(cls) -> None:
        choose()
        cls.folder = Path(temporary_folder(cls.addClassCleanup))
        cell = cdma.Cell(pn=3, time=18_498_780_225, samples=860_160)
        cell.add_sync(gain=40)
        recording = cdma.record(cdma.make(cell), rate=RATE, type="cu8", carrier=700, ec_io=-5)
        cls.meta = cls.folder / "radio.sigmf-meta"
        recording.save(cls.meta)
        cls.data = cls.meta.with_suffix(".sigmf-data").read_bytes()
        cls.samples = recording.as_complex()
        cls.before = threading.active_count()

    folder: Path
    meta: Path
    data: bytes
    samples: NDArray[numpy.complex64]
    before: int

    def blocks(self) -> Callable[[], NDArray[numpy.complex64] | None]:
        """Returns a callable that gives the samples in 50 blocks."""
        found = iter(numpy.array_split(self.samples, 50))
        return lambda: next(found, None)

    def assert_nothing_is_left(self) -> None:
        """Checks that no process and no thread of a listening is left."""
        until = time.monotonic() + SECONDS
        while (processes() or threading.active_count() > self.before) and time.monotonic() < until:
            time.sleep(0.02)
        self.assertEqual((processes(), threading.active_count()), (set(), self.before))

    def test_a_file(self) -> None:
        """The events are the objects that the command writes, each with its time."""
        with cdma.programs.script_of_model() as program:
            words = ("--search", 2_000, "--conjugate", "no", "--program", program, "--json", self.meta)
            status, text, said = run_tool("listen", *words)
        self.assertEqual(status, 0, said)
        with cdma.listen(self.meta, **NEAR) as listening:
            found = [event.to_dict() for event in listening]
        self.assertEqual(found, [json.loads(line) for line in text.decode().splitlines()])
        messages = [one for one in found if one["line"] == "sync"]
        self.assertEqual([one["time"] for one in messages], [18_498_780_232, 18_498_780_235, 18_498_780_238])
        for one in messages:  # each message is known at most half a second before its time
            told = EPOCH + timedelta(seconds=0.08 * one["time"] - one["lp"])
            self.assertLess(timedelta(), told - datetime.fromisoformat(one["time_utc"]))
            self.assertLess(told - datetime.fromisoformat(one["time_utc"]), timedelta(seconds=0.5))
        self.assert_nothing_is_left()

    def test_workers(self) -> None:
        """Two processes give the same events, to a script that isn't made for processes too, and end when closed."""
        needs("distributed")
        script = self.folder / "script.py"
        with cdma.programs.script_of_model() as program:
            script.write_text(
                f"import cdma\ncdma.use_program({program!r})\n"
                f"print(*cdma.listen({str(self.meta)!r}, workers=2, **{NEAR}), sep='\\n')\n"
            )
            ran = subprocess.run([PYTHON, "-B", script], env={**os.environ, "PYTHONPATH": ROOT}, capture_output=True)
        with cdma.listen(self.meta, **NEAR) as alone:
            wanted = [str(event) for event in alone]
        self.assertEqual((ran.stdout.decode().splitlines(), ran.stderr), (wanted, b""))
        closed = cdma.listen(self.meta, workers=2, **NEAR)
        threading.Timer(0.5, closed.close).start()
        self.assertLessEqual(len(list(closed)), 4)
        closed.close()  # waits until the other thread has closed it
        self.assert_nothing_is_left()

    def test_streams(self) -> None:
        """An open file and a callable give the same events, and limits count."""
        sources: list[tuple[cdma.ListenSource, str | None]] = [(io.BytesIO(self.data), "cu8"), (self.blocks(), None)]
        for source, kind in sources:
            with cdma.listen(source, type=kind, rate=RATE, messages=1, **NEAR) as listening:
                found = list(listening)
            self.assertEqual([event.kind for event in found], ["pilot", "sync"])
            self.assertEqual(list(listening), [])
        self.assert_nothing_is_left()

    def test_closed_from_another_thread(self) -> None:
        """While a source waits for samples, when it has given all that it had."""
        given, waiting = threading.Event(), threading.Event()
        self.addCleanup(waiting.set)
        blocks = self.blocks()

        def source() -> NDArray[numpy.complex64] | None:
            block = blocks()
            if block is None:
                given.set()
                waiting.wait()
            return block

        listening = cdma.listen(source, rate=RATE, **NEAR)

        def close() -> None:
            given.wait(SECONDS)
            listening.close()

        threading.Thread(target=close).start()
        self.assertEqual([event for event in listening if not isinstance(event, cdma.Pilot)], [])
        self.assertTrue(given.is_set())
        waiting.set()
        self.assert_nothing_is_left()

    def test_dropped(self) -> None:
        listening = cdma.listen(self.blocks(), rate=RATE, **NEAR)
        del listening
        gc.collect()
        self.assert_nothing_is_left()

    def test_a_server_that_goes_on(self) -> None:
        """`finish` decodes what an rtl_tcp server has sent so far."""
        sent = threading.Event()
        with self.server(sent) as port:
            listening = cdma.listen(f"rtl_tcp://127.0.0.1:{port}", rate=RATE, frequency=878_490_000, **NEAR)
            with listening:
                self.assertTrue(sent.wait(SECONDS))
                time.sleep(0.5)  # until the samples have been taken from the socket
                listening.finish()
                self.assertEqual([event.kind for event in listening], ["pilot", "sync", "sync", "sync"])
        self.assert_nothing_is_left()

    @contextlib.contextmanager
    def server(self, sent: threading.Event) -> Iterator[int]:
        """Yields the port of a server with rtl_tcp's protocol, which sends the samples and then nothing."""
        with socket.create_server(("127.0.0.1", 0)) as listener:
            done = threading.Event()

            def serve() -> None:
                with listener.accept()[0] as connection:
                    connection.sendall(struct.pack(">4sII", b"RTL0", 5, 29) + self.data)
                    sent.set()
                    done.wait(SECONDS)

            thread = threading.Thread(target=serve, daemon=True)
            thread.start()
            yield int(listener.getsockname()[1])
            done.set()
            thread.join()

    def test_faults(self) -> None:
        def fails() -> NDArray[numpy.complex64]:
            raise ZeroDivisionError("the source's own")

        with self.assertRaisesRegex(ZeroDivisionError, "the source's own"):
            list(cdma.listen(fails, rate=RATE, **NEAR))
        with self.assertRaisesRegex(cdma.ParameterError, "source: blocks are rows of complex numbers"):
            list(cdma.listen(lambda: numpy.zeros(9), rate=RATE, **NEAR))
        with self.assertRaisesRegex(cdma.Error, "no pilot stands out anywhere"):
            list(cdma.listen(io.BytesIO(bytes(1_000)), type="cu8", rate=RATE, **NEAR))
        with self.assertRaisesRegex(cdma.Error, "Connection refused"):
            list(cdma.listen("tcp://127.0.0.1:1", type="cu8", rate=RATE))
        with self.assertRaisesRegex(cdma.Error, "No such file"):
            cdma.listen(self.folder / "none.sigmf-meta")
        self.assert_nothing_is_left()

    def test_wrong_parameters(self) -> None:
        for name, call in {
            "rate": lambda: cdma.listen(self.meta, rate=-1),
            "type": lambda: cdma.listen(self.blocks(), rate=RATE, type="cu8"),
            "row": lambda: cdma.listen(self.meta, esn=1, row=32),
            "esn": lambda: cdma.listen(self.meta, esn="xyz", row=3),
            "paging": lambda: cdma.listen(self.meta, paging="all"),  # type: ignore[arg-type]
            "gain": lambda: cdma.listen(self.meta, gain=3),
            "workers": lambda: cdma.listen(self.meta, workers=65),
            "channel": lambda: cdma.listen("rtl_tcp://127.0.0.1:1", rate=RATE, channel=1_199),
            "band": lambda: cdma.listen("rtl_tcp://127.0.0.1:1", rate=RATE, band=800),
            "source": lambda: cdma.listen("-", type="cu8", rate=RATE),
        }.items():
            with self.subTest(name), self.assertRaises(cdma.ParameterError) as caught:
                call()
            self.assertEqual(caught.exception.parameter, name)


if __name__ == "__main__":
    unittest.main()
