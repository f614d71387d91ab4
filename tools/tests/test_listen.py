"""Tests of tools/listen: recordings of any length, streams and servers, against what a cell's script requires.

The recording lasts 20 seconds; CDMA_LISTEN_SECONDS sets a longer one, such as 90 or 600.
"""

import importlib.util
import json
import math
import os
import random
import re
import signal
import socket
import subprocess
import tempfile
import threading
import time
import unittest
import unittest.mock
import warnings
from collections import Counter
from typing import Any, ClassVar

import numpy

from tools.tests.cluster_helping import started_scheduler, started_worker
from tools.tests.helping import NO_PROGRAM, PROGRAM, PYTHON, ROOT, made_once, needs, temporary_folder
from tools.tests.radio_helping import run_main
from tools.tests.listening_cell import (
    CHIP_RATE, FRAME, HANDSET, PIECE, Compared, Sent, compared, made_cell, script_of, write_cell,
)  # fmt: skip

needs("numpy", "scipy")

from cdma_tools.cluster import connected
from cdma_tools.listening.events import Collected, Event
from cdma_tools.listening.follow_run import Handset
from cdma_tools.listening.line_writer import Already, LineWriter
from cdma_tools.listening.listening import Anchor, Listening
from cdma_tools.listening.parts import Joiner, Part, PartHeard, Recording, part_at, parts_of
from cdma_tools.listening.pieces import Unheard
from cdma_tools.listening.sharing import Channel, joined_channels
from cdma_tools.sources.backlog import Backlog, Skipped
from cdma_tools.sources.rtl_tcp import Server as RadioServer
from cdma_tools.sources.rtl_tcp import ServerReader
from cdma_tools.listening.stream_lock import LockOptions

SECONDS = float(os.environ.get("CDMA_LISTEN_SECONDS", "20"))
RATE = 1_500_000
# Seconds at which samples are lost, and how many, fewer than a period of the code has; and a fade of the pilot.
LOSSES = {5.0: 4_000, 14.0: 30_000}
FADE = (9.7, 10.3)
# Seconds that a stream of another type than the recording's lasts: half of it, and no more than fits well in memory.
OTHER_SECONDS = min(SECONDS / 2, 60.0)
TOOL = [PYTHON, "-B", os.path.join(ROOT, "tools", "listen")]
STREAM = ["--type", "cu8", "--rate", str(RATE)]
PARTS = ["--part", str(max(10.0, SECONDS / 6))]
ENVIRONMENT = dict(os.environ, OMP_NUM_THREADS="1", OPENBLAS_NUM_THREADS="1")


def listen(*words: Any, data: bytes | None = None) -> tuple[int, bytes, str]:
    """Runs the tool; returns its status, its output and its standard error."""
    ran = subprocess.run(
        [*TOOL, *map(str, words)], input=data, stdin=None if data is not None else subprocess.DEVNULL,
        capture_output=True, env=ENVIRONMENT, timeout=3_000,
    )  # fmt: skip
    return ran.returncode, ran.stdout, ran.stderr.decode()


def hear_interrupts() -> None:
    """Makes a process receive Ctrl-C, even if the tests run in the background of a shell, which ignores it."""
    signal.signal(signal.SIGINT, signal.SIG_DFL)


def made_recording(place: str) -> None:
    """Writes a recording of the cell, with a drifting carrier, a changing clock, losses and a fade."""
    words = [*STREAM, "--carrier", "3000", "--drift", "20", "--clock", "4"]
    words += ["--clock-drift", "0.01", "--delay", "0.3", "--ec-io", "-8"]
    with tempfile.TemporaryDirectory() as folder:
        cell = write_cell(os.path.join(folder, "cell.is95"), made_cell(PROGRAM or "", SECONDS))
        path = os.path.join(folder, "radio.cu8")
        channel = [PYTHON, "-B", os.path.join(ROOT, "tools", "channel"), *words, cell, path]
        subprocess.run(channel, check=True, capture_output=True, env=ENVIRONMENT)
        samples = numpy.fromfile(path, dtype=numpy.uint8).reshape(-1, 2)
    low, high = (int(RATE * second) for second in FADE)
    samples[low:high] = numpy.random.default_rng(1).normal(127.5, 40, (high - low, 2)).clip(0, 255)
    keep = numpy.ones(len(samples), dtype=bool)
    for second, count in LOSSES.items():
        keep[int(RATE * second) : int(RATE * second) + count] = False
    samples[keep].tofile(place)


def recording() -> str:
    """Returns the path of the recording."""
    return made_once(f"lossy_{SECONDS}.cu8", made_recording)


def made_lines(place: str) -> None:
    """Writes what is decoded from the recording in parts: lines, the same as JSON, and the remarks on each of them."""
    path, told = recording(), dict[str, str]()
    ways: dict[str, list[str]] = {"lines": [], "objects": ["--json"]}
    for name, more in ways.items():
        status, wrote, told[f"said of {name}"] = listen(*STREAM, path, *HANDSET, *PARTS, *more)
        assert status == 0, told
        told[name] = wrote.decode()
    with open(place, "w", encoding="utf-8") as file:
        json.dump(told, file)


class OneRecording(unittest.TestCase):
    """The recording, and what is decoded from it."""

    folder: ClassVar[str]
    path: ClassVar[str]  # of the recording
    data: ClassVar[bytes]
    sent: ClassVar[Sent]
    lines: ClassVar[bytes]  # of the recording in parts
    objects: ClassVar[bytes]  # the same as JSON
    said: ClassVar[str]
    short: ClassVar[str]  # its first seconds

    @classmethod
    def setUpClass(cls) -> None:
        cls.folder = temporary_folder(cls.addClassCleanup)
        cls.sent = Sent(script_of(1, 1, 0, PIECE))
        cls.path = recording()
        with open(cls.path, "rb") as file:
            cls.data = file.read()
        with open(made_once(f"heard_{SECONDS}.json", made_lines), encoding="utf-8") as text:
            told = json.load(text)
        cls.lines, cls.objects, cls.said = told["lines"].encode(), told["objects"].encode(), told["said of lines"]
        assert told["said of objects"] == cls.said, told["said of objects"]
        cls.short = os.path.join(cls.folder, "short.cu8")
        with open(cls.short, "wb") as file:
            file.write(cls.data[: 2 * 4 * RATE])

    def at(self, name: str) -> str:
        return os.path.join(self.folder, name)

    def check_truth(self, lines: bytes, seconds: float = SECONDS) -> Compared:
        """Checks that the lines of `seconds` seconds are those that the script requires, but for losses and the fade.
        """
        result = compared(self.sent, lines.decode().splitlines(), int(SECONDS * CHIP_RATE))
        self.assertTrue(result.is_sorted)
        self.assertLess(abs(result.shift), 3)
        spoilt = [(second, second + count / RATE) for second, count in LOSSES.items()] + [FADE]
        spans = {line.at: line.begin for line in self.sent.lines(int(SECONDS * CHIP_RATE))}
        for place, text in result.missing:
            begin, end = spans[place] / CHIP_RATE, (place + 2 * FRAME) / CHIP_RATE
            self.assertTrue(any(begin < high + 0.1 and low - 0.1 < end for low, high in spoilt), (place, text[:80]))
        # In the chips replaced by zeros the handset decodes frames that weren't sent, each instead of one that was.
        for place, text in result.excess:
            self.assertTrue(text.startswith("frame") and place in {at for at, _ in result.missing}, (place, text[:80]))
        self.assertGreater(result.owed.total(), 50 * (seconds - 5))
        self.assertLess(result.missing.total(), 60)
        return result


@unittest.skipUnless(PROGRAM, NO_PROGRAM)
class ListenTest(OneRecording):
    """One recording, decoded once for all tests that can share the result."""

    seconds = 60

    def test_a_file_in_parts(self) -> None:
        self.check_truth(self.lines)
        self.assertEqual(self.said.count("samples were lost"), len(LOSSES))

    def test_any_number_of_workers_writes_the_same(self) -> None:
        for workers in (2, 4):
            status, lines, said = listen(*STREAM, self.path, *HANDSET, *PARTS, "--workers", workers)
            self.assertEqual((status, said), (0, self.said))
            self.assertTrue(lines == self.lines, workers)

    @unittest.skipUnless(importlib.util.find_spec("distributed"), "no distributed: install python3-distributed")
    def test_workers_of_a_scheduler_write_the_same(self) -> None:
        """A scheduler and two workers, each a separate process."""
        _, address = started_scheduler(self.folder, self.addCleanup)
        for _ in range(2):
            started_worker(address, self.folder, self.addCleanup)
        with warnings.catch_warnings():
            warnings.simplefilter("ignore")  # of what dask itself uses
            with connected(address, 0) as client:
                client.wait_for_workers(2, timeout=60)
        status, lines, said = listen(*STREAM, self.path, *HANDSET, *PARTS, "--scheduler", address)
        self.assertEqual((status, said), (0, self.said))
        self.assertTrue(lines == self.lines)

    def test_objects_have_their_time(self) -> None:
        reads = [json.loads(line) for line in self.objects.splitlines()]
        self.assertEqual(len(reads), len(self.lines.splitlines()))
        start = int(self.sent.cell["time"]) * 0.08 - int(self.sent.sync["lp"])
        shift = self.check_truth(self.lines).shift
        for read in reads[1::17]:
            wanted = start + (read["at"] + shift) / CHIP_RATE
            seconds = numpy.datetime64(read["time_utc"].removesuffix("Z"), "us") - numpy.datetime64("1980-01-06", "us")
            # A line whose sync message came before a loss has the time by that message: the cell's chips were taken
            # out.
            self.assertLess(abs(seconds / numpy.timedelta64(1, "s") - wanted), 0.03)
        self.assertEqual(sorted(read["time_utc"] for read in reads[1:]), [read["time_utc"] for read in reads[1:]])

    def test_objects_go_back_to_lines(self) -> None:
        command = [PYTHON, "-B", os.path.join(ROOT, "tools", "lines"), "--back"]
        ran = subprocess.run(command, input=self.objects, capture_output=True)
        self.assertEqual((ran.returncode, ran.stdout == self.lines), (0, True), ran.stderr)


@unittest.skipUnless(PROGRAM, NO_PROGRAM)
class ListenAgainTest(OneRecording):
    """The same recording in other ways, each decoded for itself, after what they share has been made."""

    parted, seconds = True, 12

    def test_streams_of_three_types(self) -> None:
        parts = numpy.frombuffer(self.data, dtype=numpy.uint8)[: 2 * int(OTHER_SECONDS * RATE)]
        for kind, data, seconds in (
            ("cu8", self.data, SECONDS),
            ("ci16_le", ((parts.astype("<i2") * 2 - 255) * 100).astype("<i2").tobytes(), OTHER_SECONDS),
            ("cf32_le", ((parts.astype("<f4") - 127.5) / 128).tobytes(), OTHER_SECONDS),
        ):
            status, lines, said = listen("--type", kind, "--rate", RATE, "-", *HANDSET, data=data)
            self.assertEqual(status, 0, said)
            self.check_truth(lines, seconds)

    def test_a_recording_that_tells_its_type(self) -> None:
        meta = {"core:datatype": "cu8", "core:sample_rate": RATE, "core:version": "1.0.0", "core:dataset": "short.cu8"}
        with open(self.at("short.sigmf-meta"), "w", encoding="utf-8") as file:
            json.dump({"global": meta, "captures": [{"core:sample_start": 0}], "annotations": []}, file)
        wanted = listen(*STREAM, self.short, *HANDSET)
        self.assertEqual(listen(self.at("short.sigmf-meta"), *HANDSET), wanted)
        self.assertEqual((wanted[0], wanted[2]), (0, ""))
        self.assertGreater(len(wanted[1].splitlines()), 100)

    @unittest.skipUnless(importlib.util.find_spec("plotly"), "no plotly: install the package python3-plotly")
    def test_a_report_of_a_recording_that_no_sample_file_holds(self) -> None:
        page = self.at("page.html")
        with unittest.mock.patch("cdma_tools.commands.report.MOST_SECONDS", 3.5):
            status, _, said = run_main("report", *STREAM, self.short, *HANDSET, "--out", page)
        self.assertEqual((status, said), (0, ""))
        with open(page, encoding="utf-8") as file:
            text = file.read()
        _, lines, _ = listen(*STREAM, self.short, *HANDSET)
        self.assertTrue(all(line in text for line in lines.decode().splitlines()))

    def test_counts_are_over_the_whole(self) -> None:
        words = ["--frames", 90, "--messages", 5, "--pilots", 0, "--raw", 3]
        status, lines, _ = listen(*STREAM, self.short, *HANDSET, *words)
        kinds = Counter(line.split(b" ")[0] for line in lines.splitlines())
        counts = (kinds[b"frame"], kinds[b"pilot"], kinds[b"raw"], kinds.total())
        self.assertEqual((status, counts), (0, (90, 0, 3, 98)))

    def test_a_listening_that_was_broken_off_goes_on(self) -> None:
        out, lines = self.at("out.txt"), self.lines.splitlines(keepends=True)
        for count, more in ((0, b"pil"), (300, b"frame at=12"), (700, b""), (len(lines), b"")):
            with open(out, "wb") as file:
                file.write(b"".join(lines[:count]) + more)
            status, wrote, said = listen(*STREAM, self.path, *HANDSET, *PARTS, "--out", out)
            self.assertEqual((status, wrote), (0, b""), said)
            with open(out, "rb") as file:
                self.assertTrue(file.read() == self.lines, count)

    def test_objects_go_on_too(self) -> None:
        out = self.at("out.jsonl")
        whole = self.objects.splitlines(keepends=True)
        with open(out, "wb") as file:
            file.write(b"".join(whole[: len(whole) - 100]))
        status, _, said = listen(*STREAM, self.path, *HANDSET, *PARTS, "--out", out)
        self.assertEqual(status, 0, said)
        with open(out, "rb") as file:
            self.assertTrue(file.read() == self.objects)

    def test_ctrl_c(self) -> None:
        run = subprocess.Popen(
            [*TOOL, *STREAM, *HANDSET, "-"], stdin=subprocess.PIPE, stdout=subprocess.PIPE, stderr=subprocess.PIPE,
            env=ENVIRONMENT, preexec_fn=hear_interrupts,
        )  # fmt: skip
        assert run.stdin is not None and run.stdout is not None
        run.stdin.write(self.data[: 2 * 5 * RATE])
        run.stdin.flush()
        self.assertTrue(run.stdout.readline().startswith(b"pilot "))
        run.send_signal(signal.SIGINT)
        _, said = run.communicate(timeout=60)
        self.assertEqual(run.returncode, 0)
        self.assertRegex(said.decode(), r"^listen: stopped after 5\.0 s: \d+ lines were written, 0 samples were lost\n$")

    def test_a_closed_output(self) -> None:
        command = [*TOOL, *STREAM, self.short]
        run = subprocess.Popen(command, stdout=subprocess.PIPE, stderr=subprocess.PIPE, env=ENVIRONMENT)
        assert run.stdout is not None and run.stderr is not None
        run.stdout.close()
        said = run.stderr.read().decode()
        run.stderr.close()
        self.assertEqual(run.wait(), 1)
        self.assertNotIn("Traceback", said)
        self.assertEqual(said, "")

    def test_a_full_disk_keeps_whole_lines(self) -> None:
        out = self.at("short.txt")
        limit = 30_000
        words = " ".join([*TOOL, *STREAM, self.path, *HANDSET, *PARTS, "--out", out])
        # A file that may not grow further, as a full disk is.
        shell = f"trap '' XFSZ; ulimit -f {limit // 1024}; exec {words}"
        ran = subprocess.run(["bash", "-c", shell], capture_output=True, env=ENVIRONMENT)
        self.assertEqual(ran.returncode, 1)
        self.assertIn("all lines before are in the file", ran.stderr.decode())
        with open(out, "rb") as file:
            text = file.read()
        self.assertTrue(self.lines.startswith(text) and text.endswith(b"\n") and len(text) > 20_000)


class Server:
    """A server of samples on this machine, with the protocol of rtl_tcp."""

    def __init__(self, pieces: list[bytes], head: bytes = b"RTL0" + bytes(8)) -> None:
        """Takes the pieces: each connection gets the next one, and is then closed."""
        self.pieces, self.head, self.commands = pieces, head, list[bytes]()
        self.socket = socket.create_server(("127.0.0.1", 0))
        self.address = f"rtl_tcp://127.0.0.1:{self.socket.getsockname()[1]}"
        self.thread = threading.Thread(target=self.run, daemon=True)
        self.thread.start()

    def run(self) -> None:
        """Serves one connection after the other."""
        for piece in self.pieces:
            connection, _ = self.socket.accept()
            with connection:
                connection.sendall(self.head)
                if len(self.head) == 12:
                    self.commands.append(connection.recv(10, socket.MSG_WAITALL))
                connection.sendall(piece)
        self.socket.close()


@unittest.skipUnless(PROGRAM, NO_PROGRAM)
class PipeTest(unittest.TestCase):
    """Samples that arrive through a pipe in real time."""

    alone = True  # it keeps time

    def test_a_pipe_in_real_time(self) -> None:
        """Of ten seconds that arrive in real time, half of the lines are written within half a second."""
        with open(recording(), "rb") as file:
            data = file.read(2 * 9 * RATE)
        command = [*TOOL, *STREAM, *HANDSET, "-"]
        run = subprocess.Popen(command, stdin=subprocess.PIPE, stdout=subprocess.PIPE, env=ENVIRONMENT)
        assert run.stdin is not None and run.stdout is not None
        came: list[tuple[float, bytes]] = []
        reader = threading.Thread(target=lambda: came.extend((time.monotonic(), line) for line in run.stdout or ()))
        reader.start()
        time.sleep(2)
        begin = time.monotonic()
        size = 2 * RATE // 50
        for number in range(450):
            time.sleep(max(0.0, begin + (number + 1) / 50 - time.monotonic()))
            run.stdin.write(data[size * number : size * (number + 1)])
            run.stdin.flush()
        closed = time.monotonic()
        run.stdin.close()
        self.assertEqual(run.wait(), 0)
        reader.join()
        run.stdout.close()
        late = [
            when - begin - int(found[1]) / CHIP_RATE
            for when, line in came
            if when < closed and (found := re.search(rb" at=(\d+)", line)) and int(found[1]) > 5 * CHIP_RATE
        ]
        self.assertGreater(len(late), 150)
        self.assertLess(float(numpy.median(late)), 0.5)


@unittest.skipUnless(PROGRAM, NO_PROGRAM)
class ServerTest(unittest.TestCase):
    """Samples of a server, which arrive in real time."""

    alone = True  # it keeps time

    def test_a_server_that_goes_away_and_comes_back(self) -> None:
        folder = temporary_folder(self.addCleanup)
        parts = made_cell(PROGRAM or "", 7)
        cell = write_cell(os.path.join(folder, "cell.is95"), parts)
        path = os.path.join(folder, "radio.cu8")
        channel = [PYTHON, "-B", os.path.join(ROOT, "tools", "channel"), *STREAM, "--ec-io", "-8"]
        subprocess.run([*channel, cell, path], check=True, capture_output=True, env=ENVIRONMENT)
        with open(path, "rb") as file:
            data = file.read()
        server = Server([data, data[: len(data) - 1], b""])
        out = os.path.join(folder, "out.txt")
        command = [*TOOL, "--rate", str(RATE), "--frequency", "878490000", server.address, "--out", out]
        run = subprocess.Popen(
            command, stdin=subprocess.DEVNULL, stderr=subprocess.PIPE, text=True, env=ENVIRONMENT,
            preexec_fn=hear_interrupts,
        )  # fmt: skip
        assert run.stderr is not None
        said = []
        for line in run.stderr:
            said.append(line)
            if sum("the connection to" in line for line in said) == 3:
                break
        run.send_signal(signal.SIGINT)
        run.communicate(timeout=60)
        self.assertEqual(run.returncode, 0)
        rate, frequency = RATE.to_bytes(4, "big"), (878_490_000).to_bytes(4, "big")
        self.assertEqual(server.commands, 3 * [b"\x02" + rate + b"\x01" + frequency])
        away = [line for line in said if "samples are missing" in line]
        self.assertEqual(len(away), 2, said)
        with open(out, encoding="ascii") as file:
            lines = file.read().splitlines()
        begins = [number for number, line in enumerate(lines) if line.startswith("pilot ")]
        self.assertEqual(len(begins), 2)
        sent = Sent(script_of(1, 1, 0, PIECE))
        for group in (lines[: begins[1]], lines[begins[1] :]):
            group = [line for line in group if not line.startswith("frame")]
            self.assertGreater(len(group), 30)
            result = compared(sent, group, 7 * CHIP_RATE)
            missing = [text for _, text in result.missing if not text.startswith(("frame", "traffic"))]
            self.assertEqual((missing, result.excess), ([], {}))


@unittest.skipUnless(PROGRAM, NO_PROGRAM)
class NoServerTest(unittest.TestCase):
    """What isn't a server of samples."""

    def test_what_is_no_server(self) -> None:
        wrong = Server([b""], head=b"HTTP/1.1 400")
        short = Server([b""], head=b"RTL0")
        with socket.create_server(("127.0.0.1", 0)) as free:
            port = free.getsockname()[1]
        for address, why in (
            (wrong.address, "this is not an rtl_tcp server"),
            (short.address, "the server closed the connection before its header"),
            (f"rtl_tcp://127.0.0.1:{port}", "Connection refused"),
            ("rtl_tcp://127.0.0.1:99999", "Port out of range"),
            ("rtl_tcp://", "not an address of the form rtl_tcp://HOST:PORT"),
        ):
            status, wrote, said = listen("--rate", RATE, address)
            self.assertEqual((status, wrote, len(said.splitlines())), (1, b"", 1), said)
            self.assertIn(why, said)


@unittest.skipUnless(PROGRAM, NO_PROGRAM)
class RefusedTest(unittest.TestCase):
    """What cannot be listened to, each refused in a line."""

    def test_arguments(self) -> None:
        wrong: tuple[tuple[list[object], str], ...] = (
            ([], "arguments are required: SOURCE"),
            (["-"], ", unless the recording is"),
            (["--type", "cu8", "-"], ", unless the recording is"),
            (["--type", "cu8", "--rate", "1228799", "-"], "not 1,228,800 to 100,000,000"),
            (["--type", "cu8", "--rate", "2e9", "-"], "not 1,228,800 to 100,000,000"),
            (["--type", "cu9", "--rate", "2400000", "-"], "invalid choice"),
            (["--type", "cu8", "x.sigmf-meta"], "which has its own"),
            (["--type", "ci8", "--rate", "2400000", "rtl_tcp://here"], "the samples of rtl_tcp are cu8"),
            (["--rate", "2400000.5", "rtl_tcp://here"], "as a whole number"),
            ([*STREAM, "-", "--esn", "8badf00d"], "need each other"),
            ([*STREAM, "-", "--esn", "8BADF00D", "--row", "3"], "not eight lower-case hex digits"),
            ([*STREAM, "-", "--esn", "8badf00d", "--row", "32"], "is the row of the sync channel"),
            ([*STREAM, "-", "--offset", "3"], "--offset needs"),
            ([*STREAM, "-", "--row", "64", "--esn", "8badf00d"], "not 1 to 63"),
            ([*STREAM, "-", "--part", "9"], "not 10 to 1,000,000"),
            ([*STREAM, "-", "--workers", "0"], "not 1 to 64"),
            ([*STREAM, "-", "--frequency", "5"], "goes with a radio"),
            ([*STREAM, "-", "--out", "/"], "is a folder"),
        )
        for words, why in wrong:
            status, wrote, said = run_main("listen", *words)
            self.assertEqual((status, wrote), (2, ""), said)
            self.assertIn(why, said.splitlines()[-1])

    def test_sources_and_outputs(self) -> None:
        folder = temporary_folder(self.addCleanup)
        odd, lines = os.path.join(folder, "odd.cu8"), os.path.join(folder, "lines.txt")
        with open(odd, "wb") as file:
            file.write(bytes(1_001))
        with open(lines, "wb") as file:
            file.write(b"frame at=5 rate=1200 good=1 bits=0: commands=0000000000000011\nno line\n")
        for words, why in (
            ([os.path.join(folder, "none.cu8")], "No such file"),
            ([odd], "not a whole number of samples"),
            ([odd, "--program", "/nowhere"], "whole number|/nowhere"),
            (["-", "--out", os.path.join(folder, "no", "file")], "No such file"),
            (["-", "--out", lines], "line 2 is not one that listen writes as text"),
        ):
            status, wrote, said = listen(*STREAM, *words, data=b"")
            self.assertEqual((status, wrote, len(said.splitlines())), (1, b"", 1), said)
            self.assertRegex(said, why)

    def test_bytes_that_are_no_samples(self) -> None:
        for data in (b"", b"x", b"Not a sample. " * 300_000):
            status, wrote, said = listen(*STREAM, "-", data=data)
            self.assertEqual((status, wrote), (1, b""))
            self.assertRegex(said.splitlines()[-1], "^listen: no pilot stands out anywhere within 88,000 Hz of ")


class FakeWorkers:
    """Parts of 20 seconds of a recording in which a direction moves the traffic channel to row 12, without samples.

    Each part numbers its chips by itself, and has a clock 5 millionths fast.
    """

    def __init__(self, parts: list[Part], direction: float) -> None:
        """Takes the second of the direction, which every part receives that begins on another row."""
        self.parts, self.direction, self.is_heard = parts, direction, True
        self.asked: list[tuple[int, int | None]] = []

    def chip(self, number: int, second: float) -> int:
        """Returns the number that a part gives to the chip at a second."""
        return round(second * CHIP_RATE * (1 - 5e-6)) - 32_768 * 37 * number + 5

    def heard_by(self, number: int, handsets: tuple[Handset, ...]) -> list[PartHeard]:
        """Returns what each handset receives."""
        return [self.heard(number, handset.row) for handset in handsets]

    def heard(self, number: int, row: int | None) -> PartHeard:
        """Returns sync messages and frames; the bits of each frame give the row and the second."""
        self.asked.append((number, row))
        part, events, now = self.parts[number], list[Event](), row
        tenth = math.ceil(10 * part.heard_from)
        while tenth < 10 * part.locked_to:
            second, chip = tenth / 10, self.chip(number, tenth / 10)
            if tenth % 10 == 0:
                told = f"prev=3 min=1 sid=1 nid=2 pn=300 lc=102a1d2e508 time={tenth} lp=13 ltm=0 daylt=0 prat=0 rest=0:"
                events.append(Event(chip, f"sync at={chip} {told}"))
            if abs(second - self.direction) < 0.01 and now != 12 and self.is_heard:
                now = 12
                events.append(Event(chip, f"sets at={chip} time=5 active=300/12/0 candidate= report=0"))
            events.append(Event(chip + 999, f"frame at={chip} row={now}"))
            tenth += 1
        anchors = [Anchor(at * CHIP_RATE, self.chip(number, at)) for at in (part.locked_from + 1, part.locked_to - 1)]
        return PartHeard(events, [], anchors, self.chip(number, 0), row, True)


class RuleTest(unittest.TestCase):
    """Parts, and what a file contains already."""

    def test_parts_go_on_on_the_row_of_the_part_before(self) -> None:
        options = LockOptions("cu8", float(RATE))
        parts = parts_of(Recording("-", 80 * RATE, options), 20.0, 20.0)
        for direction, asked in (
            (5.0, [(0, 10), (1, 12), (2, 12), (3, 12)]),  # before the second part begins to receive
            (15.0, [(0, 10), (1, 10), (2, 12), (3, 12)]),  # when it receives already: it obeys the direction itself
            (25.0, [(0, 10), (1, 10), (2, 12), (3, 12)]),
            (30.0, [(0, 10), (1, 10), (2, 10), (3, 12)]),
            (55.0, [(0, 10), (1, 10), (2, 10), (3, 10)]),
        ):
            workers = FakeWorkers(parts, direction)
            events = self.joined(workers)
            self.assertEqual(workers.asked, asked, direction)
            rows = [(event.chip, event.line.split("row=")[1]) for event in events if event.kind == "frame"]
            self.assertEqual(len(rows), 800)
            # Each tenth of a second once, on the right row.
            for number, (at, row) in enumerate(rows):
                self.assertEqual(at, workers.chip(0, number / 10) - workers.chip(0, 0) + 999)
                self.assertEqual(row, "12" if number / 10 >= direction - 0.01 else "10")

    def test_a_part_is_listened_to_again_where_it_missed_a_direction(self) -> None:
        options = LockOptions("cu8", float(RATE))
        parts = parts_of(Recording("-", 60 * RATE, options), 20.0, 20.0)
        workers = FakeWorkers(parts, 15.0)
        plain = workers.heard

        def missing(number: int, row: int | None) -> PartHeard:
            """Returns what is decoded if the second part does not receive the direction."""
            workers.is_heard = number != 1
            return plain(number, row)

        with unittest.mock.patch.object(workers, "heard", missing):
            events = self.joined(workers)
        self.assertEqual(workers.asked, [(0, 10), (1, 10), (1, 12), (2, 12)])
        rows = [event.line.split("row=")[1] for event in events if event.kind == "frame"]
        self.assertEqual(rows, ["10"] * 150 + ["12"] * 450)

    def joined(self, workers: FakeWorkers) -> list[Event]:
        """Returns the lines of all parts, with numbers from the recording's start."""
        events = []
        channels = [Channel(Handset("-", esn="00c0ffee", row=10), LineWriter(lambda data: None, False, {}))]
        for (joined,) in joined_channels(workers, workers.parts, channels, [Joiner(10)], 0):
            events += [Event(event.chip - joined.origin, event.line) for event in joined.events]
        self.assertEqual([event.chip for event in events], sorted(event.chip for event in events))
        return events

    def test_parts_share_the_seconds(self) -> None:
        options = LockOptions("cu8", float(RATE))
        for seconds, length in ((5.0, 600.0), (600.0, 600.0), (1_900.0, 600.0), (95.0, 30.0)):
            parts = parts_of(Recording("-", int(seconds * RATE), options), length)
            self.assertEqual((parts[0].begin, parts[-1].end), (0.0, seconds))
            self.assertEqual([part.begin for part in parts[1:]], [part.end for part in parts[:-1]])
            self.assertEqual([part.number for part in parts], list(range(len(parts))))
            for part in parts:
                self.assertTrue(length <= part.end - part.begin < 2 * length or len(parts) == 1)
                self.assertTrue(part.locked_from <= part.heard_from <= max(0.0, part.begin - 10))
                self.assertTrue(part.number == 0 or part.locked_from <= max(0.0, part.begin - 60))
                self.assertEqual(part_at(parts, int(CHIP_RATE * (part.begin + 2 + part.begin * 2e-4))), part.number)

    def test_lines_that_stand_are_not_written_again(self) -> None:
        frame = "frame at={} rate=1200 good=1 bits=16:bfc1 commands=0000000000000000"
        lines = [Event(0, "pilot phase=5 energy=6"), *(Event(at, frame.format(at)) for at in (10, 20, 20, 30))]
        for count in range(len(lines) + 1):
            wrote, again = list[bytes](), list[bytes]()
            already = Already()
            for event in lines[:count]:
                already.counts["pilots" if event.kind == "pilot" else "frames"] += 1
                if event.kind == "frame":
                    if event.chip != already.at:
                        already.same.clear()
                    already.at = event.chip
                    already.same["frames"] += 1
                else:
                    already.unplaced += 1
            for sink, stands in ((wrote, None), (again, already)):
                writer = LineWriter(sink.append, False, {"frames": 3}, stands)
                for event in lines:
                    writer.event(event)
            self.assertEqual(again, wrote[count:], count)
            self.assertEqual(len(wrote), 4)


class SilenceTest(unittest.TestCase):
    """The remarks on a stream in which no pilot stands out."""

    def test_a_line_a_minute(self) -> None:
        heard = Collected()
        listening = Listening(LockOptions("cu8", float(RATE)), Handset("/no/program"), heard)
        for number in range(84):
            listening.take(Unheard(2.4 * number, 2.4 * (number + 1)))
        seconds = [remark.seconds for remark in heard.remarks]
        self.assertEqual(len(seconds), 4)
        self.assertTrue(all(60 <= after - before < 63 for before, after in zip(seconds, seconds[1:])), seconds)
        self.assertIn("is searched, and the other half skipped", heard.remarks[0].text)
        self.assertRegex(heard.remarks[-1].text, r"^no pilot has stood out for 1\d\d s$")


class BacklogTest(unittest.TestCase):
    """What waits for the lock."""

    def test_what_finds_no_room_is_counted(self) -> None:
        """Samples contain their own numbers: those that arrive and those reported missing are all of them."""
        backlog, draws = Backlog(1 << 14), random.Random(1)
        server = Server([b""])
        reader = ServerReader(RadioServer("127.0.0.1", int(server.address.rpartition(":")[2]), RATE, 2), backlog)
        self.addCleanup(reader.connection.close)
        data = (numpy.arange(400_000) % 65_536).astype("<u2").tobytes()
        came = lost = begin = 0
        while begin < len(data):
            size = draws.randrange(1, 9_000)
            reader.take(data[begin : begin + size])
            begin += size
            while backlog.items and draws.random() < 0.3:
                came, lost = self.taken(backlog, came, lost)
        reader.tell_lost()
        while backlog.items:
            came, lost = self.taken(backlog, came, lost)
        self.assertEqual(came + lost, 2 * 400_000)
        self.assertTrue(came > 100_000 and lost > 100_000, (came, lost))

    def taken(self, backlog: Backlog, came: int, lost: int) -> tuple[int, int]:
        """Returns the bytes that have arrived and the missing ones, with the next item, whose place they give."""
        item = backlog.get()
        if isinstance(item, Skipped):
            return came, (came + lost) // 2 * 2 + 2 * item.samples - came  # half a sample is forgotten
        assert isinstance(item, bytes)
        numbers = (came + lost + numpy.arange(len(item))) // 2 % 65_536
        odd = (came + lost + numpy.arange(len(item))) % 2 == 1
        wanted = numpy.where(odd, numbers >> 8, numbers & 255)
        self.assertTrue(numpy.array_equal(numpy.frombuffer(item, dtype=numpy.uint8), wanted))
        return came + len(item), lost

    def test_it_is_bounded_in_bytes(self) -> None:
        backlog = Backlog(10)
        self.assertTrue(backlog.put(b"12345678", may_wait=False))
        self.assertFalse(backlog.put(b"123", may_wait=False))
        self.assertTrue(backlog.put(b"12", may_wait=False))
        backlog.put(None)
        self.assertEqual(list(backlog), [b"12345678", b"12"])


if __name__ == "__main__":
    unittest.main()
