"""`listen` as a service: it continues, ends in order, has its file moved away, and uses no more memory with time.

CDMA_LISTEN_KILLS sets how often it is killed while it listens to a recording (default 20).
"""

from __future__ import annotations

import configparser
import contextlib
import io
import json
import os
import random
import re
import shlex
import signal
import subprocess
import time
import tracemalloc
import unittest
import unittest.mock
from dataclasses import dataclass
from fractions import Fraction
from typing import Any

import numpy

from tools.tests import test_listen, test_listening_runs
from tools.tests.helping import EXAMPLES, NO_PROGRAM, PROGRAM, needs, run_inside, temporary_folder
from tools.tests.listening_cell import CHIP_RATE, HANDSET, PN, made_cell

needs("numpy", "scipy")

from cdma_tools.commands import listen as listen_command
from cdma_tools.errors import Refused
from cdma_tools.listening.events import Collected, Event
from cdma_tools.listening.follow_run import FollowRun, Handset, Sets
from cdma_tools.listening.line_writer import LineWriter
from cdma_tools.listening.listening import Listening
from cdma_tools.listening.live import hear_stream
from cdma_tools.listening.output import GrowingFile
from cdma_tools.listening.pieces import Chips
from cdma_tools.listening.relay import MOST_KILLED, Relay
from cdma_tools.listening.seams import LEAST_OVERLAP
from cdma_tools.listening.searching import SLICE_BINS, LiveSearch
from cdma_tools.listening.stream_lock import LockOptions, StreamLock
from cdma_tools.radio.acquisition import bins_within
from cdma_tools.radio.search_policy import MOST_SEARCH
from cdma_tools.sources.backlog import Backlog, Item, Skipped
from cdma_tools.sources.live import Stream, scheme_of

# The place of the recording's pilot: the first slice of a live search finds it, however busy the machine is.
NEAR = ["--shift", "3000", "--conjugate", "no"]
KILLS = int(os.environ.get("CDMA_LISTEN_KILLS", "20"))
HOURS, PIECE_SECONDS = 24, 4
PERIOD, RATE = 32_768, 1_228_800.0
SECONDS = 300.0  # that anything takes at most, on a machine that is busy with other things
STREAM, TOOL, ENVIRONMENT = test_listen.STREAM, test_listen.TOOL, test_listen.ENVIRONMENT
ORIGIN = rb"origin utc=20\d\d-\d\d-\d\dT\d\d:\d\d:\d\d\.\d{6}Z\n"
LINE = b"pilot phase=64 energy=1509949440000\n"


def wait_for(condition: Any) -> None:
    """Waits until a condition holds."""
    until = time.monotonic() + SECONDS
    while not condition():
        assert time.monotonic() < until, "too slow"
        time.sleep(0.01)


def kill(process: int) -> None:
    """Ends a process, if it is still there."""
    with contextlib.suppress(ProcessLookupError):
        os.kill(process, signal.SIGKILL)


def followers_of(pid: int) -> list[int]:
    """Returns the processes that a process has started."""
    with open(f"/proc/{pid}/task/{pid}/children", encoding="ascii") as file:
        return [int(child) for child in file.read().split()]


def read(path: str) -> bytes:
    """Returns the bytes of a file; none if it doesn't exist."""
    try:
        with open(path, "rb") as file:
            return file.read()
    except FileNotFoundError:
        return b""


@unittest.skipUnless(PROGRAM, NO_PROGRAM)
class StreamTest(test_listen.OneRecording):
    """A stream of the first seconds of a recording, as a process receives it."""

    parted, seconds = True, 40

    def setUp(self) -> None:
        self.out = os.path.join(temporary_folder(self.addCleanup), "out.txt")
        self.begun = read(self.short)

    def start(self, *words: str) -> subprocess.Popen[bytes]:
        """Starts to listen to standard input, and receives interrupts."""
        command = [*TOOL, *STREAM, *NEAR, *HANDSET, "-", *words]
        pipe = subprocess.PIPE
        run = subprocess.Popen(
            command, stdin=pipe, stdout=pipe, stderr=pipe, env=ENVIRONMENT, preexec_fn=test_listen.hear_interrupts
        )
        self.addCleanup(run.wait)
        self.addCleanup(run.kill)
        return run

    def send(self, run: subprocess.Popen[bytes], data: bytes) -> None:
        """Sends bytes to a process that listens, which takes all of them at once."""
        assert run.stdin is not None
        run.stdin.write(data)
        run.stdin.flush()
        time.sleep(0.5)

    def whole(self, data: bytes, *words: str) -> bytes:
        """Returns what is decoded from a stream that ends by itself."""
        status, lines, said = test_listen.listen(*STREAM, *NEAR, *HANDSET, "-", *words, data=data)
        self.assertEqual((status, said), (0, ""))
        return lines

    def test_an_interrupt_ends_it_in_order(self) -> None:
        wanted = self.whole(self.begun)
        for number in (signal.SIGINT, signal.SIGTERM):
            run = self.start()
            self.send(run, self.begun)
            run.send_signal(number)
            lines, said = run.communicate(timeout=SECONDS)
            told = f"stopped after 4.0 s: {wanted.count(10)} lines were written, 0 samples were lost"
            self.assertEqual((run.returncode, said.decode()), (0, f"listen: {told}\n"))
            self.assertTrue(lines == wanted)

    def test_a_second_interrupt_breaks_it_off(self) -> None:
        run = self.start()
        self.send(run, self.begun)
        wait_for(lambda: followers_of(run.pid))
        follower = followers_of(run.pid)[0]
        self.addCleanup(kill, follower)
        os.kill(follower, signal.SIGSTOP)  # it never ends by itself
        until = time.monotonic() + SECONDS
        while run.poll() is None and time.monotonic() < until:
            run.send_signal(signal.SIGTERM)  # signals that arrive before the first one is handled count as one
            time.sleep(2)
        _, said = run.communicate(timeout=SECONDS)
        self.assertEqual((run.returncode, said), (130, b"listen: broken off\n"))

    def test_an_interrupt_without_a_pilot(self) -> None:
        run = self.start()
        self.send(run, bytes([127, 128]) * 100_000)
        run.send_signal(signal.SIGTERM)
        lines, said = run.communicate(timeout=SECONDS)
        self.assertEqual((run.returncode, lines), (1, b""))
        told = said.decode().splitlines()[-2:]
        self.assertRegex(told[0], "^listen: stopped after 0.1 s: 0 lines were written, 0 samples were lost$")
        self.assertRegex(told[1], "^listen: no pilot stands out")

    def test_streams_are_added_after_each_other(self) -> None:
        wanted = self.whole(self.begun)
        for count in (1, 2, 3):
            self.assertEqual(self.whole(self.begun, "--out", self.out, "--append"), b"")
            self.assertRegex(read(self.out), b"^" + ORIGIN.join([re.escape(wanted)] * count) + b"$")
        objects = self.out + ".jsonl"
        for _ in range(2):
            self.whole(self.begun, "--out", objects, "--append")
        told = [json.loads(line) for line in read(objects).splitlines()]
        self.assertEqual([list(one) for one in told if one["line"] == "origin"], [["line", "utc"]])
        status, back, said = run_inside("lines", "--back", objects)
        self.assertEqual((status, said), (0, ""))
        self.assertRegex(back, b"^" + ORIGIN.join([re.escape(wanted)] * 2) + b"$")

    def test_a_file_is_opened_anew(self) -> None:
        wanted, moved = self.whole(self.begun), self.out + ".1"
        run = self.start("--out", self.out)
        self.send(run, self.begun[: len(self.begun) * 7 // 8])
        wait_for(lambda: read(self.out).count(b"\n") > 10)
        os.rename(self.out, moved)
        run.send_signal(signal.SIGHUP)
        self.send(run, self.begun[len(self.begun) * 7 // 8 :])
        _, said = run.communicate(timeout=SECONDS)
        self.assertEqual((run.returncode, said), (0, b""))
        # On a busy machine all lines may be written before the signal is handled.
        self.assertTrue(read(moved) + read(self.out) == wanted)

    def test_outputs_that_are_no_files(self) -> None:
        wanted = self.whole(self.begun)
        self.assertTrue(self.whole(self.begun, "--out", "/dev/stdout") == wanted)
        fifo = self.out + ".fifo"
        os.mkfifo(fifo)
        with subprocess.Popen(["cat", fifo], stdout=subprocess.PIPE) as reader:
            self.assertEqual(self.whole(self.begun, "--out", fifo), b"")
            self.assertTrue(reader.communicate(timeout=SECONDS)[0] == wanted)
        full = test_listen.listen(*STREAM, *HANDSET, "-", "--out", "/dev/full", data=self.begun)
        self.assertEqual(full, (1, b"", "listen: /dev/full: No space left on device\n"))

    def test_killed_again_and_again(self) -> None:
        """Listening to a recording, killed at random moments, writes each line once, in order."""
        draws, wanted = random.Random(86), self.lines
        command = [*TOOL, *STREAM, self.path, *HANDSET, *test_listen.PARTS, "--out", self.out]
        for size in sorted(draws.randrange(len(wanted)) for _ in range(KILLS)):
            run = subprocess.Popen(command, stdout=subprocess.DEVNULL, stderr=subprocess.DEVNULL, env=ENVIRONMENT)
            until = time.monotonic() + SECONDS
            while run.poll() is None and len(read(self.out)) < size and time.monotonic() < until:
                time.sleep(0.001 * draws.random())
            time.sleep(0.01 * draws.random())
            run.kill()
            run.wait()
        ran = subprocess.run(command, capture_output=True, env=ENVIRONMENT, timeout=2 * SECONDS)
        self.assertEqual(ran.returncode, 0, ran.stderr)
        self.assertTrue(read(self.out) == wanted)


class AppendTest(unittest.TestCase):
    """What --append goes with, and what a file of several streams has."""

    def setUp(self) -> None:
        self.folder = temporary_folder(self.addCleanup)
        self.out = os.path.join(self.folder, "out.txt")
        self.origin = b"origin utc=2026-11-30T21:30:00.000000Z\n"

    def keep(self, data: bytes) -> None:
        """Makes the file."""
        with open(self.out, "wb") as file:
            file.write(data)

    def listen(self, *words: str) -> tuple[int, str]:
        """Starts a run that decodes nothing."""
        status, _, said = run_inside("listen", *"--type ci8 --rate 1228800 --program /bin/true".split(), *words)
        return status, said

    def test_wrong_arguments(self) -> None:
        self.assertRegex(self.listen("-", "--append")[1], "--append needs --out")
        recording = os.path.join(self.folder, "radio.ci8")
        with open(recording, "wb") as file:
            file.write(bytes(4_000))
        self.assertEqual(self.listen(recording, "--append", "--out", self.out)[0], 2)
        self.keep(LINE + self.origin + LINE)
        self.assertRegex(self.listen(recording, "--out", self.out)[1], "lines of streams")
        self.assertRegex(self.listen("-", "--out", self.out)[1], "give --append")
        self.assertEqual(read(self.out), LINE + self.origin + LINE)

    def test_a_line_that_is_no_origin(self) -> None:
        for line in (b"origin\n", b"origin utc=now\n", b"origin utc=2026-13-30T21:30:00.000000Z\n", self.origin + b"x"):
            self.keep(LINE + line)
            self.assertRegex(self.listen("-", "--out", self.out, "--append")[1], "not one that listen writes")
            self.assertEqual(read(self.out), LINE + line)

    def test_broken_origins_are_taken_away(self) -> None:
        for cut in range(1, len(self.origin)):
            self.keep(LINE + self.origin[:cut])
            with contextlib.closing(GrowingFile(self.out, False)) as file:
                self.assertEqual((file.already.lines, file.already.has_origin), (1, False))
            self.assertEqual(read(self.out), LINE)

    def test_a_file_that_was_moved(self) -> None:
        with contextlib.closing(GrowingFile(self.out, False)) as file:
            file.write(LINE)
            file.reopen()
            file.write(LINE)  # nothing was moved: it continues
            os.rename(self.out, self.out + ".1")
            file.write(LINE)
            file.reopen()
            file.write(LINE)
        self.assertEqual((read(self.out + ".1"), read(self.out)), (3 * LINE, LINE))


@unittest.skipUnless(PROGRAM, NO_PROGRAM)
class KilledRunTest(unittest.TestCase):
    """Runs of `follow` that are killed: another one replaces them, and no line is lost or written twice."""

    seconds = 12
    LASTS = 14.0  # seconds

    def heard(self, kills: dict[int, str], seams: tuple[float, ...] = (9.0,)) -> tuple[list[str], list[str]]:
        """Returns lines and remarks of a cell; the current run or the next one is killed after some tenths of it."""
        first = -64 * PN % PERIOD
        parts, heard = made_cell(PROGRAM or "", self.LASTS), Collected()
        wanted = [first + int(CHIP_RATE * seam) for seam in seams]
        relay = Relay(test_listening_runs.handset(), heard, first, LEAST_OVERLAP, wanted)
        step = test_listening_runs.STEP
        try:
            for number in range(int(10 * self.LASTS)):
                test_listening_runs.fed(relay, parts[2 * step * number :][: 2 * step], first + step * number)
                run: FollowRun | None = getattr(relay, kills.get(number, ""), None)
                if run is not None:
                    run.process.kill()
                    run.process.wait()
            if -1 in kills and isinstance(relay.current, FollowRun):
                relay.current.process.kill()
            relay.finish()
        finally:
            relay.kill()
        return test_listening_runs.told(heard, PN), [remark.text for remark in heard.remarks]

    def test_another_run_takes_its_place(self) -> None:
        wanted, remarks = self.heard({})
        self.assertEqual(remarks, [])
        self.assertGreater(len(wanted), 400)
        for kills in ({30: "current"}, {60: "current", 85: "next"}, {88: "current", 89: "current"}, {139: "current"}):
            with self.subTest(kills):
                lines, remarks = self.heard(kills)
                self.assertEqual(remarks, len(kills) * [self.remark("SIGKILL")])
                self.assertEqual(lines, wanted)

    @staticmethod
    def remark(name: str) -> str:
        """Returns the remark on a run that was killed."""
        return f"a run of cdma_replay follow was ended by {name}: another one replaces it"

    def test_runs_that_are_killed_again_and_again(self) -> None:
        killed = Handset(os.path.join(temporary_folder(self.addCleanup), "killed"))
        with open(killed.program, "w", encoding="ascii") as file:
            file.write("#!/bin/sh\nkill -KILL $$\n")
        os.chmod(killed.program, 0o755)
        heard = Collected()
        relay = Relay(killed, heard, 0)
        with contextlib.closing(contextlib.ExitStack()) as stack:
            stack.callback(relay.kill)
            with self.assertRaisesRegex(Refused, "killed follow was ended by SIGKILL: it said nothing"):
                test_listening_runs.fed(relay, made_cell(PROGRAM or "", 3.0), -64 * PN % PERIOD)
        self.assertEqual([one.text for one in heard.remarks], MOST_KILLED * [self.remark("SIGKILL")])

    def test_a_run_hears_no_signal_of_its_group(self) -> None:
        run = FollowRun(test_listening_runs.handset(), 0)
        try:
            for number in (signal.SIGINT, signal.SIGTERM, signal.SIGHUP):
                run.process.send_signal(number)
            time.sleep(0.2)
            self.assertIsNone(run.process.poll())
        finally:
            run.kill()


@dataclass(frozen=True)
class SparseChips(Chips):
    """`count` chips without their I and Q values: a day of them needs no room."""

    count: int = 0

    @property
    def end(self) -> int:
        """Returns the number of the chip after the last one."""
        return self.first + self.count


class FakeRun:
    """A run that reports a frame for each piece of chips."""

    def __init__(self, handset: Handset, begin: int) -> None:
        """Nothing has been decoded."""
        self.handset, self.begin, self.end = handset, begin, begin
        self.told = [Event(begin, f"pilot phase={begin % PERIOD} energy=1")]
        self.sets: list[tuple[int, Sets]] = []
        self.phase: int | None = begin % PERIOD

    def feed(self, chips: Chips) -> None:
        """Reports a frame at their end."""
        if chips.end > self.end:
            self.end = chips.end
            frame = "rate=1200 good=1 bits=0: commands=0000000000000000"
            self.told.append(Event(self.end, f"frame at={self.end - self.begin} {frame}"))

    def sets_at(self, _: int) -> None:
        """Reports no sets."""

    def __getattr__(self, _: str) -> Any:
        """Does nothing else."""
        return lambda *_: None


class FakeLock:
    """A lock that returns some seconds of chips for each piece of data."""

    origin, cut, seconds = 0, 0, 0.0

    def __init__(self, _: LockOptions) -> None:
        """Nothing has arrived."""
        self.end = 0

    def instant(self) -> tuple[float, float]:
        """Returns the chip of a time: the clock is exact."""
        return float(self.end), float(self.end)

    def feed(self, _: bytes) -> list[Chips]:
        """Returns the next chips."""
        first, self.end = self.end, self.end + PIECE_SECONDS * CHIP_RATE
        return [SparseChips(first, b"", PIECE_SECONDS * CHIP_RATE)]


class DayTest(unittest.TestCase):
    """A day of listening, with some seconds of chips as one number: what is kept of them doesn't grow."""

    seconds = 10

    def memory(self, keeps_anchors: bool, hours: int) -> list[int]:
        """Returns the bytes in use after each hour."""
        found = []
        with (
            unittest.mock.patch("cdma_tools.listening.listening.StreamLock", FakeLock),
            unittest.mock.patch("cdma_tools.listening.relay.FollowRun", FakeRun),
            unittest.mock.patch("cdma_tools.listening.beginning.strong_stretch", lambda *_: 0),
        ):
            writer = LineWriter(lambda _: None, True, {})
            listening = Listening(LockOptions("cu8", 1_500_000.0), Handset("program"), writer, keeps_anchors=keeps_anchors)
            tracemalloc.start()
            try:
                for hour in range(hours):
                    for _ in range(3_600 // PIECE_SECONDS):
                        listening.feed(b"")
                    found.append(tracemalloc.get_traced_memory()[0])
            finally:
                tracemalloc.stop()
        self.assertGreater(writer.written, 0.9 * 3_600 / PIECE_SECONDS * hours)
        return found

    def test_memory_is_flat(self) -> None:
        found = self.memory(False, HOURS)
        self.assertLess(max(found[2:]) - min(found[2:]), 50_000, found)

    def test_what_would_grow_is_seen(self) -> None:
        """The test detects the growth of the anchors that a part of a recording keeps."""
        found = self.memory(True, 4)
        self.assertGreater(found[-1] - found[1], 100_000, found)


class Air:
    """Samples that arrive as time passes, by a clock that only the time of a search moves on."""

    def __init__(self, costs: float | None = None) -> None:
        """Takes the seconds of a slice, by default what this process takes."""
        self.idle, self.costs, self.count = 0.0, costs, 0
        self.begun = time.process_time()

    def now(self) -> float:
        """Returns the time."""
        taken = time.process_time() - self.begun if self.costs is None else self.costs * self.count
        return self.idle + taken

    def look(self, *_: Any) -> None:
        """Finds nothing, after some time."""
        self.count += 1

    def lag(self, lock: StreamLock, seconds: float) -> float:
        """Returns the greatest lag of a lock against real time, in seconds, within `seconds` seconds."""
        noise, most = random.Random(1).randbytes(2 * int(0.05 * RATE)), 0.0
        while lock.seconds < seconds:
            behind = self.now() - lock.seconds
            most = max(most, behind)
            self.idle += max(0.0, 0.05 - behind)
            list(lock.feed(noise))
        return most


class NoiseTest(unittest.TestCase):
    """A live stream in which no pilot stands out: the search keeps up with it, however long it takes."""

    seconds = 20

    def live(self, search: float) -> StreamLock:
        """Returns the lock of a live stream, whose carrier is searched this many Hz to each side."""
        return StreamLock(LockOptions("ci8", RATE, search=search, is_live=True))

    def test_whatever_the_search_takes(self) -> None:
        for search in (500.0, 21_000.0, 88_000.0, MOST_SEARCH):
            for costs in (0.001, 0.05, 0.2, 0.5, 1.2):
                air = Air(costs)
                with (
                    self.subTest(search=search, costs=costs),
                    unittest.mock.patch("cdma_tools.listening.searching.Halves.look", air.look),
                    unittest.mock.patch("cdma_tools.listening.searching.clock.monotonic", air.now),
                ):
                    self.assertLess(air.lag(self.live(search), 25.0), 3.0)
                    self.assertGreater(air.count, 5)

    def test_what_it_takes_a_processor(self) -> None:
        """Time passes as this process uses a processor, so that other processes don't count."""
        with unittest.mock.patch("cdma_tools.radio.acquisition.WORKERS", 1):
            for search in (21_000.0, 88_000.0, MOST_SEARCH):
                air = Air()
                with unittest.mock.patch("cdma_tools.listening.searching.clock.monotonic", air.now):
                    self.assertLess(air.lag(self.live(search), 6.0), 3.0, search)

    def test_what_is_lost_is_counted_and_said(self) -> None:
        """Samples that come too fast are left out of the backlog, and each remark and the end has their number."""
        noise, errors = random.Random(1).randbytes(200_000), io.StringIO()
        skipped = Skipped(4_321, "the lock couldn't keep up with a radio"), Skipped(679, "a radio was unreachable")
        items: list[Item | None] = [noise, skipped[0], noise, skipped[1], noise, None]

        class Radio:
            """A source that gives these items."""

            def begin(self, backlog: Backlog, is_tried_again: bool = True) -> Any:
                """What a thread does to fill a backlog."""
                return lambda: [backlog.put(item) for item in items]

        stream: Any = Stream("ci8", Fraction(RATE), live=Radio())  # type: ignore[arg-type]
        writer, output = LineWriter(lambda data: None, False, {}), unittest.mock.Mock()
        lock = LockOptions("ci8", RATE, is_live=True)
        with contextlib.redirect_stderr(errors):
            is_heard = hear_stream(stream, lock, Handset("/no/program"), writer, output)
        self.assertFalse(is_heard)
        told = errors.getvalue().splitlines()
        self.assertIn("4321 samples are missing: the lock couldn't keep up with a radio", told[0])
        self.assertIn("679 samples are missing: a radio was unreachable", told[1])
        self.assertEqual(told[-1], "listen: stopped after 0.2 s: 0 lines were written, 5,000 samples were lost")

    def test_all_slices_are_searched_in_turn(self) -> None:
        search = LiveSearch(88_000.0, (False, True))
        bins = sorted((int(one), part.is_conjugate) for part in search.slices for one in part.bins)
        self.assertEqual(bins, sorted((int(one), turned) for one in bins_within(88_000.0) for turned in (False, True)))
        nearest = [int(numpy.abs(part.bins).min()) for part in search.slices]
        self.assertEqual(nearest, sorted(nearest))
        self.assertLessEqual(max(len(part.bins) for part in search.slices), SLICE_BINS)
        looked: list[int] = []
        with (
            unittest.mock.patch("cdma_tools.listening.searching.Halves.look", lambda _, part, __: looked.append(id(part))),
            unittest.mock.patch("cdma_tools.listening.searching.clock.monotonic", lambda: 0.4 * len(looked)),
        ):
            lock = self.live(88_000.0)
            assert lock.live is not None
            lock.live = search
            while len(looked) < 2 * len(search.slices):
                list(lock.feed(bytes(200_000)))
        wanted = [id(part) for part in search.slices]
        self.assertEqual(looked[: 2 * len(wanted)], 2 * wanted)

    @unittest.skipUnless(PROGRAM, NO_PROGRAM)
    def test_a_pilot_is_found_where_a_file_finds_it(self) -> None:
        """A stream's first search finds a pilot as far away as a file's does, in either spectrum."""
        chips = made_cell(PROGRAM or "", 2.5).reshape(-1, 2).astype(numpy.float32)
        samples = (chips[:, 0] + 1j * chips[:, 1]).repeat(2)
        turned = samples * numpy.exp(2j * numpy.pi * 12_345 / (2 * CHIP_RATE) * numpy.arange(len(samples)))
        for given in (turned, turned.conj()):
            data = given.astype(numpy.complex64).tobytes()
            found = []
            for is_live in (False, True):
                unlimited = unittest.mock.patch("cdma_tools.listening.searching.MOST_SEARCH", 1_000.0)
                unlimited.start()
                self.addCleanup(unlimited.stop)
                lock = StreamLock(LockOptions("cf32_le", 2.0 * CHIP_RATE, is_live=is_live))
                pieces = [*lock.feed(data), *lock.finish()]
                sent = b"".join(piece.parts for piece in pieces if isinstance(piece, Chips))
                found.append((lock.ring.is_conjugate, round(lock.centre, -1), sent))
            self.assertEqual(found[0][:2], found[1][:2])
            self.assertTrue(found[0][2] == found[1][2] and len(found[0][2]) > 4 * CHIP_RATE)


class UnitTest(unittest.TestCase):
    """The systemd unit in examples/."""

    def test_its_command_is_right(self) -> None:
        unit = configparser.RawConfigParser(strict=False)
        unit.optionxform = str  # type: ignore[assignment]
        unit.read(os.path.join(EXAMPLES, "cdma-listen.service"))
        command, *words = shlex.split(unit["Service"]["ExecStart"].replace("${STATE_DIRECTORY}", "/var/lib/cdma-listen"))
        self.assertEqual(os.path.basename(command), "cdma-listen")
        parser = listen_command.parser()
        options = parser.parse_args(words)
        listen_command.check(parser, options)
        self.assertTrue(options.append and options.out and scheme_of(options.source))
        self.assertEqual(unit["Service"]["KillMode"], "mixed")
        for name in ("NoNewPrivileges", "PrivateTmp", "PrivateDevices", "ProtectHome", "DynamicUser", "RestrictNamespaces"):
            self.assertEqual(unit["Service"][name], "yes", name)
        self.assertEqual((unit["Service"]["ProtectSystem"], unit["Service"]["CapabilityBoundingSet"]), ("strict", ""))


if __name__ == "__main__":
    unittest.main()
