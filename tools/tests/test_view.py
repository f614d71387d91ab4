"""Tests of tools/view without a browser: what the page is told, whom the server answers, and how the command ends."""

from __future__ import annotations

import asyncio
import contextlib
import json
import os
import random
import re
import signal
import socket
import subprocess
import threading
import time
import unittest
import unittest.mock
import urllib.error
import urllib.request
from collections import Counter
from collections.abc import Callable
from typing import Any, ClassVar

from tools.tests.helping import (
    HEADER, NO_PROGRAM, PROGRAM, PYTHON, ROOT, example, is_gone, made_once, needs, run_inside, temporary_folder,
)  # fmt: skip

needs("numpy", "scipy", "tornado", "plotly")

import numpy  # noqa: E402
from numpy.typing import NDArray  # noqa: E402
from tornado.httpclient import HTTPClientError, HTTPRequest  # noqa: E402
from tornado.websocket import WebSocketClientConnection, websocket_connect  # noqa: E402

from cdma_tools.analysis.spectrum import BINS  # noqa: E402
from cdma_tools.errors import Refused  # noqa: E402
from cdma_tools.lines import read_line  # noqa: E402
from cdma_tools.listening.events import Event  # noqa: E402
from cdma_tools.listening.pieces import Chips  # noqa: E402
from cdma_tools.radio.air import PERIOD  # noqa: E402
from cdma_tools.sources.backlog import Backlog, Item, Skipped  # noqa: E402
from cdma_tools.view.chip_store import CHIP_BYTES, MOST, ROOM, ChipKeeper, ChipStore, Extent  # noqa: E402
from cdma_tools.view.feed import Feed  # noqa: E402
from cdma_tools.view.following import SeparateListening  # noqa: E402
from cdma_tools.view.kept import MOST_LINES, Kept, Numbered  # noqa: E402
from cdma_tools.view.safety import Door  # noqa: E402
from cdma_tools.view.spectrum_rows import SpectrumRows  # noqa: E402
from cdma_tools.view.steps import WHY_NONE, FrameAsked, Handset, MarkTold, of_channel, steps_text  # noqa: E402
from cdma_tools.view.waveform import WHOLE, Measured, Wanted, measured  # noqa: E402
from tools.tests.drawn_cells import drawn_cell  # noqa: E402
from tools.tests.radio_helping import code, whole_cell  # noqa: E402
from tools.tests.report_fixture import FOLLOWED  # noqa: E402
from tools.tests.test_listen import Server as RadioServer  # noqa: E402
from tools.tests.test_listen_channels import STREAM, TRAFFIC, made_recording  # noqa: E402

SECONDS = 120  # that a server may take to start on a busy machine
TOOL = [PYTHON, "-B", os.path.join(ROOT, "tools", "view")]
PAGE_MOST = 10  # updates a second
# A line of a frame that was known at a chip.
FRAME = b'{"line":"frame","at":%d,"rate":1200,"good":1,"bits":"0:","commands":[0,1,0,1,0,1,0,1,0,1,0,1,0,1,0,1]}\n'


# Runs the command, and interrupts it when its loop is being made, or when its first thread begins.
BEGINNING = """
import os, signal, sys, threading
from asyncio.selector_events import BaseSelectorEventLoop
place, server = sys.argv.pop(1), os.getpid()
sys.path.insert(0, sys.argv.pop(1))
owner, name = (BaseSelectorEventLoop, "_make_self_pipe") if place == "loop" else (threading.Thread, "start")
begin = getattr(owner, name)
def interrupted(self):
    if os.getpid() == server:
        setattr(owner, name, begin)
    if os.getpid() == server and place == "loop":
        os.kill(server, signal.SIGTERM)
    begin(self)
    if os.getpid() == server and place == "thread":
        os.kill(server, signal.SIGTERM)
setattr(owner, name, interrupted)
from cdma_tools.starting import start
sys.exit(start("view"))
"""


class TheChips(unittest.TestCase):
    """The file of the last chips."""

    def setUp(self) -> None:
        self.store = ChipStore()
        self.addCleanup(self.store.file.close)
        self.keeper = ChipKeeper(self.store)

    def test_around_the_end_of_the_space(self) -> None:
        """Chips on both sides of the space's end are read as they were written."""
        chips = numpy.random.default_rng(1).integers(-100, 100, 4_000).astype(">i2").tobytes()
        self.keeper.add(Chips(ROOM - 700, chips))
        self.assertEqual(self.keeper.extent, Extent(ROOM - 700, ROOM + 1_300))
        self.assertEqual(self.store.read(Extent(ROOM - 700, ROOM + 1_300)), chips)
        self.assertEqual(self.store.read(Extent(ROOM - 1, ROOM + 1)), chips[699 * CHIP_BYTES : 701 * CHIP_BYTES])

    def test_lost_chips_are_zeros(self) -> None:
        self.keeper.add(Chips(10, bytes([1]) * 40))
        self.keeper.add(Chips(25, bytes([2]) * 40))
        self.assertEqual(self.keeper.extent, Extent(10, 35))
        self.assertEqual(self.store.read(self.keeper.extent), bytes([1]) * 40 + bytes(20) + bytes([2]) * 40)

    def test_only_the_last_ones_count(self) -> None:
        self.keeper.add(Chips(0, bytes(4)))
        self.keeper.add(Chips(MOST, bytes(8)))
        self.assertEqual(self.keeper.extent, Extent(2, MOST + 2))
        self.keeper.add(Chips(3 * MOST, bytes(8)))
        self.assertEqual(self.keeper.extent, Extent(3 * MOST, 3 * MOST + 2))

    def test_a_new_beginning(self) -> None:
        self.keeper.add(Chips(500, bytes(40)))
        self.keeper.restart()
        self.keeper.add(Chips(7, bytes(8)))
        self.assertEqual(self.keeper.extent, Extent(7, 9))

    def test_a_sample_file(self) -> None:
        chips = numpy.arange(-6, 6).astype(">i2").tobytes()
        self.keeper.add(Chips(99, chips))
        with self.store.sample_file(self.keeper.extent, 2) as file:
            self.assertEqual(file.read(), HEADER.pack(b"IS95", 1, 2, 6) + chips)


class TheSpectrum(unittest.TestCase):
    def test_a_tone(self) -> None:
        """A tone of a sixteenth of the rate lies a sixteenth above the middle, with nothing far from it."""
        turns = numpy.exp(2j * numpy.pi * numpy.arange(8_192) / 16)
        parts = (127.5 + 100 * numpy.stack([turns.real, turns.imag], axis=1)).round().astype("u1").tobytes()
        row = SpectrumRows("cu8").row(parts)
        assert row is not None
        self.assertEqual(int(row.argmax()), BINS // 2 + BINS // 16)
        self.assertLess(float(row[: BINS // 2 - 8].max()), float(row.max()) - 40)

    def test_the_power(self) -> None:
        """All bins together have the mean power against full scale: of noise with a spread of 1,000 of 32,767."""
        parts = numpy.random.default_rng(2).normal(0, 1_000, 2 * 60_000).round().astype("<i2").tobytes()
        row = SpectrumRows("ci16_le").row(parts)
        assert row is not None
        self.assertAlmostEqual(float((10 ** (row / 10)).sum()), 2 * (1_000 / 32_767) ** 2, delta=1e-4)

    def test_too_few_samples_and_strange_numbers(self) -> None:
        self.assertIsNone(SpectrumRows("cu8").row(bytes(2 * BINS - 1)))
        strange = numpy.full(2 * BINS, numpy.nan, dtype="<f4")
        row = SpectrumRows("cf32_le").row(strange.tobytes())
        assert row is not None
        self.assertTrue(numpy.isfinite(row).all())


class TheWaveform(unittest.TestCase):
    """Panels of made chips: a pilot of 100, sync of 40, paging of 80 and row 10 of 70, in noise."""

    noise, phase = 60.0, 12_345
    chips: ClassVar[NDArray[numpy.complex64]]
    told: ClassVar[Measured]

    @classmethod
    def setUpClass(cls) -> None:
        draws = numpy.random.default_rng(7)
        chips = whole_cell(WHOLE, phase=cls.phase)
        # A second cell of half the amplitude, whose code comes 5 steps and 3 chips later.
        chips = chips + 0.5 * whole_cell(WHOLE, seed=9, phase=(cls.phase - 5 * 64 - 3) % PERIOD)
        chips = chips + draws.normal(0, cls.noise, WHOLE) + 1j * draws.normal(0, cls.noise, WHOLE)
        cls.chips = chips.astype(numpy.complex64)
        told = measured(cls.chips, cls.phase, Wanted(1, 20, 1.0))
        assert told is not None
        cls.told = told

    def test_rows_in_use(self) -> None:
        domain = self.told.panels["domain"]
        self.assertEqual(domain["used"], [0, 1, 10, 32])
        kinds = {row: domain["kinds"][row] for row in domain["used"]}
        self.assertEqual(kinds, {0: "pilot", 1: "paging", 10: "other", 32: "sync"})
        self.assertEqual(domain["kinds"].count("not in use"), 60)

    def test_ec_io(self) -> None:
        """The pilot's 2 x 100^2 of all power: of both cells and the noise."""
        cell = 2 * (100**2 + 40**2 + 80**2 + 70**2)
        wanted = 10 * numpy.log10(2 * 100**2 / (1.25 * cell + 2 * self.noise**2))
        # The pulse's sides, which made chips don't have, are taken off: 2.27 % of what the cell sends.
        self.assertAlmostEqual(self.told.figures["ec_io_db"], wanted, delta=0.12)

    def test_cells(self) -> None:
        panel = self.told.panels["cells"]
        self.assertTrue(panel["is_known"])
        first, second = panel["cells"]
        self.assertEqual((first["pn"], first["delay"]), (20, 0))
        self.assertEqual((second["pn"], second["delay"]), (25, 3))
        self.assertEqual(first["ec_io_db"], self.told.figures["ec_io_db"])
        self.assertAlmostEqual(second["ec_io_db"] - first["ec_io_db"], -6.02, delta=0.6)

    def test_correlation(self) -> None:
        panel = self.told.panels["correlation"]
        best = panel["deltas"][int(numpy.argmax(panel["levels"]))]
        self.assertEqual(best, 0)
        self.assertEqual(sum(level >= panel["floor_db"] for level in panel["levels"]), 1)

    def test_symbols(self) -> None:
        """The sync channel's symbols lie at 0.4 of the pilot on both sides, those of paging at 0.8."""
        for name, amplitude in (("pilot", 1.0), ("sync", 0.4), ("paging", 0.8)):
            real, imaginary = (numpy.array(part) for part in self.told.panels["symbols"][name])
            self.assertAlmostEqual(float(numpy.abs(real).mean()), amplitude, delta=0.1)
            self.assertLess(abs(float(imaginary.mean())), 0.05)
            self.assertEqual(bool((real < 0).any()), name != "pilot")

    def test_nothing_to_measure(self) -> None:
        wanted = Wanted(None, None, 1.0)
        self.assertIsNone(measured(numpy.zeros(WHOLE, dtype=numpy.complex64), 0, wanted))
        self.assertIsNone(measured(self.chips[:1_000], 0, wanted))

    def test_noise_has_no_cells(self) -> None:
        draws = numpy.random.default_rng(3)
        noise = (draws.normal(0, 50, WHOLE) + 1j * draws.normal(0, 50, WHOLE)).astype(numpy.complex64)
        chips = (noise + 5 * code()[numpy.arange(WHOLE) % PERIOD]).astype(numpy.complex64)
        told = measured(chips, 0, Wanted(None, None, 1.0))
        assert told is not None
        self.assertEqual([cell["pn"] for cell in told.panels["cells"]["cells"]], [0])
        self.assertFalse(told.panels["cells"]["is_known"])


class WhatIsKept(unittest.TestCase):
    def test_numbers_go_on(self) -> None:
        things = Numbered[int](3)
        for thing in range(10, 20):
            things.add(thing)
        self.assertEqual((things.first, things.count), (7, 10))
        self.assertEqual(list(things.since(0, 2)), [(7, 17), (8, 18)])
        self.assertEqual((things.at(6), things.at(9), things.at(10)), (None, 19, None))

    def test_the_place_of_a_line(self) -> None:
        """Lines have their cell and channel, and describe the base station of their cell."""
        kept = Kept("x")
        self.addCleanup(kept.file.file.close)
        place = {"cell": 1, "carrier": 0, "channel": "paging1"}
        first, other = FOLLOWED[1], FOLLOWED[1].replace("sid=4139", "sid=7")
        for line, cell in ((first, 1), (other, 2)):
            kept.take(json.dumps({**read_line(line), **place, "cell": cell}).encode())
        told = [line.shown(number) for number, line in kept.lines.since(0, 9)]
        found = [(one["cell"], one["channel"], one["text"]) for one in told]
        self.assertEqual(found, [("1", "paging1", first), ("2", "paging1", other)])
        self.assertEqual([cell.name for cell in kept.cells], ["1", "2"])
        sids = [{row[0]: row[1] for row in cell.identity["Sync message"]}["SID"] for cell in kept.cells]
        self.assertEqual(sids, ["4139", "7"])
        self.assertFalse(any(name in line.read for name in place for line in kept.lines.kept))

    def test_memory_is_bounded(self) -> None:
        """However many lines, spectra, remarks and figures come, a fixed number of each is kept."""
        kept = Kept("x")
        self.addCleanup(kept.file.file.close)
        for number in range(MOST_LINES + 500):
            kept.take(FRAME % number)
        for number in range(2_000):
            kept.take(b'{"view":"spectrum","seconds":%d,"levels":[1]}\n' % number)
            kept.take(b'{"view":"remark","seconds":%d,"text":"x"}\n' % number)
            kept.cells[0].add_measured(number, {}, {"rho": 1.0})
        self.assertEqual(len(kept.lines.kept), MOST_LINES)
        self.assertEqual(kept.lines.count, MOST_LINES + 500)
        (cell,) = kept.cells
        self.assertLessEqual(max(len(cell.spectra.kept), len(kept.remarks.kept), len(cell.history.kept)), 700)
        self.assertEqual(kept.counts["frame 1200"], MOST_LINES + 500)


class TheFeed(unittest.TestCase):
    """What a browser gets, and what one misses that is too slow."""

    def setUp(self) -> None:
        self.kept = Kept("x")
        self.addCleanup(self.kept.file.file.close)
        self.feed = Feed(self.kept, "run")
        self.feed.first()

    def lines(self, first: int, count: int) -> None:
        """Takes lines at some chips."""
        for at in range(first, first + count):
            self.kept.take(FRAME % at)

    def test_each_line_once(self) -> None:
        """Lines come in updates of at most 200, in order, each once; then nothing more comes."""
        self.lines(0, 450)
        updates = [self.feed.news().get("lines", []) for _ in range(4)]
        self.assertEqual([len(update) for update in updates], [200, 200, 50, 0])
        self.assertEqual([line["n"] for update in updates for line in update], list(range(450)))
        self.assertEqual(self.feed.news(), {})

    def test_a_slow_browser(self) -> None:
        """Of more lines and rows than are kept the oldest are missed, and counted; an update stays small."""
        self.lines(0, MOST_LINES + 1_000)
        for number in range(400):
            self.kept.take(b'{"view":"spectrum","seconds":%d,"levels":[1.5]}\n' % number)
        news = self.feed.news()
        self.assertEqual(news["missed"], 1_000 + 400 - len(news["spectra"]))
        self.assertEqual((news["lines"][0]["n"], len(news["lines"])), (1_000, 200))
        self.assertEqual([row["seconds"] for row in news["spectra"]], list(range(390, 400)))
        self.assertLess(len(json.dumps(news)), 50_000)

    def test_the_choice_of_a_cell(self) -> None:
        """A browser gets the panels, spectra and figures of the cell that it chose, and the lines of all cells."""
        kept = self.kept
        kept.take(b'{"view":"following","places":[[1,0],[2,0]]}\n')
        for number in (0, 1, 1):
            kept.take(b'{"view":"figures","number":%d,"seconds":%d}\n' % (number, number + 5))
            kept.take(b'{"view":"spectrum","number":%d,"levels":[%d]}\n' % (number, number))
        kept.cells[1].add_measured(2.0, {"domain": {"used": [0]}}, {"rho": 0.5})
        kept.panels.set("counts", {"sync": 3})
        news = self.feed.news()
        self.assertEqual((news["figures"], news["spectra"]), ({"seconds": 5}, [{"levels": [0]}]))
        self.assertNotIn("domain", news)
        told = self.feed.chosen(1)
        self.assertEqual(told["chosen"], {"number": 1, "history": [[2.0, None, None, None, 0.5]]})
        self.assertEqual((told["figures"], told["spectra"]), ({"seconds": 6}, 2 * [{"levels": [1]}]))
        self.assertEqual((told["domain"], told["quality"]), ({"used": [0]}, {"rho": 0.5}))
        self.assertEqual(self.feed.news(), {})
        kept.take(FRAME % 7)
        kept.take(b'{"view":"figures","number":0,"seconds":9}\n')
        self.assertEqual(set(self.feed.news()), {"lines"})
        self.assertEqual(self.feed.chosen(0)["figures"], {"seconds": 9})
        for number in (-1, 2, 10**9):
            self.assertEqual(self.feed.chosen(number), {})
        self.assertEqual(self.feed.number, 0)

    def test_only_changed_panels(self) -> None:
        self.kept.take(b'{"view":"figures","seconds":1}\n')
        self.assertEqual(self.feed.news(), {"figures": {"seconds": 1}})
        self.assertEqual(self.feed.news(), {})
        self.kept.take(b'{"view":"figures","seconds":2}\n')
        self.kept.take(b'{"view":"figures","seconds":3}\n')
        self.assertEqual(self.feed.news(), {"figures": {"seconds": 3}})


class TheSteps(unittest.TestCase):
    """The steps of frames of a second of paging, against those of `explain` over the same samples."""

    store: ClassVar[ChipStore]
    path: ClassVar[str]
    phase: ClassVar[int]
    lines: ClassVar[list[str]]
    extent: ClassVar[Extent]

    @classmethod
    def setUpClass(cls) -> None:
        folder = temporary_folder(cls.addClassCleanup)
        command = [PROGRAM] if PROGRAM else [PYTHON, "-B", "-m", "model"]

        def run(word: str, data: bytes) -> bytes:
            return subprocess.run([*command, word], input=data, capture_output=True, check=True, cwd=ROOT).stdout

        made = run("make", example("second_of_paging.script"))
        cls.lines = run("follow", made).decode().splitlines()
        cls.path = os.path.join(folder, "second.is95")
        with open(cls.path, "wb") as file:
            file.write(made)
        cls.phase = read_line(cls.lines[0])["phase"]
        cls.store = ChipStore()
        cls.addClassCleanup(cls.store.file.close)
        parts = numpy.frombuffer(made[HEADER.size :], ">i2" if made[5] == 1 else "i1").astype(">i2")
        cls.extent = Extent(cls.phase, cls.phase + len(parts) // 2)
        cls.store.write(cls.phase, parts.tobytes())

    def text(self, line: str, extent: Extent | None = None) -> str:
        """The steps of the frame in which a line ends."""
        read = read_line(line)
        syncs = [Event(read_line(other)["at"] + self.phase, other) for other in self.lines if other.startswith("sync")]
        marks = [mark for mark in map(MarkTold.of, syncs) if mark is not None]
        asked = FrameAsked.of(read, read["at"] + self.phase)
        assert asked is not None
        return steps_text(self.store, extent or self.extent, asked, marks, Handset(1, None, 0, 0), None)

    def explained(self, *words: object) -> tuple[int, list[str]]:
        """The sample at which a frame begins, and its steps after the title, as `explain` shows them."""
        status, wrote, said = run_inside("explain", self.path, *words)
        self.assertEqual(status, 0, said)
        title, *steps = wrote.decode().splitlines()
        found = re.search(r"from sample (\d+) on", title)
        assert found is not None
        return int(found[1]), steps

    def test_the_handset_of_a_channel(self) -> None:
        handset = Handset(1, None, 0, 2)
        self.assertEqual(of_channel(handset, 9, ""), (handset, 9))
        self.assertEqual(of_channel(handset, None, "paging3"), (Handset(3, None, 0, 2), None))
        self.assertEqual(of_channel(handset, None, "traffic:00c0ffee:12:4:2"), (Handset(1, "00c0ffee", 4, 2, 2), 12))

    def test_pages(self) -> None:
        """A page's frame begins two frames before the chip at which it is known; some frames are tried."""
        first, _ = self.explained("--paging", 1, "--frame", 0)
        pages = [line for line in self.lines if line.startswith("paging")]
        for line in (pages[0], pages[-1]):
            number = round((read_line(line)["at"] - 2 * 24_576 - first) / 24_576)
            with self.subTest(number=number):
                place, wanted = self.explained("--paging", 1, "--frame", number)
                self.assertAlmostEqual(place, read_line(line)["at"] - 2 * 24_576, delta=2)
                shown = self.text(line).splitlines()
                self.assertEqual(shown[shown.index("2 scrambling bits") :], wanted[wanted.index("2 scrambling bits") :])

    def test_a_sync_message(self) -> None:
        line = next(line for line in self.lines if line.startswith("sync"))
        first, _ = self.explained("--sync", "--frame", 0)
        number = round((read_line(line)["at"] - 2 * PERIOD - first) / PERIOD)
        _, wanted = self.explained("--sync", "--frame", number)
        shown = self.text(line).splitlines()
        last = next(at for at, text in enumerate(wanted) if text.startswith("7 bits"))
        self.assertEqual(shown[-len(wanted[last:]) :], wanted[last:])

    def test_without_samples(self) -> None:
        line = next(line for line in self.lines if line.startswith("paging"))
        self.assertEqual(self.text(line, Extent(900_000, 901_000)), WHY_NONE)


class TheDoor(unittest.TestCase):
    """Whom the server answers."""

    def test_hosts(self) -> None:
        own, other = Door.of("127.0.0.1", 8_080), Door.of("0.0.0.0", 8_080)
        self.assertEqual(own.token, "")
        self.assertGreaterEqual(len(other.token), 20)
        for host, is_own, is_other in (
            ("127.0.0.1:8080", True, True),
            ("localhost:8080", True, True),
            ("LOCALHOST:8080", True, True),
            (f"{socket.gethostname()}:8080", False, True),
            ("192.0.2.7:8080", False, True),
            ("[::1]:8080", False, True),
            ("127.0.0.1", False, False),
            ("127.0.0.1:80", False, False),
            ("evil.example:8080", False, False),
            ("127.0.0.1.evil.example:8080", False, False),
            ("user@127.0.0.1:8080", False, False),
            ("127.0.0.1:8080/x", False, False),
            ("[::1:8080", False, False),
            ("127.0.0.1:x", False, False),
            ("", False, False),
        ):
            with self.subTest(host=host):
                self.assertEqual((own.is_own_host(host), other.is_own_host(host)), (is_own, is_other))

    def test_origins(self) -> None:
        door, host = Door.of("127.0.0.1", 8_080), {"Host": "127.0.0.1:8080"}
        self.assertTrue(door.is_own_origin({**host, "Origin": "http://127.0.0.1:8080"}, True))
        self.assertTrue(door.is_own_origin(host, False))
        self.assertTrue(door.is_own_origin({**host, "Sec-Fetch-Site": "same-origin"}, False))
        self.assertFalse(door.is_own_origin({**host, "Sec-Fetch-Site": "cross-site"}, False))
        self.assertFalse(door.is_own_origin(host, True))
        for origin in ("http://evil.example", "null", "http://127.0.0.1:8081", "https://127.0.0.1:8080", ""):
            with self.subTest(origin=origin):
                self.assertFalse(door.is_own_origin({**host, "Origin": origin}, False))

    def test_a_name_of_the_network(self) -> None:
        """The address of a server that others can reach has the secret, a new one each time."""
        first, second = Door.of("192.0.2.7", 9), Door.of("192.0.2.7", 9)
        self.assertEqual(first.url, f"http://192.0.2.7:9/{first.token}/")
        self.assertNotEqual(first.token, second.token)
        self.assertTrue(first.is_token(first.token))
        self.assertFalse(first.is_token("") or first.is_token(second.token) or first.is_token("é"))
        self.assertEqual(Door.of("::1", 9).url, "http://[::1]:9/")


class StreamsOfCells(unittest.TestCase):
    """Cells that each have a stream of their own."""

    def stream(self, items: list[Item]) -> unittest.mock.Mock:
        """A stream with some items."""
        backlog = Backlog()
        for item in items:
            backlog.put(item)
        backlog.put(None)
        return unittest.mock.Mock(opened=lambda: contextlib.nullcontext(backlog))

    def test_each_gets_its_own(self) -> None:
        sent: list[list[Item]] = [[b"one", Skipped(3, "lost"), b"two"], [], [b"three"]]
        took: list[list[Item]] = [[], [], []]
        lives = [unittest.mock.Mock(take_all=one.extend) for one in took]
        SeparateListening(list(zip(lives, map(self.stream, sent)))).hear()
        self.assertEqual(took, sent)
        self.assertTrue(all(live.listening.kill.called for live in lives))

    def test_one_that_fails_ends_all(self) -> None:
        """Its fault is raised at once, though another cell has no end."""
        begun = threading.Event()

        def lasts(_: Backlog) -> None:
            begun.set()
            time.sleep(SECONDS)

        def fails(_: Backlog) -> None:
            begun.wait(SECONDS)
            raise Refused("the disk is full")

        lives = [unittest.mock.Mock(take_all=one) for one in (lasts, fails)]
        begin = time.monotonic()
        with self.assertRaisesRegex(Refused, "^the disk is full$"):
            SeparateListening([(live, self.stream([])) for live in lives]).hear()
        self.assertLess(time.monotonic() - begin, SECONDS / 2)
        self.assertTrue(all(live.listening.kill.called for live in lives))


class Server(unittest.TestCase):
    """A server of a file of lines."""

    def setUp(self) -> None:
        self.folder = temporary_folder(self.addCleanup)
        self.lines = self.keep("call.jsonl", "".join(line + "\n" for line in FOLLOWED))

    def keep(self, name: str, text: str) -> str:
        path = os.path.join(self.folder, name)
        with open(path, "w", encoding="utf-8") as file:
            file.write(text)
        return path

    def start(self, *words: str, given: int = subprocess.DEVNULL) -> tuple[subprocess.Popen[str], str]:
        """A server with an input, and its address."""
        process = subprocess.Popen(
            [*TOOL, *words, "--no-browser"], stdout=subprocess.PIPE, stderr=subprocess.PIPE, text=True,
            stdin=given, preexec_fn=lambda: signal.signal(signal.SIGINT, signal.SIG_DFL),
        )  # fmt: skip
        self.addCleanup(self.stop, process)
        assert process.stdout is not None
        return process, process.stdout.readline().strip()

    def stop(self, process: subprocess.Popen[str]) -> None:
        """Ends a server that is still there."""
        process.kill()
        process.communicate()

    def ended(self, process: subprocess.Popen[str]) -> tuple[int, str]:
        """The status and the words of a server that Ctrl-C ends."""
        process.send_signal(signal.SIGINT)
        _, said = process.communicate(timeout=SECONDS)
        return process.returncode, said

    def status(self, url: str, **headers: str) -> int:
        """The status of an answer."""
        asked = urllib.request.Request(url, headers={name.replace("_", "-"): value for name, value in headers.items()})
        try:
            with urllib.request.urlopen(asked, timeout=SECONDS) as answer:
                return int(answer.status)
        except urllib.error.HTTPError as why:
            why.close()
            return why.code

    def fetched(self, url: str) -> tuple[bytes, Any]:
        """What a server answers, and its headers."""
        with urllib.request.urlopen(url, timeout=SECONDS) as answer:
            return answer.read(), answer.headers

    def watch(self, url: str, act: Callable[[WebSocketClientConnection], Any], origin: str | None = None) -> Any:
        """What something makes of a connection, as the page has it, or one of another origin."""

        async def run() -> Any:
            headers = {"Origin": url.rstrip("/") if origin is None else origin}
            asked = HTTPRequest(url.replace("http:", "ws:") + "events", headers=headers)
            connection = await websocket_connect(asked)
            try:
                return await act(connection)
            finally:
                connection.close()

        return asyncio.run(run())


def outer_address() -> str | None:
    """Returns the address by which this machine would reach a network; None if it reaches none. Nothing is sent."""
    with socket.socket(socket.AF_INET, socket.SOCK_DGRAM) as asked:
        try:
            asked.connect(("198.51.100.1", 9))
        except OSError:
            return None
        address = str(asked.getsockname()[0])
    return None if address.startswith("127.") else address


async def told_until(connection: WebSocketClientConnection, name: str) -> dict[str, Any]:
    """All that a page is told until something of a name comes; lists are joined."""
    told: dict[str, Any] = {}
    while name not in told:
        message = await asyncio.wait_for(connection.read_message(), SECONDS)
        assert isinstance(message, str), "the server has closed the connection"
        for key, value in json.loads(message).items():
            told[key] = told.get(key, []) + value if isinstance(value, list) else value
    return told


class TheServer(Server):
    def test_lines_and_saved_files(self) -> None:
        process, url = self.start(self.lines)
        told = self.watch(url, lambda connection: told_until(connection, "ended"))
        self.assertEqual(told["hello"]["name"], "call.jsonl")
        self.assertEqual([line["text"] for line in told["lines"]], list(FOLLOWED))
        self.assertEqual(told["lines"][3]["kind"], "paging system")
        self.assertAlmostEqual(told["lines"][3]["seconds"], 737_280 / 1_228_800, places=4)
        self.assertEqual(told["ended"], {"status": 0, "text": f"all {len(FOLLOWED)} lines were read"})
        rows = {name: value for name, value, _ in told["identity"]["Sync message"]}
        self.assertEqual((rows["SID"], rows["PILOT_PN"]), ("4139", "300"))
        saved, headers = self.fetched(url + "save/lines.jsonl")
        self.assertEqual(headers["Content-Disposition"], 'attachment; filename="lines.jsonl"')
        self.assertEqual(run_inside("lines", "--back", data=saved)[1].decode().splitlines(), list(FOLLOWED))
        page, _ = self.fetched(url + "save/report.html")
        self.assertIn(b"BASE_LONG", page)
        self.assertEqual(self.fetched(url + "save/samples.is95")[0], HEADER.pack(b"IS95", 1, 0, 0))
        status, said = self.ended(process)
        ended = f"view: all {len(FOLLOWED)} lines were read; the page stays until Ctrl-C\n"
        self.assertEqual((status, said), (0, ended))

    def test_cells_of_lines(self) -> None:
        """Of lines of two cells each has its base station and its report, and the saved lines have both."""
        lines = [line for line in FOLLOWED if not line.startswith("raw")]
        others = [line.replace("sid=4139", "sid=77") for line in lines]
        objects = [
            json.dumps({**read_line(line), "cell": cell, "carrier": carrier, "channel": "paging1"})
            for cell, carrier, some in ((1, 0, lines), (2, -1_250_000, others)) for line in some
        ]  # fmt: skip

        async def ask(connection: WebSocketClientConnection) -> list[dict[str, Any]]:
            first = await told_until(connection, "ended")
            await connection.write_message('{"cell":1}')
            return [first, await told_until(connection, "chosen")]

        _, url = self.start(self.keep("cells.jsonl", "".join(f"{line}\n" for line in objects)))
        first, second = self.watch(url, ask)
        followed = first["followed"][-2:]  # those of the last update
        self.assertEqual([one["name"] for one in followed], ["1", "2 at -1250000 Hz"])
        self.assertEqual([one["pn"] for one in followed], [300, 300])
        self.assertEqual([one["lines"] for one in followed], [len(lines)] * 2)
        shown = [{row[0]: row[1] for row in told["identity"]["Sync message"]} for told in (first, second)]
        self.assertEqual([one["SID"] for one in shown], ["4139", "77"])
        self.assertEqual(self.fetched(url + "save/lines.jsonl?cell=1")[0].count(b"\n"), len(objects))
        for number, (sid, other) in enumerate(((b"4139", b"=77 "), (b"77", b"=4139 "))):
            page, headers = self.fetched(f"{url}save/report.html?cell={number}")
            self.assertIn(b"sid=%s " % sid, page)
            self.assertNotIn(b"sid%s" % other, page)
            name = ("report-cell-1.html", "report-cell-2-at--1250000-Hz.html")[number]
            self.assertEqual(headers["Content-Disposition"], f'attachment; filename="{name}"')
        for wrong in ("2", "-1", "x", "1" * 5_000, "%d9%a1", ""):
            self.assertEqual(self.status(f"{url}save/report.html?cell={wrong}"), 404, wrong)

    def test_fields_of_a_line(self) -> None:
        async def ask(connection: WebSocketClientConnection) -> dict[str, Any]:
            await told_until(connection, "ended")
            await connection.write_message('{"line":3}')
            return await told_until(connection, "fields")

        _, url = self.start(self.lines)
        rows = {name: (value, meaning) for name, value, meaning in self.watch(url, ask)["fields"]["rows"]}
        self.assertEqual(rows["BASE_ID"], ("58253", "base station"))
        self.assertEqual(rows["BASE_LONG"], ("6625769", "-122.419375°, 122° 25′ 9.75″ W"))

    def test_whom_it_answers(self) -> None:
        process, url = self.start(self.lines)
        self.assertRegex(url, r"^http://127\.0\.0\.1:\d+/$")
        host = url.split("/")[2]
        _, headers = self.fetched(url)
        policy = headers["Content-Security-Policy"]
        self.assertIn(f"connect-src 'self' ws://{host};", policy)
        self.assertIn("default-src 'none'; script-src 'self';", policy)
        self.assertNotRegex(policy, r"script-src[^;]*(unsafe|\*|http)")
        self.assertEqual(self.status(url, Host="evil.example"), 403)
        self.assertEqual(self.status(url, Origin="http://evil.example"), 403)
        self.assertEqual(self.status(url + "save/lines.jsonl", Sec_Fetch_Site="cross-site"), 403)
        for path in ("none", "view.py", "../README.md", "%2e%2e/README.md", "save/other", "token/view.js"):
            self.assertEqual(self.status(url + path), 404, path)
        for headers in ({}, {"Origin": "http://evil.example"}, {"Origin": "null"}):
            with self.subTest(headers=headers), self.assertRaises(HTTPClientError) as why:
                asked = HTTPRequest(url.replace("http:", "ws:") + "events", headers=headers)
                asyncio.run(asyncio.wait_for(connected(asked), SECONDS))
            self.assertEqual(why.exception.code, 403)
        self.assertEqual(self.ended(process)[0], 0)

    def test_a_secret_path(self) -> None:
        _, url = self.start(self.lines, "--listen", "0.0.0.0")
        start, token = url.rsplit("/", 2)[0] + "/", url.rsplit("/", 2)[1]
        start = re.sub(r"//[^:/]+:", "//127.0.0.1:", start)
        self.assertEqual(self.status(start), 404)
        self.assertEqual(self.status(f"{start}{token[:-1]}/"), 404)
        self.assertEqual(self.status(f"{start}view.js"), 404)
        self.assertEqual(self.status(f"{start}{token}/"), 200)
        self.assertEqual(self.status(f"{start}{token}/view.js"), 200)

    def test_another_address(self) -> None:
        """Bound to an address of the network it answers only there, below the secret path, and only its own page."""
        address = outer_address()
        if address is None:
            self.skipTest("this machine has no address of a network")
        _, url = self.start(self.lines, "--listen", address)
        start, token = url.rsplit("/", 2)[0] + "/", url.rsplit("/", 2)[1]
        host = f"{address}:{start.rstrip('/').rsplit(':', 1)[1]}"
        self.assertEqual(start, f"http://{host}/")
        self.assertEqual([self.status(path) for path in (url, f"{url}view.js", f"{url}save/lines.jsonl")], [200] * 3)
        self.assertEqual([self.status(start + path) for path in ("", "view.js", f"{token[:-1]}/")], [404] * 3)
        for name, value in (("Host", "evil.example"), ("Host", "127.0.0.1"), ("Origin", "http://evil.example")):
            self.assertEqual(self.status(url, **{name: value}), 403, (name, value))
        self.assertEqual(self.status(url, Host=host, Origin=f"http://{host}"), 200)
        told = self.watch(url, lambda connection: told_until(connection, "ended"), origin=f"http://{host}")
        self.assertEqual(told["ended"]["status"], 0)
        for origin in ("http://127.0.0.1", "null", "http://evil.example"):
            with self.subTest(origin), self.assertRaises(HTTPClientError) as why:
                self.watch(url, lambda connection: told_until(connection, "ended"), origin=origin)
            self.assertEqual(why.exception.code, 403)
        with self.assertRaises(urllib.error.URLError):
            self.status(url.replace(address, "127.0.0.1"))

    def test_a_client_of_nonsense(self) -> None:
        """A request that isn't the page's ends the connection, and the server stays."""

        async def tell(connection: WebSocketClientConnection, text: str) -> None:
            await connection.write_message(text)
            while await asyncio.wait_for(connection.read_message(), SECONDS) is not None:
                pass

        process, url = self.start(self.lines)
        for text in ("nonsense", "[]", '{"line":"1"}', '{"line":null}', "[" * 900, "x" * 5_000):
            with self.subTest(text=text[:20]):
                self.watch(url, lambda connection: tell(connection, text))
        self.assertEqual(self.status(url), 200)
        self.assertEqual(self.ended(process)[0], 0)

    def test_a_port_that_is_taken(self) -> None:
        with socket.create_server(("127.0.0.1", 0)) as taken:
            port = taken.getsockname()[1]
            status, wrote, said = run_inside("view", self.lines, "--port", port, "--no-browser")
        self.assertEqual((status, wrote), (1, b""))
        self.assertEqual(said, f"view: 127.0.0.1 port {port}: Address already in use\n")

    def test_what_is_no_source(self) -> None:
        raw = ("--type", "cu8", "--rate", "2M", self.lines)
        for words, status, told in (
            ((os.path.join(self.folder, "none.jsonl"),), 2, "give --type and --rate"),
            (("--type", "cu8", "--rate", "2M", os.path.join(self.folder, "none")), 1, "No such file"),
            ((self.lines, "--port", "70000"), 2, "--port"),
            ((self.lines, "--speed", "0"), 2, "--speed"),
            ((*raw, "--traffic-file", os.path.join(self.folder, "none")), 1, "none: No such file"),
            ((*raw, "--traffic", "00c0ffee:32:0"), 2, "no traffic channel on row 32"),
            ((*raw, "--shift", "1", "--shift", "1"), 2, "a carrier is given twice"),
            ((*raw, "--paging", "all", "--raw", "1"), 2, "--raw goes with one channel"),
            ((*raw, "--cells", "2", "--raw", "1"), 2, "--raw goes with one channel"),
            ((*raw, "--cells", "13"), 2, "--cells"),
            ((*raw, "--pn", "512"), 2, "--pn"),
            ((*raw, "--cells", "2", "--pn", "3"), 2, "not allowed with argument"),
            ((*raw, "--pn", "3", "--pn", "3"), 2, "--pn: a cell is given twice"),
            ((self.lines, "--cells", "2"), 2, "--cells and --pn go with a file of samples"),
            ((*raw[:4], "-", "--cells", "2"), 2, "--cells and --pn go with a file of samples"),
            (("--rate", "2M", "rtl_tcp://127.0.0.1:9", "--pn", "1"), 2, "--cells and --pn go with a file of samples"),
            ((*raw, "--cells", "12", *(f"--shift={hertz}" for hertz in range(6))), 2, "more than 64 cells"),
        ):
            with self.subTest(words=words):
                ended, wrote, said = run_inside("view", *words, "--no-browser", "--program", "/bin/true")
                self.assertEqual((ended, wrote, said.count("\n")), (status, b"", 1))
                self.assertIn(told, said)

    def test_a_source_that_ends_the_command(self) -> None:
        """With --exit the command ends with its source, with the source's status: here lines of which one is invalid."""
        broken = self.keep("broken.jsonl", FOLLOWED[0] + "\nnonsense\n")
        process, _ = self.start(broken, "--exit")
        _, said = process.communicate(timeout=SECONDS)
        self.assertEqual((process.returncode, said.count("\n")), (1, 1))
        self.assertIn("line 2 is invalid", said)

    def test_updates_a_second(self) -> None:
        """A page gets at most ten updates a second, whatever comes."""

        async def count(connection: WebSocketClientConnection) -> int:
            await connection.read_message()
            until, number = time.monotonic() + 3, 0
            while (left := until - time.monotonic()) > 0:
                try:
                    message = await asyncio.wait_for(connection.read_message(), left)
                except asyncio.TimeoutError:
                    break
                number += message is not None
            return number

        many = self.keep("many.jsonl", FOLLOWED[0] + "\n" + (FOLLOWED[2] + "\n") * 30_000)
        _, url = self.start(many)
        self.assertLessEqual(self.watch(url, count), 3 * PAGE_MOST + 1)


@unittest.skipUnless(PROGRAM, NO_PROGRAM)
class Channels(Server):
    """Several channels of a recording."""

    parted, seconds = True, 8

    def test_channels(self) -> None:
        """The page gets each message once: what all channels have comes from the first one."""
        path = made_once("channels.cu8", made_recording)
        words = [*STREAM, "--program", str(PROGRAM), "--speed", "1000", "--paging", "all"]
        process, url = self.start(path, *words, *(word for call in TRAFFIC for word in ("--traffic", call)))
        told = self.watch(url, lambda connection: told_until(connection, "ended"))
        self.assertEqual(told["ended"]["status"], 0)
        saved = [json.loads(line) for line in self.fetched(url + "save/lines.jsonl")[0].splitlines()]
        found = Counter((one["channel"], one["line"]) for one in saved)
        names = [f"traffic:{call}" for call in TRAFFIC]
        self.assertEqual({name for name, _ in found}, {"paging1", "paging2", *names})
        self.assertEqual({name for name, kind in found if kind == "sync"}, {"paging1"})
        self.assertEqual({name for name, kind in found if kind == "paging"}, {"paging1", "paging2"})
        self.assertEqual({name for name, kind in found if kind == "frame"}, set(names))
        self.assertTrue(all(found[name, "frame"] > 50 for name in names), found)
        self.assertEqual(self.ended(process)[0], 0)


@unittest.skipUnless(PROGRAM, NO_PROGRAM)
class ARadio(Server):
    """A receiver that an rtl_tcp server on this machine has."""

    parted, seconds = True, 8
    rate, frequency, pn = 1_500_000, 878_490_000, 300

    def test_a_radio(self) -> None:
        """The page shows what is received at which frequency, and that the server went away; Ctrl-C ends it."""
        cell = drawn_cell(random.Random("a radio"), self.pn, ())
        samples = cell.write(os.path.join(self.folder, "cell.is95"), 3 * 1_228_800)
        path = os.path.join(self.folder, "radio.cu8")
        status, _, said = run_inside("channel", *STREAM, "--ec-io", "-8", samples, path)
        self.assertEqual(status, 0, said)
        with open(path, "rb") as file:
            radio = RadioServer([file.read()])
        words = ("--rate", str(self.rate), "--frequency", str(self.frequency), "--program", str(PROGRAM))
        process, url = self.start(*words, radio.address)

        async def watched(connection: WebSocketClientConnection) -> dict[str, Any]:
            told = await told_until(connection, "remarks")
            process.send_signal(signal.SIGINT)
            return {**told, **await told_until(connection, "ended")}

        told = self.watch(url, watched)
        self.assertEqual(radio.commands, [b"\x02%s\x01%s" % (self.rate.to_bytes(4), self.frequency.to_bytes(4))])
        self.assertEqual(told["source"], {"rate": self.rate, "type": "cu8", "frequency": self.frequency})
        self.assertRegex(told["remarks"][0]["text"], f"^the connection to {radio.address} was lost: ")
        shown = {row[0]: row[1] for row in told["identity"]["Sync message"]}
        self.assertEqual((shown["SID"], shown["PILOT_PN"]), (str(cell.sid), str(self.pn)))
        self.assertEqual(told["ended"]["status"], 0)
        _, said = process.communicate(timeout=SECONDS)
        self.assertEqual((process.returncode, said.splitlines()[-1]), (0, f"view: {told['ended']['text']}"))


class Streams(Server):
    """Sources that come as the air does, and how they end."""

    raw = ("--type", "ci8", "--rate", "1228800", "--program", "/bin/true")

    def told(self, url: str) -> dict[str, Any]:
        """How a listening ended, as the page is told."""
        ended: dict[str, Any] = self.watch(url, lambda connection: told_until(connection, "ended"))["ended"]
        return ended

    def test_no_pilot(self) -> None:
        """A stream of noise ends with one line, the page says the same, and the status is that of `listen`."""
        process, url = self.start(*self.raw, "--search", "1000", "-", given=subprocess.PIPE)
        noise = numpy.random.default_rng(5).normal(0, 20, 2 * 1_600_000).round().astype("i1").tobytes()
        assert process.stdin is not None
        with contextlib.suppress(BrokenPipeError), open(process.stdin.fileno(), "wb", closefd=False) as pipe:
            pipe.write(noise)
        process.stdin.close()
        process.stdin = None
        told = self.told(url)
        self.assertEqual(told["status"], 1)
        self.assertRegex(told["text"], "^no pilot stands out anywhere ")
        assert process.stderr is not None
        while " s: " in (said := process.stderr.readline()):
            pass
        self.assertEqual((self.ended(process)[0], said), (1, self.last_line(told) + "\n"))

    def test_an_interrupt(self) -> None:
        """Ctrl-C ends a listening to a stream in order, and then the server; the page is told."""
        process, url = self.start(*self.raw, "-", given=subprocess.PIPE)
        told = self.watch(url, lambda connection: self.interrupted(process, connection))
        self.assertEqual(told["ended"]["status"], 1)
        _, said = process.communicate(timeout=SECONDS)
        self.assertEqual((process.returncode, said), (1, f"view: {told['ended']['text']}\n"))

    async def interrupted(self, process: subprocess.Popen[str], connection: WebSocketClientConnection) -> Any:
        """What a page is told up to the end of a listening that Ctrl-C ends."""
        await told_until(connection, "figures")
        process.send_signal(signal.SIGINT)
        return await told_until(connection, "ended")

    def test_an_interrupt_of_all_processes(self) -> None:
        """SIGTERM to the command and to its child at once, as a service manager sends it, ends both in order."""

        async def interrupted(connection: WebSocketClientConnection) -> Any:
            await told_until(connection, "figures")
            for number in (*children_of(process.pid), process.pid):
                os.kill(number, signal.SIGTERM)
            return await told_until(connection, "ended")

        process, url = self.start(*self.raw, "-", given=subprocess.PIPE)
        told = self.watch(url, interrupted)
        _, said = process.communicate(timeout=SECONDS)
        self.assertEqual((process.returncode, said), (1, f"view: {told['ended']['text']}\n"))

    def test_an_interrupt_while_it_begins(self) -> None:
        """It waits until the loop takes it: then the child and each thread end too.

        A listening that has begun by then ends in order, without a pilot.
        """
        path = os.path.join(temporary_folder(self.addCleanup), "long.cu8")
        with open(path, "wb") as file:
            file.truncate(1 << 28)  # a source that doesn't end before the interrupt is taken
        for place in ("loop", "thread"):
            words = [place, ROOT, *self.raw, "--no-browser", "--exit", path]
            ran = subprocess.run([PYTHON, "-B", "-c", BEGINNING, *words], capture_output=True, text=True, timeout=SECONDS)
            self.assertRegex(f"{ran.returncode} {ran.stderr}", r"\A(130 view: broken off|1 view: no pilot .*)\n\Z", place)

    def test_a_server_that_is_killed(self) -> None:
        """If the command is killed, the process that listens ends too."""
        process, url = self.start(*self.raw, "-", given=subprocess.PIPE)
        self.watch(url, lambda connection: told_until(connection, "figures"))
        (child,) = children_of(process.pid)
        process.kill()
        self.assertTrue(is_gone(child))

    def test_a_server_that_is_not_there(self) -> None:
        with socket.create_server(("127.0.0.1", 0)) as taken:
            port = taken.getsockname()[1]
        process, url = self.start("--rate", "1228800", "--program", "/bin/true", f"rtl_tcp://127.0.0.1:{port}")
        told = self.told(url)
        self.assertEqual(told, {"status": 1, "text": f"rtl_tcp://127.0.0.1:{port}: Connection refused"})
        assert process.stderr is not None
        said = process.stderr.readline()
        self.assertEqual((self.ended(process)[0], said), (1, self.last_line(told) + "\n"))

    def test_a_server_that_goes_away(self) -> None:
        """A source that is unplugged ends the listening as `listen` ends."""
        with socket.create_server(("127.0.0.1", 0)) as server:
            process, url = self.start(*self.raw, "--exit", f"tcp://127.0.0.1:{server.getsockname()[1]}")
            server.settimeout(SECONDS)
            connection, _ = server.accept()
            connection.sendall(bytes(3_001))
            connection.close()
            _, said = process.communicate(timeout=SECONDS)
        self.assertEqual(process.returncode, 1)
        self.assertIn("the stream ended within a sample", said)
        self.assertRegex(said.splitlines()[-1], "^view: no pilot stands out anywhere ")

    def last_line(self, told: dict[str, Any]) -> str:
        """The last line of a server whose page stays."""
        return f"view: {told['text']}; the page stays until Ctrl-C"


def children_of(number: int) -> list[int]:
    """The processes that a process has started."""
    told = subprocess.run(["ps", "--ppid", str(number), "-o", "pid="], capture_output=True, text=True)
    return [int(word) for word in told.stdout.split()]


async def connected(asked: HTTPRequest) -> WebSocketClientConnection:
    """A connection."""
    return await websocket_connect(asked)


if __name__ == "__main__":
    unittest.main()
