"""Tests of several channels that tools/listen follows at once: each has the lines of a listening to it on its own."""

import contextlib
import json
import os
import random
import signal
import subprocess
import tempfile
import time
import unittest
import unittest.mock
from collections import defaultdict
from typing import Any, ClassVar

from tools.tests.helping import (
    HEADER, NO_PROGRAM, PROGRAM, PYTHON, ROOT, made_once, needs, run_inside, temporary_folder,
)  # fmt: skip
from tools.tests.listening_cell import FRAME_BITS, PN, bits_of, drawn, script_of, text_of, traffic_frames

needs("numpy", "scipy")

import numpy

from cdma_tools.errors import Refused
from cdma_tools.lines import read_line, spell_line
from cdma_tools.listening.cells import CellsWanted, cells_of
from cdma_tools.listening.channel_options import Traffic, traffic_in, traffic_of
from cdma_tools.listening.channels import TRIAL, ChannelOutputs, Trial, wanted_channels
from cdma_tools.listening.events import Collected, Event
from cdma_tools.listening.everything import CarrierListening, CarrierThread
from cdma_tools.listening.follow_run import FollowRun, Handset, RunEnded
from cdma_tools.listening.line_writer import LineWriter
from cdma_tools.listening.parts import Recording
from cdma_tools.listening.pieces import Chips
from cdma_tools.listening.relay import Relay
from cdma_tools.listening.seams import LEAST_OVERLAP
from cdma_tools.listening.sharing import Channel, hear_recording
from cdma_tools.listening.stream_lock import LockOptions
from cdma_tools.radio.air import CHIP_RATE, PERIOD
from cdma_tools.recordings import sample_count
from cdma_tools.sources.backlog import Backlog, Item, Skipped

SECONDS, RATE = 7.0, 1_500_000
TOOL = [PYTHON, "-B", os.path.join(ROOT, "tools", "listen")]
STREAM = ["--type", "cu8", "--rate", str(RATE)]
ENVIRONMENT = dict(os.environ, OMP_NUM_THREADS="1", OPENBLAS_NUM_THREADS="1")
TRAFFIC = ("8badf00d:10:3", "1234abcd:20:0")
PAGES = ((40, "half"), (61, "next"), (20, "half"))  # octets of paging channel 2
# Each channel, and the arguments of a listening to it on its own.
ALONE = {
    "paging1": ["--paging", "1"],
    "paging2": ["--paging", "2"],
    "traffic:8badf00d:10:3": ["--esn", "8badf00d", "--row", "10", "--offset", "3"],
    "traffic:1234abcd:20:0": ["--esn", "1234abcd", "--row", "20", "--offset", "0"],
}
TOGETHER = ["--paging", "all", "--traffic", TRAFFIC[0], "--traffic", TRAFFIC[1]]
RATE_TWO, RATE_TWO_BITS = "000000aa:40:5:2", {14_400: 268, 7_200: 126, 3_600: 56, 1_800: 22}  # with the reserved bit


def channels_script(samples: int) -> str:
    """Returns the script of a cell with two paging channels, two traffic channels, and one of rate set 2."""
    draws = random.Random(91)
    lines = script_of(1, 1, 0, samples).splitlines()
    first = next(place for place, line in enumerate(lines) if line.startswith("traffic "))
    second = ["paging channel=2 gain=20"]
    second += [f"page {how} {text_of(drawn(draws, 8 * octets - 38, f'{0x2B:08b}'))}" for octets, how in PAGES]
    call = ["traffic row=20 esn=1234abcd offset=0 gain=22"]
    for rate, bits in traffic_frames(draws):
        assert len(bits) == FRAME_BITS[rate]
        call.append(f"frame {rate} {text_of(bits)} {drawn(draws, 16)}")
    return "".join(f"{line}\n" for line in [*lines[:first], *second, *lines[first:], *call, *rate_two_call()])


def rate_two_call() -> list[str]:
    """Returns the lines of a script with a traffic channel of rate set 2, each of whose frames differs."""
    draws = random.Random(2)
    rates = [rate for _ in range(25) for rate in RATE_TWO_BITS]
    texts = [(rate, text_of(drawn(draws, RATE_TWO_BITS[rate], "0")), drawn(draws, 16)) for rate in rates]
    frames = [f"frame2 {rate} {bits} {commands}" for rate, bits, commands in texts]
    return ["traffic row=40 esn=000000aa offset=5 gain=24", *frames]


def made(script: bytes) -> bytes:
    """Returns the sample file of a script."""
    return subprocess.run([PROGRAM or "", "make"], input=script, stdout=subprocess.PIPE, check=True).stdout


def made_recording(place: str) -> None:
    """Writes a recording of the cell."""
    with tempfile.TemporaryDirectory() as folder:
        cell = os.path.join(folder, "cell.is95")
        with open(cell, "wb") as file:
            file.write(made(channels_script(int(SECONDS * CHIP_RATE)).encode("ascii")))
        words = [*STREAM, "--carrier", "2000", "--clock", "3", "--delay", "0.4", "--ec-io", "-9"]
        channel = [PYTHON, "-B", os.path.join(ROOT, "tools", "channel"), *words, cell, place]
        subprocess.run(channel, check=True, capture_output=True, env=ENVIRONMENT)


def listen(*words: Any, data: bytes | None = None) -> tuple[int, bytes, str]:
    """Runs the tool; returns its status, its output and its standard error."""
    ran = subprocess.run(
        [*TOOL, *STREAM, *map(str, words)], input=data, stdin=None if data is not None else subprocess.DEVNULL,
        capture_output=True, env=ENVIRONMENT, timeout=600,
    )  # fmt: skip
    return ran.returncode, ran.stdout, ran.stderr.decode()


def file_of(channel: str, end: str = ".txt") -> str:
    """Returns the name of the file of a channel."""
    return f"cell1-{channel.replace(':', '-')}{end}"


def files_in(folder: str) -> dict[str, bytes]:
    """Returns the files of a folder."""
    found = {}
    for name in os.listdir(folder):
        with open(os.path.join(folder, name), "rb") as file:
            found[name] = file.read()
    return found


def made_lines(place: str) -> None:
    """Writes the lines of listenings to each channel on its own, and those of a listening to all."""
    path, told = made_once("channels.cu8", made_recording), dict[str, str]()
    for name, words in ALONE.items():
        status, wrote, said = listen(path, *words)
        assert (status, said) == (0, ""), said
        told[name] = wrote.decode()
    with open(place, "w", encoding="utf-8") as file:
        json.dump(told, file)


@unittest.skipUnless(PROGRAM, NO_PROGRAM)
class Together(unittest.TestCase):
    """A recording of a cell, and what is decoded of each of its channels."""

    parted, seconds = True, 25
    folder: ClassVar[str]
    path: ClassVar[str]  # of the recording
    alone: ClassVar[dict[str, bytes]]

    @classmethod
    def setUpClass(cls) -> None:
        cls.folder = temporary_folder(cls.addClassCleanup)
        cls.path = made_once("channels.cu8", made_recording)
        with open(made_once("channels.json", made_lines), encoding="utf-8") as file:
            cls.alone = {name: text.encode() for name, text in json.load(file).items()}

    def test_a_file_of_each_channel(self) -> None:
        """Paging channels without a message have none, and a listening that was broken off is continued."""
        folder = os.path.join(self.folder, "all")
        self.assertEqual(listen(self.path, *TOGETHER, "--out-dir", folder), (0, b"", ""))
        wanted = {file_of(name): lines for name, lines in self.alone.items()}
        self.assertEqual(files_in(folder), wanted)
        for name, kind in (("paging2", b"\npaging "), ("traffic:1234abcd:20:0", b"\nframe ")):
            self.assertGreater(self.alone[name].count(kind), 15, name)
        with open(os.path.join(folder, file_of("paging2")), "r+b") as file:
            file.truncate(len(self.alone["paging2"]) // 2)
        os.unlink(os.path.join(folder, file_of("traffic:8badf00d:10:3")))
        self.assertEqual(listen(self.path, *TOGETHER, "--out-dir", folder), (0, b"", ""))
        self.assertEqual(files_in(folder), wanted)

    def test_objects_of_a_stream(self) -> None:
        with open(self.path, "rb") as file:
            status, wrote, said = listen("-", *TOGETHER, "--json", data=file.read())
        self.assertEqual((status, said), (0, ""))
        found: dict[str, list[str]] = defaultdict(list)
        for line in wrote.decode().splitlines():
            read = json.loads(line)
            self.assertEqual([read["cell"], read["carrier"]], [1, 0])
            found[read["channel"]].append(spell_line(read))
        told = {name: "".join(f"{line}\n" for line in lines).encode() for name, lines in found.items()}
        self.assertEqual(told, self.alone)

    def test_rate_set_two(self) -> None:
        """Its frames are those that are sent, one after the other, and the other lines those of paging channel 1."""
        status, wrote, said = listen(self.path, "--traffic", RATE_TWO)
        self.assertEqual((status, said), (0, ""))
        lines = wrote.decode().splitlines()
        self.check_frames([line for line in lines if line.startswith("frame2 ")], 200)
        others = [line for line in lines if not line.startswith("frame2 ")]
        self.assertEqual("".join(f"{line}\n" for line in others).encode(), self.alone["paging1"])
        places = [read_line(line).get("at", 0) for line in lines]
        self.assertEqual(places, sorted(places))

    def check_frames(self, lines: list[str], least: int) -> None:
        """Checks that more than `least` frames of rate set 2 are those that are sent, one after the other."""
        self.assertGreater(len(lines), least)
        sent = [line.split() for line in rate_two_call()[1:]]
        reads = [read_line(line) for line in lines]
        found = [["frame2", str(one["rate"]), one["bits"], "".join(map(str, one["commands"]))] for one in reads]
        first = sent.index(found[0])
        self.assertEqual(found, [sent[(first + number) % len(sent)] for number in range(len(found))])
        begin = reads[0]["at"]
        self.assertTrue(all(abs(one["at"] - begin - 24_576 * number) < 32 for number, one in enumerate(reads)))

    def relayed(self, seams: tuple[float, ...], killed: dict[int, str]) -> tuple[Relay, Collected, int]:
        """Returns what is decoded of 9 seconds with seams, and the first chip; at pieces of chips a process is killed.
        """
        parts = numpy.frombuffer(made(channels_script(9 * CHIP_RATE).encode("ascii"))[HEADER.size :], dtype=">i2")
        first, heard = -64 * PN % PERIOD, Collected()
        handset = wanted_channels(Handset(PROGRAM or ""), None, [traffic_of(RATE_TWO)])[0].handset
        relay = Relay(handset, heard, first, LEAST_OVERLAP, [first + int(second * CHIP_RATE) for second in seams])
        try:
            for number, place in enumerate(range(0, len(parts), 1 << 17)):
                if number in killed:
                    getattr(relay.current, killed[number]).process.kill()
                relay.feed(Chips(first + place // 2, parts[place : place + (1 << 17)].tobytes()))
            relay.finish()
        finally:
            relay.kill()
        return relay, heard, first

    def test_seams_of_rate_set_two(self) -> None:
        """Each frame is reported once over two seams."""
        relay, heard, first = self.relayed((4.9, 6.9), {})
        self.assertEqual((len(relay.seams), heard.remarks), (2, []))
        lines = [event.counted_from(first) for event in heard.events]
        self.check_frames([line for line in lines if line.startswith("frame2 ")], 300)

    def test_killed_runs_of_rate_set_two(self) -> None:
        """Whichever of its two processes is killed, another run takes its place, and no frame is missing."""
        _, heard, first = self.relayed((), {60: "frames", 110: "guide"})
        text = f"traffic:{RATE_TWO}: a run of cdma_replay follow was ended by SIGKILL: another one replaces it"
        self.assertEqual([remark.text for remark in heard.remarks], [text, text])
        lines = [event.counted_from(first) for event in heard.events]
        self.check_frames([line for line in lines if line.startswith("frame2 ")], 300)

    def test_parts(self) -> None:
        """In parts of two seconds, each channel's lines are those of the same parts on its own."""
        lock = LockOptions("cu8", float(RATE))
        recording = Recording(self.path, sample_count(self.path, "cu8"), lock)
        wanted = wanted_channels(Handset(PROGRAM or ""), (1, 2), [traffic_of(TRAFFIC[0])])

        def heard(handsets: list[Handset]) -> list[bytes]:
            """Returns the lines of channels that are listened to together."""
            lines = [list[bytes]() for _ in handsets]
            channels = [Channel(one, LineWriter(wrote.append, False, {})) for one, wrote in zip(handsets, lines)]
            self.assertTrue(hear_recording(recording, channels, 2.0, 1, None))
            return [b"".join(one) for one in lines]

        handsets = [one.handset for one in wanted]
        self.assertEqual(heard(handsets), [heard([one])[0] for one in handsets])

    def test_streams_that_are_appended(self) -> None:
        folder = os.path.join(self.folder, "streams")
        words = ["-", "--paging", "1,2", "--out-dir", folder, "--json"]
        with open(self.path, "rb") as file:
            data = file.read(2 * 4 * RATE)
        self.assertEqual(listen(*words, data=data)[0], 0)
        first = files_in(folder)
        self.assertEqual(set(first), {file_of("paging1", ".jsonl"), file_of("paging2", ".jsonl")})
        status, _, said = listen(*words, data=data)
        self.assertEqual((status, said.count("\n")), (1, 1), said)
        self.assertIn("give --append", said)
        self.assertEqual(files_in(folder), first)
        self.assertEqual(listen(*words, "--append", data=data)[0], 0)
        for name, lines in files_in(folder).items():
            before, origin, after = lines.partition(b'{"line":"origin"')
            self.assertEqual((before, after[after.index(b"\n") + 1 :]), (first[name], first[name]), name)

    def test_ctrl_c_ends_in_order(self) -> None:
        folder = os.path.join(self.folder, "ended")
        words = [*TOOL, *STREAM, "-", *TOGETHER, "--out-dir", folder]
        with open(self.path, "rb") as file:
            data = file.read(2 * 5 * RATE)
        run = subprocess.Popen(
            words, stdin=subprocess.PIPE, stderr=subprocess.PIPE, env=ENVIRONMENT, text=False,
            preexec_fn=lambda: signal.signal(signal.SIGINT, signal.SIG_DFL),
        )  # fmt: skip
        assert run.stdin is not None and run.stderr is not None
        run.stdin.write(data)
        run.stdin.flush()
        path, until = os.path.join(folder, file_of("paging2")), time.monotonic() + 300
        while not (os.path.exists(path) and os.path.getsize(path) > 2_500) and time.monotonic() < until:
            self.assertIsNone(run.poll())
            time.sleep(0.05)
        run.send_signal(signal.SIGINT)
        said = run.stderr.read().decode()
        run.stdin.close()
        run.stderr.close()
        self.assertEqual((run.wait(), said.count("\n")), (0, 1), said)
        self.assertIn("lines were written, 0 samples were lost", said)
        found = files_in(folder)
        self.assertEqual(set(found), {file_of(name) for name in ALONE})
        for name, lines in self.alone.items():
            wrote = found[file_of(name)].splitlines()
            self.assertGreater(len(wrote), 20)
            self.assertEqual(wrote[:-3], lines.splitlines()[: len(wrote) - 3], name)


WIDE_RATE, WIDE_SECONDS = 4_000_000, 2.6
CARRIERS = {1_250_000: 300, -1_250_000: 100}  # the carriers of a wide recording, and PILOT_PN on each


def cell_script(pn: int, seconds: float) -> str:
    """Returns the script of a cell with a PILOT_PN."""
    return script_of(pn, 1, 0, int(seconds * CHIP_RATE)).replace(f"pn={PN}", f"pn={pn}")


def pages_of(script: str) -> set[str]:
    """Returns the bits of the pages that a script sends, after their type."""
    bodies = [bits_of(line.split()[2]) for line in script.splitlines() if line.startswith("page ")]
    return {text_of(body[8:]) for body in bodies}


@unittest.skipUnless(PROGRAM, NO_PROGRAM)
class Elsewhere(unittest.TestCase):
    """Several carriers of a wide recording, and several cells of one carrier."""

    parted, seconds = True, 25
    folder: ClassVar[str]

    @classmethod
    def setUpClass(cls) -> None:
        cls.folder = temporary_folder(cls.addClassCleanup)
        for pn in CARRIERS.values():
            with open(os.path.join(cls.folder, f"{pn}.is95"), "wb") as file:
                file.write(made(cell_script(pn, WIDE_SECONDS).encode("ascii")))

    def at(self, name: str) -> str:
        """Returns the path of a file."""
        return os.path.join(self.folder, name)

    def recorded(self, out: str, *words: str) -> str:
        """Returns the path of a recording, written by tools/channel."""
        channel = [PYTHON, "-B", os.path.join(ROOT, "tools", "channel"), "--ec-io", "-8", *words, self.at(out)]
        subprocess.run(channel, check=True, capture_output=True, env=ENVIRONMENT)
        return self.at(out)

    def check_cell(self, lines: bytes, pn: int) -> None:
        """Checks that lines are those of a cell: its sync messages, and only pages that it sends."""
        reads = [read_line(line) for line in lines.decode().splitlines()]
        pages = [one["bits"] for one in reads if one["line"] == "paging"]
        self.assertGreater(len(pages), 4)
        self.assertLessEqual(set(pages), pages_of(cell_script(pn, WIDE_SECONDS)))
        self.assertEqual({one["pn"] for one in reads if one["line"] == "sync"}, {pn})

    def wide(self) -> str:
        """Returns the path of a recording with two carriers."""
        rate = ["--type", "cf32", "--rate", str(WIDE_RATE)]
        samples = [
            numpy.fromfile(self.recorded(f"{pn}.cf32", *rate, "--carrier", str(hertz), self.at(f"{pn}.is95")), "<c8")
            for hertz, pn in CARRIERS.items()
        ]
        count = min(map(len, samples))
        both = sum(one[:count] / numpy.sqrt(numpy.mean(numpy.abs(one) ** 2)) for one in samples)
        parts = numpy.asarray(both, dtype="<c8").view("<f4")
        (parts * 25 + 127.5).clip(0, 255).astype(numpy.uint8).tofile(self.at("wide.cu8"))
        return self.at("wide.cu8")

    def test_carriers(self) -> None:
        path, rate = self.wide(), ["--rate", WIDE_RATE]
        shifts = [word for hertz in CARRIERS for word in ("--shift", hertz)]
        alone = {}
        for hertz, pn in CARRIERS.items():
            status, alone[hertz], said = listen(path, *rate, "--shift", hertz)
            self.assertEqual((status, said), (0, ""))
            self.check_cell(alone[hertz], pn)
        folder = self.at("carriers")
        status, wrote, said = listen(path, *rate, *shifts, "--shift", 0, "--out-dir", folder)
        self.assertEqual((status, wrote), (0, b""))
        self.assertEqual(said.splitlines()[-1], "listen: carrier +0 Hz: no pilot stands out")
        found = files_in(folder)
        self.assertEqual(found.pop("carrier+0-cell1-paging1.txt"), b"")
        self.assertEqual(found, {f"carrier{hertz:+}-cell1-paging1.txt": lines for hertz, lines in alone.items()})
        with open(path, "rb") as file:
            status, wrote, said = listen("-", *rate, *shifts, "--json", data=file.read())
        self.assertEqual((status, said), (0, ""))
        told: dict[int, list[str]] = defaultdict(list)
        for line in wrote.decode().splitlines():
            read = json.loads(line)
            told[read["carrier"]].append(spell_line(read))
        for hertz, lines in alone.items():
            self.assertEqual(told[hertz], lines.decode().splitlines())

    def test_cells(self) -> None:
        words = [*STREAM, "--carrier", "1000", self.at("300.is95"), self.at("100.is95") + ":-3:40"]
        path, folder = self.recorded("two.cu8", *words), self.at("cells")
        status, wrote, said = listen(path, "--cells", 2, "--out-dir", folder)
        self.assertEqual((status, wrote, said.count("\n")), (0, b"", 2), said)
        found = files_in(folder)
        self.assertEqual(set(found), {"cell1-paging1.txt", "cell2-paging1.txt"})
        for number, pn in ((1, 300), (2, 100)):
            self.check_cell(found[f"cell{number}-paging1.txt"], pn)


class Threads(unittest.TestCase):
    """What comes of a stream, handed to several carriers."""

    seconds = 3

    def test_each_gets_everything(self) -> None:
        items: list[Item] = [b"x" * 1_000_000] * 90
        took: list[list[Any]] = [[], []]
        fault = Refused("it went away")
        feeder = Backlog(1 << 30)
        for item in [*items, Skipped(4, "lost"), fault]:
            feeder.put(item)
        lives = [unittest.mock.Mock(take_all=one.extend) for one in took]
        with self.assertRaisesRegex(Refused, "it went away"):
            CarrierListening(lives).share(feeder, [CarrierThread(live) for live in lives])
        self.assertEqual(took, 2 * [[*items, Skipped(4, "lost")]])

    def test_a_carrier_that_fails_ends_all(self) -> None:
        def fail(backlog: Backlog) -> None:
            next(iter(backlog))
            raise Refused("the disk is full")

        feeder = Backlog(1 << 30)
        for _ in range(90):
            feeder.put(b"x" * 1_000_000)
        lives = [unittest.mock.Mock(take_all=fail), unittest.mock.Mock(take_all=list)]
        with self.assertRaisesRegex(Refused, "the disk is full"):
            CarrierListening(lives).share(feeder, [CarrierThread(live) for live in lives])


class Words(unittest.TestCase):
    """Arguments that don't go together: one line that names what is wrong."""

    seconds = 4

    def check(self, why: str, *words: str, status: int = 2) -> None:
        """Checks the status of a run, its one line, and what that names."""
        ran, wrote, said = run_inside("listen", *STREAM, "--program", "/bin/true", "none.cu8", *words)
        self.assertEqual((ran, wrote, said.count("\n")), (status, b"", 1), said)
        self.assertIn(why, said)

    def test_arguments(self) -> None:
        call = "00c0ffee:12:2"
        self.check("--esn doesn't go with several", "--traffic", call, "--esn", "00c0ffee", "--row", "9")
        self.check("--esn doesn't go with several", "--paging", "1,2", "--row", "9", "--esn", "00c0ffee")
        self.check(f"traffic:{call}: this channel is given twice", "--traffic", call, "--traffic", call)
        self.check("no traffic channel on row 32", "--traffic", "00c0ffee:32:2")
        self.check("no traffic channel on row 64", "--traffic", "00c0ffee:64:2")
        self.check("row 2 is that of paging channel 2", "--traffic", "00c0ffee:2:2", "--paging", "1,2")
        self.check("row 1 is that of paging channel 1", "--traffic", "00c0ffee:1:2", "--paging", "all")
        self.check("OFFSET is not 0 to 15", "--traffic", "00c0ffee:12:16")
        self.check("ESN is not eight", "--traffic", "C0FFEE:12:1")
        self.check("not ESN:ROW:OFFSET", "--traffic", "00c0ffee:12")
        self.check("the rate set is not 1 or 2", "--traffic", "00c0ffee:12:2:3")
        for number in ("0", "8", "1,1", "1,", "ALL", "1,2,x", "9" * 500):
            self.check("not different paging channels", "--paging", number)
        self.check("--out goes with one channel", "--paging", "all", "--out", "x.txt")
        self.check("--pcapng goes with one channel", "--traffic", call, "--pcapng", "x.pcapng")
        self.check("--meta goes with one channel", "--traffic", call, "--meta", "x.sigmf-meta")
        self.check("--raw has a channel of its own", "--paging", "1,2", "--raw", "1", "--json")
        self.check("is not a folder", "--out-dir", __file__)
        self.check("--append needs --out", "--append", "--paging", "all")
        self.check("--shift: a carrier is given twice", "--shift", "5", "--shift", "5.0")
        self.check("--out goes with one channel", "--cells", "2", "--out", "x.txt")
        self.check("not allowed with argument", "--cells", "2", "--pn", "2")
        self.check("--pn: a cell is given twice", "--pn", "2", "--pn", "2")
        for words in (("--cells", "2"), ("--pn", "9")):
            status, _, said = run_inside("listen", *STREAM, "--program", "/bin/true", "-", *words)
            self.assertEqual((status, said), (2, "listen: --cells and --pn go with a file of samples\n"))

    def test_a_file_of_channels(self) -> None:
        folder = temporary_folder(self.addCleanup)
        path = os.path.join(folder, "channels.txt")
        for text, why in (
            ("00c0ffee:12:2\n00c0ffee:12\n", "line 2: not ESN:ROW:OFFSET"),
            ("\n# nothing\n", "no traffic channel is in it"),
            ("00c0ffee:12:2\n 00c0ffee:12:2 # again\n", "given twice"),
            ("x" * 100_000, "line 1: not ESN:ROW:OFFSET"),
            ("00c0ffee:1:2\n", "row 1 is that of paging channel 1"),
            ("".join(f"{esn:08x}:9:0\n" for esn in range(65)), "more than 64 channels"),
        ):
            with open(path, "w", encoding="utf-8") as file:
                file.write(text)
            self.check(why, "--traffic-file", path, status=1)
        with open(path, "w", encoding="utf-8") as file:
            file.write("# two calls\n\n00c0ffee:12:2\n  00c0fff0:63:15:2  # of rate set 2\n")
        self.assertEqual(traffic_in(path), [Traffic("00c0ffee", 12, 2), Traffic("00c0fff0", 63, 15, 2)])
        self.check("No such file", "--traffic-file", os.path.join(folder, "none"), status=1)


class Parts(unittest.TestCase):
    """The parts of a listening to several channels."""

    seconds = 3

    def test_the_channels_that_are_wanted(self) -> None:
        base, call = Handset("program", fingers=2), Traffic("00c0ffee", 3, 4)
        cases: tuple[tuple[tuple[int, ...] | None, list[Traffic], list[str]], ...] = (
            (None, [], ["paging1"]),
            (None, [call], ["traffic:00c0ffee:3:4"]),
            ((2, 1), [call], ["paging2", "paging1", "traffic:00c0ffee:3:4"]),
            ((), [call], ["paging1", "paging2", "paging4", "paging5", "paging6", "paging7", "traffic:00c0ffee:3:4"]),
        )
        for paging, traffic, names in cases:
            wanted = wanted_channels(base, paging, traffic)
            self.assertEqual([one.handset.name for one in wanted], names)
            tried = [one.handset.name for one in wanted if one.is_tried]
            self.assertEqual(tried, names[1:-1] if paging == () else [])
            self.assertTrue(all(one.handset.fingers == 2 for one in wanted))
        self.assertEqual(wanted_channels(base, (2,), [call])[1].handset.paging, 2)

    def test_the_cells_that_are_wanted(self) -> None:
        """Cells are looked for, the strongest first, until all are found whose PILOT_PNs are wanted."""
        for pns, wanted, looked in (((7,), [2], 2), ((3, 7), [2, 3], 3), ((9,), [1], 1), ((3, 8), None, 3)):
            search, lines = unittest.mock.Mock(), list[str]()
            search.next_cell.side_effect = ["a", "b", "c", None]
            sent = iter([9, 7, 3])
            with (
                unittest.mock.patch("cdma_tools.analysis.importing.written_pn", lambda *_: next(sent)),
                unittest.mock.patch("cdma_tools.analysis.importing.told", lambda number, _, pn: f"{number}: {pn}"),
            ):
                if wanted is None:
                    with self.assertRaisesRegex(Refused, "^3 cells were found, none of them with PILOT_PN 8: 9, 7, 3$"):
                        cells_of(search, CellsWanted(None, pns, "program"), lines.append)
                else:
                    self.assertEqual(cells_of(search, CellsWanted(None, pns, "program"), lines.append), wanted)
            self.assertEqual(lines, ["1: 9", "2: 7", "3: 3"][:looked])

    def test_a_channel_that_is_tried(self) -> None:
        page = "paging at=9 other type=42 bits=0:"
        frame = "frame at=9 rate=1200 good=1 bits=0: commands=0000000000000000"
        for late, is_passed in ((TRIAL, True), (TRIAL + 1, False)):
            heard = Collected()
            trial = Trial(heard)
            trial.begin(7)
            events = [Event(100, "pilot phase=1 energy=2"), Event(100 + late, frame), Event(100 + late, page)]
            for event in events:
                self.assertEqual(heard.events, [])
                trial.event(event)
            self.assertEqual((trial.is_passed, trial.is_over), (is_passed, not is_passed))
            self.assertEqual(heard.events, events * is_passed)
            trial.event(events[1])
            self.assertEqual(heard.events, [*events, events[1]] * is_passed)

    def test_a_run_that_takes_no_chips_is_killed(self) -> None:
        folder = temporary_folder(self.addCleanup)
        program = os.path.join(folder, "stuck")
        with open(program, "w", encoding="ascii") as file:
            file.write("#!/bin/sh\nexec sleep 1000\n")
        os.chmod(program, 0o755)
        with unittest.mock.patch("cdma_tools.listening.follow_run.MOST_STUCK", 0.2):
            run = FollowRun(Handset(program), 0)
            with contextlib.closing(contextlib.ExitStack()) as stack:
                stack.callback(run.kill)
                with self.assertRaises(RunEnded) as caught:
                    run.write(bytes(1 << 22))
            self.assertTrue(caught.exception.is_killed)
            with contextlib.ExitStack() as stack:
                run = FollowRun(Handset(program), 0)
                stack.callback(run.kill)
                self.assertRaises(RunEnded, run.close)

    def test_files_are_opened_again(self) -> None:
        folder = temporary_folder(self.addCleanup)
        line = b"pilot phase=1 energy=2\n"
        with ChannelOutputs(os.path.join(folder, "new"), False) as outputs:
            kept, later = outputs.of("cell1-paging1", False), outputs.of("cell1-paging2", True)
            self.assertEqual(os.listdir(os.path.join(folder, "new")), ["cell1-paging1.txt"])
            for output in (kept, later):
                output.write(line)
                os.rename(outputs.path(f"cell1-paging{1 if output is kept else 2}"), os.path.join(folder, "moved"))
            outputs.reopen()
            for output in (kept, later):
                output.write(2 * line)
        self.assertEqual(files_in(os.path.join(folder, "new")), {f"cell1-paging{n}.txt": 2 * line for n in (1, 2)})
        with open(os.path.join(folder, "file"), "wb"):
            pass
        with self.assertRaisesRegex(Refused, "Not a directory"):
            ChannelOutputs(os.path.join(folder, "file", "x"), False).__enter__()

    def test_objects_with_a_place_go_back_to_lines(self) -> None:
        for line in ("pilot phase=1 energy=2", "raw at=5 paging 8:ff", "paging at=5 other type=42 bits=0:"):
            read = read_line(line)
            place = {"cell": 2, "carrier": -1_250_000, "channel": "paging1"}
            self.assertEqual(spell_line(place | read), line)


if __name__ == "__main__":
    unittest.main()
