"""Tests of the streaming lock, over recordings that are made without the program."""

import json
import math
import os
import subprocess
import unittest
import unittest.mock
from typing import Any, ClassVar

import numpy
from numpy.typing import NDArray

from tools.tests.helping import HEADER, PYTHON, ROOT, needs, temporary_folder
from tools.tests.radio_helping import (
    PERIOD, PHASE, Recordings, cell_chips, figures, read_chips, run_main, signal_to_noise,
)  # fmt: skip

needs("numpy", "scipy")

from cdma_tools.listening.instants import MEMORY, STEP, Instants
from cdma_tools.listening.pieces import Break, Chips, Lost, Piece, Unheard
from cdma_tools.listening.ring import Ring
from cdma_tools.listening.stream_lock import LockOptions, StreamLock
from cdma_tools.listening.streaming_front import StreamingFront
from cdma_tools.listening.timeline import Node, Timeline
from cdma_tools.radio.fitting import FINE_DELAYS, Fit
from cdma_tools.radio.front import Front
from cdma_tools.radio.strength import PilotMeter
from cdma_tools.radio.tracking import REACH, SUM, SUMS, Point
from cdma_tools.recordings import TYPES, Recording
from cdma_tools.sample_file import SampleFile

CHIP_RATE = 1_228_800
RATE = 2_400_000
BLOCK = 480_000  # bytes that are fed at once, if it doesn't matter
# The pilot's energy over noise and the other rows' at the shared recording's Ec/Io; chips at a wrong place have none.
LEAST_SIGNAL = -4.0


def narrow(kind: str = "cu8", rate: float = RATE) -> StreamLock:
    """A lock that searches few carriers, for speed."""
    return StreamLock(LockOptions(kind, rate, search=3_000.0, conjugate="no"))


def noise_of(count: int, seed: int) -> bytes:
    """Returns `count` samples of noise, with I and Q of 8 bits."""
    return numpy.random.default_rng(seed).integers(60, 196, 2 * count, dtype=numpy.uint8).tobytes()


def taken(lock: StreamLock, data: bytes, *sizes: int) -> list[Piece]:
    """Returns the pieces of bytes that arrive in blocks of sizes in turn, up to the stream's end."""
    pieces, place, number = list[Piece](), 0, 0
    while place < len(data):
        size = sizes[number % len(sizes)]
        pieces += lock.feed(data[place : place + size])
        place, number = place + size, number + 1
    return [*pieces, *lock.finish()]


def joined(pieces: list[Piece]) -> tuple[int, NDArray[numpy.complex128]]:
    """Returns the first chip's number, and the chips, with zeros for lost ones; pieces must follow each other."""
    first, parts, end = None, list[bytes](), 0
    for piece in pieces:
        if isinstance(piece, (Chips, Lost)):
            first = piece.first if first is None else first
            assert not parts or piece.first == end, (piece.first, end)
            parts.append(piece.parts if isinstance(piece, Chips) else bytes(4 * piece.chips))
            end = piece.first + len(parts[-1]) // 4
    assert first is not None
    samples = numpy.frombuffer(b"".join(parts), dtype=">i2").astype(float)
    return first, samples[0::2] + 1j * samples[1::2]


def ec_io(first: int, chips: NDArray[numpy.complex128]) -> float:
    """Returns the pilot's share of the power of chips, in dB."""
    meter = PilotMeter()
    meter.add(first, chips.astype(numpy.complex64))
    return meter.ec_io


class LockTest(Recordings):
    """A cell of some seconds over a link, locked as a stream."""

    seconds = 40

    CHIPS = 3 * CHIP_RATE
    CLOCK = 4e-6

    data: ClassVar[bytes]  # a recording of all of the cell

    @classmethod
    def setUpClass(cls) -> None:
        super().setUpClass()
        words = ["--type", "cu8", "--carrier", "1500", "--clock", str(1e6 * cls.CLOCK), "--ec-io", "-8"]
        status, _, said = run_main("channel", *words, cls.cell, cls.at("shared.sigmf-meta"))
        assert not status, said
        with open(cls.at("shared.sigmf-data"), "rb") as file:
            cls.data = file.read()

    def bytes_of(self, *words: object, **given: Any) -> bytes:
        """Returns the samples of a recording of the cell."""
        meta = self.recorded(*words, **given)
        with open(meta.replace(".sigmf-meta", ".sigmf-data"), "rb") as file:
            return file.read()

    def sent_at(self, first: int, count: int) -> NDArray[numpy.complex128]:
        """Returns the chips that the cell sent, by the number of the first one."""
        place = (first - PHASE) % PERIOD
        place -= PERIOD if place > PERIOD // 2 else 0
        self.assertGreaterEqual(place, 0)
        return self.sent[place : place + count]

    def test_it_loses_no_more_than_the_lock_of_a_file(self) -> None:
        for kind, rate, link in (
            ("cu8", RATE, "--carrier -12000 --clock -22 --delay 0.4 --ec-io -9 --dc 0.1"),
            ("ci16_le", 1_500_000, "--carrier 700 --drift 40 --clock 3 --ec-io -9"),
            ("cf32_le", 4_915_200, "--carrier 2000 --clock 5 --ec-io -11 --conjugate"),
        ):
            words = ["--type", kind, "--rate", rate, "--seconds", 2.5, *link.split()]
            data = self.bytes_of(*words)
            found = self.locked(self.at("in.sigmf-meta"))
            whole, sent = self.aligned(self.at("out.is95"), found)
            first, chips = joined(taken(StreamLock(LockOptions(kind, rate)), data, BLOCK))
            start = int(found["phase"]) % PERIOD
            self.assertLess(abs(ec_io(first, chips) - ec_io(start, whole)), 0.05)
            loss = signal_to_noise(whole, sent) - signal_to_noise(chips, self.sent_at(first, len(chips)))
            self.assertLess(abs(loss), 0.05, (kind, link))
            self.assertGreater(len(chips), 2.5 * CHIP_RATE - 10_000)

    def test_chips_do_not_depend_on_how_bytes_are_cut(self) -> None:
        """Over a loss, a pilot that is absent for three seconds, and bytes that end within a sample."""
        head, tail = self.data[: 3 * RATE], self.data[3 * RATE + 2 * 30_000 : 5 * RATE]
        stream = head + tail + noise_of(3 * RATE, 5) + self.data[: 5 * RATE]
        wanted: list[Piece] | None = None
        for sizes in ((BLOCK,), (48_001, 1, 299_997, 37), (len(stream),)):
            got = merged(taken(narrow(), stream, *sizes))
            wanted = got if wanted is None else wanted
            self.assertEqual(got, wanted, sizes)
        assert wanted is not None
        kinds = [type(piece) for piece in wanted if not isinstance(piece, Unheard)]
        self.assertEqual(kinds, [Chips, Lost, Chips, Break, Chips])

    def test_chips_come_in_time(self) -> None:
        """Once locked, a chip comes out at most 0.3 seconds after its samples, counted in samples."""
        lock, late = narrow(), list[float]()
        for place in range(0, len(self.data), 2 * RATE // 100):
            pieces = list(lock.feed(self.data[place : place + 2 * RATE // 100]))
            if late or any(isinstance(piece, Chips) for piece in pieces):
                late.append(lock.seconds - (lock.out - (lock.origin or 0)) / CHIP_RATE)
        self.assertGreater(len(late), 50)
        self.assertLess(max(late), 0.3)

    def test_overload_is_that_of_the_lock_of_a_file(self) -> None:
        """At a level near full scale, and with bursts far above it, no more of the pilot is lost than in a file."""
        meta = self.recorded("--type", "cu8", "--level", -1, "--carrier", 900, "--clock", 3, "--ec-io", -9)
        path = meta.replace(".sigmf-meta", ".sigmf-data")
        samples = numpy.fromfile(path, dtype=numpy.uint8)
        for place in range(RATE, len(samples), RATE // 3):
            samples[place : place + 4_000] = numpy.resize([255, 255, 0, 0], 4_000)
        samples.tofile(path)
        found = self.locked(meta, "--search", 3_000)
        share = ec_io(int(found["phase"]), read_chips(self.at("out.is95")))
        first, chips = joined(taken(narrow(), samples.tobytes(), BLOCK))
        self.assertLess(abs(ec_io(first, chips) - share), 0.05)
        self.assertGreater(len(chips), 2.9 * CHIP_RATE)

    def test_memory_of_the_process(self) -> None:
        """The peak memory of a separate process, with samples at 2.4 million a second."""
        path = self.at("shared.sigmf-data")
        words = ["-m", "cdma_tools.listening.measuring", "cu8", RATE, path, self.at("chips.is95"), 1]
        ran = subprocess.run([PYTHON, "-B", *map(str, words)], cwd=ROOT, capture_output=True, check=True)
        figures = json.loads(ran.stdout)
        self.assertGreater(figures["chips"], 2.9 * CHIP_RATE)
        self.assertLess(figures["megabytes"], 250)

    def test_losses_are_counted_by_the_code(self) -> None:
        """Whole periods are not counted; chips on both sides are those that were sent."""
        place = 3 * RATE
        for count in (700, 120_000):
            pieces = taken(narrow(), self.data[:place] + self.data[place + 2 * count :], BLOCK)
            told = [piece for piece in pieces if isinstance(piece, Lost)]
            self.assertEqual(len(told), 1)
            lost = round(count * CHIP_RATE / RATE)
            self.assertLess(abs(told[0].chips - lost % PERIOD), 1.5)
            self.assertLess(abs(told[0].seconds - 1.5), 0.001)
            first, got = joined(pieces)
            sent = self.sent_at(first, 3 * CHIP_RATE)
            before = told[0].first - first
            self.assertGreater(signal_to_noise(got[: before - 1_024], sent), LEAST_SIGNAL)
            after = before + told[0].chips + 1_024
            whole = lost - told[0].chips
            self.assertLess(abs(whole - lost // PERIOD * PERIOD), 2)
            sent = sent[after + lost // PERIOD * PERIOD :]
            self.assertGreater(signal_to_noise(got[after:], sent), LEAST_SIGNAL)

    def test_a_pilot_that_was_away_has_its_old_numbers(self) -> None:
        """After noise as long as 150 periods the numbers continue, to the chip."""
        periods = 150
        samples = round(periods * PERIOD * RATE / CHIP_RATE / (1 + self.CLOCK))
        cut = 3 * RATE
        pieces = taken(narrow(), self.data[:cut] + noise_of(samples, 5) + self.data[cut:], BLOCK)
        breaks = [number for number, piece in enumerate(pieces) if isinstance(piece, Break)]
        self.assertEqual(len(breaks), 1)
        first, before = joined(pieces[: breaks[0]])
        again, after = joined(pieces[breaks[0] :])
        place = self.place_of(after)
        self.assertEqual(again - first, place - self.place_of(before) + periods * PERIOD)
        self.assertGreater(signal_to_noise(after, self.sent[place:]), LEAST_SIGNAL)

    def place_of(self, chips: NDArray[numpy.complex128]) -> int:
        """Returns the place among the cell's chips of the first of these chips."""
        head = chips[:8_192]
        got = numpy.abs(numpy.fft.ifft(numpy.fft.fft(self.sent) * numpy.fft.fft(head, len(self.sent)).conj()))
        return int(got.argmax())

    def test_memory_does_not_grow(self) -> None:
        lock, sizes = narrow(), []
        noise = noise_of(3 * RATE, 6)
        for part in (self.data, self.data, noise, noise, self.data):
            for place in range(0, len(part), 200_000):
                for _ in lock.feed(part[place : place + 200_000]):
                    pass
                sizes.append(lock.ring.data.nbytes)
            if lock.pursuit is not None:
                self.assertLess(len(lock.pursuit.points), 64)
        self.assertLess(max(sizes), 2 * 4 * RATE)

    def test_the_filter_follows_a_carrier(self) -> None:
        """With a drift of 9 kHz in three seconds no more is lost than without a drift."""
        shares = []
        for drift in (0, 3_000):
            data = self.bytes_of("--type", "cu8", "--carrier", -2000, "--drift", drift, "--ec-io", -9)
            lock = narrow()
            first, chips = joined(taken(lock, data, BLOCK))
            shares.append(ec_io(first + len(chips) // 2, chips[len(chips) // 2 :]))
            self.assertGreater(len(chips), 2.9 * CHIP_RATE)
        self.assertLess(abs(shares[0] - shares[1]), 0.1)
        self.assertLess(abs(lock.front.carrier - 7_000), 2_600)

    def test_no_pilot(self) -> None:
        pieces = taken(narrow(), noise_of(4 * RATE, 7), BLOCK)
        self.assertTrue(pieces and all(isinstance(piece, Unheard) for piece in pieces))

    def test_a_pilot_that_begins_late_begins_there(self) -> None:
        lock = narrow()
        first, chips = joined(taken(lock, noise_of(5 * RATE, 8) + self.data, BLOCK))
        assert lock.origin is not None
        self.assertGreater(first - lock.origin, 2 * CHIP_RATE)
        self.assertLess(abs(first + len(chips) - lock.origin - 8 * CHIP_RATE), 3_000)

    def test_samples_that_are_skipped_count(self) -> None:
        lock = narrow()
        pieces = [*lock.feed(self.data[: 4 * RATE + 1]), *lock.skip(2 * RATE)]
        end = max(piece.end for piece in pieces if isinstance(piece, Chips))
        pieces += taken(lock, self.data, BLOCK)
        again = next(piece for piece in pieces if isinstance(piece, Break))
        self.assertLess(abs(end - (lock.origin or 0) - 2 * CHIP_RATE), 50)
        self.assertLess(abs(again.chip - (lock.origin or 0) - 4 * CHIP_RATE), PERIOD)
        self.assertLess(abs(again.seconds - 4), 0.1)


def merged(pieces: list[Piece]) -> list[Piece]:
    """Returns the pieces, with chips that follow each other merged into one."""
    out = list[Piece]()
    for piece in pieces:
        last = out[-1] if out else None
        if isinstance(piece, Chips) and isinstance(last, Chips) and last.end == piece.first:
            out[-1] = Chips(last.first, last.parts + piece.parts)
        else:
            out.append(piece)
    return out


class FadingTest(unittest.TestCase):
    """A cell over two paths that fade within a chip of each other, whose best instants show only over many fades."""

    seconds = 40

    SECONDS, SETTLED, KIND, RATE = 16, 8, "cu8", 1_500_000
    LINK = "--paths 0:0:0:30,0.6:-1:0:30 --ec-io -8 --carrier 1500 --clock 4 --delay 0.7"
    FINGERS = 3

    folder: ClassVar[str]
    meta: ClassVar[str]
    data: ClassVar[bytes]

    @classmethod
    def setUpClass(cls) -> None:
        cls.folder = temporary_folder(cls.addClassCleanup)
        cell, cls.meta = os.path.join(cls.folder, "cell.is95"), os.path.join(cls.folder, "in.sigmf-meta")
        with open(cell, "wb") as file:
            file.write(HEADER.pack(b"IS95", 1, 0, cls.SECONDS * CHIP_RATE))
            for second in range(cls.SECONDS):
                chips = cell_chips(CHIP_RATE, second, (PHASE + second * CHIP_RATE) % PERIOD)
                file.write(numpy.stack([chips.real, chips.imag], axis=1).astype(">i2").tobytes())
        words = ["--type", cls.KIND, "--rate", str(cls.RATE), *cls.LINK.split(), cell, cls.meta]
        status, _, said = run_main("channel", *words)
        assert not status, said
        os.unlink(cell)
        with open(cls.meta.replace(".sigmf-meta", ".sigmf-data"), "rb") as samples:
            cls.data = samples.read()

    def lock(self) -> StreamLock:
        """Returns a lock for a receiver of several fingers."""
        return StreamLock(LockOptions(self.KIND, self.RATE, self.FINGERS, search=3_000.0, conjugate="no"))

    def file_share(self) -> float:
        """Returns the pilot's share in the second half of the chips from a file's lock, in dB."""
        out = os.path.join(self.folder, "out.is95")
        status, _, said = run_main("import_capture", "--lock", "--fingers", self.FINGERS, self.meta, out)
        self.assertEqual(status, 0, said)
        file, begin, meter = SampleFile(out), int(figures(said)["phase"]), PilotMeter()
        for first in range(self.SETTLED * CHIP_RATE, file.count, CHIP_RATE):
            meter.add(begin + first, file.read(first, min(CHIP_RATE, file.count - first)))
        file.close()
        return meter.ec_io

    def test_instants_come_to_those_of_a_file(self) -> None:
        """After only the first second the pilot's share differs by 0.7 dB over these fades."""
        pieces = taken(self.lock(), self.data, BLOCK)
        meter, since = PilotMeter(), self.SETTLED * CHIP_RATE
        first = next(piece.first for piece in pieces if isinstance(piece, Chips))
        for piece in pieces:
            if isinstance(piece, Chips) and piece.first - first >= since:
                meter.add(piece.first, joined([piece])[1].astype(numpy.complex64))
        self.assertLess(abs(meter.ec_io - self.file_share()), 0.1)
        last = pieces[-1]
        self.assertIsInstance(last, Chips)
        assert isinstance(last, Chips)
        self.assertGreater(last.end - first, (self.SECONDS - 0.1) * CHIP_RATE)

    def test_they_do_not_depend_on_how_bytes_are_cut(self) -> None:
        data = self.data[: 2 * 5 * self.RATE]
        self.assertEqual(merged(taken(self.lock(), data, BLOCK)), merged(taken(self.lock(), data, 77_777, 3, 600_001)))


class InstantsTest(unittest.TestCase):
    """The choice of instants, by given mean energies."""

    def instants(self, *paths: tuple[float, float], fingers: int = 1) -> Instants:
        """Returns the instants for energies with peaks of some height at some delays."""
        energies = sum(height * numpy.exp(-((FINE_DELAYS - delay) ** 2) / 0.3) for delay, height in paths)
        fit = unittest.mock.Mock(spec=Fit, profile=energies, chip=numpy.arange(17.0))
        return Instants(fit, False, fingers)

    def test_they_move_slowly_to_the_best_place(self) -> None:
        instants, places = self.instants((0.25, 1.0), (-3.0, 0.5)), [0.0]
        while places[-1] != 0.25 and len(places) < 100:
            places.append(instants.next(places[-1]))
        self.assertEqual(places[-1], 0.25)
        self.assertLessEqual(float(numpy.diff(places).max()), STEP + 1e-12)
        self.assertEqual(len(places), 1 + math.ceil(0.25 / STEP))
        self.assertEqual(instants.next(0.25), 0.25)

    def test_they_stay_with_their_path(self) -> None:
        """A stronger path more than half a chip away is not reached: between the two no pilot would be held."""
        instants = self.instants((0.0, 1.0), (2.375, 1.2))
        self.assertEqual(instants.wanted(0.0), 0.0)
        self.assertEqual(instants.wanted(0.3), 0.0)
        self.assertEqual(instants.wanted(2.2), 2.375)
        # Two fingers, whole chips apart, hold a part of both.
        self.assertGreater(self.instants((0.0, 1.0), (2.375, 1.2), fingers=2).wanted(0.0), 0.1)

    def test_points_are_averaged_as_long_as_they_count(self) -> None:
        """For one path half a chip later than at first, the energies become the mean over all points."""
        instants = self.instants((0.0, 0.0))
        timeline = Timeline(0.0, 0.0)
        timeline.nodes = [Node(0.0, 5.0, 0.0, 0.0, 0.1), Node(1e9, 5.0, 0.0, 0.0, 0.3)]
        instants.last, sums = -1.0, numpy.zeros((2 * REACH + 1, SUMS), dtype=numpy.complex64)
        sums[REACH + 1] = 2 * SUM
        for number in range(3 * MEMORY):
            chip = 1_000.0 * number
            instants.add([Point(chip, chip + 5.0, 0.0, 1.0, 0.0, 0.0, sums)], timeline)
            self.assertEqual(instants.count, min(18 + number, MEMORY))
        self.assertEqual(instants.wanted(0.4), 0.5)
        self.assertAlmostEqual(float(instants.energies.max()), 2.0, delta=0.3)
        taken_twice = instants.energies
        instants.add([Point(chip, chip, 0.0, 1.0, 0.0, 0.0, sums)], timeline)
        self.assertIs(instants.energies, taken_twice)


class FrontTest(Recordings):
    """The fast front against the front of a file."""

    front: ClassVar[Front]

    def test_it_gives_the_same_blocks(self) -> None:
        self.recorded("--type", "ci16_le", "--rate", 2_000_000, "--ec-io", -8)
        path = self.at("in.sigmf-data")
        ring = Ring("ci16_le", 2_000_000)
        with open(path, "rb") as file:
            ring.add(file.read())
        with Recording(path, "ci16_le", 2_000_000) as recording:
            plain, fast = Front(recording), StreamingFront(ring)
            for front in (plain, fast):
                front.set_carrier(3_300.0)
            starts = numpy.array([-500.0, 10.25, 5_000.75, 60_000.5])
            for over in (1, 2):
                wanted, got = plain.blocks(starts, over), fast.blocks(starts, over)
                self.assertLess(float(numpy.abs(wanted - got).max()), 1e-3 * float(numpy.abs(wanted).max()))
            rows = fast.segments(starts[1:], 4_000, 2, 3e-6)
            for start, row in zip(starts[1:], rows):
                wanted = plain.steady(start, 4_000, 2, 3e-6)
                self.assertLess(float(numpy.abs(wanted - row).max()), 2e-3 * float(numpy.abs(wanted).max()))


class RingTest(unittest.TestCase):
    """The samples that are kept."""

    def test_samples_come_back_in_any_place(self) -> None:
        draws = numpy.random.default_rng(1)
        for kind in ("cu8", "ci16_be"):
            parts = draws.integers(0, 200, 40_000).astype(TYPES[kind].form)
            data, ring, place = parts.tobytes(), Ring(kind, 2_000), 0
            while place < len(data):
                size = int(draws.integers(1, 999))
                ring.add(data[place : place + size])
                place += size
                ring.drop(ring.count - 1_500)
            self.assertEqual(ring.count, 20_000)
            whole = parts.astype(float).view(complex)
            low = 20_000 - 1_500
            self.assertTrue(numpy.array_equal(ring.read(low, 1_500), whole[low:].astype(numpy.complex64)))
            rows = ring.rows(numpy.array([low, 19_000]), 1_000)
            self.assertTrue(numpy.array_equal(rows[1], whole[19_000:].astype(numpy.complex64)))
            middle = TYPES[kind].middle
            self.assertTrue(numpy.array_equal(ring.read(20_000, 3), numpy.full(3, middle * (1 + 1j))))
            self.assertLessEqual(len(ring.data), 2 * 7_000)

    def test_numbers_that_are_not_finite_count_as_zero(self) -> None:
        ring = Ring("cf32_le", 2_000)
        ring.add(numpy.array([1, numpy.nan, numpy.inf, 2], dtype="<f4").tobytes())
        self.assertEqual(ring.damaged, 2)
        self.assertEqual(ring.read(0, 2).tolist(), [1, 2j])

    def test_a_conjugate(self) -> None:
        ring = Ring("ci8", 2_000)
        ring.is_conjugate = True
        ring.add(bytes([1, 2, 3, 4]))
        self.assertEqual(ring.read(0, 2).tolist(), [1 - 2j, 3 - 4j])


if __name__ == "__main__":
    unittest.main()
