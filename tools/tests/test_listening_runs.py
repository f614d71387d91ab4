"""Tests of runs of `follow` one after the other: no seam loses a line, and no line is written twice."""

import os
import random
import unittest
import unittest.mock
from collections.abc import Sequence
from typing import Any, ClassVar

import numpy
from numpy.typing import NDArray

from tools.tests.helping import NO_PROGRAM, PROGRAM, needs
from tools.tests.listening_cell import (
    CHIP_RATE, FRAME, OFFSET, PIECE, PN, ROW, SERIAL, Sent, compared, drawn, made_cell, made_chips, script_of, text_of,
    with_check,
)  # fmt: skip

needs("numpy", "scipy")

from cdma_tools.errors import Refused
from cdma_tools.listening.beginning import START, Beginning, is_there, strong_stretch
from cdma_tools.listening.events import Collected, Event
from cdma_tools.listening.follow_run import FollowRun, Handset
from cdma_tools.listening.pieces import Chips
from cdma_tools.listening.relay import Relay
from cdma_tools.listening.seams import LEAST_OVERLAP, KeptChips, off_grid
from cdma_tools.listening.system_time import time_told
from cdma_tools.radio.air import short_code

PERIOD = 32_768
GAIN = 60  # factor by which chips of 8 bits are amplified, to the level of a lock's chips
STEP = 122_880  # chips that are fed at once
SEAMS = int(os.environ.get("CDMA_LISTEN_SEAMS", "16"))


def handset(row: int | None = ROW) -> Handset:
    """Returns the handset that receives the cell."""
    assert PROGRAM is not None
    return Handset(PROGRAM, esn=SERIAL, row=row, offset=OFFSET)


def fed(relay: Relay, parts: NDArray[numpy.int8] | NDArray[numpy.int16], first: int) -> None:
    """Feeds a relay with chips of a cell, the first of which has a number."""
    for place in range(0, len(parts), 2 * STEP):
        piece = (parts[place : place + 2 * STEP].astype(">i2") * GAIN).astype(">i2")
        relay.feed(Chips(first + place // 2, piece.tobytes()))


def relayed(parts: NDArray[numpy.int8], offset: int, seams: Sequence[float], row: int = ROW) -> tuple[Relay, Collected]:
    """Returns what is decoded from a cell's chips, with seams wanted at these seconds."""
    heard, first = Collected(), -64 * offset % PERIOD
    wanted = [first + int(CHIP_RATE * seam) for seam in seams]
    relay = Relay(handset(row), heard, first, LEAST_OVERLAP, wanted)
    try:
        fed(relay, parts, first)
        relay.finish()
    finally:
        relay.kill()
    return relay, heard


def told(heard: Collected, offset: int) -> list[str]:
    """Returns the lines, counted from the cell's first chip."""
    return [event.counted_from(-64 * offset % PERIOD) for event in heard.events]


@unittest.skipUnless(PROGRAM, NO_PROGRAM)
class SeamTest(unittest.TestCase):
    """Seams at many places of a cell with the longest messages; CDMA_LISTEN_SEAMS gives their number."""

    SECONDS = 5.5 + 0.75 * SEAMS

    def check(self, prat: int) -> None:
        """Compares what is received over seams with what the script sends."""
        draws = random.Random(prat)
        seams = [4.5 + 0.75 * number + 0.5 * draws.random() for number in range(SEAMS)]
        relay, heard = relayed(made_cell(PROGRAM or "", self.SECONDS, prat), PN, seams)
        self.assertEqual(len(relay.seams), SEAMS)
        self.assertFalse(heard.remarks)
        sent = Sent(script_of(1, prat, 0, PIECE))
        result = compared(sent, told(heard, PN), int(self.SECONDS * CHIP_RATE))
        self.assertEqual((result.missing, result.excess), ({}, {}))
        self.assertTrue(result.is_sorted)
        self.assertEqual(result.shift, 0)
        self.assertGreater(result.owed.total(), 50 * (self.SECONDS - 3))
        self.check_places(relay, sent)

    def check_places(self, relay: Relay, sent: Sent) -> None:
        """Checks that seams lie in sync messages, in runs of pages and in messages of the traffic channel."""
        first = -64 * PN % PERIOD
        for kind, least in (("sync", CHIP_RATE), ("paging", CHIP_RATE // 20), ("traffic", CHIP_RATE)):
            spans = [
                line.at - line.begin
                for line in sent.lines(int(self.SECONDS * CHIP_RATE))
                if line.text.startswith(kind) and any(line.begin < seam - first < line.at for seam in relay.seams)
            ]
            self.assertGreater(max(spans, default=0), least, kind)

    def test_full_rate_paging(self) -> None:
        self.check(0)

    def test_half_rate_paging(self) -> None:
        self.check(1)


@unittest.skipUnless(PROGRAM, NO_PROGRAM)
class DirectionTest(unittest.TestCase):
    """Seams around a direction to another row of the same cell."""

    OFFSET_OF_CELL, CHANGE, END, DIRECTION = 301, 12, 22, 400  # seconds, and the frame that carries the direction

    def frames(self, seed: int, count: int, direction: int | None) -> list[str]:
        """Returns frame lines; one frame directs a handset to row 12 of this cell, at once."""
        draws = random.Random(seed)
        lines = []
        for number in range(count):
            rate = (9600, 4800, 2400, 1200)[number % 4]
            bits = drawn(draws, {9600: 172, 4800: 80, 2400: 40, 1200: 16}[rate], "0" if rate == 9600 else "")
            if number == direction:
                body = f"{17:08b}" + "000001000" + "0000000000" + "0000" + f"{self.OFFSET_OF_CELL:09b}0{12:08b}"
                rate, bits = 9600, ("10111" + with_check(body.ljust(-(-len(body) // 8) * 8, "0"))).ljust(172, "0")
            lines.append(f"frame {rate} {text_of(bits)} {drawn(draws, 16)}")
        return lines

    def script(self, start: int, end: int) -> str:
        """Returns the script of some seconds: row 10 is silent from the change on."""
        lines = [
            f"cell pn={self.OFFSET_OF_CELL} time=123456789 lc=078414c343d checks=0",
            f"link re=1 im=0 start={start * CHIP_RATE} samples={(end - start) * CHIP_RATE}",
            "pilot gain=40",
            "sync gain=14 prev=3 min=1 sid=21 nid=7 lp=13 ltm=0 daylt=0 prat=0 rest=3:00",
        ]
        if not start:
            count = self.CHANGE * CHIP_RATE // FRAME
            lines += [f"traffic row=10 esn={SERIAL} offset={OFFSET} gain=26", *self.frames(1, count, self.DIRECTION)]
        lines += [f"traffic row=12 esn={SERIAL} offset={OFFSET} gain=26", *self.frames(2, 150, None)]
        return "".join(line + "\n" for line in lines)

    def test_a_direction(self) -> None:
        pieces = [self.script(0, self.CHANGE), self.script(self.CHANGE, self.END)]
        parts = numpy.concatenate([made_chips(PROGRAM or "", piece) for piece in pieces])
        _, whole = relayed(parts, self.OFFSET_OF_CELL, [])
        moved = next(event for event in whole.events if event.kind == "sets")
        self.assertIn(f"active={self.OFFSET_OF_CELL}/12/", moved.line)
        after = (moved.chip + 64 * self.OFFSET_OF_CELL) / CHIP_RATE
        self.assertTrue(7.5 < after < 9)
        # Of the first seam the direction lies before its run, of others between its start and its mark, and after both.
        for seams in ([13.0], [9.0], [8.5, 11.5], [7.0, 10.8], [9.6, 16.0], [11.9]):
            relay, heard = relayed(parts, self.OFFSET_OF_CELL, seams)
            self.assertEqual(len(relay.seams), len(seams))
            self.assertEqual(told(heard, self.OFFSET_OF_CELL), told(whole, self.OFFSET_OF_CELL), seams)


@unittest.skipUnless(PROGRAM, NO_PROGRAM)
class LossTest(unittest.TestCase):
    """Losses that a lock detects, and one that it cannot detect."""

    cell: ClassVar[NDArray[numpy.int8]]

    @classmethod
    def setUpClass(cls) -> None:
        cls.cell = made_cell(PROGRAM or "", 12)

    def heard(self, relay: Relay, heard: Collected) -> list[str]:
        """Returns the lines when the chips have ended."""
        try:
            relay.finish()
        finally:
            relay.kill()
        return told(heard, PN)

    def test_zeros_stand_for_what_was_lost(self) -> None:
        collected, first, lost = Collected(), -64 * PN % PERIOD, 200_000
        relay = Relay(handset(), collected, first)
        half = 6 * CHIP_RATE
        fed(relay, self.cell[: 2 * half], first)
        relay.feed_zeros(lost)
        fed(relay, self.cell[2 * (half + lost) :], first + half + lost)
        result = compared(Sent(script_of(1, 1, 0, PIECE)), self.heard(relay, collected), 12 * CHIP_RATE)
        missing = [(at, text) for at, text in result.missing if text.startswith("frame")]
        self.assertEqual(result.shift, 0)
        # Frames of which a part was lost, and no other.
        self.assertTrue(all(half < at < half + lost + FRAME for at, _ in missing), missing)
        self.assertTrue(lost // FRAME - 1 <= len(missing) <= lost // FRAME + 2)

    def test_a_loss_of_a_period_is_seen_by_the_next_sync_message(self) -> None:
        collected, first, half = Collected(), -64 * PN % PERIOD, 6 * CHIP_RATE
        relay = Relay(handset(), collected, first)
        fed(relay, self.cell[: 2 * half], first)
        fed(relay, self.cell[2 * (half + PERIOD) :], first + half)
        lines = self.heard(relay, collected)
        self.assertEqual([remark.text.partition(":")[0] for remark in collected.remarks], ["the system time jumped"])
        pilots = [place for place, line in enumerate(lines) if line.startswith("pilot ")]
        self.assertEqual(len(pilots), 2)
        good = compared(Sent(script_of(1, 1, 0, PIECE)), lines[pilots[1] :], 12 * CHIP_RATE)
        self.assertEqual((good.missing, good.excess, good.shift), ({}, {}, PERIOD))

    def test_a_break_begins_anew(self) -> None:
        collected, first = Collected(), -64 * PN % PERIOD
        relay = Relay(handset(), collected, first)
        fed(relay, self.cell[: 10 * CHIP_RATE], first)
        relay.break_off()
        later = first + 7 * CHIP_RATE // PERIOD * PERIOD
        fed(relay, self.cell[2 * (later - first) :], later)
        lines = self.heard(relay, collected)
        parts = [number for number, line in enumerate(lines) if line.startswith("pilot ")]
        self.assertEqual(len(parts), 2)
        for group in (lines[: parts[1]], lines[parts[1] :]):
            result = compared(Sent(script_of(1, 1, 0, PIECE)), group, 12 * CHIP_RATE)
            self.assertEqual((result.missing, result.excess, result.shift), ({}, {}, 0))


def noise_of(count: int, level: float) -> NDArray[numpy.int16]:
    """Returns noise of `count` chips, with a given root mean square."""
    return numpy.random.default_rng(count).normal(0, level, 2 * count).round().astype(numpy.int16)


def level_of(parts: NDArray[Any]) -> float:
    """Returns the root mean square of I and Q values."""
    return float(numpy.sqrt(numpy.mean(parts.astype(float) ** 2)))


@unittest.skipUnless(PROGRAM, NO_PROGRAM)
class FadeTest(unittest.TestCase):
    """Runs that would begin within a fade, which has noise instead of the cell."""

    SECONDS, OVERLAP, SEAM = 22, 6.0, 14.0
    BEGIN = SEAM - OVERLAP  # of the second run, in seconds, but for some chips
    # Seconds that a run needs at most from its beginning to the end of a run of pages that is under way at its mark.
    LATEST = 4.3

    cell: ClassVar[NDArray[numpy.int8]]

    @classmethod
    def setUpClass(cls) -> None:
        cls.cell = made_cell(PROGRAM or "", cls.SECONDS)

    def setUp(self) -> None:
        self.heard = Collected()
        counted = unittest.mock.patch.object(FollowRun, "__init__", autospec=True, side_effect=FollowRun.__init__)
        self.begun = counted.start()
        self.addCleanup(counted.stop)

    def faded(self, begin: float, end: float) -> NDArray[numpy.int16]:
        """Returns the cell's chips with a fade between two seconds."""
        low, high = (int(CHIP_RATE * second) for second in (begin, end))
        noise = noise_of(high - low, level_of(self.cell[: 2 * CHIP_RATE]))
        return numpy.concatenate([self.cell[: 2 * low], noise, self.cell[2 * high :]], dtype=numpy.int16)

    def lines(self, parts: NDArray[Any], seams: Sequence[float]) -> list[str]:
        """Returns what is decoded from chips, with seams wanted at these seconds."""
        first = -64 * PN % PERIOD
        wanted = [first + int(CHIP_RATE * seam) for seam in seams]
        relay = Relay(handset(), self.heard, first, int(self.OVERLAP * CHIP_RATE), wanted)
        try:
            fed(relay, parts, first)
            relay.finish()
        finally:
            relay.kill()
        self.assertEqual(len(relay.seams), len(seams))
        return told(self.heard, PN)

    def check_missing(self, lines: list[str], begin: float, end: float) -> None:
        """Checks that nothing is missing or extra except what lies, in part, between two seconds."""
        sent, count = Sent(script_of(1, 1, 0, PIECE)), self.SECONDS * CHIP_RATE
        result = compared(sent, lines, count)
        begins = {line.at: line.begin for line in sent.lines(count)}
        for at, text in [*result.missing, *result.excess]:
            seconds = begins.get(at, at) / CHIP_RATE, (at + 2 * FRAME) / CHIP_RATE
            self.assertTrue(seconds[0] < end and begin < seconds[1], (seconds, text[:40]))
        # Half of the lines are frames of the channel, and the last of them is some frames before the end.
        last = max(at for at, _ in result.owed)
        self.assertGreater(last, count - 6 * FRAME)
        self.assertGreater(result.owed.total() - result.missing.total(), 45 * (self.SECONDS - 4 - (end - begin)))

    def remarks(self) -> list[str]:
        """Returns the remarks."""
        return [remark.text for remark in self.heard.remarks]

    def late(self, seconds: float) -> str:
        """Returns the remark that a run begins some seconds late."""
        return f"the pilot was in a fade when a run was due: it begins {seconds:.1f} s late"

    def test_no_run_begins_within_a_fade(self) -> None:
        begin, end = self.BEGIN - 0.1, self.BEGIN + 0.5
        lines = self.lines(self.faded(begin, end), [self.SEAM])
        self.assertEqual(self.begun.call_count, 2)
        self.assertEqual(self.remarks(), [self.late(0.5)])
        self.check_missing(lines, begin, end)

    def test_a_run_that_hears_noise_is_begun_anew(self) -> None:
        begin, end = self.BEGIN - 0.1, self.BEGIN + 0.7
        with unittest.mock.patch("cdma_tools.listening.beginning.strong_stretch", return_value=0):
            lines = self.lines(self.faded(begin, end), [self.SEAM])
        # The second run and the third, half a second later, lock to noise; the fourth doesn't.
        self.assertEqual(self.begun.call_count, 4)
        noise = "a run locked to noise instead of the pilot, and is restarted"
        self.assertEqual(self.remarks(), [noise, self.late(1.0)])
        self.check_missing(lines, begin, end)

    def test_the_first_run_begins_after_a_fade(self) -> None:
        lines = self.lines(self.faded(0, 1.5), [])
        self.assertEqual(self.begun.call_count, 1)
        self.assertEqual(self.remarks(), [self.late(1.5)])
        self.check_missing(lines, 0, 0)

    def test_a_fade_up_to_the_seam(self) -> None:
        begin, end = self.BEGIN - 0.1, self.SEAM + 0.2
        lines = self.lines(self.faded(begin, end), [self.SEAM])
        self.check_missing(lines, begin, end + self.LATEST)
        # A run begins without a pilot after 2.5 seconds, and another 3 seconds later; both lock to noise, and a third
        # to the pilot.
        self.assertEqual(self.begun.call_count, 4)
        gone = "the pilot is in a fade: no run has begun that could take over from the one that ends here"
        noise = "a run locked to noise instead of the pilot, and is restarted"
        self.assertEqual(self.remarks(), [noise, gone, self.late(self.OVERLAP + 0.2)])

    def test_a_stronger_cell_is_told_once_a_run(self) -> None:
        astray = 64 * 7
        stronger = 2 * numpy.roll(self.cell.astype(numpy.int16), 2 * astray)
        self.lines(self.cell + stronger, [self.SEAM])
        self.assertEqual(self.begun.call_count, 2)
        told_twice = [f"a run follows a pilot whose code is {-astray} chips from the lock's: another cell's"] * 2
        self.assertEqual(self.remarks(), told_twice)


class BeginningTest(unittest.TestCase):
    """Where a run may begin, by chips of a pilot in noise that are made by the code's formula."""

    NUMBER = 5 * PERIOD + 1_234

    def parts(self, shares: Sequence[float], phase: int = NUMBER) -> NDArray[numpy.complex64]:
        """Returns stretches of 2,048 chips, in which a pilot has these shares of the power; the first chip has a
        number."""
        draws = numpy.random.default_rng(3)
        amplitude = numpy.repeat(numpy.sqrt(numpy.array(shares) / 2), 2_048)
        noise = numpy.repeat(numpy.sqrt((1 - numpy.array(shares)) / 2), 2_048)
        code = short_code()[(phase + numpy.arange(len(amplitude))) % PERIOD]
        drawn_noise = draws.standard_normal((len(amplitude), 2)) @ numpy.array([1, 1j])
        return ((amplitude * code + noise * drawn_noise) * 1_000).astype(numpy.complex64)

    def test_the_first_stretch_in_which_the_program_finds_the_pilot(self) -> None:
        # Of 2,048 chips a share of 0.2 has 410 times the noise's energy, one of 0.002 some four times: below 16.
        for shares, stretch in (
            ([0.2] * 32, 0),
            ([0.0] * 12 + [0.2] * 20, 12),
            ([0.0] * 31 + [0.2], 31),
            ([0.05] * 5 + [0.3] * 27, 5),
            ([0.0] * 32, None),
            ([0.0005] * 32, None),
        ):
            found = strong_stretch(self.parts(shares), self.NUMBER)
            self.assertEqual(found, None if stretch is None else 2_048 * stretch, shares)

    def test_zeros_are_no_pilot(self) -> None:
        self.assertIsNone(strong_stretch(numpy.zeros(START, dtype=numpy.complex64), 0))
        self.assertFalse(is_there(numpy.zeros(START, dtype=numpy.complex64), 0))

    def test_noise_that_one_stretch_is_chosen_for_is_no_pilot(self) -> None:
        chips = self.parts([0.0] * 32)
        energy = numpy.abs(numpy.fft.ifft(numpy.fft.fft(chips[:2_048], PERIOD).conj() * numpy.fft.fft(short_code()))) ** 2
        best = int(energy.argmax())
        stretch = short_code()[(best + numpy.arange(2_048)) % PERIOD]
        sent = numpy.abs(numpy.vdot(stretch, chips[:2_048])) ** 2 / (2 * numpy.sum(numpy.abs(chips[:2_048]) ** 2))
        self.assertGreater(sent, 8)  # the search would take it for a pilot
        self.assertFalse(is_there(chips, best))
        self.assertTrue(is_there(self.parts([0.01] * 32, best), best))
        self.assertTrue(is_there(self.parts([0.0] * 20 + [0.05] * 12, best), best))

    def test_it_goes_on_to_the_latest_chip_and_begins_there(self) -> None:
        kept, number = KeptChips(10 * CHIP_RATE), self.NUMBER
        noise = noise_of(4 * CHIP_RATE, 1_000).astype(">i2")
        beginning, begins = Beginning(number), []
        for place in range(0, len(noise), 2 * START):
            kept.add(Chips(number + place // 2, noise[place : place + 2 * START].tobytes()))
            begin = beginning.next(kept, number + place // 2 + START)
            if begin is not None:
                begins.append((begin - number) / CHIP_RATE)
                beginning.again(begin)
        # 2.5 seconds after the chip that was wanted; the next would come another 3 seconds later.
        self.assertEqual(len(begins), 1)
        self.assertTrue(2.5 <= begins[0] < 2.5 + START / CHIP_RATE)


@unittest.skipUnless(PROGRAM, NO_PROGRAM)
class PhaseTest(unittest.TestCase):
    """The pilot that a run reports, against the numbers of its chips."""

    def test_another_pilot_is_told(self) -> None:
        # If the numbers aren't the pilot's, so that they don't find it, the run begins 2.5 seconds later.
        late = "the pilot was in a fade when a run was due: it begins 2.5 s late"
        parts = made_cell(PROGRAM or "", 2.7)
        # Numbers that are some chips off, as another path's would be, and those of pilots 64 and 7 x 64 chips away.
        for astray, told in ((0, False), (32, False), (-32, False), (64, True), (-448, True)):
            first, collected = -64 * PN % PERIOD - astray, Collected()
            relay = Relay(handset(None), collected, first)
            try:
                fed(relay, parts, first)
                relay.finish()
            finally:
                relay.kill()
            wanted = [f"a run follows a pilot whose code is {astray} chips from the lock's: another cell's"]
            wanted = wanted if told else [late] if astray else []
            self.assertEqual([remark.text for remark in collected.remarks], wanted)


@unittest.skipUnless(PROGRAM, NO_PROGRAM)
class RunTest(unittest.TestCase):
    """A single run."""

    def test_a_program_that_ends_is_told(self) -> None:
        with self.assertRaisesRegex(Refused, "follow ended with status 2: bad words$"):
            run = FollowRun(Handset(PROGRAM or "", esn="8badf00d", row=32), 0)
            self.addCleanup(run.kill)
            for number in range(64):
                run.feed(Chips(65_536 * number, bytes(4 * 65_536)))

    def test_no_program(self) -> None:
        with self.assertRaisesRegex(Refused, "^/nowhere/program: No such file"):
            FollowRun(Handset("/nowhere/program"), 0)


class RuleTest(unittest.TestCase):
    """The rule of seams, and the system time, by their formulas."""

    def test_no_event_ends_at_a_seam(self) -> None:
        for offset in (0, 1, 7, 300, 511):
            for wanted in (10_000_000, 10_000_001, 10_000_511):
                seam = off_grid(wanted, offset)
                self.assertTrue(wanted - 512 < seam <= wanted)
                # Of all ends, as far as a finger or another pilot delays them, none lies within 15 chips.
                mark, code = -64 * offset % 512, 0
                for grid, most in ((mark, 226 + 32), (code, 32)):
                    distance = (seam - grid) % 512
                    self.assertTrue(most < distance < 512 - 15 or distance == 496, (offset, distance))

    def test_the_time_of_a_sync_message(self) -> None:
        # A cell whose chip 0 is system time 1,000 sends a message of 200 bits with its pilot's offset of 64 chips: 7
        # frames in 3 superframes, known when the eighth has ended. It gives the time 4 superframes after the third.
        line = "sync at=1 prev=3 min=1 sid=1 nid=2 pn=1 lc=102a1d2e508 time=1007 lp=13 ltm=0 daylt=0 prat=0 rest=3:00"
        for late in (0, 31):
            time = time_told(Event(64 + 8 * PERIOD + late - 64, line))
            assert time is not None
            # The chip's numbers are those of the code: chip 0 of the cell has number -64.
            self.assertEqual(time.base, -64 - 1_000 * 98_304)
            self.assertEqual(time.utc(-64), "1980-01-06T00:01:07.000000Z")
            self.assertEqual(time.utc(-64 + 98_304), "1980-01-06T00:01:07.080000Z")
        self.assertIsNone(time_told(Event(5, "pilot phase=1 energy=5")))


if __name__ == "__main__":
    unittest.main()
