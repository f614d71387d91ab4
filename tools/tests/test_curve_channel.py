"""`tools/curve --channel`: the places of a script's samples after a lock, the losses of the lock itself, and the
formulas in fading."""

import math
import os
import re
import unittest

from tools.tests.helping import EXAMPLES, NO_PROGRAM, PROGRAM, needs, temporary_folder

needs("numpy", "scipy", "matplotlib", "distributed")

import csv  # noqa: E402
from fractions import Fraction  # noqa: E402
from typing import ClassVar  # noqa: E402
from unittest import mock  # noqa: E402

import numpy  # noqa: E402
from numpy.typing import NDArray  # noqa: E402
from scipy import integrate, special, stats  # noqa: E402

from cdma_tools.commands import curve  # noqa: E402
from cdma_tools.curves import antenna, bound, counting, levels, report  # noqa: E402
from cdma_tools.curves.batch import fingers_of  # noqa: E402
from cdma_tools.curves.counting import Count, Heard  # noqa: E402
from cdma_tools.curves.plan import Done, Ledger, Rule  # noqa: E402
from cdma_tools.errors import Refused  # noqa: E402
from cdma_tools.radio.channel import Path, Radio  # noqa: E402
from cdma_tools.radio.locking import Locked  # noqa: E402
from cdma_tools.scripts import Frame, Script  # noqa: E402
from tools.tests.radio_helping import PERIOD, cell_chips, read_chips, run_main, write_cell  # noqa: E402

CHIPS = 500_000
RATE = Fraction(2_400_000)
FRAME = 24_576
SENT = Frame("frame", 9_600, "8:aa")
# A lock whose pilot is received throughout.
FOUND = Locked(
    0.0, 0.0, 0.0, 0, -9.0, [], False, False, 0, 900_000, 1.0, [], 0,
    begin=0.0, end=0.7, seconds=0.8, is_part=False,
)  # fmt: skip


class Locks(unittest.TestCase):
    """Recordings of a cell that is made without the program."""

    folder: ClassVar[str]
    sent: ClassVar[NDArray[numpy.complex128]]
    cell: ClassVar[bytes]
    power: ClassVar[float]

    @classmethod
    def setUpClass(cls) -> None:
        cls.folder = temporary_folder(cls.addClassCleanup)
        cls.sent = cell_chips(CHIPS)
        with open(write_cell(os.path.join(cls.folder, "cell.is95"), cls.sent), "rb") as file:
            cls.cell = file.read()
        cls.power = float(numpy.mean(numpy.abs(cls.sent) ** 2))

    def tried(self, radio: Radio, noise: float = 0.2, paths: tuple[Path, ...] = (Path(),)) -> antenna.Caught | Refused:
        """Returns what a lock makes of a recording whose noise has a share of the cell's power."""
        over = antenna.Antenna("", paths, radio)
        return antenna.caught(over, [self.cell], noise * self.power, 3, 2, {1})[1]

    def caught(self, radio: Radio, paths: tuple[Path, ...] = (Path(),)) -> antenna.Caught:
        """Returns the same for a recording to which the lock succeeds."""
        got = self.tried(radio, paths=paths)
        assert isinstance(got, antenna.Caught), got
        return got

    def agreement(self, got: antenna.Caught, begin: int, late: int) -> float:
        """Returns how well 2,000 chips written by a lock match those sent some chips later."""
        path = os.path.join(self.folder, "got.is95")
        with open(path, "wb") as file:
            file.write(got.data)
        chips, sent = read_chips(path)[begin:][:2_000], self.sent[begin + late :][:2_000]
        return float(abs(numpy.vdot(sent, chips)) / numpy.linalg.norm(sent) / numpy.linalg.norm(chips))

    def test_the_samples_lie_where_the_code_and_the_time_tell(self) -> None:
        for radio in (
            Radio(RATE, "ci16_le"),
            Radio(RATE, "cu8", carrier=1_500.0, clock=20.0, delay=0.3),
            Radio(Fraction(1_500_000), "ci8", carrier=-700.0, clock=-30.0, delay=2 * PERIOD + 5.6),
        ):
            with self.subTest(radio=radio):
                got = self.caught(radio)
                self.assertFalse(got.is_late)
                self.assertEqual(got.unheard[:-2], ())
                count = got.unheard[-1][0]
                self.assertLess(abs(got.length - count), 100)
                self.assertLess(abs(got.begin + count - CHIPS - radio.delay), 100)
                for place in (0, count // 2, CHIPS - got.begin - 3_000):
                    self.assertGreater(self.agreement(got, place, got.begin), 0.8)
                    self.assertLess(self.agreement(got, place, got.begin + 3), 0.2)
        self.assertEqual(int.from_bytes(got.data[6:8], "big"), 2)

    def test_a_loss_of_samples_is_a_span_that_is_not_heard(self) -> None:
        """700 samples at 2.4 million a second are 358.4 chips, at chip 128,000 of the recording."""
        got = self.caught(Radio(RATE, "ci16_le", losses=((250_000, 700),)))
        (begin, end), *edges = got.unheard
        self.assertEqual(len(edges), 2)
        self.assertEqual(end - begin, 358)
        self.assertLess(abs(begin + got.begin - 128_000), 600)
        self.assertGreater(self.agreement(got, end + 3_000, got.begin), 0.8)

    @unittest.skipUnless(os.environ.get("EVERY_LOCK"), "EVERY_LOCK=1 searches noise for a pilot, for half a minute")
    def test_what_is_only_noise_has_no_lock(self) -> None:
        got = self.tried(Radio(RATE, "ci16_le"), noise=3_000.0)
        self.assertIsInstance(got, Refused)
        self.assertRegex(str(got), "pilot")

    def test_the_same_seed_gives_the_same_file(self) -> None:
        radio, paths = Radio(RATE, "cu8"), (Path(doppler=20.0),)
        first, again = self.caught(radio, paths=paths), self.caught(radio, paths=paths)
        self.assertEqual((first.data, first.begin), (again.data, again.begin))

    def test_air_over_paths(self) -> None:
        """Two paths of half the power each, and another cell: for each path the other one and that cell are noise."""
        script = Script(2j, 0, CHIPS, 0, {0: 100, 10: 40}, (), ())
        air = levels.air_over(script, [0.5, 0.5], 300.0, levels.AirKind.FADING)
        channel = levels.Channel("frame 9600", 40, 9_600, 1.0)
        cell = 2 * 4 * 0.5 * (100**2 + 40**2)
        bit = 2 * 4 * 0.5 * 40**2 * 128
        sigma = math.sqrt((1_000 - levels.ROUNDING) / 2)
        self.assertAlmostEqual(air.ratio(channel, sigma), 2 * bit / (1_000 + 300 + cell))
        for paths, kind in (
            ((Path(), Path(2.0)), "white"), ((Path(doppler=3.0),), "rayleigh"), ((Path(), Path(doppler=1.0)), "fading"),
        ):  # fmt: skip
            self.assertEqual(antenna.Antenna("", paths, Radio(RATE, "cu8")).kind().value, kind)

    def test_the_fingers_that_words_name(self) -> None:
        for words, wanted in (("follow --row 10", 1), ("follow --fingers 3 --row 10", 3), ("list --fingers=2", 2)):
            self.assertEqual(fingers_of(words), wanted)


class Losses(unittest.TestCase):
    """Which losses are the lock's, and which the receiver's."""

    def test_frames_that_meet_a_span(self) -> None:
        ends = [2 * FRAME + number * FRAME for number in range(4)]
        sent = {end: SENT for end in ends}
        lines = [Heard("frame", ends[0], 9_600, True, "8:aa")]
        lines += [Heard("frame", end, 9_600, False, "8:ab") for end in ends[1:3]]
        counts: counting.Counts = {}
        spans = [(ends[0] - 5, ends[0] + 1), (ends[3], ends[3] + 9)]
        counting.count_frames(sent, lines, counts, spans)
        # The first has no error, the second touches the first span, the third none; the fourth ends where the last
        # begins.
        self.assertEqual(counts, {"frame 9600": Count(4, lost=1, marked_bad=1, unlocked=1)})
        self.assertEqual(counts["frame 9600"].errors(), 3)

    def test_messages_and_whole_files(self) -> None:
        sent = {("sync", "time=1"): [100_000, 400_000, 700_000]}
        counts: counting.Counts = {}
        counting.count_messages(sent, {("sync", "time=1"): [100_000]}, counts, [(390_000, 390_100)])
        self.assertEqual(counts, {"sync": Count(3, lost=1, unlocked=1)})
        wanted = counting.Expected({FRAME: SENT, 2 * FRAME: SENT}, sent)
        self.assertEqual(
            counting.all_unlocked(wanted), {"frame 9600": Count(2, unlocked=2), "sync": Count(3, unlocked=3)}
        )

    def test_what_is_to_be_heard_is_moved(self) -> None:
        wanted = counting.moved(counting.Expected({FRAME: SENT}, {("sync", "x"): [9_000]}), 5_000)
        self.assertEqual(wanted, counting.Expected({FRAME - 5_000: SENT}, {("sync", "x"): [4_000]}))


class Fading(unittest.TestCase):
    """The formulas in Rayleigh fading, by other ways to the same numbers."""

    def test_a_pair_of_codewords_with_a_fade_for_each_symbol(self) -> None:
        """The mean of Q(sqrt(2 g x)) over a sum x of k exponential powers, which has a gamma distribution."""
        mean = bound.symbol_ratio(9_600, 10**0.7)
        total = 0.0
        for left, words in enumerate(bound.weights_left(9_600)[:80]):
            def taken(power: float, left: int = left) -> float:
                return float(special.ndtr(-math.sqrt(2 * mean * power)) * stats.gamma.pdf(power, left))

            total += words * (integrate.quad(taken, 0, numpy.inf, epsabs=0)[0] if left else 0.5)
        # Words with 80 symbols left or more are taken too seldom to be seen.
        self.assertAlmostEqual(bound.combined_bound(9_600, 10**0.7) / total, 1, delta=1e-3)

    def test_one_fade_for_a_frame(self) -> None:
        for rate, ratio in ((9_600, 10.0), (1_200, 3.0)):
            def share(power: float, rate: int = rate, ratio: float = ratio) -> float:
                return bound.frame_bound(rate, ratio * power) * math.exp(-power)

            wanted = integrate.quad(share, 0, 8, limit=500, points=[0.1, 0.2, 0.4])[0]
            self.assertAlmostEqual(bound.slow_bound(rate, ratio) / wanted, 1, delta=5e-3)

    def test_fading_costs_and_a_fade_for_each_symbol_costs_least(self) -> None:
        for decibels in (6, 8, 10):
            ratio = 10 ** (decibels / 10)
            shares = [share(9_600, ratio) for share in (bound.frame_bound, bound.combined_bound, bound.slow_bound)]
            self.assertEqual(shares, sorted(shares))

    def test_the_bound_of_a_row_is_that_of_its_air(self) -> None:
        channel, found = levels.Channel("frame 9600", 40, 9_600, 1.0), {}
        for kind in levels.AirKind:
            air = levels.Air((1.0,), 1e4, kind=kind)
            found[kind] = report.row_of("it", channel, Count(9), 1_500, air.sigma(channel, 7.0), air, 7)
        ratio = 10**0.7
        for kind, share in ((levels.AirKind.RAYLEIGH, bound.combined_bound), (levels.AirKind.WHITE, bound.frame_bound)):
            told = found[kind].bound
            assert told is not None
            self.assertAlmostEqual(told / share(9_600, ratio), 1, places=4)
        self.assertIsNone(found[levels.AirKind.FADING].bound)
        self.assertEqual([row.air for row in found.values()], ["white", "rayleigh", "fading"])

    def test_a_csv_of_before_is_read(self) -> None:
        path = os.path.join(temporary_folder(self.addCleanup), "old.csv")
        with open(path, "w", encoding="ascii") as file:
            file.write(",".join(report.OLD_FIELDS) + "\nit,sync,1.0,2.0,3.0,7,9,1,1,0,0,0,0,0.1,0.0,0.5,\n")
        row, = report.read_csv(path)
        self.assertEqual((row.lost, row.unlocked, row.air, row.bound), (1, 0, "white", None))
        with open(path, "w", encoding="ascii") as file:
            file.write(",".join(report.FIELDS) + "\nit,sync,1.0,2.0,3.0,7,9,1,1,0,0,0,0,0,0.1,0.0,0.5,,grey\n")
        with self.assertRaisesRegex(Refused, "not a CSV file of this tool: 'grey'"):
            report.read_csv(path)


class Runs(unittest.TestCase):
    """The tool over a link."""

    def setUp(self) -> None:
        self.folder = temporary_folder(self.addCleanup)

    def at(self, name: str) -> str:
        return os.path.join(self.folder, name)

    def ran(self, script: str, options: str, *more: object, maker: str) -> tuple[int, list[str], list[str]]:
        """Runs the tool over a link; returns its status and its lines on both outputs."""
        words = [script, "--maker", maker, "--workers", 1, "--step", 1, "--channel", options, "--out", self.at("out")]
        status, wrote, said = run_main("curve", *words, *more)
        return status, wrote.splitlines(), said.splitlines()

    def test_options_that_are_none(self) -> None:
        script = os.path.join(EXAMPLES, "frames_9600.script")
        for options, why in (
            ("--paths 1:x", "argument --paths: not a number: 'x'"),
            ("--seed 3", "unrecognized arguments: --seed 3"),
            ("--rate 1000000", "a lock needs 1,228,800 samples a second or more"),
            ("'", "wrong options: No closing quotation"),
            ("--carrier", "expected one argument"),
        ):
            with self.subTest(options):
                status, _, lines = self.ran(script, options, "--from", 3, "--to", 3, "--frames", 9, maker="/bin/true")
                self.assertEqual(status, 2)
                self.assertEqual(len(lines), 1)
                self.assertIn(f"curve: argument --channel: {why}", lines[0])
        more = ("--path", "7:1", "--from", 3, "--to", 3, "--frames", 9)
        status, _, lines = self.ran(script, "", *more, maker="/bin/true")
        self.assertEqual((status, len(lines)), (2, 1))
        self.assertIn("--path can't be given with --channel", lines[0])

    def rows(self) -> dict[tuple[str, str], dict[str, str]]:
        """Returns the rows of frames, by point and receiver."""
        with open(os.path.join(self.at("out"), "curve.csv"), newline="", encoding="ascii") as file:
            rows = [row for row in csv.DictReader(file) if row["channel"] == "frame 9600"]
        return {(row["point_db"], row["receiver"]): row for row in rows}

    def short_script(self, samples: int) -> str:
        """Returns an example with `samples` samples."""
        with open(os.path.join(EXAMPLES, "frames_9600.script"), encoding="ascii") as file:
            text = re.sub(r"samples=\d+", f"samples={samples}", file.read())
        with open(self.at("it.script"), "w", encoding="ascii") as file:
            file.write(text)
        return self.at("it.script")

    @unittest.skipUnless(PROGRAM, NO_PROGRAM)
    def test_behind_a_lock_as_many_frames_are_heard_as_of_the_samples(self) -> None:
        """At 6 dB almost nothing is lost without a link, and a lock costs some tenths of a decibel."""
        script = self.short_script(1_500_000)
        options = "--carrier 700 --clock 4 --delay 0.3 --type cu8"
        status, table, lines = self.ran(script, options, "--from", 6, "--to", 6, "--frames", 60, maker=str(PROGRAM))
        self.assertEqual((status, lines), (0, []))
        self.assertTrue(table[0].endswith("/good but wrong/without a lock"))
        (_, name), = self.rows()
        self.assertEqual(name, f"cdma_replay follow over {options}")
        row = self.rows()["6.0", name]
        self.assertEqual((row["air"], row["unlocked"]), ("white", "0"))
        self.assertGreaterEqual(int(row["sent"]), 60)
        self.assertLessEqual(int(row["errors"]), 2)
        self.assertTrue(os.path.getsize(os.path.join(self.at("out"), "curve.png")) > 1_000)

    def in_process(self, locks: list[Locked | Refused], *more: object) -> tuple[int, str, str]:
        """Runs the tool within this process, with more arguments, over a radio whose locks end like these, in turn."""
        words = ["--from", 6, "--to", 6, "--step", 1, "--frames", 9, "--workers", 1, "--channel", "", "--out", self.at("out")]
        with mock.patch.object(antenna, "lock", side_effect=locks):
            return run_main("curve", self.short_script(1_000_000), "--maker", PROGRAM, *words, *more)

    @unittest.skipUnless(PROGRAM, NO_PROGRAM)
    def test_a_link_on_which_there_is_no_lock_is_refused(self) -> None:
        status, _, said = self.in_process([Refused("no pilot stands out")])
        wanted = "curve: --channel: there is no lock even without noise: no pilot stands out\n"
        self.assertEqual((status, said), (1, wanted))

    @unittest.skipUnless(PROGRAM, NO_PROGRAM)
    def test_what_is_in_a_file_without_a_lock_is_the_locks_loss(self) -> None:
        status, table, said = self.in_process([FOUND, *[Refused("no pilot stands out") for _ in range(9)]])
        self.assertEqual((status, said), (0, ""))
        row, = self.rows().values()
        self.assertEqual((row["unlocked"], row["errors"], row["lost"]), (row["sent"], row["sent"], "0"))
        self.assertGreaterEqual(int(row["sent"]), 9)
        self.assertEqual(row["receiver"], "cdma_replay follow over one path")
        ends = [line.split()[-1] for line in table.splitlines()[1:]]
        self.assertTrue(all(end.startswith("0/0/0/0/0/") and not end.endswith("/0") for end in ends), table)

    @unittest.skipUnless(PROGRAM, NO_PROGRAM)
    def test_files_may_have_fewer_frames_than_the_script(self) -> None:
        """A lock may begin after a file's first frames, so up to twice as many files may be counted as the script
        needs."""
        most: list[int] = []

        def ledger(points: list[int], rule: Rule, files: int, done: Done) -> Ledger:
            """Returns the ledger, whose greatest number of files is kept."""
            most.append(files)
            return Ledger(points, rule, files, done)

        locks: list[Locked | Refused] = [FOUND, *[Refused("no pilot stands out") for _ in range(99)]]
        with mock.patch.object(curve, "Ledger", ledger):
            status, _, said = self.in_process(locks, "--frames", 1_000, "--errors", 1)
        self.assertEqual((status, said), (0, ""))
        row, = self.rows().values()
        self.assertEqual(most, [-(-2_000 // int(row["sent"]))])


if __name__ == "__main__":
    unittest.main()
