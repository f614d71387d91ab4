"""The parts of `tools/curve`, against independent numbers: published weights, brute force, and the definitions."""

import dataclasses
import math
import os
import sqlite3
import tempfile
import unittest
from decimal import Decimal

from tools.tests.helping import ROOT, example, needs, temporary_folder

needs("numpy", "scipy")

import numpy  # noqa: E402
from numpy.typing import NDArray  # noqa: E402
from scipy import stats  # noqa: E402

from cdma_tools.errors import Refused  # noqa: E402

from cdma_tools.curves import bound, counting, levels, noise, plan, receiver, report, store  # noqa: E402
from cdma_tools.curves.batch import Curve, Setup, on_air  # noqa: E402
from cdma_tools.curves.counting import Count, Counts, Heard  # noqa: E402
from cdma_tools.scripts import Frame, Script, Traffic, chosen_channel, read_script  # noqa: E402

FRAMES = (Frame("frame", 9_600, "8:aa"), Frame("frame", 1_200, "16:0102"))
TRAFFIC = Traffic(10, "0000abcd", 3, 40, FRAMES)


def cell(
    start: int = 0, samples: int = 200_000, link: complex = 1 + 0j, gains: dict[int, int] | None = None
) -> Script:
    """Returns a script with one traffic channel of TRAFFIC's form."""
    gains = gains or {0: 100, 32: 30, 10: 40}
    return Script(link, start, samples, 0, gains, (), (TRAFFIC,))


class Scripts(unittest.TestCase):
    def test_an_example_is_read(self) -> None:
        script = read_script(example("frames_9600.script").decode(), "it")
        self.assertEqual((script.link, script.start, script.samples, script.prat), (1, 0, 9_830_400, 0))
        self.assertEqual(script.gains, {0: 100, 32: 35, 1: 56, 10: 34})
        channel = chosen_channel(script, None, "it")
        self.assertEqual((channel.row, channel.esn, channel.offset, channel.gain), (10, "0000abcd", 0, 34))
        frames = {(frame.kind, frame.rate, frame.bits[:4]) for frame in channel.frames}
        self.assertEqual(frames, {("frame", 9_600, "172:")})
        self.assertEqual(script.power(), 2 * (100**2 + 35**2 + 56**2 + 34**2))

    def test_a_row_is_chosen(self) -> None:
        text = example("frames_9600.script").decode()
        text += f"traffic row=11 esn=00000001 offset=2 gain=5\nframe 1200 16:0000 {16 * '0'}\n"
        script = read_script(text, "it")
        self.assertEqual(chosen_channel(script, 11, "it").gain, 5)
        with self.assertRaisesRegex(Refused, "no traffic channel on row 12, only on 10, 11"):
            chosen_channel(script, 12, "it")

    def test_what_is_no_script_is_refused(self) -> None:
        for text, said in (
            ("hello world\n", "line 1 is not a line of a script"),
            ("cell pn=1\nlink re=x im=0 start=0 samples=9\n", "line 2 is not a line"),
            ("", "no link line"),
            ("frame 9600 172:00 0\n", "line 1 is not a line"),
        ):
            with self.subTest(text), self.assertRaisesRegex(Refused, said):
                read_script(text, "it")
        with self.assertRaisesRegex(Refused, "it: no traffic channel"):
            chosen_channel(read_script(example("second_of_sync.script").decode(), "it"), None, "it")


class Levels(unittest.TestCase):
    def test_rows_of_the_minimum_performance_standard(self) -> None:
        """Traffic Ec/Ior, bits a second and Eb/Nt in dB of its tests in white noise, where Ior/Ioc is -1 dB."""
        rows = ((-16.3, 9_600, 3.8), (-15.8, 9_600, 4.3), (-19.1, 4_800, 4.0), (-21.6, 2_400, 4.5))
        for traffic, rate, wanted in rows:
            with self.subTest(rate=rate, traffic=traffic):
                total = 1e8
                gain = round(math.sqrt(total * 10 ** (traffic / 10) / levels.TRAFFIC_SHARE))
                sigma = math.sqrt((2 * total * 10**0.1 - levels.ROUNDING) / 2)
                air = levels.Air((1.0,), total)
                found = air.decibels(levels.Channel("frame", gain, rate, levels.TRAFFIC_SHARE), sigma)
                self.assertAlmostEqual(found, wanted, delta=0.05)

    def test_two_equal_paths_are_noise_to_each_other(self) -> None:
        """With all of the cell's power on each of two paths, each has Ec / (Ioc + Ior)."""
        air = levels.Air((1.0, 1.0), 16_000.0)
        channel = levels.Channel("frame", 40, 9_600, 1.0)
        sigma = math.sqrt((32_000 - levels.ROUNDING) / 2)
        self.assertAlmostEqual(air.ratio(channel, sigma), 2 * 128 * 1_600 * 2 / (32_000 + 32_000))

    def test_other_cells_are_noise(self) -> None:
        channel = levels.Channel("frame", 40, 9_600, 1.0)
        sigma = math.sqrt((1_000 - levels.ROUNDING) / 2)
        self.assertAlmostEqual(levels.Air((4.0,), 1e4, 3_000).ratio(channel, sigma), 4 * 2 * 1_600 * 128 / 4_000)

    def test_a_level_gives_its_decibels(self) -> None:
        script = cell(link=3 - 4j)
        channel = next(iter(levels.channels_of(script, TRAFFIC).values()))
        for paths in ((), (0.5j, 1.0)):
            air = levels.air_of(script, paths, 7.0)
            for decibels in (-6.0, 0.0, 4.25):
                self.assertAlmostEqual(air.decibels(channel, air.sigma(channel, decibels)), decibels, places=6)

    def test_what_no_level_gives_is_refused(self) -> None:
        air = levels.air_of(cell(), (1j,), 0.0)
        with self.assertRaisesRegex(Refused, "no noise level gives 30 dB"):
            air.sigma(levels.Channel("frame", 40, 9_600, 1.0), 30)

    def test_the_fastest_frames_come_first_then_messages(self) -> None:
        found = levels.channels_of(cell(), TRAFFIC)
        self.assertEqual(list(found), ["frame 9600", "frame 1200", "sync"])
        self.assertEqual(found["sync"].gain, 30)


class Noise(unittest.TestCase):
    def test_it_is_white_and_gaussian(self) -> None:
        parts = numpy.full(400_000, 17, dtype=numpy.int16)
        made = noise.noisy(parts, 300.0, noise.generator(1, 2_000, 0)).astype(float) - 17
        self.assertLess(abs(made.mean()), 5 * 300 / math.sqrt(len(made)))
        self.assertAlmostEqual(made.std() / 300, 1, delta=5 / math.sqrt(2 * len(made)))
        self.assertGreater(stats.kstest(made / 300, "norm").pvalue, 0.001)
        for lag in (1, 2, 3, 64, 1_000):
            self.assertLess(abs(numpy.corrcoef(made[:-lag], made[lag:])[0, 1]), 5 / math.sqrt(len(made)))

    def test_it_hangs_on_seed_point_and_batch_alone(self) -> None:
        parts = numpy.zeros(1_000, dtype=numpy.int16)

        def made(seed: int, point: int, batch: int) -> bytes:
            return noise.noisy(parts, 100.0, noise.generator(seed, point, batch)).tobytes()

        self.assertEqual(made(1, -500, 3), made(1, -500, 3))
        self.assertEqual(len({made(1, -500, 3), made(2, -500, 3), made(1, 500, 3), made(1, -500, 4)}), 4)

    def test_blocks_change_nothing(self) -> None:
        parts = numpy.arange(5_000, dtype=numpy.int16)
        whole = noise.noisy(parts, 50.0, noise.generator(1, 0, 0))
        old, noise.BLOCK = noise.BLOCK, 999
        try:
            self.assertEqual(noise.noisy(parts, 50.0, noise.generator(1, 0, 0)).tobytes(), whole.tobytes())
        finally:
            noise.BLOCK = old

    def test_it_keeps_the_range_of_samples(self) -> None:
        parts = numpy.full(10_000, 32_000, dtype=numpy.int16)
        made = noise.noisy(parts, 1_000.0, noise.generator(1, 0, 0)).astype(int)
        draws = 32_000 + 1_000 * noise.generator(1, 0, 0).standard_normal(10_000)
        self.assertEqual(made.tolist(), numpy.rint(draws).clip(-32_768, 32_767).astype(int).tolist())
        self.assertEqual(made.max(), 32_767)

    def test_noise_that_would_be_cut_is_refused(self) -> None:
        noise.check_room(767, 8_000.0)
        with self.assertRaisesRegex(Refused, "exceeds the range of samples"):
            noise.check_room(768, 8_000.0)


def encoded(words: NDArray[numpy.int64], repeats: int) -> NDArray[numpy.int64]:
    """Returns the repeated code symbols of words, one row of bits each, tail included, by the two polynomials' powers
    of D."""
    padded = numpy.hstack([numpy.zeros((len(words), 8), dtype=int), words])
    steps = words.shape[1]
    powers = ((0, 1, 2, 3, 5, 7, 8), (0, 2, 3, 4, 8))
    symbols = [sum(padded[:, 8 - lag : 8 - lag + steps] for lag in lags) % 2 for lags in powers]
    return numpy.repeat(numpy.stack(symbols, axis=2).reshape(len(words), -1), repeats, axis=1)


def all_words(bits: int) -> NDArray[numpy.int64]:
    """Returns all words of `bits` bits except that of zeros, with eight zeros after each."""
    numbers = numpy.arange(1, 1 << bits)
    words = numbers[:, None] >> numpy.arange(bits) & 1
    return numpy.hstack([words, numpy.zeros((len(words), 8), dtype=int)])


def leaves_once(words: NDArray[numpy.int64]) -> NDArray[numpy.bool_]:
    """Returns whether a word leaves the zero word once: no eight zeros in a row between its first and its last 1."""
    zeros, leaves = numpy.zeros(len(words), dtype=int), numpy.ones(len(words), dtype=bool)
    has_begun = numpy.zeros(len(words), dtype=bool)
    for bits in words.T == 1:
        leaves &= ~(bits & has_begun & (zeros >= 8))
        has_begun |= bits
        zeros = numpy.where(bits, 0, zeros + 1)
    return leaves


class Bounds(unittest.TestCase):
    def test_the_codes_weights_are_those_in_the_literature(self) -> None:
        """The spectrum of the code of rate 1/2 with constraint length 9 and generators 753, 561 (J. Conan, 1984)."""
        wanted = dict(zip(range(12, 22, 2), (11, 50, 286, 1_630, 9_639)))
        found = bound.code_weights(21)
        self.assertEqual({weight: int(count) for weight, count in enumerate(found) if count}, wanted)

    def test_a_frames_weights_are_those_of_all_its_words(self) -> None:
        words = all_words(16)
        words = words[leaves_once(words)]
        weights = encoded(words, 8).sum(axis=1)
        self.assertEqual(bound.frame_weights(1_200).tolist(), numpy.bincount(weights, minlength=385).tolist())

    def test_dropped_symbols_of_rate_set_2_weigh_nothing(self) -> None:
        """A word of 1,800 bits a second, three bits of it set, weighs what its kept symbols do."""
        form = bound.FORMS[1_800]
        sent = bound.times_sent(form)
        self.assertEqual(sent.sum(), 384)
        words = numpy.zeros((1, 36), dtype=int)
        words[0, [0, 5, 27]] = 1
        symbols = encoded(words, 8)[0].reshape(-1, 6)
        self.assertEqual(symbols[:, [0, 1, 3, 5]].sum(), (encoded(words, 1)[0] * sent.reshape(-1)).sum())

    def test_every_rate_sends_384_symbols(self) -> None:
        for rate, form in bound.FORMS.items():
            with self.subTest(rate=rate):
                self.assertEqual(bound.times_sent(form).sum(), 384)
                self.assertEqual(2 * (form.bits + 8) * form.repeats, 384 if form.rate_set == 1 else 576)

    def test_frames_that_err_are_no_more_than_the_bound_and_not_many_fewer(self) -> None:
        """The best of all 65,536 words of 1,200 bits a second, by plain comparison, at 0.5 dB, where a union bound is
        two or three times the share that it bounds: an error often has several words nearer than the one that was sent."""
        ratio, frames, draws = 10**0.05, 600, numpy.random.default_rng(5)
        signs = 1.0 - 2 * numpy.vstack([numpy.zeros((1, 48), dtype=int), encoded(all_words(16), 1)])
        left = draws.binomial(8, 22 / 24, size=(frames, 48))
        level = math.sqrt(2 * bound.symbol_ratio(1_200, ratio))
        soft = left * level + numpy.sqrt(left) * draws.standard_normal(left.shape)
        errors = 0
        for begin in range(0, frames, 100):
            scores = soft[begin : begin + 100].astype(numpy.float32) @ signs.T.astype(numpy.float32)
            errors += int((scores.argmax(axis=1) != 0).sum())
        low, high = report.interval(errors, frames)
        self.assertLess(low, bound.frame_bound(1_200, ratio))
        self.assertGreater(high, 0.25 * bound.frame_bound(1_200, ratio))

    def test_energy_of_symbols(self) -> None:
        """All symbols of a second share the energy of its bits and of its power control bits, 1 in 12."""
        self.assertAlmostEqual(bound.symbol_ratio(9_600, 1.0), 0.5 * 12 / 11)
        self.assertAlmostEqual(bound.symbol_ratio(1_200, 2.0), 0.125 * 12 / 11)


class Counting(unittest.TestCase):
    def test_frames_that_were_sent(self) -> None:
        """FRAME_OFFSET 3 is 4,608 chips; sample 0 is local chip 30,000, within frame 1."""
        found = counting.frames_sent(cell(start=30_000, samples=97_000), TRAFFIC)
        first = 4_608 + 3 * 24_576 - 30_000
        self.assertEqual(found, {first: FRAMES[0], first + 24_576: FRAMES[1]})

    def test_a_frame_at_the_files_very_end_is_left_out(self) -> None:
        end = 4_608 + 2 * 24_576
        self.assertEqual(len(counting.frames_sent(cell(samples=end + 63), TRAFFIC)), 1)
        self.assertEqual(len(counting.frames_sent(cell(samples=end + 64), TRAFFIC)), 2)

    def test_each_bad_end(self) -> None:
        sent = FRAMES[0]
        for line, wanted in (
            (Heard("frame", 0, 9_600, True, "8:aa"), None),
            (Heard("frame", 0, 9_600, False, "8:ab"), "marked_bad"),
            (Heard("frame", 0, 1_200, False, "8:aa"), "marked_bad"),
            (Heard("frame", 0, 9_600, False, "8:aa"), "bad_but_right"),
            (Heard("frame", 0, 1_200, True, "16:0102"), "other_rate"),
            (Heard("frame2", 0, 9_600, True, "8:aa"), "other_rate"),
            (Heard("frame", 0, 9_600, True, "8:ab"), "wrong_but_good"),
        ):
            with self.subTest(line=line):
                self.assertEqual(counting.outcome_of(sent, line), wanted)

    def test_lines_belong_to_the_frames_near_them(self) -> None:
        sent = {50_000: FRAMES[0], 74_576: FRAMES[1], 99_152: FRAMES[0]}
        lines = [
            Heard("frame", 50_012, 9_600, True, "8:aa"),
            Heard("frame", 74_576 - 900, 1_200, True, "16:0102"),
            Heard("frame", 50_000, 9_600, True, "8:ab"),
            Heard("frame", 123_728, 9_600, True, "8:aa"),
        ]
        counts: dict[str, Count] = {}
        counting.count_frames(sent, lines, counts)
        self.assertEqual(counts, {"frame 9600": Count(2, lost=1), "frame 1200": Count(1, lost=1)})

    def test_messages_by_text_and_place(self) -> None:
        sent = {("sync", "time=1"): [100], ("paging", "other type=1 bits=8:00"): [5_000, 10_000, 15_000]}
        found = {("sync", "time=2"): [100], ("paging", "other type=1 bits=8:00"): [5_020, 15_000, 15_001]}
        counts: dict[str, Count] = {}
        counting.count_messages(sent, found, counts)
        self.assertEqual(counts, {"sync": Count(1, lost=1), "paging": Count(3, lost=1)})

    def test_what_is_to_be_heard_begins_at_the_mark(self) -> None:
        sync = "prev=3 min=1 sid=1 nid=2 pn=1 lc=20000000000 time=1 lp=13 ltm=0 daylt=0 prat=0 rest=3:00"
        frame = f"frame at={4_608 + 3 * 24_576} rate=9600 good=1 bits=8:aa commands={16 * '0'}"
        clean = [f"sync at=20000 {sync}", frame]
        wanted = counting.expected(cell(), TRAFFIC, clean, "it")
        self.assertEqual(min(wanted.frames), 4_608 + 3 * 24_576)
        self.assertEqual(len(wanted.frames), 5)
        self.assertEqual(wanted.messages, {("sync", sync): [20_000]})
        with self.assertRaisesRegex(Refused, "decodes no frame"):
            counting.expected(cell(), TRAFFIC, clean[:1], "it")

    def test_lines_that_the_formats_do_not_have_are_refused(self) -> None:
        for line in ("frame at=1 rate=9600 good=2 bits=8:00 commands=" + 16 * "0", "hello", "", "frame at=x"):
            with self.subTest(line), self.assertRaisesRegex(Refused, "it: line 2 is not one of docs/FORMATS.md"):
                counting.counted(counting.Expected({9: FRAMES[0]}, {}), ["pilot phase=1 energy=2", line], "it")


def case(name: str) -> tuple[str, list[str]]:
    """Returns the script and the lines of a case of conformance/, which another program computed."""
    blocks: dict[str, list[str]] = {"script:": [], "text:": []}
    block: list[str] | None = None
    with open(os.path.join(ROOT, "conformance", "cases", name + ".case"), encoding="ascii") as file:
        for line in file.read().splitlines():
            if block is not None and line.startswith("  "):
                block.append(line[2:])
            else:
                block = blocks.get(line)
    return "".join(line + "\n" for line in blocks["script:"]), blocks["text:"]


class Cases(unittest.TestCase):
    """The frames that were sent are in the lines of cases without noise, each at its place."""

    def counted(self, name: str, row: int | None) -> Counts:
        """Returns what is counted from a case's own lines."""
        text, lines = case(name)
        script = read_script(text, name)
        wanted = counting.expected(script, chosen_channel(script, row, name), lines, name)
        return counting.counted(wanted, lines, name)

    def test_all_frames_and_messages_are_found(self) -> None:
        for name, row, channels in (
            ("three_seconds", None, 6),
            ("rate2_four_rates", None, 4),
            ("rate2_offset", None, 4),
            ("traffic_row_63", None, 6),
        ):
            with self.subTest(name):
                counts = self.counted(name, row)
                self.assertEqual(len(counts), channels)
                self.assertEqual({count.errors() for count in counts.values()}, {0})
                self.assertTrue(all(count.sent for count in counts.values()))

    def test_frames_that_another_serial_number_hides_are_errors(self) -> None:
        counts = self.counted("traffic_wrong_serial", None)
        for channel in ("frame 2400", "frame 1200"):
            self.assertEqual(counts[channel].errors(), counts[channel].sent)
            self.assertEqual(counts[channel].lost, 0)

    def test_frames_that_are_one_at_two_rates(self) -> None:
        """A frame of zeros at 1,200 bits a second has the symbols of one at 2,400, and is decoded as that."""
        count = self.counted("traffic_three_fingers", None)["frame 1200"]
        self.assertEqual((count.other_rate, count.errors()), (count.sent, count.sent))


class OnAir(unittest.TestCase):
    def test_a_second_path_comes_later_by_its_factor(self) -> None:
        """50 + 60j and (0.5 - 1j)(100 + 20j) are 120 - 30j; 1 + 2j and (0.5 - 1j)(-7 + 3j) are 0.5 + 10.5j."""
        setup = dataclasses.replace(setup_for(), paths=((2, 0.5 - 1j),))
        parts = numpy.array([100, 20, -7, 3, 50, 60, 1, 2], dtype=numpy.int16)
        self.assertEqual(on_air(setup, parts).tolist(), [100, 20, -7, 3, 120, -30, 0, 10])

    def test_paths_that_leave_the_range_are_refused(self) -> None:
        setup = dataclasses.replace(setup_for(), paths=((1, 1j),))
        with self.assertRaisesRegex(Refused, "exceed the range of samples"):
            on_air(setup, numpy.array([32_000, 0, 0, 1_000], dtype=numpy.int16))


class Words(unittest.TestCase):
    def test_the_channel_is_added_where_it_is_not_named(self) -> None:
        for given, wanted in (
            ("follow", "follow --esn 0000abcd --row 10 --offset 3"),
            ("list --k 4", "list --k 4 --esn 0000abcd --row 10 --offset 3"),
            ("follow --row=11 --fingers 2", "follow --row=11 --fingers 2 --esn 0000abcd --offset 3"),
        ):
            self.assertEqual(receiver.words_of(given, TRAFFIC), wanted)

    def test_commands_that_hear_no_such_frames_are_refused(self) -> None:
        for given in ("rate2", "idle --key 00000000", "", "follow '"):
            with self.subTest(given), self.assertRaises(Refused):
                receiver.words_of(given, TRAFFIC)


def batch_of(errors: int, sent: int = 10) -> list[Counts]:
    """Returns one curve's counts of a batch."""
    return [{"frame 9600": Count(sent, lost=errors), "sync": Count(2, lost=2)}]


class Plans(unittest.TestCase):
    def test_points(self) -> None:
        self.assertEqual(plan.points_of(Decimal("-1"), Decimal("0.5"), Decimal("0.5")), [-1_000, -500, 0, 500])
        self.assertEqual(plan.points_of(Decimal("2"), Decimal("2"), Decimal("1")), [2_000])
        for words in (("1", "2", "0"), ("2", "1", "1"), ("1", "2", "0.0001"), ("0", "9", "0.001")):
            with self.subTest(words), self.assertRaises(Refused):
                plan.points_of(*(Decimal(word) for word in words))

    def test_the_rule_looks_at_batches_in_order(self) -> None:
        rule = plan.Rule(frames=1_000, errors=5)
        self.assertIsNone(rule.length({}))
        self.assertIsNone(rule.length({1: batch_of(9), 2: batch_of(9)}))
        done = {0: batch_of(2), 1: batch_of(2), 2: batch_of(1), 3: batch_of(9)}
        self.assertEqual(rule.length(done), 3)
        self.assertIsNone(rule.length({0: batch_of(2), 1: batch_of(2), 3: batch_of(9)}))

    def test_frames_are_enough_too_and_messages_are_none(self) -> None:
        self.assertEqual(plan.Rule(20, 5).length({0: batch_of(0), 1: batch_of(0), 2: batch_of(0)}), 2)

    def test_each_curve_needs_its_errors(self) -> None:
        done = {0: [*batch_of(9), *batch_of(3)], 1: [*batch_of(9), *batch_of(3)]}
        self.assertEqual(plan.Rule(100, 6).length(done), 2)

    def test_a_ledger_counts_the_same_in_any_order(self) -> None:
        batches = {batch: batch_of(batch % 3) for batch in range(10)}
        wanted = None
        for seed in range(5):
            ledger = plan.Ledger([0], plan.Rule(100, 4), 10, {})
            for batch in numpy.random.default_rng(seed).permutation(10):
                ledger.take(0, int(batch), batches[int(batch)])
            wanted = wanted or ledger.counted(0)
            self.assertEqual(ledger.counted(0), wanted)
        self.assertEqual(wanted, [{"frame 9600": Count(50, lost=4), "sync": Count(10, lost=10)}])

    def test_a_ledger_wants_what_open_points_lack(self) -> None:
        ledger = plan.Ledger([0, 500], plan.Rule(30, 5), 3, {0: {0: batch_of(5)}, 500: {1: batch_of(0)}})
        self.assertEqual(list(ledger.wanted()), [(500, 0), (500, 2)])
        self.assertEqual(ledger.left(), 2)
        self.assertIsNone(ledger.counted(500))


def setup_for(seed: int = 1, words: str = "follow") -> Setup:
    """Returns the setup of a run of one curve."""
    return Setup("it", "text", 10, (), (), "/m", "aa", (Curve("/m", "aa", words, "m"),), seed, 5.0, "1.0")


class Stores(unittest.TestCase):
    def setUp(self) -> None:
        self.folder = temporary_folder(self.addCleanup)

    def test_a_batch_is_kept_once_and_read_back(self) -> None:
        kept = store.opened(self.folder, setup_for())
        kept.add(1_500, 2, batch_of(3))
        kept.add(1_500, 2, batch_of(7))
        kept.close()
        again = store.opened(self.folder, setup_for())
        self.addCleanup(again.close)
        self.assertEqual(again.done(1), {1_500: {2: batch_of(3)}})

    def test_a_batch_without_counts_is_done_too(self) -> None:
        kept = store.opened(self.folder, setup_for())
        self.addCleanup(kept.close)
        kept.add(0, 0, [{}])
        self.assertEqual(kept.done(1), {0: {0: [{}]}})

    def test_counts_of_another_run_are_refused(self) -> None:
        store.opened(self.folder, setup_for()).close()
        with self.assertRaisesRegex(Refused, r"another run \(receivers, seed differ\)"):
            store.opened(self.folder, setup_for(2, "list --k 4"))

    def test_what_is_no_file_of_counts_is_refused(self) -> None:
        with open(os.path.join(self.folder, "counts.sqlite"), "wb") as file:
            file.write(b"hello" * 1_000)
        with self.assertRaisesRegex(Refused, "not a database"):
            store.opened(self.folder, setup_for())
        with self.assertRaisesRegex(Refused, "Not a directory|File exists"):
            store.opened(os.path.join(self.folder, "counts.sqlite"), setup_for())

    def test_a_full_disk_keeps_what_was_counted(self) -> None:
        kept = store.opened(self.folder, setup_for())
        self.addCleanup(kept.close)
        kept.base.execute("pragma max_page_count = 12")
        batch = -1
        with self.assertRaisesRegex(Refused, "full"):
            for batch in range(100_000):
                kept.add(0, batch, batch_of(1))
        with sqlite3.connect(os.path.join(self.folder, "counts.sqlite")) as base:
            self.assertEqual(base.execute("select count(*) from batches").fetchone(), (batch,))
            self.assertEqual(base.execute("select count(*) from counts").fetchone(), (2 * batch,))
        base.close()


class Reports(unittest.TestCase):
    def row(self, errors: int = 10, sent: int = 100, channel: str = "frame 9600") -> report.Row:
        """Returns a row of a table."""
        air = levels.Air((1.0,), 1e4)
        return report.row_of(
            "it follow", levels.Channel(channel, 40, 9_600, 1.0), Count(sent, marked_bad=errors), 1_500, 200.0, air, 7
        )

    def test_the_interval_is_wilsons(self) -> None:
        """10 of 100: 0.0552 to 0.1744 (R. Newcombe, 1998, has the formula)."""
        low, high = report.interval(10, 100)
        self.assertAlmostEqual(low, 0.0552, places=4)
        self.assertAlmostEqual(high, 0.1744, places=4)
        self.assertEqual(report.interval(0, 50)[0], 0)

    def test_a_csv_is_read_back(self) -> None:
        rows = [self.row(), self.row(channel="sync")]
        self.assertIsNone(rows[1].bound)
        with tempfile.TemporaryDirectory() as folder:
            path = os.path.join(folder, "curve.csv")
            report.write_csv(path, rows)
            self.assertEqual(report.read_csv(path), rows)
            self.assertEqual(os.listdir(folder), ["curve.csv"])
            for text in ("hello\n", "", ",".join(report.FIELDS) + "\na,b\n"):
                with open(path, "w", encoding="ascii") as file:
                    file.write(text)
                with self.subTest(text), self.assertRaisesRegex(Refused, "not a CSV file of this tool"):
                    report.read_csv(path)

    def test_differences_are_told(self) -> None:
        self.assertEqual(report.differences([self.row()], [self.row()]), [])
        said = report.differences([self.row()], [self.row(errors=11), self.row(channel="sync")])
        self.assertEqual(
            said,
            [
                "it follow, frame 9600 at 1.5 dB, seed 7: kept sent=100 errors=10 marked_bad=10,"
                " counted sent=100 errors=11 marked_bad=11",
                "it follow, sync at 1.5 dB, seed 7: kept none, counted sent=100 errors=10 marked_bad=10",
            ],
        )


if __name__ == "__main__":
    unittest.main()
