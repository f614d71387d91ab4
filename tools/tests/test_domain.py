"""tools/domain and cdma_tools.analysis: rows, powers, phases and times against formulas, and against what was sent."""

import json
import math
import os
import re
import time
import unittest
from typing import Any
from xml.etree import ElementTree

from tools.tests.helping import NO_PROGRAM, PROGRAM, example, needs, run_program, run_tool

needs("numpy", "scipy")

import numpy  # noqa: E402
from numpy.typing import NDArray  # noqa: E402

from cdma_tools.analysis import code_domain, over_paths, pulse, row_correlation, walsh  # noqa: E402
from cdma_tools.analysis.measuring import domain_of_file  # noqa: E402
from cdma_tools.radio.air import HALF_PULSE  # noqa: E402
from tools.tests.radio_helping import (  # noqa: E402
    CHIP_RATE,
    GAINS,
    PERIOD,
    PHASE,
    Recordings,
    cell_chips,
    code,
    run_main,
    whole_cell,
    write_cell,
)

ALL = sum(gain**2 for gain in GAINS.values())


def decibels(ratio: float) -> float:
    return float(10 * numpy.log10(ratio))


def power_over(paths: tuple[tuple[float, float, float], ...]) -> float:
    """Returns the power of a pulse of power 1 over paths with delays in quarters of a chip, levels in dB, and degrees.

    Two paths add the pulse's own correlation at the delay between them, given by its taps at four a chip.
    """
    taps = numpy.array(HALF_PULSE + HALF_PULSE[::-1])
    whole = numpy.correlate(taps, taps, "full") / numpy.sum(taps**2)
    gains = [10 ** (db / 20) * numpy.exp(1j * numpy.radians(degrees)) for _, db, degrees in paths]
    middle = len(taps) - 1
    return float(
        sum(
            (one * other.conjugate()).real * whole[middle + round(4 * (first[0] - second[0]))]
            for one, first in zip(gains, paths)
            for other, second in zip(gains, paths)
        )
    )


class Rows(unittest.TestCase):
    def test_the_transform_is_the_sum_with_walsh_signs(self) -> None:
        values = numpy.random.default_rng(1).standard_normal((64, 6)).astype(numpy.float32)
        signs = numpy.array([[1 - 2 * (bin(row & place).count("1") % 2) for place in range(64)] for row in range(64)])
        self.assertLess(float(numpy.abs(walsh.walsh_transform(values) - signs @ values).max()), 1e-4)

    def test_rows_come_back(self) -> None:
        draws = numpy.random.default_rng(2)
        for phase, blocks in ((0, 1_500), (192, 1_500), (PERIOD - 128, 1_500), (PERIOD - 64, 3_000)):
            levels = draws.standard_normal((64, blocks)).astype(numpy.float32)
            rows = walsh.despread(walsh.spread(levels, phase), phase)
            self.assertLess(float(numpy.abs(rows - levels).max()), 1e-4)

    def test_a_cell_has_the_rows_that_it_sends(self) -> None:
        chips = cell_chips(64 * 999, phase=PHASE - PHASE % 64, gains={0: 3, 5: 2}).astype(numpy.complex64)
        rows = walsh.despread(chips, PHASE - PHASE % 64)
        self.assertLess(float(numpy.abs(rows[0] - 3).max()), 1e-4)
        self.assertLess(float(numpy.abs(numpy.abs(rows[5]) - 2).max()), 1e-4)
        self.assertLess(float(numpy.abs(rows[[1, 4, 6, 63]]).max()), 1e-4)


class Pulses(unittest.TestCase):
    def test_its_values_are_the_taps_own_correlation(self) -> None:
        # 48 taps at four a chip (7.1.3.1.10): R(k) is their correlation 4 k taps apart.
        taps = numpy.array(HALF_PULSE + HALF_PULSE[::-1])
        whole = numpy.correlate(taps, taps, "full")
        middle = len(taps) - 1
        wanted = whole[middle % 4 :: 4] / whole[middle]
        found = pulse.matched_pulse().values
        reach = min(len(wanted) // 2, pulse.REACH)
        self.assertLess(
            float(
                numpy.abs(
                    found[pulse.REACH - reach : pulse.REACH + reach + 1]
                    - wanted[len(wanted) // 2 - reach : len(wanted) // 2 + reach + 1]
                ).max()
            ),
            2e-3,
        )
        self.assertAlmostEqual(pulse.matched_pulse().sides, 0.0227, delta=2e-4)

    def test_slopes(self) -> None:
        # A wave of f cycles a chip has the slope 2 pi f; the filter of R' gives what its response is there.
        cycles = numpy.arange(400) * 0.11
        wave = numpy.exp(2j * numpy.pi * cycles).astype(numpy.complex64)
        taps = pulse.matched_pulse().slopes
        places = numpy.arange(-pulse.SLOPES_REACH, pulse.SLOPES_REACH + 1)
        wanted = wave[pulse.SLOPES_REACH : -pulse.SLOPES_REACH] * (taps @ numpy.exp(2j * numpy.pi * 0.11 * places))
        self.assertLess(float(numpy.abs(pulse.slopes_of(wave) - wanted).max()), 1e-4)


class Correlations(unittest.TestCase):
    """The correlation of chips with those some chips later, by its definition, and its effect over two paths."""

    def test_they_are_sums_over_a_period_within_symbols(self) -> None:
        found, chip = row_correlation.row_correlations(16), numpy.arange(PERIOD)
        for row, symbol in ((0, PERIOD), (1, 64), (10, 64), (32, 256), (63, 64)):
            signs = numpy.array([1 - 2 * (bin(row & place).count("1") % 2) for place in range(64)])
            sent = code() * signs[chip % 64]
            for late in (0, 1, 3, 10, 16):
                other = (chip + late) % PERIOD
                is_same = chip // symbol == other // symbol
                wanted = numpy.sum(sent * sent[other].conj() * (is_same if row else 1)) / (2 * PERIOD)
                self.assertLess(abs(found[row, late] - wanted), 1e-6, (row, late))

    def test_the_power_of_chips_over_two_paths(self) -> None:
        """Without noise nothing is left; by the paths' powers only, more than a thousandth would be."""
        delays, errors = 2 * numpy.arange(-16, 17), []
        for seed, late, gain in ((3, 2, 0.5j), (3, 2, -0.5j), (2, 3, -0.5)):
            sent = whole_cell(700_000, seed)
            chips = sent.copy()
            chips[late:] += gain * sent[:-late]
            domain = code_domain.measured([code_domain.Chips(PHASE, chips.astype(numpy.complex64))], is_pulsed=False)
            assert domain is not None
            response = numpy.where(delays == 0, 1, numpy.where(delays == 2 * late, gain, 0))
            amplitude = GAINS[0] / numpy.sqrt(numpy.mean(numpy.abs(chips) ** 2))
            pilot = over_paths.PilotResponse(delays, amplitude**2 * numpy.outer(response, response.conj()), 0.0)
            powers = numpy.array([(GAINS.get(row.row, 0) / GAINS[0]) ** 2 for row in domain.used])
            rows = row_correlation.row_correlations(32)[[row.row for row in domain.used]]
            self.assertAlmostEqual(domain.in_rows + pilot.beside(powers @ rows), 1, delta=6e-4)
            errors.append(abs(2 * float(powers.sum()) * amplitude**2 * (1 + abs(gain) ** 2) - 1))
        self.assertGreater(max(errors), 2e-3)


class Domains(unittest.TestCase):
    def domain(self, chips: NDArray[Any], phase: int = PHASE, **more: bool) -> code_domain.CodeDomain:
        """Returns the code domain of chips that arrive in pieces of odd lengths."""
        chips = chips.astype(numpy.complex64)
        cuts = [0, 5, 40_000, 40_001, 300_000, len(chips)]
        runs = [code_domain.Chips(phase + a, chips[a:b]) for a, b in zip(cuts, cuts[1:]) if a < len(chips)]
        found = code_domain.measured(runs, is_pulsed=False, **more)
        assert found is not None
        return found

    def test_levels_of_a_clean_cell(self) -> None:
        domain = self.domain(whole_cell(400_000) * numpy.exp(1j))
        self.assertEqual({row.row for row in domain.used}, set(GAINS))
        for row in domain.used:
            self.assertAlmostEqual(row.db, decibels(GAINS[row.row] ** 2 / ALL), delta=0.02)
            self.assertAlmostEqual(row.degrees, 0, delta=0.01)
        self.assertAlmostEqual(domain.rho, 1, delta=1e-4)
        # A chip's level is a sum of the four amplitudes with signs, so each power comes in any long run.
        self.assertAlmostEqual(domain.peak_db, decibels(sum(GAINS.values()) ** 2 / ALL), delta=0.02)
        self.assertEqual(domain.frames.shape, (domain.chips // 24_576, 64))
        self.assertLess(float(numpy.abs(domain.frames.sum(axis=1) - 1).max()), 1e-3)

    def test_levels_and_rho_in_noise(self) -> None:
        draws = numpy.random.default_rng(4)
        for level in (10, 0, -6):
            sent = whole_cell(1_200_000)
            noise = draws.standard_normal(len(sent)) + 1j * draws.standard_normal(len(sent))
            domain = self.domain(sent + noise * numpy.sqrt(ALL / 10 ** (level / 10)))
            part = 1 / (1 + 10 ** (-level / 10))
            self.assertEqual({row.row for row in domain.used}, set(GAINS))
            self.assertAlmostEqual(domain.rho, part, delta=0.002)
            self.assertAlmostEqual(domain.pilot_share, part * GAINS[0] ** 2 / ALL, delta=0.001)
            for row in domain.used:
                self.assertAlmostEqual(row.db, decibels(part * GAINS[row.row] ** 2 / ALL), delta=0.15)
                self.assertAlmostEqual(row.degrees, 0, delta=1)

    def test_totals_are_the_standards_code_domain_powers(self) -> None:
        # C.S0010: of all that is received, the part that falls on a row, noise and all, summed over its symbols.
        draws, count, phase = numpy.random.default_rng(6), 64 * 6_000, PHASE - PHASE % 64
        sent = whole_cell(count, phase=phase)
        noise = draws.standard_normal(count) + 1j * draws.standard_normal(count)
        chips = sent + noise * numpy.sqrt(ALL / 4)
        domain = self.domain(chips, phase)
        blocks = (chips * code()[(phase + numpy.arange(count)) % PERIOD].conj()).reshape(-1, 64)
        for row in (0, 1, 5, 32, 40):
            signs = numpy.array([1 - 2 * (bin(row & place).count("1") % 2) for place in range(64)])
            part = numpy.sum(numpy.abs(blocks @ signs) ** 2) / (64 * numpy.sum(numpy.abs(blocks) ** 2))
            self.assertAlmostEqual(domain.rows[row].total_db, decibels(part), delta=0.05)
        self.assertAlmostEqual(sum(10 ** (row.total_db / 10) for row in domain.rows), 1, delta=1e-4)
        # Noise of a fifth of all power falls evenly into the 64 rows.
        self.assertAlmostEqual(domain.floor_db, decibels(0.2 / 64), delta=0.05)
        self.assertEqual(domain.unused[0].total_db, max(row.total_db for row in domain.rows if not row.is_used))
        self.assertAlmostEqual(domain.unused[0].total_db, domain.floor_db, delta=0.3)

    def test_rho_is_at_most_1_and_its_spread_is_that_of_many_runs(self) -> None:
        found = []
        for seed in range(14):
            draws, sent = numpy.random.default_rng(seed), whole_cell(64 * 24 * 40, seed)
            noise = draws.standard_normal(len(sent)) + 1j * draws.standard_normal(len(sent))
            found.append(self.domain(sent + noise * numpy.sqrt(ALL / 2)))
        spread = float(numpy.std([one.rho for one in found], ddof=1))
        told = float(numpy.mean([one.rho_spread for one in found]))
        self.assertTrue(0.5 < told / spread < 2, (told, spread))
        self.assertLessEqual(self.domain(whole_cell(64 * 24 * 40)).rho, 1.0)

    def test_a_pilot_alone_has_the_standards_rho(self) -> None:
        draws, sent = numpy.random.default_rng(8), cell_chips(400_000, gains={0: 100})
        noise = draws.standard_normal(len(sent)) + 1j * draws.standard_normal(len(sent))
        domain = self.domain(sent + noise * 20)
        # Power 2 * 100^2 of the pilot, and 2 * 20^2 of the noise.
        self.assertAlmostEqual(domain.pilot_only_rho or 0.0, 100**2 / (100**2 + 20**2), delta=1e-3)
        self.assertIsNone(self.domain(whole_cell(100_000)).pilot_only_rho)

    def test_a_row_that_is_turned(self) -> None:
        chips = cell_chips(400_000, gains={0: 100, 1: 80}) + cell_chips(400_000, gains={10: 70}) * numpy.exp(
            1j * numpy.radians(12)
        )
        rows = {row.row: row for row in self.domain(chips).used}
        self.assertAlmostEqual(rows[10].degrees, 12, delta=0.1)
        self.assertAlmostEqual(rows[1].degrees, 0, delta=0.1)

    def test_a_row_that_begins_later(self) -> None:
        late = cell_chips(400_000, gains={10: 70})
        late[:200_000] = 0
        domain = self.domain(cell_chips(400_000, gains={0: 100}) + late)
        half = domain.chips // 24_576 // 2
        self.assertAlmostEqual(float(domain.frames[half + 2 :, 10].mean()), 70**2 / (70**2 + 100**2), delta=1e-3)
        self.assertLess(float(numpy.abs(domain.frames[: half - 2, 10]).max()), 1e-3)

    def test_a_carrier_that_is_left(self) -> None:
        at = numpy.arange(600_000) / CHIP_RATE
        domain = self.domain(whole_cell(600_000) * numpy.exp(2j * numpy.pi * -7.3 * at))
        self.assertAlmostEqual(domain.carrier_left, -7.3, delta=0.02)

    def test_gaps_are_left_out(self) -> None:
        chips = whole_cell(400_000).astype(numpy.complex64)
        runs = [code_domain.Chips(PHASE, chips[:150_000]), code_domain.Chips(PHASE + 150_777, chips[150_777:])]
        domain = code_domain.measured(runs, is_pulsed=False)
        assert domain is not None
        self.assertAlmostEqual(domain.rho, 1, delta=1e-4)
        self.assertIsNone(code_domain.measured([code_domain.Chips(0, chips[:900])]))

    def test_ten_times_as_fast_as_the_air(self) -> None:
        chips = cell_chips(2 * CHIP_RATE).astype(numpy.complex64)
        begin = time.process_time()
        code_domain.measured([code_domain.Chips(PHASE, chips)], has_times=False)
        self.assertLess(time.process_time() - begin, 0.2)


class Recorded(Recordings):
    seconds = 20

    CHIPS = 1_240_000

    @classmethod
    def setUpClass(cls) -> None:
        super().setUpClass()
        cls.cell = write_cell(cls.at("whole.is95"), whole_cell(cls.CHIPS))

    def measured(self, *words: object) -> dict[str, Any]:
        """Returns the JSON of a run over a recording."""
        status, _, said = run_main("domain", *words, "--json", self.at("told.json"))
        self.assertEqual(status, 0, said)
        with open(self.at("told.json"), encoding="utf-8") as file:
            told: dict[str, Any] = json.load(file)
        return told

    def test_a_path_in_noise(self) -> None:
        for ec_io, carrier, clock, delay in ((None, 1_500, 3, 0.3), (-6.6, -700, -12, 0.75), (-10.6, 300, 20, 0.5)):
            noise = () if ec_io is None else ("--ec-io", ec_io)
            path = self.recorded("--carrier", carrier, "--clock", clock, "--delay", delay, *noise)
            told = self.measured(path)
            self.assertEqual((told["rho_by"], told["paths"]), ("moments", "0.00:0.0"))
            part = 1.0 if ec_io is None else 10 ** (ec_io / 10) * ALL / GAINS[0] ** 2
            self.assertAlmostEqual(told["rho"], part, delta=0.001)
            self.assertAlmostEqual(told["pilot_share"], part * GAINS[0] ** 2 / ALL, delta=0.002)
            self.assertAlmostEqual(
                told["error_vector"], numpy.sqrt((1 - part) / part), delta=0.035 if ec_io is None else 0.02
            )
            self.assertAlmostEqual(told["carrier_hz"], carrier, delta=0.5)
            self.assertAlmostEqual(told["clock_ppm"], clock, delta=0.05)
            # Chip k of the cell comes at (k - delay) / (1 + clock) by the radio's clock; a period begins with phase 0.
            chip = told["time_chips"] * (1 + 1e-6 * clock) + delay + PHASE
            self.assertAlmostEqual((chip + PERIOD / 2) % PERIOD - PERIOD / 2, 0, delta=0.01)
            used = {row["row"]: row for row in told["rows"] if row["used"]}
            self.assertEqual(set(used), set(GAINS))
            for number, row in used.items():
                self.assertAlmostEqual(row["db"], decibels(part * GAINS[number] ** 2 / ALL), delta=0.15)
                self.assertAlmostEqual(row["degrees"], 0, delta=1)
                self.assertAlmostEqual(row["chips"], 0, delta=0.02)

    def test_several_paths(self) -> None:
        # Pairs a quarter of a turn apart have the sum of both powers; three within 3.3 chips add to each other's.
        close, near = ((0, 0, 0), (0.5, -3, 90)), ((0, 0, 0), (1, -3, 90))
        three, turned = ((0, 0, 0), (1.5, -2, 90), (3.25, -4, 200)), ((0, 0, 0), (2.5, -3, -90))
        added = ((0, 0, 0), (0.5, -3, 0))  # one peak, wider than the pulse
        cases, seconds = [(close, 10), (near, 10), (three, 0), (three, 20), (turned, 20), (added, 10)], 0.6
        if os.environ.get("EVERY_LEVEL"):
            pair, late = ((0, 0, 0), (2.75, -2, 90)), ((0, 0, 0), (1.25, -1, 120), (3.25, -2, 240))
            every = (close, added, near, three, turned, pair, late)
            cases = [(paths, level) for paths in every for level in (20, 10, 0, -3, -6)]
            seconds = 1.0
        for paths, level in cases:
            with self.subTest(paths=paths, level=level):
                gain = sum(10 ** (db / 10) for _, db, _ in paths)
                noise = gain * 10 ** (-level / 10)
                pilot = GAINS[0] ** 2 / ALL * gain / (gain + noise)
                told_paths = ",".join(f"{delay}:{db}:{degrees}" for delay, db, degrees in paths)
                link = ("--paths", told_paths, "--carrier", 700, "--clock", 5, "--ec-io", decibels(pilot))
                told = self.measured(self.recorded(*link, "--seconds", seconds))
                self.assertEqual(told["rho_by"], "paths")
                power = power_over(paths)
                part = power / (power + noise)
                if os.environ.get("EVERY_LEVEL"):
                    print(f"{told_paths} at {level} dB: rho {told['rho']:.4f}, {told['rho'] - part:+.4f}")
                self.assertAlmostEqual(told["rho"], part, delta=0.005)

    def test_a_row_that_comes_late(self) -> None:
        first = write_cell(self.at("first.is95"), cell_chips(self.CHIPS, gains={0: 100, 1: 80}))
        other = write_cell(self.at("other.is95"), cell_chips(self.CHIPS, gains={10: 70}))
        told = self.measured(self.recorded(cells=(first, f"{other}:0:0.125")))
        rows = {row["row"]: row for row in told["rows"] if row["used"]}
        self.assertAlmostEqual(rows[10]["chips"], 0.125, delta=0.02)
        self.assertAlmostEqual(rows[1]["chips"], 0, delta=0.01)

    def test_a_weaker_cell(self) -> None:
        other = {0: 100, 32: 30, 5: 60}
        cells = [write_cell(self.at(f"{phase}.is95"), whole_cell(500_000, 3, phase, gains)) for phase, gains in
                 ((PHASE, GAINS), (20_040, other))]  # fmt: skip
        path = self.recorded("--ec-io", -7, cells=(cells[0], f"{cells[1]}:-3:12.3"))
        told = self.measured(path, "--cell", 2)
        rows = {row["row"]: row["db"] for row in told["rows"] if row["used"]}
        self.assertEqual(set(rows), set(other))
        for row, gain in other.items():
            self.assertAlmostEqual(rows[row] - rows[0], decibels(gain**2 / other[0] ** 2), delta=0.2)
        status, _, said = run_main("domain", path, "--cell", 3)
        self.assertEqual((status, said), (1, "domain: 2 cells were found: there is no cell 3\n"))

    def test_the_radios_branches(self) -> None:
        path = self.recorded("--dc", 0.1, "--iq", "0.5:3", "--ec-io", -9, "--seconds", 0.5)
        told = self.measured(path)
        for name in ("offset_i", "offset_q"):
            self.assertAlmostEqual(told[name], 0.1 / numpy.sqrt(1 + 2 * 0.1**2), delta=0.01)
        self.assertAlmostEqual(told["imbalance_db"], 0.5, delta=0.05)
        self.assertAlmostEqual(told["skew_degrees"], 3, delta=0.3)

    def limits(self, *words: object) -> tuple[int, dict[str, dict[str, str]]]:
        """Returns the status of a run with --limits, and the line of each limit."""
        status, wrote, said = run_main("domain", *words, "--limits")
        told = [line for line in wrote.splitlines() if line.startswith("limit=")]
        lines = [dict(re.findall(r"(\w+)=(\w[-\w.]*|-\S+)", line)) for line in told]
        self.assertEqual([line["limit"] for line in lines], ["rho", "unused", "time", "phase", "carrier"], said)
        return status, {line["limit"]: line for line in lines}

    def test_the_standards_limits(self) -> None:
        clean = write_cell(self.at("clean.is95"), whole_cell(400_000))
        status, found = self.limits(clean)
        self.assertEqual((status, [line["verdict"] for line in found.values()]), (0, 4 * ["pass"] + ["skip"]))
        # One row is turned by 4 degrees, 0.0698 rad, and noise of a fifth of all power leaves rho 0.8.
        turned = cell_chips(400_000, gains={0: 100, 1: 80}) + cell_chips(400_000, gains={10: 70}) * numpy.exp(
            1j * numpy.radians(4)
        )
        draws, power = numpy.random.default_rng(3), numpy.mean(numpy.abs(turned) ** 2)
        noise = (draws.standard_normal(400_000) + 1j * draws.standard_normal(400_000)) * numpy.sqrt(power / 8)
        status, found = self.limits(write_cell(self.at("turned.is95"), turned + noise))
        self.assertEqual(
            (status, [line["verdict"] for line in found.values()]), (1, ["fail", "fail", "pass", "fail", "skip"])
        )
        self.assertAlmostEqual(float(found["phase"]["value"]), math.radians(4), delta=0.004)
        self.assertEqual(found["phase"]["row"], "10")
        self.assertAlmostEqual(float(found["rho"]["value"]), 0.8, delta=0.003)

    def test_limits_of_a_recording(self) -> None:
        first = write_cell(self.at("first.is95"), cell_chips(self.CHIPS, gains={0: 100, 1: 80}))
        other = write_cell(self.at("other.is95"), cell_chips(self.CHIPS, gains={10: 70}))
        # A row 0.125 chips late, which is 101.7 ns; and a carrier 100 Hz above channel 283, by 0.11 millionths.
        path = self.recorded("--carrier", 100, "--seconds", 0.5, cells=(first, f"{other}:0:0.125"))
        status, found = self.limits(path, "--channel", 283)
        self.assertEqual((status, found["time"]["verdict"], found["carrier"]["verdict"]), (1, "fail", "fail"))
        self.assertAlmostEqual(float(found["time"]["value"]), 101.7, delta=15)
        self.assertAlmostEqual(float(found["carrier"]["value"]), 100 / 878.49, delta=0.002)
        self.assertEqual(self.limits(path)[1]["carrier"]["verdict"], "skip")
        files = ("--junit", self.at("limits.xml"), "--json", self.at("limits.json"))
        words = ("--limits", "--frequency", 878_489_900, *files)
        status, wrote, _ = run_main("domain", path, *words, "--tap")
        self.assertEqual(status, 1)
        self.assertRegex(wrote, r"^TAP version 13\n1\.\.5\n(.*\n)*not ok 3 - time: .*\n(.*\n)*ok 5 - carrier: ")
        cases = ElementTree.parse(self.at("limits.xml")).getroot()
        self.assertEqual((cases.get("tests"), cases.get("failures")), ("5", str(wrote.count("not ok"))))
        with open(self.at("limits.json"), encoding="utf-8") as file:
            limits = json.load(file)["limits"]
        self.assertEqual([limit["verdict"] for limit in limits].count("failed"), wrote.count("not ok"))

    def test_files_lines_and_pictures(self) -> None:
        status, wrote, _ = run_main("domain", self.cell, "--plot", self.at("rows.svg"), "--json", self.at("rows.json"))
        lines = [dict(word.split("=", 1) for word in line.split()) for line in wrote.splitlines()]
        self.assertEqual((status, len(lines)), (0, 1 + len(GAINS)))
        self.assertEqual([line["kind"] for line in lines[1:]], ["pilot", "other", "other", "sync"])
        self.assertEqual(lines[0]["rho"], "1.0000")
        with open(self.at("rows.json"), encoding="utf-8") as file:
            told = json.load(file)
        self.assertEqual((len(told["rows"]), len(told["frames"][0])), (64, 64))
        with open(self.at("rows.svg"), encoding="utf-8") as file:
            self.assertIn("Walsh row", file.read())
        self.assertEqual(len(run_main("domain", self.cell, "--all")[1].splitlines()), 65)

    def test_the_pulse_of_a_file_is_told(self) -> None:
        path = self.recorded("--delay", 0.2, "--seconds", 0.6)
        self.locked(path)
        domain = domain_of_file(self.at("out.is95"), None)
        self.assertAlmostEqual(domain.rho, 1, delta=0.002)
        self.assertAlmostEqual(domain.time_left, 0, delta=0.01)
        chips = numpy.array(cell_chips(200_000), dtype=numpy.complex64)
        self.assertFalse(code_domain.is_pulsed(code_domain.Chips(PHASE, chips)))

    def test_what_is_refused(self) -> None:
        noise = numpy.random.default_rng(1).normal(0, 900, 40_000) + 1j * numpy.random.default_rng(2).normal(
            0, 900, 40_000
        )
        quiet = write_cell(self.at("noise.is95"), noise)
        short = write_cell(self.at("short.is95"), code()[:8_000] * 100)
        few = write_cell(self.at("few.is95"), code()[:8_200] * 100)
        before = set(os.listdir(self.folder))
        for status, why, words in (
            (1, "no pilot stands out", (quiet,)),
            (1, "8000 chips are too few", (short,)),
            (1, "No such file", (self.at("none.is95"),)),
            (1, "not a sample file", (os.path.abspath(__file__),)),
            (1, "no program at /none", (few, "--program", "/none")),
            (2, "give --rate, unless", (quiet, "--type", "cu8")),
            (2, "can't both go to standard output", (quiet, "--plot", "-", "--json", "-")),
            (2, "--skip goes with a recording", (quiet, "--skip", "9")),
            (2, "--tap needs --limits", (quiet, "--tap")),
            (2, "--json and --tap can't both go to standard output", (quiet, "--limits", "--tap", "--json", "-")),
            (2, "--cell goes with a recording", (quiet, "--cell", "2")),
            (2, "band 800 has no channel 900", (quiet, "--type", "cu8", "--rate", "2e6", "--channel", "900")),
            (2, "--band needs --channel", (quiet, "--type", "cu8", "--rate", "2e6", "--band", "800")),
            (2, "it ends neither with .png nor with .svg", (quiet, "--plot", "x.pdf")),
            (2, "not above 0, at most 614,400", (quiet, "--type", "cu8", "--rate", "2e6", "--search", "1e6")),
            (1, "rows.json: No such file or directory", (few, "--json", self.at("none/rows.json"))),
        ):
            with self.subTest(why):
                ended, wrote, said = run_main("domain", *words)
                self.assertEqual((ended, wrote), (status, ""), said)
                self.assertIn(why, said)
                self.assertNotIn("Traceback", said)
                self.assertEqual(set(os.listdir(self.folder)), before)

    @unittest.skipUnless(PROGRAM, NO_PROGRAM)
    def test_a_paging_channel_that_the_program_hears(self) -> None:
        path = self.at("paging.is95")
        with open(path, "wb") as file:
            file.write(run_program("make", data=example("second_of_paging.script"))[1])
        for program, kinds in ((PROGRAM, ["pilot", "paging", "sync"]), ("/bin/true", ["pilot", "other", "sync"])):
            status, wrote, said = run_main("domain", path, "--program", program)
            self.assertEqual((status, said), (0, ""))
            self.assertEqual(re.findall(r"kind=(\S+)", wrote), kinds)

    def test_the_command(self) -> None:
        status, wrote, _ = run_tool("domain", self.cell, "--json", "-")
        self.assertEqual((status, json.loads(wrote)["rho_by"]), (0, "moments"))
        self.assertEqual(run_tool("domain", self.cell, "--plot", "-")[1][:4], b"\x89PNG")
        status, wrote, _ = run_tool("domain", self.cell)
        self.assertEqual(status, 0)
        self.assertTrue(wrote.startswith(b"rho=1.0000 rho_spread="))


if __name__ == "__main__":
    unittest.main()
