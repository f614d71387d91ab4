"""tools/import_capture --lock on recordings that tools/channel makes: what is found, what is written, and each refusal."""

import json
import os
import unittest
from typing import Any

from tools.tests.helping import needs, read_file

needs("numpy", "scipy")

import numpy  # noqa: E402
from numpy.typing import NDArray  # noqa: E402

from cdma_tools.radio.bench import without_pilot  # noqa: E402
from tools.tests.radio_helping import (  # noqa: E402
    CHIP_RATE,
    PERIOD,
    Recordings,
    cell_chips,
    figures,
    read_chips,
    signal_to_noise,
    write_cell,
)


class Found(Recordings):
    parted, seconds = True, 10

    def holds(self, found: dict[str, str], carrier: float, clock: float, ec_io: float) -> None:
        """Asserts that the figures are the recording's, within the accuracy of half a second."""
        self.assertAlmostEqual(float(found["carrier_hz"]), carrier, delta=4)
        self.assertAlmostEqual(float(found["clock_ppm"]), clock, delta=0.1)
        self.assertAlmostEqual(float(found["ec_io_db"]), ec_io, delta=0.1)

    def nearly_ideal(self, found: dict[str, str], most: float = 0.15) -> None:
        """Asserts that the chips are within some dB of those of an ideal receiver."""
        got = signal_to_noise(*self.aligned(self.at("out.is95"), found))
        ideal = signal_to_noise(read_chips(self.at("ideal.is95")), self.sent)
        self.assertGreater(got, ideal - most)

    def test_types_rates_carriers_and_clocks(self) -> None:
        for kind, rate, carrier, clock, delay in (
            ("cu8", 2_400_000, 2_000, 5, 0.3),
            ("ci8", 4_000_000, -15_000, -25, 0.5),
            ("ci16_be", 2_457_600, 300, 0.5, 0.81),
            ("ci16_le", 4_915_200, 19_500, 25, 0.13),
            ("cf32_le", 2_399_987.1, -300, -5, 0.66),
        ):
            with self.subTest(kind=kind, rate=rate):
                path = self.recorded(
                    "--type", kind, "--rate", rate, "--carrier", carrier, "--clock", clock, "--delay", delay,
                    "--ec-io", -10, "--dc", 0.1, "--ideal", self.at("ideal.is95"),
                )  # fmt: skip
                found = self.locked(path)
                self.holds(found, carrier, clock, -10)
                self.assertEqual((found["equaliser"], found["conjugate"], found["lost"]), ("no", "no", "0"))
                self.nearly_ideal(found)

    def test_clocks_up_to_110_millionths(self) -> None:
        path = write_cell(self.at("second.is95"), cell_chips(1_230_000))
        for clock, carrier, level in ((60, 700, -10), (-100, -700, -10), (110, 84_000, -9)):
            link = ("--type", "cu8", "--carrier", carrier, "--clock", clock, "--delay", 0.4, "--ec-io", level)
            found = self.locked(self.recorded(*link, cells=(path,)))
            self.assertAlmostEqual(float(found["clock_ppm"]), clock, delta=0.02)
            self.assertAlmostEqual(float(found["carrier_hz"]), carrier, delta=4)
            self.assertEqual(found["lost"], "0")
            self.assertAlmostEqual(float(found["ec_io_db"]), level, delta=0.1)

    def test_a_clock_beyond_that_is_refused(self) -> None:
        for clock in (125, -140):
            path = self.recorded("--clock", clock, "--ec-io", -9)
            self.refused("the clock is more than 110 millionths off, which is more than the lock follows", path)

    def test_at_the_chip_rate(self) -> None:
        path = self.recorded("--rate", CHIP_RATE, "--delay", 0.5, "--ec-io", -10, "--ideal", self.at("ideal.is95"))
        # Here the pulse's skirts fold, which costs half a decibel here.
        self.nearly_ideal(self.locked(path), 0.7)

    def test_drift_and_a_bent_clock(self) -> None:
        path = self.recorded("--carrier", 1_000, "--drift", 150, "--clock", 3, "--clock-drift", 1, "--ec-io", -9, "--ideal", self.at("ideal.is95"))
        found = self.locked(path)
        middle = self.CHIPS / CHIP_RATE / 2
        self.holds(found, 1_000 + 150 * middle, 3 + middle, -9)
        self.assertAlmostEqual(float(found["drift"]), 150, delta=15)
        self.nearly_ideal(found)

    def test_the_phase_is_that_of_the_first_chip(self) -> None:
        found = self.locked(self.recorded("--ec-io", -9, "--delay", 7.4, "--clock", -20))
        got, sent = self.aligned(self.at("out.is95"), found)
        self.assertEqual(int(found["chips"]), len(read_chips(self.at("out.is95"))))
        # At another chip the two have nothing in common.
        self.assertGreater(signal_to_noise(got, sent), -9)
        self.assertLess(signal_to_noise(got[1:], sent), -15)

    def test_an_inverted_spectrum(self) -> None:
        path = self.recorded("--carrier", 2_000, "--clock", 5, "--ec-io", -10, "--conjugate", "--ideal", self.at("ideal.is95"))
        found = self.locked(path)
        self.assertEqual(found["conjugate"], "yes")
        self.holds(found, 2_000, 5, -10)
        self.nearly_ideal(found)
        self.locked(path, "--conjugate", "yes")
        self.refused("no pilot stands out", path, "--conjugate", "no", "--search", 4_000)

    def test_the_phase_equaliser(self) -> None:
        path = self.recorded("--carrier", 2_000, "--ec-io", -10, "--equaliser", "--ideal", self.at("ideal.is95"))
        found = self.locked(path)
        self.assertEqual((found["equaliser"], found["paths"]), ("yes", "0.00:0.0"))
        self.nearly_ideal(found)
        self.assertEqual(self.locked(path, "--equaliser", "no")["equaliser"], "no")

    def test_a_weak_pilot(self) -> None:
        found = self.locked(self.recorded("--type", "cu8", "--carrier", -7_700, "--clock", 11, "--ec-io", -20))
        self.assertAlmostEqual(float(found["carrier_hz"]), -7_700, delta=20)
        self.assertAlmostEqual(float(found["ec_io_db"]), -20, delta=0.2)

    def test_paths(self) -> None:
        found = self.locked(self.recorded("--ec-io", -8, "--paths", "0:0:0,2.5:-3:90,9:-6:0"))
        ways = [tuple(map(float, way.split(":"))) for way in found["paths"].split(",")]
        self.assertEqual(len(ways), 3)
        for (delay, level), (wanted, strength) in zip(ways, ((0, 0), (2.5, -3), (9, -6))):
            self.assertAlmostEqual(delay, wanted, delta=0.2)
            self.assertAlmostEqual(level, strength, delta=1)

    def test_a_second_cell_counts_as_noise(self) -> None:
        other = write_cell(self.at("other.is95"), cell_chips(self.CHIPS, seed=9, phase=20_040))
        path = self.recorded("--carrier", 2_000, "--clock", 5, cells=(self.cell, f"{other}:-3:40"))
        self.assertAlmostEqual(float(self.locked(path)["clock_ppm"]), 5, delta=0.1)
        got = signal_to_noise(*self.aligned(self.at("out.is95"), figures(self.said)))
        self.assertGreater(got, 2.5)


class Written(Recordings):
    def test_versions_scales_counts_and_flags(self) -> None:
        path = self.recorded("--ec-io", -9)
        for version, level in ((1, 2_500), (2, 20)):
            found = self.locked(path, "--format", version, "--complement-30")
            taken = read_file(self.at("out.is95"))
            self.assertEqual((taken[0], taken[1]), (version, 1))
            root = numpy.sqrt(numpy.mean(numpy.array(taken[2], dtype=float) ** 2) * 2)
            self.assertAlmostEqual(root / level, 1, delta=0.02)
        scale = float(found["scale"])
        found = self.locked(path, "--scale", 10 * scale, "--count", 70_001)
        self.assertEqual((found["chips"], len(read_chips(self.at("out.is95")))), ("70001", 70_001))
        self.assertAlmostEqual(float(found["scale"]), 10 * scale, delta=1e-4 * scale)

    def test_skip(self) -> None:
        path = self.recorded("--ec-io", -9)
        whole, later = self.locked(path), self.locked(path, "--skip", 240_000)
        # 0.1 s at 2.4 million samples a second.
        self.assertAlmostEqual((int(later["phase"]) - int(whole["phase"])) % PERIOD, 122_880 % PERIOD, delta=1)

    def test_what_does_not_fit_is_cut_and_said(self) -> None:
        self.locked(self.recorded("--ec-io", -9), "--scale", 5_000)
        self.assertRegex(self.said, r"import_capture: \d+ I and Q values were clipped")

    def test_little_more_than_a_period(self) -> None:
        found = self.locked(self.recorded("--ec-io", -9, "--clock", 5, "--carrier", 900, "--seconds", 0.028))
        self.assertGreater(int(found["chips"]), PERIOD)
        self.assertGreater(signal_to_noise(*self.aligned(self.at("out.is95"), found)), -6)

    def test_standard_output(self) -> None:
        path = self.recorded("--ec-io", -9)
        self.locked(path)
        with open(self.at("out.is95"), "rb") as file:
            wanted = file.read()
        status, wrote, _ = self.run_tool("import_capture", "--lock", path, "-")
        self.assertEqual((status, wrote), (0, wanted))

    def test_raw_files(self) -> None:
        path = self.recorded("--type", "cu8", "--ec-io", -9, name="in.cu8")
        self.assertGreater(int(self.locked(path, "--type", "cu8", "--rate", 2_400_000)["chips"]), 499_000)

    def test_a_known_carrier(self) -> None:
        path = self.recorded("--carrier", 200_300, "--ec-io", -9)
        self.refused("no pilot stands out within 4,000 Hz of the middle in both spectra", path, "--search", 4_000)
        found = self.locked(path, "--shift", 200_000, "--search", 1_000)
        self.assertAlmostEqual(float(found["carrier_hz"]), 200_300, delta=4)

    def test_a_note_in_the_meta(self) -> None:
        path = self.recorded("--ec-io", -9)
        found = self.locked(path, "--meta", path)
        with open(path, encoding="utf-8") as file:
            meta = json.load(file)
        labels = [note["core:label"] for note in meta["annotations"]]
        self.assertEqual(sorted(labels), ["IS-95 pilot", "truth"])
        note = meta["annotations"][labels.index("IS-95 pilot")]
        self.assertEqual(figures(note["core:comment"]), found)
        self.assertLess(note["core:sample_start"], 100_000)
        # A raw recording gets its own .sigmf-meta, which can be read again.
        raw = self.recorded("--type", "ci8", "--ec-io", -9, name="raw.ci8")
        self.locked(raw, "--type", "ci8", "--rate", 2_400_000, "--meta", self.at("new.sigmf-meta"))
        again = self.locked(self.at("new.sigmf-meta"))
        self.assertEqual(again["chips"], self.locked(raw, "--type", "ci8", "--rate", 2_400_000)["chips"])


class Losses(Recordings):
    seconds = 15

    CHIPS = 1_500_000

    def test_lost_samples_are_bridged(self) -> None:
        path = self.recorded("--ec-io", -9, "--clock", 10, "--carrier", 500, "--lose", "1000000:700")
        found = self.locked(path)
        # 700 samples of 2.4 million a second are 358.4 chips.
        self.assertIn(int(found["lost"]), (358, 359))
        self.assertRegex(self.said, r"samples were lost at 0\.41\d\d s: 35[89] chips were replaced by zeros")
        got, sent = self.aligned(self.at("out.is95"), found)
        self.assertGreater(signal_to_noise(got[:450_000], sent[:450_000]), -6.5)
        self.assertGreater(signal_to_noise(got[600_000:], sent[600_000:]), -6.5)

    def test_more_than_a_period_is_said(self) -> None:
        found = self.locked(self.recorded("--ec-io", -9, "--lose", "1000000:100000"))
        self.assertIn(int(found["lost"]), (51_200 - PERIOD, 51_201 - PERIOD))
        self.assertIn("a loss of 32768 more", self.said)

    def test_parts_of_noise_alone(self) -> None:
        path = self.recorded("--type", "cf32_le", "--ec-io", -9)
        data = path.replace("-meta", "-data")
        raw = numpy.fromfile(data, dtype="<f4")
        draws = numpy.random.default_rng(3)
        noise = draws.normal(0, float(raw.std()), 1_600_000).astype("<f4")
        for name, parts, begin, end in (
            ("noise before", [noise, raw], 0.333, None),
            ("noise after", [raw[:3_600_000], noise], 0.0, 0.75),
        ):
            with self.subTest(name):
                numpy.concatenate(parts).tofile(data)
                found = self.locked(path)
                heard = [float(word) for word in self.said.split("is received from ")[1].replace(" s", "").split()[:3:2]]
                self.assertAlmostEqual(heard[0], begin, delta=0.06)
                if end is not None:
                    self.assertAlmostEqual(heard[1], end, delta=0.06)
                self.assertEqual(found["lost"], "0")
        # Between two parts with a pilot the noise is kept, and the timing continues.
        numpy.concatenate([raw[:2_000_000], noise[:1_600_000], raw[3_600_000:]]).tofile(data)
        found = self.locked(path)
        self.assertLess(int(found["lost"]), 2)
        got, sent = self.aligned(self.at("out.is95"), found)
        self.assertGreater(signal_to_noise(got[1_000_000:], sent[1_000_000:]), -6.5)


class Refusals(Recordings):
    seconds = 20

    CHIPS = 100_000

    def raw(self, samples: NDArray[Any]) -> tuple[str, ...]:
        """Returns the arguments of a recording of these samples."""
        scaled = samples / numpy.abs(samples).max() * 20_000
        numpy.stack([scaled.real, scaled.imag], axis=1).astype("<i2").tofile(self.at("none.raw"))
        return (self.at("none.raw"), "--type", "ci16_le", "--rate", "2400000")

    def noise(self, count: int = 480_000, seed: int = 1) -> NDArray[Any]:
        draws = numpy.random.default_rng(seed)
        return draws.normal(size=count) + 1j * draws.normal(size=count)

    def test_noise_a_carrier_and_another_standard(self) -> None:
        time = numpy.arange(480_000) / 2.4e6
        symbols = numpy.repeat(numpy.sign(self.noise(480_000 // 9 + 1, 4).real), 9)[:480_000]  # 266 kilobits a second
        phase = numpy.cumsum(symbols) / 9 * numpy.pi / 2
        for name, samples in (
            ("noise", self.noise()),
            ("a carrier", numpy.exp(2j * numpy.pi * 40_000 * time) + 0.1 * self.noise()),
            ("a minimum shift keying", numpy.exp(1j * phase) + 0.1 * self.noise()),
        ):
            with self.subTest(name):
                why = r"no pilot stands out within 4,000 Hz of the middle in both spectra: the best energy is 0\.\d\d"
                self.refused(why, *self.raw(samples), "--search", 4_000)

    def test_a_signal_that_passes_the_threshold(self) -> None:
        words = (*self.raw(without_pilot(19, 1_200_000)), "--conjugate", "no")
        where = "within 21,000 Hz of the middle in the spectrum as it is"
        why = rf"a pilot seemed to stand out {where}, but nothing confirms it: \d\.\d standard deviations"
        self.refused(why, *words, "--search", 21_000)

    def test_zeros_and_direct_current(self) -> None:
        self.refused("no pilot stands out", *self.raw(numpy.ones(200_000) + 1e-9), "--search", 1_000)

    def test_too_short(self) -> None:
        self.refused("10240 chips are too few: the search for a pilot needs one period", *self.raw(self.noise(20_000)))

    def test_a_rate_below_the_chip_rate(self) -> None:
        path, *_ = self.raw(self.noise(40_000))
        self.refused("fewer than the chip rate", path, "--type", "ci16_le", "--rate", 1_000_000)

    def test_a_recording_that_is_longer_than_a_file(self) -> None:
        path = self.at("long.raw")
        with open(path, "wb") as file:
            file.truncate(2 * 90_000_000)
        self.addCleanup(os.unlink, path)
        self.refused("give --count 33554432", path, "--type", "ci8", "--rate", 2_400_000)

    def test_words(self) -> None:
        path = self.recorded()
        for why, words in (
            ("can't be given with --lock", ("--sum",)),
            ("can't be given with --lock", ("--scale", "fit")),
            ("invalid choice", ("--fingers", "4")),
            ("invalid choice", ("--conjugate", "perhaps")),
            ("not above 0", ("--search", "0")),
            ("--search: not above 0, at most 614,400", ("--search", "1e6")),
            ("--meta names a .sigmf-meta", ("--meta", "note.json")),
        ):
            self.refused(why, path, *words, status=2)
        status, _, said = self.run_tool("import_capture", "--fingers", 2, path, self.at("none.is95"))
        self.assertEqual(status, 2)
        self.assertIn("--fingers needs --lock", said)

    def test_a_meta_elsewhere(self) -> None:
        self.refused("it must be in the folder of the samples", self.recorded(), "--meta", "/tmp/elsewhere.sigmf-meta")

    def test_a_broken_file_stays_as_it_was(self) -> None:
        with open(self.at("kept.is95"), "w", encoding="ascii") as file:
            file.write("kept")
        status, _, _ = self.run_tool("import_capture", "--lock", *self.raw(self.noise()), "--search", 1_000, self.at("kept.is95"))
        self.assertEqual(status, 1)
        with open(self.at("kept.is95"), encoding="ascii") as file:
            self.assertEqual(file.read(), "kept")


if __name__ == "__main__":
    unittest.main()
