"""tools/scan: the pilots in recordings that tools/channel makes."""

import os
import unittest
from unittest import mock

from tools.tests.helping import needs

needs("numpy", "scipy")

import numpy  # noqa: E402

from cdma_tools.commands import scan  # noqa: E402
from cdma_tools.radio.bench import without_pilot  # noqa: E402
from cdma_tools.radio import scanning  # noqa: E402
from tools.tests.radio_helping import Recordings, cell_chips, run_main, write_cell  # noqa: E402


class Centres(unittest.TestCase):
    def test_a_raster_keeps_whole_channels(self) -> None:
        self.assertEqual(scanning.raster(2_400_000), [0])
        self.assertEqual(scanning.raster(5_000_000), [-1_250_000, 0, 1_250_000])
        self.assertEqual(scanning.raster(5_000_000, 900_000), [-1_800_000, -900_000, 0, 900_000, 1_800_000])

    def test_everywhere_leaves_no_gap(self) -> None:
        centres = scanning.everywhere(2_400_000, 20_000)
        steps = {round(b - a) for a, b in zip(centres, centres[1:])}
        self.assertEqual(steps, {36_000})
        self.assertGreater(centres[-1] + 20_000, 2_400_000 / 2 - scanning.HALF)


class Scans(Recordings):
    CHIPS = 120_000

    def scanned(self, *words: object) -> tuple[int, list[dict[str, str]], str]:
        """Runs a scan; returns its status, the figures of its lines, and its standard error."""
        status, wrote, said = run_main("scan", *words)
        return status, [dict(word.split("=") for word in line.split()) for line in wrote.splitlines()], said

    def test_a_wide_recording(self) -> None:
        path = self.recorded("--type", "ci8", "--rate", 5_000_000, "--carrier", 1_250_300, "--clock", 4, "--ec-io", -10)
        status, lines, _ = self.scanned("--search", 4_000, path)
        self.assertEqual((status, len(lines)), (0, 1))
        self.assertAlmostEqual(float(lines[0]["carrier_hz"]), 1_250_300, delta=30)
        self.assertAlmostEqual(float(lines[0]["ec_io_db"]), -10, delta=0.3)
        self.assertGreater(float(lines[0]["excess"]), 1)
        self.assertEqual(lines[0]["conjugate"], "no")
        self.assertGreater(float(lines[0]["sigma"]), 50)
        self.assertAlmostEqual(float(lines[0]["clock_ppm"]), 4, delta=2)
        # The reported carrier is one that the lock takes.
        found = self.locked(path, "--shift", lines[0]["carrier_hz"], "--search", 500)
        self.assertAlmostEqual(float(found["carrier_hz"]), 1_250_300, delta=10)

    def test_ec_io_within_a_fifth_of_a_decibel_at_any_clock(self) -> None:
        # The truth is what tools/channel was asked for: the pilot over all power that reaches the antenna.
        cell = write_cell(self.at("long.is95"), cell_chips(900_000))
        cases = [(-110, -20, 0.06), (110, -6, 0.44), (50, -12, 0.27)]
        if os.environ.get("EVERY_LEVEL"):
            cases = [(clock, level, 0.13 * step % 1) for step, (clock, level) in enumerate(
                (clock, level) for clock in range(-110, 111, 20) for level in (-20, -17, -13, -9, -6)
            )]  # fmt: skip
        for clock, level, delay in cases:
            with self.subTest(clock=clock, level=level):
                words = ("--type", "ci8", "--carrier", 700 - 50 * clock, "--clock", clock, "--delay", delay)
                path = self.recorded(*words, "--ec-io", level, cells=(cell,))
                status, lines, said = self.scanned(path)
                self.assertEqual((status, len(lines)), (0, 1), said)
                self.assertAlmostEqual(float(lines[0]["ec_io_db"]), level, delta=0.2)
                self.assertAlmostEqual(float(lines[0]["clock_ppm"]), clock, delta=0.5)

    def test_all_frequencies(self) -> None:
        path = self.recorded("--rate", 2_400_000, "--carrier", -310_700, "--ec-io", -8)
        with mock.patch.object(scan, "everywhere", lambda rate, search: [-304_000.0, -310_400.0, 0.0]):
            status, lines, _ = self.scanned("--all", "--search", 8_000, path)
        # Two neighbouring centres see one pilot.
        self.assertEqual((status, len(lines)), (0, 1))
        self.assertAlmostEqual(float(lines[0]["carrier_hz"]), -310_700, delta=30)

    def test_no_pilot(self) -> None:
        path = self.recorded("--rate", 2_400_000, "--carrier", 100_000, "--ec-io", -8)
        status, lines, said = self.scanned("--search", 4_000, path)
        self.assertEqual((status, lines), (1, []))
        self.assertRegex(said, "scan: no pilot stands out at 1 centres, within 4,000 Hz of each in both spectra: ")
        self.assertRegex(said, r"the best energy is 0\.\d\d of the threshold")
        status, wrote, _ = run_main("scan", "--verbose", "--search", 4_000, path)
        self.assertRegex(wrote, r"^no pilot round 0 Hz, excess=0\.\d\d\n$")

    def test_what_stands_out_is_tracked_first(self) -> None:
        # A band, a sweep and noise in bursts: the threshold for white noise passes places without a pilot.
        for number in (9, 18, 19) if not os.environ.get("EVERY_FALSE_PILOT") else range(20):
            samples = without_pilot(number, 1_200_000)
            scaled = samples / numpy.sqrt(numpy.mean(numpy.abs(samples) ** 2)) * 2_000
            numpy.stack([scaled.real, scaled.imag], axis=1).clip(-32_768, 32_767).astype("<i2").tofile(
                self.at("none.raw")
            )
            near = ("--search", 21_000, "--conjugate", "no")
            words = ("--type", "ci16_le", "--rate", 2_400_000, "--verbose", *near, self.at("none.raw"))
            status, wrote, said = run_main("scan", *words)
            self.assertEqual(status, 1, wrote)
            if number in (9, 18, 19):
                self.assertRegex(wrote, r"^no pilot round 0 Hz, excess=\d+\.\d\d sigma=\d\.\d\n$")
                self.assertRegex(said, "^scan: no pilot at 1 centres, within 21,000 Hz of each in the spectrum as")
                self.assertRegex(said, r"what stood out wasn't heard beside it, with \d\.\d")

    def test_words(self) -> None:
        path = self.recorded()
        for why, words in (
            ("not allowed with", ("--all", "--step", "1e6", path)),
            ("give --type and --rate, unless", (self.at("in.sigmf-data"),)),
            ("--type can't be given", ("--type", "ci8", path)),
            ("--search: not above 0, at most 614,400", ("--search", "1e6", path)),
        ):
            status, _, said = self.scanned(*words)
            self.assertEqual(status, 2)
            self.assertIn(why, said)


if __name__ == "__main__":
    unittest.main()
