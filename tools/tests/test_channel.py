"""tools/channel: a recording contains what its arguments specify; each refusal."""

import json
import os
import unittest
from typing import Any

from tools.tests.helping import needs, read_file

needs("numpy", "scipy")

import numpy  # noqa: E402
from numpy.typing import NDArray  # noqa: E402

from cdma_tools.radio import channel  # noqa: E402
from tools.tests.radio_helping import (  # noqa: E402
    CHIP_RATE,
    GAINS,
    PHASE,
    Recordings,
    cell_chips,
    code,
    read_chips,
    run_main,
    write_cell,
)

RATE = 2_457_600  # two samples a chip


def ratio(level: float) -> float:
    return 10 ** (level / 10)


class Recorded(Recordings):
    seconds = 15

    CHIPS = 70_000

    def samples(self, *words: object, kind: str = "cf32_le", rate: float = RATE) -> NDArray[Any]:
        """Returns the samples of a recording in floating point, with a mean power of 1."""
        path = self.recorded("--type", kind, "--rate", rate, *words, name="in.raw")
        parts = numpy.fromfile(path, dtype="<f4").astype(float)
        samples = parts[0::2] + 1j * parts[1::2]
        return samples / numpy.sqrt(numpy.mean(numpy.abs(samples) ** 2))

    def pilot(self, samples: NDArray[Any], late: float = 0.0, count: int = 60_000) -> complex:
        """Returns the mean of the pilot's chips at two samples a chip, `late` chips after the sent ones."""
        at = 40 + numpy.arange(count)
        got = samples[2 * at + round(2 * late)]
        return complex(numpy.mean(got * code()[(PHASE + at) % 32_768].conj())) / 2

    def test_the_same_seed_gives_the_same_file(self) -> None:
        words = ("--ec-io", -10, "--paths", "0:0:0:10,1.5:-3:0:10")
        first = self.samples(*words, "--seed", 7)
        self.assertTrue(numpy.array_equal(first, self.samples(*words, "--seed", 7)))
        self.assertFalse(numpy.array_equal(first, self.samples(*words, "--seed", 8)))

    def test_a_chip_is_where_it_is_sent(self) -> None:
        clean = self.samples()
        share = GAINS[0] ** 2 / sum(gain**2 for gain in GAINS.values())
        # At the chip's own instant there is only the pulse, at half a chip before and after little of it.
        prompt = abs(self.pilot(clean)) ** 2 * 2
        self.assertGreater(prompt, 0.8 * share)
        self.assertGreater(abs(self.pilot(clean)), 1.4 * max(abs(self.pilot(clean, 0.5)), abs(self.pilot(clean, -0.5))))
        self.assertLess(abs(self.pilot(clean, 3)), 0.1 * abs(self.pilot(clean)))
        # Half a chip of delay: a sample is half a chip further on in what is sent.
        late = self.samples("--delay", -0.5)
        self.assertAlmostEqual(abs(self.pilot(late, 0.5)), abs(self.pilot(clean)), delta=0.01)

    def test_the_spectrum_is_the_filters(self) -> None:
        pieces = self.samples(rate=4_915_200)[:250_000].reshape(-1, 500) * numpy.hanning(500)
        power = numpy.abs(numpy.fft.fft(pieces, axis=1)) ** 2
        level = 10 * numpy.log10(power.mean(axis=0))
        hertz = numpy.abs(numpy.fft.fftfreq(500, 1 / 4_915_200))
        inside = level[hertz < 500_000].mean()
        self.assertLess(abs(level[hertz < 580_000] - inside).max(), 3)
        self.assertLess(level[(hertz > 760_000) & (hertz < 2_000_000)].max(), inside - 25)

    def test_carrier_and_drift(self) -> None:
        samples = self.samples("--carrier", 3_000, "--drift", 10_000, "--seed", 3)
        clean = self.samples("--seed", 3)
        seconds = numpy.arange(len(samples)) / RATE
        turned = clean * numpy.exp(2j * numpy.pi * (3_000 * seconds + 5_000 * seconds**2))
        self.assertLess(float(numpy.abs(samples - turned).max()), 0.01)

    def test_a_slow_clock_meets_chips_sooner(self) -> None:
        # 20 millionths of 50,000 chips are 1 chip.
        fast, still = self.samples("--clock", 20), self.samples()
        at = 50_000 + numpy.arange(2_000)
        sent = self.sent[at]
        here, there = (abs(numpy.vdot(sent, samples[2 * at - shift])) for samples, shift in ((fast, 2), (still, 2)))
        self.assertGreater(here, 5 * there)

    def test_noise_is_what_is_asked_for(self) -> None:
        share = GAINS[0] ** 2 / sum(gain**2 for gain in GAINS.values())
        for level in (-8, -15):
            samples = self.samples("--ec-io", level, rate=CHIP_RATE)
            at = 40 + numpy.arange(60_000)
            pilot = abs(complex(numpy.mean(samples[at] * code()[(PHASE + at) % 32_768].conj())) / 2) ** 2 * 2
            self.assertAlmostEqual(10 * numpy.log10(pilot), level, delta=0.6)
        self.assertAlmostEqual(10 * numpy.log10(share), -3.6, delta=0.1)

    def test_energy_of_a_bit(self) -> None:
        # Row 10 at 9,600 bits a second: 128 chips a bit, of amplitude 70, so of power 2 * 70^2.
        link = channel.Link([channel.Cell(self.cell)], [channel.Path()], 1)
        self.assertAlmostEqual(link.cells[0].row_power(10) / (2 * 70**2), 1, delta=1e-6)
        self.assertAlmostEqual(link.cells[0].pilot / (2 * 100**2), 1, delta=0.02)
        link.set_eb_nt(7, 10, 9_600)
        self.assertAlmostEqual(link.noise, 2 * 70**2 * 128 / ratio(7), delta=1)

    def test_paths_and_their_phases(self) -> None:
        samples = self.samples("--paths", "0:0:0,9:-6:90", "--seed", 5)
        # Nine chips apart neither path's pulse reaches the other.
        one, two = self.pilot(samples), self.pilot(samples, 9)
        self.assertAlmostEqual(20 * numpy.log10(abs(two / one)), -6, delta=0.5)
        self.assertAlmostEqual(float(numpy.degrees(numpy.angle(two / one))), 90, delta=5)

    def test_fading_is_rayleigh_with_the_spectrum_of_jakes(self) -> None:
        draws = numpy.random.default_rng(1)
        gains = numpy.concatenate([
            channel.Fading(channel.Path(doppler=20), draws).at(numpy.arange(0, 2, 0.002)) for _ in range(200)
        ]).reshape(200, -1)  # fmt: skip
        power = numpy.abs(gains) ** 2
        self.assertAlmostEqual(float(power.mean()), 1, delta=0.1)
        # Of an exponential variable 1 - 1/e lies below its mean.
        self.assertAlmostEqual(float(numpy.mean(power < 1)), 1 - numpy.exp(-1), delta=0.05)
        # The correlation over a time t is the Bessel function J0(2 pi f t), 0 first at 2.405.
        from scipy.special import j0

        for steps in (3, 6, 9, 15):
            wanted = float(j0(2 * numpy.pi * 20 * 0.002 * steps))
            got = numpy.mean(gains[:, steps:] * gains[:, :-steps].conj()).real
            self.assertAlmostEqual(float(got), wanted, delta=0.1)

    def test_the_radios_own_errors(self) -> None:
        clean = self.samples()
        inverted = self.samples("--conjugate")
        self.assertTrue(numpy.allclose(inverted, clean.conj(), atol=1e-6))
        offset = self.samples("--dc", 0.5)
        self.assertAlmostEqual(float(numpy.abs(offset.mean()) ** 2), 0.5 / 1.5, delta=0.02)
        unlike = self.samples("--iq", "2:0")
        self.assertAlmostEqual(float(10 * numpy.log10(numpy.mean(unlike.imag**2) / numpy.mean(unlike.real**2))), 2, delta=0.2)
        leaning = self.samples("--iq", "0:10")
        lean = numpy.mean(leaning.real * leaning.imag) / numpy.mean(leaning.real**2)
        self.assertAlmostEqual(float(lean), float(numpy.sin(numpy.radians(10))), delta=0.03)

    def test_lost_samples(self) -> None:
        whole, short = self.samples(), self.samples("--lose", "50000:700", "--lose", "90000:10")
        self.assertEqual(len(short), len(whole) - 710)
        self.assertTrue(numpy.allclose(short[50_000:89_000] / short[0], whole[50_700:89_700] / whole[0], atol=1e-3))
        self.assertTrue(numpy.allclose(short[90_000:] / short[0], whole[90_710:] / whole[0], atol=1e-3))

    def test_types_and_levels(self) -> None:
        for kind, form, middle, full in (("cu8", "u1", 127.5, 127.5), ("ci8", "i1", 0, 127), ("ci16_le", "<i2", 0, 32_767), ("ci16_be", ">i2", 0, 32_767)):
            path = self.recorded("--type", kind, "--level", -15, name="in.raw")
            parts = (numpy.fromfile(path, dtype=form).astype(float) - middle) / full
            self.assertAlmostEqual(float(10 * numpy.log10(2 * numpy.mean(parts**2))), -15, delta=0.1)
        status, _, said = run_main("channel", "--type", "ci8", "--level", 0, self.cell, self.at("in.raw"))
        self.assertEqual(status, 0)
        self.assertRegex(said, r"samples, [1-9]\d+ values clipped at full scale")

    def test_the_truth_stands_in_the_meta(self) -> None:
        path = self.recorded("--type", "ci8", "--rate", 2_400_000, "--carrier", 1_250_300, "--clock", -3.5, "--ec-io", -9, "--seed", 12)
        with open(path, encoding="utf-8") as file:
            meta = json.load(file)
        self.assertEqual((meta["global"]["core:datatype"], meta["global"]["core:sample_rate"]), ("ci8", 2_400_000))
        note = meta["annotations"][0]
        self.assertEqual(note["core:sample_count"], os.path.getsize(self.at("in.sigmf-data")) // 2)
        for word in ("carrier_hz=1250300", "clock_ppm=-3.5", "ec_io_db=-9.00", "seed=12"):
            self.assertIn(word, note["core:comment"].split())

    def test_a_recording_is_made_again_from_its_truth(self) -> None:
        other = write_cell(self.at("other.is95"), cell_chips(self.CHIPS, seed=3, phase=20_000))
        words = (
            "--type", "cu8", "--rate", "2399987.1", "--carrier", -1_250.3, "--drift", 31, "--clock", 7.123456789, "--clock-drift", -0.2,
            "--delay", 0.37, "--dc", 0.11, "--iq", "0.5:3.25", "--paths", "0:0:0:12.5,1.23456789:-3:45", "--level", -13.5,
            "--ec-io", -9.87654321, "--seed", 5, "--lose", "30000:700", "--lose", "50000:3", "--seconds", 0.04, "--equaliser", "--conjugate",
        )  # fmt: skip
        for given, cells in ((words, (self.cell, f"{other}:-3.5:40.25")), (("--eb-nt", "7:10:9600"), (self.cell,))):
            path = self.recorded(*given, cells=cells)
            with open(path, encoding="utf-8") as file:
                note = json.load(file)["annotations"][0]
            self.assertEqual(run_main("channel", *note["cdma_tools:arguments"], self.at("again.sigmf-meta"))[0], 0)
            for end in ("data", "meta"):
                with open(path[:-4] + end, "rb") as first, open(self.at(f"again.sigmf-{end}"), "rb") as second:
                    self.assertEqual(first.read(), second.read())
            self.assertEqual(len(note["cdma_tools:cells"]), len(cells))
        self.assertIn("eb_nt=7:10:9600", note["core:comment"].split())

    def test_powers_are_those_of_the_whole_file(self) -> None:
        # A row that begins after half a file has half of its power there, and none in the first 16 periods.
        count = 40 * 32_768
        late = cell_chips(count, gains={10: 70})
        late[: count // 2] = 0
        path = write_cell(self.at("late.is95"), cell_chips(count, gains={0: 100}) + late)
        cell = channel.Cell(path)
        self.addCleanup(cell.file.close)
        self.assertAlmostEqual(cell.power / (2 * 100**2 + 70**2), 1, delta=1e-3)
        self.assertAlmostEqual(cell.pilot / (2 * 100**2), 1, delta=1e-5)
        self.assertAlmostEqual(cell.row_power(10) / 70**2, 1, delta=1e-3)
        self.assertEqual(cell.phase, PHASE)

    def test_the_ideal_receiver(self) -> None:
        self.recorded("--carrier", 900, "--clock", 20, "--delay", 0.4, "--ideal", self.at("ideal.is95"))
        self.assertEqual(read_file(self.at("ideal.is95"))[:2], (1, 0))
        chips = read_chips(self.at("ideal.is95"))
        sent = self.sent[: len(chips)]
        gain = complex(numpy.sum(sent.conj() * chips)) / float(numpy.sum(numpy.abs(sent) ** 2))
        self.assertLess(float(numpy.abs(chips - gain * sent).max()), 2)

    def test_refusals(self) -> None:
        before = set(os.listdir(self.folder))
        for status, why, words in (
            (1, "No such file", (self.at("none.is95"),)),
            (1, "not a number: 'x'", (f"{self.cell}:x",)),
            (1, "even without noise it is -3.6 dB", ("--ec-io", -3, self.cell)),
            (1, "not a sample file", (os.path.abspath(__file__),)),
            (1, "too few for a recording", ("--seconds", 1e-5, self.cell)),
            (2, "not 1 to 4 numbers", ("--paths", "1:2:3:4:5", self.cell)),
            (2, "not 0 to 100,000: '-4'", ("--paths", "1:2:3:-4", self.cell)),
            (2, "not 0 to 63: '64'", ("--eb-nt", "7:64:9600", self.cell)),
            (2, "not allowed with", ("--eb-nt", "7:3:9600", "--ec-io", -9, self.cell)),
            (2, "not a whole number", ("--lose", "1:x", self.cell)),
        ):
            with self.subTest(why):
                ended, wrote, said = run_main("channel", *words, self.at("none.raw"))
                self.assertEqual((ended, wrote), (status, ""), said)
                self.assertIn(why, said)
                self.assertEqual(set(os.listdir(self.folder)), before)


if __name__ == "__main__":
    unittest.main()
