"""The parts of cdma_tools.radio: the air, raw samples, the front, acquisition, tracking, fitting, each against what is known."""

import os
import unittest
import unittest.mock
from typing import Any

from tools.tests.helping import needs, temporary_folder

needs("numpy", "scipy")

import numpy  # noqa: E402
from numpy.typing import NDArray  # noqa: E402

from cdma_tools import recordings  # noqa: E402
from cdma_tools.errors import Refused  # noqa: E402
from cdma_tools.radio import acquisition, air, confirmation, fitting, front, paths, second_pass  # noqa: E402
from cdma_tools.radio import strength, tracking  # noqa: E402
from tools.tests.radio_helping import CHIP_RATE, PERIOD, cell_chips, code  # noqa: E402


class Air(unittest.TestCase):
    def test_the_code_is_that_of_the_recursions(self) -> None:
        self.assertTrue(numpy.array_equal(air.short_code(), code()))

    def test_the_filter_keeps_the_bounds_of_the_standard(self) -> None:
        # 7.1.3.1.10: within 1.5 dB up to 590 kHz, and 40 dB down from 740 kHz on.
        hertz = numpy.linspace(0, 900_000, 2_000)
        level = 20 * numpy.log10(numpy.abs(air.pulse_spectrum(hertz / CHIP_RATE)) + 1e-9)
        inside = level[hertz <= 590_000]
        self.assertLessEqual(inside.max() - inside.min(), 3.0)
        self.assertLess(level[hertz >= 740_000].max() - inside.max(), -40 + 1.5)

    def test_a_pulse_has_unit_energy(self) -> None:
        frequency = numpy.arange(-0.8, 0.8, 1e-4)
        self.assertAlmostEqual(float(numpy.sum(air.pulse_spectrum(frequency) ** 2) * 1e-4), 1.0, delta=2e-3)

    def test_the_phase_equaliser_is_an_all_pass(self) -> None:
        frequency = numpy.linspace(-0.6, 0.6, 101)
        response = air.equaliser_spectrum(frequency)
        self.assertLess(numpy.abs(numpy.abs(response) - 1).max(), 1e-12)
        self.assertAlmostEqual(response[50].real, 1.0)
        # At w0 the formula is (j a) / (-j a).
        self.assertAlmostEqual(complex(air.equaliser_spectrum(315_000 / CHIP_RATE)), -1 + 0j)


class Raw(unittest.TestCase):
    def setUp(self) -> None:
        self.path = os.path.join(temporary_folder(self.addCleanup), "raw")

    def kept(self, data: bytes, kind: str, **more: Any) -> recordings.Recording:
        with open(self.path, "wb") as file:
            file.write(data)
        recording = recordings.Recording(self.path, kind, 1e6, **more)
        self.addCleanup(recording.close)
        return recording

    def test_each_type(self) -> None:
        for kind, form, middle in (("cu8", "u1", 127.5), ("ci8", "i1", 0), ("ci16_le", "<i2", 0), ("ci16_be", ">i2", 0), ("cf32_le", "<f4", 0)):
            parts = numpy.array([1, 2, 3, 4, 5, 6]).astype(form)
            recording = self.kept(parts.tobytes(), kind)
            self.assertEqual(recording.count, 3)
            wanted = numpy.array([1 + 2j, 3 + 4j, 5 + 6j]) - middle * (1 + 1j)
            self.assertTrue(numpy.array_equal(recording.read(0, 3), wanted), kind)

    def test_places_outside_are_zeros(self) -> None:
        recording = self.kept(bytes([1, 2, 3, 4]), "ci8")
        self.assertEqual(recording.read(-1, 4).tolist(), [0, 1 + 2j, 3 + 4j, 0])
        self.assertEqual(recording.read(7, 2).tolist(), [0, 0])

    def test_skip_and_conjugate(self) -> None:
        recording = self.kept(bytes([1, 2, 3, 4, 5, 6]), "ci8", skip=1, is_conjugate=True)
        self.assertEqual(recording.read(0, 2).tolist(), [3 - 4j, 5 - 6j])

    def test_faults(self) -> None:
        with self.assertRaisesRegex(Refused, "3 bytes are not a whole number of samples of 2 bytes"):
            self.kept(bytes(3), "ci8")
        with self.assertRaisesRegex(Refused, "no samples left after --skip 4"):
            self.kept(bytes(8), "ci8", skip=4)
        recording = self.kept(numpy.array([0, 0, 0, numpy.nan], dtype="<f4").tobytes(), "cf32_le")
        with self.assertRaisesRegex(Refused, "sample 1 isn't finite"):
            recording.read(0, 2)
        with self.assertRaisesRegex(Refused, "No such file"):
            recordings.Recording(self.path + ".none", "ci8", 1e6)


class Given:
    """Samples in memory, as a recording."""

    def __init__(self, raw: NDArray[Any], rate: float) -> None:
        self.raw, self.rate, self.count = raw.astype(numpy.complex64), rate, len(raw)

    def conjugate(self) -> "Given":
        return Given(self.raw.conj(), self.rate)

    def close(self) -> None:
        """Does nothing: there is no file."""

    def read(self, first: int, count: int) -> NDArray[numpy.complex64]:
        places = first + numpy.arange(count)
        inside = (places >= 0) & (places < self.count)
        return numpy.where(inside, self.raw[numpy.clip(places, 0, self.count - 1)], 0).astype(numpy.complex64)


class Fronts(unittest.TestCase):
    def test_blocks_are_exact_where_they_can_be(self) -> None:
        for rate, chips, length in ((2_400_000, 1_024, 2_000), (4_000_000, 960, 3_125), (2_500_000, 1_536, 3_125), (4_915_200, 1_024, 4_096)):
            self.assertEqual(front.block_size(rate / CHIP_RATE), (chips, length))

    def test_any_rate_has_a_block(self) -> None:
        for rate in (1_228_800, 1_500_000, 2_048_000, 2_399_987.1, 3_200_000, 20_000_000, 61_440_000):
            block = front.block_size(rate / CHIP_RATE)
            self.assertLess(abs(block.samples / block.chips * CHIP_RATE / rate - 1), 4e-5)

    def test_a_tone_keeps_its_phase_and_takes_the_filters_level(self) -> None:
        # Over rates, coarse carriers, paces and fractions: the output is the tone at the times that were asked for.
        for rate, hertz, carrier, slope in ((2_400_000, 31_000.0, 0.0, 0.0), (4_000_000, -150_000.0, 12_000.0, 2e-5), (2_400_123, 70_000.0, -4_000.0, -3e-5)):
            n = numpy.arange(60_000)
            given = Given(numpy.exp(2j * numpy.pi * hertz / rate * n) + 0.5, rate)
            made = front.Front(given)
            made.set_carrier(carrier)
            start, count = 1_234.567, 5_000
            got = made.steady(start, count, 1, slope)
            times = start + (1 + slope) * numpy.arange(count)
            wanted = numpy.exp(2j * numpy.pi * (hertz - made.carrier) / CHIP_RATE * times)
            level = complex(numpy.vdot(wanted, got)) / count
            self.assertAlmostEqual(abs(level), float(air.pulse_spectrum((hertz - made.carrier) / CHIP_RATE)), delta=2e-3)
            self.assertLess(abs(numpy.angle(level)), 2e-3)
            self.assertLess(float(numpy.abs(got - level * wanted).max()), 0.02)

    def test_turn(self) -> None:
        turns = numpy.array([0, 0.25, 1e6 + 0.5, -0.25])
        self.assertLess(float(numpy.abs(front.turn(turns) - [1, 1j, -1, -1j]).max()), 1e-6)


class Acquisitions(unittest.TestCase):
    def noisy(self, level: float, count: int = 60_000, hertz: float = 0.0, is_conjugate: bool = False) -> front.Front:
        """Returns a pilot with an Ec/Io near `level` dB in white noise, at one sample a chip."""
        draws = numpy.random.default_rng(5)
        chips = cell_chips(count, phase=777, gains={0: 1}) * numpy.sqrt(10 ** (level / 10) / 2)
        chips = chips * numpy.exp(2j * numpy.pi * hertz / CHIP_RATE * numpy.arange(count))
        chips = chips + (draws.standard_normal(count) + 1j * draws.standard_normal(count)) / numpy.sqrt(2)
        return front.Front(Given(chips.conj() if is_conjugate else chips, CHIP_RATE))

    def test_phase_and_carrier(self) -> None:
        for level, hertz in ((-10, 0.0), (-15, 9_100.0), (-19, -20_300.0)):
            made = self.noisy(level, hertz=hertz)
            _, found, sure = confirmation.first_pilot(made, 21_000)
            self.assertTrue(sure.is_pilot)
            self.assertEqual((found.phase - 777 - round(found.time)) % PERIOD, 0)
            self.assertLess(abs(found.hertz - hertz), 60)

    def test_conjugate(self) -> None:
        made = self.noisy(-10, hertz=3_000.0, is_conjugate=True)
        _, found, sure = confirmation.first_pilot(made, 9_000, (False, True))
        self.assertTrue(found.is_conjugate and sure.is_pilot)
        self.assertLess(abs(found.hertz - 3_000), 200)
        self.assertFalse(confirmation.first_pilot(made, 9_000, (False,)).confirmation.is_pilot)

    def test_a_wide_search_is_parted(self) -> None:
        # 400 bins of 300 Hz, of which 256 are kept at once.
        found = confirmation.first_pilot(self.noisy(-10, hertz=-51_000.0), 60_000).found
        self.assertLess(abs(found.hertz + 51_000), 200)

    def test_a_search_of_what_lies_further(self) -> None:
        near, far = acquisition.bins_within(21_000), acquisition.bins_within(88_000, 21_000)
        both = numpy.sort(numpy.concatenate([near, far]))
        self.assertTrue(numpy.array_equal(both, acquisition.bins_within(88_000)))
        made = self.noisy(-10, hertz=51_000.0)
        self.assertFalse(confirmation.first_pilot(made, 21_000, parts=(0.0,)).confirmation.is_pilot)
        found = confirmation.first_pilot(made, 60_000, parts=(0.0,), beyond=21_000).found
        self.assertLess(abs(found.hertz - 51_000), 200)

    def test_noise_is_no_pilot(self) -> None:
        _, found, sure = confirmation.first_pilot(self.noisy(-99), 9_000)
        self.assertLess(found.excess, 1)
        self.assertFalse(sure.is_pilot)

    def test_pulses_are_cut(self) -> None:
        draws = numpy.random.default_rng(1995)
        noise = (draws.standard_normal(4_096) + 1j * draws.standard_normal(4_096)).astype(numpy.complex64)
        kept = acquisition.limited(noise)
        self.assertLess(float(numpy.mean(kept != noise)), 0.01)
        self.assertEqual(kept.dtype, noise.dtype)
        pulsed = noise.copy()
        pulsed[100:120] += 100
        cut = acquisition.limited(pulsed)
        self.assertLess(float(numpy.abs(cut).max()), 4.0)
        self.assertTrue(numpy.allclose(numpy.angle(cut), numpy.angle(pulsed), atol=1e-5))
        nothing = numpy.zeros(64, numpy.complex64)
        self.assertTrue(numpy.array_equal(acquisition.limited(nothing), nothing))

    def test_the_threshold_is_the_tail_of_the_noise(self) -> None:
        # One degree: exp(-x) cells of one recording in a million.
        self.assertAlmostEqual(acquisition.least_energy(1_000, 1), float(numpy.log(1e9)), delta=1e-6)
        draws = numpy.random.default_rng(2).gamma(4, size=2_000_000)
        self.assertAlmostEqual(float(numpy.mean(draws > acquisition.least_energy(1e-2, 4))) / 1e-4, 1.0, delta=0.4)

    def test_shorter_than_a_period(self) -> None:
        with self.assertRaisesRegex(Refused, "32767 chips are too few"):
            confirmation.first_pilot(front.Front(Given(numpy.ones(32_767), CHIP_RATE)), 9_000)


class Cells(unittest.TestCase):
    """The strongest cell of a search is that of all cells, whose energies are computed here by their definition."""

    BINS = acquisition.STEP * numpy.arange(-5, 6)

    def received(self, level: float, late: float, bin_sent: float, count: int) -> NDArray[numpy.complex64]:
        """Noise and a pilot of `level` dB at phase 321 - late: two samples per chip of stretches."""
        draws = numpy.random.default_rng(90)
        spectrum = numpy.fft.fftshift(numpy.fft.fft(code()))
        places = numpy.arange(2 * count * acquisition.STRETCH)
        spectrum *= numpy.exp(-2j * numpy.pi * late * numpy.arange(-PERIOD // 2, PERIOD // 2) / PERIOD)
        wave = numpy.fft.ifft(numpy.fft.ifftshift(numpy.pad(spectrum, PERIOD // 2))) * 2
        pilot = wave[(2 * 321 + places) % (2 * PERIOD)] * numpy.sqrt(10 ** (level / 10) / 2)
        noise = draws.standard_normal(len(places)) + 1j * draws.standard_normal(len(places))
        turned = pilot * numpy.exp(2j * numpy.pi * bin_sent * places / (2 * PERIOD)) + noise / numpy.sqrt(2)
        return turned.astype(numpy.complex64).reshape(count, -1)

    def energies(self, stretches: NDArray[numpy.complex64]) -> NDArray[numpy.float64]:
        """The energies of all cells of the bins, at whole chips and half a chip later, as (bins, 2, 32,768)."""
        spectrum, found = numpy.fft.fft(code()), numpy.zeros((len(self.BINS), 2, PERIOD))
        places = numpy.arange(acquisition.STRETCH)
        for number, halves in enumerate(stretches):
            for row, half in numpy.ndindex(found.shape[:2]):
                turned = halves[half::2] * numpy.exp(-2j * numpy.pi * self.BINS[row] / PERIOD * places)
                whole = numpy.roll(numpy.pad(turned, (0, PERIOD - len(turned))), number * acquisition.STRETCH)
                found[row, half] += numpy.abs(numpy.fft.ifft(numpy.fft.fft(whole).conj() * spectrum)) ** 2
        return found

    def test_wherever_the_pilot_lies(self) -> None:
        for level, count in ((-13.0, 1), (-18.0, 4)):
            for late, bin_sent in ((0.0, 16), (0.5, 16), (0.0, -8), (0.5, -8), (0.25, 4), (0.25, -28), (0.5, -40), (0.5, 40)):
                with self.subTest(level=level, late=late, bin=bin_sent):
                    stretches = self.received(level, late, bin_sent, count)
                    wanted = self.energies(stretches)
                    row, half, phase = numpy.unravel_index(int(wanted.argmax()), wanted.shape)
                    search = acquisition.Search(self.BINS)
                    for halves in stretches:
                        search.add(halves)
                    best = search.strongest(3)
                    self.assertEqual((best.bin, best.late, best.phase), (self.BINS[row], half / 2, phase))
                    least = acquisition.least_energy(wanted.size * 3 * len(acquisition.LOOKS), count)
                    excess = wanted.max() / wanted.mean() * count / least
                    self.assertAlmostEqual(best.excess / excess, 1.0, delta=0.02)
                    self.assertGreater(best.excess, 1.0)

    def test_bins_that_are_apart(self) -> None:
        """Each run of bins is searched up to its ends, and nothing beyond them is found."""
        halves = self.received(-8.0, 0.0, 40, 1)[0]
        for bins, found in (([-8, 0, 40], 40), ([-8, 0, 32], 32), ([40], 40), ([0, 8, 16, 40, 48], 40), ([48, 0], 48)):
            best = acquisition.strongest(lambda _: halves, numpy.array(bins), 3)
            self.assertEqual((best.bin, best.phase), (found, 321), bins)

    def test_nothing_is_received(self) -> None:
        best = acquisition.strongest(lambda _: numpy.zeros(4_096, numpy.complex64), self.BINS, 1)
        self.assertEqual(best.excess, 0.0)

    def test_any_number_of_processors(self) -> None:
        stretches, found = self.received(-18.0, 0.5, -8, 4), []
        for workers in (1, 2, 3):
            with (
                unittest.mock.patch("cdma_tools.radio.acquisition.WORKERS", workers),
                unittest.mock.patch("cdma_tools.radio.acquisition.BATCH", 2),
            ):
                found.append(acquisition.strongest(lambda number: stretches[number], self.BINS, 1))
        self.assertEqual(found, 3 * found[:1])


class Confirmations(unittest.TestCase):
    def place(self, level: float, count: int, at: int, clock: float = 0.0) -> tuple[front.Front, acquisition.Found]:
        """Returns a pilot with an Ec/Io near `level` dB in white noise and a wrong clock, and a place in it as found
        by acquisition."""
        draws = numpy.random.default_rng(8)
        places = numpy.arange(count) * (1 + clock)
        chips = code()[(777 + numpy.rint(places).astype(int)) % PERIOD] * numpy.sqrt(10 ** (level / 10) / 2)
        chips = chips + (draws.standard_normal(count) + 1j * draws.standard_normal(count)) / numpy.sqrt(2)
        phase = int(777 + round(at * (1 + clock))) % PERIOD
        return front.Front(Given(chips, CHIP_RATE)), acquisition.Found(at, phase, 0.0, 2.0)

    def test_the_chips_beside_a_place(self) -> None:
        # After it if the recording continues, before it if that ends, on both sides of a short one; no chip twice.
        for count, at, after, before in ((800_000, 1_000, 768, 0), (310_000, 299_000, 5, 583), (PERIOD, 12_000, 24, 23)):
            parts = confirmation.parts_beside(*self.place(-10, count, at), 24)
            self.assertEqual(sum(part.sums for part in parts if part.shift > 0), after)
            self.assertEqual(sum(part.sums for part in parts if part.shift < 0), before)
            chips = [chip for shift, sums in parts for chip in range(shift, shift + 512 * sums, 512)]
            self.assertEqual(len(set(chips)), len(chips))
            self.assertFalse([chip for chip in chips if -512 < chip < confirmation.SEARCHED])

    def test_clocks(self) -> None:
        for clock, level in ((0, -10), (35e-6, -20), (-60e-6, -15), (110e-6, -10), (-110e-6, -18)):
            sure = confirmation.confirm(*self.place(level, 500_000, 20_000, clock))
            self.assertGreater(sure.sigma, 50)
            self.assertAlmostEqual(sure.clock_ppm, 1e6 * clock, delta=1)
            self.assertTrue(sure.is_pilot and sure.is_followed)

    def test_a_clock_beyond_is_told(self) -> None:
        for clock in (120e-6, -140e-6):
            sure = confirmation.confirm(*self.place(-10, 500_000, 20_000, clock))
            self.assertTrue(sure.is_pilot)
            self.assertFalse(sure.is_followed)

    def test_a_short_recording(self) -> None:
        for at in (30, 12_000, 24_000):
            sure = confirmation.confirm(*self.place(-15, PERIOD, at))
            self.assertTrue(sure.is_pilot)

    def test_noise_is_none(self) -> None:
        for at in (30, 200_000):
            sure = confirmation.confirm(*self.place(-99, 500_000, at))
            self.assertLess(sure.sigma, 6)


class Lines(unittest.TestCase):
    def test_a_line_goes_on(self) -> None:
        line = tracking.Line(10, 0.0)
        for x in range(20):
            line.add(x, 3 + 0.5 * x, 1.0 + x % 3)
        self.assertAlmostEqual(line.at(30)[0], 18.0)
        self.assertAlmostEqual(line.at(30)[1], 0.5)

    def test_stiffness_keeps_the_slope_near_0(self) -> None:
        line = tracking.Line(10, 1e6)
        for x in range(10):
            line.add(x, 5.0 * x, 1.0)
        self.assertLess(abs(line.at(100)[1]), 1e-3)

    def test_the_clock_is_the_slope_of_most_energy(self) -> None:
        # A path that recedes by 12 millionths, silent for a third of the time, and a weaker one at rest.
        middles = tracking.SEGMENT * (numpy.arange(24) + 0.5)
        delays = numpy.arange(-34, 35) / 2
        rows = [
            (0 if 6 <= number < 14 else 1) * numpy.sinc(delays - 0.5 - 12e-6 * middle) ** 2 + 0.4 * numpy.sinc(delays + 3) ** 2
            for number, middle in enumerate(middles)
        ]
        slope, start = tracking.best_line(middles, numpy.array(rows), 34)
        self.assertAlmostEqual(slope * 1e6, 12, delta=1.01)
        self.assertAlmostEqual(start, 0.5, delta=0.26)


class Curves(unittest.TestCase):
    def test_a_curve_is_found_through_outliers(self) -> None:
        x = numpy.linspace(0, 10, 200)
        wanted = 0.3 * x + 0.02 * x**2
        y = wanted + numpy.random.default_rng(1).normal(0, 0.01, len(x))
        y[::17] += 3
        curve = fitting.Curve(x, y, numpy.ones(len(x)), 5.0)
        self.assertLess(float(numpy.abs(curve(x) - wanted).max()), 0.1)
        self.assertAlmostEqual(float(curve.derivative(5.0)), 0.5, delta=0.05)

    def test_few_points(self) -> None:
        self.assertEqual(fitting.Curve([1], [7], [1], 2.0)(numpy.array([5.0])).tolist(), [7])
        self.assertAlmostEqual(float(fitting.Curve([1, 2, 3], [1, 2, 3], [1, 1, 1], 2.0)(9.0)), 9.0)

    def test_points_of_no_weight_do_not_count(self) -> None:
        curve = fitting.Curve([0, 1, 2, 3], [0, 1, 99, 3], [1, 1, 0, 1], 9.0)
        self.assertAlmostEqual(float(curve(2.0)), 2.0)


class Paths(unittest.TestCase):
    def test_peaks_of_two_paths(self) -> None:
        delays = numpy.arange(-16, 17) / 2
        energies = numpy.sinc(delays) ** 2 + 0.25 * numpy.sinc(delays - 4.5) ** 2
        found = paths.peaks(energies)
        self.assertEqual([round(way.delay, 1) for way in found], [0.0, 4.5])
        self.assertAlmostEqual(found[1].level, -6.0, delta=0.5)


class SecondPass(unittest.TestCase):
    def test_ramps_are_turns(self) -> None:
        turns, rates = numpy.array([0.1, 7.3]), numpy.array([1e-4, -3e-4])
        wanted = front.turn(turns[:, None] + rates[:, None] * numpy.arange(976))
        self.assertLess(float(numpy.abs(second_pass.ramps(turns, rates, 976) - wanted).max()), 1e-5)

    def test_the_meter_measures_the_pilot(self) -> None:
        draws = numpy.random.default_rng(1)
        count = 20 * PERIOD + 700
        chips = cell_chips(count, phase=99, gains={0: 1}) / numpy.sqrt(2)  # of power 1
        chips = chips + (draws.standard_normal(count) + 1j * draws.standard_normal(count)) * numpy.sqrt(9 / 2)
        meter = strength.PilotMeter()
        meter.add(99, chips[:40_000].astype(numpy.complex64))
        meter.add(99 + 40_000, chips[40_000:].astype(numpy.complex64))
        self.assertAlmostEqual(meter.ec_io, -10.0, delta=0.1)

    def test_what_is_sent_with_the_pulse_is_told_from_noise(self) -> None:
        # By the taps of the standard's filter at four a chip (7.1.3.1.10): chips go through it twice, noise once.
        draws = numpy.random.default_rng(2)
        taps = numpy.array(air.HALF_PULSE + air.HALF_PULSE[::-1])
        taps /= numpy.sqrt(numpy.sum(taps**2))
        count = 200_000

        def white(size: int) -> NDArray[numpy.complex128]:
            return (draws.standard_normal(size) + 1j * draws.standard_normal(size)) / numpy.sqrt(2)

        held = numpy.zeros(4 * count, dtype=complex)
        held[::4] = white(count)
        sent = numpy.convolve(held, numpy.correlate(taps, taps, "full"), "same")[::4]
        noise = numpy.convolve(white(4 * count), taps, "same")[::4]
        self.assertAlmostEqual(float(numpy.mean(numpy.abs(sent) ** 2)), 1.0227, delta=0.01)
        for part in (0.0, 0.3, 0.9):
            chips = numpy.sqrt(part) * sent + numpy.sqrt(1 - part) * noise
            power = float(numpy.mean(numpy.abs(chips) ** 2))
            products = [numpy.vdot(chips[:-lag], chips[lag:]).real / count for lag in range(1, strength.LAGS + 1)]
            found = strength.sent_part(numpy.array(products) / power)
            self.assertAlmostEqual(found, part / power, delta=0.04)

    def test_parts_are_rounded_and_cut(self) -> None:
        chips = numpy.array([1.4 - 2.6j, 400 + 5j], dtype=numpy.complex64)
        parts, cut = second_pass.whole_parts(chips, 1.0, 2)
        self.assertEqual((parts.tolist(), cut), ([1, -3, 127, 5], 1))
        parts, cut = second_pass.whole_parts(chips, 100.0, 1)
        self.assertEqual((parts.tolist(), cut), ([140, -260, 32_767, 500], 1))


if __name__ == "__main__":
    unittest.main()
