"""`tools/bench --peers`: each library finds the known result, and a missing library is reported."""

from __future__ import annotations

import contextlib
import dataclasses
import io
import unittest
from unittest import mock

from tools.tests.helping import needs, temporary_folder

needs("numpy", "scipy")

import numpy  # noqa: E402

from cdma_tools.errors import Refused  # noqa: E402
from cdma_tools.peers import inputs, libraries, measuring  # noqa: E402
from tools.tests.radio_helping import PHASE, code  # noqa: E402


def there(library: libraries.Library, folder: str) -> str:
    """Returns the program around a library, or skips the test if the library is missing."""
    try:
        return libraries.built(library, folder)
    except libraries.Missing as why:
        raise unittest.SkipTest(f"{library.name}: {why}") from None


class Peers(unittest.TestCase):
    def setUp(self) -> None:
        self.folder = temporary_folder(self.addCleanup)

    def test_the_soft_values_are_those_of_the_decoders_test(self) -> None:
        """Each has the sign of its symbol, by the powers of the code's polynomials; the tail is zeros."""
        sending = inputs.sent()
        bits = [0] * 8 + sending.bits + [0] * 8
        for powers, softs in (((0, 1, 2, 3, 5, 7, 8), sending.softs[::2]), ((0, 2, 3, 4, 8), sending.softs[1::2])):
            symbols = [sum(bits[8 + place - lag] for lag in powers) % 2 for place in range(192)]
            self.assertEqual([int(soft < 0) for soft in softs], symbols)
        self.assertTrue(all(1 <= abs(soft) <= 2_047 for soft in sending.softs))

    def test_decoders_find_the_codeword(self) -> None:
        sending = inputs.sent()
        for library in libraries.DECODERS:
            with self.subTest(library.name):
                seconds, found = libraries.turn_of(there(library, self.folder), 2, sending.text())
                self.assertEqual(found, "".join(map(str, sending.bits)))
                self.assertGreater(seconds, 0)

    def test_searches_find_the_phase(self) -> None:
        """2,048 chips of the code from a phase on, in noise 6 dB above them."""
        draws = numpy.random.default_rng(1)
        chips = 100 * code()[PHASE : PHASE + 2_048]
        noisy = numpy.rint(chips + 200 * (draws.standard_normal(2_048) + 1j * draws.standard_normal(2_048)))
        for library in libraries.SEARCHES:
            with self.subTest(library.name):
                _, found = libraries.turn_of(there(library, self.folder), 2, inputs.search_text(noisy))
                self.assertEqual(found, str(PHASE))

    def test_another_result_is_refused(self) -> None:
        library = libraries.DECODERS[0]
        work = measuring.checked(library, there(library, self.folder), inputs.sent().text(), "0101")
        with self.assertRaisesRegex(Refused, "libfec finds another result: [01]{60} instead of 0101"):
            work()

    def test_what_is_not_there_is_told(self) -> None:
        """A library that no linker finds, a machine without a compiler, and no GNU Radio are reported."""
        missing = dataclasses.replace(libraries.DECODERS[0], linked=("no_such_library",))
        with self.assertRaisesRegex(libraries.Missing, "can't be built: install the package libfec-dev"):
            there_not = libraries.built(missing, self.folder)
            self.assertEqual(there_not, "")
        said = io.StringIO()
        with mock.patch("shutil.which", return_value=None), contextlib.redirect_stdout(said):
            self.assertEqual(measuring.works_of(libraries.DECODERS, self.folder, b"", ""), {})
        self.assertRegex(said.getvalue(), r"libfec +not measured: no compiler cc: install the package build-essential\n")
        with mock.patch.object(libraries, "GNU_RADIO", "no_such_module"):
            with self.assertRaisesRegex(libraries.Missing, "no Python has it: install the package"):
                libraries.python_of_gnu_radio()

    def test_the_resampler_passes_the_pulse(self) -> None:
        """The filter's taps have the pulse's form: greatest in the middle, and symmetric."""
        taps = inputs.pulse_taps()
        self.assertEqual(int(taps.argmax()), len(taps) // 2)
        self.assertLess(float(numpy.abs(taps - taps[::-1]).max()), 1e-5)
        self.assertAlmostEqual(float(taps.sum()), inputs.FILTERS, places=2)


if __name__ == "__main__":
    unittest.main()
