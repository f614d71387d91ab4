"""What tools/report shows of the waveform and of each cell: spectrum, channels, code domain, neighbors."""

import json
import os
import re
import subprocess
import unittest
from typing import Any

from tools.tests.helping import NO_PROGRAM, PROGRAM, example, needs, temporary_folder

needs("numpy", "scipy", "plotly")

import numpy  # noqa: E402
from numpy.typing import NDArray  # noqa: E402

from cdma_tools import frequencies  # noqa: E402
from cdma_tools.analysis import spectrum  # noqa: E402
from cdma_tools.recordings import Recording  # noqa: E402
from cdma_tools.report import waveform  # noqa: E402
from cdma_tools.report.gathering import Gathered, Imported, Line, Ran  # noqa: E402
from tools.tests.radio_helping import Recordings, run_main, whole_cell, write_cell  # noqa: E402


class Spectra(unittest.TestCase):
    def setUp(self) -> None:
        self.path = os.path.join(temporary_folder(self.addCleanup), "raw")

    def spectrum(self, samples: NDArray[Any], rate: float = 1_024_000.0) -> spectrum.Spectrum:
        """Returns the spectrum of samples of 8 bits."""
        parts = numpy.stack([samples.real, samples.imag], axis=1)
        numpy.rint(parts * 127).astype("i1").tofile(self.path)
        with Recording(self.path, "ci8", rate) as recording:
            return spectrum.spectrum_of(recording)

    def test_a_tone_has_its_level_at_its_frequency(self) -> None:
        # 0.5 of full scale in amplitude is -6 dB; Hann's window spreads it over three bins, the middle has 2/3 of it.
        tone = 0.5 * numpy.exp(2j * numpy.pi * 100_000 / 1_024_000 * numpy.arange(200_000))
        found = self.spectrum(tone)
        top = int(found.mean.argmax())
        self.assertEqual(found.hertz[top], 100_000)
        self.assertAlmostEqual(found.mean[top], -6.02 + 10 * numpy.log10(2 / 3), delta=0.1)
        self.assertAlmostEqual(float(10 * numpy.log10(numpy.sum(10 ** (found.mean / 10)))), -6.02, delta=0.1)

    def test_rows_are_those_of_their_time(self) -> None:
        samples = 0.5 * numpy.exp(2j * numpy.pi * 0.25 * numpy.arange(2_000_000))
        samples[1_000_000:] = samples[1_000_000:].conj()
        found = self.spectrum(samples)
        half = found.seconds < 1_000_000 / 1_024_000
        tops = found.hertz[found.rows.argmax(axis=1)]
        self.assertEqual((set(tops[half]), set(tops[~half])), ({256_000.0}, {-256_000.0}))
        self.assertEqual(found.rows.shape, (spectrum.ROWS, spectrum.BINS))

    def test_a_short_recording(self) -> None:
        self.assertEqual(self.spectrum(numpy.full(300, 0.5 + 0j)).rows.shape, (1, spectrum.BINS))

    def test_channels(self) -> None:
        # 7.1.1.1: 870 + 0.03 N MHz for 1 to 799, 870 + 0.03 (N - 1023) for 991 to 1023, 1930 + 0.05 N MHz.
        for megahertz, number in (
            (878.49, 283),
            (870.03, 1),
            (893.97, 799),
            (869.04, 991),
            (870.0, 1_023),
            (1_931.25, 25),
            (1_930.0, 0),
        ):
            found = frequencies.channel_at(megahertz * 1e6 + 3_000)
            assert found is not None
            self.assertEqual(found.number, number)
            self.assertAlmostEqual(found.hertz, megahertz * 1e6, delta=1)
        for megahertz in (878.505, 869.0, 894.0, 1_990.0, 100.0):
            self.assertIsNone(frequencies.channel_at(megahertz * 1e6))


class Waveforms(Recordings):
    CHIPS = 200_000

    @classmethod
    def setUpClass(cls) -> None:
        super().setUpClass()
        cls.cell = write_cell(cls.at("whole.is95"), whole_cell(cls.CHIPS))

    def gathered(self, found: dict[str, str], paging: int = 1) -> Gathered:
        """Returns an import that found something, and a run of follow that decoded a page."""
        page = Line("paging at=1 other type=42 bits=0:", {"line": "paging", "at": 1, "message": "other"})
        empty = Ran([], 0, [], "")
        follow = Ran(["follow", f"--paging={paging}"], 0, [page], "")
        return Gathered("x", Imported([], 0, found, []), empty, empty, follow)

    def test_what_is_shown(self) -> None:
        path = self.recorded("--carrier", 1_500, "--ec-io", -7, "--dc", 0.05)
        found = self.locked(path)
        raw = waveform.Raw(path.replace("-meta", "-data"), "ci16_le", 2_400_000, 878_488_500.0)
        made = waveform.waveform_of(self.gathered(found), self.at("out.is95"), int(found["phase"]), raw)
        assert made.channel is not None and made.branches is not None and made.domain is not None
        self.assertEqual(made.channel.number, 283)
        self.assertEqual(made.kinds, {0: "pilot", 1: "paging", 10: "other", 32: "sync"})
        plots = waveform.plots_of(made)
        self.assertEqual([plot.name for plot in plots], ["domain", "spectrum", "waterfall"])
        self.assertIn("from channel 283, 878.49 MHz", plots[1].note)
        told = dict(waveform.rows_of(made))
        self.assertEqual((told["Rows in use"], told["Channel"]), ("4", "283, 878.49 MHz"))
        self.assertTrue(told["Offset"].startswith("+0.05"))
        # An inverted spectrum's carrier lies on the other side of the middle.
        self.assertEqual(waveform.carrier_of(self.gathered({"carrier_hz": "1500.0", "conjugate": "yes"})), -1500)

    def test_what_cannot_be_measured_is_left_out(self) -> None:
        raw = waveform.Raw(self.at("none"), "cu8", 2_400_000, None)
        made = waveform.waveform_of(self.gathered({"carrier_hz": "x"}), self.cell, None, raw)
        self.assertEqual((made.domain, made.spectrum, made.carrier), (None, None, None))
        self.assertEqual((waveform.plots_of(made), waveform.rows_of(made)), ([], []))


@unittest.skipUnless(PROGRAM, NO_PROGRAM)
class Cells(Recordings):
    CHIPS = 1_000

    def test_each_cell_has_a_section(self) -> None:
        cells = []
        for name in ("call", "call_neighbor"):
            script = re.sub(rb"samples=\d+", b"samples=1500000", example(f"{name}.script"))
            with open(self.at(f"{name}.is95"), "wb") as file:
                file.write(subprocess.run([str(PROGRAM), "make"], input=script, stdout=subprocess.PIPE, check=True).stdout)
            cells.append(self.at(f"{name}.is95"))
        path = self.recorded(
            "--type", "cu8", "--carrier", 1_500, "--ec-io", -8, cells=(cells[0], f"{cells[1]}:-6:12.5")
        )
        words = (path, "--out", self.at("page.html"), "--program", PROGRAM)
        self.assertEqual(run_main("report", *words, "--cells", 3)[0], 0)
        with open(self.at("page.html"), encoding="utf-8") as file:
            page = file.read()
        for text in (
            'id="cell-1"',
            'id="cell-2"',
            "Sync message of cell 2",
            "System Parameters of cell 1",
            "Who names whom",
            "<td>PN 300</td>",
            'id="cells"',
        ):
            self.assertTrue(text in page, text)
        self.assertFalse('id="cell-3"' in page)
        self.assert_cells(page)
        told = re.search(r'id="plots">(.*?)</script>', page, re.DOTALL)
        assert told
        plots = json.loads(told[1])
        self.assertEqual(list(plots)[-4:], ["domain", "spectrum", "waterfall", "map"])
        self.assertLess(len(page), 6_000_000)

    def assert_cells(self, page: str) -> None:
        """Asserts that the table of cells has the recording's true figures, and that nothing on the page contradicts
        it."""
        table = re.search(r'<section id="cells">.*?</section>', page, re.DOTALL)
        assert table
        rows = [re.findall(r"<t[hd][^>]*>([^<]*)</t[hd]>", row) for row in re.findall(r"<tr>.*?</tr>", table[0])][1:]
        (first, second) = rows
        self.assertEqual((first[1], second[1]), ("300", "168"))
        self.assertAlmostEqual(float(first[2]), -8, delta=0.15)
        self.assertAlmostEqual(float(second[3]), 12.5, delta=0.1)
        # 12.5 chips of 299,792,458 / 1,228,800 m.
        self.assertAlmostEqual(float(second[5].replace(",", "")), 3_049.6, delta=25)
        self.assertEqual(len(re.findall("<th>Ec/Io</th>", page)), 3)  # of the whole, and of each cell's section
        self.assertEqual(len(re.findall("<th>rho</th>", page)), 1)
        neighbors = re.search(r'<section id="neighbors">.*?</section>', page, re.DOTALL)
        if neighbors and "<th>168</th>" in neighbors[0]:
            self.assertIn("received as cell 2", neighbors[0])

    def test_words(self) -> None:
        for why, words in (
            ("--cells goes with a recording", ("--cells", 2)),
            ("not 1 to 12: '13'", ("--cells", 13, "--type", "cu8")),
        ):
            status, _, said = run_main("report", self.cell, "--out", self.at("none.html"), *words)
            self.assertEqual(status, 2)
            self.assertIn(why, said)


if __name__ == "__main__":
    unittest.main()
