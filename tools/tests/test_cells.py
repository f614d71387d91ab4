"""Every cell of a recording: import_capture --lock --cell and --pn, and the subtraction of cells in
cdma_tools.analysis."""

import os
import subprocess
import unittest
from typing import ClassVar

from tools.tests.helping import NO_PROGRAM, PROGRAM, needs, temporary_folder

needs("numpy", "scipy")

import numpy  # noqa: E402
from numpy.typing import NDArray  # noqa: E402

from cdma_tools.analysis import symbols  # noqa: E402
from cdma_tools.analysis.walsh import moving  # noqa: E402
from cdma_tools.analysis.kept_samples import KeptSamples, Together  # noqa: E402
from cdma_tools.radio.bench_cases import CELLS, script_of  # noqa: E402
from tools.tests.radio_helping import (  # noqa: E402
    PERIOD,
    PHASE,
    Recordings,
    figures,
    read_chips,
    run_main,
    signal_to_noise,
    whole_cell,
    write_cell,
)

OTHER_PHASE, THIRD_PHASE = 20_040, 30_000
BUSY = {0: 100, 32: 40, 1: 80, 10: 70, 17: 45, 40: 60, 63: 25}


class Parts(unittest.TestCase):
    def test_samples_are_kept_and_added(self) -> None:
        folder = temporary_folder(self.addCleanup)
        one, two = (KeptSamples(os.path.join(folder, name), 1e6, 10) for name in "ab")
        self.addCleanup(one.close)
        self.addCleanup(two.close)
        one.write(2, numpy.array([1 + 1j, 2, 3], dtype=numpy.complex64))
        two.write(3, numpy.array([5j], dtype=numpy.complex64))
        self.assertEqual(Together(one, two).read(1, 5).tolist(), [0, 1 + 1j, 2 + 5j, 3, 0])
        one.clear(3, 99)
        self.assertEqual(one.read(0, 12).tolist(), [0, 0, 1 + 1j] + [0] * 9)

    def test_a_moving_mean(self) -> None:
        values = numpy.array([1.0, 2, 3, 10, 5])
        self.assertTrue(numpy.allclose(moving(values, 3), [1.5, 2, 5, 6, 7.5]))
        self.assertTrue(numpy.allclose(moving(values[:, None] * [1, 2], 3)[2], [5, 10]))

    def test_the_amplitudes_follow_changes_and_not_noise(self) -> None:
        draws = numpy.random.default_rng(3)
        groups, noise = 400, 0.5
        power = numpy.stack([numpy.full(groups, 0.36), numpy.where(numpy.arange(groups) < 200, 0.0, 0.5)], axis=1)
        rows = numpy.zeros((groups, 64))
        rows[:, [5, 9]] = power + draws.normal(0, 1, (groups, 2)) * numpy.sqrt((noise**2 + 4 * noise * power) / 24)
        told = symbols.Powers(rows, numpy.full(groups, noise), numpy.zeros(groups))
        found = told.amplitudes([5, 9])
        self.assertLess(float(numpy.abs(found[:, 0] - 0.6).mean()), 0.05)
        self.assertLess(float(found[:190, 1].mean()), 0.2)
        self.assertLess(float(numpy.abs(found[210:, 1] - numpy.sqrt(0.5)).mean()), 0.06)


class Cells(Recordings):
    CHIPS = 620_000
    chips: ClassVar[dict[int, NDArray[numpy.complex128]]]
    files: ClassVar[list[str]]

    @classmethod
    def setUpClass(cls) -> None:
        super().setUpClass()
        cls.chips = {
            PHASE: whole_cell(cls.CHIPS, gains=BUSY),
            OTHER_PHASE: whole_cell(cls.CHIPS, 9, OTHER_PHASE, BUSY),
            THIRD_PHASE: whole_cell(cls.CHIPS, 5, THIRD_PHASE, BUSY),
        }
        cls.files = [write_cell(cls.at(f"{phase}.is95"), chips) for phase, chips in cls.chips.items()]

    def taken(self, path: str, *words: object) -> dict[str, str]:
        """Returns the figures of a lock to a cell, and keeps its remarks."""
        status, wrote, self.said = run_main("import_capture", "--lock", *words, path, self.at("out.is95"))
        self.assertEqual((status, wrote), (0, ""), self.said)
        return figures(self.said)

    def noise_of(self, found: dict[str, str], phase: int, begin: int = 0, end: int | None = None) -> float:
        """Returns the signal-to-noise ratio of the chips written, against those sent by the cell with a phase."""
        first = (int(found["phase"]) - phase + PERIOD // 2) % PERIOD - PERIOD // 2
        got, sent = read_chips(self.at("out.is95"))[max(0, -first) :], self.chips[phase][max(0, first) :]
        return signal_to_noise(got[begin:end], sent[begin:end])

    def alone(self, phase: int, level: float, *words: object) -> float:
        """Returns the same for a recording of only that cell, whose signal is `level` dB above the noise."""
        pilot = 10 * numpy.log10(BUSY[0] ** 2 / sum(gain**2 for gain in BUSY.values()))
        share = pilot - 10 * numpy.log10(1 + 10 ** (-level / 10))
        path = self.recorded(*words, "--ec-io", share, cells=(self.at(f"{phase}.is95"),), name="alone.sigmf-meta")
        return self.noise_of(self.taken(path), phase)

    def share(self, *levels: float) -> float:
        """Returns the first cell's pilot over the total power, given the levels of cells and noise against it."""
        pilot = 10 * numpy.log10(BUSY[0] ** 2 / sum(gain**2 for gain in BUSY.values()))
        return float(pilot - 10 * numpy.log10(1 + sum(10 ** (level / 10) for level in levels)))

    def test_a_cell_10_dB_down_is_as_if_it_were_alone(self) -> None:
        link = ("--type", "cu8", "--carrier", 1_500, "--clock", 3, "--delay", 0.3, "--seconds", 0.36)
        first, second, _ = self.files
        path = self.recorded(*link, "--ec-io", self.share(-10, -12), cells=(first, f"{second}:-10:40.5"))
        alone = self.alone(OTHER_PHASE, 2, *link)
        found = self.taken(path, "--cell", 2)
        self.assertGreater(self.noise_of(found, OTHER_PHASE), alone - 0.3)
        self.assertAlmostEqual(float(found["carrier_hz"]), 1_500, delta=10)
        self.assertRegex(self.said, r"import_capture: cell 1: phase=\d+ carrier_hz=\S+ rows=7\n")
        # The root mean square is that of every lock.
        level = numpy.sqrt(numpy.mean(numpy.abs(read_chips(self.at("out.is95"))) ** 2))
        self.assertAlmostEqual(level / 2_500, 1, delta=0.03)

    def test_the_third_of_three_with_an_inverted_spectrum(self) -> None:
        link = ("--rate", 1_500_000, "--carrier", -900, "--clock", -12, "--conjugate", "--seconds", 0.36)
        first, second, third = self.files
        path = self.recorded(
            *link, "--ec-io", self.share(-3, -6, -10), cells=(first, f"{second}:-3:20.5", f"{third}:-6:71.25")
        )
        alone = self.alone(THIRD_PHASE, 4, *link)
        found = self.taken(path, "--cell", 3)
        self.assertGreater(self.noise_of(found, THIRD_PHASE), alone - 0.3)
        self.assertEqual(found["conjugate"], "no")

    def test_an_echo_far_off_is_no_cell(self) -> None:
        link = ("--paths", "0,25:-4", "--carrier", 300, "--seconds", 0.36)
        first, second, _ = self.files
        path = self.recorded(*link, "--ec-io", self.share(-8), cells=(first,))
        self.refused("1 cell was found: there is no cell 2", path, "--cell", 2)
        path = self.recorded(*link, "--ec-io", self.share(-8, -8), cells=(first, f"{second}:-8:40"))
        alone = self.alone(OTHER_PHASE, 0, *link)
        found = self.taken(path, "--cell", 2)
        self.assertGreater(self.noise_of(found, OTHER_PHASE), alone - 0.3)

    def test_across_lost_samples(self) -> None:
        link = ("--carrier", 700, "--clock", 5, "--lose", "600000:700")
        first, second, _ = self.files
        path = self.recorded(*link, "--ec-io", self.share(-6, -12), cells=(first, f"{second}:-6:40.5"))
        level = self.alone(OTHER_PHASE, 6)
        found = self.taken(path, "--cell", 2)
        self.assertIn(int(found["lost"]), (358, 359))
        self.assertGreater(self.noise_of(found, OTHER_PHASE, 0, 290_000), level - 0.4)
        self.assertGreater(self.noise_of(found, OTHER_PHASE, 330_000), level - 0.4)

    def test_words(self) -> None:
        path = self.recorded("--seconds", 0.1, cells=(self.files[0],))
        for why, words in (
            ("not 1 to 12: '0'", ("--cell", 0)),
            ("not 0 to 511: '512'", ("--pn", 512)),
            ("not allowed with", ("--pn", 7, "--cell", 2)),
            ("--program goes with --checks, --pn or --cells", ("--program", "x")),
        ):
            self.refused(why, path, *words, status=2)
        self.refused("no program at /none", path, "--pn", 3, "--program", "/none")
        ended, _, said = run_main("import_capture", "--cell", 2, path, self.at("none.is95"))
        self.assertEqual(ended, 2)
        self.assertIn("--cell needs --lock", said)


@unittest.skipUnless(PROGRAM, NO_PROGRAM)
class Heard(Recordings):
    CHIPS = 70_000

    def cell_of(self, name: str, pn: int) -> str:
        """Returns the sample file of the bench's cell with a pilot offset."""
        script = script_of(CELLS[name], 1_600_000, pn).encode("ascii")
        with open(self.at(f"{pn}.is95"), "wb") as file:
            file.write(subprocess.run([str(PROGRAM), "make"], input=script, stdout=subprocess.PIPE, check=True).stdout)
        return self.at(f"{pn}.is95")

    def heard(self, path: str) -> list[str]:
        """Returns the message lines that the program decodes from a file, without their places."""
        with open(path, "rb") as file:
            text = subprocess.run([str(PROGRAM), "follow"], stdin=file, stdout=subprocess.PIPE, check=False).stdout.decode(
                "ascii"
            )
        lines = [line.split(" ", 2) for line in text.splitlines() if line.startswith(("sync ", "paging "))]
        return [f"{kind} {rest}" for kind, _, rest in lines]

    def test_the_messages_of_each_cell(self) -> None:
        first, second = self.cell_of("quiet", 300), self.cell_of("loud", 168)
        path = self.recorded(
            "--type", "cu8", "--carrier", 1_500, "--clock", 3, "--ec-io", -4.5, cells=(first, f"{second}:-10:40.5")
        )
        for pn, cell in ((168, second), (300, first)):
            status, _, said = run_main("import_capture", "--lock", "--pn", pn, path, self.at("out.is95"))
            self.assertEqual(status, 0, said)
            self.assertRegex(said, rf"cell \d: phase=\d+ pn={pn} carrier_hz=")
            sent, got = self.heard(cell), self.heard(self.at("out.is95"))
            missed = len(sent) - sum(line in sent for line in got)
            self.assertLessEqual(missed, 2)
            self.assertGreater(len(sent), 8)
        self.refused("2 cells were found, none of them with PILOT_PN 9: 300, 168", path, "--pn", 9)


if __name__ == "__main__":
    unittest.main()
