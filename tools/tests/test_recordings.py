"""conformance/run_recordings and tools/radio_bench: their cells are lawful, and they report what differs."""

import collections
import contextlib
import io
import os
import unittest

from tools.tests.helping import NO_PROGRAM, PROGRAM, PYTHON, ROOT, loaded, needs, temporary_folder

needs("numpy", "scipy")

import numpy  # noqa: E402

from cdma_model.run import run  # noqa: E402
from cdma_tools.radio import bench, bench_cases, bench_cells  # noqa: E402
from tools.tests.radio_helping import run_main  # noqa: E402

RUNNER = "conformance_recordings"
MODEL = """#!/bin/sh
cd %s && exec %s -B -m model "$@"
""" % (ROOT, PYTHON)
# A receiver that misses the second message.
DEAF = """#!/bin/sh
"%s" "$@" | grep -v time=3280387025
"""


class Programs(unittest.TestCase):
    """A folder with the model as a program."""

    def setUp(self) -> None:
        self.folder = temporary_folder(self.addCleanup)
        self.model = self.program("model_program", MODEL)

    def program(self, name: str, text: str) -> str:
        path = os.path.join(self.folder, name)
        with open(path, "w", encoding="ascii") as file:
            file.write(text)
        os.chmod(path, 0o755)
        return path


class Cases(Programs):
    def test_each_case_can_be_read(self) -> None:
        runner = loaded(RUNNER)
        status, wrote, _ = run_main(RUNNER, "--list")
        names = [name[:-5] for name in os.listdir(runner.CASES) if name.endswith(".case")]
        self.assertEqual((status, wrote.count("\n")), (0, 2 * len(names)))
        self.assertEqual(len(names), 10)
        for name in names:
            case = runner.RecordedCase(name)
            self.assertGreaterEqual(len(case.lines), 8, name)
            self.assertFalse([line for line in case.lines if " at=" in line])

    def test_the_lines_are_those_of_the_cell(self) -> None:
        # The one with a traffic channel, and the one with two cells.
        status, wrote, said = run_main(RUNNER, "--clean", "--only", "poor_radio", "--only", "second_cell", self.model)
        self.assertEqual((status, wrote), (0, "2 recordings, 0 differ\n"), said)

    def test_what_differs_is_said(self) -> None:
        deaf = self.program("deaf", DEAF % self.model)
        status, wrote, _ = run_main(RUNNER, "--clean", "--only", "carrier_and_clock", "--maker", self.model, deaf)
        self.assertEqual(status, 1)
        self.assertRegex(wrote, r"    wanted: sync prev=3 .* time=3280387025 ")
        self.assertTrue(wrote.endswith("1 recordings, 1 differ\n"))

    def test_places_do_not_count(self) -> None:
        runner = loaded(RUNNER)
        text = b"pilot phase=1 energy=2\nsync at=77 prev=3\npaging at=99 other type=42 bits=0:\nsets at=1 time=2\n"
        self.assertEqual(runner.lines_of(text), ["sync prev=3", "paging other type=42 bits=0:"])

    def test_words(self) -> None:
        for words in (("--only", "none", "x"), ("--minutes", "0", "x"), ("--keep", "/none", "x")):
            with contextlib.redirect_stderr(io.StringIO()):
                self.assertEqual(run_main(RUNNER, *words)[0], 2)
        status, _, said = run_main(RUNNER, "--only", "drift", "/none/program")
        self.assertEqual(status, 2)
        self.assertIn("/none/program: No such file", said)

    @unittest.skipUnless(PROGRAM, NO_PROGRAM)
    def test_a_recording(self) -> None:
        status, wrote, said = run_main(RUNNER, "--only", "two_paths", PROGRAM)
        self.assertEqual((status, wrote), (0, "1 recordings, 0 differ\n"), said)


class Benches(Programs):
    def made(self, script: str) -> None:
        """Asserts that the model makes the 64 samples of a script."""
        made = run(["make"], lambda: script.encode("ascii"))
        self.assertEqual((made.status, len(made.text())), (0, 16 + 4 * 64), (script, made.said))

    def test_each_cell_is_lawful(self) -> None:
        for cell in bench_cases.CELLS.values():
            script = bench_cases.script_of(cell, samples=64)
            self.made(script)

    def test_each_busy_cell_is_lawful(self) -> None:
        for number in range(len(bench_cells.OFFSETS)):
            script = bench_cells.busy_script(number, samples=64)
            self.made(script)
        names = [case.name for case in bench_cells.CELLS_CASES]
        self.assertEqual(len(set(names)), len(names))

    def test_the_cases_are_named_once(self) -> None:
        names = [case.name for case in bench_cases.CASES]
        self.assertEqual((len(names), len(set(names))), (23, 23))
        self.assertLessEqual({case.cell for case in bench_cases.CASES}, set(bench_cases.CELLS))

    def test_counts(self) -> None:
        sent = collections.Counter({"sync a": 1, "sync b": 1, "paging x": 3, "frame y": 2})
        heard = collections.Counter({"sync a": 1, "paging x": 2, "paging z": 9, "frame y": 3})
        self.assertEqual(bench.counts(sent, heard), "1/2/2")

    def test_true_values(self) -> None:
        case = bench_cases.Case("X", "quiet", "cu8", 2.4e6, "--carrier -15000 --drift 50 --clock 25 --clock-drift 0.4")
        self.assertEqual(bench.true_values(case, 2.0), (-14_950, 25.4))

    def test_what_has_no_pilot_is_of_twenty_kinds(self) -> None:
        made = [bench.without_pilot(number, 5_000) for number in range(20)]
        self.assertEqual({len(samples) for samples in made}, {5_000})
        self.assertTrue(all(numpy.isfinite(samples).all() for samples in made))
        self.assertEqual(len({complex(samples[7]) for samples in made}), 20)

    def test_words(self) -> None:
        for words in (("--only", "none", "x"), ("--keep", "/none", "x")):
            self.assertEqual(run_main("radio_bench", *words)[0], 2)
        status, _, said = run_main("radio_bench", "--only", "A", "/none/program")
        self.assertEqual(status, 1)
        self.assertIn("/none/program", said)

    @unittest.skipUnless(PROGRAM, NO_PROGRAM)
    def test_a_row(self) -> None:
        status, wrote, said = run_main("radio_bench", "--only", "A", PROGRAM)
        self.assertEqual(status, 0, said)
        row = [cell.strip() for cell in wrote.splitlines()[-1].split("|")[1:-1]]
        self.assertEqual((row[0], len(row)), ("A", 12))
        self.assertLess(float(row[6]), 0.15)


if __name__ == "__main__":
    unittest.main()
