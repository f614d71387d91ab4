"""What `cdma` does with recordings and frames: the same as the commands, with parameters that are checked."""

import contextlib
import json
import os
import socket
import subprocess
import threading
import unittest
from collections.abc import Callable
from pathlib import Path
from typing import Any

from tools.tests.helping import EXAMPLES, PYTHON, ROOT, needs, run_inside, temporary_folder

needs("numpy", "scipy")

import numpy  # noqa: E402

import cdma  # noqa: E402
import cdma.programs  # noqa: E402
from tools.tests.test_library import choose  # noqa: E402

LINK = [
    "--type", "cu8", "--carrier", "1500", "--clock", "3", "--ec-io", "-7", "--paths", "0:0,2.5:-6:90", "--lose", "9:1",
]  # fmt: skip


class Recorded(unittest.TestCase):
    """One recording, by the library and by the command."""

    folder: Path
    cell: cdma.Cell
    chips: cdma.Chips
    recording: cdma.Recording
    meta: Path

    @classmethod
    def setUpClass(cls) -> None:
        choose()
        cls.folder = Path(temporary_folder(cls.addClassCleanup))
        cls.cell = cdma.Cell(pn=3, samples=409_600, gain=100)
        cls.cell.add_sync(gain=40)
        cls.chips = cdma.make(cls.cell)
        cls.chips.save(cls.folder / "cell.is95")
        cls.recording = cdma.record(
            cls.chips, type="cu8", carrier=1500, clock_ppm=3, ec_io=-7, paths=[(0, 0), (2.5, -6, 90)], lose=[(9, 1)]
        )
        cls.meta = cls.folder / "command.sigmf-meta"
        status, _, said = run_inside("channel", *LINK, cls.folder / "cell.is95", cls.meta)
        assert status == 0, said
        cls.locked = cdma.lock(cls.recording)

    locked: cdma.Lock


class Radio(Recorded):
    """Recordings, locks and the code domain are those of the commands."""

    seconds = 25

    def test_record(self) -> None:
        self.recording.save(self.folder / "library.sigmf-meta")
        data = [(self.folder / f"{name}.sigmf-data").read_bytes() for name in ("library", "command")]
        self.assertEqual(data[0], data[1])
        notes = [json.loads((self.folder / f"{name}.sigmf-meta").read_text()) for name in ("library", "command")]
        texts = [note["annotations"][0]["core:comment"] for note in notes]
        self.assertEqual((texts[0], notes[0]["global"]["core:datatype"]), (texts[1], "cu8"))
        self.assertIn(self.recording.truth, texts[0])
        self.recording.save(self.folder / "raw.cu8")
        self.assertEqual((self.folder / "raw.cu8").read_bytes(), data[1])
        self.assertEqual(len(self.recording.as_complex()), self.recording.samples)

    def test_two_cells(self) -> None:
        """The second cell of a list has a level and a delay."""
        other = cdma.make(cdma.Cell(pn=200, samples=100_000))
        made = cdma.record([self.chips[:100_000], (other, -3, 12)], seed=5)
        other.save(self.folder / "other.is95")
        cdma.save(self.chips[:100_000], self.folder / "first.is95")
        files = (self.folder / "first.is95", f"{self.folder / 'other.is95'}:-3:12", self.folder / "two.raw")
        self.assertEqual(run_inside("channel", "--seed", 5, *files)[0], 0)
        made.save(self.folder / "made.raw")
        self.assertEqual((self.folder / "made.raw").read_bytes(), (self.folder / "two.raw").read_bytes())

    def test_lock(self) -> None:
        """From the recording and from its file: the command's chips, its line, and the true carrier and clock."""
        path = self.folder / "locked.is95"
        status, _, said = run_inside("import_capture", "--lock", self.meta, path)
        self.assertEqual(status, 0, said)
        for lock in (self.locked, cdma.lock(self.meta)):
            copy = self.folder / "copy.is95"
            lock.chips.save(copy)
            self.assertEqual(copy.read_bytes(), path.read_bytes())
            self.assertEqual(str(lock), said.splitlines()[0])
            self.assertAlmostEqual(lock.carrier_hz, 1_500, delta=3)
            self.assertAlmostEqual(lock.clock_ppm, 3, delta=0.1)
            self.assertEqual([round(way.delay * 2) for way in lock.paths], [0, 5])

    def test_lock_of_an_array(self) -> None:
        samples = self.recording.as_complex()
        lock = cdma.lock(samples, rate=self.recording.rate, count=100_000, bits=8)
        self.assertAlmostEqual(lock.carrier_hz, 1_500, delta=3)
        self.assertEqual((len(lock.chips), lock.chips.dtype), (100_000, numpy.dtype(numpy.int8)))

    def test_lock_with_checks(self) -> None:
        """The flags are those that the command tries, and so is its remark."""
        path = self.folder / "checked.is95"
        with cdma.programs.script_of_model() as program:
            words = ("--lock", "--count", 400_000, "--checks", "auto", "--program", program, self.meta, path)
            status, _, said = run_inside("import_capture", *words)
        self.assertEqual(status, 0, said)
        lock = cdma.lock(self.meta, count=400_000, checks="auto")
        self.assertEqual(said.splitlines()[1:], [f"import_capture: {remark}" for remark in lock.remarks])
        self.assertRegex(lock.remarks[-1], "30-bit checks are assumed to be plain: 1 messages pass")
        self.assertEqual(lock.chips.tolist(), cdma.load(path).tolist())

    def test_lock_to_a_live_source(self) -> None:
        """Some seconds are taken of a server, and stay there for the code domain."""
        data = self.meta.with_suffix(".sigmf-data").read_bytes()
        with socket.create_server(("127.0.0.1", 0)) as server:

            def serve() -> None:
                with server.accept()[0] as connection, contextlib.suppress(OSError):
                    connection.sendall(data)

            threading.Thread(target=serve, daemon=True).start()
            address = f"tcp://127.0.0.1:{server.getsockname()[1]}"
            lock = cdma.lock(address, type="cu8", rate=2_400_000, seconds=0.2)
        self.assertAlmostEqual(len(lock.chips) / 1_228_800, 0.2, delta=0.001)
        self.assertAlmostEqual(cdma.code_domain(lock).figures["carrier_hz"], 1_500, delta=5)

    def test_import(self) -> None:
        """The chips, the scale and the remarks are those of the command without a lock."""
        path, samples = self.folder / "plain.is95", self.folder / "plain.ci16"
        cdma.record(self.chips[:2_000], rate=2 * 1_228_800).save(samples)
        cases: list[tuple[list[object], dict[str, Any]]] = [
            (["--sum", "--offset", 1, "--scale", 0.5], {"sum": True, "offset": 1, "scale": 0.5}),
            (["--scale", "fit", "--format", 2, "--complement-16"], {"scale": "fit", "bits": 8, "complement_16": True}),
            (["--shift", "1e5", "--count", 900], {"shift": 1e5, "count": 900}),
        ]
        for words, given in cases:
            with self.subTest(words):
                told = ("--type", "ci16_le", "--rate", 2 * 1_228_800, samples, path)
                status, _, said = run_inside("import_capture", *words, *told)
                self.assertEqual(status, 0, said)
                found = cdma.import_capture(samples, type="ci16_le", rate=2 * 1_228_800, **given)
                found.chips.save(self.folder / "copy.is95")
                self.assertEqual((self.folder / "copy.is95").read_bytes(), path.read_bytes())
                self.assertIn(f" scale {found.scale:.9g}, ", said)
                self.assertEqual(found.remarks, ())

    def test_limits(self) -> None:
        """The standard's limits are those of the command; the carrier's needs the frequency of the middle."""
        words = (self.meta, "--limits", "--channel", 283, "--json", "-")
        status, text, said = run_inside("domain", *words)
        self.assertEqual(status, 1, said)
        wanted = json.loads(text)["limits"]
        found = cdma.code_domain(self.locked, limits=True, channel=283).limits
        self.assertEqual([limit.name for limit in found], [one["name"] for one in wanted])
        self.assertEqual([limit.is_met for limit in found], [not one["said"] for one in wanted])
        self.assertIn(False, [limit.is_met for limit in found])
        for limit, one in zip(found, wanted):
            self.assertAlmostEqual(limit.value, one["value"], places=6)
        left_out = cdma.code_domain(self.locked, limits=True).limits[-1].left_out
        self.assertIn("the recording's frequency isn't known", left_out)
        self.assertEqual(list(cdma.code_domain(self.chips).limits), [])

    def test_code_domain(self) -> None:
        """The figures are those of the command's JSON, of a recording and of a sample file."""
        sources: list[tuple[cdma.Lock | cdma.Chips, Path]] = [
            (self.locked, self.meta),
            (self.chips, self.folder / "cell.is95"),
        ]
        for source, path in sources:
            status, text, said = run_inside("domain", path, "--json", "-")
            self.assertEqual(status, 0, said)
            wanted = json.loads(text)
            domain = cdma.code_domain(source)
            for name, value in domain.figures.items():
                self.assertEqual(round(value, 6) if isinstance(value, float) else value, wanted[name], name)
            for name in ("db", "total_db", "degrees"):
                found = [round(float(value), 3) for value in getattr(domain, name)]
                self.assertEqual(found, [row[name] for row in wanted["rows"]], name)
            self.assertEqual(list(domain.kinds), [row["kind"] for row in wanted["rows"]])
            self.assertEqual(numpy.flatnonzero(domain.used).tolist(), [0, 32])
            self.assertEqual(domain.frames.shape, numpy.shape(wanted["frames"]))

    def test_wrong_parameters(self) -> None:
        calls: list[tuple[str, Callable[[], object]]] = [
            ("type", lambda: cdma.record(self.chips, type="cu7")),
            ("rate", lambda: cdma.record(self.chips, rate=0)),
            ("clock_ppm", lambda: cdma.record(self.chips, clock_ppm=1e9)),
            ("ec_io", lambda: cdma.record(self.chips, ec_io=3)),
            ("paths", lambda: cdma.record(self.chips, paths=[(0, 0, 0, 0, 0)])),
            ("paths", lambda: cdma.record(self.chips, paths=[0])),  # type: ignore[list-item]
            ("type", lambda: cdma.lock(self.recording, type="cu8")),
            ("rate", lambda: cdma.lock(numpy.zeros(9, complex))),
            ("recording", lambda: cdma.lock(numpy.zeros(9), rate=1e7)),
            ("type", lambda: cdma.lock(self.folder / "cell.is95")),
            ("conjugate", lambda: cdma.lock(self.meta, conjugate="perhaps")),
            ("bits", lambda: cdma.lock(self.meta, bits=9)),
            ("fingers", lambda: cdma.lock(self.meta, fingers=4)),
            ("checks", lambda: cdma.lock(self.meta, checks="plain")),
            ("recording", lambda: cdma.lock("-", type="cu8", rate=2e6)),
            ("frequency", lambda: cdma.lock(self.meta, frequency=1e9)),
            ("scale", lambda: cdma.import_capture(self.recording, scale="best")),
            ("offset", lambda: cdma.import_capture(self.recording, offset=-1)),
            ("bits", lambda: cdma.import_capture(self.recording, bits=9)),
            ("frequency", lambda: cdma.code_domain(self.chips, frequency=1e9)),
            ("channel", lambda: cdma.code_domain(self.locked, channel=800)),
            ("band", lambda: cdma.code_domain(self.locked, channel=1, band=900)),
        ]
        for name, call in calls:
            with self.subTest(name), self.assertRaises(cdma.ParameterError) as caught:
                call()
            self.assertEqual(caught.exception.parameter, name)

    def test_no_pilot(self) -> None:
        noise = numpy.random.default_rng(1).standard_normal((100_000, 2)).view(complex)[:, 0]
        with self.assertRaisesRegex(cdma.Error, "no pilot stands out"):
            cdma.lock(noise, rate=1_228_800 * 2, search=1_000, conjugate="no")
        with self.assertRaisesRegex(cdma.Error, "No such file"):
            cdma.lock(self.folder / "none.sigmf-meta")
        with self.assertRaisesRegex(cdma.Error, "^chips.is95: 64 chips are too few"):
            cdma.code_domain(self.chips[:64])
        with self.assertRaisesRegex(cdma.Error, "^cell2.is95: not a cell|^cell2.is95: no samples"):
            cdma.record([self.chips, self.chips[:0]])

    def test_nothing_is_printed(self) -> None:
        """Neither on standard output nor on standard error, of the whole way from a cell to its code domain."""
        code = (
            "import cdma\ncdma.use_model()\ncell = cdma.Cell(samples=307200)\ncell.add_sync()\n"
            "lock = cdma.lock(cdma.record(cdma.make(cell), ec_io=-6))\ncdma.code_domain(lock)\n"
            "list(cdma.follow(lock.chips))\n"
        )
        words = [PYTHON, "-B", "-X", "dev", "-W", "ignore::DeprecationWarning", "-c", code]
        ran = subprocess.run(words, cwd=ROOT, capture_output=True, text=True, timeout=120)
        self.assertEqual((ran.returncode, ran.stdout, ran.stderr), (0, "", ""))


class Frames(unittest.TestCase):
    """Frames step by step, and margins, are those of the commands."""

    seconds = 15

    @classmethod
    def setUpClass(cls) -> None:
        choose()
        cls.folder = Path(temporary_folder(cls.addClassCleanup))
        text = Path(EXAMPLES, "call.script").read_text("ascii").replace("samples=3686400", "samples=860160")
        cls.cell = cdma.Cell.from_script(text)
        cls.chips = cdma.make(cls.cell)
        cls.path = cls.folder / "call.is95"
        cls.chips.save(cls.path)
        (cls.folder / "call.script").write_text(text)

    folder: Path
    cell: cdma.Cell
    chips: cdma.Chips
    path: Path

    def test_explain(self) -> None:
        cases: list[tuple[list[object], dict[str, Any]]] = [
            (["--sync", "--frame", 2], {"channel": "sync", "frame": 2}),
            (["--paging", 1], {"channel": "paging"}),
            (
                ["--traffic", "00c0ffee", 12, "--offset", 2, "--frame", 1],
                {"channel": "traffic", "esn": 0xC0FFEE, "row": 12, "offset": 2, "frame": 1},
            ),
        ]
        for words, parameters in cases:
            with self.subTest(words):
                status, text, said = run_inside("explain", self.path, *words)
                self.assertEqual(status, 0, said)
                self.assertEqual(str(cdma.explain(self.path, **parameters)) + "\n", text.decode())
                self.assertEqual(cdma.explain(self.chips, **parameters).text + "\n", text.decode())

    def test_bits_of_an_explained_frame(self) -> None:
        """The script's second frame is of 9,600 bits per second: its bits come first in the codeword."""
        frame = self.cell.script().split("\nframe ")[2].split(" ")
        wanted = cdma.bits(frame[1])
        steps = cdma.explain(self.chips, channel="traffic", esn="00c0ffee", row=12, offset=2, frame=1)
        sent = [steps.bits[:172].tolist() == cdma.bits(one.split(" ")[1]).tolist()
                for one in self.cell.script().split("\nframe ")[1:] if one.startswith("9600 ")]  # fmt: skip
        self.assertEqual((len(wanted), sent.count(True), len(steps.bits)), (172, 1, 192))
        self.assertEqual(len(steps.soft_values), 384)

    def test_no_such_frame(self) -> None:
        with self.assertRaisesRegex(cdma.Error, "frame 99"):
            cdma.explain(self.chips, channel="sync", frame=99)
        wrong: list[tuple[str, dict[str, Any]]] = [
            ("channel", {"channel": "access"}),
            ("row", {"channel": "traffic", "esn": 1}),
            ("row", {"channel": "traffic", "esn": 1, "row": 32}),
            ("esn", {"channel": "traffic", "esn": 1 << 32, "row": 3}),
            ("fingers", {"channel": "sync", "fingers": 0}),
        ]
        for name, values in wrong:
            with self.subTest(name), self.assertRaises(cdma.ParameterError) as caught:
                cdma.explain(self.chips, **values)
            self.assertEqual(caught.exception.parameter, name)

    def test_margin(self) -> None:
        status, text, said = run_inside("margin", "--json", self.folder / "call.script")
        self.assertEqual(status, 0, said)
        wanted = [json.loads(line) for line in text.decode().splitlines()]
        self.assertEqual([vars(row) for row in cdma.margin(self.cell)], wanted)
        (_, sync) = cdma.margin(self.cell, rows=[32])
        self.assertEqual(sync.name, "sync")
        with self.assertRaisesRegex(cdma.Error, "no channel is sent on row 7"):
            cdma.margin(self.cell, rows=[7])

    def test_margin_of_a_file(self) -> None:
        """Which frames of chips are covered, from chips and from their file."""
        status, text, said = run_inside("margin", "--json", "--file", self.path, self.folder / "call.script")
        self.assertEqual(status, 0, said)
        wanted = [json.loads(line) for line in text.decode().splitlines()]
        files: tuple[Path | cdma.Chips, ...] = (self.path, self.chips)
        for file in files:
            found = cdma.margin(self.cell, file=file)
            self.assertEqual([vars(row) for row in found], wanted)
            self.assertTrue(all(row.frames == row.covered > 0 for row in found))
        with self.assertRaisesRegex(cdma.Error, "100,000 samples, but the script's cell sends 860,160"):
            cdma.margin(self.cell, file=self.chips[:100_000])


class Plots(unittest.TestCase):
    """Each plot draws on the axes that it gets, and returns them."""

    seconds = 10

    def test_axes(self) -> None:
        needs("matplotlib")
        os.environ.setdefault("MPLBACKEND", "Agg")
        from matplotlib.figure import Figure

        choose()
        cell = cdma.Cell(pn=3, samples=400_000)
        cell.add_sync(gain=50)
        chips = cdma.make(cell)
        plots: list[tuple[Callable[..., Any], Any]] = [
            (cdma.plot.correlation, chips),
            (cdma.plot.code_domain, cdma.code_domain(chips)),
            (cdma.plot.run, cdma.follow(chips)),
            (cdma.plot.constellation, chips),
        ]
        for call, source in plots:
            with self.subTest(call.__name__):
                axes = Figure().subplots()
                self.assertIs(call(source, axes=axes), axes)
                self.assertTrue(axes.has_data())
        points = axes.lines[0].get_xdata()
        self.assertLess(float(numpy.abs(numpy.abs(points) - 0.5).max()), 0.01)  # gain 50 against the pilot's 100


if __name__ == "__main__":
    unittest.main()
