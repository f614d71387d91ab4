"""The library `cdma`: its examples, the same results as the commands', its errors, and that it leaves no process."""

import ast
import contextlib
import copy
import dataclasses
import doctest
import gc
import importlib
import importlib.util
import os
import pickle
import pkgutil
import signal
import struct
import subprocess
import tempfile
import threading
import time
import tracemalloc
import unittest
import unittest.mock
from collections.abc import Callable, Iterator
from pathlib import Path
from typing import Any

from tools.tests.helping import EXAMPLES, PROGRAM, PYTHON, ROOT, needs, sample_file, temporary_folder

needs("numpy", "scipy")

import numpy  # noqa: E402

import cdma  # noqa: E402
import cdma.programs  # noqa: E402
from cdma.events import event_of  # noqa: E402

HEAD = 400_000  # samples in which the first sync message ends
# A program that stands for cdma_replay: it notes its process, writes a line, and then waits to be ended.
WAITS = """#!/bin/sh
echo $$ > {note}
echo pilot phase=64 energy=1
exec sleep 600
"""


def command(*words: str, data: bytes = b"") -> tuple[int, bytes, str]:
    """Returns the status and both outputs of the command line that the library stands for, program or model."""
    program = [PROGRAM] if PROGRAM else [PYTHON, "-B", "-m", "model"]
    ran = subprocess.run([*program, *words], input=data, capture_output=True, cwd=ROOT, timeout=300)
    return ran.returncode, ran.stdout, ran.stderr.decode()


def choose() -> None:
    """Chooses the built program if the environment names it, otherwise the model."""
    cdma.use_program(PROGRAM) if PROGRAM else cdma.use_model()


class Chosen(unittest.TestCase):
    """Tests that run the program, or the model if there is none."""

    def setUp(self) -> None:
        choose()
        self.folder = Path(temporary_folder(self.addCleanup))


class Examples(unittest.TestCase):
    """The examples of all docstrings."""

    seconds = 15

    def test_examples(self) -> None:
        count = 0
        for module in pkgutil.iter_modules(cdma.__path__):
            if module.name == "pytest_plugin" and importlib.util.find_spec("pytest") is None:
                continue
            with tempfile.TemporaryDirectory() as folder, contextlib.chdir(folder):
                names = {"cdma": cdma, "examples": Path(EXAMPLES), "folder": Path(folder), "numpy": numpy}
                for test in doctest.DocTestFinder().find(importlib.import_module(f"cdma.{module.name}"), globs=names):
                    choose()
                    told: list[str] = []
                    result = doctest.DocTestRunner(optionflags=doctest.ELLIPSIS).run(test, out=told.append)
                    self.assertEqual(result.failed, 0, "".join(told))
                    count += result.attempted
        self.assertGreater(count, 20)

    def test_each_public_function_has_an_example(self) -> None:
        for name in cdma.__all__:
            part = getattr(cdma, name)
            if callable(part) and not isinstance(part, type) and getattr(part, "__module__", "").startswith("cdma."):
                self.assertIn(">>> ", part.__doc__ or "", name)


class Cells(Chosen):
    """Cells, channel by channel and from scripts."""

    def test_scripts_come_back(self) -> None:
        """Each example's script is that of the cell which is read from it."""
        for name in sorted(os.listdir(EXAMPLES)):
            if name.endswith(".script"):
                cell = cdma.read_script(Path(EXAMPLES, name))
                text = Path(EXAMPLES, name).read_text("ascii")
                self.assertEqual(cell.script(), text, name)
                self.assertEqual(cell, cdma.Cell.from_script(text))
                cell.save(self.folder / name)
                self.assertEqual((self.folder / name).read_text("ascii"), text)

    def test_a_cell_in_any_order(self) -> None:
        """The lines of docs/FORMATS.md come in its order, whatever the order of additions."""
        cell = cdma.Cell(pn=3, time=7, lc="00000000001", checks=3, re=-2, im=1, start=5, samples=64, gain=9)
        cell.add_sync(freq=7, rest=[1, 0] * 4)
        cell.add_traffic(63, esn=0xFFFFFFFF, offset=15, gain=2, frames=[(1800, [1] * 22, [0, 1] * 8)])
        cell.add_paging(7, gain=1, pages=["10:ffc0", ("next", [1] * 10)])
        self.assertEqual(
            cell.script(),
            "cell pn=3 time=7 lc=00000000001 checks=3\nlink re=-2 im=1 start=5 samples=64\npilot gain=9\n"
            "sync gain=30 prev=3 min=1 sid=1 nid=2 lp=13 ltm=0 daylt=0 prat=0 freq=7 rest=8:aa\n"
            "paging channel=7 gain=1\npage half 10:ffc0\npage next 10:ffc0\n"
            "traffic row=63 esn=ffffffff offset=15 gain=2\nframe2 1800 22:fffffc 0101010101010101\n",
        )
        self.assertEqual((cell.pn, cell.samples, cell.gains), (3, 64, {0: 9, 32: 30, 7: 1, 63: 2}))

    def test_wrong_parameters_are_named(self) -> None:
        cell = cdma.Cell()
        cell.add_sync()
        before = cell.script()
        for name, call in {
            "pn": lambda: cdma.Cell(pn=512),
            "time": lambda: cdma.Cell(time=-1),
            "lc": lambda: cdma.Cell(lc=0),
            "samples": lambda: cdma.Cell(samples=1.5),  # type: ignore[arg-type]
            "channel": lambda: cell.add_paging(8, pages=["10:ffc0"]),
            "pages": lambda: cell.add_paging(1, pages=["11:ffe0"]),
            "esn": lambda: cell.add_traffic(8, esn="0", frames=[(1200, "16:0000")]),
            "frames": lambda: cell.add_traffic(8, esn=0, frames=[(1200, "17:000000")]),
            "bits": lambda: cdma.make(cell, bits=12),
        }.items():
            with self.subTest(name), self.assertRaises(cdma.ParameterError) as caught:
                call()
            self.assertEqual(caught.exception.parameter, name)
            self.assertIsInstance(caught.exception, ValueError)
        self.assertEqual(cell.script(), before)

    def test_channels_that_do_not_go_together(self) -> None:
        """The faults of docs/FORMATS.md, "Faults of a script", with their places."""
        cell = cdma.Cell(samples=64)
        with self.assertRaises(cdma.ScriptError) as caught:
            cell.add_paging(1, pages=["10:ffc0"])
        self.assertEqual((caught.exception.kind, caught.exception.place), ("line", (4, 1)))
        cell.add_sync()
        cell.add_paging(1, pages=["10:ffc0"])
        for kind, verdict, call in (
            ("walsh", "walsh 1", lambda: cell.add_traffic(1, esn=0, frames=[(1200, "16:0000")])),
            ("gain", "gain 8", lambda: cell.add_traffic(8, esn=0, gain=0, frames=[(1200, "16:0000")])),
            ("too loud", "too loud 65190", lambda: cell.add_traffic(8, esn=0, gain=65_000, frames=[(1200, "16:0000")])),
            ("line", "line 8", lambda: cell.add_traffic(8, esn=0, frames=[])),
        ):
            with self.subTest(verdict), self.assertRaises(cdma.ScriptError) as caught:
                call()
            self.assertEqual((caught.exception.kind, caught.exception.verdict), (kind, verdict))
        self.assertEqual(cell.gains, {0: 100, 32: 30, 1: 60})

    def test_samples_of_8_bits(self) -> None:
        with self.assertRaises(cdma.ScriptError) as caught:
            cdma.make(cdma.Cell(gain=128), bits=8)
        self.assertEqual(caught.exception.verdict, "too loud 128")
        self.assertEqual(cdma.make(cdma.Cell(gain=127, samples=64), bits=8).dtype, numpy.int8)
        with self.assertRaises(cdma.ScriptError) as caught:
            cdma.make(cdma.Cell(samples=33_554_433))
        self.assertEqual(caught.exception.verdict, "too long 33554433")

    def test_a_script_that_names_no_cell(self) -> None:
        path = self.folder / "bad.script"
        path.write_bytes(b"cell pn=511 time=1000 lc=20000000000 checks=0\nlink re=0 im=0 start=0 samples=64\n")
        with self.assertRaises(cdma.ScriptError) as caught:
            cdma.read_script(path)
        self.assertEqual((caught.exception.place, caught.exception.verdict), ((2, 9), "line 2"))
        self.assertTrue(str(caught.exception).startswith(f"{path}:2:9: "), caught.exception)
        with self.assertRaisesRegex(cdma.Error, "No such file"):
            cdma.read_script(self.folder / "none")


class Arrays(Chosen):
    """Chips, their files, and bits."""

    def test_files_of_both_versions(self) -> None:
        for version, kind, most in ((1, numpy.int16, 32_767), (2, numpy.int8, 127)):
            samples = [(most, -most - 1), (3, -4), (0, 1)]
            data = sample_file(samples, version, 2)
            path = self.folder / f"{version}.is95"
            path.write_bytes(data)
            chips = cdma.load(path)
            self.assertEqual((chips.dtype, chips.shape, chips.checks), (numpy.dtype(kind), (3, 2), 2))
            self.assertEqual(list(map(tuple, chips.tolist())), samples)
            chips.save(self.folder / "copy.is95")
            self.assertEqual((self.folder / "copy.is95").read_bytes(), data)

    def test_faults_of_files(self) -> None:
        """The kinds and places of docs/FORMATS.md."""
        good = sample_file([(1, 2), (3, 4)])
        for kind, place, data in (
            ("short", 3, good[:3]),
            ("magic", 0, b"X" + good[1:]),
            ("version", 4, good[:4] + b"\0\3" + good[6:]),
            ("flags", 6, good[:6] + b"\0\4" + good[8:]),
            ("count", 8, good[:8] + struct.pack(">Q", 33_554_433) + good[16:]),
            ("short", len(good) - 1, good[:-1]),
            ("extra", len(good), good + b"!"),
        ):
            with self.subTest(kind, place=place):
                path = self.folder / "bad.is95"
                path.write_bytes(data)
                with self.assertRaises(cdma.FileError) as caught:
                    cdma.load(path)
                self.assertEqual((caught.exception.kind, caught.exception.place), (kind, place))
                with self.assertRaises(cdma.FileError) as caught:
                    cdma.find(path)
                wanted = (kind, place) if kind not in ("short", "extra") or place == 3 else ("too few", 8)
                self.assertEqual((caught.exception.kind, caught.exception.place), wanted)

    def test_arrays_that_are_no_chips(self) -> None:
        arrays: list[tuple[Any, str]] = [
            (numpy.zeros((4, 3), int), "shape"),
            (numpy.zeros(4, int), "shape"),
            (numpy.zeros((4, 2)), "whole numbers"),
            (numpy.full((4, 2), 32_768), "out of range"),
        ]
        for array, why in arrays:
            calls: tuple[Callable[[Any], object], ...] = (cdma.Chips, cdma.find, cdma.follow)
            for call in calls:
                with self.subTest(why), self.assertRaisesRegex(cdma.ParameterError, why):
                    call(array)

    def test_flags_stay_with_chips(self) -> None:
        chips = cdma.Chips(numpy.arange(8).reshape(4, 2), checks=3)
        sent = pickle.loads(pickle.dumps(chips))
        self.assertEqual((getattr(chips[1:], "checks"), sent.checks, chips.copy().checks), (3, 3, 3))
        self.assertEqual(sent.tolist(), chips.tolist())
        self.assertEqual(chips.as_complex().tolist(), [1j, 2 + 3j, 4 + 5j, 6 + 7j])
        big_endian = cdma.Chips(numpy.arange(8, dtype=">i2").reshape(4, 2))
        self.assertEqual((big_endian.tolist(), big_endian.dtype), (chips.tolist(), numpy.dtype(numpy.int16)))

    def test_bits(self) -> None:
        known: list[tuple[str, list[int]]] = [("0:", []), ("1:80", [1]), ("10:ff40", [1] * 8 + [0, 1])]
        for text, values in known:
            self.assertEqual((cdma.bits(text).tolist(), cdma.bit_text(values)), (values, text))
        for wrong in ("1:ff", "3", "2:8"):
            self.assertRaises(cdma.ParameterError, cdma.bits, wrong)
        for array in (numpy.array([2]), numpy.array([[1]]), numpy.array([0.5])):
            self.assertRaises(cdma.ParameterError, cdma.bit_text, array)


class Commands(unittest.TestCase):
    """The library's results are those of the command line."""

    seconds = 20

    @classmethod
    def setUpClass(cls) -> None:
        choose()
        text = Path(EXAMPLES, "call.script").read_text("ascii").replace("samples=3686400", "samples=983040")
        cls.cell = cdma.Cell.from_script(text)
        cls.chips = cdma.make(cls.cell)
        cls.file = command("make", data=text.encode())[1]
        cls.path = Path(temporary_folder(cls.addClassCleanup)) / "call.is95"
        cls.path.write_bytes(cls.file)

    cell: cdma.Cell
    chips: cdma.Chips
    file: bytes
    path: Path

    def lines(self, *words: str) -> list[str]:
        """Returns the lines of a command over the file."""
        return command(*words, data=self.file)[1].decode().splitlines()

    def sources(self) -> list[cdma.Chips | Path]:
        """Returns the same samples twice: chips, and the path of their file."""
        return [self.chips, self.path]

    def test_make(self) -> None:
        copy = self.path.with_name("copy.is95")
        self.chips.save(copy)
        self.assertEqual(copy.read_bytes(), self.file)

    def test_find_and_survey(self) -> None:
        for source in self.sources():
            self.assertEqual([str(cdma.find(source, span=4_096))], self.lines("find", "--span", "4096"))
            found = [str(rank) for rank in cdma.survey(source, base=9, width=3, top=7)]
            self.assertEqual(found, self.lines("survey", "--base", "9", "--width", "3", "--top", "7"))

    def test_follow(self) -> None:
        """Events have exactly the command's lines, from chips and from the file."""
        wanted = self.lines("follow", "--esn", "00c0ffee", "--row", "12", "--offset", "2", "--raw", "9")
        for source in self.sources():
            run = cdma.follow(source, esn=0xC0FFEE, row=12, offset=2, raw=9)
            self.assertEqual([str(event) for event in run], wanted)
            self.assertTrue(run.is_synced)
        self.assertEqual({line.split(" ")[0] for line in wanted}, {event.first for event in run})
        self.assertEqual(len(run.table("frame")), sum(line.startswith("frame ") for line in wanted))
        self.assertEqual(run.counts()["frame"], len(run.table("frame")))
        self.assertEqual(len(run.table("paging")), sum(line.startswith("paging ") for line in wanted))
        with self.assertRaisesRegex(cdma.ParameterError, "^kind: one of frame, paging, paging-channels, "):
            run.table("frames")
        self.assertEqual([str(event) for event in run], wanted)

    def test_no_sync_message(self) -> None:
        run = cdma.follow(self.chips[:4_096])
        self.assertEqual([str(event) for event in run], self.lines("find"))
        self.assertIs(run.is_synced, False)

    def test_a_fault_at_the_end(self) -> None:
        """The events before the fault come, and then the fault with its place."""
        path = self.path.with_name("short.is95")
        path.write_bytes(self.file[:-1])
        run = iter(cdma.follow(path))
        self.assertEqual(str(next(run)), self.lines("find")[0])
        with self.assertRaises(cdma.FileError) as caught:
            list(run)
        self.assertEqual((caught.exception.kind, caught.exception.place), ("short", len(self.file) - 1))

    def test_wrong_options(self) -> None:
        wrong: list[tuple[str, dict[str, Any]]] = [
            ("span", {"span": 63}),
            ("workers", {"workers": 65}),
            ("fingers", {"fingers": 4}),
            ("paging", {"paging": 0}),
            ("esn", {"esn": "xyz", "row": 3}),
            ("row", {"row": 3}),
            ("row", {"row": 32, "esn": 1}),
            ("row", {"row": 1, "esn": 1}),
            ("offset", {"offset": 1}),
            ("frames", {"frames": -1}),
        ]
        for name, options in wrong:
            with self.subTest(name, options=options), self.assertRaises(cdma.ParameterError) as caught:
                cdma.follow(self.chips, **options)
            self.assertEqual(caught.exception.parameter, name)

    @unittest.skipUnless(importlib.util.find_spec("pandas"), "no pandas: install the package python3-pandas")
    def test_tables(self) -> None:
        run = cdma.follow(self.chips, messages=3)
        table = run.to_pandas("sync")
        self.assertEqual(list(table["sid"]), [4139] * len(table))
        self.assertGreater(len(table), 0)
        self.assertIn("<td>4139</td>", run.table("sync")._repr_html_())
        parts: tuple[Any, ...] = (run, self.cell, cdma.survey(self.chips, top=1))
        for part in parts:
            self.assertTrue(part._repr_html_().startswith("<table>"))


class Processes(unittest.TestCase):
    """Nothing is left running, however an iterator ends."""

    def setUp(self) -> None:
        self.threads = threading.active_count()  # of tests that ran before in this process
        folder = temporary_folder(self.addCleanup)
        self.note = Path(folder, "process")
        program = Path(folder, "waits")
        program.write_text(WAITS.format(note=self.note))
        program.chmod(0o755)
        cdma.use_program(program)
        self.addCleanup(choose)
        # More than a pipe holds, so that the thread which feeds the program waits too.
        self.chips = cdma.Chips(numpy.zeros((1 << 20, 2), numpy.int16))

    def begun(self) -> tuple[cdma.Run, Iterator[cdma.Event], int]:
        """Returns a run that has written its first event and waits, an iterator over it, and its process."""
        run = cdma.follow(self.chips)
        events = iter(run)
        self.assertEqual(next(events), cdma.Pilot(64, 1))
        return run, events, int(self.note.read_text())

    def assert_gone(self, process: int) -> None:
        """Checks that a process has ended, and that the threads that fed it end."""
        self.assertRaises(ProcessLookupError, os.kill, process, 0)
        until = time.monotonic() + 10
        while threading.active_count() > self.threads and time.monotonic() < until:
            time.sleep(0.01)
        self.assertLessEqual(threading.active_count(), self.threads)

    def test_dropped(self) -> None:
        run, events, process = self.begun()
        del run, events
        gc.collect()
        self.assert_gone(process)

    def test_closed_in_a_block(self) -> None:
        with cdma.follow(self.chips) as run:
            next(iter(run))
            process = int(self.note.read_text())
        self.assert_gone(process)
        self.assertEqual(list(run), [cdma.Pilot(64, 1)])
        self.assertIsNone(run.is_synced)

    def test_closed_from_another_thread(self) -> None:
        run, events, process = self.begun()
        closing = threading.Timer(0.2, run.close)
        closing.start()
        self.assertEqual(list(events), [])
        closing.join()
        self.assert_gone(process)

    def test_interrupted(self) -> None:
        self.addCleanup(signal.signal, signal.SIGINT, signal.signal(signal.SIGINT, signal.default_int_handler))
        before = [signal.getsignal(number) for number in (signal.SIGINT, signal.SIGTERM, signal.SIGHUP)]
        run, events, process = self.begun()
        main = threading.main_thread().ident
        assert main is not None
        threading.Timer(0.2, signal.pthread_kill, (main, signal.SIGINT)).start()
        self.assertRaises(KeyboardInterrupt, list, events)
        self.assert_gone(process)
        self.assertEqual(list(run), [cdma.Pilot(64, 1)])
        after = [signal.getsignal(number) for number in (signal.SIGINT, signal.SIGTERM, signal.SIGHUP)]
        self.assertEqual(after, before)

    def test_killed(self) -> None:
        run, events, process = self.begun()
        os.kill(process, signal.SIGKILL)
        self.assertRaisesRegex(cdma.Error, "cdma_replay was ended by signal 9", list, events)

    def test_nothing_is_left_when_python_ends(self) -> None:
        code = (
            "import cdma, numpy\n"
            f"cdma.use_program({str(self.note.with_name('waits'))!r})\n"
            "run = cdma.follow(numpy.zeros((1 << 20, 2), numpy.int16))\n"
            "print(next(iter(run)))\n"
        )
        ran = subprocess.run([PYTHON, "-B", "-c", code], cwd=ROOT, capture_output=True, text=True, timeout=60)
        self.assertEqual((ran.stdout, ran.stderr), ("pilot phase=64 energy=1\n", ""))
        self.assert_gone(int(self.note.read_text()))


def many_lines() -> list[str]:
    """Returns as many lines as a busy cell has in some minutes, of each kind of event of a run."""
    kinds = [
        "pilot phase=64 energy=167772160000",
        "sync at={at} prev=3 min=1 sid=1 nid=2 pn=511 lc=102a1d2e508 time=7 lp=13 ltm=0 daylt=0 prat=0 rest=3:00",
        "sync at={at} prev=3 min=1 sid=1 nid=2 pn=511 lc=102a1d2e508 time=7 lp=13 ltm=0 daylt=0 prat=0 freq=7 rest=0:",
        "paging at={at} channels pn=5 seq=3 freqs=1,2 rest=0:",
        "frame at={at} rate=1200 good=1 bits=16:a5a5 commands=0101010101010101",
        "traffic at={at} ack=1 seq=2 req=0 enc=1 neighbors inc=2 pilots=1,2 rest=3:00",
        "sets at={at} time=1007 active=511/8/0,3/4/1 candidate=5,6 report=1",
        "raw at={at} traffic 34:04ff8046c0",
    ]
    return [kind.format(at=at) for at in range(5_000) for kind in kinds]


class Long(unittest.TestCase):
    """A run with many events: a program that stands for cdma_replay writes the lines of a file."""

    lines: list[str]
    program: Path

    @classmethod
    def setUpClass(cls) -> None:
        cls.lines = many_lines()
        folder = Path(temporary_folder(cls.addClassCleanup))
        cls.program, written = folder / "writes", folder / "lines"
        written.write_text("\n".join(cls.lines) + "\n")
        cls.program.write_text(f"#!/bin/sh\nexec cat {written}\n")
        cls.program.chmod(0o755)

    def setUp(self) -> None:
        cdma.use_program(self.program)
        self.addCleanup(choose)

    def run_of(self) -> cdma.Run:
        """Returns a run whose program writes the lines."""
        return cdma.follow(numpy.zeros((64, 2), numpy.int16), span=64)

    def test_again_and_again(self) -> None:
        """Each iteration has all events, also one that begins while another is under way."""
        run = self.run_of()
        first = iter(run)
        begun = [str(next(first)) for _ in range(3)]
        self.assertEqual([str(event) for event in run], self.lines)
        self.assertEqual(begun + [str(event) for event in first], self.lines)
        self.assertEqual(run.counts(), dict.fromkeys(run.counts(), 5_000) | {"sync": 10_000})
        self.assertEqual([str(event) for event in run.table("frame")], self.lines[4::8])

    def test_memory_is_flat(self) -> None:
        """The most memory that Python allocates at once is far below the size of the lines, 3 MB."""
        self.assertGreater(sum(map(len, self.lines)), 2_500_000)
        for _ in self.run_of():
            break  # what is allocated once
        run = self.run_of()
        tracemalloc.start()
        self.addCleanup(tracemalloc.stop)
        count = sum(isinstance(event, cdma.Frame) and event.good for event in run)
        self.assertEqual(count, 5_000)
        self.assertLess(tracemalloc.get_traced_memory()[1], 800_000)

    def test_time(self) -> None:
        """An event whose fields aren't read costs at most 5 µs of processor time, in the best of three runs."""
        spent = []
        for _ in range(3):
            begin = time.process_time()
            count = sum(1 for _ in self.run_of())
            spent.append(time.process_time() - begin)
        self.assertLess(min(spent), 5e-6 * count)

    def other_run(self, script: str) -> cdma.Run:
        """Returns a run of a shell's script instead of the program."""
        other = self.program.with_name("other")
        other.write_text(f"#!/bin/sh\n{script}\n")
        other.chmod(0o755)
        cdma.use_program(other)
        return self.run_of()

    def test_lines_one_by_one(self) -> None:
        """Lines that a program writes one by one are read together, but for the first ones."""
        reads = unittest.mock.Mock(side_effect=os.read)
        with unittest.mock.patch("cdma.running.os.read", reads):
            run = self.other_run("for n in $(seq 400); do echo pilot phase=1 energy=$n; /bin/true; done")
            self.assertEqual([str(event) for event in run], [f"pilot phase=1 energy={n}" for n in range(1, 401)])
        self.assertLess(reads.call_count, 250)

    def test_no_line_of_the_program(self) -> None:
        """A wrong first word ends the run, a wrong field is said of when fields are read."""
        events = iter(self.other_run("echo pilot phase=32768 energy=1; echo spam"))
        pilot = next(events)
        self.assertEqual(str(pilot), "pilot phase=32768 energy=1")
        with self.assertRaisesRegex(cdma.Error, r"phase: 32768 is out of range \(0 to 32767\)"):
            repr(pilot)
        with self.assertRaisesRegex(cdma.Error, "not a line of cdma_replay: 'spam'"):
            next(events)


class Events(unittest.TestCase):
    """Events whose fields are read late are as those that are made of their fields."""

    def test_the_same(self) -> None:
        for line in many_lines()[:8]:
            late = event_of(line, "2026-11-29T18:43:11.123456Z")
            names = [field.name for field in dataclasses.fields(late)]
            made = type(late)(**{name: getattr(event_of(line), name) for name in names})
            with self.subTest(line):
                self.assertEqual(str(made), line)
                for other in (event_of(line), copy.copy(late), pickle.loads(pickle.dumps(late)), made):
                    self.assertEqual((other, hash(other), repr(other)), (late, hash(late), repr(late)))
                    self.assertEqual((str(other), other.kind), (line, late.kind))
                    self.assertEqual(other.to_dict() | {"time_utc": 0}, late.to_dict() | {"time_utc": 0})
                self.assertEqual(list(late.to_dict().items())[-1], ("time_utc", late.time_utc))
                self.assertNotEqual(dataclasses.replace(late, **{names[1]: 1}), late)
                self.assertRaises(dataclasses.FrozenInstanceError, setattr, late, names[1], 1)
                self.assertRaises(AttributeError, getattr, late, "spam")


class Choice(unittest.TestCase):
    """Which program is run, and what is said if there is none."""

    def setUp(self) -> None:
        self.addCleanup(choose)
        cdma.use_program(None)

    def test_no_program(self) -> None:
        with (
            unittest.mock.patch.dict(os.environ, {"PATH": ""}),
            unittest.mock.patch("cdma_tools.program.BUILT", "/no/such/program"),
        ):
            os.environ.pop("CDMA_REPLAY", None)
            with self.assertRaisesRegex(cdma.NoProgramError, r"cdma-replay.*cdma\.use_model\(\)"):
                cdma.find(Path(EXAMPLES, "pilot_in_noise.is95"))
            os.environ["CDMA_REPLAY"] = "/no/such/program"
            with self.assertRaisesRegex(cdma.NoProgramError, r"/no/such/program, which \$CDMA_REPLAY names"):
                cdma.find(Path(EXAMPLES, "pilot_in_noise.is95"))

    def test_the_variable_names_the_model(self) -> None:
        """It runs without a remark."""
        code = f"import cdma\nprint(cdma.find({os.path.join(EXAMPLES, 'pilot_in_noise.is95')!r}).phase)\n"
        environment = {**os.environ, "CDMA_REPLAY": "model"}
        ran = subprocess.run([PYTHON, "-B", "-c", code], cwd=ROOT, env=environment, capture_output=True, text=True)
        self.assertEqual((ran.stdout, ran.stderr), ("12345\n", ""))

    def test_the_model_in_any_folder(self) -> None:
        """A folder `cdma_model` of the user's is not taken for the model."""
        folder = temporary_folder(self.addCleanup)
        os.mkdir(os.path.join(folder, "cdma_model"))
        Path(folder, "cdma_model", "__main__.py").write_text("raise SystemExit('the wrong one')")
        cdma.use_model()
        with contextlib.chdir(folder):
            self.assertEqual(cdma.find(Path(EXAMPLES, "pilot_in_noise.is95")).phase, 12_345)


class Surface(unittest.TestCase):
    """The public names."""

    def test_all_names_are_there_and_sorted(self) -> None:
        self.assertEqual(cdma.__all__, sorted(cdma.__all__))
        for name in cdma.__all__:
            self.assertTrue(hasattr(cdma, name), name)

    def test_the_module_prints_nothing_and_sets_no_handler(self) -> None:
        """No module of the library names `print`, or sets a handler of signals."""
        for module in pkgutil.iter_modules(cdma.__path__):
            tree = ast.parse(Path(cdma.__path__[0], f"{module.name}.py").read_text())
            called = {ast.unparse(node.func) for node in ast.walk(tree) if isinstance(node, ast.Call)}
            self.assertFalse(called & {"print", "signal.signal", "sys.exit"}, module.name)


if __name__ == "__main__":
    unittest.main()
