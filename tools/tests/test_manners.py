"""The manners of a shell, tool by tool: --version, wrong input, negative numbers, outputs, closed pipes, Ctrl-C."""

from __future__ import annotations

import contextlib
import importlib.util
import io
import json
import os
import re
import shutil
import signal
import struct
import subprocess
import threading
import time
import unittest
import unittest.mock
from typing import Any

from tools.tests.helping import EXAMPLES, PYTHON, ROOT, example, is_gone, needs, run_tool, sample_file, temporary_folder

needs("numpy", "scipy", "matplotlib")

import cdma_tools  # noqa: E402
from cdma_model.run import run  # noqa: E402
from cdma_tools import entries  # noqa: E402
from cdma_tools.arguments import joined  # noqa: E402
from cdma_tools.commands import channel  # noqa: E402
from cdma_tools.errors import Refused  # noqa: E402
from cdma_tools.hostile_tools import told_fault  # noqa: E402
from cdma_tools.program import MODEL, NOT_FOUND, NOT_INSTALLED, SLOWER, find_program, remark_on_model  # noqa: E402
from cdma_tools.repository import launchers  # noqa: E402
from cdma_tools.starting import COMMANDS, IN_CHECKOUT, INSTALLED, called, named_by  # noqa: E402
from cdma_tools.writing import write_beside  # noqa: E402
from tools.tests.radio_helping import run_main  # noqa: E402

WAYS = [f"tools/{name}" for name in sorted(os.listdir(os.path.join(ROOT, "tools"))) if name != "tests"]
WAYS += [f"conformance/{name}" for name in ("check", "run", "run_recordings", "write")]
SECONDS = 300  # the longest time of a tool on a busy machine; on an idle one it takes a few
SURVEY = b"survey pn=511 delta=0 energy=1509949440000\nsurvey pn=4 delta=-2 energy=15099494400\n"
# Only a pilot: +-1 on both branches would do, as would any other sample file that isn't zeros.
CELL = sample_file([(100, -100), (-100, 100)] * 400)
ZEROS = sample_file([(0, 0)] * 800)


class Folder(unittest.TestCase):
    """A folder with a cell, zeros, and bytes of a radio."""

    def setUp(self) -> None:
        self.folder = temporary_folder(self.addCleanup)
        self.cell, self.zeros = self.keep("cell.is95", CELL), self.keep("zeros.is95", ZEROS)
        self.raw = self.keep("radio.ci8", bytes(range(256)) * 16)
        self.lines = self.keep("survey.txt", SURVEY)

    def at(self, name: str) -> str:
        """Returns the path of a file in the folder."""
        return os.path.join(self.folder, name)

    def keep(self, name: str, data: bytes, mode: int = 0o644) -> str:
        """Makes a file."""
        with open(self.at(name), "wb") as file:
            file.write(data)
        os.chmod(self.at(name), mode)
        return self.at(name)

    def curve_words(self) -> list[str]:
        """Returns the arguments of a curve of an example."""
        return [*"--from 1 --to 1 --step 1 --frames 1".split(), os.path.join(EXAMPLES, "frames_9600.script")]

    def fake_program(self, fault: str = "") -> str:
        """Returns a stand-in for the program that makes and decodes the frames of that example, with a fault."""
        fake = os.path.join(ROOT, "tools", "tests", "fake_receiver.py")
        script = os.path.join(EXAMPLES, "frames_9600.script")
        return self.program("fake", f"FAKE_SCRIPT='{script}' FAKE_FAULT={fault} exec {PYTHON} -S -B {fake} \"$@\"\n")

    def program(self, name: str, text: str) -> str:
        """Returns a program that is a shell script."""
        return self.keep(name, b"#!/bin/sh\n" + text.encode(), 0o755)

    def meta(self, name: str, **told: object) -> str:
        """Returns a .sigmf-meta of the raw samples, with other fields."""
        fields = {"core:datatype": "ci8", "core:sample_rate": 2_457_600, "core:dataset": "radio.ci8", **told}
        return self.keep(name, json.dumps({"global": fields, "captures": [{}]}).encode())


class Command(unittest.TestCase):
    """What each tool has."""

    seconds = 15

    def test_each_tells_the_version_of_the_project(self) -> None:
        self.assertIn("tools/hostile", WAYS)
        for way in WAYS:
            with self.subTest(way):
                ran = subprocess.run(
                    [os.path.join(ROOT, way), "--version"], capture_output=True, text=True, timeout=SECONDS
                )
                self.assertEqual((ran.returncode, ran.stderr), (0, ""))
                self.assertRegex(ran.stdout, rf"^\S+ {re.escape(cdma_tools.__version__)}\n\Z")

    def test_each_refuses_an_unknown_option_in_one_line(self) -> None:
        for way in WAYS:
            name = named_by(os.path.join(ROOT, way))
            with self.subTest(way):
                status, wrote, said = run_main(name, "--none")
                self.assertEqual((status, wrote, said.count("\n")), (2, "", 1), said)
                # The model's texts are those of cdma_replay, which have no name before them.
                begun = "bad words\n" if name == MODEL else f"{called(name)}: "
                self.assertTrue(said.startswith(begun), said)

    def test_installed_commands_are_entries(self) -> None:
        for module, name in INSTALLED.items():
            self.assertEqual(getattr(entries, name.replace("-", "_")).args, (module,))
        with self.assertRaises(AttributeError):
            entries.cdma_none()

    def test_launchers_and_installed_commands_are_those_of_one_table(self) -> None:
        self.assertEqual(launchers.differences(), [])
        modules = {name[:-3] for name in os.listdir(os.path.join(ROOT, "cdma_tools", "commands")) if name.endswith(".py")}
        self.assertEqual({module for module, _, _ in COMMANDS}, modules - {"__init__"})

    def test_a_changed_launcher_is_found_and_mended(self) -> None:
        top = temporary_folder(self.addCleanup)
        for folder in ("tools", "conformance"):
            os.mkdir(os.path.join(top, folder))
        with open(os.path.join(top, "pyproject.toml"), "w", encoding="utf-8") as file:
            file.write('[project.scripts]\ncdma-old = "cdma_tools.entries:cdma_old"\n\n[other]\n')
        with open(os.path.join(top, "tools", "scan"), "w", encoding="utf-8") as file:
            file.write("#!/bin/sh\n")
        found = launchers.differences(top)
        self.assertEqual(len(found), len(COMMANDS) + 1, found)
        launchers.write(top)
        self.assertEqual(launchers.differences(top), [])
        shutil.copy(launchers.LAUNCHER, os.path.join(top, "tools", "more"))
        self.assertEqual(launchers.differences(top), ["tools/more: not in the table of commands"])

    def test_a_link_to_a_launcher_is_its_command(self) -> None:
        link = os.path.join(temporary_folder(self.addCleanup), "mine")
        os.symlink(os.path.join(ROOT, "conformance", "run"), link)
        ran = subprocess.run([link, "--version"], capture_output=True, text=True, timeout=SECONDS)
        self.assertTrue(ran.stdout.startswith("conformance/run "), ran)

    def test_an_installed_command_has_its_own_name_in_its_help(self) -> None:
        setting = "import sys; sys.argv[0] = '/usr/bin/cdma-scan'; from cdma_tools import entries"
        setting += "; sys.exit(entries.cdma_scan())"
        ran = subprocess.run(
            [PYTHON, "-B", "-c", setting, "--help"], capture_output=True, text=True, cwd=ROOT, timeout=SECONDS
        )
        self.assertEqual(ran.returncode, 0, ran.stderr)
        self.assertIn("usage: cdma-scan ", ran.stdout)
        self.assertIn("\n    cdma-import --lock --shift 1249851 radio.sigmf-meta radio.is95\n", ran.stdout)


class Numbers(unittest.TestCase):
    """Negative numbers after options, and bounds."""

    def test_a_negative_number_is_a_value(self) -> None:
        self.assertEqual(
            joined(["--a", "-1500", "-1e3", "--b", "-.5", "x", "-2"]), ["--a=-1500", "-1e3", "--b=-.5", "x", "-2"]
        )
        self.assertEqual(joined(["--a", "--b", "-1", "--", "--a", "-1"]), ["--a", "--b=-1", "--", "--a", "-1"])
        options = channel.parser().parse_args(
            ["--carrier", "-1.5e3", "--paths", "-3:-2,0:0", "--eb-nt", "-3:9:9600", "a", "b"]
        )
        self.assertEqual((options.carrier, options.paths[0].delay, options.eb_nt), (-1_500.0, -3.0, (-3.0, 9, 9_600)))

    def test_help_tells_bounds(self) -> None:
        for tool, told in (
            ("channel", "(-10,000 to 10,000, default"), ("scan", "(1,000 to 10,000,000,000, default"),
            ("import_capture", "(1 to 10,000,000,000"), ("curve", "(-100 to 100"), ("draw", "(1 to 512"),
            ("explain", "(64 to 32,768"), ("agree", "(1 to 64"),
        ):  # fmt: skip
            with self.subTest(tool):
                words = ["survey", "--help"] if tool == "draw" else ["--help"]
                status, out, _ = run_main(tool, *words)
                self.assertEqual(status, 0)
                self.assertIn(told, re.sub(r"\s+", " ", out))


class WrongInput(Folder):
    """Each is refused in one line, with its own status, and nothing is written."""

    def refused(self, status: int, why: str, tool: str, *words: object) -> None:
        """Asserts that a run ends with this reason in one line, and leaves the folder unchanged."""
        before = {name: os.stat(self.at(name)).st_mtime_ns for name in os.listdir(self.folder)}
        with self.subTest(tool=tool, words=words):
            ended, wrote, said = run_main(tool, *words)
            self.assertEqual((ended, wrote, said.count("\n")), (status, "", 1), said)
            self.assertRegex(said, why)
            self.assertEqual({name: os.stat(self.at(name)).st_mtime_ns for name in os.listdir(self.folder)}, before)

    def test_numbers_out_of_bounds(self) -> None:
        raw, out = ("--type", "ci8", self.raw), self.at("out")
        for tool, why, *words in (
            ("import_capture", "--rate: not a number: '1e400'", "--rate", "1e400", *raw, out),
            ("import_capture", "--rate: not a number: '1e999999999'", "--rate", "1e999999999", *raw, out),
            ("import_capture", "--rate: not a number", "--rate", "9" * 500, *raw, out),
            ("import_capture", "--rate: not a number: '1/0'", "--rate", "1/0", *raw, out),
            ("import_capture", "--shift: not -10,000,000,000 to", "--rate", "2457600", "--shift", "1e30", *raw, out),
            (
                "import_capture",
                "--scale: not 1e-12 to 1,000,000,000,000: '1e300'",
                "--rate",
                "2457600",
                "--scale",
                "1e300",
                *raw,
                out,
            ),
            ("scan", "--step: not 1,000 to", "--rate", "2457600", "--step", "0.001", *raw),
            ("scan", "--search: not above 0", "--rate", "2457600", "--search", "nan", *raw),
            ("channel", "--paths: not -200 to 200: '-9999'", "--paths", "0:-9999", self.cell, out),
            ("channel", "--ec-io: not -100 to 0: '-4000'", "--ec-io", "-4000", self.cell, out),
            ("channel", "--clock: not -10,000 to 10,000: '1e12'", "--clock", "1e12", self.cell, out),
            ("channel", "--clock: not -10,000 to 10,000: '-3e6'", "--clock=-3e6", self.cell, out),
            ("channel", "--clock: not -10,000 to 10,000: '-3e6'", "--clock", "-3e6", self.cell, out),
            ("channel", "--rate: not 1 to", "--rate", "-1", self.cell, out),
            ("curve", "--from: not -100 to 100", *"--to 1 --step 1 --frames 1 --from 1e999999999".split(), self.cell),
            ("curve", "--from: not -100 to 100: 'nan'", *"--to 1 --step 1 --frames 1 --from nan".split(), self.cell),
            (
                "curve",
                "--path: not a path",
                *"--to 1 --step 1 --frames 1 --from 1 --path 7:1e308+1e308j".split(),
                self.cell,
            ),
            ("explain", "not 32, which is the sync channel's", "--traffic", "00c0ffee", "32", self.cell),
            ("explain", "--frame: not a whole number", "--sync", "--frame", "9" * 5_000, self.cell),
            ("make_capture", "--count: not 1 to", "--count", "0", out),
            ("agree", "--jobs: not 1 to 64", "--jobs", "65", "--seed", "1", "--count", "1"),
            ("hostile", "--count: not 1 to", "--count", "0"),
        ):
            self.refused(2, why, tool, *words)

    def test_titles(self) -> None:
        curve = ["curve", *"--from 1 --to 1 --step 1 --frames 1".split(), os.path.join(EXAMPLES, "frames_9600.script")]
        for title in ("$x^$", "$\\nothing$", "a\nb", "x" * 201, "\udcff"):
            self.refused(
                2, "--title: (matplotlib can't read the mathematics|not a line)", "draw", "survey", self.at("a.png"), self.lines, "--title", title
            )
            self.refused(2, "--title: (matplotlib can't read the mathematics|not a line)", *curve, "--title", title)
        for title in ("5 $", "$\\alpha^2$", "a $5 cell"):
            status, _, said = run_main("draw", "survey", self.at("a.png"), self.lines, "--title", title)
            self.assertEqual((status, said), (0, ""), title)

    def test_metadata(self) -> None:
        out = self.at("out")
        wrong: tuple[tuple[str, dict[str, object]], ...] = (
            ("core:datatype is \\[\\]", {"core:datatype": []}),
            ("core:datatype is \\{\\}", {"core:datatype": {}}),
            ("core:sample_rate is '2457600'", {"core:sample_rate": "2457600"}),
            ("core:sample_rate is True", {"core:sample_rate": True}),
            ("core:sample_rate is 1000", {"core:sample_rate": 10**400}),
            ("core:sample_rate is inf", {"core:sample_rate": float("inf")}),
            ("core:dataset is not a file's name: 3", {"core:dataset": 3}),
            ("core:dataset is not a file's name", {"core:dataset": "\ud800"}),
            ("core:dataset is not a file's name", {"core:dataset": "a\0b"}),
            ("'2' channels", {"core:num_channels": "2"}),
        )
        for why, told in wrong:
            path = self.meta("in.sigmf-meta", **told)
            self.refused(1, why, "import_capture", path, out)
            self.refused(1, why, "scan", path)
        for data in (b"[" * 100_000, b'{"global":' * 100_000, b"{", b"\xff", b"[]", b'{"global": {}, "captures": 3}'):
            path = self.keep("in.sigmf-meta", data)
            self.refused(1, "in.sigmf-meta: ", "import_capture", path, out)

    def test_files(self) -> None:
        out, none = self.at("out"), self.at("none")
        wrong: tuple[tuple[Any, ...], ...] = (
            (1, "zeros.is95: not a cell: its samples have no power", "channel", self.zeros, out),
            (1, "zeros.is95: not a cell", "channel", "--ec-io", -9, self.zeros, out),
            (1, "none: No such file", "channel", none, out),
            (1, "none/ideal: No such file", "channel", "--ideal", self.at("none/ideal"), self.cell, self.at("out.raw")),
            (1, "none: No such file", "scan", "--type", "ci8", "--rate", "2457600", none),
            (1, "none: No such file", "draw", "survey", self.at("a.png"), none),
            (1, "none/a.png: No such file", "draw", "survey", self.at("none/a.png"), self.lines),
            (1, "none: No such file", "explain", "--sync", none),
            (1, "none: No such file", "lines", none),
            (1, "none/x: No such file", "make_capture", "--count", "64", self.at("none/x")),
            (1, f"{re.escape(self.folder)}: Is a directory", "make_capture", "--count", "64", self.folder),
            (1, "no program at .*none", "hostile", "--program", none),
            (1, "no program at .*none", "starve", "--program", none),
            (1, "no program at .*none", "bench", "--program", none),
            (1, "no program at .*radio.ci8", "curve", "--program", self.raw, *self.curve_words()),
            (9, "no program at .*none", "report", "--program", none, "--out", out, self.cell),
            (2, "give --type, unless", "report", "--program", "/bin/true", "--rate", "2457600", "--out", out, self.raw),
        )
        for status, why, tool, *words in wrong:
            self.refused(status, why, tool, *words)

    def test_files_without_an_end(self) -> None:
        """No more is read from a device than a file may have."""
        meta, survey = self.at("in.sigmf-meta"), ("draw", "survey", self.at("a.png"))
        os.symlink("/dev/zero", meta)
        curve = ("--program", "/bin/false", "--out", self.at("out"), *self.curve_words())
        long = self.keep("long.csv", b"a" * 200_000)
        for why, *words in (
            ("^curve: /dev/full: more than 16,777,216 bytes$", "curve", "--against", "/dev/full", *curve),
            ("^curve: /dev/zero: more than 1,048,576 bytes$", "curve", "--other", "/dev/zero", *curve),
            ("^curve: .*long.csv: not a CSV file of this tool: ", "curve", "--against", long, *curve),
            ("in.sigmf-meta: more than 67,108,864 bytes$", "scan", meta),
            ("^draw: /dev/zero: more than 268,435,456 bytes$", *survey, "/dev/zero"),
            ("^explain: /dev/zero: bad file: magic at 0$", "explain", "--sync", "/dev/zero"),
        ):
            self.refused(1, f"(?m){why}", *words)

    def test_work_without_an_end(self) -> None:
        wide = ("scan", "--type", "ci8", "--rate", "1e8", self.raw)
        for why, *words in (
            ("more than 100000 centre frequencies", "--all", "--search", "1"),
            ("more than 2,000,000 carriers around 98,771 centre frequencies", "--step", "1000", "--search", "614400"),
            (".*: give --step instead of --all", "--rate", "9e8", "--all", "--search", "9e3", "--conjugate", "try"),
        ):
            self.refused(1, why, *wide, *words)

    def test_the_file_that_is_at_fault_is_named(self) -> None:
        status, _, said = run_main("channel", "--ideal", self.at("none/ideal"), self.cell, self.at("radio.raw"))
        self.assertEqual((status, said), (1, f"channel: {self.at('none/ideal')}: No such file or directory\n"))
        second = self.keep("second.script", example("second_of_sync.script"))
        words = [PYTHON, "-B", "-m", "model", "make"]
        with open(second, "rb") as source:
            made = subprocess.run(words, stdin=source, capture_output=True, cwd=ROOT, timeout=SECONDS)
        cell = self.keep("second.is95", made.stdout)
        status, _, said = run_main("explain", cell, "--sync", "--picture", self.at("none/a.png"))
        self.assertEqual((status, said), (1, f"explain: {self.at('none/a.png')}: No such file or directory\n"))

    def test_a_program_that_writes_nothing(self) -> None:
        status, _, said = run_main("report", "--program", "/bin/true", "--out", self.at("page.html"), self.cell)
        self.assertEqual((status, said), (0, ""))
        with open(self.at("page.html"), encoding="utf-8") as file:
            page = file.read()
        self.assertIn("The program wrote nothing, and ended with status 0: find, survey, follow.", page)
        self.assertNotIn("There was no search for a pilot", page)

    def test_raw_samples_without_a_type(self) -> None:
        program = self.program("bad", "echo bad file: magic at 0 >&2\nexit 3\n")
        status, _, _ = run_main("report", "--program", program, "--out", self.at("page.html"), self.raw)
        with open(self.at("page.html"), encoding="utf-8") as file:
            self.assertEqual((status, "--type and --rate are missing" in file.read()), (3, True))


class TheProgram(Folder):
    """How tools find the program."""

    def test_the_order(self) -> None:
        named = self.program("one", "exit 0\n")
        other = self.program("cdma_replay", "exit 0\n")
        with unittest.mock.patch.dict(os.environ, {"CDMA_REPLAY": other, "PATH": self.folder}):
            self.assertEqual(find_program(named), named)
            self.assertEqual(find_program(None), other)
            del os.environ["CDMA_REPLAY"]
            with unittest.mock.patch("cdma_tools.program.BUILT", named):
                self.assertEqual(find_program(None), named)
            with unittest.mock.patch("cdma_tools.program.BUILT", self.at("none")):
                self.assertEqual(find_program(None), other)
                os.environ["PATH"] = "/none"
                with self.assertRaisesRegex(Refused, re.escape(NOT_FOUND)):
                    find_program(None)
        for word in ("--program", "$CDMA_REPLAY", "built", "path"):
            self.assertIn(word, NOT_FOUND)

    def test_an_installed_command_looks_beside_itself(self) -> None:
        beside = self.program("cdma_replay", "exit 0\n")
        environment = unittest.mock.patch.dict(os.environ, {"CDMA_REPLAY": "", "PATH": "/none"})
        with environment, unittest.mock.patch("sys.argv", [self.at("cdma-listen")]):
            self.assertEqual(find_program(None), beside)
            os.unlink(beside)
            with self.assertRaisesRegex(Refused, re.escape(NOT_INSTALLED)):
                find_program(None)

    def test_the_model_in_its_place(self) -> None:
        """The word model names the model's command, in a checkout and installed, and the tool remarks on it once."""
        for given, variable in ((MODEL, ""), (None, MODEL)):
            remark_on_model.cache_clear()
            said = io.StringIO()
            with unittest.mock.patch.dict(os.environ, {"CDMA_REPLAY": variable}), contextlib.redirect_stderr(said):
                self.assertEqual(find_program(given), os.path.join(ROOT, "tools", "model"))
                find_program(given)
            self.assertEqual(said.getvalue(), f"model: runs instead of cdma_replay, {SLOWER}\n")
        with unittest.mock.patch("sys.argv", [self.at("cdma-listen")]), unittest.mock.patch.dict(
            os.environ, {"PATH": "/none"}
        ):
            with self.assertRaisesRegex(Refused, "no cdma-model, which runs the model"):
                find_program(MODEL)
            beside = self.program("cdma-model", "exit 0\n")
            self.assertEqual(find_program(MODEL), beside)

    def test_the_model_runs_as_the_program(self) -> None:
        """Its command passes on arguments, input, bytes, texts and statuses; only its help and version are ours."""
        model = os.path.join(ROOT, "tools", "model")
        runs: tuple[tuple[list[str], bytes], ...] = (
            (["find"], example("pilot_in_noise.is95")),
            (["find"], b"CDMB"),
            (["make", "--bits", "8"], example("second_of_paging.script")),
            (["follow", "--help"], b""),
            ([], b""),
        )
        for words, data in runs:
            with self.subTest(words, size=len(data)):
                ran = subprocess.run([model, *words], input=data, capture_output=True, timeout=SECONDS)
                wanted = run(words, io.BytesIO(data).read)
                said = f"{wanted.said}\n" if wanted.said else ""
                found = (ran.returncode, ran.stdout, ran.stderr.decode())
                self.assertEqual(found, (wanted.status, wanted.text(), said))
        self.assertEqual(run_main("model", "--version"), (0, f"model {cdma_tools.__version__}\n", ""))
        self.assertIn("--program model", run_main("model", "--help")[1])

    def test_tools_run_the_model(self) -> None:
        """A receiver's test, and a page that the model's lines fill."""
        environment = unittest.mock.patch.dict(os.environ, {"PATH": "/none", "CDMA_REPLAY": ""})
        with environment, unittest.mock.patch("cdma_tools.program.BUILT", self.at("none")):
            remark_on_model.cache_clear()
            status, wrote, said = run_main("conformance", "--program", "model", "--only", "find_*noise*")
            self.assertEqual(status, 0, wrote + said)
            self.assertRegex(wrote, r"[1-9]\d* cases?, 0 differ")
            self.assertIn(SLOWER, said)
            page = self.at("page.html")
            noisy = os.path.join(EXAMPLES, "pilot_in_noise.is95")
            # A pilot without a sync channel: the status is that of `follow`.
            self.assertEqual(run_main("report", "--program", "model", "--out", page, noisy)[0], 1)
        with open(page, encoding="utf-8") as file:
            self.assertIn("21272219170", file.read())

    def test_each_tool_says_the_same(self) -> None:
        environment = {"PATH": "/none", "CDMA_REPLAY": ""}
        script = os.path.join(EXAMPLES, "frames_9600.script")
        with unittest.mock.patch("cdma_tools.program.BUILT", self.at("none")), unittest.mock.patch.dict(
            os.environ, environment
        ):
            runs: tuple[tuple[Any, ...], ...] = (
                ("report", 9, "--out", self.at("page"), self.cell),
                ("curve", 1, *"--from 1 --to 1 --step 1 --frames 1".split(), script),
                ("conformance", 2),
                ("conformance_recordings", 2),
                ("agree", 2, "--seed", "1", "--count", "1"),
                ("hostile", 1),
                ("starve", 1),
                ("bench", 1),
                ("radio_bench", 1),
            )
            for tool, status, *words in runs:
                with self.subTest(tool):
                    ended, _, said = run_main(tool, *words)
                    self.assertEqual(ended, status)
                    self.assertIn(f": {NOT_FOUND}\n", said)


class Outputs(Folder):
    """FIFOs, devices and links are written through; - is standard output; a regular file is complete or unchanged."""

    def drawn(self, place: str) -> subprocess.CompletedProcess[bytes]:
        """Returns a picture that is drawn to a place."""
        words = [PYTHON, "-B", os.path.join(ROOT, "tools", "draw"), "survey", place, self.lines]
        return subprocess.run(words, capture_output=True, timeout=SECONDS)

    def test_a_fifo(self) -> None:
        fifo, got = self.at("fifo.png"), []
        os.mkfifo(fifo)

        def read() -> None:
            with open(fifo, "rb") as file:
                got.append(file.read())

        reader = threading.Thread(target=read)
        reader.start()
        ran = self.drawn(fifo)
        reader.join(SECONDS)
        self.assertEqual((ran.returncode, ran.stderr), (0, b""))
        self.assertEqual((got[0][:8], got[0][-8:]), (b"\x89PNG\r\n\x1a\n", b"IEND\xaeB`\x82"))
        self.assertTrue(os.path.exists(fifo) and not os.path.isfile(fifo))

    def test_a_device(self) -> None:
        runs: tuple[tuple[Any, ...], ...] = (
            ("make_capture", "--count", 64, "/dev/null"),
            ("import_capture", "--type", "ci8", "--rate", "2457600", self.raw, "/dev/null"),
            ("channel", self.cell, "/dev/null"),
            ("report", "--program", "/bin/true", self.cell, "--out", "/dev/null"),
        )
        for tool, *words in runs:
            with self.subTest(tool):
                self.assertEqual(run_main(tool, *words)[0], 0)
                self.assertFalse(os.path.isfile("/dev/null"))

    def test_a_full_device(self) -> None:
        runs: tuple[tuple[Any, ...], ...] = (
            ("make_capture", "--count", 64, "/dev/full"),
            ("channel", self.cell, "/dev/full"),
            ("import_capture", "--type", "ci8", "--rate", "2457600", self.raw, "/dev/full"),
        )
        for tool, *words in runs:
            with self.subTest(tool):
                status, _, said = run_main(tool, *words)
                self.assertEqual(
                    (status, said), (1, f"{IN_CHECKOUT.get(tool, tool)}: /dev/full: No space left on device\n")
                )

    def test_a_link(self) -> None:
        place, link = self.keep("place.png", b"old", 0o640), self.at("link.png")
        os.symlink("place.png", link)
        self.assertEqual(self.drawn(link).returncode, 0)
        self.assertEqual(os.readlink(link), "place.png")
        self.assertEqual(os.stat(place).st_mode & 0o777, 0o640)
        with open(place, "rb") as file:
            self.assertEqual(file.read(4), b"\x89PNG")
        os.unlink(place)
        self.assertEqual(self.drawn(link).returncode, 0)
        self.assertTrue(os.path.isfile(place) and os.path.islink(link))

    def test_standard_output(self) -> None:
        _, wrote, said = run_tool("draw", "survey", "-", self.lines)
        self.assertEqual((wrote[:4], said), (b"\x89PNG", ""))
        status, wrote, _ = run_tool("channel", "--type", "ci8", self.cell, "-")
        self.assertEqual((status, len(wrote)), (0, 2 * 1_531))
        status, wrote, said = run_tool("report", "--program", "/bin/true", self.cell, "--out", "-")
        self.assertEqual((status, wrote[:15], said), (0, b"<!DOCTYPE html>", ""))
        status, wrote, _ = run_tool("import_capture", "--type", "ci8", "--rate", "2457600", self.raw, "-")
        self.assertEqual((status, wrote[:4]), (0, b"IS95"))
        status, wrote, said = run_tool("make_capture", "--count", 64, "-")
        self.assertEqual((status, len(wrote), said[:11]), (0, 16 + 4 * 64, "pilot phase"))
        self.assertEqual(run_main("explain", "--sync", self.cell, "--picture", "-")[0], 2)

    def test_a_fault_leaves_a_plain_file_as_it_was(self) -> None:
        place = self.keep("kept", b"old")
        with self.assertRaisesRegex(OSError, "No space"), write_beside(place) as file:
            file.write(b"new")
            raise OSError(28, "No space left on device")
        with self.assertRaises(KeyboardInterrupt), write_beside(place) as file:
            file.write(b"new")
            raise KeyboardInterrupt
        with open(place, "rb") as kept:
            self.assertEqual(kept.read(), b"old")
        self.assertFalse([name for name in os.listdir(self.folder) if name.startswith(".part-")])


class ClosedPipes(Folder):
    """A reader that has read enough ends a tool quietly."""

    def test_each_that_writes_text(self) -> None:
        log = self.keep("gate.log", b"0 rt: left is kept: \n")
        for way, *words in (
            ("tools/lines", "--table"),
            ("tools/lines", self.lines),
            ("tools/agree", "--seed", "1", "--count", "200", "--print"),
            ("tools/gate_times", log),
            ("tools/draw", "survey", "-", self.lines),
            ("tools/scan", "--help"),
            ("conformance/run", "--list"),
            ("conformance/run_recordings", "--list"),
        ):
            with self.subTest(way):
                reader, writer = os.pipe()
                os.close(reader)
                ran = subprocess.run(
                    [os.path.join(ROOT, way), *words], stdout=writer, stderr=subprocess.PIPE, timeout=SECONDS
                )
                os.close(writer)
                self.assertEqual(
                    (ran.returncode, ran.stderr), (1 if way != "tools/gate_times" else ran.returncode, b"")
                )

    @unittest.skipUnless(importlib.util.find_spec("distributed"), "no distributed: install python3-distributed")
    def test_a_curve_keeps_what_it_counted(self) -> None:
        """Its CSV and its picture are complete although nobody reads its table."""
        words = ["--program", self.fake_program(), "--workers", "1", "--out", self.at("out"), *self.curve_words()]
        reader, writer = os.pipe()
        os.close(reader)
        way = os.path.join(ROOT, "tools", "curve")
        ran = subprocess.run([way, *words], stdout=writer, stderr=subprocess.PIPE, timeout=SECONDS)
        os.close(writer)
        self.assertEqual((ran.returncode, ran.stderr), (1, b""))
        self.assertEqual(sorted(os.listdir(self.at("out"))), ["counts.sqlite", "curve.csv", "curve.png"])

    def test_a_full_disk_behind_standard_output(self) -> None:
        with open("/dev/full", "wb") as full:
            ran = subprocess.run(
                [os.path.join(ROOT, "tools/lines"), "--table"], stdout=full, stderr=subprocess.PIPE, timeout=SECONDS
            )
        self.assertEqual((ran.returncode, ran.stderr), (1, b"lines: standard output: No space left on device\n"))

    def test_closed_standard_streams(self) -> None:
        for close in ("<&-", ">&-", "2>&-", "<&- >&- 2>&-"):
            with self.subTest(close):
                line = f"'{ROOT}/tools/lines' {close}"
                ran = subprocess.run(["sh", "-c", line], input=SURVEY, capture_output=True, timeout=SECONDS)
                self.assertEqual((ran.returncode, ran.stderr), (0, b""))


class Random(unittest.TestCase):
    """Random runs of the tools; `tools/hostile --tools --count 10000` makes more of them, by hand."""

    def test_random_runs(self) -> None:
        status, wrote, said = run_tool("hostile", "--tools", "--count", 100, "--seed", 3)
        self.assertEqual((status, said), (0, ""), wrote.decode())
        self.assertTrue(wrote.endswith(b"100 runs of tools, seed 3, 0 faults\n"))

    def test_a_fault_is_told(self) -> None:
        """A tool that ends with a traceback, a warning, several lines or another status is detected."""
        for status, said, why in (
            (0, "", ""), (1, "scan: none\n", ""), (2, "scan: none\n", ""), (3, "", "no status of the tool"),
            (1, "Traceback (most recent call last):\n", "a traceback or a warning"),
            (0, "x.py:1: RuntimeWarning: overflow\n", "a traceback or a warning"),
            (2, "usage: scan\nscan: error\n", "not one line"), (1, "", "not one line"),
        ):  # fmt: skip
            self.assertEqual(told_fault("scan", status, said), why)
        self.assertEqual(told_fault("report", 9, "report: none\n"), "")


class Interrupts(Folder):
    """Ctrl-C, sent to the group as a terminal does, ends a tool with one line and status 130, and leaves no process.

    So does SIGTERM, sent to the group as `timeout` does.
    """

    parted, seconds = True, 15

    def broken_off(
        self,
        way: str,
        *words: str,
        said: str = "broken off",
        waits: float = 0.0,
        marker: str = "",
        number: signal.Signals = signal.SIGINT,
    ) -> None:
        """Interrupts a run once a file exists, or some seconds after it has begun."""
        command = [os.path.join(ROOT, way), *words]
        child = subprocess.Popen(
            command,
            stdout=subprocess.PIPE,
            stderr=subprocess.PIPE,
            start_new_session=True,
            preexec_fn=hear,
            cwd=self.folder,
        )
        self.addCleanup(end_group, child)
        until = time.monotonic() + SECONDS
        while marker and not os.path.exists(marker) and child.poll() is None and time.monotonic() < until:
            time.sleep(0.05)
        self.assertTrue(not marker or os.path.exists(marker), "what it should be broken off in hasn't begun")
        time.sleep(waits)
        os.killpg(child.pid, number)
        _, told = child.communicate(timeout=SECONDS)
        self.assertEqual((child.returncode, told.count(b"\n")), (130, 1), told)
        self.assertIn(said.encode(), told)
        self.assertTrue(is_gone(child.pid), "a process is left")
        self.assertFalse([name for name in os.listdir(self.folder) if name.startswith(".part-")])

    def slow(self, number: int) -> tuple[str, str]:
        """Returns a program that waits once it has made a file, and the path of that file."""
        marker = self.at(f"begun{number}")
        return self.program(f"slow{number}", f"touch '{marker}'\nexec sleep 50\n"), marker

    def test_tools_that_run_the_program(self) -> None:
        for number, (way, *words) in enumerate((
            ("tools/report", self.cell, "--out", self.at("page.html"), "--program", "PROGRAM"),
            ("tools/hostile", "--program", "PROGRAM"),
            ("tools/agree", "--seed", "1", "--count", "8", "--jobs", "2", "PROGRAM"),
            ("tools/curve", *"--program PROGRAM".split(), *self.curve_words()),
            ("conformance/run", "PROGRAM"),
            ("conformance/run", "--jobs", "2", "--only", "file_empty", "--only", "follow_zeros", "PROGRAM"),
        )):  # fmt: skip
            program, marker = self.slow(number)
            with self.subTest(way):
                self.broken_off(way, *(program if word == "PROGRAM" else word for word in words), marker=marker)

    def test_sigterm(self) -> None:
        """For a tool that writes a page, and one whose work is shared by processes."""
        for number, (way, *words) in enumerate((
            ("tools/report", self.cell, "--out", self.at("page.html"), "--program", "PROGRAM"),
            ("tools/agree", "--seed", "1", "--count", "8", "--jobs", "2", "PROGRAM"),
            ("conformance/run", "--jobs", "2", "--only", "file_empty", "--only", "follow_zeros", "PROGRAM"),
        )):  # fmt: skip
            program, marker = self.slow(number)
            with self.subTest(way):
                words = [program if word == "PROGRAM" else word for word in words]
                self.broken_off(way, *words, marker=marker, number=signal.SIGTERM)

    @unittest.skipUnless(importlib.util.find_spec("distributed"), "no distributed: install python3-distributed")
    def test_a_cluster(self) -> None:
        """A curve that two workers count, both of them busy."""
        words = ["--program", self.fake_program("slow"), "--workers", "2", "--out", self.at("out"), *self.curve_words()]
        words += "--frames 100000 --errors 100000".split()  # so that it never ends by itself
        self.broken_off("tools/curve", *words, said="curve: broken off", marker=self.at("out/counts.sqlite"), waits=5)

    def test_a_tool_that_computes(self) -> None:
        noise = self.keep("noise.ci8", struct.pack("b", 3) + os.urandom(8_000_000 - 1))
        self.broken_off("tools/scan", "--type", "ci8", "--rate", "2457600", "--all", noise, waits=3)

    def test_a_tool_that_reads(self) -> None:
        """A tool that waits for more of an input that it has opened."""
        fifo, opened, over = self.at("fifo"), self.at("opened"), threading.Event()
        os.mkfifo(fifo)

        def hold_open() -> None:
            """Makes a file once someone reads the pipe, and keeps the pipe open until the test ends."""
            with open(fifo, "wb"), open(opened, "wb"):
                over.wait(SECONDS)

        self.addCleanup(over.set)
        threading.Thread(target=hold_open, daemon=True).start()
        self.broken_off("tools/lines", fifo, marker=opened, waits=0.2)


def end_group(child: subprocess.Popen[bytes]) -> None:
    """Ends what is left of a run's group, so that a failed test leaves no process that computes."""
    with contextlib.suppress(ProcessLookupError):
        os.killpg(child.pid, signal.SIGKILL)
    child.communicate()


def hear() -> None:
    """Makes a process receive interrupts, even if the tests run under a shell that ignores them."""
    signal.signal(signal.SIGINT, signal.SIG_DFL)


if __name__ == "__main__":
    unittest.main()
