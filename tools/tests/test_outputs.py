"""No tool writes over one of its inputs, and listening changes no file that `listen` did not write."""

from __future__ import annotations

import argparse
import contextlib
import importlib
import json
import os
import re
import stat
import subprocess
import threading
import unittest
import unittest.mock
from collections.abc import Iterator
from dataclasses import dataclass
from typing import Any

from tools.tests.helping import PYTHON, ROOT, needs, run_inside, sample_file, temporary_folder

needs("numpy", "scipy", "matplotlib", "plotly")

from cdma_tools import __version__, writing  # noqa: E402
from cdma_tools.commands import FAILED, FAILED_AS  # noqa: E402
from cdma_tools.errors import Refused  # noqa: E402
from cdma_tools.lines import begins_line  # noqa: E402
from cdma_tools.listening.output import GrowingFile  # noqa: E402
from cdma_tools.overwriting import (  # noqa: E402
    DATA,
    META,
    InputFile,
    OutputFile,
    OutputFolder,
    UpdatedFile,
    refuse_overwriting,
)
from cdma_tools.starting import called  # noqa: E402

COMMANDS = sorted(
    name.removesuffix(".py")
    for name in os.listdir(os.path.join(ROOT, "cdma_tools", "commands"))
    if name.endswith(".py") and name != "__init__.py"
)
# What arguments are called that name files or folders.
PATHS = {"FILE", "FOLDER", "PAGE", "PICTURE", "RECORDING", "FILE_OR_RECORDING", "SCRIPT", "LINES", "LOG", "DIR", "CSV"}
PATHS |= {"PROGRAM", "MAKER", "SOURCE", "PREFIX", "FILE[:DB[:CHIPS]]"}
# Folders that are read, and one that gets whole checkouts' results under names that no input has.
NOT_WRITTEN = {("build", "root"), ("gate_times", "root")}
# Of each tool and each of its outputs: a command line with IN and OUT, where IN is the only input and OUT the output.
RAW = "--type ci8 --rate 2457600"
CURVE = "curve --from 1 --to 1 --step 1 --frames 1"
CASES = {
    ("channel", "recording"): "channel IN OUT",
    ("channel", "ideal"): "channel IN /dev/null --ideal OUT",
    ("conformance", "junit"): "conformance IN --junit OUT",
    ("conformance_recordings", "junit"): "conformance_recordings IN --junit OUT",
    ("curve", "junit"): f"{CURVE} IN --junit OUT",
    ("curve", "out"): f"{CURVE} IN --out FOLDER",
    ("domain", "json"): f"domain {RAW} IN --json OUT",
    ("domain", "junit"): f"domain {RAW} IN --limits --junit OUT",
    ("domain", "plot"): f"domain {RAW} IN --plot OUT",
    ("draw", "picture"): "draw survey OUT IN",
    ("explain", "picture"): "explain --sync IN --picture OUT",
    ("import_capture", "file"): f"import_capture {RAW} IN OUT",
    ("install", "prefix"): "install --program IN FOLDER",
    ("listen", "out"): f"listen {RAW} --program /bin/true IN --out OUT",
    ("listen", "out_dir"): f"listen {RAW} --program /bin/true IN --out-dir FOLDER",
    ("listen", "pcapng"): f"listen {RAW} --program /bin/true IN --pcapng OUT",
    ("package", "folder"): "package --tarball --log IN FOLDER",
    ("report", "out"): f"report {RAW} --program /bin/true IN --out OUT",
}
# Outputs of tools that read no file that they could replace: they have no input, or only a program, and the names of
# what they write in a folder are those of cases.
NO_INPUT = {
    ("agree", "keep"),
    ("conformance", "keep"),
    ("conformance_recordings", "keep"),
    ("house", "write"),
    ("make_capture", "file"),
    ("radio_bench", "keep"),
    ("script", "out"),
}
# And the one output that is meant to be an input too: a metadata file that gets notes.
UPDATED = {("import_capture", "meta"), ("listen", "meta"), ("report", "meta")}
# Names that a folder's files have, by the tool that writes them and its argument.
IN_FOLDERS = {
    ("curve", "out"): "curve.csv",
    ("install", "prefix"): os.path.join("bin", "cdma_replay"),
    ("listen", "out_dir"): "cell1-paging1.txt",
    ("package", "folder"): f"cdma-replay_{__version__}_amd64.gate.log",
}
SHOWN = re.compile(r"(?m)^  ((?:pilot phase|(?:sync|paging|frame|traffic|sets|raw) at)=.+)$")
FRAME = b"frame at=%d rate=9600 good=1 bits=0: commands=0000000000000011\n"
CASES_FOLDER = os.path.join(ROOT, "conformance", "cases")
CONTENTS = {"no line feed": b"my notes", "text": b"one\ntwo\n", "binary": bytes(range(256)) * 64, "empty": b""}


def actions_of(parser: argparse.ArgumentParser) -> Iterator[argparse.Action]:
    """Yields the arguments of a command line, and those of its commands."""
    for action in parser._actions:
        if isinstance(action, argparse._SubParsersAction):
            for other in action.choices.values():
                yield from actions_of(other)
        else:
            yield action


def arguments() -> Iterator[tuple[str, argparse.Action]]:
    """Yields each argument of each command that has a command line."""
    for name in COMMANDS:
        module = importlib.import_module(f"cdma_tools.commands.{name}")
        if hasattr(module, "parser"):
            for action in actions_of(module.parser()):
                yield name, action


def made_by(action: argparse.Action) -> Any:
    """Returns what an argument makes of the name of a file."""
    with contextlib.suppress(argparse.ArgumentTypeError, ValueError):
        return action.type("x.png") if callable(action.type) else None
    return None


@dataclass(frozen=True)
class State:
    """The contents of a file, and its metadata."""

    data: bytes
    inode: int
    changed: int  # nanoseconds

    @staticmethod
    def of(path: str) -> "State":
        """Returns the state of a file."""
        found = os.stat(path)
        with open(path, "rb") as file:
            return State(file.read(), found.st_ino, found.st_mtime_ns)


class Folder(unittest.TestCase):
    """A separate folder for each test."""

    def setUp(self) -> None:
        self.folder = temporary_folder(self.addCleanup)

    def at(self, name: str) -> str:
        """Returns the path of a file in the folder."""
        return os.path.join(self.folder, name)

    def keep(self, name: str, data: bytes) -> str:
        """Makes a file that is older than anything that a tool would write."""
        os.makedirs(os.path.dirname(self.at(name)), exist_ok=True)
        with open(self.at(name), "wb") as file:
            file.write(data)
        os.utime(self.at(name), (1_000_000_000, 1_000_000_000))
        return self.at(name)

    def recording(self, name: str, **more: str) -> tuple[str, str]:
        """Makes a SigMF recording; its metadata and its samples."""
        samples = self.keep(f"{name}{DATA}", bytes(range(256)) * 64)
        fields = {"core:datatype": "ci8", "core:sample_rate": 2_457_600, **more}
        return self.keep(f"{name}{META}", json.dumps({"global": fields, "captures": [{}]}).encode()), samples

    @contextlib.contextmanager
    def unchanged(self, *paths: str) -> Iterator[None]:
        """Asserts that files keep their contents and the time of their last change, and that no file is added."""
        before, names = [State.of(path) for path in paths], sorted(os.listdir(self.folder))
        yield
        self.assertEqual([State.of(path) for path in paths], before)
        self.assertEqual(sorted(os.listdir(self.folder)), names)

    def refused(self, tool: str, words: list[str], output: str, why: str = "") -> None:
        """Asserts that a run is refused in one line that names the output and gives the reason."""
        status, wrote, said = run_inside(tool, *words)
        self.assertEqual((status, wrote), (FAILED_AS.get(tool, FAILED), b""), said)
        self.assertEqual(said.count("\n"), 1, said)
        self.assertTrue(said.startswith(f"{called(tool)}: {output}: "), said)
        self.assertIn(why, said)


class EachOutputTest(Folder):
    """Each output of each tool, as its input."""

    seconds = 5

    def test_each_name_of_a_file_says_whether_it_is_read_or_written(self) -> None:
        for tool, action in arguments():
            names = action.metavar if isinstance(action.metavar, str) else ""
            if names in PATHS and (tool, action.dest) not in NOT_WRITTEN:
                with self.subTest(f"{tool} {action.dest}"):
                    self.assertIsInstance(made_by(action), (InputFile, OutputFile, OutputFolder))

    def test_each_output_is_tried_here(self) -> None:
        found = set()
        for tool, action in arguments():
            if isinstance(made_by(action), (OutputFile, OutputFolder)):
                found.add((tool, action.dest))
                self.assertEqual(isinstance(made_by(action), UpdatedFile), (tool, action.dest) in UPDATED)
        self.assertEqual(found, set(CASES) | NO_INPUT | UPDATED)

    def ways(self, output: tuple[str, str], data: bytes) -> Iterator[tuple[str, str, str]]:
        """Yields each way to the same file: its name, the input and the output, a picture by its name."""
        folder = self.at("folder")
        end = IN_FOLDERS.get(output)
        own = self.keep(os.path.join("folder", end) if end else "folder/own.png", data)
        other = os.path.join(folder, "other.png")
        yield "the same name", own, own
        os.link(own, other)
        yield "a hard link", other, own
        os.remove(other)
        os.symlink(own, other)
        yield "a symbolic link to the output", other, own
        if not end:
            yield "a symbolic link to the input", own, other
            yield "another spelling", own, os.path.join(folder, "..", "folder", "own.png")
        os.remove(other)

    def test_an_output_that_is_the_input(self) -> None:
        for (tool, name), line in CASES.items():
            for kind, data in CONTENTS.items():
                for way, given, output in self.ways((tool, name), data):
                    words = line.split()[1:]
                    places = {"IN": given, "OUT": output, "FOLDER": self.at("folder")}
                    with self.subTest(f"{line}, {kind}, {way}"), self.unchanged(given):
                        self.refused(tool, [places.get(word, word) for word in words], output, "would be lost")

    def test_no_output_is_made_where_another_is_refused(self) -> None:
        own = self.keep("cell.is95", sample_file([(1, 2)] * 800))
        with self.unchanged(own):
            self.refused("channel", [own, self.at("new.ci16"), "--ideal", own], own)
            self.refused("channel", [f"{own}:-3:7", own], own)
            self.refused("channel", [own, f"{own}:-3", own], own)
            self.refused("channel", [own, self.at("x"), "--ideal", self.at("x")], self.at("x"), "two outputs")

    def test_standard_input_is_an_input(self) -> None:
        lines = self.keep("lines.png", b"survey pn=511 delta=0 energy=1509949440000\n")
        listen = ["listen", *RAW.split(), "--program", "/bin/true", "-", "--out", lines]
        for words in (["draw", "survey", lines], listen):
            with self.subTest(words[0]), self.unchanged(lines), open(lines, "rb") as given:
                command = [PYTHON, "-B", os.path.join(ROOT, "tools", words[0]), *words[1:]]
                ran = subprocess.run(command, stdin=given, capture_output=True, timeout=300)
                self.assertEqual(ran.returncode, 1)
                self.assertIn(b"this output is standard input", ran.stderr)

    def test_devices_may_be_both(self) -> None:
        for words in (["/dev/null", "/dev/null"], ["/dev/null", "-"]):
            refuse_overwriting([InputFile(words[0]), OutputFile(words[1]), OutputFile(words[1])])

    def test_an_existing_output_is_replaced(self) -> None:
        cell, out = self.keep("cell.is95", sample_file([(100, -100), (-100, 100)] * 400)), self.keep("out.ci16", b"old")
        self.assertEqual(run_inside("channel", cell, out)[0], 0)
        self.assertGreater(len(State.of(out).data), 3)


class RecordingTest(Folder):
    """The two files of a SigMF recording: whichever is named, both are protected."""

    def lines(self, meta: str, samples: str) -> Iterator[tuple[str, list[str], str]]:
        """Yields command lines that name one of the files as the input and one as the output."""
        listen = ["--program", "/bin/true", "--out"]
        for given in (meta, samples):
            own = [] if given == meta else RAW.split()
            for output in (meta, samples):
                yield "listen", [given, *own, *listen, output], output
                yield "domain", [given, *own, "--json", output], output
                yield "report", [given, *own, "--program", "/bin/true", "--out", output], output
                yield "import_capture", [given, *own, output], output
                yield "import_capture", ["--lock", given, *own, output], output

    def test_by_its_name(self) -> None:
        meta, samples = self.recording("own")
        for tool, words, output in self.lines(meta, samples):
            with self.subTest(" ".join([tool, *words])), self.unchanged(meta, samples):
                self.refused(tool, words, output)

    def test_by_the_name_of_its_samples(self) -> None:
        """A data file of another name, given by the metadata, is protected too."""
        meta, samples = self.recording("own", **{"core:dataset": "radio.bin"})
        os.rename(samples, self.at("radio.bin"))
        for tool, words, output in self.lines(meta, self.at("radio.bin")):
            if words[-1] == meta and self.at("radio.bin") in words[:-1]:
                continue  # only the metadata's own name refers to it
            with self.subTest(" ".join([tool, *words])), self.unchanged(meta, self.at("radio.bin")):
                self.refused(tool, words, output)

    def test_metadata_of_the_same_stem_that_name_the_samples(self) -> None:
        meta, samples = self.recording("radio", **{"core:dataset": "radio.bin"})
        os.rename(samples, self.at("radio.bin"))
        self.refused("domain", [*RAW.split(), self.at("radio.bin"), "--json", meta], meta, "the metadata of the input")

    def test_metadata_of_another_recording_are_replaced(self) -> None:
        """A recording made from a cell is next to it, and is made again."""
        cell = self.keep("cell.is95", sample_file([(100, -100), (-100, 100)] * 400))
        for _ in range(2):
            self.assertEqual(run_inside("channel", cell, self.at(f"cell{META}"))[0], 0)

    def test_a_recording_that_is_written_is_two_files(self) -> None:
        meta, samples = self.recording("own")
        os.link(samples, self.at("cell.is95"))
        with self.unchanged(meta, samples):
            self.refused("channel", [self.at("cell.is95"), meta], samples, "is the input")

    def test_a_note_in_the_metadata_is_allowed(self) -> None:
        meta, samples = self.recording("own")
        out = self.at("out.is95")
        refuse_overwriting([InputFile(meta), UpdatedFile(meta), OutputFile(out)])
        with self.assertRaisesRegex(Refused, "two outputs"):
            refuse_overwriting([InputFile(samples), UpdatedFile(out), OutputFile(out)])


class ListeningFileTest(Folder):
    """Files to which `listen` is to append."""

    LINES = b"pilot phase=64 energy=1509949440000\n" + b"".join(FRAME % at for at in range(24_576, 700_000, 24_576))
    OBJECTS = b'{"line":"pilot","phase":64,"energy":1509949440000}\n'

    def listen(self, out: str, *more: str) -> tuple[int, bytes, str]:
        """Listens to an empty stream."""
        return run_inside("listen", *RAW.split(), "--program", "/bin/true", "-", "--out", out, *more)

    def test_files_that_no_listening_wrote(self) -> None:
        notes = {
            **CONTENTS,
            "a word that begins a line": b"pilot study",
            "such words as lines": b"pilot study of May\nframe of mind\n",
            "a note after lines": self.LINES + b"pilot study",
            "a note among lines": self.LINES + b"checked on Monday\n" + self.LINES,
            "a broken field": self.LINES + b"frame at=12 rate=960 ",
            "objects": self.OBJECTS,
            "another tool's lines": b"survey pn=511 delta=0 energy=1509949440000\n",
            "another tool's broken line": b"survey pn=51",
            "zeros": self.LINES + bytes(100),
            "a long rest": self.LINES + b"pilot phase=" + b"1" * 100_000,
        }
        for kind, data in notes.items():
            if not data:
                continue
            out = self.keep("notes.txt", data)
            with self.subTest(kind), self.unchanged(out):
                status, wrote, said = self.listen(out)
                self.assertEqual((status, wrote, said.count("\n")), (1, b"", 1), said)
                why = "(its last line|line [0-9]+) is not one that listen writes as text"
                self.assertRegex(said, f"^listen: {out}: {why}$")
        for kind, data in {"lines": self.LINES, "other objects": b'{"line":"notes"}\n', "a list": b"[1"}.items():
            out = self.keep("notes.jsonl", data)
            with self.subTest(kind), self.unchanged(out):
                self.assertRegex(self.listen(out)[2], "is not one that listen writes as JSON$")

    def test_broken_lines_of_a_listening_are_taken_away(self) -> None:
        last = self.LINES.splitlines(keepends=True)[-1]
        for cut in range(1, len(last)):
            out = self.keep("lines.txt", self.LINES + last[:cut])
            with self.subTest(last[:cut]), contextlib.closing(GrowingFile(out, False)) as file:
                self.assertEqual((file.already.lines, file.size), (self.LINES.count(b"\n"), len(self.LINES)))
            self.assertEqual(State.of(out).data, self.LINES)

    def test_each_kind_of_line_may_be_broken_off(self) -> None:
        """Each beginning of a line of each kind in the conformance cases, and no other text."""
        shown: dict[tuple[str, ...], str] = {}
        for name in sorted(os.listdir(CASES_FOLDER)):
            with open(os.path.join(CASES_FOLDER, name), encoding="ascii") as file:
                for line in re.findall(SHOWN, file.read()):
                    shown[tuple(re.findall(r" ([a-z]+)(?:=| )", line))] = line
        self.assertEqual(len({line.split()[0] for line in shown.values()}), 7)
        for line in shown.values():
            for cut in range(1, len(line) + 1):
                self.assertTrue(begins_line(line[:cut]), line[:cut])
        for text in ("pilot study", "sync ", "paging at=1 dogs", "frame at=1 rates", "notes", "sets at=x time=1 "):
            self.assertEqual(begins_line(text), text == "sync ", text)

    def test_a_file_that_another_listening_holds(self) -> None:
        out = self.keep("lines.txt", self.LINES + b"frame at=71")
        with contextlib.closing(GrowingFile(out, False)), self.unchanged(out):
            self.assertEqual(self.listen(out)[::2], (1, f"listen: {out}: another process is appending to it\n"))


class SpecialOutputTest(Folder):
    """Outputs that are not regular files: they end as a shell expects."""

    seconds = 8

    def setUp(self) -> None:
        super().setUp()
        self.cell = self.keep("cell.is95", sample_file([(100, -100), (-100, 100)] * 400))
        self.raw = self.keep("radio.ci8", bytes(range(256)) * 160)
        self.fifo = self.at("fifo")
        os.mkfifo(self.fifo)

    def read_from_fifo(self, came: list[bytes]) -> threading.Thread:
        """Appends the FIFO's contents to a list once its writer has ended."""

        def read() -> None:
            with open(self.fifo, "rb") as file:
                came.append(file.read())

        reader = threading.Thread(target=read, daemon=True)
        reader.start()
        return reader

    def test_a_fifo_gets_what_a_file_gets(self) -> None:
        raw = [*RAW.split(), self.raw]
        program = self.keep("program", b"#!/bin/sh\ncat > /dev/null\n")
        os.chmod(program, 0o755)
        for tool, words in (
            ("import_capture", raw),
            ("import_capture", ["--checks", "auto", "--program", program, *raw]),
            ("channel", [self.cell]),
            ("make_capture", ["--count", "64"]),
        ):
            with self.subTest(tool):
                came: list[bytes] = []
                reader = self.read_from_fifo(came)
                self.assertEqual(run_inside(tool, *words, self.fifo)[0], 0)
                reader.join(10)
                self.assertEqual(run_inside(tool, *words, self.at("file"))[0], 0)
                self.assertEqual(came, [State.of(self.at("file")).data])
                self.assertTrue(stat.S_ISFIFO(os.stat(self.fifo).st_mode))

    def test_a_fifo_that_nobody_reads(self) -> None:
        with unittest.mock.patch.object(writing, "READER_WAIT", 0.2):
            for tool, words in (
                ("import_capture", [*RAW.split(), self.raw, self.fifo]),
                ("import_capture", [*RAW.split(), "--lock", self.raw, self.fifo]),
                ("channel", [self.cell, self.fifo]),
                ("listen", [*RAW.split(), "--program", "/bin/true", self.raw, "--out", self.fifo]),
            ):
                with self.subTest(" ".join(words)):
                    self.refused(tool, words, self.fifo, "nothing has read this FIFO")

    def test_a_reader_that_goes_away(self) -> None:
        """It ends the tool like a closed pipe: quietly, with status 1."""
        channel = f"{PYTHON} -B {ROOT}/tools/channel {self.cell} {self.fifo}"
        shell = f"{channel} & head -c 10 {self.fifo} | wc -c; wait $!"
        ran = subprocess.run(["bash", "-c", shell], capture_output=True, timeout=120)
        self.assertEqual((ran.returncode, ran.stdout), (0, b"10\n"), ran.stderr)

    def test_a_full_device(self) -> None:
        from cdma_tools.listening.output import open_output

        with contextlib.closing(open_output("/dev/full", False)) as output:
            with self.assertRaisesRegex(Refused, "^/dev/full: No space left on device$"):
                output.write(b"line\n")

    def test_open_files_keep_what_they_have(self) -> None:
        """Output to /dev/stdout is appended, and does not replace the file."""
        out, file = self.at("out"), self.at("file")
        shell = f"(echo first; {PYTHON} -B {ROOT}/tools/channel {self.cell} /dev/stdout) > {out}"
        self.assertEqual(subprocess.run(["bash", "-c", shell], stderr=subprocess.DEVNULL, timeout=120).returncode, 0)
        self.assertEqual(run_inside("channel", self.cell, file)[0], 0)
        self.assertEqual(State.of(out).data, b"first\n" + State.of(file).data)


if __name__ == "__main__":
    unittest.main()
