"""Runs a receiver on recordings of a radio, and reports the differences from what was sent.

For each case in recordings/, `MAKER make` makes the cells from its scripts, tools/channel makes a recording of them,
and tools/import_capture --lock makes a sample file of that. PROGRAM is then run with the case's arguments and the
sample file on standard input. Only the lines of messages and frames count, in their order and without their places,
because a radio's first sample lies anywhere. MAKER is PROGRAM unless --maker names another.

The expected lines are those of the cell itself, without a radio, as decoded by an independent program that was written
from docs/LINK.md and docs/FORMATS.md. --clean leaves the radio out, and so tries only these.

    conformance/run_recordings crates/cdma_replay/out/cdma_replay
    conformance/run_recordings --maker cdma_replay ./receiver
    conformance/run_recordings --jobs 4 ./receiver
    conformance/run_recordings --json ./receiver > results.json
    conformance/run_recordings --list

A case fails if the receiver doesn't end within --minutes, is ended by a signal or writes without end (more than 64
MiB). The other cases continue.

Exit status: 0 nothing differs, 1 something does, 2 wrong arguments or a case that can't be read.
"""

import argparse
import difflib
import functools
import os
import re
import subprocess
import tempfile
import time

from cdma_tools.arguments import Parser
from cdma_tools.commands import process_arguments
from cdma_tools.conformance.cases import not_text
from cdma_tools.conformance.options import add_options, checked, names_in
from cdma_tools.errors import Refused, printable
from cdma_tools.places import CONFORMANCE
from cdma_tools.receiver_run import ended_text, run_receiver
from cdma_tools.results import Result, Results, Verdict, add_result_options
from cdma_tools.workers import mapped_in_turn

CASES = os.path.join(CONFORMANCE, "recordings")
TOLD = ("sync ", "paging ", "traffic ", "frame ", "frame2 ")
MOST_SHOWN = 4


class RecordedCase:
    """A case: what it is for, the receiver's arguments, those of the channel and of the lock, scripts, and lines."""

    def __init__(self, name: str) -> None:
        self.name = name
        self.fields: dict[str, str] = {}
        self.scripts: list[list[str]] = []
        self.lines: list[str] = []
        block: list[str] | None = None
        with open(os.path.join(CASES, name + ".case"), encoding="ascii") as file:
            for line in file.read().splitlines():
                block = self.take(line, block)
        missing = {"purpose", "words", "cells", "channel", "lock"} - set(self.fields)
        if missing or not self.scripts or not self.lines:
            raise Refused(f"the case {name} has no {', '.join(sorted(missing)) or 'script or lines'}")
        if len(self.fields["cells"].split()) != len(self.scripts):
            raise Refused(f"the case {name} has {len(self.scripts)} scripts, but levels of another number of cells")

    def take(self, line: str, block: list[str] | None) -> list[str] | None:
        """Takes a line, and returns the block to which the next one may belong."""
        if line.startswith("  ") and block is not None:
            block.append(line[2:])
            return block
        if line == "script:":
            self.scripts.append([])
            return self.scripts[-1]
        if line == "lines:":
            return self.lines
        key, separator, value = line.partition(":")
        if not separator:
            raise Refused(f"the case {self.name} has an invalid line: {line[:60]!r}")
        self.fields[key] = value.strip()
        return None


def made(words: list[str], minutes: int, data: bytes = b"") -> bytes:
    """Returns the output of a program that must succeed."""
    try:
        ran = subprocess.run(words, input=data, capture_output=True, timeout=60 * minutes)
    except OSError as why:
        raise Refused(f"{words[0]}: {why.strerror}") from None
    except subprocess.TimeoutExpired:
        raise Refused(f"{' '.join(words[:3])} didn't end within {minutes} minutes") from None
    if ran.returncode:
        told = ran.stderr.decode(errors="replace").strip()[:300]
        raise Refused(f"{' '.join(words[:3])} ended with {ran.returncode}: {told}")
    return ran.stdout


def cells_of(case: RecordedCase, maker: str, folder: str, minutes: int) -> list[str]:
    """The sample files of a case's cells."""
    paths = []
    for number, script in enumerate(case.scripts):
        paths.append(os.path.join(folder, f"{case.name}.{number}.is95"))
        text = "".join(line + "\n" for line in script).encode("ascii")
        with open(paths[-1], "wb") as file:
            file.write(made([maker, "make"], minutes, text))
    return paths


def samples_of(case: RecordedCase, maker: str, folder: str, is_clean: bool, minutes: int) -> str:
    """The sample file that the receiver gets: of the recording, or the first cell's own."""
    cells = cells_of(case, maker, folder, minutes)
    if is_clean:
        return cells[0]
    recording, path = (os.path.join(folder, case.name + end) for end in (".sigmf-meta", ".is95"))
    levels = [f"{cell}:{level}" for cell, level in zip(cells, case.fields["cells"].split())]
    made([*process_arguments("channel"), *case.fields["channel"].split(), *levels, recording], minutes)
    made([*process_arguments("import_capture"), "--lock", *case.fields["lock"].split(), recording, path], minutes)
    return path


def lines_of(text: bytes) -> list[str]:
    """The messages and frames of a receiver's text, each without its place."""
    lines = text.decode("ascii", errors="backslashreplace").split("\n")
    return [re.sub(r" at=\d+", "", line, count=1) for line in lines if line.startswith(TOLD)]


def differences(wanted: list[str], heard: list[str]) -> list[str]:
    """Returns the differences in lines, empty if there is none."""
    changed = [
        line
        for line in difflib.unified_diff(wanted, heard, "wanted", "heard", lineterm="", n=0)
        if not line.startswith(("---", "+++", "@@"))
    ]
    said = [f"{'wanted' if line[0] == '-' else 'heard'}: {line[1:301]}" for line in changed[:MOST_SHOWN]]
    return said + ([f".. and {len(changed) - MOST_SHOWN} more"] if len(changed) > MOST_SHOWN else [])


def tried(case: RecordedCase, options: argparse.Namespace, folder: str) -> list[str]:
    """Returns the differences in one case."""
    path = samples_of(case, options.maker or options.program, folder, options.clean, options.minutes)
    with open(path, "rb") as file:
        if not options.keep:
            for name in os.listdir(folder):
                os.unlink(os.path.join(folder, name))
        words = [options.program, *case.fields["words"].split()]
        ran = run_receiver(words, file, 60 * options.minutes, is_group=True)
    if ran.fault:
        return [ran.fault]
    if ran.status:
        return [f"{ended_text(ran.status)}, wanted 0"]
    return not_text(ran.wrote) + differences(case.lines, lines_of(ran.wrote))


def parser() -> Parser:
    """The command line."""
    words = Parser("conformance_recordings", __doc__)
    add_options(words, "cells", "all files")
    words.add_argument(
        "--clean", action="store_true", help="leave the radio out: give the receiver the cell's own samples"
    )
    add_result_options(words)
    return words


def result_of(options: argparse.Namespace, name: str) -> tuple[Result, str]:
    """Returns the result of a case, and its report."""
    began, case = time.monotonic(), RecordedCase(name)
    with tempfile.TemporaryDirectory(prefix="recordings-") as folder:
        found = tried(case, options, options.keep or folder)
    purpose = case.fields["purpose"]
    head = f"{case.name}: {purpose}: {case.fields['words']}\n" if found else ""
    text = head + "".join(f"    {printable(line)}\n" for line in found)
    return Result(case.name, purpose, time.monotonic() - began, tuple(found)), text


def run_all(names: list[str], options: argparse.Namespace) -> int:
    """Tries the cases, writes the differences, and returns the number of cases that differ."""
    results = Results("recordings", options, len(names))
    results.take_all(mapped_in_turn(functools.partial(result_of, options), names, options.jobs), options.exitfirst)
    rest = len(names) - len(results.results)
    more = f"; {rest} were not tried" if rest else ""
    return results.end(f"{len(results.results)} recordings, {results.count(Verdict.FAILED)} differ{more}\n")


def main(arguments: list[str] | None = None) -> int:
    """Runs the tool, and returns its exit status."""
    options, names = checked(parser(), arguments, names_in(CASES))
    try:
        if not options.list:
            return 1 if run_all(names, options) else 0
        for name in names:
            case = RecordedCase(name)
            print(f"{name}: {case.fields['purpose']}\n    {case.fields['channel']}")
    except ValueError as why:
        raise Refused(str(why)) from None
    return 0
