"""Makes one HTML page that shows a recording, and what a handset receives in it.

FILE_OR_RECORDING is a sample file, or a recording of a radio: a .sigmf-meta, .sigmf or .wav, interleaved samples with
--type and --rate, - for standard input, or the address of a live source, of which --seconds are taken (tools/listen
--help lists the addresses). A recording is imported first, by `tools/import_capture --lock` with the arguments of
--import. Then `find`, `follow` and `survey` run once each. The page is self-contained: it needs no network and no
second file.

For a recording of more than 27 seconds the page is drawn from the lines of tools/listen, and FILE_OR_RECORDING may also
be a file of such lines, as text or as JSON. The page counts all lines, and shows as many as it has room for, evenly
over the recording.

It describes the recording, and shows the correlation around the best phase, the strengths of all pilots, the
constellation of the sync channel, the code domain, and a recording's spectrum and waterfall. A time line has messages,
frames, power control and pilot sets. The fields of system messages are explained, and all lines can be searched. With
--cells N each of up to N cells of a recording has a section, with the stronger ones subtracted, and a map shows which
cells name each other as neighbors. --meta writes notes of SigMF on the samples in which messages and frames were sent,
as `tools/listen --meta` does.

    tools/report radio.is95 --out radio.html
    tools/report radio.sigmf-meta --out radio.html --fingers 3
    tools/report radio.sigmf-meta --out cells.html --cells 3
    tools/report radio.sigmf-meta --out radio.html --meta radio.sigmf-meta
    tools/report --type cu8 --rate 2457600 radio.bin --out radio.html --esn 8badf00d --row 10
    tools/report day.jsonl --out day.html

The options of follow, --span to --raw, are passed to it as they are; find and survey take --span and --workers too. If
no pilot stands out, if there is no sync message, or if the file is broken, the page shows what there is, and says so at
its head.

Exit status: that of follow if a page was written (0 all was read, 1 no sync message, 3 no sample file, and so on); 2
wrong arguments, and no page; 9 no page, because the program or a package is missing, or a file can't be read or
written, or a page of what came before a live source failed; 10 a page that says why the recording couldn't be imported.
"""

import argparse
import json
import os
import shlex
import tempfile
from dataclasses import replace
from typing import Any, NamedTuple, NoReturn

from cdma_tools.analysis.capture_chips import lock_options
from cdma_tools.analysis.measuring import SeenLock, seen_lock
from cdma_tools.arguments import Parser, whole_within
from cdma_tools.commands import FAILED, import_capture, listen
from cdma_tools.errors import Refused, WrongArguments
from cdma_tools.frequencies import FREQUENCY_OPTIONS, frequency_given
from cdma_tools.listening.notes import LABELS, Notes, noted
from cdma_tools.overwriting import META, InputFile, OutputFile, UpdatedFile
from cdma_tools.program import add_program_option, find_program
from cdma_tools.radio.air import CHIP_RATE
from cdma_tools.radio.search_policy import SEARCH_OPTIONS, add_search_options
from cdma_tools.recordings import sample_count
from cdma_tools.report import cells, document, gathering, measures, waveform
from cdma_tools.report.heard_lines import heard_lines, is_lines
from cdma_tools.report.lines_page import page_of_lines
from cdma_tools.sample_header import MOST_CHIPS
from cdma_tools.sources.options import (
    ANY_MIDDLE,
    RADIO_OPTIONS,
    SOURCE_HELP,
    add_radio_options,
    add_sample_options,
    add_seconds_option,
    is_received,
    is_told,
    note_fault,
    source_fault,
    source_words,
)
from cdma_tools.sources.stored import is_described
from cdma_tools.sources.taking import TakenSource, take
from cdma_tools.writing import write_out

# Seconds of a recording that a sample file has room for; what is longer is listened to.
MOST_SECONDS = MOST_CHIPS[1] / CHIP_RATE
NOT_IMPORTED = 10  # the status of a page that says why
SPANS = {str(span) for span in range(64, 32_769)}  # as follow takes them
SPAN = 2_048  # samples of the search by default (--span, docs/FORMATS.md)
MOST_CELLS = 12
MOST_NOTES = 40  # of a recording's own
MAKER = "tools/report"  # of the notes that --meta writes
RECORDING_ONLY = ("meta", "more", *SEARCH_OPTIONS, "capture", "seconds", *FREQUENCY_OPTIONS, *RADIO_OPTIONS)
# The options of follow, as docs/FORMATS.md has them.
FOLLOW_WORDS = {
    "span": "number of first samples in which the pilot is searched (64 to 32,768, default 2,048)",
    "workers": "number of workers of the search (1 to 64, default 4)",
    "fingers": "number of paths to follow (1 to 3, default 1)",
    "paging": "paging channel to decode (1 to 7, default 1)",
    "esn": "electronic serial number of the handset, eight hex digits",
    "row": "Walsh row of its traffic channel (1 to 63, not 32)",
    "offset": "FRAME_OFFSET of its traffic channel (0 to 15, default 0)",
    "pilots": "only the first N events of the pilot and its sets",
    "messages": "only the first N messages",
    "frames": "only the first N frames",
    "raw": "also the first N messages as received",
}


def parser() -> Parser:
    """The command line."""
    words = Parser("report", __doc__, allow_abbrev=False)
    what = f"a sample file, lines, or {SOURCE_HELP}"
    words.add_argument("recording", type=InputFile, metavar="FILE_OR_RECORDING", help=what)
    page = "the page to write, - for standard output"
    words.add_argument("--out", required=True, type=OutputFile, metavar="PAGE", help=page)
    notes = "write the recording's .sigmf-meta with notes on what was decoded of its strongest cell"
    words.add_argument("--meta", type=UpdatedFile, metavar="FILE", help=notes)
    add_program_option(words)
    add_sample_options(words)
    add_seconds_option(words)
    words.add_argument(
        "--import", dest="more", default="", metavar="ARGUMENTS",
        help="arguments for import_capture, for example --import='--skip 100'",
    )
    words.add_argument(
        "--cells",
        type=whole_within(1, MOST_CELLS),
        default=1,
        metavar="N",
        help="for a recording: a section for each of up to N cells (default 1)",
    )
    add_search_options(words.add_argument_group("of a recording"))
    add_radio_options(words, ANY_MIDDLE)
    follow = words.add_argument_group("arguments of follow")
    for name, told in FOLLOW_WORDS.items():
        follow.add_argument(f"--{name}", metavar="H" if name == "esn" else "N", help=told)
    return words


def shown_name(path: str) -> str:
    """The name of a file as text, whatever its bytes are."""
    return os.fsencode(os.path.basename(path)).decode("utf-8", "backslashreplace")


def notes_of(path: str) -> dict[str, str]:
    """Returns the notes of a .sigmf-meta: the texts and numbers of its global object and of its first capture."""
    try:
        with open(path, encoding="utf-8") as file:
            meta = json.load(file)
        told = [meta.get("global"), *meta.get("captures", [])[:1]]
        pairs = [pair for part in told if isinstance(part, dict) for pair in part.items()]
    except (OSError, ValueError, AttributeError, TypeError, RecursionError):
        return {}
    return {name: str(value) for name, value in pairs[:MOST_NOTES] if isinstance(value, (str, int, float))}


def is_recording(options: argparse.Namespace) -> bool:
    """Whether the input must be imported: by its name, or because its type or rate is given."""
    return is_told(options.recording) or options.type is not None or options.rate is not None


def import_words(options: argparse.Namespace) -> list[str]:
    """The arguments for the import: it takes as many paths as follow does."""
    told = [(name, getattr(options, name)) for name in ("fingers", *SEARCH_OPTIONS)]
    given = [f"--{name}={value}" for name, value in told if value is not None]
    return source_words(options) + given + shlex.split(options.more)


class ImportParser(import_capture.CaptureParser):
    """The command line of the import, whose faults are faults of this tool's arguments."""

    def error(self, message: str) -> NoReturn:
        """Refuses the arguments."""
        raise WrongArguments(f"the import of the recording: {message}")

    def print_help(self, file: Any = None) -> NoReturn:
        """Refuses to help: a page is asked for."""
        self.error("--help makes no page")

    def print_version(self) -> NoReturn:
        """Refuses to print the version: a page is wanted."""
        self.error("--version makes no page")


class Imported(NamedTuple):
    """An import, and what its lock showed, unless it failed or took a weaker cell."""

    told: gathering.Imported
    seen: SeenLock | None = None


class Page(NamedTuple):
    """A page, the status to end with, and the fault of a source that failed after what the page shows."""

    text: str
    status: int
    fault: str = ""


def import_options(options: argparse.Namespace, file: str) -> argparse.Namespace:
    """The arguments of the import into a file, as its own command line judges them."""
    parser = import_capture.parser(ImportParser)
    taken: argparse.Namespace = parser.parse_args(["--lock", *import_words(options), options.recording, file])
    import_capture.check_words(parser, taken)
    return taken


def run_import(options: argparse.Namespace, recording: TakenSource, asked: argparse.Namespace) -> Imported:
    """Imports a recording into the sample file that `asked` names, and locks to its pilot."""
    whole = ["--lock", *import_words(options)]
    seen: list[SeenLock] = []
    try:
        locked = import_capture.take_by_lock(
            asked, recording, lambda held, one: seen.append(seen_lock(held, one.lost))
        )
    except Refused as why:
        return Imported(gathering.Imported(whole, FAILED, {}, [str(recording.explained(why))]))
    found = dict(word.split("=", 1) for word in locked.line().split())
    remarks = locked.remarks() + ([recording.fault] if recording.fault else [])
    return Imported(gathering.Imported(whole, 0, found, remarks), seen[0] if seen else None)


def not_run(command: str) -> gathering.Ran:
    """A run that wasn't made."""
    return gathering.Ran([command], NOT_IMPORTED, [], "not run")


def unimported_page(options: argparse.Namespace, imported: gathering.Imported) -> Page:
    """The page of a recording that couldn't be imported: it says why."""
    runs = [not_run(command) for command in ("find", "survey", "follow")]
    gathered = gathering.Gathered(shown_name(options.recording), imported, *runs)
    text = document.page_of(gathered, measures.Measured(0, 0, 0, SPAN), recorded_notes(options))
    return Page(text, NOT_IMPORTED)


def recorded_notes(options: argparse.Namespace) -> dict[str, str]:
    """The notes of a recording, if it is a .sigmf-meta."""
    return notes_of(options.recording) if options.recording.endswith(META) else {}


def imported_page(
    options: argparse.Namespace, program: str, recording: TakenSource, asked: argparse.Namespace
) -> Page:
    """The page of a recording, which is imported into a file first."""
    imported = run_import(options, recording, asked)
    if imported.told.status:
        return unimported_page(options, imported.told)
    done = Import(imported, recording, asked)
    if options.meta is None or imported.seen is None:
        return page_of(options, program, asked.file, done)
    name, kind, rate, path = options.recording, recording.kind, recording.rate, recording.path
    with noted(options.meta, name, kind, rate, path, MAKER) as notes:
        held, skipped = imported.seen.held, asked.skip / float(rate)
        notes.take_lock(held, skipped)
        return page_of(options, program, asked.file, done, notes)


class Import(NamedTuple):
    """An import that was done, its recording, and its arguments."""

    imported: Imported
    recording: TakenSource
    asked: argparse.Namespace

    @property
    def raw(self) -> waveform.Raw:
        """The recording as the sections on its waveform take it."""
        recording = self.recording
        return waveform.Raw(recording.path, recording.kind, float(recording.rate), recording.frequency)


def page_of(
    options: argparse.Namespace, program: str, file: str, done: Import | None, notes: Notes | None = None
) -> Page:
    """Returns the page of a sample file; `done` describes the import, if there was one.

    `notes` get what follow decoded.
    """
    words = {name: value for name in FOLLOW_WORDS if (value := getattr(options, name)) is not None}
    told, seen = done.imported if done is not None else (None, None)
    gathered = gathering.Gathered(shown_name(options.recording), told, *gathering.gather_runs(program, file, words))
    if notes is not None:
        for number, read in gathered.follow.reads(*LABELS):
            notes.take(read, gathered.follow.lines[number].text, read["at"])
    phases = [read["phase"] for _, read in gathered.find.reads("pilot")]
    span = words.get("span", "")
    measured = measures.measured(file, phases[0] if phases else None, int(span) if span in SPANS else SPAN)
    made = waveform.waveform_of(
        gathered, file, phases[0] if phases and measured.stands_out else None, None if done is None else done.raw, seen
    )
    has_cells = options.cells > 1 and done is not None
    more = cells_of(options, program, words, done) if has_cells and done is not None else document.Addition()
    text = document.page_of(gathered, measured, recorded_notes(options) if done is not None else {}, made, more)
    return Page(text, gathered.follow.status)


def cells_of(options: argparse.Namespace, program: str, words: dict[str, str], done: Import) -> document.Addition:
    """Returns the sections of each cell of a recording; the folder of its imported file has space for others.

    They begin with the lock to the strongest cell, if the import made it.
    """
    folder = os.path.join(os.path.dirname(done.asked.file), "cells")
    os.mkdir(folder)
    held = done.imported.seen.held if done.imported.seen is not None else None
    try:
        asked = lock_options(done.asked, done.recording)
        return cells.addition_of(
            cells.gather_cells(done.recording.path, asked, options.cells, program, words, folder, held)
        )
    except Refused as why:
        return cells.addition_why(why)


def seconds_of(recording: TakenSource) -> float:
    """Returns the length of a recording, 0 if it isn't known; the import reports its faults."""
    try:
        return sample_count(recording.path, recording.kind) / float(recording.rate)
    except Refused:
        return 0.0


def listening_words(options: argparse.Namespace, recording: TakenSource, program: str, out: str) -> list[str]:
    """The arguments of a listening to a recording."""
    given = {"program": program, "out": out} | {name: getattr(options, name) for name in ("meta", *SEARCH_OPTIONS)}
    given |= {name: getattr(options, name) for name in FOLLOW_WORDS if name not in ("span", "workers")}
    if is_described(options.recording):
        given |= {name: getattr(options, name) for name in ("rate", "capture")}
    else:
        given |= {"type": recording.kind, "rate": recording.rate}
    path = options.recording if is_described(options.recording) else recording.path
    return [path, *(f"--{name}={value}" for name, value in given.items() if value is not None)]


def page_of_listening(options: argparse.Namespace, recording: TakenSource, program: str) -> Page:
    """The page of a recording that is longer than a sample file, which is listened to."""
    with tempfile.TemporaryDirectory(prefix="report-") as folder:
        lines = os.path.join(folder, "heard.jsonl")
        status = listen.main(listening_words(options, recording, program, lines))
        return Page(page_of_lines(shown_name(options.recording), heard_lines(lines)), status)


def check_notes(options: argparse.Namespace, asked: argparse.Namespace) -> None:
    """Refuses --meta if notes on what the import takes can't be written there."""
    if fault := note_fault(options.recording, options.meta, asked.capture):
        raise WrongArguments(fault)
    if options.meta is not None and (asked.pn is not None or (asked.cell or 1) > 1):
        raise WrongArguments("--meta has notes on the strongest cell, but --import takes another one")


def recording_page(options: argparse.Namespace, program: str) -> Page:
    """The page of a recording; of a source that fails, of what came before."""
    with tempfile.TemporaryDirectory(prefix="report-") as folder:
        asked = import_options(options, os.path.join(folder, "recording.is95"))
        check_notes(options, asked)
        try:
            found = take(options.recording, asked)
        except Refused as why:
            if is_received(options.recording):
                raise
            words = ["--lock", *import_words(options)]
            return unimported_page(options, gathering.Imported(words, FAILED, {}, [str(why)]))
        with found as recording:
            if not options.more and seconds_of(recording) > MOST_SECONDS:
                page = page_of_listening(options, recording, program)
            else:
                page = imported_page(options, program, with_middle(recording, options), asked)
        return page._replace(fault=recording.fault)


def with_middle(recording: TakenSource, options: argparse.Namespace) -> TakenSource:
    """A recording with the middle that the arguments name, if they do."""
    given = frequency_given(options)
    return recording if given is None else replace(recording, frequency=given)


def reported(options: argparse.Namespace) -> Page:
    """The page, and what to end with."""
    if not is_recording(options) and is_lines(options.recording):
        return Page(page_of_lines(shown_name(options.recording), heard_lines(options.recording)), 0)
    program = find_program(options.program)
    if is_recording(options):
        return recording_page(options, program)
    return page_of(options, program, options.recording, None)


def check_words(words: Parser, options: argparse.Namespace) -> None:
    """Ends with status 2 if options don't go together."""
    if options.cells > 1 and not is_recording(options):
        words.error("--cells goes with a recording: a .sigmf-meta, or --type and --rate")
    given = [name for name in RECORDING_ONLY if getattr(options, name)]
    if given and not is_recording(options):
        name = given[0].replace("more", "import").replace("_", "-")
        words.error(f"--{name} goes with a recording: a .sigmf-meta, or --type and --rate")
    try:
        shlex.split(options.more)
    except ValueError as why:
        words.error(f"--import {options.more!r}: {why}")
    if is_recording(options) and not options.more:
        if fault := source_fault(options.recording, options, has_middle=True):
            words.error(fault)


def main(arguments: list[str] | None = None) -> int:
    """Runs the tool, and returns its exit status."""
    words = parser()
    options = words.parse_args(arguments)
    check_words(words, options)
    page = reported(options)
    with write_out(options.out) as file:
        file.write(page.text.encode())
    if page.fault:
        raise Refused(page.fault)
    return page.status
