"""Measures the code domain of a cell and the quality of its waveform.

FILE_OR_RECORDING is a sample file, or a recording of a radio: a .sigmf-meta, .sigmf or .wav, interleaved samples with
--type and --rate, - for standard input, or the address of a live source, of which --seconds are taken (tools/listen
--help lists the addresses). In a recording the strongest pilot is locked to first, as tools/import_capture --lock does.
The first line has figures of the whole; "recording" and "file" mark those of only one kind of input:

    rho              share of all power in the rows in use, without the interference of the pulse's own sides, at most
                     1; over several paths, the share that would be missing without the cell: 1 - left / all
    rho_spread       standard deviation of rho, from parts of the chips
    rho_by           moments (of the chips), or paths if the pilot comes over several, even if these have one peak
    pilot_share      share of all power in the pilot, on the strongest path
    pilot_only_rho   if only a pilot is sent: the standard's waveform quality of it
    error_vector     root mean square of the error relative to what is sent: sqrt((1 - rho) / rho)
    floor_db         mean power of a row that isn't in use, in dB of all power: the noise floor
    unused_db, _row  greatest power of a row that isn't in use, and which row that is
    peak_db          greatest power of a chip over the mean, in dB
    chips, seconds   amount measured
    carrier_hz       recording: carrier above the middle, half way, in Hz
    clock_ppm        recording: slowness of the radio's clock relative to the base station's, in millionths
    time_chips       recording: start of the period of the code nearest to its middle, in chips of 1 / 1,228,800 s by
                     the radio's clock
    paths            recording: delays in chips, each with its level in dB below the strongest
    carrier_left     file: carrier that is left in it, in Hz
    time_left        file: delay of the pilot after the instants at which chips were taken, in chips
    offset_i, _q     recording: offsets of the branches, relative to the root mean square of the samples
    imbalance_db     recording: excess of q over i, in dB
    skew_degrees     recording: lean of q to i, in degrees
    samples_peak_db  recording: greatest power of a sample over the mean, in dB

Then each Walsh row in use gets a line with its kind: pilot, sync, paging if the program decodes a message on it, or
other. It has the row's level in dB of all power without the noise in it (db) and with it (total_db, the standard's code
domain power), and its phase and time relative to the pilot. It also has the number of standard deviations of noise by
which the row stands out (6 or more, and -33 dB). docs/RADIO.md has the formulas.

With --cell K or --pn P a weaker cell of a recording is measured, without the stronger ones. --limits compares the cell
with the standard's limits (C.S0010): rho of at least 0.912, unused rows 27 dB below all power, rows within 50 ns and
0.05 rad of the pilot, and the carrier within 0.05 millionths of its channel, by the radio's oscillator. Each limit gets
a line, and a case in the files of --junit and --tap. If one isn't met, the tool ends with status 1.

    tools/domain radio.sigmf-meta
    tools/domain radio.sigmf-meta --cell 2
    tools/domain radio.sigmf-meta --limits --junit limits.xml
    tools/domain --type cu8 --rate 2400000 radio.cu8 --plot rows.png --json rows.json
    tools/domain second.is95 --all

Exit status: 0 measured, 1 no pilot, a limit that isn't met, or a file that can't be read or written, 2 wrong arguments.
"""

import argparse
import json
import os
import sys
import tempfile

from cdma_tools.analysis.importing import Wanted
from cdma_tools.analysis.limits import Limit, limits_of
from cdma_tools.analysis.measuring import Analysis, analysis_of_cell, analysis_of_file, analysis_of_recording
from cdma_tools.analysis.telling import draw, object_of, text_of
from cdma_tools.arguments import Parser, count_of, hertz_of
from cdma_tools.cell_options import CELL_OPTIONS, add_cell_options
from cdma_tools.errors import printable, said
from cdma_tools.frequencies import FREQUENCY_OPTIONS
from cdma_tools.overwriting import STANDARD, InputFile, OutputFile
from cdma_tools.program import add_program_option, find_program, program_or_hint
from cdma_tools.plots import picture_of, plain, save
from cdma_tools.progress import bar
from cdma_tools.radio.locking import Options
from cdma_tools.radio.search_policy import TRIES, add_search_options
from cdma_tools.results import check_place, json_of, junit_of, tap_of
from cdma_tools.sources.options import (
    ANY_MIDDLE,
    RADIO_OPTIONS,
    SOURCE_HELP,
    add_radio_options,
    add_sample_options,
    add_seconds_option,
    is_told,
    source_fault,
)
from cdma_tools.sources.taking import TakenSource, taken
from cdma_tools.starting import called
from cdma_tools.writing import write_out

# Options that go only with a recording.
LOCK_OPTIONS = ("skip", "shift", "search", "conjugate", "equaliser")
RECORDING_ONLY = (*LOCK_OPTIONS, "capture", "seconds", *CELL_OPTIONS, *FREQUENCY_OPTIONS, *RADIO_OPTIONS)


def parser() -> Parser:
    """The arguments of the command line."""
    words = Parser("domain", __doc__)
    what = f"a sample file, or {SOURCE_HELP}"
    words.add_argument("recording", type=InputFile, metavar="FILE_OR_RECORDING", help=what)
    words.add_argument("--all", action="store_true", help="a line for each of the 64 rows, in use or not")
    figures = "write figures, rows and frames as JSON; - for standard output, without lines"
    words.add_argument("--json", type=OutputFile, metavar="FILE", help=figures)
    words.add_argument(
        "--plot", type=picture_of, metavar="FILE", help="draw the rows over the whole and over the frames: .png or .svg"
    )
    add_program_option(words)
    limits = words.add_argument_group("the standard's limits")
    limits.add_argument("--limits", action="store_true", help="compare the cell with the standard's limits")
    limits.add_argument("--tap", action="store_true", help="with --limits: write only these, as TAP, version 13")
    limits.add_argument("--junit", type=OutputFile, metavar="FILE", help="with --limits: also write these as JUnit XML")
    recording = words.add_argument_group("of a recording")
    add_sample_options(recording)
    add_seconds_option(recording)
    recording.add_argument("--skip", type=count_of, metavar="N", help="leave out the first N samples (default 0)")
    recording.add_argument("--shift", type=hertz_of, metavar="HZ", help="search around this carrier (default 0)")
    add_search_options(recording)
    add_cell_options(recording)
    sent = "whether the base station has a phase equaliser (default try)"
    recording.add_argument("--equaliser", choices=TRIES, help=sent)
    add_radio_options(words, ANY_MIDDLE)
    return words


def is_recording(options: argparse.Namespace) -> bool:
    """Whether the input is a recording: by its name, or since its type or its rate is given."""
    return is_told(options.recording) or options.type is not None or options.rate is not None


def check_arguments(words: Parser, options: argparse.Namespace) -> None:
    """Ends with status 2 if options don't go together."""
    if is_recording(options):
        if fault := source_fault(options.recording, options, has_middle=True):
            words.error(fault)
    elif given := [name for name in RECORDING_ONLY if getattr(options, name) not in (None, False)]:
        words.error(f"--{given[0].replace('_', '-')} goes with a recording: a .sigmf-meta, or --type and --rate")
    if given := [f"--{name}" for name in ("tap", "junit") if getattr(options, name) and not options.limits]:
        words.error(f"{given[0]} needs --limits")
    check_outputs(words, options)


def check_outputs(words: Parser, options: argparse.Namespace) -> None:
    """Ends with status 2 if two results would go to standard output, or if the folder of a JUnit file is missing."""
    given = [name for name, is_there in (
        ("--plot", options.plot == STANDARD), ("--json", options.json == STANDARD), ("--tap", options.tap)
    ) if is_there]  # fmt: skip
    if len(given) > 1:
        words.error(f"{given[0]} and {given[1]} can't both go to standard output")
    check_place(options)


def wanted_of(options: argparse.Namespace) -> Wanted:
    """Returns the requested cell; its PILOT_PN comes from the program, which must then be there."""
    return Wanted(options.cell, options.pn, None if options.pn is None else find_program(options.program))


def analysed(options: argparse.Namespace, recording: TakenSource | None, lines: list[str]) -> Analysis:
    """Returns the requested analysis, with its steps on a bar; adds remarks about it to `lines`.

    Without a recording it is that of a sample file.
    """
    program = program_or_hint(options.program, lines, "no row is known as a paging channel")
    with bar(total=100, text="domain", unit="%") as shown, tempfile.TemporaryDirectory(prefix="domain-") as folder:
        done = 0

        def tell(part: float, text: str) -> None:
            nonlocal done
            if (now := round(100 * part)) > done:
                shown.set_description(text)
                shown.update(now - done)
                done = now

        if recording is None:
            return analysis_of_file(options.recording, program, tell)
        lines += recording.remarks
        given = {name: value for name in LOCK_OPTIONS if (value := getattr(options, name)) is not None}
        asked, path = Options(recording.kind, recording.rate, **given), recording.path
        if options.pn is not None or (options.cell or 1) > 1:
            return analysis_of_cell(path, asked, wanted_of(options), program, folder, shown.set_description)
        return analysis_of_recording(path, asked, program, folder, tell)


def shown_name(path: str) -> str:
    """The name of a file as text, whatever its bytes are."""
    return printable(os.fsencode(os.path.basename(path)).decode("utf-8", "backslashreplace"))


def write_all(options: argparse.Namespace, analysis: Analysis, limits: list[Limit]) -> None:
    """Writes what is asked for: files, and on standard output the lines, or the one thing that is to go there."""
    name, results = shown_name(options.recording), [limit.result for limit in limits]
    if options.plot is not None:
        title = f"{plain(name)}: rho {analysis.rho:.4f}, {len(analysis.domain.used)} rows in use"
        save(draw(analysis, title), options.plot, dpi=120)
    if options.json is not None:
        with write_out(options.json) as file:
            told = object_of(analysis, name) | ({"limits": [json_of(result) for result in results]} if limits else {})
            file.write((json.dumps(told) + "\n").encode())
    if options.junit is not None:
        with write_out(options.junit) as file:
            file.write(junit_of(called("domain"), results))
    if options.tap:
        tests = "".join(tap_of(number, result) for number, result in enumerate(results, 1))
        sys.stdout.write(f"TAP version 13\n1..{len(results)}\n{tests}")
    elif STANDARD not in (options.plot, options.json):
        sys.stdout.write(text_of(analysis, options.all) + "".join(limit.line for limit in limits))
    sys.stdout.flush()


def measure(options: argparse.Namespace, recording: TakenSource | None) -> int:
    """Measures a recording, or without one a sample file, and writes what is asked for; returns the exit status."""
    lines: list[str] = []
    analysis = analysed(options, recording, lines)
    limits = limits_of(analysis, None if recording is None else recording.frequency) if options.limits else []
    write_all(options, analysis, limits)
    for line in lines:
        said(called("domain"), line)
    return 0 if all(limit.is_met for limit in limits) else 1


def main(arguments: list[str] | None = None) -> int:
    """Runs the tool, and returns its exit status."""
    words = parser()
    options = words.parse_args(arguments)
    check_arguments(words, options)
    if not is_recording(options):
        return measure(options, None)
    with taken(options.recording, options) as recording:
        return measure(options, recording)
