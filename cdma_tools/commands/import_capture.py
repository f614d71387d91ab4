"""Turns a recording of a radio into a sample file, with one sample per chip.

RECORDING is a file of interleaved samples, in-phase part first, with --type and --rate, or a recording that has both: a
.sigmf-meta, a SigMF archive (.sigmf) or a .wav of a radio program. It may also be - for standard input, or the address
of a live source (tools/listen --help lists them), of which --seconds are taken. If a live source fails, what came
before is written, and the status is 1. FILE is the sample file to write, or - for standard output.

With --lock nothing else need be known. The tool finds the strongest pilot, follows its carrier and its clock over the
whole recording, and writes one sample of each of its chips: filtered by the transmitter's pulse, without carrier,
scaled once for the whole file. One line on standard error describes the lock:

    carrier_hz  the carrier above the middle, half way; that of the conjugate if that was taken
    drift       its increase, in Hz per second
    clock_ppm   slowness of the radio's clock relative to the base station's, in millionths, up to 110
    phase       code phase of the file's first chip, 0 to 32,767
    ec_io_db    the pilot's share of all power, in dB
    paths       delays in chips, each with its level in dB below the strongest
    equaliser   whether the base station sends through the phase equaliser of TIA/EIA-95-B, 7.1.3.1.10
    conjugate   whether the recording's spectrum is inverted
    lost        number of chips not received, which are written as zeros
    chips       number of chips written
    scale       factor of the samples

Properties that a file doesn't state are tried on request. --type auto looks at the bytes, and --checks auto follows the
file both ways and takes what passes. --conjugate and --equaliser are tried unless they are given. The tool reports its
choice, and a warning if the bytes look like another type than the given one. --reflag sets the flags of an existing
sample file, in place.

With --cell K or --pn P a weaker cell is written: the stronger ones are decoded, sent again and subtracted from the
samples, and a line describes each of them. --cells K prints a table of up to K cells on standard error, or with --json
on standard output: PILOT_PN, Ec/Io of all that was received, the delay and the carrier relative to the first cell, the
number of decoded messages, SID, NID and BASE_ID. That needs space for files of floating point in $TMPDIR: 8 bytes per
sample, and as much again for each cell.

Without --lock the carrier and the clock are taken to be right. At the chip rate, 1,228,800 samples per second, the
samples are taken as they are. At a whole multiple of it one sample of each chip is taken, number --offset, or with
--sum the sum of the chip's samples. At any other rate above it the recording is resampled. --shift removes a known
carrier.

Whole samples then stay whole: they are only multiplied by --scale (default 1). Samples of floating point, and those
that --shift or resampling makes, are by default scaled so that the greatest part is 32,767, or 127 in 8 bits, and
rounded to the nearest whole number. A part that doesn't fit is an error and is never wrapped or cut; nothing is written
then. --scale fit does the same for whole samples. With --lock the root mean square is 2,500, or 20 in 8 bits. Parts of
bursts that don't fit are then cut at the ends of the range, and their number is reported.

    tools/import_capture --lock --type cu8 --rate 2400000 radio.bin radio.is95
    tools/import_capture --lock --fingers 3 radio.sigmf-meta radio.is95
    tools/import_capture --lock --type auto --rate 2400000 --checks auto radio.bin radio.is95
    tools/import_capture --reflag --complement-30 radio.is95
    tools/import_capture --lock --cell 2 radio.sigmf-meta second.is95
    tools/import_capture --lock --cells 3 --json radio.sigmf-meta first.is95
    tools/import_capture --lock --rate 2.4M --channel 283 --gain 30 --seconds 10 rtl_tcp://radio:1234 radio.is95
    tools/import_capture --type cu8 --rate 2457600 --sum --shift -1200 radio.bin radio.is95

Exit status: 0 written, 1 the recording can't be taken, has no pilot, or the file can't be written, 2 wrong arguments.
"""

import argparse
import contextlib
import json
import os
import re
import sys
from collections.abc import Sequence
from typing import TYPE_CHECKING, Any, Callable, Iterable

import numpy

from cdma_tools import sigmf
from cdma_tools.analysis.capture_chips import cells_of, flags_of, is_weaker, write_locked, write_plain
from cdma_tools.arguments import (
    MOST_COUNT,
    Parser,
    count_of,
    hertz_of,
    scale_of,
    whole_within,
)
from cdma_tools.cell_options import CELL_OPTIONS, MOST_RANK, add_cell_options
from cdma_tools.checks import reflag, tried
from cdma_tools.errors import Refused, said
from cdma_tools.overwriting import STANDARD, InputFile, OutputFile, UpdatedFile
from cdma_tools.program import add_program_option, find_program, program_or_hint
from cdma_tools.progress import bar
from cdma_tools.radio.plain import plain_chips
from cdma_tools.radio.search_policy import TRIES, add_search_options
from cdma_tools.sample_file import GREATEST
from cdma_tools.sources.options import (
    SOURCE_HELP,
    add_radio_options,
    add_sample_options,
    add_seconds_option,
    note_fault,
    source_fault,
)
from cdma_tools.sources.taking import TakenSource, taken
from cdma_tools.starting import called
from cdma_tools.writing import write_out

if TYPE_CHECKING:
    from cdma_tools.radio.locking import Held, Locked

LOCK_ONLY = ("fingers", "conjugate", "equaliser", "search", "meta", "cells", *CELL_OPTIONS)


class CaptureParser(Parser):
    """The command line of this tool, in which --version with a number still means --format."""

    def parse_known_args(self, args: Sequence[str] | None = None, namespace: Any = None) -> tuple[Any, list[str]]:
        """Parses the arguments, with the old name of --format replaced."""
        return super().parse_known_args(with_format(sys.argv[1:] if args is None else args), namespace)


def with_format(arguments: Sequence[str]) -> list[str]:
    """Returns arguments with --format for --version and a number, which is what earlier versions called it."""
    found = [re.sub(r"\A--version=", "--format=", word) for word in arguments]
    for place, word in enumerate(found[:-1]):
        if word == "--version" and re.fullmatch("[0-9]+", found[place + 1]):
            found[place] = "--format"
    return found


def add_lock_words(words: argparse.ArgumentParser) -> None:
    """The options that go with --lock."""
    lock = words.add_argument_group("with --lock")
    lock.add_argument("--lock", action="store_true", help="find the strongest pilot, its carrier and its clock")
    lock.add_argument(
        "--fingers", type=int, choices=(1, 2, 3), help="number of paths that the receiver follows (default 1): chips are taken"
        " where that number of fingers, whole chips apart, have the most energy"
    )  # fmt: skip
    add_search_options(lock)
    lock.add_argument(
        "--equaliser", choices=TRIES, help="whether the base station has a phase equaliser (default try)"
    )
    add_cell_options(lock)
    lock.add_argument(
        "--cells",
        type=whole_within(1, MOST_RANK),
        metavar="K",
        help="also print a table of up to K cells: PILOT_PN, Ec/Io, delay, carrier, messages, SID, NID and BASE_ID",
    )
    lock.add_argument("--json", action="store_true", help="with --cells: write the table to standard output as JSON")
    note = "write the recording's .sigmf-meta with a note on the lock"
    lock.add_argument("--meta", type=UpdatedFile, metavar="FILE", help=note)


def add_check_words(words: argparse.ArgumentParser) -> None:
    """The options on how checks are sent."""
    words.add_argument(
        "--complement-30", action="store_true", help="the 30-bit checks of messages are sent complemented"
    )
    words.add_argument(
        "--complement-16", action="store_true", help="the 16-bit checks of messages are sent complemented"
    )
    words.add_argument(
        "--checks", choices=("auto",), help="auto: the program follows the file with plain and with complemented 30-bit"
        " checks, and the way that more messages pass is taken"
    )  # fmt: skip
    add_program_option(words)


def parser(form: type[CaptureParser] = CaptureParser) -> CaptureParser:
    """The command line, as a parser of a form."""
    words = form("import_capture", __doc__)
    words.add_argument("recording", type=InputFile, metavar="RECORDING", help=SOURCE_HELP)
    what = "the sample file to write, - for standard output"
    words.add_argument("file", type=OutputFile, metavar="FILE", help=what)
    add_sample_options(words)
    add_seconds_option(words)
    words.add_argument(
        "--offset", type=count_of, metavar="N", help="at a multiple M of the chip rate: 0 to M - 1 (default 0)"
    )
    words.add_argument(
        "--sum", action="store_true", help="at a multiple: the sum of a chip's samples, from --offset on"
    )
    words.add_argument(
        "--shift",
        type=hertz_of,
        metavar="HZ",
        help="turn the samples so that a carrier HZ above the middle lies at 0; with --lock, search around it",
    )
    words.add_argument("--scale", type=scale_of, metavar="X", help="a number, or the word fit")
    words.add_argument(
        "--skip", type=count_of, metavar="N", default=0, help="leave out the recording's first N samples"
    )
    words.add_argument("--count", type=whole_within(1, MOST_COUNT), metavar="N", help="write at most N chips")
    words.add_argument(
        "--format",
        dest="version",
        type=int,
        choices=(1, 2),
        default=1,
        help="version of the sample file: 1 for 16 bits per part, 2 for 8 bits (default 1)",
    )
    add_check_words(words)
    words.add_argument(
        "--reflag", action="store_true", help="set the flags of a sample file, in place; takes only options of checks"
    )
    add_lock_words(words)
    add_radio_options(words)
    return words


def reflag_parser() -> Parser:
    """The command line with --reflag, which takes one sample file."""
    words = Parser("import_capture", __doc__)
    words.add_argument("--reflag", action="store_true", help="set the flags of the checks of a sample file, in place")
    words.add_argument("file", type=InputFile, metavar="FILE", help="sample file")
    add_check_words(words)
    return words


def check_checks(words: Parser, options: argparse.Namespace) -> None:
    """Ends with status 2 if the options about checks don't go together."""
    if options.checks and options.complement_30:
        words.error("--checks auto and --complement-30 can't be given together")


def check_words(words: Parser, options: argparse.Namespace) -> None:
    """Ends with status 2 if options don't go together."""
    check_checks(words, options)
    if options.program is not None and options.pn is None and not options.checks and not options.cells:
        words.error("--program goes with --checks, --pn or --cells")
    if options.json and not options.cells:
        words.error("--json needs --cells")
    if options.json and options.file == STANDARD:
        words.error("FILE and the table of --json can't both go to standard output")
    if options.reflag:
        words.error(
            "--reflag goes only with one sample file, --complement-30, --complement-16, --checks and --program"
        )
    if options.file != "-" and os.path.isdir(options.file):
        words.error(f"{options.file} is a folder")
    if not options.lock and (given := [name for name in LOCK_ONLY if getattr(options, name) is not None]):
        words.error(f"--{given[0]} needs --lock")
    if options.lock and (options.sum or options.offset is not None or options.scale == "fit"):
        words.error("--sum, --offset and --scale fit can't be given with --lock, which takes its own samples")
    if fault := note_fault(options.recording, options.meta, options.capture):
        words.error(fault)
    if fault := source_fault(options.recording, options):
        words.error(fault)


def say(lines: Iterable[str]) -> None:
    """Says lines on standard error."""
    for line in lines:
        said(called("import_capture"), line)


def take_reflag(options: argparse.Namespace) -> None:
    """Sets the flags of an existing sample file."""
    flags, lines = flags_of(options), []
    if options.checks:
        heard = tried(find_program(options.program), options.file)
        flags, lines = flags | heard.flag, [heard.told()]
    before = reflag(options.file, flags)
    say([*lines, f"{options.file}: its flags are {flags} now, and were {before}"])


def take_plainly(options: argparse.Namespace, recording: TakenSource) -> None:
    """Writes the file of a recording whose carrier and clock are right."""
    parts, scale = plain_chips(options, recording)
    with write_out(options.file, is_sought=bool(options.checks)) as file:
        lines = write_plain(options, parts, file)
    say([*recording.remarks, *lines])
    top = int(numpy.abs(parts.astype(numpy.int32)).max())
    print(f"{len(parts)} chips, scale {scale:.9g}, greatest part {top} of {GREATEST[options.version]}", file=sys.stderr)


class Shown:
    """The steps of a lock on a bar, or those to a weaker cell."""

    def __init__(self, has_cells: bool) -> None:
        """Shows the bar."""
        self.bar = bar(text="cells", unit="cells") if has_cells else bar(total=100, text="lock", unit="%")
        self.done = 0

    def part(self, part: float, text: str) -> None:
        """Takes note that a part of 1 is done, in a step of this name."""
        now = round(100 * part)
        if now > self.done:
            self.bar.set_description(text)
            self.bar.update(now - self.done)
            self.done = now

    def cell(self, text: str) -> None:
        """Takes note of a step to a weaker cell."""
        self.bar.set_description(text)
        self.bar.update(1)

    def close(self) -> None:
        """Takes the bar away."""
        self.bar.close()


def take_by_lock(
    options: argparse.Namespace,
    recording: TakenSource,
    look: "Callable[[Held, Locked], None]" = lambda held, locked: None,
) -> "Locked":
    """Writes the file of the wanted pilot of a recording, and returns the result.

    `look` gets the lock while its samples are still open, unless a weaker cell is taken.
    """
    path = recording.path
    if options.meta:
        sigmf.check_note(options.meta, path)
    with write_out(options.file, is_sought=bool(options.checks)) as file:
        with contextlib.closing(Shown(is_weaker(options))) as shown:
            locked = write_locked(options, recording, file, shown.part, shown.cell, look)
    if options.meta:
        sigmf.note_lock(
            options.meta, options.recording, recording.kind, recording.rate, path, options.skip, locked
        )
    return locked


def lock_and_tell(options: argparse.Namespace, recording: TakenSource) -> None:
    """Writes the file of the strongest pilot in a recording, and reports the result."""
    held: "list[Held]" = []
    locked = take_by_lock(options, recording, lambda one, _: held.append(one))
    print(locked.line(), file=sys.stderr)
    say(locked.remarks())
    if options.cells:
        tell_cells(options, recording, held[0] if held else None)


def tell_cells(options: argparse.Namespace, recording: TakenSource, first: "Held | None") -> None:
    """Prints the table of a recording's cells; `first` is the lock to the strongest one, if it was made already."""
    lines: list[str] = []
    program = program_or_hint(options.program, lines)
    say(lines)
    with bar(total=options.cells, text="cells") as shown:
        cells = cells_of(options, recording, program, first, shown.update)
    if options.json:
        print(json.dumps([cell.as_json() for cell in cells]))
        return
    for cell in cells:
        print(f"cell {cell.line}", file=sys.stderr)


def main(arguments: list[str] | None = None) -> int:
    """Runs the tool, and returns its exit status."""
    given = sys.argv[1:] if arguments is None else arguments
    words = reflag_parser() if "--reflag" in given else parser()
    options = words.parse_args(given)
    if "--reflag" in given:
        check_checks(words, options)
        take_reflag(options)
        return 0
    check_words(words, options)
    try:
        with taken(options.recording, options) as recording:
            (lock_and_tell if options.lock else take_plainly)(options, recording)
    except MemoryError:
        raise Refused("out of memory: give --count") from None
    return 0
