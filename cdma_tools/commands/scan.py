"""Finds the frequencies of a recording at which a pilot stands out.

For a recording that is wider than one channel, or whose carrier is unknown. RECORDING is a file of interleaved samples
with --type and --rate, a .sigmf-meta, .sigmf or .wav, - for standard input, or the address of a live source, of which
--seconds are taken (tools/listen --help lists the addresses). Centre frequencies are tried around the recording's
middle, in steps of 1.25 MHz or of --step, as far as a whole channel lies in it; --all tries every frequency in the
width. What stands out is tracked for a third of a second, and reported if a pilot is found there too. Each pilot gets a
line:

    carrier_hz=1249851.2 ec_io_db=-9.12 excess=14.20 phase=5021 at_s=0.0300 conjugate=no sigma=412.0 clock_ppm=4.0

    carrier_hz  the carrier above the middle
    excess      its energy over the threshold, which pure noise reaches in one recording of a million
    phase       the code phase at the time at_s
    sigma       standard deviations of noise by which it stands out where it was tracked, 12 or more
    clock_ppm   slowness of the recording's clock in millionths, to one

Around each centre frequency the carrier is searched 21 kHz to each side, in the spectrum as it is and then inverted. If
no centre has a pilot there, 88 kHz to each side are searched, which allows for a clock error of 110 millionths at 800
MHz. --search and --conjugate replace that. At most 100,000 centre frequencies and 2,000,000 carriers, in steps of 300
Hz around each, are tried, which takes a processor some hours; larger requests are refused.

--json writes one list of objects. --cells K also locks to each pilot, and prints a table of up to K cells on its
carrier: PILOT_PN, Ec/Io, delay, carrier, messages, SID, NID and BASE_ID, as import_capture --cells does.

    tools/scan radio.sigmf-meta
    tools/scan --json --cells 3 radio.sigmf-meta
    tools/scan --rate 2.4M --channel 283 --seconds 2 rtl_tcp://radio:1234
    tools/import_capture --lock --shift 1249851 radio.sigmf-meta radio.is95

Exit status: 0 a pilot was found, 1 none, or the recording can't be taken, 2 wrong arguments.
"""

import argparse
import json
import sys
import tempfile
from dataclasses import replace
from typing import Any

from cdma_tools.analysis.cell_table import CellFacts, table_of_cells
from cdma_tools.analysis.cells import Search
from cdma_tools.arguments import MOST_HERTZ, Parser, count_of, number_within, text_of, whole_within
from cdma_tools.cell_options import MOST_RANK
from cdma_tools.errors import Refused, said
from cdma_tools.overwriting import InputFile
from cdma_tools.program import add_program_option, program_or_hint
from cdma_tools.progress import bar
from cdma_tools.radio.acquisition import bins_within
from cdma_tools.radio.air import CHIP_RATE
from cdma_tools.radio.confirmation import LEAST
from cdma_tools.radio.front import Front
from cdma_tools.radio.locking import Options
from cdma_tools.radio.scanning import RASTER, Seen, everywhere, raster, scan
from cdma_tools.radio.search_policy import SPAN, SearchPolicy, add_search_options, policy_of
from cdma_tools.recordings import Recording
from cdma_tools.sources.options import (
    SOURCE_HELP,
    add_radio_options,
    add_sample_options,
    add_seconds_option,
    source_fault,
)
from cdma_tools.sources.taking import TakenSource, taken
from cdma_tools.starting import called

MOST_CENTRES = 100_000
LIVE_SECONDS = 5.0  # of a source that may not end
LOCK_SEARCH = 1_000.0  # Hz to each side of a pilot that was found
MOST_CARRIERS = 2_000_000  # that are tried around all centres; each takes some 7 ms


def parser() -> argparse.ArgumentParser:
    """The command line."""
    words = Parser("scan", __doc__)
    words.add_argument("recording", type=InputFile, metavar="RECORDING", help=SOURCE_HELP)
    add_sample_options(words)
    add_seconds_option(words, LIVE_SECONDS)
    words.add_argument(
        "--skip", type=count_of, default=0, metavar="N", help="leave out the recording's first N samples"
    )
    where = words.add_mutually_exclusive_group()
    where.add_argument(
        "--step", type=number_within(1_000, MOST_HERTZ), metavar="HZ", help="step of centre frequencies (default 1,250,000)"
    )
    where.add_argument("--all", action="store_true", help="every frequency in the width")
    add_search_options(words)
    words.add_argument(
        "--cells",
        type=whole_within(1, MOST_RANK),
        metavar="K",
        help="lock to each pilot, and print a table of up to K cells on its carrier, as import_capture --cells does",
    )
    words.add_argument("--json", action="store_true", help="write one list of objects instead of lines")
    add_program_option(words)
    words.add_argument("--verbose", action="store_true", help="also print a line for each centre without a pilot")
    add_radio_options(words)
    return words


def text(seen: Seen, is_verbose: bool) -> str:
    """Returns the line of a centre, empty if it has no pilot and such lines aren't requested."""
    if seen.is_pilot:
        level = f"ec_io_db={seen.ec_io:.2f} " if seen.ec_io > -99 else ""
        return (
            f"carrier_hz={seen.carrier:.1f} {level}excess={seen.excess:.2f} phase={seen.phase} at_s={seen.seconds:.4f}"
            f" conjugate={'yes' if seen.is_conjugate else 'no'} sigma={seen.sigma:.1f} clock_ppm={seen.clock:.1f}\n"
        )
    tracked = f" sigma={seen.sigma:.1f}" if seen.excess > 1 else ""
    return f"no pilot round {seen.centre:.0f} Hz, excess={seen.excess:.2f}{tracked}\n" if is_verbose else ""


def object_of(seen: Seen, cells: list[CellFacts] | None) -> dict[str, Any]:
    """The object of a centre in the JSON; with a pilot's cells, if they were asked for."""
    told: dict[str, Any] = {"centre_hz": seen.centre, "is_pilot": seen.is_pilot, "excess": round(seen.excess, 3)}
    if seen.is_pilot:
        told |= {
            "carrier_hz": round(seen.carrier, 1), "ec_io_db": round(seen.ec_io, 2), "phase": seen.phase,
            "at_s": round(seen.seconds, 4), "conjugate": seen.is_conjugate, "sigma": round(seen.sigma, 1),
            "clock_ppm": round(seen.clock, 2),
        }  # fmt: skip
    return told if cells is None else told | {"cells": [cell.as_json() for cell in cells]}


def cells_at(seen: Seen, options: argparse.Namespace, recording: TakenSource, program: str | None) -> list[CellFacts]:
    """The table of cells on the carrier of a pilot that was found."""
    conjugate = "yes" if seen.is_conjugate else "no"
    asked = Options(recording.kind, recording.rate, options.skip, seen.carrier, LOCK_SEARCH, conjugate)
    with tempfile.TemporaryDirectory(prefix="cells-") as folder, bar(total=options.cells, text="cells") as shown:
        with Search(recording.path, asked, folder) as search:
            return table_of_cells(search, options.cells, program, shown.update)


def write_all(options: argparse.Namespace, found: list[Seen], recording: TakenSource, lines: list[str]) -> None:
    """Writes what was found, with tables of cells if they are asked for."""
    program = program_or_hint(options.program, lines) if options.cells else None
    tables = [
        cells_at(seen, options, recording, program) if options.cells and seen.is_pilot else None for seen in found
    ]
    if options.json:
        rows = [object_of(seen, cells) for seen, cells in zip(found, tables) if seen.is_pilot or options.verbose]
        sys.stdout.write(json.dumps(rows) + "\n")
        return
    for seen, cells in zip(found, tables):
        sys.stdout.write(text(seen, options.verbose) + "".join(f"cell {cell.line}\n" for cell in cells or ()))


def fault_of(found: list[Seen], policy: SearchPolicy) -> str:
    """Returns why no centre has a pilot, empty if one has."""
    if any(seen.is_pilot for seen in found):
        return ""
    best, where = max(seen.excess for seen in found), f"at {len(found):,} centres, {policy.searched_round('each')}"
    if best <= 1:
        return f"no pilot stands out {where}: the best energy is {best:.2f} of the threshold{policy.advice}"
    sigma = max(seen.sigma for seen in found)
    return (
        f"no pilot {where}: what stood out wasn't heard beside it, with {sigma:.1f} standard deviations of noise at"
        f" most, and a pilot has {LEAST:.0f}{policy.advice}"
    )


def check_words(words: argparse.ArgumentParser, options: argparse.Namespace) -> None:
    """Ends with status 2 if options don't go together."""
    if fault := source_fault(options.recording, options):
        words.error(fault)


def policy_round(options: argparse.Namespace) -> SearchPolicy:
    """Returns the search around each centre: only the near step if the centres' own searches meet each other."""
    policy = policy_of(options)
    if options.search is None and (options.all or (options.step or RASTER) <= 2 * SPAN):
        return replace(policy, search=SPAN)
    return policy


def centres_of(options: argparse.Namespace, rate: float, policy: SearchPolicy) -> list[float]:
    """The centre frequencies that are tried; refuses more than would ever be done."""
    step = policy.span if options.all else options.step or RASTER
    if rate / step > MOST_CENTRES:
        raise Refused(
            f"more than {MOST_CENTRES} centre frequencies: give a greater {'--search' if options.all else '--step'}"
        )
    centres = everywhere(rate, policy.span) if options.all else raster(rate, step)
    carriers = max(len(bins_within(step.span, step.beyond)) * len(step.spectra) for step in policy.steps_apart())
    if carriers * len(centres) > MOST_CARRIERS:
        advice = "--step instead of --all" if options.all else "a lesser --search, or a greater --step"
        raise Refused(f"more than {MOST_CARRIERS:,} carriers around {len(centres):,} centre frequencies: give {advice}")
    return centres


def scan_all(options: argparse.Namespace, recording: TakenSource) -> None:
    """Scans a recording, and writes what was found; refuses one without a pilot."""
    if recording.rate < CHIP_RATE:
        raise Refused(f"{text_of(recording.rate)} samples a second are fewer than the chip rate, {CHIP_RATE}")
    policy, rate = policy_round(options), float(recording.rate)
    centres, steps = centres_of(options, rate, policy), policy.steps_apart()
    with Recording(recording.path, recording.kind, rate, options.skip) as samples, bar(
        total=len(centres) * len(steps), text="scan"
    ) as shown:
        found = scan(Front(samples), centres, steps, shown.update)
    lines: list[str] = []
    write_all(options, found, recording, lines)
    if fault := fault_of(found, policy):
        raise Refused("; ".join([fault, *lines]))
    for line in (*recording.remarks, *lines):
        said(called("scan"), line)


def main(arguments: list[str] | None = None) -> int:
    """Runs the tool, and returns its exit status."""
    words = parser()
    options = words.parse_args(arguments)
    check_words(words, options)
    with taken(options.recording, options) as recording:
        scan_all(options, recording)
    return 0
