"""Makes a recording as a radio would, from the sample files of cells.

Each FILE is a sample file of version 1 or 2, as cdma_replay make writes it, with one sample per chip and no noise:
FILE, FILE:DB or FILE:DB:CHIPS, with its level in dB and its delay in chips. RECORDING is a file of raw samples, or a
.sigmf-meta, next to which the .sigmf-data is written. The .sigmf-meta then has the truth in a note as name=value. It
also has `cdma_tools:arguments`, with which channel makes the same recording again, and `cdma_tools:cells`: for each
cell its file's checksum, level, delay, and the powers of a chip of it and of its pilot.

The cells are sent with the pulse of TIA/EIA-95-B, 7.1.3.1.10, over all --paths, and are recorded at --rate with the
radio's errors. With a positive --clock the radio's clock is slow, so chips come faster. --ec-io adds noise until the
first cell's pilot has that share of all power. --eb-nt DB:ROW:RATE adds noise until a bit of a Walsh row of the first
cell, at RATE bits per second, has that energy over the density of noise and other cells. The same arguments and seed
make the same file. --ideal writes what an ideal receiver gets from the same link, for comparison.

    tools/channel --type cu8 --rate 2400000 --carrier 2000 --clock 5 --ec-io -10 cell.is95 radio.sigmf-meta
    tools/channel --rate 4000000 --carrier -1500 --paths 0:0:0:10,1.5:-3:0:10 cell.is95 other.is95:-3:40 radio.sigmf-meta

Exit status: 0 written, 1 the recording can't be made, 2 wrong arguments.
"""

import argparse
import contextlib
import sys

from cdma_tools import sigmf
from cdma_tools.arguments import MOST_SECONDS, Parser, count_of, number_above, number_within
from cdma_tools.overwriting import OutputFile, OutputRecording
from cdma_tools.progress import bar
from cdma_tools.radio.air import CHIP_RATE
from cdma_tools.radio.channel import Link, Made, record, write_ideal
from cdma_tools.radio.link_options import CellName, add_link_options, chips_of, eb_nt_of, link_of, radio_of
from cdma_tools.radio.link_truth import meta_of, truth
from cdma_tools.writing import write_out


def parser() -> argparse.ArgumentParser:
    """The command line."""
    words = Parser("channel", __doc__)
    cells = "cells, the wanted one first"
    words.add_argument("files", nargs="+", type=CellName, metavar="FILE[:DB[:CHIPS]]", help=cells)
    words.add_argument(
        "recording",
        type=OutputRecording,
        metavar="RECORDING",
        help="raw samples, - for standard output, or a .sigmf-meta",
    )
    words.add_argument(
        "--seconds",
        type=number_above(0, MOST_SECONDS),
        metavar="S",
        help="longest recording (default as long as the first cell)",
    )
    words.add_argument(
        "--seed",
        type=count_of,
        default=1,
        metavar="N",
        help="seed of noise, fading and the carrier's phase (default 1)",
    )
    words.add_argument(
        "--ideal", type=OutputFile, metavar="FILE", help="also write an ideal receiver's sample file of the link"
    )
    noise = words.add_argument_group("the noise").add_mutually_exclusive_group()
    noise.add_argument(
        "--ec-io", type=number_within(-100, 0), metavar="DB", help="power of the first cell's pilot over all power"
    )
    noise.add_argument(
        "--eb-nt",
        type=eb_nt_of,
        metavar="DB:ROW:RATE",
        help="energy of a row's bit over the density of noise and interference",
    )
    add_link_options(words)
    return words


def write_recording(options: argparse.Namespace, link: Link, chips: int) -> Made:
    """Writes the samples, and the .sigmf-meta if one is requested."""
    is_sigmf = options.recording.endswith(sigmf.META)
    path = options.recording[: -len(sigmf.META)] + sigmf.DATA if is_sigmf else options.recording
    total = int(chips * float(options.rate) / CHIP_RATE)
    with write_out(path) as file, bar(total=total, text="recording", unit="samples") as shown:
        made = record(link, radio_of(options), chips, file, shown.update)
    if is_sigmf:
        sigmf.write_meta(options.recording, meta_of(options, link, made))
    return made


def write_all(options: argparse.Namespace, link: Link) -> Made:
    """Writes the recording and, if requested, the ideal receiver's file, which is opened first."""
    chips = chips_of(options, link)
    with write_out(options.ideal) if options.ideal else contextlib.nullcontext() as ideal:
        made = write_recording(options, link, chips)
        if ideal:
            with bar(total=chips, text="ideal", unit="chips") as shown:
                write_ideal(link, chips, ideal, shown.update)
    return made


def main(arguments: list[str] | None = None) -> int:
    """Runs the tool, and returns its exit status."""
    options = parser().parse_args(arguments)
    with contextlib.closing(link_of(options)) as link:
        made = write_all(options, link)
        said = truth(options, link)
    print(f"{made.samples} samples, {made.cut} values clipped at full scale, {said}", file=sys.stderr)
    return 0
