"""Measures what a lock to a recording loses, and prints tables.

For each of 23 links the program makes a cell, tools/channel a recording of it, and tools/import_capture --lock a sample
file, which the program follows. A row has the sync messages, the paging messages, and the frames of the traffic channel
with right bits that the handset decodes. "sent" is the cell itself, and "ideal" an ideal receiver of the same link,
with noise of its own. "loss" is the amount by which the chips' signal-to-noise ratio lies below the ideal one's, if the
link has one path that doesn't fade. "carrier" and "clock" are the errors of the lock in the middle of the recording.
"s" is the processor time of the whole process of the lock, and "MB" its greatest memory.

    tools/radio_bench crates/cdma_replay/out/cdma_replay
    tools/radio_bench --only A --only M3 cdma_replay
    tools/radio_bench --figures cdma_replay
    tools/radio_bench --stream cdma_replay
    tools/radio_bench --cells --only equal cdma_replay

--figures measures the rest: the time for 2 and for 27 seconds, twenty recordings without a pilot, pilots at an Ec/Io of
-20 dB, and a second cell.

--stream measures the lock that streams, over twelve seconds of each link and next to the lock of a file, and then
tools/listen over a minute. "dB" is the pilot's share of all power in the chips of each, and "last" that of the last
four seconds. "x real time" is the number of seconds of samples that a second of the processor takes once the lock is
there, "late" the greatest delay of a chip after its sample.

--cells measures recordings of two and three busy cells instead of links of one. It prints for each cell what was sent,
what an ideal receiver decodes of only that cell in the same noise and over the same paths, and what is decoded after
the lock by its --pn, with the stronger cells removed. Each needs 300 MB for files. Times are those of one processor.

Exit status: 0 all was measured, 1 something couldn't be, 2 wrong arguments.
"""

import os
import subprocess
import tempfile

from cdma_tools.arguments import Parser
from cdma_tools.errors import Refused
from cdma_tools.overwriting import InputFile, OutputFolder
from cdma_tools.program import add_program_option, find_program
from cdma_tools.radio.bench import (
    Bench,
    print_cells,
    print_false_locks,
    print_second_cell,
    print_stream,
    print_table,
    print_times,
    print_weak_pilots,
)
from cdma_tools.radio.bench_cases import CASES
from cdma_tools.radio.bench_cells import CELLS_CASES


def parser() -> Parser:
    """The command line."""
    words = Parser("radio_bench", __doc__)
    words.add_argument(
        "timed",
        nargs="?",
        type=InputFile,
        metavar="PROGRAM",
        help="program that makes cells and follows them (default that of --program)",
    )
    add_program_option(words)
    words.add_argument(
        "--only", metavar="NAME", action="append", default=[], help="only this link; may be repeated"
    )
    words.add_argument("--figures", action="store_true", help="print the figures, and no table")
    words.add_argument("--stream", action="store_true", help="compare the lock that streams with that of a file")
    words.add_argument(
        "--cells", action="store_true", help="recordings of two and three cells instead of links of one"
    )
    keep = "work in this folder, and leave the last files in it"
    words.add_argument("--keep", type=OutputFolder, metavar="FOLDER", help=keep)
    return words


def main(arguments: list[str] | None = None) -> int:
    """Runs the tool, and returns its exit status."""
    words = parser()
    options = words.parse_args(arguments)
    known = [case.name for case in CELLS_CASES] if options.cells else [case.name for case in CASES]
    unknown = [name for name in options.only if name not in known]
    if unknown:
        words.error(f"no link {unknown[0]}, only {', '.join(known)}")
    if options.keep and not os.path.isdir(options.keep):
        words.error(f"no folder {options.keep}")
    try:
        with tempfile.TemporaryDirectory(prefix="radio-bench-") as folder:
            bench = Bench(find_program(options.timed or options.program), options.keep or folder)
            if options.cells:
                print_cells(bench, options.only)
            elif options.figures:
                for measure in (print_times, print_weak_pilots, print_second_cell, print_false_locks):
                    measure(bench)
            elif options.stream:
                print_stream(bench, options.only)
            else:
                print_table(bench, options.only)
    except subprocess.TimeoutExpired as why:
        raise Refused(str(why)) from None
    return 0
