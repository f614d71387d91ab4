"""Measures how often a receiver loses the frames of a traffic channel, over Eb/Nt: counts, a CSV and a picture.

SCRIPT names a cell with a traffic channel (docs/FORMATS.md). The program, here MAKER, makes its samples once. At each
Eb/Nt from --from to --to, files are made from them with white Gaussian noise, one after the other. The receiver decodes
each, and each of its frame lines is compared with the frame that was sent:

    lost              no line
    marked_bad        good=0, and not the frame that was sent
    bad_but_right     good=0, with the rate and the bits that were sent
    other_rate        good=1, with another rate
    wrong_but_good    good=1, with the right rate and wrong bits

All of these are errors. Sync and paging messages are lost if they aren't decoded. The expected lines are those that
MAKER decodes from the samples without noise. A point ends after the file with which each receiver has --errors errors
of frames, or with which --frames frames were sent. Frames of several rates are counted by rate, and --from and --to are
the Eb/Nt of the greatest one.

DIR gets counts.sqlite, which keeps each file's counts as they come, so that an interrupted run continues; curve.csv;
and curve.png, with the union bound of the code. The noise depends only on the seed, the point and the file's number, so
the counts are the same on every machine and for any number of workers. docs/CURVES.md has the formulas.

    tools/curve examples/frames_9600.script --from 1 --to 3 --step 0.5 --frames 5000
    tools/curve examples/frames_9600.script --from 1 --to 3 --step 0.5 --frames 5000 \\
        --words follow --words "list --k 4" --out lists
    tools/curve examples/frames_9600.script --from 1 --to 3 --step 0.5 --frames 5000 --receiver ./my_receiver

With --channel the samples go over a link and into a radio, and the lock of tools/import_capture --lock follows the
recording. So a receiver is measured from its antenna on, with the lock as its synchronisation. OPTIONS are those of
tools/channel for the link and the radio: --paths with Rayleigh fading, --carrier, --clock, --delay, --type, --rate and
so on. Each file is a recording with fading and noise of its own. A frame or message is counted apart, as unlocked, if
the lock found no pilot for its chips or refuses the file; that is an error too. Each DB is that of the mean power.

    tools/curve examples/frames_9600.script --from 3 --to 9 --step 2 --frames 3000 \\
        --channel "--paths 0:0:0:81.4 --carrier 300 --clock 3 --delay 0.3" --out kmh100

--limits FILE names a CSV of the allowed frame error rates. Its first line is point_db,share or point_db,channel,share.
Each further line has the Eb/Nt of a point from --from to --to, a channel as curve.csv names it (default: each channel
of frames), and the greatest share of frames in error. A receiver passes a limit if the 95 % interval lies at or below
it. It fails if the interval lies above it, or includes it: then more --frames decide.

    tools/curve examples/frames_9600.script --from 2 --to 3 --step 1 --frames 5000 \\
        --limits limits.csv --junit results.xml

With --tap and --json the results replace the table. A case is a limit of a receiver, or without limits a channel of a
receiver at a point; --against is a case of its own.

Exit status: 0 all points were counted, 1 something failed, a limit isn't met or --against differs, and the counts are
kept, 2 wrong arguments.
"""

import argparse
import contextlib
import io
import os
import shlex
import sys
from collections.abc import Iterator, Sequence
from decimal import Decimal
from typing import NoReturn

from cdma_tools.arguments import (
    Parser,
    PartParser,
    Within,
    joined,
    number_above,
    whole_within,
    wrong,
)
from cdma_tools.cluster import connected, remove_own_folders
from cdma_tools.curves import report
from cdma_tools.curves.antenna import Antenna
from cdma_tools.curves.batch import Curve, Prepared, Setup, check_lock, prepared, versions_of
from cdma_tools.curves.cluster import hand_out
from cdma_tools.curves.counting import Counts
from cdma_tools.curves.levels import Channel, channels_of
from cdma_tools.curves.limits import check_channels, read_limits, results_of
from cdma_tools.curves.noise import check_room
from cdma_tools.curves.plan import Ledger, Rule, points_of
from cdma_tools.curves.receiver import COMMANDS, digest, words_of
from cdma_tools.curves.store import COUNTS, Store, opened
from cdma_tools.errors import Refused, said
from cdma_tools.overwriting import InputFile, OutputFolder, refuse_overwriting
from cdma_tools.plots import plain, title_of
from cdma_tools.program import add_program_option, find_program
from cdma_tools.progress import bar
from cdma_tools.radio.air import CHIP_RATE
from cdma_tools.radio.link_options import add_link_options, radio_of
from cdma_tools.reading import MEGABYTE, read_within
from cdma_tools.results import Result, Results, add_result_options, check_place
from cdma_tools.scripts import chosen_channel, read_script
from cdma_tools.starting import called, pass_over_interrupts
from cdma_tools.workers import quietly

TABLE, PICTURE = "curve.csv", "curve.png"  # in the folder of the counts
MINUTES = 5.0
ERRORS = 100
SEED = 1995
MOST_DELAY = 1_000
MOST_FACTOR = 1_000
MOST_DECIBELS = 100
MOST_MINUTES = 10_000
MOST_WORKERS = 1_024
DECIBELS = Within(Decimal, -MOST_DECIBELS, MOST_DECIBELS)
FRAMES = whole_within(1, 1_000_000_000)


class CountsFolder(OutputFolder):
    """The folder of the counts, of the table and of the picture."""

    names = (COUNTS, TABLE, PICTURE)


class InputFolder(InputFile):
    """A folder whose table is read."""

    def files(self) -> Iterator[tuple[str, str]]:
        """The path of the table, with how an output is described that is the same file."""
        return InputFile(os.path.join(self, TABLE)).files()


def path_of(text: str) -> tuple[int, complex]:
    """A path DELAY:FACTOR, as 7:0.5-1j."""
    delay, separator, factor = text.partition(":")
    try:
        found = int(delay), complex(factor)
    except ValueError:
        separator = ""
    if not separator or not 0 < found[0] <= MOST_DELAY or not is_factor(found[1]):
        most = f"a delay of 1 to {MOST_DELAY}, and a factor that isn't 0, of parts up to {MOST_FACTOR}"
        raise wrong(f"not a path DELAY:FACTOR, such as 7:0.5-1j, with {most}", text)
    return found


def is_factor(factor: complex) -> bool:
    """Whether a path can have a factor."""
    return factor != 0 and abs(factor.real) <= MOST_FACTOR and abs(factor.imag) <= MOST_FACTOR


class LinkOptions(PartParser):
    """The options of a link within one argument; a fault in them is a fault of that argument."""

    def error(self, message: str) -> NoReturn:
        """Raises the fault, which is reported for the argument."""
        raise argparse.ArgumentTypeError(message)


def antenna_of(text: str) -> Antenna:
    """A link and a radio by the options of tools/channel."""
    words = LinkOptions(prog="channel", add_help=False)
    add_link_options(words)
    try:
        given = shlex.split(text)
    except ValueError as why:
        raise wrong(f"wrong options: {why}", text) from None
    options = words.parse_args(joined(given))
    if options.rate < CHIP_RATE:
        raise wrong(f"a lock needs {CHIP_RATE:,} samples a second or more", text)
    return Antenna(shlex.join(given), tuple(options.paths), radio_of(options))


def parser() -> argparse.ArgumentParser:
    """The command line."""
    words = Parser("curve", __doc__)
    words.add_argument("script", type=InputFile, metavar="SCRIPT", help="script of a cell with a traffic channel")
    words.add_argument("--from", dest="begin", type=DECIBELS, metavar="DB", required=True, help="first Eb/Nt")
    words.add_argument("--to", dest="end", type=DECIBELS, metavar="DB", required=True, help="last Eb/Nt")
    words.add_argument(
        "--step",
        type=Within(Decimal, 0, MOST_DECIBELS, is_above=True),
        metavar="DB",
        required=True,
        help="step between two Eb/Nt",
    )
    words.add_argument(
        "--frames", type=FRAMES, metavar="N", required=True, help="number of frames that completes a point"
    )
    words.add_argument(
        "--errors",
        type=FRAMES,
        metavar="N",
        default=ERRORS,
        help=f"number of errors that completes a point (default {ERRORS})",
    )
    words.add_argument(
        "--receiver", type=InputFile, metavar="PROGRAM", help="receiver to count besides MAKER (default only MAKER)"
    )
    add_program_option(words, "--maker")
    words.add_argument(
        "--words",
        action="append",
        metavar="ARGUMENTS",
        help="arguments of the receiver (default follow or rate2); may be repeated",
    )
    words.add_argument(
        "--row", type=whole_within(1, 63), metavar="N", help="row of the traffic channel (default the first)"
    )
    words.add_argument(
        "--path",
        type=path_of,
        action="append",
        default=[],
        metavar="D:F",
        help="another path, D chips later, F times the script's own; may be repeated",
    )
    words.add_argument(
        "--channel",
        type=antenna_of,
        metavar="OPTIONS",
        help="send the samples over a link of tools/channel, record them with its radio, and lock to the recording",
    )
    words.add_argument(
        "--other",
        type=InputFile,
        action="append",
        default=[],
        metavar="SCRIPT",
        help="another cell on the air; may be repeated",
    )
    words.add_argument(
        "--seed",
        type=whole_within(0, (1 << 64) - 1),
        metavar="N",
        default=SEED,
        help=f"seed of the noise (default {SEED})",
    )
    words.add_argument(
        "--workers",
        type=whole_within(1, MOST_WORKERS),
        metavar="N",
        help="number of workers on this machine (default one per processor)",
    )
    words.add_argument(
        "--scheduler", metavar="ADDRESS", help="scheduler of dask.distributed, for example tcp://host:8786"
    )
    words.add_argument(
        "--minutes",
        type=number_above(0, MOST_MINUTES),
        metavar="N",
        default=MINUTES,
        help=f"longest time of a run, in minutes (default {MINUTES:g})",
    )
    words.add_argument(
        "--out", type=CountsFolder, metavar="DIR", help="folder of the counts (default SCRIPT's name and .curve)"
    )
    words.add_argument(
        "--beside",
        type=InputFolder,
        action="append",
        default=[],
        metavar="DIR",
        help="another folder to draw; may be repeated",
    )
    words.add_argument("--title", type=title_of, metavar="TEXT", help="title of the picture")
    words.add_argument(
        "--against",
        type=InputFile,
        metavar="CSV",
        help="compare the counts with those of an older curve.csv, at most 16 MiB",
    )
    words.add_argument(
        "--limits",
        type=InputFile,
        metavar="FILE",
        help="compare the shares of frames in error with the limits in this file",
    )
    add_result_options(words)
    return words


def text_of(path: str) -> str:
    """The text of a script; refuses one that is longer than the program takes."""
    try:
        return io.StringIO(read_within(path, MEGABYTE).decode("ascii"), newline=None).read()
    except UnicodeDecodeError:
        raise Refused(f"{path}: not a script: it isn't ASCII text") from None


def label_of(program: str, words: str, antenna: Antenna | None) -> str:
    """A receiver's name in tables and pictures."""
    over = f" over {antenna.text or 'one path'}" if antenna else ""
    return f"{os.path.basename(program)} {words}{over}"


def check_labels(curves: Sequence[Curve]) -> None:
    """Refuses receivers that tables couldn't distinguish."""
    labels = [curve.label for curve in curves]
    twice = sorted({label for label in labels if labels.count(label) > 1})
    if twice:
        raise Refused(f"two receivers are called {twice[0]!r}: give --receiver by another name, or each --words once")


def setup_of(options: argparse.Namespace) -> Setup:
    """The setup that the arguments name."""
    text = text_of(options.script)
    traffic = chosen_channel(read_script(text, options.script), options.row, options.script)
    if len({frame.kind for frame in traffic.frames}) > 1:
        raise Refused(f"{options.script}: the traffic channel has frame and frame2 lines")
    maker = find_program(options.program)
    programs = [maker] if options.receiver is None else [os.path.abspath(options.receiver), maker]
    curves = [
        Curve(program, digest(program), words_of(given, traffic), label_of(program, given, options.channel))
        for given in options.words or [COMMANDS[traffic.frames[0].kind][0]]
        for program in programs
    ]
    curves = list(dict.fromkeys(curves))
    check_labels(curves)
    return Setup(
        name=options.script,
        text=text,
        row=traffic.row,
        others=tuple(text_of(path) for path in options.other),
        paths=tuple(options.path),
        maker=maker,
        maker_checksum=digest(maker),
        curves=tuple(curves),
        seed=options.seed,
        minutes=options.minutes,
        numpy_version=versions_of(options.channel),
        antenna=options.channel,
    )


def levels_of(options: argparse.Namespace, ready: Prepared, channel: Channel) -> dict[int, float]:
    """The level of noise of each point, by the channel's Eb/Nt."""
    levels = {
        point: ready.air.sigma(channel, point / 1_000) for point in points_of(options.begin, options.end, options.step)
    }
    if options.channel is None:
        check_room(ready.greatest, max(levels.values()))
    return levels


@contextlib.contextmanager
def kept_at_interrupt(store: Store) -> Iterator[None]:
    """Adds to the line of an interrupt that what was counted is kept, if anything was."""
    try:
        yield
    except KeyboardInterrupt:
        pass_over_interrupts()
        raise KeyboardInterrupt("; the same command continues from what was counted" * store.has_counts) from None


def measure(options: argparse.Namespace, setup: Setup, ledger: Ledger, levels: dict[int, float], store: Store) -> None:
    """Does what a ledger has left; each batch is kept as it comes."""
    left = ledger.left()
    if not left:
        return
    workers = options.workers or os.cpu_count() or 1
    cluster = connected(options.scheduler, workers)
    is_of_processes = options.scheduler is None and workers > 1
    quiet = quietly(cluster, remove_own_folders) if is_of_processes else cluster
    with quiet as client, bar(total=left, text="curve", unit="files") as shown:

        def keep(point: int, batch: int, counts: list[Counts]) -> None:
            """Keeps the counts of a batch."""
            nonlocal left
            store.add(point, batch, counts)
            shown.update(left - ledger.left())
            left = ledger.left()

        hand_out(client, setup, ledger, levels, keep)


def rows_of(setup: Setup, ready: Prepared, ledger: Ledger, levels: dict[int, float]) -> list[report.Row]:
    """The rows of all points that have enough."""
    channels = channels_of(ready.script, ready.traffic)
    rows = []
    for point, sigma in levels.items():
        for curve, counts in zip(setup.curves, ledger.counted(point) or ()):
            rows += [
                report.row_of(curve.label, channel, counts[name], point, sigma, ready.air, setup.seed)
                for name, channel in channels.items()
                if name in counts
            ]
    return rows


def compared(kept: Sequence[report.Row], rows: Sequence[report.Row], path: str) -> Result:
    """Returns the result of a comparison with older rows, and writes the differences to standard error."""
    differing = report.differences(kept, rows)
    for line in differing:
        said(called("curve"), line)
    return Result("against", f"the counts are those of {path}", said=tuple(differing))


def told(options: argparse.Namespace, cases: Sequence[Result], rows: Sequence[report.Row]) -> int:
    """Writes the table and the results; the exit status."""
    results = Results("curve", options, len(cases))
    if results.is_text:
        report.print_table(rows, sys.stdout, options.channel is not None)
    for case in cases:
        results.take(case, f"{case.name}: {case.said[0] if case.said else 'met'}\n" if options.limits else "")
    return 1 if results.end("") else 0


def run(options: argparse.Namespace) -> int:
    """Measures, writes and draws; the exit status."""
    if options.out is None:
        options.out = CountsFolder(os.path.splitext(os.path.basename(options.script))[0] + ".curve")
        refuse_overwriting(vars(options).values())
    folder = options.out
    setup = setup_of(options)
    beside = [row for path in options.beside for row in report.read_csv(os.path.join(path, TABLE))]
    kept = report.read_csv(options.against) if options.against else None
    points = points_of(options.begin, options.end, options.step)
    limits = read_limits(options.limits, points) if options.limits else None
    check_place(options)
    ready = prepared(setup)
    check_channels(limits or [], channels_of(ready.script, ready.traffic), options.limits)
    levels = levels_of(options, ready, next(iter(channels_of(ready.script, ready.traffic).values())))
    frames = min(len(wanted.frames) for wanted in ready.wanted)
    with contextlib.closing(opened(folder, setup)) as store, kept_at_interrupt(store):
        if setup.antenna:
            check_lock(setup, setup.antenna, ready)
        rule = Rule(options.frames, options.errors)
        # A lock may begin after the first frames of a recording, so that a file has fewer of them.
        most = -(-options.frames * (2 if setup.antenna else 1) // frames)
        ledger = Ledger(list(levels), rule, most, store.done(len(setup.curves)))
        measure(options, setup, ledger, levels, store)
        rows = rows_of(setup, ready, ledger, levels)
        report.write_csv(os.path.join(folder, TABLE), rows)
        title = options.title or plain(f"{os.path.basename(options.script)}, seed {setup.seed}")
        report.draw(os.path.join(folder, PICTURE), [*rows, *beside], title)
        cases = results_of(rows, limits)
        return told(options, cases if kept is None else [*cases, compared(kept, rows, options.against)], rows)


def main(arguments: list[str] | None = None) -> int:
    """Runs the tool, and returns its exit status."""
    words = parser()
    options = words.parse_args(arguments)
    if options.channel and options.path:
        words.error("--path can't be given with --channel, whose --paths has all paths")
    try:
        return run(options)
    except MemoryError:
        raise Refused("out of memory: give the script fewer samples, or fewer --workers") from None
