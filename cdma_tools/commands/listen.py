"""Listens to a recording of any length, or to a live source, and writes a line for each event.

SOURCE is a file of interleaved samples, in-phase part first, or - for standard input, with --type and --rate; a
recording that has both: a .sigmf-meta, a SigMF archive (.sigmf) or a .wav of a radio program; or a live source:

    rtl_tcp://HOST:PORT   a server with the protocol of rtl_tcp, of cu8, which is tuned by --rate, --frequency, --gain,
                          --ppm, --bias-tee and --agc; if it goes away it is tried again every 5 seconds
    tcp://HOST:PORT       a server that sends samples of --type and nothing else
    udp://HOST:PORT       datagrams with samples of --type that come to this port of this machine
    zmq://HOST:PORT       a PUB socket with cf32_le, as GNU Radio has it (needs python3-zmq)
    soapy:driver=NAME     a radio that SoapySDR knows, which is tuned as above (needs python3-soapysdr)

--channel N --band 800 replaces --frequency. A live source that is silent for 10 seconds, or fails, ends the listening
with one line and status 1; what was received stays. The tool finds the strongest pilot and follows its carrier and
clock without end. A handset of cdma_replay follows it, and its lines appear at most half a second after their chips.

The lines are those of `cdma_replay follow` (docs/FORMATS.md), but at counts chips from the start of the recording,
however long that is. --json writes each as an object, with time_utc once the base station has sent the time. If samples
are lost, or the pilot fades, zeros replace the chips; a pilot that is away for more than two seconds is searched again.
Standard error has a line for each of these, with the second of the recording.

With --out the lines are added to a file, only complete ones, as JSON if its name ends with .jsonl. After an
interruption the same arguments continue a file of samples after the last line there. A stream can't be continued:
with --append its lines are added after those of another one, and a line "origin" has the time from which they count. At
SIGHUP the file is opened again by its name, as logrotate needs it.

With a stream, Ctrl-C or SIGTERM ends the tool in an orderly way: what has arrived is decoded, a summary is printed, and
the status says whether a pilot was found. A second one ends it at once.

With --pcapng messages and frames are also written as packets, which Wireshark shows with the dissector
share/cdma-replay/is95.lua (docs/FORMATS.md). Each is written with its line, so Wireshark can show them live. FILE is
replaced. But a run that continues after the lines of --out, or adds to them with --append, adds a section with
the packets of its new lines, after the last whole packet.

    tools/listen --type cu8 --rate 2400000 --pcapng - radio.cu8 | wireshark -k -i -

--meta writes notes of SigMF (core:annotations) on what was decoded of a file of samples, each on the samples in which
it was sent: a sync message on its frames, any other message on the frame in which it ends. If samples were lost, a
capture begins after them, whose core:global_index counts them too. It keeps what FILE has already, or what the
recording's own .sigmf-meta has. The samples of a stream are in no file, so it can have no notes. A run that continues
after the lines of --out decodes the recording from its start again, since all lines get notes.

Several channels of the cell can be followed at once, over the same chips: paging channels with --paging 1,2, or all
that have a message with --paging all, and traffic channels with --traffic. Paging channel 1 always counts; each other
one is tried, and counts if a message passes its check within a minute. With --out-dir each channel has a file, as
cell1-paging2.txt, with the lines that listening only to it writes, those of sync messages too; a traffic channel has
those of a paging channel as well. Without it all lines go to standard output. Objects of --json have `cell`, `carrier`
and `channel`.

With --cells K the K strongest cells of a file of samples are listened to, with --pn P those with that PILOT_PN. Each
is freed of the others first, as import_capture does it. That takes longer than the recording lasts, and files of
floating point in $TMPDIR: 8 bytes per sample, and as much again for each cell, for each carrier that is listened to at
once. `cell` counts them by their strength.

With --shift, repeated, several carriers of a wide recording or stream are listened to at once: of a file each by a
process of its own, up to the number of processors, or of --workers. Lines on standard output are in the order of the
carriers. `carrier` is the HZ that was given, and names of files begin with it, as carrier+1250000-cell1-paging1.txt.

    tools/listen day.sigmf-meta --paging all --traffic 00c0ffee:12:2 --traffic 00c0fff0:13:0 --json --out-dir day
    tools/listen wide.sigmf-meta --shift -1250000 --shift 0 --shift 1250000 --out-dir day
    tools/listen day.sigmf-meta --cells 3 --json

A file of samples is processed in parts of --part seconds, by --workers processes of this machine, or by the workers of
a --scheduler of dask.distributed, which need the same file and program at the same paths. The output is the same, byte
for byte, for any number of workers.

    rtl_sdr -f 878490000 -s 2400000 - | tools/listen --type cu8 --rate 2400000 -
    tools/listen --rate 2.4M --frequency 878.49M --gain 30 --json rtl_tcp://radio:1234
    tools/listen --rate 2M --channel 283 soapy:driver=hackrf
    tools/listen --type ci16 --rate 2.5M tcp://radio:7000
    tools/listen day.sigmf-meta --esn 00c0ffee --row 12 --workers 4 --out day.jsonl

Exit status: 0 a pilot was found, 1 none was, or the samples can't be read or the lines written, 2 wrong arguments.
"""

import argparse
import contextlib
import os
from collections.abc import Iterator
from contextlib import AbstractContextManager
from dataclasses import replace
from fractions import Fraction

from cdma_tools.arguments import Parser, number_within, whole_within
from cdma_tools.cell_options import MOST_RANK, OFFSETS
from cdma_tools.errors import Refused, WrongArguments
from cdma_tools.listening.cells import CellsWanted
from cdma_tools.listening.channel_options import (
    LinesFolder,
    Traffic,
    add_channel_options,
    is_several,
    traffic_channels,
)
from cdma_tools.listening.channels import ChannelOutputs, Wanted, wanted_channels
from cdma_tools.listening.everything import Place, Sharing, Writers, hear_file, hear_live, places_on
from cdma_tools.listening.line_writer import LineWriter, Write
from cdma_tools.listening.live import hear_stream
from cdma_tools.listening.output import Output, open_output
from cdma_tools.listening.notes import Notes, noted
from cdma_tools.listening.options import (
    add_handset,
    add_lock,
    add_source,
    check_handset,
    check_source,
    counts_of,
    handset_of,
    lock_options,
    paging_number,
    shifts_of,
    source_of,
)
from cdma_tools.listening.parts import PART, Recording
from cdma_tools.listening.sharing import Channel, hear_recording
from cdma_tools.overwriting import STANDARD, OutputFile, UpdatedFile
from cdma_tools.program import find_program
from cdma_tools.radio.search_policy import policy_of
from cdma_tools.sources.live import Stream
from cdma_tools.sources.options import add_radio_options, note_fault
from cdma_tools.wireshark.capture import Capture
from cdma_tools.wireshark.stream import PacketStream

MOST_WORKERS = 64
LEAST_PART, MOST_PART = 10, 1_000_000
JSON_LINES = ".jsonl"
MAKER = "tools/listen"  # of notes


def add_cells(words: argparse.ArgumentParser) -> None:
    """The arguments that name cells of a file of samples."""
    cells = words.add_argument_group("several cells of a file of samples").add_mutually_exclusive_group()
    strongest = "listen to the K strongest cells, each without the others, which are decoded and subtracted"
    cells.add_argument("--cells", type=whole_within(1, MOST_RANK), metavar="K", help=strongest)
    named = "listen only to the cell with PILOT_PN P, without the stronger ones; may be repeated"
    cells.add_argument("--pn", type=whole_within(0, OFFSETS - 1), action="append", metavar="P", help=named)


def parser() -> Parser:
    """The arguments of the command line."""
    words = Parser("listen", __doc__)
    add_source(words)
    words.add_argument("--json", action="store_true", help="write objects, with their time in UTC")
    out = "add the lines to a file, and continue after those already there"
    words.add_argument("--out", type=OutputFile, metavar="FILE", help=out)
    folder = "add the lines of each channel to a file of this folder, as --out does: .txt, or .jsonl with --json"
    words.add_argument("--out-dir", type=LinesFolder, metavar="FOLDER", help=folder)
    append = "with a stream: add to a file that has lines of another one, after a line with the new origin"
    words.add_argument("--append", action="store_true", help=append)
    packets = (
        "write packets of messages and frames to FILE, or to standard output if it is - (then lines only with --out)"
    )
    words.add_argument("--pcapng", type=OutputFile, metavar="FILE", help=packets)
    notes = "write the recording's .sigmf-meta with notes on what was decoded; for a file of samples"
    words.add_argument("--meta", type=UpdatedFile, metavar="FILE", help=notes)
    add_radio_options(words)
    add_handset(words)
    add_channel_options(words)
    add_cells(words)
    add_lock(words)
    shared = words.add_argument_group("files of samples")
    lasts = f"seconds of a part (default {PART:.0f})"
    shared.add_argument("--part", type=number_within(LEAST_PART, MOST_PART), default=PART, metavar="S", help=lasts)
    where = shared.add_mutually_exclusive_group()
    many = "number of processes of this machine (default 1; with several carriers 1 for each, up to the processors)"
    where.add_argument("--workers", type=whole_within(1, MOST_WORKERS), metavar="N", help=many)
    where.add_argument("--scheduler", metavar="ADDRESS", help="scheduler of dask.distributed, as tcp://HOST:8786")
    return words


def has_channels(options: argparse.Namespace) -> bool:
    """Whether channels are listened to by their names: several of them, of cells or carriers, or one into a folder."""
    has_cells = options.cells is not None or options.pn is not None
    return is_several(options) or has_cells or len(shifts_of(options)) > 1 or options.out_dir is not None


def check_cells(words: argparse.ArgumentParser, options: argparse.Namespace) -> None:
    """Ends with status 2 if a cell is named twice."""
    if len(set(options.pn or ())) != len(options.pn or ()):
        words.error("--pn: a cell is given twice")


def check_channels(words: argparse.ArgumentParser, options: argparse.Namespace) -> None:
    """Ends with status 2 if arguments of an output don't go with several channels."""
    if not has_channels(options):
        return
    if given := [name for name in ("out", "pcapng", "meta") if getattr(options, name) is not None]:
        words.error(f"--{given[0]} goes with one channel; several have --out-dir")
    if options.raw and options.json:
        words.error("--raw has a channel of its own in an object: give it without --json")
    if options.out_dir is not None and os.path.exists(options.out_dir) and not os.path.isdir(options.out_dir):
        words.error(f"{options.out_dir} is not a folder")


def check(words: argparse.ArgumentParser, options: argparse.Namespace) -> None:
    """Ends with status 2 if arguments don't go together."""
    check_source(words, options)
    check_handset(words, options)
    check_cells(words, options)
    check_channels(words, options)
    if options.append and options.out is None and options.out_dir is None:
        words.error("--append needs --out or --out-dir")
    if fault := note_fault(options.source, options.meta, options.capture):
        words.error(fault)
    if options.json and options.pcapng == STANDARD and options.out is None:
        words.error("--json needs --out if standard output has the packets")
    if options.out is not None and os.path.isdir(options.out):
        words.error(f"{options.out} is a folder")


def check_output(options: argparse.Namespace, is_recording: bool, output: Output, path: str | None) -> None:
    """Refuses an output with lines that can't be gone on with."""
    if is_recording and options.append:
        raise WrongArguments("--append goes with a stream; listening to a file of samples continues without it")
    if is_recording and output.already.has_origin:
        raise Refused(f"{path}: it has lines of streams, so those of a file of samples can't be added")
    if not is_recording and output.already.lines and not options.append:
        raise Refused(f"{path}: it has lines: give --append to add those of another stream, or name another file")


@contextlib.contextmanager
def opened_packets(options: argparse.Namespace, is_continued: bool) -> Iterator[PacketStream | None]:
    """Yields where packets go, if they are asked for: to a new file, or after those of a file that is continued."""
    if options.pcapng is None:
        yield None
        return
    with contextlib.closing(Capture(options.pcapng, is_continued)) as capture:
        yield PacketStream(capture.write, paging_number(options), options.row or 0)


def notes_on(options: argparse.Namespace, source: Stream | Recording) -> AbstractContextManager[Notes | None]:
    """Returns where notes on what was decoded go, if they are asked for; they are written at the end."""
    if options.meta is None or not isinstance(source, Recording):
        return contextlib.nullcontext()
    lock = source.lock
    return noted(options.meta, options.source, lock.kind, Fraction(lock.rate), source.path, MAKER)


def lines_to(options: argparse.Namespace, output: Output) -> Write:
    """Returns what writes lines: nothing does if standard output has the packets, and no file is named for lines."""
    is_dropped = options.pcapng == STANDARD and options.out is None
    return (lambda data: None) if is_dropped else output.write


def listen(options: argparse.Namespace) -> int:
    """Listens, and returns the exit status; refuses a source without a pilot."""
    is_heard = hear_channels(options) if has_channels(options) else hear_one(options)
    if not is_heard:
        policy = policy_of(options)
        raise Refused(f"no pilot stands out anywhere {policy.searched(shifts_of(options)[0])}{policy.advice}")
    return 0


def places_of(options: argparse.Namespace) -> list[Place]:
    """Returns the places of a stream that the options name."""
    return places_on(shifts_of(options))


def channels_wanted(options: argparse.Namespace) -> list[Wanted]:
    """Returns the channels that the options name, without a name if there is only one handset."""
    base = handset_of(options)
    if not has_channels(options):
        return [Wanted(base)]
    if options.esn is not None:
        return [Wanted(replace(base, name=Traffic(options.esn, options.row, options.offset or 0).name))]
    return wanted_channels(base, options.paging, traffic_channels(options))


def cells_wanted(options: argparse.Namespace) -> CellsWanted | None:
    """Returns the cells that the options name, None if it is the strongest one of all."""
    if options.cells is None and options.pn is None:
        return None
    return CellsWanted(options.cells, tuple(options.pn or ()), find_program(options.program))


def hear_channels(options: argparse.Namespace) -> bool:
    """Listens to the channels that the options name, and returns whether a pilot was found."""
    wanted, cells, source = channels_wanted(options), cells_wanted(options), source_of(options)
    is_recording = isinstance(source, Recording)
    if cells is not None and not is_recording:
        raise WrongArguments("--cells and --pn go with a file of samples")

    def check(output: Output, path: str) -> None:
        check_output(options, is_recording, output, path)

    with ChannelOutputs(options.out_dir, options.json) as outputs:
        writers = Writers(outputs, counts_of(options), is_recording, check)
        if isinstance(source, Recording):
            sharing = Sharing(options.part, options.workers, options.scheduler)
            return hear_file(source, shifts_of(options), cells, wanted, writers, sharing)
        lock = lock_options(options, source.kind, source.rate, is_live=True)
        return hear_live(source, lock, places_of(options), wanted, writers)


def hear_one(options: argparse.Namespace) -> bool:
    """Listens by one handset, and returns whether a pilot was found."""
    source, handset, counts = source_of(options), handset_of(options), counts_of(options)
    is_json = options.json or (options.out or "").endswith(JSON_LINES)
    with contextlib.closing(open_output(options.out, is_json)) as output:
        check_output(options, isinstance(source, Recording), output, options.out)
        is_continued = options.append or output.already.lines > 0
        with opened_packets(options, is_continued) as packets, notes_on(options, source) as notes:
            already = output.already if isinstance(source, Recording) else None
            writer = LineWriter(lines_to(options, output), is_json, counts, already)
            writer.packets, writer.notes = packets, notes
            if isinstance(source, Recording):
                channels = [Channel(handset, writer)]
                is_heard = hear_recording(source, channels, options.part, options.workers, options.scheduler)
            else:
                lock = lock_options(options, source.kind, source.rate, is_live=True)
                is_heard = hear_stream(source, lock, handset, writer, output, output.already.lines > 0)
    return is_heard


def main(arguments: list[str] | None = None) -> int:
    """Runs the tool, and returns its exit status."""
    words = parser()
    options = words.parse_args(arguments)
    check(words, options)
    return listen(options)
