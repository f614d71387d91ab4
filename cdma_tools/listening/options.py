"""Options of a listening: its source, the handset and the lock, and what they describe."""

import argparse
import os
from fractions import Fraction

from cdma_tools.arguments import Within, number_within, rational, whole_within, wrong
from cdma_tools.errors import Refused
from cdma_tools.listening.channel_options import SERIAL, SYNC_ROW, channels_fault, paging_of
from cdma_tools.listening.follow_run import Handset
from cdma_tools.listening.parts import Recording
from cdma_tools.listening.stream_lock import LockOptions
from cdma_tools.overwriting import STANDARD, InputFile
from cdma_tools.program import add_program_option, find_program
from cdma_tools.radio.air import CHIP_RATE
from cdma_tools.radio.search_policy import TRIES, add_search_options, policy_of
from cdma_tools.recordings import TYPES, absolute, sample_count
from cdma_tools.sources.live import Stream, scheme_of
from cdma_tools.sources.options import SOURCE_HELP, add_sample_options, source_fault, stream_of
from cdma_tools.sources.stored import is_described, stored_of

MOST_RATE, MOST_SHIFT = 100_000_000, 50_000_000
MOST_EVENTS = 4_294_967_295


def serial_of(text: str) -> str:
    """An electronic serial number."""
    if not SERIAL.fullmatch(text):
        raise wrong("not eight lower-case hex digits", text)
    return text


def add_handset(words: argparse.ArgumentParser) -> None:
    """The arguments that name what is followed."""
    handset = words.add_argument_group("the handset")
    handset.add_argument("--esn", type=serial_of, metavar="H", help="serial number, eight hex digits; needs --row")
    for name, least, most, default, what in (
        ("row", 1, 63, None, "Walsh row of its traffic channel, not 32"),
        ("offset", 0, 15, None, "FRAME_OFFSET of that channel (default 0)"),
        ("fingers", 1, 3, 1, "number of paths to follow (default 1)"),
    ):
        handset.add_argument(f"--{name}", type=whole_within(least, most), default=default, metavar="N", help=what)
    paging = "paging channel to decode, 1 to 7; several as 1,2; or all that have messages (default 1)"
    handset.add_argument("--paging", type=paging_of, metavar="N", help=paging)
    for name, what in (
        ("pilots", "events of the pilot and its sets, over the whole recording (default all)"),
        ("messages", "messages (default all)"),
        ("frames", "frames (default all)"),
        ("raw", "messages as received (default none)"),
    ):
        handset.add_argument(f"--{name}", type=whole_within(0, MOST_EVENTS), metavar="N", help=f"at most N {what}")
    for bits in (30, 16):
        what = f"the {bits}-bit checks of messages are sent complemented"
        handset.add_argument(f"--complement-{bits}", action="store_true", help=what)


def add_source(words: argparse.ArgumentParser) -> None:
    """The source, its samples, and the program that follows."""
    words.add_argument("source", type=InputFile, metavar="SOURCE", help=SOURCE_HELP)
    add_sample_options(words, Within(rational, CHIP_RATE, MOST_RATE), tuple(TYPES))
    add_program_option(words)


def add_lock(words: argparse.ArgumentParser) -> None:
    """The arguments that say where the pilot is searched."""
    lock = words.add_argument_group("the lock")
    middle = "search the first carrier around one that lies HZ above the middle (default 0); may be repeated"
    shift = number_within(-MOST_SHIFT, MOST_SHIFT)
    lock.add_argument("--shift", type=shift, action="append", metavar="HZ", help=middle)
    add_search_options(lock)
    sent = "whether the base station has a phase equaliser (default try)"
    lock.add_argument("--equaliser", choices=TRIES, default="try", help=sent)


def check_source(words: argparse.ArgumentParser, options: argparse.Namespace) -> None:
    """Ends with status 2 if arguments don't go with the source."""
    if fault := source_fault(options.source, options):
        words.error(fault)


def check_handset(words: argparse.ArgumentParser, options: argparse.Namespace) -> None:
    """Ends with status 2 if arguments of the handset don't go together."""
    if (options.esn is None) != (options.row is None):
        words.error("--esn and --row need each other")
    if options.offset is not None and options.row is None:
        words.error("--offset needs --esn and --row")
    if fault := channels_fault(options):
        words.error(fault)
    if len(set(shifts_of(options))) != len(shifts_of(options)):
        words.error("--shift: a carrier is given twice")
    if options.row in (SYNC_ROW, paging_number(options)):
        words.error(f"--row {options.row} is the row of the sync channel or of the paging channel")


def shifts_of(options: argparse.Namespace) -> list[float]:
    """Returns the places around which carriers are searched, in Hz above the middle."""
    return options.shift or [0.0]


def paging_number(options: argparse.Namespace) -> int:
    """Returns the paging channel of the handset, or of the first one."""
    return options.paging[0] if options.paging else 1


def lock_options(options: argparse.Namespace, kind: str, rate: Fraction, is_live: bool = False) -> LockOptions:
    """Returns the options of the lock."""
    if rate < CHIP_RATE:
        raise Refused(f"{float(rate):.0f} samples a second are fewer than the chip rate, {CHIP_RATE}")
    return LockOptions(
        kind, float(rate), options.fingers, shifts_of(options)[0], options.search, policy_of(options).conjugate,
        options.equaliser, is_live,
    )  # fmt: skip


def flags_of(options: argparse.Namespace) -> int:
    """Returns the flags of sample files: which checks of messages are sent complemented."""
    return (1 if options.complement_30 else 0) | (2 if options.complement_16 else 0)


def handset_of(options: argparse.Namespace) -> Handset:
    """The handset that follows."""
    return Handset(
        program=find_program(options.program),
        fingers=options.fingers,
        paging=paging_number(options),
        esn=options.esn,
        row=options.row,
        offset=options.offset or 0,
        is_raw=bool(options.raw),
        flags=flags_of(options),
    )


def counts_of(options: argparse.Namespace) -> dict[str, int]:
    """Returns the greatest number of events of each kind to write."""
    given = {name: getattr(options, name) for name in ("pilots", "messages", "frames")}
    return {"raw": options.raw or 0, **{name: value for name, value in given.items() if value is not None}}


def check_there(options: argparse.Namespace) -> None:
    """Refuses a file that isn't there."""
    if scheme_of(options.source) is None and options.source != STANDARD:
        os.stat(options.source)


def source_of(options: argparse.Namespace) -> Stream | Recording:
    """The stream or the recording that is listened to; refuses one that isn't there."""
    if (stream := stream_of(options.source, options)) is not None:
        return stream
    kind, rate, path = options.type, options.rate, options.source
    if is_described(options.source):
        stored = stored_of(options.source, options.rate, options.capture)
        kind, rate, path = stored.kind, stored.rate, stored.path
    # A worker may have another working directory.
    return Recording(absolute(path), sample_count(path, kind), lock_options(options, kind, rate))
