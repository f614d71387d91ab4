"""The process that listens, and reports to the page's server what it receives."""

import argparse
import contextlib
import os
import signal
import sys
import time
from collections.abc import Iterator, Sequence
from dataclasses import replace

from cdma_tools.commands import listen
from cdma_tools.errors import Refused, printable, text_of
from cdma_tools.frequencies import frequency_given
from cdma_tools.json_lines import LONGEST, as_json, as_line
from cdma_tools.lines import NoLine
from cdma_tools.listening.everything import CarrierListening, places_on
from cdma_tools.listening.line_writer import Already
from cdma_tools.listening.options import counts_of, lock_options, shifts_of, source_of
from cdma_tools.listening.parts import Recording
from cdma_tools.radio.search_policy import policy_of
from cdma_tools.report.heard_lines import is_lines
from cdma_tools.sources.live import Stream
from cdma_tools.sources.stored import is_described, stored_of
from cdma_tools.starting import INTERRUPTED
from cdma_tools.view.chip_store import ChipStore
from cdma_tools.view.following import FollowedCell, SeparateListening, separated_cells
from cdma_tools.view.outbox import Outbox
from cdma_tools.view.paced import PacedRecording
from cdma_tools.view.watched import PageWriters, WatchedStream
from cdma_tools.workers import hear_only_parent

FAILED = 1


class NoOutput:
    """An output of lines that go to the page: there is no file that could be opened again."""

    already = Already()

    def write(self, data: bytes) -> None:
        """Nothing is written here."""

    def reopen(self) -> None:
        """Leaves it as it is."""

    def close(self) -> None:
        """Leaves it as it is."""


def shows_lines(options: argparse.Namespace) -> bool:
    """Whether the source is a file of lines that a listening wrote."""
    return options.type is None and not is_described(options.source) and is_lines(options.source)


def lines_in(path: str) -> Iterator[bytes]:
    """Yields the lines of a file as `listen --json` writes them; refuses what is not a line."""
    with open(path, encoding="ascii", errors="replace") as file:
        number = 0
        while text := file.readline(LONGEST):
            number += 1
            try:
                text = text.rstrip("\n")
                if text.startswith("{"):
                    as_line(text)
                else:
                    text = as_json(text)
            except NoLine as why:
                raise Refused(f"{path}: line {number} is invalid: {why}") from None
            yield text.encode("ascii") + b"\n"


def tell_lines(options: argparse.Namespace, outbox: Outbox) -> str:
    """Reports the lines of a file, and returns how it ended."""
    count = 0
    for line in lines_in(options.source):
        outbox.line(line)
        count += 1
    return f"all {count:,} lines were read"


def middle_of(options: argparse.Namespace) -> float | None:
    """Returns the frequency in Hz of the samples' middle, if the command line or the recording gives it."""
    if is_described(options.source):
        return stored_of(options.source, options.rate, options.capture).frequency
    return frequency_given(options)


@contextlib.contextmanager
def followed_cells(
    options: argparse.Namespace, source: Stream | Recording, outbox: Outbox
) -> Iterator[list[FollowedCell]]:
    """Yields the cells that are followed, those of one carrier after the other, the strongest first."""
    cells = listen.cells_wanted(options)
    places = places_on(shifts_of(options), cells)
    if cells is not None and isinstance(source, Recording):
        with separated_cells(source, places, cells, options.speed, outbox) as found:
            yield found
        return
    if isinstance(source, Recording):
        lock = source.lock
    else:
        lock = lock_options(options, source.kind, source.rate, is_live=True)
    yield [FollowedCell(place, replace(lock, shift=place.carrier)) for place in places]


def tell_listening(options: argparse.Namespace, outbox: Outbox, stores: Sequence[ChipStore]) -> str:
    """Listens, and returns how it ended in words; refuses a source in which no pilot was found."""
    wanted, source = listen.channels_wanted(options), source_of(options)
    stream = PacedRecording.of(source, options.speed) if isinstance(source, Recording) else source
    outbox.may_wait = isinstance(source, Recording)
    outbox.tell("source", rate=float(stream.rate), type=stream.kind, frequency=middle_of(options))
    writers = PageWriters(outbox, counts_of(options))
    with followed_cells(options, source, outbox) as cells:
        if listen.has_channels(options):
            outbox.tell("following", places=[[cell.place.cell, cell.place.hertz] for cell in cells])
        lives = [
            WatchedStream(cell, number, wanted, outbox, stores[number], writers) for number, cell in enumerate(cells)
        ]
        hear(lives, [cell.stream for cell in cells if cell.stream is not None], stream)
    if not any(live.listening.is_heard for live in lives):
        policy = policy_of(options)
        raise Refused(f"no pilot stands out anywhere {policy.searched(shifts_of(options)[0])}{policy.advice}")
    return lives[0].summary(sum(live.written for live in lives[1:]))


def hear(lives: Sequence[WatchedStream], own: Sequence[Stream], stream: Stream) -> None:
    """Listens to the streams that cells have of their own, or to the one of all."""
    if own:
        SeparateListening(list(zip(lives, own))).hear()
    elif len(lives) > 1:
        CarrierListening(lives).hear(stream, NoOutput())
    else:
        lives[0].hear(stream, NoOutput())


def run(options: argparse.Namespace, outbox: Outbox, stores: Sequence[ChipStore]) -> int:
    """Reports everything, and its end; returns the exit status."""
    status, text = FAILED, ""
    try:
        if shows_lines(options):
            outbox.may_wait = True
            text = tell_lines(options, outbox)
        else:
            text = tell_listening(options, outbox, stores)
        status = 0
    except Refused as why:
        text = str(why)
    except OSError as why:
        text = text_of(why)
    except MemoryError:
        text = "out of memory"
    except KeyboardInterrupt:
        status, text = INTERRUPTED, "broken off"
    with contextlib.suppress(KeyboardInterrupt):
        outbox.close("ended", status=status, text=printable(text))
    return status


class ListenerProcess:
    """A child of this process that listens; SIGINT ends it in order, a second one breaks it off."""

    def __init__(self, options: argparse.Namespace, stores: Sequence[ChipStore], closed: list[int]) -> None:
        """Starts it, while interrupts are blocked; `closed` are descriptors of files that are not the child's."""
        self.reader, writer = os.pipe()
        sys.stdout.flush()
        sys.stderr.flush()
        self.number = os.fork()
        if self.number:
            os.close(writer)
            return
        try:
            hear_only_parent()
            for descriptor in (self.reader, *closed):
                os.close(descriptor)
            status = run(options, Outbox(writer, may_wait=False), stores)
            sys.stderr.flush()
            os._exit(status)
        finally:
            os._exit(FAILED)

    def stop(self) -> None:
        """Ends it in order, or breaks it off if it is ending already."""
        with contextlib.suppress(ProcessLookupError):
            os.kill(self.number, signal.SIGINT)

    def wait(self, seconds: float) -> int:
        """Returns its status; kills it if it hasn't ended after some seconds."""
        until = time.monotonic() + seconds
        while time.monotonic() < until:
            ended, status = os.waitpid(self.number, os.WNOHANG)
            if ended:
                return status_told(status)
            time.sleep(0.02)
        os.kill(self.number, signal.SIGKILL)
        return status_told(os.waitpid(self.number, 0)[1])


def status_told(status: int) -> int:
    """Returns an exit status of a process, FAILED if a signal ended it."""
    code = os.waitstatus_to_exitcode(status)
    return code if code >= 0 else FAILED
