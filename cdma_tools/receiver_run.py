"""A run of a receiver that may hang, die, or write without end: it is ended in time, and described by what it did."""

import contextlib
import dataclasses
import os
import selectors
import signal
import subprocess
import tempfile
import threading
import time
from collections.abc import Iterator, Sequence
from typing import IO

from cdma_tools.errors import Refused

# How much more than what is wanted a receiver may write before it is ended, and how much on standard error.
MOST_MORE = 1 << 26
MOST_TOLD = 1 << 20
READ_BYTES = 1 << 16


@dataclasses.dataclass(frozen=True)
class Ran:
    """The end of a run: its status, its outputs, and why it was ended, empty if it ended itself."""

    status: int
    wrote: bytes
    told: bytes
    fault: str = ""


class Stopped(Exception):
    """Why a run was ended, in words."""


def time_text(seconds: float) -> str:
    """Returns a time in words, in whole minutes if it has them."""
    if seconds % 60:
        return f"{seconds:g} seconds"
    return f"{seconds / 60:g} minute" + ("" if seconds == 60 else "s")


def ended_text(status: int) -> str:
    """Returns how a run ended, in words: its status, or the signal that ended it."""
    if status >= 0:
        return f"status {status}"
    with contextlib.suppress(ValueError):
        return f"ended by {signal.Signals(-status).name}"
    return f"ended by signal {-status}"


@contextlib.contextmanager
def as_file(data: bytes) -> Iterator[IO[bytes]]:
    """A file with these bytes, to be read from its start."""
    with tempfile.TemporaryFile() as file:
        file.write(data)
        file.seek(0)
        yield file


def feed(end: int, data: bytes) -> None:
    """Writes bytes into a pipe and closes it; what is not read is lost."""
    with contextlib.suppress(BrokenPipeError), open(end, "wb") as pipe:
        pipe.write(data)


@contextlib.contextmanager
def as_pipe(data: bytes) -> Iterator[int]:
    """The end of a pipe from which these bytes are read: no disk is needed for them."""
    reading, writing = os.pipe()
    feeder = threading.Thread(target=feed, args=(writing, data), daemon=True)
    feeder.start()
    try:
        yield reading
    finally:
        os.close(reading)
        feeder.join()


def run_receiver(
    command: Sequence[str],
    source: IO[bytes] | int,
    seconds: float,
    most: int = MOST_MORE,
    sink: int = subprocess.PIPE,
    is_group: bool = False,
) -> Ran:
    """Runs a receiver over an open input; `most` are the bytes that it may write.

    With is_group it has a process group of its own, of which nothing is left at the end, whatever it has begun.
    """
    try:
        group = 0 if is_group else None
        child = subprocess.Popen(command, stdin=source, stdout=sink, stderr=subprocess.PIPE, process_group=group)
    except OSError as why:
        raise Refused(f"{command[0]}: {why.strerror}") from None
    wrote, told, fault = bytearray(), bytearray(), ""
    with child:
        try:
            follow(child, wrote, told, seconds, most)
        except Stopped as why:
            fault = str(why)
        finally:
            stop(child, is_group)
    return Ran(child.returncode, bytes(wrote), bytes(told), fault)


def stop(child: subprocess.Popen[bytes], is_group: bool) -> None:
    """Ends a run, with its group: the group exists until its first process is waited for."""
    with contextlib.suppress(ProcessLookupError, PermissionError):
        if is_group:
            os.killpg(child.pid, signal.SIGKILL)
    child.kill()


def follow(child: subprocess.Popen[bytes], wrote: bytearray, told: bytearray, seconds: float, most: int) -> None:
    """Reads the outputs of a run until it and both outputs have ended; raises `Stopped` at a bound."""
    until = time.monotonic() + seconds
    outputs = [
        (stream, kept, bound, name)
        for stream, kept, bound, name in (
            (child.stdout, wrote, most, "standard output"),
            (child.stderr, told, MOST_TOLD, "standard error"),
        )
        if stream is not None
    ]
    end = os.pidfd_open(child.pid)
    with os.fdopen(end, "rb", buffering=0) as ending, selectors.DefaultSelector() as selector:
        selector.register(ending, selectors.EVENT_READ)
        for output in outputs:
            selector.register(output[0], selectors.EVENT_READ, output)
        while selector.get_map():
            left = until - time.monotonic()
            ready = selector.select(max(0.0, left))
            if left <= 0 or not ready:
                raise Stopped(late(ending in {key.fileobj for key in selector.get_map().values()}, seconds))
            for key, _ in ready:
                if key.data is None or not took(key.fd, *key.data[1:]):
                    selector.unregister(key.fileobj)


def took(descriptor: int, kept: bytearray, most: int, name: str) -> bool:
    """Reads a piece of an output; returns False at its end. Raises `Stopped` if the output is longer than allowed."""
    piece = os.read(descriptor, READ_BYTES)
    kept += piece
    if len(kept) > most:
        raise Stopped(f"it wrote more than {most:,} bytes on {name}, and was stopped")
    return bool(piece)


def late(is_running: bool, seconds: float) -> str:
    """Why a run is ended whose time is over."""
    if is_running:
        return f"it didn't end within {time_text(seconds)}"
    return f"it ended, but a process that it began held its output longer than {time_text(seconds)}"
