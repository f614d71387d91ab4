"""Any source as samples in a file, for the tools that read a recording in any order, or more than once.

A recording in a regular file is read where it stands. Of standard input and of a live source at most --seconds are
received into a file of $TMPDIR first. If a source fails, or sends half a sample, what came before is taken: the tool
does its work on that, and then reports the fault with its status.
"""

import argparse
import contextlib
import os
import tempfile
from collections.abc import Iterator
from dataclasses import dataclass
from fractions import Fraction
from typing import IO

from cdma_tools.errors import Refused
from cdma_tools.frequencies import frequency_given
from cdma_tools.radio.guessing import AUTO, GUESSED, type_of
from cdma_tools.recordings import TYPES
from cdma_tools.sources.backlog import Backlog, Item, Skipped
from cdma_tools.sources.live import Stream
from cdma_tools.sources.options import stream_of
from cdma_tools.sources.stored import is_described, stored_of

GUESSED_BYTES = 1 << 18  # after which the type of a stream is guessed


@dataclass(frozen=True)
class TakenSource:
    """Samples in a file: type, rate, place, the frequency of their middle in Hz, and what there is to say of them."""

    name: str  # of the source
    kind: str
    rate: Fraction
    path: str
    frequency: float | None = None
    remarks: tuple[str, ...] = ()
    fault: str = ""  # of a source that failed after these samples
    file: IO[bytes] | None = None  # that goes when this is closed

    @property
    def hints(self) -> list[str]:
        """What may explain that a tool refuses the samples."""
        return [*self.remarks, *([self.fault] if self.fault else [])]

    def explained(self, why: Refused) -> Refused:
        """A refusal of these samples with what may explain it, by the name of the source."""
        text = str(why) if self.file is None else str(why).replace(self.path, self.name)
        return Refused("; ".join([text, *self.hints]))

    def close(self) -> None:
        """Removes the file of what was received."""
        if self.file is not None:
            self.file.close()

    def __enter__(self) -> "TakenSource":
        return self

    def __exit__(self, *_: object) -> None:
        self.close()


@contextlib.contextmanager
def taken(name: str, options: argparse.Namespace) -> Iterator[TakenSource]:
    """Yields the samples of a source. A refusal is explained by what is known of them; a source's fault comes last."""
    with take(name, options) as found:
        try:
            yield found
        except Refused as why:
            raise found.explained(why) from None
        if found.fault:
            raise Refused(found.fault)


def take(name: str, options: argparse.Namespace) -> TakenSource:
    """The samples that a name and arguments describe; refuses a source of which nothing can be taken."""
    if (stream := stream_of(name, options)) is not None:
        return received(stream, options)
    given = frequency_given(options)
    if is_described(name):
        stored = stored_of(name, options.rate, options.capture)
        remarks = remarks_on(name, stored.kind, stored.path, is_guessed=False)
        middle = stored.frequency if given is None else given
        return TakenSource(name, stored.kind, stored.rate, stored.path, middle, remarks)
    kind = type_of(name) if options.type == AUTO else options.type
    remarks = remarks_on(name, kind, name, options.type == AUTO)
    return TakenSource(name, kind, options.rate, name, given, remarks)


def remarks_on(name: str, kind: str, path: str, is_guessed: bool) -> tuple[str, ...]:
    """Returns the remarks on the samples' type: that it was taken from the bytes, or that these look like another."""
    if is_guessed:
        return (f"the sample type is guessed from the bytes: {kind}",)
    if kind not in GUESSED:
        return ()
    try:
        looks = type_of(path)
    except Refused:
        return ()
    if looks == kind:
        return ()
    return (f"the samples are read as {kind}, but their bytes look like {looks}: is the type right?",)


class Receiving:
    """The samples of a stream, which are written into a file up to a number of seconds."""

    def __init__(self, stream: Stream, seconds: float, file: IO[bytes]) -> None:
        """Begins with nothing."""
        self.stream, self.file, self.kind = stream, file, stream.kind
        self.samples = max(1, int(seconds * stream.rate))  # that are wanted
        self.held = 0  # bytes
        self.fault = ""

    @property
    def is_guessed(self) -> bool:
        """Whether the type is to be taken from the bytes."""
        return self.stream.kind == AUTO

    @property
    def most(self) -> int:
        """The greatest number of bytes that are wanted; of the largest type while that isn't known."""
        sizes = [TYPES[self.kind].size] if self.kind in TYPES else [kind.size for kind in TYPES.values()]
        return self.samples * max(sizes)

    def take_all(self, backlog: Backlog) -> None:
        """Takes what comes, up to the end, to a fault, or until there is enough."""
        try:
            for item in backlog:
                self.take(item)
                if self.fault or self.held >= self.most:
                    return
        except Refused as why:
            self.fault = str(why)

    def take(self, item: Item) -> None:
        """Takes a piece. Samples that were lost end the recording, which has no gaps."""
        if isinstance(item, bytes):
            self.file.write(item)
            self.held += len(item)
            if self.kind == AUTO and self.held >= GUESSED_BYTES:
                self.guess()
        elif isinstance(item, Skipped):
            self.fault = f"{self.stream.name}: {item.samples} samples are missing: {item.why}"
        else:
            self.fault = item.text

    def guess(self) -> None:
        """Takes the type from the bytes that have come."""
        self.file.flush()
        self.kind = type_of(self.file.name)

    def finish(self) -> list[str]:
        """Cuts the file to whole samples; returns the remarks on what came."""
        if self.kind == AUTO and self.held:
            self.guess()
        size = TYPES[self.kind].size if self.kind in TYPES else 1
        whole, name = min(self.held, self.most) // size, self.stream.name
        if not whole:
            raise Refused(self.fault or f"{name}: no samples arrived")
        self.file.truncate(whole * size)
        self.file.flush()
        remarks = []
        if self.stream.live is not None and not self.fault and whole < self.samples:
            remarks.append(f"{name}: the stream ended after {float(whole / self.stream.rate):.3f} s")
        if self.held < self.most and (rest := self.held - whole * size):
            remarks.append(f"{name}: the stream ended within a sample: its last {rest} bytes were dropped")
        return remarks


def received(stream: Stream, options: argparse.Namespace) -> TakenSource:
    """The samples that are received of a stream, in a file of their own."""
    seconds = options.most_seconds if options.seconds is None else options.seconds
    with contextlib.ExitStack() as stack:
        file = stack.enter_context(tempfile.NamedTemporaryFile(prefix="received-"))
        path, receiving = os.path.abspath(file.name), Receiving(stream, seconds, file)
        try:
            with stream.opened(is_tried_again=False) as backlog:
                receiving.take_all(backlog)
            remarks = receiving.finish()
        except Refused as why:
            raise Refused(str(why).replace(path, stream.name)) from None
        except OSError as why:
            raise Refused(f"{path}: {why.strerror}") from None
        kind = receiving.kind
        remarks += remarks_on(stream.name, kind, path, receiving.is_guessed)
        stack.pop_all()
    middle = frequency_given(options)
    return TakenSource(stream.name, kind, stream.rate, path, middle, tuple(remarks), receiving.fault, file)
