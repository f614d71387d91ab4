"""What a thread has taken from a source that can't wait, so that a search doesn't make its writer lose samples.

If a server's backlog is full samples are left out, and that is reported; a pipe's writer must wait.
"""

import io
import os
import threading
from collections import deque
from collections.abc import Callable, Iterator
from dataclasses import dataclass
from typing import BinaryIO

from cdma_tools.errors import Refused

# Bytes that are taken of a pipe or of a server at once, and those of a backlog.
PIECE_BYTES, BACKLOG_BYTES = 1 << 16, 1 << 25
# Seconds after which it is looked again whether a backlog is to end.
LOOK_AGAIN = 0.2
STANDARD_INPUT = "standard input"


@dataclass(frozen=True)
class Skipped:
    """A number of samples that won't come, and the reason."""

    samples: int
    why: str


@dataclass(frozen=True)
class Told:
    """A message of a source."""

    text: str


Item = bytes | Skipped | Told


class Backlog:
    """Items that a thread has taken from a source, and that wait for the lock."""

    def __init__(self, most: int = BACKLOG_BYTES) -> None:
        """An empty backlog, with space for `most` bytes."""
        self.most = most
        self.items: deque[Item | Refused | None] = deque()
        self.bytes = 0
        self.changed = threading.Condition()
        self.is_stopped = threading.Event()
        self.is_ending = False  # whether only what has come so far is wanted

    def has_room(self, size: int) -> bool:
        """Whether there is space for `size` more bytes; messages need none."""
        return not size or self.bytes + size <= self.most

    def put(self, item: Item | Refused | None, may_wait: bool = True) -> bool:
        """Adds an item, None as the end; waits for space or, if it may not, returns False."""
        size = len(item) if isinstance(item, bytes) else 0
        with self.changed:
            if self.is_ending:
                return True
            while not self.has_room(size) and not self.is_stopped.is_set():
                if not may_wait:
                    return False
                self.changed.wait(timeout=LOOK_AGAIN)
            self.items.append(item)
            self.bytes += size
            self.changed.notify_all()
        return True

    def get(self) -> Item | Refused | None:
        """The next item, as soon as there is one; None at the end."""
        with self.changed:
            while not self.items:
                if self.is_ending:
                    return None
                self.changed.wait(timeout=LOOK_AGAIN)
            item = self.items.popleft()
            if isinstance(item, bytes):
                self.bytes -= len(item)
            self.changed.notify_all()
        return item

    def __iter__(self) -> Iterator[Item]:
        """Yields the items as they come; raises Refused if the source did."""
        while (item := self.get()) is not None:
            if isinstance(item, Refused):
                raise item
            yield item

    def end(self) -> None:
        """Nothing more is wanted than what has come so far; it may be called by a signal."""
        self.is_ending = True

    def stop(self) -> None:
        """The items are no longer wanted."""
        self.is_stopped.set()


def reader_of(file: BinaryIO) -> Callable[[int], bytes]:
    """Returns what reads bytes of a file as they come; by its descriptor, if it has one, so that no lock is held."""
    try:
        number = file.fileno()
    except io.UnsupportedOperation:
        return file.read
    return lambda count: os.read(number, count)


def read_pipe(file: BinaryIO, backlog: Backlog, name: str = STANDARD_INPUT) -> None:
    """Takes all that comes from a pipe; runs in its own thread."""
    read = reader_of(file)
    try:
        while not backlog.is_stopped.is_set() and (data := read(PIECE_BYTES)):
            backlog.put(data)
        backlog.put(None)
    except OSError as why:
        backlog.put(Refused(f"{name}: {why.strerror}"))
