"""Messages of a listening to the page's server, which a thread writes, so that the listening never waits for it.

A message is a line: an object of JSON, either a line of the listening as `listen --json` writes it, or one whose first
name is "view".
"""

import json
import os
import signal
import threading
from collections import deque
from typing import Any

# Messages that may wait: lines, and others, of which a reader that is slow misses some.
MOST_LINES, MOST_OTHERS = 100_000, 64
# Bytes that are written at once, and seconds after which it is looked whether the server is still there.
PIECE_BYTES, LOOK_AGAIN = 1 << 16, 1.0
# The beginning of a message that is not a decoded line.
MARK = b'{"view":'


def message_of(kind: str, **told: Any) -> bytes:
    """Returns a message of a kind."""
    return json.dumps({"view": kind, **told}, separators=(",", ":")).encode("ascii") + b"\n"


class Outbox:
    """Messages that wait for the server."""

    def __init__(self, descriptor: int, may_wait: bool) -> None:
        """Writes to a pipe; with `may_wait` lines that find no space wait, otherwise they are dropped and counted."""
        self.descriptor, self.may_wait = descriptor, may_wait
        self.waiting: deque[bytes] = deque()
        self.changed = threading.Condition()
        self.is_closed = False
        self.dropped = 0  # lines
        self.server = os.getppid()
        self.writer = threading.Thread(target=self.run, daemon=True)
        self.writer.start()

    def line(self, data: bytes) -> None:
        """Adds a line of the listening."""
        with self.changed:
            while self.may_wait and len(self.waiting) >= MOST_LINES and not self.is_closed:
                self.changed.wait(LOOK_AGAIN)
            if len(self.waiting) >= MOST_LINES:
                self.dropped += 1
                return
            self.waiting.append(data)
            self.changed.notify_all()

    def tell(self, kind: str, **told: Any) -> bool:
        """Adds another message, unless many are waiting; returns whether it was added."""
        with self.changed:
            if len(self.waiting) >= MOST_OTHERS:
                return False
            self.waiting.append(message_of(kind, **told))
            self.changed.notify_all()
        return True

    def close(self, kind: str, **told: Any) -> None:
        """Adds the last message, and waits until all are written, or the server is gone."""
        with self.changed:
            self.waiting.append(message_of(kind, **told))
            self.is_closed = True
            self.changed.notify_all()
        self.writer.join()

    def run(self) -> None:
        """Writes the messages as they come; runs in a thread of its own. Interrupts the listening if nobody reads."""
        try:
            while (data := self.next()) is not None:
                while data:
                    data = data[os.write(self.descriptor, data) :]
        except OSError:
            with self.changed:
                self.is_closed = True
                self.changed.notify_all()
            os.kill(os.getpid(), signal.SIGINT)

    def next(self) -> bytes | None:
        """Returns the next bytes to write, once there are some; None at the end. Fails if the server has ended."""
        with self.changed:
            while not self.waiting:
                if self.is_closed:
                    return None
                if os.getppid() != self.server:
                    raise BrokenPipeError
                self.changed.wait(LOOK_AGAIN)
            taken, size = [], 0
            while self.waiting and size < PIECE_BYTES:
                taken.append(self.waiting.popleft())
                size += len(taken[-1])
            self.changed.notify_all()
        return b"".join(taken)
