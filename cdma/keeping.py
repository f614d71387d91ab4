"""Lines of a run, kept for whoever iterates it again: in memory at first, in a temporary file if they are many."""

import os
import tempfile
import threading
import weakref
from typing import IO

BLOCK = 1 << 16  # bytes of lines that are read at once, and that are kept in memory


def text_lines(lines: bytes) -> list[str]:
    """Returns complete lines as texts, without their line feeds."""
    return lines.decode("ascii", "replace").split("\n")[:-1]


class KeptLines:
    """Complete lines in the order in which they were added; any thread may add and read."""

    def __init__(self) -> None:
        """None at first."""
        self._lock = threading.Lock()
        self._last = bytearray()  # those that are not in the file
        self._file: IO[bytes] | None = None
        self._stored = 0  # bytes in the file

    def add(self, lines: bytes) -> None:
        """Adds complete lines; raises OSError if there is no room for them."""
        with self._lock:
            self._last += lines
            if len(self._last) >= BLOCK:
                self._store()

    def _store(self) -> None:
        """Moves what is in memory into the file."""
        if self._file is None:
            self._file = tempfile.TemporaryFile()
            weakref.finalize(self, self._file.close)
        self._file.write(self._last)
        self._file.flush()
        self._stored += len(self._last)
        self._last.clear()

    def read(self, place: int) -> bytes:
        """Returns complete lines from an offset in bytes on, as many as are read at once; none at the end."""
        with self._lock:
            if self._file is None or place >= self._stored:
                return bytes(self._last[place - self._stored :])
            size = BLOCK
            while not (found := os.pread(self._file.fileno(), size, place)).endswith(b"\n"):
                if end := found.rfind(b"\n") + 1:
                    return found[:end]
                size *= 2
            return found
