"""A process of the program: fed by a thread, read line by line, and ended when nobody needs it any more."""

import contextlib
import fcntl
import os
import subprocess
import tempfile
import threading
import time
import weakref
from collections.abc import Iterable, Iterator
from typing import IO

from cdma.errors import as_errors, error_of
from cdma.keeping import BLOCK, text_lines
from cdma.programs import chosen

PIPE_BYTES = 1 << 20  # of the pipe to the program, so that few switches between the two are needed
MOST_SAID = 10_000  # bytes of standard error that are read
# If lines come in FEW_READS reads of fewer than FEW_BYTES, each read after these waits PAUSE seconds for more of them:
# waking up for a line costs as much processor time as ten events.
FEW_READS, FEW_BYTES, PAUSE = 16, 4_096, 0.02
Piece = bytes | memoryview


def feed(pipe: IO[bytes], pieces: Iterable[Piece]) -> None:
    """Writes pieces into a pipe and closes it; what is not read is lost."""
    with contextlib.suppress(BrokenPipeError), pipe:
        for piece in pieces:
            pipe.write(piece)


def end(process: subprocess.Popen[bytes], said: IO[bytes]) -> None:
    """Ends a process if it still runs, and closes its outputs."""
    process.kill()
    process.wait()
    assert process.stdout is not None
    process.stdout.close()
    said.close()


class Running:
    """A run of the program with some arguments; it ends at the latest when this object is dropped."""

    def __init__(self, words: list[str], source: IO[bytes] | Iterable[Piece]) -> None:
        """Starts the run on an open file, or on the bytes that `source` yields; raises Error if that fails."""
        program = chosen()
        self.name = program.name
        self.is_ended = False  # by `stop`, not by itself
        self._rest = b""  # of what was read: the beginning of a line
        self._few = 0  # reads that brought few bytes, one after another
        self._said = tempfile.TemporaryFile()
        is_file = hasattr(source, "fileno")
        with as_errors():
            self._process = subprocess.Popen(
                [*program.words, *words],
                stdin=source if is_file else subprocess.PIPE,  # type: ignore[arg-type]
                stdout=subprocess.PIPE,
                stderr=self._said,
                env=program.environment(),
            )
        self._end = weakref.finalize(self, end, self._process, self._said)
        if not is_file:
            assert self._process.stdin is not None
            with contextlib.suppress(OSError):  # this user's pipes may hold no more
                fcntl.fcntl(self._process.stdin, fcntl.F_SETPIPE_SZ, PIPE_BYTES)
            threading.Thread(target=feed, args=(self._process.stdin, source), daemon=True).start()

    @property
    def output(self) -> IO[bytes]:
        """What the program writes."""
        assert self._process.stdout is not None
        return self._process.stdout

    def read(self) -> bytes:
        """Waits for lines, and returns those that have come, none at the end.

        A line that the program left incomplete is dropped.
        """
        while data := self._read_some():
            lines, end, rest = data.rpartition(b"\n")
            if end:
                lines, self._rest = self._rest + lines + end, rest
                return lines
            self._rest += data
        return b""

    def _read_some(self) -> bytes:
        """Waits for bytes, and returns those that have come."""
        if self._few >= FEW_READS:
            time.sleep(PAUSE)
        data = os.read(self.output.fileno(), BLOCK)
        self._few = self._few + 1 if len(data) < FEW_BYTES else 0
        return data

    def lines(self) -> Iterator[str]:
        """Yields the lines that the program writes, as they come."""
        while lines := self.read():
            yield from text_lines(lines)

    def finish(self, *good: int) -> int:
        """Waits for the end, and returns the status; raises the run's error if it isn't a good one."""
        status = self._process.wait()
        self._said.seek(0)
        said = self._said.read(MOST_SAID).decode(errors="replace").strip()
        self._end()
        if status not in good and not self.is_ended:
            raise error_of(status, said, self.name)
        return status

    def stop(self) -> None:
        """Ends the run; it may be called in any thread, and more than once."""
        self.is_ended = True
        self._process.kill()
        self._process.wait()


def lines_of(words: list[str], source: IO[bytes] | Iterable[Piece]) -> list[str]:
    """Returns the lines of a run that has to succeed."""
    running = Running(words, source)
    try:
        lines = list(running.lines())
        running.finish(0)
    except BaseException:
        running.stop()
        raise
    return lines


