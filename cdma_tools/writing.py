"""Writing a whole file, or none; and writing through to what is not a regular file."""

import contextlib
import errno
import os
import shutil
import stat
import sys
import tempfile
import time
from collections.abc import Iterator
from typing import IO

from cdma_tools.errors import Refused
from cdma_tools.overwriting import STANDARD

# Names in these folders are devices and files that are already open, except those in shared memory.
OPEN_FILES, SHARED_MEMORY = ("/dev/", "/proc/"), "/dev/shm/"
# Seconds for which a FIFO is waited for that nobody reads yet, and from one try to the next.
READER_WAIT, READER_AGAIN = 30.0, 0.05


@contextlib.contextmanager
def write_out(path: str, is_sought: bool = False) -> Iterator[IO[bytes]]:
    """Yields a file for `path`, or for standard output if that is -; everything written there arrives at the end,
    complete.

    `is_sought` says that the writer goes back in the file: then a FIFO or a device gets everything at the end too.
    """
    if path == STANDARD:
        with whole_at_end(sys.stdout.buffer) as file:
            yield file
    elif is_sought and is_written_through(path):
        with named(path), open_through(path) as through, whole_at_end(through) as file:
            yield file
    else:
        with write_beside(path) as file:
            yield file


@contextlib.contextmanager
def whole_at_end(through: IO[bytes]) -> Iterator[IO[bytes]]:
    """A temporary file that is passed to an open one at the end."""
    with tempfile.TemporaryFile() as file:
        yield file
        file.seek(0)
        shutil.copyfileobj(file, through)
        through.flush()


def open_through(path: str) -> IO[bytes]:
    """Opens something that is not a regular file; refuses a FIFO that nobody opens for reading in some time.

    It is opened for appending, so an open file that /dev/stdout stands for keeps what it has.
    """
    if not stat.S_ISFIFO(os.stat(path).st_mode):
        return os.fdopen(os.open(path, os.O_WRONLY | os.O_APPEND | os.O_CLOEXEC), "wb")
    until = time.monotonic() + READER_WAIT
    while True:
        try:
            file = os.open(path, os.O_WRONLY | os.O_NONBLOCK | os.O_CLOEXEC)
        except OSError as why:
            if why.errno != errno.ENXIO:
                raise
            if time.monotonic() > until:
                raise Refused(f"{path}: nothing has read this FIFO for {READER_WAIT:.0f} s") from None
            time.sleep(READER_AGAIN)
        else:
            os.set_blocking(file, True)
            return os.fdopen(file, "wb")


@contextlib.contextmanager
def write_beside(path: str) -> Iterator[IO[bytes]]:
    """Yields a file next to `path` that replaces it at the end; if anything fails it is removed, and `path` is as it
    was.

    A link is written through: the file that it names is replaced. So is anything but a regular file, such as a FIFO or
    a device.
    """
    if is_written_through(path):
        with named(path), open_through(path) as through:
            yield through
        return
    place = os.path.realpath(path)
    beside = ""
    try:
        with named(path, os.path.dirname(place)):
            with tempfile.NamedTemporaryFile(dir=os.path.dirname(place), prefix=".part-", delete=False) as file:
                beside = file.name
                yield file
            os.chmod(beside, mode_of(place))
            os.replace(beside, place)
    except BaseException:
        if beside:
            with contextlib.suppress(OSError):
                os.unlink(beside)
        raise


def is_written_through(path: str) -> bool:
    """Whether `path` exists and is not a regular file, or is a file that is open already."""
    try:
        is_plain = stat.S_ISREG(os.stat(path).st_mode)
    except OSError:
        return False
    places = (os.path.abspath(path), os.path.realpath(path))
    return not is_plain or any(place.startswith(OPEN_FILES) and not place.startswith(SHARED_MEMORY) for place in places)


def mode_of(place: str) -> int:
    """Returns the mode of a new file at a path: that of the file it replaces, otherwise the process's for new files."""
    with contextlib.suppress(OSError):
        return stat.S_IMODE(os.stat(place).st_mode)
    mask = os.umask(0)
    os.umask(mask)
    return 0o666 & ~mask


@contextlib.contextmanager
def named(path: str, folder: str = "") -> Iterator[None]:
    """Names this path in faults of the system that name no file, or one that stands in for it in a folder."""
    try:
        yield
    except BrokenPipeError:
        raise
    except OSError as why:
        is_stand_in = isinstance(why.filename, str) and why.filename.startswith(os.path.join(folder, ".part-"))
        if why.filename is None or folder and is_stand_in:
            why.filename, why.filename2 = path, None
        raise
