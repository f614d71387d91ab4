"""Where packets go as they come: standard output, a FIFO or a device, or a file that has whole blocks at any time."""

import os
import stat
import sys
from typing import IO

from cdma_tools.errors import Refused
from cdma_tools.overwriting import STANDARD
from cdma_tools.wireshark.pcapng import whole_size
from cdma_tools.wireshark.stream import MAKER
from cdma_tools.writing import is_written_through, named, open_through


class Capture:
    """An open file of packets."""

    def __init__(self, path: str, is_continued: bool = False) -> None:
        """Opens `path`, or standard output if that is -; waits for the reader of a FIFO.

        A file of this name is replaced. With `is_continued` packets are added to it after its last whole block, and one
        that isn't empty and has other packets is refused.
        """
        self.path = "standard output" if path == STANDARD else path
        self.size = 0  # bytes of whole blocks
        with named(self.path):
            if path == STANDARD:
                self.file: IO[bytes] = os.fdopen(os.dup(sys.stdout.fileno()), "wb")
            elif is_written_through(path):
                self.file = open_through(path)
            elif is_continued and os.path.exists(path):
                self.file = self.continued(path)
            else:
                self.file = open(path, "wb")
            self.is_regular = stat.S_ISREG(os.fstat(self.file.fileno()).st_mode) and path != STANDARD

    def continued(self, path: str) -> IO[bytes]:
        """Opens a file after its last whole block, and removes what comes after that."""
        file = open(path, "r+b")
        try:
            self.size = whole_size(file, MAKER)
        except ValueError:
            file.close()
            raise Refused(f"{path}: it has other packets than those of listen: name another file") from None
        file.truncate(self.size)
        file.seek(self.size)
        return file

    def write(self, data: bytes) -> None:
        """Adds whole blocks at once; if they can't be written, a regular file keeps those before them."""
        written = 0
        with named(self.path):
            try:
                while written < len(data):
                    written += os.write(self.file.fileno(), data[written:])
            except OSError:
                if self.is_regular:
                    os.ftruncate(self.file.fileno(), self.size)
                raise
        self.size += len(data)

    def close(self) -> None:
        """Closes it."""
        self.file.close()
