"""Sample files, read in any place."""

import os

import numpy
from numpy.typing import NDArray

from cdma_tools.errors import Refused
from cdma_tools.recordings import with_zeros
from cdma_tools.sample_header import FORM, GREATEST, HEADER, MOST_CHIPS, SAMPLE_BYTES, header, read_header

__all__ = ["FORM", "GREATEST", "HEADER", "MOST_CHIPS", "SampleFile", "header"]


class SampleFile:
    """The samples of a sample file, read on demand."""

    def __init__(self, path: str) -> None:
        """Opens a file; refuses one that isn't a whole sample file."""
        self.path = path
        try:
            self.file = open(path, "rb")
            head = self.file.read(HEADER.size)
            size = os.fstat(self.file.fileno()).st_size
        except OSError as why:
            raise Refused(f"{path}: {why.strerror}") from None
        try:
            self.read_header(head, size)
        except Refused:
            self.file.close()
            raise

    def read_header(self, head: bytes, size: int) -> None:
        """Takes the header of a file of `size` bytes; refuses one that doesn't belong to the file."""
        told = read_header(head, self.path)
        self.version, self.flags, self.count = told.version, told.flags, told.count
        self.size = SAMPLE_BYTES[self.version]
        if size != told.file_bytes:
            raise Refused(f"{self.path}: its header says {self.count} samples, but it has another number of them")
        if not self.count:
            raise Refused(f"{self.path}: no samples")

    def close(self) -> None:
        """Closes the file."""
        self.file.close()

    def read(self, first: int, count: int) -> NDArray[numpy.complex64]:
        """Returns samples first to first + count - 1, with zeros outside the file."""
        return with_zeros(first, count, self.count, self.inside)

    def inside(self, low: int, high: int) -> NDArray[numpy.complex64]:
        """Samples low to high - 1, which the file has."""
        self.file.seek(HEADER.size + self.size * low)
        parts = numpy.frombuffer(self.file.read(self.size * (high - low)), dtype=FORM[self.version])
        return parts.astype(numpy.float32).view(numpy.complex64)
