"""The form of sample files (docs/FORMATS.md): the header, and how a part is kept."""

import struct
from dataclasses import dataclass

from cdma_tools.errors import Refused

MAGIC = b"IS95"
HEADER = struct.Struct(">4sHHQ")  # its word, version, flags and count
# Of each version: numpy's and array's names of how a part is kept, the greatest part, and the most samples.
FORM = {1: ">i2", 2: "i1"}
ARRAY_FORM = {1: "h", 2: "b"}
SAMPLE_BYTES = {1: 4, 2: 2}
GREATEST = {1: 32_767, 2: 127}
MOST_CHIPS = {1: 33_554_432, 2: 67_108_864}


@dataclass(frozen=True)
class Header:
    """The content of a header: the version, the flags, and the number of samples."""

    version: int
    flags: int
    count: int

    @property
    def file_bytes(self) -> int:
        """The bytes of the whole file."""
        return HEADER.size + SAMPLE_BYTES[self.version] * self.count


def header(version: int, flags: int, count: int) -> bytes:
    """The 16 bytes before the samples."""
    return HEADER.pack(MAGIC, version, flags, count)


def read_header(data: bytes, name: str) -> Header:
    """Returns the header at the beginning of a file's bytes; refuses other bytes, with the file's name."""
    if len(data) < HEADER.size or data[: len(MAGIC)] != MAGIC:
        raise Refused(f"{name}: not a sample file")
    told = Header(*HEADER.unpack(data[: HEADER.size])[1:])
    if told.version not in FORM:
        raise Refused(f"{name}: version {told.version}, but only 1 and 2 are known")
    return told
