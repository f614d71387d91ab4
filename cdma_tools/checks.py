"""The form of a recording's message checks: a sample file's flags, tried by following the file, or set in an existing
one."""

import os
import tempfile
from typing import NamedTuple

from cdma_tools.errors import Refused
from cdma_tools.program import written_of
from cdma_tools.sample_file import SampleFile
from cdma_tools.sample_header import HEADER, header

# The flags: the 30-bit checks of sync and paging messages, and the 16-bit ones of traffic channels, are complemented.
COMPLEMENT_30, COMPLEMENT_16 = 1, 2
# The place of the flags in a header, and their number of bytes.
FLAGS_PLACE, FLAGS_BYTES = 6, 2
PIECE = 1 << 20


class Heard(NamedTuple):
    """Numbers of messages that a handset decodes from a file with plain 30-bit checks, and with complemented ones."""

    plain: int
    complemented: int

    @property
    def flag(self) -> int:
        """Returns the flag of the way that more messages pass, plain if none does."""
        return COMPLEMENT_30 if self.complemented > self.plain else 0

    def told(self) -> str:
        """Returns a line with the choice and the reason for it."""
        if not self.plain and not self.complemented:
            return "no message passes its check, plain or complemented; 30-bit checks are assumed to be plain"
        way = "complemented" if self.flag else "plain"
        more, fewer = max(self), min(self)
        heard = f"{more} messages pass that way, and {fewer} the other way"
        return f"30-bit checks are assumed to be {way}: {heard}; 16-bit checks weren't tried"


def messages(program: str, path: str, flags: int) -> int:
    """Returns the number of sync and paging messages that a handset decodes from a sample file with other flags."""
    file = SampleFile(path)
    file.close()
    with tempfile.TemporaryFile() as given:
        given.write(header(file.version, flags, file.count))
        with open(path, "rb") as samples:
            samples.seek(HEADER.size)
            while piece := samples.read(PIECE):
                given.write(piece)
        given.seek(0)
        text = written_of(program, ["follow"], given)
    return sum(line.startswith((b"sync ", b"paging ")) for line in text.splitlines())


def tried(program: str, path: str) -> Heard:
    """Returns what is decoded from a sample file both ways."""
    return Heard(messages(program, path, 0), messages(program, path, COMPLEMENT_30))


def reflag(path: str, flags: int) -> int:
    """Sets a sample file's flags, in place, and returns the old ones; all other bytes stay."""
    file = SampleFile(path)
    file.close()
    try:
        handle = os.open(path, os.O_WRONLY)
        try:
            os.pwrite(handle, flags.to_bytes(FLAGS_BYTES, "big"), FLAGS_PLACE)
        finally:
            os.close(handle)
    except OSError as why:
        raise Refused(f"{path}: {why.strerror}") from None
    return int(file.flags)
