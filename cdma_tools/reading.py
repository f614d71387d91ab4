"""Reading whole files, of no more bytes than they may have: a device without an end is refused as a long file is."""

from typing import IO

from cdma_tools.errors import Refused

MEGABYTE = 1 << 20


def all_of(file: IO[bytes], name: str, most: int) -> bytes:
    """Returns the bytes that a file has from here on; refuses more than `most`, after reading no more than that."""
    data = file.read(most + 1)
    if len(data) > most:
        raise Refused(f"{name}: more than {most:,} bytes")
    return data


def read_within(path: str, most: int) -> bytes:
    """Returns the bytes of a file; refuses one that has more than `most`, or can't be read."""
    try:
        with open(path, "rb") as file:
            return all_of(file, path, most)
    except OSError as why:
        raise Refused(f"{path}: {why.strerror}") from None
