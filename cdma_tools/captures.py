"""Whole sample files, read for the model."""

from cdma_model.files import BadFile, Capture, read_capture
from cdma_tools.errors import Refused
from cdma_tools.sample_header import MOST_CHIPS, Header

MOST_BYTES = max(Header(version, 0, count).file_bytes for version, count in MOST_CHIPS.items())
"""The bytes of the longest sample file."""


def read_whole(path: str, span: int) -> Capture:
    """Returns the samples of a file; Refused if it is not a complete sample file, or has fewer samples than `span`."""
    try:
        with open(path, "rb") as file:
            capture = read_capture(file.read(MOST_BYTES + 1), span)  # of what is longer, one byte more is enough
        if capture.end:
            raise capture.end
    except BadFile as why:
        raise Refused(f"{path}: bad file: {why}") from None
    return capture
