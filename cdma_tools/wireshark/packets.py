"""The packets of messages and frames: a header of our own, then the bits (docs/FORMATS.md, "Packets")."""

import enum
import struct
from dataclasses import dataclass
from typing import Any, NamedTuple

from cdma_tools.wireshark.layouts import binary_of_text, message_digits

VERSION = 1
# The header: version, content, channel, check, SID, NID, PILOT_PN, row, flags, chip, rate, power control bits, bits.
HEADER = struct.Struct(">BBBBHHHBBQHHH")
SYNC_ROW = 32


class Content(enum.IntEnum):
    """What the bits of a packet are."""

    MESSAGE = 1  # from MSG_TYPE to the last bit before the check
    CAPSULE = 2  # from MSG_LENGTH to the end of the check
    FRAME = 3  # information bits of a frame of rate set 1
    FRAME2 = 4  # of rate set 2


class Channel(enum.IntEnum):
    """The channel of a packet."""

    SYNC = 1
    PAGING = 2
    TRAFFIC = 3


class Check(enum.IntEnum):
    """The result of a message's check or of a frame's."""

    GOOD = 1
    BAD = 2


class Flags(enum.IntFlag):
    """What is known of a packet."""

    TIME = 1
    CELL = 2


class Cell(NamedTuple):
    """A cell, as a sync message names it."""

    sid: int
    nid: int
    pn: int


@dataclass(frozen=True)
class Place:
    """Where and when a packet was received; the cell is None, and the row 0, if it is not known."""

    chip: int
    cell: Cell | None
    row: int
    is_timed: bool


CONTENTS = {
    "sync": (Content.MESSAGE, Channel.SYNC),
    "paging": (Content.MESSAGE, Channel.PAGING),
    "traffic": (Content.MESSAGE, Channel.TRAFFIC),
    "frame": (Content.FRAME, Channel.TRAFFIC),
    "frame2": (Content.FRAME2, Channel.TRAFFIC),
}


def content_of(read: dict[str, Any]) -> tuple[Content, Channel] | None:
    """Returns what a line's packet contains, and its channel; None if the line has no packet."""
    if read["line"] == "raw":
        return Content.CAPSULE, Channel[read["channel"].upper()]
    return CONTENTS.get(read["line"])


def digits_of(content: Content, read: dict[str, Any]) -> str:
    """Returns the bits of a line's packet as digits 0 or 1."""
    return message_digits(read) if content is Content.MESSAGE else binary_of_text(read["bits"])


def packet_of(read: dict[str, Any], place: Place) -> bytes:
    """Returns the packet of a line's object that has one."""
    found = content_of(read)
    assert found is not None
    content, channel = found
    digits = digits_of(content, read)
    known = (Flags.TIME if place.is_timed else 0) | (Flags.CELL if place.cell else 0)
    commands = "".join(map(str, read.get("commands", [0])))
    header = HEADER.pack(
        VERSION,
        content,
        channel,
        Check.GOOD if read.get("good", 1) else Check.BAD,
        *(place.cell or Cell(0, 0, 0)),
        place.row,
        known,
        place.chip,
        read.get("rate", 0),
        int(commands, 2),
        len(digits),
    )
    octets = -(-len(digits) // 8)
    return header + int(digits.ljust(8 * octets, "0") or "0", 2).to_bytes(octets, "big")
