"""Capsules, the streams that carry them, and the messages of the sync, the paging and the traffic channel (7.7)."""

from typing import Any, TypeVar

from cdma_model.bits import Bits, number, spelled
from cdma_model.coding import MESSAGE_30, Check, check_bits

Record = TypeVar("Record")
Message = dict[str, Any]
"""A message: `what` it is, its fields by their names in docs/FORMATS.md, in the standard's order, and its lists."""

LEAST_OCTETS, MOST_OCTETS = 5, 148
"""The bounds of MSG_LENGTH."""

LENGTH = 8
"""Bits of MSG_LENGTH, and of a message's type."""


class Reader:
    """Takes fields from the front of bits; `take` of more than are left raises `TooShort`."""

    def __init__(self, bits: Bits) -> None:
        self.bits = bits

    def take(self, width: int) -> int:
        """Returns the number in the next `width` bits."""
        if len(self.bits) < width:
            raise TooShort
        front, self.bits = self.bits[:width], self.bits[width:]
        return number(front)

    def fields(self, table: dict[str, int]) -> dict[str, int]:
        """Fields by a table of names and widths."""
        return {name: self.take(width) for name, width in table.items()}

    def records(self, width: int) -> list["Reader"]:
        """Returns as many records of a width as fit; raises `TooShort` if more than 7 bits are left after them."""
        found = []
        while len(self.bits) >= width:
            found.append(Reader(self.bits[:width]))
            self.bits = self.bits[width:]
        if len(self.bits) > 7:
            raise TooShort
        return found


class TooShort(Exception):
    """A body that has too few bits for its type, or too many: it is not a message."""


# ---- capsules (7.7.1, 7.7.2, 7.7.3)


def message_check(check: Check, complemented: bool, bits: Bits) -> Bits:
    """Returns the check of MSG_LENGTH and the body, complemented if the file's flags say so."""
    return [bit ^ complemented for bit in check_bits(check, bits)]


def capsule_of(body: Bits, complemented: bool, check: Check = MESSAGE_30) -> Bits:
    """MSG_LENGTH, the body, and the check of both."""
    front = spelled(LENGTH, (LENGTH + len(body) + check.degree) // 8) + body
    return front + message_check(check, complemented, front)


def body_of(capsule: Bits, complemented: bool, check: Check = MESSAGE_30) -> Bits | None:
    """Returns the body of a complete capsule, if its check is right."""
    front = capsule[: -check.degree]
    return front[LENGTH:] if message_check(check, complemented, front) == capsule[len(front) :] else None


def stated_length(bits: Bits) -> int | None:
    """Returns the number of bits of the capsule that begins here, by its MSG_LENGTH; None if that is out of bounds."""
    octets = number(bits[:LENGTH])
    return 8 * octets if LEAST_OCTETS <= octets <= MOST_OCTETS else None


def take_piece(held: Bits | None, piece: Bits) -> tuple[Bits | None, Bits | None]:
    """Adds a sync frame or a signalling part to the open capsule: returns the open capsule then, and the one that ends.

    A piece is the bit that says whether a capsule begins, and body bits. None stands for no open capsule.
    """
    if piece[0]:
        held = []
    if held is None:
        return None, None
    held = held + piece[1:]
    if len(held) < LENGTH:
        return held, None
    length = stated_length(held)
    if length is None:
        return None, None
    return (None, held[:length]) if len(held) >= length else (held, None)


def take_half_frame(held: Bits | None, half: Bits) -> tuple[Bits | None, list[Bits]]:
    """Adds a paging half-frame to the open capsule: returns the open capsule then, and those that end (7.7.2.1).

    After a capsule the next one may begin at once, if 8 bits or more of the half-frame are left.
    """
    capsules: list[Bits] = []
    if half[0]:
        held = []
    if held is None:
        return None, capsules
    held = held + half[1:]
    while len(held) >= LENGTH:
        length = stated_length(held)
        if length is None:
            return None, capsules
        if len(held) < length:
            return held, capsules
        capsules.append(held[:length])
        held = held[length:]
    return (None if capsules else held), capsules


# ---- the Sync Channel Message (7.7.1.3)

SYNC_TYPE = 1
SYNC_FIELDS = {"prev": 8, "min": 8, "sid": 15, "nid": 16, "pn": 9, "lc": 42, "time": 36, "lp": 8, "ltm": 6, "daylt": 1,
               "prat": 2}  # fmt: skip
FREQUENCY = 11
OCTETS_WITHOUT_FREQUENCY = 25


def sync_message(body: Bits) -> Message | None:
    """Returns the message of a body, with `freq` if it has one; None if the body is rejected."""
    octets = (LENGTH + len(body) + MESSAGE_30.degree) // 8
    reader = Reader(body)
    if octets < OCTETS_WITHOUT_FREQUENCY or reader.take(LENGTH) != SYNC_TYPE:
        return None
    message: Message = reader.fields(SYNC_FIELDS)
    if octets > OCTETS_WITHOUT_FREQUENCY:
        message["freq"] = reader.take(FREQUENCY)
    return message | {"rest": reader.bits}


def sync_body(message: Message) -> Bits:
    """The body of a message."""
    fields = [bit for name, width in SYNC_FIELDS.items() for bit in spelled(width, message[name])]
    frequency = spelled(FREQUENCY, message["freq"]) if "freq" in message else []
    return spelled(LENGTH, SYNC_TYPE) + fields + frequency + message["rest"]


# ---- paging messages (7.7.2.3)

SYSTEM_FIELDS = {
    "pn": 9, "seq": 6, "sid": 15, "nid": 16, "zone": 12, "zones": 3, "ztimer": 3, "msids": 1, "mnids": 1, "base": 16,
    "bclass": 4, "pages": 3, "cycle": 3, "home": 1, "fsid": 1, "fnid": 1, "up": 1, "down": 1, "param": 1, "prd": 7,
    "lat": 22, "long": 23, "dist": 11, "wina": 4, "winn": 4, "winr": 4, "age": 4, "pthresh": 5, "pframes": 4,
    "pthen": 1, "pperen": 1, "pdelay": 5, "rescan": 1, "tadd": 6, "tdrop": 6, "tcomp": 4, "ttdrop": 4,
}  # fmt: skip
NEIGHBOR_FIELDS = {"pn": 9, "seq": 6, "inc": 4}
CHANNEL_FIELDS = {"pn": 9, "seq": 6}


def paging_message(body: Bits) -> Message | None:
    """Returns the message of a body: `system`, `neighbors`, `channels` or `other`; None if the body is rejected."""
    try:
        return paging_fields(Reader(body))
    except TooShort:
        return None


def paging_fields(reader: Reader) -> Message:
    """A paging message read field by field; raises `TooShort`."""
    kind = reader.take(LENGTH)
    if kind == 1:
        message: Message = {"what": "system"} | reader.fields(SYSTEM_FIELDS)
    elif kind == 3:
        message = {"what": "neighbors"} | reader.fields(NEIGHBOR_FIELDS)
        records = [(record.take(3), record.take(9)) for record in reader.records(12)]
        message |= {"configs": [config for config, _ in records], "pilots": [pilot for _, pilot in records]}
    elif kind == 4:
        message = {"what": "channels"} | reader.fields(CHANNEL_FIELDS)
        message["freqs"] = [record.take(11) for record in reader.records(11)]
    else:
        message = {"what": "other", "type": kind}
    return message | {"rest": reader.bits}


# ---- the parts of a traffic frame (7.1.3.5.11) and traffic messages (7.7.3; layouts own)

PRIMARY_BITS = (80, 40, 16, 0)
"""Primary traffic bits of a frame of mixed mode, by its traffic mode."""


def signalling_part(speed: int, information: Bits) -> Bits | None:
    """Returns the signalling part of a frame's information, if it has one."""
    if speed != 9_600 or information[:2] != [1, 0]:
        return None
    return information[4 + PRIMARY_BITS[number(information[2:4])] :]


HEAD_FIELDS = {"ack": 3, "seq": 3, "req": 1, "enc": 2}
IN_TRAFFIC_FIELDS = {"sid": 15, "nid": 16, "wina": 4, "winn": 4, "winr": 4, "tadd": 6, "tdrop": 6, "tcomp": 4,
                     "ttdrop": 4, "age": 4}  # fmt: skip
SEARCH_FIELDS = {"wina": 4, "tadd": 6, "tdrop": 6, "tcomp": 4, "ttdrop": 4}
HANDOFF_FIELDS = {"use": 1, "action": 6, "hdm": 2}


def traffic_message(body: Bits) -> Message | None:
    """Returns the message of a body, with its head: `system`, `neighbors`, `handoff` or `other`; None if it is
    rejected."""
    try:
        reader = Reader(body)
        kind = reader.take(LENGTH)
        head: Message = reader.fields(HEAD_FIELDS)
        return head | traffic_fields(kind if head["enc"] == 0 else None, kind, reader)
    except TooShort:
        return None


def traffic_fields(layout: int | None, kind: int, reader: Reader) -> Message:
    """Returns the fields after the head, by a layout; all bits if the type has none. Raises `TooShort`."""
    other = {"what": "other", "type": kind, "rest": reader.bits}
    if layout == 7:
        message: Message = {"what": "system"} | reader.fields(IN_TRAFFIC_FIELDS)
    elif layout == 8:
        message = {"what": "neighbors", "inc": reader.take(4)}
        message["pilots"] = needed([record.take(9) for record in reader.records(9)])
    elif layout == 17:
        message = {"what": "handoff"} | reader.fields(HANDOFF_FIELDS)
        message["search"] = reader.fields(SEARCH_FIELDS) if reader.take(1) else {}
        if reader.take(1):  # HARD_INCLUDED: what it would say isn't read
            return other
        message["extra"] = [bit for _ in range(reader.take(3)) for bit in spelled(8, reader.take(8))]
        records = [(record.take(9), record.take(1), record.take(8)) for record in reader.records(18)]
        message["records"] = needed([(pilot, row, combined) for pilot, combined, row in records])
    else:
        return other
    return message | {"rest": reader.bits}


def needed(records: list[Record]) -> list[Record]:
    """Records, of which there is at least one; raises `TooShort`."""
    if not records:
        raise TooShort
    return records
