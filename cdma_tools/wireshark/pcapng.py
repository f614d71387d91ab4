"""The blocks of a pcapng file: a section with its interfaces, and packets with their times in nanoseconds.

Their numbers are little-endian: Wireshark takes a pipe only in the order of its machine.
"""

import os
import struct
from typing import IO

LINK_TYPE = 147  # USER0, the first of the link types that are left to private use
SECTION, INTERFACE, PACKET = 0x0A0D0D0A, 1, 6
BYTE_ORDER, MAJOR, MINOR, UNKNOWN_LENGTH = 0x1A2B3C4D, 1, 0, -1
APPLICATION, NAME, RESOLUTION, END = 4, 2, 9, 0  # options: shb_userappl, if_name, if_tsresol, opt_endofopt
NANOSECONDS = bytes([9])  # the resolution: 10 to the power of -9 s
MOST_TIME = 2**64 - 1
ALIGNMENT = 4
HEAD, TAIL = struct.Struct("<II"), struct.Struct("<I")
MOST_BLOCK, MOST_NAME = 1 << 20, 1 << 10  # bytes of the longest block, and of a section up to the application's name


def padded(data: bytes) -> bytes:
    """Returns bytes with zeros up to a multiple of four."""
    return data + bytes(-len(data) % ALIGNMENT)


def block(kind: int, body: bytes) -> bytes:
    """Returns a block, with its length before and after it."""
    body = padded(body)
    length = struct.pack("<I", len(body) + 12)
    return struct.pack("<I", kind) + length + body + length


def option(code: int, data: bytes) -> bytes:
    """Returns an option of a block."""
    return struct.pack("<HH", code, len(data)) + padded(data)


def section_header(application: str) -> bytes:
    """Returns the block with which a file begins, and which names the application that writes it."""
    fixed = struct.pack("<IHHq", BYTE_ORDER, MAJOR, MINOR, UNKNOWN_LENGTH)
    return block(SECTION, fixed + option(APPLICATION, application.encode()) + option(END, b""))


def interface_block(name: str) -> bytes:
    """Returns the block of an interface of the link type USER0; interfaces are counted from 0 on in their order."""
    options = option(NAME, name.encode()) + option(RESOLUTION, NANOSECONDS) + option(END, b"")
    return block(INTERFACE, struct.pack("<HHI", LINK_TYPE, 0, 0) + options)


def packet_block(interface: int, nanoseconds: int, data: bytes) -> bytes:
    """Returns the block of a packet of an interface, with its time in nanoseconds since 1970."""
    fixed = struct.pack("<5I", interface, nanoseconds >> 32, nanoseconds & 0xFFFF_FFFF, len(data), len(data))
    return block(PACKET, fixed + data)


def application_in(head: bytes) -> bytes:
    """Returns the name of the application in the first bytes of a file, empty if they begin no section of this module.
    """
    fixed = len(section_header("")) - len(option(END, b"")) - TAIL.size  # up to the name
    begin, (length,) = section_header("")[:fixed], struct.unpack_from("<H", head.ljust(fixed), fixed - 2)
    is_section = head[:4] == begin[:4] and head[8 : fixed - 2] == begin[8 : fixed - 2]
    return head[fixed : fixed + length] if is_section else b""


def whole_size(file: IO[bytes], application: str) -> int:
    """Returns the number of bytes up to the end of the last whole block of a file that is open for reading.

    Raises ValueError if the file isn't empty, and wasn't written by an application whose name begins so.
    """
    place, total = 0, file.seek(0, os.SEEK_END)
    file.seek(0)
    if total and not application_in(file.read(MOST_NAME)).startswith(application.encode()):
        raise ValueError("not of this application")
    while place + HEAD.size <= total:
        file.seek(place)
        kind, length = HEAD.unpack(file.read(HEAD.size))
        if kind not in (SECTION, INTERFACE, PACKET) or length % ALIGNMENT or not HEAD.size < length <= MOST_BLOCK:
            raise ValueError(f"no block at {place}")
        if place + length > total:
            break
        file.seek(place + length - TAIL.size)
        if file.read(TAIL.size) != TAIL.pack(length):
            raise ValueError(f"no block at {place}")
        place += length
    return place
