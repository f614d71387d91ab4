"""The pcapng file of the lines of one recording: one interface for each channel of a cell, and times in UTC."""

from collections.abc import Callable
from typing import Any

from cdma_tools import __version__
from cdma_tools.lines import ORIGIN, NoLine, read_line
from cdma_tools.listening.events import Event
from cdma_tools.listening.system_time import SystemTime, frames_of, time_told
from cdma_tools.radio.air import CHIP_RATE, PERIOD
from cdma_tools.wireshark.packets import SYNC_ROW, Cell, Channel, Place, content_of, packet_of
from cdma_tools.wireshark.pcapng import MOST_TIME, interface_block, packet_block, section_header

MAKER = "cdma_replay tools"
APPLICATION = f"{MAKER} {__version__}"
SECOND = 1_000_000_000  # nanoseconds
MOST_LATE = 256  # the greatest delay of a finger after the reference path, in chips
Interface = tuple[Cell | None, Channel]


def interface_name(cell: Cell | None, channel: Channel) -> str:
    """Returns the name of the interface of a channel of a cell."""
    where = f"SID {cell.sid} NID {cell.nid} PN {cell.pn}" if cell else "unknown cell"
    return f"{where} {channel.name.lower()}"


class PacketStream:
    """Writes the packets of lines, in their order, as a pcapng file."""

    def __init__(self, write: Callable[[bytes], object], paging_row: int = 0, traffic_row: int = 0) -> None:
        """Writes whole blocks by `write`, the first one at once; a row is 0 if it is not known."""
        self.write = write
        self.rows = {Channel.SYNC: SYNC_ROW, Channel.PAGING: paging_row, Channel.TRAFFIC: traffic_row}
        self.interfaces: dict[Interface, int] = {}
        self.cell: Cell | None = None
        write(section_header(APPLICATION))

    def learn(self, read: dict[str, Any]) -> None:
        """Takes the cell and the Walsh row of the traffic channel from a line's object, if it has them."""
        if read["line"] == "sync":
            self.cell = Cell(read["sid"], read["nid"], read["pn"])
        elif read["line"] == "sets":
            self.take_sets(read["active"])

    def take(self, read: dict[str, Any], chip: int, time: SystemTime | None) -> None:
        """Writes the packet of a line's object, if it has one.

        `chip` is the chip of its `at`, as `time` counts chips.
        """
        self.learn(read)
        if found := content_of(read):
            channel = found[1]
            nanoseconds = time.nanoseconds(chip) if time else read["at"] * SECOND // CHIP_RATE
            if not 0 <= nanoseconds <= MOST_TIME:
                raise NoLine(f"its time is {nanoseconds // SECOND} s after 1970, which pcapng can't hold")
            interface = self.interface((self.cell, channel))
            place = Place(read["at"], self.cell, self.rows[channel], time is not None)
            self.write(packet_block(interface, nanoseconds, packet_of(read, place)))

    def take_sets(self, active: list[list[int]]) -> None:
        """Takes the Walsh row of the traffic channel from the active set, if the cell's pilot is in it."""
        for pn, row, _ in active:
            if self.cell is not None and pn == self.cell.pn:
                self.rows[Channel.TRAFFIC] = row

    def interface(self, interface: Interface) -> int:
        """Returns the number of the interface of a channel of a cell, whose block is written before its first packet."""
        if interface not in self.interfaces:
            self.interfaces[interface] = len(self.interfaces)
            self.write(interface_block(interface_name(*interface)))
        return self.interfaces[interface]


class LinePackets:
    """Writes the packets of the lines of one run of the program."""

    def __init__(self, write: Callable[[bytes], object]) -> None:
        """Writes whole blocks by `write`."""
        self.stream = PacketStream(write)
        self.phase: int | None = None  # of the pilot's code at sample 0
        self.time: SystemTime | None = None

    def take(self, text: str) -> None:
        """Writes the packet of a line, if it has one; raises `NoLine` if the text is not a line."""
        read = read_line(text)
        if read["line"] in ("pilot", ORIGIN):
            self.phase, self.time = read.get("phase"), None
        if "at" not in read:
            return
        if read["line"] == "sync":
            self.take_time(read, text)
        self.stream.take(read, read["at"] + (self.phase or 0), self.time)

    def take_time(self, read: dict[str, Any], text: str) -> None:
        """Takes the time of a sync message.

        A message that ends with the file is known a frame early, because no frame follows its last one. That is seen
        where it would otherwise begin before the file, or a frame before the time known so far. The code begins where
        a message is known, or a little before; a pilot line that says otherwise has another origin than `at`.
        """
        at = read["at"]
        if self.phase is None or (at + self.phase) % PERIOD > MOST_LATE:
            self.phase = -at % PERIOD
        is_early = at < PERIOD * (frames_of(read) + 1)
        told = time_told(Event(at + self.phase + (PERIOD if is_early else 0), text))
        if told and (self.time is None or told.base != self.time.base - PERIOD):
            self.time = told
