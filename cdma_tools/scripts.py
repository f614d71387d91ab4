"""Reading of a script: the link, the gains, and the traffic channels with their frames.

Only `make` judges whether the script names a cell (docs/FORMATS.md). This module reads the form of its lines.
"""

import dataclasses
from typing import Mapping

from cdma_tools.errors import Refused

PILOT_ROW = 0
SYNC_ROW = 32
FRAME_KINDS = ("frame", "frame2")


@dataclasses.dataclass(frozen=True)
class Frame:
    """A frame as a script's line names it: `frame` or `frame2`, its bits a second, its information as N:HEX."""

    kind: str
    rate: int
    bits: str


@dataclasses.dataclass(frozen=True)
class Traffic:
    """A traffic channel: its Walsh row, serial number in hex, FRAME_OFFSET, gain, and the cycle of its frames."""

    row: int
    esn: str
    offset: int
    gain: int
    frames: tuple[Frame, ...]


@dataclasses.dataclass(frozen=True)
class Script:
    """A cell: the link's factor, the local chip of sample 0, the number of samples, PRAT, gains by row, the channels.

    `paging` has the rows of the paging channels. `prat` is None if no sync channel is sent.
    """

    link: complex
    start: int
    samples: int
    prat: int | None
    gains: Mapping[int, int]
    paging: tuple[int, ...]
    traffic: tuple[Traffic, ...]

    def power(self) -> float:
        """Returns the mean power of a chip that the cell sends over its link: both branches, all channels."""
        return 2 * abs(self.link) ** 2 * sum(gain * gain for gain in self.gains.values())


def fields_of(words: list[str]) -> dict[str, str]:
    """The words `name=value` of a line."""
    return dict(word.split("=", 1) for word in words if "=" in word)


class Reader:
    """Takes a script's lines one by one."""

    def __init__(self) -> None:
        self.link, self.start, self.samples = 0j, 0, 0
        self.prat: int | None = None
        self.gains: dict[int, int] = {}
        self.paging: list[int] = []
        self.traffic: list[tuple[dict[str, str], list[Frame]]] = []

    def take(self, line: str) -> None:
        """Takes a line; raises KeyError, ValueError or IndexError if it doesn't have the form of its first word."""
        name, *words = line.split(" ")
        fields = fields_of(words)
        if name == "link":
            self.link = complex(int(fields["re"]), int(fields["im"]))
            self.start, self.samples = int(fields["start"]), int(fields["samples"])
        elif name == "pilot":
            self.gains[PILOT_ROW] = int(fields["gain"])
        elif name == "sync":
            self.gains[SYNC_ROW], self.prat = int(fields["gain"]), int(fields["prat"])
        elif name == "paging":
            self.paging.append(int(fields["channel"]))
            self.gains[self.paging[-1]] = int(fields["gain"])
        elif name == "traffic":
            self.gains[int(fields["row"])] = int(fields["gain"])
            self.traffic.append((fields, []))
        elif name in FRAME_KINDS:
            self.traffic[-1][1].append(Frame(name, int(words[0]), words[1].lower()))
        elif name not in ("cell", "page"):
            raise ValueError(name)

    def channels(self) -> tuple[Traffic, ...]:
        """The traffic channels that were taken."""
        return tuple(
            Traffic(
                row=int(fields["row"]),
                esn=fields["esn"].lower(),
                offset=int(fields["offset"]),
                gain=int(fields["gain"]),
                frames=tuple(frames),
            )
            for fields, frames in self.traffic
        )


def read_script(text: str, name: str) -> Script:
    """Returns the script of a text; `name` names it if it can't be read."""
    reader = Reader()
    for number, line in enumerate(text.splitlines(), 1):
        try:
            reader.take(line)
        except (KeyError, ValueError, IndexError):
            raise Refused(f"{name}: line {number} is not a line of a script: {line[:60]!r}") from None
    try:
        channels = reader.channels()
    except (KeyError, ValueError):
        raise Refused(f"{name}: a traffic line lacks row, esn, offset or gain") from None
    if not reader.samples:
        raise Refused(f"{name}: not a script: it has no link line with samples")
    return Script(
        reader.link, reader.start, reader.samples, reader.prat, reader.gains, tuple(reader.paging), channels
    )


def chosen_channel(script: Script, row: int | None, name: str) -> Traffic:
    """Returns the traffic channel on a row, or the first one; raises Refused if there is none, or none with frames."""
    if not script.traffic:
        raise Refused(f"{name}: no traffic channel")
    found = [channel for channel in script.traffic if row is None or channel.row == row]
    if not found:
        rows = ", ".join(str(channel.row) for channel in script.traffic)
        raise Refused(f"{name}: no traffic channel on row {row}, only on {rows}")
    if not found[0].frames:
        raise Refused(f"{name}: the traffic channel on row {found[0].row} has no frames")
    return found[0]
