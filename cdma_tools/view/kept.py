"""What a page shows of a listening, in bounded memory: the last lines, spectra and figures, and the newest panels.

Lines and remarks are those of all cells that are followed; spectra, figures and most panels are kept for each cell.
Lines, spectra and remarks are numbered. A page gets those after the last one that it has; if those were dropped
meanwhile it gets the oldest that are kept, and the number of the missing ones.
"""

import json
import os
import tempfile
from collections import Counter, deque
from collections.abc import Iterator
from dataclasses import dataclass, field
from typing import Any, Generic, NamedTuple, TypeVar

from cdma_tools.heard_run import CHIP_RATE
from cdma_tools.lines import BY_WORDS, ORIGIN, PLACE_NAMES, TIME_NAME, Field, Group, NoLine, Shape, spell_line
from cdma_tools.listening.events import Event
from cdma_tools.report.heard_lines import Thinned
from cdma_tools.report.meaning import MEANINGS, rows_of

# Lines, rows of the waterfall, remarks and points of the figures over time that are kept.
MOST_LINES, MOST_SPECTRA, MOST_REMARKS, MOST_POINTS = 5_000, 150, 200, 600
# Sync messages that are kept: more than the 27 seconds of chips have.
MOST_SYNCS = 400
# Messages that identify the base station, by their lines' words, and the names of their tables.
IDENTITY = {("sync", None): "Sync message", ("paging", "system"): "System Parameters"}
# Messages of the listening on one cell, which have its number; and the most cells that are kept.
OF_A_CELL = ("spectrum", "figures")
MOST_CELLS = 100
# Figures that are shown over time.
FIGURES = ("ec_io_db", "carrier_hz", "clock_ppm", "rho")
FRAMES = ("frame", "frame2")

Thing = TypeVar("Thing")


class Numbered(Generic[Thing]):
    """The last things of a kind, with numbers from 0 on."""

    def __init__(self, most: int) -> None:
        """None yet; at most `most` are kept."""
        self.kept: deque[Thing] = deque(maxlen=most)
        self.count = 0

    def add(self, thing: Thing) -> None:
        """Takes the next one."""
        self.kept.append(thing)
        self.count += 1

    @property
    def first(self) -> int:
        """Returns the number of the oldest one that is kept."""
        return self.count - len(self.kept)

    def at(self, number: int) -> Thing | None:
        """Returns the one of a number, None if it isn't kept."""
        return self.kept[number - self.first] if self.first <= number < self.count else None

    def since(self, number: int, most: int) -> Iterator[tuple[int, Thing]]:
        """Yields up to `most` of those from a number on, with their numbers."""
        begin = max(number, self.first)
        for place in range(begin, min(self.count, begin + most)):
            yield place, self.kept[place - self.first]


def cell_text(cell: Any, carrier: Any) -> str:
    """Returns the text that names a cell: its number, and the carrier unless that is the one around the middle."""
    return f"{cell} at {carrier} Hz" if carrier else str(cell)


class Place(NamedTuple):
    """The cell, the carrier in Hz above the middle and the channel of a line, if several are listened to."""

    cell: Any
    carrier: Any
    channel: str

    @classmethod
    def taken_from(cls, read: dict[str, Any]) -> "Place | None":
        """Returns the place in an object, which loses it; None if it has none."""
        if not all(name in read for name in PLACE_NAMES) or read["line"] == "raw":
            return None
        cell, carrier, channel = (read.pop(name) for name in PLACE_NAMES)
        return cls(cell, carrier, str(channel))

    @property
    def cell_text(self) -> str:
        """Returns the cell, and the carrier unless that is the first one around the middle."""
        return cell_text(self.cell, self.carrier)


@dataclass(frozen=True)
class KeptLine:
    """A line: its kind in words, the second at which it was known, its text, its time in UTC, its object, its place."""

    kind: str
    seconds: float
    text: str
    utc: str
    read: dict[str, Any] = field(repr=False)
    place: Place | None = None

    def shown(self, number: int) -> dict[str, Any]:
        """Returns what a table shows of it."""
        told = {"n": number, "kind": self.kind, "seconds": round(self.seconds, 4), "text": self.text, "utc": self.utc}
        if self.place is not None:
            told |= {"cell": self.place.cell_text, "channel": self.place.channel}
        if self.kind in FRAMES:
            told |= {"rate": self.read["rate"], "good": self.read["good"]}
        return told


def fields_of(shape: Shape, read: dict[str, Any]) -> Iterator[Field]:
    """Yields the fields that a line has."""
    for part in (*shape.head, *shape.body):
        for one in part.fields if isinstance(part, Group) else (part,):
            if one.name in read:
                yield one


def field_rows(read: dict[str, Any]) -> list[list[str]]:
    """Returns the fields of a line: the name, the value as the line has it, and the meaning."""
    shape = BY_WORDS[read["line"], read.get("message", read.get("channel") if read["line"] == "raw" else None)]
    rows = []
    for one in fields_of(shape, read):
        value = read[one.name]
        meaning = MEANINGS.get(one.meaning)
        is_named = meaning is not None and not isinstance(value, list)
        told = meaning(value, read) if is_named and meaning is not None else ""
        rows.append([one.meaning if is_named else one.name, one.form.spell(value), told or one.meaning])
    return rows


class LinesFile:
    """All lines in a file without a name, which may be read while it grows."""

    def __init__(self) -> None:
        """An empty file."""
        self.file = tempfile.TemporaryFile(prefix="cdma-view-", buffering=1 << 16)

    def add(self, data: bytes) -> None:
        """Adds a line."""
        self.file.write(data)

    @property
    def path(self) -> str:
        """Returns a path by which this process can open it again."""
        self.file.flush()
        return f"/proc/{os.getpid()}/fd/{self.file.fileno()}"


class Panels:
    """The newest contents of panels by their names, each with its version."""

    def __init__(self) -> None:
        """None yet."""
        self.contents: dict[str, tuple[int, Any]] = {}

    def set(self, name: str, content: Any) -> None:
        """Takes the newest content of a panel, which has a new version if it has changed."""
        version, before = self.contents.get(name, (0, None))
        if version == 0 or content != before:
            self.contents[name] = version + 1, content


class KeptCell:
    """What is known of one cell that is followed."""

    def __init__(self, name: str) -> None:
        """Nothing yet of the cell of a name, which is empty if only one is followed."""
        self.name = name
        self.panels = Panels()
        self.spectra = Numbered[dict[str, Any]](MOST_SPECTRA)
        self.history: Thinned[list[float | None]] = Thinned(MOST_POINTS)
        self.figures: dict[str, Any] = {}
        self.quality: dict[str, float] = {}
        self.identity: dict[str, list[list[str]]] = {}
        self.pilot: int | None = None  # PILOT_PN of the last sync message
        self.has_pages = False
        self.lines = 0
        self.syncs: deque[Event] = deque(maxlen=MOST_SYNCS)  # by chips from the recording's start
        self.rows: dict[str, int | None] = {}  # of traffic channels by their names, by the last pilot sets

    def take(self, kind: str, told: dict[str, Any]) -> None:
        """Takes a message of the listening to the cell."""
        if kind == "spectrum":
            self.spectra.add(told)
        elif kind == "figures":
            self.figures = told
            self.panels.set(kind, told)

    def learn(self, read: dict[str, Any], text: str, channel: str) -> None:
        """Notes what a line says about the base station, of its time, and of the traffic channel's row."""
        words = read["line"], read.get("message")
        self.lines += 1
        if words[0] == "sync":
            self.pilot = read["pn"]
            self.syncs.append(Event(read["at"], text))
        if words[0] == "sets":
            rows = (row for pn, row, _ in read["active"] if pn == self.pilot)
            self.rows[channel] = next(rows, self.rows.get(channel))
        self.has_pages = self.has_pages or words[0] == "paging"
        if name := IDENTITY.get(words):
            self.identity[name] = [list(row) for row in rows_of(BY_WORDS[words], read)]
            self.panels.set("identity", dict(self.identity))

    def add_measured(self, seconds: float, panels: dict[str, Any], quality: dict[str, float]) -> None:
        """Takes what was measured of the last chips, and adds a point to the figures over time."""
        for name, panel in panels.items():
            self.panels.set(name, panel)
        self.quality = quality
        self.panels.set("quality", quality)
        told = {**self.figures, **quality}
        self.history.add([seconds, *(told.get(name) for name in FIGURES)])

    def shown(self) -> dict[str, Any]:
        """Returns what a page shows of each cell, whichever is chosen."""
        figures = self.figures
        return {
            "name": self.name,
            "pn": self.pilot,
            "ec_io_db": self.quality.get("ec_io_db"),
            "state": figures.get("state", ""),
            "lag": figures.get("lag", 0.0),
            "lost_samples": figures.get("lost_samples", 0),
            "lost_chips": figures.get("lost_chips", 0),
            "lines": self.lines,
        }


class Kept:
    """What is known of one listening so far."""

    def __init__(self, name: str) -> None:
        """Nothing yet of a source, which has a name."""
        self.name = name
        self.lines = Numbered[KeptLine](MOST_LINES)
        self.remarks = Numbered[dict[str, Any]](MOST_REMARKS)
        self.counts: Counter[str] = Counter()
        self.file = LinesFile()
        self.panels = Panels()  # those that don't belong to one cell
        self.cells = [KeptCell("")]  # the first of which gets its name with the first line or message that has one
        self.by_name: dict[str, KeptCell] = {}
        self.ended: dict[str, Any] | None = None
        self.base = self.end = 0  # chips: of the first line of this stream, and of the last one

    def take(self, data: bytes) -> None:
        """Takes a message of the listening: a line, or another one."""
        told = json.loads(data)
        kind = told.pop("view", None)
        if kind is None:
            self.take_line(data, told)
        elif kind in OF_A_CELL:
            self.cells[told.pop("number", 0)].take(kind, told)
        elif kind == "remark":
            self.remarks.add(told)
        elif kind == "following":
            for cell, carrier in told["places"]:
                self.cell_of(cell_text(cell, carrier))
        else:
            self.panels.set(kind, told)
            self.ended = told if kind == "ended" else self.ended

    def take_line(self, data: bytes, read: dict[str, Any]) -> None:
        """Takes a line of the listening, and its object."""
        self.file.add(data)
        try:
            text = spell_line(read)
        except NoLine:
            return
        if read["line"] == ORIGIN:
            self.base = self.end
        at = self.base + read.get("at", 0)
        self.end = max(self.end, at)
        kind = " ".join([read["line"], *([read["message"]] if "message" in read else [])])
        self.counts[kind if kind not in FRAMES else f"{kind} {read['rate']}{'' if read['good'] else ' bad'}"] += 1
        place = Place.taken_from(read)
        self.lines.add(KeptLine(kind, at / CHIP_RATE, text, read.pop(TIME_NAME, ""), read, place))
        if cell := self.cell_at(place):
            cell.learn(read, text, "" if place is None else place.channel)

    def cell_at(self, place: Place | None) -> KeptCell | None:
        """Returns the cell of a line; None if there are more cells than are kept."""
        return self.cells[0] if place is None else self.cell_of(place.cell_text)

    def cell_of(self, name: str) -> KeptCell | None:
        """Returns the cell of a name, a new one if none has it yet; None if there are more than are kept."""
        if name not in self.by_name:
            if not self.by_name:
                self.cells[0].name = name
            elif len(self.cells) < MOST_CELLS:
                self.cells.append(KeptCell(name))
            else:
                return None
            self.by_name[name] = self.cells[-1]
        return self.by_name[name]

    def lines_of(self, cell: KeptCell) -> Iterator[bytes]:
        """Yields the lines so far of a cell."""
        is_first = cell is self.cells[0]
        with open(self.file.path, "rb") as file:
            for data in file:
                place = Place.taken_from(json.loads(data))
                if is_first if place is None else place.cell_text == cell.name:
                    yield data

    def note_counts(self) -> None:
        """Puts the numbers of lines, and what is shown of each cell, into panels."""
        self.panels.set("counts", dict(self.counts))
        self.panels.set("followed", [cell.shown() for cell in self.cells])
