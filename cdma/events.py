"""Events: what a handset hears, each as a dataclass whose fields have the names of the lines (docs/FORMATS.md)."""

import dataclasses
import enum
import html
from collections.abc import Callable, Iterable
from typing import TYPE_CHECKING, Any, ClassVar, TypeVar

from cdma.errors import Error
from cdma_tools.lines import TIME_NAME, NoLine, kind_words, read_line, spell_line
from cdma_tools.program import NAME

MOST_SHOWN = 20  # rows of a table in a notebook


class Unread:
    """A place for the line of an event, whose fields are read when the first of them is asked for."""

    __slots__ = ("_line",)
    _line: str


@dataclasses.dataclass(frozen=True, slots=True)
class Event(Unread):
    """Anything that the program writes in one line; `str(event)` is that line.

    `time_utc` is the time of its `at` in UTC, such as 2026-11-29T18:43:11.123456Z. Only events of `cdma.listen` have
    it, from the first message with a time on.

    The fields of a line are read when one is first asked for, which raises `cdma.Error` if the program wrote no line.
    """

    first: ClassVar[str]
    time_utc: str | None = dataclasses.field(default=None, kw_only=True, repr=False, compare=False)

    if not TYPE_CHECKING:  # type checkers know the fields

        def __getattr__(self, name: str) -> Any:
            """Reads the fields of the line, since one of them isn't there yet."""
            if name not in NAMES.get(type(self), ()) or not has_line(self):
                raise AttributeError(f"{type(self).__name__!r} object has no attribute {name!r}")
            set_fields(self)
            return getattr(self, name)

    def to_dict(self) -> dict[str, Any]:
        """Returns the JSON object of the line, as `tools/lines` writes it."""
        if has_line(self):
            read = fields_of(self._line)
            return read if self.time_utc is None else {**read, TIME_NAME: self.time_utc}
        found = {"line": self.first}
        for field in dataclasses.fields(self):
            value = getattr(self, field.name)
            if field.name == TIME_NAME:
                continue
            if field.name == "fields":
                found |= plain(value)
            elif value is not None:
                found[field.name] = plain(value)
        return found if self.time_utc is None else {**found, TIME_NAME: self.time_utc}

    def __str__(self) -> str:
        """Returns the line, without a line feed."""
        return self._line if has_line(self) else spell_line(self.to_dict())

    @property
    def kind(self) -> str:
        """The kind of the event, as `tools/lines --csv` names it: `sync`, `paging-system`, `frame`, `raw-sync`."""
        if has_line(self):
            second = kind_words(self._line)[1]
        else:
            second = getattr(self, "message", None) or getattr(self, "channel", None)
        return f"{self.first}-{second}" if second else self.first


@dataclasses.dataclass(frozen=True, slots=True)
class Pilot(Event):
    """The pilot that the search finds: `phase`, 0 to 32,767 chips, and its `energy`."""

    first: ClassVar[str] = "pilot"
    phase: int
    energy: int


@dataclasses.dataclass(frozen=True, slots=True)
class Rank(Event):
    """The strength of pilot `pn`: `energy` at its best phase, `delta` chips above its own."""

    first: ClassVar[str] = "survey"
    pn: int
    delta: int
    energy: int


@dataclasses.dataclass(frozen=True, slots=True)
class Sync(Event):
    """A sync message, known at sample `at`, with the standard's fields; `freq` is None if the message has none.

    `rest` has the bits after the fields as N:HEX.
    """

    first: ClassVar[str] = "sync"
    at: int
    prev: int
    min: int
    sid: int
    nid: int
    pn: int
    lc: int
    time: int
    lp: int
    ltm: int
    daylt: int
    prat: int
    rest: str
    freq: int | None = None


@dataclasses.dataclass(frozen=True, slots=True)
class Page(Event):
    """A message of a paging channel, known at sample `at`.

    `message` is `system`, `neighbors`, `channels` or `other`, and `fields` has its fields by their names in the line.
    """

    first: ClassVar[str] = "paging"
    at: int
    message: str
    fields: dict[str, Any]

    def __hash__(self) -> int:
        """Returns a hash of the other fields, since `fields` has none."""
        return hash((self.at, self.message))


@dataclasses.dataclass(frozen=True, slots=True)
class Frame(Event):
    """A frame of a traffic channel that ended at sample `at`: its `rate` in bits per second, and whether it is `good`.

    `bits` are its information bits as N:HEX, and `commands` its sixteen power control bits.
    """

    first: ClassVar[str] = "frame"
    at: int
    rate: int
    good: bool
    bits: str
    commands: tuple[int, ...]


@dataclasses.dataclass(frozen=True, slots=True)
class TrafficMessage(Event):
    """A message of the traffic channel, known at sample `at`, with the fields of its head.

    `message` is `system`, `neighbors`, `handoff` or `other`, and `fields` has the other fields by their names in the
    line.
    """

    first: ClassVar[str] = "traffic"
    at: int
    ack: int
    seq: int
    req: int
    enc: int
    message: str
    fields: dict[str, Any]

    def __hash__(self) -> int:
        """Returns a hash of the other fields, since `fields` has none."""
        return hash((self.at, self.message))


@dataclasses.dataclass(frozen=True, slots=True)
class PilotSets(Event):
    """The pilot sets at sample `at`, whose system time is `time` units of 80 ms.

    `active` has the offset, Walsh row and power control subchannel of each active pilot, and `candidate` the offsets of
    candidates. `report` says whether a pilot strength report is due.
    """

    first: ClassVar[str] = "sets"
    at: int
    time: int
    active: tuple[tuple[int, ...], ...]
    candidate: tuple[int, ...]
    report: bool


@dataclasses.dataclass(frozen=True, slots=True)
class RawMessage(Event):
    """A message as received, on the `channel` `sync`, `paging` or `traffic`: its whole capsule in `bits`, as N:HEX."""

    first: ClassVar[str] = "raw"
    at: int
    channel: str
    bits: str


EVENTS: tuple[type[Event], ...] = (Pilot, Rank, Sync, Page, Frame, TrafficMessage, PilotSets, RawMessage)
KINDS = {kind.first: kind for kind in EVENTS}
NAMES = {kind: frozenset(field.name for field in dataclasses.fields(kind)) for kind in EVENTS}
ABSENT = {kind: frozenset({"freq"} if kind is Sync else ()) for kind in EVENTS}  # fields that a line may lack
# How an event has the values of a line's object that it has in another form.
HELD: dict[str, Callable[[Any], Any]] = {
    "good": bool,
    "report": bool,
    "commands": tuple,
    "candidate": tuple,
    "active": lambda records: tuple(map(tuple, records)),
}
new_object, set_field = object.__new__, object.__setattr__  # as events are frozen
set_line, set_time = vars(Unread)["_line"].__set__, vars(Event)["time_utc"].__set__
RowType = TypeVar("RowType")


def plain(value: Any) -> Any:
    """Returns a value as JSON has it: lists for tuples, and numbers for what is true or false."""
    if isinstance(value, tuple):
        return [plain(part) for part in value]
    return int(value) if isinstance(value, bool) else value


def has_line(event: Event) -> bool:
    """Whether an event comes from a run, so that it keeps its line."""
    try:
        return event._line is not None
    except AttributeError:
        return False


def fields_of(line: str) -> dict[str, Any]:
    """Returns the JSON object of a line; raises Error if it is none of the program's."""
    try:
        return read_line(line)
    except NoLine as why:
        raise Error(f"not a line of {NAME}: {why}: {line:.60}") from None


def set_fields(event: Event) -> None:
    """Reads the line of an event, and sets its fields."""
    names = NAMES[type(event)]
    others: dict[str, Any] = {}
    read = fields_of(event._line)
    del read["line"]
    for name, value in read.items():
        if name not in names:
            others[name] = value
        else:
            set_field(event, name, HELD[name](value) if name in HELD else value)
    if "fields" in names:
        set_field(event, "fields", others)
    for name in ABSENT[type(event)] - read.keys():
        set_field(event, name, None)


def event_of(line: str, time_utc: str | None = None) -> Event:
    """Returns the event of a line of the program, without its line feed; its fields are read later."""
    kind = KINDS.get(line.partition(" ")[0])
    if kind is None:
        raise Error(f"not a line of {NAME}: {line!r:.60}")
    event: Event = new_object(kind)
    set_line(event, line)
    set_time(event, time_utc)
    return event


class Table(list[RowType]):
    """A list of events of one kind, or of other rows, which a notebook shows as a table."""

    def to_pandas(self) -> Any:
        """Returns a `pandas.DataFrame` with a column for each field; raises `cdma.Error` without pandas."""
        try:
            import pandas
        except ModuleNotFoundError:
            raise Error("no pandas: install the package python3-pandas") from None
        return pandas.DataFrame(rows_of(self))

    def _repr_html_(self) -> str:
        """Returns the first rows as an HTML table."""
        return html_table(rows_of(self[:MOST_SHOWN]), len(self))


def rows_of(rows: Iterable[Any]) -> list[dict[str, Any]]:
    """Returns the fields of rows by their names; those of events are without the line's first word."""
    found = [row.to_dict() if isinstance(row, Event) else dataclasses.asdict(row) for row in rows]
    return [{name: worth(value) for name, value in fields.items() if name != "line"} for fields in found]


def worth(value: Any) -> Any:
    """Returns a value of a table, that of an enumeration by what it stands for."""
    return value.value if isinstance(value, enum.Enum) else value


def html_table(rows: list[dict[str, Any]], count: int, shown: Callable[[Any], str] = str) -> str:
    """Returns rows as an HTML table, with a line below it if they are fewer than `count`."""
    names = list(dict.fromkeys(name for row in rows for name in row))
    head = "".join(f"<th>{html.escape(name)}</th>" for name in names)
    body = "".join(
        "<tr>" + "".join(f"<td>{html.escape(shown(row.get(name, '')))}</td>" for name in names) + "</tr>"
        for row in rows
    )
    more = f"<p>{len(rows)} of {count:,} rows</p>" if len(rows) < count else ""
    return f"<table><thead><tr>{head}</tr></thead><tbody>{body}</tbody></table>{more}"
