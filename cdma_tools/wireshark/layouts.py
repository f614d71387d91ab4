"""The parts of each message in the order in which they are sent (docs/LINK.md), and the bits of a message by them.

The fields, with their names and widths, are those of the lines (`cdma_tools.lines`). A layout adds what a line leaves
out: types, flags, lengths, and the order of the numbers of a record.
"""

import re
from collections.abc import Iterator
from dataclasses import dataclass
from typing import Any

from cdma_tools.lines import BY_WORDS, Field, Group, Shape

TYPE_WIDTH = 8  # bits of MSG_TYPE
STANDARD_NAME = re.compile(r"[A-Z][A-Z_]+")
ENCRYPTION = "ENCRYPTION"


@dataclass(frozen=True)
class Number:
    """A number of a message."""

    field: Field


@dataclass(frozen=True)
class Longer:
    """A number that a message has if more than `bits` bits are left before it."""

    field: Field
    bits: int


@dataclass(frozen=True)
class Switched:
    """A bit of the given name, and numbers that follow if it is 1."""

    name: str
    fields: tuple[Field, ...]


@dataclass(frozen=True)
class Zero:
    """A number of the given name that is 0; otherwise the message is kept as bits."""

    name: str
    width: int


@dataclass(frozen=True)
class Octets:
    """A number of octets in `width` bits under the given name, and the octets."""

    name: str
    width: int
    field: Field


@dataclass(frozen=True)
class Records:
    """As many records as fit; `order` has for each number sent its place in the line's record."""

    field: Field
    order: tuple[int, ...]

    def columns(self) -> list[tuple[str, int]]:
        """Returns the standard's name and the width of each number of a record, in the order sent."""
        names = STANDARD_NAME.findall(self.field.meaning)
        return [(names[place], self.field.form.parts[place].width) for place in self.order]


@dataclass(frozen=True)
class Rest:
    """All bits that are left."""

    field: Field


Part = Number | Longer | Switched | Zero | Octets | Records | Rest


@dataclass(frozen=True)
class Layout:
    """A kind of message: its line, its MSG_TYPE (None for every other one), its title, and its parts after the type."""

    shape: Shape
    kind: int | None
    title: str
    parts: tuple[Part, ...]


def shape_fields(line: str, word: str | None) -> tuple[Field, ...]:
    """Returns the fields that each line of a kind has after its place."""
    shape = BY_WORDS[line, word]
    return tuple(part for part in (*shape.head, *shape.body) if isinstance(part, Field) and part.name != "at")


def group_fields(line: str, word: str | None) -> tuple[Field, ...]:
    """Returns the fields that a line of a kind may lack."""
    return next(part.fields for part in BY_WORDS[line, word].body if isinstance(part, Group))


def number_part(field: Field) -> Number | Zero:
    """Returns the part of a number; only unencrypted messages are taken apart."""
    return Zero(field.meaning, field.form.width) if field.meaning == ENCRYPTION else Number(field)


def numbers(fields: tuple[Field, ...]) -> tuple[Number | Zero, ...]:
    """Returns those of the fields that are numbers, as parts."""
    return tuple(number_part(field) for field in fields if field.form.width)


def sync_layout() -> Layout:
    """Returns the layout of the Sync Channel Message; without CDMA_FREQ it has 3 reserved bits (7.7.1.3)."""
    fields, (frequency,) = shape_fields("sync", None), group_fields("sync", None)
    parts = (*numbers(fields), Longer(frequency, 3), Rest(fields[-1]))
    return Layout(BY_WORDS["sync", None], 1, "Sync Channel Message", parts)


def list_layout(line: str, word: str, kind: int, title: str) -> Layout:
    """Returns the layout of a message with numbers and, if it has one, a list after them."""
    fields = shape_fields(line, word)
    lists = tuple(Records(field, tuple(range(len(field.form.parts)))) for field in fields if field.form.parts)
    return Layout(BY_WORDS[line, word], kind, title, (*numbers(fields), *lists, Rest(fields[-1])))


def handoff_layout() -> Layout:
    """Returns the layout of the Extended Handoff Direction Message, whose flags and lengths a line leaves out."""
    fields = shape_fields("traffic", "handoff")
    extra, records, rest = fields[-3:]
    search = Switched("SEARCH_INCLUDED", group_fields("traffic", "handoff"))
    parts = (search, Zero("HARD_INCLUDED", 1), Octets("ADD_LENGTH", 3, extra), Records(records, (0, 2, 1)), Rest(rest))
    title = "Extended Handoff Direction Message"
    return Layout(BY_WORDS["traffic", "handoff"], 17, title, (*numbers(fields), *parts))


def other_layout(line: str, title: str) -> Layout:
    """Returns the layout of the messages of a channel that are kept as bits, except for type and head."""
    fields = shape_fields(line, "other")
    head = tuple(Number(field) for field in fields if field.form.width and field.meaning != "MSG_TYPE")
    return Layout(BY_WORDS[line, "other"], None, title, (*head, Rest(fields[-1])))


LAYOUTS = (
    sync_layout(),
    list_layout("paging", "system", 1, "System Parameters Message"),
    list_layout("paging", "neighbors", 3, "Neighbor List Message"),
    list_layout("paging", "channels", 4, "CDMA Channel List Message"),
    other_layout("paging", "paging message"),
    list_layout("traffic", "system", 7, "In-Traffic System Parameters Message"),
    list_layout("traffic", "neighbors", 8, "Neighbor List Update Message"),
    handoff_layout(),
    other_layout("traffic", "traffic message"),
)
BY_SHAPE = {(layout.shape.line, layout.shape.word): layout for layout in LAYOUTS}


def binary(value: int, width: int) -> str:
    """Returns a number as `width` digits 0 or 1."""
    return f"{value:0{width}b}" if width else ""


def binary_of_text(text: str) -> str:
    """Returns the digits of the bits N:HEX."""
    count, _, digits = text.partition(":")
    return binary(int(digits or "0", 16), 4 * len(digits))[: int(count)]


def text_of_binary(digits: str) -> str:
    """Returns the bits N:HEX of digits 0 or 1."""
    octets = -(-len(digits) // 8)
    return f"{len(digits)}:{int(digits.ljust(8 * octets, '0') or '0', 2).to_bytes(octets, 'big').hex()}"


def message_digits(read: dict[str, Any]) -> str:
    """Returns the message of a line's object, from MSG_TYPE to its last bit, as digits 0 or 1."""
    layout = BY_SHAPE[read["line"], read.get("message")]
    kind = layout.kind if layout.kind is not None else read["type"]
    return binary(kind, TYPE_WIDTH) + "".join(piece for part in layout.parts for piece in part_digits(part, read))


def part_digits(part: Part, read: dict[str, Any]) -> Iterator[str]:
    """Yields the digits of a part."""
    match part:
        case Number(field) | Longer(field):
            if field.name in read:
                yield binary(read[field.name], field.form.width)
        case Switched(_, fields):
            is_there = fields[0].name in read
            yield binary(is_there, 1)
            yield from (binary(read[field.name], field.form.width) for field in fields if is_there)
        case Zero(_, width):
            yield binary(0, width)
        case Octets(_, width, field):
            digits = binary_of_text(read[field.name])
            yield binary(len(digits) // 8, width) + digits
        case Records(field, order):
            for record in read[field.name]:
                values = record if isinstance(record, list) else [record]
                yield from (binary(values[place], field.form.parts[place].width) for place in order)
        case Rest(field):
            yield binary_of_text(read[field.name])
