"""The dissector in Lua, made of `dissector.lua` and the layouts of messages.

`python3 -m cdma_tools.wireshark.dissector` compares share/cdma-replay/is95.lua with what it should be, and --write
writes it. Filter names are those of the standard's fields: PILOT_PN of a paging message is `is95.paging.pilot_pn`.
"""

import os
import sys
from collections.abc import Iterator

from cdma_tools.lines import Field
from cdma_tools.places import SHARED, TOP
from cdma_tools.wireshark.layouts import (
    LAYOUTS,
    STANDARD_NAME,
    TYPE_WIDTH,
    Layout,
    Longer,
    Number,
    Octets,
    Part,
    Records,
    Rest,
    Switched,
    Zero,
)
from cdma_tools.wireshark.packets import Channel

PLACE = os.path.join(SHARED, "is95.lua")
TEMPLATE = os.path.join(os.path.dirname(os.path.abspath(__file__)), "dissector.lua")
FIELDS_MARK, LAYOUTS_MARK = "-- FIELDS\n", "-- LAYOUTS\n"
Column = tuple[str, str, int, bool]
"""A field of the dissector: its filter name, its title, its width (0 for bits as text), and whether it is hexadecimal."""


def filter_name(line: str, name: str) -> str:
    """Returns the filter name of a field of a channel."""
    return f"is95.{line}.{name.lower()}"


def column_of(line: str, field: Field) -> Column:
    """Returns a field of a line as one of the dissector; one without a name in the standard keeps that of the line."""
    name = field.meaning if STANDARD_NAME.fullmatch(field.meaning) else field.name
    return filter_name(line, name), field.meaning, field.form.width, "hex digits" in field.form.text


def named_column(line: str, name: str, width: int) -> Column:
    """Returns a field that lines don't have."""
    return filter_name(line, name), name, width, False


def columns_of(line: str, part: Part) -> list[Column]:
    """Returns the fields of a part, in the order sent."""
    match part:
        case Number(field) | Longer(field) | Rest(field):
            return [column_of(line, field)]
        case Switched(name, fields):
            return [named_column(line, name, 1), *(column_of(line, field) for field in fields)]
        case Zero(name, width):
            return [named_column(line, name, width)]
        case Octets(name, width, field):
            return [named_column(line, name, width), column_of(line, field)]
        case Records():
            return [named_column(line, name, width) for name, width in part.columns()]


def all_columns() -> list[Column]:
    """Returns the fields of all messages, each once, in the order of the layouts."""
    found: dict[str, Column] = {}
    for layout in LAYOUTS:
        line = layout.shape.line
        of_layout = [column for part in layout.parts for column in columns_of(line, part)]
        for column in [named_column(line, "MSG_TYPE", TYPE_WIDTH), *of_layout]:
            if found.setdefault(column[0], column)[2:] != column[2:]:
                raise ValueError(f"{column[0]} has two widths")
    return list(found.values())


def field_rows() -> Iterator[str]:
    """Yields the rows of the table of fields."""
    for name, title, width, is_hexadecimal in all_columns():
        form = "base.HEX" if is_hexadecimal else "base.DEC"
        yield f'    {{ "{name}", "{title}", {width}, {form} }},\n'


def lua_number(column: Column) -> str:
    """Returns the entries of a number in Lua."""
    return f'name = "{column[0]}", width = {column[2]}'


def lua_columns(columns: list[Column]) -> str:
    """Returns a list of numbers in Lua."""
    return "columns = { " + ", ".join(f"{{ {lua_number(column)} }}" for column in columns) + " }"


def lua_part(line: str, part: Part) -> str:
    """Returns a part in Lua."""
    kind, columns = f'kind = "{type(part).__name__.lower()}"', columns_of(line, part)
    match part:
        case Number() | Zero():
            return f"{kind}, {lua_number(columns[0])}"
        case Longer(_, bits):
            return f"{kind}, {lua_number(columns[0])}, bits = {bits}"
        case Switched():
            return f"{kind}, {lua_number(columns[0])}, {lua_columns(columns[1:])}"
        case Octets():
            return f'{kind}, {lua_number(columns[0])}, text = "{columns[1][0]}"'
        case Records():
            return f"{kind}, {lua_columns(columns)}"
        case Rest():
            return f'{kind}, name = "{columns[0][0]}"'


def layout_rows(layout: Layout) -> Iterator[str]:
    """Yields the rows of a layout."""
    yield f'        [{layout.kind or 0}] = {{ title = "{layout.title}", parts = {{\n'
    for part in layout.parts:
        yield f"            {{ {lua_part(layout.shape.line, part)} }},\n"
    yield "        } },\n"


def channel_rows() -> Iterator[str]:
    """Yields the rows of the layouts of all channels."""
    for channel in Channel:
        yield f"    [{channel.value}] = {{\n"
        for layout in LAYOUTS:
            if layout.shape.line == channel.name.lower():
                yield from layout_rows(layout)
        yield "    },\n"


def dissector_text() -> str:
    """Returns the dissector."""
    with open(TEMPLATE, encoding="utf-8") as file:
        text = file.read()
    return text.replace(FIELDS_MARK, "".join(field_rows())).replace(LAYOUTS_MARK, "".join(channel_rows()))


def is_current(top: str = TOP) -> bool:
    """Whether the dissector of a checkout is the one that is made of the tables."""
    try:
        with open(os.path.join(top, PLACE), encoding="utf-8") as file:
            return file.read() == dissector_text()
    except FileNotFoundError:
        return False


def main() -> int:
    """Runs the module, and returns its exit status."""
    if sys.argv[1:] == ["--write"]:
        os.makedirs(os.path.join(TOP, SHARED), exist_ok=True)
        with open(os.path.join(TOP, PLACE), "w", encoding="utf-8") as out:
            out.write(dissector_text())
    if is_current():
        return 0
    print(f"{PLACE}: not what `python3 -m cdma_tools.wireshark.dissector --write` writes")
    return 1


if __name__ == "__main__":
    sys.exit(main())
