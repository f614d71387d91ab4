"""Lines of the program as CSV (RFC 4180): the lines of one kind, with a column for each field."""

import csv
import io
import json
from collections.abc import Iterable
from typing import Any

from cdma_tools.lines import SHAPES, Field, Shape, read_line

KINDS = {"-".join(word for word in (shape.line, shape.word) if word): shape for shape in SHAPES}
"""The kinds of lines by name: the line's first word, and its second one after a hyphen."""


def row_of(cells: Iterable[str]) -> str:
    """Returns a row with its end."""
    row = io.StringIO()
    csv.writer(row, lineterminator="\r\n").writerow(cells)
    return row.getvalue()


def header_row(kind: str) -> str:
    """Returns the row that names the columns of a kind."""
    return row_of(field.name for field in KINDS[kind].fields())


def cell_of(field: Field, value: Any) -> str:
    """Returns a value as text: a list as JSON, anything else as in the line, empty if the field is absent."""
    if value is None:
        return ""
    return json.dumps(value, separators=(",", ":")) if isinstance(value, list) else field.form.spell(value)


def csv_row(kind: str, text: str) -> str:
    """Returns the row of a line, empty if the line is of another kind; raises `NoLine` if it is not a line."""
    read = read_line(text)
    shape = KINDS[kind]
    if not is_of(shape, read):
        return ""
    return row_of(cell_of(field, read.get(field.name)) for field in shape.fields())


def is_of(shape: Shape, read: dict[str, Any]) -> bool:
    """Whether an object is that of a line of this shape."""
    return read["line"] == shape.line and (shape.word is None or read[shape.key] == shape.word)
