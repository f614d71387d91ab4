"""The rules of SigMF 1.0.0 for the object of a .sigmf-meta: the fields of the core namespace, their types and order."""

from __future__ import annotations

import re
from collections.abc import Iterator
from datetime import datetime
from typing import Any

VERSION = "1.0.0"
DATATYPE = re.compile(r"[cr]((f32|f64|i32|i16|u32|u16)_(le|be)|i8|u8)")
DATETIME = re.compile(r"\d{4}-\d\d-\d\dT\d\d:\d\d:\d\d(\.\d+)?Z")
NAME = re.compile(r"([a-z0-9_]+):[A-Za-z0-9_]+")
TEXT, NUMBER, COUNT, LOGICAL, LIST, OBJECT = "text", "number", "count", "logical", "list", "object"
# The fields of each object, by their names without "core:".
GLOBAL = {
    "datatype": TEXT, "version": TEXT, "sample_rate": NUMBER, "num_channels": COUNT, "sha512": TEXT, "offset": COUNT,
    "description": TEXT, "author": TEXT, "meta_doi": TEXT, "data_doi": TEXT, "recorder": TEXT, "license": TEXT,
    "hw": TEXT, "dataset": TEXT, "trailing_bytes": COUNT, "metadata_only": LOGICAL, "geolocation": OBJECT,
    "extensions": LIST, "collection": TEXT,
}  # fmt: skip
CAPTURE = {
    "sample_start": COUNT, "global_index": COUNT, "header_bytes": COUNT, "frequency": NUMBER, "datetime": TEXT,
    "geolocation": OBJECT,
}  # fmt: skip
ANNOTATION = {
    "sample_start": COUNT, "sample_count": COUNT, "freq_lower_edge": NUMBER, "freq_upper_edge": NUMBER, "label": TEXT,
    "comment": TEXT, "generator": TEXT, "uuid": TEXT,
}  # fmt: skip
NEEDED = {"global": ("datatype", "version"), "captures": ("sample_start",), "annotations": ("sample_start",)}


def is_of(kind: str, value: Any) -> bool:
    """Whether a value has a type."""
    if kind == COUNT:
        return type(value) is int and value >= 0
    if kind == NUMBER:
        return type(value) in (int, float)
    return isinstance(value, {TEXT: str, LOGICAL: bool, LIST: list, OBJECT: dict}[kind])


def field_faults(place: str, held: dict[str, Any], known: dict[str, str], spaces: set[str]) -> Iterator[str]:
    """Yields what is wrong with the names and types of an object's fields; `spaces` has the extensions' names."""
    for name in NEEDED[place]:
        if f"core:{name}" not in held:
            yield f"{place}: no core:{name}"
    for name, value in held.items():
        found = NAME.fullmatch(name)
        if not found or found[1] not in {"core", *spaces}:
            yield f"{place}: {name} is in no namespace"
        elif found[1] == "core":
            kind = known.get(name.removeprefix("core:"))
            if kind is None:
                yield f"{place}: {name} is unknown"
            elif not is_of(kind, value):
                yield f"{place}: {name} is no {kind}"


def order_faults(place: str, rows: list[dict[str, Any]], samples: int) -> Iterator[str]:
    """Yields what is wrong with the order of captures or annotations, and with their ranges in a file."""
    starts = [row.get("core:sample_start", 0) for row in rows]
    if starts != sorted(starts):
        yield f"{place}: not in the order of core:sample_start"
    for row, start in zip(rows, starts):
        if start + row.get("core:sample_count", 0) > samples:
            yield f"{place}: a range after the last sample"
        edges = ["core:freq_lower_edge" in row, "core:freq_upper_edge" in row]
        if any(edges) and not all(edges):
            yield f"{place}: one edge without the other"


def extension_faults(extensions: list[Any]) -> Iterator[str]:
    """Yields what is wrong with the extensions that are declared."""
    for one in extensions:
        kinds = {name: type(value) for name, value in one.items()} if isinstance(one, dict) else {}
        if kinds != {"name": str, "version": str, "optional": bool}:
            yield "global: an extension without name, version and optional"


def capture_faults(captures: list[dict[str, Any]]) -> Iterator[str]:
    """Yields what is wrong with the times and the indices of captures."""
    indices = [capture.get("core:global_index", capture.get("core:sample_start", 0)) for capture in captures]
    if indices != sorted(indices):
        yield "captures: core:global_index falls"
    for capture in captures:
        if (told := capture.get("core:datetime")) is not None:
            if not DATETIME.fullmatch(told):
                yield "captures: core:datetime is no time in UTC"
            else:
                datetime.fromisoformat(told[:19])


def faults_of(meta: dict[str, Any], samples: int) -> list[str]:
    """Returns what is wrong with the object of a .sigmf-meta for a file of `samples` samples."""
    if set(meta) != {"global", "captures", "annotations"}:
        return ["not the three objects global, captures and annotations"]
    told, captures, notes = meta["global"], meta["captures"], meta["annotations"]
    extensions = told.get("core:extensions", [])
    found = list(extension_faults(extensions))
    spaces = {one["name"] for one in extensions} if not found else set()
    found += field_faults("global", told, GLOBAL, spaces)
    if told.get("core:version") != VERSION:
        found.append(f"global: core:version is not {VERSION}")
    if not DATATYPE.fullmatch(str(told.get("core:datatype"))):
        found.append("global: core:datatype is none of SigMF")
    for place, rows, known in (("captures", captures, CAPTURE), ("annotations", notes, ANNOTATION)):
        for row in rows:
            found += field_faults(place, row, known, spaces)
        found += order_faults(place, rows, samples)
    return found + list(capture_faults(captures))
