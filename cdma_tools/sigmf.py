"""The description of a SigMF recording, and notes that are added to it (SigMF 1.0)."""

import hashlib
import json
import os
from fractions import Fraction
from typing import Any, Protocol

from cdma_tools.arguments import MOST_RATE
from cdma_tools.errors import Refused
from cdma_tools.overwriting import DATA as DATA, META as META
from cdma_tools.reading import MEGABYTE, read_within
from cdma_tools.recordings import TYPES, SamplePath, first_byte, sample_bytes, type_named
from cdma_tools.writing import write_beside

VERSION = "1.0.0"
MOST_META = 64 * MEGABYTE  # bytes of a .sigmf-meta that is read
LONGEST_TOLD = 60  # characters of a value in a fault


def read_json(path: str) -> dict[str, Any]:
    """The whole object of a .sigmf-meta; refuses one that has no 'global' or no list of captures."""
    return object_of(path, read_within(path, MOST_META))


def object_of(path: str, text: bytes) -> dict[str, Any]:
    """The object that a text of SigMF holds; `path` names it in faults."""
    try:
        meta = json.loads(text.decode("utf-8"))
    except ValueError as why:
        raise Refused(f"{path}: not JSON: {why}") from None
    except RecursionError:
        raise Refused(f"{path}: its JSON is nested too deeply to be read") from None
    if not isinstance(meta, dict) or not isinstance(meta.get("global"), dict):
        raise Refused(f"{path}: no object 'global'")
    captures = meta.get("captures", [])
    if not isinstance(captures, list) or not all(isinstance(capture, dict) for capture in captures):
        raise Refused(f"{path}: 'captures' is not a list of objects")
    return meta


def brief(value: Any) -> str:
    """Returns a value of a .sigmf-meta as a fault shows it."""
    try:
        text = repr(value)
    except RecursionError:
        return "a value that is nested too deeply"
    return text if len(text) <= LONGEST_TOLD else f"{text[:LONGEST_TOLD]}.."


def is_name(named: Any) -> bool:
    """Whether a value names a file in a folder."""
    return (
        isinstance(named, str)
        and named.isprintable()
        and os.path.basename(named) == named
        and named not in ("", ".", "..")
    )


def samples_of(path: str, fields: dict[str, Any]) -> str:
    """The path of the samples of a .sigmf-meta with these global fields."""
    named = fields.get("core:dataset")
    if named is None:
        return path[: -len(META)] + DATA
    if not is_name(named):
        raise Refused(f"{path}: core:dataset is not a file's name: {brief(named)}")
    return os.path.join(os.path.dirname(path), named)


def fields_of(path: str, meta: dict[str, Any]) -> dict[str, Any]:
    """The global fields of a recording of one channel that has samples."""
    fields: dict[str, Any] = meta["global"]
    if fields.get("core:metadata_only"):
        raise Refused(f"{path}: a recording without samples (core:metadata_only)")
    channels = fields.get("core:num_channels", 1)
    if channels != 1:
        raise Refused(f"{path}: {brief(channels)} channels (core:num_channels); only one can be taken")
    return fields


def type_told(path: str, fields: dict[str, Any]) -> str:
    """Returns the type of the samples that the fields give."""
    told = fields.get("core:datatype")
    kind = type_named(told) if isinstance(told, str) else told
    if not isinstance(kind, str) or kind not in TYPES:
        raise Refused(f"{path}: core:datatype is {brief(told)}, not one of {', '.join(TYPES)}")
    return kind


def whole_of(path: str, capture: dict[str, Any], name: str) -> int:
    """A whole number from 0 on of a capture, 0 if it has none."""
    told = capture.get(name, 0)
    if isinstance(told, bool) or not isinstance(told, int) or told < 0:
        raise Refused(f"{path}: {name} is {brief(told)}, not a whole number from 0 on")
    return told


def captures_of(path: str, meta: dict[str, Any], number: int | None) -> tuple[int, int]:
    """The first capture that is taken, and the one after the last: all of one frequency, or the one asked for."""
    captures = meta.get("captures", [])
    if number is not None:
        if number > len(captures):
            raise Refused(f"{path}: no capture {number}: it has {len(captures)}, numbered from 0")
        return number - 1, number
    if len({capture.get("core:frequency") for capture in captures if "core:frequency" in capture}) > 1:
        raise Refused(f"{path}: {len(captures)} captures of several frequencies: give --capture N")
    if any(capture.get("core:header_bytes") for capture in captures[1:]):
        raise Refused(f"{path}: other bytes lie between its {len(captures)} captures: give --capture N")
    return 0, len(captures)


def extent_of(path: str, meta: dict[str, Any], samples: str, size: int, number: int | None) -> str:
    """Where the samples of the captures that are taken stand in a file; each has `size` bytes."""
    captures, (first, behind) = meta.get("captures", []), captures_of(path, meta, number)
    starts = [whole_of(path, capture, "core:sample_start") for capture in captures]
    heads = [whole_of(path, capture, "core:header_bytes") for capture in captures]
    trailing = whole_of(path, meta["global"], "core:trailing_bytes")
    if number is None and not trailing and not any(heads):
        return samples
    begin = size * starts[first] + sum(heads[: first + 1]) if captures else 0
    end = sample_bytes(samples) - trailing
    if behind < len(captures):
        end = min(end, size * starts[behind] + sum(heads[:behind]))
    if end <= begin:
        raise Refused(f"{path}: no samples in the part taken from {samples}")
    return SamplePath(samples, first_byte(samples) + begin, end - begin)


def frequency_in(meta: dict[str, Any], number: int | None = None) -> float | None:
    """The frequency in Hz of the middle of a capture, by default the first; None if it isn't given."""
    captures = meta.get("captures", [])[(number or 1) - 1 :]
    told = captures[0].get("core:frequency") if captures else None
    return float(told) if isinstance(told, (int, float)) and not isinstance(told, bool) else None


def rate_told(path: str, fields: dict[str, Any], given: Fraction | None) -> Fraction:
    """Returns the rate in samples per second in the fields, or the given one if they have none."""
    told = fields.get("core:sample_rate")
    if told is None:
        if given is None:
            raise Refused(f"{path}: no core:sample_rate; give --rate")
        return given
    if given is not None:
        raise Refused(f"{path}: core:sample_rate is {brief(told)}; --rate can't be given too")
    if isinstance(told, bool) or not isinstance(told, (int, float)) or not 0 < told <= MOST_RATE:
        raise Refused(f"{path}: core:sample_rate is {brief(told)}, not a number above 0 and at most {MOST_RATE:,}")
    return Fraction(told)


def check_sum(path: str, fields: dict[str, Any], samples: str) -> None:
    """Refuses samples whose checksum isn't the one in the fields, if they have one."""
    told = fields.get("core:sha512")
    if told is None:
        return
    found, left = hashlib.sha512(), sample_bytes(samples)
    try:
        with open(samples, "rb") as file:
            file.seek(first_byte(samples))
            while piece := file.read(min(1 << 20, left)):
                found.update(piece)
                left -= len(piece)
    except OSError as why:
        raise Refused(f"{samples}: {why.strerror}") from None
    if found.hexdigest() != str(told).lower():
        raise Refused(f"{samples}: its checksum isn't core:sha512 of {path}")


def new_meta(kind: str, rate: Fraction, text: str) -> dict[str, Any]:
    """The object of a .sigmf-meta for samples of a type and a rate, with a text that describes them."""
    told = int(rate) if rate.denominator == 1 else float(rate)
    fields = {"core:datatype": kind, "core:sample_rate": told, "core:version": VERSION, "core:description": text}
    return {"global": fields, "captures": [{"core:sample_start": 0}], "annotations": []}


def annotate(
    meta: dict[str, Any], first: int, count: int, maker: str, label: str, text: str, more: dict[str, Any] | None = None
) -> None:
    """Adds a note on samples first to first + count - 1, with more fields, in the order of their beginnings."""
    note = {
        "core:sample_start": first,
        "core:sample_count": count,
        "core:generator": maker,
        "core:label": label,
        "core:comment": text,
        **(more or {}),
    }
    annotate_all(meta, [note])


def annotate_all(meta: dict[str, Any], added: list[dict[str, Any]]) -> None:
    """Adds notes that aren't there yet, in the order of their beginnings."""
    notes = meta.setdefault("annotations", [])
    if not isinstance(notes, list) or not all(isinstance(old, dict) for old in notes):
        raise Refused("'annotations' is not a list of objects")
    known = {json.dumps(old, sort_keys=True) for old in notes}
    notes.extend(new for new in added if json.dumps(new, sort_keys=True) not in known)
    notes.sort(key=lambda old: start if isinstance(start := old.get("core:sample_start"), (int, float)) else 0)


def number_in(capture: dict[str, Any], name: str, default: int) -> int:
    """Returns a whole number of a capture, by default another one."""
    told = capture.get(name)
    return told if isinstance(told, int) else default


def begin_capture(meta: dict[str, Any], first: int, lost: int, near: int) -> None:
    """Begins a capture at sample `first`, before which `lost` samples are missing, unless one begins near there.

    It has the frequency of the capture before it. core:global_index counts the lost samples too. Tools place the same
    loss up to `near` samples apart.
    """
    captures = meta.setdefault("captures", [])
    starts = [number_in(capture, "core:sample_start", 0) for capture in captures]
    if any(abs(start - first) <= near for start in starts):
        return
    begun = [capture for capture, start in zip(captures, starts) if start <= first]
    before = begun[-1] if begun else {}
    start = number_in(before, "core:sample_start", 0)
    index = number_in(before, "core:global_index", start) + first - start + lost
    added = {"core:sample_start": first, "core:global_index": index}
    if "core:frequency" in before:
        added["core:frequency"] = before["core:frequency"]
    captures.insert(len(begun), added)


def write_meta(path: str, meta: dict[str, Any]) -> None:
    """Writes a whole .sigmf-meta, or none."""
    try:
        text = json.dumps(meta, indent=2)
    except RecursionError:
        raise Refused(f"{path}: its JSON is nested too deeply") from None
    with write_beside(path) as file:
        file.write(f"{text}\n".encode())


class Described(Protocol):
    """The result of a lock, as a note needs it."""

    @property
    def begin(self) -> float:
        """Returns the second from which the pilot is received."""

    @property
    def end(self) -> float:
        """Returns the second up to which it is received."""

    def line(self) -> str:
        """The figures as name=value."""


def check_note(path: str, samples: str) -> None:
    """Refuses a .sigmf-meta that isn't next to the samples."""
    if os.path.abspath(os.path.dirname(path)) != os.path.abspath(os.path.dirname(samples)):
        raise Refused(f"{path}: it must be in the folder of the samples, {os.path.dirname(samples) or '.'}")


def meta_for(path: str, recording: str, kind: str, rate: Fraction, samples: str) -> dict[str, Any]:
    """Returns the object of a .sigmf-meta at `path` that names the samples.

    It is what is there already, otherwise what the recording's own .sigmf-meta has.
    """
    if os.path.exists(path):
        return read_json(path)
    meta = read_json(recording) if recording.endswith(META) else new_meta(kind, rate, "a recording of a radio")
    if path[: -len(META)] + DATA != samples:
        meta["global"]["core:dataset"] = os.path.basename(samples)
    return meta


def note_lock(path: str, recording: str, kind: str, rate: Fraction, samples: str, skip: int, found: Described) -> None:
    """Writes a .sigmf-meta at `path` that names the samples, with a note on the result of a lock."""
    meta = meta_for(path, recording, kind, rate, samples)
    first = skip + round(found.begin * float(rate))
    count = round((found.end - found.begin) * float(rate))
    annotate(meta, first, count, "tools/import_capture --lock", "IS-95 pilot", found.line())
    write_meta(path, meta)
