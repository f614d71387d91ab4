"""Recordings in files, by their names: SigMF, SigMF archives, WAV files of radio programs, and raw samples.

| Name | What it contains |
|---|---|
| `x.sigmf-meta` | type, rate and frequency of the samples next to it; of several captures one can be chosen |
| `x.sigmf` | the same, with the samples in one archive (a plain tar) |
| `x.wav` | type and rate, and the frequency of its `auxi` chunk, as SDR programs write it |
| any other | nothing: its type and rate have to be given |
"""

import os
import struct
import tarfile
from dataclasses import dataclass
from fractions import Fraction
from typing import Any, BinaryIO, Iterator

from cdma_tools import sigmf
from cdma_tools.errors import Refused
from cdma_tools.recordings import TYPES, SamplePath

ARCHIVE, WAVE = ".sigmf", ".wav"
DESCRIBED = (sigmf.META, ARCHIVE, WAVE)
# Formats of a WAV file, by their number and their bits, and the number that refers to another place.
PCM, FLOATING, EXTENSIBLE = 1, 3, 0xFFFE
WAVE_TYPES = {
    (PCM, 8): "cu8", (PCM, 16): "ci16_le", (PCM, 32): "ci32_le", (FLOATING, 32): "cf32_le", (FLOATING, 64): "cf64_le",
}  # fmt: skip
CHUNK, FORMAT = struct.Struct("<4sI"), struct.Struct("<HHIIHH")
SUBFORMAT_PLACE, SIZES_PLACE = 24, 8
# The chunk of SDR programs: two times of 16 bytes, and then the frequency of the middle in Hz.
FREQUENCY_PLACE = 32
TO_THE_END = (0, 0xFFFF_FFFF)
MOST_CHUNK = 1 << 16  # bytes of a chunk, but for the samples', that are read


@dataclass(frozen=True)
class Stored:
    """Samples in a file: their type, their rate, their place, and the frequency of their middle in Hz, if known."""

    kind: str
    rate: Fraction
    path: str
    frequency: float | None = None


def is_described(path: str) -> bool:
    """Whether a recording has its own type and rate."""
    return path.endswith(DESCRIBED)


def stored_of(path: str, rate: Fraction | None, capture: int | None = None) -> Stored:
    """Returns the samples of a recording that has its own type; `rate` is given only if it has no rate."""
    if path.endswith(WAVE):
        if rate is not None:
            raise Refused(f"{path}: a WAV file has its own rate; --rate can't be given too")
        return wave_of(path)
    if path.endswith(ARCHIVE):
        meta, samples = archive_parts(path)
        return described(path, meta, samples, rate, capture)
    meta = sigmf.read_json(path)
    return described(path, meta, sigmf.samples_of(path, meta["global"]), rate, capture)


def described(path: str, meta: dict[str, Any], samples: str, rate: Fraction | None, capture: int | None) -> Stored:
    """The samples that a SigMF object describes, which stand at a path."""
    fields = sigmf.fields_of(path, meta)
    kind = sigmf.type_told(path, fields)
    found = sigmf.rate_told(path, fields, rate)
    sigmf.check_sum(path, fields, samples)
    extent = sigmf.extent_of(path, meta, samples, TYPES[kind].size, capture)
    return Stored(kind, found, extent, sigmf.frequency_in(meta, capture))


def archive_parts(path: str) -> tuple[dict[str, Any], SamplePath]:
    """The object of a SigMF archive, and where its samples stand; refuses one of several recordings."""
    try:
        with tarfile.open(path, "r:") as archive:
            metas = [one for one in archive if one.isfile() and one.name.endswith(sigmf.META)]
            if len(metas) != 1:
                raise Refused(f"{path}: {len(metas)} recordings in the archive; only one can be taken")
            file = archive.extractfile(metas[0])
            text = b"" if file is None else file.read(sigmf.MOST_META + 1)
            name = metas[0].name.removesuffix(sigmf.META) + sigmf.DATA
            samples = next((one for one in archive.getmembers() if one.name == name and one.isreg()), None)
    except OSError as why:
        raise Refused(f"{path}: {why.strerror or why}") from None
    except tarfile.TarError as why:
        raise Refused(f"{path}: not a SigMF archive: {why}") from None
    if samples is None:
        raise Refused(f"{path}: no {name} in the archive")
    return sigmf.object_of(path, text), SamplePath(path, samples.offset_data, samples.size)


def wave_of(path: str) -> Stored:
    """The samples of a WAV file of two channels, i and q."""
    try:
        with open(path, "rb") as file:
            return wave_in(path, file, os.fstat(file.fileno()).st_size)
    except OSError as why:
        raise Refused(f"{path}: {why.strerror}") from None


def chunks_of(path: str, file: BinaryIO, total: int) -> Iterator[tuple[bytes, int, bytes]]:
    """The chunks of a WAV file: each one's name, its size, and its first bytes; the file follows its head."""
    head = file.read(12)
    if head[:4] not in (b"RIFF", b"RF64") or head[8:] != b"WAVE":
        raise Refused(f"{path}: not a WAV file")
    while len(told := file.read(CHUNK.size)) == CHUNK.size:
        name, size = CHUNK.unpack(told)
        begin = file.tell()
        yield name, size, b"" if name == b"data" else file.read(min(size, MOST_CHUNK))
        if begin + size > total:
            return
        file.seek(begin + size + size % 2)


def wave_in(path: str, file: BinaryIO, total: int) -> Stored:
    """The samples of an open WAV file of `total` bytes."""
    kind, rate, frequency, long_size = "", 0, None, 0
    for name, size, data in chunks_of(path, file, total):
        if name == b"fmt " and len(data) >= FORMAT.size:
            kind, rate = wave_format(path, data)
        elif name == b"auxi" and len(data) >= FREQUENCY_PLACE + 4:
            frequency = float(struct.unpack_from("<I", data, FREQUENCY_PLACE)[0]) or None
        elif name == b"ds64" and len(data) >= SIZES_PLACE + 8:
            long_size = struct.unpack_from("<Q", data, SIZES_PLACE)[0]
        elif name == b"data":
            if not kind:
                raise Refused(f"{path}: a WAV file without a 'fmt ' chunk before its samples")
            size = long_size if size == TO_THE_END[1] and long_size else size
            left, one = total - file.tell(), TYPES[kind].size
            held = left if size in TO_THE_END else min(size, left)
            return Stored(kind, Fraction(rate), SamplePath(path, file.tell(), held // one * one), frequency)
    raise Refused(f"{path}: a WAV file without samples")


def wave_format(path: str, data: bytes) -> tuple[str, int]:
    """Returns the type and the rate in a 'fmt ' chunk."""
    form, channels, rate, _, _, bits = FORMAT.unpack_from(data)
    if form == EXTENSIBLE and len(data) >= SUBFORMAT_PLACE + 2:
        form = struct.unpack_from("<H", data, SUBFORMAT_PLACE)[0]
    if channels != 2:
        raise Refused(f"{path}: {channels} channels; a recording of a radio has two, i and q")
    if (form, bits) not in WAVE_TYPES:
        raise Refused(f"{path}: format {form} of {bits} bits; 8, 16 and 32 bits and floating point can be read")
    if not rate:
        raise Refused(f"{path}: a rate of 0 samples a second")
    return WAVE_TYPES[form, bits], rate
