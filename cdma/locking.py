"""Locks: from a radio's recording to chips, and what was found on the way (docs/RADIO.md)."""

import tempfile
from dataclasses import dataclass, field
from fractions import Fraction
from typing import Any

from cdma.chips import Chips, read_samples
from cdma.events import Table, html_table
from cdma.importing import RecordingSource, import_options
from cdma_tools.analysis.capture_chips import cells_of, lock_options, write_locked
from cdma_tools.analysis.cell_table import CellFacts
from cdma_tools.errors import Refused
from cdma_tools.radio import locking
from cdma_tools.sources.taking import take


@dataclass(frozen=True)
class RecordedPath:
    """A path: its delay in chips, and its level in dB below the strongest."""

    delay: float
    level: float


@dataclass(frozen=True)
class Held:
    """What a lock keeps for measurements on the same recording: where its samples are, and how they were followed."""

    path: str
    options: locking.Options
    held: locking.Held | None
    frequency: float | None  # of the recording's middle in Hz, if it is known
    source: object  # keeps a temporary file open


@dataclass(frozen=True, repr=False)
class Lock:
    """The result of a lock: `chips` of one base station, and the figures of the line that the tool writes.

    `carrier_hz` is the carrier above the middle, and `drift` its rise in Hz per second. `clock_ppm` is by how many
    millionths the radio's clock is slow. `phase` is the code phase of the first chip, `ec_io_db` the pilot's share of
    all power, `lost` the number of chips that were lost, and `scale` the factor of the samples. `remarks` has what the
    tool says besides. `cells` has a row for each cell, if they were asked for.
    """

    chips: Chips
    carrier_hz: float
    drift: float
    clock_ppm: float
    phase: int
    ec_io_db: float
    paths: tuple[RecordedPath, ...]
    equaliser: bool
    conjugate: bool
    lost: int
    scale: float
    remarks: tuple[str, ...]
    cells: Table[CellFacts]
    line: str
    kept: Held = field(compare=False)

    def __str__(self) -> str:
        """Returns the line that the tool writes."""
        return self.line

    def __repr__(self) -> str:
        """Returns the main figures."""
        return (
            f"<Lock: carrier {self.carrier_hz:.1f} Hz, clock {self.clock_ppm:.3f} ppm, Ec/Io {self.ec_io_db:.2f} dB,"
            f" {len(self.paths)} paths, {len(self.chips):,} chips>"
        )

    def _repr_html_(self) -> str:
        """Returns the figures as an HTML table."""
        figures = [one.partition("=") for one in self.line.split(" ")]
        rows = [{"figure": name, "value": value} for name, _, value in figures]
        return html_table(rows, len(rows))


def lock(
    recording: RecordingSource,
    *,
    type: str | None = None,
    rate: float | Fraction | None = None,
    capture: int | None = None,
    seconds: float | None = None,
    frequency: float | None = None,
    channel: int | None = None,
    band: int | None = None,
    gain: float | None = None,
    ppm: int | None = None,
    bias_tee: bool = False,
    agc: bool = False,
    skip: int = 0,
    shift: float | None = None,
    search: float | None = None,
    conjugate: str | None = None,
    equaliser: str | None = None,
    fingers: int | None = None,
    count: int | None = None,
    scale: float | None = None,
    bits: int = 16,
    complement_30: bool = False,
    complement_16: bool = False,
    checks: str | None = None,
    cell: int | None = None,
    pn: int | None = None,
    cells: int | None = None,
) -> Lock:
    """Returns the lock to the strongest pilot of a recording, or to another cell of it.

    `recording` is a `cdma.Recording`, or the path of a `.sigmf-meta`, a `.sigmf`, a `.wav`, or of raw samples of `type`
    and `rate`. It may also be an array of complex numbers, shape (n,), or the address of a live source, both with
    `rate`. The other parameters are the options of `tools/import_capture --lock`:

    - `seconds` is how much is taken of a live source, 28 by default. A radio is tuned by `frequency` in Hz, or by a
      `channel` of a `band`, and by `gain` in dB, `ppm`, `bias_tee` and `agc`.
    - `capture` chooses one of several captures. `skip` leaves out samples, and `count` is the greatest number of chips.
    - The carrier is searched `search` Hz to each side of `shift`. `conjugate` and `equaliser` are `yes`, `no` or `try`.
    - `fingers`, 1 to 3, is the number of paths for which the instants are chosen.
    - `scale` multiplies the samples, and `bits` is 16 or 8. `complement_30` and `complement_16` are flags of the chips.
      With `checks="auto"` the program follows the chips both ways, and the first flag is taken by what passes.
    - `cell`, from 1 on, takes the cell of that rank without the stronger ones; `pn` takes the one of a pilot offset.
    - `cells` also fills the table of that many cells, which takes longer.

    Raises `cdma.Error` if no pilot stands out or a file can't be read.

    >>> cell = cdma.Cell(pn=3, samples=614_400)
    >>> recording = cdma.record(cdma.make(cell), type="cu8", carrier=1500, clock_ppm=3, ec_io=-6)
    >>> lock = cdma.lock(recording)
    >>> round(lock.carrier_hz), round(lock.clock_ppm), round(lock.ec_io_db)
    (1500, 3, -6)
    """
    given: dict[str, object] = {
        "type": type, "rate": rate, "capture": capture, "seconds": seconds, "frequency": frequency, "channel": channel,
        "band": band, "gain": gain, "ppm": ppm, "bias_tee": bias_tee, "agc": agc, "skip": skip, "shift": shift,
        "search": search, "conjugate": conjugate, "equaliser": equaliser, "fingers": fingers, "count": count,
        "scale": scale, "complement_30": complement_30, "complement_16": complement_16, "checks": checks, "cell": cell,
        "pn": pn, "cells": cells,
    }  # fmt: skip
    with import_options(recording, given, bits, "--lock") as (options, source):
        return locked(options, source)


def locked(options: Any, source: object) -> Lock:
    """Returns the lock that the tool's options ask for."""
    recording = take(options.recording, options)
    held: list[locking.Held] = []
    with tempfile.TemporaryFile() as file:
        try:
            found = write_locked(options, recording, file, look=lambda one, _: held.append(one))
        except Refused as why:
            raise recording.explained(why) from None
        file.seek(0)
        chips = read_samples(file)
    if recording.fault:
        found = found._replace(said=(*found.said, recording.fault))
    first = held[0] if held else None
    rows = cells_of(options, recording, options.program, first) if options.cells else []
    return Lock(
        chips=chips,
        carrier_hz=found.carrier_hz,
        drift=found.drift,
        clock_ppm=found.clock_ppm,
        phase=found.phase,
        ec_io_db=found.ec_io_db,
        paths=tuple(RecordedPath(way.delay, way.level) for way in found.paths),
        equaliser=found.equaliser,
        conjugate=found.conjugate,
        lost=found.lost,
        scale=found.scale,
        remarks=tuple(found.remarks()),
        cells=Table(rows),
        line=found.line(),
        kept=Held(recording.path, lock_options(options, recording), first, recording.frequency, (source, recording)),
    )
