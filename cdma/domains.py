"""The code domain: the power of each Walsh row, and how well a cell sends (docs/RADIO.md, "Code domain")."""

import argparse
import contextlib
import os
import tempfile
from dataclasses import dataclass
from typing import Any

import numpy
from numpy.typing import NDArray

from cdma.chips import Source, chips_of, save
from cdma.errors import ParameterError, as_errors
from cdma.events import Table, html_table
from cdma.locking import Lock
from cdma.parameters import instance_of, parsed, path_of, words_of
from cdma.programs import path_or_none
from cdma_tools.analysis.limits import Limit, limits_of
from cdma_tools.analysis.measuring import Analysis, analysis_of_chips, analysis_of_file, seen_lock
from cdma_tools.analysis.telling import figures_of, levels_of
from cdma_tools.frequencies import add_frequency_options, frequency_fault, frequency_given
from cdma_tools.recordings import Recording


@dataclass(frozen=True, repr=False)
class CodeDomain:
    """The 64 Walsh rows of a cell, and the quality of its waveform.

    The arrays have shape (64,), one number for each row:

    - `db` is the row's power in dB of all power, without the noise in it, and `total_db` the same with it.
    - `sigma` is by how many standard deviations of noise the row stands out, and `used` whether it is in use.
    - `degrees` and `chips` are its phase and time relative to the pilot.

    `frames`, shape (n, 64), has the power of each row in each frame of 20 ms in dB of the frame's power. `kinds` are
    `pilot`, `sync`, `paging`, `other` and `none`; a row is called paging if the program decodes a message on it.
    `rho` is the cell's share of all power, and `error_vector` the root mean square of the error relative to what is
    sent. `figures` has all figures of `tools/domain` by their names. `limits` has the
    standard's, if they were asked for.
    """

    rho: float
    error_vector: float
    figures: dict[str, Any]
    kinds: tuple[str, ...]
    db: NDArray[numpy.float64]
    total_db: NDArray[numpy.float64]
    sigma: NDArray[numpy.float64]
    used: NDArray[numpy.bool_]
    degrees: NDArray[numpy.float64]
    chips: NDArray[numpy.float64]
    frames: NDArray[numpy.float64]
    limits: Table[Limit]
    analysis: Analysis

    def rows(self) -> list[dict[str, Any]]:
        """Returns the rows in use, each with its number, kind and figures."""
        return [
            {"row": row, "kind": self.kinds[row], "db": round(float(self.db[row]), 2),
             "total_db": round(float(self.total_db[row]), 2), "sigma": round(float(self.sigma[row]), 1),
             "degrees": round(float(self.degrees[row]), 2), "chips": round(float(self.chips[row]), 4)}
            for row in numpy.flatnonzero(self.used).tolist()
        ]  # fmt: skip

    def __repr__(self) -> str:
        """Returns rho and the number of rows in use."""
        return f"<CodeDomain: rho {self.rho:.4f}, {int(self.used.sum())} rows in use>"

    def _repr_html_(self) -> str:
        """Returns the rows in use as an HTML table."""
        rows = self.rows()
        return f"<p>rho {self.rho:.4f}</p>" + html_table(rows, len(rows))


def code_domain(
    source: Lock | Source,
    *,
    limits: bool = False,
    frequency: float | None = None,
    channel: int | None = None,
    band: int | None = None,
) -> CodeDomain:
    """Returns the code domain of a lock, of chips, or of the sample file at a path.

    For a lock to the strongest cell, the figures also have what the radio adds: carrier, clock, paths and imbalance.
    With `limits` the cell is compared with the standard's limits (C.S0010): each has a `value`, its `bound`, and
    whether it `is_met`. The carrier's needs the recording's middle, unless a .sigmf-meta has it: `frequency` in Hz, or
    a `channel` of a `band`, 800 (default) or 1900.

    Raises `cdma.Error` if there are too few chips, or no pilot stands out.

    >>> cell = cdma.Cell(pn=3, gain=100, samples=122_880)
    >>> cell.add_sync(gain=50)
    >>> domain = cdma.code_domain(cdma.make(cell), limits=True)
    >>> domain.kinds[0], domain.kinds[32], domain.used.nonzero()[0].tolist()
    ('pilot', 'sync', [0, 32])
    >>> round(float(domain.db[0] - domain.db[32]), 1)  # 20 log(100 / 50)
    6.0
    >>> [limit.name for limit in domain.limits if limit.is_met and not limit.left_out]
    ['rho', 'unused', 'time', 'phase']
    """
    instance_of("limits", limits, bool)
    middle = middle_of(source, {"frequency": frequency, "channel": channel, "band": band})
    with as_errors():
        analysis = analysed(source)
        return domain_of(analysis, limits_of(analysis, middle) if limits else [])


def middle_of(source: Lock | Source, given: dict[str, object]) -> float | None:
    """Returns the frequency of a recording's middle in Hz: the given one, or that of a lock; None if it isn't known."""
    parser = argparse.ArgumentParser(add_help=False)
    add_frequency_options(parser, "")
    options = parsed(parser, words_of(given))
    if fault := frequency_fault(options):
        parser.error(fault)
    found = frequency_given(options)
    if found is not None and not isinstance(source, Lock):
        name = "frequency" if given["frequency"] is not None else "channel"
        raise ParameterError(name, "it goes with a lock to a recording")
    return source.kept.frequency if found is None and isinstance(source, Lock) else found


def analysed(source: Lock | Source) -> Analysis:
    """Returns the analysis of a lock, of chips or of a file."""
    if isinstance(source, (str, os.PathLike)):
        return analysis_of_file(path_of("source", source), path_or_none(), lambda part, text: None)
    with tempfile.TemporaryDirectory(prefix="domain-") as folder, as_errors(folder):
        path = os.path.join(folder, "chips.is95")
        save(source.chips if isinstance(source, Lock) else chips_of(source, "source"), path)
        if isinstance(source, Lock) and source.kept.held is not None:
            return analysis_of_lock(source, path)
        return analysis_of_file(path, path_or_none(), lambda part, text: None)


def analysis_of_lock(lock: Lock, path: str) -> Analysis:
    """Returns the analysis of a lock, whose chips are in the file at a path."""
    kept, held = lock.kept, lock.kept.held
    assert held is not None
    options = kept.options
    recording = Recording(kept.path, options.kind, float(options.rate), options.skip, held.is_conjugate)
    with contextlib.closing(recording):
        held.front.recording = recording
        seen = seen_lock(held, lock.lost)
    return analysis_of_chips(path, seen, path_or_none())


def domain_of(analysis: Analysis, limits: list[Limit]) -> CodeDomain:
    """Returns an analysis as arrays, with limits to which it was compared."""
    rows = sorted(analysis.domain.rows, key=lambda row: row.row)

    def column(name: str) -> NDArray[Any]:
        return numpy.array([getattr(row, name) for row in rows])

    return CodeDomain(
        rho=analysis.rho,
        error_vector=analysis.error_vector,
        figures=figures_of(analysis),
        kinds=tuple(analysis.kinds.get(row.row, "none") for row in rows),
        db=column("db"),
        total_db=column("total_db"),
        sigma=column("sigma"),
        used=column("is_used"),
        degrees=column("degrees"),
        chips=column("chips"),
        frames=levels_of(analysis.domain.frames),
        limits=Table(limits),
        analysis=analysis,
    )
