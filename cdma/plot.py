"""Plots on axes of matplotlib: each function draws on the axes that it gets, or on new ones, and returns them.

    axes = cdma.plot.correlation(chips)
    figure, both = pyplot.subplots(2)
    cdma.plot.run(run, axes=both[0])
"""

import os
import tempfile
from typing import Any

import numpy

from cdma.chips import Source, loaded, save
from cdma.domains import CodeDomain
from cdma.errors import Error, ParameterError
from cdma.locking import Lock
from cdma.parameters import Number, number_within
from cdma.receiving import Run
from cdma_tools.analysis.telling import draw_rows
from cdma_tools.correlation import best_phase, codes, energies
from cdma_tools.heard_run import CHIP_RATE
from cdma_tools.heard_run import Run as Heard
from cdma_tools.pictures import BLUE, draw_lanes, draw_phases
from cdma_tools.plots import NEEDED
from cdma_tools.report.measures import measured


def axes_or_new(axes: Any) -> Any:
    """Returns axes, or new ones if there are none; raises Error without matplotlib."""
    if axes is not None:
        return axes
    try:
        from matplotlib import pyplot
    except ImportError as missing:
        raise Error(f"{missing}: {NEEDED}") from None
    return pyplot.subplots(layout="constrained")[1]


def chips_in(source: Source | Lock) -> Any:
    """Returns the chips of a lock, of an array or of a file."""
    if isinstance(source, Lock):
        return source.chips
    return loaded(source)


def correlation(chips: Source | Lock, *, span: Number = 2_048, axes: Any = None) -> Any:
    """Draws the energy of the first `span` chips at each phase of the pilot's code, and returns the axes.

    Raises `cdma.ParameterError` if there are fewer chips than `span`.

    >>> axes = cdma.plot.correlation(examples / "pilot_in_noise.is95")
    >>> axes.get_title()
    'phase 12345, energy 21272219170, over 2,048 samples'
    """
    count, samples = number_within("span", span, 64, 32_768), chips_in(chips)
    if len(samples) < count:
        raise ParameterError("span", f"{count:,} samples are more than the {len(samples):,} there are")
    parts = (samples[:count, 0].astype(numpy.int64), samples[:count, 1].astype(numpy.int64))
    signs = codes()
    near = energies(parts, signs)
    energy, minus = best_phase(parts, signs, near)
    drawn = axes_or_new(axes)
    draw_phases(drawn, near)
    drawn.set_title(f"phase {-minus}, energy {energy}, over {count:,} samples")
    return drawn


def code_domain(domain: CodeDomain, *, axes: Any = None) -> Any:
    """Draws the level of each Walsh row as a bar, coloured by its kind, and returns the axes.

    >>> domain = cdma.code_domain(cdma.make(cdma.Cell(samples=122_880)))
    >>> cdma.plot.code_domain(domain).get_ylabel()
    'dB of all power'
    """
    drawn = axes_or_new(axes)
    draw_rows(drawn, domain.analysis)
    drawn.set_xlabel("Walsh row")
    drawn.set_title(f"rho {domain.rho:.4f}, {int(domain.used.sum())} rows in use")
    return drawn


def run(events: Run, *, axes: Any = None) -> Any:
    """Draws what a handset heard over time, a lane for each kind of message and each rate, and returns the axes.

    It waits for the end of the run.

    >>> cell = cdma.Cell(samples=400_000)
    >>> cell.add_sync()
    >>> cdma.plot.run(cdma.follow(cdma.make(cell))).get_xlabel()
    'seconds from the first sample'
    """
    heard = Heard((number, event.to_dict()) for number, event in enumerate(events, 1))
    drawn = axes_or_new(axes)
    draw_lanes(drawn, heard)
    drawn.set_xlim(0, max(1.02 * heard.ends() / CHIP_RATE, 1e-3))
    drawn.set_xlabel("seconds from the first sample")
    return drawn


def constellation(chips: Source | Lock, *, axes: Any = None) -> Any:
    """Draws the symbols of the sync channel in units of the pilot's amplitude, and returns the axes.

    Raises `cdma.Error` if no pilot stands out, or if there is no complete frame of the sync channel.

    >>> cell = cdma.Cell(pn=3, samples=98_304)
    >>> cell.add_sync(gain=50)
    >>> cdma.plot.constellation(cdma.make(cell)).get_xlabel()
    'in phase with the pilot'
    """
    samples = chips_in(chips)
    count = min(2_048, len(samples))
    parts = (samples[:count, 0].astype(numpy.int64), samples[:count, 1].astype(numpy.int64))
    signs = codes()
    phase = -best_phase(parts, signs, energies(parts, signs))[1]
    with tempfile.TemporaryDirectory(prefix="cdma-") as folder:
        path = os.path.join(folder, "chips.is95")
        save(samples, path)
        symbols = measured(path, phase, count).symbols
    if symbols is None:
        raise Error("no symbols of a sync channel: no pilot stands out, or there is no complete frame")
    drawn = axes_or_new(axes)
    drawn.plot(symbols.points.real, symbols.points.imag, ".", color=BLUE, ms=3, alpha=0.5)
    drawn.set(xlabel="in phase with the pilot", ylabel="across it", aspect="equal")
    drawn.grid(alpha=0.3)
    drawn.set_title(f"{len(symbols.points):,} symbols of the sync channel")
    return drawn
