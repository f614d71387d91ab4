"""What the last chips show: the code domain, symbols of the pilot, sync and paging channels, the pilot, and cells."""

from dataclasses import dataclass
from typing import Any, NamedTuple

import numpy
from numpy.typing import NDArray
from scipy import fft

from cdma_tools.analysis.code_domain import GROUP_CHIPS, Chips, CodeDomain, Meter, smoothed_gain
from cdma_tools.analysis.walsh import PILOT_ROW, SYNC_BLOCKS, SYNC_ROW, despread, to_whole_symbols
from cdma_tools.radio.air import PERIOD, decibels, short_code
from cdma_tools.report.measures import STANDING_OUT, WINDOW, ratios_at

# Chips that are measured at once, 107 ms, and those in which the pilot's correlation and the symbols are looked at.
WHOLE, CORRELATED, SHOWN = 4 * PERIOD, 8_192, 20 * GROUP_CHIPS
# Periods of the code whose energies are added to look for cells.
PERIODS = 3
# By which an energy must pass the noise's mean in the mean of three periods: 32,768 phases of noise do so once in some
# ten thousand times.
STANDS_OUT = 10.0
# Chips from one pilot's offset to the next, offsets, and the most cells that are shown.
STEP, OFFSETS, MOST_CELLS = 64, 512, 12
LOWEST = -45.0  # dB, of a row


class Cell(NamedTuple):
    """A cell that stands out: steps of its offset after the pilot that is followed, its level in dB against that pilot,
    and chips more."""

    steps: int
    level_db: float
    delay: int


@dataclass(frozen=True)
class Wanted:
    """What is known of the listening: the handset's paging row if pages were heard on it, and the filter's part."""

    paging: int | None
    pilot: int | None
    kept: float


def kind_of(row: int, is_used: bool, paging: int | None) -> str:
    """Returns the kind of a row."""
    if not is_used:
        return "not in use"
    return {PILOT_ROW: "pilot", SYNC_ROW: "sync", paging: "paging"}.get(row, "other")


def domain_panel(domain: CodeDomain, wanted: Wanted) -> dict[str, Any]:
    """Returns the levels of all rows in dB of all power, and their kinds."""
    return {
        "levels": [round(max(row.total_db, LOWEST), 2) for row in domain.rows],
        "kinds": [kind_of(row.row, row.is_used, wanted.paging) for row in domain.rows],
        "used": [row.row for row in domain.used],
        "floor_db": round(domain.floor_db, 1),
    }


def figures_of(domain: CodeDomain) -> dict[str, float]:
    """Returns the figures of a code domain that are shown over time."""
    return {"ec_io_db": round(domain.rows[PILOT_ROW].db, 2), "rho": round(domain.rho, 4)}


def symbols_panel(chips: NDArray[numpy.complex64], phase: int, paging: int | None) -> dict[str, Any]:
    """Returns symbols turned by the pilot, in units of its amplitude, of chips of which the first begins a symbol."""
    rows = despread(chips, phase)
    gain, _ = smoothed_gain(rows[PILOT_ROW])
    unit = gain.conj() / numpy.maximum(numpy.abs(gain) ** 2, numpy.float32(1e-30))
    turned = rows * unit

    def points(values: NDArray[numpy.complex64]) -> list[list[float]]:
        return numpy.round(numpy.stack([values.real, values.imag]), 3).tolist()

    fours = turned[[PILOT_ROW, SYNC_ROW]].reshape(2, -1, SYNC_BLOCKS).mean(axis=2)
    told = {"pilot": points(fours[0]), "sync": points(fours[1])}
    if paging is not None:
        told["paging"] = points(turned[paging][: fours.shape[1]])
    return told


def correlation_panel(samples: NDArray[numpy.complex64], phase: int) -> dict[str, Any]:
    """Returns the pilot's strength around its phase in dB of all power, and the level that noise stays below."""
    ratios = ratios_at(samples.astype(complex), short_code().astype(complex), phase)
    levels = 10 * numpy.log10(numpy.maximum(ratios, 1e-5))
    floor = STANDING_OUT / len(samples)
    return {
        "deltas": list(range(-WINDOW, WINDOW + 1)),
        "levels": levels.round(2).tolist(),
        "floor_db": round(decibels(floor), 2),
    }


def energies_of(chips: NDArray[numpy.complex64], phase: int) -> NDArray[numpy.float64]:
    """Returns the share of all power of a pilot whose code comes 0, 1 .. 32,767 chips later than the followed one.

    It is the mean over periods of the code, each correlated as a whole; noise adds 1 / 32,768 to it on average.
    """
    code = fft.fft(numpy.roll(short_code(), -phase)).conj()
    pieces = chips[: len(chips) // PERIOD * PERIOD].reshape(-1, PERIOD)
    sums = fft.ifft(fft.fft(pieces, axis=1) * code, axis=1)
    power = float(numpy.mean(numpy.abs(pieces) ** 2)) or 1e-30
    shares: NDArray[numpy.float64] = numpy.mean(numpy.abs(sums) ** 2, axis=0) / (2 * PERIOD**2 * power)
    return shares


def cells_of(chips: NDArray[numpy.complex64], phase: int) -> list[Cell]:
    """Returns the cells whose pilots stand out, the strongest first; the pilot that is followed is among them."""
    shares = energies_of(chips, phase)
    noise = 1 / PERIOD
    # Row k has the chips around the offset that is k steps later, from 32 before it on.
    around = numpy.roll(shares, STEP // 2).reshape(OFFSETS, STEP)
    best = around.argmax(axis=1)
    levels = around[numpy.arange(OFFSETS), best]
    own = decibels(float(levels[0]) - noise)
    return [
        Cell(int(steps), decibels(float(levels[steps]) - noise) - own, int(best[steps]) - STEP // 2)
        for steps in numpy.argsort(-levels)[:MOST_CELLS]
        if levels[steps] > STANDS_OUT * noise
    ]


def cells_panel(cells: list[Cell], ec_io_db: float, pilot: int | None) -> dict[str, Any]:
    """Returns the cells by PN, or by steps after the pilot that is followed as long as its PN isn't known.

    Ec/Io is that of the code domain for the pilot that is followed, so the page has one figure of it.
    """
    return {
        "is_known": pilot is not None,
        "cells": [
            {
                "pn": ((pilot or 0) + cell.steps) % OFFSETS,
                "ec_io_db": round(ec_io_db + cell.level_db, 2),
                "delay": cell.delay,
            }
            for cell in cells
        ],
    }


@dataclass(frozen=True)
class Measured:
    """Panels by their names, and figures."""

    panels: dict[str, Any]
    figures: dict[str, float]


def measured(samples: NDArray[numpy.complex64], first: int, wanted: Wanted) -> Measured | None:
    """Returns what chips `first` and on show; None if they are zeros or fewer than are measured at once."""
    if len(samples) < WHOLE or not numpy.any(samples):
        return None
    meter = Meter(has_times=False, kept=wanted.kept)
    meter.add(Chips(first % PERIOD, samples))
    domain = meter.domain()
    if domain is None:
        return None
    skip = to_whole_symbols(first)
    symbols = samples[skip : skip + SHOWN]
    cells, figures = cells_of(samples[: PERIODS * PERIOD], first % PERIOD), figures_of(domain)
    panels = {
        "domain": domain_panel(domain, wanted),
        "symbols": symbols_panel(symbols, first + skip, wanted.paging),
        "correlation": correlation_panel(samples[-CORRELATED:], first + len(samples) - CORRELATED),
        "cells": cells_panel(cells, figures["ec_io_db"], wanted.pilot),
    }
    return Measured(panels, figures)

