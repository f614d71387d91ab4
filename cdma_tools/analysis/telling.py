"""An analysis as lines, as JSON and as a picture."""

from typing import Any

import numpy

from cdma_tools.analysis.code_domain import Row
from cdma_tools.analysis.measuring import Analysis
from cdma_tools.plots import plotting

# Decimals of the figures of the first line; those of times are a thousandth of a chip, 0.8 nanoseconds.
DECIMALS = {
    "rho": 4,
    "rho_spread": 5,
    "pilot_share": 4,
    "pilot_only_rho": 4,
    "error_vector": 4,
    "floor_db": 2,
    "unused_db": 2,
    "peak_db": 2,
    "seconds": 4,
    "carrier_left": 2,
    "time_left": 3,
    "carrier_hz": 2,
    "clock_ppm": 3,
    "time_chips": 3,
    "offset_i": 4,
    "offset_q": 4,
    "imbalance_db": 3,
    "skew_degrees": 2,
    "samples_peak_db": 2,
}
COLOURS = {"pilot": "#2f6f9f", "sync": "#c8641e", "paging": "#3d8b50", "other": "#7a7f87"}
# The levels in dB of the picture.
LOWEST = -45.0


def figures_of(analysis: Analysis) -> dict[str, Any]:
    """The figures of the whole, by their names."""
    domain, timing, branches = analysis.domain, analysis.timing, analysis.branches
    told: dict[str, Any] = {
        "rho": analysis.rho,
        "rho_spread": domain.rho_spread,
        "rho_by": "moments" if analysis.over_paths is None else "paths",
        "pilot_share": domain.pilot_share,
        "error_vector": analysis.error_vector,
        "floor_db": domain.floor_db,
        "peak_db": domain.peak_db,
        "chips": domain.chips,
        "seconds": analysis.seconds,
    }
    if domain.pilot_only_rho is not None:
        told["pilot_only_rho"] = domain.pilot_only_rho
    if domain.unused:
        told |= {"unused_db": domain.unused[0].total_db, "unused_row": domain.unused[0].row}
    if timing is None:
        told |= {"carrier_left": domain.carrier_left, "time_left": domain.time_left}
    else:
        told |= {
            "carrier_hz": timing.carrier_hz,
            "clock_ppm": timing.clock_ppm,
            "time_chips": timing.time_chips,
            "paths": ",".join(f"{way.delay:.2f}:{way.level:.1f}" for way in timing.paths),
            "equaliser": "yes" if timing.has_equaliser else "no",
            "conjugate": "yes" if timing.is_conjugate else "no",
            "lost": timing.lost,
        }
    if branches is not None:
        told |= {
            "offset_i": branches.offset_i,
            "offset_q": branches.offset_q,
            "imbalance_db": branches.imbalance_db,
            "skew_degrees": branches.skew_degrees,
            "samples_peak_db": branches.peak_db,
        }
    return told


def number_text(name: str, value: Any) -> str:
    """A figure as text."""
    return f"{value:.{DECIMALS[name]}f}" if name in DECIMALS else str(value)


def row_text(row: Row, kind: str) -> str:
    """The line of a row."""
    level = f"db={row.db:.2f} total_db={row.total_db:.2f} sigma={row.sigma:.1f}"
    return f"row={row.row} kind={kind} {level} degrees={row.degrees:.2f} chips={row.chips:.4f}"


def text_of(analysis: Analysis, has_all: bool) -> str:
    """The lines: the figures of the whole, and each row in use, or all."""
    lines = [" ".join(f"{name}={number_text(name, value)}" for name, value in figures_of(analysis).items())]
    rows = analysis.domain.rows if has_all else analysis.domain.used
    lines += [row_text(row, analysis.kinds.get(row.row, "none")) for row in rows]
    return "".join(line + "\n" for line in lines)


def levels_of(parts: Any) -> Any:
    """Parts of power in dB, of which none is below the picture's lowest."""
    return 10 * numpy.log10(numpy.maximum(parts, 10 ** (LOWEST / 10)))


def object_of(analysis: Analysis, name: str) -> dict[str, Any]:
    """The object of the JSON: figures, the 64 rows, and their levels in each frame of 20 ms in dB of its power."""
    rows = [
        {
            "row": row.row,
            "kind": analysis.kinds.get(row.row, "none"),
            "db": round(row.db, 3),
            "total_db": round(row.total_db, 3),
            "sigma": round(row.sigma, 2),
            "used": row.is_used,
            "degrees": round(row.degrees, 3),
            "chips": round(row.chips, 5),
        }
        for row in analysis.domain.rows
    ]
    told = {key: round(value, 6) if isinstance(value, float) else value for key, value in figures_of(analysis).items()}
    return {"name": name, **told, "rows": rows, "frames": numpy.round(levels_of(analysis.domain.frames), 2).tolist()}


def draw_rows(axes: Any, analysis: Analysis) -> None:
    """Draws the rows' levels over the whole as bars."""
    kinds = [analysis.kinds.get(row.row, "none") for row in analysis.domain.rows]
    for kind, colour in {**COLOURS, "none": "#c9ccd1"}.items():
        rows = [row for row, own in zip(analysis.domain.rows, kinds) if own == kind]
        heights = [max(row.total_db, LOWEST) - LOWEST for row in rows]
        if rows:
            axes.bar(
                [row.row for row in rows],
                heights,
                bottom=LOWEST,
                color=colour,
                label="not in use" if kind == "none" else kind,
            )
    axes.axhline(analysis.domain.floor_db, color="#9a9a9a", linewidth=0.6, linestyle=":")
    axes.set(xlim=(-0.8, 63.8), ylim=(LOWEST, 0), ylabel="dB of all power")
    axes.legend(ncols=5, fontsize=7, loc="upper right")
    axes.grid(axis="y", alpha=0.3)


def draw(analysis: Analysis, title: str) -> Any:
    """The figure: the rows' levels over the whole as bars, and below them over the frames."""
    pyplot = plotting(**{"svg.fonttype": "none", "svg.hashsalt": "cdma_replay"})
    figure, (bars, frames) = pyplot.subplots(2, 1, figsize=(9, 7), layout="constrained", height_ratios=(1, 1.2))
    draw_rows(bars, analysis)
    bars.set_title(title)
    seconds = len(analysis.domain.frames) * 0.02
    if len(analysis.domain.frames):
        shown = frames.imshow(
            levels_of(analysis.domain.frames),
            aspect="auto",
            origin="lower",
            extent=(-0.5, 63.5, 0, seconds),
            vmin=LOWEST,
            vmax=0,
            cmap="viridis",
            interpolation="nearest",
        )
        figure.colorbar(shown, ax=frames, label="dB of the frame's power")
    frames.set(xlabel="Walsh row", ylabel="seconds")
    return figure
