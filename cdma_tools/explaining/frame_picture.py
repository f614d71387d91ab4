"""The steps of one frame as a picture of panels. `explain` asks for it."""

from __future__ import annotations

from typing import Any

import numpy as np
from matplotlib.axes import Axes
from matplotlib.figure import Figure
from matplotlib.patches import Patch, Rectangle
from numpy.typing import NDArray

from cdma_tools.explaining.frame_steps import Steps
from cdma_tools.plots import save

ZERO, ONE, REPLACED, PLAIN = "#1f6fb2", "#d1661f", "#7d3c98", "#555555"
FIELD_COLORS = ["#cfe3f5", "#fbe0c8", "#d5ecd0", "#eadcf4", "#f7eeb8", "#e2e2e2"]
SIZE = (12.0, 10.5)
DOTS = 80
ROW_BITS = 64


def draw(steps: Steps, path: str) -> None:
    """Draws the panels to a file, PNG or SVG by the end of its name, completely or not at all."""
    figure = Figure(figsize=SIZE, dpi=DOTS, layout="constrained")
    figure.suptitle(steps.title, fontsize=13)
    grid = figure.add_gridspec(5, 3, height_ratios=[2.4, 0.35, 1.2, 1.2, 1.7])
    pilot_panel(figure.add_subplot(grid[0, 0]), steps)
    symbol_panel(figure.add_subplot(grid[0, 1]), steps, turned=False)
    symbol_panel(figure.add_subplot(grid[0, 2]), steps, turned=True)
    scrambling_panel(figure.add_subplot(grid[1, :]), steps)
    sent_panel(figure.add_subplot(grid[2, :]), steps)
    code_panel(figure.add_subplot(grid[3, :]), steps)
    score_panel(figure.add_subplot(grid[4, 0]), steps)
    field_panel(figure.add_subplot(grid[4, 1:]), steps)
    save(figure, path)


def square(axes: Axes, values: NDArray[Any], title: str) -> None:
    """Draws a plane of complex numbers around 0, with its axes."""
    reach = 1.2 * max(np.abs(values.real).max(), np.abs(values.imag).max(), 1)
    axes.set(xlim=(-reach, reach), ylim=(-reach, reach), aspect="equal")
    axes.axhline(0, color="0.8", linewidth=0.8, zorder=0)
    axes.axvline(0, color="0.8", linewidth=0.8, zorder=0)
    axes.set_title(title, fontsize=10)
    axes.tick_params(labelsize=7)
    axes.set_xlabel("in phase", fontsize=8)
    axes.set_ylabel("quadrature", fontsize=8)


def pilot_panel(axes: Axes, steps: Steps) -> None:
    """Step 1: the pilot sum of each window, an arrow for each finger's mean."""
    sums = np.concatenate([one.pilots for one in steps.paths])
    square(axes, sums, f"1  pilot sums, of {steps.form.window} chips each")
    for place, one in enumerate(steps.paths):
        color = f"C{place}"
        mean = one.pilots.mean()
        axes.annotate("", (mean.real, mean.imag), (0, 0), arrowprops={"arrowstyle": "->", "color": color})
        axes.plot(one.pilots.real, one.pilots.imag, ".", color=color, alpha=0.6,
                  label=f"{one.finger.delta:+d} chips, row {one.finger.row}")  # fmt: skip
    axes.legend(fontsize=7, loc="upper right")


def symbol_panel(axes: Axes, steps: Steps, turned: bool) -> None:
    """Step 1: the symbol sums, before or after they are turned by the pilot."""
    sums = np.concatenate([one.turned if turned else one.sums for one in steps.paths])
    title = "1  turned by the pilot: the real part counts" if turned else "1  despread symbols, as they come"
    square(axes, sums, title)
    for place, one in enumerate(steps.paths):
        values = one.turned if turned else one.sums
        axes.plot(values.real, values.imag, ".", color=f"C{place}", alpha=0.35, markersize=4)


def scrambling_panel(axes: Axes, steps: Steps) -> None:
    """Step 2: the scrambling bits."""
    axes.set_yticks([])
    axes.tick_params(labelsize=7)
    axes.set_xlim(0, steps.form.symbols)
    if steps.scrambling is None:
        axes.set_title("2  the sync channel isn't scrambled", fontsize=10, loc="left")
        return
    axes.imshow(steps.scrambling[None, :], aspect="auto", cmap="Greys", extent=(0, steps.form.symbols, 0, 1),
                interpolation="nearest", vmin=0, vmax=1)  # fmt: skip
    axes.set_title("2  scrambling bits of the long code (black is 1: the symbol is turned)", fontsize=10, loc="left")


def bars(axes: Axes, softs: NDArray[Any], replaced: NDArray[Any]) -> None:
    """Soft values as bars: by their sign, and those that power control bits replace."""
    colors = np.where(softs > 0, ZERO, ONE).astype(object)
    colors[replaced] = REPLACED
    axes.bar(np.arange(len(softs)) + 0.5, softs, width=1.0, color=list(colors), linewidth=0)
    axes.axhline(0, color="0.4", linewidth=0.6)
    axes.set_xlim(0, len(softs))
    axes.tick_params(labelsize=7)
    axes.yaxis.get_offset_text().set_fontsize(7)


def sent_panel(axes: Axes, steps: Steps) -> None:
    """Draws step 3: the soft values as sent, and the places of power control bits."""
    softs = steps.turned.copy().astype(float)
    if steps.scrambling is not None:
        softs[steps.replaced] = np.where(steps.scrambling, -steps.heard, steps.heard)[steps.replaced]
    bars(axes, softs, steps.replaced)
    axes.set_title("3  soft values in the sent order, turned back by the scrambling bits", fontsize=10, loc="left")
    kinds = [Patch(color=ZERO, label="0 is likelier"), Patch(color=ONE, label="1 is likelier")]
    if len(steps.replaced):
        kinds.append(Patch(color=REPLACED, label="power control bit: counts as 0"))
    axes.legend(handles=kinds, fontsize=8, loc="lower right", bbox_to_anchor=(1, 0.98), ncols=3, frameon=False)


def code_panel(axes: Axes, steps: Steps) -> None:
    """Step 4: the soft values of the code symbols."""
    reading = steps.readings[steps.shown]
    bars(axes, reading.softs.astype(float), np.array([], int))
    text = f"4  soft values of the {len(reading.softs)} code symbols, in the encoder's order ({reading.name})"
    corrected = f": the best codeword corrects {reading.unlike}" if reading.unlike else ": all are the best codeword's"
    axes.set_title(text + corrected, fontsize=10, loc="left")


def score_panel(axes: Axes, steps: Steps) -> None:
    """Steps 5 and 6: the scores of the two best codewords of each rate, and whether the quality indicator is right."""
    for place, reading in enumerate(steps.readings):
        (best, _), (other, _) = reading.codewords[:2]
        color = ZERO if reading.is_candidate else "0.7"
        axes.barh(place - 0.18, best, height=0.34, color=color)
        axes.barh(place + 0.18, other, height=0.34, color=color, alpha=0.45)
        axes.text(
            0.02, place + 0.18, next_best(best, other), transform=axes.get_yaxis_transform(), fontsize=7, va="center"
        )
    axes.set_yticks(range(len(steps.readings)), [score_label(steps, place) for place in range(len(steps.readings))],
                    fontsize=8)  # fmt: skip
    axes.invert_yaxis()
    axes.tick_params(axis="x", labelsize=7)
    axes.xaxis.get_offset_text().set_fontsize(7)
    quality = "5, 6  scores" + (" (grey: the quality indicator is wrong)" if len(steps.readings) > 1 else "")
    axes.set_title(quality, fontsize=10, loc="left")


def next_best(best: int, other: int) -> str:
    """Returns how near the second best codeword comes to the best one."""
    return (
        f"next best: {100 * other / best:.1f} %"
        if best > 0
        else "next best: the same"
        if best == other
        else "next best"
    )


def score_label(steps: Steps, place: int) -> str:
    """Returns the name of a reading next to its bars."""
    reading = steps.readings[place]
    if len(steps.readings) == 1:
        return "the\nspan"
    return ("▸ " if place == steps.shown else "") + reading.name


def field_panel(axes: Axes, steps: Steps) -> None:
    """Step 7: the bits, coloured by their fields, with the fields' names and values."""
    handles, at = [], 0
    for place, part in enumerate(steps.parts):
        color = FIELD_COLORS[place % len(FIELD_COLORS)]
        for bit in part.bits:
            row, column = divmod(at, ROW_BITS)
            axes.add_patch(Rectangle((column, -row - 1), 1, 0.92, color=color))
            axes.text(column + 0.5, -row - 0.54, str(bit), ha="center", va="center", fontsize=6)
            at += 1
        value = f" {part.value}" if part.value else f" ({part.remark or f'{len(part.bits)} bits'})"
        handles.append(Patch(color=color, label=part.name + value))
    rows = -(-at // ROW_BITS)
    axes.set(xlim=(0, min(at, ROW_BITS)), ylim=(-rows, 0))
    axes.axis("off")
    axes.set_title("7  bits and fields", fontsize=10, loc="left")
    axes.legend(handles=handles[:20], fontsize=7, ncols=5, loc="upper left", bbox_to_anchor=(0, -0.02), frameon=False,
                handlelength=1, columnspacing=1)  # fmt: skip
    verdict = "\n".join(steps.verdict)
    axes.annotate(verdict, (0, 1.0), xycoords="axes fraction", xytext=(150, 6), textcoords="offset points", fontsize=8,
                  color=PLAIN, va="bottom")  # fmt: skip
