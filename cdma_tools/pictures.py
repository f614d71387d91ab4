"""Drawings on given axes of matplotlib: the correlation with the pilot's code, and a handset's run."""

from typing import Any

import numpy
from numpy.typing import NDArray

from cdma_tools.correlation import Parts, energy_at
from cdma_tools.heard_run import CHIP_RATE, LANES, Run
from cdma_tools.lines import RATES
from cdma_tools.radio.air import PERIOD

BLUE = "#2f6f9f"


def draw_phases(axes: Any, near: NDArray[numpy.float64]) -> None:
    """Draws the energies at all phases."""
    axes.plot(near, linewidth=0.5, color=BLUE)
    axes.set_xlim(0, PERIOD - 1)
    axes.set_xlabel("code phase at sample 0")
    finish_energies(axes)


def draw_near(axes: Any, samples: Parts, signs: Parts, phase: int, width: int) -> None:
    """Draws the exact energies of samples, `width` chips to each side of a phase, as bars."""
    deltas = numpy.arange(-width, width + 1)
    exact = [float(energy_at(samples, signs, int(phase + delta) % PERIOD)) for delta in deltas]
    axes.bar(deltas, exact, color=BLUE, width=0.7)
    axes.set_xlabel(f"chips from phase {phase}")
    finish_energies(axes)


def finish_energies(axes: Any) -> None:
    """Labels the axis of energies."""
    axes.set_ylabel("energy")
    axes.grid(alpha=0.3)


def draw_lanes(axes: Any, run: Run) -> None:
    """A lane for each kind of message, and one for each rate of frames; hollow marks are frames that aren't good."""
    names = [name for name in LANES if name in run.lanes]
    if run.frames:
        names += [f"frames {rate}" for rate in RATES]
    for place, name in enumerate(names):
        if name in run.lanes:
            at = [message.at / CHIP_RATE for message in run.lanes[name]]
            axes.plot(at, [place] * len(at), "|", ms=12, color="#1f4e79")
            continue
        rate = int(name.split()[1])
        for is_good, face in ((True, "#3a8f4d"), (False, "none")):
            at = [frame.at / CHIP_RATE for frame in run.frames if frame.rate == rate and frame.is_good == is_good]
            axes.plot(at, [place] * len(at), "s", ms=5, mfc=face, mec="#3a8f4d" if is_good else "#b03030")
    axes.set_yticks(range(len(names)), names)
    axes.set_ylim(len(names) - 0.4, -0.6)
    axes.grid(axis="x", alpha=0.3)


def draw_commands(axes: Any, run: Run) -> None:
    """The sum of the power control bits over time."""
    places, levels = run.steps()
    axes.step([place / CHIP_RATE for place in places], levels, where="post", linewidth=0.9, color="#8a5a00")
    axes.set_ylabel("power steps")
    axes.grid(alpha=0.3)


def draw_sets(axes: Any, run: Run) -> None:
    """Draws a lane for each pilot: broad while active, narrow while a candidate, and a mark when a report was due."""
    active, candidates = run.spans("active"), run.spans("candidate")
    pilots = sorted({*active, *candidates})
    for name, spans, height, color in (("active", active, 0.6, "#2f6f9f"), ("candidate", candidates, 0.25, "#d08a2a")):
        for number, (pilot, stretches) in enumerate(spans.items()):
            bars = [(begin / CHIP_RATE, (end - begin) / CHIP_RATE) for begin, end in stretches]
            label = None if number else name  # once in the legend
            axes.broken_barh(bars, (pilots.index(pilot) - height / 2, height), color=color, label=label)
    reports = [moment.at / CHIP_RATE for moment in run.sets if moment.is_due]
    axes.plot(reports, [-0.7] * len(reports), "v", color="#b03030", ms=5, label="report" if reports else None)
    axes.legend(loc="upper left", fontsize=8)
    axes.set_yticks(range(len(pilots)), [f"pilot {pilot}" for pilot in pilots])
    axes.set_ylim(len(pilots) - 0.4, -1)
    axes.grid(axis="x", alpha=0.3)
