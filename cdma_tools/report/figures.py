"""The plots of a report, as figures of Plotly.

`lines` in a trace's meta gives the text that a point shows under the pointer: the command that wrote the lines. The
point's customdata has the line's place. The page's script fills in the lines' text, so the page contains it once.
"""

from typing import Any, NamedTuple, Sequence

import numpy
from plotly import graph_objects
from plotly.subplots import make_subplots

from cdma_tools.analysis.cell_table import CellFacts
from cdma_tools.heard_run import CHIP_RATE, LANES, Run
from cdma_tools.lines import RATES
from cdma_tools.report.gathering import Gathered
from cdma_tools.report.measures import WINDOW, Measured
from cdma_tools.report.surveyed import Surveyed, explained_pilots, heard_of

BLUE, GREEN, RED, ORANGE, GREY, INK = "#1f6fb2", "#2a8c4a", "#c0392b", "#d9822b", "#aab4bf", "#22303c"
MESSAGE_COLORS = {"sync": "#6a4fb3", "paging": BLUE, "traffic": "#0f7f86"}
FONT = "system-ui, -apple-system, 'Segoe UI', Roboto, 'Helvetica Neue', Arial, sans-serif"
PLACES = 7  # digits after the point of a second: a chip is 0.8 microseconds
LEAST_RATIO = 1e-5  # -50 dB, below anything that a search can resolve
MARK = {"size": 11, "line": {"width": 1.6}}
HIDDEN_TEXT = "<extra></extra>"


class Plot(NamedTuple):
    """A plot: its element's name in the page, its heading, what it shows in a sentence, and the figure."""

    name: str
    heading: str
    note: str
    figure: graph_objects.Figure


def decibels(ratio: Any) -> Any:
    """Ratios of powers in dB, none below that of LEAST_RATIO."""
    return numpy.round(10 * numpy.log10(numpy.maximum(ratio, LEAST_RATIO)), 2)


def seconds(samples: Any) -> Any:
    """Places in samples as seconds."""
    return numpy.round(numpy.asarray(samples, dtype=float) / CHIP_RATE, PLACES)


def styled(figure: graph_objects.Figure, height: int) -> graph_objects.Figure:
    """A figure in the page's style."""
    figure.update_layout(
        height=height,
        margin={"l": 70, "r": 20, "t": 16, "b": 48},
        font={"family": FONT, "size": 12, "color": INK},
        hoverlabel={"align": "left", "font": {"family": "ui-monospace, 'DejaVu Sans Mono', monospace", "size": 11}},
        legend={"orientation": "h", "x": 0, "y": 1.02, "yanchor": "bottom"},
        hovermode="closest",
    )
    figure.update_xaxes(zeroline=False, showline=True, linecolor=GREY, ticks="outside", tickcolor=GREY)
    figure.update_yaxes(zeroline=False, showline=True, linecolor=GREY)
    return figure


def threshold(figure: graph_objects.Figure, ratio: float, note: str) -> None:
    """A line across a figure of strengths, which noise hardly ever reaches."""
    level = float(decibels(ratio))
    figure.add_hline(y=level, line={"color": RED, "dash": "dot", "width": 1})
    place = {"xref": "paper", "x": 1, "y": level, "yanchor": "bottom", "xanchor": "right"}
    figure.add_annotation(text=note, showarrow=False, font={"color": RED, "size": 11}, **place)


def correlation_plot(measured: Measured, phase: int) -> Plot | None:
    """Returns the strengths around the best phase."""
    found = measured.correlation
    if found is None:
        return None
    levels = decibels(found.ratios)
    bottom = float(min(levels.min(), decibels(measured.floor))) - 3
    figure = graph_objects.Figure(
        graph_objects.Bar(
            x=found.deltas.tolist(),
            y=numpy.round(levels - bottom, 2).tolist(),
            base=bottom,
            width=0.8,
            customdata=levels.tolist(),
            marker={"color": [BLUE if ratio >= measured.floor else GREY for ratio in found.ratios]},
            hovertemplate=f"phase {phase} %{{x:+d}} chips: %{{customdata:.1f}} dB" + HIDDEN_TEXT,
        )
    )
    threshold(figure, measured.floor, "noise stays below")
    figure.update_xaxes(title="chips from the best phase", range=[-WINDOW - 0.5, WINDOW + 0.5])
    figure.update_yaxes(title="dB of all power", range=[bottom, max(0.0, float(levels.max())) + 1])
    note = (
        f"The first {span_text(measured)} against the pilot's code, at phase {phase} and {WINDOW} chips on each side:"
        " of only these samples, not the Ec/Io of the whole."
    )
    return Plot("correlation", "Correlation around the best phase", note, styled(figure, 360))


def constellation_plot(measured: Measured) -> Plot | None:
    """Symbols of the sync channel, turned by the pilot."""
    symbols = measured.symbols
    if symbols is None:
        return None
    points, places = symbols.points, seconds(symbols.places)
    reach = 1.15 * float(numpy.quantile(numpy.maximum(abs(points.real), abs(points.imag)), 0.999)) or 1.0
    figure = graph_objects.Figure(
        graph_objects.Scatter(
            x=numpy.round(points.real, 4).tolist(),
            y=numpy.round(points.imag, 4).tolist(),
            customdata=places.tolist(),
            mode="markers",
            marker={
                "size": 4,
                "opacity": 0.55,
                "color": places.tolist(),
                "colorscale": "Viridis",
                "colorbar": {"title": "s", "thickness": 12, "len": 0.9},
            },
            hovertemplate="%{x:.3f} %{y:+.3f}j at %{customdata:.4f} s" + HIDDEN_TEXT,
        )
    )
    figure.update_xaxes(title="in phase with the pilot", range=[-reach, reach])
    figure.update_yaxes(title="across it", range=[-reach, reach], scaleanchor="x", scaleratio=1)
    note = (
        f"{len(points):,} symbols, {len(points) // 128} frames spread over the recording, in units of the pilot's amplitude:"
        " two narrow clouds on the level line are a clean channel."
    )
    return Plot("constellation", "Constellation of the sync channel", note, styled(figure, 360))


def survey_plot(pilots: list[Surveyed], measured: Measured, has_offset: bool) -> Plot | None:
    """A bar for each pilot of the survey, by its offset."""
    if not pilots or measured.level is None:
        return None
    powers = [pilot.strength for pilot in pilots]
    levels = decibels(numpy.array(powers))
    bottom = float(min(levels.min(), decibels(measured.floor))) - 1
    colors = [BLUE if power >= measured.floor else GREY for power in powers]
    figure = graph_objects.Figure(
        graph_objects.Bar(
            x=[pilot.pn for pilot in pilots],
            y=numpy.round(levels - bottom, 2).tolist(),
            base=bottom,
            width=1,
            customdata=[pilot.number for pilot in pilots],
            meta={"lines": "survey"},
            marker={"color": colors, "line": {"color": colors, "width": 0.5}},
            hovertemplate="%{text}" + HIDDEN_TEXT,
        )
    )
    for pilot, level in list(zip(pilots, levels))[:12]:
        if pilot.strength >= measured.floor:
            figure.add_annotation(x=pilot.pn, y=float(level), text=f"PN {pilot.pn}", showarrow=False, yanchor="bottom")
    threshold(figure, measured.floor, "noise stays below")
    title = "PN offset" if has_offset else "offset above the best pilot's, which isn't known"
    figure.update_xaxes(title=title, range=[-2, 513])
    figure.update_yaxes(title="dB of all power", range=[bottom, max(0.0, float(levels.max())) + 2])
    count = sum(power >= measured.floor for power in powers)
    note = (
        f"Each of the {len(pilots)} pilots at its own phase, in the first {span_text(measured)}; {count} can't be"
        " noise. Drag to zoom, double-click to see all."
    )
    return Plot("survey", "Base stations by their PN offset", note, styled(figure, 340))


def span_text(measured: Measured) -> str:
    """Returns the length of the samples of a search."""
    return f"{measured.span:,} samples ({1_000 * measured.span / CHIP_RATE:.1f} ms)"


def pilots_of(gathered: Gathered, measured: Measured, cells: Sequence[CellFacts]) -> list[Surveyed]:
    """The pilots of the survey: each strength is that of the best one times the ratio of their energies."""
    found = gathered.find.reads("pilot")
    best = found[0][1]["energy"] if found else 0
    if not best:
        return []
    pilots = [
        # A pilot that comes later has a smaller phase (docs/FORMATS.md).
        Surveyed(read["pn"], -read["delta"], (measured.ratio or 0.0) * read["energy"] / best, number)
        for number, read in gathered.survey.reads("survey")
    ]
    return explained_pilots(pilots, measured.floor, heard_of(gathered, cells))


def marks(name: str, lane: str, at: list[int], numbers: list[int], marker: dict[str, Any]) -> graph_objects.Scatter:
    """A mark in a lane for each event, which knows its line."""
    return graph_objects.Scatter(
        x=seconds(at).tolist(),
        y=[lane] * len(at),
        name=name,
        mode="markers",
        marker=marker,
        customdata=numbers,
        meta={"lines": "follow"},
        hovertemplate="%{text}" + HIDDEN_TEXT,
        showlegend=False,
    )


def message_lanes(run: Run) -> list[graph_objects.Scatter]:
    """A lane for each kind of message."""
    lanes = []
    for name in LANES:
        if name in run.lanes:
            color = MESSAGE_COLORS[name.split()[0]]
            marker = {**MARK, "symbol": "line-ns-open", "color": color, "size": 13}
            messages = run.lanes[name]
            lanes.append(marks(name, name, [one.at for one in messages], [one.number for one in messages], marker))
    return lanes


def frame_lanes(run: Run) -> list[graph_objects.Scatter]:
    """A lane for each rate of frames; hollow red marks are frames that aren't good."""
    lanes = []
    for rate in RATES:
        for is_good, symbol, color in ((True, "square", GREEN), (False, "square-open", RED)):
            frames = [frame for frame in run.frames if frame.rate == rate and frame.is_good == is_good]
            if frames:
                name = f"frames {rate} {'good' if is_good else 'bad'}"
                marker = {"symbol": symbol, "color": color, "size": 7}
                lanes.append(marks(name, f"frames {rate}", [one.at for one in frames], [one.number for one in frames], marker))
    return lanes


def power_line(run: Run) -> list[graph_objects.Scatter]:
    """The sum of the power control bits over time."""
    return stepped(*run.steps())


def stepped(places: list[int], levels: list[int]) -> list[graph_objects.Scatter]:
    """Returns a line of steps from one place to the next, empty without places."""
    if not places:
        return []
    made = graph_objects.Scatter(
        x=seconds(places).tolist(),
        y=levels,
        name="power control",
        mode="lines",
        line={"shape": "hv", "width": 1.2, "color": ORANGE},
        hovertemplate="%{x:.4f} s: %{y:+d} steps" + HIDDEN_TEXT,
        showlegend=False,
    )
    return [made]


def set_bars(run: Run) -> list[graph_objects.Scatter]:
    """Returns a bar for each stretch in which a pilot was active or a candidate, and a mark for each line with the
    sets."""
    bars = []
    for part, width, color in (("active", 12, BLUE), ("candidate", 5, ORANGE)):
        x: list[float | None] = []
        y: list[str | None] = []
        for pilot, stretches in sorted(run.spans(part).items()):
            for begin, end in stretches:
                x += [float(seconds(begin)), float(seconds(end)), None]
                y += [f"PN {pilot}", f"PN {pilot}", None]
        if x:
            line = {"width": width, "color": color}
            bars.append(graph_objects.Scatter(x=x, y=y, name=part, mode="lines", line=line, hoverinfo="skip"))
    looks = [("triangle-down", RED) if moment.is_due else ("circle", INK) for moment in run.sets]
    marker = {"size": 9, "symbol": [symbol for symbol, _ in looks], "color": [color for _, color in looks]}
    at, numbers = [moment.at for moment in run.sets], [moment.number for moment in run.sets]
    return bars + [marks("pilot sets", "sets told", at, numbers, marker)]


def timeline_plot(gathered: Gathered) -> Plot | None:
    """Messages and frames in lanes, power control and pilot sets below them, over one axis of time."""
    run = Run(gathered.follow.reads("sync", "paging", "frame", "traffic", "sets"))
    return None if run.is_empty else timeline_of(run, power_line(run))


def timeline_of(run: Run, power: list[graph_objects.Scatter]) -> Plot:
    """The time line of a run that isn't empty, with the sum of the power control bits."""
    lanes = message_lanes(run) + frame_lanes(run)
    panels = [(lanes, 60 + 30 * len({lane.y[0] for lane in lanes}), "")] if lanes else []
    if run.frames:
        panels.append((power, 140, "power steps"))
    if run.sets:
        pilots = {pilot for moment in run.sets for pilot in [*moment.active, *moment.candidate]}
        panels.append((set_bars(run), 60 + 28 * (len(pilots) + 1), ""))
    heights = [height for _, height, _ in panels]
    figure = make_subplots(
        rows=len(panels), cols=1, shared_xaxes=True, vertical_spacing=30 / sum(heights), row_heights=heights
    )
    for row, (traces, _, title) in enumerate(panels, 1):
        figure.add_traces(traces, rows=row, cols=1)
        figure.update_yaxes(title=title, row=row, col=1)
        if not title:
            figure.update_yaxes(type="category", autorange="reversed", row=row, col=1)
    styled(figure, sum(heights) + 90)
    figure.update_layout(margin={"l": 130})
    figure.update_xaxes(range=[0, 1.01 * run.ends() / CHIP_RATE])
    figure.update_xaxes(title="seconds from the first sample", row=len(panels), col=1)
    note = "Rest on a mark to read its line, click it to keep the line below; drag to zoom, double-click to see all."
    if any(not frame.is_good for frame in run.frames):
        note += " Hollow red squares are frames that aren't good."
    return Plot("timeline", "Time line", note, figure)


def plots_of(gathered: Gathered, measured: Measured, surveyed: list[Surveyed], has_offset: bool) -> list[Plot]:
    """The plots that can be made of what there is."""
    pilots = gathered.find.reads("pilot")
    correlation = correlation_plot(measured, pilots[0][1]["phase"]) if pilots else None
    survey = survey_plot(surveyed, measured, has_offset)
    found = (correlation, constellation_plot(measured), survey, timeline_plot(gathered))
    return [plot for plot in found if plot]
