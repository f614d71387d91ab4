"""What a report shows of the waveform: the code domain, and of a recording its spectrum and what the radio adds."""

from typing import NamedTuple

import numpy
from plotly import graph_objects
from plotly.subplots import make_subplots

from cdma_tools.analysis.branches import Branches, branches_of
from cdma_tools.analysis.code_domain import CodeDomain
from cdma_tools.analysis.measuring import PAGING_ROWS, Analysis, SeenLock, analysis_of_chips, domain_of_file, kinds_of
from cdma_tools.analysis.spectrum import Spectrum, spectrum_of
from cdma_tools.errors import Refused
from cdma_tools.frequencies import Channel, channel_at
from cdma_tools.report.figures import BLUE, GREEN, HIDDEN_TEXT, ORANGE, RED, Plot, styled
from cdma_tools.report.gathering import Gathered
from cdma_tools.recordings import Recording

KIND_COLORS = {"pilot": BLUE, "sync": ORANGE, "paging": GREEN, "other": "#6b7a89", "not in use": "#d5dae0"}
# The lowest level that is drawn, in dB, and the most rows of time.
LOWEST, MOST_ROWS = -45.0, 200
# Half of the width of a channel in Hz, which is marked in the spectrum.
HALF_CHANNEL = 614_400.0


class Raw(NamedTuple):
    """A recording's samples, and the frequency in Hz of its middle if it has one."""

    path: str
    kind: str
    rate: float
    middle: float | None


class Waveform(NamedTuple):
    """What was measured; parts that couldn't be are missing."""

    domain: CodeDomain | None = None
    analysis: Analysis | None = None  # of a recording: the same as tools/domain makes
    kinds: dict[int, str] = {}
    spectrum: Spectrum | None = None
    branches: Branches | None = None
    middle: float | None = None  # Hz
    carrier: float | None = None  # Hz above the middle

    @property
    def channel(self) -> Channel | None:
        """Returns the channel on which the carrier lies, if the recording has its frequency."""
        return None if self.middle is None or self.carrier is None else channel_at(self.middle + self.carrier)


def paging_row(gathered: Gathered) -> int | None:
    """Returns the row of the followed paging channel, if a page was decoded on it."""
    told = [word.removeprefix("--paging=") for word in gathered.follow.words if word.startswith("--paging=")]
    row = int(told[0]) if told and told[0].isdigit() else 1
    return row if row in PAGING_ROWS and gathered.follow.reads("paging") else None


def carrier_of(gathered: Gathered) -> float | None:
    """The carrier that an import found, above the recording's middle."""
    found = gathered.imported.found if gathered.imported else {}
    try:
        carrier = float(found["carrier_hz"])
    except (KeyError, ValueError):
        return None
    return -carrier if found.get("conjugate") == "yes" else carrier


def waveform_of(
    gathered: Gathered, file: str, phase: int | None, raw: Raw | None, seen: SeenLock | None = None
) -> Waveform:
    """Returns what a sample file, and the recording from which it comes, show; what can't be measured is left out.

    `seen` is what an import's lock showed.
    """
    made = Waveform(middle=raw.middle if raw else None, carrier=carrier_of(gathered))
    try:
        if phase is not None:
            analysis = None if seen is None else analysis_of_chips(file, seen, None)
            domain = domain_of_file(file, phase) if analysis is None else analysis.domain
            kinds = kinds_of(domain.used, None, file)
            if (row := paging_row(gathered)) in kinds:
                kinds[row] = "paging"
            made = made._replace(domain=domain, analysis=analysis, kinds=kinds)
        if raw is not None:
            with Recording(raw.path, raw.kind, raw.rate) as recording:
                branches = branches_of(recording) if seen is None or made.carrier is None else seen.branches
                made = made._replace(spectrum=spectrum_of(recording), branches=branches)
    except (Refused, OSError):
        return made
    return made


def domain_plot(made: Waveform) -> Plot | None:
    """The levels of the 64 rows, over the whole as bars and over the frames."""
    if made.domain is None:
        return None
    figure = make_subplots(rows=2, cols=1, shared_xaxes=True, row_heights=[0.5, 0.5], vertical_spacing=0.06)
    kinds = [made.kinds.get(row.row, "not in use") for row in made.domain.rows]
    for kind, color in KIND_COLORS.items():
        rows = [row for row, own in zip(made.domain.rows, kinds) if own == kind]
        bars = graph_objects.Bar(
            x=[row.row for row in rows],
            y=[round(max(row.total_db, LOWEST) - LOWEST, 2) for row in rows],
            base=LOWEST,
            name=kind,
            marker={"color": color},
            customdata=[
                [round(row.total_db, 2), round(row.db, 2), round(row.degrees, 2), round(row.chips, 4)] for row in rows
            ],
            hovertemplate="row %{x}: %{customdata[0]} dB, %{customdata[1]} without noise, %{customdata[2]} degrees,"
            + " %{customdata[3]} chips"
            + HIDDEN_TEXT,
        )
        if rows:
            figure.add_trace(bars, row=1, col=1)
    figure.add_trace(frames_map(made.domain), row=2, col=1)
    figure.update_yaxes(title="dB of all power", range=[LOWEST, 0], row=1, col=1)
    figure.update_yaxes(title="seconds", row=2, col=1)
    figure.update_xaxes(title="Walsh row", range=[-0.7, 63.7], row=2, col=1)
    note = (
        f"The power of each Walsh row with the noise in it, the standard's code domain power: {len(made.domain.used)}"
        f" are in use, and the noise floor is {made.domain.floor_db:.1f} dB. Below them each frame of 20 ms, or the mean"
        " of some, without noise."
    )
    return Plot("domain", "Code domain", note, styled(figure, 560))


def frames_map(domain: CodeDomain) -> graph_objects.Heatmap:
    """Returns the rows' levels over the frames, some of which are averaged if there are many."""
    step = max(1, -(-len(domain.frames) // MOST_ROWS))
    groups = max(1, len(domain.frames) // step)
    means = (
        domain.frames[: groups * step].reshape(groups, -1, 64).mean(axis=1)
        if len(domain.frames)
        else numpy.zeros((1, 64))
    )
    levels = numpy.round(10 * numpy.log10(numpy.maximum(means, 10 ** (LOWEST / 10))), 1)
    seconds = numpy.round((numpy.arange(len(levels)) + 0.5) * step * 0.02, 3)
    return graph_objects.Heatmap(
        z=levels.tolist(),
        y=seconds.tolist(),
        zmin=LOWEST,
        zmax=0,
        colorscale="Viridis",
        colorbar={"title": "dB", "thickness": 12, "len": 0.45, "y": 0.22},
        hovertemplate="row %{x} at %{y} s: %{z} dB" + HIDDEN_TEXT,
    )


def axis_of(made: Waveform) -> tuple[list[float], str, float]:
    """The places of a spectrum's bins, the axis's title, and the carrier's place: MHz, or kHz from the middle."""
    assert made.spectrum is not None
    scale, zero = (1e6, made.middle) if made.middle is not None else (1e3, 0.0)
    title = "MHz" if made.middle is not None else "kHz above the middle"
    places = numpy.round((made.spectrum.hertz + zero) / scale, 5).tolist()
    return places, title, (zero + (made.carrier or 0.0)) / scale


def spectrum_plot(made: Waveform) -> Plot | None:
    """The recording's spectrum on average, with the channel that was locked to."""
    if made.spectrum is None:
        return None
    places, title, carrier = axis_of(made)
    levels = numpy.round(made.spectrum.mean, 2)
    figure = graph_objects.Figure(
        graph_objects.Scatter(
            x=places,
            y=levels.tolist(),
            mode="lines",
            line={"color": BLUE, "width": 1.4},
            hovertemplate=f"%{{x}} {title}: %{{y}} dB" + HIDDEN_TEXT,
        )
    )
    if made.carrier is not None:
        half = HALF_CHANNEL / (1e6 if made.middle is not None else 1e3)
        figure.add_vrect(x0=carrier - half, x1=carrier + half, fillcolor=GREEN, opacity=0.08, line_width=0)
        figure.add_vline(x=carrier, line={"color": RED, "dash": "dot", "width": 1})
        named = f"channel {made.channel.number}" if made.channel else "carrier"
        figure.add_annotation(
            x=carrier, y=1, yref="paper", text=named, showarrow=False, yanchor="bottom", font={"color": RED, "size": 11}
        )
    figure.update_xaxes(title=title)
    figure.update_yaxes(title="dB of full scale")
    width = (made.spectrum.hertz[1] - made.spectrum.hertz[0]) / 1e3
    note = f"The raw samples, {len(places)} bins of {width:.2f} kHz, on average."
    return Plot("spectrum", "Spectrum", note + channel_note(made), styled(figure, 340))


def channel_note(made: Waveform) -> str:
    """A sentence on the channel."""
    if made.channel is None or made.middle is None or made.carrier is None:
        return ""
    off = made.middle + made.carrier - made.channel.hertz
    return f" The carrier lies {off:+,.0f} Hz from channel {made.channel.number}, {made.channel.hertz / 1e6:.2f} MHz."


def waterfall_plot(made: Waveform) -> Plot | None:
    """The recording's spectrum over its time."""
    if made.spectrum is None:
        return None
    places, title, _ = axis_of(made)
    levels = numpy.round(made.spectrum.rows, 1)
    figure = graph_objects.Figure(
        graph_objects.Heatmap(
            x=places,
            y=numpy.round(made.spectrum.seconds, 4).tolist(),
            z=levels.tolist(),
            colorscale="Viridis",
            zmin=float(numpy.quantile(levels, 0.02)),
            zmax=float(numpy.quantile(levels, 0.999)),
            colorbar={"title": "dB", "thickness": 12, "len": 0.9},
            hovertemplate=f"%{{x}} {title} at %{{y}} s: %{{z}} dB" + HIDDEN_TEXT,
        )
    )
    figure.update_xaxes(title=title)
    figure.update_yaxes(title="seconds")
    return Plot("waterfall", "Waterfall", "The same spectrum over the recording's time.", styled(figure, 360))


def plots_of(made: Waveform) -> list[Plot]:
    """The plots that can be made."""
    return [plot for plot in (domain_plot(made), spectrum_plot(made), waterfall_plot(made)) if plot]


def rows_of(made: Waveform) -> list[tuple[str, str]]:
    """Returns the names and figures of the card on the waveform."""
    told: list[tuple[str, str]] = []
    if made.domain is not None:
        domain = made.domain
        analysis = made.analysis or Analysis(domain)
        paths = "the strongest path" if analysis.over_paths is None else "all paths"
        told += [
            ("rho", f"{analysis.rho:.4f}, spread {domain.rho_spread:.4f}, over {paths}"),
            ("Share of the pilot", f"{domain.pilot_share:.4f}"),
            ("Error vector", f"{100 * analysis.error_vector:.1f} %"),
            ("Rows in use", str(len(domain.used))),
            ("Noise floor", f"{domain.floor_db:.1f} dB of all power in a row"),
            ("Peak of a chip", f"{domain.peak_db:.1f} dB over the mean"),
        ]
    if made.channel is not None:
        told.append(("Channel", f"{made.channel.number}, {made.channel.hertz / 1e6:.2f} MHz"))
    if made.branches is not None:
        branches = made.branches
        told += [
            ("Offset", f"{branches.offset_i:+.3f} and {branches.offset_q:+.3f} of the root mean square"),
            ("Imbalance", f"{branches.imbalance_db:+.2f} dB, {branches.skew_degrees:+.1f} degrees"),
        ]
    return told
