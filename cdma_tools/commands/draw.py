"""Draws what the program writes, as a picture: PNG or SVG, by the end of its name.

    tools/draw survey PICTURE [LINES]        strengths of pilots, as bars
    tools/draw follow PICTURE [LINES]        run of a handset, as a time line
    tools/draw correlation PICTURE FILE      correlation of a sample file with the pilot's code

LINES is a file with the lines that `survey` or `follow` wrote, or - for standard input (default). FILE is a sample
file, or - for standard input; this tool computes its correlation. An input of more than 256 MiB is refused.

    cdma_replay survey --top 20 < radio.is95 | tools/draw survey strengths.png
    cdma_replay follow < second.is95 | tools/draw follow run.svg
    tools/draw correlation peak.png examples/pilot_in_noise.is95

Exit status: 0 drawn, 1 the input has another form or the picture can't be written, 2 wrong arguments.
"""

import argparse
import sys
from collections.abc import Iterable, Iterator
from typing import Any

from cdma_tools.arguments import Parser, PartParser, whole_within
from cdma_tools.correlation import best_phase, codes, energies, read_samples
from cdma_tools.errors import Refused
from cdma_tools.heard_run import CHIP_RATE, FOLLOWED, Run
from cdma_tools.lines import RATES, NoLine, read_line
from cdma_tools.overwriting import InputFile
from cdma_tools.pictures import draw_commands, draw_lanes, draw_near, draw_phases, draw_sets
from cdma_tools.plots import form_of, picture_of, plotting, save, title_of
from cdma_tools.radio.air import PERIOD
from cdma_tools.reading import MEGABYTE, all_of, read_within

MOST_LABELS = 40
MOST_BYTES = 256 * MEGABYTE  # of an input: no sample file has more
SVG = {"svg.fonttype": "none", "svg.hashsalt": "cdma_replay"}  # text stays text, and the same input gives the same file


def read_lines(lines: Iterable[str], kinds: tuple[str, ...], command: str) -> Iterator[tuple[int, dict[str, Any]]]:
    """The objects of lines that begin with one of these words, as those of a command do, each with its number."""
    for number, line in enumerate(lines, 1):
        try:
            read = read_line(line)
        except NoLine as why:
            raise Refused(f"line {number} is not a line of {command}: {why}: {line[:60]!r}") from None
        if read["line"] not in kinds:
            raise Refused(f"line {number} is not a line of {command}: {line[:60]!r}")
        yield number, read


def strengths_of(lines: Iterable[str]) -> list[tuple[int, int, int]]:
    """The pilot, the delta and the energy of each line of a survey."""
    found = [(read["pn"], read["delta"], read["energy"]) for _, read in read_lines(lines, ("survey",), "survey")]
    if not found:
        raise Refused("it has no line of survey")
    return found


def run_of(lines: Iterable[str]) -> Run:
    """Returns the run that lines of follow describe."""
    run = Run(read_lines(lines, FOLLOWED, "follow"))
    if run.is_empty:
        raise Refused("it has no line of follow with an event after the pilot")
    return run


def draw_survey(pyplot: Any, options: argparse.Namespace, found: list[tuple[int, int, int]]) -> Any:
    """Returns the figure of a survey: bars by rank, or by pilot if there are many."""
    found = found[: options.top] if options.top else found
    figure, axes = pyplot.subplots(figsize=(9, 4))
    energies = [energy for _, _, energy in found]
    if len(found) <= MOST_LABELS:
        places = list(range(len(found)))
        axes.set_xticks(places, [str(pilot) for pilot, _, _ in found], rotation=90 if len(found) > 20 else 0)
        axes.set_xlabel("pilot offset, by rank")
        for place, (_, delta, energy) in zip(places, found):
            if delta:
                axes.annotate(f"{delta:+d}", (place, energy), ha="center", va="bottom", fontsize=7)
    else:
        places = [pilot for pilot, _, _ in found]
        axes.set_xlabel("pilot offset")
    axes.bar(places, energies, color="#2f6f9f", width=0.8)
    if options.log and min(energies) > 0:
        axes.set_yscale("log")
    axes.set_ylabel("energy")
    axes.grid(axis="y", alpha=0.3)
    axes.set_title(options.title or f"{len(found)} pilots by their strength")
    return figure


def draw_correlation(pyplot: Any, options: argparse.Namespace, data: bytes) -> Any:
    """The figure of a correlation: all phases, and those near the best one."""
    samples, signs = read_samples(data, options.span), codes()
    near = energies(samples, signs)
    energy, minus = best_phase(samples, signs, near)
    phase = -minus if options.phase is None else options.phase
    figure, (whole, close) = pyplot.subplots(2, 1, figsize=(9, 6), layout="constrained")
    draw_phases(whole, near)
    whole.set_title(options.title or f"phase {-minus}, energy {energy}, over {options.span:,} samples")
    draw_near(close, samples, signs, phase, options.width)
    return figure


def draw_follow(pyplot: Any, options: argparse.Namespace, run: Run) -> Any:
    """The figure of a run: lanes of messages and frames, power control bits, pilot sets."""
    lanes = len(run.lanes) + (len(RATES) if run.frames else 0)
    panels = [(draw_lanes, 0.6 + 0.3 * lanes)] if lanes else []
    if run.frames:
        panels.append((draw_commands, 1.6))
    if run.sets:
        pilots = {pilot for moment in run.sets for pilot in [*moment.active, *moment.candidate]}
        panels.append((draw_sets, 0.6 + 0.35 * len(pilots)))
    heights = [height for _, height in panels]
    figure, axes = pyplot.subplots(
        len(panels),
        1,
        sharex=True,
        squeeze=False,
        figsize=(10, 1.2 + sum(heights)),
        gridspec_kw={"height_ratios": heights},
    )
    for (draw, _), row in zip(panels, axes):
        draw(row[0], run)
    axes[0][0].set_xlim(0, 1.02 * run.ends() / CHIP_RATE)
    axes[-1][0].set_xlabel("seconds from the first sample")
    axes[0][0].set_title(options.title or f"a handset's run, {run.count} lines")
    return figure


def parser() -> argparse.ArgumentParser:
    """The command line."""
    words = Parser("draw", __doc__)
    kinds = words.add_subparsers(dest="kind", required=True, metavar="KIND", parser_class=PartParser)
    survey = kinds.add_parser("survey", help="the strengths of pilots, as bars")
    survey.add_argument("--top", type=whole_within(1, 512), metavar="N", help="draw only the first N lines")
    survey.add_argument("--log", action="store_true", help="logarithmic scale, if no energy is 0")
    follow = kinds.add_parser("follow", help="a run of a handset, as a time line")
    correlation = kinds.add_parser("correlation", help="the correlation with the pilot's code around its best phase")
    correlation.add_argument(
        "--span", type=whole_within(64, PERIOD), default=2_048, metavar="N", help="number of samples (default 2048)"
    )
    correlation.add_argument(
        "--width", type=whole_within(1, 1_000), default=32, metavar="N", help="chips to each side (default 32)"
    )
    correlation.add_argument(
        "--phase", type=whole_within(0, PERIOD - 1), metavar="N", help="draw around this phase instead of the best"
    )
    for kind, name in ((survey, "LINES"), (follow, "LINES"), (correlation, "FILE")):
        kind.add_argument(
            "picture", type=picture_of, metavar="PICTURE", help="file to write, .png or .svg, - for standard output"
        )
        kind.add_argument(
            "input", type=InputFile, nargs="?", default="-", metavar=name, help="input to draw, - for standard input"
        )
        kind.add_argument("--title", type=title_of, metavar="TEXT", help="title instead of the tool's own")
    return words


def read_input(path: str) -> bytes:
    """The bytes of a file, or of standard input; refuses more than are ever drawn."""
    if path == "-":
        return all_of(sys.stdin.buffer, "standard input", MOST_BYTES)
    return read_within(path, MOST_BYTES)


def lines_of(data: bytes) -> list[str]:
    """The lines of text of the program."""
    try:
        return data.decode("ascii").splitlines()
    except UnicodeDecodeError:
        raise Refused("it is not text of the program") from None


def drawn(options: argparse.Namespace, data: bytes) -> Any:
    """The figure that the options ask for."""
    if options.kind == "survey":
        found = strengths_of(lines_of(data))
        return draw_survey(plotting(**SVG), options, found)
    if options.kind == "follow":
        run = run_of(lines_of(data))
        return draw_follow(plotting(**SVG), options, run)
    return draw_correlation(plotting(**SVG), options, data)


def main(arguments: list[str] | None = None) -> int:
    """Runs the tool, and returns its exit status."""
    options = parser().parse_args(arguments)
    data = read_input(options.input)
    try:
        figure = drawn(options, data)
    except Refused as why:
        raise Refused(f"{'standard input' if options.input == '-' else options.input}: {why}") from None
    more: dict[str, Any] = {"metadata": {"Date": None}} if form_of(options.picture) == "svg" else {"metadata": None}
    save(figure, options.picture, bbox_inches="tight", dpi=110, **more)
    return 0
