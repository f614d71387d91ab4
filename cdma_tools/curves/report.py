"""Results of a run: a table, a CSV, a picture, and a comparison with an older CSV."""

import csv
import dataclasses
import io
from typing import Any, Callable, Iterable, Mapping, Sequence, TextIO

from cdma_tools.curves.bound import FORMS, combined_bound, frame_bound, slow_bound
from cdma_tools.curves.counting import OUTCOMES, UNLOCKED, Count
from cdma_tools.curves.levels import Air, AirKind, Channel
from cdma_tools.curves.plan import is_frames
from cdma_tools.errors import Refused
from cdma_tools.plots import plain, plotting, save
from cdma_tools.reading import MEGABYTE, read_within
from cdma_tools.writing import write_out

CONFIDENCE = 0.95
# Where curves are drawn: no share below the least one is of use with the frames that a run can count.
LEAST_SHARE = 1e-5
COLORS = ("#1f5f99", "#c05a1a", "#3a8f4d", "#8a3a8f", "#b03030", "#5a5a5a", "#a08a00", "#2f8f9f")
MARKERS = "osD^vPX*"
COMPARED = ("sent", "errors", *OUTCOMES)
MOST_BYTES = 16 * MEGABYTE  # of a CSV that is read: some 100,000 rows


@dataclasses.dataclass(frozen=True)
class Row:
    """One channel of one receiver at one point: its Eb/Nt and the point's in dB, the counts, and the interval.

    `bound` is the union bound on the share of errors, only for frames; if the path fades, it is that of ideal
    maximum-ratio combining. `air` is the kind of paths, by the values of `AirKind`.
    """

    receiver: str
    channel: str
    point_db: float
    ebnt_db: float
    sigma: float
    seed: int
    sent: int
    errors: int
    lost: int
    marked_bad: int
    bad_but_right: int
    other_rate: int
    wrong_but_good: int
    unlocked: int
    share: float
    low: float
    high: float
    bound: float | None
    air: str


FIELDS = tuple(field.name for field in dataclasses.fields(Row))
# What a CSV has that was written before there were locks, and what the columns are that it lacks.
OLD_FIELDS = tuple(name for name in FIELDS if name not in (UNLOCKED, "air"))
OF_OLD: dict[str, Any] = {UNLOCKED: 0, "air": AirKind.WHITE.value}
# The bound of each kind of air.
BOUNDS = {AirKind.WHITE: frame_bound, AirKind.RAYLEIGH: combined_bound}


def interval(errors: int, sent: int) -> tuple[float, float]:
    """The 95 % interval of Wilson for a share of errors."""
    from scipy.stats import binomtest

    found = binomtest(errors, sent).proportion_ci(CONFIDENCE, method="wilson")
    return float(found.low), float(found.high)


def row_of(receiver: str, channel: Channel, count: Count, point: int, sigma: float, air: Air, seed: int) -> Row:
    """The row of a channel's counts at a point, in thousandths of a decibel."""
    errors = count.errors()
    low, high = interval(errors, count.sent)
    ratio = air.ratio(channel, sigma)
    bound = BOUNDS.get(air.kind) if is_frames(channel.name) else None
    return Row(
        receiver=receiver,
        channel=channel.name,
        point_db=point / 1_000,
        ebnt_db=round(air.decibels(channel, sigma), 3),
        sigma=round(sigma, 3),
        seed=seed,
        sent=count.sent,
        errors=errors,
        **{outcome: getattr(count, outcome) for outcome in OUTCOMES},
        share=float(f"{errors / count.sent:.6g}"),
        low=float(f"{low:.6g}"),
        high=float(f"{high:.6g}"),
        bound=float(f"{bound(channel.rate, ratio):.6g}") if bound else None,
        air=air.kind.value,
    )


def print_table(rows: Iterable[Row], out: TextIO, has_lock: bool = False) -> None:
    """Writes rows as a table, with the losses of the lock if there is one."""
    outcomes = OUTCOMES if has_lock else [outcome for outcome in OUTCOMES if outcome != UNLOCKED]
    print(
        f"{'Eb/Nt dB':>8} {'sigma':>8} {'receiver':<28} {'channel':<13} {'sent':>7} {'errors':>6}"
        f" {'share':>9} {'95 % interval':>21} {'bound':>9}  lost/bad/bad but right/other rate/good but wrong"
        + ("/without a lock" if has_lock else ""),
        file=out,
    )
    for row in rows:
        ends = "/".join(str(getattr(row, outcome)) for outcome in outcomes)
        bound = "" if row.bound is None else f"{row.bound:.3g}"
        print(
            f"{row.ebnt_db:>8.2f} {row.sigma:>8.1f} {row.receiver:<28} {row.channel:<13} {row.sent:>7} {row.errors:>6}"
            f" {row.share:>9.3g} {row.low:>10.3g}{row.high:>11.3g} {bound:>9}  {ends}",
            file=out,
        )


def write_csv(path: str, rows: Sequence[Row]) -> None:
    """Writes rows as CSV, with a line of their names first."""
    text = io.StringIO()
    table = csv.writer(text, lineterminator="\n")
    table.writerow(FIELDS)
    table.writerows(["" if value is None else value for value in dataclasses.astuple(row)] for row in rows)
    with write_out(path) as file:
        file.write(text.getvalue().encode("ascii", errors="replace"))


def read_csv(path: str) -> list[Row]:
    """The rows of a CSV that this tool wrote; refuses another file, and one above MOST_BYTES."""
    kinds: dict[str, Any] = {"receiver": str, "channel": str, "air": lambda text: AirKind(text).value}
    kinds |= {name: int for name in ("seed", *COMPARED)}
    try:
        table = csv.DictReader(io.StringIO(read_within(path, MOST_BYTES).decode("ascii"), newline=""))
        if tuple(table.fieldnames or ()) not in (FIELDS, OLD_FIELDS):
            raise Refused(f"{path}: not a CSV file of this tool: its first line isn't {','.join(FIELDS)}")
        read: list[dict[str, Any]] = [
            {name: None if value == "" else kinds.get(name, float)(value) for name, value in fields.items()}
            for fields in table
        ]
        return [Row(**{**OF_OLD, **values}) for values in read]
    except (ValueError, TypeError, AttributeError, csv.Error) as why:
        raise Refused(f"{path}: not a CSV file of this tool: {why}") from None


def differences(kept: Sequence[Row], rows: Sequence[Row]) -> list[str]:
    """In what the counts of rows differ from those that are kept, in lines."""

    def by_place(found: Sequence[Row]) -> dict[tuple[str, str, float, int], tuple[int, ...]]:
        return {
            (row.receiver, row.channel, row.point_db, row.seed): tuple(getattr(row, name) for name in COMPARED)
            for row in found
        }

    old, new = by_place(kept), by_place(rows)
    said = []
    for place in sorted({*old, *new}):
        if old.get(place) != new.get(place):
            receiver, channel, point, seed = place
            name = f"{receiver}, {channel} at {point:g} dB, seed {seed}"
            said.append(f"{name}: kept {text_of(old.get(place))}, counted {text_of(new.get(place))}")
    return said


def text_of(counts: tuple[int, ...] | None) -> str:
    """Counts in words, those that are 0 left out."""
    if counts is None:
        return "none"
    return " ".join(f"{name}={count}" for name, count in zip(COMPARED, counts) if count) or "nothing"


Lines = dict[tuple[str, str], list[Row]]


def lines_drawn(rows: Iterable[Row]) -> Lines:
    """The rows of frames, by receiver and channel, by rising Eb/Nt."""
    found: Lines = {}
    for row in rows:
        if is_frames(row.channel):
            found.setdefault((row.receiver, row.channel), []).append(row)
    return {name: sorted(line, key=lambda row: row.ebnt_db) for name, line in found.items()}


def draw_line(axes: Any, line: Sequence[Row], name: str, color: str, marker: str) -> None:
    """Draws a receiver's points with their intervals; without errors, an arrow from the interval's upper end."""
    seen = [row for row in line if row.errors]
    none = [row for row in line if not row.errors]
    axes.errorbar(
        [row.ebnt_db for row in seen],
        [row.share for row in seen],
        yerr=[[row.share - row.low for row in seen], [row.high - row.share for row in seen]],
        fmt=marker + "-",
        ms=4.5,
        lw=1.3,
        capsize=2.5,
        elinewidth=0.9,
        color=color,
        label=plain(name),
    )
    for row in none:
        axes.annotate(
            "", (row.ebnt_db, row.high / 2), (row.ebnt_db, row.high), arrowprops={"arrowstyle": "->", "color": color}
        )


Bound = Callable[[int, float], float]
# What is drawn next to curves in each kind of channel: the name, the form of the line, and the share at a rate and a
# ratio.
DRAWN: dict[AirKind, list[tuple[str, str, Bound]]] = {
    AirKind.WHITE: [("union bound", "--", frame_bound)],
    AirKind.RAYLEIGH: [
        ("ideal maximum-ratio combining, a fade for each symbol", "--", combined_bound),
        ("ideal, one fade for a frame", ":", slow_bound),
    ],
    AirKind.FADING: [],
}


def draw_bounds(axes: Any, channels: Mapping[tuple[str, AirKind], str], begin: float, end: float) -> None:
    """Draws the bounds below 1 of each channel, as broken lines in its color."""
    steps = 120
    places = [begin + (end - begin) * step / steps for step in range(steps + 1)]
    for (channel, kind), color in channels.items():
        rate = int(channel.split()[1])
        for name, form, bound in DRAWN[kind]:
            bounds = [(place, bound(rate, 10 ** (place / 10))) for place in places]
            drawn = [(place, share) for place, share in bounds if LEAST_SHARE < share < 1]
            label = name if len({one for one, _ in channels}) == 1 else f"{name}, {rate}"
            axes.plot([at for at, _ in drawn], [share for _, share in drawn], form, lw=1.1, color=color, label=label)


def bound_colors(lines: Lines) -> dict[tuple[str, AirKind], str]:
    """Returns the color of the bounds of each channel and kind of air: that of its curve if there is one, otherwise
    black."""
    colors: dict[tuple[str, AirKind], str] = {}
    for number, ((_, channel), line) in enumerate(lines.items()):
        place = channel, AirKind(line[0].air)
        colors[place] = "black" if place in colors else COLORS[number % len(COLORS)]
    return colors


def draw_axes(axes: Any, lines: Lines, title: str) -> None:
    """Curves and bounds, the scales and the legend."""
    colors = bound_colors(lines)
    for number, ((receiver, channel), line) in enumerate(lines.items()):
        name = f"{receiver}, {channel.split()[1]}" if len({one for one, _ in colors}) > 1 else receiver
        draw_line(axes, line, name, COLORS[number % len(COLORS)], MARKERS[number % len(MARKERS)])
    places = [row.ebnt_db for line in lines.values() for row in line]
    margin = max(0.1, 0.04 * (max(places) - min(places)))
    axes.set_xlim(min(places) - margin, max(places) + margin)
    known = {place: color for place, color in colors.items() if int(place[0].split()[1]) in FORMS}
    draw_bounds(axes, known, *axes.get_xlim())
    axes.set_yscale("log")
    least = min([row.low for line in lines.values() for row in line if row.errors], default=0.01)
    axes.set_ylim(max(LEAST_SHARE, least / 1.5), 1.3)
    axes.set_xlabel("Eb/Nt in dB")
    axes.set_ylabel("share of frames in error")
    axes.set_title(title)
    axes.grid(which="major", alpha=0.4)
    axes.grid(which="minor", alpha=0.15)
    axes.legend(loc="lower left", fontsize=8)


def draw(path: str, rows: Sequence[Row], title: str) -> None:
    """Writes the picture of rows as PNG: share of frames in error over Eb/Nt, and the union bound of each rate."""
    pyplot = plotting()
    figure, axes = pyplot.subplots(figsize=(8, 5.2), layout="constrained")
    draw_axes(axes, lines_drawn(rows), title)
    save(figure, path, dpi=110)
    pyplot.close(figure)
