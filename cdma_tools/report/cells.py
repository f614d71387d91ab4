"""What a report shows of each cell found in a recording, and which cells name each other as neighbors."""

import math
import os
from typing import NamedTuple

from plotly import graph_objects

from cdma_tools.analysis.cell_table import CellFacts, HeardAlone, facts_of
from cdma_tools.analysis.cells import Search
from cdma_tools.errors import Refused
from cdma_tools.heard_run import FOLLOWED
from cdma_tools.progress import bar
from cdma_tools.radio.locking import Held, Locked, Options, write_held
from cdma_tools.recordings import Recording
from cdma_tools.report.document import Addition, Section, Table, fields_section, last_of, seconds_at
from cdma_tools.report.figures import BLUE, GREY, HIDDEN_TEXT, INK, Plot, styled
from cdma_tools.report.gathering import Ran, run_program
from cdma_tools.sample_file import HEADER

# Arguments of follow that apply to every cell: the traffic channel is only the strongest one's.
SHARED_WORDS = ("span", "workers", "fingers", "paging")


class HeardCell(NamedTuple):
    """A cell: its lock with the others off, the rows that it sends, what the program follows of it, and its facts."""

    locked: Locked
    rows: int
    follow: Ran
    facts: CellFacts

    @property
    def rank(self) -> int:
        """Its place by strength, from 1 on."""
        return self.facts.rank

    @property
    def pn(self) -> int | None:
        """Returns PILOT_PN in its sync messages."""
        return self.facts.pn

    @property
    def neighbors(self) -> list[int]:
        """The offsets of the last list of neighbors."""
        found = last_of(self.follow, "paging", "neighbors")
        return [int(pn) for _, pn in found[1]["pilots"]] if found else []

    @property
    def name(self) -> str:
        """Returns its name on the page."""
        return f"cell {self.rank}" if self.pn is None else f"PN {self.pn}"


def gather_cells(
    path: str, options: Options, count: int, program: str, words: dict[str, str], folder: str, first: Held | None
) -> list[HeardCell]:
    """Returns up to `count` cells of a recording, strongest first; `words` are the arguments of follow.

    `first` is the lock to the strongest one, if it was made already.
    """
    given = [f"--{name}={words[name]}" for name in SHARED_WORDS if name in words]
    with Search(path, options, folder, first=first) as search, bar(total=count, text="cells", unit="cells") as shown:
        while len(search.told) < count and search.next_cell():
            shown.update(1)
        assert search.left is not None
        heard, runs = [], []
        for rank, cell in enumerate(search.told, 1):
            file = os.path.join(folder, "heard.is95")
            with open(file, "wb") as written:
                locked = write_held(cell.alone(search.left), options, written)
            with bar(
                total=(os.path.getsize(file) - HEADER.size) // 4, text=f"cell {rank}", unit="chips"
            ) as shown_chips:
                follow = run_program(program, ["follow", *given], file, FOLLOWED, shown_chips)
            heard.append(HeardAlone(cell, locked, [read for _, read in follow.reads(*FOLLOWED)]))
            runs.append(follow)
        with Recording(path, options.kind, float(options.rate), options.skip) as recorded:
            facts = facts_of(heard, recorded)
        return [
            HeardCell(one.locked, len(one.cell.used), run, told) for one, run, told in zip(heard, runs, facts)
        ]


def number_text(value: float | int | None, form: str = "") -> str:
    """Returns a number of the table of cells, or a word if no message has it."""
    return "not heard" if value is None else format(value, form)


def facts_section(cells: list[HeardCell]) -> Section:
    """Returns the table of cells."""
    heads = (
        "Cell", "#PN", "#Ec/Io, dB", "#Delay, chips", "#µs", "#m", "#Carrier, Hz", "#Sync", "#Paging", "#SID", "#NID",
        "#BASE_ID",
    )  # fmt: skip
    rows = []
    for facts in (cell.facts for cell in cells):
        numbers = ((facts.delay_chips, "+.2f"), (facts.delay_us, "+.2f"), (facts.delay_m, "+,.0f"))
        told = (facts.sync_messages, facts.paging_messages, facts.sid, facts.nid, facts.base_id)
        rows.append(
            (
                str(facts.rank), number_text(facts.pn), f"{facts.ec_io_db:.2f}",
                *(number_text(value, form) for value, form in numbers), f"{facts.carrier_difference_hz:+.1f}",
                *map(number_text, told),
            )
        )  # fmt: skip
    seconds = max(cell.facts.seconds for cell in cells)
    note = (
        f"Ec/Io is of all that was received, the other cells with it, over {seconds:.3f} s; delays and carriers are"
        " against the first cell's, delays on top of the offsets."
    )
    return Section("Cells", "cells", note, table=Table(heads, rows))


def cell_table(cell: HeardCell) -> Table:
    """Returns what is known of a cell's signal."""
    locked = cell.locked
    paths = ", ".join(f"{way.delay:.2f} chips {way.level:.1f} dB" for way in locked.paths)
    rows: list[tuple[str, ...]] = [
        ("PN offset", "no sync message was decoded" if cell.pn is None else str(cell.pn)),
        ("Phase", f"{locked.phase:,} at the first chip"),
        ("Carrier", f"{locked.carrier_hz:.1f} Hz above the recording's middle"),
        ("Ec/Io", f"{cell.facts.ec_io_db:.2f} dB over {cell.facts.seconds:.3f} s"),
        ("Rows in use", str(cell.rows)),
        ("Paths", paths),
        (
            "Messages",
            f"{len(cell.follow.reads('sync'))} of the sync channel, {len(cell.follow.reads('paging'))} of paging",
        ),
    ]
    return Table((), rows)


def cell_section(cell: HeardCell) -> Section:
    """A cell's section, with its sync message and its System Parameters."""
    parts = []
    for heading, line, word in (("Sync message", "sync", None), ("System Parameters", "paging", "system")):
        if found := last_of(cell.follow, line, word):
            shape, last, all_of = found
            note = f"The last of {len(all_of)}, known at {seconds_at(last)}."
            parts.append(
                fields_section(f"{heading} of cell {cell.rank}", f"cell-{cell.rank}-{word or line}", shape, last, note)
            )
    return Section(f"Cell {cell.rank}", f"cell-{cell.rank}", table=cell_table(cell), parts=tuple(parts))


def names_section(cells: list[HeardCell]) -> Section:
    """Returns the table of which cells name each other as neighbors."""
    rows: list[tuple[str, ...]] = []
    for cell in cells:
        named_by = ", ".join(other.name for other in cells if cell.pn is not None and cell.pn in other.neighbors)
        rows.append((cell.name, ", ".join(map(str, cell.neighbors)) or "no list was decoded", named_by or "none"))
    return Section("Who names whom", "named", table=Table(("Cell", "Names", "Is named by"), rows))


Places = dict[int, tuple[float, float]]


def places_of(offsets: list[int]) -> Places:
    """Places on a circle, for each of some offsets."""
    angles = [2 * math.pi * number / len(offsets) for number in range(len(offsets))]
    return {pn: (round(math.sin(angle), 4), round(math.cos(angle), 4)) for pn, angle in zip(offsets, angles)}


def add_arrow(figure: graph_objects.Figure, places: Places, pn: int, other: int, color: str) -> None:
    """Draws an arrow from a cell to one that it names."""
    (begin_x, begin_y), (x, y) = places[pn], places[other]
    ends = {"x": x, "y": y, "ax": begin_x, "ay": begin_y, "xref": "x", "yref": "y", "axref": "x", "ayref": "y"}
    form = {"arrowhead": 2, "arrowsize": 1.2, "arrowwidth": 1.2, "standoff": 12, "startstandoff": 12}
    figure.add_annotation(**ends, **form, arrowcolor=color, showarrow=True, text="")


def map_plot(cells: list[HeardCell]) -> Plot | None:
    """Returns the cells that were found and those that they name, on a circle, with an arrow from each to those it
    names."""
    heard = {cell.pn: cell for cell in cells if cell.pn is not None}
    if not any(cell.neighbors for cell in heard.values()):
        return None
    places = places_of(sorted(set(heard) | {pn for cell in cells for pn in cell.neighbors}))
    figure = graph_objects.Figure(
        graph_objects.Scatter(
            x=[x for x, _ in places.values()],
            y=[y for _, y in places.values()],
            mode="markers+text",
            text=[f"PN {pn}" for pn in places],
            textposition="top center",
            textfont={"color": INK},
            marker={"size": 16, "color": [BLUE if pn in heard else "#d5dae0" for pn in places]},
            hovertemplate="%{text}" + HIDDEN_TEXT,
        )
    )
    for pn, cell in heard.items():
        for other in cell.neighbors:
            add_arrow(figure, places, pn, other, BLUE if other in heard else GREY)
    figure.update_xaxes(visible=False, range=[-1.4, 1.4])
    figure.update_yaxes(visible=False, range=[-1.3, 1.4], scaleanchor="x")
    note = "An arrow goes from a cell to each that it names as a neighbor; received cells are filled."
    return Plot("map", "Neighbors of all cells", note, styled(figure, 420))


def addition_of(cells: list[HeardCell]) -> Addition:
    """Returns what the page gets: a section for each cell, the neighbors that each names, and the map."""
    links = [("cells", "Cells"), ("named", "Neighbors of all")]
    links += [(f"cell-{cell.rank}", f"Cell {cell.rank}") for cell in cells]
    plot, facts = map_plot(cells), [cell.facts for cell in cells]
    parts = [facts_section(cells), names_section(cells), *map(cell_section, cells)]
    return Addition(links, parts, [plot] if plot else [], facts)


def addition_why(why: Refused) -> Addition:
    """Returns what the page gets if no cell can be subtracted: the reason."""
    return Addition([("named", "Neighbors of all")], [Section("Cells", "named", fault=str(why))])
