"""The contents of a report's page: its sections, their tables, and their texts. `rendering` makes HTML of them."""

import json
import math
from dataclasses import dataclass, field
from typing import Any, NamedTuple, Sequence

from cdma_tools.analysis.cell_table import CellFacts
from cdma_tools.heard_run import CHIP_RATE, LANES, Run
from cdma_tools.lines import BY_WORDS, RATES, Shape
from cdma_tools.report.figures import Plot, decibels, pilots_of, plots_of, span_text
from cdma_tools.report.gathering import Gathered, Ran
from cdma_tools.report.meaning import CONFIGURATIONS, MEANINGS, degrees, megahertz, rows_of, times_of, utc_of
from cdma_tools.report.measures import Measured
from cdma_tools.report.rendering import whole_page
from cdma_tools.report.surveyed import Surveyed
from cdma_tools.report.waveform import Waveform
from cdma_tools.report.waveform import plots_of as waveform_plots
from cdma_tools.report.waveform import rows_of as waveform_rows
from cdma_tools.sample_file import GREATEST

NO_SYNC, BAD_FILE = 1, 3  # statuses of follow (docs/FORMATS.md)
FOUND = {  # what an import reports by name, and its unit
    "carrier_hz": ("Carrier", "Hz above the recording's middle"),
    "drift": ("Carrier's drift", "Hz a second"),
    "clock_ppm": ("Clock", "ppm slower than the base station's"),
    "phase": ("Phase", "of the pilot's code at the first chip"),
    "paths": ("Paths", "chips later, and dB"),
    "equaliser": ("Phase equaliser", ""),
    "conjugate": ("Conjugate", ""),
    "lost": ("Lost", "chips"),
    "chips": ("Written", "chips"),
    "scale": ("Scale", ""),
}
MOST_TEXT = 300  # characters of a text of the recording's own that are shown


class Table(NamedTuple):
    """A table: its heads, which may be missing, and its rows; cells below a head that begins with # are numbers."""

    heads: tuple[str, ...]
    rows: Sequence[tuple[str, ...]]

    def is_number(self, column: int) -> bool:
        """Whether the cells of a column are numbers."""
        return column < len(self.heads) and self.heads[column].startswith("#")


@dataclass(frozen=True)
class Section:
    """A section of the page under its heading: a note, why there is nothing to show, a table, and sections within it.

    All but the heading may be missing. Links lead to its name.
    """

    heading: str
    name: str = ""
    note: str = ""
    fault: str = ""
    table: Table | None = None
    parts: tuple["Section", ...] = ()


class Addition(NamedTuple):
    """Further content of a page: the names of its sections with the texts of their links, the sections, plots, and
    cells."""

    links: list[tuple[str, str]] = []
    parts: list[Section] = []
    plots: list[Plot] = []
    cells: list[CellFacts] = []


@dataclass(frozen=True)
class Page:
    """The contents of a page, in its order; `state` is the head's word that all is well, shown without `faults`."""

    name: str
    under: str
    state: str
    links: list[tuple[str, str]]
    cards: list[Section]
    plots: list[Plot]
    columns: list[list[Section]]
    runs: Sequence[Ran]
    faults: list[str] = field(default_factory=list)
    parts: list[Section] = field(default_factory=list)

    @property
    def pair(self) -> list[Plot]:
        """Returns the plots that stand side by side."""
        return plots_named(self.plots, PAIR)

    @property
    def wide(self) -> list[Plot]:
        """Returns the plots below them."""
        return plots_named(self.plots, [name for name in PLOT_NAMES if name not in PAIR])


def plots_named(plots: Sequence[Plot], names: Sequence[str]) -> list[Plot]:
    """Returns those of the plots that have these names, in the names' order."""
    named = {plot.name: plot for plot in plots}
    return [named[name] for name in names if name in named]


def last_of(ran: Ran, line: str, word: str | None) -> tuple[Shape, dict[str, Any], list[dict[str, Any]]] | None:
    """The last message of a kind, with its shape and all of them."""
    found = [read for _, read in ran.reads(line) if read.get("message") == word]
    return (BY_WORDS[line, word], found[-1], found) if found else None


def seconds_at(read: dict[str, Any]) -> str:
    """When a message was known, in seconds from the first sample."""
    return f"{read['at'] / CHIP_RATE:.3f} s"


def problems(gathered: Gathered, measured: Measured) -> list[str]:
    """Returns what isn't as it should be, in sentences."""
    said = []
    imported, follow = gathered.imported, gathered.follow
    if imported and imported.status:
        said.append(f"The recording can't be imported: {'; '.join(imported.said) or f'status {imported.status}'}.")
        return said
    if follow.status == BAD_FILE:
        said.append(f"The file is broken ({follow.said}): this page has what was read before that.")
        if measured.version == 0:
            said.append("It is not a sample file: for raw samples of a radio, --type and --rate are missing.")
    elif follow.status > NO_SYNC:
        said.append(f"follow ended with status {follow.status} ({follow.said}): this page has what was written before.")
    silent = [ran.words[0] for ran in gathered.runs if ran.status == 0 and not ran.lines]
    if silent:
        said.append(f"The program wrote nothing, and ended with status 0: {', '.join(silent)}.")
    if measured.ratio is None and "find" not in silent:
        said.append("There was no search for a pilot: it takes more samples than there are.")
    elif measured.ratio is not None and not measured.stands_out:
        best, noise = (f"{decibels(ratio):.1f} dB" for ratio in (measured.ratio, measured.floor))
        said.append(f"No pilot stands out: the best phase has {best} of all power, and noise reaches {noise}.")
    if follow.status == NO_SYNC:
        said.append("No sync message with the long code's state was decoded, so no other channel was decoded either.")
    strange = sum(line.read is None for ran in gathered.runs for line in ran.lines)
    if strange:
        said.append(f"{strange} of the lines are not the program's: they are shown among the lines, and nowhere else.")
    return said


def grouped(number: str) -> str:
    """A number with commas; any other text as it is."""
    try:
        return f"{float(number):,.12g}"
    except ValueError:
        return number


def kind_of(gathered: Gathered, measured: Measured) -> str:
    """Returns the kind of a file."""
    if gathered.imported:
        return f"recording, imported with {' '.join(gathered.imported.words)}"
    if not measured.version:
        return "not a sample file"
    return f"sample file, version {measured.version}, {16 if measured.version == 1 else 8} bits a part"


def recording_card(gathered: Gathered, measured: Measured, notes: dict[str, str]) -> Section:
    """Returns the card on the recording."""
    rows = [("File", gathered.name), ("Kind", kind_of(gathered, measured))]
    if told := notes.get("core:sample_rate"):
        rows.append(
            ("Recorded at", f"{grouped(told)} samples a second, {notes.get('core:datatype', 'of an unknown type')}")
        )
    rows += [
        ("Rate", f"{CHIP_RATE:,} samples a second, one a chip"),
        ("Chips", f"{measured.count:,}" + (f" of {measured.told:,}" if measured.told != measured.count else "")),
        ("Length", f"{measured.seconds:.3f} s"),
    ]
    rows = [(name, value[:MOST_TEXT]) for name, value in rows]
    return Section("Recording", table=Table((), rows))


def level_told(measured: Measured) -> list[tuple[str, str]]:
    """The level of the samples, against the greatest that the file holds."""
    if measured.level is None:
        return [("Level", "no samples")]
    power, top, greatest = *measured.level, GREATEST[measured.version]
    mean = math.sqrt(power)
    level = (
        f"{20 * math.log10(mean / greatest):.1f} dB of full scale, {mean:,.1f} on average"
        if power
        else "all samples are 0"
    )
    return [("Level", level), ("Greatest part", f"{top:,} of {greatest:,}")]


def ec_io_told(gathered: Gathered, made: Waveform) -> list[tuple[str, str]]:
    """The one Ec/Io of the page, with the span it is of: the lock's, or that of a sample file's code domain."""
    found = gathered.imported.found if gathered.imported else {}
    if "ec_io_db" in found and "chips" in found:
        level, chips = float(found["ec_io_db"]), int(found["chips"])
    elif made.domain is not None:
        level, chips = made.domain.rows[0].db, made.domain.chips
    else:
        return []
    return [("Ec/Io", f"{level:.2f} dB: the pilot's part of all power, over {chips / CHIP_RATE:.3f} s")]


def signal_card(gathered: Gathered, measured: Measured, made: Waveform) -> Section:
    """Returns the card on the signal: its strength, and what is left of carrier and clock."""
    rows = level_told(measured) + ec_io_told(gathered, made)
    if pilots := gathered.find.reads("pilot"):
        rows.append(("Best phase", f"{pilots[0][1]['phase']:,} of 32,768"))
    if measured.ratio is not None and not measured.stands_out:
        rows.append(("Pilot", f"no more than noise in the first {span_text(measured)}"))
    if measured.carrier is not None:
        rows.append(("Carrier left", f"{measured.carrier:+.2f} Hz"))
    if measured.drift is not None and measured.seconds:
        rows.append(
            ("Clock left", f"{measured.drift:+d} chips over all, {1e6 * measured.drift / measured.count:+.2f} ppm")
        )
    return Section("Signal", table=Table((), rows))


def found_card(gathered: Gathered) -> Section | None:
    """Returns the card on the result of the import, by its own names."""
    if not gathered.imported:
        return None
    rows = []
    for name, value in gathered.imported.found.items():
        if name == "ec_io_db":
            continue  # it is in the card of the signal
        told, unit = FOUND.get(name, (name, ""))
        rows.append((told, f"{value} {unit}".strip()))
    rows += [("Said", line) for line in gathered.imported.said]
    return Section("As the import found it", table=Table((), rows))


def waveform_card(made: Waveform) -> Section | None:
    """Returns the card on the waveform: how well the cell sends, and what the radio adds."""
    rows = waveform_rows(made)
    return Section("Waveform", table=Table((), rows)) if rows else None


def station_card(gathered: Gathered) -> Section:
    """Returns the card on the base station that the handset received."""
    rows: list[tuple[str, str]] = []
    if found := last_of(gathered.follow, "sync", None):
        first = found[2][0]
        rows.append(("PN offset", str(first["pn"])))
        rows.append(("System, network", f"SID {first['sid']}, NID {first['nid']}"))
        rows.append(("Revision", MEANINGS["P_REV"](first["prev"], first)))
        utc, local, offset = times_of(first)
        rows += [("Time, UTC", utc), ("Time, local", f"{local}, UTC{offset}")]
    if found := last_of(gathered.follow, "paging", "system"):
        system = found[1]
        rows.append(("Base station", str(system["base"])))
        rows += [("Latitude", degrees(system["lat"], 22, "NS")), ("Longitude", degrees(system["long"], 23, "EW"))]
    return Section("Base station", table=Table((), rows or [("", "none was received")]))


def heard_card(run: Run) -> Section:
    """Returns the card on the numbers of messages and frames."""
    told: list[tuple[str, list[int]]] = [
        (name, [one.at for one in run.lanes[name]]) for name in LANES if name in run.lanes
    ]
    for rate in RATES:
        frames = [frame for frame in run.frames if frame.rate == rate]
        bad = sum(not frame.is_good for frame in frames)
        told.append((f"frames {rate}" + (f", {bad} bad" if bad else ""), [frame.at for frame in frames]))
    told.append(("pilot sets", [moment.at for moment in run.sets]))
    rows = [(name, str(len(at)), f"{at[0] / CHIP_RATE:.2f} to {at[-1] / CHIP_RATE:.2f}") for name, at in told if at]
    return Section("Heard", table=Table(("Event", "#Count", "#Seconds"), rows or [("nothing", "0", "")]))


def fields_section(heading: str, name: str, shape: Shape, read: dict[str, Any], note: str) -> Section:
    """A message's fields and their meaning."""
    rows = [tuple(row) for row in rows_of(shape, read)]
    return Section(heading, name, note, table=Table(("Field", "#Value", "Meaning"), rows))


def sync_section(gathered: Gathered) -> Section | None:
    """The first sync message."""
    found = last_of(gathered.follow, "sync", None)
    if not found:
        return None
    shape, _, all_of = found
    note = f"The first of {len(all_of)}, known at {seconds_at(all_of[0])}: it holds 320 ms after its end."
    return fields_section("Sync message", "sync", shape, all_of[0], note)


def last_section(gathered: Gathered, heading: str, name: str, word: str) -> Section | None:
    """The last page of a kind."""
    found = last_of(gathered.follow, "paging", word)
    if not found:
        return None
    shape, last, all_of = found
    kinds = len({json.dumps({key: value for key, value in read.items() if key != "at"}) for read in all_of})
    note = f"The last of {len(all_of)}, known at {seconds_at(last)}" + (
        f"; {kinds} of them differ." if kinds > 1 else "."
    )
    return fields_section(heading, name, shape, last, note)


def neighbor_section(
    gathered: Gathered, measured: Measured, surveyed: Sequence[Surveyed], cells: Sequence[CellFacts]
) -> Section | None:
    """Returns the neighbors of the last list, with what was received of them, or what the survey found."""
    found = last_of(gathered.follow, "paging", "neighbors")
    if not found:
        return None
    _, last, all_of = found
    pilots, heard = {pilot.pn: pilot for pilot in surveyed}, {cell.pn: cell for cell in cells}
    rows = []
    for config, pn in last["pilots"]:
        told = cell_told(heard[pn]) if pn in heard else pilot_told(pilots.get(pn), measured)
        is_known = bool(surveyed) or pn in heard
        rows.append((str(pn), str(config), CONFIGURATIONS.get(config, "reserved"), told if is_known else ""))
    note = f"The last of {len(all_of)}, known at {seconds_at(last)}; PILOT_INC is {last['inc']}."
    heads = ("NGHBR_PN", "#NGHBR_CONFIG", "Meaning", "In this recording")
    return Section("Neighbors", "neighbors", note, table=Table(heads, rows or [("none", "", "", "")]))


def cell_told(cell: CellFacts) -> str:
    """Returns the description of a neighbor that was found as a cell of its own."""
    return f"received as cell {cell.rank}: {cell.ec_io_db:.2f} dB, {cell.delay_chips or 0.0:+.1f} chips"


def pilot_told(pilot: Surveyed | None, measured: Measured) -> str:
    """A neighbor as the survey found it."""
    if pilot is None or pilot.strength < measured.floor:
        return f"no more than noise in the first {span_text(measured)}"
    return f"{decibels(pilot.strength):.1f} dB in the first {span_text(measured)}, {pilot.late:+d} chips"


def channel_section(gathered: Gathered) -> Section | None:
    """The channels of the last list."""
    found = last_of(gathered.follow, "paging", "channels")
    if not found:
        return None
    _, last, all_of = found
    rows = [(str(freq), megahertz(freq)) for freq in last["freqs"]] or [("none", "")]
    note = f"The last of {len(all_of)}, known at {seconds_at(last)}."
    return Section("Channels", "channels", note, table=Table(("CDMA_FREQ", "A base station sends it at"), rows))


def notes_section(notes: dict[str, str]) -> Section | None:
    """Returns what a recording says of itself."""
    if not notes:
        return None
    rows = [(name[:MOST_TEXT], value[:MOST_TEXT]) for name, value in notes.items()]
    return Section("What the recording says about itself", "notes", table=Table(("Name", "Value"), rows))


def links_of(plots: list[Plot], tables: dict[str, Section], more: Addition) -> list[tuple[str, str]]:
    """Returns the names of the page's parts, and the texts of their links."""
    named = [(f"{plot.name}-part", PLOT_NAMES[plot.name]) for plot in plots]
    tabled = [(name, told) for name, told in TABLE_NAMES if name in tables]
    return [("summary", "Summary"), *named, *tabled, *more.links, ("lines", "Lines")]


PLOT_NAMES = {
    "correlation": "Correlation", "constellation": "Constellation", "survey": "Survey", "timeline": "Time line",
    "domain": "Code domain", "spectrum": "Spectrum", "waterfall": "Waterfall", "map": "Map of neighbors",
}  # fmt: skip
PAIR = ("correlation", "constellation")  # plots that stand side by side
TABLE_NAMES = [
    ("sync", "Sync"),
    ("system", "System"),
    ("neighbors", "Neighbors"),
    ("channels", "Channels"),
    ("notes", "Notes"),
]


def message_tables(
    gathered: Gathered,
    measured: Measured,
    notes: dict[str, str],
    surveyed: Sequence[Surveyed] = (),
    cells: Sequence[CellFacts] = (),
) -> dict[str, Section]:
    """Returns the tables of system messages that were received, by their names in TABLE_NAMES."""
    made = {
        "sync": sync_section(gathered),
        "system": last_section(gathered, "System Parameters", "system", "system"),
        "neighbors": neighbor_section(gathered, measured, surveyed, cells),
        "channels": channel_section(gathered),
        "notes": notes_section(notes),
    }
    return {name: section for name, section in made.items() if section is not None}


def columns_of(tables: dict[str, Section]) -> list[list[Section]]:
    """Returns the tables in two columns, in one if there are no System Parameters."""
    left = [tables[name] for name in ("sync", "neighbors", "channels", "notes") if name in tables]
    return [left, [tables["system"]]] if "system" in tables else [left]


def heard_at(gathered: Gathered) -> str:
    """Returns the time of the first sync message, after a comma; empty if there was none."""
    found = last_of(gathered.follow, "sync", None)
    if not found:
        return ""
    first = found[2][0]
    return f", at about {utc_of(first['time'], first['lp']):%Y-%m-%d %H:%M:%S} UTC"


def cards_of(gathered: Gathered, measured: Measured, notes: dict[str, str], made: Waveform) -> list[Section]:
    """Returns the cards at the head of the page."""
    run = Run(gathered.follow.reads("sync", "paging", "frame", "traffic", "sets"))
    cards = [
        recording_card(gathered, measured, notes),
        signal_card(gathered, measured, made),
        waveform_card(made),
        found_card(gathered),
        station_card(gathered),
        heard_card(run),
    ]
    return [card for card in cards if card is not None]


def page_of(
    gathered: Gathered,
    measured: Measured,
    notes: dict[str, str],
    made: Waveform = Waveform(),
    more: Addition = Addition(),
) -> str:
    """Returns the complete page; `notes` are what a recording says of itself, by name, and `made` what was measured of
    it."""
    has_offset = bool(gathered.follow.reads("sync"))
    surveyed = pilots_of(gathered, measured, more.cells)
    plots = plots_of(gathered, measured, surveyed, has_offset) + waveform_plots(made) + more.plots
    tables = message_tables(gathered, measured, notes, surveyed, more.cells)
    page = Page(
        gathered.name,
        f"{measured.seconds:.2f} seconds of the IS-95 forward link{heard_at(gathered)}",
        "Everything was read, and follow ended with status 0.",
        links_of(plots, tables, more),
        cards_of(gathered, measured, notes, made),
        plots,
        columns_of(tables),
        gathered.runs,
        problems(gathered, measured),
        more.parts,
    )
    return whole_page(page, plots)
