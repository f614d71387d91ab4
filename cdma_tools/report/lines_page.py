"""The page of a recording of any length, by the lines that a listening wrote, without samples."""

from cdma_tools.heard_run import CHIP_RATE, Run
from cdma_tools.report import document
from cdma_tools.report.document import Page, Section, Table
from cdma_tools.report.figures import stepped, timeline_of
from cdma_tools.report.gathering import Gathered, Ran
from cdma_tools.report.heard_lines import HeardLines
from cdma_tools.report.measures import Measured
from cdma_tools.report.rendering import whole_page

SPAN = 2_048  # of a search that wasn't made
COMMAND = "follow"  # whose lines they are


def gathered_of(name: str, heard: HeardLines) -> Gathered:
    """The lines that are kept, as a run without a search or a survey."""
    find, survey = (Ran([command], 0, [], "") for command in ("find", "survey"))
    return Gathered(name, None, find, survey, Ran([COMMAND], 0, heard.lines(), ""))


def lines_card(name: str, heard: HeardLines) -> Section:
    """Returns the card on the lines."""
    rows: list[tuple[str, ...]] = [("File", name), ("Kind", "lines of listen"), ("Lines", f"{heard.number:,}")]
    rows.append(("Length", f"{heard.end / CHIP_RATE:,.3f} s up to the last line"))
    return Section("Recording", table=Table((), rows))


def counts_card(heard: HeardLines) -> Section:
    """Returns the card on the numbers of all messages and frames."""
    rows: list[tuple[str, ...]] = [*heard.rows()] or [("nothing", "0", "")]
    return Section("Heard", table=Table(("Event", "#Count", "#Seconds"), rows))


def page_of_lines(name: str, heard: HeardLines) -> str:
    """Returns the complete page; its head says which lines it leaves out."""
    gathered = gathered_of(name, heard)
    nothing = Measured(0, 0, 0, SPAN)
    run = Run(gathered.follow.reads("sync", "paging", "frame", "traffic", "sets"))
    steps = heard.steps.kept
    plots = [] if run.is_empty else [timeline_of(run, stepped([at for at, _ in steps], [level for _, level in steps]))]
    tables = document.message_tables(gathered, nothing, {})
    page = Page(
        name,
        f"{heard.end / CHIP_RATE:,.2f} seconds of the IS-95 forward link{document.heard_at(gathered)}",
        heard.left_out() or "The page has all lines.",
        document.links_of(plots, tables, document.Addition()),
        [lines_card(name, heard), document.station_card(gathered), counts_card(heard)],
        plots,
        document.columns_of(tables),
        gathered.runs,
    )
    return whole_page(page, plots)
