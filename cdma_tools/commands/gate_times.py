"""Reports when the parts of a run of `rt ci` ended, and the memory with which each crate was planned.

LOG is the output of `rt ci` with a time before each line, as `ts` of moreutils writes it:

    rt ci 2>&1 | ts > gate.log
    tools/gate_times gate.log

Times count from the first line of the log. There is a row for each crate, in the order of crates.txt. It has the memory
with which `rt ci` plans a check of the crate, the time at which its proof ended, that of its tests' proof, and the
times at which the trials of its edits began and were reported. `kept` means that an earlier run proved the same files,
`failed` after a time that the proof failed, `-` that the log says nothing (yet, or for tests that are kept). A crate
without tests or edits has no time for them. `rt ci` reports all edits at its end, so that column only says that all had
been tried by then. The last lines are the longest chain of crates that each depend on the one before, and the time of
the whole run.

The plan is 1 GB, 1 MB for each line of the crate's .rt files, its tests among them, 0.2 MB for each line of .antt, and
0.08 MB for each line of .rt of the crates below it. What `rt` adds for the kit's libraries isn't counted.

Exit status: 0, or 2 if the arguments, the log or crates.txt can't be read.
"""

from __future__ import annotations

import re
import sys
from collections.abc import Iterable, Iterator
from dataclasses import dataclass, field

from cdma_tools.arguments import Parser
from cdma_tools.errors import Refused
from cdma_tools.overwriting import InputFile
from cdma_tools.places import TOP
from cdma_tools.repository.crate_list import NoList, longest_chain
from cdma_tools.repository.plan import Crate, clock_text, crates_of, planned, stands_on

MONTHS = ("Jan", "Feb", "Mar", "Apr", "May", "Jun", "Jul", "Aug", "Sep", "Oct", "Nov", "Dec")
# The days before each month; that February has a day more in some years shifts a log over its end by a day at most.
DAYS_BEFORE = (0, 31, 59, 90, 120, 151, 181, 212, 243, 273, 304, 334)
DAY, YEAR = 86_400.0, 365 * 86_400.0
CLOCK = r"(\d\d):(\d\d):(\d\d)(\.\d+)?"
TIMES = (
    re.compile(rf"(?P<month>{'|'.join(MONTHS)}) +(?P<day>\d+) {CLOCK}(?: |$)"),
    re.compile(rf"\d{{4}}-(?P<month>\d\d)-(?P<day>\d\d)[T ]{CLOCK}\S*(?: |$)"),
    re.compile(rf"{CLOCK}(?: |$)"),
    re.compile(r"(?P<seconds>\d+(?:\.\d+)?)(?: |$)"),
)
NAME = r"([a-z][a-z0-9_]*)"
PROVED = re.compile(rf"rt: {NAME}(: its tests are)? (NOT PROVED|proved)(?:$|: )")
KEPT = re.compile(rf"rt: {NAME} is kept: ")
BEGUN = re.compile(rf"rt: {NAME}: trying its must-fail edits \((\d+)\)")
TOLD = re.compile(rf"rt: must-fail {NAME}/(\S+): ")


@dataclass
class Times:
    """Times at which the parts of a crate ended, in seconds from the log's first line; None if the log has no such
    time."""

    proof: float | None = None
    tests: float | None = None
    begun: float | None = None
    told: float | None = None
    kept: bool = False
    failed: set[str] = field(default_factory=set)


def moment(line: str, at: int) -> tuple[float, str]:
    """Returns the time before a line, in seconds from some moment, and the rest of the line."""
    for form in TIMES:
        found = form.match(line)
        if found:
            groups = found.groupdict()
            if "seconds" in groups:
                return float(groups["seconds"]), line[found.end() :]
            hours, minutes, seconds, part = found.groups()[-4:]
            clock = 3600 * int(hours) + 60 * int(minutes) + int(seconds) + float(part or 0)
            return clock + DAY * day_of(groups), line[found.end() :]
    raise Refused(f"line {at} has no time before it, as `ts` writes one: {line[:60]!r}")


def day_of(groups: dict[str, str | None]) -> int:
    """Returns the day of the year in a time, or 0 if it has none."""
    if "month" not in groups:
        return 0
    month, day = str(groups["month"]), int(str(groups["day"]))
    number = MONTHS.index(month) if month in MONTHS else int(month) - 1
    if not (0 <= number < 12 and 1 <= day <= 31):
        raise Refused(f"month {month}, day {day} is not a day")
    return DAYS_BEFORE[number] + day


def timed(lines: Iterable[str]) -> Iterator[tuple[float, str]]:
    """The seconds since a log's first line, and the line without its time; a clock that falls back begins a new day."""
    first = last = behind = None
    for at, line in enumerate(lines, 1):
        clock, text = moment(line, at)
        if first is None or last is None or behind is None:
            first, last, behind = clock, clock, 0.0
        if clock + behind < last - 1:
            behind += DAY if last - clock - behind <= DAY else YEAR
        last = max(last, clock + behind)
        yield last - first, text


def taken(lines: Iterable[str]) -> tuple[dict[str, Times], float]:
    """Returns the times of each crate in a log, and the log's duration."""
    found: dict[str, Times] = {}
    end = 0.0
    for end, text in timed(lines):
        for form, take in ((PROVED, take_proved), (KEPT, take_kept), (BEGUN, take_begun), (TOLD, take_told)):
            match = form.match(text)
            if match:
                take(found.setdefault(match.group(1), Times()), match, end)
    return found, end


def take_proved(times: Times, match: re.Match[str], at: float) -> None:
    """Takes note that a proof, or that of tests, has ended."""
    part = "tests" if match.group(2) else "proof"
    setattr(times, part, at)
    if match.group(3) != "proved":
        times.failed.add(part)


def take_kept(times: Times, _match: re.Match[str], at: float) -> None:
    """Takes note that a crate is kept."""
    times.proof, times.kept = at, True


def take_begun(times: Times, _match: re.Match[str], at: float) -> None:
    """Takes note that the trials of edits have begun."""
    times.begun = at


def take_told(times: Times, _match: re.Match[str], at: float) -> None:
    """Notes that an edit was reported."""
    times.told = at


def clock(seconds: float | None) -> str:
    """A time as H:MM:SS, or - for none."""
    return "-" if seconds is None else clock_text(seconds)


def row(crate: Crate, plan: float, times: Times) -> tuple[str, ...]:
    """Returns the row of a crate."""
    proof = "kept" if times.kept else clock(times.proof) + " failed" * ("proof" in times.failed)
    tests = clock(times.tests) + " failed" * ("tests" in times.failed) if crate.has_tests else ""
    edits = (clock(times.begun), clock(times.told), str(crate.edits)) if crate.edits else ("", "", "")
    return crate.name, f"{plan / 1_000:.1f} GB", proof, tests, *edits


def table(rows: list[tuple[str, ...]]) -> str:
    """Rows in columns, the first to the left."""
    widths = [max(len(cells[at]) for cells in rows) for at in range(len(rows[0]))]
    lines = []
    for cells in rows:
        first, *others = (cell.rjust(width) for cell, width in zip(cells, widths))
        lines.append("  ".join([cells[0].ljust(len(first)), *others]).rstrip() + "\n")
    return "".join(lines)


def report(root: str, lines: Iterable[str]) -> str:
    """All that is written of a log."""
    crates = crates_of(root)
    found, end = taken(lines)
    if not found:
        raise Refused("the log names no crate that was proved or kept")
    rows: list[tuple[str, ...]] = [("crate", "planned", "proof", "tests", "edits begun", "told", "edits")]
    rows += [row(crate, planned(crates, name), found.get(name, Times())) for name, crate in crates.items()]
    chain = longest_chain(stands_on(crates))
    others = sorted(set(found) - set(crates))
    more = f"in the log, but not in crates.txt: {' '.join(others)}\n" if others else ""
    return (
        table(rows)
        + f"longest chain: {len(chain)} crates: {' '.join(chain)}\n{more}the log's last line: {clock(end)}\n"
    )


def parser() -> Parser:
    """The command line."""
    words = Parser("gate_times", __doc__)
    words.add_argument("log", type=InputFile, metavar="LOG", help="log, or - for standard input")
    words.add_argument("--root", metavar="FOLDER", default=TOP, help="checkout whose files are read (default this one)")
    return words


def main(arguments: list[str] | None = None) -> int:
    """Runs the tool, and returns its exit status."""
    options = parser().parse_args(arguments)
    try:
        if options.log == "-":
            lines = sys.stdin.read().splitlines()
        else:
            with open(options.log, encoding="utf-8", errors="replace") as file:
                lines = file.read().splitlines()
        sys.stdout.write(report(options.root, lines))
    except NoList as why:
        raise Refused(str(why)) from None
    return 0
