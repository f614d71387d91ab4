"""An analysis: the code domain of a sample file or of a recording, with what the radio itself adds."""

import contextlib
import os
from dataclasses import dataclass, field
from typing import Callable, Iterator

import numpy

from cdma_tools.analysis.branches import Branches, branches_of
from cdma_tools.analysis.cells import Search
from cdma_tools.analysis.code_domain import PIECE, Chips, CodeDomain, Row, is_pulsed, measured
from cdma_tools.analysis.importing import Wanted, find
from cdma_tools.analysis.over_paths import PilotResponse, part_over_paths, pilot_response
from cdma_tools.analysis.walsh import PILOT_ROW, SYNC_ROW
from cdma_tools.errors import Refused
from cdma_tools.program import written_of
from cdma_tools.radio.acquisition import STRETCH, strongest
from cdma_tools.radio.air import CHIP_RATE, PERIOD
from cdma_tools.radio.locking import Held, Options, hold, write_held
from cdma_tools.radio.paths import Way
from cdma_tools.radio.strength import emptied
from cdma_tools.recordings import Recording, Samples
from cdma_tools.sample_file import SampleFile

# Rows of paging channels (7.1.3.1.8).
PAGING_ROWS = range(1, 8)
# Chips at a file's beginning from which its pilot and its pulse are found: at most a second.
BEGIN_CHIPS = CHIP_RATE
# The part of the work that the lock, the file and the measuring reach.
STEPS = (0.5, 0.8, 1.0)


@dataclass(frozen=True)
class Timing:
    """A recording's carrier, clock and time, against the cell's."""

    carrier_hz: float  # above the middle, half way
    clock_ppm: float  # of the radio's clock; positive if it is slow
    time_chips: float  # by the radio's clock, at which the period of the code begins that is nearest to the middle
    is_conjugate: bool
    has_equaliser: bool
    lost: int  # chips
    paths: tuple[Way, ...]


@dataclass(frozen=True)
class Analysis:
    """The results for a cell."""

    domain: CodeDomain
    kinds: dict[int, str] = field(default_factory=dict)  # what rows in use are
    timing: Timing | None = None
    branches: Branches | None = None
    over_paths: float | None = None  # the cell's part of all power over several paths, 1 - left / all

    @property
    def rho(self) -> float:
        """The part of all power that is the cell's, over all its paths."""
        return self.domain.rho if self.over_paths is None else self.over_paths

    @property
    def error_vector(self) -> float:
        """The root mean square of the error over that of what is sent."""
        return float(numpy.sqrt(max(1 - self.rho, 0.0) / self.rho)) if self.rho > 0 else float("inf")

    @property
    def seconds(self) -> float:
        """Returns the length of the measured chips."""
        return self.domain.chips / CHIP_RATE


def phase_of(file: SampleFile) -> int:
    """Returns the code phase of a sample file's first chip; refuses a file in which no pilot stands out."""
    if file.count < 4 * STRETCH:
        raise Refused(f"{file.path}: {file.count} chips are too few: the search for a pilot needs {4 * STRETCH}")
    bins = numpy.zeros(1, numpy.int64)
    best = strongest(lambda number: numpy.repeat(file.read(number * STRETCH, STRETCH), 2), bins, 1)
    if best.excess <= 1:
        raise Refused(f"{file.path}: no pilot stands out: the best energy is {best.excess:.2f} of the threshold")
    return best.phase


def runs_of(file: SampleFile, phase: int, tell: Callable[[float], None]) -> Iterator[Chips]:
    """All chips of a sample file, some at a time."""
    for first in range(0, file.count, PIECE):
        yield Chips((phase + first) % PERIOD, file.read(first, min(PIECE, file.count - first)))
        tell(min(1.0, (first + PIECE) / file.count))


def domain_of_file(
    path: str, phase: int | None, tell: Callable[[float], None] = lambda part: None, kept: float = 1.0
) -> CodeDomain:
    """The code domain of a sample file, whose first chip has a phase that is known or is looked for.

    `kept` is the part of a pulse's power that the front left of it.
    """
    file = SampleFile(path)
    try:
        begin = phase_of(file) if phase is None else phase
        pulsed = is_pulsed(Chips(begin, file.read(0, min(file.count, BEGIN_CHIPS))))
        domain = measured(runs_of(file, begin, tell), is_pulsed=pulsed, kept=kept)
    finally:
        file.close()
    if domain is None:
        raise Refused(f"{path}: too few chips for a code domain, which needs a power control group of 1.25 ms")
    return domain


def kinds_of(rows: list[Row], program: str | None, path: str) -> dict[int, str]:
    """Returns the kinds of rows in use: pilot, sync, paging if the program decodes it so, otherwise other."""
    kinds = {row.row: "other" for row in rows} | {PILOT_ROW: "pilot"}
    if SYNC_ROW in kinds:
        kinds[SYNC_ROW] = "sync"
    if program is not None:
        kinds |= {row: "paging" for row in kinds if row in PAGING_ROWS and hears_paging(program, path, row)}
    return kinds


def hears_paging(program: str, path: str, row: int) -> bool:
    """Whether a handset decodes a message on a paging channel."""
    with open(path, "rb") as file:
        return b"\npaging " in written_of(program, ["follow", "--paging", str(row)], file)


def timing_of(held: Held, domain: CodeDomain, lost: int) -> Timing:
    """Returns carrier, clock and time half way, by the fit and corrected by the code domain."""
    first, behind = held.pieces[0].first, held.pieces[-1].behind
    fit = held.stretches.fits[len(held.stretches.fits) // 2]
    middle = PERIOD * round((first + behind) / 2 / PERIOD)
    return Timing(
        carrier_hz=float(fit.hertz(middle)) + domain.carrier_left,
        clock_ppm=-1e6 * float(fit.offset.derivative(middle)),
        time_chips=float(fit.times(middle)) + domain.time_left,
        is_conjugate=held.is_conjugate,
        has_equaliser=held.stretches.has_equaliser,
        lost=lost,
        paths=tuple(held.ways),
    )


@dataclass(frozen=True)
class SeenLock:
    """What an analysis needs of a lock besides the chips that it wrote."""

    held: Held
    lost: int
    branches: Branches
    pilot: PilotResponse | None


def seen_lock(held: Held, lost: int, recorded: Samples | None = None) -> SeenLock:
    """Returns what an analysis needs of a lock whose samples are open; `recorded` are the radio's, if others were
    locked."""
    samples = held.front.recording if recorded is None else recorded
    branches = branches_of(samples.conjugate() if held.is_conjugate else samples)
    return SeenLock(held, lost, branches, pilot_response(held))


def analysis_of_chips(
    chips: str, seen: SeenLock, program: str | None, tell: Callable[[float], None] = lambda part: None
) -> Analysis:
    """The analysis of a cell of a recording, by the sample file that its lock wrote."""
    held, pilot = seen.held, seen.pilot
    phase, kept = held.pieces[0].first % PERIOD, 1 - emptied(held.front)
    domain = domain_of_file(chips, phase, tell, kept)
    has_paths = pilot is not None and (len(held.ways) > 1 or pilot.is_spread(domain))
    over_paths = part_over_paths(domain, pilot) if pilot is not None and has_paths else None
    timing = timing_of(held, domain, seen.lost)
    return Analysis(domain, kinds_of(domain.used, program, chips), timing, seen.branches, over_paths)


def analysis_of_recording(
    path: str, options: Options, program: str | None, folder: str, tell: Callable[[float, str], None]
) -> Analysis:
    """Returns the analysis of a recording's strongest cell; `folder` is for files, and `tell` gets the work done."""
    chips = os.path.join(folder, "cell.is95")
    held = hold(path, options, lambda part, text: tell(STEPS[0] * part, text))
    with contextlib.closing(held.front.recording):
        with open(chips, "wb") as file:
            reached = STEPS[1] - STEPS[0]
            lost = write_held(held, options, file, lambda part: tell(STEPS[0] + reached * part, "chips")).lost
        seen = seen_lock(held, lost)
    return analysis_of_chips(chips, seen, program, lambda part: tell(STEPS[1] + (1 - STEPS[1]) * part, "rows"))


def analysis_of_cell(
    path: str, options: Options, wanted: Wanted, program: str | None, folder: str, tell: Callable[[str], None]
) -> Analysis:
    """The analysis of one cell of several, the stronger ones taken off; `folder` is for files of the samples' size."""
    chips = os.path.join(folder, "cell.is95")
    with Search(path, options, folder, tell) as search:
        cell, _ = find(search, wanted)
        assert search.left is not None
        held = cell.alone(search.left)._replace(is_conjugate=search.cells[0].held.is_conjugate)
        with open(chips, "wb") as file:
            lost = write_held(held, options, file).lost
        with Recording(path, options.kind, float(options.rate), options.skip) as recorded:
            seen = seen_lock(held, lost, recorded)
    return analysis_of_chips(chips, seen, program)


def analysis_of_file(path: str, program: str | None, tell: Callable[[float, str], None]) -> Analysis:
    """The analysis of a sample file."""
    domain = domain_of_file(path, None, lambda part: tell(part, "rows"))
    return Analysis(domain, kinds_of(domain.used, program, path))
