"""The standard's limits of a base station's transmission (C.S0010), each with what was measured of a cell.

| Limit | Requirement |
|---|---|
| waveform quality | rho of at least 0.912 |
| unused rows | each at least 27 dB below all power |
| time | each row in use within 50 ns of the pilot |
| phase | each row in use within 0.05 rad of the pilot |
| carrier | within 0.05 millionths of its channel's frequency |
"""

import enum
import math
from dataclasses import dataclass, replace

from cdma_tools.analysis.code_domain import Row
from cdma_tools.analysis.measuring import Analysis
from cdma_tools.analysis.walsh import PILOT_ROW
from cdma_tools.frequencies import Channel, channel_at
from cdma_tools.radio.air import CHIP_RATE
from cdma_tools.results import Result

LEAST_RHO, MOST_UNUSED_DB, MOST_NANOSECONDS, MOST_RADIANS, MOST_MILLIONTHS = 0.912, -27.0, 50.0, 0.05, 0.05
NO_FREQUENCY = "the recording's frequency isn't known: give --frequency, or a .sigmf-meta that has it"


class Sense(enum.Enum):
    """On which side of a limit a value passes."""

    AT_LEAST = "at least"
    AT_MOST = "at most"


@dataclass(frozen=True)
class Limit:
    """A limit with the measured value; `left_out` says why nothing could be measured."""

    name: str
    purpose: str
    unit: str
    sense: Sense
    bound: float
    value: float = math.nan
    row: int | None = None  # the Walsh row that has the value
    left_out: str = ""

    @property
    def is_met(self) -> bool:
        """Whether the value is within the limit, or nothing could be measured."""
        if self.left_out:
            return True
        return self.value >= self.bound if self.sense is Sense.AT_LEAST else self.value <= self.bound

    @property
    def line(self) -> str:
        """The limit as a line of text."""
        if self.left_out:
            return f"limit={self.name} verdict=skip: {self.left_out}\n"
        where = "" if self.row is None else f" row={self.row}"
        side = "least" if self.sense is Sense.AT_LEAST else "most"
        unit = f" unit={self.unit}" if self.unit else ""
        verdict = "pass" if self.is_met else "fail"
        return f"limit={self.name} verdict={verdict} value={self.value:.4f} {side}={self.bound:g}{unit}{where}\n"

    @property
    def compared(self) -> str:
        """The value against the limit, in words."""
        where = "" if self.row is None else f", row {self.row}"
        value, bound = (f"{number:.4g} {self.unit}".rstrip() for number in (self.value, self.bound))
        return f"{value}{where}: {self.sense.value} {bound}"

    @property
    def result(self) -> Result:
        """The limit as a result that a machine reads."""
        if self.left_out:
            return Result(self.name, self.purpose, left_out=self.left_out)
        figures = {"value": round(self.value, 6), "limit": self.bound, "unit": self.unit}
        if self.row is not None:
            figures["row"] = self.row
        return Result(self.name, self.purpose, said=() if self.is_met else (self.compared,), figures=figures)


def limits_of(analysis: Analysis, middle: float | None) -> list[Limit]:
    """All limits, with what an analysis shows; `middle` is the frequency of a recording's middle in Hz, if known."""
    return [quality(analysis), unused(analysis), *beside_pilot(analysis), carrier(analysis, middle)]


def quality(analysis: Analysis) -> Limit:
    """The waveform quality: of the pilot if only that is sent, as the standard has it, otherwise of all rows in use."""
    alone = analysis.domain.pilot_only_rho
    purpose = "waveform quality of all rows in use" if alone is None else "waveform quality of the pilot alone"
    return Limit("rho", purpose, "", Sense.AT_LEAST, LEAST_RHO, analysis.rho if alone is None else alone)


def unused(analysis: Analysis) -> Limit:
    """The greatest row that isn't in use."""
    rows = analysis.domain.unused
    limit = Limit("unused", "code domain power of the greatest unused row", "dB", Sense.AT_MOST, MOST_UNUSED_DB)
    if not rows:
        return replace(limit, left_out="all rows are in use")
    return replace(limit, value=rows[0].total_db, row=rows[0].row)


def beside_pilot(analysis: Analysis) -> list[Limit]:
    """The greatest time and the greatest phase of a row in use against the pilot's."""
    rows = [row for row in analysis.domain.used if row.row != PILOT_ROW]
    left_out = "" if rows else "only the pilot is sent"

    def nanoseconds(row: Row) -> float:
        return abs(row.chips) / CHIP_RATE * 1e9

    def radians(row: Row) -> float:
        return abs(math.radians(row.degrees))

    made = []
    for name, unit, bound, measure in (
        ("time", "ns", MOST_NANOSECONDS, nanoseconds),
        ("phase", "rad", MOST_RADIANS, radians),
    ):
        worst = max(rows, key=measure, default=None)
        value, row = (math.nan, None) if worst is None else (measure(worst), worst.row)
        purpose = f"{name} of a row against the pilot's"
        made.append(Limit(name, purpose, unit, Sense.AT_MOST, bound, value, row, left_out))
    return made


def carrier(analysis: Analysis, middle: float | None) -> Limit:
    """Returns the distance of the carrier from its channel's frequency, by the radio's own oscillator."""
    purpose, unit = "carrier against its channel's frequency, by the radio's oscillator", "ppm"
    channel: Channel | None = None
    if analysis.timing is not None and middle is not None:
        sign = -1 if analysis.timing.is_conjugate else 1
        hertz = middle + sign * analysis.timing.carrier_hz
        channel = channel_at(hertz)
    if channel is None:
        why = "a sample file has no carrier" if analysis.timing is None else NO_FREQUENCY
        why = why if middle is None or analysis.timing is None else "the carrier lies on no channel"
        return Limit("carrier", purpose, unit, Sense.AT_MOST, MOST_MILLIONTHS, left_out=why)
    return Limit("carrier", purpose, unit, Sense.AT_MOST, MOST_MILLIONTHS, abs(hertz / channel.hertz - 1) * 1e6)
