"""From the antenna on: a cell's samples over a radio's link, and the lock that makes a sample file from them again.

A recording is made as `channel` makes one, and locked to as `import_capture --lock` does it, without knowledge of the
link. The truth of the recording then gives the place of the script's samples in the lock's file: by the code's phase of
the first chip, and by its time.
"""

import contextlib
import dataclasses
import io
import os
import tempfile
from collections.abc import Collection, Sequence

from cdma_tools.curves.counting import Span
from cdma_tools.curves.levels import AirKind
from cdma_tools.errors import Refused
from cdma_tools.radio.air import CHIP_RATE, PERIOD
from cdma_tools.radio.channel import Cell, Link, Path, Radio, record
from cdma_tools.radio.locking import START_PART, START_SECONDS, Locked, Options, lock

# Seconds after the last place at which a lock begins by its own choice: a later beginning is a pilot that was lost.
LATE = 0.02
# Samples at the end of a recording that a lock doesn't write: its filter's length.
LOCK_EDGE = 32
FOREVER = 1 << 62


@dataclasses.dataclass(frozen=True)
class Antenna:
    """A link and a radio, and the options that name them, as they were given."""

    text: str
    paths: tuple[Path, ...]
    radio: Radio

    def gains(self) -> list[float]:
        """The mean power gain of each path."""
        return [abs(path.gain) ** 2 for path in self.paths]

    def kind(self) -> AirKind:
        """Returns whether its paths are steady, or only one fades, or several."""
        if not any(path.doppler for path in self.paths):
            return AirKind.WHITE
        return AirKind.RAYLEIGH if len(self.paths) == 1 else AirKind.FADING


@dataclasses.dataclass(frozen=True)
class Caught:
    """Result of a lock to a recording: a sample file, and the place of the script's samples in it.

    `begin` is the script's sample that comes first, `length` the number of samples that the recording has from there
    on, and `unheard` the spans of samples for which the lock found no pilot. `is_late` is set if one is before the
    first.
    """

    data: bytes
    begin: int
    length: int
    unheard: tuple[Span, ...]
    is_late: bool


def chips_before(radio: Radio, seconds: float) -> float:
    """The cell's chip at a time of the recording, by the truth."""
    sample = seconds * float(radio.rate)
    true = (sample + sum(count for place, count in radio.losses if place < sample)) / float(radio.rate)
    return true * CHIP_RATE * (1 + 1e-6 * (radio.clock + radio.clock_drift * true / 2)) + radio.delay


def first_sample(radio: Radio, found: Locked, phase: int) -> int:
    """Returns the script's sample that a lock wrote first, by the code phase of the script's first sample."""
    near = round(chips_before(radio, found.begin))
    return near + (found.phase - phase - near + PERIOD // 2) % PERIOD - PERIOD // 2


def caught_of(radio: Radio, found: Locked, phase: int, data: bytes) -> Caught:
    """Returns the result of a lock that found this."""
    pace = CHIP_RATE * (1 + 1e-6 * radio.clock)
    unheard, lost = [], 0
    for gap in found.gaps:
        begin = round((gap.seconds - found.begin) * pace) + lost
        unheard.append((begin, begin + gap.chips))
        lost += gap.chips
    length = round((found.seconds - found.begin) * pace) + lost - LOCK_EDGE
    latest = min(START_SECONDS, START_PART * found.seconds) + LATE
    edges = ((-FOREVER, 0), (found.chips, FOREVER))
    return Caught(
        data, max(0, first_sample(radio, found, phase)), length, (*unheard, *edges), found.begin > latest
    )


def record_to(path: str, antenna: Antenna, cells: Sequence[bytes], noise: float, seed: int) -> int:
    """Records cells' sample files in noise of so much power a chip; the code phase of the first cell's first sample."""
    for number, data in enumerate(cells):
        with open(f"{path}.{number}", "wb") as file:
            file.write(data)
    link = Link([Cell(f"{path}.{number}") for number in range(len(cells))], list(antenna.paths), seed)
    link.noise = noise
    with contextlib.closing(link), open(path, "wb") as file:
        record(link, antenna.radio, link.cells[0].count, file)
    return link.cells[0].phase


def caught(
    antenna: Antenna, cells: Sequence[bytes], noise: float, seed: int, flags: int, fingers: Collection[int]
) -> dict[int, Caught | Refused]:
    """Returns the locks to a recording by the number of the receivers' fingers, or why one is refused."""
    radio, made = antenna.radio, dict[int, Caught | Refused]()
    with tempfile.TemporaryDirectory(prefix="curve-") as folder:
        path = os.path.join(folder, "recording")
        phase = record_to(path, antenna, cells, noise, seed)
        for count in fingers:
            file = io.BytesIO()
            try:
                found = lock(path, Options(radio.kind, radio.rate, fingers=count, flags=flags), file)
            except Refused as why:
                made[count] = why
            else:
                made[count] = caught_of(radio, found, phase, file.getvalue())
    return made
