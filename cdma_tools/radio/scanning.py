"""Scanning: many centre frequencies of one recording, and where a pilot stands out."""

from typing import Callable, NamedTuple

import numpy

from cdma_tools.radio.air import CHIP_RATE
from cdma_tools.radio.confirmation import Pilot, first_pilot, parts_beside
from cdma_tools.radio.front import Front, turn
from cdma_tools.radio.search_policy import Step
from cdma_tools.radio.strength import NOTHING, PilotMeter, emptied
from cdma_tools.radio.tracking import SUM

# The usual raster of centre frequencies, in Hz.
RASTER = 1_250_000.0
# Of a channel, in Hz from its middle: the part that must be in the recording on a raster, and with --all. Half of a
# channel shows its pilot 3 dB weaker.
WHOLE, HALF = 614_400.0, 300_000.0
# Parts of the recording at which each centre is tried: two, since a scan is to be quick, and one may lie in a fade. The
# carriers further off are tried at the first.
PARTS = (0.1, 0.6)
# Segments of 13 ms over which Ec/Io is taken: half a second, in which a pilot of -20 dB is known to 0.1 dB.
LEVEL_SEGMENTS = 40
# Neighbouring searches share a tenth, so that no carrier falls between two; two carriers nearer than this are one.
OVERLAP, SAME = 0.9, 1_000.0


class Seen(NamedTuple):
    """What a centre frequency shows; is_pilot says whether it is a pilot."""

    centre: float  # Hz above the middle
    carrier: float  # Hz above the middle
    excess: float
    ec_io: float  # dB
    phase: int  # the code phase at `seconds`
    seconds: float
    is_conjugate: bool
    is_pilot: bool
    sigma: float  # its level above the noise of the chips around that place, in standard deviations
    clock: float  # of the recording's clock, in millionths; positive if it is slow


def raster(rate: float, step: float = RASTER) -> list[float]:
    """Returns the centres of a raster around the middle whose whole channel lies in a recording; the middle is always
    one."""
    most = max(0, int((rate / 2 - WHOLE) / step))
    return [step * number for number in range(-most, most + 1)]


def everywhere(rate: float, search: float) -> list[float]:
    """Returns centres so near to each other that searches of `search` Hz to each side meet every carrier in the width.
    """
    return raster(rate + 2 * (WHOLE - HALF), 2 * search * OVERLAP)


def level_of(pilot: Pilot) -> float:
    """Returns Ec/Io in dB of a confirmed pilot, over the half second near the place, along the line found there."""
    front, found, sure = pilot
    meter, rest = PilotMeter(1 - emptied(front)), found.hertz - front.carrier
    for part in parts_beside(front, found, LEVEL_SEGMENTS):
        count = SUM * part.sums
        begin = found.time + sure.late + part.shift * (1 + sure.slope)
        chips = front.steady(begin, count, 1, sure.slope) * turn(-rest / CHIP_RATE * numpy.arange(count))
        meter.add(found.phase + part.shift, chips)
    return meter.ec_io


def look(front: Front, centre: float, step: Step) -> Seen:
    """Returns what one centre shows in a step of the search."""
    front.set_carrier(centre)
    parts = PARTS if step.is_near else PARTS[:1]
    pilot = first_pilot(front, step.span, step.spectra, parts, step.beyond)
    _, found, sure = pilot
    level = level_of(pilot) if sure.is_pilot else NOTHING
    sign = -1 if found.is_conjugate else 1
    return Seen(
        centre, sign * found.hertz, found.excess, level, found.phase, found.time / CHIP_RATE, found.is_conjugate,
        sure.is_pilot, sure.sigma, sure.clock_ppm,
    )  # fmt: skip


def scan(
    front: Front, centres: list[float], steps: list[Step], tell: Callable[[int], None] = lambda count: None
) -> list[Seen]:
    """Returns what each centre shows in the first step of a search in which a pilot is found, in their order.

    If none is found it is what comes nearest to a pilot at each centre. A pilot that two neighbors see is kept where it
    stands out further.
    """
    best: list[Seen] = []
    for step in steps:
        seen = []
        for centre in centres:
            seen.append(look(front, centre, step))
            tell(1)
        if any(one.is_pilot for one in seen):
            return without_twins(seen)
        best = [max(pair, key=lambda one: one.excess) for pair in zip(best, seen)] if best else seen
    return best


def without_twins(seen: list[Seen]) -> list[Seen]:
    """Returns what centres show, without a pilot that a neighbor sees too, with a greater excess."""
    out: list[Seen] = []
    for one in seen:
        if out and one.is_pilot and out[-1].is_pilot and abs(one.carrier - out[-1].carrier) < SAME:
            if one.excess <= out[-1].excess:
                continue
            out.pop()
        out.append(one)
    return out
