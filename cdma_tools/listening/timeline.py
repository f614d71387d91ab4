"""The timing and the carrier of a stream as successive nodes, between which both are linear.

A node is fitted to the points around its chip when those have come, and never changes afterwards. So chips can be taken
at once, and nothing jumps. Times are in nominal chips of the stream, as those of `radio.front`.
"""

import math
from typing import NamedTuple

import numpy
from numpy.typing import NDArray

from cdma_tools.radio.air import CHIP_RATE
from cdma_tools.radio.tracking import Point

# Chips before a node whose points its delay, and its carrier, are fitted to: a crystal is steady for seconds, but its
# carrier, a thousand times finer in chips, for parts of one.
DELAY_PAST, CARRIER_PAST = 2 * CHIP_RATE, CHIP_RATE
# Points that a parabola needs; fewer get a straight line. Rounds in which points far from the curve lose weight.
POINTS_A_PARABOLA, ROUNDS = 12, 3
# Nodes that are kept: chips are taken between the last two, and a loss looks back on some more.
KEPT = 4


class Node(NamedTuple):
    """A chip's place in time, and the carrier there."""

    chip: float
    offset: float  # its nominal time, less its number
    rate: float  # the carrier in turns a nominal chip
    turns: float  # the carrier's phase
    shift: float  # delay of the instants against the offset, in chips


class Instants(NamedTuple):
    """Instants of chips: their nominal times, the carrier there in turns per nominal chip, and its phase in turns."""

    times: NDArray[numpy.float64]
    rates: NDArray[numpy.float64]
    turns: NDArray[numpy.float64]


def value_at(
    x: NDArray[numpy.float64], y: NDArray[numpy.float64], weights: NDArray[numpy.float64], place: float
) -> float:
    """The value at a place of a robust curve of least squares through points: a parabola, or a line through few."""
    if len(x) == 1:
        return float(y[0])
    span = max(float(numpy.abs(x - place).max()), 1.0)
    base = numpy.vander((x - place) / span, 3 if len(x) >= POINTS_A_PARABOLA else 2, increasing=True)
    robust = numpy.ones(len(x))
    best = numpy.zeros(base.shape[1])
    for _ in range(ROUNDS):
        root = numpy.sqrt(weights * robust)
        best = numpy.linalg.lstsq(base * root[:, None], y * root, rcond=None)[0]
        miss = numpy.abs(y - base @ best)
        scale = max(1.5 * math.sqrt(float(numpy.average(miss**2, weights=weights * robust))), 1e-9)
        robust = 1 / numpy.maximum(1, miss / scale)
    return float(best[0])


class Timeline:
    """The nodes of a stretch of the stream; instants are `shift` chips later than the path that is followed.

    It may be moved from node to node (`instants`); a node keeps the one with which it was added.
    """

    def __init__(self, slope: float, shift: float) -> None:
        """No node yet; a chip lasts 1 + slope as long as there is only one."""
        self.slope, self.shift = slope, shift
        self.nodes: list[Node] = []

    @property
    def last(self) -> Node:
        """The last node."""
        return self.nodes[-1]

    def add(self, chip: float, points: list[Point]) -> None:
        """Adds a node at a chip, by received points around it; the carrier's phase continues from the node before."""
        x = numpy.array([point.chip for point in points])
        weights = numpy.array([point.snr for point in points])
        offsets = numpy.array([point.time + point.late - point.chip for point in points])
        offset = offsets[0] + value_at(x, offsets - offsets[0], weights, chip)
        distances = numpy.abs(x - chip)
        near = distances <= max(float(CARRIER_PAST), float(distances.min()))
        hertz = numpy.array([point.hertz for point in points])
        rate = value_at(x[near], hertz[near], weights[near], chip) / CHIP_RATE
        turns = 0.0
        if self.nodes:
            before = self.last
            late = offset + self.shift - before.offset - before.shift
            turns = before.turns + (rate + before.rate) / 2 * (chip - before.chip + late)
        self.nodes = [*self.nodes[1 - KEPT :], Node(chip, float(offset), rate, turns, self.shift)]

    def at(self, chips: NDArray[numpy.float64]) -> Instants:
        """The instants of chips; outside the nodes clock and carrier stay as they are at the nearest one."""
        nodes = self.nodes
        if len(nodes) == 1:
            only = nodes[0]
            step = 1 + self.slope
            after = Node(only.chip + 1, only.offset + self.slope, only.rate, only.turns + only.rate * step, only.shift)
            nodes = [only, after]
        x, offset, rate, turns, shift = numpy.array(nodes).T
        offset = offset + shift
        number = numpy.clip(numpy.searchsorted(x, chips) - 1, 0, len(x) - 2)
        gap = x[number + 1] - x[number]
        slope = (offset[number + 1] - offset[number]) / gap
        since = chips - x[number]
        inside = numpy.clip(since, 0, gap)
        bend = (rate[number + 1] - rate[number]) * (inside / gap)
        rates = rate[number] + bend
        phase = (rate[number] + bend / 2) * inside + rates * (since - inside)
        times = chips + offset[number] + slope * since
        return Instants(times, rates, turns[number] + phase * (1 + slope))

    def path_times(self, chips: NDArray[numpy.float64]) -> NDArray[numpy.float64]:
        """The nominal times at which chips between the nodes come over the path that is followed, without the shift."""
        return chips + numpy.interp(chips, [node.chip for node in self.nodes], [node.offset for node in self.nodes])

    def time_of(self, chip: float) -> float:
        """The nominal time of one chip."""
        return float(self.at(numpy.array([chip], dtype=float)).times[0])

    def slope_at_end(self) -> float:
        """Returns the excess of a chip's length over a nominal one, between the last two nodes."""
        if len(self.nodes) < 2:
            return self.slope
        before, last = self.nodes[-2:]
        return (last.offset - before.offset) / (last.chip - before.chip)
