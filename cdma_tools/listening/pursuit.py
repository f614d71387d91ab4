"""Following a pilot through a stream: as `radio.tracking` does, with two segments by one prediction."""

import numpy
from numpy.typing import NDArray

from cdma_tools.listening.streaming_front import StreamingFront
from cdma_tools.listening.timeline import DELAY_PAST, Timeline
from cdma_tools.radio.acquisition import Found
from cdma_tools.radio.air import CHIP_RATE, PERIOD, short_code
from cdma_tools.radio.fitting import Fit
from cdma_tools.radio.front import GUARD
from cdma_tools.radio.second_pass import ramps
from cdma_tools.radio.tracking import CLOSE, EVERY, REACH, SEGMENT, SUM, SUMS, Point, Tracker

# Chips from one point to the next once the first ones are there: 53 ms.
STRIDE = EVERY * SEGMENT
# Points that are taken by one prediction.
TOGETHER = 2
# Chips before a place whose points still count there.
KEPT = DELAY_PAST + STRIDE
# Points before a loss to which the timing is fitted.
POINTS_A_LOSS = 24
# The pilot's code, conjugate, twice: a segment is a part of it wherever it begins.
CODE_TWICE = numpy.concatenate([short_code(), short_code()]).conj()


class Pursuit(Tracker):
    """The points from one place found on, and the timing fitted to them."""

    def __init__(self, front: StreamingFront, found: Found, clock: float) -> None:
        """Begins at the place found, where the delay has the slope `clock`."""
        super().__init__(front, found, 1, clock, lambda _: None)
        self.streaming = front
        self.next = found.phase  # the first chip of the next segment
        self.heard = float(found.phase)  # the chip after the last received segment
        self.taken = 0
        self.timeline: Timeline | None = None  # there once the instants are chosen

    @property
    def unheard(self) -> float:
        """Returns the number of chips for which the pilot hasn't been received."""
        return self.next - self.heard

    @property
    def first_node(self) -> float:
        """The chip of the first node: nodes are as far apart as steps, and so each step has the last point of one."""
        return self.points[0].chip - (TOGETHER - 1) * STRIDE

    def due(self) -> NDArray[numpy.int64]:
        """The first chips of the segments that are taken next: one by one at first, then two of every eight."""
        if self.taken < CLOSE:
            return numpy.array([self.next])
        return self.next + STRIDE * numpy.arange(TOGETHER)

    def needed(self) -> float:
        """The nominal time up to which samples have to be there for the next step."""
        last = float(self.due()[-1] + SEGMENT)
        return self.expected(last)[0] + REACH + 2 * GUARD + self.front.chips

    def step(self) -> None:
        """Takes the segments that are due."""
        chips = self.due()
        told = [self.expected(float(chip) + SEGMENT / 2) for chip in chips]
        slope = told[0][2]
        begins = numpy.array([time for time, *_ in told]) - (1 + slope) * SEGMENT / 2
        rests = numpy.array([hertz for *_, hertz in told]) - self.front.carrier
        halves = self.streaming.segments(begins - REACH / 2, 2 * (SEGMENT + REACH), 2, slope)
        sums = self.sums_of(halves, chips, rests)
        prompt = halves[:, REACH : REACH + 2 * SEGMENT : 2]
        for row, (chip, (time, late, _, hertz)) in enumerate(zip(chips, told)):
            power = float(numpy.vdot(prompt[row], prompt[row]).real) / SEGMENT
            self.take(float(chip) + SEGMENT / 2, time, late, hertz, sums[row], power)
            self.taken += 1
            if self.points[-1].snr:
                self.heard = float(chip) + SEGMENT
        self.next = int(chips[-1]) + (SEGMENT if self.taken < CLOSE else STRIDE)

    def sums_of(
        self, halves: NDArray[numpy.complex64], chips: NDArray[numpy.int64], rests: NDArray[numpy.float64]
    ) -> NDArray[numpy.complex64]:
        """The pilot's sums of segments, of shape (segments, 2 REACH + 1, SUMS)."""
        sides = [numpy.ascontiguousarray(halves[:, side::2]) for side in (0, 1)]
        code = ramps(numpy.zeros(len(chips)), -rests / CHIP_RATE, SEGMENT)
        for row, chip in zip(code, chips):
            row *= CODE_TWICE[int(chip) % PERIOD :][:SEGMENT]
        parts = code.reshape(len(chips), SUMS, SUM)
        sums = numpy.empty((len(chips), 2 * REACH + 1, SUMS), dtype=numpy.complex64)
        for delay in range(2 * REACH + 1):
            part = sides[delay % 2][:, delay // 2 :][:, :SEGMENT].reshape(len(chips), SUMS, SUM)
            sums[:, delay] = numpy.matmul(part[:, :, None, :], parts[:, :, :, None])[:, :, 0, 0]
        return sums

    def heard_points(self, chip: float) -> list[Point]:
        """Returns the received points that count at a chip, the last received one if there is none."""
        heard = [point for point in self.points if point.snr]
        return [point for point in heard if point.chip > chip - KEPT] or heard[-1:]

    def add_node(self, chip: float) -> None:
        """Adds a node at a chip to the timing."""
        assert self.timeline is not None
        self.timeline.add(float(chip), self.heard_points(chip))

    def forget(self, chip: float) -> None:
        """Forgets points that no longer count from a chip on."""
        while len(self.points) > CLOSE and self.points[0].chip < chip - KEPT:
            self.points.pop(0)

    def fit(self, has_equaliser: bool, fingers: int) -> Fit:
        """Returns a fit of all points, as the lock of a whole file makes it, with instants for `fingers` fingers."""
        return Fit(self.front.carrier, self.points, has_equaliser, fingers)

    def fit_at_loss(self, has_equaliser: bool, fingers: int) -> Fit:
        """Returns a fit of the last points that were received."""
        heard = [point for point in self.points if point.snr][-POINTS_A_LOSS:]
        return Fit(self.front.carrier, heard, has_equaliser, fingers)

    def renumber(self, more: int) -> None:
        """Adds to the numbers of all chips."""
        self.found = self.found._replace(phase=self.found.phase + more)
        self.next, self.heard = self.next + more, self.heard + more
        self.points = [point._replace(chip=point.chip + more) for point in self.points]
        for line in (self.lates, self.carriers):
            line.points = [(x + more, y, weight) for x, y, weight in line.points]
