"""Points, their batches in order, and when a point has enough.

A point is a sequence of batches, 0, 1, 2 and so on. The rule that ends it looks at them in this order, whatever the
order in which they are done: so what a point counts is the same for any number of workers. Batches after the one
that ends the point may have been done too; they aren't counted.
"""

import dataclasses
from decimal import Decimal
from typing import Iterator, Mapping, Sequence

from cdma_tools.curves.counting import Count, Counts
from cdma_tools.errors import Refused

MOST_POINTS = 1_000


def points_of(begin: Decimal, end: Decimal, step: Decimal) -> list[int]:
    """The points from one Eb/Nt to another by a step, in thousandths of a decibel."""
    thousandths = [value * 1_000 for value in (begin, end, step)]
    if any(value != value.to_integral_value() for value in thousandths):
        raise Refused("--from, --to and --step may have at most three decimal places")
    first, last, width = (int(value) for value in thousandths)
    if width <= 0:
        raise Refused("--step must be above 0")
    if last < first:
        raise Refused("--to is below --from")
    found = list(range(first, last + 1, width))
    if len(found) > MOST_POINTS:
        raise Refused(f"{len(found)} points, more than {MOST_POINTS}")
    return found


def is_frames(channel: str) -> bool:
    """Whether a channel of counts has frames, and no messages."""
    return channel.startswith("frame")


def totals(batches: Sequence[Sequence[Counts]]) -> list[Counts]:
    """The sums of each curve's counts over batches."""
    sums: list[Counts] = [{} for _ in (batches[0] if batches else ())]
    for batch in batches:
        for total, counts in zip(sums, batch):
            for channel, count in counts.items():
                total.setdefault(channel, Count()).add(count)
    return sums


@dataclasses.dataclass(frozen=True)
class Rule:
    """When a point is complete: at a number of frames, or when each curve has a number of errors of frames."""

    frames: int
    errors: int

    def is_met(self, sums: Sequence[Counts]) -> bool:
        """Whether the sums of the curves are enough."""
        frames = [sum(count.sent for name, count in counts.items() if is_frames(name)) for counts in sums]
        errors = [sum(count.errors() for name, count in counts.items() if is_frames(name)) for counts in sums]
        return min(frames) >= self.frames or min(errors) >= self.errors

    def length(self, done: Mapping[int, Sequence[Counts]]) -> int | None:
        """Returns the number of batches of a point that are counted, None if those that are done, in order, aren't
        enough."""
        sums: list[Counts] = []
        batch = 0
        while batch in done:
            sums = totals([sums, done[batch]]) if sums else totals([done[batch]])
            batch += 1
            if self.is_met(sums):
                return batch
        return None


Done = dict[int, dict[int, list[Counts]]]


@dataclasses.dataclass
class Ledger:
    """Progress of a run: `done` has each point's batches, `most` the greatest number that a point can need."""

    points: list[int]
    rule: Rule
    most: int
    done: Done

    def is_closed(self, point: int) -> bool:
        """Whether a point has enough."""
        return self.rule.length(self.done.get(point, {})) is not None

    def take(self, point: int, batch: int, counts: list[Counts]) -> None:
        """Takes a batch that is done."""
        self.done.setdefault(point, {})[batch] = counts

    def wanted(self) -> Iterator[tuple[int, int]]:
        """The batches that aren't done of the points that are open, in the order in which they are needed."""
        for point in self.points:
            if not self.is_closed(point):
                done = self.done.get(point, {})
                yield from ((point, batch) for batch in range(self.most) if batch not in done)

    def left(self) -> int:
        """Returns the number of batches that may still be needed."""
        is_open = [point for point in self.points if not self.is_closed(point)]
        return sum(self.most - sum(batch < self.most for batch in self.done.get(point, {})) for point in is_open)

    def counted(self, point: int) -> list[Counts] | None:
        """The sums of a point that has enough, curve by curve."""
        done = self.done.get(point, {})
        length = self.rule.length(done)
        return None if length is None else totals([done[batch] for batch in range(length)])
