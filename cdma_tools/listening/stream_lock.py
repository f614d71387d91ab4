"""A lock that streams: bytes of a recording come in, chips at one a sample come out, some tenths of a second later.

    lock = StreamLock(LockOptions("cu8", 2.4e6))
    for data in source:
        for piece in lock.feed(data):
            ...
    for piece in lock.finish():
        ...

A pilot is searched in 1.2 seconds of samples. Its instants, the phase equaliser and the scale are chosen 0.9 seconds
after that; from there on chips come as their nodes do (`timeline`), and the instants are moved slowly to where all that
was heard has them (`instants`). Everything is done at places that are counted in chips or in samples, so the chips
don't depend on how the bytes are cut.
"""

import math
from dataclasses import dataclass
from enum import Enum, auto
from typing import Generator, Iterator

import numpy
from numpy.typing import NDArray

from cdma_tools.listening.instants import Instants
from cdma_tools.listening.pieces import Break, Chips, Lost, Piece, Unheard
from cdma_tools.listening.pursuit import STRIDE, TOGETHER, Pursuit
from cdma_tools.listening.ring import Ring
from cdma_tools.listening.searching import PAUSE, WINDOW, LiveSearch, SearchNear, SearchTurns, code_steps, first_pilot
from cdma_tools.listening.streaming_front import AT_ONCE, StreamingFront
from cdma_tools.listening.timeline import Timeline
from cdma_tools.radio.air import CHIP_RATE, PERIOD
from cdma_tools.radio.fitting import EQUALISED, equaliser_gain
from cdma_tools.radio.front import GUARD
from cdma_tools.radio.gaps import part_ways
from cdma_tools.radio.search_policy import SearchPolicy
from cdma_tools.radio.second_pass import ROOT_MEAN_SQUARE, ramps, whole_parts
from cdma_tools.radio.tracking import CLOSE

# Chips from one node of the timing to the next, 107 ms, and those after a node whose points it waits for.
NODE, LOOK_AHEAD = 2 * STRIDE, 2 * STRIDE
# Chips after the place found, whose points choose the instants, the equaliser and the scale; and the received points
# without which there was no pilot, there and after a loss.
SETTLE, LEAST_POINTS, LEAST_AGAIN = int(0.9 * CHIP_RATE), 8, 4
# Chips without the pilot after which it is searched near by, and after which the search restarts.
MISSED, GONE = CHIP_RATE // 4, 2 * CHIP_RATE
# Hz by which the carrier may differ from the filter's middle before the filter is centred again: two bins of the front.
MOST_OFF = 2_500.0
# Chips at the stream's beginning and end that the filter needs.
EDGE = 8
# Samples before a search that its filter reads, in blocks.
BLOCKS_BEFORE = 2


@dataclass(frozen=True)
class LockOptions:
    """Options of a lock that streams."""

    kind: str
    rate: float  # samples a second
    fingers: int = 1  # of the receiver, for which the instants are chosen
    shift: float = 0.0  # Hz around which the first carrier is searched
    search: float | None = None  # Hz to each side; None for those of the policy
    conjugate: str = "try"  # whether the spectrum is inverted: yes, no, try
    equaliser: str = "try"  # whether the base station sends through its phase equaliser
    is_live: bool = False  # whether samples arrive in real time, and a search must keep up

    @property
    def policy(self) -> SearchPolicy:
        """Where the pilot is searched."""
        return SearchPolicy(self.search, self.conjugate)


class State(Enum):
    """What a lock is doing."""

    SEARCHING = auto()  # for any pilot
    SETTLING = auto()  # a pilot is followed, its instants aren't chosen yet
    FOLLOWING = auto()
    MISSING = auto()  # the pilot was lost, and is searched near by
    RETURNING = auto()  # it is received again, so far at too few points


class StreamLock:
    """The lock of one stream."""

    def __init__(self, options: LockOptions) -> None:
        """A lock that has received nothing yet."""
        self.options = options
        self.ring = Ring(options.kind, options.rate)
        # Points are taken without the inverse of the phase equaliser, whose delay would look like the clock's.
        self.front, self.chip_front = StreamingFront(self.ring), StreamingFront(self.ring)
        self.state = State.SEARCHING
        self.centre, self.turns = options.shift, SearchTurns(options.policy)
        self.live = LiveSearch(options.policy.span, options.policy.spectra) if options.is_live else None
        self.place = 0  # the sample from which a search looks
        self.has_equaliser: bool | None = {"yes": True, "no": False}.get(options.equaliser)
        self.scale = 0.0
        self.instants: Instants | None = None  # there once a pilot is followed
        self.cut = 0  # parts that were cut at the ends of the range
        self.out = 0  # the number of the next chip
        self.origin: int | None = None  # the number of the chip at the stream's start
        self.pursuit: Pursuit | None = None
        self.missing: SearchNear | None = None  # the pilot that was lost
        self.is_gone = False  # whether `missing` is searched again

    @property
    def now(self) -> float:
        """Returns the nominal time up to which samples have come, in chips."""
        return self.ring.count / self.front.ratio

    @property
    def seconds(self) -> float:
        """The seconds of the stream that came in."""
        return self.ring.count / self.ring.rate

    def instant(self) -> tuple[float, float]:
        """The nominal time and the number of the chip at the last node of the pilot that is followed, or was last."""
        followed = [self.pursuit, self.missing.lost if self.missing else None]
        timeline = next(one.timeline for one in followed if one is not None and one.timeline is not None)
        return timeline.time_of(timeline.last.chip), timeline.last.chip

    def feed(self, data: bytes) -> Iterator[Piece]:
        """Yields the pieces that some bytes bring; about a tenth of a second of them is best."""
        self.ring.add(data)
        yield from self.work(False)

    def finish(self) -> Iterator[Piece]:
        """Yields the pieces that are left at the stream's end."""
        yield from self.work(True)
        yield from self.let_out()

    def let_out(self) -> Iterator[Piece]:
        """Yields all chips that the samples so far give."""
        if self.state == State.SETTLING and self.heard_enough(LEAST_POINTS):
            yield from self.settle()
        if self.state == State.FOLLOWING:
            yield from self.emit_rest()
        elif self.state in (State.MISSING, State.RETURNING):
            assert self.missing is not None
            yield from self.emit_before_loss(self.missing.lost, int(self.missing.lost.heard))

    def skip(self, count: int) -> Iterator[Piece]:
        """Leaves out `count` samples, which came and couldn't be kept; a pilot is searched again after them."""
        yield from self.let_out()
        if self.state == State.FOLLOWING:
            self.miss()
        if self.state in (State.MISSING, State.RETURNING):
            self.give_up()
        self.state, self.pursuit = State.SEARCHING, None
        self.ring.skip(count)
        self.place = self.ring.count

    def work(self, is_end: bool) -> Iterator[Piece]:
        """Does all steps for which the samples have come."""
        while True:
            if self.state == State.SEARCHING:
                if not (yield from self.search(is_end)):
                    return
            elif self.state == State.MISSING:
                if not (yield from self.search_near()):
                    return
            else:
                assert self.pursuit is not None
                if self.pursuit.needed() > self.now:
                    return
                self.pursuit.step()
                yield from self.after_step()

    # Searches

    def search(self, is_end: bool) -> Generator[Piece, None, bool]:
        """Looks for a pilot in the next second of samples; returns False if more of them must come first."""
        ratio = self.front.ratio
        count, there = int(WINDOW * ratio), self.ring.count - self.place
        if is_end and 2 * PERIOD * ratio < there < count:
            count = there
        if there < count:
            self.ring.drop(min(self.place, self.ring.count) - BLOCKS_BEFORE * self.front.samples)
            return False
        if self.live is not None:
            start = self.live.first_pilot(self.ring, self.place, count, self.centre)
        else:
            tried = (first_pilot(self.ring, self.place, count, self.centre, step) for step in self.turns.next())
            start = next((found for found in tried if found is not None), None)
        if start is None:
            yield from self.pause(count)
            return True
        for front in (self.front, self.chip_front):
            front.set_carrier(start.found.hertz)
        self.turns.heard()
        self.centre = start.found.hertz
        if self.live is not None:
            self.live = LiveSearch(self.turns.near.span, (False,))
        self.pursuit, self.state = Pursuit(self.front, start.found, start.clock), State.SETTLING
        return True

    def pause(self, count: int) -> Iterator[Piece]:
        """Reports that no pilot stands out in `count` samples from the place of the search on, and moves that on.

        In a live stream it moves on by what came while it was searched, and in a file always by as much.
        """
        begin = self.place
        if self.live is None:
            self.place += int(PAUSE * self.front.ratio)
        else:
            self.place += max(count, int(self.live.seconds * self.ring.rate))
        self.ring.drop(begin + count)
        yield Unheard(begin / self.ring.rate, self.place / self.ring.rate)

    def search_near(self) -> Generator[Piece, None, bool]:
        """Looks for the pilot that was lost at the next place; returns False if more samples must come first."""
        assert self.missing is not None
        if self.missing.needed() > self.now:
            return False
        found = self.missing.attempt()
        if found is not None:
            self.pursuit = Pursuit(self.front, found, self.missing.slope)
            self.state = State.RETURNING
        elif self.missing.place - self.missing.since > GONE:
            yield from self.emit_before_loss(self.missing.lost, int(self.missing.lost.heard))
            self.give_up()
        return True

    def give_up(self) -> None:
        """Searches the pilot again from here on, at all carriers."""
        assert self.missing is not None
        self.is_gone, self.state, self.pursuit = True, State.SEARCHING, None
        self.place = max(int(self.missing.place * self.front.ratio), self.ring.keep)

    def miss(self) -> None:
        """The pilot is lost: from here on it is searched near by."""
        assert self.pursuit is not None
        self.missing = SearchNear(self.front, self.pursuit)
        self.state, self.pursuit = State.MISSING, None

    # What follows a step

    def after_step(self) -> Iterator[Piece]:
        """Yields what the last points bring."""
        assert self.pursuit is not None
        if self.state == State.SETTLING and self.pursuit.next - self.pursuit.found.phase >= SETTLE:
            yield from self.settle() if self.heard_enough(LEAST_POINTS) else self.drop_start()
        elif self.state == State.RETURNING and self.pursuit.taken >= CLOSE:
            if self.heard_enough(LEAST_AGAIN):
                yield from self.join()
            else:
                self.state, self.pursuit = State.MISSING, None
        if self.state != State.FOLLOWING or self.pursuit is None:
            return
        if self.pursuit.unheard > MISSED:
            self.miss()
        elif self.pursuit.unheard <= STRIDE:
            yield from self.extend()

    def heard_enough(self, least: int) -> bool:
        """Whether the pilot was received at `least` points or more."""
        return self.pursuit is not None and sum(1 for point in self.pursuit.points if point.snr) >= least

    def drop_start(self) -> Iterator[Piece]:
        """Drops a pilot that seemed to stand out and couldn't be followed, and searches further on."""
        self.state, self.pursuit = State.SEARCHING, None
        yield from self.pause(int(WINDOW * self.front.ratio))

    def settle(self) -> Iterator[Piece]:
        """Chooses the instants, the equaliser and the scale by the first points."""
        pursuit = self.pursuit
        assert pursuit is not None
        if self.is_gone:
            yield self.resume(pursuit)
        if self.has_equaliser is None:
            self.has_equaliser = equaliser_gain(pursuit.points) > EQUALISED
        self.chip_front.set_filter(self.has_equaliser)
        power = float(numpy.mean([point.power for point in pursuit.points]))
        self.scale = ROOT_MEAN_SQUARE[1] / math.sqrt(max(power, 1e-30))
        fit = pursuit.fit(self.has_equaliser, self.options.fingers)
        self.instants = Instants(fit, self.has_equaliser, self.options.fingers)
        first = pursuit.first_node
        pursuit.timeline = Timeline(float(fit.offset.derivative(first)), fit.shift)
        pursuit.add_node(first)
        if self.origin is None:
            slope, time = pursuit.timeline.slope, pursuit.timeline.time_of(first)
            self.origin = math.floor(first - time / (1 + slope))
            # The first chip whose whole pulse lies in the samples that were searched.
            begin = self.place / self.front.ratio + EDGE
            self.out = math.ceil(first + (begin - time) / (1 + slope))
        self.state = State.FOLLOWING

    def resume(self, pursuit: Pursuit) -> Break:
        """Renumbers a pilot that was found again: its chips follow the old ones, by the clock and the code's phase."""
        assert self.missing is not None
        chip = self.missing.chip_at(pursuit.found.time)
        pursuit.renumber(chip + code_steps(pursuit.found.phase, chip) - pursuit.found.phase)
        self.missing, self.is_gone = None, False
        self.out = max(self.out, pursuit.found.phase)
        return Break(self.out, pursuit.found.time / CHIP_RATE)

    def extend(self) -> Iterator[Piece]:
        """Adds the nodes whose points have come, and yields the chips up to each."""
        pursuit = self.pursuit
        assert pursuit is not None and pursuit.timeline is not None and self.instants is not None
        last = pursuit.points[-1].chip - LOOK_AHEAD
        while pursuit.timeline.last.chip + NODE <= last:
            pursuit.add_node(pursuit.timeline.last.chip + NODE)
            yield from self.emit(pursuit.timeline, int(pursuit.timeline.last.chip), False)
            self.instants.add(pursuit.points, pursuit.timeline)
            pursuit.timeline.shift = self.instants.next(pursuit.timeline.shift)
        pursuit.forget(pursuit.timeline.last.chip)
        hertz = pursuit.timeline.last.rate * CHIP_RATE
        if abs(hertz - self.front.carrier) > MOST_OFF:
            for front in (self.front, self.chip_front):
                front.set_carrier(hertz)
            self.centre = hertz

    # Losses

    def join(self) -> Iterator[Piece]:
        """After a loss: finds where the one timing ends and the other begins, and what was lost between."""
        assert self.missing is not None and self.pursuit is not None and self.has_equaliser is not None
        lost, new = self.missing.lost, self.pursuit
        assert lost.timeline is not None
        before = lost.fit_at_loss(self.has_equaliser, self.options.fingers)
        after = new.fit(self.has_equaliser, self.options.fingers)
        before.shift = after.shift = lost.timeline.shift
        end, begin = part_ways(self.chip_front, before, after)
        yield from self.emit_before_loss(lost, end)
        new.timeline = Timeline(self.missing.slope, lost.timeline.shift)
        new.add_node(new.first_node)
        if begin > self.out:
            yield Lost(self.out, begin - self.out, float(before.times(end)) / CHIP_RATE)
        self.out, self.missing, self.state = max(begin, self.out), None, State.FOLLOWING

    def emit_before_loss(self, lost: Pursuit, end: int) -> Iterator[Piece]:
        """The chips of a lost pilot up to one, by nodes up to there."""
        assert lost.timeline is not None
        while lost.timeline.last.chip + NODE <= lost.heard:
            lost.add_node(lost.timeline.last.chip + NODE)
        yield from self.emit(lost.timeline, end, True)

    # Chips

    def emit_rest(self) -> Iterator[Piece]:
        """Yields the last chips of the stream, as far as their pulses have come and the pilot was received."""
        pursuit = self.pursuit
        assert pursuit is not None and pursuit.timeline is not None
        last = pursuit.points[-1].chip
        if last > pursuit.timeline.last.chip:
            pursuit.add_node(last)
        node, slope = pursuit.timeline.last, pursuit.timeline.slope_at_end()
        end = node.chip + (self.now - EDGE - pursuit.timeline.time_of(node.chip)) / (1 + slope)
        end = min(end, pursuit.heard + (TOGETHER + 2) * STRIDE)
        yield from self.emit(pursuit.timeline, math.floor(end), True)

    def emit(self, timeline: Timeline, end: int, is_last: bool) -> Iterator[Piece]:
        """Chips up to `end`, whole blocks of them unless it is the last time."""
        hop = self.chip_front.hop
        while self.out < end:
            rows = min(AT_ONCE, (end - self.out) // hop)
            if not rows:
                if not is_last:
                    break
                rows = 1
            chips = self.chips(timeline, rows)
            parts, cut = whole_parts(chips.reshape(-1)[: end - self.out], 1.0, 1)
            self.cut += cut
            piece = Chips(self.out, parts.tobytes())
            self.out = piece.end
            yield piece
        needed = timeline.time_of(self.out) - BLOCKS_BEFORE * self.front.chips
        self.ring.drop(int(needed * self.front.ratio))

    def chips(self, timeline: Timeline, rows: int) -> NDArray[numpy.complex64]:
        """Rows of chips from the next one on, at their instants, without carrier and scaled."""
        front, hop = self.chip_front, self.chip_front.hop
        middles = self.out + hop * (numpy.arange(rows) + 0.5)
        times, rates, turns = timeline.at(middles)
        coarse = front.carrier / CHIP_RATE
        rates, turns = rates - coarse, turns - coarse * times
        blocks = front.blocks(times - front.chips / 2, 1)
        turned = ramps(rates * (hop / 2) - turns, -rates, hop)
        turned *= numpy.float32(self.scale)
        return blocks[:, GUARD : GUARD + hop] * turned
