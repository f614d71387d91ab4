"""A run over a traffic channel of rate set 2: `rate2` writes its frames, and `follow` everything else.

Both get the same chips. Their lines are put in order, so a line waits until the other program has written one that was
known as late.
"""

from dataclasses import replace

from cdma_tools.listening.events import Event
from cdma_tools.listening.follow_run import FollowRun, Handset, RunEnded
from cdma_tools.listening.pieces import Chips


class RateTwoRun:
    """Two processes that take the place of one that follows a handset."""

    def __init__(self, handset: Handset, begin: int) -> None:
        """Starts both with a chip; raises Refused if they can't be started."""
        self.handset, self.begin = handset, begin
        self.told: list[Event] = []
        self.guide = FollowRun(replace(handset, esn=None, row=None, offset=0, rate_set=1), begin)
        try:
            self.frames = FollowRun(handset, begin)
        except BaseException:
            self.guide.kill()
            raise
        self.phase: int | None = None

    @property
    def end(self) -> int:
        """Returns the number of the chip after the last one that it has."""
        return self.frames.end

    def feed(self, chips: Chips) -> None:
        """Gives chips to both."""
        self.guide.feed(chips)
        self.frames.feed(chips)

    def poll(self) -> None:
        """Takes the lines that have come."""
        self.guide.poll()
        self.frames.poll()
        self.merge(is_end=False)

    def wait_pilot(self, seconds: float) -> None:
        """Takes lines until the one of the pilot has come, or none has come for `seconds`."""
        self.guide.wait_pilot(seconds)
        self.phase = self.guide.phase

    def wait_past(self, chip: int, seconds: float) -> None:
        """Takes lines until a frame that ended after a chip has come, or none has come for `seconds`."""
        self.frames.wait_past(chip, seconds)
        self.poll()

    def merge(self, is_end: bool) -> None:
        """Passes on lines in their order, of two that were known at the same chip that of `follow` first.

        Before the end a line waits until no line that precedes it can come from the other program.
        """
        while is_end or self.is_next_known():
            told = self.earlier()
            if told is None:
                return
            self.told.append(told.pop(0))

    def earlier(self) -> list[Event] | None:
        """Returns the lines of the program that wrote the earlier one; None if there is none."""
        guided, framed = self.guide.told, self.frames.told
        if not guided or not framed:
            return guided or framed or None
        return guided if guided[0].chip <= framed[0].chip else framed

    def is_next_known(self) -> bool:
        """Whether no line can come any more that precedes the earlier one; none precedes that of the pilot."""
        told = self.earlier()
        if told is None or told[0].chip == self.begin:
            return told is not None
        if told is self.guide.told:
            return self.frames.last is not None and self.frames.last >= told[0].chip
        return self.guide.last is not None and self.guide.last > told[0].chip

    def sets_at(self, _: int) -> None:
        """Returns no pilot sets: no handoff is followed in rate set 2."""

    def close(self) -> None:
        """Gives them no more chips, and takes all lines that are left; raises RunEnded if one failed."""
        faults = []
        for run in (self.guide, self.frames):
            try:
                run.close()
            except RunEnded as ended:
                faults.append(ended)
        self.merge(is_end=True)
        if faults:
            raise faults[0]

    def take_rest(self) -> None:
        """Takes the lines that both have left, one of which has ended."""
        for run in (self.guide, self.frames):
            run.process.kill()
            run.take_rest()
        self.merge(is_end=False)

    def kill(self) -> None:
        """Ends both without reading more of them."""
        self.guide.kill()
        self.frames.kill()
