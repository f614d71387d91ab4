"""Listening: a stream of samples through the lock and the runs of `follow`, to lines."""

from collections.abc import Sequence
from dataclasses import dataclass

from cdma_tools.listening.events import Listener, Remark
from cdma_tools.listening.follow_run import Handset
from cdma_tools.listening.pieces import Break, Chips, Lost, Piece, Unheard
from cdma_tools.listening.relays import Followed, Relays
from cdma_tools.listening.seams import OVERLAP
from cdma_tools.listening.stream_lock import LockOptions, StreamLock
from cdma_tools.radio.air import CHIP_RATE, PERIOD

# Seconds without a pilot from one remark on it to the next, and from one anchor to the next.
SILENCE, ANCHORS = 60.0, 1.0
# Chips by which a clock may drift while the pilot fades.
MOST_ASTRAY = 4


@dataclass(frozen=True)
class Anchor:
    """A chip's nominal time in the stream, in chips."""

    time: float
    chip: float


# What is searched while no pilot stands out, in words.
SEARCHED = "half of each 2.4 s is searched, and the other half skipped"
SEARCHED_LIVE = "carriers are searched in turn, and samples that arrive during a search are skipped"


class Silence:
    """Seconds without a pilot, reported once a minute."""

    def __init__(self, is_live: bool = False) -> None:
        """Begins with a pilot."""
        self.searched = SEARCHED_LIVE if is_live else SEARCHED
        self.begin: float | None = None
        self.told = self.end = 0.0

    def add(self, begin: float, end: float) -> Remark | None:
        """Takes seconds in which no pilot stands out, and returns a remark about them now and then."""
        self.end = end
        if self.begin is None:
            self.begin = self.told = begin
            return Remark(begin, f"no pilot stands out from here on; {self.searched}")
        if end - self.told < SILENCE:
            return None
        self.told = end
        return Remark(end, f"no pilot has stood out for {end - self.begin:.0f} s")

    def stop(self) -> None:
        """Notes that a pilot is received again."""
        self.begin = None


class Listening:
    """A listening to one stream."""

    def __init__(
        self,
        options: LockOptions,
        handset: Handset,
        listener: Listener,
        since: float = 0.0,
        overlap: int = OVERLAP,
        seams: Sequence[int] = (),
        keeps_anchors: bool = False,
        others: Sequence[Followed] = (),
    ) -> None:
        """Nothing has come yet. Runs begin `since` seconds after the stream's start, and seams are wanted at chips
        counted from there. With `keeps_anchors` an anchor is kept for each second, as a part of a recording needs.
        `others` follow further channels over the same chips; `listener` also takes the remarks on these."""
        self.lock, self.listener = StreamLock(options), listener
        self.followed = (Followed(handset, listener), *others)
        self.since, self.overlap, self.seams = since, overlap, seams
        self.relays: Relays | None = None
        self.keeps_anchors, self.anchors = keeps_anchors, list[Anchor]()
        self.silence = Silence(options.is_live)
        self.is_heard = False  # whether a pilot was

    @property
    def origin(self) -> int:
        """Returns the number of the chip at the stream's start, 0 as long as no pilot was found."""
        return self.lock.origin or 0

    def feed(self, data: bytes) -> None:
        """Takes some bytes of the stream, and passes on the events in them."""
        for piece in self.lock.feed(data):
            self.take(piece)
        if self.relays is not None:
            self.relays.poll()

    def skip(self, samples: int) -> None:
        """Notes that `samples` samples of the stream won't come."""
        for piece in self.lock.skip(samples):
            self.take(piece)

    def finish(self) -> None:
        """Passes on what is left at the end of the stream."""
        for piece in self.lock.finish():
            self.take(piece)
        if self.relays is not None:
            self.relays.finish()
        if self.lock.cut:
            self.say(self.lock.seconds, f"{self.lock.cut} I and Q values were clipped, by bursts")
        if self.lock.ring.damaged:
            self.say(self.lock.seconds, f"{self.lock.ring.damaged} I and Q values were not finite, and count as 0")

    def kill(self) -> None:
        """Ends all that is running."""
        if self.relays is not None:
            self.relays.kill()

    def say(self, seconds: float, text: str) -> None:
        """Makes a remark."""
        self.listener.remark(Remark(seconds, text))

    def take(self, piece: Piece) -> None:
        """Takes what comes out of the lock."""
        if isinstance(piece, Unheard):
            if remark := self.silence.add(piece.begin, piece.end):
                self.listener.remark(remark)
            return
        self.silence.stop()
        self.is_heard = True
        if isinstance(piece, Chips):
            self.take_chips(piece)
        elif isinstance(piece, Lost):
            self.take_loss(piece)
        elif isinstance(piece, Break):
            self.say(piece.seconds, "the pilot was lost, and is received again from here on: a new run begins")
            if self.relays is not None:
                self.relays.break_off()

    def take_loss(self, lost: Lost) -> None:
        """Gives zeros to the runs, and reports the loss, unless it is that of a clock while nothing was received."""
        if lost.chips > MOST_ASTRAY:
            text = (
                f"samples were lost: {lost.chips} chips were replaced by zeros; a loss of {PERIOD} more, or of a"
                " multiple, would look the same until the next sync message"
            )
            self.listener.remark(Remark(lost.seconds, text, lost.chips))
        if self.relays is not None:
            self.relays.feed_zeros(lost.chips)

    def take_chips(self, chips: Chips) -> None:
        """Gives chips to the runs, and keeps an anchor of them now and then."""
        if self.keeps_anchors:
            time, chip = self.lock.instant()
            if not self.anchors or time - self.anchors[-1].time >= ANCHORS * CHIP_RATE:
                self.anchors.append(Anchor(time, chip))
        if self.relays is None:
            if chips.first - self.origin < self.since * CHIP_RATE:
                return
            seams = [self.origin + seam for seam in self.seams]
            self.relays = Relays(self.followed, self.origin, self.overlap, seams)
        self.relays.feed(chips)
