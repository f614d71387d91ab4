"""The runs that follow the channels of one cell, all over the same chips."""

from collections.abc import Callable, Iterator, Sequence
from dataclasses import dataclass

from cdma_tools.listening.events import Listener
from cdma_tools.listening.follow_run import Handset
from cdma_tools.listening.pieces import Chips
from cdma_tools.listening.relay import Relay


@dataclass(frozen=True)
class Followed:
    """A handset that follows a channel, and what takes its lines."""

    handset: Handset
    listener: Listener
    is_wanted: Callable[[], bool] = lambda: True  # asked before each piece of chips: if not, its run is ended


class Relays:
    """The relays of channels, each of which gets every piece of chips."""

    def __init__(self, followed: Sequence[Followed], origin: int, overlap: int, seams: Sequence[int]) -> None:
        """Nothing runs yet; see `Relay` for the chips of `origin`, `overlap` and `seams`."""
        self.relays = [(one, Relay(one.handset, one.listener, origin, overlap, seams)) for one in followed]
        for one in followed:
            one.listener.begin(origin)

    def wanted(self) -> Iterator[Relay]:
        """Yields the relays of the channels that are still wanted; ends those of the others."""
        for one, relay in list(self.relays):
            if one.is_wanted():
                yield relay
            else:
                self.relays.remove((one, relay))
                relay.kill()

    def feed(self, chips: Chips) -> None:
        """Gives the next chips to all."""
        for relay in self.wanted():
            relay.feed(chips)

    def feed_zeros(self, count: int) -> None:
        """Notes that `count` chips were lost."""
        for relay in self.wanted():
            relay.feed_zeros(count)

    def poll(self) -> None:
        """Passes on the lines that have come since."""
        for relay in self.wanted():
            relay.poll()

    def break_off(self) -> None:
        """Ends what is under way: what comes is unrelated to it."""
        for relay in self.wanted():
            relay.break_off()

    def finish(self) -> None:
        """Passes on what is left, since no more chips come."""
        for relay in self.wanted():
            relay.finish()

    def kill(self) -> None:
        """Ends everything that is running, without reading more of it."""
        for _, relay in self.relays:
            relay.kill()
