"""Frequencies at which base stations send: the channels of the two bands (7.1.1.1), and the options that name one."""

import argparse
from dataclasses import dataclass
from typing import NamedTuple

from cdma_tools.arguments import Within, decimal, whole_within

# Hz by which a carrier may differ from a channel's middle: 5 millionths at 1.9 GHz.
NEAR = 10_000.0
MOST_FREQUENCY, MOST_CHANNEL = 4_294_967_295, 1_199
FREQUENCY_OPTIONS = ("frequency", "channel", "band")


@dataclass(frozen=True)
class ChannelRange:
    """A range of channels: its band in MHz, the least number and the greatest one, the Hz of number 0, and the step."""

    band: int
    least: int
    greatest: int
    zero: int
    step: int

    def hertz(self, number: int) -> float:
        """The frequency of a channel's middle."""
        return float(self.zero + self.step * number)


RANGES = (
    ChannelRange(800, 1, 799, 870_000_000, 30_000),
    ChannelRange(800, 991, 1_023, 870_000_000 - 1_023 * 30_000, 30_000),
    ChannelRange(1900, 0, 1_199, 1_930_000_000, 50_000),
)
BANDS = tuple(sorted({str(part.band) for part in RANGES}, key=int))


class Channel(NamedTuple):
    """A channel of the standard: its number, and the frequency of its middle in Hz."""

    number: int
    hertz: float


def channel_at(hertz: float) -> Channel | None:
    """Returns the channel whose middle is a base station's carrier, None if there is none."""
    for part in RANGES:
        number = round((hertz - part.zero) / part.step)
        if part.least <= number <= part.greatest and abs(part.hertz(number) - hertz) <= NEAR:
            return Channel(number, part.hertz(number))
    return None


def channel_hertz(number: int, band: int) -> float | None:
    """The frequency in Hz at which a base station sends a channel of a band; None if the band has no such channel."""
    found = (part for part in RANGES if part.band == band and part.least <= number <= part.greatest)
    return next((part.hertz(number) for part in found), None)


def add_frequency_options(words: argparse._ActionsContainer, what: str) -> None:
    """Adds --frequency, and --channel with --band instead of it; `what` says what lies there."""
    words.add_argument("--frequency", type=Within(decimal, 0, MOST_FREQUENCY), metavar="HZ", help=f"{what}, in Hz")
    words.add_argument(
        "--channel", type=whole_within(0, MOST_CHANNEL), metavar="N", help=f"{what}: channel N of the standard"
    )
    words.add_argument("--band", choices=BANDS, help="the band of --channel in MHz, default 800")


def frequency_fault(options: argparse.Namespace) -> str:
    """Returns what is wrong with the options that name a frequency, empty if they go together."""
    if options.channel is None:
        return "--band needs --channel" if options.band is not None else ""
    if options.frequency is not None:
        return "--frequency and --channel can't both be given"
    band = int(options.band or BANDS[0])
    return "" if channel_hertz(options.channel, band) is not None else f"band {band} has no channel {options.channel}"


def frequency_given(options: argparse.Namespace) -> float | None:
    """The frequency in Hz that the options name; None if they name none."""
    if options.channel is None:
        return None if options.frequency is None else float(options.frequency)
    return channel_hertz(options.channel, int(options.band or BANDS[0]))
