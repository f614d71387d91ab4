"""Eb/Nt of a channel at a level of noise, as the minimum performance standard of mobile stations (TIA/EIA-98) has it.

Powers are energies a chip, of both branches together. A channel of gain g over a path of factor h brings 2 |h|² g² a
chip, and white noise of standard deviation sigma on each branch 2 sigma². Rounding to whole numbers adds 1/12 to each
branch. A sample is a chip, so the noise's power a chip is its spectral density.
"""

import dataclasses
import enum
import math
from collections.abc import Sequence

from scipy.optimize import brentq

from cdma_tools.errors import Refused
from cdma_tools.scripts import SYNC_ROW, Script, Traffic

CHIP_RATE = 1_228_800
# A power control bit takes 2 of the 24 symbols of a group (7.1.3.1.7), at the channel's own gain, at every rate: the
# power control subchannel does not count towards the traffic channel's Ec.
TRAFFIC_SHARE = 22 / 24
SYNC_RATE = 1_200
# The paging channel that receivers decode by default.
FIRST_PAGING = 1
PAGING_RATES = {0: 9_600, 1: 4_800}
ROUNDING = 2 / 12
# The levels between which one is looked for: below the first rounding is most of the noise, and the second is
# beyond every sample.
LEAST_SIGMA, GREATEST_SIGMA = 1e-3, 1e6


class AirKind(enum.Enum):
    """Kind of paths: none fades, the only path has Rayleigh fading, or several paths or some of them fade."""

    WHITE = "white"
    RAYLEIGH = "rayleigh"
    FADING = "fading"


@dataclasses.dataclass(frozen=True)
class Channel:
    """A channel with an Eb/Nt: its name in tables, gain, bits per second, and the share of it that carries these bits.
    """

    name: str
    gain: int
    rate: int
    share: float


@dataclasses.dataclass(frozen=True)
class Air:
    """What a receiver gets besides noise: each path's |h|², the sum of the cell's squared gains, and other cells.

    For a path that fades |h|² is the mean.
    """

    paths: tuple[float, ...]
    squares: float
    others: float = 0.0
    kind: AirKind = AirKind.WHITE

    def ratio(self, channel: Channel, sigma: float) -> float:
        """Eb/Nt, summed over the paths; on each the cell's channels are orthogonal, and its other paths are noise."""
        noise = 2 * sigma * sigma + ROUNDING + self.others
        cell = [2 * path * self.squares for path in self.paths]
        bit = 2 * channel.gain**2 * channel.share * CHIP_RATE / channel.rate
        return sum(bit * path / (noise + sum(cell) - own) for path, own in zip(self.paths, cell))

    def decibels(self, channel: Channel, sigma: float) -> float:
        """Eb/Nt in dB."""
        return 10 * math.log10(self.ratio(channel, sigma))

    def sigma(self, channel: Channel, decibels: float) -> float:
        """Returns the level of noise at which the channel has an Eb/Nt in dB; raises Refused if there is none."""
        most = self.decibels(channel, LEAST_SIGMA)
        if not self.decibels(channel, GREATEST_SIGMA) < decibels < most:
            raise Refused(f"no noise level gives {decibels:g} dB: with almost no noise the channel has {most:.2f} dB")

        def above(log_sigma: float) -> float:
            return self.decibels(channel, math.exp(log_sigma)) - decibels

        return math.exp(brentq(above, math.log(LEAST_SIGMA), math.log(GREATEST_SIGMA), xtol=1e-13))


def air_of(script: Script, paths: tuple[complex, ...], others: float) -> Air:
    """Returns the air of a script's cell: its own path, other paths by their factors, and the power of other cells."""
    link = abs(script.link) ** 2
    squares = float(sum(gain * gain for gain in script.gains.values()))
    return Air((link, *(link * abs(factor) ** 2 for factor in paths)), squares, others)


def air_over(script: Script, gains: Sequence[float], others: float, kind: AirKind) -> Air:
    """The air of a script's cell, and of other cells, that come over paths of these mean power gains."""
    squares = float(sum(gain * gain for gain in script.gains.values()))
    link = abs(script.link) ** 2
    return Air(tuple(link * gain for gain in gains), squares, others * sum(gains), kind)


def frame_channel(kind: str, rate: int, gain: int) -> Channel:
    """The frames of one rate of a traffic channel."""
    return Channel(f"{kind} {rate}", gain, rate, TRAFFIC_SHARE)


def channels_of(script: Script, traffic: Traffic) -> dict[str, Channel]:
    """The channels that are counted, by name: frames of each rate, the fastest first, then sync and paging messages."""
    rates = sorted({(frame.kind, frame.rate) for frame in traffic.frames}, key=lambda rate: -rate[1])
    found = [frame_channel(kind, rate, traffic.gain) for kind, rate in rates]
    if script.prat is not None:
        found.append(Channel("sync", script.gains[SYNC_ROW], SYNC_RATE, 1.0))
        if script.paging and script.prat in PAGING_RATES:
            heard = FIRST_PAGING if FIRST_PAGING in script.paging else script.paging[0]
            found.append(Channel("paging", script.gains[heard], PAGING_RATES[script.prat], 1.0))
    return {channel.name: channel for channel in found}
