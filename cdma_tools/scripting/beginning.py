"""Writes a script to start from: a pilot, a sync channel, and the paging and traffic channels that are asked for."""

import dataclasses
import math
import random
from collections.abc import Callable

from cdma_tools.errors import Refused
from cdma_tools.scripting.checking import LOUDEST, MOST_SAMPLES
from cdma_tools.scripting.statements import FRAME_BITS

CHIPS_A_SECOND = 1_228_800
PILOT_GAIN = 1_000  # with samples of 16 bits, as long as the sum of all gains leaves room
USED = 0.5  # the share of full scale that the peak takes at most
CHANNEL_LIST = 4  # MSG_TYPE of the CDMA Channel List Message
FREQUENCY = 283  # the channel number that the page names


@dataclasses.dataclass(frozen=True)
class Paging:
    """A paging channel to be written: its number, and its level against the pilot in dB."""

    channel: int
    level: float


@dataclasses.dataclass(frozen=True)
class Traffic:
    """A traffic channel to be written: row, serial number, FRAME_OFFSET, level in dB, and its rate set, 1 or 2."""

    row: int
    esn: int
    offset: int
    level: float
    rate_set: int


@dataclasses.dataclass(frozen=True)
class Plan:
    """What a new script is to send. Levels are in dB against the pilot."""

    pn: int
    time: int
    state: int
    seconds: float
    width: int
    sync: float
    paging: tuple[Paging, ...]
    traffic: tuple[Traffic, ...]


def lines_of(plan: Plan) -> list[tuple[str, str]]:
    """Returns the lines of a new script, each with a comment on it."""
    gain = gains_of(plan)
    samples = round(plan.seconds * CHIPS_A_SECOND)
    if not 1 <= samples <= MOST_SAMPLES[plan.width]:
        raise Refused(
            f"--seconds {plan.seconds:g}: a file has 1 to {MOST_SAMPLES[plan.width]:,} samples, not {samples:,}"
        )
    made = [
        (
            f"cell pn={plan.pn} time={plan.time} lc={plan.state:011x} checks=0",
            "pilot offset, system time in units of 80 ms, and the long code's state then; message checks as they are",
        ),
        (
            f"link re=1 im=0 start=0 samples={samples}",
            f"one path, without a turn; {samples / CHIPS_A_SECOND:g} s of samples",
        ),
        (f"pilot gain={gain(0.0)}", "amplitude of the pilot in each I and Q"),
        (
            f"sync gain={gain(plan.sync)} prev=3 min=1 sid=1 nid=2 lp=13 ltm=0 daylt=0 prat=0 rest=3:00",
            f"{level_text(gain, plan.sync)}; SID and NID of the base station; prat=0: paging at 9,600 bits a second",
        ),
    ]
    for paging in plan.paging:
        made += paging_lines(plan, paging, gain)
    for traffic in plan.traffic:
        made += traffic_lines(traffic, gain)
    return made


def gains_of(plan: Plan) -> Callable[[float], int]:
    """Returns the function that turns a level in dB against the pilot into a gain."""
    levels = [0.0, plan.sync, *(one.level for one in plan.paging), *(one.level for one in plan.traffic)]
    ratios = [10 ** (level / 20) for level in levels]
    pilot = min(PILOT_GAIN, int(USED * LOUDEST[plan.width] / sum(ratios)))
    if min(ratios) * pilot < 1:
        raise Refused(
            f"a level of {min(levels):g} dB is too low: the channel's gain would be 0 with a pilot gain of {pilot}"
        )
    return lambda level: max(1, round(pilot * 10 ** (level / 20)))


def level_text(gain: Callable[[float], int], level: float) -> str:
    """Returns the level that a channel gets, which differs from the one asked for by the rounding of its gain."""
    return f"{20 * math.log10(gain(level) / gain(0.0)):.1f} dB against the pilot"


def paging_lines(plan: Plan, paging: Paging, gain: Callable[[float], int]) -> list[tuple[str, str]]:
    """Returns the lines of a paging channel with one message, a CDMA Channel List."""
    body = f"{CHANNEL_LIST:08b}{plan.pn:09b}{0:06b}{FREQUENCY:011b}"
    return [
        (
            f"paging channel={paging.channel} gain={gain(paging.level)}",
            f"{level_text(gain, paging.level)}; its pages make a cycle",
        ),
        (f"page half {bit_text(body)}", f"CDMA Channel List Message: PILOT_PN {plan.pn}, CDMA_FREQ {FREQUENCY}"),
    ]


def traffic_lines(traffic: Traffic, gain: Callable[[float], int]) -> list[tuple[str, str]]:
    """Returns the lines of a traffic channel with one frame of each rate, whose bits come from its serial number."""
    name = "frame2" if traffic.rate_set == 2 else "frame"
    draw = random.Random(traffic.esn)
    made = [
        (
            f"traffic row={traffic.row} esn={traffic.esn:08x} offset={traffic.offset} gain={gain(traffic.level)}",
            f"{level_text(gain, traffic.level)}; its frames make a cycle",
        )
    ]
    for rate, size in FRAME_BITS[name].items():
        bits = "".join(draw.choice("01") for _ in range(size))
        commands = "".join(draw.choice("01") for _ in range(16))
        made.append(
            (f"{name} {rate} {bit_text(bits)} {commands}", f"{size} bits in 20 ms, then its power control bits")
        )
    return made


def bit_text(bits: str) -> str:
    """Returns bits as N:HEX."""
    octets = -(-len(bits) // 8)
    return f"{len(bits)}:{int(bits.ljust(8 * octets, '0'), 2):0{2 * octets}x}"
