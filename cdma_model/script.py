"""Scripts: their lines, what is wrong with them, and the cell that they name (docs/FORMATS.md, "Script")."""

import re
from dataclasses import dataclass, field
from typing import Any, Callable

from cdma_model.bits import Bits, bits_of_text, text_of_bits
from cdma_model.coding import MESSAGE_30, RATE_SET_1, RATE_SET_2, Rate
from cdma_model.messages import (
    LEAST_OCTETS,
    LENGTH,
    MOST_OCTETS,
    SYNC_FIELDS,
    Message,
    paging_message,
)

MOST_BYTES = 1_048_576
MOST_CYCLE_BITS = 8_192
MOST_TIME = 34_359_738_368
MOST_SAMPLES = {16: 33_554_432, 8: 67_108_864}
LOUDEST = {16: 32_767, 8: 127}
BODY_BITS = {0: 95, 1: 47}
"""Body bits of a paging half-frame, by PRAT."""

PILOT_ROW, SYNC_ROW = 0, 32
RATES = {"frame": {rate.speed: rate for rate in RATE_SET_1}, "frame2": {rate.speed: rate for rate in RATE_SET_2}}


class BadScript(Exception):
    """A fault of a script, in the words of docs/FORMATS.md."""


@dataclass
class Paging:
    """A paging channel: its pages are bodies, each with whether it follows at once on the one before."""

    channel: int
    gain: int
    pages: list[tuple[bool, Bits]] = field(default_factory=list)


@dataclass
class Frame:
    """A frame of a traffic channel: its rate, information, and power control bits."""

    rate: Rate
    information: Bits
    commands: Bits


@dataclass
class Traffic:
    """A traffic channel, and the cycle of frames that it sends."""

    row: int
    serial: int
    offset: int
    gain: int
    frames: list[Frame] = field(default_factory=list)


@dataclass
class Cell:
    """A cell: the numbers of its lines `cell`, `link` and `pilot`, its other channels; `sync` is empty without one."""

    pn: int = 0
    time: int = 0
    lc: int = 0
    checks: int = 0
    re: int = 0
    im: int = 0
    start: int = 0
    samples: int = 0
    pilot_gain: int = 0
    sync_gain: int = 0
    sync: Message = field(default_factory=dict)
    paging: list[Paging] = field(default_factory=list)
    traffic: list[Traffic] = field(default_factory=list)

    def gains(self) -> list[tuple[int, int]]:
        """The row and the gain of each channel, in the order of their lines."""
        sync = [(SYNC_ROW, self.sync_gain)] if self.sync else []
        paging = [(channel.channel, channel.gain) for channel in self.paging]
        return [(PILOT_ROW, self.pilot_gain), *sync, *paging, *((one.row, one.gain) for one in self.traffic)]


class Refused(Exception):
    """A line that is wrong at its place."""


# ---- the words of a line

Readers = dict[str, Callable[[str], Any]]
"""What reads the value of each word of a line, by its name."""


def decimal(least: int, most: int) -> Callable[[str], int]:
    """Reads a number without leading zeros, within bounds."""

    def read(text: str) -> int:
        sign = "-?" if least < 0 else ""
        if not re.fullmatch(sign + "(0|[1-9][0-9]{0,19})", text) or text == "-0" or not least <= int(text) <= most:
            raise Refused
        return int(text)

    return read


def below(width: int) -> Callable[[str], int]:
    """Reads a number of `width` bits."""
    return decimal(0, (1 << width) - 1)


def digits(count: int, least: int, most: int) -> Callable[[str], int]:
    """Reads exactly `count` hex digits of either case, within bounds."""

    def read(text: str) -> int:
        if not re.fullmatch(f"[0-9a-fA-F]{{{count}}}", text) or not least <= int(text, 16) <= most:
            raise Refused
        return int(text, 16)

    return read


def bits(text: str) -> Bits:
    """Reads `N:HEX`."""
    found = bits_of_text(text)
    if found is None:
        raise Refused
    return found


def named(words: list[str], table: Readers) -> dict[str, Any]:
    """The values of words `name=value`, which are those of a table in its order."""
    found = {}
    if len(words) != len(table):
        raise Refused
    for word, (name, read) in zip(words, table.items()):
        given, _, value = word.partition("=")
        if given != name:
            raise Refused
        found[name] = read(value)
    return found


GAIN = below(16)
CELL = {"pn": below(9), "time": decimal(0, MOST_TIME), "lc": digits(11, 1, (1 << 42) - 1), "checks": below(2)}
LINK = {"re": decimal(-32_768, 32_767), "im": decimal(-32_768, 32_767), "start": below(32),
        "samples": decimal(1, (1 << 64) - 1)}  # fmt: skip
FILLED = ("pn", "lc", "time")
"""Fields of the sync message that each sending fills in."""

SYNC: Readers = {"gain": GAIN} | {name: below(width) for name, width in SYNC_FIELDS.items() if name not in FILLED}
SYNC_WITHOUT_FREQUENCY: Readers = SYNC | {"rest": bits}
SYNC_WITH_FREQUENCY: Readers = SYNC | {"freq": below(11), "rest": bits}
PAGING = {"channel": decimal(1, 7), "gain": GAIN}
TRAFFIC = {"row": below(6), "esn": digits(8, 0, (1 << 32) - 1), "offset": below(4), "gain": GAIN}


# ---- the lines, each of which may follow some


def take_cell(cell: Cell, words: list[str]) -> None:
    """`cell pn=P time=T lc=H checks=C`."""
    cell.__dict__.update(named(words, CELL))


def take_link(cell: Cell, words: list[str]) -> None:
    """`link re=A im=B start=S samples=N`, A and B not both 0."""
    cell.__dict__.update(named(words, LINK))
    if cell.re == 0 == cell.im:
        raise Refused


def take_pilot(cell: Cell, words: list[str]) -> None:
    """`pilot gain=G`."""
    cell.pilot_gain = named(words, {"gain": GAIN})["gain"]


def take_sync(cell: Cell, words: list[str]) -> None:
    """`sync gain=G prev=.. .. [freq=..] rest=BITS`."""
    with_frequency = len(words) == len(SYNC_WITH_FREQUENCY)
    message = named(words, SYNC_WITH_FREQUENCY if with_frequency else SYNC_WITHOUT_FREQUENCY)
    rest = len(message["rest"])
    if with_frequency and (rest % 8 or rest > 976) or not with_frequency and rest != 3:
        raise Refused
    cell.sync_gain = message.pop("gain")
    cell.sync = message


def take_paging(cell: Cell, words: list[str]) -> None:
    """`paging channel=C gain=G`, if the data rate is one of a paging channel."""
    if cell.sync["prat"] not in BODY_BITS:
        raise Refused
    cell.paging.append(Paging(**named(words, PAGING)))


def take_page(cell: Cell, words: list[str]) -> None:
    """`page half BITS` or `page next BITS`, within the longest cycle."""
    if len(words) != 2 or words[0] not in ("half", "next"):
        raise Refused
    body, pages = bits(words[1]), cell.paging[-1].pages
    lawful = [8 * octets - LENGTH - MESSAGE_30.degree for octets in range(LEAST_OCTETS + 1, MOST_OCTETS + 1)]
    if len(body) not in lawful or paging_message(body) is None:
        raise Refused
    size = BODY_BITS[cell.sync["prat"]]
    if words[0] == "next" and (not pages or -laid_bits(pages, size) % size < LENGTH):
        raise Refused
    pages.append((words[0] == "next", body))
    laid = laid_bits(pages, size)
    if laid + -(-laid // size) > MOST_CYCLE_BITS:
        raise Refused


def laid_bits(pages: list[tuple[bool, Bits]], size: int) -> int:
    """The body bits of half-frames of a size up to the last bit of the last page's capsule."""
    laid = 0
    for follows, body in pages:
        laid += (0 if follows else -laid % size) + LENGTH + len(body) + MESSAGE_30.degree
    return laid


def take_traffic(cell: Cell, words: list[str]) -> None:
    """`traffic row=R esn=H offset=O gain=G`."""
    channel = named(words, TRAFFIC)
    cell.traffic.append(Traffic(channel["row"], channel["esn"], channel["offset"], channel["gain"]))


def take_frame(rates: dict[int, Rate]) -> Callable[[Cell, list[str]], None]:
    """`frame RATE BITS COMMANDS`, or the same of rate set 2."""

    def take(cell: Cell, words: list[str]) -> None:
        if len(words) != 3 or words[0] not in map(str, rates) or not re.fullmatch("[01]{16}", words[2]):
            raise Refused
        rate, information = rates[int(words[0])], bits(words[1])
        if len(information) != rate.information:
            raise Refused
        cell.traffic[-1].frames.append(Frame(rate, information, [int(digit) for digit in words[2]]))

    return take


LINES = {"cell": take_cell, "link": take_link, "pilot": take_pilot, "sync": take_sync, "paging": take_paging,
         "page": take_page, "traffic": take_traffic, "frame": take_frame(RATES["frame"]),
         "frame2": take_frame(RATES["frame2"])}  # fmt: skip
BEHIND = {
    "": {"cell"},
    "cell": {"link"},
    "link": {"pilot"},
    "pilot": {"sync"},
    "sync": {"paging", "traffic"},
    "paging": {"page"},
    "page": {"page", "paging", "traffic"},
    "traffic": {"frame", "frame2"},
    "frame": {"frame", "traffic"},
    "frame2": {"frame2", "traffic"},
}
"""Which lines may follow a line."""

LAST = {"pilot", "sync", "page", "frame", "frame2"}
"""The lines that may be the last."""


def read_script(script: bytes, width: int = 16) -> Cell:
    """The cell that a script names, for samples of 16 or 8 bits; raises `BadScript` by the first of its faults."""
    if len(script) > MOST_BYTES:
        raise BadScript("too big")
    cell = read_lines(script.decode("latin-1").split("\n"))
    judge(cell, width)
    return cell


def read_lines(lines: list[str]) -> Cell:
    """Returns the cell of lines, of which the last one is empty; raises `BadScript` if one is wrong."""
    cell, before, place = Cell(), "", 0
    try:
        for place, line in enumerate(lines[:-1], 1):
            name, *words = line.split(" ")
            if name not in BEHIND[before]:
                raise Refused
            LINES[name](cell, words)
            before = name
        place = len(lines)
        if lines[-1] or before not in LAST:
            raise Refused
    except Refused:
        raise BadScript(f"line {place}") from None
    return cell


def judge(cell: Cell, width: int) -> None:
    """Raises `BadScript` if rows, gains or the number of samples are wrong."""
    used = {PILOT_ROW, SYNC_ROW}
    for row in [channel.channel for channel in cell.paging] + [channel.row for channel in cell.traffic]:
        if row in used:
            raise BadScript(f"walsh {row}")
        used.add(row)
    for row, gain in cell.gains():
        if gain == 0:
            raise BadScript(f"gain {row}")
    loudness = (abs(cell.re) + abs(cell.im)) * sum(gain for _, gain in cell.gains())
    if loudness > LOUDEST[width]:
        raise BadScript(f"too loud {loudness}")
    if cell.samples > MOST_SAMPLES[width]:
        raise BadScript(f"too long {cell.samples}")


# ---- the script of a trial (docs/FORMATS.md, "The script of a trial")

TRIAL_FRAMES = 100
TRIAL_SYNC = "sync gain=30 prev=3 min=1 sid=1 nid=2 lp=13 ltm=0 daylt=0 prat=0 rest=3:00"
TRIAL_ROW = 8


def trial_script(number: int) -> tuple[str, int]:
    """The script of a number, and the serial number of its handset."""
    state = number

    def draw() -> int:
        nonlocal state
        state = (6_364_136_223_846_793_005 * state + 1_442_695_040_888_963_407) % (1 << 64)
        return state >> 32

    pn, time = draw() % 512, draw()
    lc = draw() * 1_024
    lc = lc + draw() % 1_024 or 1
    serial = draw()
    frames = []
    for _ in range(TRIAL_FRAMES):
        rate = RATE_SET_1[draw() % 4]
        information = [draw() % 2 for _ in range(rate.information)]
        commands = "".join(str(draw() % 2) for _ in range(16))
        frames.append(f"frame {rate.speed} {text_of_bits(information)} {commands}")
    page = f"{4:08b}{pn:09b}{0:06b}{283:011b}"
    others = "frame 1200 16:ffff 0101010101010101"
    lines = [
        f"cell pn={pn} time={time} lc={lc:011x} checks=3",
        "link re=1 im=0 start=0 samples=2457600",
        "pilot gain=100",
        TRIAL_SYNC,
        "paging channel=1 gain=60",
        f"page half {text_of_bits([int(bit) for bit in page])}",
        f"traffic row={TRIAL_ROW} esn={serial:08x} offset=0 gain=40",
        *frames,
        "traffic row=9 esn=00000009 offset=0 gain=40",
        others,
        "traffic row=10 esn=0000000a offset=5 gain=40",
        others,
    ]
    return "".join(line + "\n" for line in lines), serial
