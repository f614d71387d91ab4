"""A cell of any length, made in pieces from a script, and every line that a handset must write for it.

Both are computed only from the script. The cell sends the longest sync capsule (148 octets in 13 superframes), pages of
148 octets, and a run of pages that follow each other. A signalling message of 148 octets is spread over a second of its
traffic channel's frames. The expected lines follow docs/FORMATS.md and docs/LINK.md; the long code's states are those
of the model.
"""

import random
import re
import subprocess
from collections import Counter
from collections.abc import Iterator
from dataclasses import dataclass

import numpy
from numpy.typing import NDArray

from cdma_model.codes import state_after
from tools.tests.helping import HEADER

CHIP_RATE = 1_228_800
SERIAL, ROW, OFFSET, PN = "8badf00d", 10, 3, 300
HANDSET = ["--esn", SERIAL, "--row", str(ROW), "--offset", str(OFFSET)]
# Chips of a piece: a file of 8-bit samples holds at most 67,108,864. Frames of all channels begin with one.
PIECE = 46_080_000
FRAME, SYNC_FRAME, SUPERFRAME = 24_576, 32_768, 98_304
FRAME_BITS = {9600: 172, 4800: 80, 2400: 40, 1200: 16}
PAGES = ((148, "half"), (148, "half"), (61, "half"), (61, "next"), (61, "next"), (61, "next"), (20, "half"))  # octets
BODY_BITS = {0: 95, 1: 47}  # of a half frame of the paging channel, by PRAT
PRIMARY_BITS = (80, 40, 16, 0)  # of a mixed frame, by its mode


def text_of(bits: str) -> str:
    """Bits as N:HEX."""
    full = bits + "0" * (-len(bits) % 8)
    return f"{len(bits)}:" + "".join(f"{int(full[place : place + 8], 2):02x}" for place in range(0, len(full), 8))


def bits_of(text: str) -> str:
    """The bits of N:HEX."""
    count, digits = text.split(":")
    return f"{int(digits, 16):0{4 * len(digits)}b}"[: int(count)] if digits else ""


def drawn(draws: random.Random, count: int, head: str = "") -> str:
    """Returns `count` random bits that begin with the given ones."""
    return head + "".join(draws.choice("01") for _ in range(count - len(head)))


def with_check(body: str) -> str:
    """A capsule of the traffic channel: its length in octets, a body, and a check of 16 bits (7.7.3.2.2)."""
    whole = f"{(8 + len(body) + 16) // 8:08b}" + body
    state = 0xFFFF
    for bit in whole:
        top = (state >> 15) ^ int(bit)
        state = (state << 1 & 0xFFFF) ^ (0x1021 if top else 0)
    return f"{whole}{state:016b}"


def traffic_frames(draws: random.Random) -> list[tuple[int, str]]:
    """150 frames: a message of 148 octets in parts of every other frame, one whole message, and frames of all rates."""
    spread = with_check(drawn(draws, 148 * 8 - 24, f"{42:08b}"))
    parts = [("1" if place == 0 else "0") + spread[place : place + 87] for place in range(0, len(spread), 87)]
    parts = [part.ljust(88, "0") for part in parts]
    frames = []
    for number in range(150):
        rate = (9600, 4800, 9600, 1200)[number % 4]
        if number % 4 == 0 and number // 4 < len(parts):
            frames.append((9600, "1000" + drawn(draws, 80) + parts[number // 4]))
        elif number == 82:
            whole = with_check(drawn(draws, 80, f"{43:08b}"))
            frames.append((9600, "10111" + whole.ljust(167, "0")))
        else:
            frames.append((rate, drawn(draws, FRAME_BITS[rate], "0" if rate == 9600 else "")))
    return frames


def script_of(seed: int, prat: int, start: int, samples: int) -> str:
    """Returns the script of the cell's chips from `start` on."""
    draws = random.Random(seed)
    time, state = draws.randrange(1 << 32), draws.randrange(1, 1 << 42)
    rest = text_of(drawn(draws, 976))
    lines = [
        f"cell pn={PN} time={time} lc={state:011x} checks=0",
        f"link re=1 im=0 start={start} samples={samples}",
        "pilot gain=40",
        f"sync gain=14 prev=3 min=1 sid=21 nid=7 lp=13 ltm=0 daylt=0 prat={prat} freq=283 rest={rest}",
        "paging channel=1 gain=28",
    ]
    for octets, how in PAGES:
        lines.append(f"page {how} {text_of(drawn(draws, 8 * octets - 38, f'{0x2A + len(lines) % 8:08b}'))}")
    lines.append(f"traffic row={ROW} esn={SERIAL} offset={OFFSET} gain=26")
    lines += [f"frame {rate} {text_of(bits)} {drawn(draws, 16)}" for rate, bits in traffic_frames(draws)]
    return "".join(line + "\n" for line in lines)


def made_chips(program: str, script: str) -> NDArray[numpy.int8]:
    """The parts of a script's chips, 8 bits each."""
    command = [program, "make", "--bits", "8"]
    ran = subprocess.run(command, input=script.encode("ascii"), stdout=subprocess.PIPE, check=True)
    return numpy.frombuffer(ran.stdout[HEADER.size :], dtype="i1")


def made_cell(program: str, seconds: float, prat: int = 1, seed: int = 1) -> NDArray[numpy.int8]:
    """The parts of the cell's chips, made by pieces."""
    count = int(seconds * CHIP_RATE)
    pieces = [
        made_chips(program, script_of(seed, prat, start, min(PIECE, count - start))) for start in range(0, count, PIECE)
    ]
    return numpy.concatenate(pieces)


def write_cell(path: str, parts: NDArray[numpy.int8]) -> str:
    """Writes a sample file of version 2, with as many samples as there are."""
    with open(path, "wb") as file:
        file.write(HEADER.pack(b"IS95", 2, 0, len(parts) // 2))
        parts.tofile(file)
    return path


@dataclass(frozen=True)
class Required:
    """A line without its `at`: the chip at which it is known, the chip at which its content begins, and the mark."""

    at: int
    begin: int
    text: str
    mark: int = 0  # of a sync message: the chip at which a handset that received it begins with the other channels


class Sent:
    """What a script of `script_of` sends, by the cell's own chips."""

    def __init__(self, script: str) -> None:
        """Reads the script."""
        rows = [line.split() for line in script.splitlines()]
        named = {row[0]: dict(word.split("=") for word in row[1:]) for row in rows if row[0] in ("cell", "sync")}
        self.cell, self.sync = named["cell"], named["sync"]
        self.pages = [(row[1], bits_of(row[2])) for row in rows if row[0] == "page"]
        self.frames = [(int(row[1]), row[2], row[3]) for row in rows if row[0] == "frame"]

    def sync_lines(self, end: int) -> Iterator[Required]:
        """The messages of the sync channel."""
        time, state = int(self.cell["time"]), int(self.cell["lc"], 16)
        bits = 8 * 26 + int(self.sync["rest"].split(":")[0])
        superframes, frames = -(-bits // 93), -(-bits // 31)
        for begin in range(64 * PN, end, SUPERFRAME * superframes):
            told = (begin - 64 * PN) // SUPERFRAME + superframes + 4
            fields = {name: self.sync[name] for name in ("prev", "min", "sid", "nid")}
            fields |= {"pn": str(PN), "lc": f"{state_after(state, SUPERFRAME * told):011x}", "time": str(time + told)}
            fields |= {name: self.sync[name] for name in ("lp", "ltm", "daylt", "prat", "freq", "rest")}
            text = "sync " + " ".join(f"{name}={value}" for name, value in fields.items())
            yield Required(begin + SYNC_FRAME * (frames + 1), begin, text, SUPERFRAME * told)

    def paging_lines(self, end: int) -> Iterator[Required]:
        """Yields the pages, repeated without end."""
        size, place, run, pages = BODY_BITS[int(self.sync["prat"])], 0, 0, []
        for how, body in self.pages:
            if how == "half":
                place = -(-place // size) * size
                run = place // size
            place += 8 + len(body) + 30
            pages.append(((place - 1) // size, run, f"paging other type={int(body[:8], 2)} bits={text_of(body[8:])}"))
        halves = -(-place // size)
        for cycle in range(2 * end // FRAME // halves + 1):
            for half, first, text in pages:
                yield Required(FRAME * ((cycle * halves + half) // 2 + 2), FRAME // 2 * (cycle * halves + first), text)

    def traffic_lines(self, end: int) -> Iterator[Required]:
        """Yields the frames of the traffic channel, repeated without end, and the messages in them."""
        held: str | None = None
        begun = 0
        for number, at in enumerate(range(FRAME + 1_536 * OFFSET, end + 1, FRAME)):
            rate, text, commands = self.frames[number % len(self.frames)]
            yield Required(at, at - FRAME, f"frame rate={rate} good=1 bits={text} commands={commands}")
            bits = bits_of(text)
            if rate != 9600 or bits[:2] != "10":
                continue
            part = bits[4 + PRIMARY_BITS[int(bits[2:4], 2)] :]
            if part[0] == "1":
                held, begun = "", at - FRAME
            if held is None:
                continue
            held += part[1:]
            if len(held) >= 8 * int(held[:8], 2):
                yield Required(at, begun, message_text(held))
                held = None

    def lines(self, end: int) -> list[Required]:
        """Returns everything that is sent up to a chip."""
        return [*self.sync_lines(end), *self.paging_lines(end), *self.traffic_lines(end)]


def message_text(capsule: str) -> str:
    """Returns the line of a traffic channel message whose type is not read field by field."""
    body = capsule[8 : 8 * int(capsule[:8], 2) - 16]
    ack, seq, req, enc, kind = (int(body[low:high], 2) for low, high in ((8, 11), (11, 14), (14, 15), (15, 17), (0, 8)))
    return f"traffic ack={ack} seq={seq} req={req} enc={enc} other type={kind} bits={text_of(body[17:])}"


@dataclass(frozen=True)
class Compared:
    """Received and expected lines: by the cell's chip and the line without its `at`."""

    shift: int  # the cell's chips less those of the lines
    owed: Counter[tuple[int, str]]
    missing: Counter[tuple[int, str]]
    excess: Counter[tuple[int, str]]
    is_sorted: bool


def compared(sent: Sent, lines: list[str], count: int) -> Compared:
    """Compares lines with what a cell of `chips` chips sends from the first received sync message on.

    The chips of the two differ by a constant, given by the first sync message. The expected lines end with the last
    line.
    """
    heard = []
    for line in lines:
        if found := re.search(r" at=(\d+)", line):
            heard.append((int(found[1]), line[: found.start()] + line[found.end() :]))
    places = [at for at, _ in heard]
    first_at, first = next((at, text) for at, text in heard if text.startswith("sync"))
    sync = next(owed for owed in sent.sync_lines(count) if owed.text == first)
    shift = sync.at - first_at
    last = max(places) + shift
    begins = {"sync": sync.begin, "paging": sync.mark, "frame": sync.mark, "traffic": sync.mark}
    lines_sent = [line for line in sent.lines(count) if line.begin >= begins[line.text.split()[0]]]
    owed = Counter((line.at, line.text) for line in lines_sent if line.at <= last)
    got = Counter((at + shift, text) for at, text in heard)
    return Compared(shift, owed, owed - got, got - owed, places == sorted(places))
