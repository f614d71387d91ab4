"""The cells and the links of tools/radio_bench."""

import random
from typing import NamedTuple

from cdma_tools.radio.air import CHIP_RATE

SECONDS = 2
SAMPLES = SECONDS * CHIP_RATE
SERIAL, ROW = "8badf00d", 10
# Bits of a frame of rate set 1 (7.1.3.5).
FRAME_BITS = {9600: 172, 4800: 80, 2400: 40, 1200: 16}
# A paging message's body has 8 L - 38 bits, for L octets of a capsule with length and check.
OUTSIDE_BODY = 38
OTHER_TYPE = 0x2A  # a message type that isn't read field by field


class Cell(NamedTuple):
    """Gains of the channels of a cell, PRAT, octets of a page, and the rates of its traffic frames."""

    seed: int
    pilot: int
    sync: int
    paging: int
    traffic: int
    prat: int
    octets: int
    rates: tuple[int, ...]

    @property
    def words(self) -> list[str]:
        """The arguments of follow for this cell's handset."""
        return ["--esn", SERIAL, "--row", str(ROW)]


ALL_RATES, SLOW, FAST = (9600, 4800, 2400, 1200), (2400, 1200), (9600,)
# By their pilots' shares of -0.8 to -3.6 dB, from cells with hardly a call to busy ones.
CELLS = {
    "quiet": Cell(1, 100, 30, 45, 36, 1, 45, ALL_RATES),
    "weak traffic": Cell(44, 100, 25, 35, 29, 0, 38, ALL_RATES),
    "weak sync": Cell(3, 100, 22, 32, 37, 0, 40, ALL_RATES),
    "weaker traffic": Cell(9, 100, 30, 68, 25, 0, 60, ALL_RATES),
    "weakest traffic": Cell(40, 100, 31, 37, 22, 1, 48, ALL_RATES),
    "weak paging": Cell(34, 100, 70, 23, 54, 0, 32, ALL_RATES),
    "loud": Cell(144, 100, 40, 80, 70, 0, 38, FAST),
}


class Case(NamedTuple):
    """A recording: its cell, type and rate, the arguments of tools/channel for its link, and the fingers that follow it."""

    name: str
    cell: str
    kind: str
    rate: float
    link: str
    fingers: int = 1


CASES = [
    Case("A", "quiet", "cu8", 2.4e6, "--ec-io -7 --carrier 300 --clock 0.5 --delay 0.37"),
    Case("B", "weak traffic", "cu8", 2.4e6, "--ec-io -10 --carrier -15000 --clock -25 --delay 0.81 --dc 0.1 --iq 0.5:3"),
    Case("C", "weak sync", "ci8", 4e6, "--ec-io -8 --carrier 2000 --drift 50 --clock 5 --delay 0.5 --dc 0.1"),
    Case("D", "weaker traffic", "ci16_le", 2.5e6, "--ec-io -9 --carrier -300 --clock -5 --delay 0.13"),
    Case("E", "weakest traffic", "ci16_le", 4.9152e6, "--ec-io -10 --carrier 15000 --drift -100 --clock 25 --delay 0.66"),
    Case("F", "weak paging", "cf32_le", 2.4e6, "--ec-io -9 --carrier -2000 --clock 0.5 --clock-drift 0.3 --delay 0.25"),
    Case("Z", "quiet", "ci16_le", 2.4576e6, "--ec-io -9"),
    Case("Y", "quiet", "ci16_le", 4.9152e6, "--ec-io -9 --delay 0.5"),
    Case("G", "quiet", "cu8", 2.4e6, "--ec-io -13 --carrier 2000 --clock 5 --delay 0.6"),
    Case("R", "loud", "cu8", 2.4e6, "--ec-io -15 --carrier -15000 --drift 50 --clock 25 --delay 0.45 --dc 0.2"),
    Case("S", "loud", "ci8", 4e6, "--ec-io -16 --carrier 300 --clock -25 --delay 0.9"),
    Case("T", "loud", "cu8", 2.4e6, "--ec-io -17 --carrier -2000 --clock 5 --delay 0.6 --iq 1:5"),
    Case("J", "weak traffic", "cu8", 2.4e6, "--ec-io -9 --carrier 2000 --clock 5 --delay 0.3 --paths 0,1.4:-2:100", 3),
    Case("K", "quiet", "cu8", 2.4e6, "--ec-io -9 --carrier -2000 --clock -5 --delay 0.3 --paths 0:0:0:5,2.6:-3:0:5", 3),
    Case("L", "weak traffic", "ci16_le", 2.5e6, "--ec-io -8 --carrier 300 --clock 0.5 --delay 0.3 --paths 0:0:0:20"),
    Case("M", "weak traffic", "cu8", 2.4e6, "--ec-io -8 --carrier 15000 --clock 25 --delay 0.7 --paths 0:0:0:30,0.6:-1:0:30", 3),
    Case("N", "quiet", "ci8", 4e6, "--ec-io -8 --carrier -300 --clock -0.5 --delay 0.2 --paths 0:0:0:100,1.7:-2:0:100", 3),
    Case("O", "weak traffic", "cu8", 2.4e6, "--ec-io -8 --carrier 2000 --clock 5 --delay 0.2 --paths 0:0:0:1,3.3:-1:0:1", 3),
    *(
        Case(f"M{seed}", "weak traffic", "cu8", 2.4e6, f"--ec-io -8 --carrier 15000 --clock 25 --delay 0.7 --paths 0:0:0:30,0.6:-1:0:30 --seed {seed}", 3)
        for seed in (2, 3, 4)
    ),
    Case("P", "weak traffic", "cu8", 2.4e6, "--ec-io -9 --carrier -2000 --clock 5 --delay 0.2 --equaliser"),
    Case("Q", "quiet", "cu8", 2.4e6, "--ec-io -9 --carrier -2000 --clock 5 --delay 0.2 --conjugate"),
]  # fmt: skip


def bits_text(draws: random.Random, count: int, head: str = "") -> str:
    """Random bits as a script has them, N:HEX, after some given bits."""
    bits = head + "".join(draws.choice("01") for _ in range(count - len(head)))
    padded = bits + "0" * (-count % 8)
    return f"{count}:" + "".join(f"{int(padded[k : k + 8], 2):02x}" for k in range(0, len(padded), 8))


def script_of(cell: Cell, samples: int = SAMPLES, pn: int = 0, start: int = 0) -> str:
    """The script of a cell (docs/FORMATS.md): pilot, sync, a paging channel of several pages, a traffic channel."""
    draws = random.Random(cell.seed)
    time, lc = draws.randrange(1 << 32), draws.randrange(1, 1 << 42)
    pn = pn or draws.randrange(1, 512)
    lines = [
        f"cell pn={pn} time={time} lc={lc:011x} checks=0",
        f"link re=1 im=0 start={start} samples={samples}",
        f"pilot gain={cell.pilot}",
        f"sync gain={cell.sync} prev=3 min=1 sid=21 nid=7 lp=13 ltm=0 daylt=0 prat={cell.prat} rest=3:00",
        f"paging channel=1 gain={cell.paging}",
    ]
    # Pages of one length and random bodies; a cycle holds 8,192 bits at most.
    size = 8 * cell.octets
    for page in range(min(12, 8_192 // (size + 200))):
        lines.append(f"page half {bits_text(draws, size - OUTSIDE_BODY, f'{OTHER_TYPE + page % 8:08b}')}")
    lines.append(f"traffic row={ROW} esn={SERIAL} offset=0 gain={cell.traffic}")
    for number in range(80):
        rate = cell.rates[number % len(cell.rates)]
        # The first bit of a frame at 9,600 is the mixed mode bit: 0, so that nothing in it is signalling.
        frame = bits_text(draws, FRAME_BITS[rate], "0")
        lines.append(f"frame {rate} {frame} {''.join(draws.choice('01') for _ in range(16))}")
    return "".join(line + "\n" for line in lines)
