"""Recordings of several busy cells for tools/radio_bench: their scripts, their levels, and the noise that they lie in."""

import random
from dataclasses import dataclass
from typing import NamedTuple

from cdma_tools.radio.bench_cases import FRAME_BITS, OUTSIDE_BODY, SAMPLES, bits_text

# Calls of a cell, frames that each call's script has, and the gains among which its row's is drawn.
CALLS, FRAMES, GAINS = 16, 30, range(20, 61)
# Octets of a page, and pages of a cycle.
PAGE_OCTETS, PAGES = 40, 10
OFFSETS = (300, 168, 40)
# All base stations have one system time, and the long code's state with it.
TIME, LONG_CODE = 18_498_780_225, 0x1A2B3C4D5E6
PILOT_ROW, PAGING_ROW, SYNC_ROW = 0, 1, 32


class Level(NamedTuple):
    """A cell of a recording: dB against the first one, and chips by which it comes later."""

    db: float
    delay: float


@dataclass(frozen=True)
class CellsCase:
    """A recording of cells in noise some dB below the first, and the arguments of tools/channel for its link."""

    name: str
    levels: tuple[Level, ...]
    noise: float = 6.0
    link: str = ""


def two(name: str, db: float, delay: float, noise: float = 6.0, link: str = "") -> CellsCase:
    """A recording of two cells."""
    return CellsCase(name, (Level(0, 0), Level(db, delay)), noise, link)


CELLS_CASES = [
    two("equal", 0, 40),
    two("-3 dB", -3, 40.5),
    two("-6 dB, cu8", -6, 40.25, link="--type cu8"),
    two("-10 dB, cu8", -10, 40, link="--type cu8"),
    two("-10 dB", -10, 40.5, 20),
    two("-20 dB", -20, 40.5, 20),
    CellsCase("three: -3, -6 dB", (Level(0, 0), Level(-3, 20.5), Level(-6, 71.25))),
    CellsCase("three: -6, -10 dB", (Level(0, 0), Level(-6, 20.5), Level(-10, 71.25))),
    two("two paths", -6, 40.25, link="--paths 0,1.4:-2"),
    two("an echo far off", -6, 40.5, link="--paths 0,25:-4"),
    two("two paths, 5 Hz", -6, 40, link="--paths 0:0:0:5,1.5:-3:0:5"),
    two("two paths, 30 Hz", -3, 40, link="--paths 0:0:0:30,1.5:-3:0:30"),
    two("20 Hz", -3, 40.5, link="--paths 0:0:0:20"),
    two("lost samples", -6, 40.5, link="--lose 2400000:700"),
    two("inverted", -6, 40.5, link="--conjugate"),
    two("ci8 4 million", -6, 40.5, link="--type ci8 --rate 4000000 --clock -25 --drift 50"),
    two("1.5 million", -6, 40.5, link="--rate 1500000"),
    two("equaliser", -6, 40.5, link="--equaliser"),
    two("90 millionths", -6, 40.5, link="--clock 90"),
]


def busy_script(number: int, samples: int = SAMPLES) -> str:
    """The script of a busy cell: pilot, sync, paging, and calls of all rates on rows and with gains by chance."""
    draws = random.Random(number)
    lines = [
        f"cell pn={OFFSETS[number]} time={TIME} lc={LONG_CODE:011x} checks=0",
        f"link re=4 im=3 start=0 samples={samples}",
        "pilot gain=100",
        f"sync gain=32 prev=5 min=1 sid={4_000 + number} nid={number} lp=18 ltm=2 daylt=0 prat=0 rest=3:00",
        "paging channel=1 gain=64",
    ]
    size = 8 * PAGE_OCTETS - OUTSIDE_BODY
    lines += [f"page half {bits_text(draws, size, f'{0x2A + page % 8:08b}')}" for page in range(PAGES)]
    free = [row for row in range(64) if row not in (PILOT_ROW, PAGING_ROW, SYNC_ROW)]
    for row in draws.sample(free, CALLS):
        serial, offset = f"{draws.randrange(1 << 32):08x}", draws.randrange(16)
        lines.append(f"traffic row={row} esn={serial} offset={offset} gain={draws.choice(GAINS)}")
        for _ in range(FRAMES):
            rate = draws.choice(list(FRAME_BITS))
            commands = "".join(draws.choice("01") for _ in range(16))
            lines.append(f"frame {rate} {bits_text(draws, FRAME_BITS[rate], '0')} {commands}")
    return "".join(line + "\n" for line in lines)
