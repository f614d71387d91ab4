"""Cells drawn from a seed, with messages whose fields are known: scripts for `make` (docs/FORMATS.md)."""

from __future__ import annotations

import random
import subprocess
from dataclasses import dataclass

from tools.tests.helping import PROGRAM

# Bits of a System Parameters Message (7.7.2.3.2.1): where fields that are drawn begin, and how wide they are.
SYSTEM_BITS = 226
SYSTEM_PLACES = {"pn": (8, 9), "sid": (23, 15), "nid": (38, 16), "base": (74, 16), "windows": (169, 12)}
SYSTEM_TYPE, NEIGHBORS_TYPE = 1, 3
# SRCH_WIN_A, _N and _R of 60, 130 and 160 chips (6.6.6.2.1).
WINDOWS = (8, 11, 12)
PILOT_INC = 1


@dataclass(frozen=True)
class DrawnCell:
    """A cell: its offset, its identity, the gains of its channels, and the cells that it names."""

    pn: int
    sid: int
    nid: int
    base: int
    pilot: int
    sync: int
    paging: int
    traffic: int
    neighbors: tuple[int, ...] = ()
    seed: int = 1

    @property
    def power(self) -> int:
        """The power of a chip in units of a gain's square."""
        return self.pilot**2 + self.sync**2 + self.paging**2 + self.traffic**2

    def script(self, samples: int) -> str:
        """Returns its script for `samples` samples, with pages that repeat."""
        draws = random.Random(self.seed)
        count = samples // 24_576 + 2
        frames = [f"frame 9600 172:{draws.randrange(1 << 171) << 4:044x} {'01' * 8}" for _ in range(count)]
        return "\n".join([
            f"cell pn={self.pn} time={draws.randrange(1 << 30)} lc={draws.randrange(1, 1 << 42):011x} checks=0",
            f"link re=1 im=0 start=0 samples={samples}",
            f"pilot gain={self.pilot}",
            f"sync gain={self.sync} prev=3 min=1 sid={self.sid} nid={self.nid} lp=13 ltm=0 daylt=0 prat=0 rest=3:00",
            f"paging channel=1 gain={self.paging}",
            f"page half {SYSTEM_BITS}:{hexadecimal(self.system())}",
            f"page half {len(self.named())}:{hexadecimal(self.named())}",
            f"traffic row=20 esn=00c0ffee offset=0 gain={self.traffic}",
            *frames, "",
        ])  # fmt: skip

    def system(self) -> str:
        """Returns the bits of its System Parameters Message; fields that are not drawn are 0."""
        bits = [*f"{SYSTEM_TYPE:08b}", *"0" * (SYSTEM_BITS - 8)]
        windows = int("".join(f"{value:04b}" for value in WINDOWS), 2)
        values = {"pn": self.pn, "sid": self.sid, "nid": self.nid, "base": self.base, "windows": windows}
        for name, (place, width) in SYSTEM_PLACES.items():
            bits[place : place + width] = f"{values[name]:0{width}b}"
        return "".join(bits)

    def named(self) -> str:
        """Returns the bits of its Neighbor List Message (7.7.2.3.2.3)."""
        head = f"{NEIGHBORS_TYPE:08b}{self.pn:09b}{0:06b}{PILOT_INC:04b}"
        bits = head + "".join(f"{0:03b}{pn:09b}" for pn in self.neighbors)
        return bits + "0" * ((2 - len(bits)) % 8)  # a body has 8 L - 38 bits (7.7.2.1)

    def write(self, path: str, samples: int) -> str:
        """Writes its sample file by the program, and returns the path."""
        with open(path, "wb") as file:
            script = self.script(samples).encode("ascii")
            subprocess.run([str(PROGRAM), "make"], input=script, stdout=file, check=True)
        return path


def hexadecimal(bits: str) -> str:
    """Returns bits as hex digits, padded with zeros to a whole byte."""
    padded = bits + "0" * (-len(bits) % 8)
    return f"{int(padded, 2):0{len(padded) // 4}x}"


def drawn_cell(draws: random.Random, pn: int, neighbors: tuple[int, ...]) -> DrawnCell:
    """Returns a cell with an offset and a drawn identity and gains; its pilot has -1.5 to -5 dB of its power."""
    return DrawnCell(
        pn=pn, sid=draws.randrange(1, 1 << 15), nid=draws.randrange(1, 1 << 16), base=draws.randrange(1, 1 << 16),
        pilot=100, sync=draws.randrange(28, 45), paging=draws.randrange(45, 90), traffic=draws.randrange(30, 90),
        neighbors=neighbors, seed=draws.randrange(1 << 30),
    )  # fmt: skip
